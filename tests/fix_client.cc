// The client of the test `fix`: an initiator of QuickFIX that enters orders, alone and in lists, cancels and replaces
// them, and asks for the status of each that it takes to be open whenever it is logged on anew.
//
//     fix_client CONFIGURATION SEED ORDERS     prints what it was told: ClOrdID, ordered, filled, status
#include <iostream>
#include <random>
#include <set>
#include <vector>
#include <quickfix/SocketInitiator.h>

#include "../examples/fix/session.hpp"

// p: sent and not answered; o: open; f, c, r: filled, canceled, replaced; x: rejected, or it never came there
struct Seen {
    uint64_t ordered, filled;
    char status;
    std::string text() const { return std::to_string(ordered) + ' ' + std::to_string(filled) + ' ' + status; }
};

class Client : public Application {
  public:
    explicit Client(unsigned seed) : chance(seed) {}

    void onLogon(const FIX::SessionID &id) override {
        FIX::Session::lookupSession(id)->setResetOnLogon(false);
        logged_on = true;
        ask_all();
    }
    void onLogout(const FIX::SessionID &) override {
        logged_on = false;
        asked.clear();
    }
    // The gateway lost the numbers of its session at a power cut: both sides begin again at 1.
    void toAdmin(FIX::Message &message, const FIX::SessionID &id) override {
        if (text_of(message, tag::Text).find("MsgSeqNum too low") != std::string::npos)
            FIX::Session::lookupSession(id)->setResetOnLogon(true);
    }
    void received(const FIX::Message &message, const std::string &type) override {
        const std::string id = text_of(message, tag::ClOrdID), orig = text_of(message, tag::OrigClOrdID);
        if (type == "9") // of a replacement, which is no order then; or of a cancel, which never was one
            return orders.count(id) ? told(id, 'x', 0, 0) : void();
        const char what = text_of(message, tag::ExecType)[0], status = text_of(message, tag::OrdStatus)[0];
        const uint64_t ordered = std::stoull(text_of(message, tag::OrderQty));
        const uint64_t filled = std::stoull(text_of(message, tag::CumQty));
        const char now = status == '2' ? 'f' : status == '4' ? 'c' : status == '5' ? 'r' : status == '8' ? 'x' : 'o';
        told(what == '4' ? orig : id, now, ordered, filled);
        if (what == '5')
            told(orig, 'r', 0, 0);
        if (what == 'I')
            asked.erase(id);
    }
    // Something at random, unless too much is not answered yet.
    void step() {
        if (!logged_on || waiting() > 30)
            return;
        const unsigned kind = chance() % 8;
        std::vector<std::string> open;
        for (const auto &order : orders)
            if (order.second.status == 'o')
                open.push_back(order.first);
        const std::string id = open.empty() ? "" : open[chance() % open.size()];
        if (kind < 3 || open.empty())
            send(fresh(order_message("D", new_id())));
        else if (kind == 3)
            enter_list(2 + chance() % 7);
        else if (kind < 6)
            send(order_message("F", new_id(), id));
        else
            send(fresh(order_message("G", new_id(), id)));
    }
    void ask_all() {
        for (const auto &order : orders)
            if (logged_on && (order.second.status == 'p' || order.second.status == 'o')) {
                asked.insert(order.first);
                send(order_message("H", order.first));
            }
    }
    bool is_settled() const { return logged_on && asked.empty() && !waiting(); }

    unsigned entered = 0;
    std::map<std::string, Seen> orders;
    std::string wrong;

  private:
    size_t waiting() const {
        size_t count = 0;
        for (const auto &order : orders)
            count += order.second.status == 'p';
        return count;
    }
    // What is at its end stays so, and fills are not taken back.
    void told(const std::string &id, char status, uint64_t ordered, uint64_t filled) {
        Seen &seen = orders[id];
        const bool was_final = seen.status && seen.status != 'p' && seen.status != 'o';
        if ((was_final && status != seen.status) || (status == 'o' && filled < seen.filled))
            wrong += id + " was " + seen.status + " and is now " + status + "\n";
        seen = status == 'r' && !ordered ? Seen{seen.ordered, seen.filled, 'r'} : Seen{ordered, filled, status};
    }
    std::string new_id() { return "Desk-7-20261118-" + std::to_string(++ids); }

    // A new order: alone, in a list, or in the place of another.
    template <class Message>
    Message &fresh(Message &&message) {
        const uint64_t quantity = 1 + chance() % 500;
        orders[message.getField(tag::ClOrdID)] = {quantity, 0, 'p'};
        entered++;
        with(message, {{tag::OrderQty, std::to_string(quantity)}, {tag::OrdType, "2"}, {tag::Price, "101.25"}});
        return with(message, {{tag::Side, "1"}, {tag::Symbol, "ACME"}});
    }
    void enter_list(unsigned many) {
        FIX::Message list = message_of("E", {{tag::ListID, std::to_string(ids)}, {tag::BidType, "3"}});
        list.setField(tag::TotNoOrders, std::to_string(many));
        for (unsigned i = 1; i <= many; i++) {
            FIX::Group group(tag::NoOrders, tag::ClOrdID);
            list.addGroup(fresh(with(group, {{tag::ClOrdID, new_id()}, {tag::ListSeqNo, std::to_string(i)}})));
        }
        send(list);
    }
    static FIX::Message order_message(const std::string &type, const std::string &id, const std::string &orig = "") {
        FIX::Message message = message_of(type, {{tag::ClOrdID, id}, {tag::OrigClOrdID, orig}, {tag::Side, "1"}});
        if (type != "H")
            message.setField(FIX::TransactTime());
        return with(message, {{tag::Symbol, "ACME"}});
    }
    void send(FIX::Message message) {
        FIX::Session::sendToTarget(message, FIX::SessionID("FIX.4.4", "CLIENT", "GATEWAY"));
    }
    std::mt19937 chance;
    bool logged_on = false;
    unsigned ids = 0;
    std::set<std::string> asked;
};

int main(int count, char **word) try {
    if (count != 4)
        return 2;
    const FIX::SessionSettings settings(word[1]);
    FIX::FileStoreFactory store(settings);
    Client client((unsigned)std::stoul(word[2]));
    FIX::SocketInitiator initiator(client, store, settings);
    for (; client.entered < std::stoul(word[3]); client.step())
        initiator.poll(0.001);
    std::cerr << "entered\n"; // from here on nobody ends the gateway
    const time_t start = time(nullptr);
    for (time_t asked = start; !client.is_settled() || asked == start;) {
        if (time(nullptr) > start + 30)
            throw std::runtime_error("not all orders were answered");
        if (time(nullptr) > asked + 3) {
            asked = time(nullptr);
            client.ask_all();
        }
        initiator.poll(0.01);
    }
    for (const auto &order : client.orders)
        std::cout << order.first << ' ' << order.second.text() << '\n';
    std::cerr << client.wrong;
    return client.wrong.empty() ? 0 : 1;
} catch (const std::exception &error) {
    std::cerr << "fix_client: " << error.what() << '\n';
    return 1;
}
