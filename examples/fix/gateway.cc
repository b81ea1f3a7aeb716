// An order gateway that speaks FIX 4.4: an acceptor of QuickFIX over the order set. docs/FIX.md says what it keeps.
//
//     gateway FOLDER CONFIGURATION [SEED]     serves until it is ended; the configuration is QuickFIX's: gateway.cfg
//     gateway FOLDER                          prints the open orders: ClOrdID, ordered, filled
//
// It takes NewOrderSingle, NewOrderList, OrderCancelRequest, OrderCancelReplaceRequest and OrderStatusRequest, and
// answers ExecutionReports and OrderCancelRejects. An example, tested and not proved.
#include <csignal>
#include <iostream>
#include <quickfix/SocketAcceptor.h>

#include "exchange.hpp"
#include "orders.hpp"
#include "session.hpp"

class Gateway : public Application {
  public:
    Gateway(const std::string &folder, unsigned seed) : orders(folder), exchange(folder + "/exchange.list", seed) {}

    // After a restart the set has every order that can be at the exchange. What became of each is asked, not guessed.
    void restart() {
        orders.sweep();
        for (const Order &order : orders.all())
            settle(order);
    }
    void received(const FIX::Message &message, const std::string &type) override {
        const bool again = text_of(message.getHeader(), tag::PossDupFlag) == "Y";
        const std::string id = text_of(message, tag::ClOrdID), orig = text_of(message, tag::OrigClOrdID);
        std::vector<Order> list;
        FIX::Group group(tag::NoOrders, tag::ClOrdID);
        for (size_t i = 1; i <= message.groupCount(tag::NoOrders); i++)
            list.push_back(order_of(message.getGroup((unsigned)i, group)));
        if (type == "H")
            return tell_status(id); // a question moves no market
        if (type == "D")
            enter({order_of(message)}, again);
        else if (type == "E")
            enter(list, again);
        else if (type == "F")
            cancel(orig, id, again);
        else if (type == "G")
            replace(orig, order_of(message), again);
        else
            throw FIX::UnsupportedMessageType();
        trade();
    }

  private:
    static Order order_of(const FIX::FieldMap &message) {
        const std::string quantity = text_of(message, tag::OrderQty);
        const bool is_number = quantity.size() < 19 && quantity.find_first_not_of("0123456789") == std::string::npos;
        const std::string side = text_of(message, tag::Side), type = text_of(message, tag::OrdType);
        const uint64_t ordered = is_number && !quantity.empty() ? std::stoull(quantity) : 0;
        return {text_of(message, tag::ClOrdID),
                text_of(message, tag::Symbol),
                text_of(message, tag::Price),
                side[0],
                type[0],
                ORDERSET_SENT,
                ordered,
                0};
    }

    // ---- what a client asks for. Sent again by the session, what was carried out before has its status as the answer

    bool is_known(const std::string &id) const {
        Order held;
        return orders.find(id, held) || exchange.status(id);
    }
    // New orders, all or none: first durable in the set, then sent, then acknowledged in the set, then told.
    void enter(const std::vector<Order> &list, bool again) {
        std::vector<Order> fresh;
        for (const Order &order : list) {
            if (list.size() > ORDERSET_BASKET_MAX || !order.fits())
                return refuse(list, "not a ClOrdID, symbol, price or quantity that is taken here");
            if (again && is_known(order.id))
                tell_status(order.id);
            else
                fresh.push_back(order);
        }
        if (fresh.empty())
            return;
        if (const uint32_t number = orders.add(fresh))
            return refuse(fresh, orderset_strerror(number));
        for (const Order &order : fresh)
            send_on(order);
    }
    void send_on(const Order &order) {
        if (exchange.take(order.id, order.ordered, order.price))
            return acknowledged(order);
        orders.drop(order);
        refuse({order}, "the exchange had an order of this ClOrdID");
    }
    void acknowledged(const Order &order) {
        orders.acknowledge(order);
        report(order, '0', order.filled ? '1' : '0');
    }
    void cancel(const std::string &id, const std::string &request, bool again) {
        Order order;
        if (!orders.find(id, order) || !exchange.cancel(id))
            return again && is_known(id) ? tell_status(id) : reject(id, request, "1");
        orders.drop(order);
        report(order, '4', '4', request, id);
    }
    void replace(const std::string &id, const Order &next, bool again) {
        Order old;
        if (again && is_known(next.id))
            return tell_status(next.id);
        if (!orders.find(id, old) || !next.fits() || is_known(next.id)
            || !exchange.replace(id, next.id, next.ordered, next.price))
            return reject(id, next.id, "2");
        replaced(old, next);
    }
    void replaced(const Order &old, Order next) {
        next.state = ORDERSET_ACKNOWLEDGED;
        next.filled = old.filled;
        orders.replace(old, next);
        report(next, '5', next.filled ? '1' : '0', next.id, old.id);
    }
    void tell_status(const std::string &id) {
        Order order;
        const Exchange::Entry *entry = exchange.status(id);
        if (orders.find(id, order))
            return report(order, 'I', order.filled ? '1' : '0');
        const char status = entry ? (char)entry->status : '8'; // it never came there
        report({id, "-", "", '1', '2', 0, entry ? entry->ordered : 0, entry ? entry->filled : 0}, 'I', status);
    }

    void trade() {
        std::string id;
        uint64_t quantity;
        Order order;
        if (exchange.trade(id, quantity) && orders.find(id, order))
            filled(order, quantity);
    }
    void filled(Order &order, uint64_t quantity) {
        orders.fill(order, quantity);
        order.filled += quantity;
        report(order, 'F', order.filled == order.ordered ? '2' : '1');
    }
    // The exchange's word on an order that the set has.
    void settle(Order order) {
        const Exchange::Entry *entry = exchange.status(order.id);
        if (!entry)
            return send_on(order); // it was not sent
        if (order.state == ORDERSET_SENT)
            acknowledged(order);
        if (entry->filled > order.filled)
            filled(order, entry->filled - order.filled);
        if (entry->status == Exchange::CANCELED) {
            orders.drop(order);
            report(order, '4', '4', order.id, order.id);
        } else if (entry->status == Exchange::REPLACED) {
            const Exchange::Entry &next = *exchange.status(entry->successor);
            replaced(order, {entry->successor, order.symbol, next.price, order.side, order.type, 0, next.ordered, 0});
        }
    }

    // A message is kept in the log, durable, before it is sent.
    void refuse(const std::vector<Order> &list, const std::string &why) {
        for (const Order &order : list)
            report(order, '8', '8', order.id, "", why);
    }
    void report(const Order &order, char what, char status, const std::string &id = "", const std::string &orig = "",
                const std::string &text = "") {
        const uint64_t left = status == '0' || status == '1' ? order.ordered - order.filled : 0;
        FIX::Message message = message_of("8", {{tag::ClOrdID, id.empty() ? order.id : id}, {tag::OrigClOrdID, orig}});
        with(message, {{tag::OrderID, order.id}, {tag::ExecID, std::to_string(orders.next_message())}});
        with(message, {{tag::ExecType, {what}}, {tag::OrdStatus, {status}}, {tag::AvgPx, "0"}, {tag::Text, text}});
        with(message, {{tag::Symbol, order.symbol}, {tag::Side, {order.side}}, {tag::LeavesQty, std::to_string(left)}});
        with(message, {{tag::OrderQty, std::to_string(order.ordered)}, {tag::CumQty, std::to_string(order.filled)}});
        tell(message);
    }
    void reject(const std::string &id, const std::string &request, const std::string &to) {
        FIX::Message message = message_of("9", {{tag::OrderID, id}, {tag::ClOrdID, request}, {tag::OrigClOrdID, id}});
        tell(with(message, {{tag::OrdStatus, "8"}, {tag::CxlRejResponseTo, to}, {tag::Text, "no such open order"}}));
    }
    void tell(FIX::Message message) {
        orders.keep(message.toString().substr(0, ORDERSET_LOG_MESSAGE_MAX));
        FIX::Session::sendToTarget(message, FIX::SessionID("FIX.4.4", "GATEWAY", "CLIENT"));
    }
    Orders orders;
    Exchange exchange;
};

static volatile std::sig_atomic_t ended;

int main(int count, char **word) try {
    if (count < 2)
        throw std::runtime_error("usage: gateway FOLDER [CONFIGURATION [SEED]]");
    if (count == 2) {
        for (const Order &order : Orders(word[1]).all())
            std::cout << order.id << ' ' << order.ordered << ' ' << order.filled << '\n';
        return 0;
    }
    std::signal(SIGTERM, [](int) { ended = 1; });
    const FIX::SessionSettings settings(word[2]);
    FIX::FileStoreFactory store(settings);
    Gateway gateway(word[1], count > 3 ? (unsigned)std::stoul(word[3]) : 1);
    FIX::SocketAcceptor acceptor(gateway, store, settings);
    gateway.restart();
    while (!ended)
        acceptor.poll(0.01);
    return 0;
} catch (const std::exception &error) {
    std::cerr << "gateway: " << error.what() << '\n';
    return 1;
}
