// The open orders of the FIX gateway, in a set of layout 2, and the messages that it sent, in a log. C++14 over the C
// header: QuickFIX's headers do not compile as C++17. What a function here changed is durable when it returns.
#pragma once

#include <cstdlib>
#include <cstring>
#include <iostream>
#include <string>
#include <vector>

#include "orderset.h"

// A ClOrdID has 1 to 20 of these 63 characters. Its key is its number in base 64, the digits being 1 to 63 and the last
// character the lowest digit: 120 bits. No digit is 0, so two texts never have one key, whatever their lengths. The
// characters that vary most from order to order, the last ones, are in the low word, which chooses the chain.
static const char characters[] = "0123456789ABCDEFGHIJKLMNOPQRSTUVWXYZabcdefghijklmnopqrstuvwxyz-";
static const uint64_t details_bit = 1ull << 63; // of the high word: the key of the order's details

inline bool key_of(const std::string &id, orderset_key &key) {
    key = {0, 0};
    if (id.empty() || id.size() > 20)
        return false;
    for (char c : id) {
        const char *found = c ? std::strchr(characters, c) : nullptr;
        if (!found)
            return false;
        key.high = key.high << 6 | key.low >> 58;
        key.low = key.low << 6 | (uint64_t)(found - characters + 1);
    }
    return true;
}

inline std::string id_of(orderset_key key) {
    std::string id;
    for (; key.low || key.high; key.low = key.low >> 6 | key.high << 58, key.high >>= 6)
        id.insert(id.begin(), characters[key.low % 64 - 1]);
    return id;
}

struct Order {
    std::string id, symbol, price; // the price as it came: no number is rounded
    char side, type;
    uint64_t state, ordered, filled;

    std::string record() const {
        const uint64_t words[] = {state, ordered, filled};
        return std::string((const char *)words, sizeof words);
    }
    std::string details() const { return std::string{side, type} + price + ' ' + symbol; }
    bool fits() const {
        orderset_key key;
        return key_of(id, key) && ordered > 0 && !symbol.empty() && details().size() <= ORDERSET_VALUE_MAX_2;
    }
};

class Orders {
  public:
    explicit Orders(const std::string &folder) {
        const std::string file = folder + "/orders.img", messages = folder + "/messages.log";
        check(orderset_create(file.c_str(), 8191, 2), "create", ORDERSET_FILE_EXISTS);
        check(orderset_log_create(messages.c_str(), 1000), "create log", ORDERSET_FILE_EXISTS);
        check(orderset_open(file.c_str(), ORDERSET_WRITE, &set), "open");
        check(orderset_log_open(messages.c_str(), ORDERSET_WRITE, &log), "open log");
    }
    ~Orders() { orderset_close(set), orderset_log_close(log); }
    Orders(const Orders &) = delete;

    bool find(const std::string &id, Order &order) const {
        orderset_key key;
        return key_of(id, key) && read(key, order);
    }
    // Takes up to eight new orders, all or none: 0, or the refusal. One order and its details are one basket. Several
    // orders would have too many keys for one, so their details come first, in a basket of their own: an order is open
    // only by its own record, and details without one are swept away.
    uint32_t add(const std::vector<Order> &orders) {
        Basket first, second, &records = orders.size() == 1 ? first : second;
        for (const Order &order : orders) {
            first.put(ORDERSET_INSERT, key(order, details_bit), order.details());
            records.put(ORDERSET_INSERT, key(order), order.record());
        }
        uint32_t number = made(first);
        if (!number && orders.size() > 1 && (number = made(second)))
            sweep();
        return number;
    }
    void acknowledge(const Order &order) {
        check(orderset_book_acknowledge(set, key(order)), "acknowledge", ORDERSET_ALREADY_ACKNOWLEDGED);
    }
    // A fill that leaves nothing open takes the order and its details away together.
    void fill(const Order &order, uint64_t quantity) {
        if (order.filled + quantity == order.ordered)
            drop(order);
        else
            check(orderset_book_fill(set, key(order), quantity), "fill");
    }
    void drop(const Order &order) { check(made(removal(order)), "remove"); }

    // The old order away and the new one in, all or none.
    void replace(const Order &old, const Order &next) {
        Basket basket = removal(old);
        basket.put(ORDERSET_INSERT, key(next), next.record());
        basket.put(ORDERSET_INSERT, key(next, details_bit), next.details());
        check(made(basket), "replace");
    }
    std::vector<Order> all() const {
        std::vector<Order> orders;
        Order order;
        for (const orderset_key &key : keys())
            if (!(key.high & details_bit)) {
                check(read(key, order) ? 0 : ORDERSET_NOT_FOUND, "an order's details");
                orders.push_back(order);
            }
        return orders;
    }
    // Details whose order is not there: a cut or a kill struck a list between its two baskets.
    void sweep() {
        Order order;
        for (const orderset_key &key : keys())
            if (key.high & details_bit && !read({key.low, key.high ^ details_bit}, order))
                check(orderset_remove(set, key), "sweep");
    }
    // The number that the next message will have, and the message kept.
    uint64_t next_message() const {
        uint64_t first, last;
        check(orderset_log_range(log, &first, &last), "log");
        return last + 1;
    }
    void keep(const std::string &message) {
        check(orderset_log_append(log, message.data(), message.size(), nullptr), "append");
    }

  private:
    struct Basket {
        std::vector<orderset_item> items;
        std::vector<std::string> values;
        void put(uint32_t kind, orderset_key key, const std::string &value = "") {
            items.push_back({kind, key, nullptr, value.size()});
            values.push_back(value);
        }
    };

    static orderset_key key(const Order &order, uint64_t bit = 0) {
        orderset_key key;
        key_of(order.id, key); // it fits
        return {key.low, key.high | bit};
    }
    static Basket removal(const Order &order) {
        Basket basket;
        basket.put(ORDERSET_REMOVE, key(order));
        basket.put(ORDERSET_REMOVE, key(order, details_bit));
        return basket;
    }
    uint32_t made(Basket basket) {
        for (size_t i = 0; i < basket.items.size(); i++)
            basket.items[i].value = basket.values[i].data();
        const uint32_t number = orderset_basket(set, basket.items.data(), basket.items.size());
        check(number < ORDERSET_ERRNO ? 0 : number, "basket");
        return number;
    }
    bool read(orderset_key key, Order &order) const {
        char value[ORDERSET_VALUE_MAX];
        size_t length;
        orderset_order found;
        if (orderset_get(set, key, value, sizeof value, &length) || !orderset_order_of(value, length, &found)
            || orderset_get(set, {key.low, key.high | details_bit}, value, sizeof value, &length))
            return false;
        const std::string text(value, length), price = text.substr(2, text.find(' ') - 2);
        order = {id_of(key),  text.substr(text.find(' ') + 1), price, text[0], text[1], found.state, found.ordered,
                 found.filled};
        return true;
    }
    std::vector<orderset_key> keys() const {
        std::vector<orderset_key> keys;
        orderset_record record = {};
        uint32_t number;
        while ((number = orderset_next(set, &record)) == 0)
            keys.push_back(record.key);
        check(number, "orders", ORDERSET_END);
        return keys;
    }
    // What should not be, and a failed sync, end the program: what is durable then, only a restart tells.
    static void check(uint32_t number, const char *what, uint32_t well = 0) {
        if (!number || number == well)
            return;
        std::cerr << "gateway: " << what << ": " << orderset_strerror(number) << '\n';
        std::_Exit(1);
    }
    orderset *set = nullptr;
    orderset_log *log = nullptr;
};
