// A simulated exchange. It has a list of its own, which neither a kill nor a power cut of the gateway touches: a file
// in which each line is one thing that happened. It fills open orders by a seed.
#pragma once

#include <algorithm>
#include <fstream>
#include <map>
#include <random>
#include <sstream>
#include <stdexcept>
#include <vector>

class Exchange {
  public:
    enum Status { OPEN = '0', FILLED = '2', CANCELED = '4', REPLACED = '5' }; // as FIX's OrdStatus
    struct Entry {
        uint64_t ordered, filled;
        Status status;
        std::string price, successor; // the order that took its place, of a replaced one
    };

    Exchange(const std::string &path, unsigned seed) : chance(seed) {
        std::ifstream file(path);
        for (std::string line; std::getline(file, line);)
            happened(line);
        list.open(path, std::ios::app);
    }

    // An order comes in. One that came before is refused, and noted: the gateway must never send one twice.
    bool take(const std::string &id, uint64_t quantity, const std::string &price) {
        const bool is_new = !entries.count(id);
        note((is_new ? "new " : "twice ") + id + ' ' + std::to_string(quantity) + ' ' + price);
        return is_new;
    }
    bool cancel(const std::string &id) {
        const bool is_done = is_open(id);
        if (is_done)
            note("cancel " + id);
        return is_done;
    }
    bool replace(const std::string &id, const std::string &next, uint64_t quantity, const std::string &price) {
        if (!is_open(id) || entries.count(next) || quantity <= entries[id].filled)
            return false;
        note("replace " + id + ' ' + next + ' ' + std::to_string(quantity) + ' ' + price);
        return true;
    }
    // The status of an order, null where it never came in.
    const Entry *status(const std::string &id) const {
        const auto found = entries.find(id);
        return found == entries.end() ? nullptr : &found->second;
    }
    // Perhaps fills some order in part or in full.
    bool trade(std::string &id, uint64_t &quantity) {
        if (open.empty() || chance() % 2)
            return false;
        id = open[chance() % open.size()];
        const Entry &entry = entries[id];
        const uint64_t left = entry.ordered - entry.filled;
        quantity = chance() % 3 ? 1 + chance() % left : left;
        note("fill " + id + ' ' + std::to_string(quantity));
        return true;
    }

  private:
    bool is_open(const std::string &id) const {
        const Entry *entry = status(id);
        return entry && entry->status == OPEN;
    }
    void note(const std::string &line) {
        if (!(list << line << std::endl))
            throw std::runtime_error("the exchange's list cannot be written");
        happened(line);
    }
    void happened(const std::string &line) {
        std::istringstream words(line);
        std::string what, id, next, price;
        uint64_t quantity = 0;
        words >> what >> id;
        if (what == "replace")
            words >> next;
        words >> quantity >> price;
        if (what == "new" || what == "replace") {
            const uint64_t filled = what == "new" ? 0 : entries[id].filled;
            entries[what == "new" ? id : next] = {quantity, filled, OPEN, price, ""};
            open.push_back(what == "new" ? id : next);
        }
        Entry &entry = entries[id];
        if (what == "fill")
            entry.filled += quantity;
        entry.successor = next;
        if (what == "replace" || what == "cancel" || (what == "fill" && entry.filled == entry.ordered)) {
            entry.status = what == "replace" ? REPLACED : what == "cancel" ? CANCELED : FILLED;
            open.erase(std::find(open.begin(), open.end(), id));
        }
    }
    std::ofstream list;
    std::mt19937 chance;
    std::map<std::string, Entry> entries;
    std::vector<std::string> open;
};
