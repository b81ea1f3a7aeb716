// orderset.hpp: random calls on files of both layouts against std::map, with restarts, and of the log against
// std::vector; then what is refused by the files, the locks and the modes, and after a sync that fails. Built for C++17
// and C++20, and without exceptions.
//     file NAME PATH [SEED]    NAME is for its line; PATH is made anew
#include <cinttypes>
#include <cstdarg>
#include <cstdio>
#include <cstdlib>
#include <map>
#include <set>
#include <string>
#include <vector>

#include <sys/mman.h>
#include <sys/syscall.h>
#include <unistd.h>

#include "orderset.hpp"

extern "C" {
#include "chance.h"
}

// msync in the place of the system's: it can be made to fail.
static bool failing;
extern "C" int msync(void *address, size_t length, int flags) {
    if (failing) {
        errno = EIO;
        return -1;
    }
    return static_cast<int>(syscall(SYS_msync, address, length, flags));
}

namespace {

using order_set::key;
using order_set::mode;
using text = std::vector<std::uint8_t>;

const int FILES = 6, CALLS = 60, LOGS = 3, APPENDS = 40;
std::string path;
std::uint64_t calls, restarts;

[[gnu::format(printf, 2, 3)]] void expect(bool so, const char *what, ...) {
    if (so)
        return;
    va_list list;
    va_start(list, what);
    std::printf("NOT SO: ");
    std::vprintf(what, list);
    std::printf("\n");
    va_end(list);
    std::exit(1);
}

void same_number(const order_set::result &got, std::uint32_t due, const char *call) {
    calls++;
    expect(got == due, "%s gives %u: %u, %s", call, due, got.number(), got.text());
    expect(bool(got) == (due == 0) && got.is_error() == (due != 0 && (due < 1000 || due > 1002)),
           "%s: %u is done, an answer or an error", call, due);
}

template <class Bytes>
bool same_bytes(const Bytes &got, const text &due) {
    return text(got.begin(), got.end()) == due;
}

text some_bytes(std::size_t length) {
    text made(length);
    fill(made.data(), length);
    return made;
}

// ---- the plain map

struct plain {
    std::uint32_t slots, layout;
    std::map<key, text> map;

    bool holds(key k) const { return map.count(k) != 0; }
    bool too_wide(key k) const { return layout == 1 && k.high; }
    std::size_t most() const { return layout == 1 ? 80 : 72; }
    bool has_room() const { return map.size() + 1 < slots; }
};

// An order as the papers have it: state, ordered and filled, a word each, low byte first.
struct plain_order {
    std::uint64_t word[3] = {};

    bool read(const plain &p, key k) {
        auto found = p.map.find(k);
        if (found == p.map.end() || found->second.size() != sizeof word)
            return false;
        std::memcpy(word, found->second.data(), sizeof word);
        return (word[0] == 1 || word[0] == 2) && word[2] < word[1];
    }
    text bytes() const {
        text made(sizeof word);
        std::memcpy(made.data(), word, sizeof word);
        return made;
    }
};

key some_key(const plain &p) {
    return {below(12) * 1000, p.layout == 2 ? below(3) : below(40) == 0};
}

text some_value(const plain &p) {
    return some_bytes(below(30) == 0 ? p.most() + 1 : below(6) == 0 ? p.most() : below(p.most() + 1));
}

// ---- calls, each with the number that the plain map gives it

void write(order_set::set &set, plain &p, key k, bool insert) {
    const text value = some_value(p);
    const std::uint32_t due = p.too_wide(k)             ? ORDERSET_KEY_TOO_WIDE
                              : value.size() > p.most() ? 10
                              : insert && p.holds(k)    ? 20
                              : !insert && !p.holds(k)  ? 21
                              : insert && !p.has_room() ? 28
                                                        : 0;
    same_number(insert ? set.insert(k, value) : set.replace(k, value), due, insert ? "insert" : "replace");
    if (!due)
        p.map[k] = value;
}

void remove(order_set::set &set, plain &p, key k) {
    const std::uint32_t due = p.too_wide(k) ? ORDERSET_KEY_TOO_WIDE : p.holds(k) ? 0 : ORDERSET_NOT_FOUND;
    same_number(set.remove(k), due, "remove");
    if (!due)
        p.map.erase(k);
}

void new_order(order_set::set &set, plain &p, key k) {
    plain_order o = {{1, below(5), 0}};
    const std::uint32_t due = p.too_wide(k)    ? ORDERSET_KEY_TOO_WIDE
                              : p.holds(k)     ? 17
                              : o.word[1] == 0 ? 19
                              : !p.has_room()  ? 28
                                               : 0;
    same_number(set.book_new(k, o.word[1]), due, "book_new");
    if (!due)
        p.map[k] = o.bytes();
}

void acknowledge(order_set::set &set, plain &p, key k) {
    plain_order o;
    const bool is_order = o.read(p, k);
    const std::uint32_t due = p.too_wide(k)    ? ORDERSET_KEY_TOO_WIDE
                              : !is_order      ? 18
                              : o.word[0] == 2 ? ORDERSET_ALREADY_ACKNOWLEDGED
                                               : 0;
    same_number(set.book_acknowledge(k), due, "book_acknowledge");
    o.word[0] = 2;
    if (!due)
        p.map[k] = o.bytes();
}

void fill_order(order_set::set &set, plain &p, key k) {
    plain_order o;
    const bool is_order = o.read(p, k);
    const std::uint64_t quantity = below(4), open = o.word[1] - o.word[2];
    const std::uint32_t due = p.too_wide(k)                  ? ORDERSET_KEY_TOO_WIDE
                              : !is_order                    ? 18
                              : !quantity || quantity > open ? 19
                                                             : 0;
    same_number(set.book_fill(k, quantity), due, "book_fill");
    o.word[2] += quantity;
    if (!due && quantity < open)
        p.map[k] = o.bytes();
    else if (!due)
        p.map.erase(k);
}

void withdraw(order_set::set &set, plain &p, key k) {
    plain_order o;
    const bool is_order = o.read(p, k);
    const std::uint32_t due = p.too_wide(k) ? ORDERSET_KEY_TOO_WIDE : is_order ? 0 : 18;
    same_number(set.book_withdraw(k), due, "book_withdraw");
    if (!due)
        p.map.erase(k);
}

std::uint32_t basket_due(const plain &p, const std::vector<order_set::item> &items) {
    std::set<key> seen;
    std::uint32_t wide = 0, kind = 0, twice = 0, longer = 0, held = 0, fresh = 0;
    if (items.empty() || items.size() > 8)
        return 26;
    for (const order_set::item &i : items) {
        const bool insert = i.kind == ORDERSET_INSERT;
        wide |= p.too_wide(i.key);
        kind |= i.kind > 3;
        twice |= !seen.insert(i.key).second;
        longer |= i.kind != ORDERSET_REMOVE && i.value.size() > p.most();
        if (!held && insert == p.holds(i.key))
            held = insert ? 20 : 21;
        fresh += insert;
    }
    return wide                              ? std::uint32_t(ORDERSET_KEY_TOO_WIDE)
           : kind                            ? 26
           : twice                           ? 27
           : longer                          ? 10
           : held                            ? held
           : p.map.size() + fresh >= p.slots ? 28
                                             : 0;
}

void basket(order_set::set &set, plain &p) {
    const std::size_t count = below(20) == 0 ? below(10) : 1 + below(8);
    std::vector<text> values;
    std::vector<order_set::item> items;
    values.reserve(count);
    for (std::size_t i = 0; i < count; i++) {
        const key k = below(8) ? key(1 + i) : some_key(p);
        values.push_back(below(30) ? some_bytes(below(p.most() + 1)) : some_value(p));
        const bool usual = below(12) != 0;
        if (p.holds(k) == usual && below(2))
            items.push_back(order_set::item::remove(k));
        else if (p.holds(k) == usual)
            items.push_back(order_set::item::replace(k, values.back()));
        else
            items.push_back(order_set::item::insert(k, values.back()));
        items.back().kind = below(100) ? items.back().kind : 4;
    }
    std::uint32_t due = basket_due(p, items);
    const auto got = set.basket(items);
    if (got == 28 && !due && p.slots < 64) // some spare slots may not be taken
        due = 28;
    same_number(got, due, "basket");
    for (std::size_t i = 0; i < count && !due; i++)
        if (items[i].kind == ORDERSET_REMOVE)
            p.map.erase(items[i].key);
        else
            p.map[items[i].key] = values[i];
}

void look(const order_set::set &set, const plain &p, key k) {
    const auto got = set.get(k);
    const auto found = set.locate(k);
    const std::uint32_t due = p.too_wide(k) ? ORDERSET_KEY_TOO_WIDE : p.holds(k) ? 0 : ORDERSET_NOT_FOUND;
    same_number(got, due, "get");
    same_number(found, due, "locate");
    expect(p.too_wide(k)
               || (set.compared() == set.statistics().compared && set.compared() <= p.map.size()
                   && (due || set.compared())),
           "locate compares %u slots of %zu keys", set.compared(), p.map.size());
    expect(got.has_value() == p.holds(k) && same_bytes(*got, due ? text() : p.map.at(k)), "get gives the value");
    if (due) {
        expect(found->slot == 0 && found->version == 0, "where there is no value, locate gives zeros");
        return;
    }
    const auto slot = set.slot(found->slot);
    expect(slot && slot->key == k && slot->version == found->version && slot->slot_class == ORDERSET_SLOT_LIVE
               && same_bytes(slot->value, p.map.at(k)),
           "slot %u holds the key that locate finds there", found->slot);
    plain_order o;
    const auto order = order_set::order_of(got->view());
    expect(order.has_value() == o.read(p, k), "order_of knows an order");
    expect(!order || (order->state == o.word[0] && order->ordered == o.word[1] && order->filled == o.word[2]),
           "order_of gives the order");
}

void same_map(const order_set::set &set, const plain &p) {
    std::map<key, text> found;
    std::uint32_t slot = 0;
    auto orders = set.orders();
    for (const order_set::record &r : orders) {
        expect(r.slot > slot && r.slot <= p.slots, "the slots rise: %u after %u", r.slot, slot);
        slot = r.slot;
        expect(found.emplace(r.key, text(r.value.begin(), r.value.end())).second, "each key comes once");
    }
    same_number(orders.result(), 0, "orders");
    std::size_t steps = 0;
    for (auto step = orders.begin(); step != orders.end(); steps++) {
        const order_set::record before = *step, passed = *step++;
        expect(passed.slot == before.slot && passed.key == before.key && passed.value.text() == before.value.text(),
               "a postfix step gives what it passes: slot %u, due %u", passed.slot, before.slot);
    }
    expect(steps == found.size(), "as many steps as orders: %zu", steps);
    expect(found == p.map, "orders gives the plain map: %zu orders, due %zu", found.size(), p.map.size());
    const auto told = set.statistics();
    expect(told.live == p.map.size() && told.slots == p.slots && told.layout == p.layout
               && told.spare == p.slots - told.live && told.count[ORDERSET_SLOT_LIVE] == told.live && !told.refusal,
           "statistics: %u live of %u in layout %u", told.live, told.slots, told.layout);
}

void call(order_set::set &set, plain &p) {
    const key k = some_key(p);
    switch (below(10)) {
    case 0:
    case 1: write(set, p, k, true); break;
    case 2: write(set, p, k, false); break;
    case 3: remove(set, p, k); break;
    case 4: new_order(set, p, k); break;
    case 5: acknowledge(set, p, k); break;
    case 6: fill_order(set, p, k); break;
    case 7: withdraw(set, p, k); break;
    default: basket(set, p); break;
    }
    look(set, p, k);
}

// The handle is closed before the file is opened again: a lock is of one handle.
order_set::set open_again(order_set::set set, mode how) {
    set.close();
    auto opened = order_set::set::open(path.c_str(), how);
    same_number(opened, 0, "open");
    restarts++;
    return std::move(*opened);
}

void histories(std::uint32_t layout) {
    for (int files = 0; files < FILES; files++) {
        plain p{below(2) ? 64 : 2 + std::uint32_t(below(12)), layout, {}};
        std::remove(path.c_str());
        same_number(order_set::set::create(path.c_str(), p.slots, layout), 0, "create");
        auto set = open_again({}, mode::write);
        for (int i = 0; i < CALLS; i++) {
            call(set, p);
            if (below(20) == 0) { // beside the writer
                auto live = order_set::set::open(path.c_str(), mode::live);
                same_number(live, 0, "a live look");
                same_map(*live, p);
                const auto copy = path + ".copy";
                std::remove(copy.c_str());
                same_number(set.snapshot(copy.c_str()), 0, "a snapshot");
                same_number(set.snapshot(copy.c_str()), ORDERSET_FILE_EXISTS, "a second one");
                auto made = order_set::set::open(copy.c_str(), mode::read);
                same_number(made, 0, "an open of a snapshot");
                same_map(*made, p);
                std::remove(copy.c_str());
            }
            if (below(20) == 0) {
                set = open_again(std::move(set), below(3) ? mode::read : mode::inspect);
                same_map(set, p);
                same_number(set.remove(7), ORDERSET_READ_ONLY, "remove");
                set = open_again(std::move(set), mode::write);
                same_map(set, p);
            }
        }
        same_map(set, p);
    }
}

// ---- the log

void same_log(const order_set::log &log, std::uint32_t cells, const std::vector<text> &all) {
    const std::uint64_t last = all.size(), first = last < cells ? 1 : last - cells + 2;
    const auto shown = log.range();
    same_number(shown, 0, "range");
    expect(shown->first == first && shown->last == last, "the numbers are %" PRIu64 " to %" PRIu64, first, last);
    std::uint64_t number = first;
    auto messages = log.messages();
    for (const order_set::numbered &m : messages) {
        expect(m.number == number, "message %" PRIu64 " is the next: %" PRIu64, number, m.number);
        expect(same_bytes(m.message, all[number - 1]), "message %" PRIu64 " is as it was appended", number);
        number++;
    }
    same_number(messages.result(), 0, "messages");
    expect(number == last + 1, "messages come up to the last: %" PRIu64 " of %" PRIu64, number - 1, last);
    same_number(log.read(first - 1), 31, "read");
    same_number(log.read(last + 1), 31, "read");
    const auto told = log.statistics();
    expect(told.cells == cells && told.first == first && told.last == last, "statistics of the log");
}

void logs() {
    for (int files = 0; files < LOGS; files++) {
        const std::uint32_t cells = 2 + std::uint32_t(below(6));
        std::vector<text> all;
        std::remove(path.c_str());
        same_number(order_set::log::create(path.c_str(), cells), 0, "create");
        order_set::log log;
        for (int i = 0; i < APPENDS; i++) {
            if (!log.is_open() || below(8) == 0) {
                log.close();
                auto opened = order_set::log::open(path.c_str(), mode::write);
                same_number(opened, 0, "open");
                log = std::move(*opened);
                restarts++;
            }
            const text message = some_bytes(below(10) ? 1 + below(384) : below(2) * 385);
            const bool fits = message.size() > 0 && message.size() <= 384;
            const auto number = log.append(message);
            same_number(number, fits ? 0 : 29, "append");
            if (fits)
                all.push_back(message);
            expect(*number == (fits ? all.size() : 0), "append gives the number %zu", all.size());
            same_log(log, cells, all);
        }
    }
}

// A message that is not complete, as no cut leaves it behind a later one, is left out.
void damaged_log() {
    std::remove(path.c_str());
    same_number(order_set::log::create(path.c_str(), 4), 0, "create");
    auto log = order_set::log::open(path.c_str(), mode::write);
    for (const char *message : {"one", "two", "three"})
        same_number(log->append(message), 0, "append");
    log->close();
    if (std::FILE *damaged = std::fopen(path.c_str(), "r+")) {
        std::fseek(damaged, 2 * ORDERSET_LOG_CELL_BYTES + 8, SEEK_SET); // the length of message 2
        std::fputc(0, damaged);
        std::fclose(damaged);
    }
    log = order_set::log::open(path.c_str(), mode::read);
    std::string given;
    auto messages = log->messages();
    for (const order_set::numbered &m : messages)
        given += m.message.text();
    same_number(messages.result(), 0, "messages");
    expect(given == "onethree", "the other messages are given: %s", given.c_str());
}

// ---- files, locks and modes

void refusals() {
    const char *file = path.c_str();
    std::remove(file);
    const auto none = order_set::set::open(file, mode::write);
    same_number(none, ORDERSET_ERRNO, "open of no file");
    expect(none.system_error() == ENOENT && !none->is_open(), "errno is ENOENT, and the file is not open");
    same_number(order_set::set::create(file, 1, 1), 1, "create of one slot");
    same_number(order_set::set::create(file, 4, 3), 32, "create of layout 3");
    same_number(order_set::set::create(file, 4, 1), 0, "create");
    same_number(order_set::set::create(file, 4, 1), ORDERSET_FILE_EXISTS, "create of a file that is there");
    same_number(order_set::log::create(file, 4), ORDERSET_FILE_EXISTS, "create of a file that is there");

    auto set = order_set::set::open(file, mode::write);
    same_number(set, 0, "open");
    same_number(order_set::set::open(file, mode::write), ORDERSET_LOCKED, "a second open");
    order_set::set moved = std::move(*set);
    expect(!set->is_open() && moved.is_open(), "a file that was moved from is not open");
    same_number(moved.insert({7, 1}, "wide"), ORDERSET_KEY_TOO_WIDE, "insert of a wide key");
    same_number(moved.insert(7, "narrow"), 0, "insert");
    same_number(moved.insert(7, "narrow"), 20, "insert of a held key");
    same_number(moved.slot(0), ORDERSET_NO_SLOT, "slot 0");
    same_number(moved.slot(5), ORDERSET_NO_SLOT, "slot 5 of 4");
    same_number(moved.basket({order_set::item::insert(8, "a"), order_set::item::replace(7, "b")}), 0, "basket");
    expect(moved.get(7)->text() == "b" && moved.get(8)->text() == "a", "the basket is done");
    expect(moved.get(9) == ORDERSET_NOT_FOUND && moved.get(9).text() == std::string_view("the key is not held"),
           "absent is said in words: %s", moved.get(9).text());
    expect(orderset_errno(moved.handle()) == 0 && moved.system_error() == 0, "nothing failed");
    moved.close();

    set = order_set::set::open(file, mode::read);
    same_number(set, 0, "open for reading");
    same_number(set->book_withdraw(7), ORDERSET_READ_ONLY, "a change of a file that is read");
    auto writer = order_set::set::open(file, mode::write);
    same_number(writer, 0, "a writer beside a reader");
    same_number(writer->remove(7), 0, "remove");
    expect(set->get(7)->text() == "b", "a reader sees the file as it was");
    writer->close();

    same_number(order_set::log::open(file, mode::write), 30, "a set of 640 bytes as a log");
    std::remove(file);
    same_number(order_set::log::create(file, 2), 0, "create of a log");
    same_number(order_set::set::open(file, mode::write), 2, "a log of 896 bytes as a set");
    std::remove(file);
    same_number(order_set::set::create(file, 6, 2), 0, "create");
    same_number(order_set::log::open(file, mode::write), ORDERSET_NOT_A_LOG, "a set of 896 bytes as a log");
    same_number(order_set::set::open("/", mode::read), ORDERSET_NOT_REGULAR, "open of a folder");
    if (std::FILE *longer = std::fopen(file, "r+")) {
        std::fseek(longer, 0, SEEK_END);
        std::fputs("another", longer);
        std::fclose(longer);
    }
    same_number(order_set::set::open(file, mode::write), 1, "a file that was extended");
    const auto inspected = order_set::set::open(file, mode::inspect);
    same_number(inspected, 0, "open for inspection");
    expect(inspected->statistics().refusal == 1, "the statistics have the refusal");
    auto orders = inspected->orders();
    for (const order_set::record &r : orders)
        expect(false, "a refused file has no order: slot %u", r.slot);
    same_number(orders.result(), 1, "orders of a refused file");
}

// ---- after a failed sync

void stopped_set() {
    std::remove(path.c_str());
    same_number(order_set::set::create(path.c_str(), 4, 1), 0, "create");
    auto set = open_again({}, mode::write);
    same_number(set.insert(7, "seven"), 0, "insert");
    if (set.statistics().flush != ORDERSET_FLUSH_MSYNC)
        return; // on non-volatile memory there is no sync that fails
    failing = true;
    const auto told = set.insert(8, "eight");
    failing = false;
    same_number(told, ORDERSET_NOT_DURABLE, "an insert whose sync fails");
    expect(told.system_error() == EIO && set.system_error() == EIO && set.statistics().error == EIO,
           "the errno of a failed sync is told: %d", told.system_error());
    same_number(set.get(7), ORDERSET_STOPPED, "get after a failed sync");
    same_number(set.remove(7), ORDERSET_STOPPED, "remove after a failed sync");
    auto orders = set.orders();
    expect(orders.begin() == orders.end(), "a set that is stopped gives no order");
    same_number(orders.result(), ORDERSET_STOPPED, "orders after a failed sync");
    set = open_again(std::move(set), mode::write);
    expect(set.get(7)->text() == "seven", "what was answered is there");
    const auto eight = set.get(8);
    expect(eight == ORDERSET_NOT_FOUND || eight->text() == "eight", "the insert is done or not");
}

void stopped_log() {
    std::remove(path.c_str());
    same_number(order_set::log::create(path.c_str(), 4), 0, "create");
    auto log = order_set::log::open(path.c_str(), mode::write);
    same_number(log->append("one"), 0, "append");
    if (log->statistics().flush != ORDERSET_FLUSH_MSYNC)
        return;
    failing = true;
    const auto told = log->append("two");
    failing = false;
    same_number(told, ORDERSET_NOT_DURABLE, "an append whose sync fails");
    expect(*told == 0 && told.system_error() == EIO && log->system_error() == EIO, "it has no number");
    same_number(log->read(1), ORDERSET_STOPPED, "read after a failed sync");
    const auto shown = log->range();
    same_number(shown, ORDERSET_STOPPED, "range after a failed sync");
    expect(shown->first == 1 && shown->last == 0, "a refused range is empty");
    auto messages = log->messages();
    expect(messages.begin() == messages.end(), "a log that is stopped gives no message");
    same_number(messages.result(), ORDERSET_STOPPED, "messages after a failed sync");
}

} // namespace

int main(int count, char **word) {
    begin_chance(count > 1 ? word[1] : "file", count > 3 ? word[3] : nullptr);
    expect(count > 2, "file NAME PATH [SEED]");
    path = word[2];
    refusals();
    histories(1);
    histories(2);
    logs();
    damaged_log();
    stopped_set();
    stopped_log();
    std::remove(path.c_str());
    std::printf("%" PRIu64 " answers, %" PRIu64 " restarts: as the plain map and list (%.0f s)\n", calls, restarts,
                seconds());
}
