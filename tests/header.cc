// orderset_raw.h and orderset_persist.h in C++: an image is made durable, a value is inserted, made durable, found,
// replaced, found, removed and not found; an insert of a held key, a replace of one that is not held and a value that
// is too long are refused and store nothing; the slots compared are read from answers and from refusals; an order is
// sent, acknowledged, acknowledged again and filled; a record of a basket that a cut left is opened; a basket is made
// durable and found, and baskets are refused; the slots are counted. Before the stores of a call are made, and after
// that, its lines are asked about. In layout 2 two keys that share their low word are inserted, found, and removed by a
// basket, the slots are counted, and each layout refuses the other's image. Every call refuses a layout that there is
// not and, in layout 1, a key of more than 64 bits. All of it by the calls of document 01, and again by those for the
// owner of the index; the state names a slot of the highest version. A macro of the program may have a call's name.
#include <algorithm>
#include <cstdio>
#include <cstring>
#include <vector>

#define insert not_a_call
#define remove not_a_call
#define basket not_a_call
#define get not_a_call
#include "orderset_persist.h"
#include "orderset_raw.h"
#undef insert
#undef remove
#undef basket
#undef get

namespace {

const uint32_t slots = 4;
alignas(64) uint8_t image[ORDERSET_IMAGE_BYTES(slots)];
std::vector<uint32_t> heads(3), next(ORDERSET_NEXT_LENGTH(slots));
orderset_raw set = {image, sizeof image,     heads.data(), heads.size(), next.data(), next.size(), {},
                    0,     ORDERSET_LAYOUT_1};
orderset_raw_recovery recovered;
orderset_raw_change change;
orderset_raw_value found;
orderset_raw_items items;
uint8_t out[ORDERSET_VALUE_MAX];
const enum orderset_flush best = orderset_best_flush();
bool own = false;             // by the calls for the owner of the index
const char *failed = nullptr; // the first part that is not as it should be
#define BY(name) (own ? orderset_raw_own_##name : orderset_raw_##name)

bool part(const char *name, bool good) {
    if (!good && !failed)
        failed = name;
    return good;
}

orderset_key key_of(uint64_t low, uint64_t high = 0) {
    return {low, high};
}

// The stores that recovery hands out are made durable before any other call.
bool recover(uint32_t voids) {
    return orderset_raw_recover(&set, &recovered) == ORDERSET_OK && recovered.refusal == ORDERSET_OK
           && recovered.count == voids && recovered.fault_slot == 0
           && orderset_persist_list(image, sizeof image, recovered.at, recovered.value, recovered.count, best) == 0;
}

// The state names the slot that was taken.
bool newest_is(uint64_t slot) {
    return set.state[ORDERSET_RAW_NEWEST] == slot;
}

bool formats(uint32_t layout) {
    set.layout = layout;
    return orderset_raw_format(image, sizeof image, layout) == ORDERSET_OK
           && orderset_raw_layout(image, sizeof image) == layout;
}

bool start() {
    return formats(ORDERSET_LAYOUT_1) && orderset_aligned(image)
           && orderset_persist_image(image, sizeof image, best) == 0 && recover(0);
}

// With heads and next of its own: those of the set in use go on with its state.
bool counts(uint64_t live, uint64_t hidden, uint64_t removes, uint64_t voids, uint64_t broken, uint64_t empty) {
    const uint64_t due[ORDERSET_COUNTS] = {live, hidden, removes, voids, broken, empty};
    auto own_heads = heads;
    auto own_next = next;
    orderset_raw of = set;
    orderset_raw_counts told;
    of.heads = own_heads.data();
    of.next = own_next.data();
    return orderset_raw_count_slots(&of, &told) == ORDERSET_OK && !std::memcmp(told.count, due, sizeof due);
}

// Key 20 was to be inserted by a basket of two, of which one record stands, in slot 1: nothing of it is held.
bool opens_void() {
    const uint64_t line_a[] = {0, 20, 1 + (2 << 16), 0, 0, 0, 0, 2}, line_b[] = {0, 0, 0, 0, 0, 0, 0, 2};
    std::memcpy(image + ORDERSET_SLOT_BYTES, line_a, sizeof line_a);
    std::memcpy(image + ORDERSET_SLOT_BYTES + ORDERSET_LINE_BYTES, line_b, sizeof line_b);
    return counts(0, 0, 0, 1, 0, 3) && recover(1) && counts(0, 0, 0, 0, 1, 3) && recovered.at[0] == 16
           && recovered.value[0] == 1 && set.state[ORDERSET_RAW_LIVE] == 0 && recover(0)
           && set.state[ORDERSET_RAW_LIVE] == 0;
}

// A slot at fault is named.
bool names_slot() {
    const std::vector<uint8_t> before(image, image + sizeof image);
    const uint64_t line_a[] = {0, 20, 3, 0, 0, 0, 0, 2}, line_b[] = {0, 0, 0, 0, 0, 0, 0, 2};
    orderset_raw_counts told;
    std::memcpy(image + 2 * ORDERSET_SLOT_BYTES, line_a, sizeof line_a);
    std::memcpy(image + 2 * ORDERSET_SLOT_BYTES + ORDERSET_LINE_BYTES, line_b, sizeof line_b);
    const bool named = orderset_raw_recover(&set, &recovered) == ORDERSET_BAD_KIND && recovered.fault_slot == 2
                       && recovered.refusal == ORDERSET_BAD_KIND
                       && orderset_raw_count_slots(&set, &told) == ORDERSET_BAD_KIND && told.fault_slot == 2;
    std::memcpy(image, before.data(), sizeof image);
    return named;
}

// The stores are made only where the call was accepted and handed some out.
bool made_durable(uint32_t refusal) {
    return refusal == ORDERSET_OK && change.refusal == ORDERSET_OK && change.outcome == ORDERSET_RAW_DONE
           && newest_is(change.slot) && orderset_persist(image, sizeof image, change.at, change.value, best) == 0;
}

uint32_t insert(uint64_t key, const char *text, size_t length) {
    return BY(insert)(&set, key_of(key), text, length, &change);
}

uint32_t replace(uint64_t key, const char *text, size_t length) {
    return BY(replace)(&set, key_of(key), text, length, &change);
}

uint32_t drop(uint64_t key) {
    return BY(remove)(&set, key_of(key), &change);
}

bool finds(const orderset_key &key, const char *text) {
    if (orderset_raw_get(&set, key, out, sizeof out, &found) != ORDERSET_OK)
        return false;
    return found.outcome == ORDERSET_RAW_DONE
               ? text && found.length == std::strlen(text) && !std::memcmp(out, text, found.length)
               : !text;
}

bool finds(uint64_t key, const char *text) {
    return finds(key_of(key), text);
}

// What a refused change tells, in two fields.
bool refused(uint32_t refusal, uint32_t number, uint64_t compared) {
    return refusal == number && change.refusal == number && change.compared == compared;
}

// The lines of the slot that the last call took say which words it stores into them first and last.
bool lines_foretell() {
    const uint8_t *line = image + ORDERSET_SLOT_BYTES * change.slot;
    uint64_t first, last;
    for (unsigned i = 0; i < ORDERSET_STORES; i += ORDERSET_LINE_STORES, line += ORDERSET_LINE_BYTES)
        if (orderset_raw_line_first(line, change.version, &first) != ORDERSET_OK || first != change.value[i]
            || orderset_raw_line_last(line, change.version, &last) != ORDERSET_OK
            || last != change.value[i + ORDERSET_LINE_STORES - 1])
            return false;
    return true;
}

// Both are whole and have the version of that call; a version that no call writes and other lengths are refused.
bool lines_tell() {
    const uint8_t *line = image + ORDERSET_SLOT_BYTES * change.slot;
    const uint64_t last = UINT64_C(1) << 63;
    uint64_t word = 5;
    uint8_t told[ORDERSET_PROVED_LINE_ANSWER];
    for (unsigned i = 0; i < 2; i++, line += ORDERSET_LINE_BYTES)
        if (!orderset_raw_line_whole(line) || orderset_raw_line_version(line) != change.version
            || orderset_raw_line_last(line, last, &word) != ORDERSET_EXHAUSTED || word != 5
            || orderset_proved_line_first(line, ORDERSET_LINE_BYTES - 1, last, told, sizeof told)
                   != ORDERSET_BAD_LINE_LENGTH)
            return false;
    return true;
}

// Key 7 is held and key 10, which has its head, is not.
bool refused_stores_nothing(const char *of_seven) {
    std::vector<uint8_t> before(image, image + sizeof image);
    const std::vector<char> text(81, 'x');
    return refused(insert(10, text.data(), text.size()), ORDERSET_VALUE_TOO_LONG, 0)
           && refused(insert(7, "x", 1), ORDERSET_KEY_EXISTS, 1)
           && refused(replace(10, "x", 1), ORDERSET_KEY_MISSING, 1) && finds(7, of_seven) && finds(10, nullptr)
           && !std::memcmp(image, before.data(), sizeof image);
}

// Key 7 is held; key 10 joins its chain and leaves it again.
bool reports_compared() {
    uint8_t little[1];
    return made_durable(insert(10, "x", 1)) && change.compared == 1 && finds(7, "sell") && found.compared == 1
           && finds(10, "x") && found.compared == 2 && finds(4, nullptr) && found.compared == 2 && finds(8, nullptr)
           && found.compared == 0 && orderset_raw_get(&set, key_of(7), little, 1, &found) == ORDERSET_BUFFER_TOO_SHORT
           && found.refusal == ORDERSET_BUFFER_TOO_SHORT && found.compared == 1 && made_durable(replace(10, "y", 1))
           && change.compared == 2 && made_durable(drop(10)) && change.compared == 2 && drop(10) == ORDERSET_OK
           && change.outcome == ORDERSET_RAW_ABSENT && change.compared == 1;
}

// A basket of two keys, of which only the first `keys` are in it; a place past its stores is marked.
uint32_t basket(size_t keys, uint32_t first_kind, uint64_t first, uint32_t second_kind, uint64_t second) {
    items.count = 0;
    if (keys > 0)
        orderset_raw_add(&items, first_kind, key_of(first), "twin", 4);
    if (keys > 1)
        orderset_raw_add(&items, second_kind, key_of(second), "second", 6);
    while (items.count < keys)
        orderset_raw_add(&items, ORDERSET_REMOVE, key_of(100 + items.count), "", 0);
    std::memset(items.at, 1, sizeof items.at);
    return BY(basket)(&set, &items);
}

bool basket_refused(uint32_t refusal, uint32_t number) {
    return refusal == number && items.refusal == number && items.at[0] == 0x01010101u;
}

bool basket_durable(uint32_t refusal, size_t keys) {
    const size_t stores = ORDERSET_BASKET_STORES(keys);
    return refusal == ORDERSET_OK && items.refusal == ORDERSET_OK && items.at[stores] == 0x01010101u
           && orderset_persist_list(image, sizeof image, items.at, items.value, stores, best) == 0;
}

// The lists of the struct are always long enough: the proved function refuses shorter ones.
bool list_too_short() {
    const size_t room = ORDERSET_BASKET_STORES(2) - 1;
    uint64_t answer[ORDERSET_PROVED_BASKET_ANSWER];
    return basket(2, 1, 30, 4, 31) == ORDERSET_BAD_BASKET
           && (items.kinds[1] = ORDERSET_INSERT,
               orderset_proved_basket(set.image, set.image_length, set.heads, set.heads_length, set.next,
                                      set.next_length, set.state, &set.version, items.count, items.kinds, items.lows,
                                      items.lengths, items.bytes, items.at, room, items.value, room, answer))
                  == ORDERSET_BUFFER_TOO_SHORT;
}

// Nothing is held before it and after it.
bool keeps_basket() {
    const std::vector<char> text(81, 'x');
    items.count = 0;
    orderset_raw_add(&items, ORDERSET_INSERT, key_of(30), text.data(), text.size());
    return BY(basket)(&set, &items) == ORDERSET_VALUE_TOO_LONG
           && basket_refused(basket(0, 1, 30, 1, 31), ORDERSET_BAD_BASKET)
           && basket_refused(basket(9, 1, 30, 1, 31), ORDERSET_BAD_BASKET)
           && basket_refused(basket(2, 1, 30, 4, 31), ORDERSET_BAD_BASKET)
           && basket_refused(basket(2, 1, 30, 2, 30), ORDERSET_KEY_TWICE) && list_too_short()
           && basket_refused(basket(2, 1, 30, 3, 31), ORDERSET_KEY_MISSING)
           && basket_durable(basket(2, ORDERSET_INSERT, 30, ORDERSET_INSERT, 31), 2) && items.version + 1 == set.version
           && items.slot[0] != items.slot[1] && items.slot[2] == 0 && newest_is(items.slot[0]) && finds(30, "twin")
           && finds(31, "second") && recover(0) && newest_is(std::max(items.slot[0], items.slot[1]))
           && finds(30, "twin") && finds(31, "second") && basket_refused(basket(2, 1, 32, 1, 33), ORDERSET_FULL)
           && basket_durable(basket(1, ORDERSET_REMOVE, 30, 0, 0), 1) && finds(30, nullptr)
           && basket_durable(basket(1, ORDERSET_REMOVE, 31, 0, 0), 1) && finds(31, nullptr);
}

bool is_absent(const orderset_key &key) {
    orderset_raw_place place;
    return orderset_raw_locate(&set, key, &place) == ORDERSET_OK && place.refusal == ORDERSET_OK
           && place.outcome == ORDERSET_RAW_ABSENT && place.slot == 0 && place.version == 0;
}

bool is_at(const orderset_key &key, uint64_t slot, uint64_t version, uint64_t compared) {
    orderset_raw_place place;
    return orderset_raw_locate(&set, key, &place) == ORDERSET_OK && place.outcome == ORDERSET_RAW_DONE
           && place.slot == slot && place.version == version && place.compared == compared;
}

bool keeps_book(uint64_t number) {
    const orderset_key key = key_of(number);
    return made_durable(BY(book_new)(&set, key, 100, &change)) && is_at(key, change.slot, change.version, 1)
           && BY(book_new)(&set, key, 100, &change) == ORDERSET_NEW_KEY_EXISTS
           && change.refusal == ORDERSET_NEW_KEY_EXISTS && made_durable(BY(book_acknowledge)(&set, key, &change))
           && BY(book_acknowledge)(&set, key, &change) == ORDERSET_OK && change.outcome == ORDERSET_RAW_ALREADY
           && BY(book_fill)(&set, key, 101, &change) == ORDERSET_BAD_QUANTITY
           && made_durable(BY(book_fill)(&set, key, 100, &change))
           && BY(book_withdraw)(&set, key, &change) == ORDERSET_NO_ORDER && is_absent(key);
}

// ---- layout 2: keys 2^64 * high + 7

uint32_t insert2(uint64_t high, const char *text, size_t length) {
    return BY(insert)(&set, key_of(7, high), text, length, &change);
}

bool finds2(uint64_t high, const char *text, uint64_t compared) {
    return finds(key_of(7, high), text) && found.compared == compared;
}

bool drops_both() {
    items.count = 0;
    orderset_raw_add(&items, ORDERSET_REMOVE, key_of(7, 2), "", 0);
    orderset_raw_add(&items, ORDERSET_REMOVE, key_of(7, 1), "", 0);
    return BY(basket)(&set, &items) == ORDERSET_OK
           && orderset_persist_list(image, sizeof image, items.at, items.value, ORDERSET_BASKET_STORES(2), best) == 0;
}

// ---- what the header itself refuses

bool change_refused(uint32_t refusal, uint32_t number) {
    const bool good = refused(refusal, number, 0);
    change.refusal = 7;
    change.compared = 7;
    return good;
}

// The calls that write, with the key alone and in a basket after another.
bool changes_refused(const orderset_key &key, uint32_t number) {
    items.count = 0;
    orderset_raw_add(&items, ORDERSET_REMOVE, key_of(8), "", 0);
    orderset_raw_add(&items, ORDERSET_INSERT, key, "x", 1);
    items.at[0] = 0x01010101u;
    return change_refused(BY(insert)(&set, key, "x", 1, &change), number)
           && change_refused(BY(replace)(&set, key, "x", 1, &change), number)
           && change_refused(BY(remove)(&set, key, &change), number)
           && change_refused(BY(book_new)(&set, key, 100, &change), number)
           && change_refused(BY(book_acknowledge)(&set, key, &change), number)
           && change_refused(BY(book_fill)(&set, key, 100, &change), number)
           && change_refused(BY(book_withdraw)(&set, key, &change), number)
           && basket_refused(BY(basket)(&set, &items), number);
}

// All calls that take a key refuse this one, and leave the index and the output as they were.
bool all_refused(const orderset_key &key, uint32_t number) {
    const auto heads_before = heads, next_before = next;
    const orderset_raw before = set;
    orderset_raw_place place;
    place.compared = found.compared = 7;
    out[0] = '?';
    return changes_refused(key, number) && orderset_raw_get(&set, key, out, sizeof out, &found) == number
           && found.refusal == number && found.compared == 0 && out[0] == '?'
           && orderset_raw_locate(&set, key, &place) == number && place.refusal == number && place.compared == 0
           && heads == heads_before && next == next_before && !std::memcmp(&set, &before, sizeof set);
}

// The calls of one layout on the image of the other, and of a layout that there is not.
bool refuses_layout(uint32_t layout) {
    const uint32_t before = set.layout;
    orderset_raw_counts told;
    set.layout = layout;
    const bool refuses =
        orderset_raw_recover(&set, &recovered) == ORDERSET_BAD_HEADER && recovered.refusal == ORDERSET_BAD_HEADER
        && recovered.fault_slot == 0 && orderset_raw_count_slots(&set, &told) == ORDERSET_BAD_HEADER
        && told.refusal == ORDERSET_BAD_HEADER && told.fault_slot == 0 && all_refused(key_of(7), ORDERSET_BAD_HEADER);
    set.layout = before;
    return refuses;
}

// Layout 0 has bits of neither 1 nor 2, layout 3 those of both.
bool refuses_no_layouts() {
    return refuses_layout(0) && refuses_layout(3) && refuses_layout(4) && refuses_layout(UINT32_MAX);
}

// In layout 1 the high word is not left out: key 7 is held or not.
bool refuses_wide() {
    return all_refused(key_of(7, 1), ORDERSET_KEY_TOO_WIDE)
           && all_refused(key_of(7, UINT64_C(1) << 63), ORDERSET_KEY_TOO_WIDE)
           && all_refused(key_of(10, UINT64_C(1) << 32), ORDERSET_KEY_TOO_WIDE);
}

bool keeps_second_layout() {
    const std::vector<char> text(ORDERSET_VALUE_MAX_2 + 1, 'x');
    return orderset_raw_format(image, sizeof image, 3) == ORDERSET_BAD_LAYOUT && formats(ORDERSET_LAYOUT_1)
           && part("layouts", refuses_layout(ORDERSET_LAYOUT_2) && refuses_no_layouts()) && formats(ORDERSET_LAYOUT_2)
           && recover(0) && part("layouts", refuses_layout(ORDERSET_LAYOUT_1) && refuses_no_layouts())
           && refused(insert2(1, text.data(), text.size()), ORDERSET_VALUE_TOO_LONG, 0)
           && made_durable(insert2(1, "buy", 3)) && made_durable(insert2(2, "sell", 4))
           && refused(insert2(2, "x", 1), ORDERSET_KEY_EXISTS, 2) && finds2(1, "buy", 1) && finds2(2, "sell", 2)
           && finds2(3, nullptr, 2) && recover(0) && finds2(1, "buy", 1) && finds2(2, "sell", 2)
           && counts(2, 0, 0, 0, 0, 2) && drops_both() && finds2(1, nullptr, 0) && counts(0, 2, 2, 0, 0, 0)
           && made_durable(BY(book_new)(&set, key_of(7, 9), 100, &change))
           && made_durable(BY(book_withdraw)(&set, key_of(7, 9), &change)) && is_absent(key_of(7, 9));
}

// Stores in plain memory.
bool plays() {
    return start() && insert(7, "buy", 3) == ORDERSET_OK && orderset_raw_play(&set, &change, 8, 3) == ORDERSET_OK
           && recover(0) && finds(7, nullptr) && insert(7, "buy", 3) == ORDERSET_OK
           && orderset_raw_play(&set, &change, 8, 9) == ORDERSET_COUNT_TOO_HIGH
           && orderset_raw_play(&set, &change, 8, 8) == ORDERSET_OK && finds(7, "buy")
           && basket(2, ORDERSET_REMOVE, 7, ORDERSET_INSERT, 8) == ORDERSET_OK
           && orderset_raw_play_list(image, sizeof image, items.at, items.value, ORDERSET_BASKET_STORES(2))
                  == ORDERSET_OK
           && finds(7, nullptr) && finds(8, "second")
           && orderset_raw_play_list(image, 64, items.at, items.value, 16) == ORDERSET_BAD_STORES;
}

bool keeps_one() {
    return made_durable(insert(7, "buy", 3)) && finds(7, "buy") && refused_stores_nothing("buy")
           && part("wide keys", refuses_wide()) && replace(7, "sell", 4) == ORDERSET_OK
           && part("words foretold", lines_foretell()) && made_durable(ORDERSET_OK) && part("lines", lines_tell())
           && finds(7, "sell") && refused_stores_nothing("sell") && part("slots compared", reports_compared())
           && part("counts", counts(1, 2, 1, 0, 0, 0)) && made_durable(drop(7)) && finds(7, nullptr)
           && drop(7) == ORDERSET_OK && change.outcome == ORDERSET_RAW_ABSENT;
}

bool keeps_all() {
    return part("start", start()) && part("void records", opens_void()) && part("slot at fault", names_slot())
           && part("start", start()) && part("one key", keeps_one()) && part("book", keeps_book(9))
           && part("baskets", keeps_basket()) && part("layout 2", keeps_second_layout()) && part("play", plays());
}

}

int main() {
    bool good = keeps_all();
    own = good;
    good = good && keeps_all();
    if (good)
        std::printf("header: a set through the headers in C++: as it should be\n");
    else
        std::printf("header: a set through the headers in C++: NOT SO: %s%s\n", failed, own ? ", owner" : "");
    return good ? 0 : 1;
}
