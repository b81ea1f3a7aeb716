/* Any bytes as a file of the set, opened in each mode: what an inspection tells agrees with what a reader gets, each
 * slot can be looked at, the iteration ends, and a set that a writer takes takes an order, a removal and a basket. */
#include "fuzz.h"
#include "orderset.h"

static void look(struct orderset *set) {
    struct orderset_statistics is;
    struct orderset_record r = {0};
    uint32_t held = 0, number;
    orderset_stat(set, &is);
    for (uint32_t slot = 1; slot <= is.slots; slot++)
        fuzz_expect(orderset_slot(set, slot, &r) == ORDERSET_OK && r.length <= ORDERSET_VALUE_MAX,
                    "a slot is looked at");
    r.slot = 0;
    while ((number = orderset_next(set, &r)) == ORDERSET_OK) {
        uint32_t slot;
        fuzz_expect(orderset_locate(set, r.key, &slot, NULL) == ORDERSET_OK && slot == r.slot, "an order is located");
        held++;
    }
    fuzz_expect(number == (is.refusal ? is.refusal : (uint32_t)ORDERSET_END), "the iteration ends");
    fuzz_expect(held == orderset_count(set) && held == is.live, "the orders are counted");
}

static void change(struct orderset *set) {
    const struct orderset_key key = {77, 0};
    const struct orderset_item item = {ORDERSET_REMOVE, key, NULL, 0};
    const uint32_t room = orderset_room(set), held = orderset_count(set);
    uint32_t number = orderset_book_new(set, key, 5);
    fuzz_expect(room > 0 || number != ORDERSET_OK, "no order is taken where there is no room");
    if (number)
        return;
    fuzz_expect(orderset_count(set) == held + 1 && orderset_room(set) == room - 1, "an order takes room");
    number = orderset_basket(set, &item, 1);
    fuzz_expect(number == ORDERSET_OK || number == ORDERSET_FULL || number == ORDERSET_EXHAUSTED,
                "it is removed, unless no slot may be taken or the order took the last version");
}

int LLVMFuzzerTestOneInput(const uint8_t *data, size_t size) {
    const char *path = fuzz_file(data, size);
    struct orderset *set;
    uint32_t refusal[3];
    for (uint32_t mode = ORDERSET_READ; mode <= ORDERSET_INSPECT; mode++) {
        struct orderset_statistics is;
        refusal[mode] = orderset_open(path, mode, &set);
        fuzz_expect((refusal[mode] == ORDERSET_OK) == (set != NULL), "an open gives a handle or a refusal");
        if (!set)
            continue;
        look(set);
        if (mode == ORDERSET_INSPECT) {
            orderset_stat(set, &is);
            fuzz_expect(is.refusal == refusal[ORDERSET_READ], "an inspection tells why a reader was refused");
        }
        if (mode == ORDERSET_WRITE)
            change(set);
        orderset_close(set);
    }
    return 0;
}
