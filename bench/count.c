/* Instructions: the operations as functions of their own, for callgrind to count; (a), this set and this set's calls
 * for the owner of an index; insert, replace, remove and the book's steps with the persist. count N HEADS SIZE CALLS */
#include <stdio.h>
#include <stdlib.h>

#include "hand.h"
#include "orderset_persist.h"

#define MEASURED __attribute__((noipa))

static struct hand_set hand;
static struct hand_stores hand_out;

static uint8_t bytes[80], out[80];
static size_t size;
static struct orderset_raw set;
static struct orderset_raw_change change;
static struct orderset_raw_value found;
static struct orderset_raw_recovery recovered;
static enum orderset_flush flush;

static inline struct orderset_key key_of(uint64_t key) {
    return (struct orderset_key){key, 0};
}

static inline int made_durable(void) {
    return orderset_persist(set.image, set.image_length, change.at, change.value, flush);
}

static inline int hand_inserts(uint64_t key) {
    if (hand_insert(&hand, key, bytes, size, &hand_out).code)
        return 1;
    return orderset_persist(hand.image, hand.length, hand_out.at, hand_out.value, flush);
}

MEASURED int count_hand_prepare(uint64_t key) {
    return hand_inserts(key);
}
MEASURED int count_hand_insert(uint64_t key) {
    return hand_inserts(key);
}
MEASURED int count_hand_replace(uint64_t key) {
    if (hand_replace(&hand, key, bytes, size, &hand_out).code)
        return 1;
    return orderset_persist(hand.image, hand.length, hand_out.at, hand_out.value, flush);
}
MEASURED int count_hand_get(uint64_t key) {
    return hand_get(&hand, key, out, sizeof out).code != 0;
}
MEASURED int count_hand_recover(void) {
    return hand_recover(&hand) != 0;
}
MEASURED int count_hand_remove(uint64_t key) {
    if (hand_remove(&hand, key, &hand_out).code)
        return 1;
    return orderset_persist(hand.image, hand.length, hand_out.at, hand_out.value, flush);
}

MEASURED int count_set_get(uint64_t key) {
    return orderset_raw_get(&set, key_of(key), out, sizeof out, &found) || found.outcome == ORDERSET_RAW_ABSENT;
}
MEASURED int count_set_recover(void) {
    return orderset_raw_recover(&set, &recovered) != 0;
}

#define COUNT(op) count_set_##op
#define CALL(name) orderset_raw_##name
#include "count_calls.inc"
MEASURED int count_set_prepare(uint64_t key) {
    return count_set_inserts(key);
}
#undef COUNT
#undef CALL
#define COUNT(op) count_own_##op
#define CALL(name) orderset_raw_own_##name
#include "count_calls.inc"

MEASURED int count_persist(void) {
    return made_durable();
}

static uint64_t seed = 1;
static uint64_t chance(void) {
    uint64_t z = seed += 0x9e3779b97f4a7c15u;
    z = (z ^ z >> 30) * 0xbf58476d1ce4e5b9u;
    z = (z ^ z >> 27) * 0x94d049bb133111ebu;
    return z ^ z >> 31;
}

static void *aligned(size_t bytes_) {
    return aligned_alloc(64, (bytes_ + 63) / 64 * 64);
}

int main(int count, char **word) {
    if (count < 5)
        return 2;
    uint32_t n = (uint32_t)atoi(word[1]), held = n / 2, calls = (uint32_t)atoi(word[4]);
    int bad = 0;
    const size_t heads_length = (size_t)atoi(word[2]), length = ORDERSET_IMAGE_BYTES(n),
                 next_length = ORDERSET_NEXT_LENGTH(n);
    size = (size_t)atoi(word[3]);
    set = (struct orderset_raw){.image = aligned(length),
                                .image_length = length,
                                .heads = calloc(heads_length, 4),
                                .heads_length = heads_length,
                                .next = calloc(next_length, 4),
                                .next_length = next_length,
                                .layout = ORDERSET_LAYOUT_1};
    hand = (struct hand_set){.image = aligned(length),
                             .length = length,
                             .heads = calloc(heads_length, 4),
                             .heads_length = heads_length,
                             .next = calloc(next_length, 4),
                             .next_length = next_length};
    flush = ORDERSET_CLFLUSH; /* the flush that valgrind knows; each flush is one instruction */
    bad |= hand_format(hand.image, length) || hand_recover(&hand);
    bad |= orderset_raw_format(set.image, length, ORDERSET_LAYOUT_1) || count_set_recover();
    uint64_t *key = malloc(sizeof *key * held);
    for (uint32_t i = 0; i < held; i++) {
        key[i] = chance();
        bad |= count_hand_prepare(key[i]) | count_set_prepare(key[i]);
    }
    for (uint32_t i = 0; i < calls; i++) {
        uint32_t k = (uint32_t)(chance() % held);
        bad |= count_hand_replace(key[k]) | count_set_replace(key[k]) | count_hand_get(key[k]) | count_set_get(key[k]);
        bad |= count_hand_remove(key[k]) | count_set_remove(key[k]);
        key[k] = chance();
        bad |= count_hand_insert(key[k]) | count_set_insert(key[k]);
        bad |= count_persist();
        uint64_t order = chance();
        bad |=
            count_set_new(order) || count_set_acknowledge(order) || count_set_fill(order) || count_set_withdraw(order);
    }
    bad |= count_hand_recover() | count_set_recover();
    for (uint32_t i = 0; i < calls; i++) {
        uint32_t k = (uint32_t)(chance() % held);
        bad |= count_own_replace(key[k]) | count_own_remove(key[k]);
        key[k] = chance();
        uint64_t order = chance();
        bad |= count_own_insert(key[k]) || count_own_new(order) || count_own_acknowledge(order) || count_own_fill(order)
               || count_own_withdraw(order);
    }
    printf("%d\n", bad);
    return bad;
}
