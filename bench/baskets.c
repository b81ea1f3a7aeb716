/* A basket of eight keys beside eight single calls: ns for the eight, without delay and with one of 800 ns at each wait
 * (bench.h), and the single calls where the taking rule has to look through the image. Values of 24 bytes; the sets are
 * in /dev/shm. A figure is the median over the batches of the mean in a batch. Prints a table. baskets [BATCHES] the
 * times baskets count N HEADS CALLS  the calls alone, each kind in a function of its own, for callgrind to count */
#include <stdio.h>
#include <stdlib.h>
#include <string.h>

#include "bench.h"
#include "orderset_persist.h"

enum { EIGHT = ORDERSET_BASKET_MAX, SIZE = 24, MAX_BATCHES = 10000, MAX_N = 65535 };
#define MEASURED __attribute__((noipa))

static const char path[] = "/dev/shm/orderset_baskets";
static uint8_t *image, values[ORDERSET_BASKET_BYTES];
static size_t length, heads_length, next_length;
static uint32_t n, heads[ORDERSET_HEADS_MAX], next[MAX_N + 1], state[ORDERSET_RAW_STATE],
    at[ORDERSET_BASKET_STORES(EIGHT)];
static uint64_t version[1], value[ORDERSET_BASKET_STORES(EIGHT)], answer[ORDERSET_PROVED_BASKET_ANSWER];
static uint64_t *held, fresh, seed = 1;
static uint32_t live;
static enum orderset_flush flush;
static double took[MAX_BATCHES];
static unsigned batches = 301;

static void must(int done, const char *what) {
    if (done)
        return;
    fprintf(stderr, "baskets: %s failed\n", what);
    exit(1);
}

static void recover(void) {
    uint32_t voids[1], open_at[ORDERSET_INVALIDATIONS];
    uint64_t open_value[ORDERSET_INVALIDATIONS];
    must(orderset_proved_recover(image, length, heads, heads_length, next, next_length, state, version, voids, open_at,
                                 open_value)
                 == 0
             && voids[0] == 0,
         "recover");
}

/* ---- the calls, each with its persist */

static inline void single(uint32_t kind, uint64_t key) {
    uint64_t failed;
    if (kind == ORDERSET_INSERT)
        failed = orderset_proved_insert(image, length, heads, heads_length, next, next_length, state, version, key,
                                        values, SIZE, at, value, answer);
    else if (kind == ORDERSET_REPLACE)
        failed = orderset_proved_replace(image, length, heads, heads_length, next, next_length, state, version, key,
                                         values, SIZE, at, value, answer);
    else
        failed = orderset_proved_remove(image, length, heads, heads_length, next, next_length, state, version, key, at,
                                        value, answer);
    must(!failed && !orderset_persist(image, length, at, value, flush), "a single call");
}

MEASURED void count_singles(const uint32_t kinds[EIGHT], const uint64_t keys[EIGHT]) {
    for (unsigned i = 0; i < EIGHT; i++)
        single(kinds[i], keys[i]);
}

MEASURED void count_basket(const uint32_t kinds[EIGHT], const uint64_t keys[EIGHT]) {
    static const size_t lengths[EIGHT] = {SIZE, SIZE, SIZE, SIZE, SIZE, SIZE, SIZE, SIZE};
    must(!orderset_proved_basket(image, length, heads, heads_length, next, next_length, state, version, EIGHT, kinds,
                                 keys, lengths, values, at, ORDERSET_BASKET_STORES(EIGHT), value,
                                 ORDERSET_BASKET_STORES(EIGHT), answer)
             && !orderset_persist_list(image, length, at, value, ORDERSET_BASKET_STORES(EIGHT), flush),
         "a basket");
}

/* ---- eight keys of a workload; `held` keeps the keys that are held */

enum load { REPLACES, INSERTS, REMOVES, MIXED };

static void choose(enum load load, uint32_t kinds[EIGHT], uint64_t keys[EIGHT]) {
    for (unsigned i = 0; i < EIGHT; i++) {
        const enum load one = load != MIXED ? load : i < 3 ? INSERTS : i < 6 ? REMOVES : REPLACES;
        kinds[i] = one == REPLACES ? ORDERSET_REPLACE : one == INSERTS ? ORDERSET_INSERT : ORDERSET_REMOVE;
        if (one == INSERTS) {
            keys[i] = bench_chance(&fresh);
            continue;
        }
        /* the keys chosen stand at the end of `held`, where they are no longer chosen */
        const uint32_t from = (uint32_t)(bench_chance(&seed) % (live - i));
        keys[i] = held[from];
        held[from] = held[live - 1 - i];
        held[live - 1 - i] = keys[i];
    }
}

static void settle(const uint32_t kinds[EIGHT], const uint64_t keys[EIGHT]) {
    uint32_t removed = 0;
    for (unsigned i = 0; i < EIGHT; i++)
        for (uint32_t k = 0; kinds[i] == ORDERSET_REMOVE && k < EIGHT && k + removed < live; k++)
            if (held[live - removed - 1 - k] == keys[i]) {
                held[live - removed - 1 - k] = held[live - removed - 1];
                removed++;
                break;
            }
    live -= removed;
    for (unsigned i = 0; i < EIGHT; i++)
        if (kinds[i] == ORDERSET_INSERT)
            held[live++] = keys[i];
}

/* a set of N slots with so many live keys in random slots */
static void begin(uint32_t slots, uint32_t b, uint32_t many) {
    n = slots;
    length = ORDERSET_IMAGE_BYTES(n);
    heads_length = b;
    next_length = n + 1;
    live = 0;
    must(orderset_proved_format(image, length, ORDERSET_LAYOUT_1, answer) == 0, "format");
    recover();
    for (uint32_t i = 0; i < many; i++) {
        held[live] = bench_chance(&fresh);
        single(ORDERSET_INSERT, held[live++]);
    }
    for (uint32_t i = 0; i < 4 * n; i++)
        single(ORDERSET_REPLACE, held[bench_chance(&seed) % live]);
    /* and remove records all along the reuse chain */
    for (uint32_t i = 0; i < n && live + 2 <= n; i++) {
        uint64_t *any = &held[bench_chance(&seed) % live];
        single(ORDERSET_REMOVE, *any);
        single(ORDERSET_INSERT, *any = bench_chance(&fresh));
    }
}

/* ---- the table */

static double median(unsigned count) {
    qsort(took, count, sizeof took[0], bench_by_size);
    return took[count / 2];
}

static double eights(enum load load, int as_basket) {
    unsigned done = 0;
    for (unsigned tries = 0; tries % 2 || (done < batches && tries < 4 * batches); tries++) {
        uint32_t kinds[EIGHT];
        uint64_t keys[EIGHT];
        /* inserts and removes take turns, so that the number of live keys stays */
        const enum load now = load == INSERTS && tries % 2 ? REMOVES : load;
        choose(now, kinds, keys);
        const long preempted = bench_preempted();
        const uint64_t from = __rdtsc();
        if (as_basket)
            count_basket(kinds, keys);
        else
            count_singles(kinds, keys);
        const double ns = (double)(__rdtsc() - from) / bench_ticks_per_ns;
        settle(kinds, keys);
        if (bench_preempted() == preempted && done < batches)
            took[done++] = ns;
    }
    must(done > 0, "a batch without preemption");
    return median(done);
}

static void rows(uint32_t slots, uint32_t b, uint32_t many, const char *filled) {
    static const char *const names[] = {
        [REPLACES] = "8 replaced", [INSERTS] = "8 inserted, 8 removed", [MIXED] = "3 inserted, 3 removed, 2 replaced"};
    static const enum load loads[] = {REPLACES, INSERTS, MIXED};
    for (unsigned i = 0; i < 3; i++) {
        begin(slots, b, many);
        double singles[2], basket[2];
        for (unsigned wait = 0; wait < 2; wait++) {
            bench_set_wait(&settings[wait ? SETTINGS - 1 : 1]);
            singles[wait] = eights(loads[i], 0);
            basket[wait] = eights(loads[i], 1);
        }
        printf("| %u | %u | %s | %s | %.0f | %.0f (%.2f) | %.0f | %.0f (%.2f) |\n", slots, b, filled, names[loads[i]],
               singles[0], basket[0], basket[0] / singles[0], singles[1], basket[1], basket[1] / singles[1]);
        fflush(stdout);
    }
}

/* Replace, remove and insert of one key in turn, with so many live keys: the mean over all calls. */
static double turns(uint32_t slots, uint32_t b, uint32_t many) {
    const unsigned rounds = 300;
    begin(slots, b, many);
    const uint64_t from = __rdtsc();
    for (unsigned i = 0; i < rounds; i++) {
        const uint64_t key = held[bench_chance(&seed) % live];
        single(ORDERSET_REPLACE, key);
        single(ORDERSET_REMOVE, key);
        single(ORDERSET_INSERT, key);
    }
    return (double)(__rdtsc() - from) / bench_ticks_per_ns / (3 * rounds);
}

/* The refill of a set that was cleared and recovered: the mean over the inserts. */
static double refill(uint32_t slots, uint32_t b) {
    begin(slots, b, slots / 2);
    for (uint32_t i = 0; i < live; i++)
        single(ORDERSET_REMOVE, held[i]);
    recover();
    const uint64_t from = __rdtsc();
    for (uint32_t i = 0; i < live; i++)
        single(ORDERSET_INSERT, held[i]);
    return (double)(__rdtsc() - from) / bench_ticks_per_ns / live;
}

/* Single calls with few spare slots. */
static void single_rows(uint32_t slots, uint32_t b) {
    bench_set_wait(&settings[1]);
    const double half = turns(slots, b, slots / 2), two = turns(slots, b, slots - 2), one = turns(slots, b, slots - 1);
    printf("| %u | %u | %.0f | %.0f | %.0f | %.0f |\n", slots, b, half, two, one, refill(slots, b));
    fflush(stdout);
}

static int count(char **words) {
    uint32_t kinds[EIGHT];
    uint64_t keys[EIGHT];
    const unsigned calls = (unsigned)atoi(words[2]);
    begin((uint32_t)atoi(words[0]), (uint32_t)atoi(words[1]), (uint32_t)atoi(words[0]) / 2);
    for (unsigned i = 0; i < calls; i++) {
        choose(MIXED, kinds, keys);
        count_singles(kinds, keys);
        settle(kinds, keys);
        choose(MIXED, kinds, keys);
        count_basket(kinds, keys);
        settle(kinds, keys);
    }
    return 0;
}

int main(int many, char **words) {
    bench_begin();
    memcpy(values, bench_values, sizeof values);
    held = malloc((MAX_N + EIGHT) * sizeof *held);
    must(held != NULL, "memory");
    fresh = 1000003;
    image = bench_map(path, ORDERSET_IMAGE_BYTES(MAX_N));
    if (many == 5 && strcmp(words[1], "count") == 0) {
        flush = ORDERSET_CLFLUSH; /* the flush that valgrind knows */
        const int failed = count(words + 2);
        bench_unmap(path, image, ORDERSET_IMAGE_BYTES(MAX_N));
        return failed;
    }
    if (many == 2 && atoi(words[1]) > 0 && atoi(words[1]) <= MAX_BATCHES)
        batches = (unsigned)atoi(words[1]);
    printf("| N | B | live | eight keys | singles, S 0 | basket, S 0 | singles, S 800 | basket, S 800 "
           "|\n|---|---|---|---|---|---|---|---|\n");
    for (unsigned i = 0; i < 2; i++) {
        const uint32_t slots = i ? MAX_N : 1000;
        rows(slots, ORDERSET_HEADS_MAX, slots / 2, "half");
        rows(slots, ORDERSET_HEADS_MAX, slots - 24, "N - 24");
    }
    printf("\n| N | B | half live: replace, remove, insert | N - 2 live | N - 1 live | cleared, recovered, refilled "
           "|\n|---|---|---|---|---|---|\n");
    single_rows(1000, ORDERSET_HEADS_MAX);
    single_rows(MAX_N, ORDERSET_HEADS_MAX);
    bench_unmap(path, image, ORDERSET_IMAGE_BYTES(MAX_N));
    return 0;
}
