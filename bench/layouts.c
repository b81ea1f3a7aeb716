/* The time of the calls in layout 1 and in layout 2: recovery and get with N - 1 orders of 24 bytes, and with half as
 * many replace, and a remove and an insert in turn, with orderset_proved_play. Orders in random slots, random keys: of
 * layout 2 both words are random, or only the high one and the low one is one of 1,000. The two layouts are timed in
 * turn. Prints, for each N, the median and the best. layouts [REPETITIONS] */
#include <stdio.h>
#include <stdlib.h>
#include <string.h>
#include <time.h>

#include "orderset_raw.h"
#include "orderset_raw.h"

enum { MAX_N = ORDERSET_SLOTS_MAX, MAX_REPETITIONS = 10000, CALLS = 512, WAYS = 3 };
enum operation { RECOVERY, GET, REPLACE, IN_TURN, OPERATIONS };

static const char *const names[OPERATIONS] = {"recovery", "get", "replace", "remove and insert"};

/* layout 1; layout 2 with random keys; layout 2 with few low words */
static const struct way {
    const char *name;
    uint64_t layout, lows;
} ways[WAYS] = {{"layout 1", ORDERSET_LAYOUT_1, 0},
                {"layout 2", ORDERSET_LAYOUT_2, 0},
                {"layout 2, 1,000 low words", ORDERSET_LAYOUT_2, 1000}};

struct set {
    uint8_t image[ORDERSET_IMAGE_BYTES(MAX_N)];
    uint32_t heads[ORDERSET_HEADS_MAX], next[MAX_N + 1], state[ORDERSET_RAW_STATE];
    uint64_t version[1], low[MAX_N], high[MAX_N];
    double took[OPERATIONS][MAX_REPETITIONS];
};

static struct set sets[WAYS];
static uint32_t n, b, live;
static uint8_t bytes[24], out[ORDERSET_VALUE_MAX];

static uint64_t seed = 1;
static uint64_t chance(void) {
    uint64_t z = seed += 0x9e3779b97f4a7c15u;
    z = (z ^ z >> 30) * 0xbf58476d1ce4e5b9u;
    z = (z ^ z >> 27) * 0x94d049bb133111ebu;
    return z ^ z >> 31;
}

static void must(int done, const char *what) {
    if (done)
        return;
    fprintf(stderr, "layouts: %s failed\n", what);
    exit(1);
}

static void recover(struct set *s, const struct way *way) {
    uint32_t voids[1], open_at[ORDERSET_INVALIDATIONS];
    uint64_t open_value[ORDERSET_INVALIDATIONS];
    must((way->layout == ORDERSET_LAYOUT_1 ? orderset_proved_recover : orderset2_proved_recover)(
             s->image, ORDERSET_IMAGE_BYTES(n), s->heads, b, s->next, n + 1, s->state, s->version, voids, open_at,
             open_value)
                 == 0
             && voids[0] == 0,
         "recover");
}

static void write_order(struct set *s, const struct way *way, uint32_t i, int is_new) {
    uint32_t at[ORDERSET_STORES];
    uint64_t value[ORDERSET_STORES], answer[ORDERSET_PROVED_CHANGE_ANSWER], code;
    const size_t length = ORDERSET_IMAGE_BYTES(n);
    if (way->layout == ORDERSET_LAYOUT_1)
        code = (is_new ? orderset_proved_insert : orderset_proved_replace)(s->image, length, s->heads, b, s->next,
                                                                           n + 1, s->state, s->version, s->low[i],
                                                                           bytes, sizeof bytes, at, value, answer);
    else
        code = (is_new ? orderset2_proved_insert
                       : orderset2_proved_replace)(s->image, length, s->heads, b, s->next, n + 1, s->state, s->version,
                                                   s->low[i], s->high[i], bytes, sizeof bytes, at, value, answer);
    must(code == 0 && orderset_proved_play(s->image, length, at, value, 8, 8) == 0, "write");
}

static void remove_order(struct set *s, const struct way *way, uint32_t i) {
    uint32_t at[ORDERSET_STORES];
    uint64_t value[ORDERSET_STORES], answer[ORDERSET_PROVED_CHANGE_ANSWER];
    const size_t length = ORDERSET_IMAGE_BYTES(n);
    uint64_t code = way->layout == ORDERSET_LAYOUT_1
                        ? orderset_proved_remove(s->image, length, s->heads, b, s->next, n + 1, s->state, s->version,
                                                 s->low[i], at, value, answer)
                        : orderset2_proved_remove(s->image, length, s->heads, b, s->next, n + 1, s->state, s->version,
                                                  s->low[i], s->high[i], at, value, answer);
    must(code == 0 && answer[0] == ORDERSET_RAW_DONE && orderset_proved_play(s->image, length, at, value, 8, 8) == 0,
         "remove");
}

static void fill(struct set *s, const struct way *way) {
    uint64_t answer[ORDERSET_PROVED_FORMAT_ANSWER];
    must(orderset_proved_format(s->image, ORDERSET_IMAGE_BYTES(n), way->layout, answer) == 0, "format");
    recover(s, way);
    for (uint32_t i = 0; i < live; i++) {
        s->low[i] = way->lows ? chance() % way->lows : chance();
        s->high[i] = chance();
        write_order(s, way, i, 1);
    }
    for (uint32_t i = 0; i < 4 * n; i++)
        write_order(s, way, (uint32_t)(chance() % live), 0);
}

static void get(struct set *s, const struct way *way, uint32_t i) {
    uint64_t answer[ORDERSET_PROVED_GET_ANSWER];
    const size_t length = ORDERSET_IMAGE_BYTES(n);
    uint64_t code =
        way->layout == ORDERSET_LAYOUT_1
            ? orderset_proved_get(s->image, length, s->heads, b, s->next, n + 1, s->low[i], out, sizeof out, answer)
            : orderset2_proved_get(s->image, length, s->heads, b, s->next, n + 1, s->low[i], s->high[i], out,
                                   sizeof out, answer);
    must(code == 0 && answer[0] == ORDERSET_RAW_DONE, "get");
}

static double nanoseconds(void) {
    struct timespec now;
    clock_gettime(CLOCK_MONOTONIC, &now);
    return (double)now.tv_sec * 1e9 + (double)now.tv_nsec;
}

static int by_size(const void *x, const void *y) {
    double a = *(const double *)x, c = *(const double *)y;
    return (a > c) - (a < c);
}

static void run(struct set *s, const struct way *way, enum operation operation) {
    for (int k = 0; operation != RECOVERY && k < CALLS; k++) {
        const uint32_t i = (uint32_t)(chance() % live);
        if (operation == GET)
            get(s, way, i);
        else if (operation == IN_TURN)
            remove_order(s, way, i), write_order(s, way, i, 1);
        else
            write_order(s, way, i, 0);
    }
    if (operation == RECOVERY)
        recover(s, way);
}

static void print(enum operation operation, unsigned repetitions) {
    const double *first = sets[0].took[operation], calls = operation == RECOVERY ? 1 : CALLS;
    for (int w = 0; w < WAYS; w++) {
        double *took = sets[w].took[operation];
        qsort(took, repetitions, sizeof *took, by_size);
        printf("N %u, B %u, %u orders, %s, %s: median %.0f ns, best %.0f ns, x layout 1: %.2f and %.2f\n", n, b, live,
               names[operation], ways[w].name, took[repetitions / 2] / calls, took[0] / calls,
               took[repetitions / 2] / first[repetitions / 2], took[0] / first[0]);
    }
}

static void measure(uint32_t slots, uint32_t heads, unsigned repetitions) {
    n = slots;
    b = heads;
    for (enum operation operation = RECOVERY; operation < OPERATIONS; operation++) {
        live = operation < REPLACE ? n - 1 : n / 2;
        for (int w = 0; w < WAYS; w++)
            fill(&sets[w], &ways[w]);
        for (unsigned r = 0; r < repetitions; r++)
            for (int w = 0; w < WAYS; w++) {
                double from = nanoseconds();
                run(&sets[w], &ways[w], operation);
                sets[w].took[operation][r] = nanoseconds() - from;
            }
        print(operation, repetitions);
    }
}

int main(int count, char **word) {
    unsigned repetitions = count > 1 ? (unsigned)atoi(word[1]) : 201;
    repetitions = repetitions < 1 ? 1 : repetitions > MAX_REPETITIONS ? MAX_REPETITIONS : repetitions;
    measure(60, 60, repetitions);
    measure(1000, 250, repetitions);
    measure(16000, 16000, repetitions);
    measure(65535, 65521, repetitions);
    return 0;
}
