/* The message log beside others: every engine in one process, repetition by repetition in turn.
 *     log [REPETITIONS]    times and counts of an append
 *     log stores           the stores of an append, by what stands in its cell
 *     log count K SIZE     2,000 appends to each log by hand and to this one, for callgrind (log_count.py)
 * Comma-separated values on standard output. */
#include "log.h"

#include <stdio.h>
#include <stdlib.h>
#include <string.h>

#include "orderset_raw.h"

extern const struct log_engine log_append_after, log_append, log_checksum, log_header, log_lmdb, log_lmdb_write;

enum { ENGINES = 6, MOST = 64 };
static const struct {
    const struct log_engine *engine;
    unsigned batches; /* in one repetition */
} plan[ENGINES] = {{&log_checksum, 24}, {&log_append_after, 24}, {&log_append, 24},
                   {&log_header, 24},   {&log_lmdb, 8},          {&log_lmdb_write, 8}};

/* ---- times */

struct runs {
    unsigned count;
    double ns[MOST];
    struct log_sum counted;
};

/* A repetition's mean over its undisturbed batches; in the last resort, when there were none in all repetitions, over
 * all of them. */
static void keep(struct runs *runs, const struct log_result *r, int last) {
    const struct log_sum *s = !r->clean.calls && last && !runs->count ? &r->all : &r->clean;
    if (s->calls)
        runs->ns[runs->count++] = s->ns / s->calls;
    runs->counted.calls += r->all.calls;
    runs->counted.waits += r->all.waits;
    runs->counted.flushes += r->all.flushes;
    runs->counted.bytes += r->all.bytes;
}

static void print_runs(const struct log_config *c, const struct setting *setting, const char *engine, struct runs *r) {
    const struct log_sum *s = &r->counted;
    qsort(r->ns, r->count, sizeof(double), bench_by_size);
    printf("%s,%.0f,%zu,%zu,%s,%.1f,%.1f,%.3f,%.3f,%.1f\n", setting->name, setting->delay, c->cells, c->size, engine,
           r->ns[r->count / 2], r->ns[0], s->waits / s->calls, s->flushes / s->calls, s->bytes / s->calls);
    fflush(stdout);
}

static void measure(const struct log_config *c, const struct setting *setting, unsigned repetitions, const int *open) {
    static struct runs runs[ENGINES];
    memset(runs, 0, sizeof runs);
    bench_set_wait(setting);
    for (unsigned turn = 0; turn < repetitions; turn++)
        for (unsigned e = 0; e < ENGINES; e++)
            if (open[e]) {
                struct log_result result;
                plan[e].engine->run(c, plan[e].batches, 1000003u * (turn + 2), &result);
                keep(&runs[e], &result, turn + 1 == repetitions);
            }
    for (unsigned e = 0; e < ENGINES; e++)
        if (open[e])
            print_runs(c, setting, plan[e].engine->name, &runs[e]);
}

static void measure_config(const struct log_config *c, int first_cells, unsigned repetitions) {
    int open[ENGINES];
    bench_set_wait(&settings[0]);
    for (unsigned e = 0; e < ENGINES; e++) {
        open[e] = first_cells || plan[e].engine->counts_cells;
        if (open[e] && plan[e].engine->open(c)) {
            fprintf(stderr, "%s does not open\n", plan[e].engine->name);
            exit(1);
        }
    }
    for (unsigned s = 0; s < SETTINGS; s++)
        measure(c, &settings[s], repetitions, open);
    for (unsigned e = 0; e < ENGINES; e++)
        if (open[e])
            plan[e].engine->close();
}

static void times(unsigned repetitions) {
    static const size_t cells[] = {16, 128, 1000}, sizes[] = {64, 384};
    bench_begin();
    printf("mode,delay,cells,size,engine,ns,least,waits,flushes,bytes\n");
    for (int k = 0; k < 3; k++)
        for (int v = 0; v < 2; v++)
            measure_config(&(struct log_config){cells[k], sizes[v]}, k == 0, repetitions);
}

/* ---- instructions: LMDB appends by system calls, and is left out */

static int count_calls(size_t cells, size_t size) {
    enum { CALLS = 2000, BY_HAND_OR_THIS = 4 };
    const struct log_config c = {cells, size};
    uint64_t seed = 1;
    int bad = cells < ORDERSET_LOG_CELLS_MIN || cells > ORDERSET_LOG_CELLS_MAX || size < 1 || size > MESSAGE;
    if (bad)
        return 2;
    bench_begin();
    bench_set_wait(&settings[0]);
    for (unsigned e = 0; e < BY_HAND_OR_THIS; e++) {
        bad |= plan[e].engine->open(&c);
        for (unsigned i = 0; i < CALLS && !bad; i++)
            bad |= plan[e].engine->append(bench_values + bench_chance(&seed) % (VALUES / 8) * 8, size);
        plan[e].engine->close();
    }
    return bad;
}

/* ---- stores */

static uint8_t area[ORDERSET_LOG_BYTES(2)];

/* A message in the manner of FIX: of two of them the numbers, the time, the quantity and the price differ. */
static void like_message(uint8_t message[MESSAGE], uint64_t *seed) {
    static unsigned number;
    char text[2 * MESSAGE];
    const unsigned time = (unsigned)(bench_chance(seed) % 60000), quantity = (unsigned)(bench_chance(seed) % 10000);
    const unsigned price = 1000 + (unsigned)(bench_chance(seed) % 9000), part = ++number;
    snprintf(text, sizeof text,
             "8=FIX.4.4|9=0362|35=D|34=%08u|49=BROKER|56=EXCHANGE|52=20240105-10:15:%02u.%03u|11=ORDER-%08u|1=ACCOUNT-"
             "0001|55=EXAMPLE|48=XX0000000000|22=4|"
             "207=XEXA|54=1|38=%06u|40=2|44=%04u.%02u|15=EUR|59=0|60=20240105-10:15:%02u.%03u|21=1|18=G|100=XEXA|453=1|"
             "448=TRADER-0001|447=D|452=11|528=P|529=1|"
             "581=1|582=1|660=99|1138=%06u|58=%064u|10=%03u|",
             part, time / 1000, time % 1000, part, quantity, price / 100, price % 100, time / 1000, time % 1000,
             quantity, 0, part % 256);
    memcpy(message, text, MESSAGE);
}

/* Appends to cell 1 of two: the other one gets a message in between, so that the number goes there. Answers the count
 * of stores; lines: where they are. */
static unsigned append(const uint8_t *message, size_t size, unsigned *lines) {
    uint32_t at[ORDERSET_LOG_STORES];
    uint64_t value[ORDERSET_LOG_STORES], answer[ORDERSET_PROVED_LOG_ANSWER];
    unsigned count = 0;
    for (int turn = 0; turn < 2; turn++) {
        if (orderset_proved_log_append(area, sizeof area, turn ? (const uint8_t *)"-" : message, turn ? 1 : size, at,
                                       ORDERSET_LOG_STORES, value, ORDERSET_LOG_STORES, answer))
            exit(1);
        for (size_t i = 0; i < answer[ORDERSET_PROVED_LOG_COUNT]; i++) {
            memcpy(area + 8 * (size_t)at[i], &value[i], 8);
            *lines += !turn && (i == 0 || at[i] / 8 != at[i - 1] / 8);
        }
        count += turn ? 0 : (unsigned)answer[ORDERSET_PROVED_LOG_COUNT];
    }
    return count;
}

/* What is appended over what: messages in the manner of FIX, random bytes over as many, a message of 64 bytes over 384
 * random ones. */
enum what { FIRST, LIKE, SAME, RANDOM, OVER_LONG, WHATS };
static const char *const names[WHATS] = {"first use of a cell", "a like message", "the same message again",
                                         "other bytes of that length", "a short one over a long one"};

static void count_stores(enum what what, size_t size) {
    enum { TIMES = 1000 };
    uint8_t old[MESSAGE] = {0}, message[MESSAGE];
    unsigned stores = 0, most = 0, lines = 0, unused = 0;
    uint64_t seed = 1;
    for (int i = 0; i < TIMES; i++) {
        memset(area, 0, sizeof area);
        like_message(old, &seed);
        like_message(message, &seed);
        for (size_t k = 0; k < MESSAGE && what >= RANDOM; k++) {
            old[k] = (uint8_t)bench_chance(&seed);
            message[k] = what == RANDOM ? (uint8_t)bench_chance(&seed) : message[k];
        }
        if (what != FIRST)
            append(old, what == OVER_LONG ? MESSAGE : size, &unused);
        unsigned count = append(what == SAME ? old : message, size, &lines);
        stores += count;
        most = count > most ? count : most;
    }
    printf("%s,%zu,%.1f,%u,%.1f\n", names[what], size, (double)stores / TIMES, most, (double)lines / TIMES);
}

int main(int count, char **word) {
    unsigned repetitions = count > 1 ? (unsigned)atoi(word[1]) : 21;
    if (count > 1 && !strcmp(word[1], "stores")) {
        printf("case,size,stores,most,lines\n");
        for (int what = 0; what < WHATS; what++)
            for (size_t size = 64; size <= MESSAGE; size += MESSAGE - 64)
                if (what != OVER_LONG || size < MESSAGE)
                    count_stores((enum what)what, size);
        return 0;
    }
    if (count == 4 && !strcmp(word[1], "count"))
        return count_calls(strtoul(word[2], NULL, 10), strtoul(word[3], NULL, 10));
    if (repetitions < 1 || repetitions > MOST)
        return 2;
    times(repetitions);
    return 0;
}
