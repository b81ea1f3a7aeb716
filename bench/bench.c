/* The measurements: every engine in one process, repetition by repetition in turn, so that they share the machine's
 * good and bad moments. bench [REPETITIONS [N]]     comma-separated values on standard output */
#include "bench.h"

#include <stdio.h>
#include <stdlib.h>
#include <string.h>

extern const struct engine engine_hand, engine_set, engine_journal, engine_pmemobj, engine_lmdb, engine_sqlite;

enum { ENGINES = 6, MOST = 64 };
static const struct {
    const struct engine *engine;
    unsigned writes, gets; /* batches in one repetition */
} plan[ENGINES] = {
    {&engine_hand, 32, 24},    {&engine_set, 32, 24}, {&engine_journal, 32, 24},
    {&engine_pmemobj, 16, 24}, {&engine_lmdb, 10, 8}, {&engine_sqlite, 6, 2},
};

/* The means of the repetitions, by operation. */
struct runs {
    unsigned count[OPS];
    double ns[OPS][MOST];
    struct sum counted[OPS];
};

static void print_runs(const struct config *c, unsigned setting, unsigned e, struct runs *r) {
    static const char *const op[OPS] = {"insert", "replace",     "remove", "get",     "recover",
                                        "new",    "acknowledge", "fill",   "withdraw"};
    for (int o = 0; o < OPS; o++) {
        struct sum s = r->counted[o];
        if (!r->count[o])
            continue;
        qsort(r->ns[o], r->count[o], sizeof(double), bench_by_size);
        printf("%s,%.0f,%u,%u,%u,%s,%s,%.1f,%.1f,%.2f,%.2f\n", settings[setting].name, settings[setting].delay, c->n,
               c->heads, c->size, plan[e].engine->name, op[o], r->ns[o][r->count[o] / 2], r->ns[o][0],
               s.waits / s.calls, s.flushes / s.calls);
    }
    fflush(stdout);
}

/* A repetition's mean over its undisturbed batches; in the last resort, when there were none in all repetitions, over
 * all of them. */
static void keep(struct runs *runs, const struct result *r, int last) {
    for (int o = 0; o < OPS; o++) {
        const struct sum *s = &r->clean[o];
        if (!s->calls && last && !runs->count[o])
            s = &r->all[o];
        if (s->calls && runs->count[o] < MOST)
            runs->ns[o][runs->count[o]++] = s->ns / s->calls;
        runs->counted[o].calls += r->all[o].calls;
        runs->counted[o].waits += r->all[o].waits;
        runs->counted[o].flushes += r->all[o].flushes;
    }
}

/* All engines in turn, as often as there are repetitions. Recovery does not wait, so it is measured in the first
 * setting alone. */
static void measure(const struct config *c, unsigned setting, unsigned repetitions, const int *open) {
    static struct runs runs[ENGINES];
    memset(runs, 0, sizeof runs);
    bench_set_wait(&settings[setting]);
    for (unsigned turn = 0; turn < repetitions; turn++)
        for (unsigned e = 0; e < ENGINES; e++) {
            struct result result;
            unsigned recoveries = e >= 2 || setting ? 0 : c->n < 10000 ? 20 : 4;
            if (!open[e])
                continue;
            plan[e].engine->run(c, plan[e].writes, plan[e].gets, recoveries, 1000003u * (turn + 2) + setting, &result);
            keep(&runs[e], &result, turn + 1 == repetitions);
        }
    for (unsigned e = 0; e < ENGINES; e++)
        if (open[e])
            print_runs(c, setting, e, &runs[e]);
}

static void measure_config(const struct config *c, int first_heads, unsigned repetitions) {
    int open[ENGINES];
    for (unsigned e = 0; e < ENGINES; e++) {
        open[e] = first_heads || plan[e].engine->counts_heads;
        bench_set_wait(&settings[0]);
        if (open[e] && plan[e].engine->open(c)) {
            fprintf(stderr, "%s does not open\n", plan[e].engine->name);
            exit(1);
        }
    }
    for (unsigned s = 0; s < SETTINGS; s++)
        measure(c, s, repetitions, open);
    for (unsigned e = 0; e < ENGINES; e++)
        if (open[e])
            plan[e].engine->close();
}

int main(int count, char **word) {
    static const uint32_t slots[] = {1000, 65535}, sizes[] = {24, 80};
    unsigned repetitions = count > 1 ? (unsigned)atoi(word[1]) : 21;
    uint32_t only = count > 2 ? (uint32_t)atoi(word[2]) : 0;
    if (repetitions < 1 || repetitions > MOST)
        return 2;
    bench_begin();
    printf("mode,delay,n,heads,size,engine,op,ns,least,waits,flushes\n");
    for (int n = 0; n < 2; n++)
        for (int h = 0; h < 2; h++)
            for (int v = 0; v < 2; v++) {
                struct config c = {slots[n], h ? slots[n] / 4 : 65536, sizes[v]};
                if (!only || only == c.n)
                    measure_config(&c, h == 0, repetitions);
            }
    return 0;
}
