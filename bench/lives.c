/* Tails: what each single call takes in four lives of a set, by engine.
 *     fresh       a new set is filled to the half, and then changed
 *     worn        every slot was written several times
 *     restarted   the worn set after a restart
 *     next day    45 % of the slots were put and withdrawn, then came a restart; orders come and go, 50 open at a time
 * Every call is timed by itself, the clock's own time taken off. Calls are made in batches, and a batch during which
 * the thread was preempted does not count. An interrupt is no preemption, so that it is seen as a long call. Each turn
 * makes the same calls, with the engines in another order and on the same pages: a call that an interrupt or other work
 * made longer in one turn is told apart by its least time over the turns. Each wait is over before the clock is read (S
 * 0 of bench.h). Values of 24 bytes. lives [TURNS [N]]     comma-separated values on standard output */
#include "bench.h"

#include <math.h>
#include <stdio.h>
#include <stdlib.h>
#include <string.h>
#include <unistd.h>

#include "orderset_raw.h"

extern const struct engine engine_hand, engine_hand_own, engine_set, engine_own, engine_handle, engine_pmemobj,
    engine_lmdb, engine_sqlite;

enum { SIZE = 24, OPEN = 50, BATCH = 32, MOST_TURNS = 15, MAX_N = 65535 };
enum life { FRESH, WORN, RESTARTED, NEXT_DAY, LIVES };
enum { BASKET = GET + 1, TIMED };
static const double BATCH_NS = 2e5, LONG_NS = 1e4;
static const char *const life_name[LIVES] = {"fresh", "worn", "restarted", "next day"};
static const char *const op_name[TIMED] = {
    [INSERT] = "insert", [REPLACE] = "replace", [REMOVE] = "remove", [GET] = "get", [BASKET] = "basket"};

static const struct {
    const struct engine *engine;
    unsigned share; /* of the calls it makes one in so many */
    unsigned turns; /* it takes part in the first ones: two where calls look through the image */
} plan[] = {
    {&engine_hand, 1, 2},
    {&engine_hand_own, 1, MOST_TURNS},
    {&engine_set, 1, 2},
    {&engine_own, 1, MOST_TURNS},
    {&engine_handle, 1, MOST_TURNS},
#ifdef OTHERS
    {&engine_pmemobj, 8, MOST_TURNS},
    {&engine_lmdb, 8, MOST_TURNS},
    {&engine_sqlite, 16, 2},
#endif
};
enum { ENGINES = sizeof plan / sizeof plan[0] };

static void must(int done, const char *what) {
    if (done)
        return;
    fprintf(stderr, "lives: %s failed\n", what);
    exit(1);
}

/* ---- the times of one kind of call in one life */

struct times {
    float *each;                     /* of all turns, where nothing was preempted */
    float *least;                    /* of each call, over the turns */
    size_t count, room, made, calls; /* made: in this turn; calls: in a turn */
};
static struct times times[ENGINES][LIVES][TIMED];

static size_t grown(size_t room) {
    return room ? 2 * room : 4096;
}

static void keep_call(struct times *t, float ns, int clean) {
    if (t->made == t->calls) {
        if (t->calls % 4096 == 0)
            t->least = realloc(t->least, (t->calls + 4096) * sizeof *t->least);
        must(t->least != NULL, "memory");
        t->least[t->calls++] = INFINITY;
    }
    if (clean && ns < t->least[t->made])
        t->least[t->made] = ns;
    t->made++;
    if (!clean)
        return;
    if (t->count == t->room)
        t->each = realloc(t->each, (t->room = grown(t->room)) * sizeof *t->each);
    must(t->each != NULL, "memory");
    t->each[t->count++] = ns;
}

static int rises(const void *x, const void *y) {
    float a = *(const float *)x, b = *(const float *)y;
    return (a > b) - (a < b);
}

static void print_tail(const float *sorted, size_t count) {
    printf(",%.0f,%.0f,%.0f,%.0f", sorted[count / 2], sorted[count * 99 / 100], sorted[count * 999 / 1000],
           sorted[count - 1]);
}

static void print_times(const struct config *c, unsigned e, unsigned life, unsigned op) {
    struct times *t = &times[e][life][op];
    size_t longer = 0, always = 0;
    double sum = 0;
    if (!t->count)
        return;
    qsort(t->each, t->count, sizeof *t->each, rises);
    qsort(t->least, t->calls, sizeof *t->least, rises);
    while (t->least[t->calls - 1] == INFINITY) /* preempted in every turn */
        t->calls--;
    for (size_t i = 0; i < t->count; i++)
        longer += t->each[i] > LONG_NS;
    for (size_t i = 0; i < t->calls; i++)
        if (t->least[i] > LONG_NS) {
            always++;
            sum += t->least[i];
        }
    printf("%u,%u,%s,%s,%s,%zu,%zu,%zu,%.0f", c->n, c->heads, life_name[life], plan[e].engine->name, op_name[op],
           t->count, longer, always, always ? sum / (double)always : 0);
    print_tail(t->each, t->count);
    print_tail(t->least, t->calls);
    printf("\n");
    free(t->each);
    free(t->least);
    *t = (struct times){0};
}

/* ---- a call, and the batch that it is in */

static const struct calls *call;
static struct times (*now)[TIMED]; /* of the engine, by life */
static int life;                   /* that is timed, or -1 */
static double clock_ns;
static struct {
    unsigned op;
    float ns;
} batch[BATCH];
static unsigned batched;
static double batch_ns;
static long preempted;

static inline uint64_t ticks(void) {
    _mm_lfence();
    uint64_t found = __rdtsc();
    _mm_lfence();
    return found;
}

static void end_batch(void) {
    const long after = bench_preempted();
    for (unsigned i = 0; i < batched; i++)
        keep_call(&now[life][batch[i].op], batch[i].ns, after == preempted);
    batched = 0;
    batch_ns = 0;
    preempted = bench_preempted();
}

static void timed(unsigned op, uint64_t from) {
    const double ns = (double)(ticks() - from) / bench_ticks_per_ns - clock_ns;
    if (life < 0)
        return;
    batch[batched].op = op;
    batch[batched++].ns = (float)(ns > 0 ? ns : 0);
    batch_ns += ns;
    if (batched == BATCH || batch_ns > BATCH_NS)
        end_batch();
}

static void begin_life(int which) {
    if (life >= 0)
        end_batch();
    life = which;
    preempted = bench_preempted();
}

/* The clock's own time: the middle of many. */
static void time_clock(void) {
    static double took[10001];
    for (unsigned i = 0; i < 10001; i++) {
        uint64_t from = ticks();
        took[i] = (double)(ticks() - from) / bench_ticks_per_ns;
    }
    qsort(took, 10001, sizeof took[0], bench_by_size);
    clock_ns = took[5000];
}

/* ---- the keys that are held, and the calls */

static uint64_t held[MAX_N + OPEN], seed;
static uint32_t count, stored; /* stored: slots that were taken */

static uint64_t chance(void) {
    return bench_chance(&seed);
}

static const uint8_t *some_value(void) {
    return bench_values + chance() % VALUES / 8 * 8;
}

static void insert(void) {
    const uint64_t key = chance();
    const uint8_t *value = some_value();
    const uint64_t from = ticks();
    const int failed = call->insert(key, value, SIZE);
    timed(INSERT, from);
    must(!failed, "insert");
    held[count++] = key;
    stored++;
}

static void replace(uint32_t i) {
    const uint8_t *value = some_value();
    const uint64_t key = held[i], from = ticks();
    const int failed = call->replace(key, value, SIZE);
    timed(REPLACE, from);
    must(!failed, "replace");
    stored++;
}

static void drop(uint32_t i) {
    const uint64_t key = held[i], from = ticks();
    const int failed = call->remove(key);
    timed(REMOVE, from);
    must(!failed, "remove");
    held[i] = held[--count];
    stored++;
}

static void get(void) {
    uint8_t out[ORDERSET_VALUE_MAX];
    const uint64_t key = held[chance() % count], from = ticks();
    const int size = call->get(key, out);
    timed(GET, from);
    must(size == SIZE, "get");
}

/* Two keys are replaced, one is removed and one inserted: by a basket where there is one. */
static void basket(void) {
    const uint32_t at = (uint32_t)(chance() % (count - 2));
    if (!call->basket) {
        replace(at);
        replace(at + 1);
        drop(at + 2);
        insert();
        return;
    }
    const uint32_t kinds[ORDERSET_BASKET_MAX] = {ORDERSET_REPLACE, ORDERSET_REPLACE, ORDERSET_REMOVE, ORDERSET_INSERT};
    const uint64_t keys[ORDERSET_BASKET_MAX] = {held[at], held[at + 1], held[at + 2], chance()};
    const uint8_t *values = bench_values + chance() % (VALUES - ORDERSET_BASKET_BYTES);
    const uint64_t from = ticks();
    const int failed = call->basket(kinds, keys, values, SIZE);
    timed(BASKET, from);
    must(!failed, "basket");
    held[at + 2] = keys[3];
    stored += FOUR;
}

/* ---- lives */

static void change(uint32_t steps) {
    for (uint32_t i = 0; i < steps; i++) {
        const uint64_t kind = chance() % 8;
        if (kind < 3) {
            replace((uint32_t)(chance() % count));
        } else if (kind < 6) {
            drop((uint32_t)(chance() % count));
            insert();
        } else if (kind < 7) {
            get();
        } else {
            basket();
        }
    }
}

static void wear(unsigned rounds) {
    for (unsigned round = 0; round < rounds; round++)
        for (uint32_t i = 0; i < count; i++)
            if (chance() % 2) {
                replace(i);
            } else {
                drop(i);
                insert();
            }
}

static void three_lives(const struct config *c, unsigned share) {
    must(call->open(c) == 0, "open");
    count = 0;
    begin_life(FRESH);
    while (count < c->n / 2)
        insert();
    change(c->n / share);
    begin_life(-1);
    wear(share == 1 ? 8 : 2);
    begin_life(WORN);
    change(c->n / share);
    begin_life(-1);
    must(call->restart() == 0, "restart");
    begin_life(RESTARTED);
    change(c->n / share);
    begin_life(-1);
    call->close();
}

static void next_day(const struct config *c, unsigned share) {
    const uint32_t orders = (uint32_t)(c->n * 45ul / 100);
    must(call->open(c) == 0, "open");
    count = 0;
    while (count < orders)
        insert();
    while (count)
        drop(0);
    must(call->restart() == 0, "restart");
    begin_life(NEXT_DAY);
    for (stored = 0; stored < 2 * c->n / share;) {
        if (count == OPEN)
            drop((uint32_t)(chance() % count));
        else
            insert();
        const uint64_t kind = chance() % 16;
        if (kind < 4)
            replace((uint32_t)(chance() % count));
        else if (kind < 8)
            get();
        else if (kind == 8 && count > 3)
            basket();
    }
    begin_life(-1);
    call->close();
}

/* Small sets are made anew so often that there are as many calls as in a large one. */
static void run(const struct config *c, unsigned e) {
    const unsigned share = plan[e].share, sets = (MAX_N / c->n + share - 1) / share;
    call = &plan[e].engine->call;
    now = times[e];
    seed = c->n;
    for (unsigned l = 0; l < LIVES; l++)
        for (unsigned op = 0; op < TIMED; op++)
            now[l][op].made = 0;
    for (unsigned i = 0; i < sets; i++) {
        three_lives(c, sets == 1 ? share : 1);
        next_day(c, sets == 1 ? share : 1);
    }
}

static void measure(const struct config *c, unsigned turns) {
    uint64_t order_seed = 1;
    for (unsigned turn = 0; turn < turns; turn++) {
        unsigned order[ENGINES] = {0};
        for (unsigned i = 0; i < ENGINES; i++) {
            const unsigned place = (unsigned)(bench_chance(&order_seed) % (i + 1));
            order[i] = order[place];
            order[place] = i;
        }
        for (unsigned i = 0; i < ENGINES; i++)
            if (turn < plan[order[i]].turns)
                run(c, order[i]);
    }
    for (unsigned l = 0; l < LIVES; l++)
        for (unsigned e = 0; e < ENGINES; e++)
            for (unsigned op = 0; op < TIMED; op++)
                print_times(c, e, l, op);
    fflush(stdout);
}

int main(int words, char **word) {
    /* the largest prime up to N, as the handle has it */
    static const struct config configs[] = {{1000, 997, SIZE}, {MAX_N, 65521, SIZE}};
    const unsigned turns = words > 1 ? (unsigned)atoi(word[1]) : 5;
    const uint32_t only = words > 2 ? (uint32_t)atoi(word[2]) : 0;
    must(turns >= 1 && turns <= MOST_TURNS, "lives [TURNS [N]]");
    bench_begin();
    bench_shared = "/dev/shm/orderset_lives";
    bench_set_wait(&settings[1]);
    life = -1;
    time_clock();
    fprintf(stderr, "lives: the clock takes %.0f ns, which are taken off each call\n", clock_ns);
    printf("n,heads,life,engine,op,calls,long,always_long,long_mean,seen_median,seen_p99,seen_p999,seen_worst,median,"
           "p99,p999,worst\n");
    for (unsigned i = 0; i < 2; i++)
        if (!only || only == configs[i].n)
            measure(&configs[i], turns);
    for (unsigned place = 0; place < 3; place++) {
        char name[64];
        bench_name(name, sizeof name, place);
        unlink(name);
    }
    return 0;
}
