/* bench.h: what the engines and the driver of the measurements share. */
#ifndef BENCH_H
#define BENCH_H

#include <stddef.h>
#include <stdint.h>
#include <x86intrin.h>

enum { VALUES = 65536, KEPT = 512 };

struct config {
    uint32_t n, heads, size; /* slots, heads, bytes of a value; half of the slots are live */
};

/* What one repetition of one engine took, operation by operation: the calls of the batches during which the thread was
 * not preempted, and of all. */
enum op { INSERT, REPLACE, REMOVE, GET, RECOVER, NEW, ACKNOWLEDGE, FILL, WITHDRAW, OPS };
struct sum {
    double calls, ns, waits, flushes;
};
struct result {
    struct sum clean[OPS], all[OPS];
};

/* The calls of an engine one by one: 0 for done, of get the length. A basket is of FOUR keys and their values, 80 bytes
 * apart; NULL where there is none. */
enum { FOUR = 4 };
struct calls {
    int (*open)(const struct config *);
    void (*close)(void);
    int (*restart)(void);
    int (*insert)(uint64_t key, const uint8_t *bytes, size_t size);
    int (*replace)(uint64_t key, const uint8_t *bytes, size_t size);
    int (*remove)(uint64_t key);
    int (*basket)(const uint32_t *kinds, const uint64_t *keys, const uint8_t *bytes, size_t size);
    int (*get)(uint64_t key, uint8_t *out);
};

struct engine {
    const char *name;
    int counts_heads; /* its work goes by the number of heads */
    int (*open)(const struct config *);
    void (*close)(void);
    void (*run)(const struct config *, unsigned writes, unsigned gets, unsigned recoveries, uint64_t seed,
                struct result *);
    struct calls call;
};

/* A wait is over when the fence is and, as the memory would have it, some more time has passed.
 * strict: the fence is followed by mfence and lfence, since on some processors sfence alone does not wait for the
 * flush; then the delay is spun. Not strict, with no delay: sfence alone, as in the paper. */
extern int bench_strict, bench_slow;                     /* slow: strict or delayed */
extern uint64_t bench_delay;                             /* ticks */
extern uint64_t bench_waits, bench_flushes, bench_bytes; /* bytes: those that a log's append stores */
extern double bench_ticks_per_ns;
extern uint8_t bench_values[VALUES + KEPT];

static inline void bench_waited(void) {
    bench_waits++;
    if (__builtin_expect(bench_slow, 0)) {
        if (bench_strict) {
            _mm_mfence();
            _mm_lfence();
        }
        if (bench_delay) {
            uint64_t from = __rdtsc();
            while (__rdtsc() - from < bench_delay)
                ;
        }
    }
}

#define ORDERSET_FLUSHED() (bench_flushes++)
#define ORDERSET_FENCED() bench_waited()

static inline uint64_t bench_chance(uint64_t *state) {
    uint64_t z = *state += 0x9e3779b97f4a7c15u;
    z = (z ^ z >> 30) * 0xbf58476d1ce4e5b9u;
    z = (z ^ z >> 27) * 0x94d049bb133111ebu;
    return z ^ z >> 31;
}

/* The waits that are measured. */
enum { SETTINGS = 4 };
struct setting {
    const char *name;
    int strict;
    double delay; /* ns */
};
extern const struct setting settings[SETTINGS];
void bench_set_wait(const struct setting *);

void bench_begin(void);                           /* once: the clock and the values */
long bench_preempted(void);                       /* how often the thread was preempted so far */
int bench_by_size(const void *, const void *);    /* doubles, for qsort */
void *bench_map(const char *path, size_t length); /* a new file in /dev/shm, mapped */
void bench_unmap(const char *path, void *memory, size_t length);

/* Where this is a path, it takes the place of all others, with a digit for the first, the second and the third mapping
 * of an engine; the files stay. So engines that are open one at a time have the same pages. */
extern const char *bench_shared;
void bench_name(char *name, size_t room, unsigned place); /* that path */

#define NOINLINE __attribute__((noipa))

#endif
