/* log.h: what the logs and the driver of their measurements share. */
#ifndef LOG_H
#define LOG_H

#include "bench.h"

enum { MESSAGE = 384 };

struct log_config {
    size_t cells, size; /* of this log; messages kept by the others: as many, or more */
};

/* What one repetition took: the appends of the batches during which the thread was not preempted, and of all. */
struct log_sum {
    double calls, ns, waits, flushes, bytes;
};
struct log_result {
    struct log_sum clean, all;
};

struct log_engine {
    const char *name;
    int counts_cells; /* its work goes by the number of cells */
    int (*open)(const struct log_config *);
    void (*close)(void);
    void (*run)(const struct log_config *, unsigned batches, uint64_t seed, struct log_result *);
    int (*append)(const uint8_t *message, size_t size); /* for callgrind */
};

#endif
