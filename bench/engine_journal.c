/* (b): a journal with two waits. As (a), but a record counts by a commit word that is written after the rest is
 * durable: stores, flush, fence, then the commit word, flush, fence. */
#include "bench.h"

#define FILE_NAME "/dev/shm/orderset_bench_journal"
#define CALL(name) hand_##name
#include "hand_engine.inc"

static inline int durable(void) {
    uint64_t commit = stores.value[7];
    stores.value[7] = 0;
    orderset_word *a = orderset_store_line(set.image, stores.at[0], stores.value);
    orderset_word *b = orderset_store_line(set.image, stores.at[8], stores.value + 8);
    orderset_flush_line(a, flush);
    orderset_flush_line(b, flush);
    orderset_fence(flush);
    orderset_store(a + 7, commit);
    orderset_flush_line(a, flush);
    orderset_fence(flush);
    return 0;
}

#define ENGINE engine_journal
#define ENGINE_NAME "two waits"
#define ENGINE_HEADS 1
#include "workload.inc"
