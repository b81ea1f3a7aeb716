/* (a) for the owner of an index. */
#include "bench.h"

#define FILE_NAME "/dev/shm/orderset_bench_hand_own"
#define CALL(name) hand_own_##name
#include "hand_engine.inc"

static inline int durable(void) {
    return orderset_persist(set.image, set.length, stores.at, stores.value, flush);
}

#define ENGINE engine_hand_own
#define ENGINE_NAME "by hand (own)"
#define ENGINE_HEADS 1
#include "workload.inc"
