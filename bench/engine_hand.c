/* (a): the same method written by hand in C, with the persist of the header. */
#include "bench.h"

#define FILE_NAME "/dev/shm/orderset_bench_hand"
#define CALL(name) hand_##name
#include "hand_engine.inc"

static inline int durable(void) {
    return orderset_persist(set.image, set.length, stores.at, stores.value, flush);
}

#define ENGINE engine_hand
#define ENGINE_NAME "by hand"
#define ENGINE_HEADS 1
#include "workload.inc"
