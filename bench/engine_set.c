/* This set: the proved archive's calls for any index. */
#include "bench.h"

#define FILE_NAME "/dev/shm/orderset_bench_set"
#define CALL(name) orderset_raw_##name
#include "set_engine.inc"

#define ENGINE engine_set
#define ENGINE_BOOK 1
#define ENGINE_BASKET 1
#define ENGINE_NAME "this set"
#define ENGINE_HEADS 1
#include "workload.inc"
