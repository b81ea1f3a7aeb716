/* This set: the proved archive's calls for the owner of an index. */
#include "bench.h"

#define FILE_NAME "/dev/shm/orderset_bench_own"
#define CALL(name) orderset_raw_own_##name
#include "set_engine.inc"

#define ENGINE engine_own
#define ENGINE_BOOK 1
#define ENGINE_BASKET 1
#define ENGINE_NAME "owner's calls"
#define ENGINE_HEADS 1
#include "workload.inc"
