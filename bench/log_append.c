/* This log by append, which looks through all cells for the highest number. */
#define FILE_NAME "/dev/shm/orderset_bench_log"
#define LENDS_LAST 0
#define ENGINE log_append
#define ENGINE_NAME "append"
#include "log_set.inc"
