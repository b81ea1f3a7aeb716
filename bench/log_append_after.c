/* This log by append_after, which is lent the last number. */
#define FILE_NAME "/dev/shm/orderset_bench_log_after"
#define LENDS_LAST 1
#define ENGINE log_append_after
#define ENGINE_NAME "append_after"
#include "log_set.inc"
