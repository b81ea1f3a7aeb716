/* LMDB with writes and fdatasync, its default: the bytes that it stores can be counted. */
#define FLAGS 0
#define FILE_NAME "/dev/shm/orderset_bench_log_lmdb_write"
#define ENGINE log_lmdb_write
#define ENGINE_NAME "LMDB writes"
#include "log_lmdb.inc"
