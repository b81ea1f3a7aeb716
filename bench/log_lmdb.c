/* LMDB with a writable map, its faster mode, synced by msync. */
#define FLAGS MDB_WRITEMAP
#define FILE_NAME "/dev/shm/orderset_bench_log_lmdb"
#define ENGINE log_lmdb
#define ENGINE_NAME "LMDB"
#include "log_lmdb.inc"
