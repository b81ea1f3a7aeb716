/* (a): the write-ahead log by hand, one wait. */
#define FILE_NAME "/dev/shm/orderset_bench_checksum"
#define HEADER_ALWAYS 0
#define ENGINE log_checksum
#define ENGINE_NAME "checksum"
#include "log_checksum.inc"
