/* (b): the write-ahead log by hand with its end in the header, two waits. */
#define FILE_NAME "/dev/shm/orderset_bench_header"
#define HEADER_ALWAYS 1
#define ENGINE log_header
#define ENGINE_NAME "two waits"
#include "log_checksum.inc"
