/* The waits of LMDB and SQLite: a symbol of the program stands before that of a shared library, so that each sync comes
 * by here, is counted and is followed by the added delay. So do the writes, of which the bytes are counted. */
#define _GNU_SOURCE
#include <sys/syscall.h>
#include <sys/uio.h>
#include <unistd.h>

#include "bench.h"

int fdatasync(int file) {
    int code = (int)syscall(SYS_fdatasync, file);
    bench_waited();
    return code;
}

int fsync(int file) {
    int code = (int)syscall(SYS_fsync, file);
    bench_waited();
    return code;
}

int msync(void *at, size_t length, int flags) {
    int code = (int)syscall(SYS_msync, at, length, flags);
    bench_waited();
    return code;
}

ssize_t pwrite(int file, const void *bytes, size_t length, off_t at) {
    bench_bytes += length;
    return syscall(SYS_pwrite64, file, bytes, length, at);
}

ssize_t writev(int file, const struct iovec *part, int parts) {
    for (int i = 0; i < parts; i++)
        bench_bytes += part[i].iov_len;
    return syscall(SYS_writev, file, part, parts);
}
