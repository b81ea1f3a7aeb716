/* The waits of libpmem: a symbol of the program stands before that of a shared library, so that each drain comes by
 * here, is counted and is followed by the added delay. */
#define _GNU_SOURCE
#include <dlfcn.h>
#include <libpmem.h>

#include "bench.h"

static void (*real_drain)(void), (*real_flush)(const void *, size_t);
static void *(*real_memmove)(void *, const void *, size_t, unsigned), *(*real_memset)(void *, int, size_t, unsigned);

static void __attribute__((constructor)) find_real(void) {
    *(void **)&real_drain = dlsym(RTLD_NEXT, "pmem_drain");
    *(void **)&real_flush = dlsym(RTLD_NEXT, "pmem_flush");
    *(void **)&real_memmove = dlsym(RTLD_NEXT, "pmem_memmove");
    *(void **)&real_memset = dlsym(RTLD_NEXT, "pmem_memset");
}

void pmem_drain(void) {
    real_drain();
    bench_waited();
}

void pmem_flush(const void *at, size_t length) {
    bench_flushes += (((uintptr_t)at & 63) + length + 63) / 64;
    real_flush(at, length);
}

void pmem_persist(const void *at, size_t length) {
    pmem_flush(at, length);
    pmem_drain();
}

static void drain_unless(unsigned flags) {
    if (!(flags & (PMEM_F_MEM_NODRAIN | PMEM_F_MEM_NOFLUSH)))
        pmem_drain();
}

void *pmem_memmove(void *to, const void *from, size_t length, unsigned flags) {
    real_memmove(to, from, length, flags | PMEM_F_MEM_NODRAIN);
    drain_unless(flags);
    return to;
}

void *pmem_memcpy(void *to, const void *from, size_t length, unsigned flags) {
    return pmem_memmove(to, from, length, flags);
}

void *pmem_memset(void *to, int byte, size_t length, unsigned flags) {
    real_memset(to, byte, length, flags | PMEM_F_MEM_NODRAIN);
    drain_unless(flags);
    return to;
}

void *pmem_memmove_persist(void *to, const void *from, size_t length) {
    return pmem_memmove(to, from, length, 0);
}

void *pmem_memcpy_persist(void *to, const void *from, size_t length) {
    return pmem_memmove(to, from, length, 0);
}

void *pmem_memset_persist(void *to, int byte, size_t length) {
    return pmem_memset(to, byte, length, 0);
}

void *pmem_memmove_nodrain(void *to, const void *from, size_t length) {
    return pmem_memmove(to, from, length, PMEM_F_MEM_NODRAIN);
}

void *pmem_memcpy_nodrain(void *to, const void *from, size_t length) {
    return pmem_memmove(to, from, length, PMEM_F_MEM_NODRAIN);
}

void *pmem_memset_nodrain(void *to, int byte, size_t length) {
    return pmem_memset(to, byte, length, PMEM_F_MEM_NODRAIN);
}
