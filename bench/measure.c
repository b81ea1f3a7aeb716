/* What the drivers of the measurements share: files in /dev/shm, the clock, the waits, and whether the thread was
 * preempted. */
#define _GNU_SOURCE
#include "bench.h"

#include <fcntl.h>
#include <stdio.h>
#include <stdlib.h>
#include <sys/mman.h>
#include <sys/resource.h>
#include <time.h>
#include <unistd.h>

int bench_strict, bench_slow;
uint64_t bench_delay, bench_waits, bench_flushes, bench_bytes;
double bench_ticks_per_ns;
const char *bench_shared;
uint8_t bench_values[VALUES + KEPT] __attribute__((aligned(64)));

const struct setting settings[SETTINGS] = {{"P", 0, 0}, {"S", 1, 0}, {"S", 1, 200}, {"S", 1, 800}};

static unsigned mappings; /* of shared files */

void bench_name(char *name, size_t room, unsigned place) {
    snprintf(name, room, "%s%u", bench_shared, place);
}

void *bench_map(const char *path, size_t length) {
    char name[64];
    if (bench_shared)
        bench_name(name, sizeof name, mappings++);
    int file = bench_shared ? open(name, O_RDWR | O_CREAT, 0600) : open(path, O_RDWR | O_CREAT | O_TRUNC, 0600);
    if (file < 0 || ftruncate(file, (off_t)length)) {
        perror(path);
        exit(1);
    }
    void *memory = mmap(NULL, length, PROT_READ | PROT_WRITE, MAP_SHARED | MAP_POPULATE, file, 0);
    if (memory == MAP_FAILED) {
        perror(path);
        exit(1);
    }
    close(file);
    return memory;
}

void bench_unmap(const char *path, void *memory, size_t length) {
    munmap(memory, length);
    if (bench_shared)
        mappings--;
    else
        unlink(path);
}

static double nanoseconds(void) {
    struct timespec t;
    clock_gettime(CLOCK_MONOTONIC, &t);
    return (double)t.tv_sec * 1e9 + (double)t.tv_nsec;
}

static void calibrate(void) {
    double from = nanoseconds(), to;
    uint64_t ticks = __rdtsc();
    do
        to = nanoseconds();
    while (to - from < 2e8);
    bench_ticks_per_ns = (double)(__rdtsc() - ticks) / (to - from);
}

void bench_begin(void) {
    uint64_t seed = 7;
    calibrate();
    for (size_t i = 0; i < sizeof bench_values; i++)
        bench_values[i] = (uint8_t)bench_chance(&seed);
}

long bench_preempted(void) {
    struct rusage use;
    getrusage(RUSAGE_THREAD, &use);
    return use.ru_nivcsw;
}

void bench_set_wait(const struct setting *s) {
    bench_strict = s->strict;
    bench_delay = (uint64_t)(s->delay * bench_ticks_per_ns);
    bench_slow = s->strict || bench_delay;
}

int bench_by_size(const void *x, const void *y) {
    double a = *(const double *)x, b = *(const double *)y;
    return (a > b) - (a < b);
}
