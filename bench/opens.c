/* What an open for writing takes, and of it what makes the blocks of the file its own: the bytes written again, the
 * sync after that and, where the file is mapped with MAP_SYNC, a store to each page and the sync after that. Half of
 * the slots are live. Each row is the median over the opens, in microseconds. opens DIRECTORY [OPENS [1]]     with 1
 * the file is mapped as if it were on non-volatile memory */
#define _GNU_SOURCE
#include <errno.h>
#include <stdio.h>
#include <stdlib.h>
#include <string.h>
#include <sys/mman.h>
#include <time.h>
#include <unistd.h>

#include "orderset.h"

enum { MOST = 1001 };
enum part { WHOLE, READ, WRITTEN, SYNCED, STORED, MSYNCED, PARTS };

static double took[PARTS][MOST], part[PARTS], mapped_at;
static int as_memory;

static double now(void) {
    struct timespec t;
    clock_gettime(CLOCK_MONOTONIC, &t);
    return (double)t.tv_sec * 1e6 + (double)t.tv_nsec / 1e3;
}

void *__real_mmap(void *address, size_t size, int access, int flags, int file, off_t offset);
void *__wrap_mmap(void *address, size_t size, int access, int flags, int file, off_t offset);
void *__wrap_mmap(void *address, size_t size, int access, int flags, int file, off_t offset) {
    if (file >= 0 && (flags & MAP_SYNC) == MAP_SYNC && as_memory)
        flags = MAP_SHARED;
    void *mapped = __real_mmap(address, size, access, flags, file, offset);
    mapped_at = now();
    return mapped;
}

ssize_t __real_pread(int file, void *bytes, size_t size, off_t from);
ssize_t __wrap_pread(int file, void *bytes, size_t size, off_t from);
ssize_t __wrap_pread(int file, void *bytes, size_t size, off_t from) {
    const double begin = now();
    ssize_t got = __real_pread(file, bytes, size, from);
    part[READ] += now() - begin;
    return got;
}

ssize_t __real_pwrite(int file, const void *bytes, size_t size, off_t from);
ssize_t __wrap_pwrite(int file, const void *bytes, size_t size, off_t from);
ssize_t __wrap_pwrite(int file, const void *bytes, size_t size, off_t from) {
    const double begin = now();
    ssize_t put = __real_pwrite(file, bytes, size, from);
    part[WRITTEN] += now() - begin;
    return put;
}

int __real_fsync(int file);
int __wrap_fsync(int file);
int __wrap_fsync(int file) {
    const double begin = now();
    int failed = __real_fsync(file);
    part[SYNCED] += now() - begin;
    return failed;
}

int __real_msync(void *bytes, size_t size, int flags);
int __wrap_msync(void *bytes, size_t size, int flags);
int __wrap_msync(void *bytes, size_t size, int flags) {
    const double begin = now();
    int failed = __real_msync(bytes, size, flags);
    part[STORED] += begin - mapped_at;
    part[MSYNCED] += now() - begin;
    return failed;
}

static void must(uint32_t number, const char *what) {
    if (number == 0)
        return;
    fprintf(stderr, "opens: %s: %s: %s\n", what, orderset_strerror(number), strerror(errno));
    exit(1);
}

static int rises(const void *a, const void *b) {
    const double x = *(const double *)a, y = *(const double *)b;
    return (x > y) - (x < y);
}

static void measure(const char *path, uint32_t slots, unsigned opens) {
    struct orderset *set;
    struct orderset_statistics statistics;
    uint8_t *bytes = calloc(1, ORDERSET_IMAGE_BYTES(slots));
    unlink(path);
    must(orderset_create(path, slots, 1), "create");
    must(orderset_open(path, ORDERSET_READ, &set), "open");
    orderset_close(set);
    FILE *file = fopen(path, "r+b"); /* records as insert writes them, all at once */
    must(!bytes || !file || fread(bytes, 1, ORDERSET_IMAGE_BYTES(slots), file) == 0, "read");
    for (uint64_t i = 1; i <= slots / 2; i++) {
        const uint64_t a[8] = {0, i, 1 + (24 << 8), 1, 100, 0, 0, 2 * i}, b[8] = {0, 0, 0, 0, 0, 0, 0, 2 * i};
        memcpy(bytes + 128 * i, a, 64);
        memcpy(bytes + 128 * i + 64, b, 64);
    }
    rewind(file);
    must(fwrite(bytes, 1, ORDERSET_IMAGE_BYTES(slots), file) == 0 || fclose(file), "write");
    for (unsigned i = 0; i < opens; i++) {
        memset(part, 0, sizeof part);
        const double begin = now();
        must(orderset_open(path, ORDERSET_WRITE, &set), "open");
        part[WHOLE] = now() - begin;
        for (int j = 0; j < PARTS; j++)
            took[j][i] = part[j];
        orderset_stat(set, &statistics);
        must(statistics.live != slots / 2, "orders");
        orderset_close(set);
    }
    printf("| %u | %u |", slots, statistics.flush);
    for (int j = 0; j < PARTS; j++) {
        qsort(took[j], opens, sizeof took[j][0], rises);
        printf(" %.0f |", took[j][opens / 2]);
    }
    printf("\n");
    unlink(path);
    free(bytes);
}

int main(int count, char **word) {
    static char path[4096];
    const unsigned opens = count > 2 ? (unsigned)atoi(word[2]) : 101;
    must(count < 2 || opens < 1 || opens > MOST, "opens DIRECTORY [OPENS [1]]");
    as_memory = count > 3;
    snprintf(path, sizeof path, "%s/orderset_opens.img", word[1]);
    printf("| N | flush | whole | read | written | fsync | stored | msync |\n|---|---|---|---|---|---|---|---|\n");
    measure(path, 1000, opens);
    measure(path, 65535, opens);
    return 0;
}
