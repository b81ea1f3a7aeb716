#define _GNU_SOURCE
#include "fuzz.h"

#include <stdio.h>
#include <stdlib.h>
#include <sys/mman.h>
#include <unistd.h>

const char *fuzz_file(const uint8_t *data, size_t size) {
    static int file = -1;
    static char name[32];
    if (file >= 0)
        close(file);
    file = memfd_create("fuzz", MFD_CLOEXEC);
    fuzz_expect(file >= 0 && pwrite(file, data, size, 0) == (ssize_t)size, "a file in memory is made");
    snprintf(name, sizeof name, "/proc/self/fd/%d", file);
    return name;
}

void fuzz_expect(int holds, const char *what) {
    if (holds)
        return;
    fprintf(stderr, "NOT SO: %s\n", what);
    abort();
}
