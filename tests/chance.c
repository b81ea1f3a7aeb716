#define _GNU_SOURCE
#include "chance.h"

#include <inttypes.h>
#include <stdio.h>
#include <stdlib.h>
#include <string.h>
#include <time.h>

uint64_t seed, chance_state;
static struct timespec begun;

void begin_chance(const char *test, const char *word) {
    seed = chance_state = word && *word ? strtoull(word, NULL, 10) : (uint64_t)time(NULL);
    printf("%s: seed %" PRIu64 ": ", test, seed);
    fflush(stdout);
    clock_gettime(CLOCK_MONOTONIC, &begun);
}

double seconds(void) {
    struct timespec now;
    clock_gettime(CLOCK_MONOTONIC, &now);
    return (double)(now.tv_sec - begun.tv_sec) + (double)(now.tv_nsec - begun.tv_nsec) / 1e9;
}

uint64_t spread(uint64_t low, uint64_t high) {
    uint64_t x = low + (below(high - low + 1) >> below(17));
    return x > high ? high : x;
}

void fill(void *memory, size_t length) {
    uint8_t *bytes = memory;
    while (length > 0) {
        uint64_t word = chance();
        size_t part = length < sizeof word ? length : sizeof word;
        memcpy(bytes, &word, part);
        bytes += part;
        length -= part;
    }
}
