/* The slots that a get compares and the time that it takes, by the number of heads B. N slots, N - 1 orders of 24 bytes
 * in random slots; a cell is the average over all held keys, the longest, and the median over the batches of a get's
 * mean time in the batch. Random 64-bit keys; keys that are multiples of B; and these keys again, with the largest
 * prime up to B in the place of B. Prints the table of docs/HEADS.md. heads [BATCHES] */
#include <stdio.h>
#include <stdlib.h>
#include <string.h>
#include <time.h>

#include "orderset_raw.h"

enum { BATCH = 128, MAX_N = 8192, MAX_BATCHES = 100000 };

static uint8_t image[ORDERSET_IMAGE_BYTES(MAX_N)], bytes[24], out[ORDERSET_VALUE_MAX];
static uint32_t n, heads[ORDERSET_HEADS_MAX], next[MAX_N + 1], state[ORDERSET_RAW_STATE], at[ORDERSET_STORES];
static uint64_t version[1], value[ORDERSET_STORES], answer[ORDERSET_PROVED_CHANGE_ANSWER], key[MAX_N];
static double took[MAX_BATCHES];
static unsigned batches = 1001;

static uint64_t seed = 1;
static uint64_t chance(void) {
    uint64_t z = seed += 0x9e3779b97f4a7c15u;
    z = (z ^ z >> 30) * 0xbf58476d1ce4e5b9u;
    z = (z ^ z >> 27) * 0x94d049bb133111ebu;
    return z ^ z >> 31;
}

static void must(int done, const char *what) {
    if (done)
        return;
    fprintf(stderr, "heads: %s failed\n", what);
    exit(1);
}

static uint32_t largest_prime(uint32_t up_to) {
    for (;; up_to--) {
        uint32_t divisor = 2;
        while (divisor * divisor <= up_to && up_to % divisor)
            divisor++;
        if (divisor * divisor > up_to)
            return up_to;
    }
}

static void recover(uint32_t b) {
    uint32_t voids[1], open_at[ORDERSET_INVALIDATIONS];
    uint64_t open_value[ORDERSET_INVALIDATIONS];
    must(orderset_proved_recover(image, ORDERSET_IMAGE_BYTES(n), heads, b, next, n + 1, state, version, voids, open_at,
                                 open_value)
                 == 0
             && voids[0] == 0,
         "recover");
}

/* Keys that are multiples of step, or random ones where it is 0, each with an order; replaces leave them in random
 * slots. */
static void fill(uint32_t step) {
    const uint32_t b = largest_prime(ORDERSET_HEADS_MAX);
    const size_t length = ORDERSET_IMAGE_BYTES(n);
    must(orderset_proved_format(image, length, ORDERSET_LAYOUT_1, answer) == 0, "format");
    recover(b);
    for (uint32_t i = 0; i < n - 1; i++) {
        key[i] = step ? (uint64_t)step * (i + 1) : chance();
        must(orderset_proved_insert(image, length, heads, b, next, n + 1, state, version, key[i], bytes, sizeof bytes,
                                    at, value, answer)
                 == 0,
             "insert");
        must(orderset_proved_play(image, length, at, value, 8, 8) == 0, "play");
    }
    for (uint32_t i = 0; i < 8 * n; i++) {
        const uint64_t any = key[chance() % (n - 1)];
        must(orderset_proved_replace(image, length, heads, b, next, n + 1, state, version, any, bytes, sizeof bytes, at,
                                     value, answer)
                 == 0,
             "replace");
        must(orderset_proved_play(image, length, at, value, 8, 8) == 0, "play");
    }
}

static uint64_t get(uint64_t any, uint32_t b) {
    must(orderset_proved_get(image, ORDERSET_IMAGE_BYTES(n), heads, b, next, n + 1, any, out, sizeof out, answer) == 0
             && answer[0] == ORDERSET_RAW_DONE,
         "get");
    return answer[ORDERSET_PROVED_GET_COMPARED];
}

static double nanoseconds(void) {
    struct timespec now;
    clock_gettime(CLOCK_MONOTONIC, &now);
    return (double)now.tv_sec * 1e9 + (double)now.tv_nsec;
}

static int by_size(const void *x, const void *y) {
    const double a = *(const double *)x, b = *(const double *)y;
    return (a > b) - (a < b);
}

/* The median over the batches; the first tenth warms the caches and is not counted. */
static double time_of_get(uint32_t b) {
    uint64_t some[BATCH];
    for (unsigned i = 0; i < batches + batches / 10; i++) {
        for (unsigned k = 0; k < BATCH; k++)
            some[k] = key[chance() % (n - 1)];
        const double from = nanoseconds();
        for (unsigned k = 0; k < BATCH; k++)
            get(some[k], b);
        took[i < batches / 10 ? i : i - batches / 10] = (nanoseconds() - from) / BATCH;
    }
    qsort(took, batches, sizeof *took, by_size);
    return took[batches / 2];
}

/* with a comma after the thousands */
static void print_number(uint64_t number) {
    if (number < 1000)
        printf("%llu", (unsigned long long)number);
    else
        printf("%llu,%03llu", (unsigned long long)number / 1000, (unsigned long long)number % 1000);
}

static void print_cell(uint32_t b) {
    uint64_t sum = 0, longest = 0;
    recover(b);
    for (uint32_t i = 0; i < n - 1; i++) {
        const uint64_t compared = get(key[i], b);
        sum += compared;
        longest = compared > longest ? compared : longest;
    }
    printf(" ");
    if (sum < 100 * (n - 1))
        printf("%.2f", (double)sum / (n - 1));
    else
        print_number(sum / (n - 1));
    printf(", ");
    print_number(longest);
    printf(", ");
    print_number((uint64_t)(time_of_get(b) + 0.5));
    printf(" ns |");
}

static void print_row(uint32_t b) {
    printf("| ");
    print_number(n);
    printf(" | ");
    print_number(b);
    printf(" |");
    fill(0);
    print_cell(b);
    fill(b);
    print_cell(b);
    printf(" ");
    print_number(largest_prime(b));
    printf(":");
    print_cell(largest_prime(b));
    printf("\n");
    fflush(stdout);
}

int main(int count, char **word) {
    static const uint32_t slots[] = {1000, 8192};
    if (count > 1)
        batches = (unsigned)atoi(word[1]);
    must(batches > 0 && batches <= MAX_BATCHES, "the number of batches");
    printf("| N | B | random keys | multiples of B | the same keys, prime B |\n|---|---|---|---|---|\n");
    for (size_t i = 0; i < sizeof slots / sizeof *slots; i++)
        for (uint32_t eighths = 1; eighths <= 64; eighths *= 2) {
            n = slots[i];
            print_row((uint32_t)((uint64_t)n * eighths / 8));
        }
    return 0;
}
