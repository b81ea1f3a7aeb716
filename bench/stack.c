/* stack: the stack that recovery and the count of slots use, by the number of slots, in both layouts. Each runs in a
 * thread whose stack was filled with one byte before; what is no longer that byte was used. What the thread takes for
 * itself is in it, and stands in the last column. */
#define _GNU_SOURCE
#include <pthread.h>
#include <stdio.h>
#include <stdlib.h>
#include <string.h>
#include <sys/mman.h>

#include "orderset_raw.h"
#include "orderset_raw.h"

enum { STACK = 8 << 20, FILL = 0xa5, HEADS = 65536 };

static uint8_t *image;
static size_t length;
static uint32_t heads[HEADS], next[ORDERSET_SLOTS_MAX + 1], state[ORDERSET_RAW_STATE], count[1],
    at[ORDERSET_INVALIDATIONS];
static uint64_t version[1], value[ORDERSET_INVALIDATIONS], counts[ORDERSET_COUNTS], returned;

#define LENT image, length, heads, HEADS, next, length / ORDERSET_SLOT_BYTES

static void *nothing(void *argument) {
    return argument;
}

static void *recover(void *argument) {
    returned = orderset_proved_recover(LENT, state, version, count, at, value);
    return argument;
}

static void *recover2(void *argument) {
    returned = orderset2_proved_recover(LENT, state, version, count, at, value);
    return argument;
}

static void *count_slots(void *argument) {
    returned = orderset_proved_count_slots(LENT, counts);
    return argument;
}

static void *count_slots2(void *argument) {
    returned = orderset2_proved_count_slots(LENT, counts);
    return argument;
}

static size_t used(void *(*work)(void *)) {
    pthread_attr_t attributes;
    pthread_t thread;
    size_t free_bytes = 0;
    uint8_t *stack = mmap(NULL, STACK, PROT_READ | PROT_WRITE, MAP_PRIVATE | MAP_ANONYMOUS, -1, 0);
    if (stack == MAP_FAILED)
        abort();
    memset(stack, FILL, STACK);
    returned = 0;
    if (pthread_attr_init(&attributes) || pthread_attr_setstack(&attributes, stack, STACK)
        || pthread_create(&thread, &attributes, work, NULL) || pthread_join(thread, NULL) || returned)
        abort();
    pthread_attr_destroy(&attributes);
    while (free_bytes < STACK && stack[free_bytes] == FILL)
        free_bytes++;
    munmap(stack, STACK);
    return STACK - free_bytes;
}

int main(void) {
    static const size_t sizes[] = {1000, 4095, 4096, 16383, 16384, 65535};
    uint64_t answer[ORDERSET_PROVED_FORMAT_ANSWER];
    puts("layout, N, recovery, count_slots, the thread itself (bytes)");
    for (uint64_t layout = 1; layout <= 2; layout++) {
        for (size_t i = 0; i < sizeof sizes / sizeof *sizes; i++) {
            length = ORDERSET_IMAGE_BYTES(sizes[i]);
            image = calloc(1, length);
            if (!image || orderset_proved_format(image, length, layout, answer))
                abort();
            printf("%d, %zu, %zu, %zu, %zu\n", (int)layout, sizes[i], used(layout == 1 ? recover : recover2),
                   used(layout == 1 ? count_slots : count_slots2), used(nothing));
            free(image);
        }
    }
    return 0;
}
