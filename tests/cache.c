#include "cache.h"

#include <string.h>

#include "chance.h"

enum { LINES = MEMORY / 64, WAITING = 32 };

size_t length;
_Alignas(4096) uint8_t visible[MEMORY];
static uint8_t durable[MEMORY];

/* the stores of a line that are not durable, the oldest first; the next fence makes the first `flushed` durable */
static struct line {
    unsigned count, flushed;
    unsigned place[WAITING];
    uint64_t value[WAITING];
} waiting[LINES];

void all_durable(void) {
    memset(waiting, 0, length / 64 * sizeof *waiting);
    memcpy(durable, visible, length);
}

/* The oldest stores of the line become durable. */
static void write_back(size_t number, unsigned stores) {
    struct line *line = &waiting[number];
    for (unsigned i = 0; i < stores; i++)
        memcpy(durable + 64 * number + 8 * line->place[i], &line->value[i], 8);
    line->count -= stores;
    line->flushed = line->flushed > stores ? line->flushed - stores : 0;
    memmove(line->place, line->place + stores, line->count * sizeof *line->place);
    memmove(line->value, line->value + stores, line->count * sizeof *line->value);
}

void power_cut(void) {
    for (size_t i = 0; i < length / 64; i++) {
        write_back(i, (unsigned)below(waiting[i].count + 1));
        waiting[i].count = waiting[i].flushed = 0;
    }
    memcpy(visible, durable, length);
}

void process_kill(void) {
    for (size_t i = 0; i < length / 64; i++)
        waiting[i].flushed = 0;
}

unsigned fuse;
jmp_buf struck;

void point(void) {
    if (fuse-- == 0)
        longjmp(struck, 1);
    if (below(32) == 0) { /* the cache writes a line back by itself */
        size_t i = below(length / 64);
        write_back(i, waiting[i].count);
    }
}

int calling;
void (*after_store)(size_t place);
unsigned stores_made;
int fenced;

void cache_store(volatile void *word, uint64_t value) {
    size_t place = (size_t)((const volatile uint8_t *)word - visible);
    struct line *line = &waiting[place / 64];
    point();
    if (line->count == WAITING)
        write_back(place / 64, WAITING);
    line->place[line->count] = place % 64 / 8;
    line->value[line->count++] = value;
    memcpy(visible + place, &value, sizeof value);
    stores_made++;
    if (after_store)
        after_store(place);
}

void cache_flush(const void *line) {
    size_t number = (size_t)((const uint8_t *)line - visible) / 64;
    point();
    waiting[number].flushed = waiting[number].count;
}

void cache_fence(void) {
    point();
    for (size_t i = 0; i < length / 64; i++)
        write_back(i, waiting[i].flushed);
    fenced |= calling;
    point();
}

void cache_sync(const void *bytes, size_t size) {
    const size_t first = (size_t)((const uint8_t *)bytes - visible) / 64;
    point();
    for (size_t i = first; i < first + (size + 63) / 64 && i < length / 64; i++)
        write_back(i, waiting[i].count);
    point();
}
