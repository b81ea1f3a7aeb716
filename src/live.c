/* A look at a file that another process has open and writes, without its lock. docs/CUT-RULE.md, 'A look at a file in
 * use', says why the copy is the file at one moment. Nothing here is proved. */
#define _GNU_SOURCE
#include <sys/mman.h>
#include <time.h>

#include "internal.h"

/* Bytes that are copied together: whole slots, and whole cells of a log. */
enum { UNIT = 7 * ORDERSET_SLOT_BYTES, PATIENCE = 1000 /* milliseconds */ };
_Static_assert(UNIT % ORDERSET_LOG_CELL_BYTES == 0, "a unit is whole cells");

typedef uint64_t __attribute__((may_alias)) file_word;

/* One aligned word, never a part of one; no load is made before an earlier one. */
static uint64_t load_word(const file_word *w) {
    return __atomic_load_n(w, __ATOMIC_ACQUIRE);
}

/* Lines by rising number, and the words of a line from the last to the first: so the stamp is read before all that it
 * tells of. */
static void copy_unit(const file_word *file, file_word *copy, size_t lines) {
    for (size_t line = 0; line < lines; line++)
        for (size_t i = 8 * line + 8; i-- > 8 * line;)
            copy[i] = load_word(&file[i]);
}

/* The same words in the opposite order: the stamp is read after all that it tells of. */
static int is_as_copied(const file_word *file, const file_word *copy, size_t lines) {
    for (size_t line = lines; line-- > 0;)
        for (size_t i = 8 * line; i < 8 * line + 8; i++)
            if (load_word(&file[i]) != copy[i])
                return 0;
    return 1;
}

static size_t lines_at(size_t length, size_t from) {
    const size_t size = length - from < UNIT ? length - from : UNIT;
    return (size + ORDERSET_LINE_BYTES - 1) / ORDERSET_LINE_BYTES;
}

/* One pass: what is not as it was copied is copied again, and in the first one all is copied. Whether all was as it was
 * copied. */
static int pass(const uint8_t *file, uint8_t *copy, size_t length, int first) {
    int same = 1;
    for (size_t from = 0; from < length; from += UNIT) {
        const file_word *unit = (const file_word *)(const void *)(file + from);
        file_word *copied = (file_word *)(void *)(copy + from);
        const size_t lines = lines_at(length, from);
        if (!first && is_as_copied(unit, copied, lines))
            continue;
        copy_unit(unit, copied, lines);
        same = 0;
    }
    return same;
}

static int64_t milliseconds(void) {
    struct timespec now;
    clock_gettime(CLOCK_MONOTONIC, &now);
    return (int64_t)now.tv_sec * 1000 + now.tv_nsec / 1000000;
}

/* The file is mapped: read would give words in any order and perhaps in parts. Past the end of the file its last page
 * has zeros, and so has the copy. */
uint32_t orderset_live_copy(int file, uint8_t *bytes, size_t length) {
    const uint8_t *seen = mmap(NULL, length, PROT_READ, MAP_SHARED, file, 0);
    if (seen == MAP_FAILED)
        return ORDERSET_ERRNO;
    const int64_t begun = milliseconds();
    int same = pass(seen, bytes, length, 1);
    while (!same && milliseconds() - begun < PATIENCE)
        same = pass(seen, bytes, length, 0);
    munmap((void *)(uintptr_t)seen, length);
    return same ? ORDERSET_OK : ORDERSET_BUSY;
}
