/* sender: watches line A of one slot of an image file and says what it sees whenever that changes.
 *
 *     sender FILE SLOT VERSION [CHANGES]
 *
 * It prints whether the line is whole, its version, and the first and the last word that a call which writes VERSION
 * would store into it. It ends when CHANGES lines are printed; without CHANGES it runs until it is killed:
 *
 *     slot 1: whole, version 3; for version 5: first word 1, last word 11
 *
 * Status 1: something was refused or failed. 2: the arguments are not of this form.
 *
 * The answers are those of the library's functions, which are proved; this program is not. It only reads and takes no
 * lock, so that a gateway may write to the file meanwhile. What changes and changes back between two looks is not seen,
 * and what is seen is perhaps not durable yet. */
#define _GNU_SOURCE
#include <errno.h>
#include <fcntl.h>
#include <inttypes.h>
#include <stdio.h>
#include <stdlib.h>
#include <string.h>
#include <sys/mman.h>
#include <sys/stat.h>
#include <unistd.h>

#include "orderset_raw.h"

enum { FAILED = 1, USAGE = 2, WORDS = ORDERSET_LINE_BYTES / 8, PAUSE = 200 /* microseconds between two looks */ };

struct seen {
    uint64_t whole, version, first, last;
};

static _Noreturn void fail(const char *what) {
    fprintf(stderr, "sender: %s: %s\n", what, strerror(errno));
    exit(FAILED);
}

/* The words of the line, each in one load, from the stamp down to the mark. A writer stores them the other way round,
 * first of all the mark against the stamp's close bit. So if the copy is whole, its words are those of one record,
 * unless the line was written twice while it was copied. */
static void copy_line(uint64_t copy[WORDS], const uint64_t *line) {
    for (int i = WORDS - 1; i >= 0; i--)
        copy[i] = __atomic_load_n(line + i, __ATOMIC_ACQUIRE);
}

static struct seen look(const uint64_t *line, uint64_t version) {
    uint64_t copy[WORDS];
    copy_line(copy, line);
    struct seen seen = {(uint64_t)orderset_raw_line_whole(copy), orderset_raw_line_version(copy), 0, 0};
    uint32_t refusal = orderset_raw_line_first(copy, version, &seen.first);
    if (!refusal)
        refusal = orderset_raw_line_last(copy, version, &seen.last);
    if (!refusal)
        return seen;
    fprintf(stderr, "sender: no %" PRIu32 "\n", refusal);
    exit(FAILED);
}

/* Line A of the slot, mapped for reading. */
static const uint64_t *map_line(const char *path, uint64_t slot) {
    struct stat found;
    int file = open(path, O_RDONLY | O_CLOEXEC);
    if (file < 0 || fstat(file, &found))
        fail(path);
    if (slot == 0 || slot >= (uint64_t)found.st_size / ORDERSET_SLOT_BYTES) {
        fprintf(stderr, "sender: %s has no slot %" PRIu64 "\n", path, slot);
        exit(FAILED);
    }
    const uint64_t *image = mmap(NULL, (size_t)found.st_size, PROT_READ, MAP_SHARED, file, 0);
    if (image == MAP_FAILED)
        fail(path);
    return image + slot * ORDERSET_SLOT_BYTES / 8;
}

/* A number of 64 bits in decimal digits, or the program ends. */
static uint64_t number(const char *word) {
    char *end;
    errno = 0;
    uint64_t value = strtoull(word, &end, 10);
    if (errno == 0 && *word >= '0' && *word <= '9' && *end == 0)
        return value;
    fprintf(stderr, "sender: '%s' is no number\n", word);
    exit(USAGE);
}

int main(int count, char **word) {
    struct seen last = {0, 0, 0, 0}, now;
    if (count < 4 || count > 5) {
        fprintf(stderr, "sender FILE SLOT VERSION [CHANGES]\n");
        return USAGE;
    }
    const uint64_t slot = number(word[2]), version = number(word[3]),
                   changes = count == 5 ? number(word[4]) : UINT64_MAX;
    const uint64_t *line = map_line(word[1], slot);
    for (uint64_t printed = 0; printed < changes; usleep(PAUSE)) {
        now = look(line, version);
        if (printed > 0 && !memcmp(&now, &last, sizeof now))
            continue;
        printf("slot %" PRIu64 ": %s, version %" PRIu64 "; for version %" PRIu64 ": first word %" PRIu64
               ", last word %" PRIu64 "\n",
               slot, now.whole ? "whole" : "open", now.version, version, now.first, now.last);
        if (fflush(stdout))
            fail("standard output");
        last = now;
        printed++;
    }
    return 0;
}
