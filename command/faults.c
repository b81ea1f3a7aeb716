/* Where a set that recovery refuses is at fault, and what to do: for orderset check. */
#include <inttypes.h>
#include <stdlib.h>
#include <string.h>

#include "tool.h"

enum { WORDS = 16, SHOWN = 20 /* slots, at the most, that are printed one by one */ };

/* ---- the words of the copy, as they stand in it; the handle gives a slot by its meaning */

static void read_words(const struct tool *d, uint32_t slot, uint64_t words[WORDS]) {
    memcpy(words, d->area.bytes + (size_t)slot * ORDERSET_SLOT_BYTES, WORDS * sizeof *words);
}

static void print_line(const char *name, const uint64_t word[8]) {
    printf("    line %s, %s, version %" PRIu64 ":", name, word[0] == (word[7] & 1) ? "whole" : "open", word[7] >> 1);
    for (int i = 0; i < 8; i++)
        printf("%s%016" PRIx64, i % 4 ? " " : "\n        ", word[i]);
    putchar('\n');
}

static void print_lines(const struct tool *d, uint32_t slot) {
    uint64_t words[WORDS];
    read_words(d, slot, words);
    print_line("A", words);
    print_line("B", words + 8);
}

static void print_slot(const struct tool *d, const struct orderset_record *record) {
    fputs("  ", stdout);
    tool_print_slot(stdout, d->is.layout, record);
    putchar('\n');
    print_lines(d, record->slot);
}

/* ---- where a refused file is at fault */

/* The header against the length of the file. */
static void say_header(const struct tool *d) {
    uint64_t words[WORDS];
    if (d->is.refusal == ORDERSET_BAD_IMAGE_LENGTH) {
        printf("  it has %" PRIu64 " bytes; a set has 384 to %zu, a multiple of 128\n", d->is.bytes,
               ORDERSET_IMAGE_BYTES(ORDERSET_SLOTS_MAX));
        return;
    }
    read_words(d, 0, words);
    printf("  its length is that of %" PRIu32 " slots; its header says %" PRIu64 " slots and layout %" PRIu64 "\n",
           d->is.slots, words[0], words[1]);
    print_line("A of the header", words);
}

/* Each slot that is refused by itself, or is broken where that is the refusal. */
static void say_slots(struct tool *d) {
    struct orderset_record record;
    uint32_t found = 0;
    tool_step("slots looked at", d->is.slots);
    for (uint32_t slot = 1; slot <= d->is.slots; slot++) {
        tool_slot(d, slot, &record);
        const int broken = d->is.refusal == ORDERSET_TOO_MANY_BROKEN && record.slot_class == ORDERSET_SLOT_BROKEN;
        if ((record.fault || broken) && ++found <= SHOWN)
            print_slot(d, &record);
    }
    tool_rest();
    if (found > SHOWN)
        printf("  and %" PRIu32 " more; orderset show --slots shows all\n", found - SHOWN);
}

/* A whole record of a refused file. */
struct whole {
    uint64_t version;
    struct orderset_key key;
    uint32_t slot, records;
};

static int by_version(const void *left, const void *right) {
    const struct whole *a = left, *b = right;
    if (a->version != b->version)
        return a->version < b->version ? 1 : -1;
    return a->slot < b->slot ? -1 : a->slot > b->slot;
}

/* The whole records, the highest version first. */
static struct whole *whole_records(struct tool *d, size_t *count) {
    struct whole *whole = tool_memory(d->is.slots, sizeof *whole);
    struct orderset_record r;
    *count = 0;
    for (uint32_t slot = 1; slot <= d->is.slots; slot++) {
        tool_slot(d, slot, &r);
        if (r.slot_class == ORDERSET_SLOT_UNKNOWN)
            whole[(*count)++] = (struct whole){r.version, r.key, slot, r.records};
    }
    qsort(whole, *count, sizeof *whole, by_version);
    return whole;
}

/* How many records from the first on have its version. */
static size_t sharers(const struct whole *first, const struct whole *end) {
    size_t count = 0;
    while (first + count < end && first[count].version == first->version)
        count++;
    return count;
}

static size_t said(const struct whole *record) {
    return record->records ? record->records : 1;
}

/* Whether records of one version are no basket, or no part of one. */
static int in_conflict(const struct whole *first, size_t count) {
    if (count > said(first))
        return 1;
    for (size_t i = 0; i < count; i++) {
        if (first[i].records != first->records)
            return 1;
        for (size_t j = 0; j < i; j++)
            if (first[i].key.low == first[j].key.low && first[i].key.high == first[j].key.high)
                return 1;
    }
    return 0;
}

static void print_sharers(struct tool *d, const struct whole *first, size_t count) {
    struct orderset_record record;
    printf("  %zu slots share version %" PRIu64 ":\n", count, first->version);
    for (size_t i = 0; i < count && i < SHOWN; i++) {
        tool_slot(d, first[i].slot, &record);
        print_slot(d, &record);
    }
    if (count > SHOWN)
        printf("  and %zu more; orderset show --slots shows all\n", count - SHOWN);
}

static void say_shared(struct tool *d) {
    size_t count, found = 0;
    struct whole *whole = whole_records(d, &count);
    for (const struct whole *w = whole, *end = whole + count; w < end; w += sharers(w, end))
        if (in_conflict(w, sharers(w, end)) && ++found <= SHOWN)
            print_sharers(d, w, sharers(w, end));
    if (found > SHOWN)
        printf("  and %zu more versions; orderset show --slots shows all\n", found - SHOWN);
    free(whole);
}

/* Void are the records of the highest versions, as long as fewer of them are there than they say. */
static void say_void(struct tool *d) {
    size_t count, found = 0;
    struct whole *whole = whole_records(d, &count);
    const struct whole *end = whole + count;
    while (whole + found < end && sharers(whole + found, end) < said(whole + found))
        found += sharers(whole + found, end);
    printf("  %" PRIu64 " slots are broken and %zu are void\n", d->is.count[ORDERSET_SLOT_BROKEN], found);
    for (size_t i = 0; i < found && i < SHOWN; i++)
        printf("  slot %" PRIu32 ": void, of version %" PRIu64 "\n", whole[i].slot, whole[i].version);
    free(whole);
}

static void say_where(struct tool *d) {
    switch (d->is.refusal) {
    case ORDERSET_BAD_IMAGE_LENGTH:
    case ORDERSET_NOT_FORMATTED:
    case ORDERSET_BAD_HEADER: say_header(d); break;
    case ORDERSET_VERSION_SHARED: say_shared(d); break;
    case ORDERSET_TOO_MANY_BROKEN:
        say_void(d);
        say_slots(d);
        break;
    case ORDERSET_NO_SPARE_SLOT: printf("  all %" PRIu32 " slots are live\n", d->is.slots); break;
    default: say_slots(d); break;
    }
}

/* ---- what to do */

static const char keep_it[] =
    "What to do: leave the file as it is and keep a copy of it. No power cut and no kill leaves this: the memory\n"
    "or the disk failed, or another program wrote to the file. Test the device before you use it again. Go on\n"
    "with a copy from before the damage, or with a new file, and ask the exchange for the open orders.\n";
static const char other_file[] =
    "What to do: look whether this is the right file. If it is, it was cut short, extended or overwritten: keep it\n"
    "as it is, and go on with a copy from before, or with a new file, and ask the exchange for the open orders. Do\n"
    "not make a new set of that name before the file is kept elsewhere.\n";
static const char start_too[] =
    "See also whether each start made the file durable before it recovered: those by orderset_open do.\n";

/* A log with messages is no refused set; this one has none. */
static void say_empty_log(const struct tool *d) {
    struct orderset_log_statistics is;
    struct orderset_log *log = tool_log(d);
    if (!log)
        return;
    orderset_log_stat(log, &is);
    printf("  it can be read as a message log of %" PRIu32 " cells, which is empty\n", is.cells);
    orderset_log_close(log);
}

/* The line of the verdict, and below it where the fault is and what to do. */
void print_refused(struct tool *d) {
    printf("%s: refused, no %" PRIu32, d->path, d->is.refusal);
    if (d->is.fault_slot)
        printf(" of slot %" PRIu32, d->is.fault_slot);
    printf(": %s\n", orderset_strerror(d->is.refusal));
    say_where(d);
    if (d->is.refusal <= ORDERSET_BAD_HEADER)
        say_empty_log(d);
    fputs(d->is.refusal <= ORDERSET_BAD_HEADER ? other_file : keep_it, stdout);
    if (d->is.refusal == ORDERSET_TOO_MANY_BROKEN)
        fputs(start_too, stdout);
}
