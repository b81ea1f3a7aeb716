/* The example that watches a line, on a file whose image is written meanwhile. A key is replaced again and again in a
 * set of two slots; of each call first some stores of each line are made and then all. Whenever line A of the slot that
 * is watched opens or closes, the sender says so, with its version and the words that would be stored next; and nothing
 * while the other slot is written.
 *
 *     watch SENDER FILE [SEED]
 */
#define _GNU_SOURCE
#include <fcntl.h>
#include <inttypes.h>
#include <stdio.h>
#include <string.h>
#include <sys/mman.h>
#include <unistd.h>

#include "chance.h"
#include "child.h"
#include "model.h"
#include "orderset_raw.h"

enum { SLOTS = 2, CALLS = 1000, LENGTH = ORDERSET_SLOT_BYTES * (SLOTS + 1) };

static const char *sender, *file;
static uint8_t *image;
static uint32_t heads[1], next[SLOTS + 1], state[ORDERSET_RAW_STATE], at[ORDERSET_STORES];
static uint64_t version[1], value[ORDERSET_STORES], answer[ORDERSET_PROVED_CHANGE_ANSWER];

static void make_set(void) {
    uint64_t slots[ORDERSET_PROVED_FORMAT_ANSWER], open_value[ORDERSET_INVALIDATIONS];
    uint32_t count[1], open_at[ORDERSET_INVALIDATIONS];
    int there = open(file, O_RDWR | O_CREAT | O_TRUNC, 0600);
    expect(there >= 0 && ftruncate(there, LENGTH) == 0, "a file %s", file);
    image = mmap(NULL, LENGTH, PROT_READ | PROT_WRITE, MAP_SHARED, there, 0);
    close(there);
    expect(image != MAP_FAILED && orderset_proved_format(image, LENGTH, ORDERSET_LAYOUT_1, slots) == 0
               && orderset_proved_recover(image, LENGTH, heads, 1, next, SLOTS + 1, state, version, count, open_at,
                                          open_value)
                      == 0
               && count[0] == 0,
           "a set of two slots");
}

static void play(size_t a, size_t b) {
    expect(orderset_proved_play(image, LENGTH, at, value, a, b) == 0, "the stores are made");
}

/* What stands in line A of the slot, in the sender's words. */
static void hears(struct child *child, uint64_t slot, uint64_t wanted) {
    char line[LINE], due[LINE];
    const uint64_t mark = m_word(image, 16 * slot), stamp = m_word(image, 16 * slot + 7), other = 1 - stamp % 2;
    snprintf(due, sizeof due,
             "slot %" PRIu64 ": %s, version %" PRIu64 "; for version %" PRIu64 ": first word %" PRIu64
             ", last word %" PRIu64,
             slot, mark == stamp % 2 ? "whole" : "open", stamp / 2, wanted, other, wanted * 2 + other);
    expect(hear(child, line) && !strcmp(line, due), "the sender says '%s': '%s'", due, line);
}

/* One call, of which line A is made in two parts. Returns the slot that it took. */
static uint64_t one_call(struct child *child, uint64_t slot, uint64_t wanted) {
    uint8_t bytes[ORDERSET_VALUE_MAX];
    const size_t size = below(ORDERSET_VALUE_MAX + 1);
    fill(bytes, sizeof bytes);
    uint64_t code = (version[0] == 1 ? orderset_proved_insert : orderset_proved_replace)(
        image, LENGTH, heads, 1, next, SLOTS + 1, state, version, 7, bytes, size, at, value, answer);
    expect(code == 0, "key 7 is written");
    const int watched = answer[ORDERSET_PROVED_SLOT] == slot;
    play(1 + below(7), 1 + below(8));
    if (watched)
        hears(child, slot, wanted);
    play(8, 8);
    if (watched)
        hears(child, slot, wanted);
    if (below(16) == 0) /* several looks at a line that stays */
        usleep(1000);
    return answer[ORDERSET_PROVED_SLOT];
}

static void watch(uint64_t slot) {
    const uint64_t wanted = below(2) ? below(1000) : chance() >> 1;
    char words[3][LINE];
    unsigned changes = 1;
    snprintf(words[0], LINE, "%" PRIu64, slot);
    snprintf(words[1], LINE, "%" PRIu64, wanted);
    snprintf(words[2], LINE, "%d", CALLS / 4 * 2 + 1);
    struct child child = start_child((const char *const[]){sender, file, words[0], words[1], words[2], NULL});
    hears(&child, slot, wanted);
    while (changes <= CALLS / 4 * 2)
        changes += one_call(&child, slot, wanted) == slot ? 2 : 0;
    expect(end_of(&child) == 0, "the sender ends after %s changes", words[2]);
}

static void is_refused(const char *slot, const char *wanted, int status, const char *what) {
    char line[LINE] = "";
    struct child child = start_child((const char *const[]){sender, file, slot, wanted, "1", NULL});
    hear(&child, line);
    int ended = end_of(&child);
    expect(ended == status && strstr(line, what), "slot %s and version %s: status %d, '%s'", slot, wanted, ended, line);
}

int main(int count, char **word) {
    begin_chance("watch", count > 3 ? word[3] : NULL);
    expect(count > 2, "watch SENDER FILE [SEED]");
    sender = word[1];
    file = word[2];
    make_set();
    watch(1);
    watch(2);
    is_refused("1", "9223372036854775808", 1, "no 9");
    is_refused("3", "1", 1, "has no slot 3");
    is_refused("0", "1", 1, "has no slot 0");
    is_refused("1", "x", 2, "is no number");
    printf("%" PRIu64 " calls, each seen as its line opens and closes (%.0f s)\n", version[0] - 1, seconds());
    return 0;
}
