/* What the program `plug` prints, byte for byte, against the model: of random traces, with lines of none of the forms
 * among them, from a file and through a pipe. Ends with status 1 at the first thing that is otherwise.
 *
 *     plug PLUG FILE [SEED [TRACES]]
 */
#define _GNU_SOURCE
#include <fcntl.h>
#include <inttypes.h>
#include <stdio.h>
#include <stdlib.h>
#include <string.h>
#include <unistd.h>

#include "chance.h"
#include "child.h"
#include "model.h"

enum {
    TRACES = 1000,
    LONG = 60,
    CALLS = 50,
    LINES = LONG * (CALLS + 1) + 80,
    BUFFER = 4096,
    MOST = 511,
    SIZE = 128 * (MOST + 1)
};

static const char *plug, *file;
static uint64_t lines, changed, unchanged; /* lines read; calls whose later map is another, and the same */
static uint64_t streamed;                  /* traces of which more is due than plug's buffer holds */

/* ---- a trace */

static char trace[LINES * 64];
static size_t length;

static void add(const char *text) {
    size_t size = strlen(text);
    memcpy(trace + length, text, size);
    length += size;
}

static const char *const odd[] = {"",
                                  " ",
                                  "c 0 0",
                                  "c 8 8",
                                  "c 9 1",
                                  "p 1",
                                  "p 1 2 3",
                                  "p  1 2",
                                  "p 1 2 ",
                                  "r",
                                  "r 1 2",
                                  "g x",
                                  "P 1 2",
                                  "q 1",
                                  "p 18446744073709551616 1",
                                  "p 1 18446744073709551616",
                                  "n",
                                  "n 1",
                                  "n 512",
                                  "n 2x",
                                  "r -1",
                                  "p 1\t2",
                                  "p 1 2\r"};

/* Small keys and words, so that keys are held and values are equal; now and then any key. */
static uint64_t a_key(uint64_t keys) {
    return below(20) ? below(keys) : chance();
}

static void add_line(uint64_t keys) {
    char text[64];
    switch (below(20)) {
    case 0: snprintf(text, sizeof text, "%s", odd[below(sizeof odd / sizeof *odd)]); break;
    case 1: snprintf(text, sizeof text, "g %" PRIu64, a_key(keys)); break;
    case 2:
    case 3:
    case 4:
    case 5: snprintf(text, sizeof text, "r %" PRIu64, a_key(keys)); break;
    case 6: snprintf(text, sizeof text, "p 000%" PRIu64 " 0%" PRIu64, a_key(keys), below(2)); break;
    case 7: snprintf(text, sizeof text, "p %" PRIu64 " %" PRIu64, a_key(keys), chance()); break;
    default: snprintf(text, sizeof text, "p %" PRIu64 " %" PRIu64, a_key(keys), below(3)); break;
    }
    add(text);
    add("\n");
}

static void add_set(uint64_t n, uint64_t calls) {
    char text[32];
    snprintf(text, sizeof text, "n %" PRIu64 "\n", n);
    add(text);
    for (; calls > 0; calls--)
        add_line(1 + below(n));
}

/* One set or two, mostly of a few slots; one trace in a hundred has sixty more sets, and then neither it nor what is
 * due fits in plug's buffers. The end of the last line may be missing. */
static void make_trace(uint64_t number) {
    length = 0;
    if (below(10) == 0)
        add_line(3);
    for (uint64_t sets = 1 + below(2); sets > 0; sets--) {
        uint64_t n = below(20) ? 2 + below(8) : 2 + below(MOST - 1);
        add_set(n, below(n > 40 ? 6 : 30));
    }
    for (int k = 0; number % 100 == 99 && k < LONG; k++)
        add_set(2 + below(3), CALLS);
    if (below(4) == 0)
        length--;
}

/* ---- what is due */

static uint8_t image[SIZE];
static uint32_t head[1], next[MOST + 1];
static struct m_index index_of = {head, 1, next, 0, {0, 0, 0, 0, 0}};
static size_t size; /* 0: no set yet */

static char due[LINES * 8];
static size_t due_length;

/* What an image's map has for a key: -1 for nothing, or the length, with the bytes. */
struct map {
    int is;
    uint32_t head[1], next[MOST + 1];
    const uint8_t *image;
    struct m_index index;
};

static void map_of(struct map *m, const uint8_t *bytes) {
    m->image = bytes;
    m->index = (struct m_index){m->head, 1, m->next, size / 128, {0, 0, 0, 0, 0}};
    m->is = m_recover(bytes, size, &m->index).refusal == 0;
}

static int same_at(const struct map *a, const struct map *b, uint64_t key) {
    uint8_t x[80], y[80];
    struct m_got p = m_get(a->image, size, &a->index, key, x, 80), q = m_get(b->image, size, &b->index, key, y, 80);
    expect(!p.refusal && !q.refusal, "the model's get of a map is not refused: %d, %d", p.refusal, q.refusal);
    return p.absent == q.absent && (p.absent || (p.length == q.length && !memcmp(x, y, p.length)));
}

/* "what recovery then refuses has no map and counts for neither" */
static int same(const struct map *a, const struct map *b) {
    if (!a->is || !b->is)
        return 0;
    for (size_t s = 1; s < size / 128; s++)
        if (!same_at(a, b, m_word(a->image, 16 * s + 1)) || !same_at(a, b, m_word(b->image, 16 * s + 1)))
            return 0;
    return 1;
}

/* "try all 81 pairs of counts for its two lines, recover each" */
static void try_cuts(const struct m_store store[16]) {
    static struct map earlier, later, cut;
    static uint8_t all[SIZE], copy[SIZE];
    uint32_t at[16];
    uint64_t value[16];
    unsigned as_before = 0, as_after = 0;
    for (int i = 0; i < 16; i++)
        at[i] = store[i].at, value[i] = store[i].value;
    memcpy(all, image, size);
    expect(m_play(all, size, at, value, 8, 8) == 0, "the model plays its stores");
    map_of(&earlier, image);
    map_of(&later, all);
    for (size_t a = 0; a <= 8; a++)
        for (size_t b = 0; b <= 8; b++) {
            memcpy(copy, image, size);
            m_play(copy, size, at, value, a, b);
            map_of(&cut, copy);
            as_before += (unsigned)same(&earlier, &cut);
            as_after += (unsigned)same(&later, &cut);
        }
    *(as_before == 81 ? &unchanged : &changed) += 1;
    due_length += (size_t)sprintf(due + due_length, "%u %u\n", as_before, as_after);
    memcpy(image, all, size);
}

static int a_number(const char **text, uint64_t *number) {
    const char *s = *text;
    if (*s < '0' || *s > '9')
        return 0;
    for (*number = 0; *s >= '0' && *s <= '9'; s++)
        if (__builtin_mul_overflow(*number, 10, number)
            || __builtin_add_overflow(*number, (uint64_t)(*s - '0'), number))
            return 0;
    *text = s;
    return 1;
}

/* a letter and that many numbers, with one space before each and nothing else */
static int of_form(const char *line, char letter, int numbers, uint64_t number[2]) {
    if (*line++ != letter)
        return 0;
    for (int i = 0; i < numbers; i++)
        if (*line++ != ' ' || !a_number(&line, &number[i]))
            return 0;
    return *line == 0;
}

static void due_of_line(const char *line) {
    uint64_t a[2];
    struct m_change change = {.refusal = 1};
    lines++;
    if (of_form(line, 'n', 1, a) && a[0] >= 2 && a[0] <= MOST) {
        size = 128 * (a[0] + 1);
        m_format(image, size, LAYOUT);
        index_of.next_length = a[0] + 1;
        m_recover(image, size, &index_of);
    } else if (size && of_form(line, 'p', 2, a)) {
        uint8_t word[8];
        for (int i = 0; i < 8; i++)
            word[i] = (uint8_t)(a[1] >> 8 * i);
        change = m_locate(image, size, &index_of, a[0]).absent ? m_insert(0, image, size, &index_of, a[0], word, 8)
                                                               : m_replace(0, image, size, &index_of, a[0], word, 8);
    } else if (size && of_form(line, 'r', 1, a)) {
        change = m_remove(0, image, size, &index_of, a[0]);
    }
    if (!change.refusal && !change.absent)
        try_cuts(change.store);
}

static void make_due(void) {
    char line[64];
    size_t at = 0, end;
    size = due_length = 0;
    due[0] = 0;
    for (; at < length; at = end + 1) {
        for (end = at; end < length && trace[end] != '\n'; end++)
            ;
        memcpy(line, trace + at, end - at);
        line[end - at] = 0;
        due_of_line(line);
    }
    streamed += due_length > BUFFER;
}

/* ---- what is printed */

static void write_trace(void) {
    int out = open(file, O_WRONLY | O_CREAT | O_TRUNC, 0600);
    expect(out >= 0 && write(out, trace, length) == (ssize_t)length, "%s is written", file);
    close(out);
}

static void prints_due(const char *how) {
    const char *const words[] = {"/bin/sh", "-c", how, plug, file, NULL};
    struct child child = start_child(words);
    size_t at = 0;
    char line[LINE];
    while (hear(&child, line)) {
        size_t n = strlen(line);
        expect(at + n < due_length && !memcmp(due + at, line, n) && due[at + n] == '\n',
               "of the trace %s it prints '%.*s' and not '%s' at byte %zu", file, (int)strcspn(due + at, "\n"),
               due + at, line, at);
        at += n + 1;
    }
    expect(at == due_length, "of the trace %s it prints all that is due: %zu bytes of %zu", file, at, due_length);
    expect(line[0] == 0, "of the trace %s it prints no more than is due: '%s'", file, line);
    expect(end_of(&child) == 0, "it ends");
}

int main(int count, char **word) {
    if (count < 3)
        return 2;
    const uint64_t wanted = count > 4 ? strtoull(word[4], NULL, 10) : TRACES;
    plug = word[1];
    file = word[2];
    begin_chance("plug", count > 3 ? word[3] : NULL);
    for (uint64_t k = 0; k < wanted; k++) {
        make_trace(k);
        make_due();
        write_trace();
        prints_due(below(2) ? "exec \"$0\" <\"$1\" 2>/dev/null" : "cat \"$1\" 2>/dev/null | \"$0\" 2>/dev/null");
    }
    printf("%" PRIu64 " traces of %" PRIu64 " lines, %" PRIu64 " with over %d bytes due, %" PRIu64
           " calls that change the map and %" PRIu64 " that do not: each line as it should be (%.0f s)\n",
           wanted, lines, streamed, BUFFER, changed, unchanged, seconds());
    return changed == 0 || unchanged == 0 || (wanted >= 100 && streamed == 0);
}
