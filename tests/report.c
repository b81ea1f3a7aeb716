/* What the program `report` prints, byte for byte, against the model: of random images one after another, accepted,
 * damaged and cut short, from a file, through a pipe and in pieces of 100 bytes; of the fewest and the most slots; and
 * of a million and more. What `orderset-show --count FILE` and `orderset show --count FILE` print of the first image.
 * Built for layout 2 (layout.h), `report` refuses each image and both count its slots. Ends with status 1 at the first
 * thing that is otherwise.
 *
 *     report REPORT SHOW ORDERSET FILE [SEED [INPUTS]]
 */
#define _GNU_SOURCE
#include <fcntl.h>
#include <inttypes.h>
#include <stdarg.h>
#include <stdio.h>
#include <stdlib.h>
#include <string.h>
#include <unistd.h>

#include "chance.h"
#include "child.h"
#include "images.h"

enum { INPUTS = 1000, LEAST = 2, MOST = 511, IMAGES = 40, MILLION = 1000000, COUNTS = 6 };

static const char *report, *show, *command, *file;
static uint64_t images, refusals, cuts; /* images read, of them refused; inputs that end in what is no image */

/* ---- an input */

static uint8_t input[IMAGES * 128 * (MOST + 1) + 8];
static size_t length;

static void add_image(uint32_t n) {
    uint8_t *image = input + length;
    any_image(image, n, 1 + below(2 * n));
    if (below(4) == 0)
        damage(image, n);
    if (m_word(image, 1) == 3 - LAYOUT) /* the model knows one layout */
        m_set_word(image, 1, LAYOUT);
    length += 128 * (n + 1ul);
}

/* Images of a few slots or of many; sometimes the last is cut short, or some bytes follow. */
static void make_input(void) {
    uint64_t most = below(10) ? 24 : MOST;
    length = 0;
    for (uint64_t k = below(IMAGES / 2); k > 0; k--)
        add_image((uint32_t)(LEAST + below(most - LEAST + 1)));
    switch (below(6)) {
    case 0: length -= length ? 1 + below(length < 400 ? length : 400) : 0; break;
    case 1: fill(input + length, 8), length += 1 + below(8); break;
    default: break;
    }
}

static void write_file(const uint8_t *bytes, size_t size) {
    int out = open(file, O_WRONLY | O_CREAT | O_TRUNC, 0600);
    expect(out >= 0 && write(out, bytes, size) == (ssize_t)size, "%s is written", file);
    close(out);
}

/* ---- what is due */

static char due[IMAGES * 64 + 256];
static size_t due_length;
static uint64_t total[COUNTS];

static void __attribute__((format(printf, 1, 2))) print(const char *form, ...) {
    va_list list;
    va_start(list, form);
    due_length += (size_t)vsnprintf(due + due_length, sizeof due - due_length, form, list);
    va_end(list);
}

static void print_six(const uint64_t count[COUNTS]) {
    for (int i = 0; i < COUNTS; i++)
        print(i + 1 < COUNTS ? "%" PRIu64 " " : "%" PRIu64 "\n", count[i]);
}

/* "the six in this order on a line", or "`no` and the number"; "the programs stay with layout 1" and give 3 on others
 */
static void due_of_image(const uint8_t *image, size_t size) {
    uint32_t head[1], next[MOST + 1];
    struct m_index index = {head, 1, next, size / 128, {0, 0, 0, 0, 0}};
    struct m_recovered recovered = m_recover(image, size, &index);
    uint64_t count[COUNTS];
    if (LAYOUT != ORDERSET_LAYOUT_1)
        recovered.refusal = ORDERSET_BAD_HEADER;
    images++;
    if (recovered.refusal) {
        refusals++;
        print("no %d\n", recovered.refusal);
        return;
    }
    m_count(image, size, &recovered, count);
    for (int i = 0; i < COUNTS; i++)
        total[i] += count[i];
    print_six(count);
}

/* "Word 0 of each gives its length; a word 0 outside 2 to 511, or an image cut short, prints `no 1` and ends the
 * reading"; "a last line of totals of the accepted ones" */
static void make_due(void) {
    size_t at = 0;
    due_length = 0;
    memset(total, 0, sizeof total);
    while (at < length) {
        uint64_t n = length - at < 8 ? 0 : m_word(input + at, 0);
        if (n < LEAST || n > MOST || length - at < 128 * (n + 1)) {
            cuts++;
            print("no 1\n");
            break;
        }
        due_of_image(input + at, 128 * (n + 1));
        at += 128 * (n + 1);
    }
    print_six(total);
}

/* ---- what is printed */

static void reads_from(const char *how) {
    const char *const words[] = {"/bin/sh", "-c", how, report, file, NULL};
    struct child child = start_child(words);
    size_t at = 0;
    char line[LINE];
    while (hear(&child, line)) {
        size_t size = strlen(line);
        expect(at + size < due_length && !memcmp(due + at, line, size) && due[at + size] == '\n',
               "of %zu bytes it prints what is due at byte %zu of\n%.*s: '%s'", length, at, (int)due_length, due, line);
        at += size + 1;
    }
    expect(at == due_length, "of %zu bytes it prints all that is due: %zu bytes of %zu", length, at, due_length);
    expect(end_of(&child) == 0, "it ends");
}

/* Empty images of the fewest and the most slots, and of one fewer and one more; an image of two slots follows each. */
static void reads_limits(void) {
    static const uint64_t slots[] = {0, 1, 2, 511, 512, 1ull << 32 | 2};
    for (size_t k = 0; k < sizeof slots / sizeof *slots; k++) {
        memset(input, 0, sizeof input);
        length = 128 * ((slots[k] & 1023) + 1);
        m_set_word(input, 0, slots[k]);
        m_set_word(input, 1, 1);
        m_format(input + length, 384, LAYOUT);
        length += 384;
        make_due();
        write_file(input, length);
        reads_from("exec \"$0\" <\"$1\" 2>/dev/null");
    }
}

/* Images of two empty slots, ten thousand in the file and 101 times that in the input: a million are read. */
static void reads_a_million(void) {
    static const char all[] =
        "i=0; while [ $i -lt 101 ]; do cat \"$1\"; i=$((i + 1)); done 2>/dev/null | \"$0\" 2>/dev/null";
    static const char each[] = "0 0 0 0 0 2", last[] = "0 0 0 0 0 2000000";
    static uint8_t many[10000 * 384];
    const char *const words[] = {"/bin/sh", "-c", all, report, file, NULL};
    char line[LINE];
    uint64_t lines = 0;
    for (size_t k = 0; k < sizeof many / 384; k++)
        m_format(many + 384 * k, 384, LAYOUT);
    write_file(many, sizeof many);
    struct child child = start_child(words);
    while (hear(&child, line) && !strcmp(line, each))
        lines++;
    expect(lines == MILLION && !strcmp(line, last), "a million images are read: %" PRIu64 ", then '%s'", lines, line);
    expect(!hear(&child, line), "nothing follows the totals: '%s'", line);
    expect(end_of(&child) == 0, "it ends");
}

/* A program's count of the first image says what the model does. */
static void counts(const char *name, const char *const words[], int refusal, const char *wanted) {
    char line[LINE];
    struct child child = start_child(words);
    expect(hear(&child, line), "%s counts", name);
    if (refusal)
        expect(strstr(line, wanted) != NULL, "%s says '%s': '%s'", name, wanted, line);
    else
        expect(!strcmp(line, wanted), "%s says '%s': '%s'", name, wanted, line);
    expect(end_of(&child) == (refusal ? 1 : 0), "its status");
}

static void show_counts(void) {
    const char *const show_words[] = {show, "--count", file, NULL};
    const char *const words[] = {command, "show", "--count", file, NULL};
    uint32_t head[1], next[MOST + 1];
    uint64_t n = m_word(input, 0), c[COUNTS];
    if (length < 8 || n < LEAST || n > MOST || length < 128 * (n + 1))
        return;
    const size_t size = 128 * (n + 1);
    struct m_index index = {head, 1, next, n + 1, {0, 0, 0, 0, 0}};
    struct m_recovered recovered = m_recover(input, size, &index);
    char wanted[LINE];
    write_file(input, size);
    if (recovered.refusal) {
        snprintf(wanted, sizeof wanted, "refused, no %d", recovered.refusal);
    } else {
        m_count(input, size, &recovered, c);
        snprintf(wanted, sizeof wanted,
                 "%" PRIu64 " live, %" PRIu64 " hidden, %" PRIu64 " removed, %" PRIu64 " void, %" PRIu64
                 " broken, %" PRIu64 " empty",
                 c[0], c[1], c[2], c[3], c[4], c[5]);
    }
    counts("orderset-show", show_words, recovered.refusal, wanted);
    counts("orderset show", words, recovered.refusal, wanted);
}

/* Whole, in the blocks of a pipe, and in pieces that do not end where a word does. */
enum { WAYS = 3 };
static const char *const ways[WAYS] = {"exec \"$0\" <\"$1\" 2>/dev/null", "cat \"$1\" 2>/dev/null | \"$0\" 2>/dev/null",
                                       "dd bs=100 if=\"$1\" 2>/dev/null | \"$0\" 2>/dev/null"};

int main(int count, char **word) {
    if (count < 5)
        return 2;
    const uint64_t wanted = count > 6 ? strtoull(word[6], NULL, 10) : INPUTS;
    report = word[1];
    show = word[2];
    command = word[3];
    file = word[4];
    begin_chance(LAYOUT == 1 ? "report" : "report of layout 2", count > 5 ? word[5] : NULL);
    if (LAYOUT == 1)
        reads_limits();
    for (uint64_t k = 0; k < wanted; k++) {
        make_input();
        make_due();
        write_file(input, length);
        reads_from(ways[below(WAYS)]);
        if (below(5) == 0)
            show_counts();
    }
    if (LAYOUT == 1)
        reads_a_million();
    printf("%" PRIu64 " inputs with %" PRIu64 " images, %" PRIu64 " of them refused, %" PRIu64
           " inputs that end in no image%s: each line as it should be (%.0f s)\n",
           wanted, images, refusals, cuts, LAYOUT == 1 ? ", and a million images" : "", seconds());
    return images == 0 || refusals == 0 || cuts == 0;
}
