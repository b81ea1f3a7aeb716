/* What `orderset-show --heads[=B] FILE` prints, against a plain count of the keys by their heads: of the keys that
 * share a head one is found with 1 slot compared, one with 2, and so on. The files hold any number of keys, from none
 * to as many as there is room for; the keys are small, random, or step by B, and some were replaced or removed. The
 * file stays as it is. The same of `orderset check --heads[=B] FILE`, which indents these lines. Ends with status 1 at
 * the first thing that is otherwise.
 *
 *     heads SHOW ORDERSET FILE [SEED]
 */
#define _GNU_SOURCE
#include <fcntl.h>
#include <inttypes.h>
#include <stdio.h>
#include <stdlib.h>
#include <string.h>
#include <unistd.h>

#include "chance.h"
#include "child.h"
#include "orderset_raw.h"

enum { FILES = 60, MAX_N = 1000, OWN_HEADS = 97 };

static const char *show, *command, *file;
static uint64_t runs;

/* ---- a file */

static uint8_t image[ORDERSET_IMAGE_BYTES(MAX_N)];
static size_t length;
static uint32_t n, heads[OWN_HEADS], next[MAX_N + 1], state[ORDERSET_RAW_STATE], at[ORDERSET_STORES];
static uint64_t version[1], value[ORDERSET_STORES], answer[ORDERSET_PROVED_CHANGE_ANSWER];
static uint8_t bytes[ORDERSET_VALUE_MAX];
static uint64_t held[MAX_N];
static uint32_t count; /* of held keys */

static void play(uint64_t returned) {
    expect(returned == 0 && orderset_proved_play(image, length, at, value, 8, 8) == ORDERSET_OK,
           "a call of an own index");
}

static void insert(uint64_t key) {
    play(orderset_proved_insert(image, length, heads, OWN_HEADS, next, n + 1, state, version, key, bytes, below(81), at,
                                value, answer));
    held[count++] = key;
}

static void replace(uint32_t i) {
    play(orderset_proved_replace(image, length, heads, OWN_HEADS, next, n + 1, state, version, held[i], bytes,
                                 below(81), at, value, answer));
}

static void drop(uint32_t i) {
    play(orderset_proved_remove(image, length, heads, OWN_HEADS, next, n + 1, state, version, held[i], at, value,
                                answer));
    held[i] = held[--count];
}

/* keys that are small, random, or step by a number of heads; different for different i */
static uint64_t key_of(uint64_t kind, uint64_t step, uint64_t i) {
    return kind == 0 ? i : kind == 1 ? chance() / MAX_N * MAX_N + i : step * i;
}

static void make_image(uint64_t step) {
    uint32_t voids[1], open_at[ORDERSET_INVALIDATIONS];
    uint64_t kind = below(3), open_value[ORDERSET_INVALIDATIONS];
    n = (uint32_t)spread(ORDERSET_SLOTS_MIN, MAX_N);
    length = ORDERSET_IMAGE_BYTES(n);
    count = 0;
    fill(bytes, sizeof bytes);
    expect(orderset_proved_format(image, length, ORDERSET_LAYOUT_1, answer) == ORDERSET_OK, "format");
    expect(orderset_proved_recover(image, length, heads, OWN_HEADS, next, n + 1, state, version, voids, open_at,
                                   open_value)
                   == ORDERSET_OK
               && voids[0] == 0,
           "recover");
    for (uint64_t i = below(8) ? below(n) : n - 1; i > 0; i--)
        insert(key_of(kind, step, i));
    for (uint64_t i = below(2) * below(n); count && i > 0; i--)
        if (below(4))
            replace((uint32_t)below(count));
        else
            drop((uint32_t)below(count));
}

static void write_image(void) {
    int out = open(file, O_WRONLY | O_CREAT | O_TRUNC, 0600);
    expect(out >= 0 && write(out, image, length) == (ssize_t)length, "%s is written", file);
    close(out);
}

static int file_is_image(void) {
    static uint8_t found[sizeof image + 1];
    int in = open(file, O_RDONLY);
    ssize_t got = in < 0 ? -1 : read(in, found, sizeof found);
    close(in);
    return got == (ssize_t)length && memcmp(found, image, length) == 0;
}

/* ---- what is printed */

/* The two programs: what they are called where one says something else, what stands before each line of theirs, and
 * what they say of a number of heads that is none. */
struct program {
    const char *name, *indent, *out_of_range;
};
static const struct program by_show = {"it", "", "a number of heads is from 1 to 65536"},
                            by_command = {"orderset check", "  ", "--heads is followed by a number from 1 to 65536"};

static struct child start(const struct program *by, const char *option) {
    const char *const show_words[] = {show, option, file, NULL}, *const words[] = {command, "check", option, file,
                                                                                   NULL};
    return start_child(by == &by_show ? show_words : words);
}

static void says(struct child *child, const struct program *by, const char *wanted) {
    const size_t in = strlen(by->indent);
    char line[LINE];
    expect(hear(child, line) && !strncmp(line, by->indent, in) && !strcmp(line + in, wanted),
           "of %" PRIu32 " keys in %" PRIu32 " slots %s says '%s': '%s'", count, n, by->name, wanted, line);
}

/* The j-th key of a head is found with j slots compared. */
static void says_counts(struct child *child, const struct program *by, size_t b) {
    static uint32_t sharing[ORDERSET_HEADS_MAX], found[MAX_N + 1];
    char wanted[LINE];
    uint64_t sum = 0;
    uint32_t longest = 0;
    memset(sharing, 0, sizeof sharing);
    memset(found, 0, sizeof found);
    for (uint32_t i = 0; i < count; i++) {
        uint32_t place = ++sharing[held[i] % b];
        found[place]++;
        sum += place;
        longest = place > longest ? place : longest;
    }
    snprintf(wanted, sizeof wanted, "%zu heads", b);
    says(child, by, wanted);
    for (uint32_t place = 1; place <= longest; place++) {
        snprintf(wanted, sizeof wanted, "%" PRIu32 " compared: %" PRIu32 " held keys", place, found[place]);
        says(child, by, wanted);
    }
    snprintf(wanted, sizeof wanted, "average %.2f, longest %" PRIu32, count ? (double)sum / count : 0, longest);
    says(child, by, wanted);
}

static void counts_by(const struct program *by, size_t b, const char *option) {
    char line[LINE];
    struct child child = start(by, option);
    if (by == &by_command)
        expect(hear(&child, line) && strstr(line, ": accepted, "), "the file is accepted: '%s'", line);
    says_counts(&child, by, b);
    expect(!hear(&child, line), "that is all: '%s'", line);
    expect(end_of(&child) == 0, "heads ends with status 0");
    expect(file_is_image(), "heads leaves the file as it was");
}

/* b: the heads that it is to take; option: --heads with the B that it is given, or without one. */
static void counts(size_t b, const char *option) {
    counts_by(&by_show, b, option);
    counts_by(&by_command, b, option);
    runs++;
}

static void counts_with(size_t b) {
    char word[32];
    snprintf(word, sizeof word, "--heads=%zu", b);
    counts(b, word);
}

static int is_prime(uint32_t x) {
    uint32_t divisor = 2;
    while (divisor < x && x % divisor)
        divisor++;
    return divisor == x;
}

static void refuses_by(const struct program *by, const char *option) {
    char line[LINE];
    struct child child = start(by, option);
    expect(hear(&child, line) && strstr(line, by->out_of_range), "%s is refused: '%s'", option, line);
    expect(end_of(&child) == 2 && file_is_image(), "then its status is 2 and the file is as it was");
}

static void refuses(const char *option) {
    refuses_by(&by_show, option);
    refuses_by(&by_command, option);
}

int main(int words, char **word) {
    begin_chance("heads", words > 4 ? word[4] : NULL);
    expect(words > 3, "heads SHOW ORDERSET FILE [SEED]");
    show = word[1];
    command = word[2];
    file = word[3];
    for (int i = 0; i < FILES; i++) {
        size_t step = (size_t)spread(1, ORDERSET_HEADS_MAX);
        uint32_t own;
        make_image(step);
        write_image();
        for (own = n; !is_prime(own); own--)
            ;
        counts(own, "--heads");
        counts_with(step);
        counts_with(step > 1 ? step - 1 : ORDERSET_HEADS_MAX);
        counts_with((size_t)spread(1, 2 * n));
    }
    counts_with(1);
    refuses("--heads=0");
    refuses("--heads=65537");
    refuses("--heads=-1");
    refuses("--heads=");
    printf("%d files, %" PRIu64 " times their keys by the slots compared: as a plain count has them (%.0f s)\n", FILES,
           runs, seconds());
    return 0;
}
