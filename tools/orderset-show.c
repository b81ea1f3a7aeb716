/* orderset-show: the open orders of a set in a file, its slots, how many there are of each class, a picture of them, or
 * how many slots a call compares. The file is only read. */
#define _GNU_SOURCE
#include <errno.h>
#include <fcntl.h>
#include <inttypes.h>
#include <signal.h>
#include <stdlib.h>
#include <string.h>
#include <sys/stat.h>
#include <unistd.h>

#include "orderset_raw.h"
#include "picture.h"
#include "tool.h"

static const char tool[] = "orderset-show";
static const char help[] =
    "usage: orderset-show [--slots | --count | --heads[=B] | --svg OUT.svg] FILE\n"
    "Shows the open orders of a set, one on a line, by slot. The file is only read.\n"
    "  --slots        each slot instead: what it holds, its key, version and value\n"
    "  --count        how many slots are live, hidden, removed, void, broken and empty instead\n"
    "  --heads[=B]    how many held keys are found with each count of slots compared instead, their average and the\n"
    "                 longest: with B heads, 1 to 65536, or as many as an open takes for the file\n"
    "  --svg OUT.svg  a picture of the slots instead, a square for each; - is standard output\n"
    "  --help, --version\n"
    "Status: 0 shown; 1 recovery refuses the file (slots and picture are shown); 2 it could not be read.\n";

/* What is to be shown: one of the four, or the open orders. */
struct asked {
    const char *path, *svg;
    int slots, count, heads;
    uint32_t heads_number; /* 0: as many as an open takes */
};

static _Noreturn void usage(const char *words, const char *word) {
    tool_fail(tool, "%s%s%s (orderset-show --help tells more)", words, *word ? ": " : "", word);
}

static uint32_t heads_of(const char *word) {
    char *end;
    const unsigned long heads = strtoul(word, &end, 10);
    if (*word < '0' || *word > '9' || *end || heads == 0 || heads > ORDERSET_HEADS_MAX)
        usage("a number of heads is from 1 to 65536", word);
    return (uint32_t)heads;
}

static struct asked ask(int count, char **word) {
    struct asked a = {0};
    int options = 1;
    for (int i = 1; i < count; i++) {
        if (options && !strcmp(word[i], "--")) {
            options = 0;
        } else if (options && !strcmp(word[i], "--slots")) {
            a.slots = 1;
        } else if (options && !strcmp(word[i], "--count")) {
            a.count = 1;
        } else if (options && (!strcmp(word[i], "--heads") || !strncmp(word[i], "--heads=", 8))) {
            a.heads = 1;
            a.heads_number = word[i][7] ? heads_of(word[i] + 8) : 0;
        } else if (options && !strcmp(word[i], "--svg")) {
            if (++i == count)
                usage("--svg needs the name of the picture", "");
            a.svg = word[i];
        } else if (options && word[i][0] == '-') {
            usage("no such option", word[i]);
        } else if (a.path) {
            usage("one file at a time, and this is the second", word[i]);
        } else {
            a.path = word[i];
        }
    }
    if (!a.path)
        usage("which file?", "");
    if ((a.svg != NULL) + a.slots + a.count + a.heads > 1)
        usage("--slots, --count, --heads or --svg, and no two of them", "");
    return a;
}

/* ---- a picture, and what it may replace */

/* A picture never takes the place of a set: its name ends in .svg. */
static void test_picture_name(const struct asked *a) {
    const size_t length = strlen(a->svg);
    if (length < 5 || strcmp(a->svg + length - 4, ".svg"))
        usage("the name of the picture must end in .svg", a->svg);
}

/* Whether the file that was found begins as every picture does. */
static int is_picture(const char *path, const struct stat *found) {
    const size_t length = strlen(picture_begins);
    char bytes[100];
    struct stat opened;
    const int file = open(path, O_RDONLY | O_NOFOLLOW | O_NONBLOCK | O_CLOEXEC);
    const int same = file >= 0 && fstat(file, &opened) == 0 && opened.st_dev == found->st_dev
                     && opened.st_ino == found->st_ino && read(file, bytes, length) == (ssize_t)length
                     && !memcmp(bytes, picture_begins, length);
    if (file >= 0)
        close(file);
    return same;
}

/* Why the picture may not get its name, or NULL. *there: a picture of that name is to be replaced. */
static const char *why_not(const struct asked *a, int *there) {
    struct stat found, set;
    *there = lstat(a->svg, &found) == 0;
    if (!*there)
        return errno == ENOENT ? NULL : strerror(errno);
    if (S_ISLNK(found.st_mode))
        return "a link, and a picture is not written through one";
    if (stat(a->path, &set) == 0 && found.st_dev == set.st_dev && found.st_ino == set.st_ino)
        return "the picture would take the place of the set";
    return S_ISREG(found.st_mode) && is_picture(a->svg, &found)
               ? NULL
               : "it is there, and is no picture of this tool: give another name, or remove it";
}

static void test_place(const struct asked *a) {
    int there;
    const char *why = why_not(a, &there);
    if (why)
        tool_fail(tool, "%s: %s", a->svg, why);
}

/* The picture gets its name, which no other file has, or that of a picture which it replaces. Answers why not, or NULL.
 * Some file systems cannot rename so: there it has two names for a moment, and the second stays where it cannot be
 * removed. The model is give_name of src/area.c. */
static const char *give_name(const char *fresh, const struct asked *a) {
    int there, failed;
    const char *why = why_not(a, &there);
    if (why)
        return why;
    failed = there ? rename(fresh, a->svg) : renameat2(AT_FDCWD, fresh, AT_FDCWD, a->svg, RENAME_NOREPLACE);
    if (failed && !there && (errno == EINVAL || errno == ENOSYS))
        failed = link(fresh, a->svg) ? 1 : (unlink(fresh), 0);
    return failed ? strerror(errno) : NULL;
}

/* The mode of a new file. */
static mode_t new_mode(void) {
    const mode_t mask = umask(0);
    umask(mask);
    return 0666 & ~mask;
}

static int write_all(int file, const char *bytes, size_t length) {
    for (size_t done = 0; done < length;) {
        const ssize_t put = write(file, bytes + done, length - done);
        if (put < 0 && errno != EINTR)
            return -1;
        done += put < 0 ? 0 : (size_t)put;
    }
    return 0;
}

/* Writes the picture under another name in the same folder and gives it its own. Signals wait meanwhile: whatever
 * fails, the other name does not stay. */
static void keep_picture(const struct asked *a, const char *bytes, size_t length) {
    const char *slash = strrchr(a->svg, '/'), *why = NULL;
    sigset_t all, before;
    char *fresh;
    if (asprintf(&fresh, "%.*s.orderset-show-XXXXXX", slash ? (int)(slash - a->svg + 1) : 0, a->svg) < 0)
        tool_fail(tool, "memory: %s", strerror(errno));
    sigfillset(&all);
    sigprocmask(SIG_BLOCK, &all, &before);
    const int file = mkostemp(fresh, O_CLOEXEC);
    if (file < 0)
        tool_fail(tool, "%s: %s", a->svg, strerror(errno));
    if (fchmod(file, new_mode()) || write_all(file, bytes, length) || fsync(file))
        why = strerror(errno);
    if (close(file) && !why)
        why = strerror(errno);
    if (!why)
        why = give_name(fresh, a);
    if (why)
        unlink(fresh);
    sigprocmask(SIG_SETMASK, &before, NULL);
    if (why)
        tool_fail(tool, "%s: %s", a->svg, why);
    free(fresh);
}

static void show_picture(struct tool *d, const struct asked *a) {
    char *bytes = NULL;
    size_t length = 0;
    FILE *out = strcmp(a->svg, "-") ? open_memstream(&bytes, &length) : stdout;
    if (!out)
        tool_fail(tool, "memory: %s", strerror(errno));
    draw_picture(d, out);
    tool_printed(d, out, out == stdout ? "standard output" : "memory");
    if (out == stdout)
        return;
    if (fclose(out))
        tool_fail(tool, "memory: %s", strerror(errno));
    keep_picture(a, bytes, length);
    free(bytes);
}

static void show_slots(struct tool *d) {
    struct orderset_record record;
    tool_step(tool, "slots shown", d->is.slots);
    for (uint32_t slot = 1; slot <= d->is.slots; slot++) {
        tool_slot(d, slot, &record);
        tool_print_slot(stdout, d->is.layout, &record);
        putchar('\n');
    }
    tool_rest();
}

static void show_orders(struct tool *d) {
    struct orderset_record order = {0};
    uint32_t number;
    if (!d->is.live && !d->is.refusal)
        fprintf(stderr, "%s: %s: no open orders\n", tool, d->path);
    tool_step(tool, "slots looked at", d->is.slots);
    while ((number = orderset_next(d->set, &order)) == ORDERSET_OK) {
        tool_done = order.slot;
        tool_print_key(stdout, d->is.layout, order.key);
        fputs(": ", stdout);
        tool_print_value(stdout, &order);
        putchar('\n');
    }
    tool_rest();
    if (number != ORDERSET_END && number != d->is.refusal)
        tool_fail(tool, "%s: no %" PRIu32 ": %s", d->path, number, orderset_strerror(number));
}

static void show_count(const struct tool *d) {
    for (int i = 0; i < ORDERSET_SLOT_UNKNOWN; i++)
        printf("%s%" PRIu64 " %s", i ? ", " : "", d->is.count[i], tool_class[i]);
    if (d->unknown)
        printf(", %" PRIu64 " %s", d->unknown, tool_class[ORDERSET_SLOT_UNKNOWN]);
    putchar('\n');
}

/* With which count of slots compared a held key is found: asked by a locate, or, with another number of heads, counted,
 * as the j-th key of a head is found with j. */
static uint32_t compared_of(struct tool *d, struct orderset_key key, uint32_t *sharing, uint32_t heads) {
    uint32_t slot;
    if (heads)
        return ++sharing[key.low % heads];
    const uint32_t number = orderset_locate(d->set, key, &slot, NULL);
    if (number)
        tool_fail(tool, "%s: no %" PRIu32 ": %s", d->path, number, orderset_strerror(number));
    return orderset_compared(d->set);
}

static void show_heads(struct tool *d, uint32_t heads) {
    struct orderset_record order = {0};
    uint64_t held = 0, sum = 0;
    uint32_t number, longest = 0, *found = calloc((size_t)d->is.slots + 1, sizeof *found),
                     *sharing = calloc((size_t)heads + 1, sizeof *sharing);
    if (!found || !sharing)
        tool_fail(tool, "memory: %s", strerror(errno));
    tool_step(tool, "slots looked at", d->is.slots);
    for (; (number = orderset_next(d->set, &order)) == ORDERSET_OK; held++) {
        const uint32_t compared = compared_of(d, order.key, sharing, heads);
        found[compared]++;
        sum += compared;
        longest = compared > longest ? compared : longest;
        tool_done = order.slot;
    }
    tool_rest();
    if (number == ORDERSET_END) {
        printf("%" PRIu32 " heads\n", heads ? heads : d->is.heads);
        for (uint32_t compared = 1; compared <= longest; compared++)
            printf("%" PRIu32 " compared: %" PRIu32 " held keys\n", compared, found[compared]);
        printf("average %.2f, longest %" PRIu32 "\n", held ? (double)sum / (double)held : 0, longest);
    } else if (number != d->is.refusal) {
        tool_fail(tool, "%s: no %" PRIu32 ": %s", d->path, number, orderset_strerror(number));
    }
    free(found);
    free(sharing);
}

/* Says on standard error that recovery refuses the file. */
static void say_refused(const struct tool *d) {
    fprintf(stderr, "%s: %s: refused, no %" PRIu32, tool, d->path, d->is.refusal);
    if (d->is.fault_slot)
        fprintf(stderr, " of slot %" PRIu32, d->is.fault_slot);
    fprintf(stderr, ": %s\n", orderset_strerror(d->is.refusal));
    if (d->is.refusal <= ORDERSET_BAD_HEADER)
        tool_print_log(stderr, d);
    fprintf(stderr, "%s: orderset-check %s tells what to do\n", tool, d->path);
}

int main(int count, char **word) {
    struct tool d;
    tool_options(tool, help, count, word);
    const struct asked a = ask(count, word);
    if (a.svg && strcmp(a.svg, "-")) {
        test_picture_name(&a);
        test_place(&a);
    }
    tool_open(&d, tool, a.path);
    if (d.is.refusal)
        say_refused(&d);
    if (a.svg)
        show_picture(&d, &a);
    else if (a.slots)
        show_slots(&d);
    else if (a.count)
        show_count(&d);
    else if (a.heads)
        show_heads(&d, a.heads_number);
    else
        show_orders(&d);
    tool_printed(&d, stdout, "standard output");
    orderset_close(d.set);
    return d.is.refusal ? TOOL_REFUSED : TOOL_GOOD;
}
