/* orderset copy, dump and load: the open orders of a set in a new file, in a text, and of a text in a new file. */
#define _GNU_SOURCE
#include <errno.h>
#include <inttypes.h>
#include <stdlib.h>
#include <string.h>

#include "tool.h"

static struct asked {
    int slots, layout, json, live;
    uint64_t slots_number, layout_number, mode;
} asked;

static const struct asked defaults = {.mode = OWNER};

#define NEW_FILE_OPTIONS                                                                                               \
    {"--slots", NUMBER, &asked.slots, &asked.slots_number, NULL, ORDERSET_SLOTS_MIN, ORDERSET_SLOTS_MAX},              \
        {"--layout", NUMBER, &asked.layout, &asked.layout_number, NULL, ORDERSET_LAYOUT_1, ORDERSET_LAYOUT_2},         \
        {"--mode", OCTAL, NULL, &asked.mode, NULL, 0, 0777}, {                                                         \
        "--json", FLAG, &asked.json, NULL, NULL, 0, 0                                                                  \
    }

/* The slots and the layout that were asked for, or those given. */
static struct new_set new_set(uint32_t slots, uint32_t layout, const struct orderset_record *orders, size_t count) {
    return (struct new_set){asked.slots ? (uint32_t)asked.slots_number : slots,
                            asked.layout ? (uint32_t)asked.layout_number : layout, (uint32_t)asked.mode, orders, count};
}

static void print_made(const char *path, const struct new_set *n) {
    if (asked.json) {
        fputs("{\"file\":", stdout);
        tool_json_text(stdout, path);
        printf(",\"orders\":%zu,\"slots\":%" PRIu32 ",\"layout\":%" PRIu32 ",\"bytes\":%zu}\n", n->count, n->slots,
               n->layout, ORDERSET_IMAGE_BYTES(n->slots));
    } else {
        printf("%s: made with %zu open order%s, layout %" PRIu32 ", %" PRIu32 " slots\n", path, n->count,
               n->count == 1 ? "" : "s", n->layout, n->slots);
    }
}

/* ---- copy */

static _Noreturn void say_misfit(const char *path, const struct new_set *n, uint32_t layout, uint32_t number,
                                 size_t misfits, size_t first) {
    char *key = NULL;
    size_t length;
    FILE *memory = open_memstream(&key, &length);
    if (!memory)
        tool_fail("memory: %s", strerror(errno));
    tool_print_key(memory, layout, n->orders[first].key);
    tool_printed(memory, "memory");
    tool_fail("%s: not made: %zu of %zu open orders do not fit; the first has key %s: no %" PRIu32 ": %s", path,
              misfits, n->count, key, number, orderset_strerror(number));
}

static int copy(int count, char **word) {
    static const struct option options[] = {NEW_FILE_OPTIONS, {"--live", FLAG, &asked.live, NULL, NULL, 0, 0}, {0}};
    struct orderset_record *orders;
    struct tool d;
    size_t held, misfits, first;
    asked = defaults;
    tool_arguments(count, word, options, 2, 2);
    tool_open_good(&d, word[0], asked.live);
    tool_step("copying the open orders", 0);
    uint32_t number = orderset_orders(d.set, &orders, &held);
    if (number)
        tool_fail("%s: no %" PRIu32 ": %s", d.path, number, orderset_strerror(number));
    const struct new_set n = new_set(d.is.slots, d.is.layout, orders, held);
    number = orderset_make(word[1], &n, &misfits, &first);
    tool_rest();
    if (misfits)
        say_misfit(word[1], &n, d.is.layout, number, misfits, first);
    if (number) {
        tool_say_number(word[1], number);
        exit(TOOL_FAILED);
    }
    print_made(word[1], &n);
    free(orders);
    tool_close(&d);
    return TOOL_GOOD;
}

const struct subcommand copy_command = {
    "copy", "makes a new file with the open orders of a set: larger, smaller, of the other layout",
    "usage: orderset copy FROM TO [--slots N] [--layout L] [--mode M] [--live] [--json]\n"
    "Makes a new file with the open orders of a set, in order of version, whole and durable before it gets its name;\n"
    "each key is found in it with its value before that. Nothing that exists is overwritten, and FROM is only read.\n"
    "  --slots N      how many slots, 2 to 65535; as many as FROM has unless it is given\n"
    "  --layout L     1 or 2; that of FROM unless it is given\n"
    "  --mode M       the permissions in octal digits, 600 unless it is given\n"
    "  --live         a look without the lock, while a gateway has FROM open: the copy may have the call in flight\n"
    "                 before that call is durable\n"
    "  --json         an object instead of words\n"
    "  --help, --version\n"
    "Status: 0 made; 2 not made: FROM could not be read or is refused, orders do not fit, or TO exists.\n",
    copy};

/* ---- dump */

static int by_key(const void *left, const void *right) {
    const struct orderset_record *a = left, *b = right;
    if (a->key.high != b->key.high)
        return a->key.high < b->key.high ? -1 : 1;
    return a->key.low < b->key.low ? -1 : a->key.low > b->key.low;
}

static int dump(int count, char **word) {
    static const struct option options[] = {
        {"--json", FLAG, &asked.json, NULL, NULL, 0, 0}, {"--live", FLAG, &asked.live, NULL, NULL, 0, 0}, {0}};
    struct orderset_record *orders;
    struct tool d;
    size_t held;
    asked = defaults;
    tool_arguments(count, word, options, 1, 1);
    tool_open_good(&d, word[0], asked.live);
    const uint32_t number = orderset_orders(d.set, &orders, &held);
    if (number)
        tool_fail("%s: no %" PRIu32 ": %s", d.path, number, orderset_strerror(number));
    qsort(orders, held, sizeof *orders, by_key);
    tool_step("orders written", (uint32_t)held);
    if (!asked.json)
        printf("# layout %" PRIu32 ", %" PRIu32 " slots\n", d.is.layout, d.is.slots);
    for (size_t i = 0; i < held; i++) {
        fputs(asked.json ? "{" : "", stdout);
        if (asked.json) {
            tool_json_order(stdout, d.is.layout, &orders[i]);
        } else {
            tool_print_key(stdout, d.is.layout, orders[i].key);
            fputs(": ", stdout);
            tool_print_value(stdout, &orders[i]);
        }
        fputs(asked.json ? "}\n" : "\n", stdout);
        tool_done = (uint32_t)i + 1;
    }
    tool_rest();
    free(orders);
    tool_close(&d);
    return TOOL_GOOD;
}

const struct subcommand dump_command = {
    "dump", "prints the open orders of a set by key, for load, diff and grep",
    "usage: orderset dump FILE [--live] [--json]\n"
    "Prints the layout and the slots of a set on a line that begins with #, and then each open order on a line, by\n"
    "rising key, as show does. orderset load makes a file of it. The file is only read.\n"
    "  --live         a look without the lock, while a gateway has the file open: it may show the call in flight\n"
    "                 before that call is durable\n"
    "  --json         an object on each line instead of words, without the first line; load does not read it\n"
    "  --help, --version\n"
    "Status: 0 printed; 2 the file could not be read, or is refused.\n",
    dump};

/* ---- load */

/* A text that is read: its orders, each with the number of its line as version, and what its first line tells. */
struct text {
    struct orderset_record *orders;
    size_t count, room;
    uint64_t line;
    uint32_t slots, layout; /* 0 where it does not tell */
};

/* The line of the layout and the slots; any other line that begins with # says nothing. */
static void read_comment(const char *line, struct text *t) {
    uint32_t layout, slots;
    int used = 0;
    if (t->line == 1 && sscanf(line, "# layout %" SCNu32 ", %" SCNu32 " slots%n", &layout, &slots, &used) == 2 && used
        && !line[used]) {
        t->layout = layout;
        t->slots = slots;
    }
}

static void read_line(const char *path, char *line, size_t length, struct text *t) {
    const int whole = length && line[length - 1] == '\n' && strlen(line) == length;
    t->line++;
    if (whole)
        line[length - 1] = 0;
    if (whole && line[0] == '#') {
        read_comment(line, t);
        return;
    }
    struct orderset_record *r = &t->orders[t->count];
    char *colon = whole ? strstr(line, ": ") : NULL;
    if (colon)
        *colon = 0;
    if (!colon || !tool_read_key(line, &r->key) || !tool_read_value(colon + 2, r))
        tool_fail("%s: not made: line %" PRIu64 " is no order%s", path, t->line,
                  whole ? "" : ": the input ended inside it, or it has a zero byte");
    r->version = t->line;
    t->count++;
}

static void read_text(const char *path, struct text *t) {
    char *line = NULL;
    size_t size = 0;
    for (ssize_t got; (got = getline(&line, &size, stdin)) > 0;) {
        if (t->count > ORDERSET_SLOTS_MAX)
            tool_fail("%s: not made: over %u orders, at line %" PRIu64, path, ORDERSET_SLOTS_MAX, t->line);
        if (t->count == t->room) {
            t->room = 2 * t->room + 100;
            t->orders = realloc(t->orders, t->room * sizeof *t->orders);
            if (!t->orders)
                tool_fail("memory: %s", strerror(errno));
        }
        t->orders[t->count] = (struct orderset_record){0};
        read_line(path, line, (size_t)got, t);
        tool_done = (uint32_t)t->line;
    }
    if (!feof(stdin))
        tool_fail("standard input: %s", strerror(errno));
    free(line);
}

static int load(int count, char **word) {
    static const struct option options[] = {NEW_FILE_OPTIONS, {0}};
    struct text t = {0};
    size_t misfits, first;
    asked = defaults;
    tool_arguments(count, word, options, 1, 1);
    tool_step("reading the text", 0);
    read_text(word[0], &t);
    const struct new_set n = new_set(t.slots, t.layout ? t.layout : ORDERSET_LAYOUT_1, t.orders, t.count);
    if (!asked.slots && !t.slots)
        tool_usage("how many slots? The first line does not tell: --slots N");
    tool_step("making the file", 0);
    const uint32_t number = orderset_make(word[0], &n, &misfits, &first);
    tool_rest();
    if (misfits)
        tool_fail("%s: not made: %zu of %zu orders do not fit; the first is on line %" PRIu64 ": no %" PRIu32 ": %s",
                  word[0], misfits, n.count, t.orders[first].version, number, orderset_strerror(number));
    if (number) {
        tool_say_number(word[0], number);
        exit(TOOL_FAILED);
    }
    print_made(word[0], &n);
    free(t.orders);
    return TOOL_GOOD;
}

const struct subcommand load_command = {
    "load", "makes a file of the orders that dump printed",
    "usage: orderset load TO [--slots N] [--layout L] [--mode M] [--json] < TEXT\n"
    "Makes a new file of a set with the orders on standard input, as orderset dump prints them, one on a line: a key,\n"
    "a colon, a blank and the value. The file is made whole and durable before it gets its name, and nothing that\n"
    "exists is overwritten. A line that is no order is refused by its number, and nothing is made.\n"
    "  --slots N      how many slots, 2 to 65535; as the first line of a dump tells unless it is given\n"
    "  --layout L     1 or 2; as the first line of a dump tells unless it is given, else 1\n"
    "  --mode M       the permissions in octal digits, 600 unless it is given\n"
    "  --json         an object instead of words\n"
    "  --help, --version\n"
    "Status: 0 made; 2 not made.\n",
    load};
