/* orderset trace: for each call of a trace, in the lines of the trial session or in the commands of the gateway, what
 * recovery makes of the 81 cuts of its record. The set is in memory, and the calls are those of orderset_raw.h. */
#define _GNU_SOURCE
#include <errno.h>
#include <inttypes.h>
#include <stdlib.h>
#include <string.h>

#include "tool.h"

enum { WORDS = 2 + 3 * ORDERSET_BASKET_MAX, SLOTS = 1000, DRAWN = 1000 /* calls in a picture, at the most */ };

static struct asked {
    int svg, json;
    const char *svg_name;
    uint64_t slots, layout;
} asked;

/* ---- the lines: a name, and then perhaps a key and a number */

enum kind {
    MAKE,
    TRIAL_MAKE,
    PUT,
    TRIAL_REMOVE,
    TRIAL_GET,
    NEW,
    ACKNOWLEDGE,
    FILL,
    WITHDRAW,
    SHOW,
    LIST,
    BASKET,
    KINDS
};

static const struct form_of_line {
    const char *name;
    int key, number;
} forms[KINDS] = {
    {"make", 0, 1},        {"n", 0, 1},    {"p", 1, 1},        {"r", 1, 0},    {"g", 1, 0},    {"new", 1, 1},
    {"acknowledge", 1, 0}, {"fill", 1, 1}, {"withdraw", 1, 0}, {"show", 1, 0}, {"list", 0, 0}, {"basket", 0, 1},
};

struct item {
    enum kind kind;
    struct orderset_key key;
    uint64_t number; /* the word, the quantity, the slots, or how many items a basket has */
};

/* An item at the front of the words: how many words it has, or 0. */
static int read_item(char **word, int count, struct item *i) {
    *i = (struct item){.kind = MAKE};
    while (count && i->kind < KINDS && strcmp(forms[i->kind].name, word[0]))
        i->kind++;
    if (!count || i->kind == KINDS)
        return 0;
    const int used = 1 + forms[i->kind].key + forms[i->kind].number;
    const int right = used <= count && (!forms[i->kind].key || tool_read_key(word[1], &i->key))
                      && (!forms[i->kind].number || tool_read_number(word[used - 1], &i->number));
    return right ? used : 0;
}

/* ---- the set, and what was found of its calls */

struct trace {
    FILE *in;
    const char *path;
    uint8_t *image;
    struct orderset_raw raw;
    uint64_t line;
    struct cuts *found;
    size_t calls, room;
    int status;
};

static void format_set(struct trace *t, uint64_t slots, uint64_t layout) {
    struct orderset_raw_recovery found;
    const size_t length = ORDERSET_IMAGE_BYTES(slots);
    orderset_free_index(&t->raw);
    free(t->image);
    t->raw = (struct orderset_raw){0};
    t->image = tool_memory(1, length);
    if (orderset_raw_format(t->image, length, (uint32_t)layout)
        || orderset_index_bytes(&t->raw, t->image, length, &found) || found.refusal)
        tool_fail("a set of %" PRIu64 " slots cannot be made: %s", slots, strerror(errno));
}

/* A call whose cuts all leave the earlier map, but for the last, or that changes no order, is as it must be. */
static int is_right(const struct cuts *c) {
    return count_cut(c, CUT_SAME) == CUTS || (count_cut(c, CUT_BEFORE) == CUTS - 1 && c->cut[CUTS - 1] == CUT_AFTER);
}

/* A picture on standard output is there alone. */
static int is_silent(void) {
    return asked.svg && !strcmp(asked.svg_name, "-");
}

static void print_cuts(const struct cuts *c) {
    const unsigned same = count_cut(c, CUT_SAME), before = count_cut(c, CUT_BEFORE) + same;
    const unsigned after = count_cut(c, CUT_AFTER) + same;
    if (is_silent())
        return;
    if (!asked.json) {
        printf("line %" PRIu64 ": %s: %u %u\n", c->line, c->call, before, after);
        return;
    }
    printf("{\"line\":%" PRIu64 ",\"call\":", c->line);
    tool_json_text(stdout, c->call);
    printf(",\"cuts\":%d,\"before\":%u,\"after\":%u,\"neither\":%u,\"refused\":%u}\n", CUTS, before, after,
           count_cut(c, CUT_NEITHER), count_cut(c, CUT_REFUSED));
}

/* The cuts of each record of the stores, and then the stores are made. set: before the call. */
static void stored(struct trace *t, const struct orderset_raw *set, const char *call, const uint32_t *at,
                   const uint64_t *value, size_t records) {
    for (size_t record = 0; record < records; record++) {
        if (t->calls == t->room) {
            t->room = 2 * t->room + 100;
            t->found = realloc(t->found, t->room * sizeof *t->found);
            if (!t->found)
                tool_fail("memory: %s", strerror(errno));
        }
        struct cuts *c = &t->found[t->calls++];
        *c = (struct cuts){.line = t->line};
        if ((records > 1 ? asprintf(&c->call, "%s, record %zu of %zu", call, record + 1, records)
                         : asprintf(&c->call, "%s", call))
            < 0)
            tool_fail("memory: %s", strerror(errno));
        try_cuts(set, at, value, records, record, c);
        print_cuts(c);
        tool_done = (uint32_t)t->calls;
        if (!is_right(c))
            t->status = TOOL_FOUND;
    }
    if (orderset_raw_play_list(t->raw.image, t->raw.image_length, at, value, ORDERSET_STORES * records))
        tool_fail("the stores of a call are refused");
}

/* A refused call stores nothing: it is told, and the trace goes on. */
static void refused(const struct trace *t, const char *call, uint32_t number) {
    if (is_silent())
        return;
    if (!asked.json) {
        printf("line %" PRIu64 ": %s: no %" PRIu32 ": %s\n", t->line, call, number, orderset_strerror(number));
        return;
    }
    printf("{\"line\":%" PRIu64 ",\"call\":", t->line);
    tool_json_text(stdout, call);
    printf(",\"no\":%" PRIu32 "}\n", number);
}

/* ---- the calls */

static int is_held(const struct trace *t, struct orderset_key key, struct orderset_order *order, int *is_order) {
    uint8_t value[ORDERSET_VALUE_MAX];
    struct orderset_raw_value found;
    if (orderset_raw_get(&t->raw, key, value, sizeof value, &found) || found.outcome != ORDERSET_RAW_DONE)
        return 0;
    *is_order = orderset_order_of(value, found.length, order);
    return 1;
}

static uint32_t carry_out(struct trace *t, const struct item *i, struct orderset_raw_change *c) {
    struct orderset_order order;
    int is_order;
    switch (i->kind) {
    case PUT:
        return (is_held(t, i->key, &order, &is_order) ? orderset_raw_own_replace : orderset_raw_own_insert)(
            &t->raw, i->key, &i->number, sizeof i->number, c);
    case TRIAL_REMOVE: return orderset_raw_own_remove(&t->raw, i->key, c);
    case NEW: return orderset_raw_own_book_new(&t->raw, i->key, i->number, c);
    case ACKNOWLEDGE: return orderset_raw_own_book_acknowledge(&t->raw, i->key, c);
    case FILL: return orderset_raw_own_book_fill(&t->raw, i->key, i->number, c);
    default: return orderset_raw_own_book_withdraw(&t->raw, i->key, c);
    }
}

/* The index changes with the call; the image before it is still as it was. */
static void single(struct trace *t, const struct item *i, const char *call) {
    struct orderset_raw_change c = {.outcome = ORDERSET_RAW_DONE};
    const struct orderset_raw before = t->raw;
    const uint32_t number = carry_out(t, i, &c);
    if (number)
        refused(t, call, number);
    else if (c.outcome == ORDERSET_RAW_DONE)
        stored(t, &before, call, c.at, c.value, 1);
}

/* The book's rules for an item of a basket, as the gateway has them. */
static uint32_t item_fault(const struct trace *t, const struct item *i) {
    struct orderset_order order;
    int is_order = 0;
    const int held = is_held(t, i->key, &order, &is_order);
    if (i->kind == WITHDRAW)
        return held && is_order ? ORDERSET_OK : ORDERSET_NO_ORDER;
    return held ? ORDERSET_NEW_KEY_EXISTS : i->number ? ORDERSET_OK : ORDERSET_BAD_QUANTITY;
}

static void basket(struct trace *t, const struct item *items, size_t count, const char *call) {
    struct orderset_raw_items b = {.count = 0};
    const struct orderset_raw before = t->raw;
    uint32_t number = ORDERSET_OK;
    for (size_t i = 0; i < count && !number; i++) {
        const uint64_t order[] = {ORDERSET_SENT, items[i].number, 0};
        number = item_fault(t, &items[i]);
        orderset_raw_add(&b, items[i].kind == NEW ? ORDERSET_INSERT : ORDERSET_REMOVE, items[i].key, order,
                         sizeof order);
    }
    if (!number)
        number = orderset_raw_own_basket(&t->raw, &b);
    if (number)
        refused(t, call, number);
    else
        stored(t, &before, call, b.at, b.value, count);
}

/* ---- the trace */

static void new_set(struct trace *t, const struct item *i, uint64_t layout, const char *call) {
    if (i->number < ORDERSET_SLOTS_MIN || i->number > ORDERSET_SLOTS_MAX)
        refused(t, call, ORDERSET_BAD_IMAGE_LENGTH);
    else
        format_set(t, i->number, layout);
}

/* Whether the words are a command; then it is carried out. */
static int run_words(struct trace *t, char **word, int count, const char *call) {
    struct item i, items[ORDERSET_BASKET_MAX];
    uint64_t layout = ORDERSET_LAYOUT_1;
    int used = read_item(word, count, &i);
    if (!used)
        return 0;
    if (i.kind == MAKE && used < count && tool_read_number(word[used], &layout) && layout >= ORDERSET_LAYOUT_1
        && layout <= ORDERSET_LAYOUT_2)
        used++;
    const size_t more = i.kind == BASKET ? i.number : 0;
    if (i.kind == BASKET && (more == 0 || more > ORDERSET_BASKET_MAX))
        return 0;
    for (size_t k = 0; k < more; k++) {
        const int read = read_item(word + used, count - used, &items[k]);
        if (!read || (items[k].kind != NEW && items[k].kind != WITHDRAW))
            return 0;
        used += read;
    }
    if (used != count)
        return 0;
    if (i.kind == MAKE || i.kind == TRIAL_MAKE)
        new_set(t, &i, layout, call);
    else if (i.kind == BASKET)
        basket(t, items, more, call);
    else if (i.kind != TRIAL_GET && i.kind != SHOW && i.kind != LIST)
        single(t, &i, call);
    return 1;
}

/* One blank between two words, and nothing after the last one. */
static void run_line(struct trace *t, char *line, size_t length) {
    char *call = strdup(line), *word[WORDS + 1], *rest = line;
    int count = 0;
    if (!call)
        tool_fail("memory: %s", strerror(errno));
    call[strcspn(call, "\n")] = line[strcspn(line, "\n")] = 0;
    t->line++;
    const int whole = strlen(call) + 1 >= length;
    while (rest && count <= WORDS)
        word[count++] = strsep(&rest, " ");
    if (!whole || rest || !run_words(t, word, count, call)) {
        tool_say("%s: line %" PRIu64 " is no command: %s", t->path, t->line, call);
        t->status = TOOL_FOUND;
    }
    free(call);
}

static void *run_trace(void *argument) {
    struct trace *t = argument;
    char *line = NULL;
    size_t size = 0;
    format_set(t, asked.slots, asked.layout);
    tool_step("records tried", 0);
    for (ssize_t got; (got = getline(&line, &size, t->in)) > 0;)
        run_line(t, line, (size_t)got);
    if (!feof(t->in))
        tool_fail("%s: %s", t->path, strerror(errno));
    tool_rest();
    free(line);
    return NULL;
}

static void draw_trace(struct trace *t) {
    struct drawn_cuts drawn = {t->path, t->found, t->calls < DRAWN ? t->calls : DRAWN};
    if (t->calls > DRAWN)
        tool_say("%s: of %zu calls the first %d are drawn", t->path, t->calls, DRAWN);
    tool_keep_picture(asked.svg_name, t->path, draw_cuts, &drawn);
}

static int trace(int count, char **word) {
    static const struct option options[] = {
        {"--slots", NUMBER, NULL, &asked.slots, NULL, ORDERSET_SLOTS_MIN, ORDERSET_SLOTS_MAX},
        {"--layout", NUMBER, NULL, &asked.layout, NULL, ORDERSET_LAYOUT_1, ORDERSET_LAYOUT_2},
        {"--svg", NAME, &asked.svg, NULL, &asked.svg_name, 0, 0},
        {"--json", FLAG, &asked.json, NULL, NULL, 0, 0},
        {0}};
    struct trace t = {.status = TOOL_GOOD};
    asked = (struct asked){.slots = SLOTS, .layout = ORDERSET_LAYOUT_1};
    tool_arguments(count, word, options, 1, 1);
    if (asked.svg && asked.json)
        tool_usage("--svg or --json, and not both");
    if (asked.svg)
        tool_test_picture(asked.svg_name, word[0]);
    t.path = word[0];
    t.in = strcmp(t.path, "-") ? fopen(t.path, "re") : stdin;
    if (!t.in)
        tool_fail("%s: %s", t.path, strerror(errno));
    if (orderset_on_own_stack(run_trace, &t))
        tool_fail("a thread: %s", strerror(errno));
    if (asked.svg)
        draw_trace(&t);
    for (size_t i = 0; i < t.calls; i++)
        free(t.found[i].call);
    free(t.found);
    free(t.image);
    orderset_free_index(&t.raw);
    if (t.in != stdin)
        fclose(t.in);
    return t.status;
}

const struct subcommand trace_command = {
    "trace", "tries the 81 cuts of each call of a trace",
    "usage: orderset trace FILE [--slots N] [--layout L] [--svg PICTURE] [--json]\n"
    "Carries out the calls of a trace on an empty set in memory, and prints of each record that a call stores how "
    "many\n"
    "of the 81 ways in which a power cut can leave its two lines recovery reads as the orders before the call, and "
    "how\n"
    "many as those after it: 80 1, or 81 81 where the call changes no order. Any other count is a finding. A line is\n"
    "one of the trial's (n N, p K W, r K, g K) or a command of the gateway (new, acknowledge, fill, withdraw, basket,\n"
    "show, list), or make N [L], which begins with a new set. FILE may be - for standard input.\n"
    "  --slots N      the slots of the first set, 1000 unless it is given\n"
    "  --layout L     its layout, 1 unless it is given\n"
    "  --svg PICTURE  also a picture, nine by nine squares for each record; - is standard output\n"
    "  --json         an object on each line instead of words\n"
    "  --help, --version\n"
    "Status: 0 all is as it must be; 1 a count is another, or a line is no command; 2 it could not be done.\n",
    trace};
