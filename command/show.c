/* orderset show: the open orders of a set in a file, its slots, how many there are of each class, or a picture of them.
 * The file is only read. */
#include <inttypes.h>
#include <string.h>

#include "tool.h"

/* What is to be shown: one of the three, or the open orders. */
static struct asked {
    int slots, count, svg, json, live;
    const char *svg_name;
} asked;

static void show_slot(const struct tool *d, const struct orderset_record *r) {
    if (!asked.json) {
        tool_print_slot(stdout, d->is.layout, r);
        putchar('\n');
        return;
    }
    printf("{\"class\":\"%s\",\"records\":%" PRIu32 ",\"fault\":%" PRIu32 ",", tool_class[r->slot_class], r->records,
           r->fault);
    tool_json_order(stdout, d->is.layout, r);
    fputs("}\n", stdout);
}

static void show_slots(struct tool *d) {
    struct orderset_record record;
    tool_step("slots shown", d->is.slots);
    for (uint32_t slot = 1; slot <= d->is.slots; slot++) {
        tool_slot(d, slot, &record);
        show_slot(d, &record);
    }
    tool_rest();
}

static void show_orders(struct tool *d) {
    struct orderset_record order = {0};
    uint32_t number;
    if (!d->is.live && !d->is.refusal)
        tool_say("%s: no open orders", d->path);
    tool_step("slots looked at", d->is.slots);
    while ((number = orderset_next(d->set, &order)) == ORDERSET_OK) {
        tool_done = order.slot;
        fputs(asked.json ? "{" : "", stdout);
        if (asked.json) {
            tool_json_order(stdout, d->is.layout, &order);
        } else {
            tool_print_key(stdout, d->is.layout, order.key);
            fputs(": ", stdout);
            tool_print_value(stdout, &order);
        }
        fputs(asked.json ? "}\n" : "\n", stdout);
    }
    tool_rest();
    if (number != ORDERSET_END && number != d->is.refusal)
        tool_fail("%s: no %" PRIu32 ": %s", d->path, number, orderset_strerror(number));
}

static void show_count(const struct tool *d) {
    fputs(asked.json ? "{" : "", stdout);
    for (int i = 0; i < TOOL_CLASSES; i++) {
        const uint64_t count = i == ORDERSET_SLOT_UNKNOWN ? d->unknown : d->is.count[i];
        if (i == ORDERSET_SLOT_UNKNOWN && !count)
            continue;
        if (asked.json)
            printf("%s\"%s\":%" PRIu64, i ? "," : "", tool_class[i], count);
        else
            printf("%s%" PRIu64 " %s", i ? ", " : "", count, tool_class[i]);
    }
    fputs(asked.json ? "}\n" : "\n", stdout);
}

static void draw(void *d, FILE *out) {
    draw_picture(d, out);
}

static int show(int count, char **word) {
    static const struct option options[] = {
        {"--slots", FLAG, &asked.slots, NULL, NULL, 0, 0},        {"--count", FLAG, &asked.count, NULL, NULL, 0, 0},
        {"--svg", NAME, &asked.svg, NULL, &asked.svg_name, 0, 0}, {"--json", FLAG, &asked.json, NULL, NULL, 0, 0},
        {"--live", FLAG, &asked.live, NULL, NULL, 0, 0},          {0}};
    struct tool d;
    asked = (struct asked){0};
    tool_arguments(count, word, options, 1, 1);
    if (asked.svg + asked.slots + asked.count > 1)
        tool_usage("--slots, --count or --svg, and no two of them");
    if (asked.svg && asked.json)
        tool_usage("--svg or --json, and not both");
    if (asked.svg)
        tool_test_picture(asked.svg_name, word[0]);
    tool_open(&d, word[0], asked.live);
    if (d.is.refusal)
        tool_say_refused(&d);
    if (asked.svg)
        tool_keep_picture(asked.svg_name, word[0], draw, &d);
    else if (asked.slots)
        show_slots(&d);
    else if (asked.count)
        show_count(&d);
    else
        show_orders(&d);
    const int status = d.is.refusal ? TOOL_FOUND : TOOL_GOOD;
    tool_close(&d);
    return status;
}

const struct subcommand show_command = {
    "show", "shows the open orders, the slots, their counts or a picture of a set",
    "usage: orderset show FILE [--slots | --count | --svg PICTURE] [--live] [--json]\n"
    "Shows the open orders of a set, one on a line, by slot. The file is only read.\n"
    "  --slots        each slot instead: what it holds, its key, version and value\n"
    "  --count        how many slots are live, hidden, removed, void, broken and empty instead\n"
    "  --svg PICTURE  a picture of the slots instead, a square for each; - is standard output\n"
    "  --live         a look without the lock, while a gateway has the file open: it may show the call in flight\n"
    "                 before that call is durable\n"
    "  --json         an object on each line instead of words\n"
    "  --help, --version\n"
    "Status: 0 shown; 1 recovery refuses the file (slots and picture are shown); 2 it could not be read.\n",
    show};
