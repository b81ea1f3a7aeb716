/* orderset create and create-log: a new file. */
#include <inttypes.h>
#include <stdlib.h>

#include "tool.h"

static struct asked {
    int json, slots, cells;
    uint64_t slots_number, layout, cells_number, mode;
} asked;

static const struct asked defaults = {.layout = ORDERSET_LAYOUT_1, .mode = OWNER};

static void made(const char *path, uint32_t number) {
    if (number == ORDERSET_OK)
        return;
    tool_say_number(path, number);
    exit(TOOL_FAILED);
}

static int create(int count, char **word) {
    static const struct option options[] = {
        {"--slots", NUMBER, &asked.slots, &asked.slots_number, NULL, ORDERSET_SLOTS_MIN, ORDERSET_SLOTS_MAX},
        {"--layout", NUMBER, NULL, &asked.layout, NULL, ORDERSET_LAYOUT_1, ORDERSET_LAYOUT_2},
        {"--mode", OCTAL, NULL, &asked.mode, NULL, 0, 0777},
        {"--json", FLAG, &asked.json, NULL, NULL, 0, 0},
        {0}};
    size_t misfits, first;
    asked = defaults;
    tool_arguments(count, word, options, 1, 1);
    if (!asked.slots)
        tool_usage("how many slots? --slots N");
    const struct new_set n = {(uint32_t)asked.slots_number, (uint32_t)asked.layout, (uint32_t)asked.mode, NULL, 0};
    tool_step("making the file", 0);
    made(word[0], orderset_make(word[0], &n, &misfits, &first));
    tool_rest();
    if (asked.json) {
        fputs("{\"file\":", stdout);
        tool_json_text(stdout, word[0]);
        printf(",\"kind\":\"set\",\"slots\":%" PRIu32 ",\"layout\":%" PRIu32 ",\"bytes\":%zu}\n", n.slots, n.layout,
               ORDERSET_IMAGE_BYTES(n.slots));
    } else {
        printf("%s: made, layout %" PRIu32 ", %" PRIu32 " slots, %zu bytes, room for %" PRIu32 " open orders\n",
               word[0], n.layout, n.slots, ORDERSET_IMAGE_BYTES(n.slots), n.slots - 1);
    }
    return TOOL_GOOD;
}

static int create_log(int count, char **word) {
    static const struct option options[] = {
        {"--cells", NUMBER, &asked.cells, &asked.cells_number, NULL, ORDERSET_LOG_CELLS_MIN, ORDERSET_LOG_CELLS_MAX},
        {"--mode", OCTAL, NULL, &asked.mode, NULL, 0, 0777},
        {"--json", FLAG, &asked.json, NULL, NULL, 0, 0},
        {0}};
    asked = defaults;
    tool_arguments(count, word, options, 1, 1);
    if (!asked.cells)
        tool_usage("how many cells? --cells K");
    const uint32_t cells = (uint32_t)asked.cells_number;
    made(word[0], orderset_log_make(word[0], cells, (uint32_t)asked.mode));
    if (asked.json) {
        fputs("{\"file\":", stdout);
        tool_json_text(stdout, word[0]);
        printf(",\"kind\":\"log\",\"cells\":%" PRIu32 ",\"bytes\":%zu}\n", cells, ORDERSET_LOG_BYTES(cells));
    } else {
        printf("%s: made, a message log, %" PRIu32 " cells, %zu bytes, keeps the last %" PRIu32 " message%s\n", word[0],
               cells, ORDERSET_LOG_BYTES(cells), cells - 1, cells == 2 ? "" : "s");
    }
    return TOOL_GOOD;
}

const struct subcommand create_command = {
    "create", "makes a file of an empty set",
    "usage: orderset create FILE --slots N [--layout L] [--mode M] [--json]\n"
    "Makes a file of an empty set, whole and durable before it gets its name. Nothing that exists is overwritten.\n"
    "  --slots N      how many slots, 2 to 65535: room for N - 1 open orders\n"
    "  --layout L     1 (keys of 64 bits, values of up to 80 bytes; the default) or 2 (128 bits, 72 bytes)\n"
    "  --mode M       the permissions in octal digits, 600 unless it is given\n"
    "  --json         an object instead of words\n"
    "  --help, --version\n"
    "Status: 0 made; 2 not made.\n",
    create};

const struct subcommand create_log_command = {
    "create-log", "makes a file of an empty message log",
    "usage: orderset create-log FILE --cells K [--mode M] [--json]\n"
    "Makes a file of an empty message log, whole and durable before it gets its name. Nothing that exists is\n"
    "overwritten.\n"
    "  --cells K      how many cells, 2 to 1000: it keeps the last K - 1 messages of 1 to 384 bytes\n"
    "  --mode M       the permissions in octal digits, 600 unless it is given\n"
    "  --json         an object instead of words\n"
    "  --help, --version\n"
    "Status: 0 made; 2 not made.\n",
    create_log};
