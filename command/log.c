/* orderset log: the messages of a log in a file. The file is only read. */
#include <inttypes.h>
#include <stdlib.h>
#include <string.h>

#include "tool.h"

static struct asked {
    int last, number, raw, json, live;
    uint64_t last_number, number_number;
} asked;

/* One line: what cannot be printed, and a backslash, as a backslash, x and two digits. */
static void print_text(FILE *out, const uint8_t *message, size_t length) {
    for (size_t i = 0; i < length; i++)
        if (message[i] < ' ' || message[i] > '~' || message[i] == '\\')
            fprintf(out, "\\x%02x", (unsigned)message[i]);
        else
            fputc(message[i], out);
}

static void print_message(uint64_t number, const uint8_t *message, size_t length) {
    if (asked.raw) {
        fwrite(message, 1, length, stdout);
    } else if (asked.json) {
        printf("{\"number\":%" PRIu64 ",\"length\":%zu,\"message\":", number, length);
        tool_json_bytes(stdout, message, length);
        fputs("}\n", stdout);
    } else {
        printf("%" PRIu64 ": ", number);
        print_text(stdout, message, length);
        putchar('\n');
    }
}

/* A message that is not complete, as a damaged file can have it, is told. */
static int show_messages(struct orderset_log *log, const char *path, uint64_t first, uint64_t last) {
    uint8_t message[ORDERSET_LOG_MESSAGE_MAX];
    size_t length;
    int status = TOOL_GOOD;
    tool_step("messages shown", (uint32_t)(last - first + 1));
    for (uint64_t number = first; number <= last; number++) {
        const uint32_t refusal = orderset_log_read(log, number, message, sizeof message, &length);
        if (refusal) {
            tool_say("%s: message %" PRIu64 ": no %" PRIu32 ": %s", path, number, refusal, orderset_strerror(refusal));
            status = TOOL_FOUND;
        } else {
            print_message(number, message, length);
        }
        tool_done = (uint32_t)(number - first + 1);
    }
    tool_rest();
    return status;
}

/* Why the bytes are no log. */
static _Noreturn void refuse(const struct tool *d) {
    struct orderset_log *log;
    const uint32_t number = d->area.bytes ? orderset_log_open_bytes(d->area.bytes, d->area.length, &log)
                                          : (uint32_t)ORDERSET_BAD_LOG_LENGTH;
    struct tool set = *d;
    tool_set(&set);
    tool_fail("%s: no %" PRIu32 ": %s%s", d->path, number, orderset_strerror(number),
              set.is.refusal ? "" : "; it is a set: orderset show shows it");
}

static void say_missing(const char *path, uint64_t first, uint64_t last) {
    const char *words = orderset_strerror(ORDERSET_NO_MESSAGE);
    if (last)
        tool_say("%s: no %d: %s; %" PRIu64 " to %" PRIu64 " can", path, ORDERSET_NO_MESSAGE, words, first, last);
    else
        tool_say("%s: no %d: %s; the log is empty", path, ORDERSET_NO_MESSAGE, words);
}

static int show_log(int count, char **word) {
    static const struct option options[] = {
        {"--last", NUMBER, &asked.last, &asked.last_number, NULL, 1, UINT32_MAX},
        {"--number", NUMBER, &asked.number, &asked.number_number, NULL, 1, UINT64_MAX},
        {"--raw", FLAG, &asked.raw, NULL, NULL, 0, 0},
        {"--json", FLAG, &asked.json, NULL, NULL, 0, 0},
        {"--live", FLAG, &asked.live, NULL, NULL, 0, 0},
        {0}};
    struct tool d;
    uint64_t first, last;
    asked = (struct asked){0};
    tool_arguments(count, word, options, 1, 1);
    if (asked.last + asked.number > 1)
        tool_usage("--last or --number, and not both");
    if (asked.raw + asked.json > 1)
        tool_usage("--raw or --json, and not both");
    if (tool_read(&d, word[0], asked.live))
        return TOOL_FAILED;
    struct orderset_log *log = tool_log(&d);
    if (!log)
        refuse(&d);
    const uint32_t refusal = orderset_log_range(log, &first, &last);
    if (refusal)
        tool_fail("%s: no %" PRIu32 ": %s", d.path, refusal, orderset_strerror(refusal));
    if (asked.number && (asked.number_number < first || asked.number_number > last)) {
        say_missing(d.path, first, last);
        return TOOL_FOUND;
    }
    if (!last)
        tool_say("%s: no messages", d.path);
    if (asked.number)
        first = last = asked.number_number;
    else if (asked.last && asked.last_number < last - first + 1)
        first = last - asked.last_number + 1;
    const int status = last ? show_messages(log, d.path, first, last) : TOOL_GOOD;
    orderset_log_close(log);
    tool_close(&d);
    return status;
}

const struct subcommand log_command = {
    "log", "shows the messages of a message log",
    "usage: orderset log FILE [--last N | --number S] [--raw] [--live] [--json]\n"
    "Shows the messages of a message log that can be read, the oldest first, each with its number on a line. The file\n"
    "is only read. What cannot be printed, and a backslash, is told as a backslash, x and two digits.\n"
    "  --last N       the last N of them\n"
    "  --number S     the message with this number\n"
    "  --raw          the bytes of the messages and nothing else, no end of a line either\n"
    "  --live         a look without the lock, while a gateway has the file open: it may show a message before it is\n"
    "                 durable\n"
    "  --json         an object on each line instead of words\n"
    "  --help, --version\n"
    "Status: 0 shown; 1 no message of that number can be read; 2 the file could not be read, or is no log.\n",
    show_log};
