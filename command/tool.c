#define _GNU_SOURCE
#include "tool.h"

#include <errno.h>
#include <inttypes.h>
#include <signal.h>
#include <stdarg.h>
#include <stdlib.h>
#include <string.h>
#include <sys/time.h>
#include <unistd.h>

const char *tool_name = "orderset";

/* ---- what is said */

static void say(const char *words, va_list list, const char *end) {
    fprintf(stderr, "%s: ", tool_name);
    vfprintf(stderr, words, list);
    fputs(end, stderr);
}

void tool_say(const char *words, ...) {
    va_list list;
    va_start(list, words);
    say(words, list, "\n");
    va_end(list);
}

_Noreturn void tool_fail(const char *words, ...) {
    va_list list;
    va_start(list, words);
    say(words, list, "\n");
    va_end(list);
    exit(TOOL_FAILED);
}

_Noreturn void tool_usage(const char *words, ...) {
    va_list list;
    va_start(list, words);
    say(words, list, "");
    va_end(list);
    fprintf(stderr, " (%s --help tells more)\n", tool_name);
    exit(TOOL_FAILED);
}

void tool_say_number(const char *path, uint32_t number) {
    if (number == ORDERSET_ERRNO)
        tool_say("%s: %s", path, strerror(errno));
    else
        tool_say("%s: no %" PRIu32 ": %s%s", path, number, orderset_strerror(number),
                 number == ORDERSET_LOCKED ? "; --live looks at it all the same" : "");
}

void tool_printed(FILE *out, const char *name) {
    if (fflush(out) || ferror(out))
        tool_fail("%s: %s", name, strerror(errno));
}

void *tool_memory(size_t count, size_t size) {
    void *memory = calloc(count + 1, size);
    if (!memory)
        tool_fail("memory: %s", strerror(errno));
    return memory;
}

/* ---- arguments */

/* Of one base, from least to most. */
static uint64_t number_of(const struct option *o, const char *text) {
    const char *digits = o->kind == OCTAL ? "01234567" : "0123456789";
    errno = 0;
    const uint64_t number = strtoull(text, NULL, o->kind == OCTAL ? 8 : 10);
    if (!*text || text[strspn(text, digits)] || errno || number < o->least || number > o->most)
        tool_usage(o->kind == OCTAL ? "%s is followed by octal digits from %" PRIo64 " to %" PRIo64 ": %s"
                                    : "%s is followed by a number from %" PRIu64 " to %" PRIu64 ": %s",
                   o->name, o->least, o->most, text);
    return number;
}

static const struct option *option_of(const struct option *options, const char *word, size_t length) {
    for (; options->name; options++)
        if (strlen(options->name) == length && !strncmp(options->name, word, length))
            return options;
    tool_usage("no such option: %s", word);
}

static int is_digits(const char *text) {
    return *text && !text[strspn(text, "0123456789")];
}

/* The option at the front of the words: how many of them it takes. */
static int read_option(int count, char **word, const struct option *options) {
    const char *equals = strchr(word[0], '='), *text = equals ? equals + 1 : NULL;
    const struct option *o = option_of(options, word[0], equals ? (size_t)(equals - word[0]) : strlen(word[0]));
    int used = 1;
    if (o->kind == FLAG && text)
        tool_usage("%s is followed by nothing: %s", o->name, word[0]);
    if (o->kind != FLAG && !text && count > 1 && (o->kind != MAYBE_NUMBER || is_digits(word[1])))
        text = word[used++];
    if (o->kind != FLAG && o->kind != MAYBE_NUMBER && !text)
        tool_usage("%s needs what follows it", o->name);
    if (o->given)
        *o->given = 1;
    if (o->kind == NAME)
        *o->name_to = text;
    else if (o->kind != FLAG)
        *o->number = text ? number_of(o, text) : 0;
    return used;
}

int tool_arguments(int count, char **word, const struct option *options, int least, int most) {
    int others = 0, are_options = 1;
    for (int i = 0; i < count;) {
        if (are_options && !strcmp(word[i], "--")) {
            are_options = 0;
            i++;
        } else if (are_options && word[i][0] == '-' && word[i][1]) {
            i += read_option(count - i, word + i, options);
        } else {
            word[others++] = word[i++];
        }
    }
    if (others < least)
        tool_usage(others ? "a file more, please" : "which file?");
    if (others > most)
        tool_usage("one file too many: %s", word[most]);
    return others;
}

/* ---- how far it is */

static struct {
    const char *what;
    uint32_t all;
} step;
volatile uint32_t tool_done;

static char *put_text(char *to, const char *end, const char *text) {
    while (*text && to < end)
        *to++ = *text++;
    return to;
}

static char *put_number(char *to, const char *end, uint32_t number) {
    char digits[12];
    size_t at = sizeof digits;
    digits[--at] = 0;
    do
        digits[--at] = (char)('0' + number % 10);
    while (number /= 10);
    return put_text(to, end, digits + at);
}

/* In a handler of a signal: only what may be called there. */
static void tell(int number) {
    char line[400], *to = line;
    const char *end = line + sizeof line - 1;
    const int error = errno;
    (void)number;
    to = put_text(put_text(put_text(to, end, tool_name), end, ": "), end, step.what);
    if (step.all) {
        to = put_number(put_text(to, end, ", "), end, tool_done);
        to = put_number(put_text(to, end, " of "), end, step.all);
    } else if (tool_done) {
        to = put_number(put_text(to, end, ", "), end, tool_done);
    }
    *to++ = '\n';
    if (write(STDERR_FILENO, line, (size_t)(to - line)) < 0)
        errno = error;
    errno = error;
}

static void each_second(time_t seconds) {
    const struct itimerval timer = {{seconds, 0}, {seconds, 0}};
    setitimer(ITIMER_REAL, &timer, NULL);
}

void tool_step(const char *what, uint32_t all) {
    struct sigaction action = {.sa_handler = tell, .sa_flags = SA_RESTART};
    tool_rest();
    step.what = what;
    step.all = all;
    tool_done = 0;
    sigaction(SIGALRM, &action, NULL);
    each_second(1);
}

void tool_rest(void) {
    each_second(0);
}
