/* recorder: the last messages of a gateway, unbroken, in a file that the handle of orderset.h keeps.
 *
 *     recorder FILE make K     a new file of K cells, 2 to 1,000: it keeps the last K - 1 messages of 1 to 384 bytes
 *     recorder FILE            appends each line of standard input, and answers its number when it is durable
 *     recorder FILE list       the messages that can be read, the oldest first
 *
 * A line that is empty or too long is refused with its number, and the next one is read. A last line without its end is
 * not appended, as its rest may be missing. Status 0: all read. 1: something failed; the message that was not answered
 * is there whole or not at all. 2: wrong arguments. */
#define _GNU_SOURCE
#include <errno.h>
#include <inttypes.h>
#include <stdio.h>
#include <stdlib.h>
#include <string.h>

#include "orderset.h"

/* Ends where a call was refused. */
static void done(const char *what, uint32_t number) {
    const int failed = number == ORDERSET_ERRNO || number == ORDERSET_NOT_DURABLE;
    if (number == ORDERSET_OK)
        return;
    fprintf(stderr, "recorder: %s: no %" PRIu32 ": %s\n", what, number,
            failed ? strerror(errno) : orderset_strerror(number));
    exit(1);
}

static void printed(void) {
    if (fflush(stdout))
        done("standard output", ORDERSET_ERRNO);
}

static void append_lines(struct orderset_log *log) {
    char *line = NULL;
    size_t room = 0;
    ssize_t size;
    while ((size = getline(&line, &room, stdin)) > 0 && line[size - 1] == '\n') {
        uint64_t number;
        const uint32_t refusal = orderset_log_append(log, line, (size_t)size - 1, &number);
        if (refusal == ORDERSET_BAD_MESSAGE)
            printf("no %" PRIu32 "\n", refusal);
        else
            done("append", refusal), printf("message %" PRIu64 "\n", number);
        printed();
    }
    free(line);
    if (ferror(stdin))
        done("standard input", ORDERSET_ERRNO);
}

/* A message may have any bytes, also zero. One that is not complete, as a damaged file can have it, is left out. */
static void list(struct orderset_log *log) {
    char message[ORDERSET_LOG_MESSAGE_MAX];
    uint64_t first, last;
    size_t length;
    done("list", orderset_log_range(log, &first, &last));
    for (uint64_t number = first; number <= last; number++)
        if (orderset_log_read(log, number, message, sizeof message, &length) == ORDERSET_OK) {
            printf("%" PRIu64 ": ", number);
            fwrite(message, 1, length, stdout);
            putchar('\n');
        }
    printed();
}

int main(int count, char **word) {
    const int lists = count == 3 && !strcmp(word[2], "list"), makes = count == 4 && !strcmp(word[2], "make");
    const unsigned long cells = makes ? strtoul(word[3], NULL, 10) : 0;
    struct orderset_log *log = NULL;
    if (count != 2 && !lists && !(makes && *word[3] && !word[3][strspn(word[3], "0123456789")]))
        return fprintf(stderr, "usage: recorder FILE [list | make K]\n"), 2;
    if (makes)
        return done(word[1], orderset_log_create(word[1], cells > UINT32_MAX ? 0 : (uint32_t)cells)), 0;
    done(word[1], orderset_log_open(word[1], lists ? ORDERSET_READ : ORDERSET_WRITE, &log));
    (lists ? list : append_lines)(log);
    orderset_log_close(log);
    return 0;
}
