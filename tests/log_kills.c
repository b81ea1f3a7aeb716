/* kill -9 of the recorder under load, with a restart each time. Every message that was answered is there, of the last
 * K - 1; the one without an answer is there whole or not at all. Empty lines and lines that are too long are refused
 * and change nothing; a second recorder is refused while one has the file, and so is a file that is no log. A recorder
 * whose output is closed fails.
 *
 *     log_kills RECORDER FILE [SEED]
 */
#define _GNU_SOURCE
#include <inttypes.h>
#include <stdio.h>
#include <stdlib.h>
#include <string.h>
#include <unistd.h>

#include "chance.h"
#include "child.h"

enum { KILLS = 200, FILES = 20, CELL = 448, MESSAGE = 384, MOST = 20 };

static const char *recorder, *path;
static uint64_t answered, total;
static size_t cells;
static char plain[MOST + 1][MESSAGE + 1]; /* message s at s % (MOST + 1) */
static char last[MESSAGE + 1];            /* sent, and not answered; empty: none */

static char *message(uint64_t number) {
    return plain[number % (MOST + 1)];
}

static void make_file(size_t bytes) {
    FILE *file = fopen(path, "w");
    expect(file && ftruncate(fileno(file), (off_t)bytes) == 0 && fclose(file) == 0, "a file of %zu bytes", bytes);
}

/* By the recorder. */
static void make_log(void) {
    char number[24];
    snprintf(number, sizeof number, "%zu", cells);
    unlink(path);
    struct child c = start_child((const char *const[]){recorder, path, "make", number, NULL});
    expect(end_of(&c) == 0, "a log of %zu cells is made", cells);
}

static void any_line(char *line, size_t size) {
    for (size_t i = 0; i < size; i++)
        line[i] = (char)(' ' + below(95));
    line[size] = 0;
}

/* A line that is refused, or a message: the answer is heard unless it is killed first. */
static int send_line(struct child *c) {
    char line[LINE], heard[LINE], wanted[LINE];
    int refused = below(16) == 0;
    any_line(line, refused ? (size_t)(below(2) ? 0 : MESSAGE + 1) : 1 + (size_t)below(MESSAGE));
    if (!refused)
        strcpy(last, line);
    strcat(line, "\n");
    say(c, line);
    if (!refused && below(8) == 0)
        return 0;
    snprintf(wanted, sizeof wanted, refused ? "no 29" : "message %" PRIu64, answered + 1);
    expect(hear(c, heard) && !strcmp(heard, wanted), "the recorder answers '%s': '%s'", wanted, heard);
    if (!refused) {
        strcpy(message(++answered), last);
        *last = 0;
        total++;
    }
    return 1;
}

/* What is listed: the plain list, perhaps with the message that was not answered. */
static void check(void) {
    struct child c = start_child((const char *const[]){recorder, path, "list", NULL});
    char heard[LINE], wanted[LINE];
    uint64_t found = 0, first = 0;
    while (hear(&c, heard)) {
        char *text;
        uint64_t number = strtoull(heard, &text, 10);
        if (!first)
            first = number;
        else
            expect(number == found + 1, "the numbers listed are in a row: %" PRIu64, number);
        found = number;
        if (number == answered + 1 && *last) {
            strcpy(message(++answered), last);
            *last = 0;
        }
        snprintf(wanted, sizeof wanted, "%" PRIu64 ": %s", number, message(number));
        expect(number <= answered && !strcmp(heard, wanted), "message %" PRIu64 " is '%s': '%s'", number, wanted,
               heard);
    }
    expect(end_of(&c) == 0, "list ends with status 0");
    expect(found == answered, "the last message answered is %" PRIu64 ", listed %" PRIu64, answered, found);
    expect(!answered || first == (answered < cells ? 1 : answered - cells + 2), "the first one listed is %" PRIu64,
           first);
    *last = 0;
}

static void second_is_refused(void) {
    struct child c = start_child((const char *const[]){recorder, path, NULL});
    expect(end_of(&c) == 1, "a second recorder is refused");
}

static void no_log_is_refused(void) {
    make_file(CELL * 1001);
    struct child c = start_child((const char *const[]){recorder, path, NULL});
    char heard[LINE];
    expect(hear(&c, heard) && strstr(heard, "no 30") && end_of(&c) == 1, "a file of 1,001 cells is refused: '%s'",
           heard);
}

static void run_and_kill(void) {
    struct child c = start_child((const char *const[]){recorder, path, NULL});
    uint64_t lines = below(30);
    while (lines > 0 && send_line(&c))
        lines--;
    if (lines == 0 && below(8) == 0 && send_line(&c))
        second_is_refused();
    usleep((useconds_t)below(1u << below(12)));
    kill_child(&c);
    end_of(&c);
    check();
}

/* The answer of a recorder whose output is closed goes nowhere, and not into the file: it fails. */
static void closed_output(void) {
    make_file(CELL * 2);
    const char *const words[] = {"/bin/sh", "-c", "exec \"$0\" \"$1\" >&-", recorder, path, NULL};
    struct child c = start_child(words);
    say(&c, "a\n");
    expect(end_of(&c) == 1, "a recorder without an output fails");
}

int main(int count, char **word) {
    begin_chance("log_kills", count > 3 ? word[3] : NULL);
    expect(count > 2, "log_kills RECORDER FILE [SEED]");
    recorder = word[1];
    path = word[2];
    no_log_is_refused();
    closed_output();
    for (int files = 0; files < FILES; files++) {
        cells = 2 + below(MOST - 1);
        answered = 0;
        if (files % 2)
            make_log();
        else
            make_file(CELL * cells);
        for (int kills = 0; kills < KILLS / FILES; kills++)
            run_and_kill();
    }
    unlink(path);
    printf("%d kills, %" PRIu64 " messages answered: all there (%.0f s)\n", KILLS, total, seconds());
    return 0;
}
