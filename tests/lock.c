/* Several handles on one file, each in a process of its own: while one has it open for writing, another is refused with
 * 1011, whatever its mode, and the first goes on. When the first has ended, or was killed, the next one is opened. Of
 * several that open at once, what one answered is there.
 *
 *     lock FILE [SEED]
 *     lock FILE as MODE KEY...    the other process: opens the file and sends orders of the keys, then of those of its
 *                                 input
 */
#define _GNU_SOURCE
#include <inttypes.h>
#include <stdio.h>
#include <stdlib.h>
#include <string.h>
#include <unistd.h>

#include "chance.h"
#include "child.h"
#include "orderset.h"

enum { ROUNDS = 40, AT_ONCE = 4 };

static const char *program, *file;
static uint64_t orders; /* that were answered */

/* ---- the other process: a line for the open and for each key */

static uint32_t told(uint32_t number) {
    printf("%" PRIu32 "\n", number);
    fflush(stdout);
    return number;
}

static int other_process(int count, char **word) {
    char line[LINE];
    struct orderset *set;
    if (told(orderset_open(word[1], (uint32_t)atoi(word[3]), &set)))
        return 1;
    for (int i = 4; i < count; i++)
        told(orderset_book_new(set, (struct orderset_key){strtoull(word[i], NULL, 10), 0}, 100));
    while (fgets(line, sizeof line, stdin))
        told(orderset_book_new(set, (struct orderset_key){strtoull(line, NULL, 10), 0}, 100));
    orderset_close(set);
    return 0;
}

/* ---- the test */

static struct child start(uint32_t mode, const char *key) {
    char word[24];
    snprintf(word, sizeof word, "%" PRIu32, mode);
    return start_child((const char *const[]){program, file, "as", word, key, NULL});
}

static uint32_t hear_number(struct child *child) {
    char line[LINE];
    expect(hear(child, line), "a process tells a number");
    return (uint32_t)strtoul(line, NULL, 10);
}

static void works(const char *key) {
    struct child child = start(ORDERSET_WRITE, key);
    expect(hear_number(&child) == 0 && hear_number(&child) == 0, "a handle alone takes order %s", key);
    expect(end_of(&child) == 0, "its process ends with status 0");
    orders++;
}

static void is_refused(uint32_t mode) {
    struct child child = start(mode, NULL);
    const uint32_t number = hear_number(&child);
    expect(number == ORDERSET_LOCKED, "a second handle of mode %" PRIu32 " is refused: %" PRIu32, mode, number);
    expect(end_of(&child) == 1, "its process ends with status 1");
}

static struct child first_one(void) {
    struct child child = start(ORDERSET_WRITE, NULL);
    expect(hear_number(&child) == 0, "the first handle is opened");
    return child;
}

static void second_is_refused(void) {
    struct child first = first_one();
    for (uint32_t mode = ORDERSET_READ; mode <= ORDERSET_INSPECT; mode++)
        is_refused(mode);
    say(&first, "2\n");
    expect(hear_number(&first) == 0, "the first handle goes on");
    orders++;
    expect(end_of(&first) == 0, "the first process ends with status 0");
}

/* A reader has its copy: it holds nobody up. */
static void reader_holds_no_lock(void) {
    struct child reader = start(ORDERSET_READ, NULL), inspector = start(ORDERSET_INSPECT, NULL);
    expect(hear_number(&reader) == 0 && hear_number(&inspector) == 0, "two readers are opened");
    works("5");
    expect(end_of(&reader) == 0 && end_of(&inspector) == 0, "the readers end with status 0");
}

static void killed_one_leaves_no_lock(void) {
    struct child first = first_one();
    is_refused(ORDERSET_WRITE);
    kill_child(&first);
    expect(end_of(&first) == -1, "the first process is killed");
}

/* Several at once: one or more take their order, one after the other, and the others are refused. */
static void at_once(int round) {
    struct child child[AT_ONCE];
    char key[24];
    int won = 0;
    for (int i = 0; i < AT_ONCE; i++) {
        snprintf(key, sizeof key, "%d", 1000 + round * AT_ONCE + i);
        usleep((useconds_t)below(1u << below(12)));
        child[i] = start(ORDERSET_WRITE, key);
    }
    for (int i = 0; i < AT_ONCE; i++) {
        const uint32_t number = hear_number(&child[i]);
        expect(number == 0 || number == ORDERSET_LOCKED, "one of several is opened or refused: %" PRIu32, number);
        expect(number || hear_number(&child[i]) == 0, "one of several that is opened takes its order");
        expect(end_of(&child[i]) == (number ? 1 : 0), "its process ends");
        won += number == 0;
    }
    expect(won > 0, "one of several is opened");
    orders += (uint64_t)won;
}

static void all_there(void) {
    struct orderset *set;
    expect(orderset_open(file, ORDERSET_READ, &set) == 0, "the file is opened");
    expect(orderset_count(set) == orders, "every order that was answered is there: %" PRIu64 ", found %" PRIu32, orders,
           orderset_count(set));
    orderset_close(set);
}

int main(int count, char **word) {
    if (count > 3 && !strcmp(word[2], "as"))
        return other_process(count, word);
    begin_chance("lock", count > 2 ? word[2] : NULL);
    expect(count > 1, "lock FILE [SEED]");
    program = word[0];
    file = word[1];
    unlink(file);
    expect(orderset_create(file, 500, 1) == 0, "a file is made");
    works("1");
    second_is_refused();
    works("3");
    killed_one_leaves_no_lock();
    works("4");
    reader_holds_no_lock();
    all_there();
    for (int round = 0; round < ROUNDS; round++)
        at_once(round);
    all_there();
    printf("the second handle is refused, %d times %d at once, %" PRIu64 " orders answered: all there (%.0f s)\n",
           ROUNDS, AT_ONCE, orders, seconds());
    return 0;
}
