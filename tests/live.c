/* Live looks (ORDERSET_LIVE) at files that another process writes at full speed: its syncs return at once. The calls
 * are known before: each was carried out on another file, and the map after it was noted. The writer tells, in memory
 * that both have, which call it has begun and which it has ended. So each look must show the map after one of the calls
 * that ended before the look ended, and none from before those that had ended when it began: a state between two calls,
 * or of the one call in flight, wholly there or wholly absent. Sets of both layouts, with baskets, and logs. In some
 * rounds the writer is killed again and again, and another one starts, which recovers the file while it is looked at. A
 * file that is never still is said to be busy. Bounded in calls.
 *
 *     live FILE [SEED [ROUNDS]]
 */
#define _GNU_SOURCE
#include <fcntl.h>
#include <inttypes.h>
#include <signal.h>
#include <stdarg.h>
#include <stdio.h>
#include <stdlib.h>
#include <string.h>
#include <sys/mman.h>
#include <sys/prctl.h>
#include <sys/wait.h>
#include <time.h>
#include <unistd.h>

#include "chance.h"
#include "file_model.h"

enum { ROUNDS = 40, CALLS = 20000, MESSAGES = 30000, MOST_SLOTS = 2000, KILLS = 12, STARTS = 40 };

static const char *path;
static uint64_t looks, busy, kills, between; /* between: looks during which calls ended */

int __wrap_msync(void *address, size_t size, int flags);
int __wrap_msync(void *address, size_t size, int flags) {
    (void)address, (void)size, (void)flags;
    return 0;
}

/* What both processes see. */
static struct progress {
    uint32_t begun, ended;
    int failed; /* one of them has ended the test */
} *volatile progress;

__attribute__((format(printf, 2, 3))) static void expect(int is_so, const char *what, ...) {
    va_list list;
    if (is_so)
        return;
    fputs("NOT SO: ", stdout);
    va_start(list, what);
    vprintf(what, list);
    va_end(list);
    putchar('\n');
    fflush(stdout);
    if (progress)
        progress->failed = 1;
    _exit(1);
}

/* ---- the calls, and the map after each of them as one number */

static struct call call[CALLS];
static uint32_t number_of[CALLS];
static uint64_t map_after[CALLS + 1];

static uint32_t seen(const uint32_t *number) {
    return __atomic_load_n(number, __ATOMIC_SEQ_CST);
}

static void tell(uint32_t *number, uint32_t is) {
    __atomic_store_n(number, is, __ATOMIC_SEQ_CST);
}

static uint64_t mixed(uint64_t z) {
    z = (z ^ z >> 30) * 0xbf58476d1ce4e5b9u;
    z = (z ^ z >> 27) * 0x94d049bb133111ebu;
    return z ^ z >> 31;
}

static uint64_t order_as_number(struct orderset_key key, const uint8_t *bytes, size_t length) {
    uint64_t z = mixed(key.low + mixed(key.high + mixed(length + 1)));
    for (size_t i = 0; i < length; i++)
        z = mixed(z + bytes[i]);
    return z;
}

static uint64_t map_of_plain(const struct plain *p) {
    uint64_t sum = 0;
    for (int i = 0; i < KEYS; i++)
        if (p->value[i].held)
            sum += order_as_number(p->key[i], p->value[i].bytes, p->value[i].length);
    return sum;
}

static uint64_t map_of_set(struct orderset *set) {
    struct orderset_record r = {0};
    uint64_t sum = 0;
    uint32_t number;
    while ((number = orderset_next(set, &r)) == ORDERSET_OK)
        sum += order_as_number(r.key, r.value, r.length);
    expect(number == ORDERSET_END, "the orders of a look can be gone over: %" PRIu32, number);
    return sum;
}

static struct orderset *open_set(uint32_t mode) {
    struct orderset *set;
    const uint32_t number = orderset_open(path, mode, &set);
    expect(number == ORDERSET_OK, "the file is opened in mode %" PRIu32 ": %" PRIu32, mode, number);
    return set;
}

static void new_set(const struct plain *p) {
    unlink(path);
    expect(orderset_create(path, p->slots, p->layout) == ORDERSET_OK, "a file is made");
}

/* Carried out once, to know what each gives. */
static void choose_calls(struct plain *now) {
    struct plain later;
    new_set(now);
    struct orderset *set = open_set(ORDERSET_WRITE);
    map_after[0] = map_of_plain(now);
    for (int i = 0; i < CALLS; i++) {
        any_call(now, &call[i]);
        const uint32_t wanted = due(now, &call[i], &later);
        number_of[i] = carry_out(set, now, &call[i]);
        expect(may_give(wanted, number_of[i], &call[i]), "a call gives %" PRIu32 ": %" PRIu32, wanted, number_of[i]);
        if (number_of[i] == ORDERSET_OK)
            *now = later;
        map_after[i + 1] = map_of_plain(now);
    }
    orderset_close(set);
}

/* ---- the writer */

/* From the first call that was not ended; where the last one was killed, the map tells whether it is there. */
static void write_calls(const struct plain *p) {
    struct orderset *set = open_set(ORDERSET_WRITE);
    uint32_t i = seen(&progress->ended);
    if (seen(&progress->begun) > i && map_of_set(set) == map_after[i + 1] && number_of[i] == ORDERSET_OK)
        tell(&progress->ended, ++i);
    expect(map_of_set(set) == map_after[i], "a writer that starts finds the map after call %" PRIu32, i);
    for (; i < CALLS; i++) {
        tell(&progress->begun, i + 1);
        const uint32_t number = carry_out(set, p, &call[i]);
        expect(number == number_of[i], "call %" PRIu32 " gives %" PRIu32 ": %" PRIu32, i, number_of[i], number);
        tell(&progress->ended, i + 1);
    }
    orderset_close(set);
}

static pid_t start_writer(void (*work)(const struct plain *), const struct plain *p) {
    const pid_t child = fork();
    expect(child >= 0, "a process is started");
    if (child)
        return child;
    prctl(PR_SET_PDEATHSIG, SIGKILL);
    work(p);
    _exit(0);
}

static int is_under_way(uint32_t all) {
    return seen(&progress->ended) < all && !progress->failed;
}

static void wait_for(pid_t child, int status) {
    int found = 0;
    const pid_t ended = waitpid(child, &found, 0);
    expect(ended == child && found == status, "the writer ends with %d: %d", status, found);
}

/* ---- the looks */

/* The map is the one after some call that ended between the first number and the second. */
static void is_one_of(uint64_t map, uint32_t from, uint32_t to) {
    for (uint32_t i = from; i <= to; i++)
        if (map == map_after[i])
            return;
    expect(0, "a look shows the map after one of the calls %" PRIu32 " to %" PRIu32, from, to);
}

static void look_at_set(void) {
    struct orderset *set;
    const uint32_t from = seen(&progress->ended);
    const uint32_t number = orderset_open(path, ORDERSET_LIVE, &set);
    const uint32_t begun = seen(&progress->begun), to = begun > from ? begun : from;
    looks++;
    if (number == ORDERSET_BUSY) {
        busy++;
        return;
    }
    expect(number == ORDERSET_OK, "a look at a file in use is refused: %" PRIu32, number);
    between += to > from + 1;
    is_one_of(map_of_set(set), from, to);
    expect(orderset_remove(set, (struct orderset_key){0, 0}) == ORDERSET_READ_ONLY, "a look changes nothing");
    orderset_close(set);
}

static void one_round(uint64_t round) {
    const int kills_left = round % 4 == 3 ? KILLS : 0;
    struct plain p, last;
    make_plain(&p, 0, round % 2 ? ORDERSET_LAYOUT_2 : ORDERSET_LAYOUT_1);
    p.slots = (uint32_t)(kills_left ? 60 + below(200) : spread(3, MOST_SLOTS));
    p.keys = KEYS;
    last = p;
    choose_calls(&last);
    new_set(&p);
    *progress = (struct progress){0, 0, 0};
    pid_t child = start_writer(write_calls, &p);
    for (int left = kills_left; left > 0 && is_under_way(CALLS); left--) {
        for (uint64_t i = 1 + below(6); i > 0 && is_under_way(CALLS); i--)
            look_at_set();
        kill(child, SIGKILL);
        waitpid(child, NULL, 0);
        kills++;
        look_at_set();
        child = start_writer(write_calls, &p);
    }
    while (is_under_way(CALLS))
        look_at_set();
    wait_for(child, 0);
    look_at_set();
}

/* ---- a start, which opens what is left of a basket */

static void start_and_end(const struct plain *p) {
    (void)p;
    orderset_close(open_set(ORDERSET_WRITE));
    tell(&progress->ended, 1);
}

/* One order, and eight records of a basket of which the last is missing. */
static void half_basket(uint32_t layout) {
    const struct plain p = {.slots = 40, .layout = layout};
    const uint8_t nothing[ORDERSET_SLOT_BYTES] = {0};
    struct orderset_item items[ORDERSET_BASKET_MAX];
    uint32_t slot;
    new_set(&p);
    struct orderset *set = open_set(ORDERSET_WRITE);
    expect(orderset_insert(set, (struct orderset_key){9, 0}, "a", 1) == ORDERSET_OK, "an order");
    for (uint64_t i = 0; i < ORDERSET_BASKET_MAX; i++)
        items[i] = (struct orderset_item){ORDERSET_INSERT, {10 + i, 0}, "b", 1};
    expect(orderset_basket(set, items, ORDERSET_BASKET_MAX) == ORDERSET_OK
               && orderset_locate(set, items[ORDERSET_BASKET_MAX - 1].key, &slot, NULL) == ORDERSET_OK,
           "a basket");
    orderset_close(set);
    const int file = open(path, O_WRONLY | O_CLOEXEC);
    expect(pwrite(file, nothing, sizeof nothing, (off_t)slot * ORDERSET_SLOT_BYTES) == sizeof nothing,
           "a record is gone");
    close(file);
}

/* Its invalidating stores are made while it is looked at: nothing of the basket is ever there. */
static void beside_a_start(void) {
    map_after[0] = map_after[1] = order_as_number((struct orderset_key){9, 0}, (const uint8_t *)"a", 1);
    for (uint32_t i = 0; i < STARTS; i++) {
        half_basket(1 + i % 2);
        *progress = (struct progress){0, 0, 0};
        const pid_t child = start_writer(start_and_end, NULL);
        while (is_under_way(1))
            look_at_set();
        wait_for(child, 0);
        look_at_set();
    }
}

/* ---- the log */

static size_t message_of(uint64_t number, char message[ORDERSET_LOG_MESSAGE_MAX + 1]) {
    const size_t length = 1 + mixed(number) % ORDERSET_LOG_MESSAGE_MAX;
    for (size_t i = 0; i < length; i++)
        message[i] = (char)mixed(number + (i / 8 << 40));
    return length;
}

static void write_messages(const struct plain *p) {
    char message[ORDERSET_LOG_MESSAGE_MAX + 1];
    struct orderset_log *log;
    (void)p;
    expect(orderset_log_open(path, ORDERSET_WRITE, &log) == ORDERSET_OK, "the log is opened");
    for (uint32_t i = 1; i <= MESSAGES; i++) {
        const size_t length = message_of(i, message);
        tell(&progress->begun, i);
        expect(orderset_log_append(log, message, length, NULL) == ORDERSET_OK, "a message is appended");
        tell(&progress->ended, i);
    }
    orderset_log_close(log);
}

static void look_at_log(void) {
    char due_message[ORDERSET_LOG_MESSAGE_MAX + 1], message[ORDERSET_LOG_MESSAGE_MAX];
    struct orderset_log *log;
    uint64_t first, last;
    size_t length;
    const uint32_t from = seen(&progress->ended);
    const uint32_t number = orderset_log_open(path, ORDERSET_LIVE, &log);
    const uint32_t to = seen(&progress->begun);
    looks++;
    if (number == ORDERSET_BUSY) {
        busy++;
        return;
    }
    expect(number == ORDERSET_OK, "a look at a log in use is refused: %" PRIu32, number);
    expect(orderset_log_range(log, &first, &last) == ORDERSET_OK && last >= from && last <= to,
           "the last message of a look is one of %" PRIu32 " to %" PRIu32 ": %" PRIu64, from, to, last);
    between += to > from + 1;
    for (uint64_t i = first; i <= last; i++)
        expect(orderset_log_read(log, i, message, sizeof message, &length) == ORDERSET_OK
                   && length == message_of(i, due_message) && !memcmp(message, due_message, length),
               "message %" PRIu64 " of a look is there, byte for byte", i);
    orderset_log_close(log);
}

static void log_round(void) {
    unlink(path);
    expect(orderset_log_create(path, (uint32_t)spread(2, 100)) == ORDERSET_OK, "a log is made");
    *progress = (struct progress){0, 0, 0};
    const pid_t child = start_writer(write_messages, NULL);
    while (is_under_way(MESSAGES))
        look_at_log();
    wait_for(child, 0);
    look_at_log();
}

/* ---- a writer that holds the lock, and a file that is never still */

static void hold_lock(const struct plain *p) {
    struct orderset *set = open_set(ORDERSET_WRITE);
    (void)p;
    tell(&progress->begun, 1);
    for (;;)
        expect(orderset_count(set) == 0 && pause() == -1, "the writer waits");
}

static void beside_a_writer(void) {
    const struct plain p = {.slots = 9, .layout = 1};
    struct orderset *set;
    new_set(&p);
    *progress = (struct progress){0, 0, 0};
    const pid_t child = start_writer(hold_lock, &p);
    while (!seen(&progress->begun) && !progress->failed)
        usleep(1000);
    expect(orderset_open(path, ORDERSET_READ, &set) == ORDERSET_LOCKED, "a reader is refused beside a writer");
    const uint32_t number = orderset_open(path, ORDERSET_LIVE, &set);
    expect(number == ORDERSET_OK, "a look beside a writer that holds the lock: %" PRIu32, number);
    orderset_close(set);
    kill(child, SIGKILL);
    wait_for(child, SIGKILL);
}

/* The file changes whenever a look asks for the time, which it does between two passes. */
static volatile uint64_t *restless;

int __wrap_clock_gettime(clockid_t clock, struct timespec *now);
int __real_clock_gettime(clockid_t clock, struct timespec *now);
int __wrap_clock_gettime(clockid_t clock, struct timespec *now) {
    if (restless)
        ++*restless;
    return __real_clock_gettime(clock, now);
}

static void never_still(void) {
    const struct plain p = {.slots = 1000, .layout = 1};
    struct orderset *set;
    new_set(&p);
    const int file = open(path, O_RDWR | O_CLOEXEC);
    uint64_t *words = mmap(NULL, ORDERSET_IMAGE_BYTES(p.slots), PROT_READ | PROT_WRITE, MAP_SHARED, file, 0);
    expect(file >= 0 && words != MAP_FAILED, "the file is mapped");
    restless = words + (1 + below(p.slots)) * ORDERSET_SLOT_BYTES / 8 + below(8);
    const uint32_t number = orderset_open(path, ORDERSET_LIVE, &set);
    restless = NULL;
    expect(number == ORDERSET_BUSY, "a file that is never still is busy: %" PRIu32, number);
    munmap(words, ORDERSET_IMAGE_BYTES(p.slots));
    close(file);
}

int main(int count, char **word) {
    begin_chance("live", count > 2 ? word[2] : NULL);
    expect(count > 1, "live FILE [SEED [ROUNDS]]");
    const uint64_t rounds = count > 3 ? strtoull(word[3], NULL, 10) : ROUNDS;
    path = word[1];
    progress = mmap(NULL, sizeof *progress, PROT_READ | PROT_WRITE, MAP_SHARED | MAP_ANONYMOUS, -1, 0);
    expect(progress != MAP_FAILED, "memory");
    for (uint64_t round = 0; round < rounds; round++) {
        one_round(round);
        if (round % 8 == 7)
            log_round();
    }
    beside_a_start();
    beside_a_writer();
    never_still();
    unlink(path);
    expect(looks > busy && between > 0, "looks were possible while calls went on");
    printf("%" PRIu64 " looks, %" PRIu64 " with calls meanwhile, %" PRIu64 " busy, %" PRIu64
           " kills: each shows the file at one moment (%.0f s)\n",
           looks, between, busy, kills, seconds());
    return 0;
}
