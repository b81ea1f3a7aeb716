/* A storm of power cuts and kills over the message log. The program under test appends and reads with the archive and
 * makes the stores of appends and of recoveries durable with orderset_persist_list, over a simulated cache (cache.h).
 * Whenever something strikes, the program starts again, makes the area durable, recovers and makes recovery's stores
 * durable; in each of these steps it can be struck again. After each recovery, before its stores and after them, what
 * can be read is the plain list of messages that were answered: the last K - 1, or all if there are fewer, byte for
 * byte. The append that was struck is there wholly or not at all.
 *
 *     log_storm [SEED [STRIKES]]
 */
#include <inttypes.h>
#include <setjmp.h>
#include <stdarg.h>
#include <stdio.h>
#include <stdlib.h>
#include <string.h>

#include "cache.h"
#include "chance.h"
#include "orderset_raw.h"

enum { MAX_CELLS = ORDERSET_LOG_CELLS_MAX, MOST = ORDERSET_LOG_MESSAGE_MAX, STRIKES = 1250000 };

static uint64_t alone; /* so many strikes come before the first call of append_after */
static uint64_t histories, strikes, cuts, kills, in_start, in_opening, in_append, answered, opened;

/* ---- the plain list of what was answered, and the append that may have been struck */

struct message {
    size_t size;
    uint8_t bytes[MOST];
};

static size_t cells;
static uint64_t messages;               /* how many the plain list has */
static struct message plain[MAX_CELLS]; /* its last ones: message s at s % MAX_CELLS */

static struct {
    int under_way;
    unsigned stores;
    struct message message;
} append;

static enum { STARTING, OPENING, RUNNING } stage;

static void __attribute__((noreturn, format(printf, 1, 2))) lost(const char *what, ...) {
    va_list list;
    printf("\nLOST ");
    va_start(list, what);
    vprintf(what, list);
    va_end(list);
    printf("\nseed %" PRIu64 ", strike %" PRIu64 ", K %zu, %" PRIu64
           " messages; append under way: %d, %u of its %u stores made, fenced: %d\n",
           seed, strikes, cells, messages, append.under_way, stores_made, append.stores, fenced);
    exit(1);
}

static void add_message(void) {
    plain[++messages % MAX_CELLS] = append.message;
    append.under_way = 0;
}

/* ---- the program */

static uint32_t at[MAX_CELLS];
static uint64_t value[MAX_CELLS], answer[ORDERSET_PROVED_LOG_ANSWER];
static enum orderset_flush flush;
static int after_kill;

static void must_read(uint64_t number) {
    const struct message *m = &plain[number % MAX_CELLS];
    uint32_t code = orderset_proved_log_read(visible, length, number, answer);
    if (code)
        lost("message %" PRIu64 ": answered, and read says no %" PRIu32, number, code);
    if (answer[ORDERSET_PROVED_LOG_LENGTH] != m->size
        || memcmp(visible + answer[ORDERSET_PROVED_LOG_OFFSET], m->bytes, m->size))
        lost("message %" PRIu64 ": answered %zu bytes, found %" PRIu64 " bytes or others", number, m->size,
             answer[ORDERSET_PROVED_LOG_LENGTH]);
}

static void must_not_read(uint64_t number) {
    uint32_t code = orderset_proved_log_read(visible, length, number, answer);
    if (code != ORDERSET_NO_MESSAGE)
        lost("message %" PRIu64 ": not to be read, and read says %" PRIu32, number, code);
}

static uint64_t oldest(void) {
    return messages >= cells ? messages - cells + 2 : 1;
}

/* What can be read is the plain list; of a long log, some of it. */
static void check(void) {
    for (uint64_t s = oldest(); s <= messages; s += cells > 20 ? 1 + below(cells / 4) : 1)
        must_read(s);
    must_not_read(oldest() - 1);
    must_not_read(messages + 1);
}

/* The highest complete number is that of the plain list, or of the append that was struck: not if one of its stores was
 * not made, and surely if its fence was passed. The plain list goes on with what was found. */
static void settle(uint64_t highest) {
    int earlier = highest == messages && !(append.under_way && fenced),
        later = append.under_way && stores_made == append.stores && highest == messages + 1;
    if (!earlier && !later)
        lost("message %" PRIu64 ": recovery says that it is the last one", highest);
    if (later)
        add_message();
    append.under_way = 0;
}

/* Every start makes the area durable first. After a power cut, and only then, it may leave that out. */
static void start(void) {
    stage = STARTING;
    if ((after_kill || below(2)) && orderset_persist_image(visible, length, flush))
        lost("persist_image");
    point();
    uint32_t code = orderset_proved_log_recover(visible, length, at, cells, value, cells, answer);
    if (code)
        lost("recovery refuses: %" PRIu32, code);
    const uint64_t highest = answer[ORDERSET_PROVED_LOG_NUMBER], count = answer[ORDERSET_PROVED_LOG_COUNT];
    settle(highest);
    check();
    stage = OPENING;
    opened += count;
    if (orderset_persist_list(visible, length, at, value, count, flush))
        lost("persist_list");
    check();
}

static const uint8_t *any_bytes(size_t size) {
    static uint8_t bytes[MOST];
    const struct message *old = &plain[(messages + 1 + MAX_CELLS - cells) % MAX_CELLS]; /* what stands in that cell */
    fill(bytes, size);
    if (messages >= cells && below(3) == 0)
        memcpy(bytes, old->bytes, size);
    if (below(8) == 0)
        memset(bytes, below(2) ? 0 : 0xff, size);
    if (size && below(2))
        bytes[below(size)] ^= 1;
    return bytes;
}

/* Refused: an empty message, one that is too long, lists that are too short. */
static void refused_append(void) {
    static const uint8_t longer[MOST + 1] = {1};
    uint32_t list = (uint32_t)below(8);
    if (orderset_proved_log_append(visible, length, longer, 0, at, MAX_CELLS, value, MAX_CELLS, answer)
            != ORDERSET_BAD_MESSAGE
        || orderset_proved_log_append(visible, length, longer, MOST + 1, at, MAX_CELLS, value, MAX_CELLS, answer)
               != ORDERSET_BAD_MESSAGE
        || orderset_proved_log_append(visible, length, longer, 1, at, list, value, MAX_CELLS, answer)
               != ORDERSET_BUFFER_TOO_SHORT)
        lost("an append that is to be refused");
}

/* By either call: the number of messages is what recovery and the last append answered. */
static uint32_t append_message(const struct message *m) {
    if (strikes < alone || below(2))
        return orderset_proved_log_append(visible, length, m->bytes, m->size, at, MAX_CELLS, value, MAX_CELLS, answer);
    return orderset_proved_log_append_after(visible, length, messages, m->bytes, m->size, at, MAX_CELLS, value,
                                            MAX_CELLS, answer);
}

static void append_one(void) {
    struct message *m = &append.message;
    m->size = below(3) ? 1 + below(MOST) : 1 + below(64);
    memcpy(m->bytes, any_bytes(m->size), m->size);
    const uint32_t code = append_message(m);
    if (code || answer[ORDERSET_PROVED_LOG_NUMBER] != messages + 1)
        lost("an append answers %" PRIu32 " or another number", code);
    append.stores = (unsigned)answer[ORDERSET_PROVED_LOG_COUNT];
    stores_made = 0;
    fenced = 0;
    append.under_way = calling = 1;
    if (orderset_persist_list(visible, length, at, value, append.stores, flush))
        lost("persist_list");
    calling = 0;
    if (stores_made != append.stores || !fenced)
        lost("persist_list: %u stores seen, fence seen: %d", stores_made, fenced);
    point();
    add_message(); /* answered */
    answered++;
}

/* In a sound log there is nothing to open. */
static void recover_again(void) {
    if (orderset_proved_log_recover(visible, length, at, 0, value, 0, answer)
        || answer[ORDERSET_PROVED_LOG_NUMBER] != messages)
        lost("a recovery in a run");
}

static void run_until_struck(void) {
    calling = 0;
    if (setjmp(struck))
        return;
    start();
    stage = RUNNING;
    for (;;) {
        uint64_t kind = below(16);
        if (kind == 0)
            check();
        else if (kind == 1)
            refused_append();
        else if (kind == 2)
            recover_again();
        else
            append_one();
        point();
    }
}

/* ---- the storm */

static void strike(void) {
    after_kill = (int)below(2);
    if (after_kill) {
        kills++;
        process_kill();
    } else {
        cuts++;
        power_cut();
    }
    in_start += stage == STARTING;
    in_opening += stage == OPENING;
    in_append += (uint64_t)(stage == RUNNING && append.under_way);
    strikes++;
}

/* A new log of zeros, durable. */
static void make(void) {
    cells = below(100) ? 2 + below(4) : below(20) ? spread(6, 60) : MAX_CELLS;
    length = ORDERSET_LOG_BYTES(cells);
    memset(visible, 0, length);
    all_durable();
    histories++;
    messages = 0;
    append.under_way = after_kill = 0;
}

/* In a start, at recovery's stores (with the flushes of all lines before it, or without them), or later. */
static unsigned any_fuse(void) {
    const unsigned lines = (unsigned)(length / 64);
    switch (below(8)) {
    case 0: return (unsigned)below(lines + 8);
    case 1: return (unsigned)below(8);
    case 2: return lines + (unsigned)below(8);
    default: return lines + 4 + (unsigned)below(below(4) ? 150 : 1000);
    }
}

int main(int count, char **word) {
    uint64_t wanted = count > 2 ? strtoull(word[2], NULL, 10) : STRIKES;
    alone = wanted / 5 * 4;
    begin_chance("log_storm", count > 1 ? word[1] : NULL);
    flush = orderset_best_flush();
    while (strikes < wanted) {
        make();
        for (uint64_t k = 20 + below(cells > 60 ? 10 : cells > 5 ? 100 : 2000); k > 0 && strikes < wanted; k--) {
            fuse = any_fuse();
            run_until_struck();
            strike();
        }
    }
    printf("%" PRIu64 " histories of the restart machine with %" PRIu64 " cuts and %" PRIu64 " kills, %" PRIu64
           " of them in a start, %" PRIu64 " in a recovery's stores and %" PRIu64 " in an append, %" PRIu64
           " lines opened, %" PRIu64 " messages answered: nothing lost (%.0f s)\n",
           histories, cuts, kills, in_start, in_opening, in_append, opened, answered, seconds());
    return 0;
}
