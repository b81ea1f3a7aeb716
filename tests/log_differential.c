/* The message log's archive against the model of document 02's A.10, call by call: every code, number, count, store,
 * part and byte is compared, and that what is lent is otherwise as it was. It begins with directed cases, whose answers
 * are written out here. Histories begin with an area of zeros; after their cuts and calls what can be read is compared
 * with a plain list of messages. Other areas are arbitrary or damaged: there recovery and struck appends leave what can
 * be read, and a finished append adds one message and drops the oldest. Ends with status 1 at the first difference and
 * prints the case.
 *
 *     log_differential [SEED [CALLS]]
 */
#define _GNU_SOURCE
#include <inttypes.h>
#include <stdarg.h>
#include <stdio.h>
#include <stdlib.h>
#include <string.h>

#include "chance.h"
#include "log_areas.h"
#include "log_model.h"
#include "model.h"
#include "orderset_raw.h"

enum { CALLS = 7500000, MOST = 1002, ROOM = 1100, LINES = 7, EVERY = 800, SHOWN = 4 };
enum which { APPEND, AFTER, RECOVER, READ, WHICH };
static const char *const name[WHICH] = {"append", "append_after", "recover", "read"};

static uint64_t calls, histories, cuts, in_recovery, every;
static uint64_t alone;                   /* so many calls come before the first of append_after */
static uint64_t met[WHICH][32], opening; /* met: by the answer; opening: recoveries that hand out stores */
static const char *phase = "";

/* ---- a log: lent to the archive, and as it should be */

static _Alignas(64) uint8_t area[M_CELL * MOST + 64], kept[sizeof area];
static size_t length, cells; /* cells 0: no area has that length */
static uint32_t at[ROOM], model_at[ROOM];
static uint64_t value[ROOM], model_value[ROOM], answer[ORDERSET_PROVED_LOG_ANSWER],
    model_answer[ORDERSET_PROVED_LOG_ANSWER];

static enum which call;
static size_t call_size, call_places, call_values;
static uint64_t call_number;

static void show_case(void) {
    printf("seed %" PRIu64 ", call %" PRIu64 ", %s\n", seed, calls, phase);
    printf("%s: length %zu (K %zu), size %zu, lists %zu and %zu, number %" PRIu64 "\n", name[call], length, cells,
           call_size, call_places, call_values, call_number);
    for (size_t i = 0; i < length / 8 && length <= 5 * M_CELL; i++)
        printf("%s%" PRIx64 "%s", i % 8 ? " " : i % 56 ? "     " : "cell ", m_word(kept, i), i % 8 == 7 ? "\n" : "");
}

static void __attribute__((noreturn, format(printf, 1, 2))) differ(const char *what, ...) {
    va_list list;
    printf("\nDIFFERENCE ");
    va_start(list, what);
    vprintf(what, list);
    va_end(list);
    printf("\n");
    show_case();
    exit(1);
}

static void same_number(const char *what, uint64_t archive, uint64_t model) {
    if (archive != model)
        differ("in %s: archive %" PRIu64 ", model %" PRIu64, what, archive, model);
}

static void same_bytes(const char *what, const void *archive, const void *model, size_t bytes) {
    const uint8_t *x = archive, *y = model;
    for (size_t i = 0; i < bytes && memcmp(x, y, bytes); i++)
        if (x[i] != y[i])
            differ("in %s, byte %zu of %zu: archive %u, model %u", what, i, bytes, x[i], y[i]);
}

/* ---- the calls */

/* The lists are longer than what is lent of them: their ends may not change. */
static void begin(enum which which, size_t size, size_t places, size_t values, uint64_t number) {
    calls++;
    call = which;
    call_size = size;
    call_places = places;
    call_values = values;
    call_number = number;
    if (calls % 16 == 1) {
        fill(at, sizeof at);
        fill(value, sizeof value);
        memcpy(model_at, at, sizeof at);
        memcpy(model_value, value, sizeof value);
    }
    fill(answer, sizeof answer);
    memcpy(model_answer, answer, sizeof answer);
}

/* Answers the number of the refusal, or 0. */
static uint32_t end(uint32_t archive, int model, uint64_t first, uint64_t second) {
    const size_t room = (call_places > call_values ? call_places : call_values) + 64;
    same_number("the code", archive, (uint64_t)model);
    if (model == 0) {
        model_answer[0] = first;
        model_answer[1] = second;
    }
    same_number("the first answer", answer[0], model_answer[0]);
    same_number("the second answer", answer[1], model_answer[1]);
    same_bytes("the word numbers", at, model_at, room * sizeof *at);
    same_bytes("the values", value, model_value, room * sizeof *value);
    same_bytes("the area", area, kept, length + 64);
    met[call][archive]++;
    return archive;
}

static struct m_lists model_lists(size_t places, size_t values) {
    return (struct m_lists){model_at, places, model_value, values};
}

static uint32_t append(const uint8_t *message, size_t size, size_t places, size_t values) {
    begin(APPEND, size, places, values, 0);
    uint32_t code = orderset_proved_log_append(area, length, message, size, at, places, value, values, answer);
    struct m_handed m = m_append(kept, length, message, size, model_lists(places, values));
    return end(code, m.refusal, m.number, m.count);
}

static uint32_t append_after(uint64_t last, const uint8_t *message, size_t size, size_t places, size_t values) {
    begin(AFTER, size, places, values, last);
    uint32_t code =
        orderset_proved_log_append_after(area, length, last, message, size, at, places, value, values, answer);
    struct m_handed m = m_append_after(kept, length, last, message, size, model_lists(places, values));
    return end(code, m.refusal, m.number, m.count);
}

static uint32_t recover(size_t places, size_t values) {
    begin(RECOVER, 0, places, values, 0);
    uint32_t code = orderset_proved_log_recover(area, length, at, places, value, values, answer);
    struct m_handed m = m_log_recover(kept, length, model_lists(places, values));
    opening += m.refusal == 0 && m.count > 0;
    return end(code, m.refusal, m.number, m.count);
}

static uint32_t read_message(uint64_t number) {
    begin(READ, 0, 0, 0, number);
    uint32_t code = orderset_proved_log_read(area, length, number, answer);
    struct m_part m = m_read(kept, length, number);
    return end(code, m.refusal, m.offset, m.length);
}

/* ---- stores that are made, all or some */

static void make_store(size_t i) {
    m_set_word(area, at[i], value[i]);
    m_set_word(kept, model_at[i], model_value[i]);
}

static void make_all(void) {
    for (size_t i = 0; i < answer[ORDERSET_PROVED_LOG_COUNT]; i++)
        make_store(i);
}

/* The stores of the last append: how many there are of each line of its cell. */
static void count_lines(unsigned stores[LINES]) {
    memset(stores, 0, LINES * sizeof *stores);
    for (size_t i = 0; i < answer[ORDERSET_PROVED_LOG_COUNT]; i++)
        stores[at[i] / 8 % LINES]++;
}

/* Of each line only so many stores are made, counted from the first; 1 if they are all. */
static int make_some(const unsigned made[LINES]) {
    unsigned seen[LINES] = {0};
    int all = 1;
    for (size_t i = 0; i < answer[ORDERSET_PROVED_LOG_COUNT]; i++) {
        size_t line = at[i] / 8 % LINES;
        if (seen[line]++ < made[line])
            make_store(i);
        else
            all = 0;
    }
    return all;
}

/* Mostly all stores of a line or none. */
static int make_some_of(const unsigned stores[LINES]) {
    unsigned made[LINES], part = (unsigned)below(4);
    for (size_t line = 0; line < LINES; line++)
        made[line] = below(4) < part ? stores[line] : below(2) ? 0 : (unsigned)below(stores[line] + 1);
    return make_some(made);
}

/* A cut among the stores of a recovery: each is in a line of its own. */
static void make_some_openings(void) {
    for (size_t i = 0; i < answer[ORDERSET_PROVED_LOG_COUNT]; i++)
        if (below(2))
            make_store(i);
}

/* ---- what can be read, and the plain list of messages */

struct message {
    size_t size;
    uint8_t bytes[M_MESSAGE];
};

static uint64_t plain_count;
static struct message plain[MOST]; /* message s at s % MOST */

static void add_plain(const uint8_t *message, size_t size) {
    struct message *m = &plain[++plain_count % MOST];
    m->size = size;
    memcpy(m->bytes, message, size);
}

static void must_read(uint64_t number, const struct message *m) {
    if (read_message(number))
        differ("with the plain list: message %" PRIu64 " cannot be read", number);
    same_number("the length by the plain list", answer[ORDERSET_PROVED_LOG_LENGTH], m->size);
    same_bytes("the message by the plain list", area + answer[ORDERSET_PROVED_LOG_OFFSET], m->bytes, m->size);
}

static void must_not_read(uint64_t number) {
    if (read_message(number) != ORDERSET_NO_MESSAGE)
        differ("with the plain list: message %" PRIu64 " can be read", number);
}

/* The last K - 1 messages of the plain list, or all if there are fewer, and no other; in long logs some of them. */
static void check_plain(void) {
    uint64_t first = plain_count >= cells ? plain_count - cells + 2 : 1;
    if (recover(cells, cells))
        differ("recovery is refused");
    same_number("the highest number by the plain list", answer[ORDERSET_PROVED_LOG_NUMBER], plain_count);
    for (uint64_t s = first; s <= plain_count; s += cells > 20 ? 1 + below(cells / 4) : 1)
        must_read(s, &plain[s % MOST]);
    must_not_read(first - 1);
    must_not_read(plain_count + 1);
}

/* ---- histories: from an area of zeros, with cuts */

static void recover_after_cut(void) {
    while (below(3) == 0) {
        if (recover(cells, cells))
            differ("recovery is refused");
        make_some_openings();
        in_recovery++;
        check_plain();
    }
    if (recover(cells, cells))
        differ("recovery is refused");
    make_all();
    check_plain();
}

/* Every count of stores on each line of the append: recovered, read, and played back. */
static void every_cut(const unsigned stores[LINES], const uint8_t *message, size_t size) {
    static uint8_t before[M_CELL * MOST];
    static uint32_t at_before[ORDERSET_LOG_STORES];
    static uint64_t value_before[ORDERSET_LOG_STORES];
    unsigned made[LINES] = {0};
    const uint64_t number = answer[0], count = answer[1];
    memcpy(before, area, length);
    memcpy(at_before, at, sizeof at_before);
    memcpy(value_before, value, sizeof value_before);
    for (size_t line = 0; line < LINES; every++) {
        int all = make_some(made);
        if (all)
            add_plain(message, size);
        check_plain();
        recover_after_cut();
        plain_count -= (uint64_t)all;
        memcpy(area, before, length);
        memcpy(kept, before, length);
        memcpy(at, at_before, sizeof at_before);
        memcpy(model_at, at_before, sizeof at_before);
        memcpy(value, value_before, sizeof value_before);
        memcpy(model_value, value_before, sizeof value_before);
        answer[0] = number;
        answer[1] = count;
        for (line = 0; line < LINES && made[line] == stores[line]; line++)
            made[line] = 0;
        if (line < LINES)
            made[line]++;
    }
}

static size_t any_list(size_t needed) {
    return below(6) ? needed + below(4) : below(2) ? below(needed + 1) : needed - (needed > 0);
}

static void append_in_history(void) {
    uint8_t message[LONGEST];
    unsigned stores[LINES], combinations = 1;
    size_t size = any_message(area, cells, message), needed = below(2) ? ORDERSET_LOG_STORES : 8 + below(20);
    /* the number of messages is what recovery and the last append answered */
    if (calls < alone || below(2) ? append(message, size, any_list(needed), any_list(needed))
                                  : append_after(plain_count, message, size, any_list(needed), any_list(needed)))
        return;
    count_lines(stores);
    for (size_t line = 0; line < LINES && combinations <= EVERY; line++)
        combinations *= stores[line] + 1;
    if (combinations <= EVERY && below(combinations) < 2)
        every_cut(stores, message, size);
    if (below(4) == 0) {
        cuts++;
        if (make_some_of(stores))
            add_plain(message, size);
        check_plain();
        recover_after_cut();
    } else {
        make_all();
        add_plain(message, size);
    }
}

static void new_area(size_t bytes) {
    length = bytes;
    cells = m_cells(length);
    memset(area, 0, length + 64);
}

static void history(void) {
    phase = "a history";
    new_area(any_cells() * M_CELL);
    memcpy(kept, area, length + 64);
    plain_count = 0;
    histories++;
    for (uint64_t steps = 10 + below(cells > 5 ? 20 : 60); steps > 0; steps--)
        switch (below(8)) {
        case 0:
            if (recover(any_list(cells), any_list(cells)) == 0)
                same_number("the invalidating stores of a sound log", answer[ORDERSET_PROVED_LOG_COUNT], 0);
            break;
        case 1: read_message(any_number(area, cells)); break;
        case 2: check_plain(); break;
        default: append_in_history(); break;
        }
    check_plain();
}

/* ---- areas that no history has left */

/* What can be read: the highest complete number, and the messages of the last SHOWN numbers. */
struct view {
    uint64_t highest;
    int shown[SHOWN];
    struct message message[SHOWN];
};

static struct view look(void) {
    struct view v = {.highest = 0};
    if (recover(cells, cells))
        differ("recovery is refused");
    v.highest = answer[ORDERSET_PROVED_LOG_NUMBER];
    for (size_t i = 0; i < SHOWN && i < v.highest; i++) {
        v.shown[i] = read_message(v.highest - i) == 0;
        v.message[i].size = v.shown[i] ? answer[ORDERSET_PROVED_LOG_LENGTH] : 0;
        memcpy(v.message[i].bytes, area + answer[ORDERSET_PROVED_LOG_OFFSET] * (size_t)v.shown[i], v.message[i].size);
    }
    return v;
}

static void same_view(const char *what, const struct view *x, const struct view *y) {
    if (memcmp(x, y, sizeof *x))
        differ("in what can be read after %s", what);
}

/* One message more; the oldest is no longer shown. */
static struct view with_one_more(const struct view *v, const uint8_t *message, size_t size) {
    struct view w = {.highest = v->highest + 1, .shown = {1}};
    w.message[0].size = size;
    memcpy(w.message[0].bytes, message, size);
    for (size_t i = 1; i < SHOWN && i < cells - 1; i++) {
        w.shown[i] = v->shown[i - 1];
        w.message[i] = v->message[i - 1];
    }
    return w;
}

static void append_to(const struct view *before) {
    uint8_t message[LONGEST];
    unsigned stores[LINES];
    size_t size = any_message(area, cells, message);
    if (calls < alone || below(2)
            ? append(message, size, ORDERSET_LOG_STORES, ORDERSET_LOG_STORES)
            : append_after(before->highest, message, size, ORDERSET_LOG_STORES, ORDERSET_LOG_STORES))
        return;
    count_lines(stores);
    struct view expected = with_one_more(before, message, size);
    int all = make_some_of(stores);
    struct view found = look();
    cuts += (uint64_t)!all;
    same_view(all ? "an append" : "a struck append", &found, all ? &expected : before);
}

/* From any area: part of recovery's stores leaves what can be read; after all of them, so does part of an append's. */
static void laws(void) {
    struct view before = look(), after;
    if (recover(cells, cells))
        differ("recovery is refused");
    make_some_openings();
    after = look();
    same_view("a part of recovery", &after, &before);
    if (recover(cells, cells))
        differ("recovery is refused");
    make_all();
    after = look();
    same_view("recovery", &after, &before);
    append_to(&before);
}

static void any_call(void) {
    uint8_t message[LONGEST];
    size_t size = any_message(area, cells, message), lists = cells ? cells : 3;
    uint64_t kind = below(4);
    if (kind == 0)
        read_message(any_number(area, cells));
    else if (kind == 1 ? recover(any_list(lists), any_list(lists)) == 0
                       : append(message, size, any_list(ORDERSET_LOG_STORES), any_list(ORDERSET_LOG_STORES)) == 0)
        for (size_t i = 0, some = below(3); i < answer[ORDERSET_PROVED_LOG_COUNT]; i++)
            if (some == 0 || below(some + 1))
                make_store(i);
}

/* append_after, which is lent any number. */
static void any_after(void) {
    uint8_t message[LONGEST];
    const size_t size = any_message(area, cells, message), places = any_list(ORDERSET_LOG_STORES);
    if (append_after(any_last(area, cells), message, size, places, any_list(ORDERSET_LOG_STORES)) == 0)
        for (size_t i = 0, some = below(3); i < answer[ORDERSET_PROVED_LOG_COUNT]; i++)
            if (some == 0 || below(some + 1))
                make_store(i);
}

static void other_area(void) {
    phase = "an arbitrary area";
    new_area(any_area_length(any_cells()));
    if (cells && below(8))
        any_area(area, cells);
    else
        fill(area, length);
    for (uint64_t faults = cells ? below(4) : 0; faults > 0; faults--)
        damage_area(area, cells);
    memcpy(kept, area, length + 64);
    if (cells && below(2))
        laws();
    for (int i = 0; i < 8; i++) {
        any_call();
        if (calls >= alone && below(2))
            any_after();
    }
}

/* ---- directed cases: K = 2 unless it is said otherwise, answers by hand */

static void expect(const char *what, uint64_t found, uint64_t due) {
    if (found != due)
        differ("in a directed case, %s: archive %" PRIu64 ", by hand %" PRIu64, what, found, due);
}

static void zeros(size_t bytes) {
    new_area(bytes);
    memcpy(kept, area, length + 64);
}

/* The message is appended to an area of zeros of two cells: words 56 on. */
static void first_append(const uint8_t *message, size_t size, uint64_t count, uint64_t pairs) {
    const uint64_t line[8] = {1, size, pairs, 0, 0, 0, 0, 3};
    zeros(2 * M_CELL);
    expect("the code", append(message, size, ORDERSET_LOG_STORES, ORDERSET_LOG_STORES), 0);
    expect("the number", answer[ORDERSET_PROVED_LOG_NUMBER], 1);
    expect("the count", answer[ORDERSET_PROVED_LOG_COUNT], count);
    for (uint32_t i = 0; i < 8; i++) {
        expect("a word number", at[i], 56 + i);
        expect("a value", value[i], line[i]);
    }
}

static void directed_stores(void) {
    uint8_t ones[M_MESSAGE];
    memset(ones, 0xff, sizeof ones);
    first_append((const uint8_t *)"x", 1, 9, 0x203);
    expect("the ninth word", at[8], 64);
    expect("the ninth value", value[8], 0x78);
    first_append((const uint8_t *)"", 1, 8, 0); /* one zero byte: all lines are equal */
    first_append(ones, M_MESSAGE, 56, 0xf03c0f03c0f03c0);
    make_all();
    expect("the second append", append(ones, 1, 56, 56), 0); /* cell 0 */
    expect("its count", answer[ORDERSET_PROVED_LOG_COUNT], 9);
    make_all();
    expect("the third append", append(ones, 64, 56, 56), 0); /* a short one over a long one */
    expect("its number", answer[ORDERSET_PROVED_LOG_NUMBER], 3);
    expect("its count", answer[ORDERSET_PROVED_LOG_COUNT], 8 + 5 * 8);
    expect("its mark", value[0], 0);
    expect("its stamp", value[7], 6);
    expect("its pairs", value[2], 0x701c0701c070200);
}

/* The number of the only message of an area, in its cell. */
static void only_message(uint64_t number, size_t count) {
    zeros(count * M_CELL);
    uint8_t *cell = area + number % count * M_CELL;
    m_set_word(cell, 1, 5);
    m_set_word(cell, 7, number * 2);
    memcpy(kept, area, length);
}

static void directed_refusals(void) {
    static const size_t no_area[] = {0, 1, 447, 448, 895, 897, 448 * 1001, 448 * 1000 - 1, 448 * 1000 + 1};
    const uint8_t message[LONGEST] = {7};
    for (size_t i = 0; i < sizeof no_area / sizeof *no_area; i++) {
        zeros(no_area[i]);
        expect("30 of append, before 29 and 13", append(message, 0, 0, 0), 30);
        expect("30 of recover, before 13", recover(0, 0), 30);
        expect("30 of read", read_message(0), 30);
    }
    only_message(INT64_MAX, 3);
    expect("29 before 9", append(message, 0, 0, 0), 29);
    expect("29 of 385 bytes", append(message, 385, 0, 0), 29);
    expect("9 before 13", append(message, 384, 0, 0), 9);
    expect("the highest number", read_message(INT64_MAX), 0);
    only_message(INT64_MAX - 1, 3);
    expect("the last number", append(message, 1, 56, 56), 0);
    expect("the last stamp", value[7], UINT64_MAX);
    zeros(2 * M_CELL);
    expect("13 of the word numbers", append(message, 1, 8, 9), 13);
    expect("13 of the values", append(message, 1, 9, 8), 13);
    expect("lists of that length", append(message, 1, 9, 9), 0);
    expect("an empty log", recover(0, 0), 0);
    expect("its number", answer[ORDERSET_PROVED_LOG_NUMBER], 0);
    expect("31 of an empty log", read_message(1), 31);
    only_message(2, 2);
    expect("the one message", read_message(2), 0);
    expect("its offset", answer[ORDERSET_PROVED_LOG_OFFSET], 64);
    expect("its length", answer[ORDERSET_PROVED_LOG_LENGTH], 5);
    expect("31 above it", read_message(4), 31);
    zeros(1000 * M_CELL);
    expect("1,000 cells", append(message, 384, 56, 56), 0);
}

/* append_after, lent numbers that are no number of the area too. */
static void directed_after(void) {
    static const uint64_t no_number[] = {INT64_MAX, 1ull << 63, UINT64_MAX};
    const uint8_t message[LONGEST] = {7};
    phase = "a directed case";
    zeros(3 * M_CELL - 1);
    expect("30 of append_after, before 29, 9 and 13", append_after(UINT64_MAX, message, 0, 0, 0), 30);
    zeros(3 * M_CELL);
    expect("29 of append_after, before 9", append_after(UINT64_MAX, message, 385, 0, 0), 29);
    for (size_t i = 0; i < sizeof no_number / sizeof *no_number; i++)
        expect("9 of append_after, before 13", append_after(no_number[i], message, 1, 0, 0), 9);
    expect("13 of append_after", append_after(INT64_MAX - 1, message, 1, 9, 8), 13);
    expect("the last number", append_after(INT64_MAX - 1, message, 1, 9, 9), 0);
    expect("its number", answer[ORDERSET_PROVED_LOG_NUMBER], INT64_MAX);
    expect("its cell", at[0], INT64_MAX % 3 * 56);
    expect("its stamp", value[7], UINT64_MAX);
    expect("an append after 7", append_after(7, message, 1, 9, 9), 0);
    expect("its number", answer[ORDERSET_PROVED_LOG_NUMBER], 8);
    expect("its count", answer[ORDERSET_PROVED_LOG_COUNT], 9);
    expect("its cell", at[0], 2 * 56);
    expect("its stamp", value[7], 17);
    make_all();
    expect("message 8", read_message(8), 0);
    expect("an append after it", append(message, 1, 56, 56), 0);
    expect("its number", answer[ORDERSET_PROVED_LOG_NUMBER], 9);
}

/* K messages: the last K - 1 are shown, the first is complete and not shown. */
static void directed_shown(size_t count) {
    zeros(count * M_CELL);
    for (uint64_t s = 1; s <= count; s++) {
        const uint8_t message[2] = {(uint8_t)s, (uint8_t)(s >> 8)};
        expect("an append", append(message, 2, 56, 56), 0);
        make_all();
    }
    expect("the oldest of K messages", read_message(1), 31);
    for (uint64_t s = 2; s <= count; s++) {
        expect("a shown message", read_message(s), 0);
        expect("its first byte", area[answer[ORDERSET_PROVED_LOG_OFFSET]], s & 255);
    }
}

/* A struck append leaves a whole marked line above the highest number. Were it not opened, the next append, struck too,
 * could complete it with its own bytes. */
static void directed_opening(void) {
    static const unsigned marked_only[LINES] = {8}, payload_only[LINES] = {0, 1};
    zeros(2 * M_CELL);
    expect("a struck append", append((const uint8_t *)"\1", 1, 56, 56), 0);
    make_some(marked_only);
    expect("13 of recovery", recover(1, 0), 13);
    expect("recovery", recover(1, 1), 0);
    expect("its number", answer[ORDERSET_PROVED_LOG_NUMBER], 0);
    expect("its count", answer[ORDERSET_PROVED_LOG_COUNT], 1);
    expect("its word", at[0], 56);
    expect("its value", value[0], 0);
    make_all();
    expect("the next append", append((const uint8_t *)"\3XYZ", 4, 56, 56), 0);
    expect("its number", answer[ORDERSET_PROVED_LOG_NUMBER], 1);
    make_some(payload_only);
    expect("31 after a cut", read_message(1), 31);
}

static void directed(void) {
    phase = "a directed case";
    directed_stores();
    directed_refusals();
    directed_shown(2);
    directed_shown(5);
    directed_shown(1000);
    directed_opening();
}

static int all_met(void) {
    static const unsigned due[WHICH][6] = {
        {0, 9, 13, 29, 30, 30}, {0, 9, 13, 29, 30, 30}, {0, 13, 30, 30, 30, 30}, {0, 30, 31, 31, 31, 31}};
    for (int which = 0; which < WHICH; which++)
        for (int i = 0; i < 6; i++)
            if (!met[which][due[which][i]])
                return 0;
    return opening > 0;
}

int main(int count, char **word) {
    uint64_t wanted = count > 2 ? strtoull(word[2], NULL, 10) : CALLS;
    begin_chance("log_differential", count > 1 ? word[1] : NULL);
    alone = wanted / 3 * 2;
    directed();
    while (calls < wanted)
        if (below(2))
            history();
        else
            other_area();
    directed_after();
    printf("%" PRIu64 " calls, %" PRIu64 " histories, %" PRIu64 " appends cut, %" PRIu64 " cuts in a recovery, %" PRIu64
           " more by all counts: all the same (%.0f s)\n",
           calls, histories, cuts, in_recovery, every, seconds());
    if (!all_met())
        printf("an answer was never met\n");
    return !all_met();
}
