#include "log_model.h"

#include <string.h>

#include "model.h"

enum { CELL_WORDS = 56, LINE_WORDS = 8, PAYLOAD_LINES = 6, LENGTH = 1, PAIRS = 2, STAMP = 7 };

/* "an area of K cells of 448 bytes, K from 2 to 1,000" */
size_t m_cells(size_t length) {
    size_t cells = length / M_CELL;
    return length == cells * M_CELL && cells >= 2 && cells <= 1000 ? cells : 0;
}

/* ---- words of a cell: the marked line is its first line, payload lines 0 to 5 follow */

static size_t marked_at(size_t cell) {
    return cell * CELL_WORDS;
}

static size_t payload_at(size_t cell, size_t line) {
    return marked_at(cell) + (1 + line) * LINE_WORDS;
}

static uint64_t marked(const uint8_t *area, size_t cell, size_t word) {
    return m_word(area, marked_at(cell) + word);
}

/* "whole when its mark equals its close bit" */
static int is_whole(const uint8_t *area, size_t cell) {
    return marked(area, cell, 0) == marked(area, cell, STAMP) % 2;
}

static uint64_t version(const uint8_t *area, size_t cell) {
    return marked(area, cell, STAMP) / 2;
}

/* "six ten-bit pairs, the first lowest: a 9-bit position, then the bit's value" */
static int bit_matches(const uint8_t *area, size_t cell, size_t line) {
    uint64_t pair = marked(area, cell, PAIRS) >> (10 * line) & 1023, position = pair & 511, bit = pair >> 9;
    return (m_word(area, payload_at(cell, line) + position / 64) >> position % 64 & 1) == bit;
}

/* ---- which messages are there */

/* "Message s, at least 1, stands in cell s mod K and is complete when that cell's marked line is whole with version s,
 * its length is 1 to 384 and all six bits match" */
int m_complete(const uint8_t *area, size_t cells, uint64_t number) {
    size_t cell = number % cells;
    uint64_t size = marked(area, cell, LENGTH);
    if (number < 1 || !is_whole(area, cell) || version(area, cell) != number || size < 1 || size > M_MESSAGE)
        return 0;
    for (size_t line = 0; line < PAYLOAD_LINES; line++)
        if (!bit_matches(area, cell, line))
            return 0;
    return 1;
}

/* A complete number is the version of some marked line. */
uint64_t m_highest(const uint8_t *area, size_t cells) {
    uint64_t highest = 0;
    for (size_t cell = 0; cell < cells; cell++) {
        uint64_t number = version(area, cell);
        if (number > highest && m_complete(area, cells, number))
            highest = number;
    }
    return highest;
}

/* "Readers are shown the last K − 1 numbers up to the highest complete one, those that are complete" */
int m_shown(const uint8_t *area, size_t cells, uint64_t number) {
    uint64_t highest = m_highest(area, cells);
    return number <= highest && highest - number < cells - 1 && m_complete(area, cells, number);
}

/* ---- append */

static struct m_handed no(int refusal) {
    return (struct m_handed){.refusal = refusal};
}

/* The stores that a call makes. */
struct stores {
    size_t count;
    uint32_t at[1000];
    uint64_t value[1000];
};

static void add(struct stores *s, size_t at, uint64_t value) {
    s->at[s->count] = (uint32_t)at;
    s->value[s->count++] = value;
}

/* "old and new words are compared from word 7 down to word 0, and the search ends at the first that differs": that
 * word, or -1 */
static int differing(const uint8_t *area, size_t first, const uint8_t *fresh) {
    for (int word = 7; word >= 0; word--)
        if (m_word(area, first + (size_t)word) != m_word(fresh, (size_t)word))
            return word;
    return -1;
}

/* "The position is 64 times that word plus the trailing zeros of the difference ... Equal lines take position 0": the
 * position and the new line's bit there */
static uint64_t pair_of(const uint8_t *area, size_t first, const uint8_t *fresh, int word) {
    uint64_t place = word < 0 ? 0 : (uint64_t)word, bit = 0;
    if (word >= 0)
        for (uint64_t d = m_word(area, first + place) ^ m_word(fresh, place); d % 2 == 0; d /= 2)
            bit++;
    return 64 * place + bit + 512 * (m_word(fresh, place) >> bit & 1);
}

/* "words 0 up to that one are stored, in order"; "Equal lines ... store nothing" */
static void store_payload(struct stores *s, const uint8_t *area, size_t cell, const uint8_t *padded) {
    for (size_t line = 0; line < PAYLOAD_LINES; line++) {
        size_t first = payload_at(cell, line);
        int last = differing(area, first, padded + 64 * line);
        for (int word = 0; word <= last; word++)
            add(s, first + (size_t)word, m_word(padded + 64 * line, (size_t)word));
    }
}

/* "word 1 is the length, words 3 to 6 are zero and word 2 holds six ten-bit pairs"; the mark and the stamp are as
 * document 01 has them, with the message's number as the version. */
static void store_marked(struct stores *s, const uint8_t *area, size_t cell, const uint8_t *padded, size_t size,
                         uint64_t number) {
    uint64_t turned = 1 - marked(area, cell, STAMP) % 2, pairs = 0;
    for (size_t line = 0; line < PAYLOAD_LINES; line++) {
        size_t first = payload_at(cell, line);
        const uint8_t *fresh = padded + 64 * line;
        pairs |= pair_of(area, first, fresh, differing(area, first, fresh)) << (10 * line);
    }
    add(s, marked_at(cell), turned);
    add(s, marked_at(cell) + LENGTH, size);
    add(s, marked_at(cell) + PAIRS, pairs);
    for (size_t word = 3; word <= 6; word++)
        add(s, marked_at(cell) + word, 0);
    add(s, marked_at(cell) + STAMP, number * 2 + turned);
}

/* The stores go to the front of the lists: 13 where one is shorter. */
static struct m_handed hand_out(const struct stores *s, uint64_t number, struct m_lists lists) {
    if (lists.places < s->count || lists.values < s->count)
        return no(13);
    memcpy(lists.at, s->at, s->count * sizeof *s->at);
    memcpy(lists.value, s->value, s->count * sizeof *s->value);
    return (struct m_handed){.number = number, .count = s->count};
}

/* "30 is tested first, and in an append 29, then 9 for a number of 2^63 or more, then 13". "Messages are padded with
 * zeros and numbered one above the highest complete number, from 1." "Stores, the marked line's first". */
struct m_handed m_append(const uint8_t *area, size_t length, const uint8_t *message, size_t size,
                         struct m_lists lists) {
    struct stores s = {.count = 0};
    uint8_t padded[M_MESSAGE] = {0};
    size_t cells = m_cells(length);
    if (!cells)
        return no(30);
    if (size < 1 || size > M_MESSAGE)
        return no(29);
    uint64_t number = m_highest(area, cells) + 1;
    if (number >= 1ull << 63)
        return no(9);
    memcpy(padded, message, size);
    store_marked(&s, area, number % cells, padded, size, number);
    store_payload(&s, area, number % cells, padded);
    return hand_out(&s, number, lists);
}

/* The same refusals and stores; the number is one above the last one, which is lent and may be any. */
struct m_handed m_append_after(const uint8_t *area, size_t length, uint64_t last, const uint8_t *message, size_t size,
                               struct m_lists lists) {
    struct stores s = {.count = 0};
    uint8_t payload[M_MESSAGE] = {0};
    const size_t cells = m_cells(length);
    if (!cells || size == 0 || size > M_MESSAGE)
        return no(cells ? 29 : 30);
    if (last >= INT64_MAX)
        return (struct m_handed){.refusal = 9};
    uint64_t number = last + 1;
    memcpy(payload, message, size);
    store_marked(&s, area, number % cells, payload, size, number);
    store_payload(&s, area, number % cells, payload);
    return hand_out(&s, number, lists);
}

/* ---- recovery and read */

/* "Its recovery hands out, by cell, a store that opens each whole marked line above that number" */
struct m_handed m_log_recover(const uint8_t *area, size_t length, struct m_lists lists) {
    struct stores s = {.count = 0};
    size_t cells = m_cells(length);
    if (!cells)
        return no(30);
    uint64_t highest = m_highest(area, cells);
    for (size_t cell = 0; cell < cells; cell++)
        if (is_whole(area, cell) && version(area, cell) > highest)
            add(&s, marked_at(cell), 1 - marked(area, cell, STAMP) % 2);
    return hand_out(&s, highest, lists);
}

/* "A read answers the message as the part of the lent area that holds it"; "31 when a number read is not shown" */
struct m_part m_read(const uint8_t *area, size_t length, uint64_t number) {
    size_t cells = m_cells(length);
    if (!cells)
        return (struct m_part){.refusal = 30};
    if (!m_shown(area, cells, number))
        return (struct m_part){.refusal = 31};
    size_t cell = number % cells;
    return (struct m_part){.offset = 8 * payload_at(cell, 0), .length = marked(area, cell, LENGTH)};
}
