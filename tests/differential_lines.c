/* differential_lines.c: what is asked of a line, on both sides: lines of images, damaged ones, any bytes, and directed
 * cases. */
#include "differential.h"

static uint32_t archive_line(enum which which, const uint8_t *line, size_t length, uint64_t version, uint8_t *answer,
                             size_t room) {
    switch (which) {
    case LINE_WHOLE: return orderset_proved_line_whole(line, length, answer, room);
    case LINE_VERSION: return orderset_proved_line_version(line, length, answer, room);
    case LINE_FIRST: return orderset_proved_line_first(line, length, version, answer, room);
    default: return orderset_proved_line_last(line, length, version, answer, room);
    }
}

enum { ROOM = 24 };

/* The word that is answered, or the refusal. In a case that is shown the version is the key, the room the first count.
 */
static uint64_t try_line(const struct set *s, enum which which, const uint8_t *line, size_t length, uint64_t version,
                         size_t room) {
    uint8_t answer[ROOM], expected[ROOM];
    fill(answer, ROOM);
    memcpy(expected, answer, ROOM);
    keep_case(s, which, version, length, room, 0);
    queries++;
    uint32_t code = archive_line(which, line, length, version, answer, room);
    int refusal = m_line((enum m_query)(which - LINE_WHOLE), line, length, version, expected, room);
    same_code(code, refusal, DONE);
    same_bytes("the answer about a line", answer, expected, ROOM);
    return code ? code : m_word(answer, 0);
}

static uint64_t any_version(void) {
    static const uint64_t versions[] = {0, 1, 2, (1ull << 63) - 1, 1ull << 63, (1ull << 63) + 1, UINT64_MAX};
    return below(2) ? versions[below(sizeof versions / sizeof *versions)] : chance() >> below(64);
}

static void ask_all(const struct set *s, const uint8_t *line) {
    for (unsigned which = LINE_WHOLE; which <= LINE_LAST; which++)
        try_line(s, (enum which)which, line, ORDERSET_LINE_BYTES, any_version(), ORDERSET_PROVED_LINE_ANSWER);
}

void every_line(const struct set *s) {
    for (size_t at = 0; at < s->length; at += ORDERSET_LINE_BYTES)
        ask_all(s, s->image + at);
}

void framed(const struct set *s, uint32_t slot, uint64_t version) {
    for (size_t i = 0; i < ORDERSET_STORES; i += ORDERSET_LINE_STORES) {
        const uint8_t *line = s->image + ORDERSET_SLOT_BYTES * (size_t)slot + 8 * i;
        const enum which asked = call;
        const int by = owner;
        const uint64_t first = try_line(s, LINE_FIRST, line, ORDERSET_LINE_BYTES, version, ORDERSET_PROVED_LINE_ANSWER),
                       last = try_line(s, LINE_LAST, line, ORDERSET_LINE_BYTES, version, ORDERSET_PROVED_LINE_ANSWER);
        call = asked;
        owner = by;
        same_number("the first store of a line", s->value[i], first);
        same_number("the last store of a line", s->value[i + ORDERSET_LINE_STORES - 1], last);
    }
}

void lines(void) {
    phase = "single lines";
    uint32_t n = 2 + (uint32_t)below(6);
    uint8_t bytes[2 * ORDERSET_LINE_BYTES];
    struct set *s = open_set(ORDERSET_IMAGE_BYTES(n), 1, ORDERSET_NEXT_LENGTH(n));
    any_image(s->model_image, n, 1 + below(2 * n));
    for (uint64_t k = below(4); k > 0; k--)
        damage(s->model_image, n);
    lend_garbage(s);
    every_line(s);
    for (int i = 0; i < 16; i++) {
        fill(bytes, sizeof bytes);
        m_set_word(bytes, 0, below(4) ? below(4) : chance());
        m_set_word(bytes, 7, chance() >> below(64));
        try_line(s, LINE_WHOLE + (unsigned)below(4), bytes, below(4) ? ORDERSET_LINE_BYTES : below(sizeof bytes + 1),
                 any_version(), below(4) ? ORDERSET_PROVED_LINE_ANSWER : below(ROOM + 1));
    }
    close_set(s);
}

/* ---- directed cases */

/* Lines by their mark and stamp, and what is answered: whole, version, and the first and last word for version 9. */
static const struct line_case {
    uint64_t mark, stamp, whole, version, first, last;
} line_cases[] = {
    {0, 0, 1, 0, 1, 19},
    {1, 1, 1, 0, 0, 18},
    {1, 0, 0, 0, 1, 19},
    {0, 15, 0, 7, 0, 18},
    {1, 15, 1, 7, 0, 18},
    {3, 15, 0, 7, 0, 18},
    {2, 14, 0, 7, 1, 19},
    {1ull << 32, 14, 0, 7, 1, 19},
    {1, UINT64_MAX, 1, UINT64_MAX / 2, 0, 18},
    {0, UINT64_MAX - 1, 1, UINT64_MAX / 2, 1, 19},
};

static void directed_line(const struct set *s, const struct line_case *c) {
    uint8_t line[ORDERSET_LINE_BYTES];
    const uint64_t said[] = {c->whole, c->version, c->first, c->last};
    fill(line, sizeof line);
    m_set_word(line, 0, c->mark);
    m_set_word(line, 7, c->stamp);
    for (unsigned k = 0; k < 4; k++)
        same_number("a directed case's line", try_line(s, LINE_WHOLE + k, line, sizeof line, 9, 8), said[k]);
}

/* 33 for either slice, also at version 2^63, which is 9 by itself where a next version is given. */
static void directed_lengths(const struct set *s) {
    static const size_t wrong[][2] = {{63, 8}, {65, 8}, {0, 8}, {128, 8}, {64, 7}, {64, 9}, {64, 0}, {8, 16}};
    uint8_t line[128];
    fill(line, sizeof line);
    for (unsigned which = LINE_WHOLE; which <= LINE_LAST; which++) {
        for (size_t i = 0; i < sizeof wrong / sizeof *wrong; i++)
            for (uint64_t k = 0; k < 2; k++)
                same_number("a length that is not due", try_line(s, which, line, wrong[i][0], k << 63, wrong[i][1]),
                            33);
        if (which >= LINE_FIRST)
            same_number("a version that cannot be written", try_line(s, which, line, 64, 1ull << 63, 8), 9);
    }
}

void directed_lines(void) {
    struct set *s = directed_set(SOUND);
    for (size_t i = 0; i < sizeof line_cases / sizeof *line_cases; i++)
        directed_line(s, &line_cases[i]);
    directed_lengths(s);
    close_set(s);
}
