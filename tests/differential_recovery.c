/* differential_recovery.c: format and recovery on both sides, with the counts of the slots and the stores that open
 * void slots; and directed cases of recovery. */
#include "differential.h"

int try_format(struct set *s, uint64_t layout) {
    uint64_t answer[ORDERSET_PROVED_FORMAT_ANSWER], expected[ORDERSET_PROVED_FORMAT_ANSWER];
    fill(answer, sizeof answer);
    memcpy(expected, answer, sizeof answer);
    begin(s, FORMAT, 0, (size_t)layout, 0, 0);
    uint32_t code = orderset_proved_format(s->image, s->length, layout, answer);
    int refusal = m_format(s->model_image, s->length, layout);
    if (!refusal) {
        expected[0] = 1;
        expected[1] = s->n;
    }
    same_code(code, refusal, DONE);
    same_bytes("the answer", answer, expected, sizeof answer);
    compare(s);
    return refusal;
}

/* The invalidating stores one by one, and zeros past them; of a refused recovery what was lent. */
static void compare_openings(const struct set *s, const struct m_recovered *recovered, uint32_t count_lent,
                             const uint32_t *at_lent, const uint64_t *value_lent) {
    same_number("the count of invalidating stores", s->count[0], recovered->refusal ? count_lent : recovered->count);
    for (uint32_t i = 0; i < ORDERSET_INVALIDATIONS; i++) {
        const struct m_store *store = &recovered->opening[i]; /* zero past the count */
        same_number("an invalidating store's word", s->open_at[i], recovered->refusal ? at_lent[i] : store->at);
        same_number("an invalidating store's value", s->open_value[i],
                    recovered->refusal ? value_lent[i] : store->value);
    }
    openings += recovered->count;
}

/* The six counts of the same image, with an index of the same size: what recovery returned and left. */
static void compare_counts(const struct set *s, const struct m_recovered *recovered, uint64_t recovery_code) {
    const size_t heads_bytes = 4 * s->model.heads_length, next_bytes = 4 * s->model.next_length;
    uint64_t *counts = lend(8 * ORDERSET_COUNTS), expected[ORDERSET_COUNTS], sum = 0;
    uint32_t *heads = lend(heads_bytes), *next = lend(next_bytes);
    uint8_t *heads_lent = malloc(heads_bytes + 1), *next_lent = malloc(next_bytes + 1);
    if (!heads_lent || !next_lent)
        abort();
    fill(expected, sizeof expected);
    fill(heads, heads_bytes);
    fill(next, next_bytes);
    memcpy(counts, expected, sizeof expected);
    memcpy(heads_lent, heads, heads_bytes);
    memcpy(next_lent, next, next_bytes);
    uint64_t code =
        SET(count_slots)(s->image, s->length, heads, s->model.heads_length, next, s->model.next_length, counts);
    same_number("what counting returned", code, recovery_code);
    if (!recovered->refusal) {
        m_count(s->model_image, s->length, recovered, expected);
        for (unsigned i = 0; i < ORDERSET_COUNTS; i++)
            sum += counts[i];
        same_number("the sum of the counts", sum, s->n);
    }
    same_bytes("the counts", counts, expected, sizeof expected);
    same_bytes("the heads of counting", heads, recovered->refusal ? (void *)heads_lent : s->model.heads, heads_bytes);
    same_bytes("the next of counting", next, recovered->refusal ? (void *)next_lent : s->model.next, next_bytes);
    if (!guarded(counts, 8 * ORDERSET_COUNTS) || !guarded(heads, heads_bytes) || !guarded(next, next_bytes))
        differ("counting wrote outside what it was lent");
    counted += !recovered->refusal;
    give_back(counts);
    give_back(heads);
    give_back(next);
    free(heads_lent);
    free(next_lent);
}

int try_recover(struct set *s) {
    uint32_t count_lent = (uint32_t)chance(), at_lent[ORDERSET_INVALIDATIONS];
    uint64_t value_lent[ORDERSET_INVALIDATIONS];
    fill(at_lent, sizeof at_lent);
    fill(value_lent, sizeof value_lent);
    s->count[0] = count_lent;
    memcpy(s->open_at, at_lent, sizeof at_lent);
    memcpy(s->open_value, value_lent, sizeof value_lent);
    begin(s, RECOVER, 0, 0, 0, 0);
    uint64_t code = SET(recover)(s->image, s->length, s->heads, s->model.heads_length, s->next, s->model.next_length,
                                 s->state, s->version, s->count, s->open_at, s->open_value);
    struct m_recovered recovered = m_recover(s->model_image, s->length, &s->model);
    named = ORDERSET_PROVED_FAULT_SLOT(code);
    same_code(ORDERSET_PROVED_REFUSAL(code), recovered.refusal, DONE);
    same_number("the slot named", named, recovered.slot);
    compare_openings(s, &recovered, count_lent, at_lent, value_lent);
    compare_counts(s, &recovered, code);
    compare(s);
    if (s->n > SMALL)
        compare_all(s);
    s->own = !recovered.refusal && !recovered.count;
    s->named = 1;
    return recovered.refusal;
}

void open_voids(struct set *s, unsigned which) {
    uint32_t at[ORDERSET_INVALIDATIONS], count = 0, all = s->count[0];
    uint64_t value[ORDERSET_INVALIDATIONS];
    for (uint32_t i = 0; i < all; i++)
        if (which >> i & 1) {
            at[count] = s->open_at[i];
            value[count++] = s->open_value[i];
        }
    begin(s, PLAY_LIST, 0, 0, count, all);
    uint32_t code = orderset_proved_play_list(s->image, s->length, at, count, value, count);
    same_code(code, m_play_list(s->model_image, s->length, at, count, value, count), DONE);
    same_number("the invalidating stores' play", code, 0);
    compare(s);
    s->own = count == all;
}

void break_slot(uint8_t *image, uint32_t slot, int line) {
    const size_t first = 16 * (size_t)slot + 8 * (size_t)line;
    m_set_word(image, first, 1 - m_word(image, first + 7) % 2);
}

/* ---- directed cases: records that share versions, broken and void slots, in a set of 12 slots */

struct group {
    uint64_t version;
    uint32_t number, records;
};

/* The records take the slots from 1 on, each a put of a key of its own, and broken slots follow; voids: invalidating
 * stores. */
static const struct group_case {
    struct group group[3];
    uint32_t broken, answer, voids, live;
} group_cases[] = {
    {{{5, 8, 8}}, 0, DONE, 0, 8},
    {{{5, 8, 8}, {6, 0, 1}}, 3, DONE, 0, 9},
    {{{5, 2, 2}, {6, 3, 3}, {7, 0, 1}}, 0, DONE, 0, 6},
    {{{5, 2, 1}}, 0, DONE, 1, 0},
    {{{5, 8, 7}}, 0, DONE, 7, 0},
    {{{5, 8, 7}}, 1, DONE, 7, 0},
    {{{5, 8, 7}}, 2, 25, 0, 0},
    {{{5, 0, 1}}, 8, DONE, 0, 1},
    {{{5, 0, 1}}, 9, 25, 0, 0},
    {{{6, 5, 4}, {5, 6, 4}}, 0, DONE, 8, 0},
    {{{6, 5, 4}, {5, 6, 5}}, 0, 25, 0, 0},
    {{{6, 5, 4}, {5, 6, 4}, {4, 7, 1}}, 0, 25, 0, 0},
    {{{6, 3, 2}, {5, 0, 1}, {4, 2, 1}}, 0, DONE, 2, 2},
    {{{6, 3, 2}, {5, 4, 4}, {4, 2, 1}}, 0, DONE, 2, 5},
    {{{6, 3, 2}, {7, 0, 1}}, 0, DONE, 0, 3},
    {{{7, 3, 2}, {6, 2, 1}, {5, 4, 3}}, 2, DONE, 6, 0},
    {{{INT64_MAX, 3, 2}}, 0, DONE, 2, 0},
    {{{5, 2, 3}}, 0, 7, 0, 0},
    {{{5, 0, 2}}, 0, 7, 0, 0},
    {{{5, 8, 9}}, 0, 7, 0, 0},
    {{{5, 2, 1}, {5, 3, 1}}, 0, 7, 0, 0},
    {{{5, 0, 1}, {5, 2, 1}}, 0, 7, 0, 0},
    {{{5, 2, 1}, {5, 3, 2}, {6, 0, 1}}, 0, 7, 0, 0},
    {{{5, 0, 2}}, 9, 7, 0, 0},
    {{{5, 8, 8}, {6, 4, 4}}, 0, 8, 0, 0},
    {{{5, 8, 8}, {4, 4, 3}, {6, 2, 1}}, 0, DONE, 1, 11},
    {{{5, 1, 1}}, 0, 6, 0, 0},
    {{{5, 9, 1}}, 9, 6, 0, 0},
};

static void set_groups(uint8_t *image, const struct group_case *c) {
    uint32_t slot = 1;
    for (size_t g = 0; g < 3; g++)
        for (uint32_t k = 0; k < c->group[g].records; k++, slot++) {
            set_record(image, slot, 1, 100 + slot, c->group[g].version, below(VALUE_MAX + 1));
            set_number(image, slot, c->group[g].number);
        }
    for (uint32_t k = 0; k < c->broken; k++)
        break_slot(image, slot + k, (int)below(2));
}

static void directed_group(const struct group_case *c) {
    struct set *s = open_set(ORDERSET_IMAGE_BYTES(12), 5, 13);
    lend_garbage(s);
    m_format(s->model_image, s->length, LAYOUT);
    set_groups(s->model_image, c);
    lend_same(s);
    now = s;
    same_number("a directed case of recovery", (uint64_t)try_recover(s), c->answer);
    if (c->answer == DONE) {
        same_number("a directed case's invalidating stores", s->count[0], c->voids);
        same_number("a directed case's live count", s->state[ORDERSET_RAW_LIVE], c->live);
    }
    close_set(s);
}

/* A basket that has a key twice: in any two of its records. */
static void directed_twice(uint32_t number) {
    struct set *s = open_set(ORDERSET_IMAGE_BYTES(12), 5, 13);
    const struct group_case c = {{{5, number, number}}, 0, 7, 0, 0};
    uint32_t i = 1 + (uint32_t)below(number), j = 1 + (i + (uint32_t)below(number - 1)) % number;
    lend_garbage(s);
    m_format(s->model_image, s->length, LAYOUT);
    set_groups(s->model_image, &c);
    m_set_word(s->model_image, 16 * (size_t)i + 1, m_word(s->model_image, 16 * (size_t)j + 1));
    lend_same(s);
    now = s;
    same_number("recovery of a basket with a key twice", (uint64_t)try_recover(s), 7);
    close_set(s);
}

void directed_groups(void) {
    for (size_t i = 0; i < sizeof group_cases / sizeof *group_cases; i++)
        directed_group(&group_cases[i]);
    for (uint32_t number = 2; number <= 8; number++)
        directed_twice(number);
}
