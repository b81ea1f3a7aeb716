/* differential_baskets.c: a basket on both sides, in both families; and directed cases. */
#include "differential.h"

static uint32_t archive_basket(const struct set *s, const struct basket *b, uint32_t *at, uint64_t *value,
                               uint64_t answer[ORDERSET_PROVED_BASKET_ANSWER]) {
    uint32_t kinds[ORDERSET_BASKET_MAX];
    uint64_t lows[ORDERSET_BASKET_MAX], highs[ORDERSET_BASKET_MAX];
    size_t lengths[ORDERSET_BASKET_MAX];
    uint8_t values[ORDERSET_BASKET_BYTES];
    fill(values, sizeof values);
    for (size_t i = 0; i < ORDERSET_BASKET_MAX; i++) {
        const struct m_item *item = &b->item[i];
        kinds[i] = item->kind;
        lows[i] = low_word(item->key);
        highs[i] = high_word(item->key);
        lengths[i] = item->size;
        if (item->bytes && item->size <= VALUE_MAX)
            memcpy(values + ORDERSET_VALUE_MAX * i, item->bytes, item->size);
    }
    (void)highs; /* of layout 1 there are none */
    return SET_BY(owner, basket)(s->image, s->length, s->heads, s->model.heads_length, s->next, s->model.next_length,
                                 s->state, s->version, b->count, kinds, BASKET_KEYS(lows, highs), lengths, values, at,
                                 b->places, value, b->values, answer);
}

void stores_of_item(struct set *s, size_t i) {
    for (size_t k = 0; k < ORDERSET_STORES; k++) {
        s->at[k] = s->basket.store[ORDERSET_STORES * i + k].at;
        s->value[k] = s->basket.store[ORDERSET_STORES * i + k].value;
    }
}

/* The two lists: the stores, and past them, or of a refused basket, what was lent. */
static void compare_lists(const struct set *s, const struct basket *b, const uint32_t *at, const uint64_t *value,
                          const uint32_t *at_lent, const uint64_t *value_lent) {
    const size_t stores = s->basket.refusal ? 0 : ORDERSET_STORES * b->count;
    for (size_t i = 0; i < b->places; i++)
        same_number("a basket's word numbers", at[i], i < stores ? s->basket.store[i].at : at_lent[i]);
    for (size_t i = 0; i < b->values; i++)
        same_number("a basket's values", value[i], i < stores ? s->basket.store[i].value : value_lent[i]);
    if (!guarded(at, 4 * b->places) || !guarded(value, 8 * b->values))
        differ("outside the lists lent to a basket");
}

/* With an index that is not the image's own "only refusals are fixed": the model goes on with the archive's slots. */
static void take_slots(struct set *s, const struct basket *b, const uint64_t *answer) {
    for (size_t i = 0; i < b->count; i++) {
        if (answer[ORDERSET_PROVED_BASKET_SLOTS + i] - 1 >= s->n)
            differ("in the slots of a basket: slot %" PRIu64, answer[ORDERSET_PROVED_BASKET_SLOTS + i]);
        s->basket.slot[i] = (uint32_t)answer[ORDERSET_PROVED_BASKET_SLOTS + i];
    }
    m_basket_stores(s->model_image, b->item, b->count, &s->basket);
}

/* Its answer, and the index that it left. */
static unsigned compare_basket(struct set *s, const struct basket *b, uint32_t code, const uint64_t *answer,
                               const uint64_t *lent) {
    uint64_t expected[ORDERSET_PROVED_BASKET_ANSWER] = {s->basket.version};
    const unsigned answered = same_code(code, s->basket.refusal, DONE);
    const int is_free = !owner && !s->own;
    if (answered == DONE && is_free)
        take_slots(s, b, answer);
    for (size_t i = 0; i < ORDERSET_BASKET_MAX; i++)
        expected[ORDERSET_PROVED_BASKET_SLOTS + i] = s->basket.slot[i];
    same_bytes("the answer", answer, s->basket.refusal ? lent : expected, sizeof expected);
    if (answered == DONE && !is_free)
        m_basket_index(s->model_image, s->length, &s->model, b->item, (uint32_t)b->count, &s->basket);
    else if (answered == DONE)
        take_over(s);
    for (size_t i = 0; answered == DONE && i < b->count; i++) {
        stores_of_item(s, i);
        framed(s, s->basket.slot[i], s->basket.version);
    }
    compare(s);
    return answered;
}

/* The same by the other family, in the lists as they were lent. */
static void basket_too(struct set *s, struct set *twin, const struct basket *b, uint32_t code, const uint64_t *answer,
                       uint64_t *answer_lent, const uint32_t *at, uint32_t *at_lent, const uint64_t *value,
                       uint64_t *value_lent) {
    owner = !owner;
    same_number("what the other family returned", archive_basket(twin, b, at_lent, value_lent, answer_lent), code);
    same_bytes("the other family's answer", answer_lent, answer, 8 * ORDERSET_PROVED_BASKET_ANSWER);
    same_bytes("the other family's word numbers", at_lent, at, 4 * b->places);
    same_bytes("the other family's values", value_lent, value, 8 * b->values);
    if (!guarded(at_lent, 4 * b->places) || !guarded(value_lent, 8 * b->values))
        differ("outside the lists lent to a basket");
    same_left(s, twin);
}

unsigned try_basket(struct set *s, const struct basket *b) {
    struct set *twin = perhaps_twin(s);
    uint64_t answer[ORDERSET_PROVED_BASKET_ANSWER], answer_lent[ORDERSET_PROVED_BASKET_ANSWER];
    uint32_t *at = lend(4 * b->places), *at_lent = lend(4 * b->places);
    uint64_t *value = lend(8 * b->values), *value_lent = lend(8 * b->values);
    fill(answer_lent, sizeof answer_lent);
    memcpy(answer, answer_lent, sizeof answer);
    fill(at_lent, 4 * b->places);
    fill(value_lent, 8 * b->values);
    memcpy(at, at_lent, 4 * b->places);
    memcpy(value, value_lent, 8 * b->values);
    begin(s, BASKET, b->item[0].key, b->item[0].size, b->count, b->places);
    owner = any_family();
    uint32_t code = archive_basket(s, b, at, value, answer);
    s->basket =
        m_basket(!by_document(s), s->model_image, s->length, &s->model, b->item, b->count, b->places, b->values);
    unsigned answered = compare_basket(s, b, code, answer, answer_lent);
    compare_lists(s, b, at, value, at_lent, value_lent);
    after_change(s, answered);
    if (twin)
        basket_too(s, twin, b, code, answer, answer_lent, at, at_lent, value, value_lent);
    give_back(at);
    give_back(at_lent);
    give_back(value);
    give_back(value_lent);
    return answered;
}

uint32_t any_kind(int held) {
    if (below(40) == 0)
        return 1 + (uint32_t)below(3);
    return held ? 2 + (uint32_t)below(2) : ORDERSET_INSERT;
}

size_t any_places(size_t count) {
    return below(60) ? ORDERSET_STORES * count + below(2) * below(9) : below(ORDERSET_STORES * count + 1);
}

/* ---- directed cases, on the six slots of differential_directed.c; of these 5 and 6 are spare */

enum { I = ORDERSET_INSERT, R = ORDERSET_REPLACE, D = ORDERSET_REMOVE };

/* less: how many entries the lists are short of, the first and the second */
static const struct basket_case {
    unsigned answer;
    enum fault fault;
    size_t count, less[2];
    struct {
        uint32_t kind;
        uint64_t key;
        size_t size;
    } item[ORDERSET_BASKET_MAX];
} basket_cases[] = {
    {DONE, SOUND, 1, {0, 0}, {{R, 7, VALUE_MAX}}},
    {DONE, SOUND, 1, {0, 0}, {{I, 10, 0}}},
    {DONE, SOUND, 1, {0, 0}, {{D, 8, VALUE_MAX + 1}}},
    {DONE, SOUND, 2, {0, 0}, {{R, 7, 5}, {D, 8, SIZE_MAX}, {9, 7, VALUE_MAX + 1}}},
    {DONE, SOUND, 2, {0, 0}, {{I, 10, VALUE_MAX}, {D, 12, 0}}},
    {DONE, SOUND, 2, {0, 0}, {{D, 11, 0}, {D, 8, 0}}},
    {DONE, SOUND, 2, {0, 0}, {{I, 14, 7}, {R, 8, 9}}},
    {DONE, SOUND, 2, {0, 0}, {{R, 8, 9}, {I, 14, 7}}},
    {DONE, LAST_LINK, 1, {0, 0}, {{R, 7, 5}}},
    {DONE, FULL, 2, {0, 0}, {{I, 10, 5}, {D, 7, 0}}},
    {DONE, NO_LIVE, 2, {0, 0}, {{I, 10, 5}, {R, 7, 0}}},
    {26, SOUND, 0, {0, 0}, {{0}}},
    {26, SOUND, 9, {0, 0}, {{R, 7, 5}}},
    {26, SOUND, SIZE_MAX, {0, 0}, {{R, 7, 5}}},
    {26, BAD_LENGTH, 0, {0, 0}, {{0}}},
    {26, SOUND, 1, {0, 0}, {{0, 7, 5}}},
    {26, SOUND, 2, {0, 0}, {{R, 7, 5}, {4, 8, 5}}},
    {26, SOUND, 2, {0, 0}, {{R, 7, 5}, {UINT32_MAX, 7, VALUE_MAX + 1}}},
    {26, BAD_LENGTH, 2, {1, 1}, {{R, 7, 5}, {257, 8, 5}}},
    {27, SOUND, 2, {0, 0}, {{R, 7, 5}, {D, 7, 5}}},
    {27, SOUND, 3, {0, 0}, {{I, 7, VALUE_MAX + 1}, {R, 10, 5}, {I, 10, 5}}},
    {27,
     BAD_LENGTH,
     8,
     {1, 1},
     {{I, 1, 5}, {I, 2, 5}, {I, 3, 5}, {I, 4, 5}, {I, 5, 5}, {I, 6, 5}, {I, 7, 5}, {I, 1, 5}}},
    {13, SOUND, 1, {1, 0}, {{R, 7, 5}}},
    {13, SOUND, 2, {0, 1}, {{R, 7, 5}, {D, 8, 0}}},
    {13, BAD_LENGTH, 2, {32, 32}, {{R, 7, 5}, {D, 8, 0}}},
    {1, BAD_LENGTH, 2, {0, 0}, {{R, 7, VALUE_MAX + 1}, {D, 8, 0}}},
    {2, UNFORMATTED, 2, {0, 0}, {{R, 7, VALUE_MAX + 1}, {D, 8, 0}}},
    {3, BAD_HEADER, 2, {0, 0}, {{R, 7, VALUE_MAX + 1}, {D, 8, 0}}},
    {3, OTHER_LAYOUT, 2, {0, 0}, {{R, 7, VALUE_MAX + 1}, {D, 8, 0}}},
    {4, NO_HEADS, 2, {0, 0}, {{R, 7, VALUE_MAX + 1}, {D, 8, 0}}},
    {4, MANY_HEADS, 2, {0, 0}, {{R, 7, VALUE_MAX + 1}, {D, 8, 0}}},
    {4, BAD_NEXT, 2, {0, 0}, {{R, 7, VALUE_MAX + 1}, {D, 8, 0}}},
    {10, SOUND, 1, {0, 0}, {{I, 10, VALUE_MAX + 1}}},
    {10, ABOVE_N, 2, {0, 0}, {{R, 7, 5}, {R, 8, SIZE_MAX}}},
    {10, SOUND, 3, {0, 0}, {{R, 10, 5}, {I, 7, 5}, {I, 9, VALUE_MAX + 1}}},
    {11, ABOVE_N, 2, {0, 0}, {{I, 8, 5}, {R, 7, 5}}},
    {11, ROUND, 2, {0, 0}, {{D, 14, 5}, {I, 10, 5}}},
    {11, ALL_SLOTS, 1, {0, 0}, {{I, 10, 5}}},
    {20, SOUND, 2, {0, 0}, {{I, 10, 5}, {I, 7, 5}}},
    {20, NO_FIRST, 2, {0, 0}, {{I, 7, 5}, {R, 10, 5}}},
    {20, LAST_VERSION, 3, {0, 0}, {{R, 8, 5}, {I, 7, 5}, {D, 14, 5}}},
    {21, SOUND, 2, {0, 0}, {{I, 10, 5}, {R, 9, 5}}},
    {21, SOUND, 2, {0, 0}, {{D, 10, 0}, {I, 7, 5}}},
    {21, NO_LIVE, 1, {0, 0}, {{D, 14, 0}}},
    {21, FULL, 2, {0, 0}, {{I, 10, 5}, {D, 9, 0}}},
    {11, NO_FIRST, 2, {0, 0}, {{R, 7, 5}, {I, 10, 5}}},
    {11, NO_LAST, 2, {0, 0}, {{R, 7, 5}, {I, 10, 5}}},
    {11, FIRST_NEXT, 1, {0, 0}, {{R, 7, 5}}},
    {11, LAST_LINK, 2, {0, 0}, {{R, 7, 5}, {D, 8, 0}}},
    {11, LATER_LINK, 1, {0, 0}, {{R, 7, 5}}},
    {11, ROUND_REUSE, 1, {0, 0}, {{I, 10, 5}}},
    {11, NO_LIVE, 1, {0, 0}, {{D, 7, 0}}},
    {11, ONE_LIVE, 2, {0, 0}, {{D, 7, 0}, {D, 8, 0}}},
    {11, NONE_AND_NO_LIVE, 3, {0, 0}, {{D, 7, 0}, {R, 8, 5}, {I, 10, 5}}},
    {28, SOUND, 3, {0, 0}, {{R, 7, 5}, {R, 8, 5}, {D, 12, 0}}},
    {28, SOUND, 2, {0, 0}, {{I, 10, 5}, {I, 9, 5}}},
    {28, FULL, 1, {0, 0}, {{I, 10, 5}}},
    {28, LIVE_N, 2, {0, 0}, {{R, 7, 5}, {R, 8, 5}}},
    {28, NONE_TO_TAKE, 1, {0, 0}, {{D, 7, 0}}},
    {28, KEPT_REMOVE, 2, {0, 0}, {{R, 7, 5}, {D, 12, 0}}},
    {28, NONE_AND_VERSION, 1, {0, 0}, {{R, 7, 5}}},
    {28, FULL_AND_VERSION, 2, {0, 0}, {{I, 10, 5}, {R, 7, 5}}},
    {9, LAST_VERSION, 2, {0, 0}, {{I, 10, 5}, {D, 7, 0}}},
};

/* and where the owner's call goes by what it reads */
static const struct own_basket_case {
    struct basket_case c;
    unsigned own;
} own_basket_cases[] = {
    {{DONE, SPARE_RECORDS, 1, {0, 0}, {{I, 10, 5}}}, DONE},
    {{28, SPARE_RECORDS, 2, {0, 0}, {{R, 7, 5}, {D, 8, 0}}}, 28},
    {{DONE, UNNAMED, 1, {0, 0}, {{I, 10, 5}}}, 28},
    {{DONE, NAMED_ABOVE, 1, {0, 0}, {{R, 7, 5}}}, 28},
    {{DONE, NAMED_OLDER, 1, {0, 0}, {{D, 8, 0}}}, 28},
    {{28, KEPT_NAMED, 1, {0, 0}, {{R, 7, 5}}}, DONE},
    {{28, OLDER_FIRST, 2, {0, 0}, {{R, 7, 5}, {I, 10, 5}}}, 28},
    {{DONE, OLDER_FIRST, 1, {0, 0}, {{R, 7, 5}}}, DONE},
    {{28, OLDER_LAST, 2, {0, 0}, {{R, 7, 5}, {D, 11, 0}}}, DONE},
    {{DONE, NEWEST_FIRST, 1, {0, 0}, {{R, 7, 5}}}, DONE},
    {{28, NEWEST_FIRST, 2, {0, 0}, {{R, 7, 5}, {D, 11, 0}}}, 28},
};

static void directed_basket(const struct basket_case *c) {
    struct set *s = directed_set(c->fault);
    uint8_t bytes[ORDERSET_VALUE_MAX];
    const size_t stores = ORDERSET_STORES * (c->count > ORDERSET_BASKET_MAX ? 1 : c->count);
    struct basket b = {.count = c->count, .places = stores - c->less[0], .values = stores - c->less[1]};
    const uint64_t before = met[BASKET][c->answer];
    fill(bytes, sizeof bytes);
    for (size_t i = 0; i < ORDERSET_BASKET_MAX; i++)
        b.item[i] = (struct m_item){c->item[i].kind, directed_key(c->item[i].key), bytes, c->item[i].size};
    s->own = s->named = c->fault == SOUND;
    try_basket(s, &b);
    if (met[BASKET][c->answer] != before + 1)
        differ("in a directed basket of fault %d: the answer is not %u", c->fault, c->answer);
    close_set(s);
}

static void directed_basket_calls(const struct basket_case *c, unsigned own) {
    struct basket_case its = *c;
    its.answer = own;
    family = 0;
    directed_basket(c);
    family = 1;
    directed_basket(&its);
    family = -1;
}

void directed_baskets(void) {
    for (size_t i = 0; i < sizeof basket_cases / sizeof *basket_cases; i++)
        directed_basket_calls(&basket_cases[i], basket_cases[i].answer);
    for (size_t i = 0; i < sizeof own_basket_cases / sizeof *own_basket_cases; i++)
        directed_basket_calls(&own_basket_cases[i].c, own_basket_cases[i].own);
}
