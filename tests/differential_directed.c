/* differential_directed.c: directed cases of the single calls: each answer of the rules is met, whatever the seed. */
#include "differential.h"

/* the slot that recovery names */
static const uint32_t slot_at_fault[FAULTS] = {
    [BAD_KIND] = 5,      [LONG_RECORD] = 1,     [BAD_BITS] = 2,        [BAD_TAIL] = 1,       [REMOVE_LENGTH] = 5,
    [BITS_AND_KIND] = 2, [KIND_AND_LENGTH] = 2, [LENGTH_AND_TAIL] = 1, [TAIL_THEN_BITS] = 1,
};

/* Six slots: key 7 in slot 1 with 20 bytes, key 8 in slot 2 with as many as there may be; in slot 3 key 11 with a sent
 * order and in slot 4 key 12 with an acknowledged one, of each 100 ordered and 40 filled; three heads, so that the
 * chains are 12, 7, and 8 with 11; keys 9, 10 and 14 are not held and have the heads of 12, 7 and 8. size: of a value,
 * room of a get, both counts of a play, quantity of a new order or a fill, layout of a format. Of layout 2 the high
 * word of these keys is 5. */
static const struct directed {
    unsigned calls, answer;
    enum fault fault;
    uint64_t key;
    size_t size;
} cases[] = {
    {IN_RECOVER, DONE, SOUND, 0, 0},
    {IN_FORMAT, DONE, SOUND, 0, 1},
    {IN_FORMAT, DONE, SOUND, 0, 2},
    {IN_FORMAT, 32, SOUND, 0, 0},
    {IN_FORMAT, 32, SOUND, 0, 3},
    {IN_FORMAT, 32, SOUND, 0, SIZE_MAX},
    {IN_FORMAT | IN_ALL | IN_PLAY, 1, BAD_LENGTH, 7, 5},
    {IN_ALL, 2, UNFORMATTED, 7, 5},
    {IN_ALL, 3, BAD_HEADER, 7, 5},
    {IN_ALL, 3, OTHER_LAYOUT, 7, 5},
    {IN_ALL, 4, NO_HEADS, 7, 5},
    {IN_ALL, 4, MANY_HEADS, 7, 5},
    {IN_ALL, 4, BAD_NEXT, 7, 5},
    {IN_RECOVER, 5, BAD_MARK, 0, 0},
    {IN_RECOVER, 6, BAD_BITS, 0, 0},
    {IN_RECOVER, 22, BAD_KIND, 0, 0},
    {IN_RECOVER, 23, LONG_RECORD, 0, 0},
    {IN_RECOVER, 23, REMOVE_LENGTH, 0, 0},
    {IN_RECOVER, 24, BAD_TAIL, 0, 0},
    {IN_RECOVER, 6, BITS_AND_KIND, 0, 0},
    {IN_RECOVER, 22, KIND_AND_LENGTH, 0, 0},
    {IN_RECOVER, 23, LENGTH_AND_TAIL, 0, 0},
    {IN_RECOVER, 24, TAIL_THEN_BITS, 0, 0},
    {IN_RECOVER, 7, SAME_VERSION, 0, 0},
    {IN_RECOVER, DONE, ONE_BROKEN, 0, 0},
    {IN_RECOVER, DONE, TWO_BROKEN, 0, 0},
    {IN_RECOVER, 7, SAME_AND_BROKEN, 0, 0},
    {IN_RECOVER, 8, ALL_LIVE, 0, 0},
    {IN_CHANGE | IN_GET | IN_LOCATE, DONE, SOUND, 7, 33},
    {IN_REPLACE | IN_GET, DONE, SOUND, 8, VALUE_MAX},
    {IN_INSERT, DONE, SOUND, 10, 0},
    {IN_INSERT, DONE, SOUND, 10, VALUE_MAX},
    {IN_REMOVE | IN_GET | IN_LOCATE, ABSENT, SOUND, 10, 0},
    {IN_WRITE, 10, SOUND, 7, VALUE_MAX + 1},
    {IN_WRITE, 10, SOUND, 10, VALUE_MAX + 1},
    {IN_WRITE, 10, ABOVE_N, 7, VALUE_MAX + 1},
    {IN_WALK, 11, ABOVE_N, 7, VALUE_MAX},
    {IN_WALK, 11, ROUND, 10, VALUE_MAX},
    {IN_WALK, 11, ABOVE_N, 7, 0},
    {IN_WALK, 11, ROUND, 10, 0},
    {IN_INSERT, 20, SOUND, 7, 5},
    {IN_INSERT, 20, LONG_RECORD, 7, 5},
    {IN_INSERT, 20, FULL, 7, 5},
    {IN_INSERT, 20, LAST_VERSION, 7, 5},
    {IN_INSERT, 20, NO_FIRST, 7, 5},
    {IN_INSERT, 20, NO_LAST, 8, 5},
    {IN_INSERT, 20, FIRST_NEXT, 8, 5},
    {IN_REPLACE, 21, SOUND, 10, 5},
    {IN_REPLACE, 21, FULL, 10, 5},
    {IN_REPLACE, 21, LAST_VERSION, 10, 5},
    {IN_REPLACE, 21, NO_FIRST, 10, 5},
    {IN_REPLACE, 21, NO_LAST, 9, 5},
    {IN_REPLACE, 21, FIRST_NEXT, 9, 5},
    {IN_INSERT, 28, FULL, 9, 5},
    {IN_REPLACE, DONE, FULL, 7, 5},
    {IN_REPLACE, 28, LIVE_N, 7, 5},
    {IN_REMOVE, DONE, LIVE_N, 7, 0},
    {IN_CHANGE, 28, LIVE_ABOVE, 7, 5},
    {IN_INSERT, 28, NONE_TO_TAKE, 10, 5},
    {IN_CHANGE, 28, NONE_TO_TAKE, 7, 5},
    {IN_INSERT, 28, KEPT_REMOVE, 10, 5},
    {IN_CHANGE, 28, KEPT_REMOVE, 7, 5},
    {IN_INSERT, 11, LATER_LINK, 10, 5},
    {IN_CHANGE, 11, LATER_LINK, 7, 5},
    {IN_INSERT, 11, ROUND_REUSE, 10, 5},
    {IN_CHANGE, 11, ROUND_REUSE, 7, 5},
    {IN_INSERT, 28, NONE_AND_VERSION, 10, 5},
    {IN_CHANGE, 28, NONE_AND_VERSION, 7, 5},
    {IN_INSERT, 28, FULL_AND_VERSION, 10, 5},
    {IN_REMOVE, 11, NONE_AND_NO_LIVE, 7, 0},
    {IN_REMOVE, ABSENT, NONE_TO_TAKE, 10, 0},
    {IN_INSERT, 20, NONE_TO_TAKE, 7, 5},
    {IN_REPLACE, 21, NONE_TO_TAKE, 10, 5},
    {IN_INSERT, 9, LAST_VERSION, 10, 5},
    {IN_CHANGE, 9, LAST_VERSION, 7, 5},
    {IN_REMOVE, ABSENT, LAST_VERSION, 10, 0},
    {IN_INSERT, 11, NO_FIRST, 10, 5},
    {IN_INSERT, 11, NO_LAST, 10, 5},
    {IN_INSERT, 11, FIRST_NEXT, 10, 5},
    {IN_CHANGE, 11, NO_FIRST, 7, 5},
    {IN_CHANGE, 11, NO_LAST, 7, 5},
    {IN_CHANGE, 11, FIRST_NEXT, 8, 5},
    {IN_INSERT, DONE, NO_LIVE, 10, 5},
    {IN_REPLACE, DONE, NO_LIVE, 8, 5},
    {IN_REMOVE, 11, NO_LIVE, 8, 0},
    {IN_GET, 23, LONG_RECORD, 7, 90},
    {IN_LOCATE | IN_REPLACE, DONE, LONG_RECORD, 7, 0},
    {IN_GET, DONE, SOUND, 7, 20},
    {IN_GET, 13, SOUND, 7, 19},
    {IN_PLAY | IN_PLAY_LIST, DONE, SOUND, 0, 8},
    {IN_PLAY, 14, SOUND, 0, 9},
    {IN_PLAY, 15, OUT_OF_ORDER, 0, 0},
    {IN_PLAY | IN_PLAY_LIST, 15, OUTSIDE, 0, 8},
    {IN_PLAY, 15, ONE_LINE, 0, 8},
    {IN_PLAY_LIST, 15, TWO_LENGTHS, 0, 0},
    /* two slots compared and more, on the way to every answer; six is the most that N = 6 allows */
    {IN_CHANGE | IN_GET | IN_LOCATE, DONE, SOUND, 11, 33},
    {IN_INSERT, DONE, SOUND, 14, 5},
    {IN_REMOVE | IN_GET | IN_LOCATE, ABSENT, SOUND, 14, 0},
    {IN_WRITE, 10, SOUND, 11, VALUE_MAX + 1},
    {IN_INSERT, 20, SOUND, 11, 5},
    {IN_REPLACE, 21, SOUND, 14, 5},
    {IN_INSERT, 28, FULL, 14, 5},
    {IN_CHANGE, 28, NONE_TO_TAKE, 11, 5},
    {IN_INSERT, 9, LAST_VERSION, 14, 5},
    {IN_CHANGE, 9, LAST_VERSION, 11, 5},
    {IN_INSERT, 11, NO_FIRST, 14, 5},
    {IN_CHANGE, 11, NO_LAST, 11, 5},
    {IN_REMOVE, 11, NO_LIVE, 11, 0},
    {IN_GET, 13, SOUND, 11, 23},
    {IN_CHANGE | IN_GET | IN_LOCATE, DONE, ALL_SLOTS, 7, VALUE_MAX},
    {IN_INSERT, 20, ALL_SLOTS, 7, 5},
    {IN_GET, 13, ALL_SLOTS, 7, 0},
    {IN_GET, 23, LONG_LAST, 7, 90},
    {IN_WALK, 11, ALL_SLOTS, 10, VALUE_MAX},
    {IN_REMOVE | IN_GET | IN_LOCATE, ABSENT, ALL_BUT_ONE, 10, 0},
    {IN_REPLACE, 21, ALL_BUT_ONE, 10, 5},
    {IN_INSERT, DONE, ALL_BUT_ONE, 10, 5},
    /* the book */
    {IN_NEW, DONE, SOUND, 10, 1},
    {IN_NEW, DONE, SOUND, 10, SIZE_MAX},
    {IN_NEW, DONE, NO_LIVE, 10, 1},
    {IN_NEW, 17, SOUND, 7, 1},
    {IN_NEW, 17, SOUND, 11, 0},
    {IN_NEW, 17, LONG_RECORD, 7, 1},
    {IN_NEW, 17, FULL, 12, 1},
    {IN_NEW, 19, SOUND, 10, 0},
    {IN_NEW, 19, FULL, 10, 0},
    {IN_NEW, 19, LAST_VERSION, 10, 0},
    {IN_NEW, 19, NO_FIRST, 10, 0},
    {IN_NEW, 28, FULL, 9, 1},
    {IN_NEW, 28, NONE_TO_TAKE, 10, 1},
    {IN_NEW, 11, LATER_LINK, 10, 1},
    {IN_NEW, 28, NONE_AND_VERSION, 10, 1},
    {IN_STEP, 28, NONE_TO_TAKE, 11, 59},
    {IN_STEP, 28, KEPT_REMOVE, 11, 60},
    {IN_STEP, 11, LATER_LINK, 11, 59},
    {IN_STEP, 28, NONE_AND_VERSION, 11, 60},
    {IN_ACKNOWLEDGE, ALREADY, NONE_TO_TAKE, 12, 0},
    {IN_NEW, 9, LAST_VERSION, 10, 1},
    {IN_NEW, 11, NO_FIRST, 10, 1},
    {IN_NEW, 11, NO_LAST, 10, 1},
    {IN_NEW, 11, FIRST_NEXT, 10, 1},
    {IN_STEP, DONE, SOUND, 11, 59},
    {IN_STEP, DONE, SOUND, 11, 60},
    {IN_FILL | IN_WITHDRAW, DONE, SOUND, 12, 59},
    {IN_FILL | IN_WITHDRAW, DONE, SOUND, 12, 60},
    {IN_STEP, DONE, FULL, 11, 1},
    {IN_ACKNOWLEDGE, ALREADY, SOUND, 12, 0},
    {IN_ACKNOWLEDGE, ALREADY, LAST_VERSION, 12, 0},
    {IN_ACKNOWLEDGE, ALREADY, NO_FIRST, 12, 0},
    {IN_ACKNOWLEDGE, ALREADY, NO_LAST, 12, 0},
    {IN_ACKNOWLEDGE, ALREADY, FIRST_NEXT, 12, 0},
    {IN_STEP, 18, SOUND, 10, 0},
    {IN_STEP, 18, SOUND, 7, 0},
    {IN_STEP, 18, SOUND, 8, 1},
    {IN_STEP, 18, LONG_RECORD, 7, 1},
    {IN_STEP, 18, OTHER_STATE, 11, 1},
    {IN_STEP, 18, ALL_FILLED, 11, 1},
    {IN_STEP, 18, OTHER_SIZE, 11, 1},
    {IN_STEP, 18, LAST_VERSION, 10, 0},
    {IN_STEP, 18, NO_FIRST, 7, 0},
    {IN_STEP, 18, NO_LIVE, 10, 0},
    {IN_FILL, 19, SOUND, 11, 0},
    {IN_FILL, 19, SOUND, 11, 61},
    {IN_FILL, 19, SOUND, 12, SIZE_MAX},
    {IN_FILL, 19, SOUND, 12, SIZE_MAX - 39},
    {IN_FILL, 19, LAST_VERSION, 11, 0},
    {IN_FILL, 19, NO_LAST, 12, 61},
    {IN_FILL, 19, NO_LIVE, 11, 0},
    {IN_STEP, DONE, LARGE_ORDER, 11, 1},
    {IN_FILL, 19, LARGE_ORDER, 11, 2},
    {IN_FILL, 19, LARGE_ORDER, 11, 3},
    {IN_STEP, 9, LAST_VERSION, 11, 59},
    {IN_STEP, 9, LAST_VERSION, 11, 60},
    {IN_STEP, 11, NO_FIRST, 11, 59},
    {IN_STEP, 11, NO_LAST, 11, 60},
    {IN_STEP, 11, FIRST_NEXT, 11, 59},
    {IN_FILL | IN_WITHDRAW, 11, NO_LIVE, 11, 60},
    {IN_FILL | IN_ACKNOWLEDGE, DONE, NO_LIVE, 11, 59},
#if LAYOUT == 2
    /* a key that shares its low word with one that is held */
    {IN_REMOVE | IN_GET | IN_LOCATE, ABSENT, OTHER_HIGH, 7, 0},
    {IN_INSERT, DONE, OTHER_HIGH, 7, 5},
    {IN_REPLACE, 21, OTHER_HIGH, 7, 5},
    {IN_NEW, DONE, OTHER_HIGH, 11, 1},
    {IN_STEP, 18, OTHER_HIGH, 11, 1},
#endif
};

/* Cases in which the owner's call goes by what it reads: the answer of the call of document 01, and its own. */
static const struct own_case {
    struct directed c;
    unsigned own;
} own_cases[] = {
    {{IN_INSERT | IN_NEW, DONE, SPARE_RECORDS, 10, 5}, DONE},
    {{IN_CHANGE | IN_STEP, DONE, SPARE_RECORDS, 11, 59}, DONE},
    {{IN_INSERT | IN_NEW, DONE, UNNAMED, 10, 5}, 28},
    {{IN_CHANGE | IN_STEP, DONE, UNNAMED, 11, 59}, 28},
    {{IN_INSERT | IN_NEW, DONE, NAMED_ABOVE, 10, 5}, 28},
    {{IN_CHANGE | IN_STEP, DONE, NAMED_ABOVE, 11, 60}, 28},
    {{IN_INSERT | IN_NEW, DONE, NAMED_OLDER, 10, 5}, 28},
    {{IN_CHANGE | IN_STEP, DONE, NAMED_OLDER, 11, 59}, 28},
    {{IN_INSERT | IN_NEW, 28, KEPT_NAMED, 10, 5}, DONE},
    {{IN_CHANGE | IN_STEP, 28, KEPT_NAMED, 11, 60}, DONE},
    {{IN_INSERT | IN_NEW, DONE, OLDER_FIRST, 10, 5}, DONE},
    {{IN_INSERT | IN_NEW, DONE, OLDER_LAST, 10, 5}, DONE},
    {{IN_CHANGE | IN_STEP, DONE, OLDER_LAST, 11, 59}, DONE},
    {{IN_INSERT | IN_NEW, DONE, NEWEST_FIRST, 10, 5}, DONE},
    {{IN_CHANGE | IN_STEP, DONE, NEWEST_FIRST, 11, 59}, DONE},
};

m_key directed_key(uint64_t low) {
    return key_of_words(low, 5);
}

static void set_order(uint8_t *image, uint32_t slot, uint64_t state, uint64_t ordered, uint64_t filled) {
    m_set_word(image, 16 * (size_t)slot + VALUE_WORD, state);
    m_set_word(image, 16 * (size_t)slot + VALUE_WORD + 1, ordered);
    m_set_word(image, 16 * (size_t)slot + VALUE_WORD + 2, filled);
}

/* The chain of key 7's head: the slots 5, 6, 2, 3, 4 and 1 from that one on. */
static void chain_all(struct m_index *index, uint32_t from) {
    static const uint32_t follows[] = {0, 0, 3, 4, 1, 6, 2};
    memcpy(index->next, follows, sizeof follows);
    index->heads[7 % 3] = from;
}

/* the kind word of slot 2, and a nonzero byte past the length of slot 1 */
static void set_kind_word(uint8_t *image, unsigned kind, unsigned size, uint64_t bits) {
    m_set_word(image, 16 * 2 + KIND_WORD, kind + 256 * size + bits);
}

static void set_tail(uint8_t *image) {
    image[128 + (below(2) ? 8 * VALUE_WORD + 20 + below(FRONT - 20) : 72 + below(48))] = (uint8_t)(1 + below(255));
}

/* and a length of slot 1 that is too long */
static void set_length(uint8_t *image) {
    image[128 + 8 * KIND_WORD + 1] = (uint8_t)(VALUE_MAX + 1 + below(255 - VALUE_MAX));
}

/* bits above bit 23, or a number of 1 or over 8 */
static uint64_t bad_bits(void) {
    return below(2) ? 1ull << (24 + below(40)) : (below(4) ? 9 + below(247) : 1) << 16;
}

/* The reuse chain has slots 5 and 6. Two remove records of one basket there, above all others: neither may be taken. */
static void none_to_take(uint8_t *image) {
    for (uint32_t slot = 5; slot <= 6; slot++)
        set_record(image, slot, 2, directed_key(4 + slot), 5, 0), set_number(image, slot, 2);
}

/* It has slot 5 alone: a remove record of key 8, which slot 2 has an older record of; and slot 6 is above it. */
static void kept_remove(struct set *s) {
    set_record(s->model_image, 5, 2, directed_key(8), 5, 0);
    set_record(s->model_image, 6, 1, directed_key(13), 6, 5);
    s->model.next[5] = 0;
    s->model.state.last = 5;
}

/* Slots 5 and 6 have remove records of the highest versions, and the state names this slot as the newest. */
static void spare_records(struct set *s, uint32_t newest) {
    set_record(s->model_image, 5, 2, directed_key(9), 5, 0);
    set_record(s->model_image, 6, 2, directed_key(13), 6, 0);
    s->model.state.newest = newest;
    s->model.state.version = 7;
}

/* Slot 5 has a put of key 9 and slot 6 a later remove of it; slot 4 is above them. The reuse chain begins with `first`.
 */
static void older_records(struct set *s, uint32_t first) {
    set_record(s->model_image, 4, 1, directed_key(12), 7, ORDERSET_ORDER_BYTES);
    set_record(s->model_image, 5, 1, directed_key(9), 5, 5);
    set_record(s->model_image, 6, 2, directed_key(9), 6, 0);
    s->model.state.first = first;
    s->model.next[first] = 11 - first;
    s->model.next[11 - first] = 0;
    s->model.state.last = 11 - first;
    s->model.state.newest = 4;
    s->model.state.version = 8;
}

static void plant(struct set *s, enum fault fault) {
    struct m_index *index = &s->model;
    uint8_t *image = s->model_image;
    const uint64_t bits = bad_bits();
    switch (fault) {
    case UNFORMATTED: m_set_word(image, 0, 0); break;
    case BAD_HEADER: m_set_word(image, 1 + below(7), 3); break;
    case OTHER_LAYOUT: m_set_word(image, 1, 3 - LAYOUT); break;
    case BAD_MARK: m_set_word(image, 16 * (1 + below(6)) + 8 * below(2), 2 + below(1000)); break;
    case BAD_KIND: set_record(image, 5, 3, directed_key(9), 5, 0); break;
    case LONG_RECORD: set_length(image); break;
    case SAME_VERSION: set_record(image, 5, 1, directed_key(9), 2, 5); break;
    case ALL_LIVE:
        set_record(image, 5, 1, directed_key(9), 5, 5), set_record(image, 6, 1, directed_key(10), 6, 5);
        break;
    case ABOVE_N: index->heads[7 % 3] = 7 + (uint32_t)below(1000); break;
    case ROUND: index->next[1] = 1; break;
    case FULL: index->state.live = 5; break;
    case LAST_VERSION: index->state.version = 1ull << 63; break;
    case NO_FIRST: index->state.first = below(2) ? 0 : 7; break;
    case NO_LAST: index->state.last = below(2) ? 0 : 7; break;
    case FIRST_NEXT: index->next[index->state.first] = 7; break;
    case NO_LIVE: index->state.live = 0; break;
    case OUT_OF_ORDER: s->at[1] = 16 + 2, s->at[2] = 16 + 1; break;
    case OUTSIDE: s->at[7] = (uint32_t)(s->length / 8); break;
    case ONE_LINE: memcpy(s->at + 8, s->at, 8 * sizeof *s->at); break;
    case OTHER_STATE: set_order(image, 3, below(2) ? 3 * below(2) : below(3) + (4ull << below(62)), 100, 40); break;
    case ALL_FILLED: set_order(image, 3, 1 + below(2), 100, 100 + below(2) * below(1000)); break;
    case OTHER_SIZE:
        image[3 * 128 + 8 * KIND_WORD + 1] = (uint8_t)(below(2) ? 23 - below(24) : 25 + below(VALUE_MAX - 24));
        break;
    case LARGE_ORDER: set_order(image, 3, 1, UINT64_MAX, UINT64_MAX - 1); break;
    case ALL_SLOTS: chain_all(index, 5); break;
    case ALL_BUT_ONE: chain_all(index, 6); break;
    case LONG_LAST: chain_all(index, 5), set_length(image); break;
    case BAD_BITS: set_kind_word(image, 1, VALUE_MAX, bits); break;
    case BAD_TAIL: set_tail(image); break;
    case REMOVE_LENGTH: set_record(image, 5, 2, directed_key(9), 5, 1 + below(VALUE_MAX)); break;
    case BITS_AND_KIND: set_kind_word(image, 3, VALUE_MAX + 1, bits); break;
    case KIND_AND_LENGTH: set_kind_word(image, below(2) ? 0 : 3 + (unsigned)below(253), VALUE_MAX + 1, 0); break;
    case LENGTH_AND_TAIL: set_tail(image), image[128 + 8 * KIND_WORD] = 2; break;
    case ONE_BROKEN: break_slot(image, 1 + (uint32_t)below(6), (int)below(2)); break;
    case TWO_BROKEN: break_slot(image, 1 + (uint32_t)below(3), (int)below(2)), break_slot(image, 4, 0); break;
    case SAME_AND_BROKEN: set_record(image, 5, 1, 9, 2, 5), break_slot(image, 3, 0), break_slot(image, 6, 1); break;
    case NONE_TO_TAKE: none_to_take(image); break;
    case KEPT_REMOVE: kept_remove(s); break;
    case LATER_LINK: none_to_take(image), index->next[6] = 7 + (uint32_t)below(1000); break;
    case ROUND_REUSE: none_to_take(image), index->next[6] = 5; break;
    case NONE_AND_VERSION: none_to_take(image), index->state.version = 1ull << 63; break;
    case FULL_AND_VERSION: index->state.live = 5, index->state.version = 1ull << 63; break;
    case NONE_AND_NO_LIVE: none_to_take(image), index->state.live = 0; break;
    case LIVE_N: index->state.live = 6; break;
    case ONE_LIVE: index->state.live = 1; break;
    case LAST_LINK: index->next[6] = 7 + (uint32_t)below(1000); break;
    case LIVE_ABOVE: index->state.live = 7 + (uint32_t)below(UINT32_MAX - 6u); break;
    case SPARE_RECORDS: spare_records(s, 6); break;
    case UNNAMED: spare_records(s, 0); break;
    case NAMED_ABOVE: spare_records(s, 7 + (uint32_t)below(UINT32_MAX - 6u)); break;
    case NAMED_OLDER: spare_records(s, 1 + (uint32_t)below(5)); break;
    case KEPT_NAMED: kept_remove(s), index->state.newest = 6; break;
    case OLDER_FIRST: older_records(s, 5); break;
    case OLDER_LAST: older_records(s, 6); break;
    case NEWEST_FIRST: set_record(image, 5, 1, directed_key(9), 5, 5), index->state.newest = 5; break;
    case TAIL_THEN_BITS: set_tail(image), set_kind_word(image, 3, VALUE_MAX + 1, bits); break;
    default: break;
    }
}

struct set *directed_set(enum fault fault) {
    size_t length = ORDERSET_IMAGE_BYTES(6), heads = fault == NO_HEADS ? 0 : fault == MANY_HEADS ? 65537 : 3;
    struct set *s = open_set(length - (fault == BAD_LENGTH), heads, fault == BAD_NEXT ? 8 : 7);
    lend_garbage(s);
    if (fault != BAD_LENGTH) {
        m_format(s->model_image, length, LAYOUT);
        set_record(s->model_image, 1, 1, directed_key(7), 1, 20);
        set_record(s->model_image, 2, 1, directed_key(8), 2, VALUE_MAX);
        set_record(s->model_image, 3, 1, directed_key(11), 3, ORDERSET_ORDER_BYTES);
        set_record(s->model_image, 4, 1, directed_key(12), 4, ORDERSET_ORDER_BYTES);
        set_order(s->model_image, 3, ORDERSET_SENT, 100, 40);
        set_order(s->model_image, 4, ORDERSET_ACKNOWLEDGED, 100, 40);
    }
    m_recover(s->model_image, s->length, &s->model);
    for (uint32_t i = 0; i < ORDERSET_STORES; i++) {
        s->at[i] = 16 + i;
        s->value[i] = chance();
    }
    plant(s, fault);
    lend_same(s);
    return s;
}

/* The slots that a call of the case is to report. */
static uint64_t slots_due(const struct directed *c) {
    static const uint8_t place[] = {[7] = 1, [8] = 1, [9] = 1, [10] = 1, [11] = 2, [12] = 1, [14] = 2};
    const int by_chain = c->fault == ABOVE_N || c->fault == ROUND || c->fault == ALL_SLOTS;
    switch (c->answer) {
    case 1:
    case 2:
    case 3:
    case 4:
    case 10: return 0;
    case 11: return by_chain ? 0 : place[c->key];
    default: return c->fault == ALL_SLOTS || c->fault == LONG_LAST ? 6 : c->fault == ALL_BUT_ONE ? 5 : place[c->key];
    }
}

static void directed(const struct directed *c, enum which which) {
    uint8_t bytes[128];
    struct set *s = directed_set(c->fault);
    s->own = s->named = c->fault == SOUND;
    const m_key key = key_of_words(c->key, c->fault == OTHER_HIGH ? 6 : 5);
    const struct request r = {which, key, c->size, bytes, c->size};
    uint64_t before = met[which][c->answer];
    fill(bytes, sizeof bytes);
    switch (which) {
    case FORMAT: try_format(s, c->size); break;
    case RECOVER: try_recover(s); break;
    case GET: try_get(s, key, bytes, c->size); break;
    case LOCATE: try_locate(s, key); break;
    case PLAY: try_play(s, below(2) ? c->size : c->size == 9, c->size); break;
    case PLAY_LIST: try_play_list(s, s->at, c->fault == TWO_LENGTHS ? 15 : 16, s->value, 16); break;
    default: try_change(s, &r); break;
    }
    if (met[which][c->answer] != before + 1)
        differ("in a directed case of fault %d: the answer is not %u", c->fault, c->answer);
    if (1 << which & (IN_WRITE | IN_REMOVE | IN_GET | IN_LOCATE))
        same_number("a directed case's slots compared", compared, slots_due(c));
    if (which == RECOVER && named != slot_at_fault[c->fault])
        differ("in a directed case of fault %d: the slot named is not %" PRIu32, c->fault, slot_at_fault[c->fault]);
    close_set(s);
}

/* All calls of a case, those that write in both families: of the owner's the answer is this. */
static void directed_calls(const struct directed *c, unsigned own) {
    struct directed its = *c;
    its.answer = own;
    for (unsigned which = 0; which < WHICH; which++)
        if (c->calls >> which & 1) {
            family = 0;
            directed(c, (enum which)which);
            family = 1;
            if (IN_OWN >> which & 1)
                directed(&its, (enum which)which);
        }
    family = -1;
}

void all_directed(void) {
    phase = "directed cases";
    directed_lines();
    directed_groups();
    directed_baskets();
    for (size_t i = 0; i < sizeof cases / sizeof *cases; i++)
        directed_calls(&cases[i], cases[i].answer);
    for (size_t i = 0; i < sizeof own_cases / sizeof *own_cases; i++)
        directed_calls(&own_cases[i].c, own_cases[i].own);
}
