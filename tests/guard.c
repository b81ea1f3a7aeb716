/* Calls of the layout that the test is built for (layout.h), on lent memory that begins or ends at a page which nobody
 * may touch (pieces.h). What a refused call was lent is
 * compared with what it was. Images and indexes are sound, damaged and garbage; lengths are right and wrong. Each call
 * that writes is made by one of the two families (orderset_raw.h), by chance.
 *
 *     guard [SEED [CALLS]]
 */
#include <inttypes.h>
#include <stdio.h>
#include <stdlib.h>
#include <string.h>

#include "chance.h"
#include "images.h"
#include "pieces.h"

enum { CALLS = 5000000 };
enum which {
    FORMAT,
    RECOVER,
    INSERT,
    REPLACE,
    REMOVE,
    NEW,
    ACKNOWLEDGE,
    FILL,
    WITHDRAW,
    GET,
    LOCATE,
    PLAY,
    PLAY_LIST,
    BASKET,
    LINE_WHOLE,
    LINE_VERSION,
    LINE_FIRST,
    LINE_LAST,
    COUNT_SLOTS,
    WHICH
};
static const char *const name[WHICH] = {"format",       "recover",     "insert",    "replace",    "remove",
                                        "new",          "acknowledge", "fill",      "withdraw",   "get",
                                        "locate",       "play",        "play_list", "basket",     "line_whole",
                                        "line_version", "line_first",  "line_last", "count_slots"};

static uint64_t already, opened;       /* second acknowledges, stores that open void slots */
static uint64_t answers[WHICH][2];     /* [0] not refused, [1] refused */
static uint64_t own_answers[WHICH][2]; /* the same of the calls for the owner of the index */
static enum which call;
static int owner; /* the call is one of these */

/* ---- pieces of memory */

enum what {
    IMAGE,
    HEADS,
    NEXT,
    STATE,
    VERSION,
    BYTES,
    OUTPUT,
    AT,
    VALUE,
    ANSWER,
    COUNT,
    OPEN_AT,
    OPEN_VALUE,
    KINDS,
    LOWS,
    HIGHS,
    LENGTHS,
    VALUES,
    COUNTS,
    PIECES
};

struct piece piece[PIECES] = {
    {"image", ORDERSET_IMAGE_BYTES(ORDERSET_SLOTS_MAX) + PAGE, NULL, NULL, NULL, 0, 0},
    {"heads", 4 * ORDERSET_HEADS_MAX + PAGE, NULL, NULL, NULL, 0, 0},
    {"next", 4 * ORDERSET_HEADS_MAX + PAGE, NULL, NULL, NULL, 0, 0},
    {"state", PAGE, NULL, NULL, NULL, 0, 0},
    {"version", PAGE, NULL, NULL, NULL, 0, 0},
    {"bytes", PAGE, NULL, NULL, NULL, 0, 0},
    {"output", PAGE, NULL, NULL, NULL, 0, 0},
    {"at", PAGE, NULL, NULL, NULL, 0, 0},
    {"value", PAGE, NULL, NULL, NULL, 0, 0},
    {"answer", PAGE, NULL, NULL, NULL, 0, 0},
    {"count", PAGE, NULL, NULL, NULL, 0, 0},
    {"the invalidating stores' words", PAGE, NULL, NULL, NULL, 0, 0},
    {"the invalidating stores' values", PAGE, NULL, NULL, NULL, 0, 0},
    {"kinds", PAGE, NULL, NULL, NULL, 0, 0},
    {"low words", PAGE, NULL, NULL, NULL, 0, 0},
    {"high words", PAGE, NULL, NULL, NULL, 0, 0},
    {"lengths", PAGE, NULL, NULL, NULL, 0, 0},
    {"values", PAGE, NULL, NULL, NULL, 0, 0},
    {"counts", PAGE, NULL, NULL, NULL, 0, 0},
};

const int pieces = PIECES;

/* ---- before and after a call */

/* Is the call there for the owner too? */
static int is_change(enum which which) {
    return (which >= INSERT && which <= WITHDRAW) || which == BASKET;
}

static void begin(enum which which, const int *writable) {
    call = which;
    owner = is_change(call) ? (int)below(2) : 0;
    begin_call(name[call], writable);
}

/* Answers the number of the refusal. What stands above it, the slots compared or recovery's slot, is at most N. */
static uint32_t end(uint64_t code, const int *writable) {
    const uint32_t number = ORDERSET_PROVED_REFUSAL(code), above = ORDERSET_PROVED_REFUSED_COMPARED(code);
    answers[call][code != 0]++;
    own_answers[call][code != 0] += (uint64_t)owner;
    if ((code && !number) || (above && above >= piece[IMAGE].length / ORDERSET_SLOT_BYTES)) {
        show("refusal %" PRIu32 " with %" PRIu32 " above it", number, above);
        exit(1);
    }
    end_call(code != 0, writable);
    return number;
}

/* ---- the calls */

static uint32_t slots; /* what the image was made for; 0 for another length */
static size_t heads_length, next_length;

static void call_format(void) {
    static const int writable[] = {IMAGE, ANSWER, NONE};
    begin(FORMAT, writable);
    end(orderset_proved_format(w(IMAGE), piece[IMAGE].length, below(4) ? 1 + below(2) : below(5), w(ANSWER)), writable);
}

/* The stores that recovery hands out open line A of a slot each, by rising slot; those past them are zero. */
static void openings_are_sound(void) {
    const uint32_t *at = w(OPEN_AT), count = *(uint32_t *)w(COUNT);
    const uint64_t *value = w(OPEN_VALUE);
    for (uint32_t i = 0; i < ORDERSET_INVALIDATIONS; i++)
        if (i < count ? at[i] % 16 || at[i] == 0 || at[i] >= piece[IMAGE].length / 8 || (i && at[i] <= at[i - 1])
                            || value[i] > 1
                      : at[i] || value[i]) {
            show("invalidating store %" PRIu32 " of %" PRIu32 ": word %" PRIu32 ", value %" PRIu64, i, count, at[i],
                 value[i]);
            exit(1);
        }
}

static void call_recover(void) {
    static const int writable[] = {HEADS, NEXT, STATE, VERSION, COUNT, OPEN_AT, OPEN_VALUE, NONE};
    begin(RECOVER, writable);
    if (end(SET(recover)(r(IMAGE), piece[IMAGE].length, w(HEADS), heads_length, w(NEXT), next_length, w(STATE),
                         w(VERSION), w(COUNT), w(OPEN_AT), w(OPEN_VALUE)),
            writable))
        return;
    openings_are_sound();
    opened += *(uint32_t *)w(COUNT);
    if (below(8)
        && orderset_proved_play_list(w(IMAGE), piece[IMAGE].length, r(OPEN_AT), *(uint32_t *)w(COUNT), r(OPEN_VALUE),
                                     *(uint32_t *)w(COUNT))) {
        show("the invalidating stores are not played");
        exit(1);
    }
}

/* The counts add up to the number of slots. */
static void call_count(void) {
    static const int writable[] = {HEADS, NEXT, COUNTS, NONE};
    uint64_t sum = 0;
    begin(COUNT_SLOTS, writable);
    if (end(SET(count_slots)(r(IMAGE), piece[IMAGE].length, w(HEADS), heads_length, w(NEXT), next_length, w(COUNTS)),
            writable))
        return;
    for (unsigned i = 0; i < ORDERSET_COUNTS; i++)
        sum += ((uint64_t *)w(COUNTS))[i];
    if (sum != next_length - 1) {
        show("the counts add up to %" PRIu64, sum);
        exit(1);
    }
}

static void call_play(size_t a, size_t b) {
    static const int writable[] = {IMAGE, NONE};
    begin(PLAY, writable);
    end(orderset_proved_play(w(IMAGE), piece[IMAGE].length, r(AT), r(VALUE), a, b), writable);
}

static uint64_t change(m_key key, uint64_t quantity) {
    const size_t length = piece[IMAGE].length;
    switch (call) {
    case INSERT:
        return SET_BY(owner, insert)(r(IMAGE), length, w(HEADS), heads_length, w(NEXT), next_length, w(STATE),
                                     w(VERSION), KEY(key), r(BYTES), piece[BYTES].length, w(AT), w(VALUE), w(ANSWER));
    case REPLACE:
        return SET_BY(owner, replace)(r(IMAGE), length, w(HEADS), heads_length, w(NEXT), next_length, w(STATE),
                                      w(VERSION), KEY(key), r(BYTES), piece[BYTES].length, w(AT), w(VALUE), w(ANSWER));
    case REMOVE:
        return SET_BY(owner, remove)(r(IMAGE), length, w(HEADS), heads_length, w(NEXT), next_length, w(STATE),
                                     w(VERSION), KEY(key), w(AT), w(VALUE), w(ANSWER));
    case NEW:
        return SET_BY(owner, book_new)(r(IMAGE), length, w(HEADS), heads_length, w(NEXT), next_length, w(STATE),
                                       w(VERSION), KEY(key), quantity, w(AT), w(VALUE), w(ANSWER));
    case ACKNOWLEDGE:
        return SET_BY(owner, book_acknowledge)(r(IMAGE), length, w(HEADS), heads_length, w(NEXT), next_length, w(STATE),
                                               w(VERSION), KEY(key), w(AT), w(VALUE), w(ANSWER));
    case FILL:
        return SET_BY(owner, book_fill)(r(IMAGE), length, w(HEADS), heads_length, w(NEXT), next_length, w(STATE),
                                        w(VERSION), KEY(key), quantity, w(AT), w(VALUE), w(ANSWER));
    default:
        return SET_BY(owner, book_withdraw)(r(IMAGE), length, w(HEADS), heads_length, w(NEXT), next_length, w(STATE),
                                            w(VERSION), KEY(key), w(AT), w(VALUE), w(ANSWER));
    }
}

/* 1 if there are stores to be made */
static int call_change(m_key key) {
    static const int writable[] = {HEADS, NEXT, STATE, VERSION, AT, VALUE, ANSWER, NONE};
    uint64_t answer;
    begin(call, writable);
    uint32_t code = end(change(key, any_quantity()), writable);
    memcpy(&answer, w(ANSWER), sizeof answer);
    if (code == 0 && answer != ORDERSET_RAW_DONE)
        for (const int *p = writable; *p != ANSWER; p++)
            same(&piece[*p], piece[*p].at, piece[*p].at + piece[*p].length, "by a call that stores nothing");
    already += code == 0 && answer == ORDERSET_RAW_ALREADY;
    return code == 0 && answer == ORDERSET_RAW_DONE;
}

static m_key key_of_image(uint64_t keys) {
    if (slots == 0 || below(2))
        return any_key(keys);
    return m_key_in(w(IMAGE), 1 + (uint32_t)below(slots));
}

/* The items of a basket, the first `count` of them mostly as the rules ask for. */
static void place_items(uint64_t keys, size_t count) {
    place(KINDS, 4 * ORDERSET_BASKET_MAX);
    place(LOWS, 8 * ORDERSET_BASKET_MAX);
    place(HIGHS, 8 * ORDERSET_BASKET_MAX);
    place(LENGTHS, sizeof(size_t) * ORDERSET_BASKET_MAX);
    place(VALUES, ORDERSET_BASKET_BYTES);
    fill(w(VALUES), ORDERSET_BASKET_BYTES);
    for (size_t i = 0; i < ORDERSET_BASKET_MAX; i++) {
        uint32_t kind = i < count && below(100) ? 1 + (uint32_t)below(3) : (uint32_t)chance();
        const m_key key = key_of_image(keys);
        const uint64_t low = low_word(key), high = high_word(key);
        uint64_t answer[ORDERSET_PROVED_CHANGE_ANSWER] = {0};
        size_t length = below(100) ? below(VALUE_MAX + 1) : (size_t)chance();
        if (i < count && below(8)
            && !SET(locate)(r(IMAGE), piece[IMAGE].length, r(HEADS), heads_length, r(NEXT), next_length, KEY(key),
                            answer))
            kind = answer[0] == ORDERSET_RAW_ABSENT ? ORDERSET_INSERT : ORDERSET_REPLACE + (uint32_t)below(2);
        memcpy((uint8_t *)w(KINDS) + 4 * i, &kind, sizeof kind);
        memcpy((uint8_t *)w(LOWS) + 8 * i, &low, sizeof low);
        memcpy((uint8_t *)w(HIGHS) + 8 * i, &high, sizeof high);
        memcpy((uint8_t *)w(LENGTHS) + sizeof length * i, &length, sizeof length);
    }
}

/* A basket, whose lists are as long as its stores, or longer, or shorter. Entries past the stores are kept. */
static void call_basket(uint64_t keys) {
    static const int writable[] = {HEADS, NEXT, STATE, VERSION, AT, VALUE, ANSWER, NONE};
    const size_t count = below(20)  ? 1 + below(below(2) ? 2 : 8)
                         : below(2) ? below(12)
                                    : (size_t)chance(),
                 stores = ORDERSET_BASKET_STORES(count > 9 ? 9 : count);
    place_items(keys, count);
    place(AT, 4 * (below(20) ? stores + below(2) * below(9) : below(stores + 1)));
    place(VALUE, 8 * (below(20) ? stores + below(2) * below(9) : below(stores + 1)));
    fill(w(AT), piece[AT].length);
    fill(w(VALUE), piece[VALUE].length);
    begin(BASKET, writable);
    if (end(SET_BY(owner, basket)(r(IMAGE), piece[IMAGE].length, w(HEADS), heads_length, w(NEXT), next_length, w(STATE),
                                  w(VERSION), count, r(KINDS), BASKET_KEYS(r(LOWS), r(HIGHS)), r(LENGTHS), r(VALUES),
                                  w(AT), piece[AT].length / 4, w(VALUE), piece[VALUE].length / 8, w(ANSWER)),
            writable))
        return;
    same(&piece[AT], piece[AT].at + 4 * stores, piece[AT].at + piece[AT].length, "past the stores");
    same(&piece[VALUE], piece[VALUE].at + 8 * stores, piece[VALUE].at + piece[VALUE].length, "past the stores");
    if (below(4) && orderset_proved_play_list(w(IMAGE), piece[IMAGE].length, r(AT), stores, r(VALUE), stores)) {
        show("the stores of a basket are not played");
        exit(1);
    }
}

static void call_get(m_key key) {
    static const int writable[] = {OUTPUT, ANSWER, NONE};
    const struct piece *out = &piece[OUTPUT];
    uint64_t answer[ORDERSET_PROVED_GET_ANSWER];
    begin(GET, writable);
    uint32_t code = end(SET(get)(r(IMAGE), piece[IMAGE].length, r(HEADS), heads_length, r(NEXT), next_length, KEY(key),
                                 w(OUTPUT), out->length, w(ANSWER)),
                        writable);
    memcpy(answer, w(ANSWER), sizeof answer);
    if (code == 0)
        same(out, out->at + answer[ORDERSET_PROVED_LENGTH], out->at + out->length, "past the value");
}

static void call_locate(m_key key) {
    static const int writable[] = {ANSWER, NONE};
    begin(LOCATE, writable);
    end(SET(locate)(r(IMAGE), piece[IMAGE].length, r(HEADS), heads_length, r(NEXT), next_length, KEY(key), w(ANSWER)),
        writable);
}

static void call_play_list(void) {
    static const int writable[] = {IMAGE, NONE};
    size_t places = below(20), values = below(4) ? places : below(20), words = piece[IMAGE].length / 8;
    place(AT, 4 * places);
    place(VALUE, 8 * values);
    fill(w(VALUE), 8 * values);
    for (size_t i = 0; i < places; i++)
        ((uint32_t *)w(AT))[i] = below(40) ? (uint32_t)below(words + (words == 0)) : (uint32_t)(words + below(3));
    begin(PLAY_LIST, writable);
    end(orderset_proved_play_list(w(IMAGE), piece[IMAGE].length, r(AT), places, r(VALUE), values), writable);
}

/* A line is lent as bytes, and its answer as bytes too. */
static uint32_t ask(uint64_t version) {
    const size_t length = piece[BYTES].length, room = piece[ANSWER].length;
    switch (call) {
    case LINE_WHOLE: return orderset_proved_line_whole(r(BYTES), length, w(ANSWER), room);
    case LINE_VERSION: return orderset_proved_line_version(r(BYTES), length, w(ANSWER), room);
    case LINE_FIRST: return orderset_proved_line_first(r(BYTES), length, version, w(ANSWER), room);
    default: return orderset_proved_line_last(r(BYTES), length, version, w(ANSWER), room);
    }
}

static void call_line(void) {
    static const int writable[] = {ANSWER, NONE};
    begin(call, writable);
    end(ask(chance() >> below(64)), writable);
}

/* ---- sessions: an image, an index, and some calls on them */

static size_t any_length(uint32_t n) {
    switch (below(40)) {
    case 0: return below(1000);
    case 1: return 128 * below(8);
    case 2: return ORDERSET_IMAGE_BYTES(n) - 1 + 2 * below(2);
    default: return ORDERSET_IMAGE_BYTES(n);
    }
}

static void any_index(void) {
    struct m_index index = {w(HEADS), heads_length, w(NEXT), next_length, {0, 0, 0, 0, 0}};
    garbage_index(&index, slots);
    memcpy(w(STATE), (const uint32_t[]){index.state.first, index.state.last, index.state.live, index.state.newest},
           4 * ORDERSET_RAW_STATE);
    memcpy(w(VERSION), &index.state.version, 8);
}

/* Returns how many keys the image has. */
static uint64_t make_set(void) {
    uint32_t n = (uint32_t)(below(400) ? 2 + below(12) : below(100) ? spread(14, 2000) : ORDERSET_SLOTS_MAX - below(3));
    uint64_t keys = 1 + below(2 * n);
    place(IMAGE, any_length(n));
    slots = piece[IMAGE].length == ORDERSET_IMAGE_BYTES(n) ? n : 0;
    heads_length = below(60)  ? 1 + below(2 * (n < 30000 ? n : 30000))
                   : below(4) ? 0
                              : ORDERSET_HEADS_MAX - 1 + below(3);
    next_length = n + 1 - (below(60) == 0) + (below(60) == 0);
    place(HEADS, 4 * heads_length);
    place(NEXT, 4 * next_length);
    place(STATE, 4 * ORDERSET_RAW_STATE);
    place(VERSION, 8);
    if (slots == 0 || below(12) == 0)
        fill(w(IMAGE), piece[IMAGE].length);
    else
        any_image(w(IMAGE), n, keys);
    for (uint64_t k = slots && below(3) == 0 ? 1 + below(3) : 0; k > 0; k--)
        damage(w(IMAGE), n);
    any_index();
    return keys;
}

/* at and value as no call hands them out, or nearly as one does */
static void any_stores(void) {
    uint32_t first = 8 * (uint32_t)below(piece[IMAGE].length / 64 + 2), second = below(8) ? first ^ 8 : first;
    for (uint32_t i = 0; i < ORDERSET_STORES; i++)
        ((uint32_t *)w(AT))[i] = below(200) ? (i < 8 ? first : second) + i % 8 : (uint32_t)chance();
    fill(w(VALUE), piece[VALUE].length);
}

static size_t answer_length(void) {
    switch (call) {
    case FORMAT: return ORDERSET_PROVED_FORMAT_ANSWER;
    case GET: return ORDERSET_PROVED_GET_ANSWER;
    case NEW:
    case ACKNOWLEDGE:
    case FILL:
    case WITHDRAW: return ORDERSET_PROVED_STEP_ANSWER;
    case BASKET: return ORDERSET_PROVED_BASKET_ANSWER;
    default: return ORDERSET_PROVED_CHANGE_ANSWER;
    }
}

/* A line and the answer about it, mostly of their lengths. */
static void place_line(void) {
    place(BYTES, below(4) ? ORDERSET_LINE_BYTES : any_size());
    place(ANSWER, below(4) ? ORDERSET_PROVED_LINE_ANSWER : below(2 * ORDERSET_PROVED_LINE_ANSWER));
}

static void lend_for_one_call(void) {
    place(AT, 4 * ORDERSET_STORES);
    place(VALUE, 8 * ORDERSET_STORES);
    place(ANSWER, 8 * answer_length());
    place(COUNT, 4);
    place(OPEN_AT, 4 * ORDERSET_INVALIDATIONS);
    place(OPEN_VALUE, 8 * ORDERSET_INVALIDATIONS);
    place(COUNTS, 8 * ORDERSET_COUNTS);
    place(BYTES, any_size());
    if (call >= LINE_WHOLE && call <= LINE_LAST)
        place_line();
    place(OUTPUT, below(3) ? below(ORDERSET_VALUE_MAX + 17) : ORDERSET_VALUE_MAX);
    fill(w(AT), piece[AT].length);
    fill(w(VALUE), piece[VALUE].length);
    fill(w(ANSWER), piece[ANSWER].length);
    fill(w(BYTES), piece[BYTES].length);
    fill(w(OUTPUT), piece[OUTPUT].length);
    fill(w(COUNT), piece[COUNT].length);
    fill(w(OPEN_AT), piece[OPEN_AT].length);
    fill(w(OPEN_VALUE), piece[OPEN_VALUE].length);
    fill(w(COUNTS), piece[COUNTS].length);
}

static void any_call(uint64_t keys) {
    static const enum which often[] = {RECOVER, RECOVER,  INSERT,    INSERT,     INSERT,       REPLACE,     REPLACE,
                                       REPLACE, REMOVE,   REMOVE,    NEW,        NEW,          FILL,        FILL,
                                       FILL,    WITHDRAW, GET,       GET,        ACKNOWLEDGE,  ACKNOWLEDGE, GET,
                                       LOCATE,  PLAY,     PLAY_LIST, LINE_WHOLE, LINE_VERSION, LINE_FIRST,  LINE_LAST,
                                       BASKET,  BASKET,   BASKET,    BASKET,     COUNT_SLOTS};
    call = below(40) ? often[below(sizeof often / sizeof *often)] : FORMAT;
    lend_for_one_call();
    switch (call) {
    case FORMAT: call_format(); break;
    case RECOVER: call_recover(); break;
    case COUNT_SLOTS: call_count(); break;
    case GET: call_get(key_of_image(keys)); break;
    case LOCATE: call_locate(key_of_image(keys)); break;
    case PLAY: any_stores(), call_play(below(10), below(10)); break;
    case PLAY_LIST: call_play_list(); break;
    case BASKET: call_basket(keys); break;
    case LINE_WHOLE:
    case LINE_VERSION:
    case LINE_FIRST:
    case LINE_LAST: call_line(); break;
    default:
        if (call_change(key_of_image(keys)) && below(4))
            call_play(below(4) ? 8 : below(10), below(4) ? 8 : below(10));
        break;
    }
}

static int all_met(void) {
    for (int i = 0; i < WHICH; i++)
        if (answers[i][0] == 0 || answers[i][1] == 0
            || (is_change((enum which)i) && (own_answers[i][0] == 0 || own_answers[i][1] == 0)))
            return 0;
    return already > 0 && opened > 0;
}

int main(int count, char **word) {
    uint64_t wanted = count > 2 ? strtoull(word[2], NULL, 10) : CALLS, refused = 0, own = 0;
    begin_chance(LAYOUT == 1 ? "guard" : "guard of layout 2", count > 1 ? word[1] : NULL);
    make_pieces();
    while (calls < wanted) {
        uint64_t keys = make_set();
        if (below(4)) {
            lend_for_one_call();
            call_recover();
        }
        for (int k = 0; k < 16; k++)
            any_call(keys);
    }
    for (int i = 0; i < WHICH; i++)
        refused += answers[i][1], own += own_answers[i][0] + own_answers[i][1];
    printf("%" PRIu64 " calls, %" PRIu64 " of them refused, %" PRIu64 " by the owner, %" PRIu64
           " invalidating stores: no fault, nothing changed that may not be (%.0f s)\n",
           calls, refused, own, opened, seconds());
    if (!all_met())
        printf("a function was always refused, or never, or no order was acknowledged twice, or no slot was void\n");
    return !all_met();
}
