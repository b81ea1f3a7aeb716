/* A storm of power cuts and kills, in the layout that the test is built for (layout.h). The program under test inserts,
 * replaces, removes and gets with the archive, alone and in baskets of up to eight keys, and makes its stores durable
 * with orderset_persist.h, over a simulated cache: what a process sees and what is durable are apart, and each line has
 * a list of the stores that are not durable yet. Whenever something strikes, the program starts again, makes the image
 * durable, recovers and makes the stores that recovery hands out, and there it may be struck again. Then every
 * acknowledged order must be there, the call or the basket that was struck must be there wholly or not at all, and
 * nothing else may be there. Each change is made by one of the two families of calls (orderset_raw.h), by chance: the
 * index is always the image's own.
 *
 *     storm [SEED [STRIKES]]
 */
#include <inttypes.h>
#include <setjmp.h>
#include <stdarg.h>
#include <stdio.h>
#include <stdlib.h>
#include <string.h>
#include <sys/mman.h>
#include <unistd.h>

#include "cache.h"
#include "chance.h"
#include "model.h"

enum { MAX_N = 300, MAX_HEADS = 40, MAX_KEYS = MAX_N + 3, STRIKES = 1000000 };
enum { BASKET = ORDERSET_BASKET_MAX };

static uint64_t histories, strikes, cuts, kills, in_start, in_call, in_basket, in_opening, acknowledged, baskets,
    opened, refused_baskets, own_calls, own_refused;

static uint32_t n;

/* ---- the plain map of what was acknowledged, and the call that may have been struck */

struct value {
    int held;
    size_t size;
    uint8_t bytes[VALUE_MAX];
};

static uint32_t keys;
static m_key key_of[MAX_KEYS];
static struct value map[MAX_KEYS];

/* one key, or those of a basket */
static struct {
    int under_way;
    uint32_t count, stores;
    uint32_t key[BASKET];
    struct value later[BASKET];
} call;

static void __attribute__((noreturn, format(printf, 1, 2))) lost(const char *what, ...) {
    va_list list;
    printf("\nLOST ");
    va_start(list, what);
    vprintf(what, list);
    va_end(list);
    printf("\nseed %" PRIu64 ", strike %" PRIu64 ", N %" PRIu32 ", %" PRIu32
           " keys; call under way: %d, %u of its stores made, fenced: %d\n",
           seed, strikes, n, keys, call.under_way, stores_made, fenced);
    exit(1);
}

static int same(const struct value *x, const struct value *y) {
    return x->held == y->held && (!x->held || (x->size == y->size && memcmp(x->bytes, y->bytes, x->size) == 0));
}

static uint32_t held(void) {
    uint32_t count = 0;
    for (uint32_t i = 0; i < keys; i++)
        count += (uint32_t)map[i].held;
    return count;
}

/* ---- the program */

static size_t heads_length;
static uint32_t heads[MAX_HEADS], next[MAX_N + 1], state[ORDERSET_RAW_STATE], at[ORDERSET_STORES];
static uint64_t version[1], value[ORDERSET_STORES], answer[ORDERSET_PROVED_CHANGE_ANSWER];
static uint32_t voids[1], list_at[BASKET * ORDERSET_STORES];
static uint64_t list_value[BASKET * ORDERSET_STORES], basket_answer[ORDERSET_PROVED_BASKET_ANSWER];
static enum orderset_flush flush;
static int after_kill, opening; /* opening: void slots are being opened */

/* A call compared so many slots: no more than held keys share the key's head, one at least where the key is held, and
 * all of them where it is not. */
static void counted(uint32_t i, uint64_t slots) {
    uint64_t sharing = 0;
    for (uint32_t k = 0; k < keys; k++)
        sharing += map[k].held && m_head(key_of[k], heads_length) == m_head(key_of[i], heads_length);
    if (slots > sharing || (map[i].held ? slots == 0 : slots != sharing))
        lost("count: key " KEY_FORM ", %" PRIu64 " slots compared, %" PRIu64 " held keys share its head",
             KEY_WORDS(key_of[i]), slots, sharing);
}

static struct value get(uint32_t i) {
    struct value found = {0, 0, {0}};
    uint64_t code = SET(get)(visible, length, heads, heads_length, next, n + 1, KEY(key_of[i]), found.bytes,
                             sizeof found.bytes, answer);
    if (code)
        lost("get of key " KEY_FORM " is refused: %" PRIu32, KEY_WORDS(key_of[i]), ORDERSET_PROVED_REFUSAL(code));
    found.held = answer[0] == ORDERSET_RAW_DONE;
    found.size = answer[ORDERSET_PROVED_LENGTH];
    return found;
}

static int is_struck(uint32_t i) {
    for (uint32_t k = 0; call.under_way && k < call.count; k++)
        if (call.key[k] == i)
            return 1;
    return 0;
}

/* The keys of the call that was struck: all as before it, or all as after it. */
static void check_struck(void) {
    int earlier = !fenced, later = stores_made == call.stores;
    for (uint32_t k = 0; k < call.count; k++) {
        struct value found = get(call.key[k]);
        earlier &= same(&found, &map[call.key[k]]);
        later &= same(&found, &call.later[k]);
    }
    if (!earlier && !later)
        lost("key " KEY_FORM " and %" PRIu32 " more of one call: neither all as before it nor all as after it",
             KEY_WORDS(key_of[call.key[0]]), call.count - 1);
    for (uint32_t k = 0; later && k < call.count; k++)
        map[call.key[k]] = call.later[k];
}

/* What recovery found against what was acknowledged. The map goes on with what the struck call left. */
static void check(void) {
    for (uint32_t i = 0; i < keys; i++) {
        struct value found = get(i);
        if (!is_struck(i) && !same(&found, &map[i]))
            lost("key " KEY_FORM ": acknowledged %s of %zu bytes, found %s of %zu bytes", KEY_WORDS(key_of[i]),
                 map[i].held ? "a value" : "absent", map[i].size, found.held ? "a value" : "absent", found.size);
    }
    if (call.under_way)
        check_struck();
    if (state[ORDERSET_RAW_LIVE] != held())
        lost("a count: %" PRIu32 " orders, found %" PRIu32, held(), state[ORDERSET_RAW_LIVE]);
    call.under_way = 0;
}

/* The stores that recovery handed out, before any other call. */
static void open_voids(void) {
    opening = voids[0] > 0;
    if (orderset_persist_list(visible, length, list_at, list_value, voids[0], flush))
        lost("persist_list");
    opened += voids[0];
    opening = 0;
}

static void recover(void) {
    heads_length = 1 + below(below(2) ? MAX_HEADS : 3);
    fill(heads, sizeof heads);
    fill(next, sizeof next);
    point(); /* recovery writes nothing to the image: a strike in it is one before or after it, with the index lost */
    uint64_t code =
        SET(recover)(visible, length, heads, heads_length, next, n + 1, state, version, voids, list_at, list_value);
    point();
    if (code)
        lost("recovery refuses: %" PRIu32 ", slot %" PRIu32, ORDERSET_PROVED_REFUSAL(code),
             ORDERSET_PROVED_FAULT_SLOT(code));
    check();
    open_voids();
}

/* Every start makes the image durable first. After a power cut, and only then, it may leave that out. */
static void start(void) {
    if ((after_kill || below(2)) && orderset_persist_image(visible, length, flush))
        lost("persist_image");
    recover();
}

enum kind { INSERT, REPLACE, REMOVE };

/* Insert or replace: mostly the one that the key asks for. */
static enum kind any_write(uint32_t i) {
    if (below(16) == 0)
        return below(2) ? INSERT : REPLACE;
    return map[i].held ? REPLACE : INSERT;
}

/* how many slots of the reuse chain may be taken */
static uint32_t to_take(void) {
    uint32_t count = 0;
    for (uint32_t slot = state[ORDERSET_RAW_FIRST]; slot; slot = next[slot])
        count += (uint32_t)m_may_take(visible, n, slot);
    return count;
}

/* What the rules answer. The set grew from a formatted image, so there is a slot to take. */
static uint32_t due(enum kind kind, uint32_t i) {
    if (kind == REPLACE && !map[i].held)
        return ORDERSET_KEY_MISSING;
    if (kind == INSERT && map[i].held)
        return ORDERSET_KEY_EXISTS;
    if (kind == REMOVE && !map[i].held)
        return ORDERSET_OK;
    return kind == INSERT && held() + 1 >= n ? ORDERSET_FULL : ORDERSET_OK;
}

static uint64_t carry_out(int own, enum kind kind, m_key key, const struct value *v) {
    switch (kind) {
    case INSERT:
        return SET_BY(own, insert)(visible, length, heads, heads_length, next, n + 1, state, version, KEY(key),
                                   v->bytes, v->size, at, value, answer);
    case REPLACE:
        return SET_BY(own, replace)(visible, length, heads, heads_length, next, n + 1, state, version, KEY(key),
                                    v->bytes, v->size, at, value, answer);
    default:
        return SET_BY(own, remove)(visible, length, heads, heads_length, next, n + 1, state, version, KEY(key), at,
                                   value, answer);
    }
}

/* The key is to have a value, or none. */
static const struct value *later_of(uint32_t k, uint32_t i, int holds) {
    struct value *later = &call.later[k];
    call.key[k] = i;
    later->held = holds;
    later->size = holds ? below(VALUE_MAX + 1) : 0;
    fill(later->bytes, later->size);
    return later;
}

/* by the calls for the owner of the index, or by those of document 01 */
static int any_family(void) {
    const int own = (int)below(2);
    own_calls += (uint64_t)own;
    return own;
}

static void call_begins(uint32_t count) {
    call.count = count;
    call.stores = count * ORDERSET_STORES;
    stores_made = 0;
    fenced = 0;
    call.under_way = calling = 1;
}

static void call_ends(void) {
    if (stores_made != call.stores || !fenced)
        lost("persist: %u stores seen, fence seen: %d", stores_made, fenced);
    point();
    for (uint32_t k = 0; k < call.count; k++)
        map[call.key[k]] = call.later[k]; /* acknowledged */
    call.under_way = 0;
    acknowledged++;
}

static void change(uint32_t i, enum kind kind) {
    const uint32_t wanted = due(kind, i);
    const int own = any_family();
    uint64_t code = carry_out(own, kind, key_of[i], later_of(0, i, kind != REMOVE));
    own_refused += (uint64_t)(own && code);
    if (ORDERSET_PROVED_REFUSAL(code) != wanted)
        lost("a call of key " KEY_FORM " answers %" PRIu32, KEY_WORDS(key_of[i]), ORDERSET_PROVED_REFUSAL(code));
    counted(i, code ? ORDERSET_PROVED_REFUSED_COMPARED(code) : answer[ORDERSET_PROVED_COMPARED]);
    if (code || answer[0] == ORDERSET_RAW_ABSENT)
        return;
    call_begins(1);
    if (orderset_persist(visible, length, at, value, flush))
        lost("persist");
    call_ends();
}

/* ---- baskets */

static struct {
    uint32_t count, kinds[BASKET];
    uint64_t lows[BASKET], highs[BASKET];
    size_t lengths[BASKET];
    uint8_t values[ORDERSET_BASKET_BYTES];
} asked;

/* Distinct keys, each with a kind that is mostly the one that it asks for. */
static void ask_basket(void) {
    const uint32_t wanted = 1 + (uint32_t)below(BASKET), first = (uint32_t)below(keys);
    asked.count = 0;
    for (uint32_t k = 0; k < keys && asked.count < wanted; k++) {
        const uint32_t i = (first + k) % keys, here = asked.count;
        if (below(3) == 0)
            continue;
        asked.kinds[here] = below(100) == 0 ? 1 + (uint32_t)below(3)
                            : map[i].held   ? ORDERSET_REPLACE + (uint32_t)below(2)
                                            : ORDERSET_INSERT;
        const struct value *later = later_of(here, i, asked.kinds[here] != ORDERSET_REMOVE);
        asked.lows[here] = low_word(key_of[i]);
        asked.highs[here] = high_word(key_of[i]);
        asked.lengths[here] = later->size;
        memcpy(asked.values + ORDERSET_VALUE_MAX * here, later->bytes, later->size);
        asked.count++;
    }
}

/* What the rules answer. */
static uint32_t due_of_basket(void) {
    uint32_t live = held();
    if (asked.count == 0)
        return ORDERSET_BAD_BASKET;
    for (uint32_t k = 0; k < asked.count; k++) {
        const int is_held = map[call.key[k]].held;
        if (is_held == (asked.kinds[k] == ORDERSET_INSERT))
            return is_held ? ORDERSET_KEY_EXISTS : ORDERSET_KEY_MISSING;
        live += (uint32_t)(asked.kinds[k] == ORDERSET_INSERT) - (uint32_t)(asked.kinds[k] == ORDERSET_REMOVE);
    }
    return to_take() < asked.count || live >= n ? ORDERSET_FULL : ORDERSET_OK;
}

/* A basket of up to eight keys, with one fence. */
static void basket(void) {
    ask_basket();
    const uint32_t wanted = due_of_basket();
    const int own = any_family();
    uint32_t code =
        SET_BY(own, basket)(visible, length, heads, heads_length, next, n + 1, state, version, asked.count, asked.kinds,
                            BASKET_KEYS(asked.lows, asked.highs), asked.lengths, asked.values, list_at,
                            BASKET * ORDERSET_STORES, list_value, BASKET * ORDERSET_STORES, basket_answer);
    own_refused += (uint64_t)(own && code);
    if (code != wanted)
        lost("a basket of %" PRIu32 " keys answers %" PRIu32 ", due is %" PRIu32, asked.count, code, wanted);
    refused_baskets += code != 0;
    if (code)
        return;
    call_begins(asked.count);
    if (orderset_persist_list(visible, length, list_at, list_value, call.stores, flush))
        lost("persist_list");
    call_ends();
    baskets++;
}

static void run_until_struck(void) {
    calling = 0;
    in_start++;
    if (setjmp(struck))
        return;
    start();
    in_start--;
    for (;;) {
        uint32_t i = (uint32_t)below(keys), kind = (uint32_t)below(10);
        struct value found;
        if (kind > 7)
            basket();
        else if (kind > 0)
            change(i, kind > 2 ? any_write(i) : REMOVE);
        else if (found = get(i), !same(&found, &map[i]))
            lost("get of key " KEY_FORM, KEY_WORDS(key_of[i]));
        else
            counted(i, answer[ORDERSET_PROVED_GET_COMPARED]);
        point();
    }
}

/* ---- the storm */

static void strike(void) {
    after_kill = (int)below(2);
    if (after_kill) {
        kills++;
        process_kill();
    } else {
        cuts++;
        power_cut();
    }
    in_call += (uint64_t)(calling && call.under_way);
    in_basket += (uint64_t)(calling && call.under_way && call.count > 1);
    in_opening += (uint64_t)opening;
    opening = 0;
    strikes++;
}

/* Distinct keys: the word mod MAX_KEYS is i. Of layout 2 it is the high word, and many keys have one low word. */
static m_key any_key_of(uint32_t i, uint64_t word) {
    return LAYOUT == 1 ? word : key_of_words(i % 5, word);
}

/* A new set of slots and keys, durable. */
static void make(void) {
    n = (uint32_t)(below(200) ? 2 + below(11) : spread(13, MAX_N));
    length = ORDERSET_IMAGE_BYTES(n);
    keys = 1 + (uint32_t)below(n + 3);
    for (uint32_t i = 0; i < keys; i++)
        key_of[i] = any_key_of(i, below(2) ? i : chance() / MAX_KEYS * MAX_KEYS + i);
    memset(map, 0, sizeof map);
    if (orderset_proved_format(visible, length, LAYOUT, answer))
        lost("format");
    all_durable();
    histories++;
    call.under_way = after_kill = 0;
}

int main(int count, char **word) {
    uint64_t wanted = count > 2 ? strtoull(word[2], NULL, 10) : STRIKES;
    begin_chance(LAYOUT == 1 ? "storm" : "storm of layout 2", count > 1 ? word[1] : NULL);
    flush = orderset_best_flush();
    while (strikes < wanted) {
        make();
        for (uint64_t k = 20 + below(n > 12 ? 100 : 2000); k > 0 && strikes < wanted; k--) {
            fuse = (unsigned)(below(3) ? length / 64 + 4 + below(below(4) ? 70 : 500) : below(length / 64 + 4));
            run_until_struck();
            strike();
        }
    }
    printf("%" PRIu64 " histories of the restart machine with %" PRIu64 " cuts and %" PRIu64 " kills, %" PRIu64
           " of them in a start, %" PRIu64 " in a call, %" PRIu64 " in a basket and %" PRIu64 " while %" PRIu64
           " void slots were opened, %" PRIu64 " calls and %" PRIu64 " baskets acknowledged, %" PRIu64
           " baskets refused; %" PRIu64 " calls by the owner, %" PRIu64 " of them refused: nothing lost (%.0f s)\n",
           histories, cuts, kills, in_start, in_call - in_basket, in_basket, in_opening, opened, acknowledged - baskets,
           baskets, refused_baskets, own_calls, own_refused, seconds());
    return in_basket == 0 || in_opening == 0 || refused_baskets == 0 || own_calls == 0 || own_refused == 0;
}
