/* differential_history.c: an empty set and a long row of calls, single ones and baskets, whose stores are made, all of
 * them or as a cut leaves them; then recovery, which must give the plain map. */
#include "differential.h"

/* ---- cuts */

/* A large set has chains of about 16 slots at most: reading the whole map takes about the same time with every seed. */
static uint32_t heads_after_cut(uint32_t n) {
    return n <= 3000 ? any_heads(n) : (uint32_t)spread(n / 16, ORDERSET_HEADS_MAX);
}

/* The set with another index, of another size, and garbage in it. */
static struct set *other_index(struct set *s, size_t heads) {
    struct set *t = open_set(s->length, heads, s->model.next_length);
    memcpy(t->model_image, s->model_image, s->length);
    lend_garbage(t);
    close_set(s);
    return t;
}

/* Recovery after a cut, perhaps again after a cut among the stores that open void slots: each time it gives the map.
 * Then all those stores are made. */
static struct set *recover_again(struct set *s, const struct plain *p) {
    s = other_index(s, heads_after_cut(s->n));
    same_number("recovery after a cut", (uint64_t)try_recover(s), 0);
    same_map(s, p);
    while (s->count[0] && below(2)) {
        open_voids(s, (unsigned)below(1u << s->count[0]));
        s = other_index(s, heads_after_cut(s->n));
        same_number("recovery after a cut among the invalidating stores", (uint64_t)try_recover(s), 0);
        same_map(s, p);
    }
    open_voids(s, UINT_MAX);
    if (below(4) == 0) {
        same_number("recovery after the invalidating stores", (uint64_t)try_recover(s), 0);
        same_number("its invalidating stores", s->count[0], 0);
        same_map(s, p);
    }
    return s;
}

/* A copy of the set as it stands is struck with every pair of counts: recovered with another index and other heads, it
 * must be the earlier map, or the later one where all stores stand. */
static void strike_all(const struct set *s, struct plain *earlier, struct plain *later) {
    strikes++;
    for (size_t a = 0; a <= ORDERSET_LINE_STORES; a++)
        for (size_t b = 0; b <= ORDERSET_LINE_STORES; b++) {
            struct set *copy = open_set(s->length, any_heads(s->n), s->model.next_length);
            memcpy(copy->model_image, s->model_image, s->length);
            lend_garbage(copy);
            memcpy(copy->at, s->at, 4 * ORDERSET_STORES);
            memcpy(copy->value, s->value, 8 * ORDERSET_STORES);
            now = copy;
            same_number("play", (uint64_t)try_play(copy, a, b), 0);
            same_number("recovery after a cut", (uint64_t)try_recover(copy), 0);
            call_a = a;
            call_b = b;
            same_map(copy, a == 8 && b == 8 ? later : earlier);
            close_set(copy);
        }
}

/* After a call with stores: all are played, or a cut leaves some and recovery comes next with an index of another size.
 * Returns the set. */
static struct set *finish(struct set *s, struct plain *p, const struct effect *e, unsigned cuts) {
    size_t a = 8, b = 8;
    int cut = cuts && below(cuts) == 0;
    if (cut) {
        if (s->n <= SMALL && below(s->n <= 6 ? 3 : 20) == 0) {
            struct plain *later = copy_plain(p);
            plain_take(later, e);
            strike_all(s, p, later);
            close_plain(later);
        }
        a = below(9);
        b = below(9);
    }
    same_number("play", (uint64_t)try_play(s, a, b), 0);
    if (a == 8 && b == 8)
        plain_take(p, e);
    return cut ? recover_again(s, p) : s;
}

void play_some(struct set *s) {
    size_t a = below(4) ? 8 : below(10), b = below(4) ? 8 : below(10);
    s->own &= below(4) && !try_play(s, a, b) && a == 8 && b == 8;
}

/* ---- baskets */

/* Distinct keys of the plain map, each to be inserted, replaced or removed, and what that does. */
static struct basket any_basket(const struct plain *p, struct effect *e) {
    const uint32_t wanted = 1 + (uint32_t)below(ORDERSET_BASKET_MAX), first = (uint32_t)below(p->keys);
    struct basket b = {0};
    for (uint32_t k = 0; k < p->keys && b.count < wanted; k++) {
        const uint32_t i = (first + k) % p->keys, kind = any_kind(p->size[i] >= 0);
        if (below(3) == 0)
            continue;
        e[b.count] = (struct effect){.i = i, .holds = kind != ORDERSET_REMOVE, .size = below(VALUE_MAX + 1)};
        fill(e[b.count].bytes, e[b.count].size);
        b.item[b.count] =
            (struct m_item){kind, p->key[i], e[b.count].bytes, below(200) ? e[b.count].size : VALUE_MAX + 1};
        b.count++;
    }
    b.places = any_places(b.count);
    b.values = any_places(b.count);
    return b;
}

/* The rules' answer by the plain map alone. */
static unsigned plain_basket(const struct set *s, const struct plain *p, const struct basket *b,
                             const struct effect *e) {
    const size_t stores = ORDERSET_STORES * b->count;
    uint32_t held = p->held;
    if (b->count == 0)
        return ORDERSET_BAD_BASKET;
    if (b->places < stores || b->values < stores)
        return ORDERSET_BUFFER_TOO_SHORT;
    for (size_t i = 0; i < b->count; i++)
        if (b->item[i].kind != ORDERSET_REMOVE && b->item[i].size > VALUE_MAX)
            return ORDERSET_VALUE_TOO_LONG;
    for (size_t i = 0; i < b->count; i++) {
        const int is_held = p->size[e[i].i] >= 0;
        if (is_held == (b->item[i].kind == ORDERSET_INSERT))
            return is_held ? ORDERSET_KEY_EXISTS : ORDERSET_KEY_MISSING;
        held += (uint32_t)(b->item[i].kind == ORDERSET_INSERT) - (uint32_t)(b->item[i].kind == ORDERSET_REMOVE);
    }
    return held >= s->n ? ORDERSET_FULL : s->version[0] >> 63 ? ORDERSET_EXHAUSTED : DONE;
}

/* Makes the stores of the basket: all, or so many on each line as a cut leaves. Answers whether all were made. */
static int make_basket(struct set *s, size_t count, int struck) {
    const uint64_t cut = struck ? 1 + below(3) : 0; /* 1: mostly whole lines; else: any number on each line */
    int whole = 1;
    for (size_t i = 0; i < count; i++) {
        size_t a = cut > 1 || (cut == 1 && below(count) == 0) ? below(9) : 8,
               b = cut > 1 || (cut == 1 && below(count) == 0) ? below(9) : 8;
        stores_of_item(s, i);
        same_number("play", (uint64_t)try_play(s, a, b), 0);
        whole &= a == 8 && b == 8;
    }
    return whole;
}

/* A basket: refused exactly where the rules refuse it, but for 28 by the slots that may be taken, which the model
 * tells. All of it is there, or after a cut perhaps nothing. */
static struct set *basket(struct set *s, struct plain *p, unsigned cuts) {
    struct effect e[ORDERSET_BASKET_MAX];
    const struct basket b = any_basket(p, e);
    const int struck = cuts && below(s->n > 3000 ? 200 : 4) == 0;
    unsigned want = plain_basket(s, p, &b, e), got = try_basket(s, &b);
    if (got == ORDERSET_FULL && (want == DONE || want == ORDERSET_EXHAUSTED))
        want = got;
    same_number("a basket's answer by the plain map", got, want);
    if (got != DONE)
        return s;
    int whole = make_basket(s, b.count, struck);
    for (size_t i = 0; whole && i < b.count; i++)
        plain_take(p, &e[i]);
    baskets += (uint64_t)whole;
    half_baskets += (uint64_t)!whole;
    return struck ? recover_again(s, p) : s;
}

/* ---- histories */

/* A quantity: of what is open, or around it, or any. */
static uint64_t quantity_near(uint64_t open) {
    switch (below(6)) {
    case 0: return open;
    case 1: return open + 1;
    case 2: return open ? 1 + below(open) : 0;
    default: return any_quantity();
    }
}

/* Insert or replace: mostly the one that the key asks for. */
static enum which any_write(int held) {
    if (below(8) == 0)
        return below(2) ? INSERT : REPLACE;
    return held ? REPLACE : INSERT;
}

/* A call of a history, refused exactly where the rules refuse it, answered as the plain map does. */
static struct set *step(struct set *s, struct plain *p, unsigned cuts) {
    static const enum which any[] = {GET, LOCATE, INSERT, INSERT, INSERT, REPLACE,     REPLACE, REMOVE,
                                     GET, REMOVE, REMOVE, NEW,    NEW,    ACKNOWLEDGE, FILL,    WITHDRAW},
                            book[] = {GET,  LOCATE,      NEW,         NEW,         NEW,  NEW,  NEW,  NEW,
                                      FILL, ACKNOWLEDGE, ACKNOWLEDGE, ACKNOWLEDGE, FILL, FILL, FILL, WITHDRAW};
    struct effect e = {.i = (uint32_t)below(p->keys)};
    struct request r = {(p->book_only ? book : any)[below(16)], p->key[e.i], 0, e.bytes, any_size()};
    const int size = p->size[e.i];
    if (!p->book_only && below(s->n > 3000 ? 100 : 12) == 0)
        return basket(s, p, cuts);
    if (r.which == GET) {
        size_t room = below(3) ? VALUE_MAX : below(VALUE_MAX + 1);
        unsigned want = size < 0 ? ABSENT : room < (size_t)size ? 13 : 200u + (unsigned)size;
        same_number("get by the plain map", try_get(s, r.key, e.bytes, room), want);
        few_compared(s, p, e.i);
        return s;
    }
    if (r.which == LOCATE) {
        same_number("locate by the plain map", try_locate(s, r.key), size < 0 ? ABSENT : DONE);
        few_compared(s, p, e.i);
        return s;
    }
    if (r.which == INSERT || r.which == REPLACE)
        r.which = any_write(size >= 0);
    r.quantity = quantity_near(open_of(p->bytes[e.i], size));
    fill(e.bytes, sizeof e.bytes);
    if (below(2)) {
        r.size = ORDERSET_ORDER_BYTES;
        order_bytes(e.bytes);
    }
    unsigned want = plain_answer(s, p, &r, &e), got = try_change(s, &r);
    if (got == ORDERSET_FULL && !p->grown && (want == DONE || want == ORDERSET_EXHAUSTED))
        want = got;
    same_number("the answer by the plain map", got, want);
    if ((r.which == INSERT || r.which == REPLACE || r.which == REMOVE) && want != ORDERSET_VALUE_TOO_LONG)
        few_compared(s, p, e.i);
    return want == DONE ? finish(s, p, &e, cuts) : s;
}

/* An accepted image whose map is empty: for each key the last record is a remove, one slot is broken, and perhaps some
 * of a basket's records stand above all others. */
static void emptied_image(uint8_t *image, uint32_t n, const struct plain *p) {
    const uint32_t half = n / 2, void_slots = (uint32_t)(below(2) * below(half < 8 ? half : 8));
    for (uint32_t i = 1; i < n; i += 2) {
        const m_key key = p->key[below(p->keys)];
        set_record(image, i, 1, key, i, ORDERSET_ORDER_BYTES);
        set_record(image, i + 1, 2, key, i + 1, 0);
    }
    for (uint32_t i = 0; i < void_slots; i++) {
        set_record(image, 1 + 2 * i, 1 + (unsigned)below(2), p->key[0] + i, n + 1, 0);
        set_number(image, 1 + 2 * i, void_slots + 1);
    }
    break_slot(image, 1 + 2 * (void_slots + (uint32_t)below(half - void_slots)), (int)below(2));
}

/* An empty set and a long row of calls. */
static void history(uint32_t n, size_t heads, uint32_t keys, unsigned steps, unsigned cuts, int book_only) {
    struct set *s = open_set(ORDERSET_IMAGE_BYTES(n), heads, ORDERSET_NEXT_LENGTH(n));
    struct plain *p = open_plain(keys);
    p->book_only = book_only;
    fill(s->model_image, s->length < 4096 ? s->length : 4096);
    lend_garbage(s);
    now = s;
    same_number("format", (uint64_t)try_format(s, LAYOUT), 0);
    p->grown = (int)below(2);
    if (!p->grown) {
        emptied_image(s->model_image, n, p);
        lend_same(s);
    }
    same_number("recovery of an empty set", (uint64_t)try_recover(s), 0);
    same_map(s, p);
    open_voids(s, UINT_MAX);
    for (unsigned k = 0; k < steps; k++) {
        s = step(s, p, cuts);
        if (n <= SMALL && below(8) == 0)
            every_line(s);
    }
    every_line(s);
    same_map(s, p);
    same_number("the last recovery", (uint64_t)try_recover(s), 0);
    same_map(s, p);
    close_plain(p);
    close_set(s);
}

void small_history(void) {
    phase = "history of a small set";
    uint32_t n = 2 + (uint32_t)below(below(4) ? 6 : 30), keys = 1 + (uint32_t)below(n + 3);
    history(n, any_heads(n), keys, 60, (unsigned)below(3) * 8, (int)below(2));
}

void medium_history(void) {
    phase = "history of a medium set";
    uint32_t n = (uint32_t)spread(30, 3000), keys = 1 + (uint32_t)below(n + 30);
    history(n, any_heads(n), keys, 3 * n > 3000 ? 3000 : 3 * n, n, (int)below(2));
}

void large_history(unsigned k) {
    static const uint32_t n[] = {65535, 65535, 65535, 65534, 32768}, heads[] = {65536, 16383, 1, 65535, 65536},
                          keys[] = {65535, 40000, 300, 70000, 32768}, steps[] = {60000, 30000, 20000, 60000, 40000};
    phase = "history of a large set";
    history(n[k], heads[k], keys[k], steps[k], steps[k] / 3, k % 2);
}
