#include "file_model.h"

#include <string.h>

#include "chance.h"

enum { SENT = ORDERSET_SENT, ACKNOWLEDGED = ORDERSET_ACKNOWLEDGED };

void make_plain(struct plain *p, uint32_t slots, uint32_t layout) {
    *p = (struct plain){.slots = slots, .layout = layout, .keys = 1 + (uint32_t)below(KEYS)};
    for (uint64_t i = 0; i < KEYS; i++) {
        const uint64_t word = below(2) ? i : chance() / KEYS * KEYS + i; /* distinct: word mod KEYS is i */
        p->key[i] = layout == 1 ? (struct orderset_key){word, 0} : (struct orderset_key){below(3), word};
    }
}

uint32_t count_held(const struct plain *p) {
    uint32_t count = 0;
    for (int i = 0; i < KEYS; i++)
        count += (uint32_t)p->value[i].held;
    return count;
}

/* ---- orders */

static uint64_t word_of(const struct value *v, size_t i) {
    uint64_t word;
    memcpy(&word, v->bytes + 8 * i, sizeof word);
    return word;
}

static struct value order_of(uint64_t state, uint64_t ordered, uint64_t filled) {
    struct value v = {.held = 1, .length = 24};
    memcpy(v.bytes, (const uint64_t[]){state, ordered, filled}, 24);
    return v;
}

static int is_order(const struct value *v) {
    return v->held && v->length == 24 && (word_of(v, 0) == SENT || word_of(v, 0) == ACKNOWLEDGED)
           && word_of(v, 2) < word_of(v, 1);
}

/* ---- calls */

static size_t value_max(const struct plain *p) {
    return p->layout == 1 ? 80 : 72;
}

static struct value any_value(const struct plain *p) {
    struct value v = {.held = 1};
    if (below(4) == 0)
        return order_of(1 + below(2), below(5), below(5));
    v.length = below(100) ? below(value_max(p) + 1) : value_max(p) + 1;
    fill(v.bytes, v.length);
    return v;
}

static void any_basket(const struct plain *p, struct call *c) {
    const uint64_t most = p->keys < ORDERSET_BASKET_MAX ? p->keys : ORDERSET_BASKET_MAX;
    c->count = below(100) ? 1 + below(most) : below(2) * (ORDERSET_BASKET_MAX + 1);
    uint64_t key = below(p->keys);
    for (size_t i = 0; i < c->count; i++, key += below(64) ? 1 : 0) {
        struct call_item *item = &c->item[i];
        item->key = (uint32_t)(key % p->keys);
        item->kind = p->value[item->key].held ? ORDERSET_REPLACE + (uint32_t)below(2) : ORDERSET_INSERT;
        if (below(64) == 0)
            item->kind = (uint32_t)below(5);
        item->value = any_value(p);
    }
}

void any_call(const struct plain *p, struct call *c) {
    memset(c, 0, sizeof *c);
    c->count = 1;
    c->quantity = below(8) ? below(4) : UINT64_MAX - below(2);
    c->item[0].key = (uint32_t)below(p->keys);
    c->item[0].value = any_value(p);
    const struct value *now = &p->value[c->item[0].key];
    c->kind = (enum call_kind)below(BASKET + 2);
    if (c->kind >= BASKET) {
        c->kind = BASKET;
        any_basket(p, c);
    } else if (below(8)) {
        static const enum call_kind on_order[] = {REPLACE, REMOVE, ACKNOWLEDGE, FILL, FILL, WITHDRAW};
        static const enum call_kind on_value[] = {REPLACE, REMOVE}, on_nothing[] = {INSERT, NEW};
        c->kind = is_order(now) ? on_order[below(6)] : now->held ? on_value[below(2)] : on_nothing[below(2)];
    }
}

static uint32_t carry_out_basket(struct orderset *set, const struct plain *p, const struct call *c) {
    struct orderset_item item[ORDERSET_BASKET_MAX + 1];
    for (size_t i = 0; i < c->count; i++)
        item[i] = (struct orderset_item){c->item[i].kind, p->key[c->item[i].key], c->item[i].value.bytes,
                                         c->item[i].value.length};
    return orderset_basket(set, item, c->count);
}

uint32_t carry_out(struct orderset *set, const struct plain *p, const struct call *c) {
    const struct value *v = &c->item[0].value;
    const struct orderset_key key = p->key[c->item[0].key];
    const void *bytes = v->length ? v->bytes : NULL;
    switch (c->kind) {
    case INSERT: return orderset_insert(set, key, bytes, v->length);
    case REPLACE: return orderset_replace(set, key, bytes, v->length);
    case REMOVE: return orderset_remove(set, key);
    case NEW: return orderset_book_new(set, key, c->quantity);
    case ACKNOWLEDGE: return orderset_book_acknowledge(set, key);
    case FILL: return orderset_book_fill(set, key, c->quantity);
    case WITHDRAW: return orderset_book_withdraw(set, key);
    default: return carry_out_basket(set, p, c);
    }
}

/* ---- what is due */

/* insert, replace or remove of a key; 28 is looked at later */
static uint32_t due_of_write(const struct plain *p, enum call_kind kind, const struct value *given, struct value *v) {
    if (kind != REMOVE && given->length > value_max(p))
        return 10;
    if (kind == INSERT ? v->held : !v->held)
        return kind == INSERT ? 20 : kind == REPLACE ? 21 : ORDERSET_NOT_FOUND;
    *v = *given;
    v->held = kind != REMOVE;
    return 0;
}

/* a step of the book */
static uint32_t due_of_step(enum call_kind kind, uint64_t quantity, struct value *v) {
    if (kind == NEW && v->held)
        return 17;
    if (kind != NEW && !is_order(v))
        return 18;
    const uint64_t state = word_of(v, 0), ordered = word_of(v, 1), filled = word_of(v, 2);
    if ((kind == NEW || kind == FILL) && (quantity == 0 || (kind == FILL && quantity > ordered - filled)))
        return 19;
    if (kind == ACKNOWLEDGE && state == ACKNOWLEDGED)
        return ORDERSET_ALREADY_ACKNOWLEDGED;
    if (kind == NEW)
        *v = order_of(SENT, quantity, 0);
    else if (kind == ACKNOWLEDGE)
        *v = order_of(ACKNOWLEDGED, ordered, filled);
    else if (kind == FILL && quantity < ordered - filled)
        *v = order_of(state, ordered, filled + quantity);
    else
        v->held = 0;
    return 0;
}

/* "Each is tested for all keys before the next": 26, 27, 10, then 20 and 21 */
static uint32_t due_of_basket(const struct plain *p, const struct call *c, struct plain *later) {
    static const enum call_kind kind_of[] = {[ORDERSET_INSERT] = INSERT, REPLACE, REMOVE};
    if (c->count == 0 || c->count > ORDERSET_BASKET_MAX)
        return 26;
    for (size_t i = 0; i < c->count; i++)
        if (c->item[i].kind < ORDERSET_INSERT || c->item[i].kind > ORDERSET_REMOVE)
            return 26;
    for (size_t i = 0; i < c->count; i++)
        for (size_t j = 0; j < i; j++)
            if (c->item[i].key == c->item[j].key)
                return 27;
    for (size_t i = 0; i < c->count; i++)
        if (c->item[i].kind != ORDERSET_REMOVE && c->item[i].value.length > value_max(p))
            return 10;
    for (size_t i = 0; i < c->count; i++) {
        const struct call_item *item = &c->item[i];
        uint32_t number = due_of_write(p, kind_of[item->kind], &item->value, &later->value[item->key]);
        if (number)
            return number == ORDERSET_NOT_FOUND ? 21 : number;
    }
    return 0;
}

uint32_t due(const struct plain *p, const struct call *c, struct plain *later) {
    const struct call_item *item = &c->item[0];
    uint32_t number;
    *later = *p;
    if (c->kind == BASKET)
        number = due_of_basket(p, c, later);
    else if (c->kind <= REMOVE)
        number = due_of_write(p, c->kind, &item->value, &later->value[item->key]);
    else
        number = due_of_step(c->kind, c->quantity, &later->value[item->key]);
    if (!number && count_held(later) >= p->slots)
        number = 28;
    if (number)
        *later = *p;
    return number;
}

int may_give(uint32_t due, uint32_t number, const struct call *c) {
    return number == due || (due == 0 && number == 28 && c->kind == BASKET);
}

/* ---- what a handle shows */

static int shows_key(struct orderset *set, struct orderset_key key, const struct value *v) {
    uint8_t bytes[ORDERSET_VALUE_MAX];
    size_t length;
    uint32_t slot;
    uint64_t version;
    const uint32_t got = orderset_get(set, key, bytes, sizeof bytes, &length),
                   located = orderset_locate(set, key, &slot, &version);
    if (!v->held)
        return got == ORDERSET_NOT_FOUND && located == ORDERSET_NOT_FOUND && length == 0 && slot == 0;
    return got == 0 && located == 0 && slot > 0 && version > 0 && length == v->length
           && memcmp(bytes, v->bytes, length) == 0;
}

static int same_key(struct orderset_key x, struct orderset_key y) {
    return x.low == y.low && x.high == y.high;
}

static int is_record_of(const struct orderset_record *r, const struct plain *p) {
    for (int i = 0; i < KEYS; i++)
        if (same_key(p->key[i], r->key) && p->value[i].held)
            return r->length == p->value[i].length && memcmp(r->value, p->value[i].bytes, r->length) == 0
                   && r->slot_class == ORDERSET_SLOT_LIVE && r->fault == 0;
    return 0;
}

/* Rising slots, so no order comes twice; as many as are held. */
static int iterates(struct orderset *set, const struct plain *p) {
    struct orderset_record r = {0};
    uint32_t count = 0, number, before = 0;
    while ((number = orderset_next(set, &r)) == 0) {
        if (r.slot <= before || r.slot > p->slots || !is_record_of(&r, p))
            return 0;
        before = r.slot;
        count++;
    }
    return number == ORDERSET_END && r.slot == 0 && count == count_held(p);
}

int shows(struct orderset *set, const struct plain *p) {
    struct orderset_statistics s;
    uint64_t all = 0;
    for (int i = 0; i < KEYS; i++)
        if (!shows_key(set, p->key[i], &p->value[i]))
            return 0;
    orderset_stat(set, &s);
    for (size_t i = 0; i < ORDERSET_COUNTS; i++)
        all += s.count[i];
    return orderset_count(set) == count_held(p) && orderset_room(set) == p->slots - 1 - count_held(p)
           && orderset_layout(set) == p->layout && iterates(set, p) && s.live == count_held(p)
           && s.count[ORDERSET_SLOT_LIVE] == s.live && all == p->slots && s.slots == p->slots
           && s.spare == s.slots - s.live && s.layout == p->layout;
}
