/* differential_plain.c: the plain map: a value, or none, for each key of a small universe. What the recovered set must
 * be, what the rules answer by the map alone, the totals of the book and the slots compared. */
#include "differential.h"

struct plain *open_plain(uint32_t keys) {
    struct plain *p = calloc(1, sizeof *p);
    p->keys = keys;
    p->key = calloc(keys, sizeof *p->key);
    p->bytes = calloc(keys, sizeof *p->bytes);
    p->size = malloc(keys * sizeof *p->size);
    const int one_low = LAYOUT == 2 && keys <= 4000 && below(2); /* in larger sets chains would be too long */
    for (uint32_t i = 0; i < keys; i++) {
        p->size[i] = -1;
        /* distinct: the low word mod keys is i; or of layout 2 the high word is, and many have one low word */
        const uint64_t word = keys < 100 && below(4) ? i : chance() % UINT64_MAX / keys * keys + i;
        p->key[i] = LAYOUT == 1 ? word : one_low ? key_of_words(below(3), word) : key_of_words(word, below(3));
    }
    return p;
}

void close_plain(struct plain *p) {
    free(p->key);
    free(p->bytes);
    free(p->size);
    free(p);
}

struct plain *copy_plain(const struct plain *p) {
    struct plain *q = open_plain(p->keys);
    memcpy(q->key, p->key, p->keys * sizeof *p->key);
    memcpy(q->bytes, p->bytes, p->keys * sizeof *p->bytes);
    memcpy(q->size, p->size, p->keys * sizeof *p->size);
    q->held = p->held;
    q->grown = p->grown;
    q->book_only = p->book_only;
    q->ordered = p->ordered;
    q->filled = p->filled;
    q->withdrawn = p->withdrawn;
    return q;
}

void plain_take(struct plain *p, const struct effect *e) {
    p->held += (uint32_t)(e->holds - (p->size[e->i] >= 0));
    p->size[e->i] = e->holds ? (int16_t)e->size : -1;
    if (e->holds)
        memcpy(p->bytes[e->i], e->bytes, e->size);
    p->ordered += e->ordered;
    p->filled += e->filled;
    p->withdrawn += e->withdrawn;
}

uint64_t open_of(const uint8_t *bytes, int size) {
    if (size != ORDERSET_ORDER_BYTES)
        return 0;
    uint64_t state = m_word(bytes, 0), ordered = m_word(bytes, 1), filled = m_word(bytes, 2);
    return (state == ORDERSET_SENT || state == ORDERSET_ACKNOWLEDGED) && filled < ordered ? ordered - filled : 0;
}

/* Total ordered is total filled plus total withdrawn plus what is open. */
static void same_totals(const struct plain *p, total open) {
    total missing = p->ordered - p->filled - p->withdrawn - open;
    if (missing)
        differ("in the totals: ordered less filled, withdrawn and open is %" PRIu64 " * 2^64 + %" PRIu64,
               (uint64_t)(missing >> 64), (uint64_t)missing);
}

/* The plain map's held keys by their heads: those of head h have the places first[h] up to first[h + 1] - 1. */
struct sharers {
    uint32_t *first;
    uint8_t *seen; /* place by place, whether a key was found with that count */
};

static struct sharers open_sharers(const struct plain *p, size_t heads) {
    struct sharers sharers = {calloc(heads + 1, sizeof *sharers.first), calloc(p->held + 1, 1)};
    for (uint32_t i = 0; i < p->keys; i++)
        sharers.first[m_head(p->key[i], heads) + 1] += p->size[i] >= 0;
    for (size_t h = 0; h < heads; h++)
        sharers.first[h + 1] += sharers.first[h];
    return sharers;
}

/* The count of the last get is the key's place in a chain of the keys with its head, and no other key has that place;
 * or their number, where the key is not held. */
static void same_place(const struct sharers *sharers, size_t head, int held) {
    const uint32_t first = sharers->first[head], sharing = sharers->first[head + 1] - first;
    if (!held)
        same_number("the slots compared, by the held keys of the head", compared, sharing);
    else if (compared == 0 || compared > sharing || sharers->seen[first + compared - 1]++)
        differ("in the place in a chain: %" PRIu64 " slots compared, %u keys share the head", compared, sharing);
}

void few_compared(const struct set *s, const struct plain *p, uint32_t i) {
    const uint64_t heads = s->model.heads_length, head = m_head(p->key[i], heads);
    uint64_t sharing = 0;
    if (p->keys > 4000)
        return;
    for (uint32_t k = 0; k < p->keys; k++)
        sharing += p->size[k] >= 0 && m_head(p->key[k], heads) == head;
    if (compared > sharing || (p->size[i] < 0 ? compared != sharing : compared == 0))
        differ("in the slots compared: %" PRIu64 ", %" PRIu64 " held keys share the head", compared, sharing);
}

void same_map(struct set *s, const struct plain *p) {
    uint8_t out[VALUE_MAX];
    total open = 0;
    struct sharers sharers = open_sharers(p, s->model.heads_length);
    same_number("the plain map's count", s->state[ORDERSET_RAW_LIVE], p->held);
    for (uint32_t i = 0; i < p->keys; i++) {
        unsigned got = try_get(s, p->key[i], out, sizeof out);
        same_place(&sharers, m_head(p->key[i], s->model.heads_length), p->size[i] >= 0);
        same_number("the plain map's answer", got, p->size[i] < 0 ? ABSENT : 200u + (unsigned)p->size[i]);
        if (p->size[i] > 0)
            same_bytes("the plain map's value", out, p->bytes[i], (size_t)p->size[i]);
        if (p->book_only && p->size[i] >= 0 && !open_of(out, p->size[i]))
            differ("in a book's history: key " KEY_FORM " holds no order", KEY_WORDS(p->key[i]));
        open += p->size[i] < 0 ? 0 : open_of(out, p->size[i]);
    }
    free(sharers.first);
    free(sharers.seen);
    if (p->book_only)
        same_totals(p, open);
}

static void order_later(struct effect *e, uint64_t state, uint64_t ordered, uint64_t filled) {
    e->holds = 1;
    e->size = ORDERSET_ORDER_BYTES;
    m_set_word(e->bytes, 0, state);
    m_set_word(e->bytes, 1, ordered);
    m_set_word(e->bytes, 2, filled);
}

/* The rules' answer for a step on an order of the plain map, before the set is asked, and what it does. */
static unsigned plain_step(const uint8_t *order, uint64_t open, const struct request *r, struct effect *e) {
    uint64_t state = m_word(order, 0), ordered = m_word(order, 1), filled = m_word(order, 2);
    if (r->which == ACKNOWLEDGE) {
        order_later(e, ORDERSET_ACKNOWLEDGED, ordered, filled);
        return state == ORDERSET_ACKNOWLEDGED ? ALREADY : DONE;
    }
    if (r->which == WITHDRAW) {
        e->withdrawn = open;
        return DONE;
    }
    e->filled = r->quantity;
    if (r->quantity < open)
        order_later(e, state, ordered, filled + r->quantity);
    return r->quantity == 0 || r->quantity > open ? ORDERSET_BAD_QUANTITY : DONE;
}

/* The rules' answer for an insert or a replace, before the set is asked for room. */
static unsigned plain_write(const struct request *r, int held) {
    if (r->size > VALUE_MAX)
        return ORDERSET_VALUE_TOO_LONG;
    if (r->which == INSERT)
        return held ? ORDERSET_KEY_EXISTS : DONE;
    return held ? DONE : ORDERSET_KEY_MISSING;
}

unsigned plain_answer(const struct set *s, const struct plain *p, const struct request *r, struct effect *e) {
    const int size = p->size[e->i];
    const uint64_t open = open_of(p->bytes[e->i], size);
    unsigned answer = DONE;
    if (r->which == INSERT || r->which == REPLACE) {
        e->holds = 1;
        e->size = r->size;
        answer = plain_write(r, size >= 0);
    } else if (r->which == REMOVE) {
        answer = size < 0 ? ABSENT : DONE;
    } else if (r->which == NEW) {
        order_later(e, ORDERSET_SENT, r->quantity, 0);
        e->ordered = r->quantity;
        answer = size >= 0 ? ORDERSET_NEW_KEY_EXISTS : r->quantity == 0 ? ORDERSET_BAD_QUANTITY : DONE;
    } else {
        answer = open == 0 ? ORDERSET_NO_ORDER : plain_step(p->bytes[e->i], open, r, e);
    }
    if (answer)
        return answer;
    if (e->holds && size < 0 && p->held + 1 >= s->n)
        return ORDERSET_FULL;
    return s->version[0] >> 63 ? ORDERSET_EXHAUSTED : DONE;
}
