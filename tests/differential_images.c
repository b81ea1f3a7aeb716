/* differential_images.c: calls on whatever stands there: images, sound and damaged, garbage indexes, lengths that no
 * image has. */
#include "differential.h"

/* A key of the image, or near one. */
static m_key key_near(const struct set *s, uint64_t keys) {
    return below(4) ? any_key(keys)
           : s->n   ? m_key_in(s->model_image, 1 + (uint32_t)below(s->n))
                    : m_word(s->model_image, 0);
}

/* What is asked of a key, mostly what it asks for by the image and the index; seldom a kind that there is not. */
static uint32_t kind_near(const struct set *s, m_key key) {
    struct m_place place = m_locate(s->model_image, s->length, &s->model, key);
    if (below(100) == 0)
        return below(2) ? (uint32_t)below(5) : (uint32_t)chance();
    return any_kind(!place.refusal && !place.absent);
}

/* Mostly a basket that is not refused for what is given, with an index that is the image's own. */
static struct basket basket_near(const struct set *s, uint64_t keys, const uint8_t *bytes) {
    struct basket b = {.count = below(40) ? 1 + below(below(2) ? 2 : 8) : below(2) ? below(11) : (size_t)chance()};
    const size_t few = b.count <= ORDERSET_BASKET_MAX ? b.count : ORDERSET_BASKET_MAX;
    for (size_t i = 0; i < ORDERSET_BASKET_MAX; i++) {
        const m_key key = key_near(s, keys);
        b.item[i] = (struct m_item){i < few ? kind_near(s, key) : (uint32_t)chance(), key, bytes,
                                    below(20) ? below(VALUE_MAX + 1) : any_size()};
    }
    b.places = any_places(few);
    b.values = any_places(few);
    return b;
}

/* All stores of a basket, or some, or none. */
static void play_basket(struct set *s, size_t count) {
    const uint64_t most = below(8);
    int whole = most > 1;
    for (size_t i = 0; i < count && most > 0; i++) {
        const size_t a = most > 1 ? 8 : below(9), b = most > 1 ? 8 : below(9);
        stores_of_item(s, i);
        whole &= !try_play(s, a, b);
    }
    s->own &= whole;
}

/* The state names any slot as the newest, or none. */
static void name_any(struct set *s) {
    s->model.state.newest = below(4) ? (uint32_t)below(s->n + 2ul) : (uint32_t)chance();
    s->state[ORDERSET_RAW_NEWEST] = s->model.state.newest;
    s->named = 0;
}

/* Calls on whatever stands there, with whatever index. */
static void any_calls(struct set *s, uint64_t keys, unsigned count) {
    static const enum which any[] = {GET,     GET,    GET,    LOCATE, INSERT,      INSERT, REPLACE,  BASKET,
                                     REPLACE, REMOVE, REMOVE, NEW,    ACKNOWLEDGE, FILL,   WITHDRAW, BASKET};
    uint8_t bytes[128], out[96];
    for (unsigned k = 0; k < count; k++) {
        const m_key key = key_near(s, keys);
        if (below(6) == 0)
            name_any(s);
        struct request r = {any[below(sizeof any / sizeof *any)], key, any_quantity(), bytes, any_size()};
        fill(bytes, sizeof bytes);
        fill(out, sizeof out);
        if (r.which == GET)
            try_get(s, key, out, below(sizeof out + 1));
        else if (r.which == LOCATE)
            try_locate(s, key);
        else if (r.which == BASKET) {
            const struct basket b = basket_near(s, keys, bytes);
            if (try_basket(s, &b) == DONE)
                play_basket(s, b.count);
        } else if (try_change(s, &r) == DONE)
            play_some(s);
    }
}

void images(void) {
    phase = "images, accepted and damaged";
    uint32_t n = (uint32_t)(below(400) ? 2 + below(12) : spread(2, 65535)),
             faults = (uint32_t)(below(2) * (1 + below(3)));
    uint64_t keys = 1 + below(2 * n);
    struct set *s = open_set(ORDERSET_IMAGE_BYTES(n), any_heads(n), ORDERSET_NEXT_LENGTH(n));
    any_image(s->model_image, n, keys);
    while (faults--)
        damage(s->model_image, n);
    lend_garbage(s);
    if (!try_recover(s) && below(8))
        open_voids(s, below(8) ? UINT_MAX : (unsigned)below(256));
    any_calls(s, keys, 8);
    if (s->own)
        same_number("recovery after the calls", (uint64_t)try_recover(s), 0);
    close_set(s);
}

void damaged(void) {
    phase = "damaged images";
    uint32_t n = 2 + (uint32_t)below(below(20) ? 12 : 200), faults = 1 + (uint32_t)below(6);
    struct set *s = open_set(ORDERSET_IMAGE_BYTES(n), any_heads(n), ORDERSET_NEXT_LENGTH(n));
    any_image(s->model_image, n, 1 + below(2 * n));
    while (faults--)
        damage(s->model_image, n);
    lend_garbage(s);
    try_recover(s);
    close_set(s);
}

void garbage(void) {
    phase = "garbage indexes";
    uint32_t n = (uint32_t)(below(400) ? 2 + below(12) : spread(2, 2000));
    uint64_t keys = 1 + below(2 * n);
    struct set *s = open_set(ORDERSET_IMAGE_BYTES(n), any_heads(n), ORDERSET_NEXT_LENGTH(n));
    any_image(s->model_image, n, keys);
    if (below(4) == 0)
        damage(s->model_image, n);
    lend_garbage(s);
    any_calls(s, keys, 10);
    close_set(s);
}

void lengths(void) {
    phase = "lengths and stores";
    size_t length = below(3) ? 128 * below(8) : below(700), heads = below(8) ? below(5) : 65535 + below(3),
           next = length / 128 + (below(4) ? 0 : below(3));
    struct set *s = open_set(length, heads, next);
    uint32_t at[20];
    uint64_t value[20];
    lend_garbage(s);
    if (below(2) && s->n)
        m_format(s->model_image, length, below(8) ? LAYOUT : 1 + below(2)), lend_same(s);
    try_recover(s);
    if (length >= 8)
        any_calls(s, 8, 3);
    for (int i = 0; i < 16; i++) {
        s->at[i] = (uint32_t)(i < 8 ? 16 : 24) + (uint32_t)i % 8;
        s->value[i] = chance();
    }
    for (uint64_t k = below(3); k > 0; k--)
        s->at[below(16)] = below(2) ? (uint32_t)below(80) : (uint32_t)chance();
    if (below(4) == 0)
        for (int i = 0; i < 16; i++)
            s->at[i] = (uint32_t)(i < 8 ? below(2) * 8 : 8) + (uint32_t)i % 8;
    try_play(s, below(10), below(10));
    size_t places = below(20), values = below(4) ? places : below(20);
    for (size_t i = 0; i < 20; i++) {
        at[i] = below(40) ? (uint32_t)below(length / 8 + 1) : (uint32_t)chance();
        value[i] = chance();
    }
    try_play_list(s, at, places, value, values);
    try_format(s, below(4) ? 1 + below(2) : below(2) ? below(5) : chance());
    close_set(s);
}
