#include "images.h"

#include <stdlib.h>
#include <string.h>

#include "chance.h"

void set_record(uint8_t *image, uint32_t slot, unsigned kind, m_key key, uint64_t version, size_t size) {
    uint64_t bit = below(2), bit2 = below(2);
    uint8_t *record = image + 128 * (size_t)slot;
    memset(record, 0, 128);
    for (size_t i = 0; i < size; i++)
        record[i < FRONT ? 8 * VALUE_WORD + i : 8 * 9 + i - FRONT] = (uint8_t)chance();
    m_set_word(record, 0, bit);
    m_set_word(record, 1, low_word(key));
    m_set_word(record, 2, high_word(key));
    m_set_word(record, KIND_WORD, kind + 256 * (uint64_t)size);
    m_set_word(record, 7, version * 2 + bit);
    m_set_word(record, 8, bit2);
    m_set_word(record, 15, version * 2 + bit2);
}

void order_bytes(uint8_t bytes[24]) {
    uint64_t state = 1 + below(2), ordered = any_quantity(), filled = ordered ? below(ordered) : 0;
    if (below(8) == 0)
        switch (below(3)) {
        case 0: state = below(2) ? 3 * below(2) : state + (1ull << (2 + below(62))); break;
        case 1: filled = ordered; break;
        default: filled = chance(); break;
        }
    m_set_word(bytes, 0, state);
    m_set_word(bytes, 1, ordered);
    m_set_word(bytes, 2, filled);
}

void set_number(uint8_t *image, uint32_t slot, unsigned number) {
    image[128 * (size_t)slot + 8 * KIND_WORD + 2] = (uint8_t)number;
}

m_key any_key(uint64_t keys) {
    const uint64_t word = below(keys) * (below(2) ? 1 : 65536);
    return LAYOUT == 1 ? word : key_of_words(below(2) ? word : word % 3, below(2) ? word : word % 3);
}

/* The numbers 1 to n in any order, at places 1 to n. */
static uint32_t *any_order(uint32_t n) {
    uint32_t *rank = malloc(4 * (n + 1ul));
    if (!rank)
        abort();
    for (uint32_t i = 1; i <= n; i++) {
        uint32_t j = 1 + (uint32_t)below(i);
        rank[i] = rank[j];
        rank[j] = i;
    }
    return rank;
}

/* The slot with the highest version among those that are not in a basket, 0 if there is none. */
static uint32_t newest_single(const uint8_t *image, uint32_t n, const uint8_t *in_basket) {
    uint32_t newest = 0;
    uint64_t highest = 0;
    for (uint32_t i = 1; i <= n; i++) {
        uint64_t stamp = m_word(image, 16 * (size_t)i + 7);
        if (!in_basket[i] && stamp / 2 > highest)
            highest = stamp / 2, newest = i;
    }
    return newest;
}

/* A basket in some slots, whole or with records missing, with the version of one of them: mostly the highest that no
 * basket has. Mostly its keys differ. */
static void add_basket(uint8_t *image, uint32_t n, uint64_t keys, uint8_t *in_basket) {
    uint32_t number = 2 + (uint32_t)below(7), count = below(2) ? number : 1 + (uint32_t)below(number),
             slot = below(4) ? newest_single(image, n, in_basket) : 1 + (uint32_t)below(n);
    m_key key = any_key(keys);
    uint64_t version = m_word(image, 16 * (size_t)slot + 7) / 2;
    for (uint32_t tries = 0; slot && version && count > 0 && tries < 40; tries++) {
        if (!in_basket[slot]) {
            set_record(image, slot, below(3) ? 1 : 2, key, version, 0);
            if (image[128 * (size_t)slot + 8 * KIND_WORD] == 1)
                set_record(image, slot, 1, key, version, below(VALUE_MAX + 1));
            set_number(image, slot, number);
            in_basket[slot] = 1;
            key += (m_key)(below(40) > 0) << (LAYOUT == 1 ? 0 : 64 * below(2));
            count--;
        }
        slot = 1 + (uint32_t)below(n);
    }
}

void any_image(uint8_t *image, uint32_t n, uint64_t keys) {
    uint64_t gap = below(2) ? 1 : 1 + below((1ull << 62) / (n + 1)), spares = below(4);
    uint32_t breaks = below(8) ? (uint32_t)below(9) : n; /* how many slots may be broken: mostly as a cut leaves them */
    uint64_t base = below(4) ? gap * below(3) : (1ull << 63) - 1 - gap * n - below(3);
    uint32_t *rank = any_order(n);
    m_format(image, 128 * (n + 1ul), LAYOUT);
    for (uint32_t i = 1; i <= n; i++) {
        uint8_t *slot = image + 128 * (size_t)i;
        const m_key key = any_key(keys);
        uint64_t kind = below(8);
        if (kind == 7 && spares == 1 && breaks)
            breaks--, fill(slot, 128), m_set_word(slot, 0, below(2)), m_set_word(slot, 8, below(2)),
                m_set_word(slot, 7, 2 * chance() + !m_word(slot, 0));
        else if (kind == 6 && spares >= 1)
            memset(slot, 0, 128), m_set_word(slot, 1, chance());
        else
            set_record(image, i, kind < 4 || spares == 3 ? 1 : 2, key, base + gap * rank[i], 0);
        if (kind < 4 || (kind < 6 && spares == 3))
            set_record(image, i, 1, key, base + gap * rank[i], below(VALUE_MAX + 1));
        if (kind < 4 && below(2))
            set_record(image, i, 1, key, base + gap * rank[i], 24), order_bytes(slot + 8 * VALUE_WORD);
        if (kind == 5 && spares >= 2 && breaks && below(2))
            breaks--, m_set_word(slot, below(2) ? 7 : 15, 2 * below(gap * n) + below(2));
    }
    free(rank);
    uint8_t *in_basket = calloc(n + 1ul, 1);
    if (!in_basket)
        abort();
    for (uint64_t k = below(2) * below(4); k > 0; k--)
        add_basket(image, n, keys, in_basket);
    free(in_basket);
}

void damage(uint8_t *image, uint32_t n) {
    uint32_t i = 1 + (uint32_t)below(n), j = 1 + (uint32_t)below(n);
    uint8_t *slot = image + 128 * (size_t)i, *other = image + 128 * (size_t)j;
    switch (below(12)) {
    case 0: m_set_word(image, below(8), below(3)); break;
    case 1: m_set_word(slot, below(2) * 8, below(2) ? 2 : chance()); break;
    case 2: m_set_word(slot, KIND_WORD, below(4) + 256 * below(84) + (below(4) ? 0 : 1ull << (16 + below(48)))); break;
    case 3: slot[8 * KIND_WORD + 1] = (uint8_t)below(256); break;
    case 4: slot[below(2) ? 8 * VALUE_WORD + below(FRONT) : 72 + below(48)] ^= (uint8_t)(1u << below(8)); break;
    case 5: memcpy(slot, other, 128); break;
    case 6: m_set_word(slot, below(2) ? 7 : 15, m_word(other, 7)); break;
    case 7: m_set_word(slot, below(2) * 8, !m_word(slot, 0)); break;
    case 8: image[below(128 * (n + 1ul))] ^= (uint8_t)(1u << below(8)); break;
    case 9:
        memcpy(slot + 56, other + 56, 8), memcpy(slot + 120, other + 120, 8), memcpy(slot, other, 8),
            memcpy(slot + 64, other + 64, 8);
        break;
    case 10: set_number(image, i, (unsigned)below(below(2) ? 10 : 256)); break;
    case 11: set_number(image, i, other[8 * KIND_WORD + 2]); break;
    }
}

/* a slot, or a number just above n, or any number; one in `rare` is not a slot, none where rare is 0 */
static uint32_t any_link(uint32_t n, uint32_t rare) {
    if (rare == 0 || below(rare))
        return (uint32_t)below(n + 1ull);
    return below(2) ? n + (uint32_t)below(3) : (uint32_t)chance();
}

void garbage_index(struct m_index *index, uint32_t n) {
    static const uint64_t versions[] = {0, 1, 2, 1u << 20, (1ull << 63) - 2, (1ull << 63) - 1, 1ull << 63, UINT64_MAX};
    uint32_t slots = n ? n : 3, rare = below(4) ? 6 : 0;
    for (size_t i = 0; i < index->heads_length; i++)
        index->heads[i] = any_link(slots, rare);
    for (size_t i = 0; i < index->next_length; i++)
        index->next[i] = any_link(slots, rare);
    index->state.first = any_link(slots, 8);
    index->state.last = any_link(slots, 8);
    index->state.live = any_link(slots, 8);
    index->state.newest = any_link(slots, 8);
    index->state.version = below(2) ? 1 + below(1000) : versions[below(sizeof versions / sizeof *versions)];
}

uint32_t any_heads(uint32_t n) {
    return (uint32_t)(below(3) ? spread(1, n < 40 ? 2 * n : 65536) : 1 + below(n));
}

size_t any_size(void) {
    return below(20) ? below(VALUE_MAX + 1) : VALUE_MAX + below(4);
}

uint64_t any_quantity(void) {
    return below(4) ? below(6) : below(2) ? chance() : UINT64_MAX - below(3);
}
