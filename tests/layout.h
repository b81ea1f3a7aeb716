/* layout.h: the layout that a test is built for, 1 unless LAYOUT says 2. The keys and the archive's calls of that
 * layout, under one name each. */
#ifndef LAYOUT_H
#define LAYOUT_H

#include <stdint.h>

#include "orderset_raw.h"

#ifndef LAYOUT
#define LAYOUT 1
#endif

/* SET(get) is the call, KEY(k) the key's words as its arguments, BASKET_KEYS(lows, highs) those of a basket's keys. */
#if LAYOUT == 1
typedef uint64_t m_key;
enum { VALUE_MAX = ORDERSET_VALUE_MAX };
#define SET(call) orderset_proved_##call
#define KEY(k) (k)
#define BASKET_KEYS(lows, highs) (lows)
#else
__extension__ typedef unsigned __int128 m_key;
enum { VALUE_MAX = ORDERSET_VALUE_MAX_2 };
#define SET(call) orderset2_proved_##call
#define KEY(k) (uint64_t)(k), (uint64_t)((k) >> 64)
#define BASKET_KEYS(lows, highs) (lows), (highs)
#endif

/* The call of either family: the one for the owner of its index, or the one of document 01. */
#define SET_BY(own, call) ((own) ? SET(own_##call) : SET(call))

/* Where the kind word and the value's first word stand in a slot, and how many of the value's bytes are in line A.
 * Document 02, A.11: "Layout 2 has the key in words 1 and 2 of line A, the kind word in word 3, and a value .. from
 * word 4 on". */
enum { KIND_WORD = LAYOUT + 1, VALUE_WORD = LAYOUT + 2, FRONT = 8 * (7 - VALUE_WORD) };

/* the two words of a key: of layout 1 the high one is 0 */
static inline uint64_t low_word(m_key key) {
    return (uint64_t)key;
}

static inline uint64_t high_word(m_key key) {
    return LAYOUT == 1 ? 0 : (uint64_t)(key >> (LAYOUT == 1 ? 0 : 64));
}

static inline m_key key_of_words(uint64_t low, uint64_t high) {
    return LAYOUT == 1 ? (m_key)low : (m_key)high << (LAYOUT == 1 ? 0 : 64) | low;
}

/* printf's form of a key, and its arguments: the high word and the low one, in hexadecimal digits */
#define KEY_FORM "%" PRIx64 ":%016" PRIx64
#define KEY_WORDS(k) high_word(k), low_word(k)

#endif
