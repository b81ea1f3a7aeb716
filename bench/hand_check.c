/* The functions of orderset_raw.h by (a), so that the differential test shows that (a) is the same method. */
#include "hand_check.h"

#include <string.h>

#include "hand.h"
#include "model.h"
#include "orderset_raw.h"

static struct hand_set lend(const uint8_t *image, size_t length, const uint32_t *heads, size_t heads_length,
                            const uint32_t *next, size_t next_length) {
    return (struct hand_set){(uint64_t *)image,
                             length,
                             (uint32_t *)heads,
                             heads_length,
                             (uint32_t *)next,
                             next_length,
                             0,
                             0,
                             0,
                             0,
                             0,
                             0,
                             {0},
                             {0}};
}

static void read_state(struct hand_set *s, const uint32_t *state, const uint64_t *version) {
    s->first = state[ORDERSET_RAW_FIRST];
    s->last = state[ORDERSET_RAW_LAST];
    s->live = state[ORDERSET_RAW_LIVE];
    s->newest = state[ORDERSET_RAW_NEWEST];
    s->version = version[0];
}

static void write_state(const struct hand_set *s, uint32_t *state, uint64_t *version) {
    state[ORDERSET_RAW_FIRST] = s->first;
    state[ORDERSET_RAW_LAST] = s->last;
    state[ORDERSET_RAW_LIVE] = s->live;
    state[ORDERSET_RAW_NEWEST] = s->newest;
    version[0] = s->version;
}

static uint64_t refused(struct hand_answer a) {
    return a.code | (uint64_t)a.compared << 32;
}

static uint64_t answer_change(struct hand_answer a, const struct hand_stores *stores, uint32_t *at, uint64_t *value,
                              uint64_t *answer) {
    if (a.code && a.code != HAND_ABSENT)
        return refused(a);
    answer[0] = a.code == 0;
    answer[ORDERSET_PROVED_SLOT] = a.slot;
    answer[ORDERSET_PROVED_VERSION] = a.version;
    answer[ORDERSET_PROVED_COMPARED] = a.compared;
    if (!a.code) {
        memcpy(at, stores->at, sizeof stores->at);
        memcpy(value, stores->value, sizeof stores->value);
    }
    return 0;
}

/* (a) knows layout 1 alone: the other numbers are tested here, and layout 2's is set into its header. */
uint32_t orderset_proved_format(uint8_t *image, size_t length, uint64_t layout, uint64_t *answer) {
    if (m_slots(length) && layout != 1 && layout != 2)
        return ORDERSET_BAD_LAYOUT;
    uint32_t code = hand_format((uint64_t *)image, length);
    if (!code) {
        m_set_word(image, 1, layout);
        answer[0] = ORDERSET_RAW_DONE;
        answer[ORDERSET_PROVED_SLOTS] = length / 128 - 1;
    }
    return code;
}

uint64_t orderset_proved_recover(const uint8_t *image, size_t length, uint32_t *heads, size_t heads_length,
                                 uint32_t *next, size_t next_length, uint32_t *state, uint64_t *version,
                                 uint32_t *count, uint32_t *at, uint64_t *value) {
    struct hand_set s = lend(image, length, heads, heads_length, next, next_length);
    uint64_t code = hand_recover(&s);
    if (code)
        return code;
    write_state(&s, state, version);
    count[0] = s.voids;
    memcpy(at, s.open_at, sizeof s.open_at);
    memcpy(value, s.open_value, sizeof s.open_value);
    return 0;
}

uint64_t orderset_proved_insert(const uint8_t *image, size_t length, uint32_t *heads, size_t heads_length,
                                uint32_t *next, size_t next_length, uint32_t *state, uint64_t *version, uint64_t key,
                                const uint8_t *bytes, size_t size, uint32_t *at, uint64_t *value, uint64_t *answer) {
    struct hand_set s = lend(image, length, heads, heads_length, next, next_length);
    struct hand_stores stores;
    read_state(&s, state, version);
    struct hand_answer a = hand_insert(&s, key, bytes, size, &stores);
    write_state(&s, state, version);
    return answer_change(a, &stores, at, value, answer);
}

uint64_t orderset_proved_replace(const uint8_t *image, size_t length, uint32_t *heads, size_t heads_length,
                                 uint32_t *next, size_t next_length, uint32_t *state, uint64_t *version, uint64_t key,
                                 const uint8_t *bytes, size_t size, uint32_t *at, uint64_t *value, uint64_t *answer) {
    struct hand_set s = lend(image, length, heads, heads_length, next, next_length);
    struct hand_stores stores;
    read_state(&s, state, version);
    struct hand_answer a = hand_replace(&s, key, bytes, size, &stores);
    write_state(&s, state, version);
    return answer_change(a, &stores, at, value, answer);
}

uint64_t orderset_proved_remove(const uint8_t *image, size_t length, uint32_t *heads, size_t heads_length,
                                uint32_t *next, size_t next_length, uint32_t *state, uint64_t *version, uint64_t key,
                                uint32_t *at, uint64_t *value, uint64_t *answer) {
    struct hand_set s = lend(image, length, heads, heads_length, next, next_length);
    struct hand_stores stores;
    read_state(&s, state, version);
    struct hand_answer a = hand_remove(&s, key, &stores);
    write_state(&s, state, version);
    return answer_change(a, &stores, at, value, answer);
}

uint64_t orderset_proved_get(const uint8_t *image, size_t length, const uint32_t *heads, size_t heads_length,
                             const uint32_t *next, size_t next_length, uint64_t key, uint8_t *out, size_t room,
                             uint64_t *answer) {
    struct hand_set s = lend(image, length, heads, heads_length, next, next_length);
    struct hand_answer a = hand_get(&s, key, out, room);
    if (a.code && a.code != HAND_ABSENT)
        return refused(a);
    answer[0] = a.code == 0;
    answer[ORDERSET_PROVED_LENGTH] = a.slot;
    answer[ORDERSET_PROVED_GET_COMPARED] = a.compared;
    return 0;
}
