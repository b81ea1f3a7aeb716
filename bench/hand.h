/* hand.h: (a), the same method written by hand in C: document 01's layout, index, refusals and recovery, with insert,
 * replace, the slots compared, void slots and the slots that may be taken as document 02 has them, for the speed that a
 * C programmer gets. */
#ifndef HAND_H
#define HAND_H

#include <stddef.h>
#include <stdint.h>

struct hand_set {
    uint64_t *image;
    size_t length;
    uint32_t *heads;
    size_t heads_length;
    uint32_t *next;
    size_t next_length;
    uint32_t first, last, live, newest;
    uint64_t version;
    uint32_t voids, open_at[8]; /* the stores that recovery hands out */
    uint64_t open_value[8];
};

struct hand_stores {
    uint32_t at[16];
    uint64_t value[16];
};

enum { HAND_ABSENT = 100 };
struct hand_answer {
    uint16_t code;     /* 0, HAND_ABSENT, or a refusal */
    uint16_t compared; /* slots of the key's chain: at most N, which is at most 65,535 */
    uint32_t slot;     /* insert, replace and remove: the slot taken; get: the length */
    uint64_t version;
};

uint32_t hand_format(uint64_t *image, size_t length);
uint64_t hand_recover(struct hand_set *set); /* 0, or the refusal + 2^32 * the slot that it names */
struct hand_answer hand_insert(struct hand_set *set, uint64_t key, const uint8_t *bytes, size_t size,
                               struct hand_stores *stores);
struct hand_answer hand_replace(struct hand_set *set, uint64_t key, const uint8_t *bytes, size_t size,
                                struct hand_stores *stores);
struct hand_answer hand_remove(struct hand_set *set, uint64_t key, struct hand_stores *stores);
/* For the owner of an index, that is, of one from recovery and the accepted calls since: the first slot of reuse is the
 * one to take, or none may be taken, so that no call looks through the image. */
struct hand_answer hand_own_insert(struct hand_set *set, uint64_t key, const uint8_t *bytes, size_t size,
                                   struct hand_stores *stores);
struct hand_answer hand_own_replace(struct hand_set *set, uint64_t key, const uint8_t *bytes, size_t size,
                                    struct hand_stores *stores);
struct hand_answer hand_own_remove(struct hand_set *set, uint64_t key, struct hand_stores *stores);
struct hand_answer hand_get(const struct hand_set *set, uint64_t key, uint8_t *out, size_t room);

#endif
