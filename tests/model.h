/* model.h: the order set of document 01 as document 02 changes it, and its order book, written from their sentences for
 * the tests, in the layout that they are built for (layout.h). Plain and slow, and no call of the archive is used in
 * it. */
#ifndef MODEL_H
#define MODEL_H

#include <stddef.h>
#include <stdint.h>

#include "layout.h"

struct m_state {
    uint32_t first, last, live, newest; /* newest: a slot of the highest version among the valid ones */
    uint64_t version;
};

struct m_index {
    uint32_t *heads;
    size_t heads_length;
    uint32_t *next;
    size_t next_length;
    struct m_state state;
};

struct m_store {
    uint32_t at;
    uint64_t value;
};

/* What insert, replace, remove and the book's steps answer: a refusal, or absent, or slot, version and stores; of an
 * order that was acknowledged already no stores. With each of them the slots compared, which the book's steps do not
 * report. */
struct m_change {
    int refusal;
    int absent;
    int already;
    int free; /* the slot is not the reuse chain's first: the index is not the image's own, and all but the refusal is
                 free */
    uint32_t slot;
    uint64_t version;
    struct m_store store[16];
    uint32_t compared;
};

/* One of a basket's keys: kind 1 insert, 2 replace, 3 remove; a remove has no value. */
struct m_item {
    uint32_t kind;
    m_key key;
    const uint8_t *bytes;
    size_t size;
};

/* What a basket answers: a refusal, or its version, slots and stores, sixteen for each key; and where the slots stood.
 */
struct m_basket {
    int refusal;
    uint64_t version;
    uint32_t slot[8], before[8]; /* before: the slot before it in the reuse chain that stays there, 0 for none */
    struct m_store store[128];
};

struct m_got {
    int refusal;
    int absent;
    size_t length;
    uint32_t compared;
};

struct m_place {
    int refusal;
    int absent;
    uint32_t slot;
    uint64_t version; /* of its line A */
    uint32_t compared;
};

/* A refusal of recovery and the slot that it names, 0 for none; refusal 0: accepted, with the stores that open void
 * slots. */
struct m_recovered {
    int refusal;
    uint32_t slot;
    uint32_t count;
    struct m_store opening[8];
};

uint32_t m_slots(size_t length); /* N, or 0 where no image has that length */
int m_format(uint8_t *image, size_t length, uint64_t layout);
struct m_recovered m_recover(const uint8_t *image, size_t length, struct m_index *index);
/* Of an image that recovery accepted: live slots, hidden puts, remove records, void, broken and empty slots. */
void m_count(const uint8_t *image, size_t length, const struct m_recovered *recovered, uint64_t count[6]);
/* own: the call is the one for the owner of its index, which is no call of document 01. Of an index that is the image's
 * own it is the same call; of another it goes by the definitions of the crates taking and calls (ownTaking), with all
 * that it answers, hands out and leaves. */
struct m_change m_insert(int own, const uint8_t *image, size_t length, struct m_index *index, m_key key,
                         const uint8_t *bytes, size_t size);
struct m_change m_replace(int own, const uint8_t *image, size_t length, struct m_index *index, m_key key,
                          const uint8_t *bytes, size_t size);
struct m_change m_remove(int own, const uint8_t *image, size_t length, struct m_index *index, m_key key);
struct m_got m_get(const uint8_t *image, size_t length, const struct m_index *index, m_key key, uint8_t *out,
                   size_t room);
struct m_place m_locate(const uint8_t *image, size_t length, const struct m_index *index, m_key key);
struct m_change m_new(int own, const uint8_t *image, size_t length, struct m_index *index, m_key key,
                      uint64_t quantity);
struct m_change m_acknowledge(int own, const uint8_t *image, size_t length, struct m_index *index, m_key key);
struct m_change m_fill(int own, const uint8_t *image, size_t length, struct m_index *index, m_key key,
                       uint64_t quantity);
struct m_change m_withdraw(int own, const uint8_t *image, size_t length, struct m_index *index, m_key key);

/* what is asked of a line of 64 bytes, and answered in 8; version: of M_FIRST and M_LAST */
enum m_query { M_WHOLE, M_VERSION, M_FIRST, M_LAST };
int m_line(enum m_query query, const uint8_t *line, size_t length, uint64_t version, uint8_t *answer, size_t room);

int m_play(uint8_t *image, size_t length, const uint32_t at[16], const uint64_t value[16], size_t a, size_t b);
int m_play_list(uint8_t *bytes, size_t length, const uint32_t *at, size_t places, const uint64_t *value, size_t values);

/* May a call of document 01 take the slot? */
int m_may_take(const uint8_t *image, uint32_t n, uint32_t slot);

/* A basket of the first `count` of eight items; places and values: the lengths of the two lists that it is lent. The
 * index stays as it is. */
struct m_basket m_basket(int own, const uint8_t *image, size_t length, const struct m_index *index,
                         const struct m_item item[8], size_t count, size_t places, size_t values);

/* Its stores, by its version and slots. */
void m_basket_stores(const uint8_t *image, const struct m_item item[8], size_t count, struct m_basket *basket);

/* Its changes of the index, where it is not refused: of an index that is the image's own, and of any index where it is
 * the owner's call. */
void m_basket_index(const uint8_t *image, size_t length, struct m_index *index, const struct m_item item[8],
                    uint32_t count, const struct m_basket *basket);

/* "the key in words 1 and 2 of line A"; its head is "word 1 mod B" */
m_key m_key_in(const uint8_t *image, uint32_t slot);
size_t m_head(m_key key, size_t heads);

uint64_t m_word(const uint8_t *image, size_t i);
void m_set_word(uint8_t *image, size_t i, uint64_t value);

#endif
