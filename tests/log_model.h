/* log_model.h: the raw message log of document 02's A.10, written from its sentences for the tests. Plain and slow, and
 * nothing of the archive is used in it. */
#ifndef LOG_MODEL_H
#define LOG_MODEL_H

#include <stddef.h>
#include <stdint.h>

enum { M_CELL = 448, M_MESSAGE = 384, M_LOG_STORES = 56 };

/* What append and recovery answer: a refusal, or a number and the count of stores. */
struct m_handed {
    int refusal;
    uint64_t number;
    size_t count;
};

/* What read answers: a refusal, or the part of the area that holds the message. */
struct m_part {
    int refusal;
    size_t offset, length;
};

/* The two lists of stores that are lent: word numbers and values, each with its own length. */
struct m_lists {
    uint32_t *at;
    size_t places;
    uint64_t *value;
    size_t values;
};

size_t m_cells(size_t length); /* K, or 0 where no area has that length */

/* Of an area of K cells: */
int m_complete(const uint8_t *area, size_t cells, uint64_t number);
int m_shown(const uint8_t *area, size_t cells, uint64_t number);
uint64_t m_highest(const uint8_t *area, size_t cells); /* the highest complete number, 0 if none */

struct m_handed m_append(const uint8_t *area, size_t length, const uint8_t *message, size_t size, struct m_lists lists);
struct m_handed m_append_after(const uint8_t *area, size_t length, uint64_t last, const uint8_t *message, size_t size,
                               struct m_lists lists);
struct m_handed m_log_recover(const uint8_t *area, size_t length, struct m_lists lists);
struct m_part m_read(const uint8_t *area, size_t length, uint64_t number);

#endif
