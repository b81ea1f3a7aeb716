#include "log_areas.h"

#include <string.h>

#include "chance.h"
#include "log_model.h"
#include "model.h"

enum { CELL_WORDS = 56, LINE_WORDS = 8, PAYLOAD_LINES = 6 };

size_t any_cells(void) {
    return below(400) ? 2 + below(4) : below(10) ? spread(6, 100) : 1000 - below(2);
}

/* A position in each payload line and the bit that stands there; sometimes the other bit. */
static uint64_t any_pairs(const uint8_t *cell, unsigned wrong) {
    uint64_t pairs = below(8) ? 0 : below(16) << 60;
    for (size_t line = 0; line < PAYLOAD_LINES; line++) {
        uint64_t position = below(512);
        uint64_t bit = m_word(cell, (1 + line) * LINE_WORDS + position / 64) >> position % 64 & 1;
        pairs |= (position + 512 * (bit ^ (below(wrong) == 0))) << (10 * line);
    }
    return pairs;
}

static uint64_t any_length_word(void) {
    static const uint64_t edge[] = {0, 1, 384, 385, 1ull << 32, UINT64_MAX};
    return below(8) ? 1 + below(M_MESSAGE) : edge[below(6)];
}

static void any_cell(uint8_t *cell, uint64_t number) {
    uint64_t bit = below(2);
    if (below(2))
        fill(cell + 64, M_CELL - 64);
    m_set_word(cell, 0, below(8) ? bit : below(3));
    m_set_word(cell, 1, any_length_word());
    m_set_word(cell, 2, any_pairs(cell, below(2) ? 1000 : 12));
    for (size_t word = 3; word <= 6 && below(4) == 0; word++)
        m_set_word(cell, word, chance());
    m_set_word(cell, 7, number * 2 + bit);
}

void any_area(uint8_t *area, size_t cells) {
    static const uint64_t bases[] = {0, 1, 7, 1ull << 40};
    uint64_t base = below(3) ? bases[below(4)] : (1ull << 63) - cells - below(3);
    memset(area, 0, cells * M_CELL);
    for (size_t cell = 0; cell < cells; cell++) {
        uint64_t own = base + (cell + cells - base % cells) % cells; /* from base on, the first number of this cell */
        uint64_t number = below(6) ? own : base + below(cells + 2);
        if (below(10) == 0)
            fill(area + cell * M_CELL, M_CELL);
        else if (below(10))
            any_cell(area + cell * M_CELL, number & INT64_MAX);
    }
}

void damage_area(uint8_t *area, size_t cells) {
    size_t here = below(cells), there = below(cells);
    uint8_t *cell = area + here * M_CELL, *other = area + there * M_CELL;
    switch (below(9)) {
    case 0: m_set_word(cell, 0, below(2) ? below(4) : chance()); break;
    case 1: m_set_word(cell, 0, m_word(cell, 7) % 2); break;
    case 2: m_set_word(cell, 1, any_length_word()); break;
    case 3: m_set_word(cell, 2, m_word(cell, 2) ^ 1ull << below(64)); break;
    case 4: m_set_word(cell, 7, m_word(other, 7) + 2 * below(3)); break;
    case 5: m_set_word(cell, 7, m_word(cell, 7) ^ 1ull << below(64)); break;
    case 6: memmove(cell, other, M_CELL); break;
    case 7: memmove(cell, other, 64); break;
    default: cell[below(M_CELL)] ^= (uint8_t)(1u << below(8)); break;
    }
}

static size_t any_size(void) {
    static const size_t edge[] = {0, 1, 7, 8, 63, 64, 65, 128, 383, 384, 385};
    return below(3) ? 1 + below(M_MESSAGE) : below(8) ? edge[1 + below(9)] : edge[below(2) * 10];
}

/* What stands in the cell that the next message goes to, with a few changes or none. */
static void like_the_old_one(const uint8_t *area, size_t cells, uint8_t *message, size_t size) {
    const uint8_t *cell = area + (m_highest(area, cells) + 1) % cells * M_CELL;
    memcpy(message, cell + 64, size < M_MESSAGE ? size : M_MESSAGE);
    for (uint64_t changes = below(3); changes > 0 && size > 0; changes--)
        message[below(size)] ^= (uint8_t)(1u << below(8));
}

size_t any_message(const uint8_t *area, size_t cells, uint8_t message[LONGEST]) {
    size_t size = any_size();
    uint64_t kind = below(8);
    fill(message, LONGEST);
    if (kind < 3 && cells)
        like_the_old_one(area, cells, message, size);
    else if (kind == 3)
        memset(message, below(2) ? 0xff : 0, LONGEST);
    else if (kind == 4)
        for (size_t i = 0; i < size; i++)
            message[i] = below(40) ? 0 : (uint8_t)chance();
    return size;
}

uint64_t any_number(const uint8_t *area, size_t cells) {
    uint64_t highest = cells ? m_highest(area, cells) : below(9);
    return below(8) ? highest + 2 - below(cells + 4) : below(2) ? chance() >> below(64) : below(4);
}

uint64_t any_last(const uint8_t *area, size_t cells) {
    if (cells && below(2))
        return m_highest(area, cells);
    return below(4) ? any_number(area, cells) : INT64_MAX - 2 + below(5);
}

size_t any_area_length(size_t cells) {
    switch (below(40)) {
    case 0: return below(4 * M_CELL);
    case 1: return M_CELL * (below(2) ? below(2) : 1001 + below(2));
    case 2: return M_CELL * cells - 1 + 2 * below(2);
    default: return M_CELL * cells;
    }
}
