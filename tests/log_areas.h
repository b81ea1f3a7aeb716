/* log_areas.h: what the tests of the log lend: areas that no history has left, damaged ones, and messages. */
#ifndef LOG_AREAS_H
#define LOG_AREAS_H

#include <stddef.h>
#include <stdint.h>

enum { LONGEST = 400 }; /* bytes of a message that a test lends: more than a message may have */

/* The numbers of cells that the tests take: mostly 2 to 5, sometimes more, rarely 1,000. */
size_t any_cells(void);

/* An area cell by cell: zeros or random payloads, most marked lines whole and most bits matching; numbers in the cells
 * that they belong to and in others, near 1 or near 2^63. */
void any_area(uint8_t *area, size_t cells);

/* One fault: in a marked line, in a payload line, or a cell copied to another. */
void damage_area(uint8_t *area, size_t cells);

/* Any of the message's bytes that the area's cell would take, changed a little, or random bytes, zeros or ones. Its
 * size, mostly 1 to 384. cells may be 0: then the area is not looked at. */
size_t any_message(const uint8_t *area, size_t cells, uint8_t message[LONGEST]);

/* A number to be read: mostly near the highest complete one. */
uint64_t any_number(const uint8_t *area, size_t cells);

/* A number that append_after is lent: the highest complete one, one near it, or any. */
uint64_t any_last(const uint8_t *area, size_t cells);

/* A length of an area that is mostly that of so many cells. */
size_t any_area_length(size_t cells);

#endif
