/* images.h: what the tests lend: images that are usually accepted, damaged ones, and index numbers that are no image's
 * own. */
#ifndef IMAGES_H
#define IMAGES_H

#include "model.h"

/* A valid record of that kind (1 put, 2 remove) with random bytes. */
void set_record(uint8_t *image, uint32_t slot, unsigned kind, m_key key, uint64_t version, size_t size);

/* The record's number, in bits 16 to 23 of its kind word: of how many the basket is. */
void set_number(uint8_t *image, uint32_t slot, unsigned number);

/* The 24 bytes of an order of the book, mostly a small one; sometimes of something near an order. */
void order_bytes(uint8_t bytes[24]);

/* An image slot by slot: put and remove records of a few keys with distinct versions, half of the puts orders of the
 * book, empty slots, up to eight slots that a cut broke, and baskets, whole and with records missing. Usually accepted;
 * sometimes more than eight slots are broken or void. */
void any_image(uint8_t *image, uint32_t n, uint64_t keys);

/* One fault, of any kind that the rules name, or a word of garbage. */
void damage(uint8_t *image, uint32_t n);

/* A key of any_image; of layout 2 many share their low word. */
m_key any_key(uint64_t keys);

/* Numbers that are mostly slots; n may be 0. */
void garbage_index(struct m_index *index, uint32_t n);

/* A number of heads for n slots; a value's size, sometimes too long; a quantity, mostly small. */
uint32_t any_heads(uint32_t n);
size_t any_size(void);
uint64_t any_quantity(void);

#endif
