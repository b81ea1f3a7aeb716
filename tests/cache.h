/* cache.h: orderset_persist.h over a simulated cache: every store, line flush and fence of the header goes through it.
 * What a process sees and what is durable are apart, and each line has a list of the stores that are not durable yet.
 * The cache writes lines back at any time; a fence makes durable what was flushed before it. */
#ifndef CACHE_H
#define CACHE_H

#include <setjmp.h>
#include <stddef.h>
#include <stdint.h>

enum { MEMORY = 448 * 1000 };

extern size_t length;                          /* of the memory, in whole lines */
extern _Alignas(4096) uint8_t visible[MEMORY]; /* what a process sees */
extern int calling;                            /* set by the program: 1 in a call, 0 in a start */
extern unsigned stores_made;                   /* since the program set it to 0 */
extern int fenced;                             /* a fence was passed in a call since then */

/* What is visible becomes durable: the memory of a new program. */
void all_durable(void);

extern void (*after_store)(size_t place); /* null, or told of each store */

/* Something strikes: the program goes to `struck` at a point, which counts the fuse down. Every store, flush and fence
 * is a point. */
extern unsigned fuse;
extern jmp_buf struck;
void point(void);

/* A power cut: each line keeps some number of its stores, counted from the first, and that is what is visible. */
void power_cut(void);

/* A kill: everything that is visible stays, and no flush is under way. */
void process_kill(void);

/* A sync: every store to these bytes becomes durable. */
void cache_sync(const void *bytes, size_t size);

/* line is orderset_flush_line's parameter. */
void cache_store(volatile void *word, uint64_t value);
void cache_flush(const void *line);
void cache_fence(void);
#define ORDERSET_FLUSHED() cache_flush(line)
#define ORDERSET_FENCED() cache_fence()
#define __atomic_store_n(word, value, order) cache_store(word, value)
#include "orderset_persist.h"

#endif
