/* pieces.h: memory that a test lends, each piece between two pages which nobody may touch. A piece is mapped twice, for
 * reading alone and for writing too: what is const in a prototype is lent through the first mapping. So a call that
 * reads or writes past what it was lent, or writes what is const, faults, and the fault ends the test. */
#ifndef PIECES_H
#define PIECES_H

#include <stddef.h>
#include <stdint.h>

enum { PAGE = 4096, NONE = -1 };

struct piece {
    const char *name;
    size_t room;           /* whole pages */
    uint8_t *write, *read; /* its two mappings */
    uint8_t *before;       /* what it was before the call */
    size_t at, length;     /* what is lent of it: the first bytes or the last */
};

/* The test's own: its pieces, and how many. */
extern struct piece piece[];
extern const int pieces;

/* The call that is under way, as show prints it. */
extern const char *called;
extern uint64_t calls;

void make_pieces(void);

/* So many bytes are lent of the piece, its first or its last. */
void place(int what, size_t bytes);

/* Where they are, for writing and for reading. */
void *w(int what);
const void *r(int what);

/* A call begins that may write the pieces of the list, up to NONE. */
void begin_call(const char *name, const int *writable);

/* It has ended: nothing around what was lent is changed, and nothing that was lent to a refused call. */
void end_call(int refused, const int *writable);

/* These bytes of the piece, counted from its beginning, are as they were before the call; else the test ends. */
void same(const struct piece *p, size_t start, size_t end, const char *why);

/* What is not so, and the case. */
void __attribute__((format(printf, 1, 2))) show(const char *what, ...);

#endif
