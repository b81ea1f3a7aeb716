/* internal.h: what the sources of the handles share. All of it is hidden: the library gives the names of its headers
 * and no other. */
#ifndef ORDERSET_INTERNAL_H
#define ORDERSET_INTERNAL_H

#include <errno.h>
#include <pthread.h>

#include "orderset.h"
#include "orderset_raw.h"

#pragma GCC visibility push(hidden)

/* The bytes of a file: the file itself, mapped, or a copy. */
struct area {
    uint8_t *bytes; /* null before it is mapped */
    size_t length;
    int file; /* open as long as the lock is kept, else -1 */
    uint32_t mode, flush;
    int error, stopped; /* stopped: also set before the first store of a change, cleared after its sync */
};

/* What a file of the set is, and one of the log. */
struct form {
    size_t part, least, most;                                /* the length is so many parts of so many bytes */
    uint32_t refusal;                                        /* of any other length */
    uint32_t (*look)(const struct area *a, uint64_t *chunk); /* null where nothing is asked */
};

enum { OWNER = 0600 /* the permissions of a new file, unless others are asked for */ };

/* A new file. */
struct content {
    const uint8_t *bytes;
    size_t length;
    uint32_t mode; /* its permissions */
    /* asked of the bytes as they are read from the file, before it gets its name; null where nothing is asked */
    uint32_t (*check)(const struct content *c, uint8_t *read);
    const void *due; /* for check */
};

/* ---- area.c: each gives 0 or a number */

uint32_t orderset_area_create(const char *path, const struct content *c);

/* A file gets the name in place of its other one, unless there is one of that name: 0, or -1 and errno. */
int orderset_give_name(const char *other, const char *path);

/* The bytes, as they are to be before recovery, of an area that has its mode and file -1. A file of another form is
 * refused as it is, before anything is written to it and before blocks are asked for. */
uint32_t orderset_area_open(struct area *a, const char *path, const struct form *f);

/* The same of bytes that were read before. */
uint32_t orderset_area_copy(struct area *a, const uint8_t *bytes, size_t length, const struct form *f);
void orderset_area_close(struct area *a);

/* For a form's look: bytes of the file; and that each of the words at the same distance is a mark, or else the refusal.
 */
uint32_t orderset_area_read(const struct area *a, size_t from, void *bytes, size_t length);
uint32_t orderset_area_marks(const struct area *a, uint64_t *chunk, size_t first, size_t step, uint32_t refusal);

/* Makes stores durable: those of a call, and those that recovery hands out, which come before any other call. */
uint32_t orderset_area_persist(struct area *a, const uint32_t *at, const uint64_t *value, size_t count);
uint32_t orderset_area_persist_recovery(struct area *a, const uint32_t *at, const uint64_t *value, size_t count);

/* Runs the work in a thread with a stack of its own, which recovery needs, and waits for it. */
uint32_t orderset_on_own_stack(void *(*work)(void *), void *argument);

/* ---- live.c: copies the bytes of a file that another process writes, as they are at one moment; 0 or a number */
uint32_t orderset_live_copy(int file, uint8_t *bytes, size_t length);

/* An open without a path. */
static inline uint32_t refuse_no_path(void) {
    errno = EFAULT;
    return ORDERSET_ERRNO;
}

/* ---- set.c and log.c: handles on bytes that were read before, in a mode that does not write */
uint32_t orderset_open_bytes(const uint8_t *bytes, size_t length, uint32_t mode, struct orderset **set);
uint32_t orderset_log_open_bytes(const uint8_t *bytes, size_t length, struct orderset_log **log);

uint32_t orderset_slots(const struct orderset *set);

/* A new file of an empty log, with its permissions. */
uint32_t orderset_log_make(const char *path, uint32_t cells, uint32_t mode);

/* An index for these bytes, from recovery on a stack of its own: 0, and found has recovery's refusal, or ERRNO. */
uint32_t orderset_index_bytes(struct orderset_raw *raw, uint8_t *bytes, size_t length,
                              struct orderset_raw_recovery *found);
void orderset_free_index(struct orderset_raw *raw);

/* ---- make.c */

/* A new set with the orders, which are inserted one after the other. */
struct new_set {
    uint32_t slots, layout, mode; /* mode: the permissions of the file */
    const struct orderset_record *orders;
    size_t count;
};

/* Makes the file; every key is found in it with its value before it gets its name. Refusals: BAD_IMAGE_LENGTH,
 * BAD_LAYOUT; of an order FULL, KEY_TOO_WIDE, VALUE_TOO_LONG, KEY_EXISTS, and then *misfits of them do not fit, of
 * which *first is the first; FILE_EXISTS, ERRNO. */
uint32_t orderset_make(const char *path, const struct new_set *n, size_t *misfits, size_t *first);

/* The open orders by rising version, *count of them, which the caller frees. */
uint32_t orderset_orders(struct orderset *set, struct orderset_record **orders, size_t *count);

static inline uint32_t may_change(const struct area *a) {
    if (a->mode != ORDERSET_WRITE)
        return ORDERSET_READ_ONLY;
    return a->stopped ? ORDERSET_STOPPED : ORDERSET_OK;
}

static inline uint32_t may_read(const struct area *a) {
    return a->stopped ? ORDERSET_STOPPED : ORDERSET_OK;
}

/* A request to cancel the thread waits: what an open, a create or a close has made so far would be left behind. */
static inline int hold_cancel(void) {
    int before;
    pthread_setcancelstate(PTHREAD_CANCEL_DISABLE, &before);
    return before;
}

static inline void release_cancel(int before) {
    int held;
    pthread_setcancelstate(before, &held);
}

/* for a value or a message of no bytes */
extern const uint8_t orderset_nothing[1];

#pragma GCC visibility pop

#endif
