/* orderset.h: the persistent order set and the message log in files, each behind one handle, for C and C++ (-lorderset;
 * x86-64 Linux). A handle locks, maps and recovers the file, keeps the index, and makes the stores of every call
 * durable before the call returns. Who brings memory of his own uses orderset_raw.h. The calls below the handle are
 * proved; this header and its sources are not.
 *
 *     struct orderset *set;
 *     uint32_t number = orderset_create("orders.img", 1000, 1);       once: room for 999 open orders, layout 1
 *     number = orderset_open("orders.img", ORDERSET_WRITE, &set);
 *     if (number) { fprintf(stderr, "%s\n", orderset_strerror(number)); return 1; }
 *     number = orderset_book_new(set, (struct orderset_key){7, 0}, 100);
 *     struct orderset_record order = {0};
 *     while ((number = orderset_next(set, &order)) == 0) ...order.key.low, order.value, order.length
 *     orderset_close(set);
 *
 * Results: a call that can be refused gives one number of enum orderset_number. 0: it is done, and durable. Below 1000:
 * a refusal, with its number in the definition of the set or the log; such a call changed nothing. 1000 to 1009: an
 * answer, and no error. From 1010 on: an error; but for ORDERSET_NOT_DURABLE the call changed no order.
 * orderset_strerror says each in words. After ORDERSET_ERRNO and ORDERSET_NOT_DURABLE errno tells more.
 *
 * Layouts: the file tells its own. In layout 1 a key has 64 bits (high is 0) and a value up to 80 bytes; in layout 2 a
 * key has 128 bits and a value up to 72. The calls are the same; a key that is too wide for layout 1 is refused by
 * ORDERSET_KEY_TOO_WIDE, in each call that takes a key.
 *
 * Files: a new file is made whole and durable under another name, PATH.new- and six letters, before it gets its own, so
 * that a cut or a kill leaves no half of it; a name like that which is left over may be removed. Of a name over 100
 * bytes the last eleven give way to that ending. An open that will write first looks at the length, the header and the
 * marks: a file that is something else keeps every byte, and no block is asked for it. Then it asks for all blocks of
 * the file, writes the same bytes once more, makes the whole of it and its name durable, recovers, and makes durable
 * what recovery hands out, all before it returns: so nothing that was answered is lost by a power cut, nor by a kill of
 * the process with the power on and a cut after it. For the name it syncs the directory, as create does: both need the
 * right to read the directory. A file over the process's limit of a file's length (RLIMIT_FSIZE) is refused by
 * ORDERSET_ERRNO with EFBIG. On a file system on non-volatile memory (MAP_SYNC) a call is line flushes and one
 * fence; on any other it is msync, the fallback, as good as the device, which must not tear a 64-byte line. msync is
 * also used, with MAP_SYNC, where the file shares a block with another (reflink) after it was written, and on xfs where
 * that cannot be asked (FIEMAP). A copy with shared blocks that is made while the handle is open is not seen. Copy a
 * file in use by orderset_snapshot or by `orderset copy --live`, and with no other program; `cp --reflink=never`, both
 * ways, is for one that is closed.
 *
 * Locks: one handle writes at a time, alone, in all processes; another open is refused by ORDERSET_LOCKED. A
 * handle that only reads copies the file under a shared lock, which ends with the open; it shows the file as it was
 * then, writes nothing to it, and keeps no writer out for longer than that. After a kill or a failed sync it may show a
 * call that had no answer and is not durable yet. A live look asks for no lock: it copies the file while a gateway
 * writes, until a second pass finds it as it was copied, for about a second, and else is refused by ORDERSET_BUSY. What
 * it shows is the file between two calls, or with the call in flight wholly there or wholly absent. An open tries for a
 * fifth of a second; where another file gets the name meanwhile, that one is opened. The lock is flock: a program that
 * does not ask for it is not held off. A file that is cut short while it is open ends the process (SIGBUS), as does a
 * mapped page that cannot be read, and in a change a full disk on btrfs, zfs or xfs with shared blocks (reflink); in an
 * open or a create a full disk is ORDERSET_ERRNO. A file that is removed, or over which another is renamed, while it is
 * open is still written and answered; all of that is lost at close.
 *
 * After a failed sync the call returns ORDERSET_NOT_DURABLE: it is perhaps done and perhaps not. Every later call
 * is refused by ORDERSET_STOPPED, but for layout, count, room, compared, errno, stat and close. The same holds after a
 * change whose thread was cancelled in it; such a change returns nothing. Close, open again, and ask whether it was
 * done. new, insert: the key is held. acknowledge: the state. fill: compare `filled` with what it was before (absent:
 * filled in full). withdraw, remove: absent. replace: compare the value. append: the last number and its bytes. Never
 * just repeat a fill or an append.
 *
 * Threads: one thread at a time for each handle; two handles know nothing of each other. Recovery needs up to 2.24 MB
 * of stack, in layout 2 up to 2.79 MB, and has 8 MiB in a thread of its own while an open or a snapshot lasts, with
 * all signals blocked; no call here needs more than 16 KB. A thread may be cancelled (pthread_cancel, deferred):
 * create, open, snapshot and close hold the request back until they return, and leave nothing behind; the handle that
 * an open then gives is to be closed by the caller's cleanup. A change can be left at its msync: the handle is stopped,
 * as after a failed sync, with errno ECANCELED, and another thread closes it and opens the file again. With line
 * flushes no change can be left, and no question ever. A process made by fork does not use the handle of its parent,
 * and as long as it lives and calls no exec it keeps the lock, also after the parent closed the handle or ended.
 *
 * Pointers: none may be null, but for the bytes of a value or an output of length 0, for close, and where it is
 * said. */
#ifndef ORDERSET_H
#define ORDERSET_H

#include <stddef.h>
#include <stdint.h>

#ifdef __cplusplus
extern "C" {
#endif

#define ORDERSET_VERSION_MAJOR 1
#define ORDERSET_VERSION_MINOR 0
#define ORDERSET_VERSION_PATCH 0
#define ORDERSET_VERSION_STRING "1.0.0"

#if defined(__GNUC__)
#define ORDERSET_CALL __attribute__((warn_unused_result))
#else
#define ORDERSET_CALL
#endif

/* ---- the set: a file of N slots has ORDERSET_IMAGE_BYTES(N) bytes, and room for N - 1 open orders */
#define ORDERSET_SLOTS_MIN 2u
#define ORDERSET_SLOTS_MAX 65535u
#define ORDERSET_LAYOUT_1 1u
#define ORDERSET_LAYOUT_2 2u
#define ORDERSET_VALUE_MAX 80u   /* the bytes of a value, at the most */
#define ORDERSET_VALUE_MAX_2 72u /* in layout 2 */
#define ORDERSET_SLOT_BYTES 128u
#define ORDERSET_LINE_BYTES 64u /* a slot is two lines */
#define ORDERSET_IMAGE_BYTES(n) ((size_t)ORDERSET_SLOT_BYTES * ((size_t)(n) + 1u))
#define ORDERSET_BASKET_MAX 8u
#define ORDERSET_COUNTS 6u /* classes of slots that are counted: orderset_slot_class without the last */

/* what a basket does with a key */
#define ORDERSET_INSERT 1u
#define ORDERSET_REPLACE 2u
#define ORDERSET_REMOVE 3u

/* an order: its bytes, and its states */
#define ORDERSET_ORDER_BYTES 24u
#define ORDERSET_SENT 1u
#define ORDERSET_ACKNOWLEDGED 2u

/* ---- the log: a file of K cells has ORDERSET_LOG_BYTES(K) bytes, and keeps the last K - 1 messages */
#define ORDERSET_LOG_CELLS_MIN 2u
#define ORDERSET_LOG_CELLS_MAX 1000u
#define ORDERSET_LOG_CELL_BYTES 448u
#define ORDERSET_LOG_MESSAGE_MAX 384u
#define ORDERSET_LOG_BYTES(k) ((size_t)ORDERSET_LOG_CELL_BYTES * (size_t)(k))

/* What a call returns. */
/* clang-format off */
/* from src/refusals.def */
enum orderset_number {
    ORDERSET_OK = 0,
    ORDERSET_BAD_IMAGE_LENGTH = 1,          /* the length is not 128 * (N + 1) with N from 2 to 65,535: not a file of
                                               the set, or cut short or extended */
    ORDERSET_NOT_FORMATTED = 2,             /* word 0 of the header is zero: not a file of the set, or not
                                               formatted */
    ORDERSET_BAD_HEADER = 3,                /* the header is not the one for this length and layout: not a file of
                                               the set, or cut short or extended */
    ORDERSET_BAD_INDEX_LENGTH = 4,          /* heads has 0 or more than 65,536 numbers, or next has not N + 1 */
    ORDERSET_BAD_MARK = 5,                  /* a mark is neither 0 nor 1: the file is damaged */
    ORDERSET_BAD_KIND_BITS = 6,             /* the kind word of a slot has bits above bit 23, or its number of
                                               records is 1 or over 8: the file is damaged */
    ORDERSET_VERSION_SHARED = 7,            /* of slots with one version the numbers of records differ, or there are
                                               more than that, or two have one key: the file is damaged */
    ORDERSET_NO_SPARE_SLOT = 8,             /* no slot is spare: the file is damaged */
    ORDERSET_EXHAUSTED = 9,                 /* the next version, or in a log the next number, is 2^63 or more */
    ORDERSET_VALUE_TOO_LONG = 10,           /* the value is too long: over 80 bytes, or in layout 2 over 72 */
    ORDERSET_INDEX_MISMATCH = 11,           /* a chain of the index is not one of this file, or the live count is too
                                               low */
    ORDERSET_BUFFER_TOO_SHORT = 13,         /* the output is shorter than the value or the message, or a list shorter
                                               than its stores */
    ORDERSET_COUNT_TOO_HIGH = 14,           /* a count exceeds 8 */
    ORDERSET_BAD_STORES = 15,               /* the stores are not those of two lines of the image, or one is
                                               outside */
    ORDERSET_NEW_KEY_EXISTS = 17,           /* the key of a new order is held, by an order or by another value */
    ORDERSET_NO_ORDER = 18,                 /* the key is not held, or holds no order */
    ORDERSET_BAD_QUANTITY = 19,             /* the quantity is zero, or more than is open */
    ORDERSET_KEY_EXISTS = 20,               /* the key of an insert is held */
    ORDERSET_KEY_MISSING = 21,              /* the key of a replace, or in a basket of a remove, is not held */
    ORDERSET_BAD_KIND = 22,                 /* the kind of a slot is neither put nor remove: the file is damaged */
    ORDERSET_BAD_VALUE_LENGTH = 23,         /* the length of a slot is too high, or a remove has one: the file is
                                               damaged */
    ORDERSET_BAD_TAIL = 24,                 /* a value byte of a slot past its length is not zero: the file is
                                               damaged */
    ORDERSET_TOO_MANY_BROKEN = 25,          /* more than eight slots are broken or void: no power cut leaves that;
                                               look at the memory or the disk, and whether every start made the image
                                               durable */
    ORDERSET_BAD_BASKET = 26,               /* the basket has no key or more than eight, or an item of a kind that
                                               there is not */
    ORDERSET_KEY_TWICE = 27,                /* a key comes twice in the basket */
    ORDERSET_FULL = 28,                     /* no room: too few slots may be taken, or with the new keys no slot
                                               would be spare */
    ORDERSET_BAD_MESSAGE = 29,              /* the message is empty or over 384 bytes */
    ORDERSET_BAD_LOG_LENGTH = 30,           /* the length is not 448 * K with K from 2 to 1,000: not a file of the
                                               log, or cut short or extended */
    ORDERSET_NO_MESSAGE = 31,               /* no message with this number can be read */
    ORDERSET_BAD_LAYOUT = 32,               /* the layout is neither 1 nor 2 */
    ORDERSET_BAD_LINE_LENGTH = 33,          /* a line has not 64 bytes, or the answer about it not 8 */
    ORDERSET_NOT_FOUND = 1000,              /* the key is not held */
    ORDERSET_ALREADY_ACKNOWLEDGED = 1001,   /* the order was acknowledged before */
    ORDERSET_END = 1002,                    /* there is no further open order */
    ORDERSET_ERRNO = 1010,                  /* a call of the system failed */
    ORDERSET_LOCKED = 1011,                 /* the file is open for writing elsewhere, or is being copied */
    ORDERSET_FILE_EXISTS = 1012,            /* there is a file of that name */
    ORDERSET_NOT_REGULAR = 1013,            /* not a regular file */
    ORDERSET_READ_ONLY = 1014,              /* the file was not opened for writing */
    ORDERSET_KEY_TOO_WIDE = 1015,           /* the key is over 64 bits, and the file is of layout 1 */
    ORDERSET_NOT_DURABLE = 1016,            /* the call could not be made durable, and is perhaps done: open the file
                                               again and ask */
    ORDERSET_STOPPED = 1017,                /* an earlier call could not be made durable, or its thread was cancelled
                                               in it: open the file again */
    ORDERSET_NOT_A_LOG = 1018,              /* a mark is neither 0 nor 1: not a file of the log, or damaged */
    ORDERSET_NO_SLOT = 1019,                /* there is no slot of that number */
    ORDERSET_BAD_MODE = 1020,               /* the mode is none of read, write, inspect and live */
    ORDERSET_BUSY = 1021,                   /* the file is written so fast that no look at one moment was possible
                                               for a second */
};
/* end of src/refusals.def */
/* clang-format on */

/* How a file is opened. */
enum orderset_mode {
    ORDERSET_READ = 0,    /* a copy, recovered; every change is refused */
    ORDERSET_WRITE = 1,   /* the file itself */
    ORDERSET_INSPECT = 2, /* a copy for the support desk, void slots as they are in the file; also where recovery
                             refuses it: then each call but slot, layout, count, room, compared, errno, stat and close
                             is refused by that number. Of a log it is ORDERSET_READ */
    ORDERSET_LIVE = 4     /* as ORDERSET_READ, without the lock: a file that a gateway has open, as it is at one moment;
                             it may show the call in flight before that call is durable. 3 is no mode */
};

/* How a call becomes durable. */
enum orderset_flush_kind {
    ORDERSET_FLUSH_NONE = 0,    /* a copy: nothing does */
    ORDERSET_FLUSH_MSYNC = 1,   /* the fallback; also where blocks of the file are shared (above) */
    ORDERSET_FLUSH_CLFLUSH = 2, /* this and those below: MAP_SYNC, a line flush of this kind and one fence */
    ORDERSET_FLUSH_CLFLUSHOPT = 3,
    ORDERSET_FLUSH_CLWB = 4
};

/* What a slot holds. */
enum orderset_slot_class {
    ORDERSET_SLOT_LIVE = 0,
    ORDERSET_SLOT_HIDDEN = 1, /* a value that a later record of its key hides */
    ORDERSET_SLOT_REMOVE = 2,
    ORDERSET_SLOT_VOID = 3,   /* of a basket that a cut struck; only in ORDERSET_INSPECT: opened, it is broken */
    ORDERSET_SLOT_BROKEN = 4, /* a cut struck the call that wrote it: no error */
    ORDERSET_SLOT_EMPTY = 5,
    ORDERSET_SLOT_UNKNOWN = 6 /* a whole record of a file that recovery refuses */
};

/* Structs: key, item and order stay as they are in every version 1. The others have reserved room, which is zero: a
 * later version may give it a name, and the struct keeps its size. */

/* In layout 2 put the part that varies most into low: keys that share it share a chain. */
struct orderset_key {
    uint64_t low, high;
};

/* One key of a basket. kind is ORDERSET_INSERT, ORDERSET_REPLACE or ORDERSET_REMOVE; a remove has no value. */
struct orderset_item {
    uint32_t kind;
    struct orderset_key key;
    const void *value;
    size_t length;
};

/* An open order, or what a slot holds. All zeros begin an iteration. */
struct orderset_record {
    uint32_t slot;
    uint32_t slot_class; /* enum orderset_slot_class */
    uint32_t fault;      /* what recovery refuses of this slot by itself: 5, 6, 22, 23 or 24; else 0 */
    uint32_t records;    /* of the basket that wrote it, 2 to 8; 0: it was written alone; or what stands there, of a
                            slot with a fault or that is broken */
    struct orderset_key key;
    uint64_t version;                  /* of line A */
    uint64_t length;                   /* at most 80, in layout 2 72; of fault 23 cut down to that */
    uint8_t value[ORDERSET_VALUE_MAX]; /* zeros from length on */
    uint64_t reserved[4];
};

/* An order of the book. */
struct orderset_order {
    uint64_t state; /* ORDERSET_SENT or ORDERSET_ACKNOWLEDGED */
    uint64_t ordered, filled;
};

struct orderset_statistics {
    uint32_t mode, flush;         /* enum orderset_mode, enum orderset_flush_kind */
    uint32_t layout;              /* 1 or 2; 0 where the header says neither */
    uint32_t slots, heads;        /* N and B; 0 where the length is of no set */
    uint32_t live, spare;         /* open orders, and N less these; of a refused file 0 */
    uint32_t compared;            /* as orderset_compared */
    uint32_t opened;              /* void slots that recovery found, and that the open opened unless in INSPECT */
    uint32_t refusal, fault_slot; /* of recovery, in INSPECT; fault_slot is 0 where it names none */
    int32_t error;                /* errno of ORDERSET_NOT_DURABLE, ECANCELED of a change that was cancelled, else 0 */
    uint64_t next_version, bytes;
    uint64_t count[ORDERSET_COUNTS]; /* slots by orderset_slot_class, as they are now; of a refused file a whole record
                                        is in none of them */
    uint64_t reserved[8];
};

struct orderset_log_statistics {
    uint32_t mode, flush; /* as above */
    uint32_t cells;       /* K */
    int32_t error;        /* as above */
    uint64_t bytes;
    uint64_t first, last; /* as orderset_log_range */
    uint64_t reserved[8];
};

struct orderset;
struct orderset_log;

/* Refusals are named below without ORDERSET_ and in the order in which they are tested. 1 to 4 of a call on an open
 * file: the mapped header was overwritten. */

/* ---- for both */

/* The number in words, of the set and of the log; never null. */
const char *orderset_strerror(uint32_t number);

/* The version of the library that runs, as ORDERSET_VERSION_STRING is that of the header. */
const char *orderset_version(void);

/* ---- the set */

/* Makes a file of an empty set with so many slots, 2 to 65,535, in layout 1 or 2. It is readable and writable by its
 * owner. Refusals: BAD_IMAGE_LENGTH, BAD_LAYOUT, FILE_EXISTS, ERRNO (nothing was made, or the file is there, whole, and
 * its name perhaps not durable; an open for writing makes it so). */
ORDERSET_CALL uint32_t orderset_create(const char *path, uint32_t slots, uint32_t layout);

/* Opens a file in a mode of enum orderset_mode; *set is null where it is not 0. Refusals: BAD_MODE, ERRNO (an open
 * perhaps made part of what recovery hands out, which changes no order: the next one does the rest), NOT_REGULAR,
 * LOCKED, BUSY and those of recovery: BAD_IMAGE_LENGTH, NOT_FORMATTED and BAD_HEADER mean that the file is no set, or
 * was cut short or extended; BAD_MARK; BAD_KIND_BITS, BAD_KIND, BAD_VALUE_LENGTH and BAD_TAIL, which name a slot
 * (INSPECT tells it); VERSION_SHARED, TOO_MANY_BROKEN, NO_SPARE_SLOT. B is the largest prime up to N. */
ORDERSET_CALL uint32_t orderset_open(const char *path, uint32_t mode, struct orderset **set);

/* Makes a new file with the open orders of the set as they are between two calls, with as many slots and in the same
 * layout, in order of version; they get versions from 1 on. It is made whole and durable, and every key is found in it
 * with its value, before it gets its name, as in orderset_create; the set stays as it is. Of a handle of any mode.
 * Refusals: STOPPED, in INSPECT that of recovery, INDEX_MISMATCH, FILE_EXISTS, ERRNO (as in orderset_create; EIO also
 * where the new file is not read as it was written). */
ORDERSET_CALL uint32_t orderset_snapshot(struct orderset *set, const char *path);

/* Ends the handle, which may be null. There is nothing to make durable. */
void orderset_close(struct orderset *set);

/* insert gives a key that is not held a value, replace gives one that is held another value, and each refuses the other
 * kind, so that a key that is used again by mistake overwrites nothing. remove drops a key; of one that is not held it
 * gives NOT_FOUND. Refusals: READ_ONLY, STOPPED, KEY_TOO_WIDE, VALUE_TOO_LONG, INDEX_MISMATCH of the
 * key's chain, KEY_EXISTS of insert or KEY_MISSING of replace, INDEX_MISMATCH of the spare slots' chain or, in a
 * remove, of the live count, FULL, EXHAUSTED; NOT_DURABLE. In a set that was made by create only an insert is FULL, and
 * only where the room is 0. */
ORDERSET_CALL uint32_t orderset_insert(struct orderset *set, struct orderset_key key, const void *value, size_t length);
ORDERSET_CALL uint32_t orderset_replace(struct orderset *set, struct orderset_key key, const void *value,
                                        size_t length);
ORDERSET_CALL uint32_t orderset_remove(struct orderset *set, struct orderset_key key);

/* Changes 1 to 8 distinct keys, all or none, also after a power cut, with one fence. Refusals: READ_ONLY, STOPPED,
 * BAD_BASKET of the count, KEY_TOO_WIDE, BAD_BASKET of a kind, KEY_TWICE, and then as in insert, KEY_MISSING of a
 * remove too. It can be FULL where as many slots are spare as it has keys, or more: some of them may not be taken yet.
 */
ORDERSET_CALL uint32_t orderset_basket(struct orderset *set, const struct orderset_item *items, size_t count);

/* Copies the value to the front of the output, which has room bytes; 80 are always enough. *length is the value's; of
 * NOT_FOUND and of a refusal it is 0. Refusals: STOPPED, KEY_TOO_WIDE, INDEX_MISMATCH, BAD_VALUE_LENGTH,
 * BUFFER_TOO_SHORT. */
ORDERSET_CALL uint32_t orderset_get(struct orderset *set, struct orderset_key key, void *output, size_t room,
                                    size_t *length);

/* Tells where the key stands; NOT_FOUND and a refusal leave zeros. slot and version may be null. Refusals: STOPPED,
 * KEY_TOO_WIDE, INDEX_MISMATCH. */
ORDERSET_CALL uint32_t orderset_locate(struct orderset *set, struct orderset_key key, uint32_t *slot,
                                       uint64_t *version);

/* The slots that the last insert, replace, remove, get or locate (not a step of the book or a basket) compared: one or
 * two, unless the keys step by a multiple of B. */
uint32_t orderset_compared(const struct orderset *set);

/* The steps of the book: an order is sent, acknowledged, filled in parts and perhaps withdrawn. When it is filled in
 * full or withdrawn, it is gone. A second acknowledge gives ALREADY_ACKNOWLEDGED. Refusals: READ_ONLY, STOPPED,
 * KEY_TOO_WIDE, INDEX_MISMATCH of the key's chain, NEW_KEY_EXISTS of new or NO_ORDER of the others, BAD_QUANTITY of new
 * and fill, INDEX_MISMATCH of the spare slots' chain or of the live count, FULL, EXHAUSTED; NOT_DURABLE. */
ORDERSET_CALL uint32_t orderset_book_new(struct orderset *set, struct orderset_key key, uint64_t quantity);
ORDERSET_CALL uint32_t orderset_book_acknowledge(struct orderset *set, struct orderset_key key);
ORDERSET_CALL uint32_t orderset_book_fill(struct orderset *set, struct orderset_key key, uint64_t quantity);
ORDERSET_CALL uint32_t orderset_book_withdraw(struct orderset *set, struct orderset_key key);

/* Whether the value is an order: 1, and *order is it; else 0, and *order is zeros. */
int orderset_order_of(const void *value, size_t length, struct orderset_order *order);

/* The next open order by rising slot, from all zeros on; END after the last one, and then the record is all zeros. Of
 * it only the slot is read: it says where to go on. Changes may come between two steps. A key that is held throughout
 * and is not changed comes once; one that is inserted, replaced or removed meanwhile may come, with the value it has
 * then, once, twice or not at all. Refusals: STOPPED, INDEX_MISMATCH. */
ORDERSET_CALL uint32_t orderset_next(struct orderset *set, struct orderset_record *record);

/* What slot 1 to N holds, whatever its class; of one that is broken or empty, what stands in its words. Refusals:
 * STOPPED, NO_SLOT. */
ORDERSET_CALL uint32_t orderset_slot(struct orderset *set, uint32_t slot, struct orderset_record *record);

/* The layout of the file, the open orders, and for how many more there is room. None looks at a slot: they take the
 * same time whatever N is. Also of a handle that is stopped; count and room are 0 of a refused file, and layout where
 * the header says neither 1 nor 2. */
uint32_t orderset_layout(const struct orderset *set);
uint32_t orderset_count(const struct orderset *set);
uint32_t orderset_room(const struct orderset *set);

/* Also of a handle that is stopped. It looks at every slot. */
void orderset_stat(struct orderset *set, struct orderset_statistics *statistics);

/* errno of the call that gave NOT_DURABLE, ECANCELED of a change that was cancelled; else 0. */
int orderset_errno(const struct orderset *set);

/* ---- the message log, with the modes, locks and promises above */

/* Makes a file of an empty log with so many cells, 2 to 1,000: the last cells - 1 messages can be read. Refusals:
 * BAD_LOG_LENGTH, FILE_EXISTS, ERRNO as in orderset_create. */
ORDERSET_CALL uint32_t orderset_log_create(const char *path, uint32_t cells);

/* As orderset_open. Refusals: BAD_MODE, ERRNO, NOT_REGULAR, LOCKED, BUSY, BAD_LOG_LENGTH, NOT_A_LOG (a set is none).
 */
ORDERSET_CALL uint32_t orderset_log_open(const char *path, uint32_t mode, struct orderset_log **log);

void orderset_log_close(struct orderset_log *log);

/* Appends a message of 1 to 384 bytes; *number is its number, from 1 on, 0 where it is refused, and number may be null.
 * Refusals: READ_ONLY, STOPPED, BAD_MESSAGE, EXHAUSTED; NOT_DURABLE. */
ORDERSET_CALL uint32_t orderset_log_append(struct orderset_log *log, const void *message, size_t length,
                                           uint64_t *number);

/* Copies the message to the front of the output, which has room bytes; 384 are always enough. *length is the
 * message's; of a refusal it is 0. Refusals: STOPPED, NO_MESSAGE, BUFFER_TOO_SHORT. */
ORDERSET_CALL uint32_t orderset_log_read(struct orderset_log *log, uint64_t number, void *output, size_t room,
                                         size_t *length);

/* The numbers that can be read: *first to *last; of an empty log 1 and 0. Refusals: STOPPED. */
ORDERSET_CALL uint32_t orderset_log_range(struct orderset_log *log, uint64_t *first, uint64_t *last);

/* Also of a handle that is stopped. */
void orderset_log_stat(struct orderset_log *log, struct orderset_log_statistics *statistics);

int orderset_log_errno(const struct orderset_log *log);

#ifdef __cplusplus
}
#endif

#endif
