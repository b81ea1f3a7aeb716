/* orderset_raw.h: the order set and the message log in memory of one's own, for C and C++ (-lorderset; x86-64 Linux).
 * Who keeps a set in a file uses orderset.h, which does what is asked here of the caller.
 *
 * The set is a map from a key to a value, kept in an image of 128 * (N + 1) bytes, N from 2 to 65,535. In layout 1 a
 * key has 64 bits (high is 0) and a value up to 80 bytes; in layout 2 a key has 128 bits and a value up to 72. The
 * image is all that a restart needs: orderset_raw_recover rebuilds the index from it. Nothing here allocates, keeps a
 * pointer, or uses a global variable. Each function below is a few instructions around one of the proved functions of
 * the library, of the set's layout; these are declared below the structs.
 *
 *     static struct orderset_raw set = {image, sizeof image, heads, B, next, N + 1, {0}, 0, ORDERSET_LAYOUT_1};
 *     struct orderset_raw_recovery found;
 *     struct orderset_raw_change change;
 *     if (orderset_raw_format(image, sizeof image, ORDERSET_LAYOUT_1)) ...stop          only for a new image
 *     if (orderset_persist_image(image, sizeof image, flush)) ...stop                   every start, before recovery
 *     if (orderset_raw_recover(&set, &found)) ...stop: found.refusal, found.fault_slot
 *     if (orderset_persist_list(image, sizeof image, found.at, found.value, found.count, flush)) ...stop
 *     if (orderset_raw_own_insert(&set, key, "buy 100", 7, &change) == ORDERSET_OK &&
 *         orderset_persist(image, sizeof image, change.at, change.value, flush) == 0) ...answer the client
 *
 * The caller owns everything that struct orderset_raw names. heads, next, state and version are the index: recovery
 * fills them, and the calls that write keep them up to date. They are never persisted. state[ORDERSET_RAW_NEWEST] is a
 * hint to the calls of document 01, which makes them faster: whatever stands there, no answer and no store is another.
 * The calls for the owner (below) go by it. Where no slot is valid, recovery leaves some slot's number there.
 *
 * layout: where it is neither 1 nor 2, or not the image's, each call gives ORDERSET_BAD_HEADER; orderset_raw_layout
 * reads it from the image. In layout 1 a key with a high word other than 0 gives ORDERSET_KEY_TOO_WIDE, in each call
 * that takes a key and in a basket.
 *
 * How to write: a call that writes changes the index, hands out stores and leaves the image as it is. The caller makes
 * all of them, in order within each line of 64 bytes, flushes the lines and fences once (orderset_persist.h), or makes
 * them in plain memory (orderset_raw_play, orderset_raw_play_list). Only then may the next call follow. If that was not
 * finished, orderset_raw_recover comes next.
 *
 * Two families: each call that writes is there twice, as orderset_raw_insert and so on, the calls of document 01 (the
 * definition of the set that the project works by: the layout, the calls, and each refusal with its number), and as
 * orderset_raw_own_insert and so on, the calls for the owner of the index, which are no calls of document 01. Use the
 * owner's calls only where index and state come from an orderset_raw_recover whose stores are made and from accepted
 * calls since, the stores of each made before the next call, and nobody else writes index, state or image: then they
 * answer, hand out and leave exactly what the calls of document 01 do, and never look through the image. Of any other
 * index they are safe and terminate, but their refusals INDEX_MISMATCH (reuse) and FULL and the slots that they take
 * are their own: use there the calls of document 01, whose refusals hold for any index.
 *
 * How to start: recovery takes what it reads as what stands in the memory. After a power cut that is so. After anything
 * else (the process was killed, a call of orderset_persist.h failed, or nobody knows) stores may be seen that are not
 * durable; then recovery comes after the whole image was made durable (orderset_persist_image or, in a file with msync,
 * orderset_persist_image_file), or a later power cut can take an order that was answered. Do so at every start that
 * will write.
 *
 * After recovery: it hands out at most ORDERSET_INVALIDATIONS stores, one for each void record, a record of a basket
 * that a cut left incomplete (below). They are made, their lines are flushed and a fence is passed before any other
 * call. If that was not finished, recovery comes next: it gives the same map and hands out what is left. What they are
 * for: a void record is a whole one, and only its missing companions tell that it does not count. A later call with a
 * higher version would hide that, and half of the basket would be there after all; with an open line the record is gone
 * for good.
 *
 * Baskets: orderset_raw_basket inserts, replaces and removes 1 to ORDERSET_BASKET_MAX distinct keys, all or none: after
 * a cut that left any number of first stores on each of its up to sixteen lines, recovery gives all of its changes
 * where all stores stand, and else none of them. The records that it writes have one version, and each tells in bits 16
 * to 23 of its kind word how many they are, from 2 to 8; a record that was written alone, also by a basket of one key,
 * has 0 there. Of valid slots the highest version counts if as many of them have it as its records tell. Otherwise
 * these records are void, and the next version down is judged in turn. A void record holds nothing for its key, and its
 * slot is spare.
 *
 * Which slots a call takes: the first of the reuse chain that may be taken, one for each key. No call takes a slot of
 * the highest version among valid slots, nor a record of a remove while an older valid record of its key is in the
 * image. FULL says that too few slots may be taken, or that new keys would leave no spare slot. In a set that was
 * formatted and then changed by these calls alone, an insert is FULL only where one slot is spare, and a replace or a
 * remove never is; a basket can also be FULL where as many slots are spare as it has keys, or more, since some of them
 * may not be taken. An image from elsewhere that recovery accepts may have no slot to take; there they are FULL too.
 *
 * What a call returns: ORDERSET_OK, or the number of its refusal (enum orderset_number), which also stands in the
 * struct of its answer where it has one. A refused call leaves everything that it was lent as it was, but for refusal,
 * and compared or fault_slot where the struct has them. outcome: ORDERSET_RAW_DONE; in get, locate and remove a key
 * that is not held is no refusal, and gives ORDERSET_RAW_ABSENT; an acknowledge of an order that was acknowledged
 * before gives ORDERSET_RAW_ALREADY. Of the last two nothing is to be stored. Refusals are named below without
 * ORDERSET_, in the order in which they are tested. Each call that takes a set, except play, begins with BAD_HEADER of
 * a layout that is neither 1 nor 2 and KEY_TOO_WIDE, and then has BAD_IMAGE_LENGTH, NOT_FORMATTED, BAD_HEADER and
 * BAD_INDEX_LENGTH.
 *
 * Slots compared: insert, replace, remove, get and locate report how many slots of the key's chain were compared with
 * the key: the key's place in the chain, from 1, or the length of the chain where the key is not held. With an index
 * from recovery and the calls since, that is never above the number of held keys that have the key's head. Of a refused
 * call it is 0 where no search was finished: 1 to 4, KEY_TOO_WIDE, VALUE_TOO_LONG, and INDEX_MISMATCH of the chain.
 * Baskets and the steps of the book do not report it.
 *
 * The order book is a layer above the set: orders in the place of bytes. An order is a value of 24 bytes, three words
 * of 8 bytes, low byte first: its state (ORDERSET_SENT or ORDERSET_ACKNOWLEDGED), the ordered quantity and the filled
 * quantity, and filled is below ordered. Any other value is no order. An order that is filled in full or withdrawn is
 * removed. Over any history of steps since an empty set, with no insert, replace, remove or basket among them, all that
 * was ordered is filled, withdrawn or open.
 *
 * A single line can be asked about, as 64 bytes and nothing else of the image: orderset_raw_line_whole and the like.
 * The answers are the set's own rules: a slot is valid where its two lines are whole with one version of at least 1,
 * and the first and the last word are those of the stores that a call hands out for that line.
 *
 * The message log is a list of messages of 1 to 384 bytes, numbered from 1, of which the last K - 1 can be read. It is
 * kept in an area of K cells of 448 bytes, K from 2 to 1,000. Message s stands in cell s % K, its bytes unbroken: no
 * mark is between them. An area of zeros is an empty log, and has nothing to do with an image of the set. Append and
 * recovery hand out stores, and what was said of the set's holds: they are made and fenced before the next append,
 * recovery or read, and at every start the whole area is made durable (orderset_persist_image takes it too) and then
 * recovery comes first. The number of an append that a cut made absent comes again, with another message. An append
 * looks for the highest complete number in all cells; a program that keeps the number that recovery and each append
 * answered lends it instead (orderset_raw_log_append_after).
 *
 * Pointers: none may be null, also where a length is 0, and each is aligned for its type. What a function writes
 * through one pointer must not overlap what it is lent through any other; two regions that are only read may overlap.
 *
 * Stack: recovery and the count of slots need up to 2.24 MB, in layout 2 up to 2.79 MB: give 3 MiB. Measured: 140 KB
 * for N below 4,096, 664 KB below 16,384, and 2.24 MB from there on; in layout 2 170 KB, 826 KB and 2.79 MB. A Rust
 * thread has 2 MiB unless it is told otherwise, and so has a thread of glibc where the stack is unlimited (ulimit -s).
 * Of the other calls, measured: a basket 2.4 KB, any other below 1 KB.
 *
 * Threads: there are no locks. Gets and locates may run beside each other, each with an output and an answer of its
 * own, and beside nothing else: from the start of a call that writes, a recovery or a play until its stores are made,
 * flushed and fenced, no other call runs; nor while slots are counted with the set's own heads and next. The questions
 * about a line may run at any time on a copy of the line; a copy that is taken while another thread or process stores
 * is taken from word 7 down to word 0. Reads of a log may run beside each other and beside nothing else.
 *
 * Processes: the index is one process's. No second process writes or recovers an image or an area in use; after fork
 * only one of the two goes on, the other calls nothing on it. No call from a signal handler that can interrupt one.
 *
 * How many heads: a call walks along the chain of its key's head, low % B, so with B near N chains are short. Keys k *
 * B all have one head, and are one chain: with N = 65,535, B = 65,536 and 60,000 keys k * 65,536 a get took 280
 * microseconds, and 0.2 with B = 65,521. Take a prime near N for B, unless the keys step by a multiple of it. In layout
 * 2 let the low word be the one that varies. The slots compared show whether B suits the keys.
 *
 * Versions: the version of a call that stores is above those of all records that stand, and no more is said of it. It
 * is no sequence number: after a cut the version of the struck call can come again, with another call, or be left out.
 *
 * What is proved: for any image, index and area each of the library's functions returns and leaves what its definition
 * says, reads and writes nothing outside what it is lent, and ends; and over every list of calls and power cuts the set
 * answers as a plain map does, and the log, from an area of zeros, as a plain list. What is not proved: this header,
 * the C code that makes, flushes and fences the stores, and that the memory holds of each line some number of its
 * stores, counted from the first. */
#ifndef ORDERSET_RAW_H
#define ORDERSET_RAW_H

#include <string.h>

#include "orderset.h"

#if defined(__GNUC__)
#define ORDERSET_RAW_CALL __attribute__((nonnull, warn_unused_result))
#else
#define ORDERSET_RAW_CALL
#endif

#define ORDERSET_HEADS_MAX 65536u
#define ORDERSET_STORES 16u /* the stores of a call, the first half for line A and the second for line B */
#define ORDERSET_LINE_STORES 8u
#define ORDERSET_INVALIDATIONS 8u  /* the most stores that recovery hands out */
#define ORDERSET_BASKET_BYTES 640u /* 80 for each key */
#define ORDERSET_BASKET_STORES(count) ((size_t)ORDERSET_STORES * (count))
#define ORDERSET_NEXT_LENGTH(n) ((size_t)(n) + 1u)
/* the most stores of an append: eight of the marked line, up to eight of each other */
#define ORDERSET_LOG_STORES 56u

/* places in state: the reuse chain's first and last slot, the live count, and the newest slot, one with the highest
 * version among valid slots */
#define ORDERSET_RAW_FIRST 0
#define ORDERSET_RAW_LAST 1
#define ORDERSET_RAW_LIVE 2
#define ORDERSET_RAW_NEWEST 3
#define ORDERSET_RAW_STATE 4

/* outcome */
#define ORDERSET_RAW_ABSENT 0u
#define ORDERSET_RAW_DONE 1u
#define ORDERSET_RAW_ALREADY 2u

/* ---- what is lent and what is answered */

struct orderset_raw {
    uint8_t *image; /* ORDERSET_IMAGE_BYTES(N) bytes; 64-byte aligned if its stores are to be persisted */
    size_t image_length;
    uint32_t *heads; /* B numbers, B from 1 to ORDERSET_HEADS_MAX */
    size_t heads_length;
    uint32_t *next; /* ORDERSET_NEXT_LENGTH(N) numbers */
    size_t next_length;
    uint32_t state[ORDERSET_RAW_STATE];
    uint64_t version; /* the next one */
    uint32_t layout;
};

/* What recovery hands out: store i sets the word at[i], counted from the start of the image, to value[i]. Each opens
 * line A of a void slot; they are by rising slot, each in a line of its own. The entries from count on are zero and no
 * stores: made, they would clear the header. */
struct orderset_raw_recovery {
    uint32_t refusal;
    uint32_t fault_slot; /* the slot that a refusal names, 0 for none */
    uint32_t count;
    uint32_t at[ORDERSET_INVALIDATIONS];
    uint64_t value[ORDERSET_INVALIDATIONS];
};

/* What a call that changes one key hands out and answers. Where outcome is not ORDERSET_RAW_DONE, at and value stay as
 * they were. */
struct orderset_raw_change {
    uint32_t refusal;
    uint64_t outcome, slot, version;
    uint64_t compared; /* 0 of a step of the book */
    uint32_t at[ORDERSET_STORES];
    uint64_t value[ORDERSET_STORES];
};

/* A basket: count items, added by orderset_raw_add to one whose count is 0; and what it hands out and answers, 16
 * stores for each item in order. */
struct orderset_raw_items {
    uint32_t refusal;
    size_t count;
    uint32_t kinds[ORDERSET_BASKET_MAX];
    uint64_t lows[ORDERSET_BASKET_MAX], highs[ORDERSET_BASKET_MAX];
    size_t lengths[ORDERSET_BASKET_MAX];
    uint8_t bytes[ORDERSET_BASKET_BYTES];
    uint64_t version, slot[ORDERSET_BASKET_MAX];
    uint32_t at[ORDERSET_STORES * ORDERSET_BASKET_MAX];
    uint64_t value[ORDERSET_STORES * ORDERSET_BASKET_MAX];
};

/* What get and locate answer; of absent zeros and the slots compared. */
struct orderset_raw_value {
    uint32_t refusal;
    uint64_t outcome, length, compared;
};
struct orderset_raw_place {
    uint32_t refusal;
    uint64_t outcome, slot, version; /* of its line A */
    uint64_t compared;
};

/* The slots by what they hold: count[ORDERSET_SLOT_LIVE] and so on. */
struct orderset_raw_counts {
    uint32_t refusal;
    uint32_t fault_slot;
    uint64_t count[ORDERSET_COUNTS];
};

struct orderset_raw_log {
    uint8_t *area; /* ORDERSET_LOG_BYTES(K) bytes; 64-byte aligned if its stores are to be persisted */
    size_t area_length;
};

/* What an append or a recovery of a log hands out and answers: number is the message's, or the highest complete one;
 * count stores, of which those of the marked line come first. The entries after them keep what they had. */
struct orderset_raw_stores {
    uint32_t refusal;
    uint64_t number, count;
    uint32_t at[ORDERSET_LOG_CELLS_MAX];
    uint64_t value[ORDERSET_LOG_CELLS_MAX];
};

/* ---- the proved functions: what the functions below call, and an implementation detail of this header. A call that is
 * not refused writes its answer into words; recover, count_slots, insert, replace, remove, get and locate return the
 * refusal in the low 32 bits and above them the slot that it names, or the slots compared. */

#ifdef __cplusplus
extern "C" {
#endif

#define ORDERSET_PROVED_REFUSAL(returned) ((uint32_t)(returned))
/* not widened, so that the compiler warns where the result was kept in 32 bits */
#define ORDERSET_PROVED_REFUSED_COMPARED(returned) ((uint32_t)((returned) >> 32))
#define ORDERSET_PROVED_FAULT_SLOT(returned) ((uint32_t)((returned) >> 32))

/* places in the words of an answer, after the outcome in word 0, and its length: of insert, replace, remove and locate;
 * of a step; of get; of a basket, which has no outcome; of format; of the log; and the bytes of an answer about a line
 */
enum {
    ORDERSET_PROVED_SLOT = 1,
    ORDERSET_PROVED_VERSION = 2,
    ORDERSET_PROVED_COMPARED = 3,
    ORDERSET_PROVED_CHANGE_ANSWER = 4,
    ORDERSET_PROVED_STEP_ANSWER = 3,
    ORDERSET_PROVED_LENGTH = 1,
    ORDERSET_PROVED_GET_COMPARED = 2,
    ORDERSET_PROVED_GET_ANSWER = 3,
    ORDERSET_PROVED_BASKET_VERSION = 0,
    ORDERSET_PROVED_BASKET_SLOTS = 1,
    ORDERSET_PROVED_BASKET_ANSWER = 9,
    ORDERSET_PROVED_SLOTS = 1,
    ORDERSET_PROVED_FORMAT_ANSWER = 2,
    ORDERSET_PROVED_LOG_NUMBER = 0,
    ORDERSET_PROVED_LOG_COUNT = 1,
    ORDERSET_PROVED_LOG_OFFSET = 0,
    ORDERSET_PROVED_LOG_LENGTH = 1,
    ORDERSET_PROVED_LOG_ANSWER = 2,
    ORDERSET_PROVED_LINE_ANSWER = 8
};

/* the parameters: the image with an index that is read, with one that is written, what a change hands out, and the keys
 */
#define ORDERSET_PROVED_READ                                                                                           \
    const uint8_t *image, size_t image_length, const uint32_t *heads, size_t heads_length, const uint32_t *next,       \
        size_t next_length
#define ORDERSET_PROVED_INDEX                                                                                          \
    const uint8_t *image, size_t image_length, uint32_t *heads, size_t heads_length, uint32_t *next, size_t next_length
#define ORDERSET_PROVED_SET ORDERSET_PROVED_INDEX, uint32_t *state, uint64_t *version
#define ORDERSET_PROVED_HANDED uint32_t *at, uint64_t *value, uint64_t *answer
#define ORDERSET_PROVED_KEY uint64_t key
#define ORDERSET_PROVED_KEY_2 uint64_t low, uint64_t high
#define ORDERSET_PROVED_KEYS const uint64_t *keys
#define ORDERSET_PROVED_KEYS_2 const uint64_t *lows, const uint64_t *highs

/* the calls that write, of one layout and one family */
#define ORDERSET_PROVED_FAMILY(name, key, keys)                                                                        \
    ORDERSET_RAW_CALL uint64_t name##insert(ORDERSET_PROVED_SET, key, const uint8_t *bytes, size_t bytes_length,       \
                                            ORDERSET_PROVED_HANDED);                                                   \
    ORDERSET_RAW_CALL uint64_t name##replace(ORDERSET_PROVED_SET, key, const uint8_t *bytes, size_t bytes_length,      \
                                             ORDERSET_PROVED_HANDED);                                                  \
    ORDERSET_RAW_CALL uint64_t name##remove(ORDERSET_PROVED_SET, key, ORDERSET_PROVED_HANDED);                         \
    ORDERSET_RAW_CALL uint32_t name##basket(ORDERSET_PROVED_SET, size_t count, const uint32_t *kinds, keys,            \
                                            const size_t *lengths, const uint8_t *bytes, uint32_t *at,                 \
                                            size_t at_length, uint64_t *value, size_t value_length, uint64_t *answer); \
    ORDERSET_RAW_CALL uint32_t name##book_new(ORDERSET_PROVED_SET, key, uint64_t quantity, ORDERSET_PROVED_HANDED);    \
    ORDERSET_RAW_CALL uint32_t name##book_acknowledge(ORDERSET_PROVED_SET, key, ORDERSET_PROVED_HANDED);               \
    ORDERSET_RAW_CALL uint32_t name##book_fill(ORDERSET_PROVED_SET, key, uint64_t quantity, ORDERSET_PROVED_HANDED);   \
    ORDERSET_RAW_CALL uint32_t name##book_withdraw(ORDERSET_PROVED_SET, key, ORDERSET_PROVED_HANDED)

/* the calls of one layout */
#define ORDERSET_PROVED_CALLS(name, key)                                                                               \
    ORDERSET_RAW_CALL uint64_t name##recover(ORDERSET_PROVED_SET, uint32_t *count, uint32_t *at, uint64_t *value);     \
    ORDERSET_RAW_CALL uint64_t name##count_slots(ORDERSET_PROVED_INDEX, uint64_t *counts);                             \
    ORDERSET_RAW_CALL uint64_t name##get(ORDERSET_PROVED_READ, key, uint8_t *output, size_t output_length,             \
                                         uint64_t *answer);                                                            \
    ORDERSET_RAW_CALL uint64_t name##locate(ORDERSET_PROVED_READ, key, uint64_t *answer)

ORDERSET_PROVED_CALLS(orderset_proved_, ORDERSET_PROVED_KEY);
ORDERSET_PROVED_FAMILY(orderset_proved_, ORDERSET_PROVED_KEY, ORDERSET_PROVED_KEYS);
ORDERSET_PROVED_FAMILY(orderset_proved_own_, ORDERSET_PROVED_KEY, ORDERSET_PROVED_KEYS);
ORDERSET_PROVED_CALLS(orderset2_proved_, ORDERSET_PROVED_KEY_2);
ORDERSET_PROVED_FAMILY(orderset2_proved_, ORDERSET_PROVED_KEY_2, ORDERSET_PROVED_KEYS_2);
ORDERSET_PROVED_FAMILY(orderset2_proved_own_, ORDERSET_PROVED_KEY_2, ORDERSET_PROVED_KEYS_2);

/* of both layouts */
ORDERSET_RAW_CALL uint32_t orderset_proved_format(uint8_t *image, size_t image_length, uint64_t layout,
                                                  uint64_t *answer);
ORDERSET_RAW_CALL uint32_t orderset_proved_play(uint8_t *image, size_t image_length, const uint32_t *at,
                                                const uint64_t *value, size_t a, size_t b);
ORDERSET_RAW_CALL uint32_t orderset_proved_play_list(uint8_t *bytes, size_t bytes_length, const uint32_t *at,
                                                     size_t at_length, const uint64_t *value, size_t value_length);
ORDERSET_RAW_CALL uint32_t orderset_proved_line_whole(const uint8_t *line, size_t line_length, uint8_t *answer,
                                                      size_t answer_length);
ORDERSET_RAW_CALL uint32_t orderset_proved_line_version(const uint8_t *line, size_t line_length, uint8_t *answer,
                                                        size_t answer_length);
ORDERSET_RAW_CALL uint32_t orderset_proved_line_first(const uint8_t *line, size_t line_length, uint64_t version,
                                                      uint8_t *answer, size_t answer_length);
ORDERSET_RAW_CALL uint32_t orderset_proved_line_last(const uint8_t *line, size_t line_length, uint64_t version,
                                                     uint8_t *answer, size_t answer_length);

/* of the log */
ORDERSET_RAW_CALL uint32_t orderset_proved_log_append(const uint8_t *area, size_t area_length, const uint8_t *message,
                                                      size_t message_length, uint32_t *at, size_t at_length,
                                                      uint64_t *value, size_t value_length, uint64_t *answer);
ORDERSET_RAW_CALL uint32_t orderset_proved_log_append_after(const uint8_t *area, size_t area_length, uint64_t last,
                                                            const uint8_t *message, size_t message_length, uint32_t *at,
                                                            size_t at_length, uint64_t *value, size_t value_length,
                                                            uint64_t *answer);
ORDERSET_RAW_CALL uint32_t orderset_proved_log_recover(const uint8_t *area, size_t area_length, uint32_t *at,
                                                       size_t at_length, uint64_t *value, size_t value_length,
                                                       uint64_t *answer);
ORDERSET_RAW_CALL uint32_t orderset_proved_log_read(const uint8_t *area, size_t area_length, uint64_t number,
                                                    uint64_t *answer);

#ifdef __cplusplus
}
#endif

/* The words that a proved function answers into: fields of a struct that follow each other without a gap. */
#define ORDERSET_PROVED_WORDS(type, answer, first)                                                                     \
    ((uint64_t *)(void *)((char *)(answer) + offsetof(struct type, first)))

/* What this header refuses itself, before the library is called. Of a set that is not of layout 2 one test serves for
 * both: the layout is not 1, or a key's high word is not 0. */
#define ORDERSET_PROVED_NOT_LAYOUT_1(s, high) ((((s)->layout ^ ORDERSET_LAYOUT_1) | (high)) != 0)
static inline uint32_t orderset_raw_misfit(uint32_t layout) {
    return layout == ORDERSET_LAYOUT_1 ? ORDERSET_KEY_TOO_WIDE : ORDERSET_BAD_HEADER;
}

/* A call of the set's layout, with the set's memory in front of its arguments: one and two are the names of the proved
 * functions of the layouts, whole, so that a macro of the program with the name of a call is not taken for it. */
#define ORDERSET_PROVED_LENT(s)                                                                                        \
    (s)->image, (s)->image_length, (s)->heads, (s)->heads_length, (s)->next, (s)->next_length
#define ORDERSET_PROVED_OWNED(s) ORDERSET_PROVED_LENT(s), (s)->state, &(s)->version
#define ORDERSET_PROVED_OF(s, one, two, lent, k, ...)                                                                  \
    ((s)->layout == ORDERSET_LAYOUT_2            ? two(lent, (k).low, (k).high, __VA_ARGS__)                           \
     : ORDERSET_PROVED_NOT_LAYOUT_1(s, (k).high) ? orderset_raw_misfit((s)->layout)                                    \
                                                 : one(lent, (k).low, __VA_ARGS__))
#define ORDERSET_PROVED_WRITE(s, one, two, k, ...)                                                                     \
    ORDERSET_PROVED_OF(s, one, two, ORDERSET_PROVED_OWNED(s), k, __VA_ARGS__)

/* ---- the set */

/* Makes an empty image of the bytes, in layout 1 or 2. It looks at nothing that is there: all orders in the bytes are
 * gone. Never call it at a start. Refusals: BAD_IMAGE_LENGTH, BAD_LAYOUT. A cut during format is not covered: format
 * before the first use, and make the image durable before it gets its name. */
ORDERSET_RAW_CALL static inline uint32_t orderset_raw_format(void *image, size_t image_length, uint32_t layout) {
    uint64_t answer[ORDERSET_PROVED_FORMAT_ANSWER];
    return orderset_proved_format((uint8_t *)image, image_length, layout, answer);
}

/* The layout that an image tells, 0 where it tells none. */
ORDERSET_RAW_CALL static inline uint32_t orderset_raw_layout(const void *image, size_t image_length) {
    uint64_t word = 0;
    if (image_length >= ORDERSET_LINE_BYTES)
        memcpy(&word, (const char *)image + sizeof word, sizeof word);
    return word == ORDERSET_LAYOUT_1 || word == ORDERSET_LAYOUT_2 ? (uint32_t)word : 0;
}

/* Rebuilds the index from the image, whatever it held. The image is only read; if it may hold stores that are not
 * durable, make it durable first (above). The stores that it hands out come before any other call. Refusals: BAD_MARK;
 * then BAD_KIND_BITS, BAD_KIND, BAD_VALUE_LENGTH, BAD_TAIL, which name the lowest slot at fault and the first in that
 * order of what is wrong in it; VERSION_SHARED, TOO_MANY_BROKEN, NO_SPARE_SLOT. */
ORDERSET_RAW_CALL static inline uint32_t orderset_raw_recover(struct orderset_raw *set,
                                                              struct orderset_raw_recovery *found) {
    const uint64_t returned =
        set->layout == ORDERSET_LAYOUT_2
            ? orderset2_proved_recover(ORDERSET_PROVED_OWNED(set), &found->count, found->at, found->value)
        : ORDERSET_PROVED_NOT_LAYOUT_1(set, 0)
            ? orderset_raw_misfit(set->layout)
            : orderset_proved_recover(ORDERSET_PROVED_OWNED(set), &found->count, found->at, found->value);
    found->fault_slot = ORDERSET_PROVED_FAULT_SLOT(returned);
    return found->refusal = ORDERSET_PROVED_REFUSAL(returned);
}

/* Counts the slots of an image that recovery accepts; they add up to N. A live slot has the value of a held key, a
 * hidden one a value that a later record of its key hides; a remove record is counted whether it hides anything or not.
 * A record that is void is counted as void alone: to know how many a cut left, count before recovery's stores are made.
 * heads and next become those of recovery, while no state is written, and the chains of a set in use go in another
 * order: lend it a struct with heads and next of its own, or recover before any other call. Refusals: those of
 * recovery. */
ORDERSET_RAW_CALL static inline uint32_t orderset_raw_count_slots(struct orderset_raw *set,
                                                                  struct orderset_raw_counts *counts) {
    const uint64_t returned =
        set->layout == ORDERSET_LAYOUT_2       ? orderset2_proved_count_slots(ORDERSET_PROVED_LENT(set), counts->count)
        : ORDERSET_PROVED_NOT_LAYOUT_1(set, 0) ? orderset_raw_misfit(set->layout)
                                               : orderset_proved_count_slots(ORDERSET_PROVED_LENT(set), counts->count);
    counts->fault_slot = ORDERSET_PROVED_FAULT_SLOT(returned);
    return counts->refusal = ORDERSET_PROVED_REFUSAL(returned);
}

/* What a change returned, in its two fields. */
static inline uint32_t orderset_raw_changed(struct orderset_raw_change *change, uint64_t returned) {
    if (returned)
        change->compared = returned >> 32;
    return change->refusal = ORDERSET_PROVED_REFUSAL(returned);
}
static inline uint32_t orderset_raw_stepped(struct orderset_raw_change *change, uint32_t refusal) {
    change->compared = 0;
    return change->refusal = refusal;
}

/* The high words of a basket's keys, in one. */
static inline uint64_t orderset_raw_highs(const struct orderset_raw_items *items) {
    uint64_t all = 0;
    for (size_t i = 0; i < items->count && i < ORDERSET_BASKET_MAX; i++)
        all |= items->highs[i];
    return all;
}
#define ORDERSET_PROVED_CHANGE(c) (c)->at, (c)->value, ORDERSET_PROVED_WORDS(orderset_raw_change, c, outcome)

/* The calls that write, of one family; each is declared below. */
#define ORDERSET_RAW_FAMILY(raw, proved)                                                                               \
    static inline uint32_t orderset_raw_##raw##insert(struct orderset_raw *set, struct orderset_key key,               \
                                                      const void *value, size_t length,                                \
                                                      struct orderset_raw_change *change) {                            \
        return orderset_raw_changed(                                                                                   \
            change, ORDERSET_PROVED_WRITE(set, orderset_proved_##proved##insert, orderset2_proved_##proved##insert,    \
                                          key, (const uint8_t *)value, length, ORDERSET_PROVED_CHANGE(change)));       \
    }                                                                                                                  \
    static inline uint32_t orderset_raw_##raw##replace(struct orderset_raw *set, struct orderset_key key,              \
                                                       const void *value, size_t length,                               \
                                                       struct orderset_raw_change *change) {                           \
        return orderset_raw_changed(                                                                                   \
            change, ORDERSET_PROVED_WRITE(set, orderset_proved_##proved##replace, orderset2_proved_##proved##replace,  \
                                          key, (const uint8_t *)value, length, ORDERSET_PROVED_CHANGE(change)));       \
    }                                                                                                                  \
    static inline uint32_t orderset_raw_##raw##remove(struct orderset_raw *set, struct orderset_key key,               \
                                                      struct orderset_raw_change *change) {                            \
        return orderset_raw_changed(change, ORDERSET_PROVED_WRITE(set, orderset_proved_##proved##remove,               \
                                                                  orderset2_proved_##proved##remove, key,              \
                                                                  ORDERSET_PROVED_CHANGE(change)));                    \
    }                                                                                                                  \
    static inline uint32_t orderset_raw_##raw##book_new(struct orderset_raw *set, struct orderset_key key,             \
                                                        uint64_t quantity, struct orderset_raw_change *change) {       \
        return orderset_raw_stepped(change, ORDERSET_PROVED_WRITE(set, orderset_proved_##proved##book_new,             \
                                                                  orderset2_proved_##proved##book_new, key, quantity,  \
                                                                  ORDERSET_PROVED_CHANGE(change)));                    \
    }                                                                                                                  \
    static inline uint32_t orderset_raw_##raw##book_acknowledge(struct orderset_raw *set, struct orderset_key key,     \
                                                                struct orderset_raw_change *change) {                  \
        return orderset_raw_stepped(change, ORDERSET_PROVED_WRITE(set, orderset_proved_##proved##book_acknowledge,     \
                                                                  orderset2_proved_##proved##book_acknowledge, key,    \
                                                                  ORDERSET_PROVED_CHANGE(change)));                    \
    }                                                                                                                  \
    static inline uint32_t orderset_raw_##raw##book_fill(struct orderset_raw *set, struct orderset_key key,            \
                                                         uint64_t quantity, struct orderset_raw_change *change) {      \
        return orderset_raw_stepped(change, ORDERSET_PROVED_WRITE(set, orderset_proved_##proved##book_fill,            \
                                                                  orderset2_proved_##proved##book_fill, key, quantity, \
                                                                  ORDERSET_PROVED_CHANGE(change)));                    \
    }                                                                                                                  \
    static inline uint32_t orderset_raw_##raw##book_withdraw(struct orderset_raw *set, struct orderset_key key,        \
                                                             struct orderset_raw_change *change) {                     \
        return orderset_raw_stepped(change, ORDERSET_PROVED_WRITE(set, orderset_proved_##proved##book_withdraw,        \
                                                                  orderset2_proved_##proved##book_withdraw, key,       \
                                                                  ORDERSET_PROVED_CHANGE(change)));                    \
    }                                                                                                                  \
    static inline uint32_t orderset_raw_##raw##basket(struct orderset_raw *set, struct orderset_raw_items *items) {    \
        const size_t room = ORDERSET_BASKET_STORES(ORDERSET_BASKET_MAX);                                               \
        return items->refusal =                                                                                        \
                   set->layout == ORDERSET_LAYOUT_2                                                                    \
                       ? orderset2_proved_##proved##basket(ORDERSET_PROVED_OWNED(set), items->count, items->kinds,     \
                                                           items->lows, items->highs, items->lengths, items->bytes,    \
                                                           items->at, room, items->value, room,                        \
                                                           ORDERSET_PROVED_WORDS(orderset_raw_items, items, version))  \
                   : ORDERSET_PROVED_NOT_LAYOUT_1(set, orderset_raw_highs(items))                                      \
                       ? orderset_raw_misfit(set->layout)                                                              \
                       : orderset_proved_##proved##basket(ORDERSET_PROVED_OWNED(set), items->count, items->kinds,      \
                                                          items->lows, items->lengths, items->bytes, items->at, room,  \
                                                          items->value, room,                                          \
                                                          ORDERSET_PROVED_WORDS(orderset_raw_items, items, version));  \
    }

/* The calls of document 01. */

/* Gives the key, which is not held, the value. Refusals: VALUE_TOO_LONG, INDEX_MISMATCH (chain), and with the slots
 * compared KEY_EXISTS, INDEX_MISMATCH (reuse), FULL, EXHAUSTED. */
ORDERSET_RAW_CALL static inline uint32_t orderset_raw_insert(struct orderset_raw *set, struct orderset_key key,
                                                             const void *value, size_t length,
                                                             struct orderset_raw_change *change);

/* Gives the key, which is held, the value in the place of the one that it has. Refusals: as insert, with KEY_MISSING
 * for KEY_EXISTS. */
ORDERSET_RAW_CALL static inline uint32_t orderset_raw_replace(struct orderset_raw *set, struct orderset_key key,
                                                              const void *value, size_t length,
                                                              struct orderset_raw_change *change);

/* Drops the key, or answers absent. Refusals: INDEX_MISMATCH (chain), and for a held key, with the slots compared,
 * INDEX_MISMATCH (reuse, or a live count of zero), FULL, EXHAUSTED. */
ORDERSET_RAW_CALL static inline uint32_t orderset_raw_remove(struct orderset_raw *set, struct orderset_key key,
                                                             struct orderset_raw_change *change);

/* Gives the key, which is not held, a sent order of the quantity, nothing of it filled. Refusals: INDEX_MISMATCH
 * (chain), NEW_KEY_EXISTS, BAD_QUANTITY, INDEX_MISMATCH (reuse), FULL, EXHAUSTED. */
ORDERSET_RAW_CALL static inline uint32_t orderset_raw_book_new(struct orderset_raw *set, struct orderset_key key,
                                                               uint64_t quantity, struct orderset_raw_change *change);

/* Makes the key's sent order an acknowledged one. If it is acknowledged already, outcome tells it, with its slot and
 * the version of its line A. Refusals: INDEX_MISMATCH (chain), NO_ORDER, and for a sent order INDEX_MISMATCH (reuse),
 * FULL, EXHAUSTED. */
ORDERSET_RAW_CALL static inline uint32_t
orderset_raw_book_acknowledge(struct orderset_raw *set, struct orderset_key key, struct orderset_raw_change *change);

/* Adds the quantity to what is filled of the key's order, sent or acknowledged, and keeps its state. What is open is
 * ordered less filled; a fill of all of it removes the order. Refusals: INDEX_MISMATCH (chain), NO_ORDER, BAD_QUANTITY,
 * INDEX_MISMATCH (reuse, or a live count of zero where the order is removed), FULL, EXHAUSTED. */
ORDERSET_RAW_CALL static inline uint32_t orderset_raw_book_fill(struct orderset_raw *set, struct orderset_key key,
                                                                uint64_t quantity, struct orderset_raw_change *change);

/* Withdraws all that is open of the key's order, sent or acknowledged: it is removed. Refusals: INDEX_MISMATCH (chain),
 * NO_ORDER, INDEX_MISMATCH (reuse, or a live count of zero), FULL, EXHAUSTED. */
ORDERSET_RAW_CALL static inline uint32_t orderset_raw_book_withdraw(struct orderset_raw *set, struct orderset_key key,
                                                                    struct orderset_raw_change *change);

/* Changes all of the items' keys or none. Refusals, of which each is tested for all keys before the next: BAD_HEADER of
 * a layout that is neither 1 nor 2, KEY_TOO_WIDE, BAD_BASKET, KEY_TWICE; then BAD_IMAGE_LENGTH and the others of every
 * call, VALUE_TOO_LONG of an insert or a replace; INDEX_MISMATCH (chain); KEY_EXISTS of an insert or KEY_MISSING of a
 * replace or a remove, whichever comes first; INDEX_MISMATCH (reuse, or a live count below the number of removes),
 * FULL, EXHAUSTED. */
ORDERSET_RAW_CALL static inline uint32_t orderset_raw_basket(struct orderset_raw *set,
                                                             struct orderset_raw_items *items);

/* For the owner of the index (above): as those without own_. They are no calls of document 01. */
ORDERSET_RAW_CALL static inline uint32_t orderset_raw_own_insert(struct orderset_raw *set, struct orderset_key key,
                                                                 const void *value, size_t length,
                                                                 struct orderset_raw_change *change);
ORDERSET_RAW_CALL static inline uint32_t orderset_raw_own_replace(struct orderset_raw *set, struct orderset_key key,
                                                                  const void *value, size_t length,
                                                                  struct orderset_raw_change *change);
ORDERSET_RAW_CALL static inline uint32_t orderset_raw_own_remove(struct orderset_raw *set, struct orderset_key key,
                                                                 struct orderset_raw_change *change);
ORDERSET_RAW_CALL static inline uint32_t orderset_raw_own_book_new(struct orderset_raw *set, struct orderset_key key,
                                                                   uint64_t quantity,
                                                                   struct orderset_raw_change *change);
ORDERSET_RAW_CALL static inline uint32_t orderset_raw_own_book_acknowledge(struct orderset_raw *set,
                                                                           struct orderset_key key,
                                                                           struct orderset_raw_change *change);
ORDERSET_RAW_CALL static inline uint32_t orderset_raw_own_book_fill(struct orderset_raw *set, struct orderset_key key,
                                                                    uint64_t quantity,
                                                                    struct orderset_raw_change *change);
ORDERSET_RAW_CALL static inline uint32_t
orderset_raw_own_book_withdraw(struct orderset_raw *set, struct orderset_key key, struct orderset_raw_change *change);
ORDERSET_RAW_CALL static inline uint32_t orderset_raw_own_basket(struct orderset_raw *set,
                                                                 struct orderset_raw_items *items);

ORDERSET_RAW_FAMILY(, )
ORDERSET_RAW_FAMILY(own_, own_)

/* Adds an item to a basket: kind is ORDERSET_INSERT, ORDERSET_REPLACE or ORDERSET_REMOVE, of which the last has no
 * value. The value is copied. Of a value that is too long only the length is kept, which the call refuses; a ninth item
 * is only counted, and refused too. */
static inline void orderset_raw_add(struct orderset_raw_items *items, uint32_t kind, struct orderset_key key,
                                    const void *value, size_t length) {
    const size_t i = items->count++;
    if (i >= ORDERSET_BASKET_MAX)
        return;
    items->kinds[i] = kind;
    items->lows[i] = key.low;
    items->highs[i] = key.high;
    items->lengths[i] = kind == ORDERSET_REMOVE ? 0 : length;
    if (items->lengths[i] > 0 && items->lengths[i] <= ORDERSET_VALUE_MAX)
        memcpy(items->bytes + ORDERSET_VALUE_MAX * i, value, items->lengths[i]);
}

/* Copies the key's value to the front of the output, which has room bytes; the bytes after it stay as they were. An
 * output of ORDERSET_VALUE_MAX bytes is always long enough. Refusals: INDEX_MISMATCH, and for a held key, with the
 * slots compared, BAD_VALUE_LENGTH, BUFFER_TOO_SHORT. */
ORDERSET_RAW_CALL static inline uint32_t orderset_raw_get(const struct orderset_raw *set, struct orderset_key key,
                                                          void *output, size_t room, struct orderset_raw_value *found) {
    const uint64_t returned =
        ORDERSET_PROVED_OF(set, orderset_proved_get, orderset2_proved_get, ORDERSET_PROVED_LENT(set), key,
                           (uint8_t *)output, room, ORDERSET_PROVED_WORDS(orderset_raw_value, found, outcome));
    if (returned)
        found->compared = returned >> 32;
    return found->refusal = ORDERSET_PROVED_REFUSAL(returned);
}

/* Tells where the key stands. Refusals: INDEX_MISMATCH. */
ORDERSET_RAW_CALL static inline uint32_t orderset_raw_locate(const struct orderset_raw *set, struct orderset_key key,
                                                             struct orderset_raw_place *found) {
    const uint64_t returned =
        ORDERSET_PROVED_OF(set, orderset_proved_locate, orderset2_proved_locate, ORDERSET_PROVED_LENT(set), key,
                           ORDERSET_PROVED_WORDS(orderset_raw_place, found, outcome));
    if (returned)
        found->compared = returned >> 32;
    return found->refusal = ORDERSET_PROVED_REFUSAL(returned);
}

/* Makes the first a stores of a change's first half and the first b of its second: with 8 and 8 the whole change, with
 * less what a cut leaves of it. Plain writes: nothing is flushed. Refusals: BAD_IMAGE_LENGTH, COUNT_TOO_HIGH,
 * BAD_STORES. */
ORDERSET_RAW_CALL static inline uint32_t
orderset_raw_play(const struct orderset_raw *set, const struct orderset_raw_change *change, size_t a, size_t b) {
    return orderset_proved_play(set->image, set->image_length, change->at, change->value, a, b);
}

/* Makes all stores of a list, in order, on bytes of any length: those of a basket, of a recovery or of the log.
 * Refusals: BAD_STORES. */
ORDERSET_RAW_CALL static inline uint32_t orderset_raw_play_list(void *bytes, size_t bytes_length, const uint32_t *at,
                                                                const uint64_t *value, size_t count) {
    return orderset_proved_play_list((uint8_t *)bytes, bytes_length, at, count, value, count);
}

/* ---- a line of 64 bytes */

/* 1 where the line is whole, 0 where it is open. */
ORDERSET_RAW_CALL static inline int orderset_raw_line_whole(const void *line) {
    uint64_t whole = 0;
    return !orderset_proved_line_whole((const uint8_t *)line, ORDERSET_LINE_BYTES, (uint8_t *)&whole, sizeof whole)
           && whole;
}

/* The version in the line's stamp. The stamp is stored last: of a line that is open because a call is writing it, it is
 * the version from before that call. */
ORDERSET_RAW_CALL static inline uint64_t orderset_raw_line_version(const void *line) {
    uint64_t version = 0;
    return orderset_proved_line_version((const uint8_t *)line, ORDERSET_LINE_BYTES, (uint8_t *)&version, sizeof version)
               ? 0
               : version;
}

/* The first word that a call which writes this version stores into the line, its mark against the close bit that stands
 * there; and the last one, the stamp, version * 2 + the first word. Refusals: EXHAUSTED. */
ORDERSET_RAW_CALL static inline uint32_t orderset_raw_line_first(const void *line, uint64_t version, uint64_t *word) {
    return orderset_proved_line_first((const uint8_t *)line, ORDERSET_LINE_BYTES, version, (uint8_t *)word,
                                      sizeof *word);
}
ORDERSET_RAW_CALL static inline uint32_t orderset_raw_line_last(const void *line, uint64_t version, uint64_t *word) {
    return orderset_proved_line_last((const uint8_t *)line, ORDERSET_LINE_BYTES, version, (uint8_t *)word,
                                     sizeof *word);
}

/* ---- the log */

/* Appends a message; its number is one above the highest complete one. Refusals: BAD_LOG_LENGTH, BAD_MESSAGE,
 * EXHAUSTED. */
ORDERSET_RAW_CALL static inline uint32_t orderset_raw_log_append(const struct orderset_raw_log *log,
                                                                 const void *message, size_t length,
                                                                 struct orderset_raw_stores *stores) {
    return stores->refusal = orderset_proved_log_append(
               log->area, log->area_length, (const uint8_t *)message, length, stores->at, ORDERSET_LOG_CELLS_MAX,
               stores->value, ORDERSET_LOG_CELLS_MAX, ORDERSET_PROVED_WORDS(orderset_raw_stores, stores, number));
}

/* The same without a look at every cell: last is the number that recovery or the last append that was not refused
 * answered, and with it the call does what orderset_raw_log_append does. Any other number is taken too, and the message
 * goes to the cell of the number above it, over what stands there. Refusals: BAD_LOG_LENGTH, BAD_MESSAGE, EXHAUSTED. */
ORDERSET_RAW_CALL static inline uint32_t orderset_raw_log_append_after(const struct orderset_raw_log *log,
                                                                       uint64_t last, const void *message,
                                                                       size_t length,
                                                                       struct orderset_raw_stores *stores) {
    return stores->refusal = orderset_proved_log_append_after(
               log->area, log->area_length, last, (const uint8_t *)message, length, stores->at, ORDERSET_LOG_CELLS_MAX,
               stores->value, ORDERSET_LOG_CELLS_MAX, ORDERSET_PROVED_WORDS(orderset_raw_stores, stores, number));
}

/* Recovers the log; at most one store a cell. Refusals: BAD_LOG_LENGTH. */
ORDERSET_RAW_CALL static inline uint32_t orderset_raw_log_recover(const struct orderset_raw_log *log,
                                                                  struct orderset_raw_stores *stores) {
    return stores->refusal = orderset_proved_log_recover(log->area, log->area_length, stores->at,
                                                         ORDERSET_LOG_CELLS_MAX, stores->value, ORDERSET_LOG_CELLS_MAX,
                                                         ORDERSET_PROVED_WORDS(orderset_raw_stores, stores, number));
}

/* Finds the message with this number: it stands at *message in the area, *length bytes. Nothing is copied. The bytes
 * stay until message number + K is appended: copy them before. Refusals: BAD_LOG_LENGTH, NO_MESSAGE (the number is none
 * of the last K - 1 up to the highest complete one, or that message is not complete). */
ORDERSET_RAW_CALL static inline uint32_t orderset_raw_log_read(const struct orderset_raw_log *log, uint64_t number,
                                                               const uint8_t **message, size_t *length) {
    uint64_t answer[ORDERSET_PROVED_LOG_ANSWER];
    const uint32_t refusal = orderset_proved_log_read(log->area, log->area_length, number, answer);
    if (refusal)
        return refusal;
    *message = log->area + answer[ORDERSET_PROVED_LOG_OFFSET];
    *length = answer[ORDERSET_PROVED_LOG_LENGTH];
    return ORDERSET_OK;
}

#endif
