/* differential.h: the parts of the test differential, each in its file: sets and what is compared of them, lines,
 * recovery, the calls on single keys, baskets, the plain map, histories, images, and directed cases. */
#ifndef DIFFERENTIAL_H
#define DIFFERENTIAL_H

#include <inttypes.h>
#include <limits.h>
#include <stdio.h>
#include <stdlib.h>
#include <string.h>

#include "chance.h"
#include "images.h"
#include "model.h"

enum { SMALL = 40 }; /* the slots of a set of which everything is compared after each call, at the most */

/* ---- differential_set.c: a set twice, lent to the archive, and the model's own */

struct set {
    uint32_t n;
    size_t length;
    uint8_t *image, *model_image;
    uint32_t *heads, *next;
    uint32_t *state;
    uint64_t *version;
    struct m_index model;
    uint32_t *at;
    uint64_t *value;
    uint32_t *count, *open_at; /* what recovery hands out */
    uint64_t *open_value;
    struct m_basket basket; /* what the last basket hands out */
    int own;                /* the index is the image's own */
    int named;              /* and its state names a slot of the highest version among the valid ones */
    uint64_t since;         /* calls since everything was compared */
};

enum which {
    FORMAT,
    RECOVER,
    INSERT,
    REPLACE,
    REMOVE,
    GET,
    LOCATE,
    NEW,
    ACKNOWLEDGE,
    FILL,
    WITHDRAW,
    PLAY,
    PLAY_LIST,
    BASKET,
    LINE_WHOLE,
    LINE_VERSION,
    LINE_FIRST,
    LINE_LAST,
    WHICH
};

enum { DONE = 0, ABSENT = 100, ALREADY = 101, ANSWERS };      /* answers that are no refusal */
extern uint64_t baskets, half_baskets, openings;              /* whole, struck by a cut, stores that open void slots */
extern uint64_t calls, strikes, queries, met[WHICH][ANSWERS]; /* queries: of lines; met: by the answer */
extern uint64_t compared, longest, far_met[WHICH][ANSWERS];   /* slots: of the last call, the most; with 2 or more */
extern uint64_t own_calls, both, own_met[WHICH][ANSWERS];     /* by the owner's calls; both: beside the other family */
extern uint32_t named;                                        /* the slot that the last recovery named */
extern uint64_t counted;                                      /* accepted images whose slots were counted */
extern const char *phase;
extern enum which call;
extern int owner; /* the call is the one for the owner of its index */
extern const struct set *now;
extern size_t call_a, call_b;

/* Memory with a guard on both sides; guarded: nobody wrote there. */
void *lend(size_t length);
void give_back(void *lent);
int guarded(const void *lent, size_t length);

/* Prints the difference and the case, and ends the test. */
void __attribute__((noreturn, format(printf, 1, 2))) differ(const char *what, ...);
void same_number(const char *what, uint64_t archive, uint64_t model);
void same_bytes(const char *what, const void *archive, const void *model, size_t length);

/* What a case shows; a call begins with it. */
void keep_case(const struct set *s, enum which which, m_key key, size_t size, size_t a, size_t b);
void begin(const struct set *s, enum which which, m_key key, size_t size, size_t a, size_t b);

/* done: what the call answers if it is not refused */
unsigned same_code(uint32_t archive, int model, unsigned done);

/* The same for a call that reports the slots compared: in that word of its answer, or in the code if it is refused. */
unsigned same_report(uint64_t archive, int model, unsigned done, uint64_t word, uint32_t model_compared);

/* Everything that is lent for longer than a call, bytes and guards. */
void compare_all(struct set *s);

/* The state always; the rest always in a small set, and every 500 calls in a large one. */
void compare(struct set *s);

struct set *open_set(size_t length, size_t heads, size_t next);
void close_set(struct set *s);

/* What the archive is lent becomes what the model has. */
void lend_same(struct set *s);

/* The index that the model has becomes what the archive left. */
void take_over(struct set *s);

/* The model's index becomes garbage, and what the archive is lent the same. */
void lend_garbage(struct set *s);

/* ---- differential_lines.c */

/* Every line of the image, the header's too. */
void every_line(const struct set *s);

/* Before the stores of a call are made, the lines say what it stores into them first and last. */
void framed(const struct set *s, uint32_t slot, uint64_t version);

/* A line of an image, sound or damaged, or any bytes; lengths that are mostly right. */
void lines(void);
void directed_lines(void);

/* ---- differential_recovery.c */

int try_format(struct set *s, uint64_t layout);
int try_recover(struct set *s);

/* Makes the stores that open the void slots: all of them, or those whose bits are set. */
void open_voids(struct set *s, unsigned which);

/* The slot is broken: line A or line B is open. */
void break_slot(uint8_t *image, uint32_t slot, int line);

void directed_groups(void);

/* ---- differential_calls.c */

/* A call that stores, if it is not refused. quantity: of new and fill; bytes and size: of insert and replace. */
struct request {
    enum which which;
    m_key key;
    uint64_t quantity;
    const uint8_t *bytes;
    size_t size;
};

/* The family of the next call that writes: 0 and 1 where a directed case asks for it, else by chance. */
extern int family;
int any_family(void);

/* Where the index is the image's own, the owner's call is to be the one of document 01. */
int by_document(const struct set *s);

/* Is the other family called too? Then a copy of the set for it, else NULL. */
struct set *perhaps_twin(const struct set *s);

/* The image and the index that the two families left are the same. Closes the copy. */
void same_left(struct set *s, struct set *twin);

/* The owner's call, by a state that names another slot, may take one that no call takes: the index is no longer the
 * image's own. */
void after_change(struct set *s, unsigned answered);

/* The answer: DONE if there are stores. */
unsigned try_change(struct set *s, const struct request *r);
unsigned try_locate(struct set *s, m_key key);

/* The answer of the archive's get, after it was compared: the refusal's number, ABSENT, or 200 and the length. */
unsigned try_get(struct set *s, m_key key, uint8_t *out, size_t room);

/* The stores of the last call, so many on each line; and any stores. */
int try_play(struct set *s, size_t a, size_t b);
void try_play_list(struct set *s, const uint32_t *at, size_t places, const uint64_t *value, size_t values);

/* ---- differential_baskets.c */

/* A basket: how many of the items are asked, and the lengths of the two lists that are lent. */
struct basket {
    size_t count, places, values;
    struct m_item item[ORDERSET_BASKET_MAX];
};

unsigned try_basket(struct set *s, const struct basket *b);

/* The stores of item i of the last basket become those that are played. */
void stores_of_item(struct set *s, size_t i);

/* What is asked for a key: mostly what it asks for. */
uint32_t any_kind(int held);

/* As long as the stores or longer; sometimes too short. */
size_t any_places(size_t count);

void directed_baskets(void);

/* ---- differential_plain.c: a value, or none, for each key of a small universe */

__extension__ typedef unsigned __int128 total;

struct plain {
    uint32_t keys;
    m_key *key;
    uint8_t (*bytes)[VALUE_MAX];
    int16_t *size; /* -1: absent */
    uint32_t held;
    int grown;                        /* from a formatted image */
    int book_only;                    /* nothing but book steps since it was empty */
    total ordered, filled, withdrawn; /* by the accepted steps that no cut made absent */
};

/* What a call does when all its stores stand. */
struct effect {
    uint32_t i;
    int holds; /* the key then has the bytes; otherwise it is dropped */
    uint8_t bytes[128];
    size_t size;
    uint64_t ordered, filled, withdrawn;
};

struct plain *open_plain(uint32_t keys);
void close_plain(struct plain *p);
struct plain *copy_plain(const struct plain *p);
void plain_take(struct plain *p, const struct effect *e);

/* What is open of an order, or 0 where the bytes are no order. */
uint64_t open_of(const uint8_t *bytes, int size);

/* The slots compared of one call of a history: at most as many as held keys share the head. In a large set that is not
 * counted. */
void few_compared(const struct set *s, const struct plain *p, uint32_t i);

/* The set has what the map has, and the totals are right. */
void same_map(struct set *s, const struct plain *p);

/* The rules' answer by the plain map alone, and what the call does if it is done. */
unsigned plain_answer(const struct set *s, const struct plain *p, const struct request *r, struct effect *e);

/* ---- differential_history.c */

/* All stores of a call, or some, or none: then the index is no longer the image's own. */
void play_some(struct set *s);

void small_history(void);
void medium_history(void);
void large_history(unsigned k);

/* ---- differential_images.c: one image a call */

void images(void);
void garbage(void);

/* Recovery alone, of images with one to six faults. */
void damaged(void);

/* Lengths that no image or index has, and stores that are no call's. */
void lengths(void);

/* ---- differential_directed.c */

/* what is wrong with the set of a directed case */
enum fault {
    SOUND,
    BAD_LENGTH,
    UNFORMATTED,
    BAD_HEADER,
    NO_HEADS,
    MANY_HEADS,
    BAD_NEXT,
    BAD_MARK,
    BAD_KIND,
    SAME_VERSION,
    ALL_LIVE,
    ABOVE_N,
    ROUND,
    FULL,
    LAST_VERSION,
    NO_FIRST,
    NO_LAST,
    FIRST_NEXT,
    NO_LIVE,
    LONG_RECORD,
    OUT_OF_ORDER,
    OUTSIDE,
    ONE_LINE,
    TWO_LENGTHS,
    OTHER_STATE,
    ALL_FILLED,
    OTHER_SIZE,
    LARGE_ORDER,
    ALL_SLOTS,
    ALL_BUT_ONE,
    LONG_LAST,
    BAD_BITS,
    BAD_TAIL,
    REMOVE_LENGTH,
    BITS_AND_KIND,
    KIND_AND_LENGTH,
    LENGTH_AND_TAIL,
    TAIL_THEN_BITS,
    ONE_BROKEN,
    TWO_BROKEN,
    SAME_AND_BROKEN,
    NONE_TO_TAKE,
    KEPT_REMOVE,
    LATER_LINK,
    ROUND_REUSE,
    NONE_AND_VERSION,
    FULL_AND_VERSION,
    NONE_AND_NO_LIVE,
    LIVE_N,
    LIVE_ABOVE,
    ONE_LIVE,
    LAST_LINK,
    OTHER_LAYOUT,
    OTHER_HIGH,
    SPARE_RECORDS,
    UNNAMED,
    NAMED_ABOVE,
    NAMED_OLDER,
    KEPT_NAMED,
    OLDER_FIRST,
    OLDER_LAST,
    NEWEST_FIRST,
    FAULTS
};

/* sets of calls */
enum { IN_FORMAT = 1 << FORMAT, IN_RECOVER = 1 << RECOVER };
enum { IN_INSERT = 1 << INSERT, IN_REPLACE = 1 << REPLACE, IN_REMOVE = 1 << REMOVE };
enum { IN_GET = 1 << GET, IN_LOCATE = 1 << LOCATE, IN_PLAY = 1 << PLAY, IN_PLAY_LIST = 1 << PLAY_LIST };
enum { IN_NEW = 1 << NEW, IN_ACKNOWLEDGE = 1 << ACKNOWLEDGE, IN_FILL = 1 << FILL, IN_WITHDRAW = 1 << WITHDRAW };
enum { IN_WRITE = IN_INSERT | IN_REPLACE, IN_CHANGE = IN_REPLACE | IN_REMOVE }; /* change: of a held key */
enum { IN_STEP = IN_ACKNOWLEDGE | IN_FILL | IN_WITHDRAW };
enum { IN_OWN = IN_WRITE | IN_REMOVE | IN_NEW | IN_STEP | 1 << BASKET }; /* of two families */
enum { IN_WALK = IN_WRITE | IN_REMOVE | IN_GET | IN_LOCATE | IN_NEW | IN_STEP, IN_ALL = IN_WALK | IN_RECOVER };

/* The set of the directed cases, with this fault, and a key of it. */
struct set *directed_set(enum fault fault);
m_key directed_key(uint64_t low);

void all_directed(void);

#endif
