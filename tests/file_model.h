/* file_model.h: random changes through a handle of orderset.h, and what they answer and leave by a plain map. */
#ifndef FILE_MODEL_H
#define FILE_MODEL_H

#include "orderset.h"

enum { KEYS = 24 };

struct value {
    int held;
    size_t length;
    uint8_t bytes[ORDERSET_VALUE_MAX + 1];
};

struct plain {
    uint32_t slots, layout, keys; /* keys: only the first so many are used */
    struct orderset_key key[KEYS];
    struct value value[KEYS];
};

/* A change: its first item, or of a basket all of them. Of a new order and a fill the quantity counts, and no value. */
struct call {
    enum call_kind { INSERT, REPLACE, REMOVE, NEW, ACKNOWLEDGE, FILL, WITHDRAW, BASKET } kind;
    size_t count;
    uint64_t quantity;
    struct call_item {
        uint32_t kind, key; /* key: its place in the plain map */
        struct value value;
    } item[ORDERSET_BASKET_MAX + 1];
};

/* An empty map with other keys, some or all of them in use; in layout 2 many have the same low word. */
void make_plain(struct plain *p, uint32_t slots, uint32_t layout);

uint32_t count_held(const struct plain *p);

/* Mostly one that is not refused. */
void any_call(const struct plain *p, struct call *c);

uint32_t carry_out(struct orderset *set, const struct plain *p, const struct call *c);

/* The number that the call is to give, and the map after it. */
uint32_t due(const struct plain *p, const struct call *c, struct plain *later);

/* Whether the call may give the number: the one that is due, or 28 of a basket, where that is by the slots. */
int may_give(uint32_t due, uint32_t number, const struct call *c);

/* Whether the handle shows the map and nothing else: by get, by locate, by iteration and by its statistics. */
int shows(struct orderset *set, const struct plain *p);

#endif
