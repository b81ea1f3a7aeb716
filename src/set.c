/* The set in a file behind a handle: orderset.h says what it does. Nothing here is proved. What is proved are the calls
 * below orderset_raw.h, which decide every answer and every store; here they are handed the file's bytes and an index,
 * and their stores are made durable. */
#include <errno.h>
#include <stdlib.h>
#include <string.h>

#include "internal.h"

struct orderset {
    struct area area;
    struct orderset_raw raw;            /* the image is the area's bytes; the index is the handle's own */
    struct orderset_raw_recovery found; /* what recovery handed out */
    uint32_t refusal;                   /* of recovery, or of the length */
    uint32_t compared;
};

/* ---- open and close */

/* The largest prime up to the number of slots: chains are short, also where keys step by a round number. */
static size_t heads_for(size_t slots) {
    for (size_t heads = slots;; heads--) {
        size_t divisor = 2;
        while (divisor * divisor <= heads && heads % divisor)
            divisor++;
        if (divisor * divisor > heads)
            return heads;
    }
}

/* What is recovered. */
struct recovering {
    struct orderset_raw *raw;
    struct orderset_raw_recovery *found;
};

/* Bytes that tell no layout are recovered as those of layout 1, which says what is wrong with their header. */
static void *recover_bytes(void *argument) {
    struct recovering *s = argument;
    const uint32_t layout = s->raw->layout;
    s->raw->layout = layout ? layout : ORDERSET_LAYOUT_1;
    s->found->refusal = orderset_raw_recover(s->raw, s->found);
    s->raw->layout = layout;
    return NULL;
}

uint32_t orderset_index_bytes(struct orderset_raw *raw, uint8_t *bytes, size_t length,
                              struct orderset_raw_recovery *found) {
    raw->image = bytes;
    raw->image_length = length;
    raw->layout = orderset_raw_layout(raw->image, raw->image_length);
    raw->next_length = raw->image_length / ORDERSET_SLOT_BYTES;
    raw->heads_length = heads_for(raw->next_length - 1);
    raw->heads = calloc(raw->heads_length, sizeof *raw->heads);
    raw->next = calloc(raw->next_length, sizeof *raw->next);
    if (!raw->heads || !raw->next)
        return ORDERSET_ERRNO;
    return orderset_on_own_stack(recover_bytes, &(struct recovering){raw, found});
}

void orderset_free_index(struct orderset_raw *raw) {
    free(raw->heads);
    free(raw->next);
}

static uint32_t start_set(struct orderset *s) {
    const uint32_t number = orderset_index_bytes(&s->raw, s->area.bytes, s->area.length, &s->found);
    s->refusal = number ? 0 : s->found.refusal;
    if (number || s->refusal)
        return number ? number : s->refusal;
    if (s->area.mode == ORDERSET_INSPECT)
        return ORDERSET_OK;
    return orderset_area_persist_recovery(&s->area, s->found.at, s->found.value, s->found.count);
}

/* Header and marks, as recovery tests them, before anything is written: of a copy recovery says it. */
static uint32_t look_at_set(const struct area *a, uint64_t *chunk) {
    if (a->mode != ORDERSET_WRITE)
        return ORDERSET_OK;
    if (orderset_area_read(a, 0, chunk, ORDERSET_LINE_BYTES))
        return ORDERSET_ERRNO;
    if (chunk[0] == 0)
        return ORDERSET_NOT_FORMATTED;
    int same = chunk[0] == a->length / ORDERSET_SLOT_BYTES - 1;
    same &= chunk[1] == ORDERSET_LAYOUT_1 || chunk[1] == ORDERSET_LAYOUT_2;
    for (size_t i = 2; i < ORDERSET_LINE_STORES; i++)
        same &= chunk[i] == 0;
    if (!same)
        return ORDERSET_BAD_HEADER;
    return orderset_area_marks(a, chunk, ORDERSET_STORES, ORDERSET_LINE_STORES, ORDERSET_BAD_MARK);
}

static const struct form set_form = {ORDERSET_SLOT_BYTES, ORDERSET_SLOTS_MIN + 1, ORDERSET_SLOTS_MAX + 1,
                                     ORDERSET_BAD_IMAGE_LENGTH, look_at_set};

/* The set in the file of that path, or where it is null in the bytes. */
static uint32_t open_set(const char *path, const uint8_t *bytes, size_t length, uint32_t mode, struct orderset **set) {
    struct orderset *s = calloc(1, sizeof *s);
    if (!s)
        return ORDERSET_ERRNO;
    s->area.mode = mode;
    s->area.file = -1;
    uint32_t number =
        path ? orderset_area_open(&s->area, path, &set_form) : orderset_area_copy(&s->area, bytes, length, &set_form);
    if (number == ORDERSET_BAD_IMAGE_LENGTH)
        s->refusal = number;
    if (!number)
        number = start_set(s);
    if (number && !(mode == ORDERSET_INSPECT && number == s->refusal)) {
        orderset_close(s);
        return number;
    }
    *set = s;
    return ORDERSET_OK;
}

uint32_t orderset_open(const char *path, uint32_t mode, struct orderset **set) {
    *set = NULL;
    if (mode > ORDERSET_INSPECT && mode != ORDERSET_LIVE)
        return ORDERSET_BAD_MODE;
    const int cancel = hold_cancel();
    const uint32_t number = path ? open_set(path, NULL, 0, mode, set) : refuse_no_path();
    release_cancel(cancel);
    return number;
}

uint32_t orderset_open_bytes(const uint8_t *bytes, size_t length, uint32_t mode, struct orderset **set) {
    *set = NULL;
    return open_set(NULL, bytes, length, mode, set);
}

/* errno stays. */
void orderset_close(struct orderset *set) {
    const int error = errno;
    if (!set)
        return;
    const int cancel = hold_cancel();
    orderset_area_close(&set->area);
    orderset_free_index(&set->raw);
    free(set);
    errno = error;
    release_cancel(cancel);
}

/* ---- changes */

/* The index is the handle's own: from its recovery, whose stores are made, and its calls since, each with its stores
 * made before the next; after a failure there is no further change. So the changes are the calls for the owner of the
 * index, which do not look through the image. */

static uint32_t refuse_read(const struct orderset *s) {
    return s->refusal ? s->refusal : may_read(&s->area);
}

static uint32_t refuse_change(const struct orderset *s) {
    return s->refusal ? s->refusal : may_change(&s->area);
}

/* Its refusal, or its stores made durable. */
static uint32_t finish(struct orderset *s, uint32_t refusal, const struct orderset_raw_change *c) {
    if (refusal)
        return refusal;
    if (c->outcome == ORDERSET_RAW_ABSENT)
        return ORDERSET_NOT_FOUND;
    if (c->outcome == ORDERSET_RAW_ALREADY)
        return ORDERSET_ALREADY_ACKNOWLEDGED;
    return orderset_area_persist(&s->area, c->at, c->value, ORDERSET_STORES);
}

/* The same of a call that tells how many slots it compared. */
static uint32_t finish_counted(struct orderset *s, uint32_t refusal, const struct orderset_raw_change *c) {
    s->compared = (uint32_t)c->compared;
    return finish(s, refusal, c);
}

uint32_t orderset_insert(struct orderset *set, struct orderset_key key, const void *value, size_t length) {
    struct orderset_raw_change c;
    const uint32_t number = refuse_change(set);
    if (number)
        return number;
    return finish_counted(set, orderset_raw_own_insert(&set->raw, key, length ? value : orderset_nothing, length, &c),
                          &c);
}

uint32_t orderset_replace(struct orderset *set, struct orderset_key key, const void *value, size_t length) {
    struct orderset_raw_change c;
    const uint32_t number = refuse_change(set);
    if (number)
        return number;
    return finish_counted(set, orderset_raw_own_replace(&set->raw, key, length ? value : orderset_nothing, length, &c),
                          &c);
}

uint32_t orderset_remove(struct orderset *set, struct orderset_key key) {
    struct orderset_raw_change c;
    const uint32_t number = refuse_change(set);
    return number ? number : finish_counted(set, orderset_raw_own_remove(&set->raw, key, &c), &c);
}

uint32_t orderset_book_new(struct orderset *set, struct orderset_key key, uint64_t quantity) {
    struct orderset_raw_change c;
    const uint32_t number = refuse_change(set);
    return number ? number : finish(set, orderset_raw_own_book_new(&set->raw, key, quantity, &c), &c);
}

uint32_t orderset_book_acknowledge(struct orderset *set, struct orderset_key key) {
    struct orderset_raw_change c;
    const uint32_t number = refuse_change(set);
    return number ? number : finish(set, orderset_raw_own_book_acknowledge(&set->raw, key, &c), &c);
}

uint32_t orderset_book_fill(struct orderset *set, struct orderset_key key, uint64_t quantity) {
    struct orderset_raw_change c;
    const uint32_t number = refuse_change(set);
    return number ? number : finish(set, orderset_raw_own_book_fill(&set->raw, key, quantity, &c), &c);
}

uint32_t orderset_book_withdraw(struct orderset *set, struct orderset_key key) {
    struct orderset_raw_change c;
    const uint32_t number = refuse_change(set);
    return number ? number : finish(set, orderset_raw_own_book_withdraw(&set->raw, key, &c), &c);
}

uint32_t orderset_basket(struct orderset *set, const struct orderset_item *items, size_t count) {
    struct orderset_raw_items b = {.count = 0};
    uint32_t number = refuse_change(set);
    if (number)
        return number;
    if (count == 0 || count > ORDERSET_BASKET_MAX)
        return ORDERSET_BAD_BASKET;
    for (size_t i = 0; i < count; i++) {
        const void *value = items[i].length ? items[i].value : orderset_nothing;
        orderset_raw_add(&b, items[i].kind, items[i].key, value, items[i].length);
    }
    number = orderset_raw_own_basket(&set->raw, &b);
    return number ? number : orderset_area_persist(&set->area, b.at, b.value, ORDERSET_BASKET_STORES(count));
}

/* ---- questions */

uint32_t orderset_get(struct orderset *set, struct orderset_key key, void *output, size_t room, size_t *length) {
    struct orderset_raw_value found;
    uint8_t none[1];
    uint32_t number = refuse_read(set);
    *length = 0;
    if (number)
        return number;
    number = orderset_raw_get(&set->raw, key, room ? output : none, room, &found);
    set->compared = (uint32_t)found.compared;
    if (number)
        return number;
    *length = found.length;
    return found.outcome == ORDERSET_RAW_ABSENT ? ORDERSET_NOT_FOUND : ORDERSET_OK;
}

uint32_t orderset_locate(struct orderset *set, struct orderset_key key, uint32_t *slot, uint64_t *version) {
    struct orderset_raw_place found = {0};
    uint32_t number = refuse_read(set);
    if (!number) {
        number = orderset_raw_locate(&set->raw, key, &found);
        set->compared = (uint32_t)found.compared;
    }
    if (slot)
        *slot = (uint32_t)found.slot;
    if (version)
        *version = found.version;
    if (number)
        return number;
    return found.outcome == ORDERSET_RAW_ABSENT ? ORDERSET_NOT_FOUND : ORDERSET_OK;
}

uint32_t orderset_compared(const struct orderset *set) {
    return set->compared;
}

int orderset_order_of(const void *value, size_t length, struct orderset_order *order) {
    uint64_t word[3] = {0};
    if (length == ORDERSET_ORDER_BYTES)
        memcpy(word, value, sizeof word);
    *order = (struct orderset_order){word[0], word[1], word[2]};
    if ((word[0] == ORDERSET_SENT || word[0] == ORDERSET_ACKNOWLEDGED) && word[2] < word[1])
        return 1;
    *order = (struct orderset_order){0, 0, 0};
    return 0;
}

/* ---- slots */

static const uint8_t *slot_at(const struct orderset *s, uint32_t slot) {
    return s->area.bytes + (size_t)ORDERSET_SLOT_BYTES * slot;
}

/* word 0 to 7 of line A, 8 to 15 of line B */
static uint64_t word_of(const struct orderset *s, uint32_t slot, size_t i) {
    uint64_t word;
    memcpy(&word, slot_at(s, slot) + 8 * i, sizeof word);
    return word;
}

static int is_wide(const struct orderset *s) {
    return s->raw.layout == ORDERSET_LAYOUT_2;
}

static struct orderset_key key_in(const struct orderset *s, uint32_t slot) {
    return (struct orderset_key){word_of(s, slot, 1), is_wide(s) ? word_of(s, slot, 2) : 0};
}

/* The kind word: the kind, the length, the number of records. */
static uint64_t kind_in(const struct orderset *s, uint32_t slot) {
    return word_of(s, slot, is_wide(s) ? 3 : 2);
}

/* The value's bytes stand in line A after the kind word, and in line B after the mark; all 80, or 72. */
static size_t value_in(const struct orderset *s, uint32_t slot, uint8_t value[ORDERSET_VALUE_MAX]) {
    const size_t begins = is_wide(s) ? 32 : 24, part = 56 - begins, rest = 48;
    memcpy(value, slot_at(s, slot) + begins, part);
    memcpy(value + part, slot_at(s, slot) + ORDERSET_LINE_BYTES + 8, rest);
    return part + rest;
}

/* Whether the slot has the value of a held key; a refusal where the file or the index was overwritten. */
static uint32_t ask_live(const struct orderset *s, uint32_t slot, int *live) {
    struct orderset_raw_place found;
    const uint32_t number = orderset_raw_locate(&s->raw, key_in(s, slot), &found);
    *live = number == 0 && found.outcome == ORDERSET_RAW_DONE && found.slot == slot;
    return number;
}

static int is_live(const struct orderset *s, uint32_t slot) {
    int live;
    return ask_live(s, slot, &live) == 0 && live;
}

/* Void slots are those that recovery would open; a handle that is no inspection has opened them. */
static int is_void(const struct orderset *s, uint32_t slot) {
    for (uint32_t i = 0; s->area.mode == ORDERSET_INSPECT && i < s->found.count; i++)
        if (s->found.at[i] / ORDERSET_STORES == slot)
            return 1;
    return 0;
}

static uint32_t class_of(const struct orderset *s, uint32_t slot) {
    const uint8_t *a = slot_at(s, slot), *b = a + ORDERSET_LINE_BYTES;
    const uint64_t version = orderset_raw_line_version(a);
    if (!orderset_raw_line_whole(a) || !orderset_raw_line_whole(b) || version != orderset_raw_line_version(b))
        return ORDERSET_SLOT_BROKEN;
    if (version == 0)
        return ORDERSET_SLOT_EMPTY;
    if (s->refusal)
        return ORDERSET_SLOT_UNKNOWN;
    if (is_void(s, slot))
        return ORDERSET_SLOT_VOID;
    if ((kind_in(s, slot) & 0xff) == 2)
        return ORDERSET_SLOT_REMOVE;
    return is_live(s, slot) ? ORDERSET_SLOT_LIVE : ORDERSET_SLOT_HIDDEN;
}

/* As recovery tests a slot by itself: marks, and of a whole record 6, 22, 23 and 24 in this order. */
static uint32_t fault_of(const struct orderset *s, uint32_t slot, uint32_t slot_class) {
    uint8_t value[ORDERSET_VALUE_MAX];
    const size_t most = value_in(s, slot, value), length = kind_in(s, slot) >> 8 & 0xff;
    const uint64_t word = kind_in(s, slot), kind = word & 0xff, records = word >> 16 & 0xff;
    if (word_of(s, slot, 0) > 1 || word_of(s, slot, 8) > 1)
        return ORDERSET_BAD_MARK;
    if (slot_class == ORDERSET_SLOT_BROKEN || slot_class == ORDERSET_SLOT_EMPTY)
        return 0;
    if (word >> 24 || records == 1 || records > ORDERSET_BASKET_MAX)
        return ORDERSET_BAD_KIND_BITS;
    if (kind != 1 && kind != 2)
        return ORDERSET_BAD_KIND;
    if (length > most || (kind == 2 && length))
        return ORDERSET_BAD_VALUE_LENGTH;
    for (size_t i = length; i < most; i++)
        if (value[i])
            return ORDERSET_BAD_TAIL;
    return 0;
}

static void read_slot(const struct orderset *s, uint32_t slot, struct orderset_record *r) {
    const uint64_t kind = kind_in(s, slot);
    *r = (struct orderset_record){.slot = slot, .slot_class = class_of(s, slot), .key = key_in(s, slot)};
    r->fault = fault_of(s, slot, r->slot_class);
    r->version = orderset_raw_line_version(slot_at(s, slot));
    r->records = (uint32_t)(kind >> 16 & 0xff);
    size_t most = value_in(s, slot, r->value);
    r->length = (kind >> 8 & 0xff) < most ? kind >> 8 & 0xff : most;
    memset(r->value + r->length, 0, ORDERSET_VALUE_MAX - r->length);
}

uint32_t orderset_slots(const struct orderset *s) {
    return s->raw.next_length ? (uint32_t)s->raw.next_length - 1 : 0;
}

uint32_t orderset_next(struct orderset *set, struct orderset_record *record) {
    uint32_t number = refuse_read(set), slot = record->slot;
    int live = 0;
    if (number)
        return number;
    do
        slot = slot < orderset_slots(set) ? slot + 1 : 0;
    while (slot && (number = ask_live(set, slot, &live)) == 0 && !live);
    if (number)
        return number;
    if (slot)
        read_slot(set, slot, record);
    else
        *record = (struct orderset_record){.slot = 0};
    return slot ? ORDERSET_OK : ORDERSET_END;
}

uint32_t orderset_slot(struct orderset *set, uint32_t slot, struct orderset_record *record) {
    const uint32_t number = may_read(&set->area);
    if (number)
        return number;
    if (slot == 0 || slot > orderset_slots(set))
        return ORDERSET_NO_SLOT;
    read_slot(set, slot, record);
    return ORDERSET_OK;
}

/* ---- how it stands */

uint32_t orderset_layout(const struct orderset *set) {
    return set->raw.layout;
}

uint32_t orderset_count(const struct orderset *set) {
    return set->refusal ? 0 : set->raw.state[ORDERSET_RAW_LIVE];
}

/* One slot stays spare. */
uint32_t orderset_room(const struct orderset *set) {
    return set->refusal ? 0 : orderset_slots(set) - 1 - set->raw.state[ORDERSET_RAW_LIVE];
}

void orderset_stat(struct orderset *set, struct orderset_statistics *statistics) {
    const struct area *a = &set->area;
    const uint32_t slots = orderset_slots(set);
    struct orderset_statistics s = {
        .mode = a->mode,
        .flush = a->flush,
        .layout = orderset_layout(set),
        .slots = slots,
        .heads = (uint32_t)set->raw.heads_length,
        .live = orderset_count(set),
        .spare = set->refusal ? 0 : slots - orderset_count(set),
        .compared = set->compared,
        .opened = set->found.count,
        .refusal = set->refusal,
        .fault_slot = set->found.fault_slot,
        .error = a->error,
        .next_version = set->raw.version,
        .bytes = a->length,
    };
    for (uint32_t slot = 1; slot <= slots; slot++) {
        const uint32_t slot_class = class_of(set, slot);
        if (slot_class < ORDERSET_COUNTS)
            s.count[slot_class]++;
    }
    *statistics = s;
}

int orderset_errno(const struct orderset *set) {
    return set->area.error;
}
