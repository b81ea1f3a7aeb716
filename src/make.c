/* New files of the set: empty, or with the open orders of another one. orderset.h says what create and snapshot do.
 * Nothing here is proved; the image is made by the proved calls. */
#include <errno.h>
#include <stdlib.h>
#include <string.h>

#include "internal.h"

/* ---- the orders of a set */

static int by_version(const void *left, const void *right) {
    const struct orderset_record *a = left, *b = right;
    if (a->version != b->version)
        return a->version < b->version ? -1 : 1;
    return a->slot < b->slot ? -1 : a->slot > b->slot;
}

uint32_t orderset_orders(struct orderset *set, struct orderset_record **orders, size_t *count) {
    struct orderset_record r = {0}, *all = calloc((size_t)orderset_count(set) + 1, sizeof *all);
    uint32_t number;
    *orders = all;
    *count = 0;
    if (!all)
        return ORDERSET_ERRNO;
    while ((number = orderset_next(set, &r)) == ORDERSET_OK && *count < orderset_count(set))
        all[(*count)++] = r;
    if (number != ORDERSET_END) {
        free(all);
        *orders = NULL;
        return number ? number : ORDERSET_INDEX_MISMATCH;
    }
    qsort(all, *count, sizeof *all, by_version);
    return ORDERSET_OK;
}

/* ---- an image of them, in memory */

/* Whatever is refused changes nothing: the next order is tried. */
static uint32_t insert_all(struct orderset_raw *raw, const struct new_set *n, size_t *misfits, size_t *first) {
    struct orderset_raw_change change;
    uint32_t refusal = ORDERSET_OK;
    for (size_t i = 0; i < n->count; i++) {
        const struct orderset_record *r = &n->orders[i];
        uint32_t number = orderset_raw_own_insert(raw, r->key, r->value, r->length, &change);
        if (!number)
            number = orderset_raw_play(raw, &change, ORDERSET_LINE_STORES, ORDERSET_LINE_STORES);
        if (number && (*misfits)++ == 0) {
            refusal = number;
            *first = i;
        }
    }
    return refusal;
}

static uint32_t fill_image(uint8_t *image, size_t length, const struct new_set *n, size_t *misfits, size_t *first) {
    struct orderset_raw raw = {0};
    struct orderset_raw_recovery found;
    uint32_t number = orderset_raw_format(image, length, n->layout);
    if (number || n->count == 0)
        return number;
    number = orderset_index_bytes(&raw, image, length, &found);
    if (!number)
        number = found.refusal ? found.refusal : insert_all(&raw, n, misfits, first);
    orderset_free_index(&raw);
    return number;
}

/* ---- what was written is what was to be written */

static int is_held(const struct orderset_raw *raw, const struct orderset_record *r) {
    uint8_t value[ORDERSET_VALUE_MAX];
    struct orderset_raw_value found;
    return orderset_raw_get(raw, r->key, value, sizeof value, &found) == ORDERSET_OK
           && found.outcome == ORDERSET_RAW_DONE && found.length == r->length && !memcmp(value, r->value, r->length);
}

/* Recovery accepts the bytes of the file, and they hold each key with its value and no other. */
static uint32_t check_orders(const struct content *c, uint8_t *read) {
    const struct new_set *n = c->due;
    struct orderset_raw raw = {0};
    struct orderset_raw_recovery found;
    const uint32_t number = orderset_index_bytes(&raw, read, c->length, &found);
    int same = !number && !found.refusal && found.count == 0 && raw.layout == n->layout
               && raw.state[ORDERSET_RAW_LIVE] == n->count;
    for (size_t i = 0; same && i < n->count; i++)
        same = is_held(&raw, &n->orders[i]);
    orderset_free_index(&raw);
    if (!number && !same)
        errno = EIO; /* it is read otherwise than it was written */
    return number ? number : same ? ORDERSET_OK : ORDERSET_ERRNO;
}

/* ---- the file */

uint32_t orderset_make(const char *path, const struct new_set *n, size_t *misfits, size_t *first) {
    *misfits = *first = 0;
    if (n->slots < ORDERSET_SLOTS_MIN || n->slots > ORDERSET_SLOTS_MAX)
        return ORDERSET_BAD_IMAGE_LENGTH;
    if (n->layout != ORDERSET_LAYOUT_1 && n->layout != ORDERSET_LAYOUT_2)
        return ORDERSET_BAD_LAYOUT;
    const size_t length = ORDERSET_IMAGE_BYTES(n->slots);
    uint8_t *image = calloc(1, length);
    if (!image)
        return ORDERSET_ERRNO;
    const struct content c = {image, length, n->mode, n->count ? check_orders : NULL, n};
    uint32_t number = fill_image(image, length, n, misfits, first);
    if (!number)
        number = orderset_area_create(path, &c);
    const int error = errno;
    free(image);
    errno = error;
    return number;
}

uint32_t orderset_create(const char *path, uint32_t slots, uint32_t layout) {
    size_t misfits, first;
    return orderset_make(path, &(struct new_set){slots, layout, OWNER, NULL, 0}, &misfits, &first);
}

static uint32_t snapshot(struct orderset *set, const char *path) {
    struct new_set n = {orderset_slots(set), orderset_layout(set), OWNER, NULL, 0};
    struct orderset_record *orders;
    size_t misfits, first;
    uint32_t number = orderset_orders(set, &orders, &n.count);
    if (number)
        return number;
    n.orders = orders;
    number = orderset_make(path, &n, &misfits, &first);
    const int error = errno;
    free(orders);
    errno = error;
    return number;
}

uint32_t orderset_snapshot(struct orderset *set, const char *path) {
    const int cancel = hold_cancel();
    const uint32_t number = snapshot(set, path);
    release_cancel(cancel);
    return number;
}
