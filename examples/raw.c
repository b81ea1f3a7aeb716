/* raw: a set in memory of one's own. The image of this program is plain memory, so that it runs anywhere; in earnest it
 * is mapped from non-volatile memory. */
#include <stdio.h>

#include "orderset_persist.h"
#include "orderset_raw.h"

enum { N = 100, B = 97 }; /* slots; heads, a prime near N */
static _Alignas(64) uint8_t image[ORDERSET_IMAGE_BYTES(N)];
static uint32_t heads[B], next[N + 1];
static struct orderset_raw set = {image, sizeof image, heads, B, next, N + 1, {0}, 0, ORDERSET_LAYOUT_1};

/* Only for a new image: what is in it is gone. */
static uint32_t make(void) {
    return orderset_raw_format(image, sizeof image, ORDERSET_LAYOUT_1);
}

/* Every start: the image is made durable, recovered, and what recovery hands out is made durable before any other call.
 */
static uint32_t start(enum orderset_flush flush) {
    struct orderset_raw_recovery found;
    if (orderset_persist_image(image, sizeof image, flush))
        return ORDERSET_ERRNO;
    if (orderset_raw_recover(&set, &found))
        return found.refusal;
    return orderset_persist_list(image, sizeof image, found.at, found.value, found.count, flush) ? ORDERSET_ERRNO : 0;
}

/* The index is this program's own, so that it uses the call for the owner of an index. */
static uint32_t insert(uint64_t key, const char *value, size_t length, enum orderset_flush flush) {
    struct orderset_raw_change change;
    if (orderset_raw_own_insert(&set, (struct orderset_key){key, 0}, value, length, &change))
        return change.refusal;
    if (orderset_persist(image, sizeof image, change.at, change.value, flush))
        return ORDERSET_ERRNO;
    printf("durable: version %llu\n", (unsigned long long)change.version);
    return 0;
}

static uint32_t get(uint64_t key) {
    char value[ORDERSET_VALUE_MAX];
    struct orderset_raw_value found;
    if (orderset_raw_get(&set, (struct orderset_key){key, 0}, value, sizeof value, &found))
        return found.refusal;
    printf("%llu: %.*s; slots compared: %u\n", (unsigned long long)key,
           found.outcome == ORDERSET_RAW_DONE ? (int)found.length : 0, value, (unsigned)found.compared);
    return 0;
}

int main(void) {
    const enum orderset_flush flush = orderset_best_flush();
    uint32_t number = make();
    if (!number)
        number = start(flush);
    if (!number)
        number = insert(7, "buy 100", 7, flush);
    if (!number)
        number = get(7);
    if (number)
        printf("no %u: %s\n", (unsigned)number, orderset_strerror(number));
    return number != 0;
}
