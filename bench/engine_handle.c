/* The handle of orderset.h on a file in /dev/shm, mapped as if it were on non-volatile memory. Its heads are its own:
 * the largest prime up to N. It is open in the shared file (bench_shared), so that it has the pages of the other
 * engines. */
#define _GNU_SOURCE
#include "bench.h"

#include <string.h>
#include <sys/mman.h>

#include "orderset_raw.h"

static struct orderset *set;
static char name[64];

void *__real_mmap(void *address, size_t size, int access, int flags, int file, off_t offset);
void *__wrap_mmap(void *address, size_t size, int access, int flags, int file, off_t offset);
void *__wrap_mmap(void *address, size_t size, int access, int flags, int file, off_t offset) {
    return __real_mmap(address, size, access, file >= 0 && (flags & MAP_SYNC) == MAP_SYNC ? MAP_SHARED : flags, file,
                       offset);
}

static int attach(void) {
    struct orderset_statistics found;
    if (orderset_open(name, ORDERSET_WRITE, &set))
        return 1;
    orderset_stat(set, &found);
    return found.flush < ORDERSET_FLUSH_CLFLUSH;
}

static int e_open(const struct config *c) {
    const size_t length = ORDERSET_IMAGE_BYTES(c->n);
    bench_name(name, sizeof name, 0);
    uint8_t *image = bench_map(name, length);
    const uint32_t refused = orderset_raw_format(image, length, ORDERSET_LAYOUT_1);
    bench_unmap(name, image, length);
    return refused || attach();
}

static void e_close(void) {
    orderset_close(set);
}

static int e_recover(void) {
    orderset_close(set);
    return attach();
}

static inline struct orderset_key wide(uint64_t key) {
    return (struct orderset_key){key, 0};
}

static inline int e_insert(uint64_t key, const uint8_t *bytes, size_t size) {
    return (int)orderset_insert(set, wide(key), bytes, size);
}

static inline int e_replace(uint64_t key, const uint8_t *bytes, size_t size) {
    return (int)orderset_replace(set, wide(key), bytes, size);
}

static inline int e_remove(uint64_t key) {
    return (int)orderset_remove(set, wide(key));
}

static inline int e_basket(const uint32_t *kinds, const uint64_t *keys, const uint8_t *bytes, size_t size) {
    struct orderset_item items[FOUR];
    for (unsigned i = 0; i < FOUR; i++)
        items[i] = (struct orderset_item){kinds[i], wide(keys[i]), bytes + ORDERSET_VALUE_MAX * i, size};
    return (int)orderset_basket(set, items, FOUR);
}

static inline int e_get(uint64_t key, uint8_t *out) {
    size_t size;
    return orderset_get(set, wide(key), out, ORDERSET_VALUE_MAX, &size) ? -1 : (int)size;
}

#define ENGINE engine_handle
#define ENGINE_BASKET 1
#define ENGINE_NAME "the handle"
#define ENGINE_HEADS 1
#include "workload.inc"
