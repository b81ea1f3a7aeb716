/* libpmemobj: a chained hash map in a pool, one transaction for each insert, replace and remove: a new entry is
 * allocated and linked, a held value is overwritten under an undo range, a removed entry is unlinked and freed. */
#include "bench.h"

#include <libpmemobj.h>
#include <string.h>
#include <unistd.h>

#define FILE_NAME "/dev/shm/orderset_bench_pool"
#define POOL_BYTES ((size_t)128 << 20)

struct node {
    uint64_t key, next, size; /* next: an offset in the pool, 0 ends */
    uint8_t bytes[];
};

static PMEMobjpool *pool;
static uint64_t *buckets, bucket_count, pool_id;

static inline struct node *node_at(uint64_t offset) {
    return (struct node *)((char *)pool + offset);
}

static inline uint64_t *find(uint64_t key) {
    uint64_t *link = &buckets[key % bucket_count];
    while (*link && node_at(*link)->key != key)
        link = &node_at(*link)->next;
    return link;
}

static int find_root(void) {
    if (!pool)
        return 1;
    PMEMoid root = pmemobj_root(pool, sizeof *buckets * bucket_count);
    buckets = pmemobj_direct(root);
    pool_id = root.pool_uuid_lo;
    return 0;
}

static int e_open(const struct config *c) {
    unlink(FILE_NAME);
    pool = pmemobj_create(FILE_NAME, "bench", POOL_BYTES, 0600);
    bucket_count = c->heads;
    return find_root();
}

static int e_recover(void) {
    pmemobj_close(pool);
    pool = pmemobj_open(FILE_NAME, "bench");
    return find_root();
}

static void e_close(void) {
    pmemobj_close(pool);
    unlink(FILE_NAME);
}

static NOINLINE int e_insert(uint64_t key, const uint8_t *bytes, size_t size) {
    uint64_t *link = find(key);
    if (*link)
        return 1;
    int bad = pmemobj_tx_begin(pool, NULL, TX_PARAM_NONE);
    PMEMoid made = pmemobj_tx_alloc(sizeof(struct node) + size, 1);
    struct node *node = node_at(made.off);
    node->key = key;
    node->next = 0;
    node->size = size;
    memcpy(node->bytes, bytes, size);
    bad |= pmemobj_tx_add_range_direct(link, sizeof *link);
    *link = made.off;
    pmemobj_tx_commit();
    return bad | pmemobj_tx_end();
}

static NOINLINE int e_replace(uint64_t key, const uint8_t *bytes, size_t size) {
    uint64_t *link = find(key);
    if (!*link)
        return 1;
    int bad = pmemobj_tx_begin(pool, NULL, TX_PARAM_NONE);
    struct node *node = node_at(*link);
    bad |= pmemobj_tx_add_range_direct(&node->size, sizeof node->size + size);
    node->size = size;
    memcpy(node->bytes, bytes, size);
    pmemobj_tx_commit();
    return bad | pmemobj_tx_end();
}

static NOINLINE int e_remove(uint64_t key) {
    uint64_t *link = find(key);
    if (!*link)
        return 1;
    int bad = pmemobj_tx_begin(pool, NULL, TX_PARAM_NONE);
    uint64_t old = *link;
    bad |= pmemobj_tx_add_range_direct(link, sizeof *link);
    *link = node_at(old)->next;
    bad |= pmemobj_tx_free((PMEMoid){pool_id, old});
    pmemobj_tx_commit();
    return bad | pmemobj_tx_end();
}

static NOINLINE int e_get(uint64_t key, uint8_t *out) {
    uint64_t *link = find(key);
    if (!*link)
        return -1;
    struct node *node = node_at(*link);
    memcpy(out, node->bytes, node->size);
    return (int)node->size;
}

#define ENGINE engine_pmemobj
#define ENGINE_NAME "libpmemobj"
#define ENGINE_HEADS 1
#include "workload.inc"
