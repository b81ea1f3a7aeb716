/* LMDB: one write transaction for each insert, replace and remove, one renewed read transaction for each get; a
 * writable map, which is its faster mode, synced by msync. Of its own it has an insert of a key that is not held; a
 * replace looks the key up with a cursor and writes there. */
#include "bench.h"

#include <lmdb.h>
#include <string.h>
#include <unistd.h>

#define FILE_NAME "/dev/shm/orderset_bench_lmdb"
#define MAP_BYTES ((size_t)128 << 20)

static MDB_env *env;
static MDB_dbi dbi;
static MDB_txn *reader;

static void remove_files(void) {
    unlink(FILE_NAME);
    unlink(FILE_NAME "-lock");
}

static int attach(void) {
    MDB_txn *txn;
    if (mdb_env_create(&env) || mdb_env_set_mapsize(env, MAP_BYTES)
        || mdb_env_open(env, FILE_NAME, MDB_NOSUBDIR | MDB_WRITEMAP, 0600))
        return 1;
    if (mdb_txn_begin(env, NULL, 0, &txn) || mdb_dbi_open(txn, NULL, MDB_INTEGERKEY, &dbi) || mdb_txn_commit(txn))
        return 2;
    if (mdb_txn_begin(env, NULL, MDB_RDONLY, &reader))
        return 3;
    mdb_txn_reset(reader);
    return 0;
}

static void detach(void) {
    mdb_txn_abort(reader);
    mdb_env_close(env);
}

static int e_open(const struct config *c) {
    (void)c;
    remove_files();
    return attach();
}

static int e_recover(void) {
    detach();
    return attach();
}

static void e_close(void) {
    detach();
    remove_files();
}

static NOINLINE int e_insert(uint64_t key, const uint8_t *bytes, size_t size) {
    MDB_txn *txn;
    MDB_val k = {sizeof key, &key}, v = {size, (void *)bytes};
    return mdb_txn_begin(env, NULL, 0, &txn) || mdb_put(txn, dbi, &k, &v, MDB_NOOVERWRITE) || mdb_txn_commit(txn);
}

static NOINLINE int e_replace(uint64_t key, const uint8_t *bytes, size_t size) {
    MDB_txn *txn;
    MDB_cursor *cursor;
    MDB_val k = {sizeof key, &key}, v = {size, (void *)bytes};
    if (mdb_txn_begin(env, NULL, 0, &txn) || mdb_cursor_open(txn, dbi, &cursor))
        return 1;
    int bad = mdb_cursor_get(cursor, &k, NULL, MDB_SET) || mdb_cursor_put(cursor, &k, &v, MDB_CURRENT);
    mdb_cursor_close(cursor);
    return bad || mdb_txn_commit(txn);
}

static NOINLINE int e_remove(uint64_t key) {
    MDB_txn *txn;
    MDB_val k = {sizeof key, &key};
    return mdb_txn_begin(env, NULL, 0, &txn) || mdb_del(txn, dbi, &k, NULL) || mdb_txn_commit(txn);
}

static NOINLINE int e_get(uint64_t key, uint8_t *out) {
    MDB_val k = {sizeof key, &key}, v;
    if (mdb_txn_renew(reader) || mdb_get(reader, dbi, &k, &v))
        return -1;
    memcpy(out, v.mv_data, v.mv_size);
    mdb_txn_reset(reader);
    return (int)v.mv_size;
}

#define ENGINE engine_lmdb
#define ENGINE_NAME "LMDB"
#define ENGINE_HEADS 0
#include "workload.inc"
