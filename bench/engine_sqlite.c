/* SQLite: write-ahead log, synchronous FULL, one statement for each call, prepared once; a replace is an update of one
 * row. */
#include "bench.h"

#include <sqlite3.h>
#include <string.h>
#include <unistd.h>

#define FILE_NAME "/dev/shm/orderset_bench_sqlite"

static sqlite3 *db;
static sqlite3_stmt *inserting, *replacing, *getting, *removing;

static void remove_files(void) {
    unlink(FILE_NAME);
    unlink(FILE_NAME "-wal");
    unlink(FILE_NAME "-shm");
}

static int attach(void) {
    static const char *const start = "pragma journal_mode=wal; pragma synchronous=full; pragma locking_mode=exclusive;"
                                     "create table if not exists orders(key integer primary key, value blob)";
    if (sqlite3_open(FILE_NAME, &db) || sqlite3_exec(db, start, NULL, NULL, NULL))
        return 1;
    return sqlite3_prepare_v2(db, "insert into orders values(?, ?)", -1, &inserting, NULL)
           || sqlite3_prepare_v2(db, "update orders set value = ?2 where key = ?1", -1, &replacing, NULL)
           || sqlite3_prepare_v2(db, "select value from orders where key = ?", -1, &getting, NULL)
           || sqlite3_prepare_v2(db, "delete from orders where key = ?", -1, &removing, NULL);
}

static void detach(void) {
    sqlite3_finalize(inserting);
    sqlite3_finalize(replacing);
    sqlite3_finalize(getting);
    sqlite3_finalize(removing);
    sqlite3_close(db);
}

static int e_open(const struct config *c) {
    (void)c;
    remove_files();
    return attach();
}

static int e_recover(void) {
    detach();
    return attach();
}

static void e_close(void) {
    detach();
    remove_files();
}

static inline int write_with(sqlite3_stmt *statement, uint64_t key, const uint8_t *bytes, size_t size) {
    sqlite3_bind_int64(statement, 1, (sqlite3_int64)key);
    sqlite3_bind_blob(statement, 2, bytes, (int)size, SQLITE_STATIC);
    int bad = sqlite3_step(statement) != SQLITE_DONE || sqlite3_changes(db) != 1;
    return bad | sqlite3_reset(statement);
}

static NOINLINE int e_insert(uint64_t key, const uint8_t *bytes, size_t size) {
    return write_with(inserting, key, bytes, size);
}

static NOINLINE int e_replace(uint64_t key, const uint8_t *bytes, size_t size) {
    return write_with(replacing, key, bytes, size);
}

static NOINLINE int e_remove(uint64_t key) {
    sqlite3_bind_int64(removing, 1, (sqlite3_int64)key);
    int bad = sqlite3_step(removing) != SQLITE_DONE;
    return bad | sqlite3_reset(removing);
}

static NOINLINE int e_get(uint64_t key, uint8_t *out) {
    sqlite3_bind_int64(getting, 1, (sqlite3_int64)key);
    if (sqlite3_step(getting) != SQLITE_ROW)
        return -1;
    int size = sqlite3_column_bytes(getting, 0);
    memcpy(out, sqlite3_column_blob(getting, 0), (size_t)size);
    sqlite3_reset(getting);
    return size;
}

#define ENGINE engine_sqlite
#define ENGINE_NAME "SQLite"
#define ENGINE_HEADS 0
#include "workload.inc"
