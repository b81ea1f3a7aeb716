/* orderset_snapshot: random changes through a handle, in both layouts, and now and then a snapshot, which is a set with
 * the map of that moment, in order of version; the handle goes on. Of handles of every mode. A snapshot that is
 * refused, or that the system does not let be made, leaves no name and overwrites nothing.
 *
 *     snapshot FILE [SEED]
 */
#define _GNU_SOURCE
#include <dirent.h>
#include <errno.h>
#include <inttypes.h>
#include <stdio.h>
#include <stdlib.h>
#include <string.h>
#include <sys/stat.h>
#include <unistd.h>

#include "chance.h"
#include "child.h"
#include "file_model.h"

enum { SETS = 24, CALLS = 120, NAME = 4000 };

static char path[NAME], copy[NAME + 10];
static uint64_t changes, snapshots;

/* ---- the system */

static int disk_full, sync_fails, other_bytes, syncs_fail;

int __wrap_posix_fallocate(int file, off_t offset, off_t size);
int __real_posix_fallocate(int file, off_t offset, off_t size);
int __wrap_fsync(int file);
int __real_fsync(int file);
int __wrap_msync(void *address, size_t size, int flags);
ssize_t __wrap_pread(int file, void *bytes, size_t size, off_t offset);
ssize_t __real_pread(int file, void *bytes, size_t size, off_t offset);

int __wrap_posix_fallocate(int file, off_t offset, off_t size) {
    return disk_full ? ENOSPC : __real_posix_fallocate(file, offset, size);
}

int __wrap_fsync(int file) {
    errno = EIO;
    return sync_fails ? -1 : __real_fsync(file);
}

int __wrap_msync(void *address, size_t size, int flags) {
    (void)address, (void)size, (void)flags;
    errno = EIO;
    return syncs_fail ? -1 : 0;
}

/* One bit of the last slot's line A. */
ssize_t __wrap_pread(int file, void *bytes, size_t size, off_t offset) {
    const ssize_t got = __real_pread(file, bytes, size, offset);
    if (other_bytes && got > (ssize_t)ORDERSET_SLOT_BYTES)
        ((uint8_t *)bytes)[ORDERSET_SLOT_BYTES + 8] ^= 1;
    return got;
}

/* ---- what a snapshot shows */

static struct orderset *open_file(const char *name, uint32_t mode) {
    struct orderset *set;
    const uint32_t number = orderset_open(name, mode, &set);
    expect(number == ORDERSET_OK, "%s is opened in mode %" PRIu32 ": %" PRIu32, name, mode, number);
    return set;
}

/* The place of a key among the keys of the set by rising version, the slots of one version by number; its version is
 * that place in a snapshot. */
static uint64_t place_of(struct orderset *set, const struct orderset_record *r) {
    struct orderset_record other = {0};
    uint64_t place = 1;
    while (orderset_next(set, &other) == ORDERSET_OK)
        place += other.version < r->version || (other.version == r->version && other.slot < r->slot);
    return place;
}

static void is_in_order(struct orderset *set, struct orderset *made) {
    struct orderset_record r = {0};
    uint64_t version;
    while (orderset_next(set, &r) == ORDERSET_OK)
        expect(orderset_locate(made, r.key, NULL, &version) == ORDERSET_OK && version == place_of(set, &r),
               "a snapshot is in order of version");
}

static void takes_snapshot(struct orderset *set, const struct plain *p) {
    struct stat found;
    unlink(copy);
    expect(orderset_snapshot(set, copy) == ORDERSET_OK, "a snapshot is made");
    expect(stat(copy, &found) == 0 && (found.st_mode & 0777) == 0600 && found.st_nlink == 1, "it is its owner's");
    struct orderset *made = open_file(copy, below(2) ? ORDERSET_READ : ORDERSET_WRITE);
    expect(shows(made, p), "a snapshot shows the map of its moment");
    is_in_order(set, made);
    orderset_close(made);
    expect(shows(set, p), "the set stays as it is");
    snapshots++;
}

static void random_changes(uint32_t layout) {
    static const uint32_t modes[] = {ORDERSET_READ, ORDERSET_WRITE, ORDERSET_INSPECT, ORDERSET_LIVE};
    static struct plain now, later;
    make_plain(&now, (uint32_t)(2 + below(60)), layout);
    unlink(path);
    expect(orderset_create(path, now.slots, layout) == ORDERSET_OK, "a file is made");
    struct orderset *set = open_file(path, ORDERSET_WRITE);
    for (int i = 0; i < CALLS; i++) {
        struct call c;
        any_call(&now, &c);
        const uint32_t wanted = due(&now, &c, &later), number = carry_out(set, &now, &c);
        expect(may_give(wanted, number, &c), "a call gives %" PRIu32 ": %" PRIu32, wanted, number);
        if (number == ORDERSET_OK)
            now = later;
        changes += number == ORDERSET_OK;
        if (below(8) == 0)
            takes_snapshot(set, &now);
        if (below(16) == 0) {
            struct orderset *live = open_file(path, ORDERSET_LIVE);
            takes_snapshot(live, &now);
            orderset_close(live);
        }
    }
    orderset_close(set);
    for (size_t i = 0; i < sizeof modes / sizeof *modes; i++) {
        set = open_file(path, modes[i]);
        takes_snapshot(set, &now);
        orderset_close(set);
    }
}

/* ---- what is refused */

/* How many names of the folder begin as the copy's. */
static int names(void) {
    const char *slash = strrchr(copy, '/'), *name = slash ? slash + 1 : copy;
    char folder[NAME + 10];
    int count = 0;
    snprintf(folder, sizeof folder, "%.*s", slash ? (int)(slash - copy + 1) : 1, slash ? copy : ".");
    DIR *all = opendir(folder);
    expect(all != NULL, "the folder is read");
    for (struct dirent *entry; (entry = readdir(all));)
        count += !strncmp(entry->d_name, name, strlen(name));
    closedir(all);
    return count;
}

static void is_refused(struct orderset *set, uint32_t wanted, int error, const char *what) {
    const uint32_t number = orderset_snapshot(set, copy);
    const int found = errno;
    expect(number == wanted && (!error || found == error), "%s: a snapshot gives %" PRIu32 ": %" PRIu32 ", errno %d",
           what, wanted, number, found);
    expect(names() == 0, "%s: no name is left", what);
}

static void refusals(void) {
    const struct orderset_key key = {7, 0};
    struct stat before, after;
    unlink(path);
    unlink(copy);
    expect(orderset_create(path, 9, 1) == ORDERSET_OK, "a file is made");
    struct orderset *set = open_file(path, ORDERSET_WRITE);
    expect(orderset_insert(set, key, "a", 1) == ORDERSET_OK, "an order");
    disk_full = 1;
    is_refused(set, ORDERSET_ERRNO, ENOSPC, "a full disk");
    disk_full = 0;
    sync_fails = 1;
    is_refused(set, ORDERSET_ERRNO, EIO, "a sync that fails");
    sync_fails = 0;
    other_bytes = 1;
    is_refused(set, ORDERSET_ERRNO, EIO, "a disk that gives other bytes");
    other_bytes = 0;
    expect(stat(path, &before) == 0 && orderset_snapshot(set, path) == ORDERSET_FILE_EXISTS && stat(path, &after) == 0
               && before.st_ino == after.st_ino,
           "a snapshot over its own file is refused");
    expect(orderset_replace(set, key, "b", 1) == ORDERSET_OK, "the set goes on");
    syncs_fail = 1;
    expect(orderset_replace(set, key, "c", 1) == ORDERSET_NOT_DURABLE, "a sync fails");
    is_refused(set, ORDERSET_STOPPED, 0, "a handle that is stopped");
    syncs_fail = 0;
    orderset_close(set);
    expect(truncate(path, 128 * 9) == 0, "the file is cut short");
    set = open_file(path, ORDERSET_INSPECT);
    is_refused(set, ORDERSET_BAD_HEADER, 0, "a file that recovery refuses");
    orderset_close(set);
}

int main(int count, char **word) {
    begin_chance("snapshot", count > 2 ? word[2] : NULL);
    expect(count > 1, "snapshot FILE [SEED]");
    snprintf(path, sizeof path, "%s", word[1]);
    snprintf(copy, sizeof copy, "%s.copy", path);
    refusals();
    for (uint32_t i = 0; i < SETS; i++)
        random_changes(1 + i % 2);
    unlink(path);
    unlink(copy);
    printf("%" PRIu64 " changes and %" PRIu64 " snapshots: each shows the map of its moment (%.0f s)\n", changes,
           snapshots, seconds());
    return 0;
}
