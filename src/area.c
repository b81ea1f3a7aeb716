/* Files: opened, locked, mapped, made, and their stores made durable. Nothing here is proved. */
#define _GNU_SOURCE
#include <errno.h>
#include <fcntl.h>
#include <linux/fiemap.h>
#include <linux/fs.h>
#include <pthread.h>
#include <signal.h>
#include <stdio.h>
#include <stdlib.h>
#include <string.h>
#include <sys/file.h>
#include <sys/ioctl.h>
#include <sys/mman.h>
#include <sys/resource.h>
#include <sys/stat.h>
#include <sys/vfs.h>
#include <time.h>
#include <unistd.h>

#include "internal.h"
#include "orderset_persist.h"

enum { TRIES = 20, PAUSE = 10000000 /* nanoseconds */, STACK = 8 << 20 /* of recovery, in bytes */ };
enum { LONG_NAME = 100, CHUNK = 1 << 16 /* bytes */, EXTENTS = 32, XFS = 0x58465342 /* f_type of statfs */ };

const uint8_t orderset_nothing[1];

/* ---- a file that is locked, and its bytes */

/* A standard stream that is closed must not become the descriptor: what is printed would be written to the file. */
static int above_streams(int file) {
    if (file < 0 || file > STDERR_FILENO)
        return file;
    int higher = fcntl(file, F_DUPFD_CLOEXEC, STDERR_FILENO + 1), error = errno;
    close(file);
    errno = error;
    return higher;
}

/* A signal does not shorten it. */
static void pause_once(void) {
    struct timespec left = {0, PAUSE};
    while (nanosleep(&left, &left) && errno == EINTR)
        ;
}

/* The lock goes with the descriptor. A reader has it for as long as it copies, so it is worth a few tries. */
static uint32_t lock(int file, int how, int *tries) {
    while (flock(file, how | LOCK_NB)) {
        if (errno != EWOULDBLOCK && errno != EINTR)
            return ORDERSET_ERRNO;
        if (*tries == 0)
            return ORDERSET_LOCKED;
        --*tries;
        pause_once();
    }
    return ORDERSET_OK;
}

static uint32_t open_and_lock(struct area *a, const char *path, int *tries) {
    const int writing = a->mode == ORDERSET_WRITE;
    struct stat found;
    a->file = above_streams(open(path, (writing ? O_RDWR : O_RDONLY) | O_CLOEXEC | O_NONBLOCK));
    if (a->file < 0)
        return errno == EISDIR ? ORDERSET_NOT_REGULAR : ORDERSET_ERRNO;
    if (fstat(a->file, &found))
        return ORDERSET_ERRNO;
    if (!S_ISREG(found.st_mode))
        return ORDERSET_NOT_REGULAR;
    if (a->mode == ORDERSET_LIVE)
        return ORDERSET_OK;
    return lock(a->file, writing ? LOCK_EX : LOCK_SH, tries);
}

static void unlock(struct area *a) {
    close(a->file);
    a->file = -1;
}

/* While the lock was waited for, another file may have got the name: then that one is opened. The one that was opened
 * first has another name or none, and what is written to it would be lost. */
static uint32_t open_locked(struct area *a, const char *path) {
    int tries = TRIES;
    struct stat opened, named;
    for (;;) {
        uint32_t number = open_and_lock(a, path, &tries);
        if (number)
            return number;
        if (fstat(a->file, &opened) || stat(path, &named))
            return ORDERSET_ERRNO;
        if (named.st_dev == opened.st_dev && named.st_ino == opened.st_ino)
            break;
        unlock(a);
        if (tries-- == 0)
            return ORDERSET_LOCKED;
    }
    a->length = (size_t)opened.st_size;
    return ORDERSET_OK;
}

static int map(struct area *a, int flags, int file) {
    void *bytes = mmap(NULL, a->length, PROT_READ | PROT_WRITE, flags, file, 0);
    a->bytes = bytes == MAP_FAILED ? NULL : bytes;
    return a->bytes ? 0 : -1;
}

/* The file has this length at least, and all its blocks. */
static int extend(int file, size_t length) {
    do
        errno = posix_fallocate(file, 0, (off_t)length);
    while (errno == EINTR);
    return errno ? -1 : 0;
}

/* All blocks of a file, which keeps its length. A file system that cannot gives them when the file is written. */
static int ask_for_blocks(int file, size_t length) {
    int failed;
    do
        failed = fallocate(file, FALLOC_FL_KEEP_SIZE, 0, (off_t)length);
    while (failed && errno == EINTR);
    return failed && errno != EOPNOTSUPP ? -1 : 0;
}

/* A write past the process's limit on the length of a file would end it by a signal. */
static int is_within_limit(size_t length) {
    struct rlimit limit;
    if (getrlimit(RLIMIT_FSIZE, &limit))
        return 0;
    errno = EFBIG;
    return limit.rlim_cur == RLIM_INFINITY || length <= limit.rlim_cur;
}

static int write_at(int file, size_t from, const void *bytes, size_t length) {
    size_t done = 0;
    while (done < length) {
        ssize_t put = pwrite(file, (const uint8_t *)bytes + done, length - done, (off_t)(from + done));
        if (put < 0 && errno == EINTR)
            continue;
        if (put == 0)
            errno = ENOSPC;
        if (put <= 0)
            return -1;
        done += (size_t)put;
    }
    return 0;
}

static int read_at(int file, size_t from, void *bytes, size_t length) {
    size_t done = 0;
    while (done < length) {
        ssize_t got = pread(file, (uint8_t *)bytes + done, length - done, (off_t)(from + done));
        if (got < 0 && errno == EINTR)
            continue;
        if (got == 0)
            errno = EIO; /* the file became shorter */
        if (got <= 0)
            return -1;
        done += (size_t)got;
    }
    return 0;
}

/* A copy, after which the lock ends: where a page cannot be read, that is an error and no signal. A live look has no
 * lock, and copies as a writer allows. */
static uint32_t copy_file(struct area *a) {
    if (map(a, MAP_PRIVATE | MAP_ANONYMOUS, -1))
        return ORDERSET_ERRNO;
    if (a->mode == ORDERSET_LIVE) {
        const uint32_t number = orderset_live_copy(a->file, a->bytes, a->length);
        if (number)
            return number;
    } else if (read_at(a->file, 0, a->bytes, a->length)) {
        return ORDERSET_ERRNO;
    }
    unlock(a);
    return ORDERSET_OK;
}

static size_t chunk_at(const struct area *a, size_t from) {
    return a->length - from < CHUNK ? a->length - from : CHUNK;
}

void orderset_area_close(struct area *a) {
    if (a->bytes)
        munmap(a->bytes, a->length);
    if (a->file >= 0)
        close(a->file);
}

/* The name of the file is durable: a rename by itself is not, and a program that was killed may have left it so. */
static int sync_name(const char *path) {
    char *real = realpath(path, NULL);
    if (!real)
        return -1;
    *strrchr(real, '/') = 0;
    int directory = open(*real ? real : "/", O_RDONLY | O_DIRECTORY | O_CLOEXEC);
    int failed = directory < 0 || fsync(directory), error = errno;
    if (directory >= 0)
        close(directory);
    free(real);
    errno = error;
    return failed ? -1 : 0;
}

static enum orderset_flush line_flush(const struct area *a) {
    return (enum orderset_flush)a->flush;
}

/* Every block of the file is its own and is there, and what is seen of the file is what stands: the same bytes are
 * written once more, and synced. The last writer may have been killed, or its msync may have failed; then bytes are
 * seen that are not durable. A block that is missing, or that the file shares with another (reflink), would be taken at
 * a store to the mapped file: that ends the program on a full disk, and here it is an error. */
static int rewrite(const struct area *a, uint64_t *chunk) {
    if (!is_within_limit(a->length) || ask_for_blocks(a->file, a->length))
        return -1;
    for (size_t from = 0; from < a->length; from += CHUNK) {
        const size_t size = chunk_at(a, from);
        if (read_at(a->file, from, chunk, size) || write_at(a->file, from, chunk, size))
            return -1;
    }
    return fsync(a->file);
}

/* Whether the file shares a block with another: 1 or 0, or -1 where the file system does not tell. */
static int shares_block(const struct area *a) {
    union {
        struct fiemap map;
        uint8_t room[sizeof(struct fiemap) + EXTENTS * sizeof(struct fiemap_extent)];
    } found;
    for (uint64_t from = 0; from < a->length;) {
        memset(&found, 0, sizeof found);
        found.map.fm_start = from;
        found.map.fm_length = a->length - from;
        found.map.fm_flags = FIEMAP_FLAG_SYNC;
        found.map.fm_extent_count = EXTENTS;
        if (ioctl(a->file, FS_IOC_FIEMAP, &found.map))
            return -1;
        const struct fiemap_extent *extent = found.map.fm_extents;
        for (uint32_t i = 0; i < found.map.fm_mapped_extents; i++, extent++) {
            if (extent->fe_flags & FIEMAP_EXTENT_SHARED)
                return 1;
            if (extent->fe_logical + extent->fe_length <= from)
                return -1;
            from = extent->fe_logical + extent->fe_length;
        }
        if (found.map.fm_mapped_extents < EXTENTS)
            return 0;
    }
    return 0;
}

/* A store to a shared block takes a new one, and xfs does not make its place durable although the mapping has MAP_SYNC.
 * So line flushes are not enough where a block is shared, nor where xfs does not tell. */
static int is_unfit_for_flushes(const struct area *a) {
    struct statfs mounted;
    const int shares = shares_block(a);
    return shares > 0 || (shares < 0 && (fstatfs(a->file, &mounted) || mounted.f_type == XFS));
}

/* Non-volatile memory: the file is mapped with MAP_SYNC, every page is stored to and synced once more through the
 * mapping, and every line is flushed. *fits is 0 where calls are to go by msync all the same. */
static uint32_t map_lines(struct area *a, int *fits) {
    *fits = map(a, MAP_SHARED_VALIDATE | MAP_SYNC, a->file) == 0;
    if (!*fits)
        return ORDERSET_OK;
    a->flush = (uint32_t)orderset_best_flush();
    if (orderset_persist_image_file(a->bytes, a->length) || orderset_persist_image(a->bytes, a->length, line_flush(a)))
        return ORDERSET_ERRNO;
    *fits = !is_unfit_for_flushes(a);
    if (!*fits) {
        munmap(a->bytes, a->length);
        a->bytes = NULL;
    }
    return ORDERSET_OK;
}

static uint32_t map_pages(struct area *a) {
    a->flush = ORDERSET_FLUSH_MSYNC;
    return map(a, MAP_SHARED, a->file) ? ORDERSET_ERRNO : ORDERSET_OK;
}

/* The file itself, before recovery; it and its name are durable. */
static uint32_t map_file(struct area *a, const char *path, uint64_t *chunk) {
    int fits = 0;
    uint32_t number = rewrite(a, chunk) ? ORDERSET_ERRNO : map_lines(a, &fits);
    if (!number && !fits)
        number = map_pages(a);
    if (number)
        return number;
    return sync_name(path) ? ORDERSET_ERRNO : ORDERSET_OK;
}

/* Makes stores durable: each line is flushed once, and there is one fence. After a failure nothing is known of them,
 * nor where the thread is cancelled meanwhile: then the handle stays as it is here. */
uint32_t orderset_area_persist(struct area *a, const uint32_t *at, const uint64_t *value, size_t count) {
    a->stopped = 1;
    a->error = ECANCELED;
    const int failed = a->flush == ORDERSET_FLUSH_MSYNC
                           ? orderset_persist_list_file(a->bytes, a->length, at, value, count)
                           : orderset_persist_list(a->bytes, a->length, at, value, count, line_flush(a));
    a->stopped = failed;
    a->error = failed ? errno : 0;
    return failed ? ORDERSET_NOT_DURABLE : ORDERSET_OK;
}

/* The same by writing to the file: a store to the mapped file may need a block and end the program on a full disk. Each
 * store changes one bit. */
static int write_stores(const struct area *a, const uint32_t *at, const uint64_t *value, size_t count) {
    for (size_t i = 0; i < count; i++)
        if (write_at(a->file, sizeof *value * at[i], &value[i], sizeof *value))
            return -1;
    return count ? fsync(a->file) : 0;
}

/* What recovery hands out, before any other call; a reader makes it in its copy. */
uint32_t orderset_area_persist_recovery(struct area *a, const uint32_t *at, const uint64_t *value, size_t count) {
    if (a->mode != ORDERSET_WRITE)
        return orderset_raw_play_list(a->bytes, a->length, at, value, count);
    const int failed = a->flush == ORDERSET_FLUSH_MSYNC ? write_stores(a, at, value, count) != 0
                                                        : orderset_area_persist(a, at, value, count) != 0;
    return failed ? ORDERSET_ERRNO : ORDERSET_OK;
}

/* Of the file, or of bytes that were read before. */
uint32_t orderset_area_read(const struct area *a, size_t from, void *bytes, size_t length) {
    if (a->file >= 0)
        return read_at(a->file, from, bytes, length) ? ORDERSET_ERRNO : ORDERSET_OK;
    memcpy(bytes, a->bytes + from, length);
    return ORDERSET_OK;
}

uint32_t orderset_area_marks(const struct area *a, uint64_t *chunk, size_t first, size_t step, uint32_t refusal) {
    size_t word = first;
    for (size_t from = 0; from < a->length; from += CHUNK) {
        const size_t size = chunk_at(a, from);
        if (orderset_area_read(a, from, chunk, size))
            return ORDERSET_ERRNO;
        for (; word < (from + size) / sizeof *chunk; word += step)
            if (chunk[word - from / sizeof *chunk] > 1)
                return refusal;
    }
    return ORDERSET_OK;
}

static int has_form(size_t length, const struct form *f) {
    return length % f->part == 0 && length / f->part >= f->least && length / f->part <= f->most;
}

/* What the form asks of the file, and then the bytes, unless they are there. */
static uint32_t look_and_read(struct area *a, const char *path, const struct form *f) {
    uint64_t *chunk = calloc(1, CHUNK);
    if (!chunk)
        return ORDERSET_ERRNO;
    uint32_t number = f->look ? f->look(a, chunk) : ORDERSET_OK;
    if (!number && !a->bytes)
        number = a->mode == ORDERSET_WRITE ? map_file(a, path, chunk) : copy_file(a);
    const int error = errno;
    free(chunk);
    errno = error;
    return number;
}

uint32_t orderset_area_open(struct area *a, const char *path, const struct form *f) {
    const uint32_t number = open_locked(a, path);
    if (number)
        return number;
    if (!has_form(a->length, f)) {
        unlock(a);
        return f->refusal;
    }
    return look_and_read(a, path, f);
}

uint32_t orderset_area_copy(struct area *a, const uint8_t *bytes, size_t length, const struct form *f) {
    a->length = length;
    if (!has_form(length, f))
        return f->refusal;
    if (map(a, MAP_PRIVATE | MAP_ANONYMOUS, -1))
        return ORDERSET_ERRNO;
    memcpy(a->bytes, bytes, length);
    return look_and_read(a, NULL, f);
}

/* ---- a stack of its own */

/* Signals are for the threads of the program. */
uint32_t orderset_on_own_stack(void *(*work)(void *), void *argument) {
    pthread_attr_t attributes;
    pthread_t thread;
    sigset_t all, before;
    if ((errno = pthread_attr_init(&attributes)))
        return ORDERSET_ERRNO;
    sigfillset(&all);
    int error = pthread_attr_setstacksize(&attributes, STACK);
    if (!error) {
        pthread_sigmask(SIG_SETMASK, &all, &before);
        error = pthread_create(&thread, &attributes, work, argument);
        pthread_sigmask(SIG_SETMASK, &before, NULL);
    }
    pthread_attr_destroy(&attributes);
    if (!error)
        error = pthread_join(thread, NULL);
    errno = error;
    return error ? ORDERSET_ERRNO : ORDERSET_OK;
}

/* ---- a new file */

/* The bytes of a new file, durable, and as they are to be where they are read once more. */
static uint32_t write_content(int file, const struct content *c) {
    if (c->mode != OWNER && fchmod(file, c->mode))
        return ORDERSET_ERRNO;
    if (extend(file, c->length) || write_at(file, 0, c->bytes, c->length) || fsync(file))
        return ORDERSET_ERRNO;
    if (!c->check)
        return ORDERSET_OK;
    uint8_t *read = malloc(c->length);
    const uint32_t number = !read || read_at(file, 0, read, c->length) ? ORDERSET_ERRNO : c->check(c, read);
    const int error = errno;
    free(read);
    errno = error;
    return number;
}

/* The file gets its own name, which no other has. Some file systems cannot rename so: there it has two names for a
 * moment. orderset-show has the same function; this one is the model. */
int orderset_give_name(const char *fresh, const char *path) {
    if (renameat2(AT_FDCWD, fresh, AT_FDCWD, path, RENAME_NOREPLACE) == 0)
        return 0;
    if (errno != EINVAL && errno != ENOSYS)
        return -1;
    if (link(fresh, path))
        return -1;
    unlink(fresh); /* where that fails, a second name is left, which may be removed */
    return 0;
}

/* Makes the file under the other name, and gives it its own. */
static uint32_t make(int file, const char *fresh, const char *path, const struct content *c) {
    int tries = TRIES;
    uint32_t number = lock(file, LOCK_EX, &tries);
    if (!number)
        number = write_content(file, c);
    if (!number && orderset_give_name(fresh, path))
        number = errno == EEXIST ? ORDERSET_FILE_EXISTS : ORDERSET_ERRNO;
    if (number) {
        const int error = errno;
        unlink(fresh);
        errno = error;
        return number;
    }
    return sync_name(path) ? ORDERSET_ERRNO : ORDERSET_OK; /* the file stays, whole */
}

/* The other name, in the same directory. It is no longer than the name where that is long. */
static char *other_name(const char *path) {
    static const char end[] = ".new-XXXXXX";
    const char *slash = strrchr(path, '/'), *name = slash ? slash + 1 : path;
    const size_t length = strlen(path), kept = strlen(name) > LONG_NAME ? length - strlen(end) : length;
    char *other = malloc(kept + sizeof end);
    if (other) {
        memcpy(other, path, kept);
        memcpy(other + kept, end, sizeof end);
    }
    return other;
}

/* The lock is kept until the name is durable, so that nobody writes orders to a file that a cut could still take. */
static uint32_t make_file(const char *path, const struct content *c) {
    struct stat found;
    if (lstat(path, &found) == 0)
        return ORDERSET_FILE_EXISTS;
    if (errno != ENOENT || !is_within_limit(c->length))
        return ORDERSET_ERRNO;
    char *fresh = other_name(path);
    if (!fresh)
        return ORDERSET_ERRNO;
    const int made = mkostemp(fresh, O_CLOEXEC), file = above_streams(made);
    uint32_t number = file < 0 ? ORDERSET_ERRNO : make(file, fresh, path, c);
    const int error = errno;
    if (file >= 0)
        close(file);
    else if (made >= 0)
        unlink(fresh);
    free(fresh);
    errno = error;
    return number;
}

uint32_t orderset_area_create(const char *path, const struct content *c) {
    const int cancel = hold_cancel();
    const uint32_t number = make_file(path, c);
    release_cancel(cancel);
    return number;
}
