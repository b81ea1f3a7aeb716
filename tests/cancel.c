/* A thread that is cancelled in a call of orderset.h: at every cancellation point of every call, before the system
 * call there and after it. Each system call that POSIX names as a cancellation point, or as one that may be, is linked
 * with --wrap.
 *
 * A change or an append: the handle refuses every later call by 1017 until it is closed. Then a power cut strikes: the
 * file has what was synced, and of what was not each line keeps some number of its words, counted from the first. The
 * next open shows every answered change, the one that was cancelled wholly or not at all, and nothing else.
 *
 * An open, a create, a snapshot or a close: the request waits until the call has returned. No descriptor, mapping, lock
 * or other name is left, and the thread can be cancelled after the call as before it. With line flushes a change has no
 * cancellation point. The set in both layouts, and the log.
 *
 *     cancel FILE [SEED]
 */
#define _GNU_SOURCE
#include <dirent.h>
#include <errno.h>
#include <fcntl.h>
#include <inttypes.h>
#include <pthread.h>
#include <stdio.h>
#include <stdlib.h>
#include <string.h>
#include <sys/file.h>
#include <sys/mman.h>
#include <sys/stat.h>
#include <sys/syscall.h>
#include <sys/vfs.h>
#include <time.h>
#include <unistd.h>

#include "chance.h"
#include "child.h"
#include "file_model.h"

enum {
    SETS = 24,
    LOGS = 12,
    CANCELS = 20,
    MOST_SLOTS = 90,
    CELLS = 20,
    ODD_CELLS = 21,
    NAME = 1024,
    BYTES = 128 * (MOST_SLOTS + 1)
};
enum { READ = ORDERSET_READ, WRITE = ORDERSET_WRITE, INSPECT = ORDERSET_INSPECT };

static const char *path;
static uint64_t cancelled, held_back, cuts, done_unanswered, answered;

/* ---- cancellation points */

static _Thread_local int watched;  /* only the thread that is to be cancelled has points */
static unsigned points, cancel_at; /* the point at which it is cancelled; 0: at none */

static void point(void) {
    if (watched && ++points == cancel_at) {
        pthread_cancel(pthread_self());
        pthread_testcancel();
    }
}

/* ---- the disk: what was synced of the file */

static uint8_t durable[BYTES];
static uint8_t *image; /* where the file is mapped */
static size_t length;
static int on_lines; /* as on non-volatile memory */

#define WRAP(result, name, parameters, arguments)                                                                      \
    result __real_##name parameters;                                                                                   \
    result __wrap_##name parameters;                                                                                   \
    result __wrap_##name parameters {                                                                                  \
        point();                                                                                                       \
        result given = __real_##name arguments;                                                                        \
        point();                                                                                                       \
        return given;                                                                                                  \
    }

WRAP(int, close, (int file), (file))
WRAP(int, posix_fallocate, (int file, off_t from, off_t size), (file, from, size))
WRAP(int, fallocate, (int file, int mode, off_t from, off_t size), (file, mode, from, size))
WRAP(int, mkostemp, (char *name, int flags), (name, flags))
WRAP(ssize_t, pread, (int file, void *bytes, size_t size, off_t from), (file, bytes, size, from))
WRAP(ssize_t, pwrite, (int file, const void *bytes, size_t size, off_t from), (file, bytes, size, from))
WRAP(int, pthread_join, (pthread_t thread, void **result), (thread, result))
WRAP(int, stat, (const char *name, struct stat *found), (name, found))
WRAP(int, lstat, (const char *name, struct stat *found), (name, found))
WRAP(int, fstat, (int file, struct stat *found), (file, found))
WRAP(int, link, (const char *old, const char *new), (old, new))
WRAP(int, unlink, (const char *name), (name))
WRAP(char *, realpath, (const char *name, char *real), (name, real))
WRAP(int, renameat2, (int from, const char *old, int to, const char *new, unsigned flags), (from, old, to, new, flags))

int __real_open(const char *name, int flags, ...);
int __wrap_open(const char *name, int flags, ...);
int __wrap_open(const char *name, int flags, ...) {
    point();
    const int given = __real_open(name, flags, 0600);
    point();
    return given;
}

int __real_fcntl(int file, int what, ...);
int __wrap_fcntl(int file, int what, ...);
int __wrap_fcntl(int file, int what, ...) {
    point();
    const int given = __real_fcntl(file, what, STDERR_FILENO + 1);
    point();
    return given;
}

int __wrap_nanosleep(const struct timespec *wanted, struct timespec *left);
int __wrap_nanosleep(const struct timespec *wanted, struct timespec *left) {
    (void)wanted, (void)left;
    point();
    return 0;
}

void *__real_mmap(void *address, size_t size, int access, int flags, int file, off_t offset);
void *__wrap_mmap(void *address, size_t size, int access, int flags, int file, off_t offset);
void *__wrap_mmap(void *address, size_t size, int access, int flags, int file, off_t offset) {
    if (file < 0)
        return __real_mmap(address, size, access, flags, file, offset);
    errno = EOPNOTSUPP;
    if (!on_lines && (flags & MAP_SYNC))
        return MAP_FAILED;
    return image = __real_mmap(address, size, access, MAP_SHARED, file, offset);
}

int __wrap_msync(void *bytes, size_t size, int flags);
int __wrap_msync(void *bytes, size_t size, int flags) {
    const size_t from = (size_t)((uint8_t *)bytes - image);
    (void)flags;
    point();
    memcpy(durable + from, bytes, from + size < length ? size : length - from);
    point();
    return 0;
}

int __wrap_fsync(int file);
int __wrap_fsync(int file) {
    struct stat found;
    point();
    if (__real_fstat(file, &found) == 0 && S_ISREG(found.st_mode))
        expect(__real_pread(file, durable, sizeof durable, 0) == (ssize_t)found.st_size, "the file is read");
    point();
    return 0;
}

int __wrap_ioctl(int file, unsigned long request, ...);
int __wrap_ioctl(int file, unsigned long request, ...) {
    (void)file, (void)request;
    point();
    errno = ENOTTY;
    return -1;
}

int __wrap_fstatfs(int file, struct statfs *system);
int __wrap_fstatfs(int file, struct statfs *system) {
    (void)file;
    point();
    system->f_type = 0xef53;
    return 0;
}

/* Power fails: of what was not synced each line keeps some number of its words. */
static void power_cut(void) {
    static uint8_t seen[BYTES];
    int file = __real_open(path, O_RDWR | O_CLOEXEC);
    expect(file >= 0 && __real_pread(file, seen, length, 0) == (ssize_t)length, "the file is read");
    for (size_t line = 0; line < length / 64; line++)
        memcpy(durable + 64 * line, seen + 64 * line, 8 * below(9));
    expect(__real_pwrite(file, durable, length, 0) == (ssize_t)length, "the file is written");
    __real_close(file);
    cuts++;
}

/* ---- a thread that makes one call, and is cancelled in it or after it */

static struct {
    void (*make)(void);
    int returned;
    uint32_t number;
} call;

static void *in_thread(void *argument) {
    (void)argument;
    watched = 1;
    call.make();
    watched = 0;
    call.returned = 1;
    pthread_testcancel();
    return NULL;
}

/* Answers whether the call returned. At 0 the thread is not cancelled; else the request comes at this point, and the
 * thread ends by it, in the call or just after it. */
static int run(void (*make)(void), unsigned at) {
    pthread_t thread;
    void *result;
    call.make = make;
    call.returned = 0;
    points = 0;
    cancel_at = at;
    expect(pthread_create(&thread, NULL, in_thread, NULL) == 0, "a thread");
    __real_pthread_join(thread, &result);
    const int requested = at && points >= at;
    expect((result == PTHREAD_CANCELED) == requested, "a thread that is cancelled in a call ends in it or after it");
    cancelled += (uint64_t)requested;
    held_back += (uint64_t)(requested && call.returned);
    return call.returned;
}

/* ---- changes of a set */

static struct orderset *set;
static struct orderset_log *log_file;
static struct plain now, after;
static struct call change;

static void make_change(void) {
    call.number = carry_out(set, &now, &change);
}

static void open_writer(void) {
    const uint32_t number = orderset_open(path, WRITE, &set);
    expect(number == 0, "an open gives %" PRIu32 ": %s", number, orderset_strerror(number));
}

/* What is answered from here on must not be taken by a cut. */
static void refuses_all(void) {
    struct orderset_record r = {0};
    struct call other;
    uint8_t bytes[ORDERSET_VALUE_MAX];
    size_t size;
    for (int i = 0; i < 8; i++) {
        any_call(&now, &other);
        expect(carry_out(set, &now, &other) == ORDERSET_STOPPED
                   || (other.kind == BASKET && (other.count == 0 || other.count > ORDERSET_BASKET_MAX)),
               "a handle with a change that was cancelled refuses every change");
    }
    expect(orderset_get(set, now.key[0], bytes, sizeof bytes, &size) == ORDERSET_STOPPED
               && orderset_locate(set, now.key[0], NULL, NULL) == ORDERSET_STOPPED
               && orderset_next(set, &r) == ORDERSET_STOPPED && orderset_slot(set, 1, &r) == ORDERSET_STOPPED,
           "a handle with a change that was cancelled refuses every question");
    expect(orderset_errno(set) == ECANCELED, "errno of a change that was cancelled is ECANCELED");
}

/* A change that is cancelled at each of its points; and one that is not. */
static void cancel_changes(uint32_t layout) {
    make_plain(&now, 20 + (uint32_t)below(MOST_SLOTS - 20), layout);
    length = ORDERSET_IMAGE_BYTES(now.slots);
    unlink(path);
    expect(orderset_create(path, now.slots, layout) == 0, "create");
    open_writer();
    for (int i = 0; i < CANCELS;) {
        any_call(&now, &change);
        const uint32_t wanted = due(&now, &change, &after);
        const unsigned at = below(3) ? 0 : 1 + (unsigned)below(4);
        if (run(make_change, at)) {
            expect(may_give(wanted, call.number, &change), "a call of kind %d gives %" PRIu32 ": due is %" PRIu32,
                   change.kind, call.number, wanted);
            if (call.number == 0)
                now = after;
            answered += call.number == 0;
            continue;
        }
        refuses_all();
        orderset_close(set);
        if (below(4))
            power_cut();
        open_writer();
        const int done = wanted == 0 && shows(set, &after);
        expect(done || shows(set, &now),
               "after a change that was cancelled all that was answered is there, and no more");
        if (done)
            now = after;
        done_unanswered += (uint64_t)done;
        i++;
    }
    orderset_close(set);
}

/* With line flushes nothing is asked of the system. */
static void no_points(void) {
    on_lines = 1;
    open_writer();
    for (int i = 0; i < 100; i++) {
        any_call(&now, &change);
        due(&now, &change, &after);
        expect(run(make_change, 1) && points == 0, "a change by line flushes has no cancellation point");
        if (call.number == 0)
            now = after;
    }
    orderset_close(set);
    on_lines = 0;
}

/* ---- appends */

static uint8_t message[ORDERSET_LOG_MESSAGE_MAX], last_message[ORDERSET_LOG_MESSAGE_MAX];
static size_t message_size, last_size;
static uint64_t count;

static void append_message(void) {
    call.number = orderset_log_append(log_file, message, message_size, NULL);
}

static void open_log_writer(void) {
    const uint32_t number = orderset_log_open(path, WRITE, &log_file);
    expect(number == 0, "an open gives %" PRIu32 ": %s", number, orderset_strerror(number));
}

static int shows_log(uint64_t wanted, const uint8_t *bytes, size_t size) {
    uint8_t found[ORDERSET_LOG_MESSAGE_MAX];
    uint64_t first, last;
    size_t found_size = 0;
    if (orderset_log_range(log_file, &first, &last) || last != wanted)
        return 0;
    return wanted == 0
           || (orderset_log_read(log_file, last, found, sizeof found, &found_size) == 0 && found_size == size
               && memcmp(found, bytes, size) == 0);
}

static void take_message(void) {
    memcpy(last_message, message, sizeof message);
    last_size = message_size;
    count++;
}

static void cancel_appends(void) {
    uint64_t first, last;
    size_t size;
    length = ORDERSET_LOG_BYTES(ODD_CELLS);
    count = 0;
    unlink(path);
    expect(orderset_log_create(path, ODD_CELLS) == 0, "create of a log");
    open_log_writer();
    for (int i = 0; i < CANCELS;) {
        message_size = 1 + below(sizeof message);
        fill(message, message_size);
        if (run(append_message, below(3) ? 0 : 1 + (unsigned)below(4))) {
            expect(call.number == 0, "an append gives %" PRIu32, call.number);
            take_message();
            answered++;
            continue;
        }
        expect(orderset_log_append(log_file, "x", 1, NULL) == ORDERSET_STOPPED
                   && orderset_log_read(log_file, 1, NULL, 0, &size) == ORDERSET_STOPPED
                   && orderset_log_range(log_file, &first, &last) == ORDERSET_STOPPED
                   && orderset_log_errno(log_file) == ECANCELED,
               "a log with an append that was cancelled refuses every call");
        orderset_log_close(log_file);
        if (below(4))
            power_cut();
        open_log_writer();
        const int done = shows_log(count + 1, message, message_size);
        expect(done || shows_log(count, last_message, last_size),
               "after an append that was cancelled all that was answered is there, and no more");
        if (done)
            take_message();
        done_unanswered += (uint64_t)done;
        i++;
    }
    orderset_log_close(log_file);
}

/* ---- open, create, snapshot and close */

static uint32_t mode, slots, layout_made;
static char copy_path[NAME + 6]; /* of a snapshot */

static void do_create(void) {
    call.number = orderset_create(path, slots, layout_made);
}

static void do_create_log(void) {
    call.number = orderset_log_create(path, CELLS);
}

static void do_open(void) {
    call.number = orderset_open(path, mode, &set);
}

static void do_open_log(void) {
    call.number = orderset_log_open(path, mode, &log_file);
}

static void do_snapshot(void) {
    call.number = orderset_snapshot(set, copy_path);
    __real_unlink(copy_path);
}

static void do_close(void) {
    orderset_close(set);
    set = NULL;
}

static void do_close_log(void) {
    orderset_log_close(log_file);
    log_file = NULL;
}

static int count_entries(const char *directory, const char *begin) {
    DIR *d = opendir(directory);
    int entries = 0;
    expect(d != NULL, "%s is read", directory);
    for (struct dirent *e; (e = readdir(d));)
        entries += strncmp(e->d_name, begin, strlen(begin)) == 0;
    closedir(d);
    return entries;
}

/* Descriptors, names beside the file's own, and mappings of a file of such a name. */
static int count_left(void) {
    static char line[2 * NAME], directory[NAME];
    const char *name = strrchr(path, '/') + 1;
    snprintf(directory, sizeof directory, "%.*s", (int)(name - path), path);
    int left = count_entries("/proc/self/fd", "") + count_entries(directory, name);
    FILE *maps = fopen("/proc/self/maps", "r");
    expect(maps != NULL, "the mappings are read");
    while (fgets(line, sizeof line, maps))
        left += strstr(line, name) != NULL && strstr(line, "/cancel\n") == NULL;
    fclose(maps);
    return left;
}

static void end_handles(void) {
    orderset_close(set);
    orderset_log_close(log_file);
    set = NULL;
    log_file = NULL;
}

static void no_preparation(void) {}

static void remove_file(void) {
    unlink(path);
}

/* Cancels the call at every point, and then not. The number is the one that is due, as without a request, and nothing
 * is left; also of a thread that cannot be cancelled. */
static void at_every_point(const char *what, void (*prepare)(void), void (*make)(void), uint32_t wanted) {
    for (unsigned at = 1;; at++) {
        prepare();
        const int made = access(path, F_OK) == 0, before = count_left() - made;
        call.number = wanted;
        expect(run(make, at), "%s is not left where its thread is cancelled, at point %u", what, at);
        expect(call.number == wanted, "%s gives %" PRIu32 ": %" PRIu32 " (%s)", what, wanted, call.number,
               orderset_strerror(call.number));
        end_handles();
        const int left = count_left() - (access(path, F_OK) == 0);
        expect(left <= before, "%s leaves no descriptor, mapping or other name: %d and %d", what, before, left);
        if (points < at)
            break;
    }
    expect(points > 0, "%s has cancellation points", what);
}

static void open_then_close(void) {
    expect(orderset_open(path, mode, &set) == 0, "an open");
}

/* With an order, so that the new file is read again. */
static void open_then_snapshot(void) {
    const struct orderset_key key = {1, 0};
    expect(orderset_open(path, WRITE, &set) == 0, "an open");
    const uint32_t number = orderset_insert(set, key, "x", 1);
    expect(number == 0 || number == ORDERSET_KEY_EXISTS, "an order: %" PRIu32, number);
    orderset_close(set);
    expect(orderset_open(path, READ, &set) == 0, "an open");
}

static void open_log_then_close(void) {
    expect(orderset_log_open(path, mode, &log_file) == 0, "an open of a log");
}

static void calls_on_files(void) {
    slots = 9;
    for (layout_made = 1; layout_made <= 2; layout_made++) {
        length = ORDERSET_IMAGE_BYTES(slots);
        at_every_point("create", remove_file, do_create, 0);
        at_every_point("create where a file is", no_preparation, do_create, ORDERSET_FILE_EXISTS);
        for (on_lines = 0; on_lines < 2; on_lines++) {
            mode = WRITE;
            at_every_point("an open", no_preparation, do_open, 0);
            at_every_point("close", open_then_close, do_close, 0);
        }
        on_lines = 0;
        at_every_point("a snapshot", open_then_snapshot, do_snapshot, 0);
        for (mode = READ; mode <= INSPECT; mode++)
            at_every_point("an open", no_preparation, do_open, 0);
        mode = ORDERSET_LIVE;
        at_every_point("a live look", no_preparation, do_open, 0);
        mode = WRITE;
        at_every_point("an open of a set as a log", no_preparation, do_open_log, ORDERSET_BAD_LOG_LENGTH);
        const int held = __real_open(path, O_RDONLY | O_CLOEXEC);
        expect(flock(held, LOCK_SH) == 0, "a lock");
        at_every_point("an open of a locked file", no_preparation, do_open, ORDERSET_LOCKED);
        __real_close(held);
    }
    length = ORDERSET_LOG_BYTES(CELLS);
    at_every_point("create of a log", remove_file, do_create_log, 0);
    for (mode = READ; mode <= INSPECT; mode++)
        at_every_point("an open of a log", no_preparation, do_open_log, 0);
    mode = ORDERSET_LIVE;
    at_every_point("a live look at a log", no_preparation, do_open_log, 0);
    mode = WRITE;
    at_every_point("close of a log", open_log_then_close, do_close_log, 0);
    at_every_point("an open of a log as a set", no_preparation, do_open, ORDERSET_NOT_FORMATTED);
}

/* Half a basket: an open has stores of recovery to make. */
static void half_basket(void) {
    const struct orderset_key one = {1, 0}, two = {2, 0};
    const struct orderset_item item[2] = {{ORDERSET_INSERT, one, "x", 1}, {ORDERSET_INSERT, two, "y", 1}};
    static uint8_t bytes[BYTES];
    unlink(path);
    length = ORDERSET_IMAGE_BYTES(slots);
    expect(orderset_create(path, slots, 1) == 0, "create");
    open_writer();
    expect(orderset_basket(set, item, 2) == 0, "a basket");
    end_handles();
    int file = __real_open(path, O_RDWR | O_CLOEXEC);
    expect(__real_pread(file, bytes, length, 0) == (ssize_t)length, "the file is read");
    memset(bytes + 2 * ORDERSET_SLOT_BYTES, 0, ORDERSET_SLOT_BYTES);
    expect(__real_pwrite(file, bytes, length, 0) == (ssize_t)length, "the file is written");
    __real_close(file);
}

int main(int words, char **word) {
    begin_chance("cancel", words > 2 ? word[2] : NULL);
    expect(words > 1, "cancel FILE [SEED]");
    path = word[1];
    snprintf(copy_path, sizeof copy_path, "%s.copy", path);
    unlink(path);
    calls_on_files();
    mode = WRITE;
    at_every_point("an open of half a basket", half_basket, do_open, 0);
    for (int i = 0; i < SETS; i++)
        cancel_changes(1 + (uint32_t)i % 2);
    no_points();
    for (int i = 0; i < LOGS; i++)
        cancel_appends();
    unlink(path);
    printf("%" PRIu64 " threads cancelled, %" PRIu64 " of them after an open, a create or a close; %" PRIu64
           " cuts after a change, %" PRIu64 " of these changes done, %" PRIu64
           " changes and messages answered: nothing lost or left (%.0f s)\n",
           cancelled, held_back, cuts, done_unanswered, answered, seconds());
    return cuts == 0 || done_unanswered == 0;
}
