/* The handles of orderset.h on files of this machine: random changes of a set in both layouts and random messages
 * of a log, against a plain map and a plain list, with the file closed and opened again; and case by case what is to
 * be refused: two handles and two processes on one file, a full disk, failing syncs, a file that is read-only, cut
 * short, damaged or of something else, a limit of the length, keys that are too wide. What is refused or only read
 * leaves every byte of the file.
 *
 *     file FILE [SEED]
 */
#define _GNU_SOURCE
#include <errno.h>
#include <fcntl.h>
#include <inttypes.h>
#include <limits.h>
#include <linux/fiemap.h>
#include <linux/fs.h>
#include <pthread.h>
#include <signal.h>
#include <stdio.h>
#include <stdlib.h>
#include <string.h>
#include <sys/file.h>
#include <sys/mman.h>
#include <sys/prctl.h>
#include <sys/resource.h>
#include <sys/stat.h>
#include <sys/syscall.h>
#include <sys/time.h>
#include <sys/vfs.h>
#include <sys/wait.h>
#include <time.h>
#include <unistd.h>

#include "chance.h"
#include "child.h"
#include "file_model.h"
#include "orderset_raw.h"

enum { SETS = 4, CALLS = 250, LOGS = 4, MESSAGES = 60 };
enum { MOST = 1 << 24, SMALL_STACK = 65536, CALL_STACK = 16384, NO_STACK = 8 << 20, FEW_SLOTS = 9, NAME = 1024 };
enum { READ = ORDERSET_READ, WRITE = ORDERSET_WRITE, INSPECT = ORDERSET_INSPECT };

static const char *path;
static uint64_t cases, changes, reopened, messages;

/* ---- a disk that is full, and one that does not sync; calls that are interrupted; what others do meanwhile */

static int disk_full, sync_fails;
static int fails_alone;                          /* the sync that fails alone: 1 is the next one; 0: none */
static int interrupted, no_fallocate, no_rename; /* the next call is; the file system has not got it, by this errno */
static int asked, extended, written;             /* calls for blocks, those that may extend a file, and writes */
static int no_unlink;                            /* no name can be removed */
static int no_new_block;                         /* blocks are given, and a write or a store takes another */
static int stat_error;                           /* errno of stat; 0: it does not fail */
static int as_memory;                            /* the file can be mapped with MAP_SYNC */
static long file_system;                         /* what fstatfs tells; 0: it fails */
static uint64_t shared_from;                     /* the first byte of the page that is shared; UINT64_MAX: none */
static int tells_shared, stands_still;           /* FIEMAP does not fail; it tells the first extents again and again */
static int syncs, synced_before_asked;           /* syncs, and how many there were when FIEMAP was asked first */
static void (*before_lock)(void), (*before_rename)(void);

int __real_posix_fallocate(int file, off_t offset, off_t size);
int __real_msync(void *address, size_t size, int flags);
void *__real_mmap(void *address, size_t size, int access, int flags, int file, off_t offset);
ssize_t __real_pwrite(int file, const void *bytes, size_t size, off_t offset);
int __real_stat(const char *name, struct stat *found);
int __wrap_posix_fallocate(int file, off_t offset, off_t size);
int __wrap_msync(void *address, size_t size, int flags);
void *__wrap_mmap(void *address, size_t size, int access, int flags, int file, off_t offset);
ssize_t __wrap_pwrite(int file, const void *bytes, size_t size, off_t offset);
int __wrap_stat(const char *name, struct stat *found);
int __wrap_ioctl(int file, unsigned long request, struct fiemap *map);
int __wrap_fstatfs(int file, struct statfs *system);

static int blocks(void) {
    asked++;
    if (interrupted)
        return interrupted = 0, EINTR;
    return disk_full ? ENOSPC : 0;
}

int __wrap_posix_fallocate(int file, off_t offset, off_t size) {
    const int error = blocks();
    extended++;
    return error ? error : __real_posix_fallocate(file, offset, size);
}

int fallocate(int file, int mode, off_t offset, off_t size) {
    errno = no_fallocate ? EOPNOTSUPP : blocks();
    extended += !(mode & FALLOC_FL_KEEP_SIZE);
    return errno ? -1 : (int)syscall(SYS_fallocate, file, mode, offset, size);
}

/* A store to a page that gets no block ends the program, as on a full btrfs. */
void *__wrap_mmap(void *address, size_t size, int access, int flags, int file, off_t offset) {
    if (file >= 0 && as_memory && (flags & MAP_SYNC) == MAP_SYNC)
        flags = MAP_SHARED;
    return __real_mmap(address, size, file >= 0 && no_new_block ? PROT_READ : access, flags, file, offset);
}

/* Each page is an extent. */
int __wrap_ioctl(int file, unsigned long request, struct fiemap *map) {
    const uint64_t page = 4096, first = stands_still ? 0 : map->fm_start / page;
    (void)file;
    if (synced_before_asked < 0)
        synced_before_asked = syncs;
    errno = ENOTTY;
    if (!tells_shared || request != FS_IOC_FIEMAP)
        return -1;
    for (map->fm_mapped_extents = 0; map->fm_mapped_extents < map->fm_extent_count; map->fm_mapped_extents++) {
        const uint64_t at = (first + map->fm_mapped_extents) * page;
        if (at >= map->fm_start + map->fm_length)
            break;
        map->fm_extents[map->fm_mapped_extents] = (struct fiemap_extent){
            .fe_logical = at, .fe_length = page, .fe_flags = at == shared_from ? FIEMAP_EXTENT_SHARED : 0};
    }
    return 0;
}

int __wrap_fstatfs(int file, struct statfs *system) {
    (void)file;
    errno = EIO;
    system->f_type = file_system;
    return file_system ? 0 : -1;
}

ssize_t __wrap_pwrite(int file, const void *bytes, size_t size, off_t offset) {
    written++;
    errno = ENOSPC;
    return no_new_block ? -1 : __real_pwrite(file, bytes, size, offset);
}

int __wrap_stat(const char *name, struct stat *found) {
    errno = stat_error;
    return stat_error ? -1 : __real_stat(name, found);
}

static int this_fails(void) {
    syncs++;
    errno = EIO;
    return sync_fails || (fails_alone && --fails_alone == 0);
}

int __wrap_msync(void *address, size_t size, int flags) {
    return this_fails() ? -1 : __real_msync(address, size, flags);
}

int fsync(int file) {
    return this_fails() ? -1 : (int)syscall(SYS_fsync, file);
}

int flock(int file, int how) {
    if (before_lock)
        before_lock();
    return (int)syscall(SYS_flock, file, how);
}

int renameat2(int from, const char *old, int to, const char *new, unsigned flags) {
    if (before_rename)
        before_rename();
    errno = no_rename;
    return no_rename ? -1 : (int)syscall(SYS_renameat2, from, old, to, new, flags);
}

int unlink(const char *name) {
    if (!no_unlink)
        return (int)syscall(SYS_unlink, name);
    errno = EPERM;
    return -1;
}

/* ---- what a case expects */

static void gives(uint32_t number, uint32_t wanted, const char *what) {
    expect(number == wanted, "%s gives %" PRIu32 " (%s): %" PRIu32 " (%s)", what, wanted, orderset_strerror(wanted),
           number, orderset_strerror(number));
    cases++;
}

static void holds(int is_so, const char *what) {
    expect(is_so, "%s", what);
    cases++;
}

static struct orderset *open_set(uint32_t mode) {
    struct orderset *set;
    gives(orderset_open(path, mode, &set), 0, "an open");
    return set;
}

/* An open that is refused gives no handle. */
static void no_set(uint32_t mode, uint32_t wanted, const char *what) {
    struct orderset *set = (struct orderset *)&cases;
    gives(orderset_open(path, mode, &set), wanted, what);
    holds(set == NULL, what);
}

static void no_log(uint32_t mode, uint32_t wanted, const char *what) {
    struct orderset_log *log = (struct orderset_log *)&cases;
    gives(orderset_log_open(path, mode, &log), wanted, what);
    holds(log == NULL, what);
}

static struct orderset_statistics statistics_of(struct orderset *set) {
    struct orderset_statistics s;
    orderset_stat(set, &s);
    return s;
}

/* ---- the bytes of the file */

struct contents {
    size_t size;
    uint8_t *bytes;
};

static struct contents contents_of_file(void) {
    struct contents c = {0, malloc(MOST)};
    int in = open(path, O_RDONLY | O_CLOEXEC);
    ssize_t got = in < 0 || !c.bytes ? -1 : read(in, c.bytes, MOST);
    expect(got >= 0, "%s is read", path);
    close(in);
    c.size = (size_t)got;
    return c;
}

static void write_file(const void *bytes, size_t size) {
    int out = open(path, O_WRONLY | O_CREAT | O_TRUNC | O_CLOEXEC, 0600);
    expect(out >= 0 && write(out, bytes, size) == (ssize_t)size, "%s is written", path);
    close(out);
}

static int is_unchanged(const struct contents *before) {
    struct contents c = contents_of_file();
    const int same = c.size == before->size && memcmp(c.bytes, before->bytes, c.size) == 0;
    free(c.bytes);
    return same;
}

static uint64_t word_at(const struct contents *c, size_t i) {
    uint64_t word;
    memcpy(&word, c->bytes + 8 * i, sizeof word);
    return word;
}

static void new_set(uint32_t slots, uint32_t layout) {
    unlink(path);
    gives(orderset_create(path, slots, layout), 0, "create");
}

/* ---- random changes */

/* The counts are those of the proved call. */
static void check_counts(const struct plain *p) {
    static uint32_t heads[1], next[ORDERSET_SLOTS_MAX + 1];
    uint64_t counts[ORDERSET_COUNTS];
    struct contents c = contents_of_file();
    struct orderset *set = open_set(INSPECT);
    const struct orderset_statistics s = statistics_of(set);
    expect((p->layout == 1 ? orderset_proved_count_slots : orderset2_proved_count_slots)(
               c.bytes, c.size, heads, 1, next, ORDERSET_NEXT_LENGTH(p->slots), counts)
               == 0,
           "the slots are counted");
    holds(memcmp(counts, s.count, sizeof counts) == 0, "the statistics count the slots");
    holds(shows(set, p), "an inspection shows what was answered");
    orderset_close(set);
    free(c.bytes);
}

static struct orderset *close_and_open(struct orderset *set, const struct plain *p) {
    orderset_close(set);
    struct contents before = contents_of_file();
    check_counts(p);
    set = open_set(READ);
    holds(shows(set, p), "a reader shows what was answered");
    holds(is_unchanged(&before), "a reader and an inspection leave the file");
    struct orderset *writer = open_set(WRITE);
    orderset_close(set);
    holds(shows(writer, p), "an open shows what was answered");
    free(before.bytes);
    reopened++;
    return writer;
}

static void random_changes(uint32_t layout) {
    static struct plain now, later;
    make_plain(&now, (uint32_t)(2 + below(below(2) ? 12 : 40)), layout);
    new_set(now.slots, layout);
    struct orderset *set = open_set(WRITE);
    for (int i = 0; i < CALLS; i++) {
        struct call c;
        any_call(&now, &c);
        const uint32_t wanted = due(&now, &c, &later), number = carry_out(set, &now, &c);
        expect(may_give(wanted, number, &c), "call %d of kind %d gives %" PRIu32 ": due is %" PRIu32, i, c.kind, number,
               wanted);
        if (number == 0)
            now = later;
        changes += number == 0;
        if (below(16) == 0)
            holds(shows(set, &now), "the handle shows what was answered");
        if (below(32) == 0)
            set = close_and_open(set, &now);
    }
    set = close_and_open(set, &now);
    orderset_close(set);
}

/* ---- new files */

/* Names that begin so. */
static int are_names(const char *first, const char *rest) {
    char command[2 * NAME];
    snprintf(command, sizeof command, "ls '%s'%s >/dev/null 2>&1", first, rest);
    return system(command) == 0;
}

static int left_over(void) {
    return are_names(path, ".new-*");
}

static void remove_left_over(void) {
    char command[2 * NAME];
    snprintf(command, sizeof command, "rm '%s'.new-??????", path);
    holds(system(command) == 0, "a name that is left over is removed");
}

static void new_files(void) {
    char missing[NAME];
    unlink(path);
    snprintf(missing, sizeof missing, "%s.no/orders.img", path);
    gives(orderset_create(path, 1, 1), 1, "create of one slot");
    gives(orderset_create(path, 65536, 1), 1, "create of 65,536 slots");
    gives(orderset_create(path, 2, 3), 32, "create in layout 3");
    gives(orderset_log_create(path, 1), 30, "create of one cell");
    gives(orderset_log_create(path, 1001), 30, "create of 1,001 cells");
    gives(orderset_create(missing, 2, 1), ORDERSET_ERRNO, "create where no directory is");
    holds(errno == ENOENT, "errno tells that no directory is there");
    no_set(WRITE, ORDERSET_ERRNO, "an open of no file");
    holds(errno == ENOENT, "errno tells that no file is there");
    disk_full = 1;
    gives(orderset_create(path, 2, 1), ORDERSET_ERRNO, "create on a full disk");
    holds(errno == ENOSPC && access(path, F_OK) && !left_over(), "a create that fails leaves nothing");
    disk_full = 0;
    sync_fails = 1;
    gives(orderset_create(path, 2, 1), ORDERSET_ERRNO, "create that is not synced");
    holds(errno == EIO && access(path, F_OK) && !left_over(), "a create that fails leaves nothing");
    sync_fails = 0;
    new_set(FEW_SLOTS, 2);
    struct contents before = contents_of_file();
    gives(orderset_create(path, 2, 1), ORDERSET_FILE_EXISTS, "create where a file is");
    gives(orderset_log_create(path, 2), ORDERSET_FILE_EXISTS, "create of a log where a file is");
    holds(is_unchanged(&before) && !left_over(), "create leaves a file that is there");
    disk_full = 1;
    no_set(WRITE, ORDERSET_ERRNO, "an open on a full disk");
    holds(errno == ENOSPC && is_unchanged(&before), "errno tells that the disk is full");
    disk_full = 0;
    no_new_block = 1;
    no_set(WRITE, ORDERSET_ERRNO, "an open where a write takes a new block, on a full disk");
    holds(errno == ENOSPC && is_unchanged(&before), "errno tells that the disk is full");
    unlink(path);
    gives(orderset_create(path, 2, 1), ORDERSET_ERRNO, "create where a write takes a new block, on a full disk");
    holds(errno == ENOSPC && access(path, F_OK) && !left_over(), "a create that fails leaves nothing");
    no_new_block = 0;
    free(before.bytes);
}

static void make_file_once(void) {
    before_rename = NULL;
    write_file("abc", 3);
}

/* Another program makes the file just before create gives it its name; a file system without that rename. */
static void names(void) {
    const int errors[] = {0, EINVAL, ENOSYS};
    for (int i = 0; i < 3; i++) {
        no_rename = errors[i];
        unlink(path);
        before_rename = make_file_once;
        gives(orderset_create(path, 2, 1), ORDERSET_FILE_EXISTS, "create beside another");
        struct contents made = contents_of_file();
        holds(made.size == 3 && !memcmp(made.bytes, "abc", 3) && !left_over(), "create leaves the file of another");
        free(made.bytes);
    }
    for (int i = 1; i < 3; i++) {
        no_rename = errors[i];
        new_set(FEW_SLOTS, 1);
        holds(!left_over(), "a link and no other name is left");
        orderset_close(open_set(WRITE));
    }
    unlink(path);
    no_unlink = 1;
    gives(orderset_create(path, 2, 1), 0, "create where no name can be removed");
    no_unlink = no_rename = 0;
    holds(left_over() == 1, "its other name is left");
    orderset_close(open_set(WRITE));
    remove_left_over();
}

/* Where the directory cannot be synced, the file is there and whole. */
static void name_not_durable(void) {
    unlink(path);
    fails_alone = 2;
    gives(orderset_create(path, FEW_SLOTS, 1), ORDERSET_ERRNO, "create where the directory cannot be synced");
    holds(errno == EIO && !left_over(), "errno tells that the sync failed");
    fails_alone = 0;
    struct orderset *set = open_set(WRITE);
    holds(statistics_of(set).slots == FEW_SLOTS, "a file whose name was not synced is whole");
    orderset_close(set);
}

/* Names of any length that the file system takes. */
static void long_names(void) {
    const char *name = path;
    char longer[NAME];
    const size_t directory = (size_t)(strrchr(path, '/') + 1 - path);
    for (size_t i = 100; i <= NAME_MAX; i += i < 110 || i >= 240 ? 1 : 10) {
        memcpy(longer, name, directory);
        memset(longer + directory, 'n', i);
        longer[directory + i] = 0;
        path = longer;
        unlink(path);
        expect(orderset_create(path, 2, 1) == 0, "create of a name of %zu bytes: %s", i, strerror(errno));
        orderset_close(open_set(WRITE));
        unlink(path);
        longer[directory + 80] = 0;
        holds(!are_names(longer, "*"), "create of a long name leaves no other name");
        path = name;
    }
}

/* In a process that may make no file longer than this. */
static void length_limit(uint32_t slots) {
    const struct rlimit little = {4096, 4096};
    int status;
    unlink(path);
    if (slots)
        new_set(slots, 1);
    fflush(stdout);
    const pid_t child = fork();
    if (child == 0) {
        struct orderset *set;
        if (setrlimit(RLIMIT_FSIZE, &little))
            _exit(2);
        const uint32_t number = slots ? orderset_open(path, WRITE, &set) : orderset_create(path, 32, 1);
        _exit(number != ORDERSET_ERRNO || errno != EFBIG);
    }
    expect(waitpid(child, &status, 0) == child, "the other process ends");
    holds(WIFEXITED(status) && WEXITSTATUS(status) == 0, "a limit of the length of a file gives 1010 with EFBIG");
    holds(slots ? access(path, F_OK) == 0 : access(path, F_OK) && !left_over(), "and leaves no name");
}

/* Calls for blocks that are interrupted, and a file system without the one that keeps the length. */
static void calls_for_blocks(void) {
    interrupted = 1;
    new_set(FEW_SLOTS, 1);
    asked = extended = 0;
    interrupted = 1;
    orderset_close(open_set(WRITE));
    holds(asked == 2 && extended == 0, "an open asks for blocks and keeps the length");
    no_fallocate = 1;
    new_set(100, 1);
    struct contents c = contents_of_file();
    struct stat found;
    write_file(c.bytes, ORDERSET_LINE_BYTES);
    expect(truncate(path, (off_t)c.size) == 0 && stat(path, &found) == 0 && found.st_blocks * 512 < (off_t)c.size,
           "a file with a hole");
    orderset_close(open_set(WRITE));
    no_fallocate = 0;
    holds(stat(path, &found) == 0 && found.st_blocks * 512 >= (off_t)c.size, "an open fills the holes of a file");
    holds(is_unchanged(&c), "an open leaves every byte of a file");
    free(c.bytes);
}

/* In a process that has no descriptor above the standard streams. */
static void no_descriptor(void) {
    const struct rlimit few = {STDERR_FILENO + 1, STDERR_FILENO + 1};
    int status;
    unlink(path);
    fflush(stdout);
    const pid_t child = fork();
    if (child == 0) {
        close(STDIN_FILENO);
        _exit(setrlimit(RLIMIT_NOFILE, &few) ? 2 : orderset_create(path, 2, 1) != ORDERSET_ERRNO);
    }
    expect(waitpid(child, &status, 0) == child, "the other process ends");
    holds(WIFEXITED(status) && WEXITSTATUS(status) == 0, "create without a descriptor");
    holds(access(path, F_OK) && !left_over(), "create without a descriptor leaves nothing");
}

/* ---- files that are no sets */

static void no_set_in(uint32_t wanted, const char *what) {
    struct contents before = contents_of_file();
    asked = written = 0;
    no_set(WRITE, wanted, what);
    holds(asked == 0 && written == 0, "for a file that is no set no blocks are asked, and nothing is written to it");
    no_set(READ, wanted, what);
    struct orderset *set = open_set(INSPECT);
    holds(statistics_of(set).refusal == wanted, what);
    orderset_close(set);
    holds(is_unchanged(&before), "a file that is no set stays as it is");
    free(before.bytes);
}

/* A null path is none. */
static void no_file(void) {
    for (uint32_t mode = READ; mode <= INSPECT; mode++) {
        struct orderset *set;
        struct orderset_log *log;
        errno = 0;
        gives(orderset_open(NULL, mode, &set), ORDERSET_ERRNO, "an open of a set without a path");
        holds(errno == EFAULT && !set, "an open of a set without a path");
        errno = 0;
        gives(orderset_log_open(NULL, mode, &log), ORDERSET_ERRNO, "an open of a log without a path");
        holds(errno == EFAULT && !log, "an open of a log without a path");
    }
}

static void wrong_files(void) {
    static uint8_t bytes[ORDERSET_IMAGE_BYTES(FEW_SLOTS)];
    new_set(FEW_SLOTS, 1 + (uint32_t)below(2));
    no_set(3, ORDERSET_BAD_MODE, "an open in mode 3");
    no_set(5, ORDERSET_BAD_MODE, "an open in mode 5");
    no_file();
    truncate(path, ORDERSET_IMAGE_BYTES(FEW_SLOTS - 1)) ? expect(0, "truncate") : (void)0;
    no_set_in(3, "a set without its last slot");
    write_file(bytes, 0);
    no_set_in(1, "an empty file");
    write_file(bytes, sizeof bytes - 1);
    no_set_in(1, "a file of another length");
    write_file(bytes, sizeof bytes);
    no_set_in(2, "a file of zeros");
    fill(bytes, sizeof bytes);
    write_file(bytes, sizeof bytes);
    no_set_in(3, "a file of random bytes");
    unlink(path);
    gives(orderset_log_create(path, 2), 0, "create of a log");
    no_set_in(2, "a log of two cells, as long as a set of six slots");
    unlink(path);
    expect(mkdir(path, 0700) == 0, "a directory");
    no_set(WRITE, ORDERSET_NOT_REGULAR, "a directory");
    no_set(READ, ORDERSET_NOT_REGULAR, "a directory");
    rmdir(path);
    expect(mkfifo(path, 0600) == 0, "a pipe");
    no_set(READ, ORDERSET_NOT_REGULAR, "a pipe");
    unlink(path);
}

/* ---- two handles, two processes, rights */

/* A process that has the file open until it is killed. */
static pid_t other_process(uint32_t mode) {
    int ends[2];
    char byte;
    expect(pipe2(ends, O_CLOEXEC) == 0, "a pipe");
    fflush(stdout);
    const pid_t child = fork();
    if (child == 0) {
        struct orderset *set;
        prctl(PR_SET_PDEATHSIG, SIGKILL);
        if (orderset_open(path, mode, &set) == 0 && write(ends[1], "", 1) == 1)
            pause();
        _exit(1);
    }
    close(ends[1]);
    expect(child > 0 && read(ends[0], &byte, 1) == 1, "another process opens the file");
    close(ends[0]);
    return child;
}

static void end_process(pid_t child) {
    kill(child, SIGKILL);
    expect(waitpid(child, NULL, 0) == child, "the other process ends");
}

static void two_handles(void) {
    new_set(FEW_SLOTS, 1);
    pid_t child = other_process(WRITE);
    no_set(WRITE, ORDERSET_LOCKED, "a second process that writes");
    no_set(READ, ORDERSET_LOCKED, "a process that reads beside one that writes");
    no_set(INSPECT, ORDERSET_LOCKED, "a process that inspects beside one that writes");
    end_process(child);
    struct orderset *set = open_set(WRITE);
    no_set(WRITE, ORDERSET_LOCKED, "a second handle that writes");
    orderset_close(set);
    child = other_process(READ);
    orderset_close(open_set(WRITE));
    end_process(child);
    const int copying = open(path, O_RDONLY | O_CLOEXEC);
    expect(flock(copying, LOCK_SH) == 0, "a lock that is shared");
    no_set(WRITE, ORDERSET_LOCKED, "a handle that writes beside a shared lock");
    orderset_close(open_set(READ));
    close(copying);
    unlink(path);
    gives(orderset_log_create(path, 3), 0, "create of a log");
    struct orderset_log *log;
    gives(orderset_log_open(path, WRITE, &log), 0, "an open of a log");
    no_log(WRITE, ORDERSET_LOCKED, "a second handle that writes the log");
    orderset_log_close(log);
    orderset_close(NULL);
    orderset_log_close(NULL);
}

/* ---- another file gets the name while an open waits for the lock */

static char other[NAME];

static void rename_once(void) {
    before_lock = NULL;
    expect(rename(other, path) == 0, "a rename");
}

static void remove_once(void) {
    before_lock = NULL;
    expect(unlink(path) == 0, "a remove");
}

/* A copy takes the place of the file, each time. */
static void rename_always(void) {
    struct contents c = contents_of_file();
    expect(unlink(path) == 0 || errno == ENOENT, "a remove");
    write_file(c.bytes, c.size);
    free(c.bytes);
}

static void renamed_files(void) {
    const char *name = path;
    struct orderset *set;
    snprintf(other, sizeof other, "%s.other", path);
    path = other;
    new_set(FEW_SLOTS + 1, 2);
    path = name;
    new_set(FEW_SLOTS, 1);
    before_lock = rename_once;
    set = open_set(WRITE);
    holds(statistics_of(set).slots == FEW_SLOTS + 1, "an open has the file that has the name when it is locked");
    gives(orderset_insert(set, (struct orderset_key){1, 1}, "a", 1), 0, "insert");
    orderset_close(set);
    set = open_set(READ);
    gives(orderset_locate(set, (struct orderset_key){1, 1}, NULL, NULL), 0, "a key after a rename");
    orderset_close(set);
    before_lock = rename_always;
    no_set(WRITE, ORDERSET_LOCKED, "an open of a name that is always another file's");
    before_lock = remove_once;
    no_set(READ, ORDERSET_ERRNO, "an open of a file that is removed meanwhile");
    holds(errno == ENOENT, "errno tells that no file is there");
}

/* The name cannot be looked at. */
static void no_stat(void) {
    new_set(FEW_SLOTS, 1);
    stat_error = EIO;
    no_set(WRITE, ORDERSET_ERRNO, "an open where stat fails");
    holds(errno == EIO, "errno tells why stat failed");
    stat_error = 0;
}

static void do_nothing(int number) {
    (void)number;
}

/* The lock is waited for a fifth of a second, also where a signal comes every two milliseconds. */
static void signals(void) {
    const struct itimerval often = {{0, 2000}, {0, 2000}}, never = {{0, 0}, {0, 0}};
    struct sigaction action = {.sa_handler = do_nothing}, before;
    struct timespec from, to;
    new_set(FEW_SLOTS, 1);
    struct orderset *set = open_set(WRITE);
    sigaction(SIGALRM, &action, &before);
    setitimer(ITIMER_REAL, &often, NULL);
    clock_gettime(CLOCK_MONOTONIC, &from);
    no_set(WRITE, ORDERSET_LOCKED, "a second handle that writes, among signals");
    clock_gettime(CLOCK_MONOTONIC, &to);
    setitimer(ITIMER_REAL, &never, NULL);
    sigaction(SIGALRM, &before, NULL);
    holds((to.tv_sec - from.tv_sec) * 1000 + (to.tv_nsec - from.tv_nsec) / 1000000 >= 190,
          "signals do not shorten the wait for the lock");
    orderset_close(set);
}

/* In a process without rights, and without standard input: the file does not take its place. */
static void rights(void) {
    int status;
    new_set(FEW_SLOTS, 1);
    chmod(path, 0444);
    fflush(stdout);
    const pid_t child = fork();
    if (child == 0) {
        struct orderset *set;
        close(STDIN_FILENO);
        chmod(path, 0644);
        if (orderset_open(path, WRITE, &set) || fcntl(STDIN_FILENO, F_GETFD) != -1)
            _exit(1);
        orderset_close(set);
        chmod(path, 0444);
        if (geteuid() == 0 && setuid(65534))
            _exit(2);
        const uint32_t number = orderset_open(path, WRITE, &set);
        _exit(number == ORDERSET_ERRNO && errno == EACCES ? 0 : 3);
    }
    expect(waitpid(child, &status, 0) == child, "the other process ends");
    holds(WIFEXITED(status) && WEXITSTATUS(status) != 1, "the file does not become a standard stream");
    holds(WIFEXITED(status) && WEXITSTATUS(status) == 0, "an open for writing of a file that may not be written");
    orderset_close(open_set(READ));
}

/* ---- handles that do not write, and that cannot */

static const struct orderset_key one = {1, 0}, two = {2, 0}, three = {3, 0}, wide = {1, 1};

static void all_refused(struct orderset *set, struct orderset_key key, uint32_t wanted, const char *what) {
    const struct orderset_item item = {ORDERSET_INSERT, key, "x", 1};
    gives(orderset_insert(set, key, "x", 1), wanted, what);
    gives(orderset_replace(set, key, "x", 1), wanted, what);
    gives(orderset_remove(set, key), wanted, what);
    gives(orderset_basket(set, &item, 1), wanted, what);
    gives(orderset_book_new(set, key, 5), wanted, what);
    gives(orderset_book_acknowledge(set, key), wanted, what);
    gives(orderset_book_fill(set, key, 5), wanted, what);
    gives(orderset_book_withdraw(set, key), wanted, what);
}

static void no_questions(struct orderset *set, struct orderset_key key, uint32_t wanted, const char *what) {
    uint8_t bytes[ORDERSET_VALUE_MAX];
    uint32_t slot = 7;
    uint64_t version = 7;
    size_t size = 7;
    gives(orderset_get(set, key, bytes, sizeof bytes, &size), wanted, what);
    gives(orderset_locate(set, key, &slot, &version), wanted, what);
    holds(size == 0 && slot == 0 && version == 0, "a refused question leaves zeros");
}

static void reading_only(void) {
    struct contents before;
    new_set(FEW_SLOTS, 1);
    struct orderset *set = open_set(WRITE);
    gives(orderset_insert(set, one, "a", 1), 0, "insert");
    all_refused(set, wide, ORDERSET_KEY_TOO_WIDE, "a key of 128 bits in layout 1");
    no_questions(set, wide, ORDERSET_KEY_TOO_WIDE, "a key of 128 bits in layout 1");
    orderset_close(set);
    before = contents_of_file();
    set = open_set(READ);
    all_refused(set, one, ORDERSET_READ_ONLY, "a change through a reader");
    gives(orderset_locate(set, one, NULL, NULL), 0, "a question to a reader");
    holds(statistics_of(set).flush == ORDERSET_FLUSH_NONE, "a reader flushes nothing");
    holds(orderset_compared(set) == 1 && statistics_of(set).compared == 1, "one slot was compared");
    orderset_close(set);
    holds(is_unchanged(&before), "a reader leaves the file");
    new_set(FEW_SLOTS, 2);
    set = open_set(WRITE);
    gives(orderset_insert(set, wide, "a", 1), 0, "insert of a key of 128 bits in layout 2");
    gives(orderset_locate(set, one, NULL, NULL), ORDERSET_NOT_FOUND, "a key with another high word");
    orderset_close(set);
    free(before.bytes);
}

static void failing_syncs(void) {
    struct orderset_record r = {0};
    new_set(FEW_SLOTS, 1);
    struct orderset *set = open_set(WRITE);
    gives(orderset_insert(set, one, "a", 1), 0, "insert");
    if (statistics_of(set).flush != ORDERSET_FLUSH_MSYNC) {
        orderset_close(set);
        return; /* non-volatile memory: there is no sync */
    }
    sync_fails = 1;
    gives(orderset_replace(set, one, "b", 1), ORDERSET_NOT_DURABLE, "a replace that is not synced");
    holds(errno == EIO && orderset_errno(set) == EIO && statistics_of(set).error == EIO, "errno tells why");
    sync_fails = 0;
    all_refused(set, one, ORDERSET_STOPPED, "a change after a failed sync");
    no_questions(set, one, ORDERSET_STOPPED, "a question after a failed sync");
    gives(orderset_next(set, &r), ORDERSET_STOPPED, "next after a failed sync");
    gives(orderset_slot(set, 1, &r), ORDERSET_STOPPED, "a slot after a failed sync");
    orderset_close(set);
    sync_fails = 1;
    no_set(WRITE, ORDERSET_ERRNO, "an open that cannot make the file durable");
    sync_fails = 0;
    set = open_set(WRITE);
    gives(orderset_next(set, &r), 0, "next after a failed sync and an open");
    holds(r.length == 1 && (r.value[0] == 'a' || r.value[0] == 'b'), "the replace is done or not");
    gives(orderset_replace(set, one, "c", 1), 0, "a replace after it");
    orderset_close(set);
}

/* A program that asks for no lock writes to the header while the handle is open: no order is shown as the last one. */
static void overwritten(void) {
    const uint64_t zero = 0;
    struct orderset_record r = {0};
    new_set(FEW_SLOTS, 1);
    struct orderset *set = open_set(WRITE);
    gives(orderset_insert(set, one, "a", 1), 0, "insert");
    gives(orderset_insert(set, two, "b", 1), 0, "insert");
    gives(orderset_next(set, &r), 0, "next");
    int file = open(path, O_WRONLY);
    holds(pwrite(file, &zero, sizeof zero, 8) == sizeof zero, "the layout is overwritten");
    gives(orderset_next(set, &r), ORDERSET_BAD_HEADER, "next after the layout was overwritten");
    holds(r.slot == 1 && r.key.low == 1, "a refused next leaves the record");
    holds(pwrite(file, &zero, sizeof zero, 0) == sizeof zero, "the header is overwritten");
    gives(orderset_next(set, &r), ORDERSET_NOT_FORMATTED, "next after the header was overwritten");
    close(file);
    orderset_close(set);
}

/* ---- shared blocks */

static void check_flush(int by_msync, const char *what) {
    struct contents before = contents_of_file();
    synced_before_asked = -1;
    syncs = 0;
    struct orderset *set = open_set(WRITE);
    const uint32_t flush = statistics_of(set).flush;
    holds(by_msync == (flush == ORDERSET_FLUSH_MSYNC), what);
    holds(synced_before_asked >= 2, "the file is written, stored to and synced before its blocks are asked for");
    holds(is_unchanged(&before), "an open leaves every byte of a file");
    gives(orderset_insert(set, one, "a", 1), 0, "insert");
    gives(orderset_remove(set, one), 0, "remove");
    orderset_close(set);
    free(before.bytes);
}

/* A file that is mapped with MAP_SYNC goes by msync where a block is shared, or where xfs does not tell. */
static void shared_blocks(void) {
    enum { EXT4 = 0xef53, XFS = 0x58465342, SLOTS = 5000, LAST = 128 * (SLOTS + 1) / 4096 * 4096 };
    new_set(SLOTS, 1);
    as_memory = tells_shared = 1;
    file_system = XFS;
    shared_from = UINT64_MAX;
    check_flush(0, "a file without shared blocks goes by line flushes");
    for (shared_from = 0; shared_from <= LAST; shared_from += LAST / 4096 / 4 * 4096)
        check_flush(1, "a file with a shared block goes by msync");
    shared_from = LAST;
    check_flush(1, "a file whose last block is shared goes by msync");
    shared_from = UINT64_MAX;
    stands_still = 1;
    check_flush(1, "a file on xfs that tells the same extents again goes by msync");
    stands_still = tells_shared = 0;
    check_flush(1, "a file on xfs that does not tell goes by msync");
    file_system = 0;
    check_flush(1, "a file on an unknown file system that does not tell goes by msync");
    file_system = EXT4;
    check_flush(0, "a file on ext4 that does not tell goes by line flushes");
    as_memory = 0;
}

/* ---- void slots and damaged ones */

/* A basket of three that a cut struck: one of its lines is as before. */
static void half_basket(uint32_t layout) {
    const struct orderset_item item[3] = {
        {ORDERSET_REPLACE, one, "x", 1}, {ORDERSET_INSERT, two, "y", 1}, {ORDERSET_INSERT, three, "z", 1}};
    size_t line;
    new_set(FEW_SLOTS, layout);
    struct orderset *set = open_set(WRITE);
    gives(orderset_insert(set, one, "a", 1), 0, "insert");
    struct contents before = contents_of_file();
    gives(orderset_basket(set, item, 3), 0, "a basket");
    orderset_close(set);
    struct contents after = contents_of_file();
    for (line = after.size / 64; memcmp(before.bytes + 64 * (line - 1), after.bytes + 64 * (line - 1), 64) == 0;)
        line--;
    memcpy(after.bytes + 64 * (line - 1), before.bytes + 64 * (line - 1), 64);
    write_file(after.bytes, after.size);
    free(before.bytes);
    free(after.bytes);
}

static void shows_one(struct orderset *set, uint64_t voids, uint64_t broken, const char *what) {
    struct orderset_record r = {0};
    const struct orderset_statistics s = statistics_of(set);
    gives(orderset_next(set, &r), 0, what);
    holds(r.key.low == 1 && r.length == 1 && r.value[0] == 'a' && r.records == 0, what);
    gives(orderset_next(set, &r), ORDERSET_END, what);
    expect(s.count[ORDERSET_SLOT_VOID] == voids && s.count[ORDERSET_SLOT_BROKEN] == broken,
           "%s has %" PRIu64 " void slots and %" PRIu64 " broken ones: %" PRIu64 " and %" PRIu64, what, voids, broken,
           s.count[ORDERSET_SLOT_VOID], s.count[ORDERSET_SLOT_BROKEN]);
}

static void void_slots(uint32_t layout) {
    static struct plain held;
    half_basket(layout);
    struct contents before = contents_of_file();
    struct orderset *set = open_set(INSPECT);
    shows_one(set, 2, 1, "an inspection of half a basket");
    orderset_close(set);
    held = (struct plain){.slots = FEW_SLOTS, .layout = layout, .key = {one}};
    for (uint64_t i = 1; i < KEYS; i++)
        held.key[i].low = 1 + i;
    held.value[0] = (struct value){.held = 1, .length = 1, .bytes = "a"};
    check_counts(&held);
    set = open_set(READ);
    shows_one(set, 0, 3, "a reader of half a basket");
    orderset_close(set);
    holds(is_unchanged(&before), "a reader leaves void slots in the file");
    set = open_set(ORDERSET_LIVE);
    shows_one(set, 0, 3, "a live look at half a basket");
    holds(statistics_of(set).mode == ORDERSET_LIVE && statistics_of(set).opened == 2,
          "a live look opens its void slots");
    orderset_close(set);
    holds(is_unchanged(&before), "a live look leaves void slots in the file");
    set = open_set(WRITE);
    shows_one(set, 0, 3, "a writer of half a basket");
    holds(statistics_of(set).opened == 2, "a writer opens void slots");
    orderset_close(set);
    holds(!is_unchanged(&before), "a writer opens void slots in the file");
    set = open_set(INSPECT);
    shows_one(set, 0, 3, "an inspection after that");
    orderset_close(set);
    free(before.bytes);
}

/* Each sync of an open fails alone: there is no handle, and the next open does what is left to do. */
static void openings_not_synced(uint32_t layout) {
    struct orderset *set;
    for (int i = 1;; i++) {
        half_basket(layout);
        fails_alone = i;
        const uint32_t number = orderset_open(path, WRITE, &set);
        if (number == 0) {
            expect(i == 4, "3 syncs of an open fail alone: %d", i - 1);
            break;
        }
        gives(number, ORDERSET_ERRNO, "an open of which one sync fails");
        holds(set == NULL && errno == EIO, "an open of which one sync fails has no handle");
        set = open_set(WRITE);
        shows_one(set, 0, 3, "an open after one of which a sync failed");
        orderset_close(set);
    }
    fails_alone = 0;
    orderset_close(set);
}

/* One record, and a word of it that is changed; recovery names the slot unless it is by a mark. */
static void damaged(uint32_t layout, size_t word, uint64_t flip, uint32_t wanted) {
    struct orderset_record r = {0};
    new_set(FEW_SLOTS, layout);
    struct orderset *set = open_set(WRITE);
    gives(orderset_insert(set, two, "abc", 3), 0, "insert");
    gives(orderset_next(set, &r), 0, "next");
    orderset_close(set);
    struct contents c = contents_of_file();
    const uint32_t slot = r.slot;
    const uint64_t damage = word_at(&c, 16 * slot + word) ^ flip;
    memcpy(c.bytes + 128 * slot + 8 * word, &damage, sizeof damage);
    write_file(c.bytes, c.size);
    asked = written = 0;
    no_set(WRITE, wanted, "an open of a damaged file");
    holds(wanted != ORDERSET_BAD_MARK || (asked == 0 && written == 0), "marks are looked at before a file is written");
    set = open_set(INSPECT);
    const struct orderset_statistics s = statistics_of(set);
    holds(s.refusal == wanted && s.fault_slot == (wanted == 5 ? 0 : slot), "an inspection tells the refusal");
    gives(orderset_slot(set, slot, &r), 0, "a slot of a damaged file");
    holds(r.fault == wanted && r.key.low == 2, "an inspection tells the slot");
    holds(r.slot_class == (wanted == 5 ? ORDERSET_SLOT_BROKEN : ORDERSET_SLOT_UNKNOWN), "a damaged slot is not live");
    no_questions(set, one, wanted, "a question about a damaged file");
    gives(orderset_slot(set, 0, &r), ORDERSET_NO_SLOT, "slot 0");
    gives(orderset_slot(set, FEW_SLOTS + 1, &r), ORDERSET_NO_SLOT, "the slot after the last");
    orderset_close(set);
    holds(is_unchanged(&c), "a damaged file stays as it is");
    free(c.bytes);
}

static void damages(uint32_t layout) {
    const size_t kind = layout + 1; /* the kind word; in it the length is bits 8 to 15, here 3 */
    damaged(layout, 0, 2, 5);
    damaged(layout, kind, 1u << 24, 6);
    damaged(layout, kind, 1u << 16, 6);
    damaged(layout, kind, 1 ^ 4, 22);
    damaged(layout, kind, (3 ^ (layout == 1 ? 81 : 73)) << 8, 23);
    damaged(layout, kind + 1, 1u << 24, 24);
    damaged(layout, 8 + 6, 1, 24);
}

/* ---- numbers in words; orders; a small stack */

static void words(void) {
    static const char none[] = "a number that is not defined";
    struct orderset_order order;
    const uint64_t good[3] = {2, 9, 4}, bad[3] = {2, 9, 9};
    for (uint32_t i = 0; i <= 33; i++)
        holds(!strcmp(orderset_strerror(i), none) == (i == 12 || i == 16), "each number of the papers has words");
    for (uint32_t i = ORDERSET_ERRNO; i <= ORDERSET_BAD_MODE; i++)
        holds(strcmp(orderset_strerror(i), none) != 0, "each number of the handles has words");
    holds(strcmp(orderset_strerror(ORDERSET_BUSY), none) != 0, "and so has the one of a live look");
    for (uint32_t i = ORDERSET_NOT_FOUND; i <= ORDERSET_END; i++)
        holds(strcmp(orderset_strerror(i), none) != 0, "each answer of the handles has words");
    holds(!strcmp(orderset_version(), ORDERSET_VERSION_STRING), "the library is of the version of its header");
    holds(!strcmp(orderset_strerror(34), none) && !strcmp(orderset_strerror(UINT32_MAX), none), "no other has");
    holds(orderset_order_of(good, 24, &order) && order.state == 2 && order.ordered == 9 && order.filled == 4,
          "a value that is an order");
    holds(!orderset_order_of(bad, 24, &order) && order.ordered == 0, "a value that is filled and no order");
    holds(!orderset_order_of(good, 23, &order), "a value of 23 bytes is no order");
}

static uint8_t *first_frame;

static void *on_small_stack(void *argument) {
    (void)argument;
    first_frame = __builtin_frame_address(0);
    struct orderset *set = open_set(WRITE);
    static struct orderset_record r;
    const struct orderset_item item[2] = {{ORDERSET_INSERT, wide, "y", 1}, {ORDERSET_INSERT, two, "z", 1}};
    gives(orderset_book_new(set, one, 100), 0, "a new order");
    gives(orderset_basket(set, item, 2), 0, "a basket");
    gives(orderset_next(set, &r), 0, "next");
    holds(statistics_of(set).heads == 65521 && statistics_of(set).live == 3, "the heads are a prime near N");
    orderset_close(set);
    return NULL;
}

/* The stack is painted, and what is no longer painted was used. Below it is no memory. The sanitizer of threads needs
 * more than it has. */
static void small_stack(void) {
#ifdef __SANITIZE_THREAD__
    (void)on_small_stack;
#else
    pthread_attr_t attributes;
    pthread_t thread;
    uint8_t *below_it = mmap(NULL, NO_STACK + SMALL_STACK, PROT_NONE, MAP_PRIVATE | MAP_ANONYMOUS, -1, 0);
    uint8_t *stack = below_it + NO_STACK;
    expect(below_it != MAP_FAILED && mprotect(stack, SMALL_STACK, PROT_READ | PROT_WRITE) == 0, "a small stack");
    memset(stack, 0xa5, SMALL_STACK);
    new_set(65535, 2);
    pthread_attr_init(&attributes);
    expect(pthread_attr_setstack(&attributes, stack, SMALL_STACK) == 0, "a small stack");
    expect(pthread_create(&thread, &attributes, on_small_stack, NULL) == 0, "a thread");
    pthread_join(thread, NULL);
    pthread_attr_destroy(&attributes);
    const uint8_t *deepest = stack;
    while (*deepest == 0xa5)
        deepest++;
    expect(first_frame - deepest <= CALL_STACK, "no call needs more than 16 KB of stack: %td bytes",
           first_frame - deepest);
    munmap(below_it, NO_STACK + SMALL_STACK);
#endif
}

/* ---- the log */

static struct {
    uint32_t cells;
    uint64_t count;
    size_t size[MESSAGES + 1];
    uint8_t bytes[MESSAGES + 1][ORDERSET_LOG_MESSAGE_MAX];
} list;

static void check_log(struct orderset_log *log) {
    uint8_t bytes[ORDERSET_LOG_MESSAGE_MAX];
    uint64_t first, last, oldest = list.count < list.cells ? 1 : list.count - list.cells + 2;
    size_t size;
    gives(orderset_log_range(log, &first, &last), 0, "the range of a log");
    holds(first == oldest && last == list.count, "the numbers that can be read");
    for (uint64_t s = first; s <= last; s++) {
        gives(orderset_log_read(log, s, bytes, sizeof bytes, &size), 0, "a message");
        holds(size == list.size[s] && memcmp(bytes, list.bytes[s], size) == 0, "a message is as it was answered");
    }
    gives(orderset_log_read(log, first - 1, bytes, sizeof bytes, &size), 31, "the message before the first");
    gives(orderset_log_read(log, last + 1, bytes, sizeof bytes, &size), 31, "the message after the last");
    holds(size == 0, "a refused read leaves a length of 0");
    if (last > 0)
        gives(orderset_log_read(log, last, bytes, list.size[last] - 1, &size), 13, "a short output");
}

static void append_one(struct orderset_log *log) {
    uint64_t number = 7;
    const uint64_t s = list.count + 1;
    list.size[s] = below(8) ? 1 + below(ORDERSET_LOG_MESSAGE_MAX) : ORDERSET_LOG_MESSAGE_MAX;
    fill(list.bytes[s], list.size[s]);
    gives(orderset_log_append(log, list.bytes[s], list.size[s], below(4) ? &number : NULL), 0, "an append");
    holds(number == 7 || number == s, "an append tells its number");
    list.count++;
    messages++;
    gives(orderset_log_append(log, NULL, 0, &number), 29, "an empty message");
    gives(orderset_log_append(log, list.bytes, 385, &number), 29, "a message of 385 bytes");
    holds(number == 0, "a refused append has no number");
}

static void random_messages(void) {
    struct orderset_log *log;
    list.cells = 2 + (uint32_t)below(below(2) ? 4 : 40);
    list.count = 0;
    unlink(path);
    gives(orderset_log_create(path, list.cells), 0, "create of a log");
    gives(orderset_log_open(path, WRITE, &log), 0, "an open of a log");
    check_log(log);
    while (list.count < MESSAGES) {
        append_one(log);
        if (below(8))
            continue;
        check_log(log);
        orderset_log_close(log);
        struct contents before = contents_of_file();
        gives(orderset_log_open(path, below(2) ? READ : INSPECT, &log), 0, "an open of a log");
        check_log(log);
        gives(orderset_log_append(log, "x", 1, NULL), ORDERSET_READ_ONLY, "an append through a reader");
        orderset_log_close(log);
        holds(is_unchanged(&before), "a reader leaves the log");
        free(before.bytes);
        gives(orderset_log_open(path, WRITE, &log), 0, "an open of a log");
        reopened++;
    }
    check_log(log);
    orderset_log_close(log);
}

static void no_log_in(uint32_t wanted, const char *what) {
    struct contents before = contents_of_file();
    asked = written = 0;
    no_log(WRITE, wanted, what);
    holds(asked == 0 && written == 0, "for a file that is no log no blocks are asked, and nothing is written to it");
    no_log(READ, wanted, what);
    holds(is_unchanged(&before), "a file that is no log stays as it is");
    free(before.bytes);
}

static void wrong_logs(void) {
    uint8_t bytes[2 * ORDERSET_LOG_CELL_BYTES] = {0};
    write_file(bytes, sizeof bytes - 1);
    no_log_in(30, "a log that was cut short");
    write_file(bytes, ORDERSET_LOG_CELL_BYTES);
    no_log_in(30, "a log of one cell");
    bytes[ORDERSET_LOG_CELL_BYTES] = 2;
    write_file(bytes, sizeof bytes);
    no_log_in(ORDERSET_NOT_A_LOG, "a log with a mark of 2");
    fill(bytes, sizeof bytes);
    write_file(bytes, sizeof bytes);
    no_log_in(ORDERSET_NOT_A_LOG, "a file of random bytes");
    new_set(6, 1);
    no_log_in(ORDERSET_NOT_A_LOG, "a set of six slots, as long as a log of two cells");
    no_log(3, ORDERSET_BAD_MODE, "an open in mode 3");
    no_log(5, ORDERSET_BAD_MODE, "an open in mode 5");
}

/* A set of 7 m - 1 slots is as long as a log of 2 m cells, and neither is the other, whatever it holds. */
static void two_forms(uint32_t m) {
    struct orderset_log *log;
    static uint8_t bytes[ORDERSET_VALUE_MAX];
    for (uint32_t layout = 1; layout <= 2; layout++) {
        new_set(7 * m - 1, layout);
        struct orderset *set = open_set(WRITE);
        for (uint64_t key = 0; key < 7 * m - 2 && key < 60; key++) {
            fill(bytes, sizeof bytes);
            gives(orderset_insert(set, (struct orderset_key){key, 0}, bytes, below(73)), 0, "insert");
        }
        orderset_close(set);
        no_log_in(ORDERSET_NOT_A_LOG, "a set as long as a log");
    }
    unlink(path);
    gives(orderset_log_create(path, 2 * m), 0, "create of a log");
    gives(orderset_log_open(path, WRITE, &log), 0, "an open of a log");
    for (uint32_t i = 1; i <= 4 * m && i <= 60; i++) {
        gives(orderset_log_append(log, bytes, 1 + below(72), NULL), 0, "an append");
        if (i % (2 * m) && i % 32)
            continue;
        orderset_log_close(log);
        no_set_in(i / (2 * m) == 1 ? 3 : 2, "a log as long as a set"); /* by the mark of cell 0, 1 or 0 */
        gives(orderset_log_open(path, WRITE, &log), 0, "an open of a log");
    }
    orderset_log_close(log);
}

static void failing_log(void) {
    struct orderset_log *log;
    struct orderset_log_statistics s;
    uint64_t number;
    size_t size;
    unlink(path);
    gives(orderset_log_create(path, 4), 0, "create of a log");
    gives(orderset_log_open(path, WRITE, &log), 0, "an open of a log");
    gives(orderset_log_append(log, "a", 1, &number), 0, "an append");
    orderset_log_stat(log, &s);
    holds(s.cells == 4 && s.first == 1 && s.last == 1 && s.bytes == 4 * 448, "the statistics of a log");
    if (s.flush == ORDERSET_FLUSH_MSYNC) {
        sync_fails = 1;
        gives(orderset_log_append(log, "b", 1, &number), ORDERSET_NOT_DURABLE, "an append, not synced");
        sync_fails = 0;
        holds(number == 0 && orderset_log_errno(log) == EIO, "an append that is not synced has no number");
        gives(orderset_log_append(log, "c", 1, &number), ORDERSET_STOPPED, "an append after it");
        gives(orderset_log_read(log, 1, NULL, 0, &size), ORDERSET_STOPPED, "a read after it");
        gives(orderset_log_range(log, &number, &number), ORDERSET_STOPPED, "a range after it");
    }
    orderset_log_close(log);
    gives(orderset_log_open(path, WRITE, &log), 0, "an open of a log");
    gives(orderset_log_append(log, "d", 1, &number), 0, "an append after that");
    holds(number == 2 || number == 3, "the append that was not synced is there or not");
    orderset_log_close(log);
}

int main(int count, char **word) {
    begin_chance("file", count > 2 ? word[2] : NULL);
    expect(count > 1, "file FILE [SEED]");
    path = word[1];
    rmdir(path);
    new_files();
    names();
    name_not_durable();
    long_names();
    length_limit(0);
    length_limit(FEW_SLOTS + 32);
    calls_for_blocks();
    wrong_files();
    two_handles();
    signals();
    renamed_files();
    no_stat();
    rights();
    no_descriptor();
    reading_only();
    failing_syncs();
    overwritten();
    shared_blocks();
    for (uint32_t layout = 1; layout <= 2; layout++) {
        void_slots(layout);
        openings_not_synced(layout);
        damages(layout);
        for (int i = 0; i < SETS; i++)
            random_changes(layout);
    }
    words();
    small_stack();
    wrong_logs();
    two_forms(1);
    two_forms(1 + (uint32_t)below(8));
    two_forms(143); /* 1,000 slots */
    failing_log();
    for (int i = 0; i < LOGS; i++)
        random_messages();
    printf("%" PRIu64 " cases, %" PRIu64 " changes and %" PRIu64 " messages answered, files opened again %" PRIu64
           " times: all as they should be (%.0f s)\n",
           cases, changes, messages, reopened, seconds());
    return 0;
}
