/* A storm of power cuts and kills over the handles of orderset.h. The source of the handles is compiled into this
 * test with orderset_persist.h over a simulated cache (cache.h), and what it maps is that cache's memory, as if the
 * file were on non-volatile memory: so every store, flush, fence, write and sync of an open and of a call can be the
 * last one. After each strike the file is opened again, which may be struck too; then every answered change must be
 * there, the one that was struck wholly or not at all, and nothing else. The set in both layouts, and the log.
 *
 * The file system is one whose files never share blocks, or xfs, where the file was copied with its blocks shared
 * (reflink): before an open, or also while one is under way. A store to a shared page, or a write, takes a new block,
 * and nothing of that page is durable before a sync, whatever is flushed.
 *
 *     file_storm FILE [SEED [STRIKES]]     FILE has only the length of what is mapped
 */
#define _GNU_SOURCE
#include <errno.h>
#include <fcntl.h>
#include <inttypes.h>
#include <limits.h>
#include <linux/fiemap.h>
#include <linux/fs.h>
#include <pthread.h>
#include <signal.h>
#include <stdarg.h>
#include <stdio.h>
#include <stdlib.h>
#include <string.h>
#include <sys/file.h>
#include <sys/ioctl.h>
#include <sys/mman.h>
#include <sys/resource.h>
#include <sys/stat.h>
#include <sys/vfs.h>
#include <time.h>
#include <unistd.h>

static int storm_msync(void *bytes, size_t size, int flags);
#define msync storm_msync
#include "cache.h"
#include "chance.h"
#include "file_model.h"

enum { STRIKES = 60000, BLOCKS = 8, MOST_CELLS = 9, PAGE = 4096, PAGES = MEMORY / PAGE + 1 };

/* ---- the blocks of the file */

static enum page { OWN, SHARED, TAKEN } page[PAGES]; /* TAKEN: a new block that a cut gives back */
static uint8_t shared_bytes[MEMORY];                 /* of the shared blocks */
static int is_xfs, tells, copied_meanwhile;          /* tells: which blocks are shared */

static size_t pages(void) {
    return (length + PAGE - 1) / PAGE;
}

static void takes_block(size_t at) {
    if (page[at / PAGE] == SHARED)
        page[at / PAGE] = TAKEN;
}

static void sync_pages(size_t from, size_t size) {
    cache_sync(visible + from, size);
    for (size_t i = from / PAGE; i < (from + size + PAGE - 1) / PAGE; i++)
        if (page[i] == TAKEN)
            page[i] = OWN;
}

static void copy_by_reflink(void) {
    sync_pages(0, length);
    memcpy(shared_bytes, visible, length);
    for (size_t i = 0; i < pages(); i++)
        page[i] = SHARED;
}

/* After a power cut: the pages without a durable place are those of the copy. */
static void give_back_blocks(void) {
    for (size_t i = 0; i < pages(); i++)
        if (page[i] == TAKEN) {
            const size_t size = length - i * PAGE < PAGE ? length - i * PAGE : PAGE;
            memcpy(visible + i * PAGE, shared_bytes + i * PAGE, size);
            page[i] = SHARED;
        }
    all_durable();
}

/* ---- what the handles get from the system: memory of the cache, and what a strike leaves behind is given back */

static int locked = -1;     /* the file of the handle that is open */
static void *block[BLOCKS]; /* what it allocated */
static void *copy;          /* what it mapped beside the file */
static size_t copy_size;

static void __attribute__((noreturn, format(printf, 1, 2))) lost(const char *what, ...);

static int storm_flock(int file, int how) {
    (void)how;
    locked = file;
    return 0;
}

static void *storm_mmap(void *address, size_t size, int access, int flags, int file, off_t offset) {
    if (file >= 0)
        return visible;
    copy_size = size;
    return copy = mmap(address, size, access, flags, file, offset);
}

static int storm_munmap(void *bytes, size_t size) {
    if (bytes == copy)
        copy = NULL;
    return bytes == visible ? 0 : munmap(bytes, size);
}

/* What is seen of the file. */
static ssize_t storm_pread(int file, void *bytes, size_t size, off_t offset) {
    (void)file;
    if (size > PTRDIFF_MAX)
        return -1;
    memcpy(bytes, (const uint8_t *)visible + offset, size);
    return (ssize_t)size;
}

/* An open writes the bytes that are there, but for the mark that a store of recovery turns; a page at a time. */
static ssize_t storm_pwrite(int file, const void *bytes, size_t size, off_t offset) {
    const size_t part = size < PAGE ? size : PAGE;
    (void)file;
    if (part == 8) {
        uint64_t word;
        memcpy(&word, bytes, sizeof word);
        cache_store(visible + offset, word);
    } else if (memcmp(visible + offset, bytes, part))
        lost("bytes: an open writes others than are there");
    takes_block((size_t)offset);
    point();
    return (ssize_t)part;
}

static int storm_fsync(int file) {
    struct stat found;
    if (fstat(file, &found) == 0 && S_ISREG(found.st_mode))
        sync_pages(0, length);
    return 0;
}

static int storm_msync(void *bytes, size_t size, int flags) {
    (void)flags;
    const size_t from = (size_t)((uint8_t *)bytes - visible);
    sync_pages(from, from + size < length ? size : length - from);
    return 0;
}

/* Each page is an extent. */
static int storm_ioctl(int file, unsigned long request, struct fiemap *m) {
    (void)file, (void)request;
    if (copied_meanwhile)
        copy_by_reflink();
    errno = ENOTTY;
    if (!tells)
        return -1;
    m->fm_mapped_extents = 0;
    for (size_t i = m->fm_start / PAGE; i < pages() && m->fm_mapped_extents < m->fm_extent_count; i++) {
        struct fiemap_extent *extent = &m->fm_extents[m->fm_mapped_extents++];
        *extent = (struct fiemap_extent){.fe_logical = i * PAGE, .fe_length = PAGE};
        extent->fe_flags = (page[i] == SHARED ? FIEMAP_EXTENT_SHARED : 0) | (i + 1 == pages() ? FIEMAP_EXTENT_LAST : 0);
    }
    return 0;
}

static int storm_fstatfs(int file, struct statfs *system) {
    (void)file;
    system->f_type = is_xfs ? 0x58465342 : 0xef53;
    return 0;
}

static void *storm_calloc(size_t count, size_t size) {
    int i = 0;
    while (block[i])
        i++;
    return block[i] = calloc(count, size);
}

static void storm_free(void *bytes) {
    for (int i = 0; i < BLOCKS; i++)
        if (block[i] == bytes)
            block[i] = NULL;
    free(bytes);
}

static void give_back(void) {
    for (int i = 0; i < BLOCKS; i++) {
        free(block[i]);
        block[i] = NULL;
    }
    if (copy)
        munmap(copy, copy_size);
    copy = NULL;
    close(locked);
}

/* Recovery on the stack of this test: it has no store, so that nothing strikes in it. */
static int storm_thread(pthread_t *thread, const pthread_attr_t *attributes, void *(*work)(void *), void *argument) {
    (void)thread, (void)attributes;
    work(argument);
    return 0;
}

#define pthread_create storm_thread
#define pthread_join(thread, result) ((void)(thread), 0)
#define flock storm_flock
#define mmap storm_mmap
#define munmap storm_munmap
#define pread storm_pread
#define calloc storm_calloc
#define free storm_free
#define pwrite storm_pwrite
#define fsync storm_fsync
#define ioctl storm_ioctl
#define fstatfs storm_fstatfs
#include "../src/area.c"
#include "../src/live.c"
#include "../src/make.c"
#include "../src/set.c"
#include "../src/log.c"
#include "../src/text.c"
#undef mmap
#undef munmap
#undef free

/* ---- the plain map or list of what was answered, and what may have been struck */

static const char *path;
static uint64_t histories, of_lines, strikes, cuts, kills, in_open, in_call, baskets, answered, opened,
    messages_answered, flushed, synced;
static int under_way, log_storm;

static struct plain now, after;

static struct {
    size_t cells, size;
    uint64_t count;
    uint8_t last[MOST_CELLS][ORDERSET_LOG_MESSAGE_MAX]; /* message s at s % MOST_CELLS */
    size_t length[MOST_CELLS];
} list;
static uint8_t message[ORDERSET_LOG_MESSAGE_MAX];

static void __attribute__((noreturn, format(printf, 1, 2))) lost(const char *what, ...) {
    va_list words;
    printf("\nLOST ");
    va_start(words, what);
    vprintf(what, words);
    va_end(words);
    printf("\nseed %" PRIu64 ", strike %" PRIu64 ", call under way: %d\n", seed, strikes, under_way);
    exit(1);
}

/* By msync exactly where a block may be shared. */
static void check_flush(uint32_t flush) {
    const int by_msync = is_xfs && (!tells || copied_meanwhile);
    if (by_msync != (flush == ORDERSET_FLUSH_MSYNC) || flush == ORDERSET_FLUSH_NONE)
        lost("flushes: %" PRIu32 " where blocks are %sshared", flush, by_msync ? "" : "not ");
    (*(by_msync ? &synced : &flushed))++;
}

/* ---- the set */

static void run_set(void) {
    struct orderset *set;
    uint32_t number = orderset_open(path, ORDERSET_WRITE, &set);
    if (number)
        lost("an open gives %" PRIu32 ": %s", number, orderset_strerror(number));
    calling = 1;
    opened += set->found.count;
    check_flush(set->area.flush);
    if (under_way && shows(set, &after))
        now = after;
    else if (!shows(set, &now))
        lost("orders: found is neither what was answered nor what was under way");
    under_way = 0;
    for (;;) {
        struct call c;
        any_call(&now, &c);
        const uint32_t wanted = due(&now, &c, &after);
        under_way = wanted == 0;
        number = carry_out(set, &now, &c);
        if (!may_give(wanted, number, &c))
            lost("a call of kind %d gives %" PRIu32 ", due is %" PRIu32, c.kind, number, wanted);
        if (number == 0)
            now = after; /* answered: what strikes from here on must not take it */
        answered += number == 0;
        baskets += number == 0 && c.kind == BASKET && c.count > 1;
        under_way = 0;
        point();
    }
}

static void make_set(void) {
    uint64_t answer[ORDERSET_PROVED_FORMAT_ANSWER];
    make_plain(&now, (uint32_t)(2 + below(below(2) ? 12 : 40)), 1 + (uint32_t)below(2));
    length = ORDERSET_IMAGE_BYTES(now.slots);
    if (orderset_proved_format(visible, length, now.layout, answer))
        lost("format");
}

/* ---- the log */

static void check_log(struct orderset_log *log) {
    uint8_t found[ORDERSET_LOG_MESSAGE_MAX];
    uint64_t first, last, oldest = list.count >= list.cells ? list.count - list.cells + 2 : 1;
    size_t size;
    if (orderset_log_range(log, &first, &last) || first != oldest || last != list.count)
        lost("message: the numbers are %" PRIu64 " to %" PRIu64 ", not %" PRIu64 " to %" PRIu64, first, last, oldest,
             list.count);
    for (uint64_t s = first; s <= last; s++)
        if (orderset_log_read(log, s, found, sizeof found, &size) || size != list.length[s % MOST_CELLS]
            || memcmp(found, list.last[s % MOST_CELLS], size))
            lost("message %" PRIu64, s);
    if (orderset_log_read(log, last + 1, found, sizeof found, &size) != ORDERSET_NO_MESSAGE)
        lost("message %" PRIu64 " was never appended", last + 1);
}

static void add_message(void) {
    list.count++;
    list.length[list.count % MOST_CELLS] = list.size;
    memcpy(list.last[list.count % MOST_CELLS], message, list.size);
}

static void run_log(void) {
    struct orderset_log *log;
    uint64_t given;
    uint32_t number = orderset_log_open(path, ORDERSET_WRITE, &log);
    if (number)
        lost("an open gives %" PRIu32 ": %s", number, orderset_strerror(number));
    calling = 1;
    opened += log->stores.count;
    check_flush(log->area.flush);
    if (under_way && log->last == list.count + 1)
        add_message();
    under_way = 0;
    check_log(log);
    for (;;) {
        list.size = 1 + below(below(2) ? ORDERSET_LOG_MESSAGE_MAX : 64);
        fill(message, list.size);
        under_way = 1;
        number = orderset_log_append(log, message, list.size, &given);
        if (number || given != list.count + 1)
            lost("an append gives %" PRIu32 ", message %" PRIu64, number, given);
        add_message();
        under_way = 0;
        messages_answered++;
        point();
    }
}

static void make_log(void) {
    list.cells = 2 + below(MOST_CELLS - 2);
    list.count = 0;
    length = ORDERSET_LOG_BYTES(list.cells);
    memset(visible, 0, length);
}

/* ---- the storm */

static void make_memory(void) {
    log_storm = below(3) == 0;
    if (log_storm)
        make_log();
    else
        make_set();
    int file = open(path, O_RDWR | O_CREAT | O_CLOEXEC, 0600);
    if (file < 0 || ftruncate(file, (off_t)length) || close(file))
        lost("%s: %s", path, strerror(errno));
    all_durable();
    memset(page, 0, sizeof page);
    is_xfs = (int)below(2);
    histories++;
    of_lines += !is_xfs;
    tells = below(4) > 0;
    after_store = takes_block;
    under_way = 0;
}

static void run_until_struck(void) {
    calling = 0;
    if (setjmp(struck))
        return;
    if (log_storm)
        run_log();
    else
        run_set();
}

static void strike(void) {
    const int kill_it = (int)below(2);
    if (kill_it) {
        process_kill();
    } else {
        power_cut();
        give_back_blocks();
    }
    give_back();
    kills += (uint64_t)kill_it;
    cuts += (uint64_t)!kill_it;
    in_open += (uint64_t)!calling;
    in_call += (uint64_t)(calling && under_way);
    strikes++;
}

int main(int count, char **word) {
    uint64_t wanted = count > 3 ? strtoull(word[3], NULL, 10) : STRIKES;
    begin_chance("file_storm", count > 2 ? word[2] : NULL);
    if (count < 2)
        lost("file_storm FILE [SEED [STRIKES]]");
    path = word[1];
    while (strikes < wanted) {
        make_memory();
        for (uint64_t k = 20 + below(500); k > 0 && strikes < wanted; k--) {
            const uint64_t in_an_open = length / 64 + 3 * pages() + 12;
            fuse = UINT_MAX;
            if (is_xfs && below(2))
                copy_by_reflink();
            copied_meanwhile = is_xfs && below(4) == 0;
            fuse = (unsigned)(below(3) ? in_an_open + below(below(4) ? 70 : 500) : below(in_an_open));
            run_until_struck();
            strike();
        }
    }
    printf("%" PRIu64 " histories, %" PRIu64 " of them of the restart machine, with %" PRIu64 " cuts and %" PRIu64
           " kills, %" PRIu64 " of them in an open and %" PRIu64 " in a call, %" PRIu64 " lines opened, %" PRIu64
           " changes, %" PRIu64 " of them baskets, and %" PRIu64 " messages answered; %" PRIu64
           " opens with flushes and %" PRIu64 " with msync: nothing lost (%.0f s)\n",
           histories, of_lines, cuts, kills, in_open, in_call, opened, answered, baskets, messages_answered, flushed,
           synced, seconds());
    return in_open == 0 || in_call == 0 || opened == 0 || baskets == 0 || messages_answered == 0 || synced == 0;
}
