/* orderset_persist.h: makes an image durable. orderset_persist makes the 16 stores that a call handed out on mapped
 * memory, flushes both lines and fences once; orderset_persist_list does the same with a list of any length, as a
 * basket, recovery and the message log (orderset_raw.h) hand it out; orderset_persist_image makes a whole image, or a
 * log's area, durable at a start. C11 and C++11, GCC or Clang, x86-64. No part of the proved archives: nothing here is
 * proved, and what it relies on is said here.
 *
 *     flush = orderset_best_flush();                                                  once
 *     if (orderset_persist_image(image, length, flush)) ...stop                       every start, before recovery
 *     if (orderset_raw_recover(&set, &found)) ...stop
 *     if (orderset_persist_list(image, length, found.at, found.value, found.count, flush)) ...stop
 *     if (orderset_raw_insert(&set, key, value, size, &change) == ORDERSET_OK &&
 *         orderset_persist(image, length, change.at, change.value, flush) == 0)
 *         ...answer the client
 *     if (orderset_raw_basket(&set, &items) == ORDERSET_OK &&
 *         orderset_persist_list(image, length, items.at, items.value, ORDERSET_BASKET_STORES(items.count), flush) == 0)
 *         ...answer the client
 *
 * A file is mapped with MAP_SHARED_VALIDATE | MAP_SYNC. Where that mmap fails, the calls with flush make nothing
 * durable although they return 0: use those that end in _file. The calls with flush are not enough either on xfs where
 * the file shares a block with another (cp --reflink, or plain cp of coreutils 9): a store there takes a new block,
 * whose place is not durable. A start writes and syncs the whole file once, and then asks whether a block is still
 * shared (FIEMAP), as the handle of orderset.h does.
 *
 * The image is mapped from non-volatile memory and 64-byte aligned, so that the eight words of a line are one cache
 * line. What mmap gives is; of other memory orderset_aligned tells it, and orderset_persist_image tests it. at and
 * value are as an insert, a replace, a remove or a step of the book handed them out for this image; those of
 * orderset_persist_list as a basket, recovery or the log did, with as many stores as it told. A refused call, a
 * remove that answers absent and a second acknowledge hand out nothing, and nothing is to be persisted.
 *
 * The order (section 2 of Cohen, Friedman and Larus, Efficient Logging in Non-Volatile Memory by Exploiting Coherency
 * Protocols, OOPSLA 2017). Each store is one aligned word, atomic and with release order: no compiler and no processor
 * lets it reach the cache before the stores ahead of it. A cache line goes to memory whole. So whenever power fails,
 * each line holds some number of its stores, counted from the first. Between two lines there is no order and none is
 * needed. A flush begins to write its line back, and the fence is the one wait: every store after it, so also the
 * one that sends an answer, comes after the call is durable. It is sfence after clwb and clflushopt, and mfence after
 * clflush.
 *
 * Why a start makes the whole image durable. Recovery has to read what stands in the memory. After a power cut it does.
 * After a kill, or a call that failed, the caches or the kernel may still hold stores that every process sees and that
 * are not durable. Say that key 7 is in slot 1, answered, and that the process is killed in a replace of key 7 to
 * slot 2. Recovery sees slot 2, takes that replace as done and gives slot 1 to the next call. That call is made durable
 * and answered. Then power fails: slot 2 was never durable, slot 1 is overwritten, and the answered order of key 7 is
 * lost. So every start that will write calls orderset_persist_image, or orderset_persist_image_file, before it
 * recovers. A program that only reads may leave it out; what it shows is then perhaps not durable yet.
 */
#ifndef ORDERSET_PERSIST_H
#define ORDERSET_PERSIST_H

#if !defined(__x86_64__) || defined(__ILP32__) || !defined(__GNUC__)
#error "orderset_persist.h needs 64-bit x86-64 and GCC or Clang: its flushes, fence and order of stores are of x86-64"
#endif

#include <cpuid.h>
#include <errno.h>
#include <sys/mman.h>
#include <unistd.h>

#include "orderset_raw.h"

/* How a line is flushed, with the numbers of enum orderset_flush_kind, which also has those without a line flush.
 * Define ORDERSET_FLUSH as one of these before the header to fix it; otherwise it is asked of the processor. */
enum orderset_flush {
    ORDERSET_CLFLUSH = ORDERSET_FLUSH_CLFLUSH,
    ORDERSET_CLFLUSHOPT = ORDERSET_FLUSH_CLFLUSHOPT,
    ORDERSET_CLWB = ORDERSET_FLUSH_CLWB
};

/* Hooks that count or delay: run after each line flush and after the fence. */
#ifndef ORDERSET_FLUSHED
#define ORDERSET_FLUSHED() ((void)0)
#endif
#ifndef ORDERSET_FENCED
#define ORDERSET_FENCED() ((void)0)
#endif

/* A word of the image, whatever type the caller gave its bytes. */
typedef uint64_t __attribute__((may_alias)) orderset_word;

/* The best flush that this processor has: clwb keeps the line in the cache, clflushopt is asynchronous, clflush is in
 * every one. Ask once, at the start. */
static inline enum orderset_flush orderset_best_flush(void) {
#ifdef ORDERSET_FLUSH
    return ORDERSET_FLUSH;
#else
    unsigned a, b, c, d;
    if (!__get_cpuid_count(7, 0, &a, &b, &c, &d))
        return ORDERSET_CLFLUSH;
    return b & (1u << 24) ? ORDERSET_CLWB : b & (1u << 23) ? ORDERSET_CLFLUSHOPT : ORDERSET_CLFLUSH;
#endif
}

/* 1 if a line of the image is one cache line, else 0. Ask once, at the start: orderset_persist does not. */
ORDERSET_RAW_CALL static inline int orderset_aligned(const void *image) {
    return (uintptr_t)image % ORDERSET_LINE_BYTES == 0;
}

/* One store; C11's atomic_store_explicit, in a form that C++ takes too. */
static inline void orderset_store(orderset_word *word, uint64_t value) {
    __atomic_store_n(word, value, __ATOMIC_RELEASE);
}

/* The eight stores of one line, in order. */
static inline orderset_word *orderset_store_line(void *image, uint32_t first,
                                                 const uint64_t value[ORDERSET_LINE_STORES]) {
    orderset_word *line = (orderset_word *)image + first;
    orderset_store(line + 0, value[0]);
    orderset_store(line + 1, value[1]);
    orderset_store(line + 2, value[2]);
    orderset_store(line + 3, value[3]);
    orderset_store(line + 4, value[4]);
    orderset_store(line + 5, value[5]);
    orderset_store(line + 6, value[6]);
    orderset_store(line + 7, value[7]);
    return line;
}

static inline void orderset_flush_line(void *line, enum orderset_flush flush) {
    if (flush == ORDERSET_CLWB)
        __asm__ volatile("clwb %0" : "+m"(*(volatile char *)line) : : "memory");
    else if (flush == ORDERSET_CLFLUSHOPT)
        __asm__ volatile("clflushopt %0" : "+m"(*(volatile char *)line) : : "memory");
    else
        __asm__ volatile("clflush %0" : "+m"(*(volatile char *)line) : : "memory");
    ORDERSET_FLUSHED();
}

/* The one wait. sfence orders clwb and clflushopt. clflush is ordered by mfence on every processor, and by sfence on
 * some only. */
static inline void orderset_fence(enum orderset_flush flush) {
    if (flush == ORDERSET_CLFLUSH)
        __asm__ volatile("mfence" : : : "memory");
    else
        __asm__ volatile("sfence" : : : "memory");
    ORDERSET_FENCED();
}

/* Whether the two halves begin two different whole lines of the image. Numbers that were never set seldom do, and
 * numbers that were all set to zero do not; the stores of an earlier call do. */
static inline int orderset_two_lines(size_t image_length, uint32_t a, uint32_t b) {
    const size_t words = image_length / ORDERSET_LINE_BYTES * ORDERSET_LINE_STORES;
    return (a | b) % ORDERSET_LINE_STORES == 0 && a < words && b < words && a != b;
}

/* Makes the stores that a call handed out durable: 16 stores, two line flushes, one fence. Returns 0; or -1 with
 * errno EINVAL where at does not begin two different whole lines of the image, and then nothing is stored. */
ORDERSET_RAW_CALL static inline int orderset_persist(void *image, size_t image_length,
                                                     const uint32_t at[ORDERSET_STORES],
                                                     const uint64_t value[ORDERSET_STORES], enum orderset_flush flush) {
    const uint32_t first = at[0], second = at[ORDERSET_LINE_STORES];
    if (__builtin_expect(!orderset_two_lines(image_length, first, second), 0)) {
        errno = EINVAL;
        return -1;
    }
    orderset_word *a = orderset_store_line(image, first, value);
    orderset_word *b = orderset_store_line(image, second, value + ORDERSET_LINE_STORES);
    orderset_flush_line(a, flush);
    orderset_flush_line(b, flush);
    orderset_fence(flush);
    return 0;
}

/* The stores of a list, in order. */
static inline void orderset_store_list(void *bytes, const uint32_t *at, const uint64_t *value, size_t count) {
    for (size_t i = 0; i < count; i++)
        orderset_store((orderset_word *)bytes + at[i], value[i]);
}

/* Whether the next stores of a list are the eight of one line, in order. Two word numbers are compared at once. */
static inline int orderset_is_line(const uint32_t *at, size_t count) {
    if (count < ORDERSET_LINE_STORES || at[0] % ORDERSET_LINE_STORES)
        return 0;
    const uint64_t first = (uint64_t)(at[0] + 1) << 32 | at[0];
    uint64_t pair, other = 0; /* without a branch */
    for (uint64_t k = 0; k < ORDERSET_LINE_STORES / 2; k++) {
        __builtin_memcpy(&pair, at + 2 * k, sizeof pair);
        other |= pair ^ (first + 2 * k + (2 * k << 32));
    }
    return other == 0;
}

/* Whether each of these words is in a whole line of the bytes. */
static inline int orderset_inside(size_t bytes_length, const uint32_t *at, size_t count) {
    const size_t words = bytes_length / ORDERSET_LINE_BYTES * ORDERSET_LINE_STORES;
    uint32_t last = 0; /* the highest number, without a branch: the compiler compares several at once */
    for (size_t i = 0; i < count; i++)
        last = at[i] > last ? at[i] : last;
    return count == 0 || last < words;
}

/* Makes a list of stores durable: store i sets word at[i] of the bytes, which begin a line, to value[i]. First all
 * stores, in order, so that each line has its own in order; then each line that has any is flushed, and then there is
 * one fence. Where the stores of a line stand together in the list, as in every list that is handed out, it is flushed
 * once; else once for each group of them. Returns 0; or -1 with errno EINVAL where a word is not in a whole line of the
 * bytes, and then nothing is stored. Nothing else is tested: a count above that of the call's answer stores what the
 * lists held before. */
ORDERSET_RAW_CALL static inline int orderset_persist_list(void *bytes, size_t bytes_length, const uint32_t *at,
                                                          const uint64_t *value, size_t count,
                                                          enum orderset_flush flush) {
    if (__builtin_expect(!orderset_inside(bytes_length, at, count), 0)) {
        errno = EINVAL;
        return -1;
    }
    size_t whole = 0; /* so many stores at the list's front are of whole lines, as all of a basket's are */
    for (; orderset_is_line(at + whole, count - whole); whole += ORDERSET_LINE_STORES)
        orderset_store_line(bytes, at[whole], value + whole);
    orderset_store_list(bytes, at + whole, value + whole, count - whole);
    uint32_t last = UINT32_MAX; /* no line has this number */
    for (size_t i = 0; i < count; i += i < whole ? ORDERSET_LINE_STORES : 1) {
        const uint32_t line = at[i] / ORDERSET_LINE_STORES;
        if (line != last)
            orderset_flush_line((char *)bytes + (size_t)line * ORDERSET_LINE_BYTES, flush);
        last = line;
    }
    orderset_fence(flush);
    return 0;
}

/* Makes the whole image durable as it is: flushes every line and fences once. Every start that will write calls it
 * before recovery. Returns 0; or -1 with errno EINVAL where the image is not 64-byte aligned, and then nothing is
 * flushed. */
ORDERSET_RAW_CALL static inline int orderset_persist_image(void *image, size_t image_length,
                                                           enum orderset_flush flush) {
    if (!orderset_aligned(image)) {
        errno = EINVAL;
        return -1;
    }
    for (size_t i = 0; i < image_length; i += ORDERSET_LINE_BYTES)
        orderset_flush_line((char *)image + i, flush);
    orderset_fence(flush);
    return 0;
}

/* THE FALLBACK, for a file on a disk that is mapped at its start with MAP_SHARED: msync takes the place of flush and
 * fence. Slow (a system call and a device write), and as good as the device: it must not tear a 64-byte line. For
 * machines without non-volatile memory, and for trying things out.
 *
 * When msync fails, the call is NOT to be answered, and it is not known to be absent: other processes see it, and
 * it may be there after a power cut or not. No call of the set may follow. A later msync that returns 0 proves
 * nothing: after a failed write the kernel may take the page as clean and not write it again. So stop. The next start
 * calls orderset_persist_image_file, which writes every page again, then recovers, and asks by a get whether the call
 * was done. As long as that fails too, the image is not durable and nothing may be written to it; a file for which it
 * goes on failing is given up. */

/* Makes the stores that a call handed out durable in the file. Returns 0, or -1 with errno: EINVAL as in
 * orderset_persist, with nothing stored; any other is msync's. */
ORDERSET_RAW_CALL static inline int orderset_persist_file(void *image, size_t image_length,
                                                          const uint32_t at[ORDERSET_STORES],
                                                          const uint64_t value[ORDERSET_STORES]) {
    const uintptr_t page = (uintptr_t)sysconf(_SC_PAGESIZE);
    const uint32_t first = at[0], second = at[ORDERSET_LINE_STORES];
    if (!orderset_two_lines(image_length, first, second)) {
        errno = EINVAL;
        return -1;
    }
    uintptr_t a = (uintptr_t)orderset_store_line(image, first, value) / page * page;
    uintptr_t b = (uintptr_t)orderset_store_line(image, second, value + ORDERSET_LINE_STORES) / page * page;
    if (msync((void *)a, page, MS_SYNC))
        return -1;
    return a == b ? 0 : msync((void *)b, page, MS_SYNC);
}

/* Makes a list of stores durable in the file, as orderset_persist_list does. Each page that has any is synced, once
 * where its stores stand together in the list. Returns 0, or -1 with errno: EINVAL as in orderset_persist_list, with
 * nothing stored; any other is msync's. */
ORDERSET_RAW_CALL static inline int orderset_persist_list_file(void *bytes, size_t bytes_length, const uint32_t *at,
                                                               const uint64_t *value, size_t count) {
    const uintptr_t page = (uintptr_t)sysconf(_SC_PAGESIZE);
    uintptr_t synced = 0;
    if (!orderset_inside(bytes_length, at, count)) {
        errno = EINVAL;
        return -1;
    }
    orderset_store_list(bytes, at, value, count);
    for (size_t i = 0; i < count; i++) {
        const uintptr_t here = (uintptr_t)((orderset_word *)bytes + at[i]) / page * page;
        if (here != synced && msync((void *)here, page, MS_SYNC))
            return -1;
        synced = here;
    }
    return 0;
}

/* Makes the whole image durable in the file as it is: stores the first word of every page again, unchanged, so that the
 * kernel has to write the page, and syncs them all. Every start that will write calls it before recovery, while
 * nobody else writes the image. Returns 0, or -1 with errno: EINVAL where the image does not begin a page, any other is
 * msync's. */
ORDERSET_RAW_CALL static inline int orderset_persist_image_file(void *image, size_t image_length) {
    const uintptr_t page = (uintptr_t)sysconf(_SC_PAGESIZE);
    if ((uintptr_t)image % page) {
        errno = EINVAL;
        return -1;
    }
    for (size_t i = 0; i < image_length; i += page) {
        volatile orderset_word *word = (volatile orderset_word *)image + i / sizeof *word;
        __atomic_store_n(word, __atomic_load_n(word, __ATOMIC_RELAXED), __ATOMIC_RELEASE);
    }
    return msync(image, image_length, MS_SYNC);
}

#endif
