/* orderset_persist.h: what it stores is what play makes; the stores reach the memory one word at a time and in order;
 * then come the flushes of both lines and one fence, for each accepted insert, replace and remove, and none for get,
 * absent and refusals. Some calls are watched instruction by instruction, so that the flushes and the fence are those
 * that the processor executes, and not only the header's hooks. Stores that are no call's are refused. So it is with
 * lists of stores, of recovery, of baskets, of the message log and random ones, each line of which is flushed. A start
 * flushes every line and fences once. The fallback stores to every page again and syncs it, and the file is as the
 * image. Ends with status 1 at the first thing that is otherwise.
 *
 *     persist [SEED]
 */
#define _GNU_SOURCE
#include <errno.h>
#include <inttypes.h>
#include <signal.h>
#include <stdio.h>
#include <stdlib.h>
#include <string.h>
#include <sys/mman.h>
#include <ucontext.h>
#include <unistd.h>

#include "chance.h"

/* What the header does, in order. A store, and a flush or a fence that is executed, only where it is watched; FLUSH and
 * FENCE are the hooks, which follow. */
enum what { STORE, FLUSH, FENCE, SYNC, EXECUTED_FENCE, EXECUTED_FLUSH }; /* EXECUTED_FLUSH and the kind of flush */
enum { MFENCE = 0xf0, SFENCE = 0xf8 };
static struct event {
    unsigned what;
    const void *where;
    uint64_t value; /* of a store; the length of a sync; the last byte of an executed fence */
} event[512];
static unsigned events;

static void happened(unsigned what, const void *where, uint64_t value) {
    if (events == sizeof event / sizeof *event)
        _exit(1);
    event[events++] = (struct event){what, where, value};
}

static int sync_fails;

static int sync_pages(void *where, size_t length, int flags) {
    happened(SYNC, where, length);
    if (!sync_fails)
        return msync(where, length, flags);
    errno = EIO;
    return -1;
}

/* line is orderset_flush_line's parameter */
#define ORDERSET_FLUSHED() happened(FLUSH, line, 0)
#define ORDERSET_FENCED() happened(FENCE, NULL, 0)
#define msync(where, length, flags) sync_pages(where, length, flags)
#include "orderset_raw.h"
#include "orderset_persist.h"

enum {
    N = 60,
    HEADS = 7,
    LENGTH = 128 * (N + 1),
    LINES = LENGTH / 64,
    CALLS = 20000,
    WATCHED = 2000,
    LISTS = 5000,
    LISTS_WATCHED = 50,
    LIST = 128, /* stores of a list at the most */
    CELLS = LENGTH / ORDERSET_LOG_CELL_BYTES,
    TRAP_FLAG = 0x100,
    PAGE = 4096
};

static uint8_t *image, played[LENGTH];
static uint32_t heads[HEADS], next[N + 1], state[ORDERSET_RAW_STATE], at[ORDERSET_STORES];
static uint64_t version[1], value[ORDERSET_STORES], answer[ORDERSET_PROVED_CHANGE_ANSWER], stored, unstored;
static uint32_t list_at[LIST];
static uint64_t list_value[LIST], lists;

static void expect(int holds, const char *what) {
    if (holds)
        return;
    printf("\nNOT SO: %s\nseed %" PRIu64 ", call %" PRIu64 "\n", what, seed, stored + unstored);
    exit(1);
}

/* ---- watching: the memory is read-only and a store that faults is let through by itself; every instruction is seen */

static uint8_t *volatile watched;
static uint64_t *word; /* a store to it is under way */

/* The address of an instruction's operand in memory; its description begins at p and ends the instruction. */
static const uint8_t *operand(const uint8_t *p, unsigned rex, const greg_t *gregs) {
    static const int number[16] = {REG_RAX, REG_RCX, REG_RDX, REG_RBX, REG_RSP, REG_RBP, REG_RSI, REG_RDI,
                                   REG_R8,  REG_R9,  REG_R10, REG_R11, REG_R12, REG_R13, REG_R14, REG_R15};
    unsigned mode = *p >> 6, low = *p & 7;
    int32_t far_off = 0;
    uint64_t address = 0;
    p++;
    int relative = mode == 0 && low == 5, based = !relative;
    if (low == 4) { /* a base and an index */
        unsigned index = (*p >> 3 & 7) | (rex & 2) << 2;
        low = *p & 7;
        based = !(mode == 0 && low == 5);
        address = index == 4 ? 0 : (uint64_t)gregs[number[index]] << (*p >> 6);
        p++;
    }
    if (based)
        address += (uint64_t)gregs[number[low | (rex & 1) << 3]];
    if (mode == 1)
        return (const uint8_t *)(address + (uint64_t)(int64_t)(int8_t)*p);
    if (mode == 2 || !based)
        memcpy(&far_off, p, sizeof far_off);
    return (const uint8_t *)(address + (relative ? (uint64_t)(p + 4) : 0) + (uint64_t)(int64_t)far_off);
}

/* Notes the next instruction where it is a flush or the fence. */
static void look(const greg_t *gregs) {
    const uint8_t *p = (const uint8_t *)gregs[REG_RIP];
    int prefixed = *p == 0x66;
    p += prefixed;
    unsigned rex = (*p & 0xf0) == 0x40 ? *p++ : 0;
    if (p[0] != 0x0f || p[1] != 0xae)
        return;
    unsigned in_memory = p[2] < 0xc0, digit = p[2] >> 3 & 7;
    if (!prefixed && (p[2] == MFENCE || p[2] == SFENCE))
        happened(EXECUTED_FENCE, NULL, p[2]);
    else if (in_memory && (digit == 7 || (prefixed && digit == 6)))
        happened(EXECUTED_FLUSH
                     + (digit == 6 ? ORDERSET_CLWB
                        : prefixed ? ORDERSET_CLFLUSHOPT
                                   : ORDERSET_CLFLUSH),
                 operand(p + 2, rex, gregs), 0);
}

static void before_store(int number, siginfo_t *info, void *context) {
    (void)number;
    (void)context;
    word = info->si_addr;
    if (!watched || (uint8_t *)word < watched || (uint8_t *)word >= watched + LENGTH) {
        printf("\nNOT SO: a store is inside the image\n");
        fflush(stdout);
        _exit(1);
    }
    mprotect(watched, LENGTH, PROT_READ | PROT_WRITE);
}

static void after_instruction(int number, siginfo_t *info, void *context) {
    greg_t *gregs = ((ucontext_t *)context)->uc_mcontext.gregs;
    (void)number;
    (void)info;
    if (word) {
        happened(STORE, word, *word);
        mprotect(watched, LENGTH, PROT_READ);
        word = NULL;
    }
    if (watched)
        look(gregs);
    gregs[REG_EFL] = watched ? gregs[REG_EFL] | TRAP_FLAG : gregs[REG_EFL] & ~(greg_t)TRAP_FLAG;
}

static void set_handlers(void) {
    struct sigaction segv = {.sa_sigaction = before_store, .sa_flags = SA_SIGINFO};
    struct sigaction trap = {.sa_sigaction = after_instruction, .sa_flags = SA_SIGINFO};
    sigaction(SIGSEGV, &segv, NULL);
    sigaction(SIGTRAP, &trap, NULL);
}

static void watch(uint8_t *memory) {
    mprotect(memory, LENGTH, PROT_READ);
    watched = memory;
    raise(SIGTRAP);
}

static void watch_no_more(void) {
    uint8_t *memory = watched;
    watched = NULL;
    mprotect(memory, LENGTH, PROT_READ | PROT_WRITE);
}

/* ---- calls, persisted as the header asks */

static int is(unsigned i, unsigned what, const void *where) {
    return i < events && event[i].what == what && event[i].where == where;
}

/* The line is flushed: by that instruction where it is watched, and then comes the hook. Moves i past it. */
static int is_flush(unsigned *i, const void *line, enum orderset_flush flush, int watching) {
    int executed = !watching || is((*i)++, EXECUTED_FLUSH + flush, line);
    return is((*i)++, FLUSH, line) && executed;
}

/* The fence is the one that orders this kind of flush. */
static int is_last_fence(unsigned i, enum orderset_flush flush, int watching) {
    const uint64_t kind = flush == ORDERSET_CLFLUSH ? MFENCE : SFENCE;
    int executed = !watching || (is(i, EXECUTED_FENCE, NULL) && event[i].value == kind);
    i += (unsigned)watching;
    return is(i, FENCE, NULL) && executed && events == i + 1;
}

static void persist(enum orderset_flush flush, int watching) {
    unsigned i = 0;
    if (watching)
        watch(image);
    int code = orderset_persist(image, LENGTH, at, value, flush);
    if (watching)
        watch_no_more();
    expect(code == 0, "persist takes the stores of a call");
    for (; watching && i < ORDERSET_STORES; i++)
        expect(is(i, STORE, (uint64_t *)image + at[i]) && event[i].value == value[i],
               "store i is the one that was handed out, of one word");
    int both = is_flush(&i, (uint64_t *)image + at[0], flush, watching);
    both &= is_flush(&i, (uint64_t *)image + at[8], flush, watching);
    expect(both, "then both lines are flushed");
    expect(is_last_fence(i, flush, watching), "then there is one fence, and nothing more");
}

enum kind { INSERT, REPLACE, REMOVE };

static uint64_t call(enum kind kind, uint64_t key, const uint8_t *bytes, size_t size) {
    switch (kind) {
    case INSERT:
        return orderset_proved_insert(image, LENGTH, heads, HEADS, next, N + 1, state, version, key, bytes, size, at,
                                      value, answer);
    case REPLACE:
        return orderset_proved_replace(image, LENGTH, heads, HEADS, next, N + 1, state, version, key, bytes, size, at,
                                       value, answer);
    default:
        return orderset_proved_remove(image, LENGTH, heads, HEADS, next, N + 1, state, version, key, at, value, answer);
    }
}

static void change(enum kind kind, uint64_t key, size_t size, enum orderset_flush flush, int watching) {
    uint8_t bytes[96];
    fill(bytes, sizeof bytes);
    memcpy(played, image, LENGTH);
    uint64_t code = call(kind, key, bytes, size);
    int accepted = code == ORDERSET_OK && answer[0] == ORDERSET_RAW_DONE;
    if (accepted) {
        expect(orderset_proved_play(played, LENGTH, at, value, 8, 8) == ORDERSET_OK, "play takes the stores");
        persist(flush, watching);
    }
    expect(memcmp(image, played, LENGTH) == 0, "the image is as play leaves it");
    expect(accepted || events == 0, "a call that does not store flushes nothing");
    *(accepted ? &stored : &unstored) += 1;
}

/* A remove, an insert or a replace; of these two mostly the one that the key asks for. */
static enum kind any_kind(uint64_t key) {
    if (below(3) == 0)
        return REMOVE;
    if (below(8) == 0)
        return below(2) ? INSERT : REPLACE;
    expect(orderset_proved_locate(image, LENGTH, heads, HEADS, next, N + 1, key, answer) == ORDERSET_OK, "locate");
    return answer[0] == ORDERSET_RAW_ABSENT ? INSERT : REPLACE;
}

static void get(uint64_t key) {
    uint8_t out[ORDERSET_VALUE_MAX];
    uint64_t code = orderset_proved_get(image, LENGTH, heads, HEADS, next, N + 1, key, out, sizeof out, answer);
    expect(code == ORDERSET_OK && events == 0, "get of an own index is not refused and flushes nothing");
    unstored++;
}

static void make(uint8_t *bytes) {
    uint32_t count[1];
    expect(orderset_proved_format(bytes, LENGTH, ORDERSET_LAYOUT_1, answer) == ORDERSET_OK, "format");
    expect(orderset_proved_recover(bytes, LENGTH, heads, HEADS, next, N + 1, state, version, count, list_at, list_value)
                   == ORDERSET_OK
               && count[0] == 0,
           "recover");
}

static void calls(enum orderset_flush flush) {
    make(image);
    for (int i = 0; i < CALLS; i++) {
        uint64_t key = below(N + 10);
        size_t size = below(84);
        events = 0;
        if (below(4) == 0)
            get(key);
        else
            change(any_kind(key), key, size, flush, i < WATCHED);
    }
}

/* ---- stores that are no call's */

static void refused(size_t length, uint32_t a, uint32_t b, enum orderset_flush flush) {
    uint32_t bad[ORDERSET_STORES];
    for (uint32_t i = 0; i < ORDERSET_STORES; i++)
        bad[i] = i < 8 ? a + i : b + i - 8;
    memcpy(played, image, LENGTH);
    events = 0;
    errno = 0;
    expect(orderset_persist(image, length, bad, value, flush) == -1 && errno == EINVAL,
           "persist refuses stores that are not two lines of the image");
    errno = 0;
    expect(orderset_persist_file(image, length, bad, value) == -1 && errno == EINVAL,
           "persist_file refuses stores that are not two lines of the image");
    expect(memcmp(image, played, LENGTH) == 0 && events == 0,
           "refused stores are not made, nothing is flushed or synced");
}

static void no_calls_stores(enum orderset_flush flush) {
    const uint32_t words = LENGTH / 8;
    refused(LENGTH, 16, 16, flush);    /* one line twice */
    refused(LENGTH, 0, 0, flush);      /* stores that are all zero */
    refused(LENGTH, words, 16, flush); /* one line too far, in either half */
    refused(LENGTH, 16, words, flush);
    refused(LENGTH, 16, 1u << 31, flush);
    refused(LENGTH, UINT32_MAX - 7, 16, flush);
    refused(LENGTH - 1, words - 16, words - 8, flush); /* the last line is not whole inside */
    refused(0, 0, 8, flush);
    for (uint32_t i = 1; i < 8; i++) { /* not the beginning of a line, in either half */
        refused(LENGTH, 16 + i, 32, flush);
        refused(LENGTH, 16, 32 + i, flush);
    }
    for (int i = 0; i < 1000; i++) {
        uint32_t a = (uint32_t)chance() | 1, b = (uint32_t)chance();
        refused(LENGTH, below(2) ? a : words + 8 * (uint32_t)below(1000), b, flush);
    }
}

/* ---- lists of stores */

/* Some stores on each of some lines: mostly words 0 up to one, in order. */
static size_t any_list(void) {
    size_t count = 0;
    for (uint64_t lines = below(9); lines > 0; lines--) {
        uint32_t first = 8 * (uint32_t)below(LINES), words = 1 + (uint32_t)below(8);
        for (uint32_t i = 0; i < words; i++) {
            list_at[count] = first + (below(8) ? i : (uint32_t)below(8));
            list_value[count++] = chance();
        }
    }
    return count;
}

/* The same, where half of the lines have all words, in order. */
static size_t any_lines(void) {
    size_t count = 0;
    for (uint64_t lines = below(9); lines > 0; lines--) {
        const int whole = below(2) == 0;
        uint32_t first = 8 * (uint32_t)below(LINES), words = whole ? 8 : 1 + (uint32_t)below(8);
        for (uint32_t i = 0; i < words; i++) {
            list_at[count] = first + (whole || below(8) ? i : (uint32_t)below(8));
            list_value[count++] = chance();
        }
    }
    return count;
}

/* The stores of a list that stand together on one line, or in one page, are a group: the first of each. */
static int begins_group(size_t i, uint32_t words) {
    return i == 0 || list_at[i] / words != list_at[i - 1] / words;
}

/* Answers how many lines were flushed. */
static unsigned persist_list(size_t count, enum orderset_flush flush, int watching) {
    unsigned i = 0, flushed = 0;
    int each = 1;
    memcpy(played, image, LENGTH);
    expect(orderset_proved_play_list(played, LENGTH, list_at, count, list_value, count) == ORDERSET_OK,
           "play takes a list");
    events = 0;
    if (watching)
        watch(image);
    int code = orderset_persist_list(image, LENGTH, list_at, list_value, count, flush);
    if (watching)
        watch_no_more();
    expect(code == 0, "persist_list takes a list");
    for (; watching && i < count; i++)
        expect(is(i, STORE, (uint64_t *)image + list_at[i]) && event[i].value == list_value[i],
               "store i is the one of the list, of one word");
    for (size_t j = 0; j < count; j++)
        if (begins_group(j, 8)) {
            each &= is_flush(&i, image + list_at[j] / 8 * 64, flush, watching);
            flushed++;
        }
    expect(each, "then each line of the list is flushed");
    expect(is_last_fence(i, flush, watching), "after a list there is one fence, and nothing more");
    expect(memcmp(image, played, LENGTH) == 0, "the bytes are as play_list leaves them");
    lists++;
    return flushed;
}

/* Recovery opens line A of each void slot: of a basket of eight the first `voids` records stand alone. */
static void open_voids(uint32_t voids, enum orderset_flush flush, int watching) {
    uint32_t count[1], slot;
    make(image);
    for (slot = 1; slot <= voids; slot++) {
        uint64_t *words = (uint64_t *)image + 16 * (size_t)slot;
        words[1] = slot;
        words[2] = 1 + (8 << 16);
        words[7] = words[15] = 2 * 5;
    }
    expect(orderset_proved_recover(image, LENGTH, heads, HEADS, next, N + 1, state, version, count, list_at, list_value)
                   == 0
               && count[0] == voids,
           "recovery hands out a store for each void slot");
    expect(persist_list(count[0], flush, watching) == voids, "each line that is opened is flushed once");
    expect(orderset_proved_recover(image, LENGTH, heads, HEADS, next, N + 1, state, version, count, list_at, list_value)
                   == 0
               && count[0] == 0,
           "then no slot is void");
}

/* A basket of 1 to 8 keys: sixteen stores for each key, two lines, each flushed once, and one fence for all. */
static void basket(enum orderset_flush flush, int watching) {
    uint32_t kinds[ORDERSET_BASKET_MAX] = {0};
    uint64_t keys[ORDERSET_BASKET_MAX] = {0}, given[ORDERSET_PROVED_BASKET_ANSWER];
    size_t lengths[ORDERSET_BASKET_MAX] = {0}, count = 1 + below(ORDERSET_BASKET_MAX), first = below(N);
    uint8_t values[ORDERSET_BASKET_BYTES];
    fill(values, sizeof values);
    for (size_t i = 0; i < count; i++) {
        keys[i] = (first + i) % (N / 2);
        lengths[i] = below(ORDERSET_VALUE_MAX + 1);
        expect(orderset_proved_locate(image, LENGTH, heads, HEADS, next, N + 1, keys[i], answer) == ORDERSET_OK,
               "locate");
        kinds[i] = answer[0] == ORDERSET_RAW_ABSENT ? ORDERSET_INSERT : ORDERSET_REPLACE + (uint32_t)below(2);
    }
    expect(orderset_proved_basket(image, LENGTH, heads, HEADS, next, N + 1, state, version, count, kinds, keys, lengths,
                                  values, list_at, LIST, list_value, LIST, given)
               == ORDERSET_OK,
           "a basket is taken");
    expect(persist_list(ORDERSET_BASKET_STORES(count), flush, watching) == 2 * count,
           "of a basket two lines are flushed for each key");
}

static unsigned lines_of(size_t count) {
    uint8_t has[LINES] = {0};
    unsigned lines = 0;
    for (size_t i = 0; i < count; i++)
        lines += !has[list_at[i] / 8]++;
    return lines;
}

/* A message is appended to a log: at most 56 stores, and of each of its lines one flush. */
static void append(enum orderset_flush flush, int watching) {
    uint8_t message[ORDERSET_LOG_MESSAGE_MAX];
    uint64_t handed[ORDERSET_PROVED_LOG_ANSWER];
    fill(message, sizeof message);
    expect(orderset_proved_log_append(image, ORDERSET_LOG_BYTES(CELLS), message, 1 + below(sizeof message), list_at,
                                      LIST, list_value, LIST, handed)
               == ORDERSET_OK,
           "append");
    const size_t count = handed[ORDERSET_PROVED_LOG_COUNT];
    expect(count <= ORDERSET_LOG_STORES && persist_list(count, flush, watching) == lines_of(count),
           "an append is at most 56 stores, and each of its lines is flushed once");
}

/* Recovery opens marked lines that were left whole, as many as there are. */
static void recover_log(enum orderset_flush flush) {
    const uint64_t stamp = 2000000;
    uint64_t handed[ORDERSET_PROVED_LOG_ANSWER];
    for (size_t cell = 0; cell < CELLS; cell += 2) { /* whole, above every number, without a length */
        memset(image + cell * ORDERSET_LOG_CELL_BYTES, 0, 64);
        memcpy(image + cell * ORDERSET_LOG_CELL_BYTES + 56, &stamp, sizeof stamp);
    }
    expect(orderset_proved_log_recover(image, ORDERSET_LOG_BYTES(CELLS), list_at, LIST, list_value, LIST, handed)
                   == ORDERSET_OK
               && handed[ORDERSET_PROVED_LOG_COUNT] == (CELLS + 1) / 2,
           "recovery opens the lines");
    expect(persist_list(handed[ORDERSET_PROVED_LOG_COUNT], flush, 0) == (CELLS + 1) / 2, "each line is flushed once");
}

/* One store is to a word that is not in a whole line of the bytes. */
static void outside(size_t length, enum orderset_flush flush) {
    size_t count = 1 + below(LIST);
    for (size_t i = 0; i < count; i++)
        list_at[i] = (uint32_t)below(LENGTH / 8 - 8);
    list_at[below(count)] = below(2) ? (uint32_t)(length / 64 * 8 + below(9)) : (uint32_t)chance() | LENGTH;
    memcpy(played, image, LENGTH);
    events = 0;
    errno = 0;
    expect(orderset_persist_list(image, length, list_at, list_value, count, flush) == -1 && errno == EINVAL,
           "persist_list refuses a store outside the bytes");
    errno = 0;
    expect(orderset_persist_list_file(image, length, list_at, list_value, count) == -1 && errno == EINVAL,
           "persist_list_file refuses a store outside the bytes");
    expect(memcmp(image, played, LENGTH) == 0 && events == 0, "of a refused list nothing is stored, flushed or synced");
}

static void all_lists(enum orderset_flush flush) {
    for (int i = 0; i < LISTS; i++)
        persist_list(any_list(), flush, i < LISTS_WATCHED);
    for (int i = 0; i < LISTS; i++)
        persist_list(any_lines(), flush, i < LISTS_WATCHED);
    for (int i = 0; i < 1000; i++)
        outside(below(2) ? LENGTH : LENGTH - 1 - below(63), flush);
    for (uint32_t voids = 0; voids < 8; voids++)
        open_voids(voids, flush, 1);
    make(image);
    for (int i = 0; i < LISTS; i++)
        basket(flush, i < LISTS_WATCHED);
    memset(image, 0, LENGTH);
    for (int i = 0; i < LISTS; i++)
        append(flush, i < LISTS_WATCHED);
    recover_log(flush);
}

/* ---- a start */

static void whole_image(enum orderset_flush flush, int watching) {
    unsigned i = 0, flushed = 0;
    memcpy(played, image, LENGTH);
    events = 0;
    if (watching)
        watch(image);
    int code = orderset_persist_image(image, LENGTH, flush);
    if (watching)
        watch_no_more();
    expect(code == 0, "persist_image takes an aligned image");
    while (flushed < LINES && is_flush(&i, image + 64 * flushed, flush, watching))
        flushed++;
    expect(flushed == LINES, "persist_image flushes every line");
    expect(is_last_fence(i, flush, watching), "persist_image fences once, after every line");
    expect(memcmp(image, played, LENGTH) == 0, "persist_image does not change the image");
}

static void misaligned_image(enum orderset_flush flush) {
    events = 0;
    expect(orderset_aligned(image) == 1, "an image that begins a line is aligned");
    for (size_t i = 1; i < 64; i++) {
        errno = 0;
        expect(orderset_aligned(image + i) == 0, "an image that begins inside a line is not aligned");
        expect(orderset_persist_image(image + i, LENGTH - 128, flush) == -1 && errno == EINVAL,
               "persist_image refuses a misaligned image");
    }
    expect(events == 0, "a refused persist_image flushes nothing");
}

/* ---- the fallback: what is stored in a mapped file is what the file then holds */

static const uint8_t *page_of(const uint8_t *mapped, uint32_t place) {
    return mapped + (size_t)place * 8 / PAGE * PAGE;
}

static void insert_in_file(uint8_t *mapped, int file, uint64_t key) {
    uint8_t bytes[ORDERSET_VALUE_MAX], held[LENGTH];
    fill(bytes, sizeof bytes);
    memcpy(played, mapped, LENGTH);
    expect(orderset_proved_insert(mapped, LENGTH, heads, HEADS, next, N + 1, state, version, key, bytes, below(81), at,
                                  value, answer)
               == ORDERSET_OK,
           "insert");
    expect(orderset_proved_play(played, LENGTH, at, value, 8, 8) == ORDERSET_OK, "play takes the stores");
    events = 0;
    expect(orderset_persist_file(mapped, LENGTH, at, value) == 0, "persist_file takes the stores of a call");
    expect(events == 1 && is(0, SYNC, page_of(mapped, at[0])) && event[0].value == PAGE,
           "persist_file syncs the page of the call");
    expect(pread(file, held, LENGTH, 0) == LENGTH && memcmp(held, played, LENGTH) == 0,
           "the file is as play leaves it");
}

static void sync_errors(uint8_t *mapped) {
    sync_fails = 1;
    expect(orderset_persist_file(mapped, LENGTH, at, value) == -1 && errno == EIO,
           "persist_file tells that msync fails");
    expect(orderset_persist_image_file(mapped, LENGTH) == -1 && errno == EIO,
           "persist_image_file tells that msync fails");
    sync_fails = 0;
}

/* Each page of a list is synced, where its stores stand together once. */
static void list_in_file(uint8_t *mapped, int file, size_t count) {
    uint8_t held[LENGTH];
    size_t pages = 0;
    memcpy(played, mapped, LENGTH);
    expect(orderset_proved_play_list(played, LENGTH, list_at, count, list_value, count) == ORDERSET_OK,
           "play takes a list");
    events = 0;
    expect(orderset_persist_list_file(mapped, LENGTH, list_at, list_value, count) == 0, "persist_list_file");
    for (size_t i = 0; i < count; i++)
        if (begins_group(i, PAGE / 8)) {
            expect(is((unsigned)pages, SYNC, page_of(mapped, list_at[i])) && event[pages].value == PAGE,
                   "persist_list_file syncs each page");
            pages++;
        }
    expect(events == pages, "persist_list_file syncs no more than that");
    expect(pread(file, held, LENGTH, 0) == LENGTH && memcmp(held, played, LENGTH) == 0,
           "the file is as play_list leaves it");
    sync_fails = count > 0;
    expect(count == 0 || (orderset_persist_list_file(mapped, LENGTH, list_at, list_value, count) == -1 && errno == EIO),
           "persist_list_file tells that msync fails");
    sync_fails = 0;
}

static void whole_file(uint8_t *mapped, int file) {
    uint8_t held[LENGTH];
    for (uint32_t i = 0; i < ORDERSET_STORES; i++)
        at[i] = i < 8 ? 16 + i : PAGE / 8 + i - 8;
    events = 0;
    expect(orderset_persist_file(mapped, LENGTH, at, value) == 0, "persist_file takes two lines of two pages");
    expect(events == 2 && is(0, SYNC, mapped) && is(1, SYNC, mapped + PAGE), "persist_file syncs both pages");
    fill(mapped, LENGTH);
    memcpy(played, mapped, LENGTH);
    events = 0;
    watch(mapped);
    int code = orderset_persist_image_file(mapped, LENGTH);
    watch_no_more();
    expect(code == 0, "persist_image_file");
    expect(is(0, STORE, mapped) && is(1, STORE, mapped + PAGE), "persist_image_file stores to every page again");
    expect(events == 3 && is(2, SYNC, mapped) && event[2].value == LENGTH, "persist_image_file then syncs the image");
    expect(memcmp(mapped, played, LENGTH) == 0, "persist_image_file leaves the image as it is");
    expect(pread(file, held, LENGTH, 0) == LENGTH && memcmp(held, played, LENGTH) == 0,
           "persist_image_file leaves the file as the image");
    events = 0;
    expect(orderset_persist_image_file(mapped + 64, LENGTH - 128) == -1 && errno == EINVAL && events == 0,
           "persist_image_file refuses an image inside a page");
}

static void fallback(void) {
    FILE *file = tmpfile();
    expect(file && ftruncate(fileno(file), LENGTH) == 0, "a file");
    uint8_t *mapped = mmap(NULL, LENGTH, PROT_READ | PROT_WRITE, MAP_SHARED, fileno(file), 0);
    expect(mapped != MAP_FAILED, "a mapped file");
    make(mapped);
    for (uint64_t key = 0; key < N - 1; key++)
        insert_in_file(mapped, fileno(file), key);
    sync_errors(mapped);
    for (int i = 0; i < 1000; i++)
        list_in_file(mapped, fileno(file), any_list());
    for (int i = 0; i < 1000; i++)
        list_in_file(mapped, fileno(file), any_lines());
    whole_file(mapped, fileno(file));
    fclose(file);
}

int main(int count, char **words) {
    begin_chance("persist", count > 1 ? words[1] : NULL);
    image = mmap(NULL, LENGTH, PROT_READ | PROT_WRITE, MAP_PRIVATE | MAP_ANONYMOUS, -1, 0);
    expect(image != MAP_FAILED && sysconf(_SC_PAGESIZE) == PAGE, "memory in pages of 4,096 bytes");
    set_handlers();
    const unsigned best = (unsigned)orderset_best_flush(), kinds = best - ORDERSET_CLFLUSH + 1;
    for (unsigned flush = ORDERSET_CLFLUSH; flush <= best; flush++) {
        calls((enum orderset_flush)flush);
        no_calls_stores((enum orderset_flush)flush);
        whole_image((enum orderset_flush)flush, 0);
        whole_image((enum orderset_flush)flush, 1);
        misaligned_image((enum orderset_flush)flush);
        all_lists((enum orderset_flush)flush);
    }
    fallback();
    printf("%u kinds of flush, %" PRIu64 " calls stored with 2 line flushes and 1 fence each, %" PRIu64
           " did not with none, %" PRIu64 " lists with 1 fence each, and msync: all as the header says (%.0f s)\n",
           kinds, stored, unstored, lists, seconds());
    return 0;
}
