/* What the calls for the owner of an index read, in the layout that the test is built for (layout.h): no call reads
 * more slots than those that it compared, those that it takes and a constant number, however long the set was in use.
 * Four lives of a set: fresh, worn (every slot was written several times), after a restart, and after a day's end and
 * a restart, where the calls for any index look through the image. Ends with status 1 at the first call that reads
 * more.
 *
 * And how often the calls for any index go over the image, with the image's own index: once at most, however many
 * remove records stand in the way along the reuse chain, baskets too; and not at all where an insert finds the set
 * full. In sets of up to 1,000 slots, in these lives and in two more in which they need the pass: after a day's end and
 * a restart of a worn set, and where every free slot is a remove record; the last also with 3,000 slots.
 *
 * How it counts: what is lent to a counted call is mapped so that nobody may touch it. A touch faults; the place is
 * noted, its page is opened for one instruction, by the processor's trap flag, and closed again (x86-64 Linux). So
 * every instruction that touches the image, heads or next is seen, without a change to the archive. One that reads two
 * slots at once would count as one; the archive's own reads are of a word or two. The calls between are lent the same
 * memory through a second mapping. Of a call for any index the whole way over the image is kept, slot after slot, and
 * where a head or a link was touched between two slots: a chain is followed by links, and a pass reads none.
 *
 * reads [SEED] */
#define _GNU_SOURCE
#include <inttypes.h>
#include <signal.h>
#include <stdarg.h>
#include <stdio.h>
#include <stdlib.h>
#include <string.h>
#include <sys/mman.h>
#include <ucontext.h>
#include <unistd.h>

#include "chance.h"
#include "layout.h"

enum { MAX_N = 65535, MANY = 1000, OPEN = 50, SMALL_SETS = 40, SMALL = 60, TRAP_FLAG = 0x100, PAGE = 4096 };
enum { BASKET = ORDERSET_BASKET_MAX, LIST = ORDERSET_STORES * BASKET };
enum { WAY = 20000, LINKED = MAX_N + 1, NEAR = 1, FAR = 16 };

/* The constant: line A of the header and the slot of the highest version, of a get the header alone; of a basket also
 * the slots of the reuse chain that it passes over, remove records of keys whose older record it takes. */
enum { OF_GET = 1, OF_CHANGE = 2 };
static unsigned of_basket(size_t count) {
    return OF_CHANGE + (unsigned)count - 1;
}

/* ---- what is lent, and what is touched of it */

enum { IMAGE, HEADS, NEXT, REGIONS };
static struct region {
    size_t bytes, unit;      /* a slot, or a number */
    int access;              /* what a call may do there */
    uint8_t *watched, *open; /* its two mappings */
    uint32_t *last;          /* the last counted call that touched the unit */
    uint32_t touched;        /* units that the call touched; of FEW at most MANY + 1 */
} region[REGIONS] = {{128 * (MAX_N + 1), 128, PROT_READ, NULL, NULL, NULL, 0},
                     {4 * ORDERSET_HEADS_MAX, 4, PROT_READ | PROT_WRITE, NULL, NULL, NULL, 0},
                     {4 * (MAX_N + 1), 4, PROT_READ | PROT_WRITE, NULL, NULL, NULL, 0}};
static uint32_t counted;
static enum { NOT, FEW, ALL } watching; /* are the calls counted? As far as MANY units, or to their end */
static uint32_t way[WAY], way_length;   /* of ALL the slots that the call went to, with LINKED added... */
static uint32_t by_link;                /* ... where it touched a head or a link before */
static uint8_t *opened[16];
static unsigned opened_count;

static const char *life = "";
static uint32_t n;
static size_t b;

static void __attribute__((format(printf, 2, 3))) expect(int holds, const char *what, ...) {
    va_list list;
    if (holds)
        return;
    printf("\nNOT SO: ");
    va_start(list, what);
    vprintf(what, list);
    va_end(list);
    printf("\nseed %" PRIu64 ", N %" PRIu32 ", %zu heads, %s\n", seed, n, b, life);
    fflush(stdout);
    _exit(1);
}

/* The call touches a slot: it goes there, unless it was there last. */
static void go_to(uint32_t slot) {
    if (way_length == 0 || way[way_length - 1] % LINKED != slot) {
        expect(way_length < WAY, "a call goes to fewer than %d slots", WAY);
        way[way_length++] = slot + by_link;
    }
    by_link = 0;
}

static void at_touch(int number, siginfo_t *info, void *context) {
    uint8_t *where = info->si_addr, *page = (uint8_t *)((uintptr_t)where / PAGE * PAGE);
    struct region *r = region;
    (void)number;
    while (r < region + REGIONS && !(where >= r->watched && where < r->watched + r->bytes))
        r++;
    expect(r < region + REGIONS, "a call touches what it was lent");
    for (unsigned i = 0; i < opened_count; i++)
        expect(opened[i] != page, "a call only reads the image");
    const size_t unit = (size_t)(where - r->watched) / r->unit;
    uint32_t *last = &r->last[unit];
    r->touched += *last != counted;
    *last = counted;
    if (r != &region[IMAGE])
        by_link = LINKED;
    else if (watching == ALL)
        go_to((uint32_t)unit);
    if (watching == FEW && r->touched > MANY) {
        mprotect(r->watched, r->bytes, r->access);
        return;
    }
    expect(opened_count < sizeof opened / sizeof *opened, "an instruction touches few pages");
    opened[opened_count++] = page;
    mprotect(page, PAGE, r->access);
    ((ucontext_t *)context)->uc_mcontext.gregs[REG_EFL] |= TRAP_FLAG;
}

static void after_instruction(int number, siginfo_t *info, void *context) {
    (void)number;
    (void)info;
    for (unsigned i = 0; i < opened_count; i++)
        mprotect(opened[i], PAGE, PROT_NONE);
    opened_count = 0;
    ((ucontext_t *)context)->uc_mcontext.gregs[REG_EFL] &= ~(greg_t)TRAP_FLAG;
}

static void make_regions(void) {
    struct sigaction touch = {.sa_sigaction = at_touch, .sa_flags = SA_SIGINFO};
    struct sigaction trap = {.sa_sigaction = after_instruction, .sa_flags = SA_SIGINFO};
    for (struct region *r = region; r < region + REGIONS; r++) {
        int file = memfd_create("reads", 0);
        expect(file >= 0 && ftruncate(file, (off_t)r->bytes) == 0, "memory");
        r->watched = mmap(NULL, r->bytes, PROT_NONE, MAP_SHARED, file, 0);
        r->open = mmap(NULL, r->bytes, PROT_READ | PROT_WRITE, MAP_SHARED, file, 0);
        r->last = calloc(r->bytes / r->unit, sizeof *r->last);
        expect(r->watched != MAP_FAILED && r->open != MAP_FAILED && r->last, "memory");
        close(file);
    }
    sigaction(SIGSEGV, &touch, NULL);
    sigaction(SIGTRAP, &trap, NULL);
}

/* ---- the set */

static uint32_t state[ORDERSET_RAW_STATE], at[LIST];
static uint64_t version[1], value[LIST], answer[ORDERSET_PROVED_BASKET_ANSWER];
static uint8_t bytes[ORDERSET_BASKET_BYTES];

static uint8_t *lent(int what) {
    return watching ? region[what].watched : region[what].open;
}

#define INDEX lent(IMAGE), ORDERSET_IMAGE_BYTES(n), (uint32_t *)lent(HEADS), b, (uint32_t *)lent(NEXT), (size_t)n + 1
#define OPEN_INDEX                                                                                                     \
    region[IMAGE].open, ORDERSET_IMAGE_BYTES(n), (uint32_t *)region[HEADS].open, b, (uint32_t *)region[NEXT].open,     \
        (size_t)n + 1

static void recover(void) {
    uint32_t count[1], open_at[ORDERSET_INVALIDATIONS];
    uint64_t open_value[ORDERSET_INVALIDATIONS];
    expect(SET(recover)(OPEN_INDEX, state, version, count, open_at, open_value) == 0 && count[0] == 0, "recover");
}

static uint64_t slots_compared(m_key key) {
    uint64_t found[ORDERSET_PROVED_CHANGE_ANSWER];
    expect(SET(locate)(OPEN_INDEX, KEY(key), found) == 0, "locate");
    return found[ORDERSET_PROVED_COMPARED];
}

/* ---- the keys that are held */

enum what { VALUE, SENT, ACKNOWLEDGED };
static struct held {
    m_key key;
    enum what what;
} held[MAX_N];
static uint32_t count;

static m_key new_key(void) {
    const uint64_t low = chance();
    return key_of_words(low, chance());
}

static struct held *any_held(void) {
    return &held[below(count)];
}

static void drop(struct held *h) {
    *h = held[--count];
}

/* ---- calls */

static uint64_t calls, most_over[3]; /* of the regions: the most that was touched beyond what was compared and taken */

static void begin(void) {
    counted++;
    way_length = by_link = 0;
    for (int i = 0; i < REGIONS; i++)
        region[i].touched = 0;
}

/* A call of so many keys has ended, which compared and takes so many slots. */
static void end(const char *call, size_t keys, uint64_t compared, uint64_t taken, unsigned constant) {
    if (!watching)
        return;
    const uint64_t slots = compared + taken, touched = region[IMAGE].touched, links = region[NEXT].touched;
    expect(touched <= slots + constant,
           "%s reads at most %u slots more than it compared and takes: %" PRIu64 " compared, %" PRIu64
           " taken, %" PRIu64 " read",
           call, constant, compared, taken, touched);
    expect(links <= slots + constant,
           "%s touches at most %u links more than it compared and takes: %" PRIu64 " compared, %" PRIu64
           " taken, %" PRIu64 " touched",
           call, constant, compared, taken, links);
    expect(region[HEADS].touched <= keys, "%s touches one head for each key: %" PRIu32, call, region[HEADS].touched);
    const int kind = constant == OF_GET ? 0 : constant == OF_CHANGE && keys == 1 ? 1 : 2;
    if (touched > slots && touched - slots > most_over[kind])
        most_over[kind] = touched - slots;
    calls++;
}

/* of the calls for any index: how many, those with a pass, and the most slots beyond N and beyond those compared */
static uint64_t any_calls, passes, most_passed, most_ahead;

static int is_taken(uint32_t slot, size_t taken) {
    for (size_t i = 0; i < taken; i++)
        if (at[ORDERSET_STORES * i] / 16 == slot)
            return 1;
    return 0;
}

/* What a step along the reuse chain costs, of the n / 2 + 1,024 that a call may spend to look ahead. */
static unsigned step_cost(uint32_t from, uint32_t to) {
    return from - to + 8 <= 16 ? NEAR : FAR;
}

/* A call for any index has ended, of so many keys, which compared and took so many slots. It goes
 * - without a link to the header, to the newest slot and, in a pass, to each slot once;
 * - by links along the chains of the keys, along the reuse chain as far as it may look ahead, and of a basket for each
 *   key but the first to one slot that it passes over, before the pass and after it; the newest may follow a link too.
 * The slots that it took are left out, since the pass comes back to them. So where one stood in the look ahead, the
 * step after it may seem to be a far one. */
static void end_any(const char *call, size_t keys, uint64_t compared, size_t taken) {
    const uint64_t budget = n / 2 + 1024, others = compared + 3 * keys;
    uint64_t passed = 0, linked = 0, cost = 0;
    uint32_t before = LINKED;
    for (uint32_t i = 0; i < way_length; i++) {
        const uint32_t slot = way[i] % LINKED;
        if (slot == before || is_taken(slot, taken))
            continue;
        passed += way[i] < LINKED;
        linked += way[i] >= LINKED;
        cost += way[i] < LINKED ? 0 : step_cost(before, slot);
        before = slot;
    }
    expect(passed <= n + OF_CHANGE, "%s for any index makes one pass at most: to %" PRIu64 " slots", call, passed);
    expect(cost <= budget + FAR * others, "%s for any index looks ahead in its budget: to %" PRIu64 " slots", call,
           linked);
    any_calls++;
    passes += passed > n / 2;
    if (passed > n && passed - n > most_passed)
        most_passed = passed - n;
    if (linked > compared && linked - compared > most_ahead)
        most_ahead = linked - compared;
}

static void play(uint64_t returned, size_t stores) {
    expect(returned == 0, "a call of an own index is not refused: %" PRIu64, returned & UINT32_MAX);
    expect(orderset_proved_play_list(region[IMAGE].open, ORDERSET_IMAGE_BYTES(n), at, stores, value, stores)
               == ORDERSET_OK,
           "play");
}

static void insert(void) {
    const m_key key = new_key();
    begin();
    const uint64_t code =
        SET(own_insert)(INDEX, state, version, KEY(key), bytes, below(VALUE_MAX + 1), at, value, answer);
    end("insert", 1, answer[ORDERSET_PROVED_COMPARED], 1, OF_CHANGE);
    play(code, ORDERSET_STORES);
    held[count++] = (struct held){key, VALUE};
}

static void replace(struct held *h) {
    begin();
    const uint64_t code =
        SET(own_replace)(INDEX, state, version, KEY(h->key), bytes, below(VALUE_MAX + 1), at, value, answer);
    end("replace", 1, answer[ORDERSET_PROVED_COMPARED], 1, OF_CHANGE);
    play(code, ORDERSET_STORES);
    h->what = VALUE;
}

static void take_out(struct held *h) {
    begin();
    const uint64_t code = SET(own_remove)(INDEX, state, version, KEY(h->key), at, value, answer);
    end("remove", 1, answer[ORDERSET_PROVED_COMPARED], 1, OF_CHANGE);
    play(code, ORDERSET_STORES);
    drop(h);
}

/* A get, of a held key or of any, and a remove of a key that is not held. */
static void ask(void) {
    const m_key key = count && below(2) ? any_held()->key : new_key();
    uint8_t output[ORDERSET_VALUE_MAX];
    begin();
    expect(SET(get)(INDEX, KEY(key), output, sizeof output, answer) == 0, "get");
    end("get", 1, answer[ORDERSET_PROVED_GET_COMPARED], 0, OF_GET);
    begin();
    expect(SET(own_remove)(INDEX, state, version, KEY(new_key()), at, value, answer) == 0
               && answer[0] == ORDERSET_RAW_ABSENT,
           "absent");
    end("remove of a key that is not held", 1, answer[ORDERSET_PROVED_COMPARED], 0, OF_GET);
}

static void book_new(void) {
    const m_key key = new_key();
    const uint64_t compared = slots_compared(key);
    begin();
    const uint64_t code = SET(own_book_new)(INDEX, state, version, KEY(key), 1000000, at, value, answer);
    end("new", 1, compared, 1, OF_CHANGE);
    play(code, ORDERSET_STORES);
    held[count++] = (struct held){key, SENT};
}

/* A step of the book for the key, where it holds an order. */
static void step(struct held *h) {
    if (h->what == VALUE) {
        replace(h);
        return;
    }
    const uint64_t compared = slots_compared(h->key), kind = below(4);
    uint64_t code;
    begin();
    if (kind == 0 && h->what == SENT) {
        code = SET(own_book_acknowledge)(INDEX, state, version, KEY(h->key), at, value, answer);
        end("acknowledge", 1, compared, 1, OF_CHANGE);
        h->what = ACKNOWLEDGED;
    } else if (kind == 1) {
        code = SET(own_book_withdraw)(INDEX, state, version, KEY(h->key), at, value, answer);
        end("withdraw", 1, compared, 1, OF_CHANGE);
        drop(h);
    } else {
        code = SET(own_book_fill)(INDEX, state, version, KEY(h->key), 1 + below(3), at, value, answer);
        end("fill", 1, compared, 1, OF_CHANGE);
    }
    play(code, ORDERSET_STORES);
}

/* ---- baskets: some keys are removed, some replaced and some new, and about as many held after it */

struct basket {
    size_t count, lengths[BASKET];
    uint32_t kinds[BASKET];
    uint64_t lows[BASKET], highs[BASKET];
};

/* So many keys, of one kind or, with 0, of any. The held keys of it stand at the end of `held`. */
static struct basket some_basket(size_t keys, uint32_t kind) {
    struct basket k = {keys, {0}, {0}, {0}, {0}};
    uint32_t chosen = 0;
    for (size_t i = 0; i < k.count; i++) {
        m_key key = new_key();
        k.kinds[i] = chosen < count && below(4) ? (below(2) ? ORDERSET_REPLACE : ORDERSET_REMOVE) : ORDERSET_INSERT;
        if (kind)
            k.kinds[i] = kind;
        if (k.kinds[i] != ORDERSET_INSERT) {
            struct held *h = &held[below(count - chosen)], moved = *h;
            chosen++;
            *h = held[count - chosen];
            held[count - chosen] = moved;
            key = moved.key;
        }
        k.lows[i] = low_word(key);
        k.highs[i] = high_word(key);
        k.lengths[i] = below(VALUE_MAX + 1);
    }
    return k;
}

static struct basket any_basket(void) {
    return some_basket(1 + below(BASKET), 0);
}

static uint64_t all_compared(const struct basket *k) {
    uint64_t compared = 0;
    for (size_t i = 0; i < k->count; i++)
        compared += slots_compared(key_of_words(k->lows[i], k->highs[i]));
    return compared;
}

static void settle(const struct basket *k) {
    for (size_t i = 0; i < k->count; i++) {
        const m_key key = key_of_words(k->lows[i], k->highs[i]);
        uint32_t j = 0;
        while (k->kinds[i] != ORDERSET_INSERT && held[count - 1 - j].key != key)
            j++;
        if (k->kinds[i] == ORDERSET_INSERT)
            held[count++] = (struct held){key, VALUE};
        else if (k->kinds[i] == ORDERSET_REMOVE)
            drop(&held[count - 1 - j]);
        else
            held[count - 1 - j].what = VALUE;
    }
}

static void basket(void) {
    const struct basket k = any_basket();
    const uint64_t compared = all_compared(&k);
    begin();
    const uint64_t code = SET(own_basket)(INDEX, state, version, k.count, k.kinds, BASKET_KEYS(k.lows, k.highs),
                                          k.lengths, bytes, at, LIST, value, LIST, answer);
    end("a basket", k.count, compared, k.count, of_basket(k.count));
    play(code, ORDERSET_BASKET_STORES(k.count));
    settle(&k);
}

/* ---- calls for any index */

static const char *const name[] = {"basket", "insert", "replace", "remove"}; /* by kind; 0 is a basket */

/* A basket, or a call for its first key alone, by one family or the other. */
static uint64_t call_by(int own, uint32_t kind, const struct basket *k) {
    const m_key key = key_of_words(k->lows[0], k->highs[0]);
    const size_t length = k->lengths[0];
    switch (kind) {
    case ORDERSET_INSERT: return SET_BY(own, insert)(INDEX, state, version, KEY(key), bytes, length, at, value, answer);
    case ORDERSET_REPLACE:
        return SET_BY(own, replace)(INDEX, state, version, KEY(key), bytes, length, at, value, answer);
    case ORDERSET_REMOVE: return SET_BY(own, remove)(INDEX, state, version, KEY(key), at, value, answer);
    default:
        return SET_BY(own, basket)(INDEX, state, version, k->count, k->kinds, BASKET_KEYS(k->lows, k->highs),
                                   k->lengths, bytes, at, LIST, value, LIST, answer);
    }
}

/* The call for any index, counted to its end. */
static uint64_t call_for_any(uint32_t kind, const struct basket *k) {
    const uint64_t compared = all_compared(k);
    watching = ALL;
    begin();
    const uint64_t code = call_by(0, kind, k);
    watching = NOT;
    end_any(name[kind], k->count, compared, code ? 0 : k->count);
    return code;
}

static void one_for_any(uint32_t kind) {
    const struct basket k = kind ? some_basket(1, kind) : any_basket();
    play(call_for_any(kind, &k), ORDERSET_BASKET_STORES(k.count));
    settle(&k);
}

/* So many calls for any index; no more than `most` keys are held but by a basket. */
static void go_on_for_any(uint32_t many, uint32_t most) {
    for (uint32_t i = 0; i < many; i++) {
        const uint32_t kind = (uint32_t)below(4);
        if (count == 0)
            one_for_any(ORDERSET_INSERT);
        else if (kind == 0 && n - count <= 2 * BASKET)
            one_for_any(ORDERSET_REPLACE);
        else
            one_for_any(kind == ORDERSET_INSERT && count >= most ? ORDERSET_REMOVE : kind);
    }
}

/* ---- lives */

/* So many calls for any index are counted in a life: in small sets few, in the largest none. */
static uint32_t share(void) {
    return n <= SMALL ? 3 : n <= 1000 ? 15 : n < MAX_N ? 4 : 0;
}

/* One call, or a get and a remove; no more than `most` keys are held but by a basket. */
static void any_call(uint32_t most) {
    const uint64_t kind = below(16);
    if (kind == 0)
        ask();
    else if (kind == 1 && count > BASKET && n > 4 * BASKET)
        basket();
    else if (kind < 6 && count)
        step(any_held());
    else if (count < most && (count == 0 || kind < 11))
        kind % 2 ? insert() : book_new();
    else
        take_out(any_held());
}

/* So many calls, one in `every` of them counted. */
static void go_on(uint32_t many, uint32_t every, uint32_t most) {
    for (uint32_t i = 0; i < many; i++) {
        watching = i < 8 || below(every) == 0 ? FEW : NOT;
        any_call(most);
        watching = NOT;
    }
}

static void make(uint32_t slots, size_t heads) {
    uint64_t made[ORDERSET_PROVED_FORMAT_ANSWER];
    n = slots;
    b = heads;
    count = 0;
    expect(orderset_proved_format(region[IMAGE].open, ORDERSET_IMAGE_BYTES(n), LAYOUT, made) == 0, "format");
    recover();
}

static void three_lives(uint32_t each) {
    const uint32_t half = n / 2;
    life = "fresh";
    for (uint32_t i = 0; i < half; i++) {
        watching = below(half) < each ? FEW : NOT;
        below(2) ? insert() : book_new();
        watching = NOT;
    }
    go_on(each, 1, half);
    go_on_for_any(share(), half);
    life = "worn";
    for (int round = 0; round < 8; round++)
        for (uint32_t i = 0; i < count; i++)
            if (below(2))
                replace(&held[i]);
            else {
                take_out(&held[i]);
                insert();
            }
    go_on(each, 1, half);
    go_on_for_any(share(), half);
    life = "after a restart";
    recover();
    go_on(each, 1, half);
    go_on_for_any(share(), half);
}

/* Is the first slot of the reuse chain a remove record of this version or a later one? */
static int first_is_remove(uint64_t since) {
    const uint64_t *slot = (const uint64_t *)region[IMAGE].open + 16 * (size_t)state[ORDERSET_RAW_FIRST];
    return (slot[KIND_WORD] & 255) == 2 && slot[7] / 2 >= since;
}

static void compare_families(void) {
    static uint8_t kept[REGIONS][4 * (MAX_N + 1)];
    for (uint32_t call = 1; call <= 4; call++) {
        const uint32_t kind = call % 4;
        const struct basket k = kind ? some_basket(1, kind) : any_basket();
        uint32_t kept_state[ORDERSET_RAW_STATE], found_at[LIST];
        uint64_t kept_version = version[0], found_value[LIST], found[ORDERSET_PROVED_BASKET_ANSWER];
        memcpy(kept_state, state, sizeof state);
        for (int i = HEADS; i < REGIONS; i++)
            memcpy(kept[i], region[i].open, sizeof kept[i]);
        for (int own = 0; own < 2; own++) {
            memset(at, 0, sizeof at);
            memset(value, 0, sizeof value);
            memset(answer, 0, sizeof answer);
            watching = FEW;
            begin();
            expect(call_by(own, kind, &k) == 0, "%s is not refused", name[kind]);
            watching = NOT;
            for (int i = 0; i < REGIONS; i++)
                mprotect(region[i].watched, region[i].bytes, PROT_NONE);
            expect(own || region[IMAGE].touched > MANY, "%s for any index reads many slots there: %" PRIu32, name[kind],
                   region[IMAGE].touched);
            expect(!own || region[IMAGE].touched < 64, "%s for the owner reads few slots there: %" PRIu32, name[kind],
                   region[IMAGE].touched);
            expect(!own
                       || (memcmp(found_at, at, sizeof at) == 0 && memcmp(found_value, value, sizeof value) == 0
                           && memcmp(found, answer, sizeof found) == 0),
                   "%s of both families has one answer and the same stores", name[kind]);
            memcpy(found_at, at, sizeof at);
            memcpy(found_value, value, sizeof value);
            memcpy(found, answer, sizeof found);
            memcpy(state, kept_state, sizeof state);
            version[0] = kept_version;
            for (int i = HEADS; i < REGIONS; i++)
                memcpy(region[i].open, kept[i], sizeof kept[i]);
        }
    }
}

/* All that is held is withdrawn, and a restart; then orders come and go, `most` at a time, until the remove records
 * stand first and an order is open: so many calls, 2 n at most. */
static uint32_t end_of_day(uint32_t most) {
    const uint64_t since = version[0];
    uint32_t made = 0;
    while (count)
        take_out(&held[0]);
    recover();
    go_on(8, 1, most);
    for (; (count == 0 || !first_is_remove(since)) && made < 2 * n; made++)
        any_call(most);
    return made;
}

/* Orders are put, and all withdrawn; a restart; then orders come and go, `OPEN` at a time. */
static void day(uint32_t each) {
    const uint32_t orders = (uint32_t)(n * 45ul / 100) ? (uint32_t)(n * 45ul / 100) : 1,
                   most = n / 2 < OPEN ? n / 2 : OPEN;
    life = "after a day's end and a restart";
    for (uint32_t i = 0; i < orders; i++)
        i % 2 ? insert() : book_new();
    const uint32_t left = 2 * n - end_of_day(most);
    if (n == MAX_N)
        compare_families();
    go_on_for_any(share(), most);
    go_on(left, left / each + 1, most);
}

/* The remove records in the way are far from each other: the look ahead ends before them all, and there is a pass. */
static void worn_day(void) {
    const uint32_t most = n / 2 < OPEN ? n / 2 : OPEN;
    life = "after a day's end and a restart of a worn set";
    end_of_day(most);
    go_on_for_any(4 * share(), most);
}

/* A full set is emptied, with a restart after each remove, and an insert takes the only put that is left: all free
 * slots are remove records, each beside the next, and the look ahead is as long as can be before the pass. */
static void only_removes(void) {
    life = "with remove records alone";
    while (count < n - 1)
        insert();
    for (; count; recover())
        take_out(&held[count - 1]);
    insert();
    for (uint32_t i = 0; i < share() && count < n / 2; i++)
        one_for_any(ORDERSET_INSERT);
    go_on_for_any(share(), n / 2);
}

static void lives(uint32_t slots, size_t heads, uint32_t each) {
    make(slots, heads);
    three_lives(each);
    if (n < MAX_N) {
        worn_day();
        make(slots, heads);
        only_removes();
    }
    make(slots, heads);
    day(each);
}

/* A basket of replaces, for which one slot is too few, is refused after one pass at most. */
static void refused_basket(void) {
    const struct basket k = some_basket(BASKET, ORDERSET_REPLACE);
    const uint64_t code = call_for_any(0, &k);
    expect(ORDERSET_PROVED_REFUSAL(code) == ORDERSET_FULL, "a basket is refused where one slot is spare");
}

/* An insert that is refused because one slot is spare reads no more, by either family. */
static void full(void) {
    life = "full";
    while (count < n - 1)
        insert();
    for (int own = 0; own < 2; own++) {
        const struct basket k = some_basket(1, ORDERSET_INSERT);
        watching = FEW;
        begin();
        const uint64_t code = call_by(own, ORDERSET_INSERT, &k);
        const uint32_t compared = ORDERSET_PROVED_REFUSED_COMPARED(code);
        end(own ? "a refused insert" : "a refused insert for any index", 1, compared, 1, OF_CHANGE);
        watching = NOT;
        expect(ORDERSET_PROVED_REFUSAL(code) == ORDERSET_FULL, "an insert is refused where one slot is spare");
    }
    if (n > BASKET && n < MAX_N)
        refused_basket();
}

int main(int words, char **word) {
    begin_chance(LAYOUT == 1 ? "reads" : "reads2", words > 1 ? word[1] : NULL);
    make_regions();
    fill(bytes, sizeof bytes);
    for (int i = 0; i < SMALL_SETS; i++) {
        lives((uint32_t)spread(ORDERSET_SLOTS_MIN, SMALL), (size_t)spread(1, 2 * SMALL), 20);
        full();
    }
    lives(1000, 250, 800);
    full();
    make(3000, 750);
    only_removes();
    lives(MAX_N, ORDERSET_HEADS_MAX, 800);
    full();
    expect(passes >= 50, "many calls for any index need the pass: %" PRIu64, passes);
    printf("%" PRIu64 " of %" PRIu32 " calls in four lives; beyond the slots compared and taken a get reads %" PRIu64
           ", a change %" PRIu64 ", a basket %" PRIu64 " at most; of %" PRIu64 " calls for any index %" PRIu64
           " make a pass, to N + %" PRIu64 " slots at most, and look ahead to %" PRIu64 " (%.0f s)\n",
           calls, counted, most_over[0], most_over[1], most_over[2], any_calls, passes, most_passed, most_ahead,
           seconds());
    return 0;
}
