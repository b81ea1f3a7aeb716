/* The order set of document 01 as document 02 changes it (A.2, A.4 to A.8, A.11, A.12), and its order book (A.1), as a
 * plain program. The quotations are their sentences. A parameter `own` tells that a call is the one for the owner of
 * its index, which no sentence of theirs names: it differs in the slots that may be taken and in the slot that is. */
#include "model.h"

#include <stdlib.h>
#include <string.h>

/* ---- "Lines, slots and words" */

/* "A word is 8 bytes, low byte first" */
uint64_t m_word(const uint8_t *image, size_t i) {
    const uint8_t *b = image + 8 * i;
    return (uint64_t)b[0] | (uint64_t)b[1] << 8 | (uint64_t)b[2] << 16 | (uint64_t)b[3] << 24 | (uint64_t)b[4] << 32
           | (uint64_t)b[5] << 40 | (uint64_t)b[6] << 48 | (uint64_t)b[7] << 56;
}

void m_set_word(uint8_t *image, size_t i, uint64_t value) {
    for (size_t k = 0; k < 8; k++, value >>= 8)
        image[8 * i + k] = (uint8_t)value;
}

/* "its length is 128 × (N + 1); N is 2 to 65,535" */
uint32_t m_slots(size_t length) {
    size_t parts = length / 128;
    return length % 128 == 0 && parts >= 3 && parts <= 65536 ? (uint32_t)parts - 1 : 0;
}

enum kind { BROKEN, EMPTY, PUT, REMOVE, ILL, VOID }; /* ILL: valid, with another kind; VOID: by the other records */
enum { GROUP = 8 };                                  /* records of a basket, at the most */

/* What a reader of the image sees in one slot. */
struct slot {
    enum kind kind;
    int bad_mark;
    int fault; /* of the record of a valid slot: 6, 22, 23 or 24, else 0 */
    m_key key;
    uint64_t version, highest; /* highest: the highest version on a whole line of it, 0 if none is whole */
    uint32_t number;           /* "bits 16 to 23 of the kind word hold their number" */
};

m_key m_key_in(const uint8_t *image, uint32_t s) {
    const uint8_t *slot = image + 128 * (size_t)s;
    return key_of_words(m_word(slot, 1), m_word(slot, 2));
}

size_t m_head(m_key key, size_t heads) {
    return low_word(key) % heads;
}

static uint8_t value_byte(const uint8_t *slot, size_t i) {
    return i < FRONT ? slot[8 * VALUE_WORD + i] : slot[72 + (i - FRONT)];
}

/* "Fault 6 now begins above bit 23 or at a number of 1 or over 8", "22 when the kind is neither 1 nor 2, 23 when the
 * length is wrong for the kind or over 80, and 24 when a byte past the length is nonzero; within a slot they follow 6
 * in that order" */
static int record_fault(const uint8_t *slot) {
    uint64_t word = m_word(slot, KIND_WORD);
    unsigned kind = word & 0xff;
    size_t size = word >> 8 & 0xff, number = word >> 16 & 0xff;
    if (word >> 24 || number == 1 || number > GROUP)
        return 6;
    if (kind != 1 && kind != 2)
        return 22;
    if (size > VALUE_MAX || (kind == 2 && size > 0))
        return 23;
    for (size_t i = size; i < VALUE_MAX; i++)
        if (value_byte(slot, i))
            return 24;
    return 0;
}

/* "A line is whole when its mark equals its close bit", "A slot is valid when both lines are whole and carry the same
 * version, at least 1" */
static struct slot look(const uint8_t *image, uint32_t s) {
    const uint8_t *slot = image + 128 * (size_t)s;
    struct slot seen = {.kind = BROKEN, .key = m_key_in(image, s)};
    uint64_t version[2];
    int whole[2];
    for (size_t line = 0; line < 2; line++) {
        uint64_t mark = m_word(slot, 8 * line), stamp = m_word(slot, 8 * line + 7);
        version[line] = stamp >> 1;
        whole[line] = mark == (stamp & 1);
        if (mark != 0 && mark != 1)
            seen.bad_mark = 1;
        if (whole[line] && version[line] > seen.highest)
            seen.highest = version[line];
    }
    if (!whole[0] || !whole[1] || version[0] != version[1])
        return seen;
    seen.version = version[0];
    if (seen.version == 0) {
        seen.kind = EMPTY;
        return seen;
    }
    unsigned kind = m_word(slot, KIND_WORD) & 0xff;
    seen.number = m_word(slot, KIND_WORD) >> 16 & 0xff;
    seen.kind = kind == 1 ? PUT : kind == 2 ? REMOVE : ILL;
    seen.fault = record_fault(slot);
    return seen;
}

/* ---- the refusals 1, 2, 3, 4 */

static int refuse_lent(const uint8_t *image, size_t length, size_t heads, size_t next) {
    uint64_t n = m_slots(length);
    if (n == 0)
        return 1;
    if (m_word(image, 0) == 0)
        return 2;
    uint64_t header[8] = {n, LAYOUT};
    for (size_t i = 0; i < 8; i++)
        if (m_word(image, i) != header[i])
            return 3;
    return heads < 1 || heads > 65536 || next != n + 1 ? 4 : 0;
}

/* "32 when format is asked for a layout other than 1 or 2, after 1" */
int m_format(uint8_t *image, size_t length, uint64_t layout) {
    if (m_slots(length) == 0)
        return 1;
    if (layout != 1 && layout != 2)
        return 32;
    for (size_t i = 0; i < length; i++)
        image[i] = 0;
    m_set_word(image, 0, m_slots(length));
    m_set_word(image, 1, layout);
    return 0;
}

/* ---- recovery */

struct entry {
    m_key key;
    uint64_t version;
    uint32_t slot;
};

/* "should versions tie, by slot number" */
static int by_version(const void *x, const void *y) {
    const struct entry *a = x, *b = y;
    return a->version != b->version ? (a->version > b->version) - (a->version < b->version)
                                    : (a->slot > b->slot) - (a->slot < b->slot);
}

static int by_key(const void *x, const void *y) {
    const struct entry *a = x, *b = y;
    return a->key != b->key ? (a->key > b->key) - (a->key < b->key) : by_version(x, y);
}

/* The chains as they grow: each slot is added at the end of its own. */
struct chain {
    uint32_t first, last;
};

static void join(struct chain *chain, uint32_t *next, uint32_t slot) {
    next[slot] = 0;
    if (chain->first)
        next[chain->last] = slot;
    else
        chain->first = slot;
    chain->last = slot;
}

/* "For each key the valid slot with the greatest version decides .. Such a deciding put is live": marks the live slots
 * and counts them. */
static uint32_t mark_live(const struct slot *slot, const struct entry *valid, uint32_t count, uint8_t *live) {
    struct entry *sorted = malloc((count + 1) * sizeof *sorted);
    uint32_t found = 0;
    memcpy(sorted, valid, count * sizeof *sorted);
    qsort(sorted, count, sizeof *sorted, by_key);
    for (uint32_t i = 0; i < count; i++)
        if ((i + 1 == count || sorted[i + 1].key != sorted[i].key) && slot[sorted[i].slot].kind == PUT) {
            live[sorted[i].slot] = 1;
            found++;
        }
    free(sorted);
    return found;
}

/* "Recovery orders each head's chain by rising version. It orders the reuse chain: broken slots, then empty slots, each
 * by slot number, then the rest by rising version"; "A void slot stands with the broken ones, in the reuse chain" */
static void build(const struct slot *slot, uint32_t n, const struct entry *valid, uint32_t count, const uint8_t *live,
                  struct m_index *index) {
    struct chain *chain = calloc(index->heads_length, sizeof *chain), reuse = {0, 0};
    index->next[0] = 0;
    for (uint32_t s = 1; s <= n; s++)
        if (slot[s].kind == BROKEN || slot[s].kind == VOID)
            join(&reuse, index->next, s);
    for (uint32_t s = 1; s <= n; s++)
        if (slot[s].kind == EMPTY)
            join(&reuse, index->next, s);
    for (uint32_t i = 0; i < count; i++)
        join(live[valid[i].slot] ? &chain[m_head(valid[i].key, index->heads_length)] : &reuse, index->next,
             valid[i].slot);
    for (size_t h = 0; h < index->heads_length; h++)
        index->heads[h] = chain[h].first;
    index->state.first = reuse.first;
    index->state.last = reuse.last;
    free(chain);
}

static struct m_recovered no(int refusal, uint32_t slot) {
    return (struct m_recovered){.refusal = refusal, .slot = slot};
}

/* how many records a number says: "0 meaning one" */
static uint32_t said(uint32_t number) {
    return number ? number : 1;
}

/* "Fault 7 is now for sharers of a version whose numbers differ, that are more than their number (0 meaning one), or
 * with a key twice" */
static int sharers_at_fault(const struct slot *slot, const struct entry *valid, uint32_t count) {
    for (uint32_t i = 0; i < count; i++)
        for (uint32_t j = i + 1; j < count && valid[j].version == valid[i].version; j++)
            if (slot[valid[j].slot].number != slot[valid[i].slot].number || j - i + 1 > said(slot[valid[i].slot].number)
                || valid[j].key == valid[i].key)
                return 1;
    return 0;
}

/* "The highest version among valid slots is judged by its number: with fewer valid records than it says, all of them
 * are void and the next version down is judged in turn". Returns how many valid slots are left. */
static uint32_t judge(struct slot *slot, const struct entry *valid, uint32_t count) {
    while (count > 0) {
        uint32_t from = count - 1;
        while (from > 0 && valid[from - 1].version == valid[count - 1].version)
            from--;
        if (count - from >= said(slot[valid[from].slot].number))
            break;
        for (uint32_t i = from; i < count; i++)
            slot[valid[i].slot].kind = VOID;
        count = from;
    }
    return count;
}

/* The newest slot: of the valid ones the last by version and slot number; without any the last empty one, or else the
 * last. */
static uint32_t newest_of(const struct slot *slot, uint32_t n, const struct entry *valid, uint32_t count) {
    uint32_t s = n;
    if (count)
        return valid[count - 1].slot;
    while (s > 0 && slot[s].kind != EMPTY)
        s--;
    return s ? s : n;
}

/* "Recovery shall name the lowest slot at fault and what in it" */
static struct m_recovered recover_slots(struct slot *slot, uint32_t n, struct entry *valid, uint8_t *live,
                                        struct m_index *index) {
    uint32_t count = 0;
    uint32_t broken = 0;
    uint64_t highest = 0;
    for (uint32_t s = 1; s <= n; s++)
        if (slot[s].bad_mark)
            return no(5, 0);
    for (uint32_t s = 1; s <= n; s++) {
        if (slot[s].fault)
            return no(slot[s].fault, s);
        broken += slot[s].kind == BROKEN;
        if (slot[s].highest > highest)
            highest = slot[s].highest;
        if (slot[s].kind == PUT || slot[s].kind == REMOVE)
            valid[count++] = (struct entry){slot[s].key, slot[s].version, s};
    }
    qsort(valid, count, sizeof *valid, by_version);
    if (sharers_at_fault(slot, valid, count))
        return no(7, 0);
    uint32_t left = judge(slot, valid, count), voids = count - left;
    count = left;
    if (broken + voids > GROUP) /* "A void slot stands with the broken ones .. in A.6's limit, now eight together" */
        return no(25, 0);
    uint32_t found = mark_live(slot, valid, count, live);
    if (found == n)
        return no(8, 0);
    build(slot, n, valid, count, live, index);
    index->state.live = found;
    index->state.newest = newest_of(slot, n, valid, count);
    index->state.version = highest + 1;
    return no(0, 0);
}

/* "one store for each void record, by slot, turning line A's mark against its close bit" */
static void open_voids(const uint8_t *image, const struct slot *slot, uint32_t n, struct m_recovered *recovered) {
    for (uint32_t s = 1; s <= n; s++)
        if (slot[s].kind == VOID)
            recovered->opening[recovered->count++] =
                (struct m_store){16 * s, 1 - (m_word(image, 16 * (size_t)s + 7) & 1)};
}

struct m_recovered m_recover(const uint8_t *image, size_t length, struct m_index *index) {
    struct m_recovered recovered = no(refuse_lent(image, length, index->heads_length, index->next_length), 0);
    if (recovered.refusal)
        return recovered;
    uint32_t n = m_slots(length);
    struct slot *slot = calloc(n + 1, sizeof *slot);
    struct entry *valid = calloc(n + 1, sizeof *valid);
    uint8_t *live = calloc(n + 1, 1);
    for (uint32_t s = 1; s <= n; s++)
        slot[s] = look(image, s);
    recovered = recover_slots(slot, n, valid, live, index);
    if (!recovered.refusal)
        open_voids(image, slot, n, &recovered);
    free(slot);
    free(valid);
    free(live);
    return recovered;
}

/* ---- counting the slots (A.8) */

/* "live slots, hidden puts, remove records, void, broken and empty slots. Each is counted by its definition" */
void m_count(const uint8_t *image, size_t length, const struct m_recovered *recovered, uint64_t count[6]) {
    enum { IS_LIVE, IS_HIDDEN, IS_REMOVE, IS_VOID, IS_BROKEN, IS_EMPTY };
    const uint32_t n = m_slots(length);
    struct slot *slot = calloc(n + 1ul, sizeof *slot);
    struct entry *counted = calloc(n + 1ul, sizeof *counted);
    uint8_t *live = calloc(n + 1ul, 1);
    uint32_t records = 0;
    memset(count, 0, 6 * sizeof *count);
    for (uint32_t s = 1; s <= n; s++)
        slot[s] = look(image, s);
    for (uint32_t i = 0; i < recovered->count; i++)
        slot[recovered->opening[i].at / 16].kind = VOID;
    for (uint32_t s = 1; s <= n; s++)
        if (slot[s].kind == PUT || slot[s].kind == REMOVE)
            counted[records++] = (struct entry){slot[s].key, slot[s].version, s};
    mark_live(slot, counted, records, live);
    for (uint32_t s = 1; s <= n; s++)
        switch (slot[s].kind) {
        case PUT: count[live[s] ? IS_LIVE : IS_HIDDEN]++; break;
        case REMOVE: count[IS_REMOVE]++; break;
        case VOID: count[IS_VOID]++; break;
        case EMPTY: count[IS_EMPTY]++; break;
        default: count[IS_BROKEN]++; break;
        }
    free(slot);
    free(counted);
    free(live);
}

/* ---- the key's chain */

/* "following the key's chain up to the first slot with that key or the end, a link above N is met or N slots pass
 * without the key"; "The count of slots compared equals the place of the key in its chain, or the chain's whole length
 * when it is absent", "A call refused before or by the chain check reports 0" */
struct walk {
    int refusal;
    uint32_t slot, before; /* slot 0: not held, and before is the chain's last slot. before 0: the head */
    uint32_t compared;
};

static struct walk follow(const uint8_t *image, uint32_t n, const struct m_index *index, m_key key) {
    uint32_t before = 0, passed = 0, at = index->heads[m_head(key, index->heads_length)];
    while (at != 0) {
        if (at > n)
            return (struct walk){.refusal = 11};
        if (m_key_in(image, at) == key)
            return (struct walk){.slot = at, .before = before, .compared = passed + 1};
        if (++passed == n)
            return (struct walk){.refusal = 11};
        before = at;
        at = index->next[at];
    }
    return (struct walk){.before = before, .compared = passed};
}

/* ---- the slots that may be taken */

/* The version of a valid slot, 0 of any other. */
static uint64_t valid_version(const uint8_t *image, uint32_t s) {
    const uint8_t *slot = image + 128 * (size_t)s;
    uint64_t a = m_word(slot, 7), b = m_word(slot, 15);
    return m_word(slot, 0) == (a & 1) && m_word(slot, 8) == (b & 1) && a >> 1 == b >> 1 ? a >> 1 : 0;
}

/* slot t has an older valid record of the key of slot s */
static int is_older(const uint8_t *image, uint32_t t, uint32_t s) {
    const uint64_t version = valid_version(image, t);
    return version && m_key_in(image, t) == m_key_in(image, s) && version < valid_version(image, s);
}

/* the version on line A of the slot that the state names as the newest, 0 where the image has no such slot */
static uint64_t named_version(const uint8_t *image, uint32_t n, uint32_t newest) {
    return newest > n ? 0 : m_word(image, 16 * (size_t)newest + 7) >> 1;
}

/* "No call, single ones included, takes a slot of the highest valid version, or a remove record while an older valid
 * record of its key remains in the image the call is given". The owner's call goes by the version of the slot that the
 * state names, and looks for an older record in the `found` slots taken before. */
static int may_take(int own, const uint8_t *image, uint32_t n, uint32_t s, uint32_t newest, const uint32_t *taken,
                    uint32_t found) {
    const uint64_t version = valid_version(image, s);
    uint32_t t = 1;
    if (version == 0)
        return 1;
    while (!own && t <= n && valid_version(image, t) <= version)
        t++;
    if (own ? version >= named_version(image, n, newest) : t > n)
        return 0;
    if (image[128 * (size_t)s + 8 * KIND_WORD] != 2)
        return 1;
    for (uint32_t i = 0; i < (own ? found : n); i++)
        if (is_older(image, own ? taken[i] : i + 1, s))
            return 0;
    return 1;
}

int m_may_take(const uint8_t *image, uint32_t n, uint32_t slot) {
    return may_take(0, image, n, slot, 0, NULL, 0);
}

/* "it takes the first others in the reuse chain": `wanted` of them. "11 .. covers a link above N met from the chain's
 * first through the last slot taken, that slot's own included, or a nonzero one after N slots; a slot met twice counts
 * twice"; "28 when too few slots may be taken" */
static int follow_reuse(int own, const uint8_t *image, uint32_t n, const struct m_index *index, uint32_t wanted,
                        uint32_t *taken, uint32_t *before) {
    uint32_t at = index->state.first, stays = 0;
    for (uint32_t met = 1, found = 0;; met++) {
        uint32_t after = index->next[at];
        if (may_take(own, image, n, at, index->state.newest, taken, found)) {
            before[found] = stays;
            taken[found++] = at;
        } else
            stays = at;
        if (after > n || (met == n && after))
            return 11;
        if (found == wanted)
            return 0;
        if (after == 0)
            return 28;
        at = after;
    }
}

/* "11 when the reuse chain's first or last slot is zero or above N"; "11 (reuse, or fewer live than are removed) now
 * stands whole before 28"; "28 when too few slots may be taken or, by the live count, no spare slot would be left ..
 * before 9" */
static int refuse_slots(int own, const uint8_t *image, uint32_t n, const struct m_index *index, uint32_t inserts,
                        uint32_t removes, uint32_t wanted, uint32_t *taken, uint32_t *before) {
    const struct m_state *s = &index->state;
    if (s->first == 0 || s->first > n || s->last == 0 || s->last > n)
        return 11;
    if (s->live < removes)
        return 11;
    int refusal = follow_reuse(own, image, n, index, wanted, taken, before);
    if (refusal)
        return refusal;
    if ((uint64_t)s->live + inserts - removes >= n)
        return 28;
    return s->version >> 63 ? 9 : 0;
}

/* ---- "The index is written in this order" */

static uint32_t take(struct m_index *index) {
    uint32_t slot = index->state.first;
    index->state.first = index->next[slot];
    if (index->state.first == 0)
        index->state.last = 0;
    return slot;
}

static void append(struct m_index *index, uint32_t slot) {
    index->next[slot] = 0;
    if (index->state.last)
        index->next[index->state.last] = slot;
    else
        index->state.first = slot;
    index->state.last = slot;
}

static void link_after(struct m_index *index, m_key key, uint32_t before, uint32_t slot) {
    if (before)
        index->next[before] = slot;
    else
        index->heads[m_head(key, index->heads_length)] = slot;
}

/* ---- "How a call writes" */

/* A record that is to be written: kind 1 put, 2 remove. */
struct m_record {
    unsigned kind;
    m_key key;
    const uint8_t *bytes;
    size_t size;
};

/* "Let c be the close bit now in that line. The first store makes the mark 1 − c; the last makes the stamp version × 2
 * + (1 − c)" */
static void write_record(const uint8_t *image, uint32_t slot, uint64_t version, const struct m_record *r,
                         uint64_t number, struct m_store store[16]) {
    uint8_t padded[80] = {0};
    memcpy(padded, r->bytes, r->size);
    for (uint32_t i = 0; i < 16; i++) {
        uint64_t open = 1 - (m_word(image, 16 * (size_t)slot + (i < 8 ? 7 : 15)) & 1), v;
        if (i % 8 == 0)
            v = open;
        else if (i % 8 == 7)
            v = version * 2 + open;
        else if (i == 1)
            v = low_word(r->key);
        else if (i < KIND_WORD)
            v = high_word(r->key);
        else if (i == KIND_WORD)
            v = r->kind + 256 * (uint64_t)r->size + 65536 * number;
        else
            v = m_word(padded, i < 8 ? i - VALUE_WORD : i - 9 + FRONT / 8);
        store[i] = (struct m_store){16 * slot + i, v};
    }
}

/* ---- a basket */

/* "26 when the basket has 0 or more than 8 keys, first of all; 27 when a key comes twice, next", "13 when the lent list
 * is too short follows 27". The papers have no number for a kind that is none of the three: 26 */
static int refuse_given(const struct m_item *item, size_t count, size_t places, size_t values) {
    if (count == 0 || count > GROUP)
        return 26;
    for (size_t i = 0; i < count; i++)
        if (item[i].kind < 1 || item[i].kind > 3)
            return 26;
    for (size_t i = 0; i < count; i++)
        for (size_t j = i + 1; j < count; j++)
            if (item[i].key == item[j].key)
                return 27;
    return places < 16 * count || values < 16 * count ? 13 : 0;
}

/* "Each later check goes over all keys before the next, 20 and 21 being one", "In a basket, removing an unheld key
 * gives 21" */
static int refuse_keys(const uint8_t *image, uint32_t n, const struct m_index *index, const struct m_item *item,
                       size_t count) {
    for (size_t i = 0; i < count; i++)
        if (item[i].kind != 3 && item[i].size > VALUE_MAX)
            return 10;
    for (size_t i = 0; i < count; i++)
        if (follow(image, n, index, item[i].key).refusal)
            return 11;
    for (size_t i = 0; i < count; i++) {
        uint32_t held = follow(image, n, index, item[i].key).slot;
        if (held && item[i].kind == 1)
            return 20;
        if (!held && item[i].kind != 1)
            return 21;
    }
    return 0;
}

/* "Its records share one version, and bits 16 to 23 of the kind word hold their number; a single record, or a basket of
 * one, has 0 there" */
void m_basket_stores(const uint8_t *image, const struct m_item item[8], size_t count, struct m_basket *b) {
    for (size_t i = 0; i < count; i++) {
        const struct m_record r = {item[i].kind == 3 ? 2 : 1, item[i].key, item[i].bytes,
                                   item[i].kind == 3 ? 0 : item[i].size};
        write_record(image, b->slot[i], b->version, &r, count > 1 ? count : 0, b->store + 16 * i);
    }
}

/* "It answers its version and slots" */
struct m_basket m_basket(int own, const uint8_t *image, size_t length, const struct m_index *index,
                         const struct m_item item[8], size_t count, size_t places, size_t values) {
    const uint32_t n = m_slots(length);
    struct m_basket b = {.refusal = refuse_given(item, count, places, values)};
    uint32_t inserts = 0, removes = 0;
    if (!b.refusal)
        b.refusal = refuse_lent(image, length, index->heads_length, index->next_length);
    if (!b.refusal)
        b.refusal = refuse_keys(image, n, index, item, count);
    for (size_t i = 0; !b.refusal && i < count; i++) {
        inserts += item[i].kind == 1;
        removes += item[i].kind == 3;
    }
    if (!b.refusal)
        b.refusal = refuse_slots(own, image, n, index, inserts, removes, (uint32_t)count, b.slot, b.before);
    if (b.refusal)
        return (struct m_basket){.refusal = b.refusal};
    b.version = index->state.version;
    m_basket_stores(image, item, count, &b);
    return b;
}

/* The slot leaves the reuse chain, where it stands after `before`. */
static void leave_reuse(struct m_index *index, uint32_t slot, uint32_t before) {
    if (before)
        index->next[before] = index->next[slot];
    else
        index->state.first = index->next[slot];
    if (index->state.last == slot)
        index->state.last = before;
}

/* The slot before `slot` in the chain of the key's head, or the chain's last slot where that is 0; 0: the head. Of an
 * index that is not the image's own the search ends at a link that is 0 or above N, and after N links. */
static uint32_t before_in_chain(const struct m_index *index, uint32_t n, m_key key, uint32_t slot) {
    uint32_t before = 0, at = index->heads[m_head(key, index->heads_length)];
    for (uint32_t left = n; left > 0 && at != slot && at != 0 && at <= n; left--) {
        before = at;
        at = index->next[at];
    }
    return before;
}

/* "A basket takes all its slots before any other index change, then links and appends key by key" */
void m_basket_index(const uint8_t *image, size_t length, struct m_index *index, const struct m_item item[8],
                    uint32_t count, const struct m_basket *basket) {
    uint32_t old[GROUP];
    for (uint32_t i = 0; i < count; i++) {
        old[i] = follow(image, m_slots(length), index, item[i].key).slot;
        index->state.live += (uint32_t)(item[i].kind == 1) - (uint32_t)(item[i].kind == 3);
    }
    for (uint32_t i = 0; i < count; i++)
        leave_reuse(index, basket->slot[i], basket->before[i]);
    for (uint32_t i = 0; i < count; i++) {
        uint32_t slot = basket->slot[i], before = before_in_chain(index, m_slots(length), item[i].key, old[i]);
        if (item[i].kind != 3)
            index->next[slot] = old[i] ? index->next[old[i]] : 0;
        link_after(index, item[i].key, before, item[i].kind == 3 ? index->next[old[i]] : slot);
        if (old[i])
            append(index, old[i]);
        if (item[i].kind == 3)
            append(index, slot);
    }
    index->state.newest = basket->slot[0];
    index->state.version++;
}

static struct m_change refuse(int number, uint32_t compared) {
    return (struct m_change){.refusal = number, .compared = compared};
}

/* A call that writes one record and inserts or removes so many keys: its refusals after those of its key, or its slot
 * and stores. The slot is taken from the index where it is the reuse chain's first, as it is "with an index .. the
 * image's own"; otherwise "only refusals are fixed". The owner's call takes the first. */
static struct m_change change(int own, const uint8_t *image, uint32_t n, struct m_index *index,
                              const struct m_record *r, uint32_t inserts, uint32_t removes, uint32_t compared) {
    uint32_t slot, before;
    int refusal = refuse_slots(own, image, n, index, inserts, removes, 1, &slot, &before);
    if (refusal)
        return refuse(refusal, compared);
    if (own)
        slot = index->state.first;
    struct m_change c = {.version = index->state.version, .compared = compared, .slot = slot};
    if (slot != index->state.first) {
        c.free = 1;
        return c;
    }
    write_record(image, take(index), c.version, r, 0, c.store);
    index->state.live += inserts - removes;
    index->state.newest = slot;
    index->state.version++;
    return c;
}

/* "insert for a key not held, replace for one that is": what they test first, and where the key stands */
static struct walk walk_for_value(const uint8_t *image, size_t length, const struct m_index *index, m_key key,
                                  size_t size) {
    int refusal = refuse_lent(image, length, index->heads_length, index->next_length);
    if (refusal)
        return (struct walk){.refusal = refusal};
    if (size > VALUE_MAX)
        return (struct walk){.refusal = 10};
    return follow(image, m_slots(length), index, key);
}

/* "20 when insert meets a held key .. straight after the chain check" */
struct m_change m_insert(int own, const uint8_t *image, size_t length, struct m_index *index, m_key key,
                         const uint8_t *bytes, size_t size) {
    struct walk walk = walk_for_value(image, length, index, key, size);
    uint32_t n = m_slots(length);
    if (walk.refusal)
        return refuse(walk.refusal, 0);
    if (walk.slot)
        return refuse(20, walk.compared);
    struct m_change c = change(own, image, n, index, &(struct m_record){1, key, bytes, size}, 1, 0, walk.compared);
    if (c.refusal || c.free)
        return c;
    index->next[c.slot] = 0;
    link_after(index, key, walk.before, c.slot);
    return c;
}

/* "21 when replace meets an unheld one .. straight after the chain check" */
struct m_change m_replace(int own, const uint8_t *image, size_t length, struct m_index *index, m_key key,
                          const uint8_t *bytes, size_t size) {
    struct walk walk = walk_for_value(image, length, index, key, size);
    if (walk.refusal)
        return refuse(walk.refusal, 0);
    if (!walk.slot)
        return refuse(21, walk.compared);
    struct m_change c =
        change(own, image, m_slots(length), index, &(struct m_record){1, key, bytes, size}, 0, 0, walk.compared);
    if (c.refusal || c.free)
        return c;
    index->next[c.slot] = index->next[walk.slot];
    link_after(index, key, walk.before, c.slot);
    append(index, walk.slot);
    return c;
}

struct m_change m_remove(int own, const uint8_t *image, size_t length, struct m_index *index, m_key key) {
    int refusal = refuse_lent(image, length, index->heads_length, index->next_length);
    if (refusal)
        return refuse(refusal, 0);
    uint32_t n = m_slots(length);
    struct walk walk = follow(image, n, index, key);
    if (walk.refusal)
        return refuse(walk.refusal, 0);
    if (!walk.slot)
        return (struct m_change){.absent = 1, .compared = walk.compared};
    struct m_change c =
        change(own, image, n, index, &(struct m_record){2, key, (const uint8_t *)"", 0}, 0, 1, walk.compared);
    if (c.refusal || c.free)
        return c;
    link_after(index, key, walk.before, index->next[walk.slot]);
    append(index, walk.slot);
    append(index, c.slot);
    return c;
}

struct m_got m_get(const uint8_t *image, size_t length, const struct m_index *index, m_key key, uint8_t *out,
                   size_t room) {
    int refusal = refuse_lent(image, length, index->heads_length, index->next_length);
    if (refusal)
        return (struct m_got){.refusal = refusal};
    struct walk walk = follow(image, m_slots(length), index, key);
    if (walk.refusal)
        return (struct m_got){.refusal = walk.refusal};
    if (!walk.slot)
        return (struct m_got){.absent = 1, .compared = walk.compared};
    const uint8_t *slot = image + 128 * (size_t)walk.slot;
    size_t size = slot[8 * KIND_WORD + 1];
    if (size > VALUE_MAX)
        return (struct m_got){.refusal = 23, .compared = walk.compared};
    if (room < size)
        return (struct m_got){.refusal = 13, .compared = walk.compared};
    for (size_t i = 0; i < size; i++)
        out[i] = value_byte(slot, i);
    return (struct m_got){.length = size, .compared = walk.compared};
}

struct m_place m_locate(const uint8_t *image, size_t length, const struct m_index *index, m_key key) {
    int refusal = refuse_lent(image, length, index->heads_length, index->next_length);
    if (refusal)
        return (struct m_place){.refusal = refusal};
    struct walk walk = follow(image, m_slots(length), index, key);
    if (walk.refusal)
        return (struct m_place){.refusal = walk.refusal};
    if (!walk.slot)
        return (struct m_place){.absent = 1, .compared = walk.compared};
    return (struct m_place){
        .slot = walk.slot, .version = m_word(image, 16 * (size_t)walk.slot + 7) / 2, .compared = walk.compared};
}

/* ---- the order book: "a layer above the set" that "knows the set only by what the set promises" */

/* "Its record is 24 bytes: state (1 sent, 2 acknowledged), ordered quantity and filled quantity, a word each, filled
 * below ordered" */
struct order {
    int refusal;
    uint64_t state, ordered, filled;
};

/* "18 when another step's key is not held or holds no book record"; a length over 80, which only a foreign index leads
 * to, is no book record */
static struct order order_of(const uint8_t *image, size_t length, const struct m_index *index, m_key key) {
    uint8_t bytes[80];
    struct m_got got = m_get(image, length, index, key, bytes, sizeof bytes);
    if (got.refusal && got.refusal != 23)
        return (struct order){.refusal = got.refusal};
    if (got.refusal || got.absent || got.length != 24)
        return (struct order){.refusal = 18};
    struct order o = {0, m_word(bytes, 0), m_word(bytes, 1), m_word(bytes, 2)};
    if ((o.state != 1 && o.state != 2) || o.filled >= o.ordered)
        o.refusal = 18;
    return o;
}

static void set_bytes(uint8_t bytes[24], struct order o) {
    m_set_word(bytes, 0, o.state);
    m_set_word(bytes, 1, o.ordered);
    m_set_word(bytes, 2, o.filled);
}

/* "The book's steps use the one they mean": acknowledge and fill, whose key is held, replace */
static struct m_change replace_order(int own, const uint8_t *image, size_t length, struct m_index *index, m_key key,
                                     struct order o) {
    uint8_t bytes[24];
    set_bytes(bytes, o);
    return m_replace(own, image, length, index, key, bytes, sizeof bytes);
}

/* "17 when a new order's key is held", "19 when a new quantity is zero" */
struct m_change m_new(int own, const uint8_t *image, size_t length, struct m_index *index, m_key key,
                      uint64_t quantity) {
    uint8_t bytes[24];
    struct m_place place = m_locate(image, length, index, key);
    if (place.refusal)
        return refuse(place.refusal, 0);
    if (!place.absent)
        return refuse(17, 0);
    if (quantity == 0)
        return refuse(19, 0);
    set_bytes(bytes, (struct order){0, 1, quantity, 0});
    return m_insert(own, image, length, index, key, bytes, sizeof bytes);
}

/* "A second acknowledge stores nothing and, before any later check, answers the order's present slot and its line A's
 * version" */
struct m_change m_acknowledge(int own, const uint8_t *image, size_t length, struct m_index *index, m_key key) {
    struct order o = order_of(image, length, index, key);
    if (o.refusal)
        return refuse(o.refusal, 0);
    if (o.state == 2) {
        struct m_place place = m_locate(image, length, index, key);
        return (struct m_change){.already = 1, .slot = place.slot, .version = place.version};
    }
    o.state = 2;
    return replace_order(own, image, length, index, key, o);
}

/* "19 when .. a fill is zero or more than is open", "Fill and withdraw serve either state and keep it", "A .. fully
 * filled order is removed" */
struct m_change m_fill(int own, const uint8_t *image, size_t length, struct m_index *index, m_key key,
                       uint64_t quantity) {
    struct order o = order_of(image, length, index, key);
    if (o.refusal)
        return refuse(o.refusal, 0);
    uint64_t open = o.ordered - o.filled;
    if (quantity == 0 || quantity > open)
        return refuse(19, 0);
    if (quantity == open)
        return m_remove(own, image, length, index, key);
    o.filled += quantity;
    return replace_order(own, image, length, index, key, o);
}

/* "A withdrawn .. order is removed" */
struct m_change m_withdraw(int own, const uint8_t *image, size_t length, struct m_index *index, m_key key) {
    struct order o = order_of(image, length, index, key);
    return o.refusal ? refuse(o.refusal, 0) : m_remove(own, image, length, index, key);
}

/* ---- play */

/* "15 when either half is not words 0 to 7 of one line inside the image, in order, or both halves name one line" */
int m_play(uint8_t *image, size_t length, const uint32_t at[16], const uint64_t value[16], size_t a, size_t b) {
    if (m_slots(length) == 0)
        return 1;
    if (a > 8 || b > 8)
        return 14;
    for (size_t i = 0; i < 16; i++)
        if (at[i] % 8 != i % 8 || at[i] / 8 != at[i / 8 * 8] / 8 || at[i] / 8 >= length / 64)
            return 15;
    if (at[0] / 8 == at[8] / 8)
        return 15;
    for (size_t i = 0; i < 16; i++)
        if (i < 8 ? i < a : i - 8 < b)
            m_set_word(image, at[i], value[i]);
    return 0;
}

/* "it tests only 15, here a word outside the lent bytes, and then makes them all in order" */
int m_play_list(uint8_t *bytes, size_t length, const uint32_t *at, size_t places, const uint64_t *value,
                size_t values) {
    if (places != values)
        return 15;
    for (size_t i = 0; i < places; i++)
        if (8 * (uint64_t)at[i] + 8 > length)
            return 15;
    for (size_t i = 0; i < places; i++)
        m_set_word(bytes, at[i], value[i]);
    return 0;
}

/* ---- a single line: "C functions on 64 bytes that say whether the line is whole, its version, and the first and last
 * word for a given next version" */

/* "Each puts its answer, yes being 1, in a lent slice of 8 bytes and returns 0 or the refusal. 33 when a slice has not
 * its length, then 9 when the next version is 2^63 or more" */
int m_line(enum m_query query, const uint8_t *line, size_t length, uint64_t version, uint8_t *answer, size_t room) {
    if (length != 64 || room != 8)
        return 33;
    if ((query == M_FIRST || query == M_LAST) && version >> 63)
        return 9;
    uint64_t mark = m_word(line, 0), stamp = m_word(line, 7), close = stamp & 1;
    switch (query) {
    case M_WHOLE: m_set_word(answer, 0, mark == close); break;
    case M_VERSION: m_set_word(answer, 0, stamp >> 1); break;
    case M_FIRST: m_set_word(answer, 0, 1 - close); break;
    case M_LAST: m_set_word(answer, 0, version * 2 + (1 - close)); break;
    }
    return 0;
}
