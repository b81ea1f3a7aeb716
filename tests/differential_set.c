/* differential_set.c: a set twice, lent to the archive and the model's own; what is compared of it, and the case that
 * is shown where the two differ. */
#include <stdarg.h>

#include "differential.h"

enum { GUARD = 64, GUARD_BYTE = 0xa5 };

/* ---- lent memory with a guard on both sides */

void *lend(size_t length) {
    uint8_t *memory = malloc(length + 2 * GUARD);
    if (!memory)
        abort();
    memset(memory, GUARD_BYTE, length + 2 * GUARD);
    return memory + GUARD;
}

void give_back(void *lent) {
    free((uint8_t *)lent - GUARD);
}

int guarded(const void *lent, size_t length) {
    const uint8_t *p = lent;
    for (size_t i = 0; i < GUARD; i++)
        if (p[-1 - (ptrdiff_t)i] != GUARD_BYTE || p[length + i] != GUARD_BYTE)
            return 0;
    return 1;
}

/* ---- what was met, and the call that is under way */

static const char *const name[WHICH] = {
    "format", "recover",  "insert", "replace",   "remove", "get",        "locate",       "new",        "acknowledge",
    "fill",   "withdraw", "play",   "play_list", "basket", "line_whole", "line_version", "line_first", "line_last"};

uint64_t baskets, half_baskets, openings;
uint64_t calls, strikes, queries, met[WHICH][ANSWERS];
uint64_t compared, longest, far_met[WHICH][ANSWERS];
uint64_t own_calls, both, own_met[WHICH][ANSWERS];
uint32_t named;
uint64_t counted;
const char *phase = "";
enum which call;
int owner;
const struct set *now;
size_t call_a, call_b;
static m_key call_key;
static size_t call_size;

static void show_case(void) {
    printf("layout %d, seed %" PRIu64 ", call %" PRIu64 ", %s\n", LAYOUT, seed, calls, phase);
    printf("%s%s: N %u, length %zu, B %zu, next %zu, key " KEY_FORM ", size, room or quantity %zu, counts %zu %zu\n",
           owner ? "own " : "", name[call], now->n, now->length, now->model.heads_length, now->model.next_length,
           KEY_WORDS(call_key), call_size, call_a, call_b);
    printf("state: archive %u %u %u %u %" PRIu64 ", model %u %u %u %u %" PRIu64 "\n", now->state[0], now->state[1],
           now->state[2], now->state[3], now->version[0], now->model.state.first, now->model.state.last,
           now->model.state.live, now->model.state.newest, now->model.state.version);
    if (now->length > 128 * 8)
        return;
    for (size_t i = 0; i < now->length / 8; i++)
        printf("%s%" PRIx64 "%s", i % 8 ? " " : "image ", m_word(now->model_image, i), i % 8 == 7 ? "\n" : "");
    for (size_t i = 0; i < now->model.next_length; i++)
        printf("%s%u%s", i ? " " : "next (archive) ", now->next[i], i + 1 == now->model.next_length ? "\n" : "");
    for (size_t i = 0; i < now->model.next_length; i++)
        printf("%s%u%s", i ? " " : "next (model) ", now->model.next[i], i + 1 == now->model.next_length ? "\n" : "");
}

void __attribute__((noreturn, format(printf, 1, 2))) differ(const char *what, ...) {
    va_list list;
    printf("\nDIFFERENCE ");
    va_start(list, what);
    vprintf(what, list);
    va_end(list);
    printf("\n");
    show_case();
    exit(1);
}

void same_number(const char *what, uint64_t archive, uint64_t model) {
    if (archive != model)
        differ("in %s: archive %" PRIu64 ", model %" PRIu64, what, archive, model);
}

void same_bytes(const char *what, const void *archive, const void *model, size_t length) {
    const uint8_t *x = archive, *y = model;
    if (memcmp(x, y, length) == 0)
        return;
    for (size_t i = 0; i < length; i++)
        if (x[i] != y[i])
            differ("in %s, byte %zu of %zu: archive %u, model %u", what, i, length, x[i], y[i]);
}

void keep_case(const struct set *s, enum which which, m_key key, size_t size, size_t a, size_t b) {
    now = s;
    call = which;
    owner = 0;
    call_key = key;
    call_size = size;
    call_a = a;
    call_b = b;
}

void begin(const struct set *s, enum which which, m_key key, size_t size, size_t a, size_t b) {
    keep_case(s, which, key, size, a, b);
    calls++;
}

unsigned same_code(uint32_t archive, int model, unsigned done) {
    unsigned answer = model ? (unsigned)model : done;
    same_number("the code", archive, (uint64_t)model);
    met[call][answer]++;
    own_met[call][answer] += (uint64_t)owner;
    return answer;
}

unsigned same_report(uint64_t archive, int model, unsigned done, uint64_t word, uint32_t model_compared) {
    unsigned answer = same_code(ORDERSET_PROVED_REFUSAL(archive), model, done);
    compared = model ? ORDERSET_PROVED_REFUSED_COMPARED(archive) : word;
    same_number("the slots compared", compared, model_compared);
    if (!model)
        same_number("the count of a call that is not refused", ORDERSET_PROVED_REFUSED_COMPARED(archive), 0);
    far_met[call][answer] += compared > 1;
    longest = compared > longest ? compared : longest;
    return answer;
}

/* ---- the set */

void compare_all(struct set *s) {
    s->since = 0;
    same_bytes("the image", s->image, s->model_image, s->length);
    same_bytes("heads", s->heads, s->model.heads, 4 * s->model.heads_length);
    same_bytes("next", s->next, s->model.next, 4 * s->model.next_length);
    if (!guarded(s->image, s->length) || !guarded(s->heads, 4 * s->model.heads_length)
        || !guarded(s->next, 4 * s->model.next_length) || !guarded(s->state, 4 * ORDERSET_RAW_STATE)
        || !guarded(s->version, 8) || !guarded(s->at, 64) || !guarded(s->value, 128) || !guarded(s->count, 4)
        || !guarded(s->open_at, 4 * ORDERSET_INVALIDATIONS) || !guarded(s->open_value, 8 * ORDERSET_INVALIDATIONS))
        differ("outside the lent memory");
}

void compare(struct set *s) {
    same_number("the first slot", s->state[ORDERSET_RAW_FIRST], s->model.state.first);
    same_number("the last slot", s->state[ORDERSET_RAW_LAST], s->model.state.last);
    same_number("the live count", s->state[ORDERSET_RAW_LIVE], s->model.state.live);
    same_number("the newest slot", s->state[ORDERSET_RAW_NEWEST], s->model.state.newest);
    same_number("the next version", s->version[0], s->model.state.version);
    if ((s->n <= SMALL && s->model.heads_length <= 4 * SMALL) || ++s->since >= 500)
        compare_all(s);
}

struct set *open_set(size_t length, size_t heads, size_t next) {
    struct set *s = calloc(1, sizeof *s);
    s->n = m_slots(length);
    s->length = length;
    s->image = lend(length);
    s->model_image = lend(length);
    s->heads = lend(4 * heads);
    s->next = lend(4 * next);
    s->state = lend(4 * ORDERSET_RAW_STATE);
    s->version = lend(8);
    s->at = lend(4 * ORDERSET_STORES);
    s->value = lend(8 * ORDERSET_STORES);
    s->count = lend(4);
    s->open_at = lend(4 * ORDERSET_INVALIDATIONS);
    s->open_value = lend(8 * ORDERSET_INVALIDATIONS);
    s->model = (struct m_index){lend(4 * heads), heads, lend(4 * next), next, {0, 0, 0, 0, 0}};
    return s;
}

void close_set(struct set *s) {
    void *lent[] = {s->image, s->model_image, s->heads,   s->next,       s->state,       s->version,   s->at,
                    s->value, s->count,       s->open_at, s->open_value, s->model.heads, s->model.next};
    for (size_t i = 0; i < sizeof lent / sizeof *lent; i++)
        give_back(lent[i]);
    free(s);
}

void lend_same(struct set *s) {
    memcpy(s->image, s->model_image, s->length);
    memcpy(s->heads, s->model.heads, 4 * s->model.heads_length);
    memcpy(s->next, s->model.next, 4 * s->model.next_length);
    s->state[ORDERSET_RAW_FIRST] = s->model.state.first;
    s->state[ORDERSET_RAW_LAST] = s->model.state.last;
    s->state[ORDERSET_RAW_LIVE] = s->model.state.live;
    s->state[ORDERSET_RAW_NEWEST] = s->model.state.newest;
    s->version[0] = s->model.state.version;
    s->own = 0;
}

void take_over(struct set *s) {
    memcpy(s->model.heads, s->heads, 4 * s->model.heads_length);
    memcpy(s->model.next, s->next, 4 * s->model.next_length);
    s->model.state = (struct m_state){s->state[ORDERSET_RAW_FIRST], s->state[ORDERSET_RAW_LAST],
                                      s->state[ORDERSET_RAW_LIVE], s->state[ORDERSET_RAW_NEWEST], s->version[0]};
}

void lend_garbage(struct set *s) {
    garbage_index(&s->model, s->n);
    lend_same(s);
}
