/* differential_calls.c: the calls on single keys and the play of stores, on both sides; those that write in both
 * families. */
#include "differential.h"

static uint64_t archive_change(const struct set *s, const struct request *r,
                               uint64_t answer[ORDERSET_PROVED_CHANGE_ANSWER]) {
    const size_t heads = s->model.heads_length, next = s->model.next_length;
    switch (r->which) {
    case INSERT:
        return SET_BY(owner, insert)(s->image, s->length, s->heads, heads, s->next, next, s->state, s->version,
                                     KEY(r->key), r->bytes, r->size, s->at, s->value, answer);
    case REPLACE:
        return SET_BY(owner, replace)(s->image, s->length, s->heads, heads, s->next, next, s->state, s->version,
                                      KEY(r->key), r->bytes, r->size, s->at, s->value, answer);
    case REMOVE:
        return SET_BY(owner, remove)(s->image, s->length, s->heads, heads, s->next, next, s->state, s->version,
                                     KEY(r->key), s->at, s->value, answer);
    case NEW:
        return SET_BY(owner, book_new)(s->image, s->length, s->heads, heads, s->next, next, s->state, s->version,
                                       KEY(r->key), r->quantity, s->at, s->value, answer);
    case ACKNOWLEDGE:
        return SET_BY(owner, book_acknowledge)(s->image, s->length, s->heads, heads, s->next, next, s->state,
                                               s->version, KEY(r->key), s->at, s->value, answer);
    case FILL:
        return SET_BY(owner, book_fill)(s->image, s->length, s->heads, heads, s->next, next, s->state, s->version,
                                        KEY(r->key), r->quantity, s->at, s->value, answer);
    default:
        return SET_BY(owner, book_withdraw)(s->image, s->length, s->heads, heads, s->next, next, s->state, s->version,
                                            KEY(r->key), s->at, s->value, answer);
    }
}

int family = -1;

int any_family(void) {
    return family < 0 ? (int)below(2) : family;
}

int by_document(const struct set *s) {
    return !owner || (s->own && s->named);
}

static struct m_change model_change(struct set *s, const struct request *r) {
    const int own = !by_document(s);
    switch (r->which) {
    case INSERT: return m_insert(own, s->model_image, s->length, &s->model, r->key, r->bytes, r->size);
    case REPLACE: return m_replace(own, s->model_image, s->length, &s->model, r->key, r->bytes, r->size);
    case REMOVE: return m_remove(own, s->model_image, s->length, &s->model, r->key);
    case NEW: return m_new(own, s->model_image, s->length, &s->model, r->key, r->quantity);
    case ACKNOWLEDGE: return m_acknowledge(own, s->model_image, s->length, &s->model, r->key);
    case FILL: return m_fill(own, s->model_image, s->length, &s->model, r->key, r->quantity);
    default: return m_withdraw(own, s->model_image, s->length, &s->model, r->key);
    }
}

/* The code and the answer of a change. A step does not write the word with the slots compared. */
static unsigned compare_answer(uint64_t code, const uint64_t *answer, const uint64_t *lent, const struct m_change *c) {
    const int reports = call == INSERT || call == REPLACE || call == REMOVE;
    const unsigned done = c->absent ? ABSENT : c->already ? ALREADY : DONE;
    const uint64_t first = c->absent    ? ORDERSET_RAW_ABSENT
                           : c->already ? ORDERSET_RAW_ALREADY
                                        : ORDERSET_RAW_DONE,
                   last = reports ? c->compared : lent[ORDERSET_PROVED_COMPARED],
                   expected[ORDERSET_PROVED_CHANGE_ANSWER] = {first, c->slot, c->version, last};
    unsigned answered = reports ? same_report(code, c->refusal, done, answer[ORDERSET_PROVED_COMPARED], c->compared)
                                : same_code(ORDERSET_PROVED_REFUSAL(code), c->refusal, done);
    same_bytes("the answer", answer, c->refusal ? lent : expected, sizeof expected);
    return answered;
}

/* With an index that is not the image's own only the refusal is fixed. The model goes on with what the archive left. */
static unsigned compare_free(struct set *s, uint64_t code, const uint64_t *answer, const struct m_change *c) {
    const int reports = call == INSERT || call == REPLACE || call == REMOVE;
    if (s->own || owner)
        differ(
            "in the slot taken: with the image's own index, or by the owner's call, it is not the reuse chain's first");
    same_number("the answer's kind", answer[0], ORDERSET_RAW_DONE);
    take_over(s);
    return reports ? same_report(code, 0, DONE, answer[ORDERSET_PROVED_COMPARED], c->compared)
                   : same_code(ORDERSET_PROVED_REFUSAL(code), 0, DONE);
}

/* What it left. Returns the answer: DONE if there are stores. */
static unsigned compare_change(struct set *s, uint64_t code, const uint64_t *answer, const uint64_t *answer_lent,
                               const uint32_t *at_lent, const uint64_t *value_lent, struct m_change c) {
    uint32_t at[ORDERSET_STORES];
    uint64_t value[ORDERSET_STORES];
    if (c.free && code == 0)
        return compare_free(s, code, answer, &c);
    unsigned answered = compare_answer(code, answer, answer_lent, &c);
    for (size_t i = 0; i < ORDERSET_STORES; i++) {
        at[i] = answered == DONE ? c.store[i].at : at_lent[i];
        value[i] = answered == DONE ? c.store[i].value : value_lent[i];
    }
    same_bytes("the stores' words", s->at, at, sizeof at);
    same_bytes("the stores' values", s->value, value, sizeof value);
    if (answered == DONE)
        framed(s, c.slot, c.version);
    compare(s);
    return answered;
}

/* The set lent once more, with the image and another index: what the archive left becomes what the model has. */
static struct set *twin_of(const struct set *s) {
    struct set *t = open_set(s->length, s->model.heads_length, s->model.next_length);
    memcpy(t->model_image, s->image, s->length);
    memcpy(t->heads, s->heads, 4 * s->model.heads_length);
    memcpy(t->next, s->next, 4 * s->model.next_length);
    memcpy(t->state, s->state, 4 * ORDERSET_RAW_STATE);
    memcpy(t->version, s->version, 8);
    take_over(t);
    lend_same(t);
    return t;
}

struct set *perhaps_twin(const struct set *s) {
    const int small = s->n <= SMALL && s->model.heads_length <= 4 * SMALL;
    return s->own && s->named && (small || below(500) == 0) ? twin_of(s) : NULL;
}

void same_left(struct set *s, struct set *twin) {
    take_over(twin);
    same_bytes("the image, after the other family", twin->image, s->image, s->length);
    same_bytes("heads, after the other family", twin->heads, s->heads, 4 * s->model.heads_length);
    same_bytes("next, after the other family", twin->next, s->next, 4 * s->model.next_length);
    same_bytes("the state, after the other family", twin->state, s->state, 4 * ORDERSET_RAW_STATE);
    same_number("the version, after the other family", twin->version[0], s->version[0]);
    compare_all(twin);
    both++;
    close_set(twin);
}

void after_change(struct set *s, unsigned answered) {
    own_calls += (uint64_t)owner;
    if (answered != DONE)
        return;
    s->own &= by_document(s);
    s->named = 1;
}

/* The same by the other family, from what was lent. */
static void change_too(struct set *s, struct set *twin, const struct request *r, uint64_t code, const uint64_t *answer,
                       uint64_t *answer_lent) {
    owner = !owner;
    same_number("what the other family returned", archive_change(twin, r, answer_lent), code);
    same_bytes("the other family's answer", answer_lent, answer, 8 * ORDERSET_PROVED_CHANGE_ANSWER);
    same_bytes("the other family's word numbers", twin->at, s->at, 4 * ORDERSET_STORES);
    same_bytes("the other family's values", twin->value, s->value, 8 * ORDERSET_STORES);
    same_left(s, twin);
}

unsigned try_change(struct set *s, const struct request *r) {
    struct set *twin = perhaps_twin(s);
    uint64_t answer[ORDERSET_PROVED_CHANGE_ANSWER], answer_lent[ORDERSET_PROVED_CHANGE_ANSWER],
        value_lent[ORDERSET_STORES];
    uint32_t at_lent[ORDERSET_STORES];
    fill(answer_lent, sizeof answer_lent);
    memcpy(answer, answer_lent, sizeof answer);
    fill(at_lent, sizeof at_lent);
    fill(value_lent, sizeof value_lent);
    memcpy(s->at, at_lent, sizeof at_lent);
    memcpy(s->value, value_lent, sizeof value_lent);
    if (twin) {
        memcpy(twin->at, at_lent, sizeof at_lent);
        memcpy(twin->value, value_lent, sizeof value_lent);
    }
    begin(s, r->which, r->key, r->which == INSERT || r->which == REPLACE ? r->size : r->quantity, 0, 0);
    owner = any_family();
    uint64_t code = archive_change(s, r, answer);
    struct m_change c = model_change(s, r);
    unsigned answered = compare_change(s, code, answer, answer_lent, at_lent, value_lent, c);
    after_change(s, answered);
    if (twin)
        change_too(s, twin, r, code, answer, answer_lent);
    return answered;
}

unsigned try_locate(struct set *s, m_key key) {
    uint64_t answer[ORDERSET_PROVED_CHANGE_ANSWER], expected[ORDERSET_PROVED_CHANGE_ANSWER];
    fill(answer, sizeof answer);
    memcpy(expected, answer, sizeof answer);
    begin(s, LOCATE, key, 0, 0, 0);
    uint64_t code = SET(locate)(s->image, s->length, s->heads, s->model.heads_length, s->next, s->model.next_length,
                                KEY(key), answer);
    struct m_place place = m_locate(s->model_image, s->length, &s->model, key);
    if (!place.refusal) {
        expected[0] = place.absent ? ORDERSET_RAW_ABSENT : ORDERSET_RAW_DONE;
        expected[ORDERSET_PROVED_SLOT] = place.slot;
        expected[ORDERSET_PROVED_VERSION] = place.version;
        expected[ORDERSET_PROVED_COMPARED] = place.compared;
    }
    unsigned answered = same_report(code, place.refusal, place.absent ? ABSENT : DONE, answer[ORDERSET_PROVED_COMPARED],
                                    place.compared);
    same_bytes("the answer", answer, expected, sizeof answer);
    compare(s);
    return answered;
}

unsigned try_get(struct set *s, m_key key, uint8_t *out, size_t room) {
    uint64_t answer[ORDERSET_PROVED_GET_ANSWER], expected[ORDERSET_PROVED_GET_ANSWER];
    uint8_t *lent = lend(room), *model_out = lend(room);
    fill(answer, sizeof answer);
    memcpy(expected, answer, sizeof answer);
    memcpy(lent, out, room);
    memcpy(model_out, out, room);
    begin(s, GET, key, room, 0, 0);
    uint64_t code = SET(get)(s->image, s->length, s->heads, s->model.heads_length, s->next, s->model.next_length,
                             KEY(key), lent, room, answer);
    struct m_got got = m_get(s->model_image, s->length, &s->model, key, model_out, room);
    if (!got.refusal) {
        expected[0] = !got.absent;
        expected[ORDERSET_PROVED_LENGTH] = got.length;
        expected[ORDERSET_PROVED_GET_COMPARED] = got.compared;
    }
    same_report(code, got.refusal, got.absent ? ABSENT : DONE, answer[ORDERSET_PROVED_GET_COMPARED], got.compared);
    same_bytes("the answer", answer, expected, sizeof answer);
    same_bytes("the output", lent, model_out, room);
    if (!guarded(lent, room))
        differ("outside the output");
    memcpy(out, lent, room);
    give_back(lent);
    give_back(model_out);
    compare(s);
    return code ? ORDERSET_PROVED_REFUSAL(code) : answer[0] ? 200 + (unsigned)answer[ORDERSET_PROVED_LENGTH] : ABSENT;
}

int try_play(struct set *s, size_t a, size_t b) {
    begin(s, PLAY, 0, 0, a, b);
    uint32_t code = orderset_proved_play(s->image, s->length, s->at, s->value, a, b);
    int refusal = m_play(s->model_image, s->length, s->at, s->value, a, b);
    same_code(code, refusal, DONE);
    compare(s);
    return refusal;
}

void try_play_list(struct set *s, const uint32_t *at, size_t places, const uint64_t *value, size_t values) {
    begin(s, PLAY_LIST, 0, 0, places, values);
    uint32_t code = orderset_proved_play_list(s->image, s->length, at, places, value, values);
    same_code(code, m_play_list(s->model_image, s->length, at, places, value, values), DONE);
    compare(s);
}
