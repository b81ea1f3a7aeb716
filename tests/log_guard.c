/* The log's calls on lent memory that begins or ends at a page which nobody may touch (pieces.h). What a refused call
 * was lent is compared with what it was, and so are the entries of the lists past the stores. Areas are sound, damaged
 * and garbage; lengths are right and wrong.
 *
 *     log_guard [SEED [CALLS]]
 */
#include <inttypes.h>
#include <stdio.h>
#include <stdlib.h>
#include <string.h>

#include "chance.h"
#include "log_areas.h"
#include "log_model.h"
#include "model.h"
#include "orderset_raw.h"
#include "pieces.h"

enum { CALLS = 3000000, WORD = 8, NUMBER = 4 };
enum which { APPEND, AFTER, RECOVER, READ, WHICH };
static uint64_t answers[WHICH][2]; /* [0] not refused, [1] refused */

enum what { AREA, MESSAGE, AT, VALUE, ANSWER, PIECES };

struct piece piece[PIECES] = {
    {"area", 110 * PAGE, NULL, NULL, NULL, 0, 0}, {"message", PAGE, NULL, NULL, NULL, 0, 0},
    {"at", 2 * PAGE, NULL, NULL, NULL, 0, 0},     {"value", 3 * PAGE, NULL, NULL, NULL, 0, 0},
    {"answer", PAGE, NULL, NULL, NULL, 0, 0},
};

const int pieces = PIECES;

static void wrong(const char *what, uint64_t number) {
    show("%s %" PRIu64, what, number);
    exit(1);
}

static uint64_t answered(size_t i) {
    uint64_t answer[ORDERSET_PROVED_LOG_ANSWER];
    memcpy(answer, w(ANSWER), sizeof answer);
    return answer[i];
}

static uint32_t end(enum which which, uint32_t code, const int *writable) {
    end_call(code != 0, writable);
    answers[which][code != 0]++;
    return code;
}

/* ---- the calls */

static const int handing[] = {AT, VALUE, ANSWER, NONE};

/* The stores are to words of the area, and the entries past them are kept. */
static void handed_out(void) {
    uint64_t count = answered(ORDERSET_PROVED_LOG_COUNT);
    if (count > piece[AT].length / NUMBER || count > piece[VALUE].length / WORD)
        wrong("a count above the lists:", count);
    same(&piece[AT], piece[AT].at + NUMBER * count, piece[AT].at + piece[AT].length, "past the stores");
    same(&piece[VALUE], piece[VALUE].at + WORD * count, piece[VALUE].at + piece[VALUE].length, "past the stores");
    for (uint64_t i = 0; i < count; i++)
        if (((const uint32_t *)r(AT))[i] >= piece[AREA].length / WORD)
            wrong("a store outside the area: store", i);
}

static uint32_t call_append(void) {
    begin_call("append", handing);
    return end(APPEND,
               orderset_proved_log_append(r(AREA), piece[AREA].length, r(MESSAGE), piece[MESSAGE].length, w(AT),
                                          piece[AT].length / NUMBER, w(VALUE), piece[VALUE].length / WORD, w(ANSWER)),
               handing);
}

static uint32_t call_append_after(void) {
    const uint64_t last = any_last(r(AREA), m_cells(piece[AREA].length));
    begin_call("append_after", handing);
    return end(AFTER,
               orderset_proved_log_append_after(r(AREA), piece[AREA].length, last, r(MESSAGE), piece[MESSAGE].length,
                                                w(AT), piece[AT].length / NUMBER, w(VALUE), piece[VALUE].length / WORD,
                                                w(ANSWER)),
               handing);
}

static uint32_t call_recover(void) {
    begin_call("recover", handing);
    return end(RECOVER,
               orderset_proved_log_recover(r(AREA), piece[AREA].length, w(AT), piece[AT].length / NUMBER, w(VALUE),
                                           piece[VALUE].length / WORD, w(ANSWER)),
               handing);
}

static void call_read(uint64_t number) {
    static const int writable[] = {ANSWER, NONE};
    begin_call("read", writable);
    if (end(READ, orderset_proved_log_read(r(AREA), piece[AREA].length, number, w(ANSWER)), writable))
        return;
    uint64_t offset = answered(ORDERSET_PROVED_LOG_OFFSET), bytes = answered(ORDERSET_PROVED_LOG_LENGTH);
    if (bytes < 1 || bytes > ORDERSET_LOG_MESSAGE_MAX || offset > piece[AREA].length - bytes)
        wrong("a part outside the area, of length", bytes);
}

/* ---- sessions: an area, and some calls on it */

static void make_area(void) {
    place(AREA, any_area_length(any_cells()));
    uint8_t *area = w(AREA);
    size_t cells = m_cells(piece[AREA].length);
    if (!cells || below(8) == 0)
        fill(area, piece[AREA].length);
    else if (below(2))
        any_area(area, cells);
    else
        memset(area, 0, piece[AREA].length);
    for (uint64_t faults = cells ? below(3) : 0; faults > 0; faults--)
        damage_area(area, cells);
}

/* Lists that are mostly long enough. */
static void lend_lists(size_t needed) {
    place(AT, NUMBER * (below(8) ? needed + below(3) : below(needed + 1)));
    place(VALUE, WORD * (below(8) ? needed + below(3) : below(needed + 1)));
    place(ANSWER, WORD * ORDERSET_PROVED_LOG_ANSWER);
    fill(w(AT), piece[AT].length);
    fill(w(VALUE), piece[VALUE].length);
    fill(w(ANSWER), piece[ANSWER].length);
}

static void make_stores(void) {
    uint64_t count = answered(ORDERSET_PROVED_LOG_COUNT), some = below(3);
    for (uint64_t i = 0; i < count; i++)
        if (some == 0 || below(some + 1))
            m_set_word(w(AREA), ((const uint32_t *)r(AT))[i], ((const uint64_t *)r(VALUE))[i]);
}

static void any_call(void) {
    uint8_t message[LONGEST];
    size_t cells = m_cells(piece[AREA].length), size = any_message(w(AREA), cells, message);
    uint64_t kind = below(4);
    lend_lists(kind == 1 ? cells : ORDERSET_LOG_STORES);
    place(MESSAGE, size);
    memcpy(w(MESSAGE), message, size);
    if (kind == 0)
        call_read(any_number(w(AREA), cells));
    else if ((kind == 1 ? call_recover() : call_append()) == 0) {
        handed_out();
        make_stores();
    }
}

static void any_after(void) {
    uint8_t message[LONGEST];
    size_t size = any_message(w(AREA), m_cells(piece[AREA].length), message);
    lend_lists(ORDERSET_LOG_STORES);
    place(MESSAGE, size);
    memcpy(w(MESSAGE), message, size);
    if (call_append_after() == 0) {
        handed_out();
        make_stores();
    }
}

static int all_met(void) {
    for (int i = 0; i < WHICH; i++)
        if (answers[i][0] == 0 || answers[i][1] == 0)
            return 0;
    return 1;
}

int main(int count, char **word) {
    uint64_t wanted = count > 2 ? strtoull(word[2], NULL, 10) : CALLS, refused = 0;
    const uint64_t alone = wanted / 3 * 2; /* so many calls without append_after */
    begin_chance("log_guard", count > 1 ? word[1] : NULL);
    make_pieces();
    while (calls < wanted) {
        make_area();
        for (int k = 0; k < 24; k++) {
            any_call();
            for (int i = 0; calls >= alone && i < 2; i++)
                any_after();
        }
    }
    for (int i = 0; i < WHICH; i++)
        refused += answers[i][1];
    printf("%" PRIu64 " calls, %" PRIu64 " of them refused: no fault, nothing changed that may not be (%.0f s)\n",
           calls, refused, seconds());
    if (!all_met())
        printf("a function was always refused, or never\n");
    return !all_met();
}
