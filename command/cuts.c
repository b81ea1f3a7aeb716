/* What recovery makes of each cut of a call, and a picture of it. */
#define _GNU_SOURCE
#include "tool.h"

#include <inttypes.h>
#include <stdlib.h>
#include <string.h>

/* ---- cuts, by the raw calls */

/* An image with an index of its own, in which one cut after the other is made. */
static struct orderset_raw copy_of(const struct orderset_raw *set) {
    struct orderset_raw c = *set;
    c.image = tool_memory(1, set->image_length);
    c.heads = tool_memory(set->heads_length, sizeof *c.heads);
    c.next = tool_memory(set->next_length, sizeof *c.next);
    memcpy(c.image, set->image, set->image_length);
    return c;
}

static void free_copy(struct orderset_raw *c) {
    free(c->image);
    free(c->heads);
    free(c->next);
}

/* Whether a slot of the image has the value of a held key; then *key is that key. */
static int is_live(const struct orderset_raw *set, size_t slot, struct orderset_key *key) {
    struct orderset_raw_place found;
    uint64_t word[2];
    memcpy(word, set->image + slot * ORDERSET_SLOT_BYTES + 8, sizeof word);
    *key = (struct orderset_key){word[0], set->layout == ORDERSET_LAYOUT_2 ? word[1] : 0};
    return orderset_raw_locate(set, *key, &found) == ORDERSET_OK && found.outcome == ORDERSET_RAW_DONE
           && found.slot == slot;
}

static int same_value(const struct orderset_raw *x, const struct orderset_raw *y, struct orderset_key key) {
    uint8_t of_x[ORDERSET_VALUE_MAX], of_y[ORDERSET_VALUE_MAX];
    struct orderset_raw_value found_x, found_y;
    return orderset_raw_get(x, key, of_x, sizeof of_x, &found_x) == ORDERSET_OK
           && orderset_raw_get(y, key, of_y, sizeof of_y, &found_y) == ORDERSET_OK
           && found_x.outcome == ORDERSET_RAW_DONE && found_y.outcome == ORDERSET_RAW_DONE
           && found_x.length == found_y.length && !memcmp(of_x, of_y, found_x.length);
}

/* As many keys, and each of x with the same value in y. */
static int is_same_map(const struct orderset_raw *x, const struct orderset_raw *y) {
    struct orderset_key key;
    if (x->state[ORDERSET_RAW_LIVE] != y->state[ORDERSET_RAW_LIVE])
        return 0;
    for (size_t slot = 1; slot < x->next_length; slot++)
        if (is_live(x, slot, &key) && !same_value(x, y, key))
            return 0;
    return 1;
}

/* The first so many stores of each line of the record, and all stores of the others. */
static void play(struct orderset_raw *c, const uint32_t *at, const uint64_t *value, size_t records, size_t record,
                 size_t a, size_t b) {
    for (size_t i = 0; i < records; i++) {
        const size_t from = ORDERSET_STORES * i, of_a = i == record ? a : ORDERSET_LINE_STORES,
                     of_b = i == record ? b : ORDERSET_LINE_STORES;
        if (orderset_raw_play_list(c->image, c->image_length, at + from, value + from, of_a)
            || orderset_raw_play_list(c->image, c->image_length, at + from + ORDERSET_LINE_STORES,
                                      value + from + ORDERSET_LINE_STORES, of_b))
            tool_fail("the stores of a call are refused");
    }
}

static enum cut kind_of(const struct orderset_raw *before, const struct orderset_raw *after, struct orderset_raw *c) {
    struct orderset_raw_recovery found;
    if (orderset_raw_recover(c, &found))
        return CUT_REFUSED;
    const int as_before = is_same_map(c, before), as_after = is_same_map(c, after);
    return as_before && as_after ? CUT_SAME : as_before ? CUT_BEFORE : as_after ? CUT_AFTER : CUT_NEITHER;
}

void try_cuts(const struct orderset_raw *set, const uint32_t *at, const uint64_t *value, size_t records, size_t record,
              struct cuts *found) {
    struct orderset_raw before = copy_of(set), after = copy_of(set), c = copy_of(set);
    struct orderset_raw_recovery recovery;
    play(&after, at, value, records, record, ORDERSET_LINE_STORES, ORDERSET_LINE_STORES);
    if (orderset_raw_recover(&before, &recovery) || orderset_raw_recover(&after, &recovery))
        tool_fail("recovery refuses the set before a call or after it: no %" PRIu32, recovery.refusal);
    for (size_t a = 0; a < CUT_SIDE; a++)
        for (size_t b = 0; b < CUT_SIDE; b++) {
            memcpy(c.image, set->image, set->image_length);
            play(&c, at, value, records, record, a, b);
            found->cut[CUT_SIDE * a + b] = (uint8_t)kind_of(&before, &after, &c);
        }
    free_copy(&before);
    free_copy(&after);
    free_copy(&c);
}

unsigned count_cut(const struct cuts *c, enum cut kind) {
    unsigned count = 0;
    for (size_t i = 0; i < CUTS; i++)
        count += c->cut[i] == kind;
    return count;
}

/* ---- a picture: for each call a square of 9 by 9, stores of line A downwards, of line B to the right */

enum { MARGIN = 24, LINE = 20, SQUARE = 12, SIDE = CUT_SIDE * SQUARE, ROW = SIDE + 64, COLUMN = 180, COLUMNS = 5 };

/* Told apart with each kind of colour blindness, and most of them in grey. */
static const struct look {
    const char *name, *fill, *meaning;
} look[CUT_KINDS] = {
    {"before", "#7cc4f2", "the orders from before the call: it is wholly absent"},
    {"after", "#0060a8", "the orders from after the call: it is wholly there"},
    {"same", "#8a8a8a", "both, as the call changes no order"},
    {"neither", "#f2c200", "other orders: a cut lost or halved something"},
    {"refused", "#c8400a", "recovery refuses what the cut left"},
};

static void draw_call(FILE *out, const struct cuts *c, uint32_t x, uint32_t y) {
    char text[60];
    snprintf(text, sizeof text, "line %" PRIu64, c->line);
    svg_text(out, x, y + 12, " font-size=\"12\" font-weight=\"bold\"", text);
    snprintf(text, sizeof text, "%.24s", c->call);
    svg_text(out, x, y + 28, " font-size=\"12\"", text);
    fputs("<g>\n<title>", out);
    svg_escaped(out, c->call);
    fputs("</title>\n", out);
    for (size_t i = 0; i < CUTS; i++)
        fprintf(out,
                "<rect class=\"%s\" x=\"%" PRIu32 "\" y=\"%" PRIu32 "\" width=\"%d\" height=\"%d\" fill=\"%s\"/>\n",
                look[c->cut[i]].name, x + (uint32_t)(i % CUT_SIDE) * SQUARE, y + 36 + (uint32_t)(i / CUT_SIDE) * SQUARE,
                SQUARE - 1, SQUARE - 1, look[c->cut[i]].fill);
    fputs("</g>\n", out);
}

void draw_cuts(void *drawn, FILE *out) {
    const struct drawn_cuts *d = drawn;
    const char *slash = strrchr(d->path, '/');
    const uint32_t top = MARGIN + 40 + CUT_KINDS * LINE + 24, rows = (uint32_t)((d->count + COLUMNS - 1) / COLUMNS);
    uint32_t y = MARGIN + 14;
    svg_begin(out, 2 * MARGIN + COLUMNS * COLUMN, top + rows * ROW + MARGIN);
    svg_text(out, MARGIN, y, " font-size=\"18\" font-weight=\"bold\"", slash ? slash + 1 : d->path);
    svg_text(
        out, MARGIN, y += 24, "",
        "What recovery finds after each cut: downwards the stores of line A that stand, 0 to 8, to the right those "
        "of line B");
    for (int i = 0; i < CUT_KINDS; i++) {
        y += LINE;
        fprintf(out, "<path d=\"M%d %" PRIu32 "h13v13h-13z\" fill=\"%s\"/>\n", MARGIN, y - 11, look[i].fill);
        svg_text(out, MARGIN + 22, y, " font-weight=\"bold\"", look[i].name);
        svg_text(out, MARGIN + 100, y, "", look[i].meaning);
    }
    tool_step("calls drawn", (uint32_t)d->count);
    for (size_t i = 0; i < d->count; i++, tool_done = (uint32_t)i)
        draw_call(out, &d->cuts[i], MARGIN + (uint32_t)(i % COLUMNS) * COLUMN, top + (uint32_t)(i / COLUMNS) * ROW);
    tool_rest();
    fputs("</svg>\n", out);
}
