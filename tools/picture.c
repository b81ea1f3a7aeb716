#define _GNU_SOURCE
#include "picture.h"

#include <inttypes.h>
#include <stdlib.h>
#include <string.h>

enum { MARGIN = 24, LABELS = 52, LINE = 20, WIDTH = 720, TITLED = 4096, LETTERED = 16, NUMBERED = 40, RINGS = 9 };

const char picture_begins[] =
    "<?xml version=\"1.0\" encoding=\"UTF-8\"?>\n<!-- orderset-show: the slots of a set -->\n";

/* Told apart with each kind of colour blindness (a distance of 30 or more in CIE L*a*b*), and most of them in grey. */
static const struct look {
    const char *fill, *text, *letter, *meaning;
} look[TOOL_CLASSES] = {
    {"#0060a8", "#ffffff", "L", "the value of a held key: an open order"},
    {"#7cc4f2", "#000000", "H", "a value that a later record of its key hides; spare"},
    {"#8a8a8a", "#000000", "R", "a record that its key was removed; spare"},
    {"#f2c200", "#000000", "V", "of a basket that a cut struck; the next start that writes opens it; spare"},
    {"#c8400a", "#ffffff", "B", "a cut struck the call that wrote it: no error; spare, and used next"},
    {"#e6e6e6", "#000000", "", "not used yet; spare"},
    {"#2a0a3c", "#ffffff", "U", "a whole record of a file that recovery refuses"},
};

struct grid {
    uint32_t columns, pitch, left, top;
};

/* Columns in round numbers, so that the number of a slot is found from the label of its row. */
static struct grid grid_for(uint32_t slots) {
    static const struct grid grids[] = {{10, 60, 0, 0}, {20, 32, 0, 0}, {50, 16, 0, 0}, {100, 9, 0, 0}, {250, 4, 0, 0}};
    size_t i = 0;
    while (i + 1 < sizeof grids / sizeof *grids && grids[i].columns * grids[i].columns < slots)
        i++;
    struct grid grid = grids[i];
    grid.left = MARGIN + LABELS;
    return grid;
}

static void put_escaped(FILE *out, const char *text) {
    for (; *text; text++) {
        const unsigned char byte = (unsigned char)*text;
        if (byte == '&' || byte == '<' || byte == '>')
            fprintf(out, "&#%u;", (unsigned)byte);
        else
            fputc(byte < ' ' || byte > '~' ? '?' : byte, out);
    }
}

static void put_text(FILE *out, uint32_t x, uint32_t y, const char *attributes, const char *text) {
    fprintf(out, "<text x=\"%" PRIu32 "\" y=\"%" PRIu32 "\"%s>", x, y, attributes);
    put_escaped(out, text);
    fputs("</text>\n", out);
}

/* The name of the file, the numbers of its header, and what recovery refuses. Answers where they end. */
static uint32_t draw_numbers(const struct tool *d, FILE *out) {
    const char *slash = strrchr(d->path, '/');
    char line[400];
    uint32_t y = MARGIN + 14;
    put_text(out, MARGIN, y, " font-size=\"18\" font-weight=\"bold\"", slash ? slash + 1 : d->path);
    int used = snprintf(line, sizeof line, "layout %" PRIu32 "   N %" PRIu32 "   %" PRIu64 " bytes", d->is.layout,
                        d->is.slots, d->is.bytes);
    if (!d->is.refusal)
        snprintf(line + used, sizeof line - (size_t)used,
                 "   live %" PRIu32 "   spare %" PRIu32 "   next version %" PRIu64, d->is.live, d->is.spare,
                 d->is.next_version);
    put_text(out, MARGIN, y += 24, " xml:space=\"preserve\"", line);
    if (d->is.refusal) {
        snprintf(line, sizeof line,
                 d->is.fault_slot ? "Recovery refuses it: no %" PRIu32 ", slot %" PRIu32 ":"
                                  : "Recovery refuses it: no %" PRIu32 ":",
                 d->is.refusal, d->is.fault_slot);
        put_text(out, MARGIN, y += 24, " font-weight=\"bold\"", line);
        put_text(out, MARGIN, y += LINE, "", orderset_strerror(d->is.refusal));
    }
    return y;
}

/* A line for each class with its count. Answers where they end. */
static uint32_t draw_legend(const struct tool *d, FILE *out, uint32_t y) {
    char count[24];
    y += 12;
    for (uint32_t i = 0; i < TOOL_CLASSES; i++) {
        const uint64_t slots = i == ORDERSET_SLOT_UNKNOWN ? d->unknown : d->is.count[i];
        if (i == ORDERSET_SLOT_UNKNOWN && !slots)
            break;
        y += LINE;
        fprintf(out, "<path d=\"M%d %" PRIu32 "h13v13h-13z\" fill=\"%s\"/>\n", MARGIN, y - 11, look[i].fill);
        put_text(out, MARGIN + 22, y, " font-weight=\"bold\"", tool_class[i]);
        snprintf(count, sizeof count, "%" PRIu64, slots);
        put_text(out, MARGIN + 140, y, " text-anchor=\"end\"", count);
        put_text(out, MARGIN + 156, y, "", look[i].meaning);
    }
    return y;
}

static void put_title(FILE *out, uint32_t layout, const struct orderset_record *record) {
    char *text = NULL;
    size_t length;
    FILE *memory = open_memstream(&text, &length);
    if (memory)
        tool_print_slot(memory, layout, record);
    if (memory && fclose(memory) == 0) {
        fputs("<title>", out);
        put_escaped(out, text);
        fputs("</title>", out);
    }
    free(text);
}

/* The number of a slot and the letter of its class, where there is room for them. */
static void label_square(FILE *out, const struct grid *grid, const struct orderset_record *r, uint32_t x, uint32_t y) {
    const struct look *l = &look[r->slot_class];
    char attributes[100], number[12];
    const uint32_t size = grid->pitch / 2 < 20 ? grid->pitch / 2 : 20, middle = x + grid->pitch / 2 - 1;
    if (grid->pitch < LETTERED)
        return;
    snprintf(attributes, sizeof attributes, " font-size=\"%" PRIu32 "\" text-anchor=\"middle\" fill=\"%s\"", size,
             l->text);
    const uint32_t below = grid->pitch >= NUMBERED ? 7 : 0; /* the number of the slot */
    if (*l->letter)
        put_text(out, middle, y + grid->pitch / 2 + size / 3 + below, attributes, l->letter);
    if (grid->pitch < NUMBERED)
        return;
    snprintf(attributes, sizeof attributes, " font-size=\"12\" text-anchor=\"middle\" fill=\"%s\"", l->text);
    snprintf(number, sizeof number, "%" PRIu32, r->slot);
    put_text(out, middle, y + 16, attributes, number);
}

static void draw_slot(const struct tool *d, FILE *out, const struct grid *grid, const struct orderset_record *r) {
    const uint32_t x = grid->left + (r->slot - 1) % grid->columns * grid->pitch;
    const uint32_t y = grid->top + (r->slot - 1) / grid->columns * grid->pitch;
    const uint32_t gap = grid->pitch >= NUMBERED ? 3 : grid->pitch > 4 ? 1 : 0, side = grid->pitch - gap;
    fprintf(out,
            "<rect class=\"%s\" x=\"%" PRIu32 "\" y=\"%" PRIu32 "\" width=\"%" PRIu32 "\" height=\"%" PRIu32
            "\" fill=\"%s\"",
            tool_class[r->slot_class], x, y, side, side, look[r->slot_class].fill);
    if (r->fault || r->slot == d->is.fault_slot)
        fputs(" stroke=\"#ff00ff\" stroke-width=\"2\"", out);
    if (d->is.slots <= TITLED) {
        fputc('>', out);
        put_title(out, d->is.layout, r);
        fputs("</rect>\n", out);
    } else {
        fputs("/>\n", out);
    }
    label_square(out, grid, r, x, y);
}

/* Before a row, the number of its first slot; where rows are narrow, only before some of them. */
static void label_row(FILE *out, const struct grid *grid, uint32_t slot) {
    const uint32_t row = (slot - 1) / grid->columns, every = grid->pitch < 14 ? 40 / grid->pitch : 1;
    char number[12];
    if ((slot - 1) % grid->columns || row % every)
        return;
    snprintf(number, sizeof number, "%" PRIu32, slot);
    put_text(out, grid->left - 8, grid->top + row * grid->pitch + (grid->pitch + 9) / 2,
             " font-size=\"12\" text-anchor=\"end\"", number);
}

/* Whether a small square is found by a ring around it: where it is at fault, void or broken, and these are few. */
static int is_ringed(const struct tool *d, const struct grid *grid, const struct orderset_record *r) {
    const uint64_t few = d->is.count[ORDERSET_SLOT_VOID] + d->is.count[ORDERSET_SLOT_BROKEN];
    if (grid->pitch >= LETTERED)
        return 0;
    if (r->slot == d->is.fault_slot)
        return 1;
    return few < RINGS && (r->slot_class == ORDERSET_SLOT_VOID || r->slot_class == ORDERSET_SLOT_BROKEN);
}

static void draw_ring(FILE *out, const struct grid *grid, const struct orderset_record *r) {
    const uint32_t x = grid->left + (r->slot - 1) % grid->columns * grid->pitch + grid->pitch / 2;
    const uint32_t y = grid->top + (r->slot - 1) / grid->columns * grid->pitch + grid->pitch / 2;
    fprintf(out,
            "<circle cx=\"%" PRIu32 "\" cy=\"%" PRIu32 "\" r=\"9\" fill=\"none\" stroke=\"#ffffff\" "
            "stroke-width=\"5\"/>\n<circle cx=\"%" PRIu32 "\" cy=\"%" PRIu32 "\" r=\"9\" fill=\"none\" "
            "stroke=\"%s\" stroke-width=\"3\"/>\n",
            x, y, x, y, look[r->slot_class].fill);
}

static void draw_slots(struct tool *d, FILE *out, const struct grid *grid) {
    struct orderset_record record, ringed[RINGS];
    uint32_t rings = 0;
    tool_step(d->tool, "slots drawn", d->is.slots);
    for (uint32_t slot = 1; slot <= d->is.slots; slot++) {
        tool_slot(d, slot, &record);
        label_row(out, grid, slot);
        draw_slot(d, out, grid, &record);
        if (is_ringed(d, grid, &record) && rings < RINGS)
            ringed[rings++] = record;
    }
    for (uint32_t i = 0; i < rings; i++) /* above the squares */
        draw_ring(out, grid, &ringed[i]);
    tool_rest();
}

void draw_picture(struct tool *d, FILE *out) {
    struct grid grid = grid_for(d->is.slots);
    const uint32_t legend = ORDERSET_COUNTS + (d->unknown ? 1 : 0), above = d->is.refusal ? 2 : 0;
    grid.top = MARGIN + 14 + 24 + above * 22 + 12 + legend * LINE + 24;
    const uint32_t rows = (d->is.slots + grid.columns - 1) / grid.columns;
    const uint32_t wide = grid.left + grid.columns * grid.pitch + MARGIN, width = wide > WIDTH ? wide : WIDTH;
    const uint32_t height = grid.top + rows * grid.pitch + MARGIN;
    fputs(picture_begins, out);
    fprintf(out,
            "<svg xmlns=\"http://www.w3.org/2000/svg\" width=\"%" PRIu32 "\" height=\"%" PRIu32
            "\" viewBox=\"0 0 %" PRIu32 " %" PRIu32 "\" font-family=\"sans-serif\" font-size=\"14\">\n"
            "<path d=\"M0 0h%" PRIu32 "v%" PRIu32 "h-%" PRIu32 "z\" fill=\"#ffffff\"/>\n",
            width, height, width, height, width, height, width);
    draw_legend(d, out, draw_numbers(d, out));
    draw_slots(d, out, &grid);
    fputs("</svg>\n", out);
}
