/* tool.h: what the subcommands of orderset have in common. They are linked with the objects of the handles, whose
 * internal header they use: what the library does with files is there once. */
#ifndef TOOL_H
#define TOOL_H

#include <stdio.h>

#include "internal.h"

/* ---- subcommands: a file for each */

/* exit status: all is well; there is something to see to; it could not be done */
enum { TOOL_GOOD = 0, TOOL_FOUND = 1, TOOL_FAILED = 2 };

struct subcommand {
    const char *name, *summary, *help;
    int (*run)(int count, char **word); /* word: what follows the subcommand; gives the status */
};

extern const struct subcommand create_command, create_log_command, show_command, check_command, log_command,
    copy_command, dump_command, load_command, trace_command;

/* ---- arguments: tool.c */

struct option {
    const char *name;
    enum { FLAG, NUMBER, OCTAL, NAME, MAYBE_NUMBER } kind;
    int *given; /* set to 1 */
    uint64_t
        *number; /* a number from least to most, in decimal or, of OCTAL, in octal digits; 0 where it is left out */
    const char **name_to; /* of NAME */
    uint64_t least, most;
};

/* Reads the options, up to the one without a name; word then begins with the others, of which it gives the number. Ends
 * where an option is not one of these, or there are fewer than least or more than most others. */
int tool_arguments(int count, char **word, const struct option *options, int least, int most);

/* ---- what is said: tool.c */

/* "orderset" and the subcommand. */
extern const char *tool_name;

/* A line on standard error that begins with the name of the tool; tool_fail ends with TOOL_FAILED, and tool_usage with
 * TOOL_FAILED and where help is. */
void tool_say(const char *words, ...) __attribute__((format(printf, 1, 2)));
_Noreturn void tool_fail(const char *words, ...) __attribute__((format(printf, 1, 2)));
_Noreturn void tool_usage(const char *words, ...) __attribute__((format(printf, 1, 2)));

/* Why a call on a path was refused, in one line, with errno of ORDERSET_ERRNO. */
void tool_say_number(const char *path, uint32_t number);

/* All that was printed has reached its reader; else the program ends. */
void tool_printed(FILE *out, const char *name);

/* Memory, or the program ends. */
void *tool_memory(size_t count, size_t size);

/* Of a step that takes over a second, standard error tells each second how far it is: what, and tool_done, of all
 * where that is not 0. what is kept. tool_rest ends it. */
void tool_step(const char *what, uint32_t all);
extern volatile uint32_t tool_done;
void tool_rest(void);

/* ---- a file: open.c */

/* A file that was read once, under a shared lock or by a live look, and what was found of it: all that is said is of
 * that copy. */
struct tool {
    const char *path;
    struct area area; /* its bytes; null where there are none, or more than a set or a log can have */
    struct orderset *set;
    struct orderset_statistics is;
    uint64_t unknown; /* whole records of a refused file */
};

/* Reads the bytes alone; says why not and gives TOOL_FAILED where it cannot be read. */
int tool_read(struct tool *d, const char *path, int live);

/* The set in these bytes, by INSPECT: also one that recovery refuses. */
void tool_set(struct tool *d);

/* Both, for a subcommand of one file: ends where it cannot be read. tool_open_good also ends where recovery refuses it.
 */
void tool_open(struct tool *d, const char *path, int live);
void tool_open_good(struct tool *d, const char *path, int live);
void tool_close(struct tool *d);

/* Says on standard error that recovery refuses the file, and where the file is a message log, that it is one. */
void tool_say_refused(const struct tool *d);

/* The message log in the bytes, or null where they are none. */
struct orderset_log *tool_log(const struct tool *d);

/* A slot, 1 to N. */
void tool_slot(struct tool *d, uint32_t slot, struct orderset_record *record);

/* ---- faults.c */

/* Of a file that recovery refuses the line of the verdict, and below it where the fault is and what to do. */
void print_refused(struct tool *d);

/* ---- keys, values and slots in words: words.c */

/* What a slot may hold: as orderset_slot_class. */
enum { TOOL_CLASSES = ORDERSET_SLOT_UNKNOWN + 1 };
extern const char *const tool_class[TOOL_CLASSES];

/* A key, in layout 1 in decimal digits, in layout 2 in 32 hexadecimal digits; and a key that is written in either way:
 * whether it is one. */
void tool_print_key(FILE *out, uint32_t layout, struct orderset_key key);
int tool_read_key(const char *word, struct orderset_key *key);

/* A whole number of 64 bits in decimal digits: whether it is one. */
int tool_read_number(const char *word, uint64_t *number);

/* A value: an order of the book in words, any other by its length and its bytes in hexadecimal digits; and such a value
 * with its length: whether it is one. */
void tool_print_value(FILE *out, const struct orderset_record *record);
int tool_read_value(const char *text, struct orderset_record *record);

/* A slot on one line, without its end. */
void tool_print_slot(FILE *out, uint32_t layout, const struct orderset_record *record);

/* Of JSON: a text in quotes; bytes in hexadecimal digits and quotes; and the members of a key and of its value. */
void tool_json_text(FILE *out, const char *text);
void tool_json_bytes(FILE *out, const uint8_t *bytes, size_t length);
void tool_json_order(FILE *out, uint32_t layout, const struct orderset_record *record);

/* ---- pictures, in SVG: picture.c, cuts.c and svg.c */

/* The first bytes of every picture: a file that has them is one of ours. */
extern const char picture_begins[];

/* Whether a picture may get the name, which is - for standard output; else the program ends. path: the file of which it
 * is a picture. */
void tool_test_picture(const char *svg, const char *path);

/* Draws the picture and gives it its name: whole or not at all. */
void tool_keep_picture(const char *svg, const char *path, void (*draw)(void *of, FILE *out), void *of);

void svg_begin(FILE *out, uint32_t width, uint32_t height);
void svg_text(FILE *out, uint32_t x, uint32_t y, const char *attributes, const char *text);
void svg_escaped(FILE *out, const char *text);

/* A square for each slot by what it holds, with a legend and the numbers of the file. */
void draw_picture(struct tool *d, FILE *out);

/* ---- cuts of calls: cuts.c */

/* What recovery makes of an image that a cut leaves. */
enum cut { CUT_BEFORE, CUT_AFTER, CUT_SAME, CUT_NEITHER, CUT_REFUSED, CUT_KINDS };
enum { CUT_SIDE = ORDERSET_LINE_STORES + 1, CUTS = CUT_SIDE * CUT_SIDE };

/* The cuts of a call's record: a square for each pair of stores that stand in its two lines. */
struct cuts {
    uint64_t line; /* of the trace */
    char *call;
    uint8_t cut[CUTS]; /* enum cut, that of a and b at CUT_SIDE * a + b */
};

/* Tries the cuts of the stores, each with those of the record's two lines that stand and all others made: record 0 to
 * records - 1 of the stores, 16 for each. set is the set before the call, with its index. */
void try_cuts(const struct orderset_raw *set, const uint32_t *at, const uint64_t *value, size_t records, size_t record,
              struct cuts *found);

/* How many of them are of a kind. */
unsigned count_cut(const struct cuts *c, enum cut kind);

/* A picture of the cuts of calls. */
struct drawn_cuts {
    const char *path;
    const struct cuts *cuts;
    size_t count;
};
void draw_cuts(void *drawn, FILE *out);

#endif
