/* What the tools for the support desk have in common. */
#ifndef TOOL_H
#define TOOL_H

#include <stdio.h>

#include "orderset.h"

/* exit status */
enum { TOOL_GOOD = 0, TOOL_REFUSED = 1, TOOL_FAILED = 2 };

/* What a slot may hold: as orderset_slot_class. */
enum { TOOL_CLASSES = ORDERSET_SLOT_UNKNOWN + 1 };
extern const char *const tool_class[TOOL_CLASSES];

/* A file that was read once, under a shared lock, and what was found of it: all that is said is of that copy. */
struct tool {
    const char *tool, *path;
    uint8_t *bytes; /* null where there are more than a set or a log can have */
    char copy[32];  /* the name of the copy, for the handles */
    struct orderset *set;
    struct orderset_statistics is;
    uint64_t unknown; /* whole records of a refused file */
};

/* Says why on standard error and ends with TOOL_FAILED. */
_Noreturn void tool_fail(const char *tool, const char *words, ...) __attribute__((format(printf, 2, 3)));

/* Answers --help by the text and --version, and ends; any other option is one of the tool's. */
void tool_options(const char *tool, const char *help, int count, char **word);

/* Reads the file and opens the copy by INSPECT; ends where it cannot be read. */
void tool_open(struct tool *d, const char *tool, const char *path);

/* A slot, 1 to N. */
void tool_slot(struct tool *d, uint32_t slot, struct orderset_record *record);

/* Of a step that takes over a second, standard error tells each second how far it is: what, and where all is not 0
 * tool_done of all. what is kept. tool_rest ends it. */
void tool_step(const char *tool, const char *what, uint32_t all);
extern volatile uint32_t tool_done;
void tool_rest(void);

/* A key, in layout 1 in decimal digits, in layout 2 in 32 hexadecimal digits. */
void tool_print_key(FILE *out, uint32_t layout, struct orderset_key key);

/* A value: an order of the book in words, any other by its length and its bytes in hexadecimal digits. */
void tool_print_value(FILE *out, const struct orderset_record *record);

/* A slot on one line, without its end. */
void tool_print_slot(FILE *out, uint32_t layout, const struct orderset_record *record);

/* Says in words where the file, which is no set, can be read as a message log. */
void tool_print_log(FILE *out, const struct tool *d);

/* All that was printed has reached its reader; else the program ends. */
void tool_printed(const struct tool *d, FILE *out, const char *name);

#endif
