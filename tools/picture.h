/* A picture of the slots of a set, in SVG. */
#ifndef PICTURE_H
#define PICTURE_H

#include "tool.h"

/* The first bytes of every picture: a file that has them is one of ours. */
extern const char picture_begins[];

/* A square for each slot by what it holds, with a legend and the numbers of the file. */
void draw_picture(struct tool *d, FILE *out);

#endif
