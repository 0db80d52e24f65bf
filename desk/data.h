/* The parts of `data`, which prints for programs. */
#ifndef DESK_DATA_H
#define DESK_DATA_H

#include "desk.h"

/* A text in quotation marks. */
void data_text(const char *text);

/* offers.c: every command with its arguments, the rows that can refuse it and the roles that may make it. */
void data_commands(void);

/* changes.c: the blocks and the sheets that the last step changed. */
void data_changes(const desk *d);

/* view.c: the card, or a part of it, as an SVG that fits a width, with where a block stands in it. */
void data_picture(desk *d, const desk_words *words);

/* What the looks mean, as an SVG. */
void data_legend(void);

#endif
