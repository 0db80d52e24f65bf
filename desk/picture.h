/* The parts of a picture of the card: how large it is, and where a block stands in it. */
#ifndef DESK_PICTURE_H
#define DESK_PICTURE_H

#include "desk.h"
#include "draw.h"

#include <stdio.h>

/* The blocks from `from` on stand in rows of `columns`. Lengths are in pixels. */
typedef struct {
    FILE *file;
    uint32_t from, blocks, columns, rows;
    double unit, height, gap; /* of a block, of a row and between two */
    double left, top;
    double width, depth; /* of the whole picture */
} desk_picture;

/* What marks a run in the picture. */
typedef struct {
    const char *fill, *ink; /* the colour, and that of letters on it */
    const char *over;       /* a pattern above the colour, or NULL */
    int dashed, slanted;
} desk_look;

enum { PICTURE_LEGEND = 210 };

desk_look picture_look(const desk_card *card, int32_t sheet);
double picture_x(const desk_picture *p, uint32_t block);
double picture_y(const desk_picture *p, uint32_t block);

/* A rectangle that looks like a run. */
void picture_box(const desk_picture *p, double x, double y, double width, double height, desk_look look);

/* The beginning of a picture, with its patterns; the number of each row's first block; a run, row by row. */
void picture_open(const desk_picture *p, const char *more);
void picture_numbers(const desk_picture *p);
void picture_run(const desk_picture *p, const desk_card *card, const desk_run *run);

/* legend.c: what the looks mean, and the sheets of the card. */
void picture_legend(const desk_picture *p, desk_card *card);
void picture_meanings(const desk_picture *p, double y);

#endif
