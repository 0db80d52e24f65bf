/* The card as text: a letter to a block, or to a group of blocks where the card is large. */
#ifndef DESK_DRAW_H
#define DESK_DRAW_H

#include "card.h"

/* A run of blocks that are all free, or all held by the same sheet. */
typedef struct {
    uint32_t start, length;
    int32_t sheet; /* or one of those below */
} desk_run;

enum {
    RUN_FREE = -1,
    RUN_LOST = -2,  /* taken, and no sheet holds it */
    RUN_TWICE = -3, /* two sheets hold it */
    RUN_LEAK = -4   /* a sheet holds it, and it is free in the map */
};

/* The runs of a card from its first block to its last. The caller frees them; NULL if there is not enough memory. */
desk_run *draw_runs(const desk_card *card, size_t *count);

/* The letter of a sheet or of one of the numbers above. */
char draw_letter(int32_t sheet);

/* The card in `cells` letters at most, one to a block where that is enough. The text is cells + 1 bytes long. */
void draw_line(const desk_card *card, char *text, uint32_t cells);

/* The card as a grid with the numbers of its blocks, what the letters mean, and its sheets. */
void draw_grid(desk_card *card);

/* How many lines the list of sheets may have. */
enum { DESK_LISTED = 24 };

const char *draw_standing(uint32_t mark);

#endif
