/* The memory of one card: all that the library is lent. The console owns it, as the dispenser's program does. */
#ifndef DESK_CARD_H
#define DESK_CARD_H

#include "pagunlit_card.h"
#include "say.h"

/* What was accepted since the state was saved: what the rule for saving goes by (docs/C.md, "Saving and power cuts"). */
typedef struct {
    int unsaved;  /* the map or the catalogue is another */
    int released; /* a release or a fresh */
    int closed;   /* a closing, or a load of another image than the last one saved */
    int cut;      /* the power was cut, and no closing was accepted since: saving does not end this */
} desk_saving;

typedef struct {
    pagunlit_card lent;
    uint32_t *summary; /* its memory, which is there also while the calls are lent none */
    uint8_t *seen;     /* the card's bytes as the last command left them, so that undo knows what they were */
    int broken;        /* something was damaged on purpose */
    desk_saving saving;
} desk_card;

/* A card of `blocks` blocks and `sheets` sheets whose memory is all zeros. 0 if there is not enough memory. Where a number is
 * above the library's limit, the memory is cut: the library has to refuse such a card, and it has to be asked. */
int card_make(desk_card *card, uint32_t blocks, uint32_t sheets);

/* A copy of all but the card's bytes: those may be long, and are kept block by block. 0 if there is not enough memory. */
int card_copy(desk_card *copy, const desk_card *card);

void card_free(desk_card *card);

/* The limits, the role and what else was set by a command goes with the next card. */
void card_settings(desk_card *card, const desk_card *from);

/* From now on the calls that have a form with a summary are made in that form, or not. */
void card_lend_summary(desk_card *card, int lent);
int card_lends_summary(const desk_card *card);

/* Builds or checks the summary in its memory, whether the calls are lent it or not. */
pagunlit_outcome card_summary(const desk_card *card, pagunlit_outcome (*call)(pagunlit_card *));

/* How many blocks the memory is for. Drawing goes by this, and not by the shape, which may be damaged. */
uint32_t card_blocks(const desk_card *card);

int card_is_free(const desk_card *card, uint32_t block);
int card_is_blank(const desk_card *card, uint32_t block);

/* The bytes of the block of a place, or NULL where the entry has no such block on the card. */
const uint8_t *card_place(const desk_card *card, uint32_t sheet, uint32_t place);

#endif
