/* Pagunlit: a card in one struct. It holds what the calls of pagunlit.h are lent, the role of who makes them, the limits of the
 * wings and the shape, and each function below makes the call of its name with the call's own arguments:
 *
 *     static uint64_t map[PAGUNLIT_MAP_WORDS(64)], scratch[PAGUNLIT_SCRATCH_WORDS(64)];
 *     static pagunlit_entry catalogue[8];
 *     static uint8_t bytes[64 * PAGUNLIT_BLOCK_BYTES];
 *     static pagunlit_card card;
 *
 *     card.role = PAGUNLIT_PHARMACIST;
 *     card.map = map, card.maplen = PAGUNLIT_MAP_WORDS(64);
 *     ..
 *     pagunlit_outcome made = pagunlit_card_fresh(&card, 64);
 *     if (pagunlit_card_save_before_blocks(&card))
 *         ..
 *     pagunlit_outcome reserved = pagunlit_card_reserve(&card, 0, 3);
 *
 * They decide nothing: number and values are the library's, and pagunlit.h says what each call does. They keep the shape that a
 * call hands back, and they remember what has to be saved first, so that an image that is loaded after a power cut goes with
 * what the card holds (docs/C.md, "A card in one struct"). pagunlit_card_save_first and pagunlit_card_save_before_blocks say
 * so: a program asks before its next call, and saves where the answer is 1. They stop no call.
 *
 * It is plain C99 and C++, with nothing to link but the library. */
#ifndef PAGUNLIT_CARD_H
#define PAGUNLIT_CARD_H

#include "pagunlit.h"

/* All pointers and lengths are the program's, as for the calls themselves. Where `summary` is not NULL, the calls that have a
 * form with a summary are made in that form. A program that does not share its card out calls pagunlit_card_no_limits. */
typedef struct {
    uint32_t role;
    pagunlit_shape shape;
    uint64_t *map;
    size_t maplen;
    pagunlit_entry *catalogue;
    size_t cataloguelen;
    uint8_t *card;
    size_t cardlen;
    uint64_t *scratch;
    size_t scratchlen;
    uint32_t *summary;
    size_t summarylen;
    uint32_t limits[PAGUNLIT_WINGS];
    uint32_t to_save; /* what the calls since the last save have brought about: one of the three below */
} pagunlit_card;

/* What has to be saved before what. */
enum { PAGUNLIT_SAVE_NOTHING = 0, PAGUNLIT_SAVE_BEFORE_BLOCKS = 1, PAGUNLIT_SAVE_FIRST = 2 };

/* 1 if an accepted closing, or a load, came since the last save: save before anything else. After a load of the image that was
 * saved last there is nothing to save: the program says so by pagunlit_card_saved. */
static inline int pagunlit_card_save_first(const pagunlit_card *card)
{
    return card->to_save == PAGUNLIT_SAVE_FIRST;
}

/* 1 if an accepted release or a fresh came since the last save: save before the next call that takes blocks, which are
 * reserve, placed reserve, accept and grow. 1 too where pagunlit_card_save_first gives 1. */
static inline int pagunlit_card_save_before_blocks(const pagunlit_card *card)
{
    return card->to_save != PAGUNLIT_SAVE_NOTHING;
}

/* The program says: the image of this state is stored where a power cut leaves it, because pagunlit_card_save has just
 * written it and it has reached the medium, or because it has just been loaded and was the last one saved. The two above then
 * give 0. */
static inline void pagunlit_card_saved(pagunlit_card *card)
{
    card->to_save = PAGUNLIT_SAVE_NOTHING;
}

/* No wing has a limit of its own. */
static inline void pagunlit_card_no_limits(pagunlit_card *card)
{
    for (int wing = 0; wing < PAGUNLIT_WINGS; wing++)
        card->limits[wing] = 0xFFFFFFFFu;
}

/* Keeps the shape, and what has to be saved after an accepted call. It is for the functions below. */
PAGUNLIT_USE_RESULT static inline pagunlit_outcome pagunlit_card_kept(pagunlit_card *card, pagunlit_outcome outcome,
    uint32_t to_save)
{
    card->shape = outcome.shape;
    if (outcome.number == PAGUNLIT_DONE && to_save > card->to_save)
        card->to_save = to_save;
    return outcome;
}

PAGUNLIT_USE_RESULT static inline pagunlit_outcome pagunlit_card_fresh(pagunlit_card *card, uint32_t blocks)
{
    return pagunlit_card_kept(card, pagunlit_fresh(card->role, card->shape, blocks, card->map, card->maplen, card->catalogue,
        card->cataloguelen), PAGUNLIT_SAVE_BEFORE_BLOCKS);
}

PAGUNLIT_USE_RESULT static inline pagunlit_outcome pagunlit_card_search(pagunlit_card *card, uint32_t k)
{
    return pagunlit_card_kept(card, pagunlit_search(card->role, card->shape, card->map, card->maplen, k),
        PAGUNLIT_SAVE_NOTHING);
}

PAGUNLIT_USE_RESULT static inline pagunlit_outcome pagunlit_card_survey(pagunlit_card *card)
{
    return pagunlit_card_kept(card, pagunlit_survey(card->role, card->shape, card->map, card->maplen),
        PAGUNLIT_SAVE_NOTHING);
}

PAGUNLIT_USE_RESULT static inline pagunlit_outcome pagunlit_card_reserve(pagunlit_card *card, uint32_t sheet,
    uint32_t count)
{
    if (card->summary)
        return pagunlit_card_kept(card, pagunlit_reserve_with_summary(card->role, card->shape, card->map, card->maplen,
            card->summary, card->summarylen, card->catalogue, card->cataloguelen, card->card, card->cardlen, card->limits,
            sheet, count), PAGUNLIT_SAVE_NOTHING);
    return pagunlit_card_kept(card, pagunlit_reserve(card->role, card->shape, card->map, card->maplen, card->catalogue,
        card->cataloguelen, card->card, card->cardlen, card->limits, sheet, count), PAGUNLIT_SAVE_NOTHING);
}

PAGUNLIT_USE_RESULT static inline pagunlit_outcome pagunlit_card_reserve_placed(pagunlit_card *card, uint32_t sheet,
    uint32_t count, uint32_t from, uint32_t before, uint32_t step)
{
    if (card->summary)
        return pagunlit_card_kept(card, pagunlit_reserve_placed_with_summary(card->role, card->shape, card->map,
            card->maplen, card->summary, card->summarylen, card->catalogue, card->cataloguelen, card->card, card->cardlen,
            card->limits, sheet, count, from, before, step), PAGUNLIT_SAVE_NOTHING);
    return pagunlit_card_kept(card, pagunlit_reserve_placed(card->role, card->shape, card->map, card->maplen,
        card->catalogue, card->cataloguelen, card->card, card->cardlen, card->limits, sheet, count, from, before, step),
        PAGUNLIT_SAVE_NOTHING);
}

PAGUNLIT_USE_RESULT static inline pagunlit_outcome pagunlit_card_offer(pagunlit_card *card, uint32_t sheet, uint32_t count)
{
    return pagunlit_card_kept(card, pagunlit_offer(card->role, card->shape, card->map, card->maplen, card->catalogue,
        card->cataloguelen, card->card, card->cardlen, card->limits, sheet, count), PAGUNLIT_SAVE_NOTHING);
}

PAGUNLIT_USE_RESULT static inline pagunlit_outcome pagunlit_card_accept(pagunlit_card *card, uint32_t sheet, uint32_t start,
    uint32_t count)
{
    if (card->summary)
        return pagunlit_card_kept(card, pagunlit_accept_with_summary(card->role, card->shape, card->map, card->maplen,
            card->summary, card->summarylen, card->catalogue, card->cataloguelen, card->card, card->cardlen, card->limits,
            sheet, start, count), PAGUNLIT_SAVE_NOTHING);
    return pagunlit_card_kept(card, pagunlit_accept(card->role, card->shape, card->map, card->maplen, card->catalogue,
        card->cataloguelen, card->card, card->cardlen, card->limits, sheet, start, count), PAGUNLIT_SAVE_NOTHING);
}

PAGUNLIT_USE_RESULT static inline pagunlit_outcome pagunlit_card_grow(pagunlit_card *card, uint32_t sheet, uint32_t count)
{
    if (card->summary)
        return pagunlit_card_kept(card, pagunlit_grow_with_summary(card->role, card->shape, card->map, card->maplen,
            card->summary, card->summarylen, card->catalogue, card->cataloguelen, card->card, card->cardlen, card->limits,
            sheet, count), PAGUNLIT_SAVE_NOTHING);
    return pagunlit_card_kept(card, pagunlit_grow(card->role, card->shape, card->map, card->maplen, card->catalogue,
        card->cataloguelen, card->card, card->cardlen, card->limits, sheet, count), PAGUNLIT_SAVE_NOTHING);
}

PAGUNLIT_USE_RESULT static inline pagunlit_outcome pagunlit_card_put(pagunlit_card *card, uint32_t sheet, uint32_t place,
    const uint8_t *payload, size_t payloadlen)
{
    return pagunlit_card_kept(card, pagunlit_put(card->role, card->shape, card->map, card->maplen, card->catalogue,
        card->cataloguelen, card->card, card->cardlen, sheet, place, payload, payloadlen), PAGUNLIT_SAVE_NOTHING);
}

PAGUNLIT_USE_RESULT static inline pagunlit_outcome pagunlit_card_complete(pagunlit_card *card, uint32_t sheet)
{
    return pagunlit_card_kept(card, pagunlit_complete(card->role, card->shape, card->map, card->maplen, card->catalogue,
        card->cataloguelen, card->card, card->cardlen, sheet), PAGUNLIT_SAVE_NOTHING);
}

PAGUNLIT_USE_RESULT static inline pagunlit_outcome pagunlit_card_pause(pagunlit_card *card, uint32_t sheet)
{
    return pagunlit_card_kept(card, pagunlit_pause(card->role, card->shape, card->map, card->maplen, card->catalogue,
        card->cataloguelen, sheet), PAGUNLIT_SAVE_NOTHING);
}

PAGUNLIT_USE_RESULT static inline pagunlit_outcome pagunlit_card_resume(pagunlit_card *card, uint32_t sheet)
{
    return pagunlit_card_kept(card, pagunlit_resume(card->role, card->shape, card->map, card->maplen, card->catalogue,
        card->cataloguelen, sheet), PAGUNLIT_SAVE_NOTHING);
}

PAGUNLIT_USE_RESULT static inline pagunlit_outcome pagunlit_card_release(pagunlit_card *card, uint32_t sheet)
{
    if (card->summary)
        return pagunlit_card_kept(card, pagunlit_release_with_summary(card->role, card->shape, card->map, card->maplen,
            card->summary, card->summarylen, card->catalogue, card->cataloguelen, sheet), PAGUNLIT_SAVE_BEFORE_BLOCKS);
    return pagunlit_card_kept(card, pagunlit_release(card->role, card->shape, card->map, card->maplen, card->catalogue,
        card->cataloguelen, sheet), PAGUNLIT_SAVE_BEFORE_BLOCKS);
}

PAGUNLIT_USE_RESULT static inline pagunlit_outcome pagunlit_card_standing(pagunlit_card *card, uint32_t sheet)
{
    return pagunlit_card_kept(card, pagunlit_standing(card->role, card->shape, card->map, card->maplen, card->catalogue,
        card->cataloguelen, sheet), PAGUNLIT_SAVE_NOTHING);
}

PAGUNLIT_USE_RESULT static inline pagunlit_outcome pagunlit_card_show(pagunlit_card *card, uint32_t sheet, uint32_t place,
    uint8_t *buffer, size_t bufferlen)
{
    return pagunlit_card_kept(card, pagunlit_show(card->role, card->shape, card->map, card->maplen, card->catalogue,
        card->cataloguelen, card->card, card->cardlen, sheet, place, buffer, bufferlen), PAGUNLIT_SAVE_NOTHING);
}

PAGUNLIT_USE_RESULT static inline pagunlit_outcome pagunlit_card_show_dated(pagunlit_card *card, uint32_t sheet,
    uint32_t place, uint32_t year, uint32_t month, uint32_t day, uint8_t *buffer, size_t bufferlen)
{
    return pagunlit_card_kept(card, pagunlit_show_dated(card->role, card->shape, card->map, card->maplen, card->catalogue,
        card->cataloguelen, card->card, card->cardlen, sheet, place, year, month, day, buffer, bufferlen),
        PAGUNLIT_SAVE_NOTHING);
}

/* These two are for a card that has a summary; it is built after fresh and after load. */
PAGUNLIT_USE_RESULT static inline pagunlit_outcome pagunlit_card_summary_build(pagunlit_card *card)
{
    return pagunlit_card_kept(card, pagunlit_summary_build(card->role, card->shape, card->map, card->maplen, card->summary,
        card->summarylen), PAGUNLIT_SAVE_NOTHING);
}

PAGUNLIT_USE_RESULT static inline pagunlit_outcome pagunlit_card_summary_check(pagunlit_card *card)
{
    return pagunlit_card_kept(card, pagunlit_summary_check(card->role, card->shape, card->map, card->maplen, card->summary,
        card->summarylen), PAGUNLIT_SAVE_NOTHING);
}

/* The image is saved once the program has stored it: then it calls pagunlit_card_saved. */
PAGUNLIT_USE_RESULT static inline pagunlit_outcome pagunlit_card_save(pagunlit_card *card, uint8_t *image, size_t imagelen)
{
    return pagunlit_card_kept(card, pagunlit_save(card->role, card->shape, card->map, card->maplen, card->catalogue,
        card->cataloguelen, card->scratch, card->scratchlen, image, imagelen), PAGUNLIT_SAVE_NOTHING);
}

PAGUNLIT_USE_RESULT static inline pagunlit_outcome pagunlit_card_load(pagunlit_card *card, const uint8_t *image,
    size_t imagelen)
{
    return pagunlit_card_kept(card, pagunlit_load(card->role, card->shape, image, imagelen, card->map, card->maplen,
        card->catalogue, card->cataloguelen, card->scratch, card->scratchlen), PAGUNLIT_SAVE_FIRST);
}

PAGUNLIT_USE_RESULT static inline pagunlit_outcome pagunlit_card_close(pagunlit_card *card)
{
    if (card->summary)
        return pagunlit_card_kept(card, pagunlit_close_with_summary(card->role, card->shape, card->map, card->maplen,
            card->summary, card->summarylen, card->catalogue, card->cataloguelen, card->card, card->cardlen, card->scratch,
            card->scratchlen), PAGUNLIT_SAVE_FIRST);
    return pagunlit_card_kept(card, pagunlit_close(card->role, card->shape, card->map, card->maplen, card->catalogue,
        card->cataloguelen, card->card, card->cardlen, card->scratch, card->scratchlen), PAGUNLIT_SAVE_FIRST);
}

#endif
