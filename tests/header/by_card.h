/* The calls of calls.c through the struct of pagunlit_card.h: each plain call is made by the function of the struct, which is
 * given what the plain call was lent. So what the struct's functions hand on is held to the same lines as the plain calls. */
#ifndef HEADER_BY_CARD_H
#define HEADER_BY_CARD_H

#include "pagunlit_card.h"

#include <string.h>

/* A card that is lent nothing yet. */
static pagunlit_card lent(uint32_t role, pagunlit_shape shape)
{
    pagunlit_card card;

    memset(&card, 0, sizeof card);
    card.role = role;
    card.shape = shape;
    return card;
}

/* The shape is the next call's, so what the struct keeps has to be what the call hands back. */
static pagunlit_outcome held(const pagunlit_card *card, pagunlit_outcome outcome)
{
    outcome.shape = card->shape;
    return outcome;
}

/* What the call only reads is lent as const, and the struct has it for all calls. */
#define LEND(what) (memcpy(&held_card.what, &what, sizeof what), held_card.what##len = what##len)

static pagunlit_outcome fresh_by_card(uint32_t role, pagunlit_shape shape, uint32_t blocks, uint64_t *map,
    size_t maplen, pagunlit_entry *catalogue, size_t cataloguelen)
{
    pagunlit_card held_card = lent(role, shape);

    LEND(map);
    LEND(catalogue);
    return held(&held_card, pagunlit_card_fresh(&held_card, blocks));
}

static pagunlit_outcome search_by_card(uint32_t role, pagunlit_shape shape, const uint64_t *map, size_t maplen,
    uint32_t k)
{
    pagunlit_card held_card = lent(role, shape);

    LEND(map);
    return held(&held_card, pagunlit_card_search(&held_card, k));
}

static pagunlit_outcome survey_by_card(uint32_t role, pagunlit_shape shape, const uint64_t *map, size_t maplen)
{
    pagunlit_card held_card = lent(role, shape);

    LEND(map);
    return held(&held_card, pagunlit_card_survey(&held_card));
}

static pagunlit_outcome reserve_by_card(uint32_t role, pagunlit_shape shape, uint64_t *map, size_t maplen,
    pagunlit_entry *catalogue, size_t cataloguelen, uint8_t *card, size_t cardlen, const uint32_t *limits,
    uint32_t sheet, uint32_t count)
{
    pagunlit_card held_card = lent(role, shape);

    LEND(map);
    LEND(catalogue);
    LEND(card);
    memcpy(held_card.limits, limits, sizeof held_card.limits);
    return held(&held_card, pagunlit_card_reserve(&held_card, sheet, count));
}

static pagunlit_outcome reserve_placed_by_card(uint32_t role, pagunlit_shape shape, uint64_t *map, size_t maplen,
    pagunlit_entry *catalogue, size_t cataloguelen, uint8_t *card, size_t cardlen, const uint32_t *limits,
    uint32_t sheet, uint32_t count, uint32_t from, uint32_t before, uint32_t step)
{
    pagunlit_card held_card = lent(role, shape);

    LEND(map);
    LEND(catalogue);
    LEND(card);
    memcpy(held_card.limits, limits, sizeof held_card.limits);
    return held(&held_card, pagunlit_card_reserve_placed(&held_card, sheet, count, from, before, step));
}

static pagunlit_outcome offer_by_card(uint32_t role, pagunlit_shape shape, const uint64_t *map, size_t maplen,
    const pagunlit_entry *catalogue, size_t cataloguelen, const uint8_t *card, size_t cardlen, const uint32_t *limits,
    uint32_t sheet, uint32_t count)
{
    pagunlit_card held_card = lent(role, shape);

    LEND(map);
    LEND(catalogue);
    LEND(card);
    memcpy(held_card.limits, limits, sizeof held_card.limits);
    return held(&held_card, pagunlit_card_offer(&held_card, sheet, count));
}

static pagunlit_outcome accept_by_card(uint32_t role, pagunlit_shape shape, uint64_t *map, size_t maplen,
    pagunlit_entry *catalogue, size_t cataloguelen, uint8_t *card, size_t cardlen, const uint32_t *limits,
    uint32_t sheet, uint32_t start, uint32_t count)
{
    pagunlit_card held_card = lent(role, shape);

    LEND(map);
    LEND(catalogue);
    LEND(card);
    memcpy(held_card.limits, limits, sizeof held_card.limits);
    return held(&held_card, pagunlit_card_accept(&held_card, sheet, start, count));
}

static pagunlit_outcome grow_by_card(uint32_t role, pagunlit_shape shape, uint64_t *map, size_t maplen,
    pagunlit_entry *catalogue, size_t cataloguelen, uint8_t *card, size_t cardlen, const uint32_t *limits,
    uint32_t sheet, uint32_t count)
{
    pagunlit_card held_card = lent(role, shape);

    LEND(map);
    LEND(catalogue);
    LEND(card);
    memcpy(held_card.limits, limits, sizeof held_card.limits);
    return held(&held_card, pagunlit_card_grow(&held_card, sheet, count));
}

static pagunlit_outcome put_by_card(uint32_t role, pagunlit_shape shape, const uint64_t *map, size_t maplen,
    const pagunlit_entry *catalogue, size_t cataloguelen, uint8_t *card, size_t cardlen, uint32_t sheet,
    uint32_t place, const uint8_t *payload, size_t payloadlen)
{
    pagunlit_card held_card = lent(role, shape);

    LEND(map);
    LEND(catalogue);
    LEND(card);
    return held(&held_card, pagunlit_card_put(&held_card, sheet, place, payload, payloadlen));
}

static pagunlit_outcome complete_by_card(uint32_t role, pagunlit_shape shape, const uint64_t *map, size_t maplen,
    pagunlit_entry *catalogue, size_t cataloguelen, const uint8_t *card, size_t cardlen, uint32_t sheet)
{
    pagunlit_card held_card = lent(role, shape);

    LEND(map);
    LEND(catalogue);
    LEND(card);
    return held(&held_card, pagunlit_card_complete(&held_card, sheet));
}

static pagunlit_outcome pause_by_card(uint32_t role, pagunlit_shape shape, const uint64_t *map, size_t maplen,
    pagunlit_entry *catalogue, size_t cataloguelen, uint32_t sheet)
{
    pagunlit_card held_card = lent(role, shape);

    LEND(map);
    LEND(catalogue);
    return held(&held_card, pagunlit_card_pause(&held_card, sheet));
}

static pagunlit_outcome resume_by_card(uint32_t role, pagunlit_shape shape, const uint64_t *map, size_t maplen,
    pagunlit_entry *catalogue, size_t cataloguelen, uint32_t sheet)
{
    pagunlit_card held_card = lent(role, shape);

    LEND(map);
    LEND(catalogue);
    return held(&held_card, pagunlit_card_resume(&held_card, sheet));
}

static pagunlit_outcome release_by_card(uint32_t role, pagunlit_shape shape, uint64_t *map, size_t maplen,
    pagunlit_entry *catalogue, size_t cataloguelen, uint32_t sheet)
{
    pagunlit_card held_card = lent(role, shape);

    LEND(map);
    LEND(catalogue);
    return held(&held_card, pagunlit_card_release(&held_card, sheet));
}

static pagunlit_outcome standing_by_card(uint32_t role, pagunlit_shape shape, const uint64_t *map, size_t maplen,
    const pagunlit_entry *catalogue, size_t cataloguelen, uint32_t sheet)
{
    pagunlit_card held_card = lent(role, shape);

    LEND(map);
    LEND(catalogue);
    return held(&held_card, pagunlit_card_standing(&held_card, sheet));
}

static pagunlit_outcome show_by_card(uint32_t role, pagunlit_shape shape, const uint64_t *map, size_t maplen,
    const pagunlit_entry *catalogue, size_t cataloguelen, const uint8_t *card, size_t cardlen, uint32_t sheet,
    uint32_t place, uint8_t *buffer, size_t bufferlen)
{
    pagunlit_card held_card = lent(role, shape);

    LEND(map);
    LEND(catalogue);
    LEND(card);
    return held(&held_card, pagunlit_card_show(&held_card, sheet, place, buffer, bufferlen));
}

static pagunlit_outcome show_dated_by_card(uint32_t role, pagunlit_shape shape, const uint64_t *map, size_t maplen,
    const pagunlit_entry *catalogue, size_t cataloguelen, const uint8_t *card, size_t cardlen, uint32_t sheet,
    uint32_t place, uint32_t year, uint32_t month, uint32_t day, uint8_t *buffer, size_t bufferlen)
{
    pagunlit_card held_card = lent(role, shape);

    LEND(map);
    LEND(catalogue);
    LEND(card);
    return held(&held_card, pagunlit_card_show_dated(&held_card, sheet, place, year, month, day, buffer, bufferlen));
}

static pagunlit_outcome summary_build_by_card(uint32_t role, pagunlit_shape shape, const uint64_t *map, size_t maplen,
    uint32_t *summary, size_t summarylen)
{
    pagunlit_card held_card = lent(role, shape);

    LEND(map);
    LEND(summary);
    return held(&held_card, pagunlit_card_summary_build(&held_card));
}

static pagunlit_outcome summary_check_by_card(uint32_t role, pagunlit_shape shape, const uint64_t *map, size_t maplen,
    const uint32_t *summary, size_t summarylen)
{
    pagunlit_card held_card = lent(role, shape);

    LEND(map);
    LEND(summary);
    return held(&held_card, pagunlit_card_summary_check(&held_card));
}

static pagunlit_outcome reserve_with_summary_by_card(uint32_t role, pagunlit_shape shape, uint64_t *map, size_t maplen,
    uint32_t *summary, size_t summarylen, pagunlit_entry *catalogue, size_t cataloguelen, uint8_t *card,
    size_t cardlen, const uint32_t *limits, uint32_t sheet, uint32_t count)
{
    pagunlit_card held_card = lent(role, shape);

    LEND(map);
    LEND(catalogue);
    LEND(card);
    LEND(summary);
    memcpy(held_card.limits, limits, sizeof held_card.limits);
    return held(&held_card, pagunlit_card_reserve(&held_card, sheet, count));
}

static pagunlit_outcome reserve_placed_with_summary_by_card(uint32_t role, pagunlit_shape shape, uint64_t *map,
    size_t maplen, uint32_t *summary, size_t summarylen, pagunlit_entry *catalogue, size_t cataloguelen, uint8_t *card,
    size_t cardlen, const uint32_t *limits, uint32_t sheet, uint32_t count, uint32_t from, uint32_t before,
    uint32_t step)
{
    pagunlit_card held_card = lent(role, shape);

    LEND(map);
    LEND(catalogue);
    LEND(card);
    LEND(summary);
    memcpy(held_card.limits, limits, sizeof held_card.limits);
    return held(&held_card, pagunlit_card_reserve_placed(&held_card, sheet, count, from, before, step));
}

static pagunlit_outcome accept_with_summary_by_card(uint32_t role, pagunlit_shape shape, uint64_t *map, size_t maplen,
    uint32_t *summary, size_t summarylen, pagunlit_entry *catalogue, size_t cataloguelen, uint8_t *card,
    size_t cardlen, const uint32_t *limits, uint32_t sheet, uint32_t start, uint32_t count)
{
    pagunlit_card held_card = lent(role, shape);

    LEND(map);
    LEND(catalogue);
    LEND(card);
    LEND(summary);
    memcpy(held_card.limits, limits, sizeof held_card.limits);
    return held(&held_card, pagunlit_card_accept(&held_card, sheet, start, count));
}

static pagunlit_outcome grow_with_summary_by_card(uint32_t role, pagunlit_shape shape, uint64_t *map, size_t maplen,
    uint32_t *summary, size_t summarylen, pagunlit_entry *catalogue, size_t cataloguelen, uint8_t *card,
    size_t cardlen, const uint32_t *limits, uint32_t sheet, uint32_t count)
{
    pagunlit_card held_card = lent(role, shape);

    LEND(map);
    LEND(catalogue);
    LEND(card);
    LEND(summary);
    memcpy(held_card.limits, limits, sizeof held_card.limits);
    return held(&held_card, pagunlit_card_grow(&held_card, sheet, count));
}

static pagunlit_outcome release_with_summary_by_card(uint32_t role, pagunlit_shape shape, uint64_t *map, size_t maplen,
    uint32_t *summary, size_t summarylen, pagunlit_entry *catalogue, size_t cataloguelen, uint32_t sheet)
{
    pagunlit_card held_card = lent(role, shape);

    LEND(map);
    LEND(catalogue);
    LEND(summary);
    return held(&held_card, pagunlit_card_release(&held_card, sheet));
}

static pagunlit_outcome save_by_card(uint32_t role, pagunlit_shape shape, const uint64_t *map, size_t maplen,
    const pagunlit_entry *catalogue, size_t cataloguelen, uint64_t *scratch, size_t scratchlen, uint8_t *image,
    size_t imagelen)
{
    pagunlit_card held_card = lent(role, shape);

    LEND(map);
    LEND(catalogue);
    LEND(scratch);
    return held(&held_card, pagunlit_card_save(&held_card, image, imagelen));
}

static pagunlit_outcome load_by_card(uint32_t role, pagunlit_shape shape, const uint8_t *image, size_t imagelen,
    uint64_t *map, size_t maplen, pagunlit_entry *catalogue, size_t cataloguelen, uint64_t *scratch,
    size_t scratchlen)
{
    pagunlit_card held_card = lent(role, shape);

    LEND(map);
    LEND(catalogue);
    LEND(scratch);
    return held(&held_card, pagunlit_card_load(&held_card, image, imagelen));
}

static pagunlit_outcome close_by_card(uint32_t role, pagunlit_shape shape, uint64_t *map, size_t maplen,
    pagunlit_entry *catalogue, size_t cataloguelen, uint8_t *card, size_t cardlen, uint64_t *scratch,
    size_t scratchlen)
{
    pagunlit_card held_card = lent(role, shape);

    LEND(map);
    LEND(catalogue);
    LEND(card);
    LEND(scratch);
    return held(&held_card, pagunlit_card_close(&held_card));
}

static pagunlit_outcome close_with_summary_by_card(uint32_t role, pagunlit_shape shape, uint64_t *map, size_t maplen,
    uint32_t *summary, size_t summarylen, pagunlit_entry *catalogue, size_t cataloguelen, uint8_t *card,
    size_t cardlen, uint64_t *scratch, size_t scratchlen)
{
    pagunlit_card held_card = lent(role, shape);

    LEND(map);
    LEND(catalogue);
    LEND(card);
    LEND(scratch);
    LEND(summary);
    return held(&held_card, pagunlit_card_close(&held_card));
}

#define pagunlit_fresh fresh_by_card
#define pagunlit_search search_by_card
#define pagunlit_survey survey_by_card
#define pagunlit_reserve reserve_by_card
#define pagunlit_reserve_placed reserve_placed_by_card
#define pagunlit_offer offer_by_card
#define pagunlit_accept accept_by_card
#define pagunlit_grow grow_by_card
#define pagunlit_put put_by_card
#define pagunlit_complete complete_by_card
#define pagunlit_pause pause_by_card
#define pagunlit_resume resume_by_card
#define pagunlit_release release_by_card
#define pagunlit_standing standing_by_card
#define pagunlit_show show_by_card
#define pagunlit_show_dated show_dated_by_card
#define pagunlit_summary_build summary_build_by_card
#define pagunlit_summary_check summary_check_by_card
#define pagunlit_reserve_with_summary reserve_with_summary_by_card
#define pagunlit_reserve_placed_with_summary reserve_placed_with_summary_by_card
#define pagunlit_accept_with_summary accept_with_summary_by_card
#define pagunlit_grow_with_summary grow_with_summary_by_card
#define pagunlit_release_with_summary release_with_summary_by_card
#define pagunlit_save save_by_card
#define pagunlit_load load_by_card
#define pagunlit_close close_by_card
#define pagunlit_close_with_summary close_with_summary_by_card

#endif
