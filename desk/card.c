#include "card.h"

#include <stdlib.h>
#include <string.h>

/* Memory for `count` elements, of at least one: the library takes no NULL, not even with a length of 0. */
static void *zeros(size_t count, size_t size)
{
    return calloc(count > 0 ? count : 1, size);
}

static void lengths(desk_card *card, uint32_t blocks, uint32_t sheets)
{
    uint32_t n = blocks <= PAGUNLIT_BLOCKS ? blocks : PAGUNLIT_BLOCKS;

    card->lent.maplen = PAGUNLIT_MAP_WORDS(n);
    card->lent.cataloguelen = sheets <= PAGUNLIT_SHEETS ? sheets : PAGUNLIT_SHEETS + 1;
    card->lent.cardlen = (size_t)PAGUNLIT_BLOCK * n;
    card->lent.summarylen = PAGUNLIT_SUMMARY_NUMBERS(n);
    card->lent.scratchlen = PAGUNLIT_SCRATCH_WORDS(n);
}

/* Everything but the card's bytes. */
static int tables(desk_card *card)
{
    card->lent.map = zeros(card->lent.maplen, sizeof *card->lent.map);
    card->lent.catalogue = zeros(card->lent.cataloguelen, sizeof *card->lent.catalogue);
    card->summary = zeros(card->lent.summarylen, sizeof *card->summary);
    card->lent.scratch = zeros(card->lent.scratchlen, sizeof *card->lent.scratch);
    return card->lent.map && card->lent.catalogue && card->summary && card->lent.scratch;
}

int card_make(desk_card *card, uint32_t blocks, uint32_t sheets)
{
    memset(card, 0, sizeof *card);
    lengths(card, blocks, sheets);
    card->lent.role = PAGUNLIT_PHARMACIST;
    pagunlit_card_no_limits(&card->lent);
    int made = tables(card);
    card->lent.card = zeros(card->lent.cardlen, 1);
    card->seen = zeros(card->lent.cardlen, 1);
    if (made && card->lent.card && card->seen)
        return 1;
    card_free(card);
    return 0;
}

int card_copy(desk_card *copy, const desk_card *card)
{
    *copy = *card;
    copy->lent.card = copy->seen = NULL;
    if (!tables(copy)) {
        card_free(copy);
        return 0;
    }
    memcpy(copy->lent.map, card->lent.map, card->lent.maplen * sizeof *card->lent.map);
    memcpy(copy->lent.catalogue, card->lent.catalogue, card->lent.cataloguelen * sizeof *card->lent.catalogue);
    memcpy(copy->summary, card->summary, card->lent.summarylen * sizeof *card->summary);
    card_lend_summary(copy, card_lends_summary(card));
    return 1;
}

void card_free(desk_card *card)
{
    free(card->lent.map);
    free(card->lent.catalogue);
    free(card->summary);
    free(card->lent.scratch);
    free(card->lent.card);
    free(card->seen);
    memset(card, 0, sizeof *card);
}

void card_settings(desk_card *card, const desk_card *from)
{
    memcpy(card->lent.limits, from->lent.limits, sizeof card->lent.limits);
    card->lent.role = from->lent.role;
    card_lend_summary(card, card_lends_summary(from));
}

void card_lend_summary(desk_card *card, int lent)
{
    card->lent.summary = lent ? card->summary : NULL;
}

int card_lends_summary(const desk_card *card)
{
    return card->lent.summary != NULL;
}

pagunlit_outcome card_summary(const desk_card *card, pagunlit_outcome (*call)(pagunlit_card *))
{
    pagunlit_card lent = card->lent;

    lent.summary = card->summary;
    return call(&lent);
}

uint32_t card_blocks(const desk_card *card)
{
    return (uint32_t)(card->lent.cardlen / PAGUNLIT_BLOCK);
}

int card_is_free(const desk_card *card, uint32_t block)
{
    return (int)(card->lent.map[block / 64] >> (63 - block % 64) & 1);
}

int card_is_blank(const desk_card *card, uint32_t block)
{
    const uint8_t *bytes = card->lent.card + (size_t)PAGUNLIT_BLOCK * block;

    /* The first byte is 0, and each is as the one before it. */
    return bytes[0] == 0 && memcmp(bytes, bytes + 1, PAGUNLIT_BLOCK - 1) == 0;
}

const uint8_t *card_place(const desk_card *card, uint32_t sheet, uint32_t place)
{
    if (sheet >= card->lent.cataloguelen || place >= card->lent.catalogue[sheet].length)
        return NULL;
    uint64_t block = (uint64_t)card->lent.catalogue[sheet].start + place;
    return block < card_blocks(card) ? card->lent.card + PAGUNLIT_BLOCK * block : NULL;
}
