/* What the struct of pagunlit_card.h says has to be saved first, after every call that is accepted and after some that are
 * refused. The rule: after an accepted release of any standing or an accepted fresh, save before the next call that takes
 * blocks; after an accepted closing or load, save before anything else. */
#include "pagunlit_card.h"

#include <stdio.h>
#include <stdlib.h>

enum { N = 70, C = 5 };

static uint64_t map[PAGUNLIT_MAP_WORDS(N)], scratch[PAGUNLIT_SCRATCH_WORDS(N)];
static pagunlit_entry catalogue[C];
static uint8_t bytes[N * PAGUNLIT_BLOCK_BYTES], image[PAGUNLIT_IMAGE_BYTES(N, C)], payload[PAGUNLIT_PAYLOAD_BYTES];
static uint32_t summary[PAGUNLIT_SUMMARY_NUMBERS(N)];
static int looked;

static void fail(const char *call, const char *what)
{
    printf("saving.c: after %s: %s\n", call, what);
    exit(1);
}

/* The call was answered with that number, and the two questions are answered so. */
static void look(const pagunlit_card *card, const char *call, pagunlit_outcome outcome, uint32_t number, int blocks, int first)
{
    looked++;
    if (outcome.number != number)
        fail(call, "another number");
    if (outcome.shape.blocks != card->shape.blocks || outcome.shape.free != card->shape.free)
        fail(call, "another shape is kept");
    if (pagunlit_card_save_before_blocks(card) != blocks)
        fail(call, "another answer of pagunlit_card_save_before_blocks");
    if (pagunlit_card_save_first(card) != first)
        fail(call, "another answer of pagunlit_card_save_first");
}

/* Calls after which nothing has to be saved before another, if nothing had to be saved before; else what had to be stays. */
static void others(pagunlit_card *card, int blocks, int first)
{
    look(card, "search", pagunlit_card_search(card, 1), 0, blocks, first);
    look(card, "survey", pagunlit_card_survey(card), 0, blocks, first);
    look(card, "offer", pagunlit_card_offer(card, 0, 2), 0, blocks, first);
    look(card, "reserve", pagunlit_card_reserve(card, 0, 1), 0, blocks, first);
    look(card, "placed reserve", pagunlit_card_reserve_placed(card, 1, 1, 8, 64, 8), 0, blocks, first);
    look(card, "accept", pagunlit_card_accept(card, 2, 20, 1), 0, blocks, first);
    look(card, "grow", pagunlit_card_grow(card, 2, 1), 0, blocks, first);
    look(card, "put", pagunlit_card_put(card, 0, 0, payload, sizeof payload), 0, blocks, first);
    look(card, "complete", pagunlit_card_complete(card, 0), 0, blocks, first);
    look(card, "pause", pagunlit_card_pause(card, 0), 0, blocks, first);
    look(card, "resume", pagunlit_card_resume(card, 0), 0, blocks, first);
    look(card, "standing", pagunlit_card_standing(card, 0), 0, blocks, first);
    look(card, "show", pagunlit_card_show(card, 0, 0, payload, sizeof payload), 0, blocks, first);
    look(card, "dated show", pagunlit_card_show_dated(card, 0, 0, 2000, 1, 1, payload, sizeof payload), 0, blocks, first);
    look(card, "save", pagunlit_card_save(card, image, sizeof image), 0, blocks, first);
    look(card, "pause", pagunlit_card_pause(card, 4), 0, blocks, first);
    look(card, "release, refused", pagunlit_card_release(card, 3), 5, blocks, first);
    look(card, "fresh, refused", pagunlit_card_fresh(card, 0), 1, blocks, first);
    look(card, "load, refused", pagunlit_card_load(card, image, 1), 12, blocks, first);
    card->scratchlen--;
    look(card, "close, refused", pagunlit_card_close(card), 1, blocks, first);
    card->scratchlen++;
}

/* Releases of each standing: Complete, Open, and a pause without blocks. */
static void releases(pagunlit_card *card, int first)
{
    for (uint32_t sheet = 0; sheet < C; sheet++) {
        if (sheet == 3)
            continue;
        if (!first)
            pagunlit_card_saved(card);
        look(card, "release", pagunlit_card_release(card, sheet), 0, 1, first);
    }
}

static void rule(pagunlit_card *card)
{
    card->role = PAGUNLIT_CARER;
    look(card, "fresh, turned away", pagunlit_card_fresh(card, N), 21, 0, 0);
    card->role = PAGUNLIT_PHARMACIST;
    look(card, "fresh", pagunlit_card_fresh(card, N), 0, 1, 0);
    if (card->summary)
        look(card, "build of a summary", pagunlit_card_summary_build(card), 0, 1, 0);
    others(card, 1, 0);
    releases(card, 0);
    pagunlit_card_saved(card);
    others(card, 0, 0);
    if (card->summary)
        look(card, "check of a summary", pagunlit_card_summary_check(card), 0, 0, 0);
    look(card, "load", pagunlit_card_load(card, image, sizeof image), 0, 1, 1);
    pagunlit_card_saved(card);
    if (card->summary)
        look(card, "build of a summary", pagunlit_card_summary_build(card), 0, 0, 0);
    look(card, "release", pagunlit_card_release(card, 0), 0, 1, 0);
    look(card, "close", pagunlit_card_close(card), 0, 1, 1);
    look(card, "release", pagunlit_card_release(card, 1), 0, 1, 1);
    look(card, "fresh", pagunlit_card_fresh(card, N), 0, 1, 1);
    if (card->summary)
        look(card, "build of a summary", pagunlit_card_summary_build(card), 0, 1, 1);
    others(card, 1, 1);
    releases(card, 1);
    pagunlit_card_saved(card);
    look(card, "close", pagunlit_card_close(card), 0, 1, 1);
}

int main(void)
{
    static pagunlit_card card;

    card.map = map, card.maplen = PAGUNLIT_MAP_WORDS(N);
    card.catalogue = catalogue, card.cataloguelen = C;
    card.card = bytes, card.cardlen = sizeof bytes;
    card.scratch = scratch, card.scratchlen = PAGUNLIT_SCRATCH_WORDS(N);
    pagunlit_card_no_limits(&card);
    rule(&card);
    pagunlit_card_saved(&card);
    card.summary = summary, card.summarylen = PAGUNLIT_SUMMARY_NUMBERS(N);
    rule(&card);
    printf("saving: what has to be saved first was looked at after %d calls through the struct\n", looked);
    return 0;
}
