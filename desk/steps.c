/* Undo: each command that changed something leaves a step. A card may be 128 MiB long, so a step has the map, the catalogue and
 * what else is short as they were, and of the card's bytes only the blocks that the command wrote. */
#include "desk.h"

#include <stdlib.h>
#include <string.h>

static void step_free(desk_step *step)
{
    card_free(&step->was);
    free(step->blocks);
    free(step->image_was);
    free(step->line);
    memset(step, 0, sizeof *step);
}

int steps_begin(desk *d, const char *line)
{
    d->from = d->to = 0;
    memset(&d->step, 0, sizeof d->step);
    d->step.line = strdup(line);
    d->step.offer = d->offer;
    if (d->step.line && card_copy(&d->step.was, &d->card))
        return 1;
    step_free(&d->step);
    return 0;
}

void steps_replace(desk *d, desk_card *next)
{
    if (next->lent.cardlen == d->card.lent.cardlen) {
        free(next->lent.card);
        free(next->seen);
        next->lent.card = d->card.lent.card;
        next->seen = d->card.seen;
        d->card.lent.card = d->card.seen = NULL;
        card_free(&d->card);
    } else {
        card_free(&d->step.was);
        d->step.was = d->card;
        d->step.whole = 1;
    }
    d->card = *next;
}

/* Notes the blocks that differ from what they were, and sees them anew. */
static void note_blocks(desk *d)
{
    desk_step *step = &d->step;

    for (uint32_t b = d->from; b < d->to && b < card_blocks(&d->card); b++) {
        uint8_t *now = d->card.lent.card + (size_t)PAGUNLIT_BLOCK * b, *seen = d->card.seen + (size_t)PAGUNLIT_BLOCK * b;

        if (memcmp(now, seen, PAGUNLIT_BLOCK) == 0)
            continue;
        if (step->count % 64 == 0) {
            desk_block *more = realloc(step->blocks, (step->count + 64) * sizeof *more);
            if (!more)
                return;
            step->blocks = more;
        }
        step->blocks[step->count].block = b;
        memcpy(step->blocks[step->count++].bytes, seen, PAGUNLIT_BLOCK);
        memcpy(seen, now, PAGUNLIT_BLOCK);
    }
}

static int same(const void *a, const void *b, size_t count, size_t size)
{
    return memcmp(a, b, count * size) == 0;
}

static int nothing_changed(const desk *d)
{
    const desk_card *card = &d->card, *before = &d->step.was;
    const pagunlit_card *now = &card->lent, *was = &before->lent;

    return !d->step.always && !d->step.replaced && same(&card->saving, &before->saving, 1, sizeof card->saving) &&
           !d->step.whole && d->step.count == 0 && d->step.image == 0 && now->cataloguelen == was->cataloguelen &&
           now->shape.blocks == was->shape.blocks && now->shape.free == was->shape.free && now->role == was->role &&
           card_lends_summary(card) == card_lends_summary(before) && card->broken == before->broken &&
           same(now->limits, was->limits, PAGUNLIT_WINGS, sizeof *now->limits) &&
           same(now->map, was->map, now->maplen, sizeof *now->map) &&
           same(now->catalogue, was->catalogue, now->cataloguelen, sizeof *now->catalogue) &&
           same(card->summary, before->summary, now->summarylen, sizeof *card->summary);
}

static size_t whole_cards(const desk *d)
{
    size_t whole = 0;

    for (size_t i = 0; i < d->taken; i++)
        whole += d->steps[i].whole != 0;
    return whole;
}

static void forget_oldest(desk *d)
{
    step_free(&d->steps[0]);
    memmove(&d->steps[0], &d->steps[1], --d->taken * sizeof d->steps[0]);
    d->lowest -= d->lowest > 0;
}

void steps_end(desk *d)
{
    note_blocks(d);
    if (nothing_changed(d)) {
        step_free(&d->step);
        return;
    }
    if (d->taken == DESK_STEPS)
        forget_oldest(d);
    d->steps[d->taken++] = d->step;
    d->made++;
    memset(&d->step, 0, sizeof d->step);
    while (whole_cards(d) > DESK_WHOLE)
        forget_oldest(d);
}

/* The image that was kept before, and without the damage that was done to it. */
static void restore_image(desk *d, desk_step *step)
{
    if (step->replaced) {
        free(d->image);
        d->image = step->image_was;
        d->imagelen = step->imagelen_was;
        d->images--;
        step->image_was = NULL;
    }
    if (step->image > 0 && step->image == d->images)
        d->image[step->byte] ^= 1;
}

/* The blocks of a step as they were, on the card at hand. */
static void restore_blocks(desk *d, const desk_step *step)
{
    for (size_t i = 0; i < step->count; i++) {
        size_t at = (size_t)PAGUNLIT_BLOCK * step->blocks[i].block;

        memcpy(d->card.lent.card + at, step->blocks[i].bytes, PAGUNLIT_BLOCK);
        memcpy(d->card.seen + at, step->blocks[i].bytes, PAGUNLIT_BLOCK);
    }
}

void steps_undo(desk *d)
{
    if (d->taken <= d->lowest) {
        say_line(d->lowest > 0 ? "The commands before are the lesson's: leave it first." : "There is nothing to undo.");
        return;
    }
    desk_step *step = &d->steps[--d->taken];

    if (!step->whole) {
        restore_blocks(d, step);
        step->was.lent.card = d->card.lent.card;
        step->was.seen = d->card.seen;
        d->card.lent.card = d->card.seen = NULL;
    }
    card_free(&d->card);
    d->card = step->was;
    memset(&step->was, 0, sizeof step->was);
    restore_image(d, step);
    d->offer = step->offer;
    say("undone: %s\n", step->line);
    step_free(step);
}

void steps_free(desk *d)
{
    while (d->taken > 0)
        step_free(&d->steps[--d->taken]);
}
