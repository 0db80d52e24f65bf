/* What the newest step changed: blocks that another holds or that were written, and sheets whose entry is another. A card that
 * was put in anew has no blocks in common with the one before. */
#include "data.h"
#include "draw.h"

#include <stdio.h>
#include <stdlib.h>
#include <string.h>

/* Marks the blocks that are in a run of another holder than before. */
static void other_holders(uint8_t *changed, uint32_t n, const desk_run *was, const desk_run *now)
{
    for (uint32_t b = 0; b < n; b++) {
        while (b - was->start >= was->length)
            was++;
        while (b - now->start >= now->length)
            now++;
        changed[b] = was->sheet != now->sheet;
    }
}

static void mark_blocks(const desk *d, const desk_step *step, uint8_t *changed)
{
    size_t before, after;
    desk_run *was = draw_runs(&step->was, &before), *now = draw_runs(&d->card, &after);

    if (was && now && before > 0 && after > 0)
        other_holders(changed, card_blocks(&d->card), was, now);
    for (size_t i = 0; i < step->count; i++)
        changed[step->blocks[i].block] = 1;
    free(was);
    free(now);
}

static void print_ranges(const uint8_t *changed, uint32_t n)
{
    const char *comma = "";

    for (uint32_t from = 0, to; from < n; from = to) {
        for (to = from; to < n && changed[to]; to++)
            ;
        if (to > from)
            printf("%s[%u,%u]", comma, from, to - from);
        comma = to > from ? "," : comma;
        to += to == from;
    }
}

static void print_entries(const desk_card *was, const desk_card *now)
{
    const char *comma = "";

    for (size_t sheet = 0; sheet < now->lent.cataloguelen && sheet < was->lent.cataloguelen; sheet++)
        if (memcmp(&was->lent.catalogue[sheet], &now->lent.catalogue[sheet], sizeof *now->lent.catalogue) != 0) {
            printf("%s%zu", comma, sheet);
            comma = ",";
        }
}

void data_changes(const desk *d)
{
    const desk_step *step = d->taken > 0 ? &d->steps[d->taken - 1] : NULL;
    uint32_t n = card_blocks(&d->card);
    uint8_t *changed = step && !step->whole ? calloc(n + 1, 1) : NULL;

    printf("\"changed\":{\"blocks\":[");
    if (changed) {
        mark_blocks(d, step, changed);
        print_ranges(changed, n);
    }
    printf("],\"sheets\":[");
    if (changed)
        print_entries(&step->was, &d->card);
    printf("]}");
    free(changed);
}
