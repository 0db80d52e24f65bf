#include "draw.h"

#include "card.h"

#include <stdlib.h>
#include <string.h>

/* Where a sheet's blocks begin and end on the card, whatever its entry says. */
static void extent(const desk_card *card, size_t sheet, uint32_t *start, uint32_t *end)
{
    uint64_t n = card_blocks(card), from = card->lent.catalogue[sheet].start, to = from + card->lent.catalogue[sheet].length;

    *start = (uint32_t)(from < n ? from : n);
    *end = (uint32_t)(to < n ? to : n);
}

/* Who holds each block. */
static int32_t *holders(const desk_card *card)
{
    uint32_t n = card_blocks(card), start, end;
    int32_t *held = malloc((n + 1) * sizeof *held);

    if (!held)
        return NULL;
    for (uint32_t b = 0; b < n; b++)
        held[b] = card_is_free(card, b) ? RUN_FREE : RUN_LOST;
    for (size_t sheet = 0; sheet < card->lent.cataloguelen; sheet++) {
        extent(card, sheet, &start, &end);
        for (uint32_t b = start; b < end; b++)
            held[b] = held[b] == RUN_LOST ? (int32_t)sheet : held[b] == RUN_FREE || held[b] == RUN_LEAK ? RUN_LEAK : RUN_TWICE;
    }
    return held;
}

desk_run *draw_runs(const desk_card *card, size_t *count)
{
    uint32_t n = card_blocks(card);
    int32_t *held = holders(card);
    desk_run *runs = held ? malloc((n + 1) * sizeof *runs) : NULL;

    *count = 0;
    for (uint32_t b = 0; runs && b < n; b++) {
        if (b == 0 || held[b] != held[b - 1])
            runs[(*count)++] = (desk_run){b, 0, held[b]};
        runs[*count - 1].length++;
    }
    free(held);
    return runs;
}

char draw_letter(int32_t sheet)
{
    static const char letters[] = "0123456789abcdefghijklmnopqrstuvwxyzABCDEFGHIJKLMNOPQRSTUVWXYZ";

    switch (sheet) {
    case RUN_FREE:
        return '.';
    case RUN_LOST:
        return '?';
    case RUN_TWICE:
        return '!';
    case RUN_LEAK:
        return '*';
    default:
        return (size_t)sheet < sizeof letters - 1 ? letters[sheet] : '#';
    }
}

/* Blocks to a letter. */
static uint32_t group_of(uint32_t n, uint32_t cells)
{
    return n <= cells ? 1 : (n + cells - 1) / cells;
}

/* Puts the letter of a run to a group: `:` where free and held blocks share the group, `+` where several sheets do. */
static void letter_to(char *cell, int32_t sheet)
{
    char letter = draw_letter(sheet);

    if (*cell == '\0' || *cell == letter)
        *cell = letter;
    else if (*cell == '.' || letter == '.' || *cell == ':')
        *cell = ':';
    else
        *cell = '+';
}

void draw_line(const desk_card *card, char *text, uint32_t cells)
{
    uint32_t n = card_blocks(card), group = group_of(n, cells);
    size_t count;
    desk_run *runs = draw_runs(card, &count);

    memset(text, 0, cells + 1);
    for (size_t i = 0; runs && i < count; i++) {
        uint32_t last = runs[i].start + runs[i].length - 1;

        for (uint32_t cell = runs[i].start / group; cell <= last / group; cell++)
            letter_to(&text[cell], runs[i].sheet);
    }
    free(runs);
}

const char *draw_standing(uint32_t mark)
{
    switch (mark) {
    case PAGUNLIT_ABSENT:
        return "Absent";
    case PAGUNLIT_PAUSED:
        return "Paused";
    case PAGUNLIT_OPEN:
        return "Open";
    case PAGUNLIT_COMPLETE:
        return "Complete";
    default:
        return "no mark";
    }
}

/* A sheet that is not Absent, as the library's standing answers it. */
static int list_sheet(desk_card *card, uint32_t sheet)
{
    pagunlit_outcome said = pagunlit_card_standing(&card->lent, sheet);

    if (said.number != PAGUNLIT_DONE) {
        say("  sheet %u (%c): refused, %u\n", sheet, draw_letter((int32_t)sheet), said.number);
        return 1;
    }
    if (said.first == PAGUNLIT_ABSENT)
        return 0;
    say("  sheet %u (%c): %s", sheet, draw_letter((int32_t)sheet), draw_standing(said.first));
    if (said.third > 0)
        say(", blocks %u to %u", said.second, said.second + said.third - 1);
    say("\n");
    return 1;
}

static void list_sheets(desk_card *card)
{
    int listed = 0, others = 0;

    if (pagunlit_card_standing(&card->lent, 0).number == PAGUNLIT_TURNED_AWAY) {
        say_line("  how its sheets stand is refused, 21: this role may not ask");
        return;
    }
    for (uint32_t sheet = 0; sheet < card->lent.cataloguelen; sheet++)
        if (listed < DESK_LISTED)
            listed += list_sheet(card, sheet);
        else
            others += pagunlit_card_standing(&card->lent, sheet).first != PAGUNLIT_ABSENT;
    if (listed == 0)
        say_line("  no sheet: all are Absent");
    if (others > 0)
        say("  and %d more: `standing SHEET` tells of each\n", others);
}

void draw_grid(desk_card *card)
{
    enum { COLUMNS = 64, CELLS = 1024 };
    char text[CELLS + 1];
    uint32_t n = card_blocks(card), group = group_of(n, CELLS);

    draw_line(card, text, CELLS);
    for (size_t at = 0; text[at]; at += COLUMNS)
        say("  %6zu  %.*s\n", at * group, COLUMNS, text + at);
    if (group > 1)
        say("  a letter is %u blocks; ':' part of them is free, '+' several sheets, '#' a sheet above 61\n", group);
    list_sheets(card);
}
