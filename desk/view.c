/* The picture of a card, or of a part of it, without title and list, to stand on a page of any width. */
#include "data.h"
#include "picture.h"

#include <stdlib.h>

/* How many digits the numbers before the rows have. */
static int digits_of(uint32_t number)
{
    int digits = 1;

    for (; number >= 10; number /= 10)
        digits++;
    return digits;
}

/* So many columns that a block is wide enough for a number where it can be, and the rows are few enough to be seen at once. */
static uint32_t columns_in(double room, uint32_t n)
{
    uint32_t columns = 64;

    while (columns > 8 && room / columns < 27)
        columns /= 2;
    while (n > columns * 12 && room / columns >= 16)
        columns *= 2;
    if (n > columns * 24)
        columns = ((n + 23) / 24 + 63) / 64 * 64;
    return n < columns ? n : columns;
}

static void measure(desk_picture *p, double width)
{
    double room;

    p->left = 14 + 7.5 * digits_of(p->from + p->blocks);
    p->top = 2;
    room = width - p->left - 3;
    p->columns = columns_in(room, p->blocks);
    p->rows = (p->blocks + p->columns - 1) / p->columns;
    p->unit = room / p->columns > 56 ? 56 : room / p->columns;
    p->height = p->rows > 12 ? 16 : p->unit >= 26 ? 36 : 24;
    p->gap = p->rows > 12 ? 3 : 8;
    p->width = width;
    p->depth = p->top + p->rows * (p->height + p->gap);
}

/* The part of a run that is in the picture. */
static void draw_part(const desk_picture *p, const desk_card *card, desk_run run)
{
    uint32_t end = run.start + run.length, last = p->from + p->blocks;

    if (run.start >= last || end <= p->from)
        return;
    run.start = run.start < p->from ? p->from : run.start;
    run.length = (end < last ? end : last) - run.start;
    picture_run(p, card, &run);
}

static void draw_view(desk_picture *p, const desk_card *card, double width)
{
    char more[200];
    size_t count;
    desk_run *runs = draw_runs(card, &count);

    if (!runs)
        return;
    measure(p, width);
    snprintf(more, sizeof more, " data-from=\"%u\" data-blocks=\"%u\" data-columns=\"%u\" data-unit=\"%.4f\""
             " data-height=\"%.0f\" data-gap=\"%.0f\" data-left=\"%.1f\" data-top=\"%.0f\"",
             p->from, p->blocks, p->columns, p->unit, p->height, p->gap, p->left, p->top);
    picture_open(p, more);
    picture_numbers(p);
    for (size_t i = 0; i < count; i++)
        draw_part(p, card, runs[i]);
    fputs("</svg>\n", p->file);
    free(runs);
}

void data_picture(desk *d, const desk_words *words)
{
    uint32_t n = card_blocks(&d->card), width, from = 0, count = n;
    desk_picture p;

    if (words->count != 3 && words->count != 5) {
        command_usage(d, words);
        return;
    }
    if (!command_number(d, words, 2, "the width", &width) ||
        (words->count == 5 && (!command_number(d, words, 3, "the first block", &from) ||
                               !command_number(d, words, 4, "the count", &count))))
        return;
    if (width < 200 || width > 10000 || from >= n || count == 0) {
        desk_wrong(d, "The width is from 200 to 10000, and the blocks are on the card.");
        return;
    }
    p.file = stdout;
    p.from = from;
    p.blocks = count < n - from ? count : n - from;
    draw_view(&p, &d->card, width);
}

void data_legend(void)
{
    desk_picture p = {0};

    p.file = stdout;
    p.width = 260;
    p.depth = 122;
    picture_open(&p, "");
    picture_meanings(&p, 2);
    fputs("</svg>\n", stdout);
}
