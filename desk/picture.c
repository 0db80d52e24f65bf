/* The card as a picture. A sheet has a colour, and its number stands on it: the colours differ in brightness too, so that they
 * stay apart for the colour blind and on a grey printer, and where they do not, the numbers and the frames do. How a sheet
 * stands is a matter of pattern alone: Complete is plain, Open has a dashed frame and its blank places are hollow, Paused is
 * hatched. */
#include "picture.h"

#include <stdlib.h>
#include <string.h>

/* Eight equal steps of brightness, from #2C0C76 to #EEF26A, in an order in which neighbours are three steps apart or more. */
static const desk_look colours[] = {
    {"#2C0C76", "#FFFFFF", NULL, 0, 0}, {"#E07728", "#000000", NULL, 0, 0}, {"#7A2410", "#FFFFFF", NULL, 0, 0},
    {"#D69AF0", "#000000", NULL, 0, 0}, {"#5D4FA6", "#FFFFFF", NULL, 0, 0}, {"#7ADCC4", "#000000", NULL, 0, 0},
    {"#128762", "#FFFFFF", NULL, 0, 0}, {"#EEF26A", "#000000", NULL, 0, 0},
};
static const desk_look nobody = {"#FFFFFF", "#444444", NULL, 0, 1};
static const desk_look wrong = {"#000000", "#FFFFFF", "url(#wrong)", 0, 0};

desk_look picture_look(const desk_card *card, int32_t sheet)
{
    if (sheet == RUN_FREE)
        return nobody;
    if (sheet < 0)
        return wrong;
    desk_look look = colours[(size_t)sheet % (sizeof colours / sizeof *colours)];
    uint32_t mark = card->lent.catalogue[sheet].mark;

    look.dashed = mark == PAGUNLIT_OPEN;
    look.over = mark == PAGUNLIT_PAUSED ? "url(#paused)" : NULL;
    return look;
}

double picture_x(const desk_picture *p, uint32_t block)
{
    return p->left + (block - p->from) % p->columns * p->unit;
}

double picture_y(const desk_picture *p, uint32_t block)
{
    return p->top + (block - p->from) / p->columns * (p->height + p->gap);
}

static void rectangle(const desk_picture *p, double x, double y, double width, double height, const char *how)
{
    fprintf(p->file, "<rect x=\"%.2f\" y=\"%.2f\" width=\"%.2f\" height=\"%.2f\" %s/>\n", x, y, width, height, how);
}

void picture_box(const desk_picture *p, double x, double y, double width, double height, desk_look look)
{
    char how[128];

    if (look.over) {
        snprintf(how, sizeof how, "fill=\"%s\"", look.fill);
        rectangle(p, x, y, width, height, how);
    }
    snprintf(how, sizeof how, "fill=\"%s\" stroke=\"#000000\" stroke-width=\"%s\"", look.over ? look.over : look.fill,
             width < 6 ? "0.3" : "1.5");
    rectangle(p, x, y, width, height, how);
    if (look.dashed && width >= 6) /* white on black, so that dashes are seen on a dark colour too */
        rectangle(p, x, y, width, height, "fill=\"none\" stroke=\"#FFFFFF\" stroke-width=\"1.5\" stroke-dasharray=\"4 4\"");
}

/* Letters on a part of a run. On a pattern they get a plain ground. */
static void letters(const desk_picture *p, double x, double y, double width, desk_look look, const char *text)
{
    double size = p->height < 26 ? 11 : 13, middle = x + width / 2, wide = 8.0 * (double)strlen(text) + 6;
    char how[64];

    snprintf(how, sizeof how, "fill=\"%s\"", look.fill);
    if (look.over)
        rectangle(p, middle - wide / 2, y + p->height / 2 - size * 0.75, wide, size * 1.5, how);
    fprintf(p->file, "<text x=\"%.2f\" y=\"%.2f\" font-size=\"%.0f\" text-anchor=\"middle\" fill=\"%s\"%s>%s</text>\n",
            middle, y + p->height / 2 + size * 0.36, size, look.ink, look.slanted ? " font-style=\"italic\"" : "", text);
}

/* A run's text where it is wide enough: the number of the sheet, or how many blocks are free. */
static void name_part(const desk_picture *p, double x, double y, double width, const desk_run *run, desk_look look)
{
    char text[40];
    int length;

    if (run->sheet >= 0)
        length = snprintf(text, sizeof text, "%d", run->sheet);
    else if (run->sheet == RUN_FREE)
        length = snprintf(text, sizeof text, width > 60 ? "%u free" : "%u", run->length);
    else
        length = snprintf(text, sizeof text, "%c", draw_letter(run->sheet));
    if (width >= 7.5 * length + 2)
        letters(p, x, y, width, look, text);
}

/* The places of an Open sheet that are blank, and the frames of blocks, where a block is wide enough to be seen. */
static void draw_blocks(const desk_picture *p, const desk_card *card, const desk_run *run, uint32_t from, uint32_t to)
{
    if (p->unit < 8)
        return;
    for (uint32_t b = from; b < to; b++) {
        double x = picture_x(p, b), y = picture_y(p, b);

        if (run->sheet >= 0 && card->lent.catalogue[run->sheet].mark == PAGUNLIT_OPEN && card_is_blank(card, b))
            rectangle(p, x + 3, y + 3, p->unit - 6, p->height - 6, "fill=\"#FFFFFF\" stroke=\"#000000\" stroke-width=\"0.5\"");
        if (b > from)
            fprintf(p->file, "<path d=\"M%.2f %.2fv%.2f\" stroke=\"#000000\" stroke-width=\"0.4\"/>\n", x, y, p->height);
    }
}

/* Puts the name of a run on a part of it. A sheet's stands in a block where there is room; on a blank place it is dark on
 * white. */
static void name_run(const desk_picture *p, const desk_card *card, const desk_run *run, uint32_t from, uint32_t count)
{
    desk_look look = picture_look(card, run->sheet);
    uint32_t middle = from + (count - 1) / 2;

    if (p->unit >= 8 && look.dashed && card_is_blank(card, middle)) {
        look.ink = "#000000";
        look.fill = "#FFFFFF";
    }
    if (p->unit >= 24 && run->sheet >= 0)
        name_part(p, picture_x(p, middle), picture_y(p, middle), p->unit, run, look);
    else
        name_part(p, picture_x(p, from), picture_y(p, from), count * p->unit, run, look);
}

/* A run is drawn row by row. Its name stands on the widest part. */
void picture_run(const desk_picture *p, const desk_card *card, const desk_run *run)
{
    uint32_t end = run->start + run->length, widest = 0, named = run->start;
    desk_look look = picture_look(card, run->sheet);

    for (uint32_t from = run->start, to; from < end; from = to) {
        uint32_t row_end = p->from + ((from - p->from) / p->columns + 1) * p->columns;

        to = row_end < end ? row_end : end;
        picture_box(p, picture_x(p, from), picture_y(p, from), (to - from) * p->unit, p->height, look);
        draw_blocks(p, card, run, from, to);
        if (to - from > widest) {
            widest = to - from;
            named = from;
        }
    }
    name_run(p, card, run, named, widest);
}

static uint32_t columns_for(uint32_t n)
{
    if (n <= 16)
        return n;
    if (n <= 1024)
        return n <= 256 ? 16 : 32;
    return ((n + 31) / 32 + 63) / 64 * 64; /* 32 rows of whole words */
}

static void measure(desk_picture *p, uint32_t n)
{
    p->from = 0;
    p->blocks = n;
    p->columns = columns_for(n);
    p->rows = (n + p->columns - 1) / p->columns;
    p->unit = p->columns <= 16 ? 48 : 896.0 / p->columns;
    p->height = p->columns <= 16 ? 36 : 24;
    p->gap = 8;
    p->left = 80;
    p->top = 78;
    double wide = p->left + p->columns * p->unit + 20;
    p->width = wide < 860 ? 860 : wide;
    p->depth = p->top + p->rows * (p->height + p->gap) + PICTURE_LEGEND;
}

void picture_open(const desk_picture *p, const char *more)
{
    fprintf(p->file, "<svg xmlns=\"http://www.w3.org/2000/svg\" width=\"%.0f\" height=\"%.0f\" viewBox=\"0 0 %.0f %.0f\""
            " font-family=\"sans-serif\"%s>\n<defs>\n", p->width, p->depth, p->width, p->depth, more);
    fputs("<pattern id=\"paused\" width=\"8\" height=\"8\" patternUnits=\"userSpaceOnUse\">"
          "<path d=\"M-2 2L2 -2M0 8L8 0M6 10L10 6\" stroke=\"#FFFFFF\" stroke-width=\"2.6\"/>"
          "<path d=\"M-2 4L4 -2M0 10L10 0\" stroke=\"#000000\" stroke-width=\"0.8\"/></pattern>\n"
          "<pattern id=\"wrong\" width=\"6\" height=\"6\" patternUnits=\"userSpaceOnUse\">"
          "<path d=\"M0 0L6 6M6 0L0 6\" stroke=\"#FFFFFF\" stroke-width=\"1\"/></pattern>\n</defs>\n", p->file);
    rectangle(p, 0, 0, p->width, p->depth, "fill=\"#FFFFFF\"");
}

/* The title: the card, and what the library's survey says of it. */
static void draw_title(const desk_picture *p, desk_card *card)
{
    pagunlit_outcome survey = pagunlit_card_survey(&card->lent);

    fprintf(p->file, "<text x=\"20\" y=\"32\" font-size=\"20\" font-weight=\"bold\">A card of %u blocks and %zu sheets"
            "</text>\n", p->blocks, card->lent.cataloguelen);
    fprintf(p->file, "<text x=\"20\" y=\"56\" font-size=\"14\">");
    if (survey.number == PAGUNLIT_DONE)
        fprintf(p->file, "%u blocks are free, in %u %s; the longest has %u.", survey.first, survey.second,
                survey.second == 1 ? "run" : "runs", survey.third);
    else
        fprintf(p->file, "Its survey is refused with %u.", survey.number);
    fprintf(p->file, "%s</text>\n", card->broken ? " It was damaged on purpose." : "");
}

/* The number of each row's first block. */
void picture_numbers(const desk_picture *p)
{
    for (uint32_t row = 0; row < p->rows; row++)
        fprintf(p->file, "<text x=\"%.0f\" y=\"%.2f\" font-size=\"12\" text-anchor=\"end\" fill=\"#444444\">%u</text>\n",
                p->left - 8, picture_y(p, p->from + row * p->columns) + p->height / 2 + 4, p->from + row * p->columns);
}

int picture_write(desk *d, const char *name)
{
    desk_picture p;
    size_t count;
    desk_run *runs = draw_runs(&d->card, &count);

    p.file = runs ? fopen(name, "w") : NULL;
    if (!p.file) {
        free(runs);
        return 0;
    }
    measure(&p, card_blocks(&d->card));
    picture_open(&p, "");
    draw_title(&p, &d->card);
    picture_numbers(&p);
    for (size_t i = 0; i < count; i++)
        picture_run(&p, &d->card, &runs[i]);
    picture_legend(&p, &d->card);
    fputs("</svg>\n", p.file);
    free(runs);
    int failed = ferror(p.file);
    return fclose(p.file) == 0 && !failed;
}
