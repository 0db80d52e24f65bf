/* The lower part of a picture: what the looks mean, and which sheets the card has. */
#include "picture.h"

enum { LINE = 24, COLUMN = 210, LINES = 5, LISTED = 15 };

static void line_of(const desk_picture *p, double x, double y, desk_look look, int blank, const char *text)
{
    picture_box(p, x, y, 30, 16, look);
    if (blank)
        fprintf(p->file, "<rect x=\"%.2f\" y=\"%.2f\" width=\"9\" height=\"10\" fill=\"#FFFFFF\" stroke=\"#000000\""
                " stroke-width=\"0.5\"/>\n", x + 18, y + 3);
    fprintf(p->file, "<text x=\"%.2f\" y=\"%.2f\" font-size=\"13\">%s</text>\n", x + 38, y + 13, text);
}

/* How sheets stand, and what else a block may be. */
void picture_meanings(const desk_picture *p, double y)
{
    static const desk_look complete = {"#BBBBBB", "#000000", NULL, 0, 0}, open = {"#BBBBBB", "#000000", NULL, 1, 0},
                           paused = {"#777777", "#000000", "url(#paused)", 0, 0},
                           nobody = {"#FFFFFF", "#000000", NULL, 0, 0},
                           wrong = {"#000000", "#FFFFFF", "url(#wrong)", 0, 0};

    line_of(p, 20, y, complete, 0, "Complete");
    line_of(p, 20, y + LINE, open, 1, "Open (hollow: blank place)");
    line_of(p, 20, y + 2 * LINE, paused, 0, "Paused, with its blocks");
    line_of(p, 20, y + 3 * LINE, nobody, 0, "free (slanted: how many)");
    line_of(p, 20, y + 4 * LINE, wrong, 0, "map and sheets disagree");
}

/* A sheet as the library's standing answers it. Gives 0 if it is Absent. */
static int sheet_at(const desk_picture *p, desk_card *card, uint32_t sheet, double x, double y)
{
    pagunlit_outcome said = pagunlit_card_standing(&card->lent, sheet);
    char text[80];
    desk_look look = picture_look(card, (int32_t)sheet);

    if (said.number == PAGUNLIT_DONE && said.first == PAGUNLIT_ABSENT)
        return 0;
    if (said.number != PAGUNLIT_DONE)
        snprintf(text, sizeof text, "%u: refused, %u", sheet, said.number);
    else if (said.third == 0)
        snprintf(text, sizeof text, "%u %s, no blocks", sheet, draw_standing(said.first));
    else
        snprintf(text, sizeof text, "%u %s, %u to %u", sheet, draw_standing(said.first), said.second,
                 said.second + said.third - 1);
    line_of(p, x, y, look, 0, text);
    return 1;
}

static void remark(const desk_picture *p, double x, double y, const char *text)
{
    fprintf(p->file, "<text x=\"%.2f\" y=\"%.2f\" font-size=\"13\">%s</text>\n", x, y + 13, text);
}

/* The first sheets that are not Absent, in columns, and how many more there are. A role that may not ask how they stand gets
 * the refusal. */
static void sheets_of(const desk_picture *p, desk_card *card, double x, double y)
{
    uint32_t listed = 0, others = 0;
    char text[80];

    if (pagunlit_card_standing(&card->lent, 0).number == PAGUNLIT_TURNED_AWAY) {
        remark(p, x, y, "refused, 21: this role may not ask how they stand");
        return;
    }
    for (uint32_t sheet = 0; sheet < card->lent.cataloguelen; sheet++)
        if (listed < LISTED)
            listed += (uint32_t)sheet_at(p, card, sheet, x + COLUMN * (listed / LINES), y + LINE * (listed % LINES));
        else
            others += pagunlit_card_standing(&card->lent, sheet).first != PAGUNLIT_ABSENT;
    snprintf(text, sizeof text, "and %u more: the number of each stands on it where there is room", others);
    if (others > 0)
        remark(p, x, y + LINE * LINES, text);
}

void picture_legend(const desk_picture *p, desk_card *card)
{
    double top = p->depth - PICTURE_LEGEND + 40;

    fprintf(p->file, "<text x=\"20\" y=\"%.2f\" font-size=\"14\" font-weight=\"bold\">Marks</text>\n", top - 12);
    fprintf(p->file, "<text x=\"%d\" y=\"%.2f\" font-size=\"14\" font-weight=\"bold\">Sheets, by number</text>\n",
            20 + COLUMN + 10, top - 12);
    picture_meanings(p, top);
    sheets_of(p, card, 20 + COLUMN + 10, top);
}
