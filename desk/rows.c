#include "rows.h"

#include <string.h>

/* What document 01's table says of a number, or document 02 where the row came with a request, with words for the letters that
 * stand there for the card's blocks, its sheets and the blocks wanted. Where a number has several reasons, each is a row of its
 * own here, as the order under the table has them. */
static const struct { uint32_t number; const char *sentence; } table[ROWS] = {
    [ROW_ROLE] = {21, "02 (n): there is no such role, or it may not make this call"},
    [ROW_SIZE] = {1, "01: the card's blocks are not 1 to 262144 or its sheets not 1 to 1024; more blocks are counted as free"
                     " than it has; a map, card, scratch or summary has the wrong length"},
    [ROW_SHEET] = {2, "01: the card has no sheet of this number"},
    [ROW_ENTRY] = {4, "01: the entry of the sheet is damaged"},
    [ROW_ABSENT] = {5, "01: the sheet is Absent, and the call doesn't admit that"},
    [ROW_PAUSED] = {6, "01: the sheet is Paused, and the call doesn't admit that"},
    [ROW_OPEN] = {7, "01: the sheet is Open, and the call doesn't admit that"},
    [ROW_COMPLETE] = {8, "01: the sheet is Complete, and the call doesn't admit that"},
    [ROW_NONE] = {3, "01: no block was asked for"},
    [ROW_PLACE] = {3, "01: the sheet has no such place; a payload, block or show buffer has the wrong length"},
    [ROW_FIGURES] = {15, "02 (a): step is 0, `from` is not below `before`, or `before` is above the card's blocks"},
    [ROW_LIMIT] = {18, "02 (k): the wing would hold more blocks than its limit"},
    [ROW_DATE] = {19, "02 (m): there is no such date, or it lies outside the years 2000 to 2099"},
    [ROW_FIRST] = {4, "02 (m): the block of place 0, which is checked first, is not sound"},
    [ROW_TERM] = {20, "02 (m): the day lies outside the term"},
    [ROW_BLOCK] = {4, "01: a block is not sound for its sheet and place"},
    [ROW_BLANK] = {9, "01: a place is blank (02 (d): the lowest is named)"},
    [ROW_FIT] = {10, "01: no run of free blocks is long enough"},
    [ROW_NEXT] = {11, "01: the next blocks behind the sheet are not all free and on the card"},
    [ROW_RUN] = {17, "02 (f): the blocks asked for are not all free and on the card"},
    [ROW_FREE] = {4, "01: the free count contradicts the call"},
    [ROW_STATE] = {4, "01: the state is not sound, and is not saved (02 (l): nor closed)"},
    [ROW_LENGTH] = {12, "01: the length of the image is wrong"},
    [ROW_FRAME] = {13, "01: a frame of the image has a wrong number, total or check"},
    [ROW_HEAD] = {14, "01: the image's blocks, sheets or free count are out of limits, or its length does not fit them"},
    [ROW_LENT] = {1, "01: a map, catalogue or scratch has another length than the image asks for"},
    [ROW_CONTENT] = {14, "01: the state in the image is not sound, or what fills it up is not zero"},
    [ROW_PAYLOAD] = {3, "01: a payload has the wrong length"},
    [ROW_DIGIT] = {16, "02 (e): the four bytes read are not all digits, the number to be written is out of range, or there is"
                       " no such count (124 or more)"},
};

#define TO_SHEET ROW_ROLE, ROW_SIZE, ROW_SHEET, ROW_ENTRY
#define NOT_ABSENT ROW_PAUSED, ROW_OPEN, ROW_COMPLETE, ROW_NONE
#define NOT_OPEN ROW_ABSENT, ROW_PAUSED, ROW_COMPLETE
#define NOT_COMPLETE ROW_ABSENT, ROW_PAUSED, ROW_OPEN

static const struct { const char *name; desk_row rows[ROWS]; } calls[CALLS] = {
    [CALL_FRESH] = {"fresh", {ROW_ROLE, ROW_SIZE}},
    [CALL_SEARCH] = {"search", {ROW_ROLE, ROW_SIZE, ROW_NONE, ROW_FIT}},
    [CALL_SURVEY] = {"survey", {ROW_ROLE, ROW_SIZE}},
    [CALL_RESERVE] = {"reserve", {TO_SHEET, NOT_ABSENT, ROW_LIMIT, ROW_FIT, ROW_FREE}},
    [CALL_PLACED] = {"placed reserve", {TO_SHEET, NOT_ABSENT, ROW_FIGURES, ROW_LIMIT, ROW_FIT, ROW_FREE}},
    [CALL_OFFER] = {"offer", {TO_SHEET, NOT_ABSENT, ROW_LIMIT, ROW_FIT, ROW_FREE}},
    [CALL_ACCEPT] = {"accept", {TO_SHEET, NOT_ABSENT, ROW_LIMIT, ROW_RUN, ROW_FREE}},
    [CALL_GROW] = {"grow", {TO_SHEET, NOT_OPEN, ROW_NONE, ROW_LIMIT, ROW_NEXT, ROW_FREE}},
    [CALL_PUT] = {"put", {TO_SHEET, NOT_OPEN, ROW_PLACE}},
    [CALL_COMPLETE] = {"complete", {TO_SHEET, NOT_OPEN, ROW_BLOCK, ROW_BLANK}},
    [CALL_PAUSE] = {"pause", {TO_SHEET, ROW_PAUSED, ROW_OPEN}},
    [CALL_RESUME] = {"resume", {TO_SHEET, ROW_ABSENT, ROW_PAUSED, ROW_OPEN, ROW_COMPLETE}},
    [CALL_RELEASE] = {"release", {TO_SHEET, ROW_ABSENT, ROW_FREE}},
    [CALL_STANDING] = {"standing", {TO_SHEET}},
    [CALL_SHOW] = {"show", {TO_SHEET, NOT_COMPLETE, ROW_PLACE, ROW_BLOCK}},
    [CALL_DATED] = {"dated show", {TO_SHEET, NOT_COMPLETE, ROW_PLACE, ROW_DATE, ROW_FIRST, ROW_TERM, ROW_BLOCK}},
    [CALL_BUILD] = {"summary build", {ROW_ROLE, ROW_SIZE}},
    [CALL_CHECK] = {"summary check", {ROW_ROLE, ROW_SIZE}},
    [CALL_SAVE] = {"save", {ROW_ROLE, ROW_SIZE, ROW_STATE, ROW_LENGTH}},
    [CALL_LOAD] = {"load", {ROW_ROLE, ROW_LENGTH, ROW_FRAME, ROW_HEAD, ROW_LENT, ROW_CONTENT}},
    [CALL_CLOSE] = {"close", {ROW_ROLE, ROW_SIZE, ROW_STATE}},
    [CALL_READ_COUNT] = {"count", {ROW_PAYLOAD, ROW_DIGIT}},
    [CALL_WRITE_COUNT] = {"count", {ROW_PAYLOAD, ROW_DIGIT}},
};

const char *rows_name(desk_call call)
{
    return calls[call].name;
}

uint32_t rows_number(desk_row row)
{
    return table[row].number;
}

const char *rows_sentence(desk_row row)
{
    return table[row].sentence;
}

const char *rows_meaning(desk_row row)
{
    const char *sentence = table[row].sentence ? strchr(table[row].sentence, ':') : NULL;

    return sentence ? sentence + 2 : "no number of this call";
}

const desk_row *rows_of(desk_call call)
{
    return calls[call].rows;
}

/* Whether this row is the one of several with its number. Standing has no other 4 than the entry's; a dated show of place 0 has
 * no other block to look at; and load comes to the lengths that it is lent only with a head that can be. */
static int is_the_one(desk_card *card, const desk_said *said, desk_row row, const uint8_t *image, size_t imagelen)
{
    uint8_t buffer[PAGUNLIT_PAYLOAD];
    pagunlit_card lent = card->lent;
    desk_date on = said->date;

    switch (row) {
    case ROW_ENTRY:
        return pagunlit_card_standing(&lent, said->sheet).number == PAGUNLIT_DAMAGED;
    case ROW_FIRST:
        return pagunlit_card_show_dated(&lent, said->sheet, 0, on.year, on.month, on.day, buffer, sizeof buffer).number ==
               PAGUNLIT_DAMAGED;
    case ROW_HEAD:
        lent.maplen = 0;
        return pagunlit_card_load(&lent, image, imagelen).number == PAGUNLIT_IMAGE_CONTENT;
    default:
        return 1;
    }
}

desk_row rows_held(desk_card *card, const desk_said *said, const uint8_t *image, size_t imagelen)
{
    if (said->outcome.number == PAGUNLIT_DONE)
        return NO_ROW;
    for (const desk_row *row = rows_of(said->call); *row != NO_ROW; row++)
        if (rows_number(*row) == said->outcome.number && is_the_one(card, said, *row, image, imagelen))
            return *row;
    return NO_ROW;
}

void rows_why(const desk_said *said)
{
    int held = 0;

    if (!said->made) {
        say_line("There was no call yet.");
        return;
    }
    say("The rows of %s, in their order:\n", rows_name(said->call));
    for (const desk_row *row = rows_of(said->call); *row != NO_ROW; row++) {
        const char *word = held ? "not asked" : *row == said->row ? "HELD" : "passed";

        say("  %-9s %2u  %s\n", word, rows_number(*row), rows_sentence(*row));
        held |= *row == said->row;
    }
    say_line(held ? "The first row that holds is the answer, and nothing was changed." : "None of them holds, so it was done.");
}
