/* What the library answered, in words and number. The words say what the number says, of the sheet and the blocks asked for. */
#include "desk.h"
#include "draw.h"

#include <stdio.h>
#include <string.h>

void answer_dose(uint32_t hundredths)
{
    if (hundredths == PAGUNLIT_COUNT_ABSENT)
        say("absent");
    else
        say("%u.%02u", hundredths / 100, hundredths % 100);
}

/* How many bytes the letter at hand has, in UTF-8; 0 where they are none, or would steer a terminal. */
static size_t letter_at(const uint8_t *bytes, size_t left)
{
    uint8_t head = bytes[0];
    size_t length = head >= 0xC2 && head < 0xE0 ? 2 : head >= 0xE0 && head < 0xF0 ? 3 : head >= 0xF0 && head < 0xF5 ? 4 : 0;

    if (head >= 0x20 && head < 0x7F)
        return 1;
    if (length > left || (head == 0xC2 && bytes[1] < 0xA0))
        return 0;
    for (size_t i = 1; i < length; i++)
        if ((bytes[i] & 0xC0) != 0x80)
            return 0;
    return length;
}

void answer_text(const uint8_t *payload, size_t length, char text[DESK_TEXT])
{
    size_t at = 0, letter;

    while (length > 0 && payload[length - 1] == 0)
        length--;
    for (size_t i = 0; i < length; i += letter > 0 ? letter : 1) {
        letter = letter_at(payload + i, length - i);
        if (letter == 0)
            at += (size_t)sprintf(text + at, "\\x%02X", payload[i]);
        memcpy(text + at, payload + i, letter);
        at += letter;
    }
    text[at] = '\0';
}

/* Cuts a text that is too long for a line, and not in the middle of a letter. */
static void shorten(char *text)
{
    size_t at = 76;

    if (strlen(text) <= 80)
        return;
    while (((unsigned char)text[at] & 0xC0) == 0x80)
        at--;
    strcpy(text + at, " ...");
}

static void print_day(uint32_t day)
{
    if (day > 36524) {
        say("day %u", day);
        return;
    }
    desk_date date = date_of(day);
    say("%u-%02u-%02u", date.year, date.month, date.day);
}

static uint32_t number_at(const uint8_t *bytes)
{
    return (uint32_t)bytes[0] << 24 | (uint32_t)bytes[1] << 16 | (uint32_t)bytes[2] << 8 | bytes[3];
}

void answer_payload(const uint8_t payload[PAGUNLIT_PAYLOAD], int dated)
{
    char text[DESK_TEXT];
    size_t from = dated ? 8 : 0;

    if (dated) {
        say("    from ");
        print_day(number_at(payload));
        say(" to ");
        print_day(number_at(payload + 4));
        say("\n");
    }
    answer_text(payload + from, PAGUNLIT_PAYLOAD - from, text);
    shorten(text);
    say("    \"%s\"\n", text);
}

/* The end of a word for one of something, or for several. */
static const char *s(uint32_t count)
{
    return count == 1 ? "" : "s";
}

/* Where a number has more to say of this call than document 01's table has: 0 if it has not. */
static int refused_sheet(const desk_said *said)
{
    uint32_t sheet = said->sheet;

    switch (said->row) {
    case ROW_SHEET:
        return say("there is no sheet %u", sheet);
    case ROW_ENTRY:
        return say("the entry of sheet %u is damaged", sheet);
    case ROW_ABSENT:
        return say("sheet %u is Absent", sheet);
    case ROW_PAUSED:
        return say("sheet %u is Paused%s", sheet, said->call == CALL_RESUME ? " without blocks" : "");
    case ROW_OPEN:
        return say("sheet %u is Open", sheet);
    case ROW_COMPLETE:
        return say("sheet %u is Complete", sheet);
    case ROW_PLACE:
        return say("sheet %u has no place %u", sheet, said->count);
    case ROW_BLANK:
        return say("place %u is blank", said->outcome.first);
    case ROW_FIRST:
        return say("the block of place 0 is not sound");
    case ROW_BLOCK:
        return said->call == CALL_COMPLETE ? say("a block of sheet %u is neither blank nor sound", sheet)
                                           : say("the block of place %u is not sound", said->count);
    default:
        return 0;
    }
}

static int refused_other(const desk *d)
{
    const desk_said *said = &d->said;

    switch (said->row) {
    case ROW_ROLE:
        return say("%s%s may not make this call", d->card.lent.role == PAGUNLIT_CARER ? "a " : "",
                   role_name(d->card.lent.role));
    case ROW_NONE:
        return say("no block was asked for");
    case ROW_FIT:
        return say("no run of %u free block%s%s", said->count, s(said->count),
                   said->call == CALL_PLACED ? " within these figures" : "");
    case ROW_NEXT:
        return say("%u block%s behind sheet %u: not all free and on the card", said->count, s(said->count), said->sheet);
    case ROW_RUN:
        return say("%u block%s from %u on: not all free and on the card", said->count, s(said->count), said->start);
    case ROW_FIGURES:
        return say("from %u, before %u, step %u cannot be", said->figures.from, said->figures.before, said->figures.step);
    case ROW_LIMIT: {
        uint32_t wing = said->sheet / PAGUNLIT_WING_SHEETS;
        uint32_t limit = d->card.lent.limits[wing % PAGUNLIT_WINGS];

        return say("wing %u would hold more than its limit of %u block%s", wing, limit, s(limit));
    }
    case ROW_DATE:
        return say("there is no such date from 2000 to 2099");
    case ROW_TERM:
        return say("the day is outside the term of sheet %u", said->sheet);
    case ROW_FREE:
        return say("the free count contradicts the call");
    case ROW_STATE:
        return say("the state is not sound");
    default:
        return 0;
    }
}

/* An image, or a count of a payload. */
static int refused_bytes(const desk_said *said)
{
    switch (said->row) {
    case ROW_LENGTH:
        return say("the length of the image is wrong");
    case ROW_FRAME:
        return say("a frame of the image has a wrong number, total or check");
    case ROW_HEAD:
        return say("the image's blocks, sheets or free count are out of limits, or its length does not fit them");
    case ROW_CONTENT:
        return say("the state in the image is not sound, or what fills it up is not zero");
    case ROW_DIGIT:
        return say(said->call == CALL_READ_COUNT ? "there is no count %u, or its four bytes are no digits"
                                                 : "there is no count %u, or the dose is out of range", said->start);
    default:
        return 0;
    }
}

static void refused(const desk *d)
{
    say("refused, %u: ", d->said.outcome.number);
    if (!refused_sheet(&d->said) && !refused_other(d) && !refused_bytes(&d->said))
        say("%s", rows_meaning(d->said.row));
    say("\n");
}

static int done_blocks(const desk_said *said)
{
    const pagunlit_outcome *o = &said->outcome;

    switch (said->call) {
    case CALL_SEARCH:
        return say("%u block%s would start at block %u, with space for %u", said->count, s(said->count), o->first,
                   o->second);
    case CALL_SURVEY:
        return say("free blocks %u, runs of them %u, longest run %u", o->first, o->second, o->third);
    case CALL_RESERVE:
    case CALL_PLACED:
    case CALL_ACCEPT:
        return say("sheet %u is Open from block %u on, with space for %u", said->sheet, o->first, o->second);
    case CALL_OFFER:
        return say("sheet %u would start at block %u, with %u place%s", said->sheet, o->first, o->second, s(o->second));
    case CALL_GROW:
        return say("sheet %u has %u more blank place%s", said->sheet, said->count, s(said->count));
    case CALL_CHECK:
        return say("%s", o->first ? "the summary is the map's own" : "the summary is not the map's own");
    default:
        return 0;
    }
}

static int done_sheet(const desk_said *said)
{
    const pagunlit_outcome *o = &said->outcome;

    switch (said->call) {
    case CALL_COMPLETE:
    case CALL_RESUME:
        return say("sheet %u is Complete", said->sheet);
    case CALL_PAUSE:
        return say("sheet %u is Paused", said->sheet);
    case CALL_RELEASE:
        return say("sheet %u is Absent", said->sheet);
    case CALL_STANDING:
        return say("sheet %u: %s, start %u, length %u", said->sheet, draw_standing(o->first), o->second, o->third);
    case CALL_PUT:
        return say("place %u of sheet %u is filled", said->count, said->sheet);
    default:
        return 0;
    }
}

/* The calls that are for no sheet, or answer with more than a sentence. */
static int done_other(const desk_said *said)
{
    switch (said->call) {
    case CALL_FRESH:
        return say("all blocks are free, all sheets Absent");
    case CALL_SHOW:
    case CALL_DATED:
        return say("place %u of sheet %u", said->count, said->sheet);
    case CALL_BUILD:
        return say("the summary is built from the map");
    case CALL_SAVE:
        return say("an image of %u bytes", said->count);
    case CALL_LOAD:
        return say("the map and the catalogue are those of the image");
    case CALL_CLOSE:
        return say("the gaps are closed");
    default:
        return 0;
    }
}

static void done(const desk_said *said)
{
    say("done, 0: ");
    if (said->call == CALL_READ_COUNT) {
        say("count %u of place %u is ", said->start, said->count);
        answer_dose(said->hundredths);
    } else if (!done_blocks(said) && !done_sheet(said)) {
        done_other(said);
    }
    say("\n");
    if (said->shown)
        answer_payload(said->payload, said->call == CALL_DATED && said->count == 0);
}

void answer(desk *d)
{
    char line[65];

    d->said.made = 1;
    d->said.row = rows_held(&d->card, &d->said, d->loaded, d->loadedlen);
    if (d->said.outcome.number == PAGUNLIT_DONE)
        done(&d->said);
    else
        refused(d);
    draw_line(&d->card, line, 64);
    if (line[0])
        say("    [%s]\n", line);
    else
        say_line("    (there is no card yet: `fresh 8 4` makes one of 8 blocks and 4 sheets)");
    if (d->card.broken && d->said.outcome.number == PAGUNLIT_DONE)
        say_line("    (damaged on purpose: this card is not what a list of calls left)");
    if (d->said.outcome.number == PAGUNLIT_DONE)
        power_note(d);
}
