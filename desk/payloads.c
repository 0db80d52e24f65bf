/* The commands on what a place holds: a text, a term, dose counts. */
#include "desk.h"

#include <string.h>

/* Where the payload of a block begins (document 01: sheet number and place come before it). */
enum { PAYLOAD_AT = 8, COUNTS = PAGUNLIT_PAYLOAD / 4 };

static desk_said *begin(desk *d, desk_call call, uint32_t sheet, uint32_t place)
{
    memset(&d->said, 0, sizeof d->said);
    d->said.call = call;
    d->said.sheet = sheet;
    d->said.count = place;
    return &d->said;
}

/* Puts a payload, and tells undo which block that was. */
static void put(desk *d, uint32_t sheet, uint32_t place, const uint8_t payload[PAGUNLIT_PAYLOAD])
{
    desk_said *said = begin(d, CALL_PUT, sheet, place);

    said->outcome = pagunlit_card_put(&d->card.lent, sheet, place, payload, PAGUNLIT_PAYLOAD);
    if (said->outcome.number == PAGUNLIT_DONE) {
        d->from = d->card.lent.catalogue[sheet].start + place;
        d->to = d->from + 1;
    }
    answer(d);
}

/* The end of a line as a payload from byte `at` on. */
static int text_to(desk *d, uint8_t payload[PAGUNLIT_PAYLOAD], size_t at, const char *text)
{
    size_t length = strlen(text);

    if (length > PAGUNLIT_PAYLOAD - at) {
        desk_wrong(d, "A payload has room for %zu letters here, and this text has %zu.", PAGUNLIT_PAYLOAD - at, length);
        return 0;
    }
    memcpy(payload + at, text, length);
    return 1;
}

COMMAND(put)
{
    uint8_t payload[PAGUNLIT_PAYLOAD] = {0};
    uint32_t sheet, place;

    if (words->count < 4) {
        command_usage(d, words);
        return;
    }
    if (command_number(d, words, 1, "the sheet", &sheet) && command_number(d, words, 2, "the place", &place) &&
        text_to(d, payload, 0, words_rest(words, 3)))
        put(d, sheet, place, payload);
}

/* A day of a term: a date, or the number of a day, since a term may have any. */
static int day_at(desk *d, const desk_words *words, int i, uint32_t *day)
{
    const char *word = words_at(words, i);
    desk_date date;

    if (read_number(word, day) || (read_date(word, &date) && day_of(date, day)))
        return 1;
    desk_wrong(d, "`%s` is no day from 2000 to 2099: write 2026-11-15, or the number of days since 2000-01-01.", word);
    return 0;
}

COMMAND(term)
{
    uint8_t payload[PAGUNLIT_PAYLOAD] = {0};
    uint32_t sheet, first, last;

    if (words->count < 4) {
        command_usage(d, words);
        return;
    }
    if (!command_number(d, words, 1, "the sheet", &sheet) || !day_at(d, words, 2, &first) || !day_at(d, words, 3, &last) ||
        !text_to(d, payload, 8, words_rest(words, 4)))
        return;
    if (pagunlit_write_term(payload, sizeof payload, first, last) == PAGUNLIT_DONE)
        put(d, sheet, 0, payload);
}

/* The payload that a count is written to: what the place holds already, or one in which every count is absent. Absent is not 0,
 * so that a place of zeros would not do. */
static void payload_so_far(const desk *d, uint32_t sheet, uint32_t place, uint8_t payload[PAGUNLIT_PAYLOAD])
{
    const uint8_t *block = card_place(&d->card, sheet, place);

    memset(payload, 0xFF, PAGUNLIT_PAYLOAD);
    if (block && !card_is_blank(&d->card, d->card.lent.catalogue[sheet].start + place))
        memcpy(payload, block + PAYLOAD_AT, PAGUNLIT_PAYLOAD);
}

static void write_count(desk *d, uint32_t sheet, uint32_t place, uint32_t which, uint32_t hundredths)
{
    uint8_t payload[PAGUNLIT_PAYLOAD];

    payload_so_far(d, sheet, place, payload);
    uint32_t number = pagunlit_write_count(payload, sizeof payload, which, hundredths);
    if (number == PAGUNLIT_DONE) {
        put(d, sheet, place, payload);
        return;
    }
    desk_said *said = begin(d, CALL_WRITE_COUNT, sheet, place);
    said->start = which;
    said->outcome.number = number;
    answer(d);
}

/* Shows a place to read its counts. A refused show is the answer. */
static int shown(desk *d, uint32_t sheet, uint32_t place)
{
    desk_said *said = begin(d, CALL_SHOW, sheet, place);

    said->outcome = pagunlit_card_show(&d->card.lent, sheet, place, said->payload, PAGUNLIT_PAYLOAD);
    if (said->outcome.number != PAGUNLIT_DONE)
        answer(d);
    return said->outcome.number == PAGUNLIT_DONE;
}

static void read_one(desk *d, uint32_t which)
{
    pagunlit_count count = pagunlit_read_count(d->said.payload, PAGUNLIT_PAYLOAD, which);

    d->said.call = CALL_READ_COUNT;
    d->said.start = which;
    d->said.outcome.number = count.number;
    d->said.hundredths = count.hundredths;
    answer(d);
}

/* Those that are there. */
static void read_all(desk *d)
{
    d->said.made = 1;
    for (uint32_t which = 0; which < COUNTS; which++) {
        pagunlit_count count = pagunlit_read_count(d->said.payload, PAGUNLIT_PAYLOAD, which);

        if (count.number == PAGUNLIT_DONE && count.hundredths != PAGUNLIT_COUNT_ABSENT) {
            say("    count %u is ", which);
            answer_dose(count.hundredths);
            say("\n");
        } else if (count.number != PAGUNLIT_DONE) {
            say("    count %u: refused, %u\n", which, count.number);
        }
    }
    say_line("    the others are absent");
}

COMMAND(count)
{
    uint32_t sheet, place, which = 0, hundredths = 0;

    if (words->count < 3 || words->count > 5) {
        command_usage(d, words);
        return;
    }
    if (!command_number(d, words, 1, "the sheet", &sheet) || !command_number(d, words, 2, "the place", &place) ||
        (words->count > 3 && !command_number(d, words, 3, "the count's number", &which)))
        return;
    if (words->count == 5 && !read_dose(words->word[4], &hundredths))
        desk_wrong(d, "`%s` is no dose: write 2.50, or `absent`.", words->word[4]);
    else if (words->count == 5)
        write_count(d, sheet, place, which, hundredths);
    else if (shown(d, sheet, place)) {
        if (words->count == 4)
            read_one(d, which);
        else
            read_all(d);
    }
}

COMMAND(show)
{
    uint32_t sheet, place;
    desk_date date = {0, 0, 0};
    int dated = words->count == 5;

    if ((words->count != 3 && !dated) || (dated && strcmp(words->word[3], "on") != 0)) {
        command_usage(d, words);
        return;
    }
    if (!command_number(d, words, 1, "the sheet", &sheet) || !command_number(d, words, 2, "the place", &place))
        return;
    if (dated && !read_date(words->word[4], &date)) {
        desk_wrong(d, "`%s` is no date: write year, month and day, as 2026-11-15.", words->word[4]);
        return;
    }
    desk_said *said = begin(d, dated ? CALL_DATED : CALL_SHOW, sheet, place);
    said->date = date;
    said->outcome = dated ? pagunlit_card_show_dated(&d->card.lent, sheet, place, date.year, date.month, date.day,
                                                     said->payload, PAGUNLIT_PAYLOAD)
                          : pagunlit_card_show(&d->card.lent, sheet, place, said->payload, PAGUNLIT_PAYLOAD);
    said->shown = said->outcome.number == PAGUNLIT_DONE;
    answer(d);
}
