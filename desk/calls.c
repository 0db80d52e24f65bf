/* The commands that are calls of the library on a card. Each reads its arguments, makes the call and tells what it answered. */
#include "desk.h"

#include <string.h>

/* What is said of a call starts anew with it. */
static desk_said *begin(desk *d, desk_call call)
{
    memset(&d->said, 0, sizeof d->said);
    d->said.call = call;
    return &d->said;
}

/* Reads the words after the command as so many numbers, and wants no word behind them. */
static int numbers(desk *d, const desk_words *words, int count, uint32_t *number[])
{
    static const char *const names[] = {"", "the first argument", "the second argument", "the third argument"};

    if (words->count != count + 1)
        return command_usage(d, words);
    for (int i = 0; i < count; i++)
        if (!command_number(d, words, i + 1, names[i + 1], number[i]))
            return 0;
    return 1;
}

/* The blocks that a call may have written, which undo looks at. */
static void wrote(desk *d, uint32_t from, uint32_t count)
{
    if (d->said.outcome.number == PAGUNLIT_DONE) {
        d->from = from;
        d->to = from + count;
    }
}

void build_where_kept(desk *d)
{
    if (!card_lends_summary(&d->card))
        return;
    card_lend_summary(&d->card, card_summary(&d->card, pagunlit_card_summary_build).number == PAGUNLIT_DONE);
    say_line(card_lends_summary(&d->card) ? "    (the summary is built anew)"
                                          : "    (the summary could not be built: from now on the calls are lent none)");
}

/* Makes another card. Fresh leaves the card's bytes alone, so that those of a card with as many blocks stay. */
static void fresh_other(desk *d, uint32_t blocks, uint32_t sheets)
{
    desk_card next;

    if (!card_make(&next, blocks, sheets)) {
        say_line("There is not enough memory for such a card.");
        return;
    }
    card_settings(&next, &d->card);
    begin(d, CALL_FRESH)->outcome = pagunlit_card_fresh(&next.lent, blocks);
    if (d->said.outcome.number != PAGUNLIT_DONE) {
        card_free(&next);
    } else {
        steps_replace(d, &next);
    }
    answer(d);
}

COMMAND(fresh)
{
    uint32_t blocks, sheets, *both[] = {&blocks, &sheets};

    if (!numbers(d, words, 2, both))
        return;
    if (blocks != card_blocks(&d->card) || sheets != d->card.lent.cataloguelen) {
        fresh_other(d, blocks, sheets);
    } else {
        begin(d, CALL_FRESH)->outcome = pagunlit_card_fresh(&d->card.lent, blocks);
        d->card.broken &= d->said.outcome.number != PAGUNLIT_DONE;
        answer(d);
    }
    if (d->said.call == CALL_FRESH && d->said.outcome.number == PAGUNLIT_DONE)
        build_where_kept(d);
}

COMMAND(search)
{
    uint32_t count, *one[] = {&count};

    if (!numbers(d, words, 1, one))
        return;
    desk_said *said = begin(d, CALL_SEARCH);
    said->count = count;
    said->outcome = pagunlit_card_search(&d->card.lent, count);
    answer(d);
}

COMMAND(survey)
{
    if (!numbers(d, words, 0, NULL))
        return;
    begin(d, CALL_SURVEY)->outcome = pagunlit_card_survey(&d->card.lent);
    answer(d);
}

/* The three figures, each by its name and in any order. Those that are not named are the plain reserve's. */
static int figures(desk *d, const desk_words *words, desk_figures *f)
{
    *f = (desk_figures){0, d->card.lent.shape.blocks, 1};
    for (int i = 3; i < words->count; i += 2) {
        const char *name = words->word[i];
        uint32_t *figure = strcmp(name, "from") == 0     ? &f->from
                           : strcmp(name, "before") == 0 ? &f->before
                           : strcmp(name, "step") == 0   ? &f->step
                                                         : NULL;

        if (!figure)
            return command_usage(d, words);
        if (!command_number(d, words, i + 1, name, figure))
            return 0;
    }
    return 1;
}

COMMAND(reserve)
{
    uint32_t sheet, count;
    desk_figures f;

    if (words->count < 3) {
        command_usage(d, words);
        return;
    }
    if (!command_number(d, words, 1, "the sheet", &sheet) || !command_number(d, words, 2, "the count", &count) ||
        !figures(d, words, &f))
        return;
    desk_said *said = begin(d, words->count > 3 ? CALL_PLACED : CALL_RESERVE);
    said->sheet = sheet;
    said->count = count;
    said->figures = f;
    said->outcome = words->count > 3 ? pagunlit_card_reserve_placed(&d->card.lent, sheet, count, f.from, f.before, f.step)
                                     : pagunlit_card_reserve(&d->card.lent, sheet, count);
    wrote(d, said->outcome.first, count);
    answer(d);
}

COMMAND(offer)
{
    uint32_t sheet, count, *both[] = {&sheet, &count};

    if (!numbers(d, words, 2, both))
        return;
    desk_said *said = begin(d, CALL_OFFER);
    said->sheet = sheet;
    said->count = count;
    said->outcome = pagunlit_card_offer(&d->card.lent, sheet, count);
    answer(d);
    if (said->outcome.number == PAGUNLIT_DONE)
        d->offer = *said;
}

/* The last offer's arguments, for an accept without any. */
static int offered(desk *d, uint32_t *sheet, uint32_t *start, uint32_t *count)
{
    if (!d->offer.made) {
        desk_wrong(d, "Nothing was offered yet. `offer 0 3` asks for an offer; `accept SHEET START COUNT` needs none.");
        return 0;
    }
    *sheet = d->offer.sheet;
    *start = d->offer.outcome.first;
    *count = d->offer.count;
    return 1;
}

COMMAND(accept)
{
    uint32_t sheet, start, count, *all[] = {&sheet, &start, &count};

    if (words->count == 1 ? !offered(d, &sheet, &start, &count) : !numbers(d, words, 3, all))
        return;
    desk_said *said = begin(d, CALL_ACCEPT);
    said->sheet = sheet;
    said->start = start;
    said->count = count;
    said->outcome = pagunlit_card_accept(&d->card.lent, sheet, start, count);
    wrote(d, start, count);
    answer(d);
}

COMMAND(grow)
{
    uint32_t sheet, count, *both[] = {&sheet, &count};

    if (!numbers(d, words, 2, both))
        return;
    desk_said *said = begin(d, CALL_GROW);
    said->sheet = sheet;
    said->count = count;
    said->outcome = pagunlit_card_grow(&d->card.lent, sheet, count);
    if (said->outcome.number == PAGUNLIT_DONE) {
        const pagunlit_entry *entry = &d->card.lent.catalogue[sheet];

        wrote(d, entry->start, entry->length);
    }
    answer(d);
}

/* The calls that have a sheet and nothing else. */
static void sheet_call(desk *d, const desk_words *words, desk_call call, pagunlit_outcome (*made)(pagunlit_card *, uint32_t))
{
    uint32_t sheet, *one[] = {&sheet};

    if (!numbers(d, words, 1, one))
        return;
    desk_said *said = begin(d, call);
    said->sheet = sheet;
    said->outcome = made(&d->card.lent, sheet);
    answer(d);
}

COMMAND(complete)
{
    sheet_call(d, words, CALL_COMPLETE, pagunlit_card_complete);
}

COMMAND(pause)
{
    sheet_call(d, words, CALL_PAUSE, pagunlit_card_pause);
}

COMMAND(resume)
{
    sheet_call(d, words, CALL_RESUME, pagunlit_card_resume);
}

COMMAND(release)
{
    sheet_call(d, words, CALL_RELEASE, pagunlit_card_release);
}

COMMAND(standing)
{
    sheet_call(d, words, CALL_STANDING, pagunlit_card_standing);
}

COMMAND(close)
{
    if (!numbers(d, words, 0, NULL))
        return;
    begin(d, CALL_CLOSE)->outcome = pagunlit_card_close(&d->card.lent);
    wrote(d, 0, card_blocks(&d->card));
    answer(d);
}

COMMAND(summary)
{
    const char *word = words_at(words, 1);

    if (words->count != 2 || (strcmp(word, "on") != 0 && strcmp(word, "off") != 0 && strcmp(word, "check") != 0)) {
        command_usage(d, words);
    } else if (strcmp(word, "off") == 0) {
        card_lend_summary(&d->card, 0);
        say_line("From now on the calls are lent no summary.");
    } else if (strcmp(word, "check") == 0) {
        begin(d, CALL_CHECK)->outcome = card_summary(&d->card, pagunlit_card_summary_check);
        answer(d);
    } else {
        begin(d, CALL_BUILD)->outcome = card_summary(&d->card, pagunlit_card_summary_build);
        if (d->said.outcome.number == PAGUNLIT_DONE)
            card_lend_summary(&d->card, 1);
        answer(d);
    }
}
