/* The commands that are about the console itself. */
#include "desk.h"
#include "draw.h"

#include <errno.h>
#include <stdio.h>
#include <string.h>

static void list_limits(const desk *d)
{
    for (uint32_t wing = 0; wing < PAGUNLIT_WINGS; wing++) {
        uint32_t first = wing * PAGUNLIT_WING_SHEETS;

        say("    wing %u (sheets %u to %u): ", wing, first, first + PAGUNLIT_WING_SHEETS - 1);
        if (d->card.lent.limits[wing] == UINT32_MAX)
            say_line("no limit");
        else
            say("%u blocks\n", d->card.lent.limits[wing]);
    }
}

COMMAND(limit)
{
    uint32_t wing, limit = UINT32_MAX;

    if (words->count == 1) {
        list_limits(d);
        return;
    }
    if (words->count != 3) {
        command_usage(d, words);
        return;
    }
    if (!command_number(d, words, 1, "the wing", &wing) ||
        (strcmp(words->word[2], "none") != 0 && !command_number(d, words, 2, "the limit", &limit)))
        return;
    if (wing >= PAGUNLIT_WINGS) {
        desk_wrong(d, "There are %d wings, 0 to %d. The wing of a sheet is its number divided by %d, rounded down.",
                   PAGUNLIT_WINGS, PAGUNLIT_WINGS - 1, PAGUNLIT_WING_SHEETS);
        return;
    }
    d->card.lent.limits[wing] = limit;
    if (limit == UINT32_MAX)
        say("Wing %u has no limit.\n", wing);
    else
        say("Wing %u may hold %u blocks.\n", wing, limit);
}

COMMAND(card)
{
    if (words->count != 1) {
        command_usage(d, words);
        return;
    }
    if (card_blocks(&d->card) == 0) {
        say_line("There is no card yet: `fresh 8 4` makes one.");
        return;
    }
    say("A card of %u blocks and %zu sheets, %u of its blocks free.\n", d->card.lent.shape.blocks, d->card.lent.cataloguelen,
        d->card.lent.shape.free);
    draw_grid(&d->card);
}

COMMAND(picture)
{
    if (words->count != 2)
        command_usage(d, words);
    else if (card_blocks(&d->card) == 0)
        desk_wrong(d, "There is no card to draw yet: `fresh 8 4` makes one.");
    else if (picture_write(d, words->word[1]))
        say("The picture is in %s.\n", words->word[1]);
    else
        desk_wrong(d, "The picture could not be written to %s.", words->word[1]);
}

COMMAND(why)
{
    if (words->count != 1)
        command_usage(d, words);
    else
        rows_why(&d->said);
}

static void unmet(desk *d, const char *wanted, const char *was)
{
    say("NOT AS EXPECTED (line %zu): expected %s, and it was %s\n", d->number, wanted, was);
    d->failed = 1;
}

/* `expect 9 1`: the number, and as many of the values as are named. */
static void expect_numbers(desk *d, const desk_words *words)
{
    const pagunlit_outcome *o = &d->said.outcome;
    uint32_t was[4] = {o->number, o->first, o->second, o->third}, wanted;
    char text[64];

    for (int i = 1; i < words->count; i++) {
        if (i > 4 || !read_number(words->word[i], &wanted)) {
            command_usage(d, words);
            return;
        }
        if (wanted != was[i - 1]) {
            snprintf(text, sizeof text, "%u %u %u %u", was[0], was[1], was[2], was[3]);
            unmet(d, words_rest(words, 1), text);
            return;
        }
    }
}

static void expect_text(desk *d, const char *wanted, const char *was)
{
    if (strcmp(wanted, was) != 0)
        unmet(d, wanted, was);
}

/* What a show has shown, or a count that was read. */
static void expect_shown(desk *d, const desk_words *words)
{
    char text[DESK_TEXT];
    int dated = d->said.call == CALL_DATED && d->said.count == 0;
    size_t from = dated ? 8 : 0;

    if (d->said.call == CALL_READ_COUNT && d->said.outcome.number == PAGUNLIT_DONE) {
        uint32_t dose = 0;

        if (!read_dose(words_at(words, 2), &dose) || dose != d->said.hundredths)
            unmet(d, words_rest(words, 2), "another count");
    } else if (!d->said.shown) {
        unmet(d, words_rest(words, 2), "not shown");
    } else {
        answer_text(d->said.payload + from, PAGUNLIT_PAYLOAD - from, text);
        expect_text(d, words_rest(words, 2), text);
    }
}

COMMAND(expect)
{
    char line[65];

    if (words->count < 2) {
        command_usage(d, words);
    } else if (strcmp(words->word[1], "card") == 0) {
        draw_line(&d->card, line, 64);
        expect_text(d, words_rest(words, 2), line);
    } else if (strcmp(words->word[1], "shown") == 0) {
        expect_shown(d, words);
    } else if (!d->said.made) {
        unmet(d, words_rest(words, 1), "no call yet");
    } else {
        expect_numbers(d, words);
    }
}

/* The commands so far as a script. What they answered is not in it, and `expect` lines are, if there were any. */
static void write_history(desk *d, const char *name)
{
    FILE *file = fopen(name, "w");
    int failed = !file;

    for (size_t i = 0; file && i < d->linecount; i++)
        failed |= fprintf(file, "%s\n", d->lines[i]) < 0;
    if (file && fclose(file) != 0)
        failed = 1;
    if (failed)
        desk_wrong(d, "The file could not be written (%s).", strerror(errno));
    else
        say("    %zu command%s written to %s\n", d->linecount, d->linecount == 1 ? "" : "s", name);
}

COMMAND(history)
{
    if (words->count > 2) {
        command_usage(d, words);
    } else if (words->count == 2) {
        write_history(d, words->word[1]);
    } else {
        for (size_t i = 0; i < d->linecount && !(d->interrupted && d->interrupted()); i++)
            say("%5zu  %s\n", i + 1, d->lines[i]);
    }
}

COMMAND(undo)
{
    char line[65];

    if (words->count != 1) {
        command_usage(d, words);
        return;
    }
    steps_undo(d);
    draw_line(&d->card, line, 64);
    if (line[0])
        say("    [%s]\n", line);
}

COMMAND(quit)
{
    (void)words;
    d->over = d->scripts > 0 && !d->typed ? OVER_SCRIPT : OVER_ALL;
}
