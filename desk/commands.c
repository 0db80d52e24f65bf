/* The commands by their names, help, and what is said of a line that is none of them. */
#include "desk.h"

#include <ctype.h>
#include <stdarg.h>
#include <stdio.h>
#include <string.h>

const desk_command commands[] = {
    {"fresh", "BLOCKS SHEETS", "make a card: all blocks free, all sheets Absent", command_fresh, CALL_FRESH},
    {"reserve", "SHEET COUNT [from BLOCK] [before BLOCK] [step COUNT]",
     "an Absent sheet becomes Open with COUNT blank places, at the lowest run (within the figures)", command_reserve,
     CALL_PLACED},
    {"put", "SHEET PLACE TEXT", "put a text to a place of an Open sheet", command_put, CALL_PUT},
    {"term", "SHEET FIRST LAST [TEXT]", "put the first and the last day of a course, and a text, to place 0", command_term,
     CALL_PUT},
    {"count", "SHEET PLACE [WHICH [DOSE]]",
     "put a dose count (2.50, absent) to a place; or show one, or all, of a Complete sheet", command_count, CALL_WRITE_COUNT},
    {"complete", "SHEET", "an Open sheet becomes Complete, if none of its places is blank", command_complete, CALL_COMPLETE},
    {"show", "SHEET PLACE [on YYYY-MM-DD]", "show a place of a Complete sheet (on a day of its term)", command_show,
     CALL_DATED},
    {"grow", "SHEET COUNT", "an Open sheet gets COUNT more blank places behind its last", command_grow, CALL_GROW},
    {"pause", "SHEET", "an Absent or a Complete sheet becomes Paused", command_pause, CALL_PAUSE},
    {"resume", "SHEET", "a Paused sheet with blocks becomes Complete again", command_resume, CALL_RESUME},
    {"release", "SHEET", "a sheet becomes Absent, and its blocks free", command_release, CALL_RELEASE},
    {"offer", "SHEET COUNT", "where a reserve would put the sheet; nothing is changed", command_offer, CALL_OFFER},
    {"accept", "[SHEET START COUNT]", "reserve the blocks from START on; without arguments: what was offered last",
     command_accept, CALL_ACCEPT},
    {"standing", "SHEET", "what stands for a sheet: its mark, start and length", command_standing, CALL_STANDING},
    {"search", "COUNT", "the lowest run of COUNT free blocks, and the space behind it", command_search, CALL_SEARCH},
    {"survey", "", "the free blocks, the runs of them and the longest run", command_survey, CALL_SURVEY},
    {"close", "", "close the gaps: all sheets move towards block 0", command_close, CALL_CLOSE},
    {"save", "[FILE]", "save map and catalogue as an image", command_save, CALL_SAVE},
    {"load", "[FILE]", "load an image", command_load, CALL_LOAD},
    {"cut", "[torn BLOCK BYTES]",
     "cut the power: the memory is lost, the card's bytes stay, and the image that was saved last is loaded; of the last write"
     " to BLOCK only BYTES came to the card", command_cut, CALL_LOAD},
    {"rule", "", "whether all is saved, and what the rule for saving asks next", command_rule, CALLS},
    {"limit", "[WING BLOCKS|none]", "the most blocks that a wing may hold; without arguments: all limits", command_limit,
     CALLS},
    {"summary", "on|off|check", "keep a summary beside the map; check whether it is the map's own", command_summary,
     CALL_CHECK},
    {"role", "[pharmacist|carer|service|NUMBER]", "who makes the calls", command_role, CALLS},
    {"break", "block BLOCK byte BYTE | entry SHEET [mark|start|length NUMBER] | bit BLOCK | free COUNT | image BYTE",
     "damage something on purpose", command_break, CALLS},
    {"card", "", "the card as a grid, and its sheets", command_card, CALLS},
    {"picture", "FILE.svg", "the card as a picture", command_picture, CALLS},
    {"data", "card | commands | block BLOCK | sheet SHEET | picture WIDTH [FROM COUNT] | legend", "the same for programs",
     command_data, CALLS},
    {"why", "", "which rows the last call passed, and which one held", command_why, CALLS},
    {"expect", "NUMBER [VALUE ..] | shown TEXT | card LETTERS", "compare the last answer, what was shown, or the card",
     command_expect, CALLS},
    {"run", "FILE", "run the commands of a file, a lesson for one", command_script, CALLS},
    {"history", "[FILE]", "every command so far; with FILE: as a script that `run` takes", command_history, CALLS},
    {"undo", "", "take back the last command that changed something", command_undo, CALLS},
    {"help", "[COMMAND]", "this list, or a command with the rows that can refuse it; also `?`", command_help, CALLS},
    {"quit", "", "the end", command_quit, CALLS},
    {NULL, NULL, NULL, NULL, CALLS},
};

static const desk_command *command_named(const char *name)
{
    if (strcmp(name, "?") == 0)
        name = "help";
    for (const desk_command *command = commands; command->name; command++)
        if (strcmp(command->name, name) == 0)
            return command;
    return NULL;
}

void desk_wrong(desk *d, const char *format, ...)
{
    va_list values;

    char text[512];

    va_start(values, format);
    vsnprintf(text, sizeof text, format, values);
    va_end(values);
    if (d->typed)
        say("%s\n", text);
    else
        say("line %zu: %s\n", d->number, text);
    d->failed |= !d->typed;
    d->wrong = 1;
}

static const char *space_before(const char *arguments)
{
    return arguments[0] ? " " : "";
}

int command_usage(desk *d, const desk_words *words)
{
    const desk_command *command = command_named(words->word[0]);

    desk_wrong(d, "It is used as: %s%s%s", command->name, space_before(command->arguments), command->arguments);
    return 0;
}

int command_number(desk *d, const desk_words *words, int i, const char *name, uint32_t *number)
{
    if (i >= words->count)
        return command_usage(d, words);
    if (read_number(words->word[i], number))
        return 1;
    desk_wrong(d, "`%.40s` is no number from 0 to 4294967295, and %s has to be one.", words->word[i], name);
    return command_usage(d, words);
}

static void help_one(desk *d, const char *name)
{
    const desk_command *command = command_named(name);

    if (!command) {
        desk_wrong(d, "There is no command `%.40s`. `help` lists them.", name);
        return;
    }
    say("%s%s%s\n  %s\n", command->name, space_before(command->arguments), command->arguments, command->text);
    if (command->call == CALLS)
        return;
    say_line("  What can refuse it; the first that holds is the answer:");
    for (const desk_row *row = rows_of(command->call); *row != NO_ROW; row++)
        say("    %2u  %s\n", rows_number(*row), rows_sentence(*row));
}

void command_help(desk *d, const desk_words *words)
{
    if (words->count > 1) {
        help_one(d, words->word[1]);
        return;
    }
    say_line("A card is blocks in a row; a sheet is a prescription that holds a run of them. All are counted from 0.");
    for (const desk_command *command = commands; command->name; command++)
        say("  %-9s %s\n", command->name, command->text);
    say_line("`help reserve` has its arguments, and what can refuse it. A line that begins with # is a comment.");
}

static size_t least(size_t a, size_t b, size_t c)
{
    size_t ab = a < b ? a : b;

    return ab < c ? ab : c;
}

/* How many letters have to be added, left out or changed to make a command's name of a word. Capitals are no difference, and
 * long words are nothing alike. */
static size_t unlike(const char *a, const char *b)
{
    enum { LONGEST = 24 };
    size_t m = strlen(a), n = strlen(b), row[LONGEST + 1];

    if (m > LONGEST || n > LONGEST)
        return LONGEST;
    for (size_t j = 0; j <= n; j++)
        row[j] = j;
    for (size_t i = 1; i <= m; i++) {
        size_t before = row[0];

        row[0] = i;
        for (size_t j = 1; j <= n; j++) {
            size_t above = row[j];

            row[j] = least(above + 1, row[j - 1] + 1, before + (tolower((unsigned char)a[i - 1]) != b[j - 1]));
            before = above;
        }
    }
    return row[n];
}

static void no_command(desk *d, const char *word)
{
    const desk_command *nearest = commands;

    for (const desk_command *command = commands; command->name; command++)
        if (unlike(word, command->name) < unlike(word, nearest->name))
            nearest = command;
    if (unlike(word, nearest->name) <= 2)
        desk_wrong(d, "There is no command `%.40s`. Is it `%s`? `help` lists all.", word, nearest->name);
    else
        desk_wrong(d, "There is no command `%.40s`. `help` lists them.", word);
}

/* Whether all of a line can be printed. */
static int is_text(const char *line)
{
    for (; *line; line++)
        if ((unsigned char)*line < 0x20 ? *line != '\t' : *line == 0x7F)
            return 0;
    return 1;
}

static void run_words(desk *d, const desk_words *words)
{
    const desk_command *command = command_named(words->word[0]);

    if (!command) {
        no_command(d, words->word[0]);
    } else if (command->run == command_undo || command->run == command_script) {
        command->run(d, words); /* no step of its own: a script has a step for each of its commands */
    } else if (!steps_begin(d, words->line)) {
        desk_wrong(d, "There is not enough memory for this command.");
    } else {
        command->run(d, words);
        steps_end(d);
    }
}

void command_run(desk *d, const char *line)
{
    desk_words words;

    if (!is_text(line)) {
        desk_wrong(d, "The line has signs that are no text. `help` lists the commands.");
        return;
    }
    if (!words_split(&words, line)) {
        desk_wrong(d, "There is not enough memory for this line.");
        return;
    }
    if (words.count > 0 && words.word[0][0] != '#')
        run_words(d, &words);
    words_free(&words);
}
