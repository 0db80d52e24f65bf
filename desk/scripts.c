/* Lines that are given to the console, one by one: from a script, from standard input, or typed on a terminal. */
#include "desk.h"

#include <errno.h>
#include <stdlib.h>
#include <string.h>

/* A script may run another, and that another: so deep, and no further. */
enum { DEEPEST = 8 };

/* Keeps a command for `history`. One that does not fit into memory is left out. */
static void remember(desk *d, const char *line)
{
    if (d->linecount % 64 == 0) {
        char **more = realloc(d->lines, (d->linecount + 64) * sizeof *more);
        if (!more)
            return;
        d->lines = more;
    }
    if ((d->lines[d->linecount] = strdup(line)))
        d->linecount++;
}

static int begins_with(const char *line, const char *command)
{
    size_t length = strlen(command);

    line += strspn(line, " \t");
    return strncmp(line, command, length) == 0 && (line[length] == '\0' || line[length] == ' ' || line[length] == '\t');
}

/* Whether a line, given again in a script, does again what it did. The lines of a script that was run are kept in the place of
 * the line that ran it. */
static int is_kept(const desk *d, const char *line)
{
    static const char *const others[] = {"run", "history", "quit"};

    for (size_t i = 0; i < sizeof others / sizeof *others; i++)
        if (begins_with(line, others[i]))
            return 0;
    return !d->wrong && line[strspn(line, " \t")] && line[0] != '#';
}

const char *script_prompt(const desk *d)
{
    static char text[24];

    snprintf(text, sizeof text, "%s> ", d->card.lent.role == PAGUNLIT_PHARMACIST ? "" : role_name(d->card.lent.role));
    return text;
}

/* A comment, which is a part of a paragraph where lines are wrapped. */
static void echo_comment(desk *d, const char *text)
{
    if (!say_wraps() || !text[0]) {
        say("%s\n", text);
        return;
    }
    say(d->paragraph ? " %s" : "%s", text);
    d->paragraph = 1;
}

static void end_paragraph(desk *d)
{
    if (d->paragraph)
        say("\n");
    d->paragraph = 0;
}

/* A comment that is read aloud, or a command, as a script has it. An `expect` says something only where it does not hold. */
static void echo(desk *d, const char *line)
{
    const char *text = line[0] == '#' ? line + 1 + (line[1] == ' ') : "";

    if (!text[0])
        end_paragraph(d);
    if (line[0] == '#')
        echo_comment(d, text);
    else if (line[0] && !begins_with(line, "expect"))
        say("%s%s\n", script_prompt(d), line);
    else if (!line[0] && !d->pause)
        say("\n");
}

void script_line(desk *d, const char *line)
{
    d->wrong = 0;
    command_run(d, line);
    if (is_kept(d, line))
        remember(d, line);
    fflush(stdout);
}

/* The next line without its end, or 0. One with a zero byte in it is no text, and is made one that is refused as such. */
static int next_line(char **line, size_t *size, FILE *input)
{
    ssize_t length = getline(line, size, input);

    if (length < 0)
        return 0;
    if (length > 0 && (*line)[length - 1] == '\n')
        (*line)[--length] = '\0';
    if (strlen(*line) != (size_t)length)
        strcpy(*line, "\x01");
    return 1;
}

void script_stream(desk *d, FILE *input, int is_script)
{
    char *line = NULL;
    size_t size = 0;

    while (!d->over && next_line(&line, &size, input)) {
        d->number++;
        if (is_script)
            echo(d, line);
        script_line(d, line);
        if (is_script && d->pause && !d->pause(d, line))
            break;
    }
    end_paragraph(d);
    free(line);
}

int script_run(desk *d, const char *name)
{
    FILE *script = fopen(name, "r");
    size_t number = d->number;
    int typed = d->typed, error;

    if (!script)
        return 0;
    d->number = 0;
    d->typed = 0;
    d->scripts++;
    script_stream(d, script, 1);
    error = ferror(script) ? errno : 0;
    d->scripts--;
    d->over = d->over == OVER_ALL ? OVER_ALL : 0;
    d->typed = typed;
    d->number = number;
    fclose(script);
    errno = error;
    return error == 0;
}

void desk_free(desk *d)
{
    steps_free(d);
    card_free(&d->card);
    free(d->image);
    while (d->linecount > 0)
        free(d->lines[--d->linecount]);
    free(d->lines);
}

COMMAND(script)
{
    if (words->count != 2)
        command_usage(d, words);
    else if (d->scripts >= DEEPEST)
        desk_wrong(d, "The scripts run each other %d deep: this one is left out.", DEEPEST);
    else if (!script_run(d, words->word[1]))
        desk_wrong(d, "The file could not be read (%s).", strerror(errno));
}
