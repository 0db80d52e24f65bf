#include "say.h"

#include <stdarg.h>
#include <stdio.h>
#include <stdlib.h>
#include <string.h>

enum { LEAST = 20, LIST = 24 }; /* no line is broken at fewer columns; where the text of a list begins at the latest */

static size_t width, printed;
static char *begun; /* a line whose end is still to be said */

void say_width(size_t columns)
{
    width = columns >= LEAST ? columns : 0;
}

int say_wraps(void)
{
    return width > 0;
}

size_t say_lines(void)
{
    size_t lines = printed;

    printed = 0;
    return lines;
}

/* Columns of a text, in UTF-8: the further bytes of a letter have none. */
static size_t columns_of(const char *text, size_t length)
{
    size_t columns = 0;

    for (size_t i = 0; i < length; i++)
        columns += ((unsigned char)text[i] & 0xC0) != 0x80;
    return columns;
}

/* Where the text of a line begins: behind the spaces at its head, and in a list behind the columns before its last one. */
static size_t text_at(const char *line)
{
    size_t at = 0;

    for (size_t i = 0; i < LIST && line[i] && line[i + 1]; i++)
        if (line[i] == ' ' && line[i + 1] != ' ' && (i == 0 || line[i - 1] == ' '))
            at = i + 1;
    return at;
}

/* The last space at which so many columns can be broken off a line, behind its byte `from`; 0 if there is none. */
static size_t break_at(const char *line, size_t from, size_t columns)
{
    size_t at = 0, length = strlen(line);

    for (size_t i = from; i < length && columns_of(line, i) <= columns; i++)
        if (line[i] == ' ' && i > from)
            at = i;
    return at;
}

static void print_line(const char *line)
{
    size_t indent = text_at(line), before = 0, at;

    for (size_t from = indent; width > 0 && columns_of(line, strlen(line)) > width - before; from = 0) {
        at = break_at(line, from, width - before);
        if (at == 0)
            break;
        printf("%.*s\n%*s", (int)at, line, (int)indent, "");
        line += at + 1;
        before = indent;
        printed++;
    }
    puts(line);
    printed++;
}

/* Puts a text behind what was begun, and prints each line that is whole. 0 if there is not enough memory. */
static int add(const char *text)
{
    size_t had = begun ? strlen(begun) : 0;
    char *more = realloc(begun, had + strlen(text) + 1), *end;

    if (!more)
        return 0;
    begun = strcpy(more + had, text) - had;
    for (char *line = begun;; line = end + 1) {
        end = strchr(line, '\n');
        if (!end) {
            memmove(begun, line, strlen(line) + 1);
            break;
        }
        *end = '\0';
        print_line(line);
    }
    if (!begun[0]) {
        free(begun);
        begun = NULL;
    }
    return 1;
}

int say(const char *format, ...)
{
    char few[256], *text = few;
    va_list values;

    va_start(values, format);
    int length = vsnprintf(few, sizeof few, format, values);
    va_end(values);
    if (length >= (int)sizeof few && (text = malloc((size_t)length + 1))) {
        va_start(values, format);
        vsnprintf(text, (size_t)length + 1, format, values);
        va_end(values);
    }
    if (!text || !add(text))
        fputs("(there is not enough memory to print this)\n", stdout);
    if (text != few)
        free(text);
    return length;
}

int say_line(const char *text)
{
    return say("%s\n", text);
}
