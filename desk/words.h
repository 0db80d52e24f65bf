/* A line, taken apart into words, and what a word can be: a number, a date, a dose. */
#ifndef DESK_WORDS_H
#define DESK_WORDS_H

#include "card.h"

typedef struct { uint32_t from, before, step; } desk_figures;
typedef struct { uint32_t year, month, day; } desk_date;

enum { DESK_WORDS = 16 };

/* The words of a line, at most DESK_WORDS, and where each begins in the line. */
typedef struct {
    const char *line;
    char *text;
    const char *word[DESK_WORDS];
    size_t at[DESK_WORDS];
    int count;
} desk_words;

/* 0 if there is not enough memory. */
int words_split(desk_words *words, const char *line);
void words_free(desk_words *words);

/* Word i, or "" where the line has fewer. */
const char *words_at(const desk_words *words, int i);

/* The line from word i on, as it was typed; "" where the line has fewer. */
const char *words_rest(const desk_words *words, int i);

/* Each reads all of a word, and gives 0 where it is something else. */
int read_number(const char *word, uint32_t *number);
int read_date(const char *word, desk_date *date);

/* 2.50 or 3 as hundredths, `absent` as PAGUNLIT_COUNT_ABSENT. More than a count can hold is read too, for the library to
 * refuse. */
int read_dose(const char *word, uint32_t *hundredths);

/* A date as its day since 1 January 2000, for the two days of a term. 0 where there is no such day in the years 2000 to 2099:
 * a term may have any day, and `term` takes the day's number as well. */
int day_of(desk_date date, uint32_t *day);
desk_date date_of(uint32_t day);

#endif
