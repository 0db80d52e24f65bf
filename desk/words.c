#include "words.h"

#include <ctype.h>
#include <stdlib.h>
#include <string.h>

static int is_space(char c)
{
    return c == ' ' || c == '\t';
}

int words_split(desk_words *words, const char *line)
{
    size_t length = strlen(line), i = 0;

    memset(words, 0, sizeof *words);
    words->line = line;
    words->text = malloc(length + 1);
    if (!words->text)
        return 0;
    memcpy(words->text, line, length + 1);
    while (words->count < DESK_WORDS) {
        while (is_space(line[i]))
            i++;
        if (i == length)
            break;
        words->at[words->count] = i;
        words->word[words->count++] = words->text + i;
        while (i < length && !is_space(line[i]))
            i++;
        words->text[i] = '\0';
    }
    return 1;
}

void words_free(desk_words *words)
{
    free(words->text);
    words->text = NULL;
}

const char *words_at(const desk_words *words, int i)
{
    return i < words->count ? words->word[i] : "";
}

const char *words_rest(const desk_words *words, int i)
{
    return i < words->count ? words->line + words->at[i] : "";
}

/* Reads digits, and moves behind them. */
static int digits(const char **at, uint32_t *number)
{
    uint64_t value = 0;

    if (!isdigit((unsigned char)**at))
        return 0;
    for (; isdigit((unsigned char)**at); ++*at) {
        value = value * 10 + (uint64_t)(**at - '0');
        if (value > UINT32_MAX)
            return 0;
    }
    *number = (uint32_t)value;
    return 1;
}

int read_number(const char *word, uint32_t *number)
{
    return digits(&word, number) && *word == '\0';
}

int read_date(const char *word, desk_date *date)
{
    return digits(&word, &date->year) && *word++ == '-' && digits(&word, &date->month) && *word++ == '-' &&
           digits(&word, &date->day) && *word == '\0';
}

int read_dose(const char *word, uint32_t *hundredths)
{
    uint32_t whole, part = 0;

    if (strcmp(word, "absent") == 0) {
        *hundredths = PAGUNLIT_COUNT_ABSENT;
        return 1;
    }
    if (!digits(&word, &whole) || whole > UINT32_MAX / 100 - 1)
        return 0;
    if (*word == '.') {
        const char *point = word++;
        if (!digits(&word, &part) || word - point > 3)
            return 0;
        if (word - point == 2)
            part *= 10;
    }
    *hundredths = whole * 100 + part;
    return *word == '\0';
}

int day_of(desk_date date, uint32_t *day)
{
    pagunlit_day found = pagunlit_day_of_date(date.year, date.month, date.day);

    *day = found.days;
    return found.number == PAGUNLIT_DONE;
}

desk_date date_of(uint32_t day)
{
    pagunlit_day found = pagunlit_day_of_number(day);
    desk_date date = {found.year, found.month, found.day};

    return date;
}
