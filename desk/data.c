/* What a program wants to know of the console, as one line of JSON: the card, its commands with their arguments and rows, a
 * block, a sheet. The page in page/ draws and offers by it. Nothing is decided here: what a sheet is and what a role may do is
 * asked of the library. */
#include "block.h"
#include "data.h"
#include "picture.h"

#include <stdio.h>
#include <stdlib.h>
#include <string.h>

void data_text(const char *text)
{
    putchar('"');
    for (; *text; text++)
        if (*text == '"' || *text == '\\')
            printf("\\%c", *text);
        else if ((unsigned char)*text < 0x20)
            printf("\\u%04x", *text);
        else
            putchar(*text);
    putchar('"');
}

/* A name and its text. */
static void named(const char *name, const char *text)
{
    printf("\"%s\":", name);
    data_text(text);
}

/* The rows of the last call: number, whether it was passed or held, sentence. */
static void print_said(const desk_said *said)
{
    const pagunlit_outcome *o = &said->outcome;
    int held = 0;

    if (!said->made) {
        printf("\"said\":null");
        return;
    }
    printf("\"said\":{\"number\":%u,\"values\":[%u,%u,%u],", o->number, o->first, o->second, o->third);
    named("call", rows_name(said->call));
    printf(",\"rows\":[");
    for (const desk_row *row = rows_of(said->call); *row != NO_ROW; row++) {
        printf("%s[%u,\"%s\",", row == rows_of(said->call) ? "" : ",", rows_number(*row),
               held ? "not asked" : *row == said->row ? "held" : "passed");
        data_text(rows_sentence(*row));
        putchar(']');
        held |= *row == said->row;
    }
    printf("]}");
}

/* A sheet as the library's standing answers it: number, standing, start and length. */
static void print_standing(uint32_t sheet, pagunlit_outcome said)
{
    printf("\"sheet\":%u,\"number\":%u,\"standing\":\"%s\",\"start\":%u,\"length\":%u", sheet, said.number,
           said.number == PAGUNLIT_DONE ? draw_standing(said.first) : "", said.second, said.third);
}

/* The sheets that are not Absent, and how many blocks each wing holds. */
static void print_sheets(desk_card *card)
{
    uint32_t held[PAGUNLIT_WINGS] = {0};
    const char *comma = "";

    printf("\"list\":[");
    for (uint32_t sheet = 0; sheet < card->lent.cataloguelen; sheet++) {
        pagunlit_outcome said = pagunlit_card_standing(&card->lent, sheet);

        if (said.number == PAGUNLIT_DONE && said.first == PAGUNLIT_ABSENT)
            continue;
        desk_look look = picture_look(card, (int32_t)sheet);

        printf("%s{", comma);
        print_standing(sheet, said);
        printf(",\"fill\":\"%s\",\"ink\":\"%s\"}", look.fill, look.ink);
        comma = ",";
        held[sheet / PAGUNLIT_WING_SHEETS % PAGUNLIT_WINGS] += said.number == PAGUNLIT_DONE ? said.third : 0;
    }
    printf("],\"wings\":[");
    for (uint32_t wing = 0; wing < PAGUNLIT_WINGS; wing++) {
        printf("%s[%u,", wing ? "," : "", held[wing]);
        printf(card->lent.limits[wing] == UINT32_MAX ? "null]" : "%u]", card->lent.limits[wing]);
    }
    putchar(']');
}

/* The commands that `undo` can take back, the oldest first. */
static void print_steps(const desk *d)
{
    printf("\"made\":%zu,\"steps\":[", d->made);
    for (size_t i = 0; i < d->taken; i++) {
        if (i > 0)
            putchar(',');
        data_text(d->steps[i].line);
    }
    putchar(']');
}

static void print_survey(desk_card *card)
{
    pagunlit_outcome said = pagunlit_card_survey(&card->lent);

    printf("\"survey\":[%u,%u,%u,%u]", said.number, said.first, said.second, said.third);
}

static void print_card(desk *d)
{
    desk_card *card = &d->card;

    printf("{\"blocks\":%u,\"sheets\":%zu,\"free\":%u,\"role\":%u,", card_blocks(card), card->lent.cataloguelen,
           card->lent.shape.free, card->lent.role);
    named("who", role_name(card->lent.role));
    printf(",\"broken\":%d,\"summary\":%d,\"image\":%zu,\"failed\":%d,", card->broken, card_lends_summary(card), d->imagelen,
           d->failed);
    print_survey(card);
    putchar(',');
    print_sheets(card);
    putchar(',');
    print_steps(d);
    putchar(',');
    data_changes(d);
    putchar(',');
    print_said(&d->said);
    puts("}");
}

/* The counts of a payload that are there, if all of it are counts; else nothing. */
static void print_counts(const uint8_t *payload)
{
    const char *comma = "";

    for (uint32_t which = 0; which < PAGUNLIT_PAYLOAD / 4; which++)
        if (pagunlit_read_count(payload, PAGUNLIT_PAYLOAD, which).number != PAGUNLIT_DONE)
            return;
    printf(",\"counts\":[");
    for (uint32_t which = 0; which < PAGUNLIT_PAYLOAD / 4; which++) {
        pagunlit_count count = pagunlit_read_count(payload, PAGUNLIT_PAYLOAD, which);

        if (count.hundredths == PAGUNLIT_COUNT_ABSENT)
            continue;
        printf("%s[%u,\"%u.%02u\"]", comma, which, count.hundredths / 100, count.hundredths % 100);
        comma = ",";
    }
    putchar(']');
}

static uint32_t number_at(const uint8_t *bytes)
{
    return (uint32_t)bytes[0] << 24 | (uint32_t)bytes[1] << 16 | (uint32_t)bytes[2] << 8 | bytes[3];
}

/* What a block of the card says by itself: whose it is, and its text, term or counts. A term is seen by its two days. */
static void print_bytes(const uint8_t *block)
{
    const uint8_t *payload = block + 8;
    uint32_t first = number_at(payload), last = number_at(payload + 4);
    int dated = number_at(block + 4) == 0 && first <= last && last <= 36524 && last > 0;
    char text[DESK_TEXT];

    printf(",\"check\":%d,\"ofSheet\":%u,\"ofPlace\":%u,", check(block, PAGUNLIT_BLOCK) == BLOCK_HOLDS, number_at(block),
           number_at(block + 4));
    if (dated) {
        desk_date from = date_of(first), to = date_of(last);

        printf("\"term\":[\"%u-%02u-%02u\",\"%u-%02u-%02u\"],", from.year, from.month, from.day, to.year, to.month, to.day);
    }
    answer_text(payload + (dated ? 8 : 0), PAGUNLIT_PAYLOAD - (dated ? 8 : 0), text);
    named("text", text);
    if (!dated)
        print_counts(payload);
}

/* The sheet whose entry covers a block, or none. */
static uint32_t covering(const desk_card *card, uint32_t block)
{
    for (uint32_t sheet = 0; sheet < card->lent.cataloguelen; sheet++) {
        const pagunlit_entry *entry = &card->lent.catalogue[sheet];

        if (block >= entry->start && block - entry->start < entry->length)
            return sheet;
    }
    return UINT32_MAX;
}

static void print_block(desk *d, uint32_t block)
{
    desk_card *card = &d->card;
    uint32_t sheet = covering(card, block);

    printf("{\"block\":%u,\"free\":%d,\"blank\":%d", block, card_is_free(card, block), card_is_blank(card, block));
    if (sheet != UINT32_MAX) {
        putchar(',');
        print_standing(sheet, pagunlit_card_standing(&card->lent, sheet));
        printf(",\"place\":%u", block - card->lent.catalogue[sheet].start);
    }
    if (!card_is_blank(card, block))
        print_bytes(card->lent.card + (size_t)PAGUNLIT_BLOCK * block);
    puts("}");
}

/* A sheet, and its lowest blank place. */
static void print_sheet(desk *d, uint32_t sheet)
{
    uint32_t place = 0;
    const pagunlit_entry *entry = &d->card.lent.catalogue[sheet];

    while (card_place(&d->card, sheet, place) && !card_is_blank(&d->card, entry->start + place))
        place++;
    putchar('{');
    print_standing(sheet, pagunlit_card_standing(&d->card.lent, sheet));
    printf(",\"wing\":%u,\"blank\":", sheet / PAGUNLIT_WING_SHEETS);
    printf(card_place(&d->card, sheet, place) ? "%u}\n" : "null}\n", place);
}

COMMAND(data)
{
    const char *what = words_at(words, 1);
    uint32_t number = 0;

    if (strcmp(what, "card") == 0 && words->count == 2)
        print_card(d);
    else if (strcmp(what, "commands") == 0 && words->count == 2)
        data_commands();
    else if (strcmp(what, "picture") == 0)
        data_picture(d, words);
    else if (strcmp(what, "legend") == 0 && words->count == 2)
        data_legend();
    else if (words->count != 3 || (strcmp(what, "block") != 0 && strcmp(what, "sheet") != 0))
        command_usage(d, words);
    else if (!command_number(d, words, 2, what, &number))
        return;
    else if (number >= (what[0] == 'b' ? card_blocks(&d->card) : d->card.lent.cataloguelen))
        desk_wrong(d, "The card has %u blocks and %zu sheets, counted from 0.", card_blocks(&d->card),
                   d->card.lent.cataloguelen);
    else if (what[0] == 'b')
        print_block(d, number);
    else
        print_sheet(d, number);
}
