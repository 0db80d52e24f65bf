/* What examples/course.c keeps, and its calls: each is lent what it needs, and prints a line. */
#ifndef EXAMPLES_CALLS_H
#define EXAMPLES_CALLS_H

#include "pagunlit_card.h"
#include "pagunlit_text.h"

#include <stdio.h>
#include <string.h>

enum { BLOCKS = 8, SHEETS = 4, WORDS = PAGUNLIT_MAP_WORDS(BLOCKS), SCRATCH = PAGUNLIT_SCRATCH_WORDS(BLOCKS) };

/* All that the library works on belongs to the program: the map of the card's blocks, the catalogue of its sheets, and the card
 * itself; for save and load the image of map and catalogue; a scratch for them and for closing; and beside the map a summary of
 * it, of three numbers for each group of words. A map of one word has one group. */
enum { NUMBERS = PAGUNLIT_SUMMARY_NUMBERS(BLOCKS) };
static uint64_t map[WORDS], scratch[SCRATCH];
static pagunlit_entry catalogue[SHEETS];
static uint8_t bytes[BLOCKS * PAGUNLIT_BLOCK_BYTES], image[PAGUNLIT_IMAGE_BYTES(BLOCKS, SHEETS)];
static uint32_t summary[NUMBERS];

/* The struct is lent all of it, and keeps the shape from call to call. The pharmacist may make all calls, a carer and the
 * service some. All sheets here are of wing 0, and it may hold any number of blocks, but where it is told. */
static pagunlit_card card;

static void lend(void)
{
    card.role = PAGUNLIT_PHARMACIST;
    card.map = map, card.maplen = WORDS;
    card.catalogue = catalogue, card.cataloguelen = SHEETS;
    card.card = bytes, card.cardlen = sizeof bytes;
    card.scratch = scratch, card.scratchlen = SCRATCH;
    pagunlit_card_no_limits(&card);
}

/* What stands in the place of block b: '.' if it is free, or the number of its sheet. Two sheets would show as '!'. */
static char holder(uint32_t b)
{
    char c = map[b / 64] >> (63 - b % 64) & 1 ? '.' : '?';

    for (uint32_t sheet = 0; sheet < SHEETS; sheet++) {
        const pagunlit_entry *e = &catalogue[sheet];

        if (e->start <= b && b < e->start + e->length)
            c = c == '?' ? (char)('0' + sheet) : '!';
    }
    return c;
}

/* Prints a line: the call, the card's blocks, and what the call answered. */
static void told(const char *call, pagunlit_outcome outcome)
{
    char blocks[BLOCKS + 1] = {0};

    for (uint32_t b = 0; b < BLOCKS; b++)
        blocks[b] = holder(b);
    printf("  %-26s %s  ", call, blocks);
    if (outcome.number != PAGUNLIT_DONE)
        printf("refused, %u: ", outcome.number);
    printf("%s", pagunlit_meaning(outcome.number));
    if (outcome.number == PAGUNLIT_PLACE_BLANK)
        printf(" (the lowest: place %u)", outcome.first);
    putchar('\n');
}

/* The image is stored. Here it is a variable, which stands for what the power leaves; a dispenser writes it to a file, and says
 * that it is saved once it is there. */
static void save(void)
{
    pagunlit_outcome saved = pagunlit_card_save(&card, image, sizeof image);

    told("save", saved);
    if (saved.number == PAGUNLIT_DONE)
        pagunlit_card_saved(&card);
}

/* What a release, a fresh card or a closing leaves is saved before blocks are taken: the struct tells. */
static void save_before_blocks(void)
{
    if (pagunlit_card_save_before_blocks(&card))
        save();
}

static void fresh(void)
{
    told("fresh", pagunlit_card_fresh(&card, BLOCKS));
}

static void reserve(uint32_t sheet, uint32_t places)
{
    char call[40];

    save_before_blocks();
    snprintf(call, sizeof call, "reserve sheet %u, places %u", sheet, places);
    told(call, pagunlit_card_reserve(&card, sheet, places));
}

/* Where a sheet would start, and how long it could become there. */
static void search(uint32_t places)
{
    pagunlit_outcome s = pagunlit_card_search(&card, places);

    if (s.number == PAGUNLIT_DONE)
        printf("      %u places would start at block %u, with space for %u\n", places, s.first, s.second);
    else
        printf("      %u places: refused, %u: %s\n", places, s.number, pagunlit_meaning(s.number));
}

/* A payload is 496 bytes: here a line of text, and zeros behind it. */
static void put(uint32_t sheet, uint32_t place, const char *line)
{
    uint8_t payload[PAGUNLIT_PAYLOAD_BYTES] = {0};
    char call[40];

    memcpy(payload, line, strlen(line));
    snprintf(call, sizeof call, "put sheet %u, place %u", sheet, place);
    told(call, pagunlit_card_put(&card, sheet, place, payload, sizeof payload));
}

/* Place 0 of a course that is shown by date starts with its first day and its last, as days since 1 January 2000. */
static void put_term(uint32_t sheet, pagunlit_day first, pagunlit_day last)
{
    uint8_t payload[PAGUNLIT_PAYLOAD_BYTES] = {0};
    char call[40];

    if (first.number != PAGUNLIT_DONE || last.number != PAGUNLIT_DONE ||
        pagunlit_write_term(payload, sizeof payload, first.days, last.days) != PAGUNLIT_DONE) {
        puts("      that is no term");
        return;
    }
    printf("      from day %u to day %u\n", first.days, last.days);
    snprintf(call, sizeof call, "put the term of sheet %u", sheet);
    told(call, pagunlit_card_put(&card, sheet, 0, payload, sizeof payload));
}

static void complete(uint32_t sheet)
{
    char call[40];

    snprintf(call, sizeof call, "complete sheet %u", sheet);
    told(call, pagunlit_card_complete(&card, sheet));
}

static void pause_sheet(uint32_t sheet)
{
    char call[40];

    snprintf(call, sizeof call, "pause sheet %u", sheet);
    told(call, pagunlit_card_pause(&card, sheet));
}

static void resume(uint32_t sheet)
{
    char call[40];

    snprintf(call, sizeof call, "resume sheet %u", sheet);
    told(call, pagunlit_card_resume(&card, sheet));
}

/* Where a sheet would go, to be seen before it is agreed to. */
static pagunlit_outcome offer(uint32_t sheet, uint32_t places)
{
    char call[40];
    pagunlit_outcome outcome = pagunlit_card_offer(&card, sheet, places);

    snprintf(call, sizeof call, "offer sheet %u, places %u", sheet, places);
    told(call, outcome);
    return outcome;
}

/* What was offered is agreed to, unless its blocks have been taken meanwhile. */
static void accept_offer(uint32_t sheet, pagunlit_outcome offered)
{
    char call[40];

    save_before_blocks();
    snprintf(call, sizeof call, "accept sheet %u at block %u", sheet, offered.first);
    told(call, pagunlit_card_accept(&card, sheet, offered.first, offered.second));
}

static void release(uint32_t sheet)
{
    char call[40];

    snprintf(call, sizeof call, "release sheet %u", sheet);
    told(call, pagunlit_card_release(&card, sheet));
}

/* From here on the struct is lent the summary: the calls that have a form with one are made in that form. */
static void lend_summary(void)
{
    card.summary = summary;
    card.summarylen = NUMBERS;
}

static void take_summary_back(void)
{
    card.summary = NULL;
}

/* The summary is written for the map as it is now. */
static void build_summary(void)
{
    told("build the summary", pagunlit_card_summary_build(&card));
}

/* What group 0, which is all words, says of the card, and whether that is still so. */
static void read_summary(void)
{
    pagunlit_outcome s = pagunlit_card_summary_check(&card);

    printf("      the summary says: longest run %u; it is %s\n", summary[2], s.first == 1 ? "the map's own" : "an old one");
}

static void show(uint32_t sheet, uint32_t place)
{
    uint8_t buffer[PAGUNLIT_PAYLOAD_BYTES];
    char call[40];
    pagunlit_outcome outcome = pagunlit_card_show(&card, sheet, place, buffer, sizeof buffer);

    snprintf(call, sizeof call, "show sheet %u, place %u", sheet, place);
    told(call, outcome);
    if (outcome.number == PAGUNLIT_DONE)
        printf("      \"%s\"\n", (const char *)buffer);
}

/* What a sheet shows on a day: nothing before its first or after its last. */
static void show_dated(uint32_t sheet, uint32_t place, uint32_t year, uint32_t month, uint32_t day)
{
    uint8_t buffer[PAGUNLIT_PAYLOAD_BYTES];
    char call[40];
    pagunlit_outcome outcome =
        pagunlit_card_show_dated(&card, sheet, place, year, month, day, buffer, sizeof buffer);

    snprintf(call, sizeof call, "show sheet %u on %u-%02u-%02u", sheet, year, month, day);
    told(call, outcome);
    if (outcome.number == PAGUNLIT_DONE)
        printf("      \"%s\"\n", (const char *)buffer);
}

/* All sheets move together towards block 0, and what their blocks hold moves along. */
static void close_gaps(void)
{
    told("close the gaps", pagunlit_card_close(&card));
}

/* The head of an image says how long a map and a catalogue it needs. This program has room for one card. */
static void load(void)
{
    uint32_t blocks = pagunlit_image_blocks(image, sizeof image), sheets = pagunlit_image_sheets(image, sizeof image);
    pagunlit_outcome loaded;

    printf("      the image is of %u blocks and %u sheets\n", blocks, sheets);
    if (blocks != BLOCKS || sheets != SHEETS)
        return;
    loaded = pagunlit_card_load(&card, image, sizeof image);
    told("load", loaded);
    if (loaded.number == PAGUNLIT_DONE)
        pagunlit_card_saved(&card); /* it is the last one saved */
}

/* The power is off: nothing is left but the card and the image. */
static void forget(void)
{
    memset(map, 0, sizeof map);
    memset(catalogue, 0, sizeof catalogue);
    memset(&card, 0, sizeof card);
    lend();
}

/* What stands for each sheet. */
static void standings(void)
{
    for (uint32_t sheet = 0; sheet < SHEETS; sheet++) {
        pagunlit_outcome s = pagunlit_card_standing(&card, sheet);

        printf("      sheet %u: %c, start %u, length %u\n", sheet, (char)s.first, s.second, s.third);
    }
}

/* How full the card is. */
static void survey(void)
{
    pagunlit_outcome s = pagunlit_card_survey(&card);

    printf("      free blocks %u, runs of them %u, longest run %u\n", s.first, s.second, s.third);
}

#endif
