/* What calls.c lends, and a function for each call: it prints what came back and what was changed. */
#ifndef HEADER_LENT_H
#define HEADER_LENT_H

#include "pagunlit.h"
#include "pagunlit_text.h"

#include <inttypes.h>
#include <stdio.h>
#include <string.h>

enum { N = 70, C = 3, W = PAGUNLIT_MAP_WORDS(N), S = PAGUNLIT_SCRATCH_WORDS(N) };

enum { CARD = N * PAGUNLIT_BLOCK, IMAGE = PAGUNLIT_IMAGE_BYTES(N, C), NUMBERS = PAGUNLIT_SUMMARY_NUMBERS(N) };

/* Who makes the calls. */
static uint32_t role = PAGUNLIT_PHARMACIST;

static pagunlit_shape shape;
static uint64_t map[W], scratch[S];
static pagunlit_entry catalogue[C];
static uint8_t card[CARD], image[IMAGE], slice[PAGUNLIT_PAYLOAD];
static uint32_t summary[NUMBERS];

/* The limits of the eight wings. All sheets are in the first; the others differ from it and from each other. */
static uint32_t limits[PAGUNLIT_WINGS] = {N, 1, 2, 3, 4, 5, 6, 7};

/* A number for a run of bytes (FNV-1a), so that a line stays short. */
static uint64_t number_of(const void *bytes, size_t length)
{
    uint64_t number = 0xcbf29ce484222325;

    for (size_t i = 0; i < length; i++)
        number = (number ^ ((const uint8_t *)bytes)[i]) * 0x100000001b3;
    return number;
}

static void fill(uint8_t *bytes, size_t length, uint32_t seed)
{
    for (size_t i = 0; i < length; i++)
        bytes[i] = (uint8_t)(seed + 7 * i + i / 256);
}

/* A scratch of some words, that held something. */
static void hold_scratch(void)
{
    for (uint32_t i = 0; i < S; i++)
        scratch[i] = 0xfedcba9876543210 + i;
}

/* Whatever was there before: nothing of it may be taken for a card. */
static void disorder(void)
{
    shape.blocks = 11;
    shape.free = 12;
    for (uint32_t i = 0; i < W; i++)
        map[i] = 0x0123456789abcdef + i;
    hold_scratch();
    for (uint32_t s = 0; s < C; s++) {
        catalogue[s].mark = 3 * s + 1;
        catalogue[s].start = 3 * s + 2;
        catalogue[s].length = 3 * s + 3;
    }
    for (uint32_t i = 0; i < NUMBERS; i++)
        summary[i] = 40 + i;
    fill(slice, sizeof slice, 99);
}

static void told(const char *call, pagunlit_outcome outcome)
{
    printf("%s\tshape %u %u number %u values %u %u %u map", call, outcome.shape.blocks, outcome.shape.free, outcome.number,
           outcome.first, outcome.second, outcome.third);
    for (uint32_t i = 0; i < W; i++)
        printf(" %016" PRIx64, map[i]);
    printf(" catalogue");
    for (uint32_t s = 0; s < C; s++)
        printf(" %u/%u/%u", catalogue[s].mark, catalogue[s].start, catalogue[s].length);
    printf(" scratch");
    for (uint32_t i = 0; i < S; i++)
        printf(" %016" PRIx64, scratch[i]);
    printf(" summary");
    for (uint32_t i = 0; i < NUMBERS; i++)
        printf(" %u", summary[i]);
    printf(" card %016" PRIx64 " image %016" PRIx64 " slice %016" PRIx64 "\n", number_of(card, sizeof card),
           number_of(image, sizeof image), number_of(slice, sizeof slice));
    shape = outcome.shape;
}

/* Another role for the calls that follow. */
static void by_role(const char *name, uint32_t other)
{
    role = other;
    printf("%s\t\n", name);
}

/* Another limit for the first wing. */
static void limit(const char *name, uint32_t blocks)
{
    limits[0] = blocks;
    printf("%s\t\n", name);
}

static void reserve(const char *call, uint32_t sheet, uint32_t count)
{
    told(call, pagunlit_reserve(role, shape, map, W, catalogue, C, card, sizeof card, limits, sheet, count));
}

static void reserve_placed(const char *call, uint32_t sheet, uint32_t count, uint32_t from, uint32_t before, uint32_t step)
{
    told(call, pagunlit_reserve_placed(role, shape, map, W, catalogue, C, card, sizeof card, limits, sheet, count, from,
                                       before, step));
}

static void offer(const char *call, uint32_t sheet, uint32_t count)
{
    told(call, pagunlit_offer(role, shape, map, W, catalogue, C, card, sizeof card, limits, sheet, count));
}

static void take(const char *call, uint32_t sheet, uint32_t start, uint32_t count)
{
    told(call, pagunlit_accept(role, shape, map, W, catalogue, C, card, sizeof card, limits, sheet, start, count));
}

static void grow(const char *call, uint32_t sheet, uint32_t count)
{
    told(call, pagunlit_grow(role, shape, map, W, catalogue, C, card, sizeof card, limits, sheet, count));
}

static void reserve_with_summary(const char *call, uint32_t sheet, uint32_t count)
{
    told(call, pagunlit_reserve_with_summary(role, shape, map, W, summary, NUMBERS, catalogue, C, card, sizeof card, limits,
                                             sheet, count));
}

static void reserve_placed_with_summary(const char *call, uint32_t sheet, uint32_t count, uint32_t from, uint32_t before,
                                        uint32_t step)
{
    told(call, pagunlit_reserve_placed_with_summary(role, shape, map, W, summary, NUMBERS, catalogue, C, card, sizeof card,
                                                    limits, sheet, count, from, before, step));
}

static void take_with_summary(const char *call, uint32_t sheet, uint32_t start, uint32_t count)
{
    told(call, pagunlit_accept_with_summary(role, shape, map, W, summary, NUMBERS, catalogue, C, card, sizeof card, limits,
                                            sheet, start, count));
}

static void grow_with_summary(const char *call, uint32_t sheet, uint32_t count)
{
    told(call, pagunlit_grow_with_summary(role, shape, map, W, summary, NUMBERS, catalogue, C, card, sizeof card, limits,
                                          sheet, count));
}

static void release_with_summary(const char *call, uint32_t sheet)
{
    told(call, pagunlit_release_with_summary(role, shape, map, W, summary, NUMBERS, catalogue, C, sheet));
}

static void build(const char *call, size_t length)
{
    told(call, pagunlit_summary_build(role, shape, map, W, summary, length));
}

static void check_summary(const char *call)
{
    told(call, pagunlit_summary_check(role, shape, map, W, summary, NUMBERS));
}

static void put(const char *call, uint32_t sheet, uint32_t place)
{
    fill(slice, sizeof slice, 16 * sheet + place);
    told(call, pagunlit_put(role, shape, map, W, catalogue, C, card, sizeof card, sheet, place, slice, sizeof slice));
}

/* A payload that starts with the first and the last day of a term, the high byte first. */
static void put_term(const char *call, uint32_t sheet, uint32_t place, uint32_t first, uint32_t last)
{
    fill(slice, sizeof slice, 16 * sheet + place);
    for (uint32_t i = 0; i < 4; i++) {
        slice[i] = (uint8_t)(first >> (24 - 8 * i));
        slice[4 + i] = (uint8_t)(last >> (24 - 8 * i));
    }
    told(call, pagunlit_put(role, shape, map, W, catalogue, C, card, sizeof card, sheet, place, slice, sizeof slice));
}

static void complete(const char *call, uint32_t sheet)
{
    told(call, pagunlit_complete(role, shape, map, W, catalogue, C, card, sizeof card, sheet));
}

static void show(const char *call, uint32_t sheet, uint32_t place)
{
    fill(slice, sizeof slice, 99);
    told(call, pagunlit_show(role, shape, map, W, catalogue, C, card, sizeof card, sheet, place, slice, sizeof slice));
}

static void show_dated(const char *call, uint32_t sheet, uint32_t place, uint32_t year, uint32_t month, uint32_t day)
{
    fill(slice, sizeof slice, 99);
    told(call, pagunlit_show_dated(role, shape, map, W, catalogue, C, card, sizeof card, sheet, place, year, month, day,
                                   slice, sizeof slice));
}

static void standing(const char *call, uint32_t sheet)
{
    told(call, pagunlit_standing(role, shape, map, W, catalogue, C, sheet));
}

static void search(const char *call, uint32_t k)
{
    told(call, pagunlit_search(role, shape, map, W, k));
}

static void survey(const char *call)
{
    told(call, pagunlit_survey(role, shape, map, W));
}

static void close_gaps(const char *call, size_t words)
{
    hold_scratch();
    told(call, pagunlit_close(role, shape, map, W, catalogue, C, card, sizeof card, scratch, words));
}

static void close_gaps_with_summary(const char *call, size_t words)
{
    hold_scratch();
    told(call, pagunlit_close_with_summary(role, shape, map, W, summary, NUMBERS, catalogue, C, card, sizeof card, scratch,
                                           words));
}

static void save(const char *call, size_t length)
{
    hold_scratch();
    told(call, pagunlit_save(role, shape, map, W, catalogue, C, scratch, S, image, length));
}

static void load(const char *call)
{
    hold_scratch();
    told(call, pagunlit_load(role, shape, image, sizeof image, map, W, catalogue, C, scratch, S));
}

#endif
