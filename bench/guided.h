// The calls with a summary beside the map (document 02, request j), and the same calls without it.
#ifndef BENCH_GUIDED_H
#define BENCH_GUIDED_H

#include "aged.h"
#include "levels.h"
#include "role.h"
#include "ways.h"

// The summary of the card under test. What changes the map without it changes it back, so that it is the map's own at the
// beginning of each turn.
static uint32_t summary[PAGUNLIT_SUMMARY_NUMBERS(BLOCKS)];

static size_t numbers(void) {
    return PAGUNLIT_SUMMARY_NUMBERS(n);
}

static size_t bytes(void) {
    return (size_t)PAGUNLIT_BLOCK * n;
}

static void build(void) {
    if (pagunlit_summary_build(ROLE, shape, map, words(), summary, numbers()).number != 0) give_up("a build is refused");
}

// Reserve and release: LENGTHS of each in one turn. A refused reserve is followed by a refused release.

static uint32_t without_reserve(uint32_t argument) {
    uint32_t sum = argument;
    for (uint32_t i = 0; i < LENGTHS; i++) {
        pagunlit_outcome o = pagunlit_reserve(ROLE, shape, map, words(), catalogue, SHEETS, card, bytes(), limits, i,
                                              lengths[i]);
        sum += o.number + o.first;
        shape = o.shape;
    }
    for (uint32_t i = 0; i < LENGTHS; i++) shape = pagunlit_release(ROLE, shape, map, words(), catalogue, SHEETS, i).shape;
    return sum;
}

static uint32_t guided_reserve(uint32_t argument) {
    uint32_t sum = argument;
    for (uint32_t i = 0; i < LENGTHS; i++) {
        pagunlit_outcome o = pagunlit_reserve_with_summary(ROLE, shape, map, words(), summary, numbers(), catalogue, SHEETS,
                                                           card, bytes(), limits, i, lengths[i]);
        sum += o.number + o.first;
        shape = o.shape;
    }
    for (uint32_t i = 0; i < LENGTHS; i++)
        shape = pagunlit_release_with_summary(ROLE, shape, map, words(), summary, numbers(), catalogue, SHEETS, i).shape;
    return sum;
}

static const struct way RESERVES[] = {{"by summary", guided_reserve}, {"without", without_reserve}};

// A single reserve of k blocks that is refused.

static uint32_t without_refused(uint32_t k) {
    return pagunlit_reserve(ROLE, shape, map, words(), catalogue, SHEETS, card, bytes(), limits, 0, k).number;
}

static uint32_t guided_refused(uint32_t k) {
    return pagunlit_reserve_with_summary(ROLE, shape, map, words(), summary, numbers(), catalogue, SHEETS, card, bytes(),
                                         limits, 0, k).number;
}

// The same on a card of 64 blocks, all of them taken.

static const pagunlit_shape SMALL = {64, 0};
static uint64_t small_map[1];
static uint32_t small_summary[PAGUNLIT_SUMMARY_NUMBERS(64)];

static uint32_t without_small(uint32_t k) {
    return pagunlit_reserve(ROLE, SMALL, small_map, 1, catalogue, SHEETS, card, 64 * PAGUNLIT_BLOCK, limits, 0, k).number;
}

static uint32_t guided_small(uint32_t k) {
    return pagunlit_reserve_with_summary(ROLE, SMALL, small_map, 1, small_summary, 3, catalogue, SHEETS, card,
                                         64 * PAGUNLIT_BLOCK, limits, 0, k).number;
}

static const struct way REFUSED[] = {{"by summary", guided_refused}, {"without", without_refused}};

static const struct way REFUSED_FULL[] = {
    {"64, summary", guided_small},
    {"64, without", without_small},
    {"262,144, summary", guided_refused},
    {"262,144, without", without_refused},
};

// A placed reserve on the whole card, and the release of what it was granted. The argument is k and the step, 2^16 to a k.

static uint32_t without_placed(uint32_t both) {
    pagunlit_outcome o = pagunlit_reserve_placed(ROLE, shape, map, words(), catalogue, SHEETS, card, bytes(), limits, 0,
                                                 both >> 16, 0, n, both & 0xffff);
    if (o.number == 0) shape = pagunlit_release(ROLE, o.shape, map, words(), catalogue, SHEETS, 0).shape;
    return o.number == 0 ? o.first : NO_FIT;
}

static uint32_t guided_placed(uint32_t both) {
    pagunlit_outcome o = pagunlit_reserve_placed_with_summary(ROLE, shape, map, words(), summary, numbers(), catalogue, SHEETS,
                                                              card, bytes(), limits, 0, both >> 16, 0, n, both & 0xffff);
    if (o.number == 0)
        shape = pagunlit_release_with_summary(ROLE, o.shape, map, words(), summary, numbers(), catalogue, SHEETS, 0).shape;
    return o.number == 0 ? o.first : NO_FIT;
}

static const struct way PLACED[] = {{"by summary", guided_placed}, {"without", without_placed}};

// A survey, a build and a check of the summary, and a build in C, each with the longest run.

static uint32_t survey_map(uint32_t argument) {
    return argument + pagunlit_survey(ROLE, shape, map, words()).third;
}

static uint32_t build_summary(uint32_t argument) {
    build();
    return argument + summary[2];
}

static uint32_t levels[PAGUNLIT_SUMMARY_NUMBERS(BLOCKS)];

static uint32_t build_in_c(uint32_t argument) {
    build_levels(map, (uint32_t)words(), levels);
    return argument + levels[2];
}

static uint32_t check_summary(uint32_t argument) {
    if (pagunlit_summary_check(ROLE, shape, map, words(), summary, numbers()).first != 1)
        give_up("a summary is not the map's own");
    return argument + summary[2];
}

static const struct way BUILDS[] = {
    {"survey", survey_map},
    {"build", build_summary},
    {"check", check_summary},
    {"C by levels", build_in_c},
};

#endif
