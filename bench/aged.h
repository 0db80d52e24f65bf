// The card under test: aged cards.
#ifndef BENCH_AGED_H
#define BENCH_AGED_H

#include <stdio.h>
#include <stdlib.h>

#include "pagunlit.h"
#include "plain.h"
#include "random.h"

enum { BLOCKS = 262144, SHEETS = 1024, LENGTHS = 64 };

// The card under test, of n blocks. The catalogue's sheets are Absent but for the one in use.
static uint32_t n;
static uint64_t map[BLOCKS / 64];
static pagunlit_shape shape;
static pagunlit_entry catalogue[SHEETS];
static uint8_t *card;

// No wing has a limit of its own.
static const uint32_t limits[PAGUNLIT_WINGS] = {UINT32_MAX, UINT32_MAX, UINT32_MAX, UINT32_MAX,
                                                UINT32_MAX, UINT32_MAX, UINT32_MAX, UINT32_MAX};

static size_t words(void) {
    return PAGUNLIT_MAP_WORDS(n);
}

static inline uint8_t *block(uint32_t b) {
    return card + (size_t)PAGUNLIT_BLOCK * b;
}

static void give_up(const char *what) {
    fprintf(stderr, "bench/run: FAILED: %s\n", what);
    exit(1);
}

// How much is free, and the mean length of what was reserved: the three traces of 003, section 5.2.
struct kind {
    const char *name;
    double share, mean;
};

static const struct kind KINDS[] = {
    {"51 % free, mean length 2.6", 0.51, 2.6},
    {"38 % free, mean length 2.3", 0.38, 2.3},
    {"4 % free, mean length 3.6", 0.04, 3.6},
};

enum { KIND_COUNT = sizeof KINDS / sizeof *KINDS };

// Lengths as the traces have them, for the reserves that are timed.
static uint32_t lengths[LENGTHS];

static void draw_lengths(double mean) {
    for (int i = 0; i < LENGTHS; i++) lengths[i] = random_length(mean);
}

// Fills the card with runs of random lengths, and frees runs at random until the share is free.
static void age(uint32_t blocks, struct kind kind) {
    static uint32_t starts[BLOCKS + 1];
    uint32_t runs = 0, free = 0;
    n = blocks;
    memset(map, 0, sizeof map);
    for (uint32_t b = 0; b < n; b += random_length(kind.mean)) starts[runs++] = b;
    starts[runs] = n;
    while (free < kind.share * n) {
        uint32_t run = (uint32_t)(chance() * runs);
        if (is_free(map, starts[run])) continue;
        mark_words(map, starts[run], starts[run + 1], 1);
        free += starts[run + 1] - starts[run];
    }
    shape = (pagunlit_shape){n, free};
    for (int s = 0; s < SHEETS; s++) catalogue[s] = (pagunlit_entry){PAGUNLIT_ABSENT, 0, 0};
    draw_lengths(kind.mean);
}

#endif
