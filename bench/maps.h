// Maps of 262,144 blocks for the benchmark.
#ifndef BENCH_MAPS_H
#define BENCH_MAPS_H

#include <stdint.h>
#include <string.h>

#include "random.h"

enum { BLOCKS = 262144, WORDS = BLOCKS / 64, MAPS = 8 };

// What share of the blocks is free, and the mean length of a free run. The last three are as free as the maps of 003's
// traces, section 5.2, with runs as long as its mean allocations.
struct kind {
    const char *name;
    double share, mean;
};

static const struct kind KINDS[] = {
    {"all taken", 0, 0},
    {"free and taken by turns", 0.5, 1},
    {"51 % free in runs of 2.6", 0.51, 2.6},
    {"38 % free in runs of 2.3", 0.38, 2.3},
    {"4 % free in runs of 3.6", 0.04, 3.6},
};

enum { KIND_COUNT = sizeof KINDS / sizeof *KINDS };

static uint64_t maps[MAPS][WORDS];

static void set_free(uint64_t *map, uint32_t b) {
    map[b / 64] |= 1ull << (63 - b % 64);
}

static void fill(uint64_t *map, struct kind kind) {
    memset(map, 0, WORDS * sizeof *map);
    if (kind.share == 0) return;
    double taken_mean = kind.mean * (1 - kind.share) / kind.share;
    uint32_t b = chance() < kind.share ? 0 : random_length(taken_mean);
    while (b < BLOCKS) {
        for (uint32_t left = random_length(kind.mean); left > 0 && b < BLOCKS; left--, b++) set_free(map, b);
        b += random_length(taken_mean);
    }
}

#endif
