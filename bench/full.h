// Full cards, whose images are saved and loaded: each of 1,024 sheets holds as many blocks, so that no block is free.
#ifndef BENCH_FULL_H
#define BENCH_FULL_H

#include <stdint.h>
#include <string.h>

#include "pagunlit.h"
#include "random.h"

enum { MOST_BLOCKS = 262144, LARGEST_IMAGE = PAGUNLIT_IMAGE_BYTES(MOST_BLOCKS, PAGUNLIT_SHEETS) };

static pagunlit_shape full;
static size_t full_words, scratch_words, image_bytes;
static uint64_t full_map[MOST_BLOCKS / 64], scratch[PAGUNLIT_SCRATCH_WORDS(MOST_BLOCKS)];
static pagunlit_entry full_catalogue[PAGUNLIT_SHEETS];
static uint8_t image[LARGEST_IMAGE];

// How the sheets lie: in order of their blocks, or in a random order.
enum order { IN_ORDER, IN_NONE };

static void fill_card(uint32_t blocks, enum order order) {
    uint32_t places[PAGUNLIT_SHEETS];
    full = (pagunlit_shape){blocks, 0};
    full_words = PAGUNLIT_MAP_WORDS(blocks);
    scratch_words = PAGUNLIT_SCRATCH_WORDS(blocks);
    image_bytes = PAGUNLIT_IMAGE_BYTES(blocks, PAGUNLIT_SHEETS);
    memset(full_map, 0, sizeof full_map);
    for (uint32_t s = 0; s < PAGUNLIT_SHEETS; s++) {
        uint32_t other = order == IN_ORDER ? s : (uint32_t)(chance() * (s + 1));
        places[s] = s;
        places[s] = places[other];
        places[other] = s;
    }
    for (uint32_t s = 0; s < PAGUNLIT_SHEETS; s++)
        full_catalogue[s] = (pagunlit_entry){s % 2 == 0 ? PAGUNLIT_OPEN : PAGUNLIT_COMPLETE,
                                             blocks / PAGUNLIT_SHEETS * places[s], blocks / PAGUNLIT_SHEETS};
}

#endif
