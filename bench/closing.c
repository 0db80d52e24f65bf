// Closing the gaps of a full-size card, half of it free, with 1,024 sheets in random order, by turns with memmove of the same
// blocks; and of a card without gaps, where no block moves: what is left then is the test of soundness and the order of the
// sheets, one pass over the entries for each sheet. The three take turns, and each time is the least of 41, the one that
// nothing disturbed.
#include <stdio.h>
#include <stdlib.h>
#include <string.h>

#include "pagunlit.h"
#include "role.h"
#include "time.h"

enum { BLOCKS = 262144, SHEETS = 1024, LENGTH = BLOCKS / SHEETS / 2, BYTES = LENGTH * PAGUNLIT_BLOCK };

static uint64_t map[BLOCKS / 64], scratch[64];
static pagunlit_entry catalogue[SHEETS];
static uint32_t order[SHEETS];
static uint8_t *card;

// The start of the extent that is number i from block 0 on: each behind a gap of its own length, or all without gaps.
static uint32_t start_of(uint32_t i, int gaps) {
    return gaps ? (2 * i + 1) * LENGTH : i * LENGTH;
}

static void fill(int gaps) {
    memset(map, 0xff, sizeof map);
    for (uint32_t i = 0; i < SHEETS; i++) {
        uint32_t start = start_of(i, gaps);
        catalogue[order[i]] = (pagunlit_entry){'O', start, LENGTH};
        for (uint32_t b = start; b < start + LENGTH; b++) map[b / 64] &= ~(1ull << (63 - b % 64));
    }
}

static double closing(int gaps) {
    fill(gaps);
    pagunlit_shape shape = {BLOCKS, BLOCKS / 2};
    double start = seconds();
    pagunlit_outcome o = pagunlit_close(ROLE, shape, map, BLOCKS / 64, catalogue, SHEETS, card, (size_t)BLOCKS * PAGUNLIT_BLOCK,
                                        scratch, 64);
    double time = seconds() - start;
    if (o.number != 0) {
        fprintf(stderr, "closing was refused with %u\n", o.number);
        exit(1);
    }
    return time;
}

static double moving(void) {
    double start = seconds();
    for (uint32_t i = 0; i < SHEETS; i++)
        memmove(card + (size_t)start_of(i, 0) * PAGUNLIT_BLOCK, card + (size_t)start_of(i, 1) * PAGUNLIT_BLOCK, BYTES);
    return seconds() - start;
}

static double lesser(double a, double b) {
    return a < b ? a : b;
}

int main(void) {
    double with = 1e9, without = 1e9, memory = 1e9;
    card = malloc((size_t)BLOCKS * PAGUNLIT_BLOCK);
    if (!card) return 1;
    for (size_t i = 0; i < (size_t)BLOCKS * PAGUNLIT_BLOCK; i++) card[i] = (uint8_t)(i * 2654435761u >> 13);
    srand(7);
    for (uint32_t i = 0; i < SHEETS; i++) order[i] = i;
    for (uint32_t i = SHEETS - 1; i > 0; i--) {
        uint32_t j = (uint32_t)rand() % (i + 1), was = order[i];
        order[i] = order[j];
        order[j] = was;
    }
    for (int round = 0; round < MEDIAN_ROUNDS; round++) {
        with = lesser(with, closing(1));
        memory = lesser(memory, moving());
        without = lesser(without, closing(0));
    }
    printf("closing %.2f ms, without gaps %.2f ms, memmove %.2f ms: %.2f of memmove's speed, without the order %.2f\n",
           with * 1e3, without * 1e3, memory * 1e3, memory / with, memory / (with - without));
    free(card);
    return 0;
}
