// The calls of the C library beside what a C program would do instead, on aged cards: bit by bit, from run to run as kernels
// go, with the bitmaps of libext2fs, and with zlib's adler32. Each line has the median time of the library's call, and the
// medians of how many times as long the others take. A figure below 1 is a loss.
#include <stdio.h>
#include <stdlib.h>

#include "aged.h"
#include "bitmap.h"
#include "images.h"
#include "searches.h"
#include "sealed.h"
#include "ways.h"

static void aged_cards(void) {
    static const uint32_t ks[] = {1, 2, 4, 8, 16, 32, 64};
    for (int kind = 0; kind < KIND_COUNT; kind++) {
        char what[40];
        age_both(BLOCKS, KINDS[kind]);
        snprintf(what, sizeof what, "%s", KINDS[kind].name);
        heading(what, SEARCHES, 5);
        for (size_t i = 0; i < sizeof ks / sizeof *ks; i++) {
            uint32_t start = bits_search(ks[i]);
            if (start == NO_FIT)
                snprintf(what, sizeof what, "search %u: no fit", ks[i]);
            else
                snprintf(what, sizeof what, "search %u: at %u", ks[i], start);
            line(what, SEARCHES, 5, ks[i], 1);
        }
        line("reserve and release", RESERVES, 5, 0, LENGTHS);
        line("survey", SURVEYS, 4, 0, 1);
    }
}

static void sizes(void) {
    for (int kind = 0; kind < KIND_COUNT; kind++) {
        char what[60];
        snprintf(what, sizeof what, "%s, from 4,096 to 262,144 blocks", KINDS[kind].name);
        heading(what, SEARCHES, 5);
        for (uint32_t blocks = 4096; blocks <= BLOCKS; blocks *= 4) {
            age_both(blocks, KINDS[kind]);
            snprintf(what, sizeof what, "%6u: search, no fit", blocks);
            line(what, SEARCHES, 5, survey_bits(map, n).longest + 1, 1);
            snprintf(what, sizeof what, "%6u: reserve, release", blocks);
            line(what, RESERVES, 5, 0, LENGTHS);
            snprintf(what, sizeof what, "%6u: survey", blocks);
            line(what, SURVEYS, 4, 0, 1);
        }
    }
}

static void sealed_blocks(void) {
    age(BLOCKS, KINDS[1]);
    mark_words(map, 0, PLACES, 0);
    for (size_t i = 0; i < sizeof payload; i++) payload[i] = (uint8_t)(256 * chance());
    for (uint32_t p = 0; p < PLACES; p++) ours_seal(p);
    heading("sealed blocks", SEALS, 3);
    line("seal", SEALS, 3, 0, 1);
    line("check", CHECKS, 3, 0, 1);
    line("complete, 1 place", COMPLETES, 3, 1, 1);
    line("complete, 16 places", COMPLETES, 3, 16, 1);
    line("complete, 256 places", COMPLETES, 3, PLACES, 1);
}

static void images(const char *what, uint32_t blocks) {
    fill_card(blocks, IN_NONE);
    heading(what, SAVES, 4);
    line("save", SAVES, 4, 0, 1);
    line("load", LOADS, 4, 0, 1);
}

int main(void) {
    card = calloc(BLOCKS, PAGUNLIT_BLOCK);
    if (card == NULL) give_up("no memory for a card");
    printf("The library's time, and how many times as long the others take: medians of %d rounds.\n", MEDIAN_ROUNDS);
    aged_cards();
    sizes();
    sealed_blocks();
    images("a full card of 262,144 blocks and 1,024 sheets", BLOCKS);
    images("a full card of 4,096 blocks and 1,024 sheets", 4096);
    return 0;
}
