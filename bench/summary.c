// The calls with a summary beside the map, by turns with the same calls without it, and a build and a check of the summary by
// turns with a survey and with C. Each line has the median time of the first way, and the medians of how many times as long the
// others take. `summary once CALL` runs a survey or a build of a full card, or 64 reserves and releases at 51 % free, through
// `counted`, for a program that counts the instructions of a function.
#include <stdio.h>
#include <stdlib.h>
#include <string.h>

#include "aged.h"
#include "guided.h"
#include "role.h"
#include "ways.h"

static const double MEANS[] = {2, 5, 10, 20, 50, 100, 200};

enum { MEAN_COUNT = sizeof MEANS / sizeof *MEANS };

static void new_card(uint32_t blocks, struct kind kind) {
    age(blocks, kind);
    build();
}

// A refused reserve on a card without a free block.
static void full_cards(void) {
    static const uint32_t ks[] = {1, 2, 64};
    char what[40];
    new_card(BLOCKS, (struct kind){"", 0, 2});
    heading("A refused reserve on full cards of 64 and of 262,144 blocks; first: on 64, with a summary", REFUSED_FULL, 4);
    for (size_t i = 0; i < sizeof ks / sizeof *ks; i++) {
        snprintf(what, sizeof what, "reserve %u", ks[i]);
        line(what, REFUSED_FULL, 4, ks[i], 1);
    }
}

// Nothing on the three cards is 64 blocks long.
static void refused(void) {
    heading("A refused reserve of 64 blocks on the aged cards; first: with a summary", REFUSED, 2);
    for (int kind = 0; kind < KIND_COUNT; kind++) {
        new_card(BLOCKS, KINDS[kind]);
        if (guided_refused(64) != PAGUNLIT_NO_FIT) give_up("a reserve of 64 blocks is not refused");
        line(KINDS[kind].name, REFUSED, 2, 64, 1);
    }
}

static uint32_t granted(void) {
    uint32_t count = 0;
    for (int i = 0; i < LENGTHS; i++) {
        pagunlit_outcome o =
            pagunlit_reserve(ROLE, shape, map, words(), catalogue, SHEETS, card, bytes(), limits, (uint32_t)i, lengths[i]);
        count += o.number == 0;
        shape = o.shape;
    }
    for (uint32_t i = 0; i < LENGTHS; i++) shape = pagunlit_release(ROLE, shape, map, words(), catalogue, SHEETS, i).shape;
    return count;
}

static void reserve_line(double share, double mean) {
    char what[60];
    snprintf(what, sizeof what, "%2.0f %%, mean %3.0f: %2u of %d", 100 * share, mean, granted(), LENGTHS);
    line(what, RESERVES, 2, 0, LENGTHS);
}

// On cards that were aged with runs of the same mean, and on the three cards with other lengths than they were aged with.
static void reserves(void) {
    heading("Reserve with release on cards aged with runs of the mean; first: with a summary", RESERVES, 2);
    for (int kind = 0; kind < KIND_COUNT; kind++) {
        for (int i = 0; i < MEAN_COUNT; i++) {
            new_card(BLOCKS, (struct kind){"", KINDS[kind].share, MEANS[i]});
            reserve_line(KINDS[kind].share, MEANS[i]);
        }
    }
    heading("Reserve with release on the aged cards; how many are granted; first: with a summary", RESERVES, 2);
    for (int kind = 0; kind < KIND_COUNT; kind++) {
        new_card(BLOCKS, KINDS[kind]);
        for (int i = 0; i < MEAN_COUNT; i++) {
            draw_lengths(MEANS[i]);
            reserve_line(KINDS[kind].share, MEANS[i]);
        }
    }
}

// The steps of a line: the time with a summary, and how many times as long it takes without, from the least to the largest.
static void placed_line(double share, uint32_t k) {
    static const uint32_t steps[] = {1, 3, 8, 64, 100, 4096};
    double least[2] = {1e18, 1e18}, most[2] = {0, 0};
    for (size_t j = 0; j < sizeof steps / sizeof *steps; j++) {
        double figure[2];
        figure[0] = compared(PLACED, k << 16 | steps[j], &figure[1]);
        for (int i = 0; i < 2; i++) {
            if (figure[i] < least[i]) least[i] = figure[i];
            if (figure[i] > most[i]) most[i] = figure[i];
        }
    }
    printf("%2.0f %%, %2u blocks %18.0f to %5.0f %12.2f to %5.2f\n", 100 * share, k, least[0], most[0], least[1], most[1]);
}

static void placed(void) {
    static const uint32_t ks[] = {1, 4, 16};
    heading("A placed reserve, and the release of what is granted, steps of 1, 3, 8, 64, 100 and 4,096; first: with a summary",
            PLACED, 2);
    for (int kind = 0; kind < KIND_COUNT; kind++) {
        new_card(BLOCKS, KINDS[kind]);
        for (size_t i = 0; i < sizeof ks / sizeof *ks; i++) placed_line(KINDS[kind].share, ks[i]);
    }
}

static void builds(uint32_t blocks) {
    static const struct kind more[] = {{"all free", 1, 2}, {"all taken", 0, 2}};
    char what[80];
    snprintf(what, sizeof what, "Build and check of a summary of %u blocks; first: a survey", blocks);
    heading(what, BUILDS, 4);
    for (int kind = 0; kind < KIND_COUNT + 2; kind++) {
        struct kind k = kind < KIND_COUNT ? KINDS[kind] : more[kind - KIND_COUNT];
        new_card(blocks, k);
        build_in_c(0);
        if (memcmp(levels, summary, numbers() * sizeof *summary) != 0) give_up("C builds another summary");
        line(k.name, BUILDS, 4, 0, 1);
    }
}

static const struct {
    const char *name;
    struct kind kind;
    uint32_t (*call)(uint32_t);
} COUNTED[] = {
    {"survey", {"", 0, 2}, survey_map},
    {"build", {"", 0, 2}, build_summary},
    {"reserves", {"", 0.51, 2.6}, without_reserve},
    {"guided", {"", 0.51, 2.6}, guided_reserve},
};

__attribute__((noinline)) static uint32_t counted(uint32_t (*call)(uint32_t)) {
    return call(0);
}

static void once(const char *name) {
    for (size_t i = 0; i < sizeof COUNTED / sizeof *COUNTED; i++) {
        if (strcmp(COUNTED[i].name, name) != 0) continue;
        new_card(BLOCKS, COUNTED[i].kind);
        sink += counted(COUNTED[i].call);
    }
}

int main(int count, char **words) {
    card = calloc(BLOCKS, PAGUNLIT_BLOCK);
    if (card == NULL) give_up("no memory for a card");
    if (count == 3 && strcmp(words[1], "once") == 0) {
        once(words[2]);
        return 0;
    }
    printf("The time of the first way, and how many times as long the others take: medians of %d rounds.\n", MEDIAN_ROUNDS);
    full_cards();
    refused();
    reserves();
    placed();
    builds(BLOCKS);
    builds(4096);
    return 0;
}
