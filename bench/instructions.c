// A fixed set of calls of the C library, each run once under callgrind (bench/instructions), which counts its instructions and
// writes them down under the call's name. Every call is made once before it is counted, so that its card is as it will be.
#include <stdio.h>
#include <stdlib.h>
#include <string.h>
#include <valgrind/callgrind.h>

#include "aged.h"
#include "full.h"
#include "guided.h"
#include "role.h"

// What is counted: the call by its name, with what it is given.
#define COUNT(name, call)                                                                                                      \
    do {                                                                                                                       \
        sink += (uint32_t)(call);                                                                                              \
        COUNT_ONCE(name, call);                                                                                                \
    } while (0)

#define COUNT_ONCE(name, call)                                                                                                 \
    do {                                                                                                                       \
        CALLGRIND_START_INSTRUMENTATION;                                                                                       \
        sink += (uint32_t)(call);                                                                                              \
        CALLGRIND_STOP_INSTRUMENTATION;                                                                                        \
        CALLGRIND_DUMP_STATS_AT(name);                                                                                         \
    } while (0)

static uint8_t payload[PAGUNLIT_PAYLOAD];

static uint32_t search(uint32_t k) {
    return pagunlit_search(ROLE, shape, map, words(), k).first;
}

static void new_card(uint32_t blocks, struct kind kind) {
    age(blocks, kind);
    build();
}

// Reserve and release, 64 of each, on the three cards of 003, with lengths from 1 to 8, and on one of long runs; reserves that
// are refused; searches.
static void aged_cards(void) {
    new_card(BLOCKS, KINDS[0]);
    COUNT("reserves-51%", without_reserve(0));
    COUNT("reserves-51%-summary", guided_reserve(0));
    COUNT("refused-51%", without_refused(64));
    COUNT("refused-51%-summary", guided_refused(64));
    COUNT("placed-51%", without_placed(4 << 16 | 8));
    COUNT("placed-51%-summary", guided_placed(4 << 16 | 8));
    COUNT("search-51%-1", search(1));
    COUNT("search-51%-4", search(4));
    COUNT("search-51%-64", search(64));
    new_card(BLOCKS, KINDS[1]);
    COUNT("reserves-38%", without_reserve(0));
    COUNT("reserves-38%-summary", guided_reserve(0));
    new_card(BLOCKS, KINDS[2]);
    COUNT("reserves-4%", without_reserve(0));
    COUNT("reserves-4%-summary", guided_reserve(0));
    COUNT("search-4%-8", search(8));
    for (uint32_t i = 0; i < LENGTHS; i++) lengths[i] = 1 + i % 8;
    COUNT("reserves-4%-to-8", without_reserve(0));
    COUNT("reserves-4%-to-8-summary", guided_reserve(0));
    new_card(BLOCKS, (struct kind){"", 0.51, 100});
    COUNT("reserves-51%-of-100", without_reserve(0));
    COUNT("reserves-51%-of-100-summary", guided_reserve(0));
}

static void whole_map(const char *of, struct kind kind) {
    char survey[40], built[40], checked[40];
    snprintf(survey, sizeof survey, "survey-%s", of);
    snprintf(built, sizeof built, "build-%s", of);
    snprintf(checked, sizeof checked, "check-%s", of);
    new_card(BLOCKS, kind);
    COUNT(survey, survey_map(0));
    COUNT(built, build_summary(0));
    COUNT(checked, check_summary(0));
}

static void whole_maps(void) {
    whole_map("51%", KINDS[0]);
    whole_map("38%", KINDS[1]);
    whole_map("4%", KINDS[2]);
    whole_map("all-free", (struct kind){"", 1, 2});
    whole_map("all-taken", (struct kind){"", 0, 2});
    COUNT("refused-all-taken", without_refused(1));
    COUNT("refused-all-taken-summary", guided_refused(1));
}

static uint32_t save(void) {
    return pagunlit_save(ROLE, full, full_map, full_words, full_catalogue, PAGUNLIT_SHEETS, scratch, scratch_words, image,
                         image_bytes).number;
}

static uint32_t load(void) {
    return pagunlit_load(ROLE, full, image, image_bytes, full_map, full_words, full_catalogue, PAGUNLIT_SHEETS, scratch,
                         scratch_words).number;
}

static void images(void) {
    fill_card(BLOCKS, IN_NONE);
    COUNT("save-262144", save());
    COUNT("load-262144", load());
    fill_card(4096, IN_NONE);
    COUNT("save-4096", save());
    COUNT("load-4096", load());
}

// Half of a card, in 1,024 sheets that lie in no order: with gaps before each, and without.
static uint32_t close_card(void) {
    return pagunlit_close(ROLE, shape, map, words(), catalogue, SHEETS, card, bytes(), scratch, scratch_words).number;
}

static void lay_out(uint32_t gap) {
    uint32_t each = BLOCKS / SHEETS / 2;
    fill_card(BLOCKS, IN_NONE);
    n = BLOCKS;
    shape = (pagunlit_shape){n, n / 2};
    memset(map, 0xff, sizeof map);
    for (uint32_t s = 0; s < SHEETS; s++) {
        uint32_t start = full_catalogue[s].start / (2 * each) * (each + gap) + gap;
        catalogue[s] = (pagunlit_entry){PAGUNLIT_OPEN, start, each};
        mark_words(map, start, start + each, 0);
    }
}

static void closings(void) {
    lay_out(BLOCKS / SHEETS / 2);
    COUNT_ONCE("close-gaps", close_card());
    lay_out(0);
    COUNT("close-no-gaps", close_card());
}

// One sheet of 256 places.
static uint32_t put(uint32_t place) {
    return pagunlit_put(ROLE, shape, map, words(), catalogue, SHEETS, card, bytes(), 0, place, payload, sizeof payload).number;
}

static uint32_t complete(void) {
    return pagunlit_complete(ROLE, shape, map, words(), catalogue, SHEETS, card, bytes(), 0).number;
}

static uint32_t show(void) {
    return pagunlit_show(ROLE, shape, map, words(), catalogue, SHEETS, card, bytes(), 0, 7, payload, sizeof payload).number;
}

static uint32_t standing(void) {
    return pagunlit_standing(ROLE, shape, map, words(), catalogue, SHEETS, 0).first;
}

static void sheets(void) {
    new_card(BLOCKS, (struct kind){"", 1, 2});
    for (size_t i = 0; i < sizeof payload; i++) payload[i] = (uint8_t)(31 * i);
    pagunlit_outcome o = pagunlit_reserve(ROLE, shape, map, words(), catalogue, SHEETS, card, bytes(), limits, 0, 256);
    shape = o.shape;
    for (uint32_t place = 0; place < 256; place++) put(place);
    COUNT("standing", standing());
    COUNT("put", put(7));
    COUNT("seal", seal(0, 7, payload, sizeof payload, card, PAGUNLIT_BLOCK));
    COUNT("check", check(card, PAGUNLIT_BLOCK));
    put(0);
    COUNT_ONCE("complete", complete());
    COUNT("show", show());
}

int main(void) {
    card = calloc(BLOCKS, PAGUNLIT_BLOCK);
    if (card == NULL) give_up("no memory for a card");
    aged_cards();
    whole_maps();
    images();
    closings();
    sheets();
    return 0;
}
