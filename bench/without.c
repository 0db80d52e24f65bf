// The calls without a summary, by turns with those of another libpagunlit.a (bench/run says which): whether they have become
// slower. Each line has the median time of the other library's call, and the median of how many times as long this one's takes.
#include <stdio.h>
#include <stdlib.h>

#include "aged.h"
#include "role.h"
#include "ways.h"

// pagunlit_search, pagunlit_reserve and pagunlit_release of the other library. A library from before document 02 (k) takes no
// limits: WITHOUT_LIMITS=1 says so to bench/run.
#ifdef WITHOUT_LIMITS
#define OTHER_LIMITS
#define OTHERS_LIMITS
#else
#define OTHER_LIMITS const uint32_t *limits,
#define OTHERS_LIMITS limits,
#endif
pagunlit_outcome other_search(OTHER_ROLE pagunlit_shape shape, const uint64_t *map, size_t maplen, uint32_t k);
pagunlit_outcome other_reserve(OTHER_ROLE pagunlit_shape shape, uint64_t *map, size_t maplen, pagunlit_entry *catalogue,
                               size_t cataloguelen, uint8_t *card, size_t cardlen, OTHER_LIMITS uint32_t sheet,
                               uint32_t count);
pagunlit_outcome other_release(OTHER_ROLE pagunlit_shape shape, uint64_t *map, size_t maplen, pagunlit_entry *catalogue,
                               size_t cataloguelen, uint32_t sheet);

static inline pagunlit_outcome others(uint32_t sheet, uint32_t count) {
    return other_reserve(OTHERS_ROLE shape, map, words(), catalogue, SHEETS, card, (size_t)PAGUNLIT_BLOCK * n,
                         OTHERS_LIMITS sheet, count);
}

static inline pagunlit_outcome ours(uint32_t sheet, uint32_t count) {
    return pagunlit_reserve(ROLE, shape, map, words(), catalogue, SHEETS, card, (size_t)PAGUNLIT_BLOCK * n, limits, sheet,
                            count);
}

static inline pagunlit_outcome others_release(uint32_t sheet) {
    return other_release(OTHERS_ROLE shape, map, words(), catalogue, SHEETS, sheet);
}

static inline pagunlit_outcome our_release(uint32_t sheet) {
    return pagunlit_release(ROLE, shape, map, words(), catalogue, SHEETS, sheet);
}

static inline uint32_t reserves(pagunlit_outcome (*reserve)(uint32_t, uint32_t), pagunlit_outcome (*release)(uint32_t)) {
    uint32_t sum = 0;
    for (uint32_t i = 0; i < LENGTHS; i++) {
        pagunlit_outcome o = reserve(i, lengths[i]);
        sum += o.number + o.first;
        shape = o.shape;
    }
    for (uint32_t i = 0; i < LENGTHS; i++) shape = release(i).shape;
    return sum;
}

static uint32_t their_reserves(uint32_t argument) {
    return argument + reserves(others, others_release);
}

static uint32_t our_reserves(uint32_t argument) {
    return argument + reserves(ours, our_release);
}

static uint32_t their_refused(uint32_t k) {
    return others(0, k).number;
}

static uint32_t our_refused(uint32_t k) {
    return ours(0, k).number;
}

static uint32_t their_search(uint32_t k) {
    pagunlit_outcome o = other_search(OTHERS_ROLE shape, map, words(), k);
    return 31 * o.number + o.first;
}

static uint32_t our_search(uint32_t k) {
    pagunlit_outcome o = pagunlit_search(ROLE, shape, map, words(), k);
    return 31 * o.number + o.first;
}

static const struct way RESERVES[] = {{"other", their_reserves}, {"this", our_reserves}};
static const struct way REFUSED[] = {{"other", their_refused}, {"this", our_refused}};
static const struct way SEARCHES[] = {{"other", their_search}, {"this", our_search}};

int main(void) {
    static const uint32_t ks[] = {1, 4, 16, 64};
    char what[40];
    card = calloc(BLOCKS, PAGUNLIT_BLOCK);
    if (card == NULL) give_up("no memory for a card");
    for (int kind = 0; kind < KIND_COUNT; kind++) {
        age(BLOCKS, KINDS[kind]);
        snprintf(what, sizeof what, "%s, no summary", KINDS[kind].name);
        heading(what, RESERVES, 2);
        line("reserve and release", RESERVES, 2, 0, LENGTHS);
        line("reserve 64, refused", REFUSED, 2, 64, 1);
        for (size_t i = 0; i < sizeof ks / sizeof *ks; i++) {
            snprintf(what, sizeof what, "search %u", ks[i]);
            line(what, SEARCHES, 2, ks[i], 1);
        }
    }
    return 0;
}
