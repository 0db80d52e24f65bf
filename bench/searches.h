// Search, reserve with release, and survey: the library's way, and the others.
#ifndef BENCH_SEARCHES_H
#define BENCH_SEARCHES_H

#include "aged.h"
#include "bitmap.h"
#include "role.h"
#include "ways.h"

// Search for k blocks.

static uint32_t ours_search(uint32_t k) {
    pagunlit_outcome outcome = pagunlit_search(ROLE, shape, map, words(), k);
    return outcome.number == 0 ? outcome.first : NO_FIT;
}

static uint32_t bits_search(uint32_t k) {
    return search_bits(map, n, k);
}

static uint32_t runs_search(uint32_t k) {
    return search_runs(map, n, k);
}

// libext2fs's own search for a run.
static uint32_t ext2_search(uint32_t k) {
    blk64_t start;
    return ext2fs_get_free_blocks2(filesystem, 0, n, (int)k, bitmap, &start) == 0 ? (uint32_t)start : NO_FIT;
}

// From run to run with libext2fs's search for a free and for a taken block.
static uint32_t ext2_next_search(uint32_t k) {
    blk64_t from = 0, start, taken;
    while (from < n && ext2fs_find_first_zero_block_bitmap2(bitmap, from, n - 1, &start) == 0) {
        if (start + k > n) break;
        if (ext2fs_find_first_set_block_bitmap2(bitmap, start, start + k - 1, &taken) != 0) return (uint32_t)start;
        from = taken + 1;
    }
    return NO_FIT;
}

static const struct way SEARCHES[] = {
    {"library", ours_search},
    {"bit by bit", bits_search},
    {"run to run", runs_search},
    {"ext2 run to run", ext2_next_search},
    {"ext2 get_free", ext2_search},
};

// Reserve and release, of lengths as the traces have them: LENGTHS of each in one turn. The others do what a reserve does,
// without its tests: search, mark, zero the blocks, store an entry.

static uint32_t ours_reserve(uint32_t argument) {
    uint32_t sum = 0;
    (void)argument;
    for (uint32_t i = 0; i < LENGTHS; i++) {
        pagunlit_outcome outcome =
            pagunlit_reserve(ROLE, shape, map, words(), catalogue, SHEETS, card, (size_t)PAGUNLIT_BLOCK * n, limits, i,
                             lengths[i]);
        if (outcome.number == 0) sum += outcome.first;
        shape = outcome.shape;
    }
    for (uint32_t i = 0; i < LENGTHS; i++) shape = pagunlit_release(ROLE, shape, map, words(), catalogue, SHEETS, i).shape;
    return sum;
}

// The same with a search and a function that marks blocks.
static inline uint32_t others_reserve(uint32_t (*search)(uint32_t), void (*mark)(uint32_t, uint32_t, int)) {
    uint32_t sum = 0;
    for (uint32_t i = 0; i < LENGTHS; i++) {
        uint32_t start = search(lengths[i]);
        if (start == NO_FIT) continue;
        mark(start, start + lengths[i], 0);
        memset(block(start), 0, (size_t)PAGUNLIT_BLOCK * lengths[i]);
        catalogue[i] = (pagunlit_entry){PAGUNLIT_OPEN, start, lengths[i]};
        shape.free -= lengths[i];
        sum += start;
    }
    for (uint32_t i = 0; i < LENGTHS; i++) {
        if (catalogue[i].length == 0) continue;
        mark(catalogue[i].start, catalogue[i].start + catalogue[i].length, 1);
        shape.free += catalogue[i].length;
        catalogue[i] = (pagunlit_entry){PAGUNLIT_ABSENT, 0, 0};
    }
    return sum;
}

static void bits_mark(uint32_t start, uint32_t end, int free) {
    mark_bits(map, start, end, free);
}

static void words_mark(uint32_t start, uint32_t end, int free) {
    mark_words(map, start, end, free);
}

static void ext2_mark(uint32_t start, uint32_t end, int free) {
    if (free)
        ext2fs_unmark_block_bitmap_range2(bitmap, start, end - start);
    else
        ext2fs_mark_block_bitmap_range2(bitmap, start, end - start);
}

static uint32_t bits_reserve(uint32_t argument) {
    (void)argument;
    return others_reserve(bits_search, bits_mark);
}

static uint32_t runs_reserve(uint32_t argument) {
    (void)argument;
    return others_reserve(runs_search, words_mark);
}

static uint32_t ext2_next_reserve(uint32_t argument) {
    (void)argument;
    return others_reserve(ext2_next_search, ext2_mark);
}

static uint32_t ext2_reserve(uint32_t argument) {
    (void)argument;
    return others_reserve(ext2_search, ext2_mark);
}

static const struct way RESERVES[] = {
    {"library", ours_reserve},
    {"bit by bit", bits_reserve},
    {"run to run", runs_reserve},
    {"ext2 run to run", ext2_next_reserve},
    {"ext2 get_free", ext2_reserve},
};

// Survey. The three counts are made one number, to be compared.

static uint32_t one_number(uint32_t free, uint32_t runs, uint32_t longest) {
    return 31 * (31 * free + runs) + longest;
}

static uint32_t ours_survey(uint32_t argument) {
    pagunlit_outcome o = pagunlit_survey(ROLE, shape, map, words());
    (void)argument;
    return one_number(o.first, o.second, o.third);
}

static uint32_t bits_survey(uint32_t argument) {
    struct counts c = survey_bits(map, n);
    (void)argument;
    return one_number(c.free, c.runs, c.longest);
}

static uint32_t runs_survey(uint32_t argument) {
    struct counts c = survey_runs(map, n);
    (void)argument;
    return one_number(c.free, c.runs, c.longest);
}

static uint32_t ext2_next_survey(uint32_t argument) {
    struct counts c = {0, 0, 0};
    blk64_t start, end = 0;
    (void)argument;
    while (end < n && ext2fs_find_first_zero_block_bitmap2(bitmap, end, n - 1, &start) == 0) {
        if (ext2fs_find_first_set_block_bitmap2(bitmap, start, n - 1, &end) != 0) end = n;
        c.free += (uint32_t)(end - start);
        c.runs++;
        if (end - start > c.longest) c.longest = (uint32_t)(end - start);
    }
    return one_number(c.free, c.runs, c.longest);
}

static const struct way SURVEYS[] = {
    {"library", ours_survey},
    {"bit by bit", bits_survey},
    {"run to run", runs_survey},
    {"ext2 run to run", ext2_next_survey},
};

#endif
