// What a C program would do to build a summary: a loop over the words, and one over the groups of each level above.
#ifndef BENCH_LEVELS_H
#define BENCH_LEVELS_H

#include <stdint.h>

#include "plain.h"

// The longest run of ones of a word that has one: by runs of 32, of 16 and so on, as long as they fit behind each other.
static inline uint32_t longest_run(uint64_t word) {
    uint64_t runs[6] = {word}, starts = word;
    uint32_t length = 1;
    for (int i = 0; i < 5; i++) runs[i + 1] = runs[i] & runs[i] << (1 << i);
    for (int i = 5; i >= 0; i--) {
        uint64_t longer = starts & runs[i] << length;
        length += longer != 0 ? 1u << i : 0;
        starts = longer != 0 ? longer : starts;
    }
    return length;
}

static inline void word_numbers(uint64_t word, uint32_t *group) {
    int mixed = word != 0 && word != ONES;
    uint32_t all = word == 0 ? 0 : 64;
    group[0] = mixed ? (uint32_t)__builtin_clzll(~word) : all;
    group[1] = mixed ? (uint32_t)__builtin_ctzll(~word) : all;
    group[2] = mixed ? longest_run(word) : all;
}

static inline uint32_t larger(uint32_t a, uint32_t b) {
    return a < b ? b : a;
}

// A group from its two halves, of m blocks each.
static inline void join(const uint32_t *halves, uint32_t m, uint32_t *group) {
    const uint32_t *a = halves, *b = halves + 3;
    group[0] = a[0] == m ? m + b[0] : a[0];
    group[1] = b[1] == m ? m + a[1] : b[1];
    group[2] = larger(larger(a[2], b[2]), a[1] + b[0]);
}

// The summary of a map whose words are as many as a power of two.
static inline void build_levels(const uint64_t *map, uint32_t words, uint32_t *summary) {
    for (uint32_t i = 0; i < words; i++) word_numbers(map[i], summary + 3 * (words - 1 + i));
    for (uint32_t first = words / 2, m = 64; first > 0; first /= 2, m *= 2) {
        for (uint32_t g = first - 1; g < 2 * first - 1; g++) join(summary + 3 * (2 * g + 1), m, summary + 3 * g);
    }
}

#endif
