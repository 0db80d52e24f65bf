// What a C program would do in place of the library: bit by bit, and the way that kernels usually go.
#ifndef BENCH_PLAIN_H
#define BENCH_PLAIN_H

#include <stdint.h>
#include <string.h>

static const uint32_t NO_FIT = 0xffffffff;
static const uint64_t ONES = 0xffffffffffffffff;

struct counts {
    uint32_t free, runs, longest;
};

static inline int is_free(const uint64_t *map, uint32_t b) {
    return map[b / 64] >> (63 - b % 64) & 1;
}

// Bit by bit.

static inline uint32_t search_bits(const uint64_t *map, uint32_t n, uint32_t k) {
    uint32_t row = 0;
    for (uint32_t b = 0; b < n; b++) {
        row = is_free(map, b) ? row + 1 : 0;
        if (row == k) return b + 1 - k;
    }
    return NO_FIT;
}

static inline struct counts survey_bits(const uint64_t *map, uint32_t n) {
    struct counts counts = {0, 0, 0};
    uint32_t row = 0;
    for (uint32_t b = 0; b < n; b++) {
        if (is_free(map, b)) {
            counts.free++;
            if (row == 0) counts.runs++;
            row++;
            if (row > counts.longest) counts.longest = row;
        } else {
            row = 0;
        }
    }
    return counts;
}

static inline void mark_bits(uint64_t *map, uint32_t start, uint32_t end, int free) {
    for (uint32_t b = start; b < end; b++) {
        uint64_t bit = 1ull << (63 - b % 64);
        map[b / 64] = free ? map[b / 64] | bit : map[b / 64] & ~bit;
    }
}

// The sums A and B of a block, a byte at a time, as document 01 words it.
static inline uint32_t sums_bytes(const uint8_t *bytes, size_t length) {
    uint32_t a = 1, b = 0;
    for (size_t i = 0; i < length; i++) {
        a = (a + bytes[i]) % 65521;
        b = (b + a) % 65521;
    }
    return b << 16 | a;
}

// From run to run: the next free block, the next taken one behind it, and on from there, with the machine's count of
// zeros in a word.

// The first block from b to end - 1 whose bit, flipped where flip is ONES, is 1; end if there is none.
static inline uint32_t next_bit(const uint64_t *map, uint32_t end, uint32_t b, uint64_t flip) {
    if (b >= end) return end;
    uint32_t i = b / 64, last = (end - 1) / 64;
    uint64_t word = (map[i] ^ flip) & (ONES >> (b % 64));
    while (word == 0) {
        if (i == last) return end;
        i++;
        word = map[i] ^ flip;
    }
    uint32_t found = i * 64 + (uint32_t)__builtin_clzll(word);
    return found < end ? found : end;
}

static inline uint32_t search_runs(const uint64_t *map, uint32_t n, uint32_t k) {
    uint32_t from = 0;
    for (;;) {
        uint32_t start = next_bit(map, n, from, 0);
        if (k > n - start) return NO_FIT;
        uint32_t taken = next_bit(map, start + k, start, ONES);
        if (taken == start + k) return start;
        from = taken + 1;
    }
}

static inline struct counts survey_runs(const uint64_t *map, uint32_t n) {
    struct counts counts = {0, 0, 0};
    for (uint32_t start = next_bit(map, n, 0, 0); start < n;) {
        uint32_t end = next_bit(map, n, start, ONES);
        counts.free += end - start;
        counts.runs++;
        if (end - start > counts.longest) counts.longest = end - start;
        start = next_bit(map, n, end, 0);
    }
    return counts;
}

// A word at a time.
static inline void mark_words(uint64_t *map, uint32_t start, uint32_t end, int free) {
    while (start < end) {
        uint32_t stop = (start | 63) + 1 < end ? (start | 63) + 1 : end;
        uint64_t bits = ONES >> (start % 64) & ONES << (63 - (stop - 1) % 64);
        map[start / 64] = free ? map[start / 64] | bits : map[start / 64] & ~bits;
        start = stop;
    }
}

#endif
