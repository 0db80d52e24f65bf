// Random numbers for the benchmark's cards, the same in every run.
#ifndef BENCH_RANDOM_H
#define BENCH_RANDOM_H

#include <stdint.h>

// A random number from 0 to 1: xorshift64.
static inline double chance(void) {
    static uint64_t x = 0x9e3779b97f4a7c15;
    x ^= x << 13;
    x ^= x >> 7;
    x ^= x << 17;
    return (double)(x >> 11) / (double)(1ull << 53);
}

// A random length of 1 or more with the given mean.
static inline uint32_t random_length(double mean) {
    uint32_t length = 1;
    while (chance() * mean >= 1) length++;
    return length;
}

#endif
