/*
 * Times the proved functions of crates block and blocks_of_card beside what a C
 * program would do instead. Each line has the least time of many interleaved
 * repeats, in nanoseconds for one call, and how many times as fast the proved
 * one is.
 */
#define _POSIX_C_SOURCE 199309L
#include "block.h"

#include <stdio.h>
#include <stdlib.h>
#include <string.h>
#include <time.h>
#include <zlib.h>

/* Of crate bench_block: 3 if the blocks do not lie inside the card. */
uint32_t bench_zero_blocks(uint8_t *card, size_t length, uint32_t b, uint32_t k);
uint32_t bench_blank_block(const uint8_t *card, size_t length, uint32_t b);

#define BLOCKS 1024 /* of the card: 512 KiB */
#define NEAR 32     /* of them, small enough for the nearest cache: 16 KiB */
#define REPEATS 300

static uint8_t card[BLOCKS * BLOCK_SIZE];
static uint8_t payloads[NEAR][PAYLOAD_SIZE];
static const uint8_t zeros[BLOCK_SIZE];
static uint32_t zeroed; /* blocks that one call fills */
static volatile uint32_t sink;

static uint8_t *block_of(uint32_t b)
{
    return card + (size_t)BLOCK_SIZE * b;
}

/* Seals block b with what the C library and zlib give. */
static uint32_t zlib_seal(uint32_t b)
{
    uint8_t *block = block_of(b);
    uint32_t head[2] = {__builtin_bswap32(b), __builtin_bswap32(7)};
    uint32_t both;

    memcpy(block, head, sizeof head);
    memcpy(block + 8, payloads[b], PAYLOAD_SIZE);
    both = (uint32_t)adler32(1, block, 504);
    head[0] = __builtin_bswap32(both & 0xffff);
    head[1] = __builtin_bswap32(both >> 16);
    memcpy(block + 504, head, sizeof head);
    return 0;
}

static uint32_t proved_seal(uint32_t b)
{
    return seal(b, 7, payloads[b], PAYLOAD_SIZE, block_of(b), BLOCK_SIZE);
}

static uint32_t zlib_check(uint32_t b)
{
    return (uint32_t)adler32(1, block_of(b), 504);
}

static uint32_t proved_check(uint32_t b)
{
    return check(block_of(b), BLOCK_SIZE);
}

static uint32_t c_zero(uint32_t b)
{
    (void)b;
    memset(card, 0, (size_t)BLOCK_SIZE * zeroed);
    return 0;
}

static uint32_t proved_zero(uint32_t b)
{
    (void)b;
    return bench_zero_blocks(card, sizeof card, 0, zeroed);
}

/* Reads the block once, 64 bits at a time. */
static uint32_t c_blank(uint32_t b)
{
    const uint8_t *block = block_of(b);
    uint64_t all = 0, word;

    for (size_t i = 0; i < BLOCK_SIZE; i += sizeof word) {
        memcpy(&word, block + i, sizeof word);
        all |= word;
    }
    return all == 0;
}

static uint32_t memcmp_blank(uint32_t b)
{
    return memcmp(block_of(b), zeros, BLOCK_SIZE) == 0;
}

static uint32_t proved_blank(uint32_t b)
{
    return bench_blank_block(card, sizeof card, b);
}

static double seconds(void)
{
    struct timespec t;

    clock_gettime(CLOCK_MONOTONIC, &t);
    return (double)t.tv_sec + (double)t.tv_nsec * 1e-9;
}

/* The time of one call, over `rounds` times the first `blocks` blocks. The call through a pointer is not inlined. */
static double time_of(uint32_t (*volatile function)(uint32_t), uint32_t rounds, uint32_t blocks)
{
    double start = seconds();

    for (uint32_t r = 0; r < rounds; r++)
        for (uint32_t b = 0; b < blocks; b++)
            sink += function(b);
    return (seconds() - start) / rounds / blocks * 1e9;
}

static void compare(const char *what, uint32_t (*proved)(uint32_t), const char *with, uint32_t (*other)(uint32_t),
                    uint32_t rounds, uint32_t blocks)
{
    double best_proved = 1e9, best_other = 1e9;

    for (int r = 0; r < REPEATS; r++) {
        double o = time_of(other, rounds, blocks), p = time_of(proved, rounds, blocks);

        best_other = o < best_other ? o : best_other;
        best_proved = p < best_proved ? p : best_proved;
    }
    printf("%-24s %9.1f ns   %-16s %9.1f ns   x %.2f\n", what, best_proved, with, best_other, best_other / best_proved);
}

int main(void)
{
    static const uint32_t counts[] = {1, 16, BLOCKS};

    for (size_t i = 0; i < sizeof payloads; i++)
        ((uint8_t *)payloads)[i] = (uint8_t)(rand() >> 7);
    compare("seal", proved_seal, "memcpy, adler32", zlib_seal, 20, NEAR);
    compare("check", proved_check, "adler32", zlib_check, 20, NEAR);
    for (uint32_t b = 0; b < NEAR; b++) {
        proved_seal(b);
        if (proved_check(b) != BLOCK_HOLDS) {
            fprintf(stderr, "bench/block.c: the check of a sealed block does not hold\n");
            return 1;
        }
    }
    compare("blank, a sealed block", proved_blank, "or of 64 bits", c_blank, 20, NEAR);
    compare("blank, a sealed block", proved_blank, "memcmp", memcmp_blank, 20, NEAR);
    for (size_t i = 0; i < sizeof counts / sizeof *counts; i++) {
        char what[32];

        zeroed = counts[i];
        snprintf(what, sizeof what, "zero %u blocks", zeroed);
        compare(what, proved_zero, "memset", c_zero, 4000 / counts[i] + 1, 1);
    }
    compare("blank, a blank block", proved_blank, "or of 64 bits", c_blank, 20, NEAR);
    compare("blank, a blank block", proved_blank, "memcmp", memcmp_blank, 20, NEAR);
    compare("blank, 1024 blocks", proved_blank, "or of 64 bits", c_blank, 1, BLOCKS);
    return 0;
}
