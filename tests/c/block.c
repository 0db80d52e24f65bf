/*
 * Seals and checks blocks through block.h as the dispenser does, in the middle
 * of a larger card.
 *
 * First: the document's two figures, every wrong length from 0 to 1,023, and
 * every single byte of a sealed block changed to every other value. The first
 * difference ends the program with status 1.
 *
 * Then 20,000 blocks go to standard output for block.py to compare with zlib,
 * each as sheet and place (4 bytes each, high byte first), payload (496),
 * sealed block (512), what seal answered, what check answered; and the block
 * once more after some damage (512), with what check answered.
 */
#include "block.h"

#include <stdio.h>
#include <stdlib.h>
#include <string.h>

#define ANY_LENGTH 1024
#define BLOCKS 20000

static void expect(int holds, const char *what, unsigned long at)
{
    if (!holds) {
        fprintf(stderr, "block.c: %s (at %lu)\n", what, at);
        exit(1);
    }
}

/* Marsaglia's xorshift, always from the same start. */
static uint32_t next_random(void)
{
    static uint32_t x = 2463534242u;

    x ^= x << 13;
    x ^= x >> 17;
    x ^= x << 5;
    return x;
}

static void fill_random(uint8_t *bytes, size_t length)
{
    for (size_t i = 0; i < length; i++)
        bytes[i] = (uint8_t)(next_random() >> 11);
}

static uint32_t number_at(const uint8_t *bytes)
{
    return (uint32_t)bytes[0] << 24 | (uint32_t)bytes[1] << 16 | (uint32_t)bytes[2] << 8 | bytes[3];
}

static void figures(void)
{
    static const uint32_t A[] = {1, 2}, B[] = {504, 1005};
    uint8_t payload[PAYLOAD_SIZE] = {0}, block[BLOCK_SIZE];

    for (uint32_t sheet = 0; sheet < 2; sheet++) {
        expect(seal(sheet, 0, payload, sizeof payload, block, sizeof block) == BLOCK_SEALED, "a zero payload was not sealed",
               sheet);
        expect(number_at(block + 504) == A[sheet], "A of a zero payload", sheet);
        expect(number_at(block + 508) == B[sheet], "B of a zero payload", sheet);
    }
}

/* A slice of a wrong length is answered 3, and no byte changes. */
static void wrong_lengths(void)
{
    uint8_t payload[ANY_LENGTH], block[ANY_LENGTH], payload_before[ANY_LENGTH], block_before[ANY_LENGTH];

    fill_random(payload, sizeof payload);
    fill_random(block, sizeof block);
    memcpy(payload_before, payload, sizeof payload);
    memcpy(block_before, block, sizeof block);
    for (size_t n = 0; n < ANY_LENGTH; n++) {
        if (n != PAYLOAD_SIZE) {
            expect(seal(7, 9, payload, n, block, BLOCK_SIZE) == BLOCK_WRONG_LENGTH, "seal took a payload of this length", n);
            expect(seal(7, 9, payload, n, block, n) == BLOCK_WRONG_LENGTH, "seal took two slices of this length", n);
        }
        if (n != BLOCK_SIZE) {
            expect(seal(7, 9, payload, PAYLOAD_SIZE, block, n) == BLOCK_WRONG_LENGTH, "seal took a block of this length", n);
            expect(check(block, n) == BLOCK_WRONG_LENGTH, "check took a block of this length", n);
        }
        expect(memcmp(payload, payload_before, sizeof payload) == 0, "a refused call changed the payload", n);
        expect(memcmp(block, block_before, sizeof block) == 0, "a refused call changed the block", n);
    }
}

/* Any one byte changed, to any other value, is seen. */
static void single_bytes(void)
{
    uint8_t payload[PAYLOAD_SIZE], block[BLOCK_SIZE];

    fill_random(payload, sizeof payload);
    expect(seal(1023, 262143, payload, sizeof payload, block, sizeof block) == BLOCK_SEALED, "a block was not sealed", 0);
    for (size_t i = 0; i < BLOCK_SIZE; i++) {
        uint8_t was = block[i];

        for (unsigned change = 1; change < 256; change++) {
            block[i] = (uint8_t)(was ^ change);
            expect(check(block, sizeof block) == BLOCK_DAMAGED, "check holds though this byte is changed", i);
        }
        block[i] = was;
        expect(check(block, sizeof block) == BLOCK_HOLDS, "check does not hold though this byte is as it was", i);
    }
}

static uint32_t any_number(void)
{
    switch (next_random() >> 29) {
    case 0: return 0;
    case 1: return 1;
    case 2: return UINT32_MAX;
    case 3: return next_random() % 1024;
    default: return next_random();
    }
}

/* Mostly random bytes, but also the same byte throughout, as the sums are largest over 255s. */
static void any_payload(uint8_t *payload)
{
    switch (next_random() >> 29) {
    case 0: memset(payload, 0, PAYLOAD_SIZE); break;
    case 1: memset(payload, 255, PAYLOAD_SIZE); break;
    case 2: memset(payload, (int)(next_random() >> 24), PAYLOAD_SIZE); break;
    default: fill_random(payload, PAYLOAD_SIZE);
    }
}

static void put(const void *bytes, size_t length)
{
    expect(fwrite(bytes, 1, length, stdout) == length, "standard output cannot be written", 0);
}

static void put_number(uint32_t n)
{
    uint8_t bytes[4] = {(uint8_t)(n >> 24), (uint8_t)(n >> 16), (uint8_t)(n >> 8), (uint8_t)n};

    put(bytes, sizeof bytes);
}

static void put_answer(uint32_t answer)
{
    uint8_t byte = (uint8_t)answer;

    expect(answer < 256, "an answer is none of 0, 1 and 3", answer);
    put(&byte, 1);
}

/* Seals into the middle one of three blocks; the others stay as they were. */
static void random_blocks(void)
{
    uint8_t card[3 * BLOCK_SIZE], before[3 * BLOCK_SIZE], payload[PAYLOAD_SIZE], payload_before[PAYLOAD_SIZE];
    uint8_t *block = card + BLOCK_SIZE;

    fill_random(card, sizeof card);
    for (unsigned long i = 0; i < BLOCKS; i++) {
        uint32_t sheet = any_number(), place = any_number(), answer;

        any_payload(payload);
        memcpy(payload_before, payload, sizeof payload);
        memcpy(before, card, sizeof card);
        answer = seal(sheet, place, payload, sizeof payload, block, BLOCK_SIZE);
        expect(memcmp(payload, payload_before, sizeof payload) == 0, "seal changed the payload", i);
        expect(memcmp(card, before, BLOCK_SIZE) == 0, "seal changed the block before", i);
        expect(memcmp(card + 2 * BLOCK_SIZE, before + 2 * BLOCK_SIZE, BLOCK_SIZE) == 0, "seal changed the block after", i);
        put_number(sheet);
        put_number(place);
        put(payload, sizeof payload);
        put(block, BLOCK_SIZE);
        put_answer(answer);
        memcpy(before, card, sizeof card);
        put_answer(check(block, BLOCK_SIZE));
        expect(memcmp(card, before, sizeof card) == 0, "check changed the card", i);
        for (uint32_t bits = next_random() % 4; bits > 0; bits--)
            block[next_random() % BLOCK_SIZE] ^= (uint8_t)(1u << next_random() % 8);
        put(block, BLOCK_SIZE);
        put_answer(check(block, BLOCK_SIZE));
    }
    expect(fflush(stdout) == 0, "standard output cannot be written", 0);
}

int main(void)
{
    figures();
    wrong_lengths();
    single_bytes();
    random_blocks();
    return 0;
}
