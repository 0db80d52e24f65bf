// Sealed blocks: seal, check and complete, the library's way and with other sums.
#ifndef BENCH_SEALED_H
#define BENCH_SEALED_H

#include <zlib.h>

#include "aged.h"
#include "role.h"
#include "ways.h"

// Blocks: place p of sheet 0 is block p, and it is sealed.

enum { PLACES = 256 };

static uint8_t payload[PAGUNLIT_PAYLOAD];

static uint32_t zlib_sums(const uint8_t *bytes, size_t length) {
    return (uint32_t)adler32(1, bytes, (uInt)length);
}

static uint32_t number_at(const uint8_t *bytes) {
    uint32_t number;
    memcpy(&number, bytes, sizeof number);
    return __builtin_bswap32(number);
}

static void put_number(uint8_t *bytes, uint32_t number) {
    number = __builtin_bswap32(number);
    memcpy(bytes, &number, sizeof number);
}

static uint32_t ours_seal(uint32_t place) {
    return seal(0, place, payload, sizeof payload, block(place), PAGUNLIT_BLOCK);
}

static inline uint32_t others_seal(uint32_t place, uint32_t (*sums)(const uint8_t *, size_t)) {
    uint8_t *bytes = block(place);
    put_number(bytes, 0);
    put_number(bytes + 4, place);
    memcpy(bytes + 8, payload, sizeof payload);
    uint32_t both = sums(bytes, 504);
    put_number(bytes + 504, both & 0xffff);
    put_number(bytes + 508, both >> 16);
    return 0;
}

static inline uint32_t others_check(const uint8_t *bytes, uint32_t (*sums)(const uint8_t *, size_t)) {
    uint32_t both = sums(bytes, 504);
    return number_at(bytes + 504) == (both & 0xffff) && number_at(bytes + 508) == both >> 16;
}

static uint32_t bytes_seal(uint32_t place) {
    return others_seal(place, sums_bytes);
}

static uint32_t zlib_seal(uint32_t place) {
    return others_seal(place, zlib_sums);
}

static uint32_t ours_check(uint32_t place) {
    return check(block(place), PAGUNLIT_BLOCK);
}

static uint32_t bytes_check(uint32_t place) {
    return others_check(block(place), sums_bytes);
}

static uint32_t zlib_check(uint32_t place) {
    return others_check(block(place), zlib_sums);
}

// Complete of a sheet with all places filled; then it is made Open again.

static uint32_t ours_complete(uint32_t places) {
    catalogue[0] = (pagunlit_entry){PAGUNLIT_OPEN, 0, places};
    return pagunlit_complete(ROLE, shape, map, words(), catalogue, SHEETS, card, (size_t)PAGUNLIT_BLOCK * n, 0).number;
}

static inline uint32_t others_complete(uint32_t places, uint32_t (*sums)(const uint8_t *, size_t)) {
    catalogue[0] = (pagunlit_entry){PAGUNLIT_OPEN, 0, places};
    if (next_bit(map, places, 0, 0) < places) return 4;
    for (uint32_t p = 0; p < places; p++) {
        const uint8_t *bytes = block(p);
        if (number_at(bytes) != 0 || number_at(bytes + 4) != p || !others_check(bytes, sums)) return 4;
    }
    catalogue[0].mark = PAGUNLIT_COMPLETE;
    return 0;
}

static uint32_t bytes_complete(uint32_t places) {
    return others_complete(places, sums_bytes);
}

static uint32_t zlib_complete(uint32_t places) {
    return others_complete(places, zlib_sums);
}

static const struct way SEALS[] = {{"library", ours_seal}, {"byte by byte", bytes_seal}, {"zlib's adler32", zlib_seal}};
static const struct way CHECKS[] = {{"library", ours_check}, {"byte by byte", bytes_check}, {"zlib's adler32", zlib_check}};
static const struct way COMPLETES[] = {
    {"library", ours_complete},
    {"byte by byte", bytes_complete},
    {"zlib's adler32", zlib_complete},
};

#endif
