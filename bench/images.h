// Save and load of full cards, beside copying the image and beside the sums of its frames alone. The scratch has 64 words: the
// largest card is tested in 64 windows, one of 4,096 blocks in one.
#ifndef BENCH_IMAGES_H
#define BENCH_IMAGES_H

#include "aged.h"
#include "full.h"
#include "role.h"
#include "sealed.h"
#include "ways.h"

static uint8_t copy[LARGEST_IMAGE];

static uint32_t ours_save(uint32_t unused) {
    return unused + pagunlit_save(ROLE, full, full_map, full_words, full_catalogue, PAGUNLIT_SHEETS, scratch, scratch_words,
                                  image, image_bytes).number;
}

static uint32_t ours_load(uint32_t unused) {
    return unused + pagunlit_load(ROLE, full, image, image_bytes, full_map, full_words, full_catalogue, PAGUNLIT_SHEETS,
                                  scratch, scratch_words).number;
}

static uint32_t copy_image(uint32_t unused) {
    memcpy(copy, image, image_bytes);
    sink += copy[sink % image_bytes];
    return unused;
}

static inline uint32_t frame_sums(uint32_t (*sums)(const uint8_t *, size_t)) {
    uint32_t wrong = 0;
    for (size_t frame = 0; frame < image_bytes; frame += PAGUNLIT_BLOCK) wrong += !others_check(image + frame, sums);
    return wrong;
}

static uint32_t zlib_frames(uint32_t unused) {
    return unused + frame_sums(zlib_sums);
}

static uint32_t our_frames(uint32_t unused) {
    for (size_t frame = 0; frame < image_bytes; frame += PAGUNLIT_BLOCK) unused += check(image + frame, PAGUNLIT_BLOCK) != 1;
    return unused;
}

static const struct way SAVES[] = {
    {"library", ours_save},
    {"memcpy", copy_image},
    {"check of frames", our_frames},
    {"adler32 of them", zlib_frames},
};

static const struct way LOADS[] = {
    {"library", ours_load},
    {"memcpy", copy_image},
    {"check of frames", our_frames},
    {"adler32 of them", zlib_frames},
};

#endif
