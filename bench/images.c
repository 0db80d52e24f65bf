// Save and load of full cards by turns with those of another libpagunlit.a (bench/run says which): the least times, and how
// many times as long this library's take. `images once BLOCKS ORDER CALL` runs one call through `counted`, for a program that
// counts the instructions of a function.
#include <stdint.h>
#include <stdio.h>
#include <stdlib.h>
#include <string.h>

#include "full.h"
#include "role.h"
#include "time.h"

// pagunlit_save and pagunlit_load of the other library.
pagunlit_outcome other_save(OTHER_ROLE pagunlit_shape shape, const uint64_t *map, size_t maplen,
                            const pagunlit_entry *catalogue, size_t cataloguelen, uint64_t *scratch, size_t scratchlen,
                            uint8_t *image, size_t imagelen);
pagunlit_outcome other_load(OTHER_ROLE pagunlit_shape shape, const uint8_t *image, size_t imagelen, uint64_t *map,
                            size_t maplen, pagunlit_entry *catalogue, size_t cataloguelen, uint64_t *scratch,
                            size_t scratchlen);

enum { BATCHES = 8 };

static const char *const ORDERS[] = {"in order", "in none"};

// The other library's scratch: as long as the map, if it refuses one of 64 words.
static uint64_t other_scratch[MOST_BLOCKS / 64];
static size_t other_words;

// What the calls write.
static uint8_t written[LARGEST_IMAGE];
static uint64_t read_map[MOST_BLOCKS / 64];
static pagunlit_entry read_catalogue[PAGUNLIT_SHEETS];

static void give_up(const char *why) {
    fprintf(stderr, "bench/images: FAILED: %s\n", why);
    exit(1);
}

static uint32_t save_ours(void) {
    return pagunlit_save(ROLE, full, full_map, full_words, full_catalogue, PAGUNLIT_SHEETS, scratch, scratch_words, written,
                         image_bytes).number;
}

static uint32_t save_other(void) {
    return other_save(OTHERS_ROLE full, full_map, full_words, full_catalogue, PAGUNLIT_SHEETS, other_scratch, other_words,
                      written, image_bytes).number;
}

static uint32_t load_ours(void) {
    return pagunlit_load(ROLE, full, image, image_bytes, read_map, full_words, read_catalogue, PAGUNLIT_SHEETS, scratch,
                         scratch_words).number;
}

static uint32_t load_other(void) {
    return other_load(OTHERS_ROLE full, image, image_bytes, read_map, full_words, read_catalogue, PAGUNLIT_SHEETS,
                      other_scratch, other_words).number;
}

// A save must write the image, and a load must read map and catalogue from it.

static void check_save(uint32_t (*save)(void)) {
    memset(written, 0xff, sizeof written);
    if (save() != PAGUNLIT_DONE) give_up("a save is refused");
    if (memcmp(written, image, image_bytes) != 0) give_up("the two libraries write different images");
}

static void check_load(uint32_t (*load)(void)) {
    memset(read_map, 0xff, sizeof read_map);
    memset(read_catalogue, 0xff, sizeof read_catalogue);
    if (load() != PAGUNLIT_DONE) give_up("a load is refused");
    if (memcmp(read_map, full_map, full_words * sizeof *full_map) != 0) give_up("a load reads another map");
    if (memcmp(read_catalogue, full_catalogue, sizeof full_catalogue) != 0) give_up("a load reads another catalogue");
}

static void make_card(uint32_t blocks, enum order order) {
    fill_card(blocks, order);
    other_words = scratch_words;
    if (save_other() == PAGUNLIT_WRONG_SIZE) other_words = full_words;
    if (save_ours() != PAGUNLIT_DONE) give_up("a save is refused");
    memcpy(image, written, image_bytes);
}

static const struct {
    const char *name;
    uint32_t (*call)(void);
} CALLS[] = {{"other_save", save_other}, {"save", save_ours}, {"other_load", load_other}, {"load", load_ours}};

__attribute__((noinline)) static uint32_t counted(uint32_t (*call)(void)) {
    return call();
}

static void once(uint32_t blocks, enum order order, const char *name) {
    make_card(blocks, order);
    for (size_t i = 0; i < sizeof CALLS / sizeof *CALLS; i++)
        if (strcmp(CALLS[i].name, name) == 0 && counted(CALLS[i].call) != PAGUNLIT_DONE) give_up("a call is refused");
}

struct call {
    uint32_t (*call)(void);
};

static void run_call(void *job) {
    struct call *c = job;
    if (c->call() != PAGUNLIT_DONE) give_up("a call is refused");
}

// The least times of a call of the other library and of this one, in microseconds, and their ratio.
static void time_call(uint32_t (*other)(void), uint32_t (*ours)(void)) {
    struct call calls[] = {{other}, {ours}};
    void *jobs[] = {&calls[0], &calls[1]};
    double least[] = {1e18, 1e18}, times[2];
    for (int batch = 0; batch < BATCHES; batch++) {
        least_times(2, run_call, jobs, times);
        for (int i = 0; i < 2; i++)
            if (times[i] < least[i]) least[i] = times[i];
    }
    printf(" %12.1f %9.1f %7.3f", least[0] * 1e-3, least[1] * 1e-3, least[1] / least[0]);
}

static void time_card(uint32_t blocks, enum order order) {
    make_card(blocks, order);
    check_save(save_other);
    check_load(load_ours);
    check_load(load_other);
    printf("%8u %9s", blocks, ORDERS[order]);
    time_call(save_other, save_ours);
    time_call(load_other, load_ours);
    printf("\n");
}

int main(int count, char **words) {
    if (count == 5 && strcmp(words[1], "once") == 0) {
        once((uint32_t)atoi(words[2]), strcmp(words[3], "order") == 0 ? IN_ORDER : IN_NONE, words[4]);
        return 0;
    }
    printf("Full cards of %d sheets, which lie in order of their blocks or in none. Save and load: the other library's time\n"
           "and this one's (us), and how many times as long this one's takes:\n%8s %9s %12s %9s %7s %12s %9s %7s\n",
           PAGUNLIT_SHEETS, "blocks", "sheets", "save: other", "this", "times", "load: other", "this", "times");
    for (enum order order = IN_ORDER; order <= IN_NONE; order++) time_card(MOST_BLOCKS, order);
    for (enum order order = IN_ORDER; order <= IN_NONE; order++) time_card(4096, order);
    return 0;
}
