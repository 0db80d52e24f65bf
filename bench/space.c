// The space behind a start (document 02, request b): the proved function beside C that finds the end of the same run a word at
// a time, and the library's search, which answers it, by turns with that of another libpagunlit.a (bench/run says which).
// `space searches` times the searches alone.
#include <stdint.h>
#include <stdio.h>
#include <stdlib.h>
#include <string.h>

#include "maps.h"
#include "pagunlit.h"
#include "plain.h"
#include "role.h"
#include "time.h"

// The crate bench_space.
uint32_t map_bench_space(const uint64_t *map, size_t words, uint32_t n, uint32_t start);

// pagunlit_search of the other library.
pagunlit_outcome other_search(OTHER_ROLE pagunlit_shape shape, const uint64_t *map, size_t maplen, uint32_t k);

static void give_up(const char *why) {
    fprintf(stderr, "bench/space: FAILED: %s\n", why);
    exit(1);
}

// The space, and the same in C, called and not made part of the loop, as the library's is.

__attribute__((noinline)) static uint32_t plain_space(const uint64_t *map, size_t words, uint32_t n, uint32_t start) {
    (void)words;
    return next_bit(map, n, start, ONES) - start;
}

struct space_job {
    uint32_t (*space)(const uint64_t *, size_t, uint32_t, uint32_t);
    uint32_t n, start, sum;
};

static void run_space(void *job) {
    struct space_job *s = job;
    for (int m = 0; m < MAPS; m++) s->sum += s->space(maps[m], (s->n + 63) / 64, s->n, s->start);
}

static void time_space(uint32_t n, uint32_t start) {
    struct space_job plain = {plain_space, n, start, 0}, ours = {map_bench_space, n, start, 0};
    void *jobs[] = {&plain, &ours};
    double ratios[2];
    double ns = median_times(2, run_space, jobs, ratios);
    printf("%8u %8u %12.1f %8.2f\n", n, start, ns / MAPS, ratios[1]);
}

static void time_spaces(void) {
    static const uint32_t ns[] = {64, 4096, BLOCKS}, starts[] = {0, 37};
    printf("All free: the time of C, and how many times as long the proved function takes:\n%8s %8s %12s %8s\n", "n", "start",
           "C (ns)", "times");
    memset(maps, 0xff, sizeof maps);
    for (size_t i = 0; i < sizeof ns / sizeof *ns; i++) {
        for (size_t j = 0; j < sizeof starts / sizeof *starts; j++) time_space(ns[i], starts[j]);
    }
}

static void check_spaces(void) {
    for (int turn = 0; turn < 100; turn++) {
        fill(maps[0], (struct kind){"", 0.3 + 0.65 * chance(), 1 + 600 * chance() * chance()});
        for (int i = 0; i < 2000; i++) {
            uint32_t n = 1 + (uint32_t)(chance() * (chance() < 0.5 ? 2000 : BLOCKS)), start = (uint32_t)(chance() * n);
            uint32_t ours = map_bench_space(maps[0], (n + 63) / 64, n, start);
            if (ours != plain_space(maps[0], 0, n, start)) give_up("a space differs");
        }
    }
    printf("\n200000 random spaces are as C finds them\n");
}

// The library's search.

struct search_job {
    pagunlit_outcome (*search)(const uint64_t *, uint32_t);
    uint32_t k, sum;
};

static const pagunlit_shape SHAPE = {BLOCKS, BLOCKS};

static pagunlit_outcome our_search(const uint64_t *map, uint32_t k) {
    return pagunlit_search(ROLE, SHAPE, map, WORDS, k);
}

static pagunlit_outcome their_search(const uint64_t *map, uint32_t k) {
    return other_search(OTHERS_ROLE SHAPE, map, WORDS, k);
}

static void run_search(void *job) {
    struct search_job *s = job;
    for (int m = 0; m < MAPS; m++) s->sum += s->search(maps[m], s->k).first;
}

// The mean space of the fits for k; 0 if there are none.
static double compared(uint32_t k) {
    uint32_t fits = 0, blocks = 0;
    for (int m = 0; m < MAPS; m++) {
        pagunlit_outcome ours = our_search(maps[m], k), other = their_search(maps[m], k);
        if (ours.number != other.number || ours.first != other.first) give_up("the two libraries find different starts");
        if (ours.number != PAGUNLIT_DONE) continue;
        if (ours.second != plain_space(maps[m], WORDS, BLOCKS, ours.first)) give_up("a search answers another space");
        fits++;
        blocks += ours.second;
    }
    return fits == 0 ? 0 : (double)blocks / fits;
}

static double most, most_found;

static void time_search(uint32_t k) {
    double space = compared(k);
    struct search_job other = {their_search, k, 0}, ours = {our_search, k, 0};
    void *jobs[] = {&other, &ours};
    double ratios[2];
    double ns = median_times(2, run_search, jobs, ratios);
    printf("%5u %9.1f %12.1f %8.3f\n", k, space, ns / MAPS, ratios[1]);
    if (ratios[1] > most) most = ratios[1];
    if (space > 0 && ratios[1] > most_found) most_found = ratios[1];
}

int main(int count, char **words) {
    static const uint32_t ks[] = {1, 2, 3, 5, 9, 16, 33, 64, 200};
    printf("The library's search on maps of %d blocks, %d of each kind: the mean space, the time of the other\n"
           "library's, and how many times as long this one's takes:\n",
           BLOCKS, MAPS);
    for (int i = 0; i < KIND_COUNT; i++) {
        for (int m = 0; m < MAPS; m++) fill(maps[m], KINDS[i]);
        printf("\n%s\n    k     space   other (ns)    times\n", KINDS[i].name);
        for (size_t j = 0; j < sizeof ks / sizeof *ks; j++) time_search(ks[j]);
    }
    printf("\nmost: %.3f; where there is a fit: %.3f\n", most, most_found);
    if (count == 2 && strcmp(words[1], "searches") == 0) return 0;
    check_spaces();
    time_spaces();
    return 0;
}
