// The proved search within the figures from, before and step against C, on maps of 262,144 blocks: from candidate to candidate
// bit by bit, and the way of kernels with an alignment. `placed check` only compares the answers, at random.
#include <stdint.h>
#include <stdio.h>
#include <stdlib.h>
#include <string.h>

#include "maps.h"
#include "plain.h"
#include "time.h"

// The crate bench_placed.
uint32_t map_bench_search_placed(const uint64_t *map, size_t words, uint32_t n, uint32_t from, uint32_t before, uint32_t step,
                                 uint32_t k);

struct figures {
    uint32_t from, before, step;
};

typedef uint32_t (*way)(const uint64_t *map, struct figures at, uint32_t k);

static uint32_t ours(const uint64_t *map, struct figures at, uint32_t k) {
    return map_bench_search_placed(map, WORDS, BLOCKS, at.from, at.before, at.step, k);
}

// (1) Bit by bit, from one multiple of the step to the next behind the taken block that was met.
static uint32_t candidates(const uint64_t *map, struct figures at, uint32_t k) {
    uint64_t c = ((uint64_t)at.from + at.step - 1) / at.step * at.step;
    while (c + k <= at.before) {
        uint32_t b = (uint32_t)c;
        while (b < c + k && is_free(map, b)) b++;
        if (b == c + k) return (uint32_t)c;
        if (b < c + at.step) c += at.step;
        else c = ((uint64_t)b / at.step + 1) * at.step;
    }
    return NO_FIT;
}

// (2) The next free block, the start rounded up, the next taken block behind it, and on from there. Rounding up is a mask where
// the step is a power of two, as kernels have it.
static uint32_t aligned(const uint64_t *map, struct figures at, uint32_t k) {
    uint32_t from = at.from;
    for (;;) {
        uint64_t start = next_bit(map, at.before, from, 0);
        uint64_t mask = at.step - 1;
        uint64_t c = (at.step & mask) == 0 ? (start + mask) & ~mask : (start + mask) / at.step * at.step;
        if (c + k > at.before) return NO_FIT;
        uint32_t taken = next_bit(map, (uint32_t)c + k, (uint32_t)c, ONES);
        if (taken == c + k) return (uint32_t)c;
        from = taken + 1;
    }
}

// Jobs: a way over all maps of a kind.

struct job {
    way search;
    struct figures at;
    uint32_t k, sum;
};

static void run(void *job) {
    struct job *j = job;
    for (int m = 0; m < MAPS; m++) j->sum += j->search(maps[m], j->at, j->k);
}

// How many of the maps have a fit; the program ends if the answers differ.
static int compared(struct figures at, uint32_t k) {
    int found = 0;
    for (int m = 0; m < MAPS; m++) {
        uint32_t start = ours(maps[m], at, k);
        if (start != candidates(maps[m], at, k) || start != aligned(maps[m], at, k)) {
            fprintf(stderr, "the answers differ: from %u before %u step %u k %u\n", at.from, at.before, at.step, k);
            exit(1);
        }
        found += start != NO_FIT;
    }
    return found;
}

// The cells that are looked for: the least ratios, and the slowest.
struct cell {
    double figure;
    const char *name;
    struct figures at;
    uint32_t k;
};

static void least(struct cell *cell, struct cell other) {
    if (cell->name == NULL || other.figure < cell->figure) *cell = other;
}

static void say(const char *what, struct cell cell, double sign) {
    printf("%s: %.2f (%s, window %u to %u, step %u, k %u)\n", what, cell.figure * sign, cell.name, cell.at.from, cell.at.before,
           cell.at.step, cell.k);
}

static struct cell least_near, least_far, least_aligned, slowest;

// The least and the largest of some figures.
struct range {
    double from, to;
};

static void widen(struct range *range, double figure) {
    if (range->to == 0 || figure < range->from) range->from = figure;
    if (figure > range->to) range->to = figure;
}

// Of a map and a window: near steps, which are up to 8, and far ones; without a fit (0) and with one (1).
static struct range times[2], bits[2][2], next[2][2];
static int every_cell;

static void time_search(const char *name, struct figures at, uint32_t k) {
    int found = compared(at, k);
    struct job jobs[] = {{ours, at, k, 0}, {candidates, at, k, 0}, {aligned, at, k, 0}};
    void *pointers[] = {&jobs[0], &jobs[1], &jobs[2]};
    double ns[3];
    least_times(3, run, pointers, ns);
    if (every_cell)
        printf("%6u %5u %9d %11.1f %13.2f %13.2f\n", at.step, k, found, ns[0] / MAPS, ns[1] / ns[0], ns[2] / ns[0]);
    int far = at.step > 8;
    widen(&times[far], ns[0] / MAPS);
    widen(&bits[far][found != 0], ns[1] / ns[0]);
    widen(&next[far][found != 0], ns[2] / ns[0]);
    if (found == 0) least(at.step <= 8 ? &least_near : &least_far, (struct cell){ns[1] / ns[0], name, at, k});
    if (ns[0] / MAPS > 20) least(&least_aligned, (struct cell){ns[2] / ns[0], name, at, k});
    least(&slowest, (struct cell){-ns[0] / MAPS, name, at, k});
}

static const uint32_t STEPS[] = {1, 2, 3, 7, 8, 64, 100, 4096}, COUNTS[] = {1, 2, 9, 33, 64, 200};
static const struct figures WINDOWS[] = {{0, BLOCKS, 0}, {100001, 104097, 0}};

static void say_range(struct range range) {
    if (range.to == 0)
        printf(" %15s", "-");
    else
        printf(" %6.2f to %5.0f", range.from, range.to);
}

static void time_steps(const char *name, struct figures window, int by_step) {
    memset(times, 0, sizeof times);
    memset(bits, 0, sizeof bits);
    memset(next, 0, sizeof next);
    if (every_cell)
        printf("\n%s, window %u to %u\n  step     k  with fit   ours (ns)     times (1)     times (2)\n", name, window.from,
               window.before);
    for (size_t i = 0; i < sizeof STEPS / sizeof *STEPS; i++) {
        if (by_step) {
            memset(maps, 0, sizeof maps);
            for (int m = 0; m < MAPS; m++) {
                for (uint32_t b = 0; b < BLOCKS; b++) {
                    if (b % STEPS[i] != 0) set_free(maps[m], b);
                }
            }
        }
        struct figures at = {window.from, window.before, STEPS[i]};
        for (size_t j = 0; j < sizeof COUNTS / sizeof *COUNTS; j++) time_search(name, at, COUNTS[j]);
    }
    for (int far = 0; far < 2 && !every_cell; far++) {
        printf("%-26.26s %-6s %-5s", name, window.from == 0 ? "wide" : "narrow", far ? "far" : "near");
        say_range(times[far]);
        for (int found = 0; found < 2; found++) {
            say_range(bits[far][found]);
            say_range(next[far][found]);
        }
        printf("\n");
    }
}

static void check(void) {
    for (int turn = 0; turn < 100; turn++) {
        struct kind kind = {"", 0.3 + 0.65 * chance(), 1 + 60 * chance() * chance()};
        for (int m = 0; m < MAPS; m++) fill(maps[m], kind);
        for (int i = 0; i < 250; i++) {
            uint32_t before = 1 + (uint32_t)(chance() * (chance() < 0.5 ? 2000 : BLOCKS));
            struct figures at = {(uint32_t)(chance() * before * 1.05), before, 1 + (uint32_t)(chance() * 64)};
            if (chance() < 0.2) at.step = 1 + (uint32_t)(chance() * 1000);
            if (chance() < 0.2) at.step = 1 + (uint32_t)(chance() * chance() * 4294967000.0);
            compared(at, 1 + (uint32_t)(chance() * chance() * (chance() < 0.1 ? 1000 : 80)));
        }
    }
    printf("%d random searches within figures answer as C does\n", 100 * 250 * MAPS);
}

int main(int count, char **words) {
    check();
    if (count == 2 && strcmp(words[1], "check") == 0) return 0;
    printf("Maps of %d blocks, %d of each kind. The time of the proved function, and how many times as long C takes:\n", BLOCKS,
           MAPS);
    printf("(1) from candidate to candidate bit by bit, (2) next free block, rounded up, next taken block, and on.\n");
    every_cell = count == 2 && strcmp(words[1], "cells") == 0;
    if (!every_cell)
        printf("Near: steps up to 8; far: 64, 100 and 4,096. The least and the largest of each.\n\n"
               "%-26s %-6s %-5s %15s %15s %15s %15s %15s\n",
               "", "", "steps", "ours (ns)", "no fit: (1)", "no fit: (2)", "a fit: (1)", "a fit: (2)");
    for (size_t w = 0; w < sizeof WINDOWS / sizeof *WINDOWS; w++) {
        for (int i = 0; i < KIND_COUNT; i++) {
            for (int m = 0; m < MAPS; m++) fill(maps[m], KINDS[i]);
            time_steps(KINDS[i].name, WINDOWS[w], 0);
        }
        time_steps("all free but the multiples of the step", WINDOWS[w], 1);
    }
    printf("\n");
    say("least (1) without a fit, steps up to 8", least_near, 1);
    say("least (1) without a fit, longer steps", least_far, 1);
    say("least (2) of the searches that take more than 20 ns", least_aligned, 1);
    say("the slowest search, ns", slowest, -1);
    return 0;
}
