// The proved search and survey against C, on maps of 262,144 blocks: bit by bit, and the way that kernels usually go.
#include <stdint.h>
#include <stdio.h>
#include <stdlib.h>
#include <string.h>

#include "maps.h"
#include "plain.h"
#include "time.h"

// The crate bench_map.
uint32_t map_bench_search(const uint64_t *map, size_t words, uint32_t n, uint32_t k);
struct counts map_bench_survey(const uint64_t *map, size_t words, uint32_t n);

// The others, called as the proved ones are.
static uint32_t bits_search(const uint64_t *map, size_t words, uint32_t n, uint32_t k) {
    (void)words;
    return search_bits(map, n, k);
}

static uint32_t runs_search(const uint64_t *map, size_t words, uint32_t n, uint32_t k) {
    (void)words;
    return search_runs(map, n, k);
}

static struct counts bits_survey(const uint64_t *map, size_t words, uint32_t n) {
    (void)words;
    return survey_bits(map, n);
}

// Jobs: a way over all maps of a kind.

struct search_job {
    uint32_t (*search)(const uint64_t *, size_t, uint32_t, uint32_t);
    uint32_t k, sum;
};

static void run_search(void *job) {
    struct search_job *s = job;
    for (int m = 0; m < MAPS; m++) s->sum += s->search(maps[m], WORDS, BLOCKS, s->k);
}

struct survey_job {
    struct counts (*survey)(const uint64_t *, size_t, uint32_t);
    uint32_t sum;
};

static void run_survey(void *job) {
    struct survey_job *s = job;
    for (int m = 0; m < MAPS; m++) s->sum += s->survey(maps[m], WORDS, BLOCKS).longest;
}

static void differ(const char *name, uint32_t k) {
    fprintf(stderr, "the answers differ: %s, k %u\n", name, k);
    exit(1);
}

static void check_search(const char *name, uint32_t k) {
    for (int m = 0; m < MAPS; m++) {
        uint32_t start = map_bench_search(maps[m], WORDS, BLOCKS, k);
        if (start != bits_search(maps[m], WORDS, BLOCKS, k)) differ(name, k);
        if (start != runs_search(maps[m], WORDS, BLOCKS, k)) differ(name, k);
    }
}

static void check_survey(const char *name) {
    for (int m = 0; m < MAPS; m++) {
        struct counts ours = map_bench_survey(maps[m], WORDS, BLOCKS);
        struct counts bits = bits_survey(maps[m], WORDS, BLOCKS);
        if (memcmp(&ours, &bits, sizeof ours) != 0) differ(name, 0);
    }
}

// The least ratio met, and where.
struct worst {
    double ratio;
    uint32_t k;
    const char *name;
};

static void note(struct worst *worst, double ratio, uint32_t k, const char *name) {
    if (worst->name == NULL || ratio < worst->ratio) *worst = (struct worst){ratio, k, name};
}

static struct worst worst_bits, worst_next;

static void time_search(const char *name, uint32_t k) {
    check_search(name, k);
    struct search_job ours = {map_bench_search, k, 0}, bits = {bits_search, k, 0}, next = {runs_search, k, 0};
    void *jobs[] = {&ours, &bits, &next};
    double ns[3];
    least_times(3, run_search, jobs, ns);
    printf("%5u %11.1f %13.2f %13.2f\n", k, ns[0] / MAPS, ns[1] / ns[0], ns[2] / ns[0]);
    note(&worst_bits, ns[1] / ns[0], k, name);
    note(&worst_next, ns[2] / ns[0], k, name);
}

static void time_survey(const char *name) {
    check_survey(name);
    struct survey_job ours = {map_bench_survey, 0}, bits = {bits_survey, 0};
    void *jobs[] = {&ours, &bits};
    double ns[2];
    least_times(2, run_survey, jobs, ns);
    printf("survey %10.1f %13.2f\n", ns[0] / MAPS, ns[1] / ns[0]);
}

int main(void) {
    static const uint32_t ks[] = {1, 2, 3, 5, 9, 17, 33, 64, 200};
    printf("Maps of %d blocks, %d of each kind. The time of the proved function, and how many times as long C takes:\n",
           BLOCKS, MAPS);
    printf("(1) bit by bit, (2) next free block, next taken block, and on.\n");
    for (int i = 0; i < KIND_COUNT; i++) {
        for (int m = 0; m < MAPS; m++) fill(maps[m], KINDS[i]);
        printf("\n%s\n    k   ours (ns)     times (1)     times (2)\n", KINDS[i].name);
        for (size_t j = 0; j < sizeof ks / sizeof *ks; j++) time_search(KINDS[i].name, ks[j]);
        time_survey(KINDS[i].name);
    }
    printf("\nleast of the searches: (1) %.2f (%s, k %u); (2) %.2f (%s, k %u)\n",
           worst_bits.ratio, worst_bits.name, worst_bits.k,
           worst_next.ratio, worst_next.name, worst_next.k);
    return 0;
}
