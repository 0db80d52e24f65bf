// The times of several ways to do one thing, measured side by side.
#ifndef BENCH_TIME_H
#define BENCH_TIME_H

#include <stdlib.h>
#include <time.h>

// How often each way is measured, and how long one measurement lasts at least.
enum { ROUNDS = 15, MEDIAN_ROUNDS = 41 };
static const double SHORTEST = 0.4e-3;

static double seconds(void) {
    struct timespec t;
    clock_gettime(CLOCK_MONOTONIC, &t);
    return (double)t.tv_sec + (double)t.tv_nsec * 1e-9;
}

static double seconds_for(void (*run)(void *), void *job, long turns) {
    double start = seconds();
    for (long i = 0; i < turns; i++) run(job);
    return seconds() - start;
}

// The least time of one turn of each job, in nanoseconds. The jobs take turns, so that what slows the machine down for a
// while slows all of them down, and the least of many rounds is the one that nothing disturbed.
static inline void least_times(int count, void (*run)(void *), void *const *jobs, double *nanoseconds) {
    long turns[count];
    for (int j = 0; j < count; j++) {
        double once = seconds_for(run, jobs[j], 1);
        once = seconds_for(run, jobs[j], 1) + 1e-9;
        turns[j] = once < SHORTEST ? (long)(SHORTEST / once) + 1 : 1;
        nanoseconds[j] = 1e18;
    }
    for (int round = 0; round < ROUNDS; round++) {
        for (int j = 0; j < count; j++) {
            double time = seconds_for(run, jobs[j], turns[j]) * 1e9 / (double)turns[j];
            if (time < nanoseconds[j]) nanoseconds[j] = time;
        }
    }
}

static int by_size(const void *a, const void *b) {
    double x = *(const double *)a, y = *(const double *)b;
    return (x > y) - (x < y);
}

static inline double median(double *numbers, int count) {
    qsort(numbers, (size_t)count, sizeof *numbers, by_size);
    return numbers[count / 2];
}

// The median time of one turn of the first job, in nanoseconds, and for each job the median of how many times as long as
// the first it took in the same round.
static inline double median_times(int count, void (*run)(void *), void *const *jobs, double *ratios) {
    long turns[count];
    double times[count][MEDIAN_ROUNDS], first[MEDIAN_ROUNDS];
    for (int j = 0; j < count; j++) {
        double once = seconds_for(run, jobs[j], 1);
        once = seconds_for(run, jobs[j], 1) + 1e-9;
        turns[j] = once < SHORTEST ? (long)(SHORTEST / once) + 1 : 1;
    }
    for (int round = 0; round < MEDIAN_ROUNDS; round++) {
        for (int j = 0; j < count; j++) times[j][round] = seconds_for(run, jobs[j], turns[j]) * 1e9 / (double)turns[j];
        first[round] = times[0][round];
        for (int j = 0; j < count; j++) times[j][round] /= first[round];
    }
    for (int j = 0; j < count; j++) ratios[j] = median(times[j], MEDIAN_ROUNDS);
    return median(first, MEDIAN_ROUNDS);
}

#endif
