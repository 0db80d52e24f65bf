// Ways to do a thing, and the lines of a table that compares them. Each way is given a number and gives a number back, and all
// ways of one thing give the same.
#ifndef BENCH_WAYS_H
#define BENCH_WAYS_H

#include <stdint.h>
#include <stdio.h>

#include "aged.h"
#include "time.h"

enum { MOST_WAYS = 5 };

static volatile uint32_t sink;

struct way {
    const char *name;
    uint32_t (*call)(uint32_t);
};

struct job {
    uint32_t (*call)(uint32_t);
    uint32_t argument;
};

static void run_job(void *job) {
    struct job *j = job;
    sink += j->call(j->argument);
}

// The time of the first of two ways, and how many times as long the second takes.
static inline double compared(const struct way *ways, uint32_t argument, double *ratio) {
    struct job jobs[2] = {{ways[0].call, argument}, {ways[1].call, argument}};
    void *pointers[2] = {&jobs[0], &jobs[1]};
    double ratios[2];
    if (ways[0].call(argument) != ways[1].call(argument)) give_up("two ways answer differently");
    double first = median_times(2, run_job, pointers, ratios);
    *ratio = ratios[1];
    return first;
}

static void heading(const char *what, const struct way *ways, int count) {
    printf("\n%s\n%-28s %12s", what, "", "ns");
    for (int i = 1; i < count; i++) printf(" %16s", ways[i].name);
    printf("\n");
}

// A line of a table. One turn does the thing `parts` times.
static void line(const char *what, const struct way *ways, int count, uint32_t argument, int parts) {
    struct job jobs[MOST_WAYS];
    void *pointers[MOST_WAYS];
    double ratios[MOST_WAYS];
    for (int i = 0; i < count; i++) {
        jobs[i] = (struct job){ways[i].call, argument};
        pointers[i] = &jobs[i];
        if (ways[i].call(argument) != ways[0].call(argument)) give_up("two ways answer differently");
    }
    double first = median_times(count, run_job, pointers, ratios);
    printf("%-28s %12.1f", what, first / parts);
    for (int i = 1; i < count; i++) printf(" %16.2f", ratios[i]);
    printf("\n");
    fflush(stdout);
}

#endif
