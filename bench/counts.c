// Dose counts: reading and writing all 124 counts of a payload, beside plain C that does the same with the same checks.
#include "pagunlit.h"
#include "random.h"
#include "time.h"

#include <stdio.h>
#include <string.h>

enum { COUNTS = 124, LARGEST = 99999999 };

// Plain C. As the library's, the functions are called and not made part of the loop.

__attribute__((noinline)) static pagunlit_count plain_read(const uint8_t *payload, size_t length, uint32_t which) {
    pagunlit_count count = {0, PAGUNLIT_COUNT_ABSENT};
    if (length != PAGUNLIT_PAYLOAD) return (pagunlit_count){3, PAGUNLIT_COUNT_ABSENT};
    if (which >= COUNTS) return (pagunlit_count){16, PAGUNLIT_COUNT_ABSENT};
    const uint8_t *b = payload + 4 * which;
    if (b[0] == 255 && b[1] == 255 && b[2] == 255 && b[3] == 255) return count;
    count.hundredths = 0;
    for (int i = 0; i < 4; i++) {
        if (b[i] >> 4 > 9 || (b[i] & 15) > 9) return (pagunlit_count){16, PAGUNLIT_COUNT_ABSENT};
        count.hundredths = count.hundredths * 100 + (b[i] >> 4) * 10u + (b[i] & 15);
    }
    return count;
}

__attribute__((noinline)) static uint32_t plain_write(uint8_t *payload, size_t length, uint32_t which, uint32_t hundredths) {
    if (length != PAGUNLIT_PAYLOAD) return 3;
    if (which >= COUNTS) return 16;
    uint8_t *b = payload + 4 * which;
    if (hundredths == PAGUNLIT_COUNT_ABSENT) {
        memset(b, 255, 4);
        return 0;
    }
    if (hundredths > LARGEST) return 16;
    for (int i = 3; i >= 0; i--) {
        b[i] = (uint8_t)(hundredths % 100 / 10 * 16 + hundredths % 10);
        hundredths /= 100;
    }
    return 0;
}

struct job {
    pagunlit_count (*read)(const uint8_t *, size_t, uint32_t);
    uint32_t (*write)(uint8_t *, size_t, uint32_t, uint32_t);
    uint8_t *payload;
    const uint32_t *numbers;
    uint32_t sum;
};

static void read_all(void *pointer) {
    struct job *job = pointer;
    for (uint32_t which = 0; which < COUNTS; which++)
        job->sum += job->read(job->payload, PAGUNLIT_PAYLOAD, which).hundredths;
}

static void write_all(void *pointer) {
    struct job *job = pointer;
    for (uint32_t which = 0; which < COUNTS; which++)
        job->sum += job->write(job->payload, PAGUNLIT_PAYLOAD, which, job->numbers[which]);
}

static void compare(const char *what, void (*run)(void *), struct job *jobs) {
    void *const both[] = {&jobs[0], &jobs[1]};
    double ratios[2];
    double nanoseconds = median_times(2, run, both, ratios);
    printf("%-6s %6.2f ns a count, plain C %.2f times as long\n", what, nanoseconds / COUNTS, ratios[1]);
}

int main(void) {
    static uint8_t payloads[2][PAGUNLIT_PAYLOAD];
    uint32_t numbers[COUNTS];
    for (uint32_t which = 0; which < COUNTS; which++)
        numbers[which] = which % 7 == 0 ? PAGUNLIT_COUNT_ABSENT : (uint32_t)(chance() * LARGEST);
    struct job jobs[] = {
        {pagunlit_read_count, pagunlit_write_count, payloads[0], numbers, 0},
        {plain_read, plain_write, payloads[1], numbers, 0},
    };
    for (int j = 0; j < 2; j++) {
        write_all(&jobs[j]);
        read_all(&jobs[j]);
    }
    if (jobs[0].sum != jobs[1].sum || memcmp(payloads[0], payloads[1], PAGUNLIT_PAYLOAD) != 0) {
        fputs("bench/counts: FAILED: the two ways differ\n", stderr);
        return 1;
    }
    compare("read", read_all, jobs);
    compare("write", write_all, jobs);
    return 0;
}
