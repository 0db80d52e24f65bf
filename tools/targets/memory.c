/* What the library needs besides itself where there is no C library: the functions that copy, fill and compare memory, and on
 * 32-bit ARM the division of 64-bit numbers, which the compiler calls by the name that ARM gives it. They are weak: a program
 * that has its own, or links a C library, may keep those. */
#include <stddef.h>
#include <stdint.h>

#define WEAK __attribute__((weak))

WEAK void *memset(void *to, int byte, size_t count);
WEAK void *memcpy(void *to, const void *from, size_t count);
WEAK void *memmove(void *to, const void *from, size_t count);
WEAK int memcmp(const void *left, const void *right, size_t count);

void *memset(void *to, int byte, size_t count)
{
    for (uint8_t *at = to; count > 0; count--)
        *at++ = (uint8_t)byte;
    return to;
}

void *memcpy(void *to, const void *from, size_t count)
{
    uint8_t *at = to;

    for (const uint8_t *next = from; count > 0; count--)
        *at++ = *next++;
    return to;
}

/* Where the two overlap, what is read last must not have been written before: so upwards or downwards. */
void *memmove(void *to, const void *from, size_t count)
{
    uint8_t *at = to;
    const uint8_t *next = from;

    if (at <= next)
        return memcpy(to, from, count);
    while (count-- > 0)
        at[count] = next[count];
    return to;
}

int memcmp(const void *left, const void *right, size_t count)
{
    const uint8_t *l = left, *r = right;

    for (; count > 0; count--, l++, r++)
        if (*l != *r)
            return *l - *r;
    return 0;
}

#ifdef __arm__
/* Long division, a bit at a time. A divisor of 0 gives 0; the library divides by none. */
__attribute__((used)) static uint64_t divide(uint64_t number, uint64_t by, uint64_t *rest)
{
    uint64_t quotient = 0, left = 0;

    for (int bit = 63; by > 0 && bit >= 0; bit--) {
        uint64_t carried = left >> 63;

        left = left << 1 | (number >> bit & 1);
        if (carried || left >= by) {
            left -= by;
            quotient |= (uint64_t)1 << bit;
        }
    }
    *rest = left;
    return quotient;
}

/* The quotient goes back in r0 and r1, the rest in r2 and r3, which C cannot say. */
WEAK __attribute__((naked)) void __aeabi_uldivmod(void);
void __aeabi_uldivmod(void)
{
    __asm__("push {r4, lr}\n\t"
            "sub sp, sp, #16\n\t"
            "add r4, sp, #8\n\t"
            "str r4, [sp]\n\t"
            "bl divide\n\t"
            "ldr r2, [sp, #8]\n\t"
            "ldr r3, [sp, #12]\n\t"
            "add sp, sp, #16\n\t"
            "pop {r4, pc}");
}
#endif
