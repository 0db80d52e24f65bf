/* Pagunlit: what a payload holds, the calendar of terms, and single sealed blocks. These calls are about no card and take no
 * role; pagunlit.h, which includes this header, has the calls on a card and the names of the numbers. The caller owns all
 * memory, as it says there. A refusal changes nothing. */
#ifndef PAGUNLIT_PAYLOAD_H
#define PAGUNLIT_PAYLOAD_H

#include <stddef.h>
#include <stdint.h>

/* On every call: its answer is to be looked at. */
#if !defined PAGUNLIT_UNUSED_RESULTS && defined __GNUC__
#define PAGUNLIT_USE_RESULT __attribute__((warn_unused_result))
#else
#define PAGUNLIT_USE_RESULT
#endif

#ifdef __cplusplus
extern "C" {
#endif

/* Dose counts in packed decimal. A payload holds 124 counts of four bytes, count number `which` at byte 4 * which: two
 * digits a byte, the high digit first, six whole digits and two of hundredths. Four bytes of 0xFF mean absent; in any other
 * count every digit is 0 to 9. A count is handed over as its hundredths, 0 to 99999999, or as PAGUNLIT_COUNT_ABSENT. The
 * payload of place 0 of a sheet that is shown by date starts with two days in place of its counts 0 and 1: to read or write
 * these as counts is the caller's mistake, which the calls cannot see. */
#define PAGUNLIT_COUNT_ABSENT 0xFFFFFFFFu

/* What a read of a count hands back. With a refusal hundredths is PAGUNLIT_COUNT_ABSENT too: never taken for a dose of 0. */
typedef struct { uint32_t number, hundredths; } pagunlit_count;

/* Reads a count.
 *   3    payloadlen is not 496
 *   16   there is no such count (which is 124 or more), or its four bytes have another digit than 0 to 9 and are not all
 *        0xFF */
pagunlit_count pagunlit_read_count(const uint8_t *payload, size_t payloadlen, uint32_t which) PAGUNLIT_USE_RESULT;

/* Writes a count: those four bytes and no others. Each count has just one form: what was read, written again, leaves the same
 * bytes. Gives 0, or
 *   3    payloadlen is not 496
 *   16   there is no such count, or hundredths is neither 0 to 99999999 nor PAGUNLIT_COUNT_ABSENT */
uint32_t pagunlit_write_count(uint8_t *payload, size_t payloadlen, uint32_t which, uint32_t hundredths) PAGUNLIT_USE_RESULT;

/* Writes the first and the last day of a sheet's term to the payload that is put to its place 0: its first eight bytes and no
 * others, any two numbers. The days are counted from 1 January 2000, day 0. Gives 0 or a refusal's number.
 *   3    payloadlen is not 496 */
uint32_t pagunlit_write_term(uint8_t *payload, size_t payloadlen, uint32_t first, uint32_t last) PAGUNLIT_USE_RESULT;

/* A day of the calendar of terms, 1 January 2000 to 31 December 2099: 0 or the refusal's number, the days since 1 January 2000,
 * and the date. With a refusal all but its number is 0. */
typedef struct { uint32_t number, days, year, month, day; } pagunlit_day;

/* The day of a date: 29 February 2024 is day 8825.
 *   19   there is no such date, or it lies outside the years 2000 to 2099 */
pagunlit_day pagunlit_day_of_date(uint32_t year, uint32_t month, uint32_t day) PAGUNLIT_USE_RESULT;

/* The day of a number of days since 1 January 2000. The two calls are each other's inverse: the date of a date's number is that
 * date, and the number of a number's date that number.
 *   19   days is above 36524, which is 31 December 2099 */
pagunlit_day pagunlit_day_of_number(uint32_t days) PAGUNLIT_USE_RESULT;

/* Writes the sealed block of a sheet, a place and a payload, whatever the two numbers are. Gives 0, or 3
 * unless payload has 496 bytes and block 512; then nothing is changed. */
uint32_t seal(uint32_t sheet, uint32_t place, const uint8_t *payload, size_t payloadlen, uint8_t *block, size_t blocklen)
    PAGUNLIT_USE_RESULT;

/* Gives 1 if the check of a block holds (its stored sums are those of its bytes), else 0; 3 unless the block has
 * 512 bytes. Here 1 and 0 are answers and no refusals.
 * A sealed block in which one byte or two have changed, or two unequal neighbours have traded places, never gives 1. Three
 * changed bytes can: neighbours changed by +1, -2 and +1 leave both sums as they were. */
uint32_t check(const uint8_t *block, size_t blocklen) PAGUNLIT_USE_RESULT;

#ifdef __cplusplus
}
#endif

#endif
