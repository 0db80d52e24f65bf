/* A program without a C library, for a Cortex-M: a course from a fresh card to what it shows, and the image of it, loaded
 * again. tests/targets/run links it with the archive alone and runs it under qemu-arm, by whose system call it ends: with
 * status 0 if all calls did what document 01 says, and else with the number of the line. */
#include "pagunlit_card.h"

enum { N = 70, C = 3 };

static uint64_t map[PAGUNLIT_MAP_WORDS(N)], scratch[PAGUNLIT_SCRATCH_WORDS(N)];
static pagunlit_entry catalogue[C];
static uint8_t bytes[N * PAGUNLIT_BLOCK_BYTES], image[PAGUNLIT_IMAGE_BYTES(N, C)], payload[PAGUNLIT_PAYLOAD_BYTES];
static uint32_t summary[PAGUNLIT_SUMMARY_NUMBERS(N)];
static pagunlit_card card;

__attribute__((noreturn)) static void end(int status)
{
    register int first __asm__("r0") = status;
    register int call __asm__("r7") = 1; /* exit */

    __asm__ volatile("svc 0" : : "r"(first), "r"(call));
    __builtin_unreachable();
}

#define WANT(outcome, expected) do { if ((outcome).number != (expected)) end(__LINE__); } while (0)

static void course(void)
{
    WANT(pagunlit_card_fresh(&card, N), 0);
    WANT(pagunlit_card_summary_build(&card), 0);
    WANT(pagunlit_card_reserve(&card, 1, 2), 0);
    WANT(pagunlit_card_reserve_placed(&card, 0, 3, 5, 66, 7), 0);
    WANT(pagunlit_card_reserve(&card, 2, 66), 10);
    for (uint32_t place = 0; place < 2; place++) {
        payload[9] = (uint8_t)(17 + place);
        if (pagunlit_write_term(payload, sizeof payload, 8825, 8831) != 0)
            end(__LINE__);
        WANT(pagunlit_card_put(&card, 1, place, payload, sizeof payload), 0);
    }
    WANT(pagunlit_card_complete(&card, 0), 9);
    WANT(pagunlit_card_complete(&card, 1), 0);
}

static void images(void)
{
    pagunlit_outcome survey;

    WANT(pagunlit_card_save(&card, image, sizeof image), 0);
    for (uint32_t i = 0; i < C; i++)
        catalogue[i].mark = 0;
    map[0] = map[1] = 0;
    image[100] ^= 1;
    WANT(pagunlit_card_load(&card, image, sizeof image), 13);
    image[100] ^= 1;
    WANT(pagunlit_card_load(&card, image, sizeof image), 0);
    survey = pagunlit_card_survey(&card);
    /* blocks 2 to 6 and 10 to 69 */
    if (survey.first != 65 || survey.second != 2 || survey.third != 60)
        end(__LINE__);
}

static void shows(void)
{
    pagunlit_day day = pagunlit_day_of_number(8831);

    card.role = PAGUNLIT_CARER;
    WANT(pagunlit_card_show(&card, 1, 1, payload, sizeof payload), 21);
    WANT(pagunlit_card_show_dated(&card, 1, 1, 2024, 3, 7, payload, sizeof payload), 20);
    WANT(pagunlit_card_show_dated(&card, 1, 1, day.year, day.month, day.day, payload, sizeof payload), 0);
    if (payload[9] != 18 || payload[3] != 8825 % 256)
        end(__LINE__);
    card.role = PAGUNLIT_SERVICE;
    WANT(pagunlit_card_close(&card), 0);
    if (catalogue[0].start != 2 || check(bytes, PAGUNLIT_BLOCK_BYTES) != 1)
        end(__LINE__);
}

void _start(void)
{
    card.role = PAGUNLIT_PHARMACIST;
    card.map = map, card.maplen = PAGUNLIT_MAP_WORDS(N);
    card.catalogue = catalogue, card.cataloguelen = C;
    card.card = bytes, card.cardlen = sizeof bytes;
    card.scratch = scratch, card.scratchlen = PAGUNLIT_SCRATCH_WORDS(N);
    card.summary = summary, card.summarylen = PAGUNLIT_SUMMARY_NUMBERS(N);
    pagunlit_card_no_limits(&card);
    course();
    images();
    shows();
    end(0);
}
