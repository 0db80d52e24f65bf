/* Hands over what the headers say: every constant, the size of every struct with the offset, size and type of every field,
 * the macros for many n and c, the texts of the numbers, and what is read from an image's head. A line has a name, a tab and
 * a value; tests/header/src/figures.rs compares each with its own figures. It is compiled as C and as C++. */
#include "pagunlit.h"
#include "pagunlit_card.h"
#include "pagunlit_text.h"
#include "block.h"

#include <assert.h>
#include <stdalign.h>
#include <stdio.h>

enum { SMALL = 5000, WORDS = PAGUNLIT_MAP_WORDS(PAGUNLIT_BLOCKS), ALL_SHEETS = 80 };

/* The macros are constant expressions. */
static_assert(PAGUNLIT_MAP_WORDS(1) > 0 && PAGUNLIT_SCRATCH_WORDS(1) > 0 && PAGUNLIT_SUMMARY_NUMBERS(1) > 0 &&
                  PAGUNLIT_IMAGE_BYTES(1, 1) > 0,
              "the macros are no constant expressions");

#ifdef __cplusplus
#include <type_traits>
static const char *type_of(uint32_t) { return "uint32_t"; }
static const char *type_of(pagunlit_shape) { return "pagunlit_shape"; }
template <typename Other> static const char *type_of(Other) { return "another"; }
#define TYPE(x) type_of(x)
#define LENGTH_TYPE(x) (std::is_same<decltype(x), size_t>::value ? "size_t" : "another")
#define COPY(name, value) const auto name = (value)
#else
#define TYPE(x) _Generic((x), uint32_t: "uint32_t", pagunlit_shape: "pagunlit_shape", default: "another")
#define LENGTH_TYPE(x) _Generic((x), size_t: "size_t", default: "another")
#define COPY(name, value) const __typeof__(value) name = (value)
#endif

/* A constant is whole in any expression: it is as good there as a copy of its value. */
#define WHOLE(name, copy)                                                                                                   \
    ((long long)(3 * name) == (long long)(3 * copy) && (long long)(name * 3) == (long long)(copy * 3) &&                    \
     (long long)(7 - name) == (long long)(7 - copy) && (long long)(~name) == (long long)(~copy) &&                          \
     (name == 1) == (copy == 1) && (name & 6) == (copy & 6))

#define CONSTANT(name)                                                                                                      \
    do {                                                                                                                    \
        COPY(copy, name);                                                                                                   \
        printf(#name "\t%lld%s\n", (long long)copy, WHOLE(name, copy) ? "" : ", and another number in an expression");      \
    } while (0)
#define STRUCT(name) printf(#name "\tsize %zu align %zu\n", sizeof(name), alignof(name))
#define FIELD(name, field) \
    printf(#name "." #field "\toffset %zu size %zu type %s\n", offsetof(name, field), sizeof(((name *)0)->field), \
           TYPE(((name *)0)->field))

static void constants(void)
{
    CONSTANT(PAGUNLIT_BLOCK_BYTES);
    CONSTANT(PAGUNLIT_PAYLOAD_BYTES);
    CONSTANT(PAGUNLIT_MOST_BLOCKS);
    CONSTANT(PAGUNLIT_MOST_SHEETS);
    CONSTANT(PAGUNLIT_BLOCK);
    CONSTANT(PAGUNLIT_PAYLOAD);
    CONSTANT(PAGUNLIT_BLOCKS);
    CONSTANT(PAGUNLIT_SHEETS);
    CONSTANT(PAGUNLIT_WINGS);
    CONSTANT(PAGUNLIT_WING_SHEETS);
    CONSTANT(PAGUNLIT_PHARMACIST);
    CONSTANT(PAGUNLIT_CARER);
    CONSTANT(PAGUNLIT_SERVICE);
    CONSTANT(PAGUNLIT_ABSENT);
    CONSTANT(PAGUNLIT_PAUSED);
    CONSTANT(PAGUNLIT_OPEN);
    CONSTANT(PAGUNLIT_COMPLETE);
    CONSTANT(PAGUNLIT_COUNT_ABSENT);
    CONSTANT(PAGUNLIT_SAVE_NOTHING);
    CONSTANT(PAGUNLIT_SAVE_BEFORE_BLOCKS);
    CONSTANT(PAGUNLIT_SAVE_FIRST);
    CONSTANT(PAGUNLIT_VERSION);
    printf("PAGUNLIT_VERSION_TEXT\t%s\n", PAGUNLIT_VERSION_TEXT);
    CONSTANT(BLOCK_SIZE);
    CONSTANT(PAYLOAD_SIZE);
    CONSTANT(BLOCK_SEALED);
    CONSTANT(BLOCK_DAMAGED);
    CONSTANT(BLOCK_HOLDS);
    CONSTANT(BLOCK_WRONG_LENGTH);
}

static void numbers(void)
{
    CONSTANT(PAGUNLIT_DONE);
    CONSTANT(PAGUNLIT_WRONG_SIZE);
    CONSTANT(PAGUNLIT_NO_SHEET);
    CONSTANT(PAGUNLIT_WRONG_ARGUMENT);
    CONSTANT(PAGUNLIT_DAMAGED);
    CONSTANT(PAGUNLIT_IS_ABSENT);
    CONSTANT(PAGUNLIT_IS_PAUSED);
    CONSTANT(PAGUNLIT_IS_OPEN);
    CONSTANT(PAGUNLIT_IS_COMPLETE);
    CONSTANT(PAGUNLIT_PLACE_BLANK);
    CONSTANT(PAGUNLIT_NO_FIT);
    CONSTANT(PAGUNLIT_CANNOT_GROW);
    CONSTANT(PAGUNLIT_IMAGE_LENGTH);
    CONSTANT(PAGUNLIT_IMAGE_FRAME);
    CONSTANT(PAGUNLIT_IMAGE_CONTENT);
    CONSTANT(PAGUNLIT_WRONG_FIGURES);
    CONSTANT(PAGUNLIT_WRONG_COUNT);
    CONSTANT(PAGUNLIT_RUN_NOT_FREE);
    CONSTANT(PAGUNLIT_OVER_LIMIT);
    CONSTANT(PAGUNLIT_NO_DATE);
    CONSTANT(PAGUNLIT_OUTSIDE_TERM);
    CONSTANT(PAGUNLIT_TURNED_AWAY);
    for (uint32_t number = 0; number < 40; number++)
        printf("meaning %u\t%s\n", number, pagunlit_meaning(number));
    printf("meaning %u\t%s\n", UINT32_MAX, pagunlit_meaning(UINT32_MAX));
}

static void structs(void)
{
    STRUCT(pagunlit_shape);
    FIELD(pagunlit_shape, blocks);
    FIELD(pagunlit_shape, free);
    STRUCT(pagunlit_entry);
    FIELD(pagunlit_entry, mark);
    FIELD(pagunlit_entry, start);
    FIELD(pagunlit_entry, length);
    STRUCT(pagunlit_outcome);
    FIELD(pagunlit_outcome, shape);
    FIELD(pagunlit_outcome, number);
    FIELD(pagunlit_outcome, first);
    FIELD(pagunlit_outcome, second);
    FIELD(pagunlit_outcome, third);
    STRUCT(pagunlit_count);
    FIELD(pagunlit_count, number);
    FIELD(pagunlit_count, hundredths);
    STRUCT(pagunlit_day);
    FIELD(pagunlit_day, number);
    FIELD(pagunlit_day, days);
    FIELD(pagunlit_day, year);
    FIELD(pagunlit_day, month);
    FIELD(pagunlit_day, day);
}

static void words(uint32_t n)
{
    printf("PAGUNLIT_MAP_WORDS(%u)\t%zu\n", n, PAGUNLIT_MAP_WORDS(n));
    printf("PAGUNLIT_SCRATCH_WORDS(%u)\t%zu\n", n, PAGUNLIT_SCRATCH_WORDS(n));
}

static void bytes(uint32_t n, uint32_t c)
{
    printf("PAGUNLIT_IMAGE_BYTES(%u,%u)\t%zu\n", n, c, PAGUNLIT_IMAGE_BYTES(n, c));
}

/* All n from 0 on to one above the limit, and the largest 32-bit number; for summaries all n within their limits; for images
 * all c with the first words and with the most. */
static void macros(void)
{
    for (uint32_t n = 0; n <= PAGUNLIT_BLOCKS + 1; n++)
        words(n);
    words(UINT32_MAX);
    for (uint32_t n = 1; n <= PAGUNLIT_BLOCKS; n++)
        printf("PAGUNLIT_SUMMARY_NUMBERS(%u)\t%zu\n", n, PAGUNLIT_SUMMARY_NUMBERS(n));
    for (uint32_t n = 0; n <= SMALL; n++)
        for (uint32_t c = 0; c <= PAGUNLIT_SHEETS; c += 32)
            bytes(n, c);
    for (uint32_t c = 0; c <= PAGUNLIT_SHEETS; c++) {
        for (uint32_t w = 0; w <= ALL_SHEETS; w++)
            bytes(64 * w, c);
        bytes(PAGUNLIT_BLOCKS - 1, c);
        bytes(PAGUNLIT_BLOCKS, c);
    }
    for (uint32_t w = 0; w <= WORDS; w++)
        bytes(64 * w, 1);
    if (SIZE_MAX > UINT32_MAX) /* on a 32-bit processor no length is so large */
        bytes(PAGUNLIT_BLOCKS, UINT32_MAX);
}

/* The macros are whole: their arguments may be any expressions, and they may stand in any. */
static void parentheses(void)
{
    printf("type PAGUNLIT_MAP_WORDS\t%s\n", LENGTH_TYPE(PAGUNLIT_MAP_WORDS(1)));
    printf("type PAGUNLIT_SCRATCH_WORDS\t%s\n", LENGTH_TYPE(PAGUNLIT_SCRATCH_WORDS(1)));
    printf("type PAGUNLIT_SUMMARY_NUMBERS\t%s\n", LENGTH_TYPE(PAGUNLIT_SUMMARY_NUMBERS(1)));
    printf("type PAGUNLIT_IMAGE_BYTES\t%s\n", LENGTH_TYPE(PAGUNLIT_IMAGE_BYTES(1, 1)));
    printf("inside PAGUNLIT_MAP_WORDS(1|64)\t%zu\n", PAGUNLIT_MAP_WORDS(1 | 64));
    printf("inside PAGUNLIT_SCRATCH_WORDS(1|64)\t%zu\n", PAGUNLIT_SCRATCH_WORDS(1 | 64));
    printf("inside PAGUNLIT_SUMMARY_NUMBERS(1|64)\t%zu\n", PAGUNLIT_SUMMARY_NUMBERS(1 | 64));
    printf("inside PAGUNLIT_IMAGE_BYTES(1|4096,1)\t%zu\n", PAGUNLIT_IMAGE_BYTES(1 | 4096, 1));
    printf("inside PAGUNLIT_IMAGE_BYTES(64,1|128)\t%zu\n", PAGUNLIT_IMAGE_BYTES(64, 1 | 128));
    printf("outside 128/PAGUNLIT_MAP_WORDS(65)\t%zu\n", 128 / PAGUNLIT_MAP_WORDS(65));
    printf("outside 128/PAGUNLIT_SCRATCH_WORDS(8192)\t%zu\n", 128 / PAGUNLIT_SCRATCH_WORDS(8192));
    printf("outside 63/PAGUNLIT_SUMMARY_NUMBERS(65)\t%zu\n", 63 / PAGUNLIT_SUMMARY_NUMBERS(65));
    printf("outside 4096/PAGUNLIT_IMAGE_BYTES(64,100)\t%zu\n", 4096 / PAGUNLIT_IMAGE_BYTES(64, 100));
}

/* An image whose bytes all differ, of every length around those that matter. */
static void heads(void)
{
    static const size_t lengths[] = {0, 1, 11, 12, 19, 20, 496, 511, 512, 513, 1024, 46592};
    uint8_t image[46592];

    for (size_t i = 0; i < sizeof image; i++)
        image[i] = (uint8_t)(251 - 3 * i);
    for (size_t i = 0; i < sizeof lengths / sizeof *lengths; i++) {
        printf("pagunlit_image_blocks(%zu)\t%u\n", lengths[i], pagunlit_image_blocks(image, lengths[i]));
        printf("pagunlit_image_sheets(%zu)\t%u\n", lengths[i], pagunlit_image_sheets(image, lengths[i]));
    }
    for (size_t at = 0; at <= 520; at++)
        printf("pagunlit_image_number(512,%zu)\t%u\n", at, pagunlit_image_number(image, 512, at));
}

int main(void)
{
    constants();
    numbers();
    structs();
    macros();
    parentheses();
    heads();
    puts("end");
    return 0;
}
