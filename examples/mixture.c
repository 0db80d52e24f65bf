/*
 * What load makes of a save that was cut halfway.
 *
 * An image of more than one block is written block by block, and each block has a check of its own. If the power goes in the
 * middle, some blocks are the new image's and the others the old one's, and every check holds. Load refuses such a mixture only
 * if what it says cannot be. Here two are refused, and two are accepted: as states that were never saved. So an image must not
 * be written over the last one: examples/saving.c shows a way that is safe.
 *
 *     examples/run        builds it, prints what it prints, and compares that with mixture.txt
 */
#include "pagunlit_text.h"

#include <stdio.h>
#include <string.h>

enum { BLOCKS = 64, SHEETS = 60, FIRST = 0, SECOND = 50 };

static uint64_t map[PAGUNLIT_MAP_WORDS(BLOCKS)], scratch[PAGUNLIT_SCRATCH_WORDS(BLOCKS)];
static pagunlit_entry catalogue[SHEETS];
static uint8_t card[PAGUNLIT_BLOCK * BLOCKS];
static uint8_t old_image[PAGUNLIT_IMAGE_BYTES(BLOCKS, SHEETS)], new_image[sizeof old_image], mixture[sizeof old_image];
static pagunlit_shape shape;

/* Keeps the shape of a call, and stops where the example does not go as it is meant to. */
static void done(const char *what, pagunlit_outcome outcome)
{
    shape = outcome.shape;
    if (outcome.number != PAGUNLIT_DONE)
        printf("%s: refused, %u: %s\n", what, outcome.number, pagunlit_meaning(outcome.number));
}

static void write_course(uint32_t sheet, const char *text)
{
    static const uint32_t limits[PAGUNLIT_WINGS] = {BLOCKS, BLOCKS, BLOCKS, BLOCKS, BLOCKS, BLOCKS, BLOCKS, BLOCKS};
    uint8_t payload[PAGUNLIT_PAYLOAD] = {0};

    memcpy(payload, text, strlen(text));
    done("reserve", pagunlit_reserve(PAGUNLIT_PHARMACIST, shape, map, 1, catalogue, SHEETS, card, sizeof card, limits, sheet,
                                     1));
    done("put", pagunlit_put(PAGUNLIT_PHARMACIST, shape, map, 1, catalogue, SHEETS, card, sizeof card, sheet, 0, payload,
                             sizeof payload));
    done("complete", pagunlit_complete(PAGUNLIT_PHARMACIST, shape, map, 1, catalogue, SHEETS, card, sizeof card, sheet));
}

static void pause_course(uint32_t sheet)
{
    done("pause", pagunlit_pause(PAGUNLIT_PHARMACIST, shape, map, 1, catalogue, SHEETS, sheet));
}

static void resume_course(uint32_t sheet)
{
    done("resume", pagunlit_resume(PAGUNLIT_PHARMACIST, shape, map, 1, catalogue, SHEETS, sheet));
}

static void save(uint8_t *image)
{
    done("save", pagunlit_save(PAGUNLIT_SERVICE, shape, map, 1, catalogue, SHEETS, scratch, 1, image, sizeof old_image));
}

static const char *standing(uint32_t sheet)
{
    uint32_t mark = catalogue[sheet].mark;

    return mark == PAGUNLIT_COMPLETE ? "Complete" : mark == PAGUNLIT_PAUSED ? "Paused" : "Absent";
}

/* Loads an image and says what it makes of the two courses. */
static void look(const char *what, const uint8_t *image)
{
    pagunlit_outcome outcome =
        pagunlit_load(PAGUNLIT_SERVICE, shape, image, sizeof old_image, map, 1, catalogue, SHEETS, scratch, 1);

    printf("  %-36s ", what);
    if (outcome.number != PAGUNLIT_DONE) {
        printf("refused, %u: %s\n", outcome.number, pagunlit_meaning(outcome.number));
        return;
    }
    shape = outcome.shape;
    printf("done: sheet %d is %s, sheet %d is %s\n", FIRST, standing(FIRST), SECOND, standing(SECOND));
}

/* The save of the new image is cut: the first block is written, or the last. */
static void cut_halfway(void)
{
    look("the old image", old_image);
    look("the new image", new_image);
    memcpy(mixture, old_image, sizeof mixture);
    memcpy(mixture, new_image, PAGUNLIT_BLOCK);
    look("block 0 new, block 1 old", mixture);
    memcpy(mixture, new_image, sizeof mixture);
    memcpy(mixture, old_image, PAGUNLIT_BLOCK);
    look("block 0 old, block 1 new", mixture);
}

int main(void)
{
    printf("A card of %d blocks and %d sheets has an image of %zu blocks.\n", BLOCKS, SHEETS,
           sizeof old_image / PAGUNLIT_BLOCK);
    done("fresh", pagunlit_fresh(PAGUNLIT_SERVICE, shape, BLOCKS, map, 1, catalogue, SHEETS));

    puts("A course is written between the two saves. Its entry is in block 0, the map in block 1: they contradict each other.");
    save(old_image);
    write_course(FIRST, "one tablet at 8");
    save(new_image);
    cut_halfway();

    puts("The first course is stopped and a second one resumed in its place. A mixture has both stopped, or both running.");
    done("load",
         pagunlit_load(PAGUNLIT_SERVICE, shape, new_image, sizeof new_image, map, 1, catalogue, SHEETS, scratch, 1));
    write_course(SECOND, "two tablets at 8");
    pause_course(SECOND);
    save(old_image);
    pause_course(FIRST);
    resume_course(SECOND);
    save(new_image);
    cut_halfway();
    return 0;
}
