/*
 * A dispenser that can lose its power at any moment: how its program saves, and what it does when the power is back.
 *
 * The card's blocks are in a file, and so is the image of map and catalogue. The image is never written over the last one: it
 * is written to a file beside, brought to the medium, and then takes the name of the last one. What has to reach the medium
 * before what: the card's blocks before the image that speaks of them, the image's bytes before its name, the name before
 * anybody is told that something is done. docs/C.md, "Saving and power cuts", has the rule that the program keeps, and why.
 *
 *     saving FOLDER       the dispenser is switched on: it loads what is in the folder, writes one more course and saves
 *     examples/run        runs it several times, and compares what it prints with saving.txt; and once for each of its writes,
 *                         with the power cut at that one
 */
#include "pagunlit_text.h"

#include <errno.h>
#include <fcntl.h>
#include <stdio.h>
#include <stdlib.h>
#include <string.h>
#include <sys/stat.h>
#include <unistd.h>

enum { BLOCKS = 6, SHEETS = 3, WORDS = PAGUNLIT_MAP_WORDS(BLOCKS), LINES = 2 };

static pagunlit_shape shape;
static uint64_t map[WORDS], scratch[PAGUNLIT_SCRATCH_WORDS(BLOCKS)];
static pagunlit_entry catalogue[SHEETS];
static uint8_t card[PAGUNLIT_BLOCK * BLOCKS];
static uint8_t on_medium[sizeof card]; /* the card's bytes as they were last brought to the medium */
static uint8_t image[PAGUNLIT_IMAGE_BYTES(BLOCKS, SHEETS)];

static int folder, card_file;

/* What cannot go on: nothing more is written, and the last image stays what it is. */
static void stop(const char *what)
{
    fprintf(stderr, "saving: %s: %s\n", what, strerror(errno));
    exit(1);
}

static void refused(const char *what, uint32_t number)
{
    fprintf(stderr, "saving: %s: refused, %u: %s\n", what, number, pagunlit_meaning(number));
    exit(1);
}

/* A call that has to be done. The shape goes into the next one. */
static pagunlit_outcome done(const char *what, pagunlit_outcome outcome)
{
    shape = outcome.shape;
    if (outcome.number != PAGUNLIT_DONE)
        refused(what, outcome.number);
    return outcome;
}

/* Writes all bytes: write may do less than it was asked for, and may be interrupted. */
static void write_all(int file, const uint8_t *bytes, size_t length, off_t at)
{
    while (length > 0) {
        ssize_t written = pwrite(file, bytes, length, at);

        if (written < 0 && errno == EINTR)
            continue;
        if (written <= 0)
            stop("write");
        bytes += written;
        length -= (size_t)written;
        at += written;
    }
}

/* Reads as many bytes as there are, at most `length`. */
static size_t read_all(int file, uint8_t *bytes, size_t length)
{
    size_t had = 0;

    while (had < length) {
        ssize_t part = pread(file, bytes + had, length - had, (off_t)had);

        if (part < 0 && errno == EINTR)
            continue;
        if (part < 0)
            stop("read");
        if (part == 0)
            break;
        had += (size_t)part;
    }
    return had;
}

/* The blocks that were written since the last time come to the medium. */
static void sync_card(void)
{
    for (size_t at = 0; at < sizeof card; at += PAGUNLIT_BLOCK)
        if (memcmp(card + at, on_medium + at, PAGUNLIT_BLOCK) != 0)
            write_all(card_file, card + at, PAGUNLIT_BLOCK, (off_t)at);
    if (fsync(card_file) != 0)
        stop("fsync of the card");
    memcpy(on_medium, card, sizeof card);
}

/* The image is written to a file beside, comes to the medium, and then takes the name of the last one: whenever the power goes,
 * the name is that of the last image or of this one. The folder comes to the medium too, for the name stands in it. */
static void write_image(void)
{
    int file = openat(folder, "image.new", O_WRONLY | O_CREAT | O_TRUNC, 0600);

    if (file < 0)
        stop("image.new");
    write_all(file, image, sizeof image, 0);
    if (fsync(file) != 0)
        stop("fsync of the image");
    if (close(file) != 0)
        stop("close of the image");
    if (renameat(folder, "image.new", folder, "image") != 0)
        stop("rename of the image");
    if (fsync(folder) != 0)
        stop("fsync of the folder");
}

/* Saves: the card's blocks first, then the image that speaks of them. */
static void save(void)
{
    sync_card();
    done("save", pagunlit_save(PAGUNLIT_SERVICE, shape, map, WORDS, catalogue, SHEETS, scratch, WORDS, image, sizeof image));
    write_image();
}

/* Loads the last image. 0 if there is none, which is so only before the first save. */
static int load(void)
{
    uint8_t bytes[sizeof image + 1]; /* one more, so that a longer file is seen to be one */
    int file = openat(folder, "image", O_RDONLY);

    if (file < 0 && errno == ENOENT)
        return 0;
    if (file < 0)
        stop("image");
    size_t length = read_all(file, bytes, sizeof bytes);
    if (close(file) != 0)
        stop("close of the image");
    done("load", pagunlit_load(PAGUNLIT_SERVICE, shape, bytes, length, map, WORDS, catalogue, SHEETS, scratch, WORDS));
    return 1;
}

static void open_card(void)
{
    card_file = openat(folder, "card", O_RDWR | O_CREAT, 0600);
    if (card_file < 0)
        stop("card");
    if (read_all(card_file, card, sizeof card) < sizeof card)
        write_all(card_file, card, sizeof card, 0); /* a new card, or one that was never written whole: what is missing is 0 */
    memcpy(on_medium, card, sizeof card);
}

/* Whether a place is blank, or sound for its sheet: its check holds, and it carries the sheet and the place. */
static int is_own(uint32_t sheet, uint32_t place)
{
    static const uint8_t zeros[PAGUNLIT_BLOCK];
    const uint8_t *block = card + (size_t)PAGUNLIT_BLOCK * (catalogue[sheet].start + place);
    const uint8_t head[8] = {0, 0, 0, (uint8_t)sheet, 0, 0, 0, (uint8_t)place};

    return memcmp(block, zeros, sizeof zeros) == 0 || (check(block, PAGUNLIT_BLOCK) == 1 && memcmp(block, head, 8) == 0);
}

static void release(uint32_t sheet)
{
    done("release", pagunlit_release(PAGUNLIT_PHARMACIST, shape, map, WORDS, catalogue, SHEETS, sheet));
    save(); /* before blocks are taken: until then the last image has them as this sheet's */
}

/* After a cut: a sheet with a place that is neither blank nor sound is released, and prescribed again. So is one that was not
 * finished, since this program does not go on with it. */
static void after_cut(void)
{
    for (uint32_t sheet = 0; sheet < SHEETS; sheet++) {
        int own = 1;

        for (uint32_t place = 0; place < catalogue[sheet].length; place++)
            own &= is_own(sheet, place);
        if (!own || catalogue[sheet].mark == PAGUNLIT_OPEN) {
            printf("  sheet %u was not finished: it is released\n", sheet);
            release(sheet);
        }
    }
}

static void show(uint32_t sheet)
{
    uint8_t payload[PAGUNLIT_PAYLOAD + 1] = {0};

    for (uint32_t place = 0; place < catalogue[sheet].length; place++) {
        done("show", pagunlit_show(PAGUNLIT_PHARMACIST, shape, map, WORDS, catalogue, SHEETS, card, sizeof card, sheet, place,
                                   payload, PAGUNLIT_PAYLOAD));
        printf("  sheet %u, place %u: %s\n", sheet, place, (char *)payload);
    }
}

static void put(uint32_t sheet, uint32_t place, unsigned course, int hour)
{
    uint8_t payload[PAGUNLIT_PAYLOAD] = {0};

    snprintf((char *)payload, sizeof payload, "course %u: one tablet at %d", course, hour);
    done("put", pagunlit_put(PAGUNLIT_PHARMACIST, shape, map, WORDS, catalogue, SHEETS, card, sizeof card, sheet, place,
                             payload, sizeof payload));
}

/* Two lines in a sheet. A course that stood there before is over. */
static void write_course(uint32_t sheet, unsigned course)
{
    static const uint32_t limits[PAGUNLIT_WINGS] = {BLOCKS};

    if (catalogue[sheet].mark != PAGUNLIT_ABSENT)
        release(sheet);
    done("reserve", pagunlit_reserve(PAGUNLIT_PHARMACIST, shape, map, WORDS, catalogue, SHEETS, card, sizeof card, limits,
                                     sheet, LINES));
    put(sheet, 0, course, 8);
    put(sheet, 1, course, 20);
    done("complete", pagunlit_complete(PAGUNLIT_PHARMACIST, shape, map, WORDS, catalogue, SHEETS, card, sizeof card, sheet));
    save();
    printf("  saved: the prescriber is told that sheet %u is done\n", sheet);
}

/* The number of the course in a sheet, 0 if there is none. */
static unsigned course_in(uint32_t sheet)
{
    const uint8_t *block = card + (size_t)PAGUNLIT_BLOCK * catalogue[sheet].start;
    unsigned course = 0;

    if (catalogue[sheet].length > 0 && sscanf((const char *)block + 8, "course %u", &course) != 1)
        course = 0;
    return course;
}

/* The next course takes a sheet that is Absent, or else the place of the oldest one. */
static void write_next(void)
{
    uint32_t oldest = 0;
    unsigned newest = 0;

    for (uint32_t sheet = 0; sheet < SHEETS; sheet++) {
        oldest = course_in(sheet) < course_in(oldest) ? sheet : oldest;
        newest = course_in(sheet) > newest ? course_in(sheet) : newest;
    }
    write_course(oldest, newest + 1);
}

int main(int count, char **words)
{
    if (count != 2) {
        fputs("usage: saving FOLDER\n", stderr);
        return 2;
    }
    folder = open(words[1], O_RDONLY | O_DIRECTORY);
    if (folder < 0)
        stop(words[1]);
    open_card();
    if (load()) {
        puts("switched on: the last image is loaded");
        after_cut();
    } else {
        puts("switched on for the first time: all sheets are Absent");
        done("fresh", pagunlit_fresh(PAGUNLIT_SERVICE, shape, BLOCKS, map, WORDS, catalogue, SHEETS));
        save();
    }
    for (uint32_t sheet = 0; sheet < SHEETS; sheet++)
        show(sheet);
    write_next();
    if (close(card_file) != 0 || close(folder) != 0)
        stop("close");
    return 0;
}
