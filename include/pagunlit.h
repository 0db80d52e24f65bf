/* Pagunlit: the prescription card of a pill dispenser.
 *
 * A card is `blocks` blocks of 512 bytes. A map keeps which of them are free, one bit to a block. A catalogue keeps what
 * stands for each sheet: Absent, Paused, Open or Complete, and the run of blocks that it holds.
 *
 * Build and link. `tools/archive pagunlit` proves the library and writes target/staticlib/libpagunlit.a, for x86-64 Linux;
 *
 *     gcc -std=c99 -Iinclude examples/course.c target/staticlib/libpagunlit.a -o course
 *
 * compiles a program against it; `tools/build-for TARGET` writes it for other processors. `tools/install PREFIX` copies the
 * headers and the archive, with a file for pkg-config. pagunlit_payload.h, which this header includes, has what a payload
 * holds, the calendar and single blocks; pagunlit_card.h keeps what the calls are lent in one struct; pagunlit_text.h has
 * texts. The library allocates nothing, opens nothing and keeps nothing. Of the C library it needs memset and memmove.
 * Stack: a survey takes up to 648 bytes, a reserve 624, a call with a summary 992, any other call 616 at most,
 * on x86-64. docs/C.md has more on all of this.
 *
 * Global names: all begin with pagunlit_ or PAGUNLIT_, but for the functions `seal` and `check`, which the dispenser's program
 * calls by these names. A program that links the library can have no other global function of these two names.
 *
 * The caller owns all memory. Each call is lent what it needs: a pointer and the number of elements behind it (words of a
 * map, entries of a catalogue, bytes of a card, numbers of a summary). A length is no more than the memory behind its pointer.
 * A pointer is not NULL and is aligned for its type, even where its length is 0. No two slices of one call may overlap, unless
 * both are const. Nothing is kept from one call to the next: the shape that a call hands back goes into the next call, with the
 * same map, catalogue and card. So calls may be made from any thread, as long as no other writes to what is lent meanwhile.
 *
 * Every call may be made with any numbers and any contents. It gives back a pagunlit_outcome. Number 0 is done; first, second
 * and third have then the values that the call answers, 0 where there are none. Any other number is a refusal: the shape
 * comes back as it was, nothing that was lent is changed but a scratch, and the values are 0, but for the place with 9. A
 * compiler that can warns where the answer is thrown away; PAGUNLIT_UNUSED_RESULTS, defined before this header, stops that.
 *
 * Each function below lists its numbers in their order: if several hold, the answer is the first of them. In every function
 * that takes a role 21 comes before all of them, and is not listed again. Another number that is not listed is never given.
 */
#ifndef PAGUNLIT_H
#define PAGUNLIT_H

#include "pagunlit_payload.h"

#include <stddef.h>
#include <stdint.h>

#ifdef __cplusplus
extern "C" {
#endif

/* The version of this header, 10000 * first + 100 * second + third, and as a text. */
#define PAGUNLIT_VERSION 40100
#define PAGUNLIT_VERSION_TEXT "4.1.0"

enum {
    PAGUNLIT_BLOCK_BYTES = 512,     /* bytes of a block */
    PAGUNLIT_PAYLOAD_BYTES = 496,   /* bytes of a payload */
    PAGUNLIT_MOST_BLOCKS = 262144,  /* most blocks of a card */
    PAGUNLIT_MOST_SHEETS = 1024,    /* most sheets of a catalogue */
    PAGUNLIT_WINGS = 8,             /* wings of a card */
    PAGUNLIT_WING_SHEETS = 128,     /* sheets of a wing: the wing of a sheet is its number divided by this, rounded down */

    /* the names of the first four before 4.1 */
    PAGUNLIT_BLOCK = 512, PAGUNLIT_PAYLOAD = 496, PAGUNLIT_BLOCKS = 262144, PAGUNLIT_SHEETS = 1024
};

/* The numbers that a call gives. pagunlit_text.h has their meanings as texts, docs/NUMBERS.md causes and remedies. */
enum {
    PAGUNLIT_DONE = 0,
    PAGUNLIT_WRONG_SIZE = 1,     /* blocks, sheets or free count out of limits; a lent slice of the wrong length */
    PAGUNLIT_NO_SHEET = 2,       /* there is no such sheet in the catalogue */
    PAGUNLIT_WRONG_ARGUMENT = 3, /* a count of 0; a place that the sheet does not have; a payload, block or buffer length */
    PAGUNLIT_DAMAGED = 4,        /* an entry that cannot be, a block that is not sound, a free count that contradicts */
    PAGUNLIT_IS_ABSENT = 5,      /* the sheet is Absent, and the call does not admit that */
    PAGUNLIT_IS_PAUSED = 6,      /* it is Paused */
    PAGUNLIT_IS_OPEN = 7,        /* it is Open */
    PAGUNLIT_IS_COMPLETE = 8,    /* it is Complete */
    PAGUNLIT_PLACE_BLANK = 9,    /* complete: a place is blank */
    PAGUNLIT_NO_FIT = 10,        /* search, offer and both reserves: no run of free blocks is long enough (within figures) */
    PAGUNLIT_CANNOT_GROW = 11,   /* grow: the next blocks are not all free and on the card */
    PAGUNLIT_IMAGE_LENGTH = 12,  /* save and load: the image's length */
    PAGUNLIT_IMAGE_FRAME = 13,   /* load: a frame's number, total or check */
    PAGUNLIT_IMAGE_CONTENT = 14, /* load: the contents cannot be */
    PAGUNLIT_WRONG_FIGURES = 15, /* placed reserve: step is 0, from is not below before, or before is above the blocks */
    PAGUNLIT_WRONG_COUNT = 16,   /* dose counts: another digit, a number out of range, or no such count */
    PAGUNLIT_RUN_NOT_FREE = 17,  /* accept: the run is not all free and on the card */
    PAGUNLIT_OVER_LIMIT = 18,    /* offer, reserves, accept and grow: the limit of the sheet's wing would be passed */
    PAGUNLIT_NO_DATE = 19,       /* dated show: there is no such date, or it is not in the years 2000 to 2099 */
    PAGUNLIT_OUTSIDE_TERM = 20,  /* dated show: the day is before the sheet's first day or after its last */
    PAGUNLIT_TURNED_AWAY = 21    /* there is no such role, or it may not make this call */
};

/* Who makes a call. The pharmacist may make every call; a carer pagunlit_show_dated, pagunlit_standing and pagunlit_survey; the
 * service pagunlit_fresh, pagunlit_save, pagunlit_load, pagunlit_close, pagunlit_close_with_summary, pagunlit_standing and
 * pagunlit_survey. Any other call of a role is 21, and so is every call of any other number. */
enum { PAGUNLIT_PHARMACIST = 1, PAGUNLIT_CARER = 2, PAGUNLIT_SERVICE = 3 };

/* Marks of an entry. */
enum { PAGUNLIT_ABSENT = 0x41, PAGUNLIT_PAUSED = 0x50, PAGUNLIT_OPEN = 0x4F, PAGUNLIT_COMPLETE = 0x43 };

/* Words of the map of a card of n blocks. Block b is bit 63 - b % 64 of word b / 64; 1 is free. */
#define PAGUNLIT_MAP_WORDS(n) ((size_t)(n) / 64 + ((size_t)(n) % 64 != 0))

/* Words of the scratch that save, load and close take for a card of n blocks: 64, or the map's if they are fewer. */
#define PAGUNLIT_SCRATCH_WORDS(n) (PAGUNLIT_MAP_WORDS(n) < 64 ? PAGUNLIT_MAP_WORDS(n) : (size_t)64)

/* 32-bit numbers of the summary of a card of n blocks, for n within its limits: three for each of 2p - 1 groups, where p is the
 * least power of two that is not below the words of its map. */
#define PAGUNLIT_SUMMARY_NUMBERS(n)                                                                                      \
    (6 * (size_t)((n) <= 64 ? 1u : (n) <= 128 ? 2u : (n) <= 256 ? 4u : (n) <= 512 ? 8u : (n) <= 1024 ? 16u               \
                : (n) <= 2048 ? 32u : (n) <= 4096 ? 64u : (n) <= 8192 ? 128u : (n) <= 16384 ? 256u                       \
                : (n) <= 32768 ? 512u : (n) <= 65536 ? 1024u : (n) <= 131072 ? 2048u : 4096u) - 3)

/* Bytes of the image of a card of n blocks and c sheets, for n and c within their limits. */
#define PAGUNLIT_IMAGE_BYTES(n, c) ((12 + 12 * (size_t)(c) + 8 * PAGUNLIT_MAP_WORDS(n) + 495) / 496 * 512)

/* The shape of a card: how many blocks it has, and how many of them are free. */
typedef struct { uint32_t blocks, free; } pagunlit_shape;

/* What stands for a sheet. Absent has start 0 and length 0, and so has a pause of a sheet that was Absent; the blocks of the
 * others, and of a paused course, are start to start + length - 1, and place p of the sheet is block start + p. */
typedef struct { uint32_t mark, start, length; } pagunlit_entry;

/* What a call hands back: the shape for the next call, 0 or the refusal's number, and the answer's values. */
typedef struct {
    pagunlit_shape shape;
    uint32_t number, first, second, third;
} pagunlit_outcome;

/* Makes a card of `blocks` blocks: all free, all sheets Absent. It reads nothing of the shape, and needs no card.
 *   1   blocks is not 1 to 262144, cataloguelen not 1 to 1024, or maplen not PAGUNLIT_MAP_WORDS(blocks) */
pagunlit_outcome pagunlit_fresh(uint32_t role, pagunlit_shape shape, uint32_t blocks, uint64_t *map, size_t maplen,
    pagunlit_entry *catalogue, size_t cataloguelen) PAGUNLIT_USE_RESULT;

/* What the functions below mean by "as above":
 *   1   the shape's blocks are not 1 to 262144, or its free count is above them; maplen is not PAGUNLIT_MAP_WORDS of them;
 *       and of a call that is lent them: cataloguelen is not 1 to 1024, cardlen not PAGUNLIT_BLOCK_BYTES times the blocks,
 *       scratchlen not PAGUNLIT_SCRATCH_WORDS of them, summarylen not PAGUNLIT_SUMMARY_NUMBERS of them
 *   2   sheet is not below cataloguelen
 *   4   the sheet's entry is damaged: its mark is none of the four; or it is Absent and has a start or a length; or it is
 *       Open, Complete, or Paused with a start or a length, and has length 0, goes past the card's last block, or has a block
 *       that is free in the map */

/* The lowest run of k free blocks. first: its start. second: the space behind it, the number of free blocks from its start to
 * the next taken block or the card's end, which is k or more.
 *   1   as above     3   k is 0     10   no run of free blocks is long enough */
pagunlit_outcome pagunlit_search(uint32_t role, pagunlit_shape shape, const uint64_t *map, size_t maplen, uint32_t k)
    PAGUNLIT_USE_RESULT;

/* first, second, third: the free blocks, the separate runs of them, and the longest run, as the map has them.
 *   1   as above */
pagunlit_outcome pagunlit_survey(uint32_t role, pagunlit_shape shape, const uint64_t *map, size_t maplen) PAGUNLIT_USE_RESULT;

/* Wings share a card. Sheets 0 to 127 are wing 0, the next 128 wing 1, and so on to wing 7. The calls that take blocks, and
 * the offer, are lent `limits`, eight numbers: limits[w] is the most blocks that wing w may hold. What a wing holds is the
 * lengths in the entries of its sheets together, as they stand, in 64 bits. Where no wing has a limit of its own, each of the
 * eight is the card's blocks or more. "As above" then also means:
 *   18   what the wing of the sheet holds, and count, are together more than its limit */

/* An Absent sheet becomes Open with `count` blank places, at the lowest run that is long enough. Its blocks are filled with
 * zeros. first: its start. second: the space behind it as it was before, count and what grow could add to it.
 *   1, 2, 4   as above
 *   6, 7, 8   the sheet is Paused, Open, Complete
 *   3         count is 0
 *   18        as above
 *   10        no run of free blocks is long enough
 *   4         count is more than the shape's free count, though there is a run */
pagunlit_outcome pagunlit_reserve(uint32_t role, pagunlit_shape shape, uint64_t *map, size_t maplen,
    pagunlit_entry *catalogue, size_t cataloguelen, uint8_t *card, size_t cardlen, const uint32_t *limits, uint32_t sheet,
    uint32_t count) PAGUNLIT_USE_RESULT;

/* The same with three figures: the lowest run that is long enough, starts at or after `from`, starts on a multiple of `step`,
 * and whose last block is below `before`. pagunlit_reserve is the one with 0, the card's blocks and 1. first: its start.
 * second: the space behind it, as above; it ends at the next taken block or the card's end, whatever `before` is.
 *   1, 2, 4, 6, 7, 8, 3   as pagunlit_reserve
 *   15                    step is 0, from is not below before, or before is above the card's blocks
 *   18, 10, 4             as pagunlit_reserve, of runs within the figures */
pagunlit_outcome pagunlit_reserve_placed(uint32_t role, pagunlit_shape shape, uint64_t *map, size_t maplen,
    pagunlit_entry *catalogue, size_t cataloguelen, uint8_t *card, size_t cardlen, const uint32_t *limits, uint32_t sheet,
    uint32_t count, uint32_t from, uint32_t before, uint32_t step) PAGUNLIT_USE_RESULT;

/* Where pagunlit_reserve would put a sheet of `count` places now. It changes nothing. first: the start. second: count.
 *   1, 2, 4, 6, 7, 8, 3, 18, 10, 4   as pagunlit_reserve */
pagunlit_outcome pagunlit_offer(uint32_t role, pagunlit_shape shape, const uint64_t *map, size_t maplen,
    const pagunlit_entry *catalogue, size_t cataloguelen, const uint8_t *card, size_t cardlen, const uint32_t *limits,
    uint32_t sheet, uint32_t count) PAGUNLIT_USE_RESULT;

/* An Absent sheet becomes Open with `count` blank places in the blocks from `start` on, as pagunlit_reserve does at the start
 * that it finds. It need not be the lowest run, nor one that was offered. first: the start. second: the space behind it.
 *   1, 2, 4, 6, 7, 8, 3, 18   as pagunlit_reserve
 *   17                        the blocks from start to start + count - 1 are not all free, or go past the card's last
 *   4                         count is more than the shape's free count, though they are free */
pagunlit_outcome pagunlit_accept(uint32_t role, pagunlit_shape shape, uint64_t *map, size_t maplen, pagunlit_entry *catalogue,
    size_t cataloguelen, uint8_t *card, size_t cardlen, const uint32_t *limits, uint32_t sheet, uint32_t start,
    uint32_t count) PAGUNLIT_USE_RESULT;

/* An Open sheet gets `count` more blank places, in the blocks after its own, which are filled with zeros.
 *   1, 2, 4   as above
 *   5, 6, 8   the sheet is Absent, Paused, Complete
 *   3         count is 0
 *   18        as above
 *   11        the next blocks are not all free, or go past the card's last
 *   4         count is more than the shape's free count, though they are free */
pagunlit_outcome pagunlit_grow(uint32_t role, pagunlit_shape shape, uint64_t *map, size_t maplen, pagunlit_entry *catalogue,
    size_t cataloguelen, uint8_t *card, size_t cardlen, const uint32_t *limits, uint32_t sheet, uint32_t count)
    PAGUNLIT_USE_RESULT;

/* Puts a payload of 496 bytes to a place of an Open sheet, whether it is blank or not.
 *   1, 2, 4   as above
 *   5, 6, 8   the sheet is Absent, Paused, Complete
 *   3         place is not below the sheet's length, or payloadlen is not 496 */
pagunlit_outcome pagunlit_put(uint32_t role, pagunlit_shape shape, const uint64_t *map, size_t maplen,
    const pagunlit_entry *catalogue, size_t cataloguelen, uint8_t *card, size_t cardlen, uint32_t sheet, uint32_t place,
    const uint8_t *payload, size_t payloadlen) PAGUNLIT_USE_RESULT;

/* An Open sheet becomes Complete, if none of its places is blank.
 *   1, 2, 4   as above
 *   5, 6, 8   the sheet is Absent, Paused, Complete
 *   4         a block of the sheet is neither blank (all zeros) nor sound: it carries another sheet or place, or its check
 *             does not hold
 *   9         a place is blank, and first is the lowest blank place */
pagunlit_outcome pagunlit_complete(uint32_t role, pagunlit_shape shape, const uint64_t *map, size_t maplen,
    pagunlit_entry *catalogue, size_t cataloguelen, const uint8_t *card, size_t cardlen, uint32_t sheet) PAGUNLIT_USE_RESULT;

/* An Absent or a Complete sheet becomes Paused. A Complete one, a finished course, keeps its blocks and what they hold, and
 * can be resumed. It lasts once it is saved: after a power cut before that, a course that was stopped is dispensed again.
 *   1, 2, 4   as above
 *   6, 7      the sheet is Paused, Open */
pagunlit_outcome pagunlit_pause(uint32_t role, pagunlit_shape shape, const uint64_t *map, size_t maplen,
    pagunlit_entry *catalogue, size_t cataloguelen, uint32_t sheet) PAGUNLIT_USE_RESULT;

/* A Paused sheet with blocks becomes Complete again. It looks at no block, so it is lent no card. It lasts once it is saved:
 * after a power cut before that, nothing of the course is shown.
 *   1, 2, 4      as above
 *   5, 6, 7, 8   the sheet is Absent, Paused without blocks, Open, Complete */
pagunlit_outcome pagunlit_resume(uint32_t role, pagunlit_shape shape, const uint64_t *map, size_t maplen,
    pagunlit_entry *catalogue, size_t cataloguelen, uint32_t sheet) PAGUNLIT_USE_RESULT;

/* A sheet that is not Absent becomes Absent, and its blocks free. The card's bytes stay. Save before the next call that takes
 * blocks, also where the sheet had none: until then an older image has the sheet as it was, and after a power cut it would
 * show what was written to its blocks since (docs/C.md, "Saving and power cuts").
 *   1, 2, 4   as above
 *   5         the sheet is Absent
 *   4         the free count with the sheet's blocks would be above the shape's blocks */
pagunlit_outcome pagunlit_release(uint32_t role, pagunlit_shape shape, uint64_t *map, size_t maplen,
    pagunlit_entry *catalogue, size_t cataloguelen, uint32_t sheet) PAGUNLIT_USE_RESULT;

/* first, second, third: the sheet's mark, start and length.
 *   1, 2, 4   as above */
pagunlit_outcome pagunlit_standing(uint32_t role, pagunlit_shape shape, const uint64_t *map, size_t maplen,
    const pagunlit_entry *catalogue, size_t cataloguelen, uint32_t sheet) PAGUNLIT_USE_RESULT;

/* Copies the payload of a place of a Complete sheet to the buffer, of 496 bytes.
 *   1, 2, 4   as above
 *   5, 6, 7   the sheet is Absent, Paused, Open
 *   3         place is not below the sheet's length, or bufferlen is not 496
 *   4         the block of this place is not sound: it carries another sheet or place, or its check does not hold */
pagunlit_outcome pagunlit_show(uint32_t role, pagunlit_shape shape, const uint64_t *map, size_t maplen,
    const pagunlit_entry *catalogue, size_t cataloguelen, const uint8_t *card, size_t cardlen, uint32_t sheet, uint32_t place,
    uint8_t *buffer, size_t bufferlen) PAGUNLIT_USE_RESULT;

/* pagunlit_show on a date, given as its year (2000 to 2099), month (1 to 12) and day: the sheet shows only from its first
 * day to its last, both included. These two days are the first eight bytes of the payload of place 0, four bytes each, the
 * high byte first, as days since 1 January 2000, which is day 0; 31 December 2099 is day 36524. A sheet whose first day is
 * after its last never shows. pagunlit_write_term writes the two days. pagunlit_show remains, for the pharmacy, and does not
 * look at them.
 *   1, 2, 4, 5, 6, 7, 3   as pagunlit_show
 *   19                    there is no such date, or it lies outside the years 2000 to 2099
 *   4                     the block of place 0 is not sound
 *   20                    the day is before the first or after the last
 *   4                     the block of this place is not sound */
pagunlit_outcome pagunlit_show_dated(uint32_t role, pagunlit_shape shape, const uint64_t *map, size_t maplen,
    const pagunlit_entry *catalogue, size_t cataloguelen, const uint8_t *card, size_t cardlen, uint32_t sheet, uint32_t place,
    uint32_t year, uint32_t month, uint32_t day, uint8_t *buffer, size_t bufferlen) PAGUNLIT_USE_RESULT;

/* A summary beside the map, with which a reserve finds its run, or that there is none, without going through the map. It has
 * for each group of words three numbers, those of group g from summary[3 * g] on: the free run at the group's head, the one at
 * its tail, and its longest. Group 0 is all words; groups 2 * g + 1 and 2 * g + 2 are the first and the second half of group g,
 * down to one word. Missing words at the end count as taken.
 *
 * A program builds it once, after fresh or load, and then makes every call that changes the map in its form with the summary,
 * each lent the summary as the call before left it. All calls then answer as without it, and it stays the map's own. A call
 * without it leaves it behind, and pagunlit_summary_check tells.
 *
 * With a summary that is not the map's own only two things may differ: a reserve may find no run though there is one, or
 * another run than the lowest; and an accepted call may leave anything in the groups above the words that it changed. Where
 * group 0's longest is below count, a reserve gives 10 whatever the map holds, unless a number before 10 holds. A run that is
 * granted is always free, on the card, within its figures and as long as wanted, and the space told is the map's. */

/* Writes the map's own summary, whatever was there before.
 *   1   as above */
pagunlit_outcome pagunlit_summary_build(uint32_t role, pagunlit_shape shape, const uint64_t *map, size_t maplen,
    uint32_t *summary, size_t summarylen) PAGUNLIT_USE_RESULT;

/* first: 1 if the summary is the map's own, else 0.
 *   1   as above */
pagunlit_outcome pagunlit_summary_check(uint32_t role, pagunlit_shape shape, const uint64_t *map, size_t maplen,
    const uint32_t *summary, size_t summarylen) PAGUNLIT_USE_RESULT;

/* pagunlit_reserve with a summary. It is changed in the groups above the words that are marked, and in no other.
 *   1, 2, 4, 6, 7, 8, 3, 18, 10, 4   as pagunlit_reserve */
pagunlit_outcome pagunlit_reserve_with_summary(uint32_t role, pagunlit_shape shape, uint64_t *map, size_t maplen,
    uint32_t *summary, size_t summarylen, pagunlit_entry *catalogue, size_t cataloguelen, uint8_t *card, size_t cardlen,
    const uint32_t *limits, uint32_t sheet, uint32_t count) PAGUNLIT_USE_RESULT;

/* pagunlit_reserve_placed with a summary, likewise.
 *   1, 2, 4, 6, 7, 8, 3, 15, 18, 10, 4   as pagunlit_reserve_placed */
pagunlit_outcome pagunlit_reserve_placed_with_summary(uint32_t role, pagunlit_shape shape, uint64_t *map, size_t maplen,
    uint32_t *summary, size_t summarylen, pagunlit_entry *catalogue, size_t cataloguelen, uint8_t *card, size_t cardlen,
    const uint32_t *limits, uint32_t sheet, uint32_t count, uint32_t from, uint32_t before, uint32_t step) PAGUNLIT_USE_RESULT;

/* pagunlit_accept with a summary, likewise. Whatever the summary says, it answers and leaves all else as without it.
 *   1, 2, 4, 6, 7, 8, 3, 18, 17, 4   as pagunlit_accept */
pagunlit_outcome pagunlit_accept_with_summary(uint32_t role, pagunlit_shape shape, uint64_t *map, size_t maplen,
    uint32_t *summary, size_t summarylen, pagunlit_entry *catalogue, size_t cataloguelen, uint8_t *card, size_t cardlen,
    const uint32_t *limits, uint32_t sheet, uint32_t start, uint32_t count) PAGUNLIT_USE_RESULT;

/* pagunlit_grow with a summary, likewise.
 *   1, 2, 4, 5, 6, 8, 3, 18, 11, 4   as pagunlit_grow */
pagunlit_outcome pagunlit_grow_with_summary(uint32_t role, pagunlit_shape shape, uint64_t *map, size_t maplen,
    uint32_t *summary, size_t summarylen, pagunlit_entry *catalogue, size_t cataloguelen, uint8_t *card, size_t cardlen,
    const uint32_t *limits, uint32_t sheet, uint32_t count) PAGUNLIT_USE_RESULT;

/* pagunlit_release with a summary, likewise.
 *   1, 2, 4, 5, 4   as pagunlit_release */
pagunlit_outcome pagunlit_release_with_summary(uint32_t role, pagunlit_shape shape, uint64_t *map, size_t maplen,
    uint32_t *summary, size_t summarylen, pagunlit_entry *catalogue, size_t cataloguelen, uint32_t sheet) PAGUNLIT_USE_RESULT;

/* Saves shape, map and catalogue as an image, of exactly PAGUNLIT_IMAGE_BYTES. The scratch has PAGUNLIT_SCRATCH_WORDS
 * of the blocks, and is all zeros afterwards, whatever the answer. The card's blocks are no part of the image: they have to
 * reach the medium before it. Do not write an image over the last one: of a write that is cut, load may accept a mixture of
 * both (examples/saving.c has a way that is safe).
 *   1   as above
 *   4   the state is not sound: an entry cannot be, two sheets share a block, a block is free and held or neither, a bit of
 *       the map is 1 behind the last block, or the free count is not the number of free blocks
 *   12  imagelen is not PAGUNLIT_IMAGE_BYTES(blocks, cataloguelen) */
pagunlit_outcome pagunlit_save(uint32_t role, pagunlit_shape shape, const uint64_t *map, size_t maplen,
    const pagunlit_entry *catalogue, size_t cataloguelen, uint64_t *scratch, size_t scratchlen, uint8_t *image,
    size_t imagelen) PAGUNLIT_USE_RESULT;

/* Reads an image into a map and a catalogue of the lengths that it asks for (pagunlit_image_blocks and pagunlit_image_sheets
 * of pagunlit_text.h read them), and hands back its shape. It reads nothing of the shape it takes. Nothing is written but the
 * scratch, which is all zeros afterwards, unless all of the image is sound. It looks at no block: what an image says of the
 * card is right only if it is the one that was saved last and the rule of docs/C.md, "Saving and power cuts", was kept. A
 * summary is to be built anew, and offers from before are void.
 *   12  imagelen is not 1 to 91 whole blocks of 512 bytes
 *   13  a frame's number, total or check is wrong
 *   14  the blocks, the sheets or the free count in the image are out of limits, or it is not as long as they ask for
 *   1   maplen is not PAGUNLIT_MAP_WORDS or scratchlen not PAGUNLIT_SCRATCH_WORDS of the image's blocks, or cataloguelen not
 *       its sheets
 *   14  the state in the image is not sound, or what fills it up is not all zeros */
pagunlit_outcome pagunlit_load(uint32_t role, pagunlit_shape shape, const uint8_t *image, size_t imagelen, uint64_t *map,
    size_t maplen, pagunlit_entry *catalogue, size_t cataloguelen, uint64_t *scratch, size_t scratchlen) PAGUNLIT_USE_RESULT;

/* Closes the gaps: moves the blocks of all sheets towards block 0, in order of their starts, with no block free before or
 * between them, and their bytes along. Every sheet keeps its mark, its length and what its places hold; the free count stays,
 * and all free blocks are one run at the card's end, with the bytes that they had. A run that was offered before may be taken
 * now. The scratch has PAGUNLIT_SCRATCH_WORDS of the blocks, and is all zeros afterwards, whatever the answer. Save behind it
 * before anything else, and see that the power lasts: after a power cut before that, places of any sheet may be lost (4).
 *   1   as above
 *   4   the state is not sound: an entry is damaged, two sheets hold the same block, a block is taken that no sheet holds, or
 *       the free count is not the map's */
pagunlit_outcome pagunlit_close(uint32_t role, pagunlit_shape shape, uint64_t *map, size_t maplen, pagunlit_entry *catalogue,
    size_t cataloguelen, uint8_t *card, size_t cardlen, uint64_t *scratch, size_t scratchlen) PAGUNLIT_USE_RESULT;

/* pagunlit_close with a summary, which is built anew, whatever it was before. A refusal leaves it as it was.
 *   1, 4   as pagunlit_close */
pagunlit_outcome pagunlit_close_with_summary(uint32_t role, pagunlit_shape shape, uint64_t *map, size_t maplen,
    uint32_t *summary, size_t summarylen, pagunlit_entry *catalogue, size_t cataloguelen, uint8_t *card, size_t cardlen,
    uint64_t *scratch, size_t scratchlen) PAGUNLIT_USE_RESULT;

#ifdef __cplusplus
}
#endif

#endif
