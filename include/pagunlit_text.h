/* Texts for Pagunlit's numbers, and the head of an image. Plain C (C99, or C++): nothing here is linked. */
#ifndef PAGUNLIT_TEXT_H
#define PAGUNLIT_TEXT_H

#include "pagunlit.h"

/* What a number says that a call gave, in the words of document 01's table: n is the card's blocks, c the catalogue's sheets,
 * k and m the blocks wanted. docs/NUMBERS.md has causes and remedies. */
static inline const char *pagunlit_meaning(uint32_t number)
{
    switch (number) {
    case PAGUNLIT_DONE:
        return "done";
    case PAGUNLIT_WRONG_SIZE:
        return "n or c is outside its limits; free count above n; "
               "a lent map, summary, card or scratch (on load also the catalogue) has the wrong length";
    case PAGUNLIT_NO_SHEET:
        return "sheet number >= c";
    case PAGUNLIT_WRONG_ARGUMENT:
        return "k or m is 0; place >= length; a payload, block or show buffer has the wrong length";
    case PAGUNLIT_DAMAGED:
        return "entry damaged; block not sound; free count contradicts the call; state not sound when saved";
    case PAGUNLIT_IS_ABSENT:
        return "sheet is Absent and the call doesn't admit that";
    case PAGUNLIT_IS_PAUSED:
        return "sheet is Paused and the call doesn't admit that";
    case PAGUNLIT_IS_OPEN:
        return "sheet is Open and the call doesn't admit that";
    case PAGUNLIT_IS_COMPLETE:
        return "sheet is Complete and the call doesn't admit that";
    case PAGUNLIT_PLACE_BLANK:
        return "complete: some place is blank";
    case PAGUNLIT_NO_FIT:
        return "search or reserve: no fit";
    case PAGUNLIT_CANNOT_GROW:
        return "grow: the m next blocks are not all free and inside n";
    case PAGUNLIT_IMAGE_LENGTH:
        return "image length";
    case PAGUNLIT_IMAGE_FRAME:
        return "image frame";
    case PAGUNLIT_IMAGE_CONTENT:
        return "image content";
    case PAGUNLIT_WRONG_FIGURES:
        return "placed reserve: step is 0, from >= before or before > n";
    case PAGUNLIT_WRONG_COUNT:
        return "dose counts: another digit in the four bytes read, a number out of range when writing, "
               "or a count number of 124 or more";
    case PAGUNLIT_RUN_NOT_FREE:
        return "accept: the run is not all free and inside n";
    case PAGUNLIT_OVER_LIMIT:
        return "the limit of the sheet's wing would be passed";
    case PAGUNLIT_NO_DATE:
        return "dated show: the date doesn't exist or lies outside the span";
    case PAGUNLIT_OUTSIDE_TERM:
        return "dated show: the day lies outside the term";
    case PAGUNLIT_TURNED_AWAY:
        return "an unknown role or a call not in its row";
    default:
        return "no number of this library";
    }
}

/* The number in four bytes of an image, the high byte first; 0 where the image is shorter than a block. */
static inline uint32_t pagunlit_image_number(const uint8_t *image, size_t imagelen, size_t at)
{
    if (imagelen < PAGUNLIT_BLOCK || at > PAGUNLIT_BLOCK - 4)
        return 0;
    return (uint32_t)image[at] << 24 | (uint32_t)image[at + 1] << 16 | (uint32_t)image[at + 2] << 8 | image[at + 3];
}

/* The blocks and the sheets of the card that an image is of, as its first block has them: what the map and the catalogue
 * that are lent to load have to be long for. 0 where the image is shorter than a block. Nothing is checked: before load has
 * accepted the image, compare them with PAGUNLIT_BLOCKS and PAGUNLIT_SHEETS. */
static inline uint32_t pagunlit_image_blocks(const uint8_t *image, size_t imagelen)
{
    return pagunlit_image_number(image, imagelen, 8);
}

static inline uint32_t pagunlit_image_sheets(const uint8_t *image, size_t imagelen)
{
    return pagunlit_image_number(image, imagelen, 16);
}

#endif
