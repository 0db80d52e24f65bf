/* The rows of document 01's table of refusals that each call has, in the order in which include/pagunlit.h lists them. The
 * console decides by none of them: it finds the row that held by the number that the library gave. */
#ifndef DESK_ROWS_H
#define DESK_ROWS_H

#include "card.h"
#include "words.h"

typedef enum {
    CALL_FRESH, CALL_SEARCH, CALL_SURVEY, CALL_RESERVE, CALL_PLACED, CALL_OFFER, CALL_ACCEPT, CALL_GROW, CALL_PUT,
    CALL_COMPLETE, CALL_PAUSE, CALL_RESUME, CALL_RELEASE, CALL_STANDING, CALL_SHOW, CALL_DATED, CALL_BUILD, CALL_CHECK,
    CALL_SAVE, CALL_LOAD, CALL_CLOSE, CALL_READ_COUNT, CALL_WRITE_COUNT, CALLS
} desk_call;

typedef enum {
    NO_ROW, ROW_ROLE, ROW_SIZE, ROW_SHEET, ROW_ENTRY, ROW_ABSENT, ROW_PAUSED, ROW_OPEN, ROW_COMPLETE, ROW_NONE, ROW_PLACE,
    ROW_FIGURES, ROW_LIMIT, ROW_DATE, ROW_FIRST, ROW_TERM, ROW_BLOCK, ROW_BLANK, ROW_FIT, ROW_NEXT, ROW_RUN, ROW_FREE,
    ROW_STATE, ROW_LENGTH, ROW_FRAME, ROW_HEAD, ROW_LENT, ROW_CONTENT, ROW_PAYLOAD, ROW_DIGIT, ROWS
} desk_row;

/* The last call that was made of the library, and what it answered. */
typedef struct {
    desk_call call;
    int made;              /* a call was made */
    uint32_t sheet, count; /* count: also the place, the start of an accept is beside it */
    uint32_t start;
    desk_figures figures;
    desk_date date;
    pagunlit_outcome outcome;
    uint32_t hundredths;
    desk_row row;          /* the one that held, or NO_ROW */
    uint8_t payload[PAGUNLIT_PAYLOAD];
    int shown;             /* the payload is what a show answered */
} desk_said;

const char *rows_name(desk_call call);
uint32_t rows_number(desk_row row);

/* What document 01's table says of a row, or document 02, with the document before it; and without. */
const char *rows_sentence(desk_row row);
const char *rows_meaning(desk_row row);

/* The rows of a call in their order, up to NO_ROW. */
const desk_row *rows_of(desk_call call);

/* The row that held for the call that was made last. Number 4 may be several rows: where it may, the library is asked again. */
desk_row rows_held(desk_card *card, const desk_said *said, const uint8_t *image, size_t imagelen);

/* Prints which rows were passed and which one held, each with document 01's or document 02's sentence. */
void rows_why(const desk_said *said);

#endif
