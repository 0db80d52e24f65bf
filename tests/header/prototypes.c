/* The functions that each header declares, as documents 01 and 02 and the signatures of the C library's Rattle source have
 * them: a slice is a pointer and a length, const where the call only reads it. Behind each header are its functions. This is
 * compiled, so that a prototype with other types in a header is a conflict; and tests/header/src/names.rs reads it, and
 * compares the names of the functions and of their parameters. */
#define ROLE uint32_t role
#define SHAPE pagunlit_shape shape
#define MAP uint64_t *map, size_t maplen
#define SUMMARY uint32_t *summary, size_t summarylen
#define CATALOGUE pagunlit_entry *catalogue, size_t cataloguelen
#define CARD uint8_t *card, size_t cardlen
#define LIMITS const uint32_t *limits
#define SCRATCH uint64_t *scratch, size_t scratchlen
#define IMAGE uint8_t *image, size_t imagelen
#define HELD pagunlit_card *card

#include "pagunlit.h"
pagunlit_outcome pagunlit_fresh(ROLE, SHAPE, uint32_t blocks, MAP, CATALOGUE);
pagunlit_outcome pagunlit_search(ROLE, SHAPE, const MAP, uint32_t k);
pagunlit_outcome pagunlit_survey(ROLE, SHAPE, const MAP);
pagunlit_outcome pagunlit_reserve(ROLE, SHAPE, MAP, CATALOGUE, CARD, LIMITS, uint32_t sheet, uint32_t count);
pagunlit_outcome pagunlit_reserve_placed(ROLE, SHAPE, MAP, CATALOGUE, CARD, LIMITS, uint32_t sheet, uint32_t count,
                                         uint32_t from, uint32_t before, uint32_t step);
pagunlit_outcome pagunlit_offer(ROLE, SHAPE, const MAP, const CATALOGUE, const CARD, LIMITS, uint32_t sheet, uint32_t count);
pagunlit_outcome pagunlit_accept(ROLE, SHAPE, MAP, CATALOGUE, CARD, LIMITS, uint32_t sheet, uint32_t start, uint32_t count);
pagunlit_outcome pagunlit_grow(ROLE, SHAPE, MAP, CATALOGUE, CARD, LIMITS, uint32_t sheet, uint32_t count);
pagunlit_outcome pagunlit_put(ROLE, SHAPE, const MAP, const CATALOGUE, CARD, uint32_t sheet, uint32_t place,
                              const uint8_t *payload, size_t payloadlen);
pagunlit_outcome pagunlit_complete(ROLE, SHAPE, const MAP, CATALOGUE, const CARD, uint32_t sheet);
pagunlit_outcome pagunlit_pause(ROLE, SHAPE, const MAP, CATALOGUE, uint32_t sheet);
pagunlit_outcome pagunlit_resume(ROLE, SHAPE, const MAP, CATALOGUE, uint32_t sheet);
pagunlit_outcome pagunlit_release(ROLE, SHAPE, MAP, CATALOGUE, uint32_t sheet);
pagunlit_outcome pagunlit_standing(ROLE, SHAPE, const MAP, const CATALOGUE, uint32_t sheet);
pagunlit_outcome pagunlit_show(ROLE, SHAPE, const MAP, const CATALOGUE, const CARD, uint32_t sheet, uint32_t place,
                               uint8_t *buffer, size_t bufferlen);
pagunlit_outcome pagunlit_show_dated(ROLE, SHAPE, const MAP, const CATALOGUE, const CARD, uint32_t sheet, uint32_t place,
                                     uint32_t year, uint32_t month, uint32_t day, uint8_t *buffer, size_t bufferlen);
pagunlit_outcome pagunlit_summary_build(ROLE, SHAPE, const MAP, SUMMARY);
pagunlit_outcome pagunlit_summary_check(ROLE, SHAPE, const MAP, const SUMMARY);
pagunlit_outcome pagunlit_reserve_with_summary(ROLE, SHAPE, MAP, SUMMARY, CATALOGUE, CARD, LIMITS, uint32_t sheet,
                                               uint32_t count);
pagunlit_outcome pagunlit_reserve_placed_with_summary(ROLE, SHAPE, MAP, SUMMARY, CATALOGUE, CARD, LIMITS, uint32_t sheet,
                                                      uint32_t count, uint32_t from, uint32_t before, uint32_t step);
pagunlit_outcome pagunlit_accept_with_summary(ROLE, SHAPE, MAP, SUMMARY, CATALOGUE, CARD, LIMITS, uint32_t sheet,
                                              uint32_t start, uint32_t count);
pagunlit_outcome pagunlit_grow_with_summary(ROLE, SHAPE, MAP, SUMMARY, CATALOGUE, CARD, LIMITS, uint32_t sheet,
                                            uint32_t count);
pagunlit_outcome pagunlit_release_with_summary(ROLE, SHAPE, MAP, SUMMARY, CATALOGUE, uint32_t sheet);
pagunlit_outcome pagunlit_close(ROLE, SHAPE, MAP, CATALOGUE, CARD, SCRATCH);
pagunlit_outcome pagunlit_close_with_summary(ROLE, SHAPE, MAP, SUMMARY, CATALOGUE, CARD, SCRATCH);
pagunlit_outcome pagunlit_save(ROLE, SHAPE, const MAP, const CATALOGUE, SCRATCH, IMAGE);
pagunlit_outcome pagunlit_load(ROLE, SHAPE, const IMAGE, MAP, CATALOGUE, SCRATCH);

#include "pagunlit_payload.h"
pagunlit_count pagunlit_read_count(const uint8_t *payload, size_t payloadlen, uint32_t which);
uint32_t pagunlit_write_count(uint8_t *payload, size_t payloadlen, uint32_t which, uint32_t hundredths);
uint32_t pagunlit_write_term(uint8_t *payload, size_t payloadlen, uint32_t first, uint32_t last);
pagunlit_day pagunlit_day_of_date(uint32_t year, uint32_t month, uint32_t day);
pagunlit_day pagunlit_day_of_number(uint32_t days);
uint32_t seal(uint32_t sheet, uint32_t place, const uint8_t *payload, size_t payloadlen, uint8_t *block, size_t blocklen);
uint32_t check(const uint8_t *block, size_t blocklen);

#include "pagunlit_card.h"
static inline int pagunlit_card_save_first(const HELD);
static inline int pagunlit_card_save_before_blocks(const HELD);
static inline void pagunlit_card_saved(HELD);
static inline void pagunlit_card_no_limits(HELD);
static inline pagunlit_outcome pagunlit_card_kept(HELD, pagunlit_outcome outcome, uint32_t to_save);
static inline pagunlit_outcome pagunlit_card_fresh(HELD, uint32_t blocks);
static inline pagunlit_outcome pagunlit_card_search(HELD, uint32_t k);
static inline pagunlit_outcome pagunlit_card_survey(HELD);
static inline pagunlit_outcome pagunlit_card_reserve(HELD, uint32_t sheet, uint32_t count);
static inline pagunlit_outcome pagunlit_card_reserve_placed(HELD, uint32_t sheet, uint32_t count, uint32_t from,
                                                            uint32_t before, uint32_t step);
static inline pagunlit_outcome pagunlit_card_offer(HELD, uint32_t sheet, uint32_t count);
static inline pagunlit_outcome pagunlit_card_accept(HELD, uint32_t sheet, uint32_t start, uint32_t count);
static inline pagunlit_outcome pagunlit_card_grow(HELD, uint32_t sheet, uint32_t count);
static inline pagunlit_outcome pagunlit_card_put(HELD, uint32_t sheet, uint32_t place, const uint8_t *payload,
                                                 size_t payloadlen);
static inline pagunlit_outcome pagunlit_card_complete(HELD, uint32_t sheet);
static inline pagunlit_outcome pagunlit_card_pause(HELD, uint32_t sheet);
static inline pagunlit_outcome pagunlit_card_resume(HELD, uint32_t sheet);
static inline pagunlit_outcome pagunlit_card_release(HELD, uint32_t sheet);
static inline pagunlit_outcome pagunlit_card_standing(HELD, uint32_t sheet);
static inline pagunlit_outcome pagunlit_card_show(HELD, uint32_t sheet, uint32_t place, uint8_t *buffer, size_t bufferlen);
static inline pagunlit_outcome pagunlit_card_show_dated(HELD, uint32_t sheet, uint32_t place, uint32_t year,
                                                        uint32_t month, uint32_t day, uint8_t *buffer, size_t bufferlen);
static inline pagunlit_outcome pagunlit_card_summary_build(HELD);
static inline pagunlit_outcome pagunlit_card_summary_check(HELD);
static inline pagunlit_outcome pagunlit_card_save(HELD, uint8_t *image, size_t imagelen);
static inline pagunlit_outcome pagunlit_card_load(HELD, const uint8_t *image, size_t imagelen);
static inline pagunlit_outcome pagunlit_card_close(HELD);

#include "pagunlit_text.h"
static inline const char *pagunlit_meaning(uint32_t number);
static inline uint32_t pagunlit_image_number(const uint8_t *image, size_t imagelen, size_t at);
static inline uint32_t pagunlit_image_blocks(const uint8_t *image, size_t imagelen);
static inline uint32_t pagunlit_image_sheets(const uint8_t *image, size_t imagelen);

#include "block.h"
uint32_t seal(uint32_t sheet, uint32_t place, const uint8_t *payload, size_t payload_length, uint8_t *block,
              size_t block_length);
uint32_t check(const uint8_t *block, size_t block_length);
