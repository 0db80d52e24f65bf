/* Power cuts, and the rule for saving (docs/C.md, "Saving and power cuts"). The rule is about the image that was saved last: as
 * long as none was, there is nothing that it asks for. */
#include "desk.h"

#include <string.h>

enum { LISTED = 6 }; /* places that are named at most */

static int takes_blocks(desk_call call)
{
    return call == CALL_RESERVE || call == CALL_PLACED || call == CALL_ACCEPT || call == CALL_GROW;
}

static int changes(desk_call call)
{
    return takes_blocks(call) || call == CALL_PUT || call == CALL_COMPLETE || call == CALL_PAUSE || call == CALL_RESUME ||
           call == CALL_RELEASE || call == CALL_CLOSE || call == CALL_FRESH;
}

/* Whether a place is neither blank nor sound: its check does not hold, or it carries another sheet or place. */
static int is_strange(const desk_card *card, uint32_t sheet, uint32_t place)
{
    const uint8_t *block = card_place(card, sheet, place);
    uint8_t head[8] = {(uint8_t)(sheet >> 24), (uint8_t)(sheet >> 16), (uint8_t)(sheet >> 8), (uint8_t)sheet,
                       (uint8_t)(place >> 24), (uint8_t)(place >> 16), (uint8_t)(place >> 8), (uint8_t)place};

    return block && !card_is_blank(card, card->lent.catalogue[sheet].start + place) &&
           (check(block, PAGUNLIT_BLOCK) != 1 || memcmp(block, head, sizeof head) != 0);
}

/* The places that the rule wants to have looked at before the next closing: how many, and the first of them in words. */
static uint32_t strange_places(const desk_card *card, int named)
{
    uint32_t found = 0;

    for (uint32_t sheet = 0; sheet < card->lent.cataloguelen; sheet++)
        for (uint32_t place = 0; place < card->lent.catalogue[sheet].length && place < card_blocks(card); place++)
            if (is_strange(card, sheet, place) && ++found <= LISTED && named)
                say("    (place %u of sheet %u is neither blank nor sound. Before the next closing: %s)\n", place, sheet,
                    card->lent.catalogue[sheet].mark == PAGUNLIT_OPEN ? "put it again, or release the sheet"
                                                                      : "release the sheet");
    if (named && found > LISTED)
        say("    (and %u more places)\n", found - LISTED);
    return found;
}

/* What is not saved, and what the rule asks next. */
static void say_rule(const desk_saving *saving)
{
    if (saving->closed)
        say_line("    (not saved. The rule: save before anything else)");
    else if (saving->released)
        say_line("    (not saved. The rule: save before a call takes blocks)");
    else if (saving->unsaved)
        say_line("    (not saved)");
}

/* Whether the call at hand should have waited for a save, or a closing for places that are still strange, and moved along. */
static int was_early(const desk_card *card, desk_call call)
{
    const desk_saving *saving = &card->saving;

    return (saving->closed && changes(call)) || (saving->released && takes_blocks(call)) ||
           (saving->cut && call == CALL_CLOSE && strange_places(card, 0) > 0);
}

static void say_early(void)
{
    say_line("    (this call was too early by the rule: after a power cut the saved image may be wrong about the card)");
}

static void note_load(desk *d)
{
    desk_saving *saving = &d->card.saving;
    int other = d->image && (d->loadedlen != d->imagelen || memcmp(d->loaded, d->image, d->imagelen) != 0);

    *saving = (desk_saving){other, 0, other, saving->cut};
}

void power_note(desk *d)
{
    desk_saving *saving = &d->card.saving;
    desk_call call = d->said.call;
    int early = d->image && was_early(&d->card, call);

    if (call == CALL_LOAD)
        note_load(d);
    else if (call == CALL_SAVE)
        *saving = (desk_saving){0, 0, 0, saving->cut};
    else if (!changes(call))
        return;
    else if (call == CALL_PUT) {
        if (early)
            say_early();
        return;
    }
    else
        saving->unsaved = 1;
    saving->released |= call == CALL_RELEASE || call == CALL_FRESH;
    saving->closed |= call == CALL_CLOSE;
    if (call == CALL_CLOSE)
        saving->cut = 0;
    if (!d->image)
        return;
    if (early)
        say_early();
    say_rule(saving);
}

/* The bytes that a block had before the last command that wrote it, or NULL. */
static const uint8_t *bytes_before(const desk *d, uint32_t block)
{
    for (size_t i = d->taken; i-- > 0;)
        for (size_t j = 0; j < d->steps[i].count; j++)
            if (d->steps[i].blocks[j].block == block)
                return d->steps[i].blocks[j].bytes;
    return NULL;
}

/* Tears the last write to a block: its first bytes are new, the others old. 0 where that cannot be. */
static int tear(desk *d, const desk_words *words)
{
    uint32_t block, bytes;

    if (!command_number(d, words, 2, "the block", &block) || !command_number(d, words, 3, "the number of bytes", &bytes))
        return 0;
    const uint8_t *before = bytes_before(d, block);
    if (block >= card_blocks(&d->card) || bytes > PAGUNLIT_BLOCK) {
        desk_wrong(d, "The card has %u blocks of %d bytes, counted from 0.", card_blocks(&d->card), PAGUNLIT_BLOCK);
    } else if (!before) {
        desk_wrong(d, "No command has written block %u, so that no write to it can be cut.", block);
    } else {
        memcpy(d->card.lent.card + (size_t)PAGUNLIT_BLOCK * block + bytes, before + bytes, PAGUNLIT_BLOCK - bytes);
        d->from = block;
        d->to = block + 1;
        say("Block %u was being written: its first %u bytes are new, the others old.\n", block, bytes);
        return 1;
    }
    return 0;
}

/* All that the program keeps is gone, and reads as zeros. */
static void lose_memory(desk *d)
{
    desk_card *card = &d->card;

    card->lent.shape = (pagunlit_shape){0, 0};
    memset(card->lent.map, 0, card->lent.maplen * sizeof *card->lent.map);
    memset(card->lent.catalogue, 0, card->lent.cataloguelen * sizeof *card->lent.catalogue);
    memset(card->summary, 0, card->lent.summarylen * sizeof *card->summary);
    card->saving = (desk_saving){1, 0, 0, 1};
    d->offer.made = 0;
    d->said.made = 0;
}

/* The program loads the image when the power is back, whoever makes the calls then. */
static void load_again(desk *d)
{
    uint32_t role = d->card.lent.role;

    d->card.lent.role = PAGUNLIT_PHARMACIST;
    image_load(d, d->image, d->imagelen);
    d->card.lent.role = role;
    strange_places(&d->card, 1);
}

COMMAND(cut)
{
    if (words->count != 1 && (words->count != 4 || strcmp(words->word[1], "torn") != 0)) {
        command_usage(d, words);
        return;
    }
    if (words->count == 4 && !tear(d, words))
        return;
    d->step.always = 1;
    lose_memory(d);
    if (d->image) {
        say_line("The power was cut. The memory is lost, the card's bytes are there, and the image that was saved last is"
                 " loaded.");
        load_again(d);
    } else {
        say_line("The power was cut. The memory is lost, and no image was saved: nobody knows any more whose the card's bytes"
                 " are.");
    }
}

COMMAND(rule)
{
    const desk_saving *saving = &d->card.saving;

    if (words->count != 1) {
        command_usage(d, words);
        return;
    }
    say_line("The rule: after a release or a fresh, save before a call takes blocks. After a closing, or a load of another"
             " image, save before anything else. After a power cut, and before the next closing, release each sheet that has a"
             " place which is neither blank nor sound, or put that place again.");
    if (!d->image)
        say_line("    (no image was saved yet: after a power cut nothing would come back)");
    else if (!saving->unsaved)
        say_line("    (saved)");
    else
        say_rule(saving);
    if (saving->cut)
        strange_places(&d->card, 1);
}
