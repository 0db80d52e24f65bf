/* Save and load, to a file or to the image that the console keeps; and damage on purpose. */
#include "desk.h"
#include "pagunlit_text.h"

#include <errno.h>
#include <stdio.h>
#include <stdlib.h>
#include <string.h>

/* Longer than any image, so that one that is too long is seen to be. */
enum { LONGEST = 92 * PAGUNLIT_BLOCK };

static desk_said *begin(desk *d, desk_call call)
{
    memset(&d->said, 0, sizeof d->said);
    d->said.call = call;
    return &d->said;
}

/* The image that was kept before goes with the step, so that undo has it. */
static void keep_image(desk *d, uint8_t *image, size_t imagelen)
{
    d->step.replaced = 1;
    d->step.image_was = d->image;
    d->step.imagelen_was = d->imagelen;
    d->image = image;
    d->imagelen = imagelen;
    d->images++;
}

static void write_file(desk *d, const char *name)
{
    FILE *file = fopen(name, "wb");
    size_t written = file ? fwrite(d->image, 1, d->imagelen, file) : 0;

    if (!file || fclose(file) != 0 || written != d->imagelen)
        desk_wrong(d, "The file could not be written (%s).", strerror(errno));
    else
        say("    written to %s\n", name);
}

COMMAND(save)
{
    size_t sheets = d->card.lent.cataloguelen;
    size_t imagelen = PAGUNLIT_IMAGE_BYTES(card_blocks(&d->card), sheets);
    uint8_t *image = calloc(imagelen, 1);

    if (words->count > 2 || !image) {
        free(image);
        command_usage(d, words);
        return;
    }
    desk_said *said = begin(d, CALL_SAVE);
    said->outcome = pagunlit_card_save(&d->card.lent, image, imagelen);
    said->count = (uint32_t)imagelen;
    if (said->outcome.number == PAGUNLIT_DONE)
        keep_image(d, image, imagelen);
    else
        free(image);
    answer(d);
    if (said->outcome.number == PAGUNLIT_DONE && words->count == 2)
        write_file(d, words->word[1]);
}

/* Loads an image from a file. At most LONGEST bytes are read: what is longer is no image, and load says so. It is kept only if
 * none is: what was saved last stays what comes back after a power cut. */
static void load_file(desk *d, const char *name)
{
    FILE *file = fopen(name, "rb");
    uint8_t *image = file ? malloc(LONGEST) : NULL;
    size_t length = image ? fread(image, 1, LONGEST, file) : 0;
    int failed = !image || ferror(file);

    if (failed)
        desk_wrong(d, "The file could not be read (%s).", strerror(errno));
    if (file)
        fclose(file);
    if (!failed)
        image_load(d, image, length);
    if (!failed && !d->image && d->said.outcome.number == PAGUNLIT_DONE)
        keep_image(d, image, length);
    else
        free(image);
}

/* Load reads a map and a catalogue, and no block: a card of the same size stays in its slot, for another a blank one is put
 * in. */
void image_load(desk *d, const uint8_t *image, size_t imagelen)
{
    uint32_t blocks = pagunlit_image_blocks(image, imagelen), sheets = pagunlit_image_sheets(image, imagelen);
    desk_card next;

    if (!card_make(&next, blocks, sheets)) {
        say_line("There is not enough memory for such a card.");
        return;
    }
    card_settings(&next, &d->card);
    next.saving = d->card.saving;
    d->loaded = image;
    d->loadedlen = imagelen;
    begin(d, CALL_LOAD)->outcome = pagunlit_card_load(&next.lent, image, imagelen);
    if (d->said.outcome.number != PAGUNLIT_DONE) {
        card_free(&next);
    } else {
        next.broken = d->card.broken && next.lent.cardlen == d->card.lent.cardlen;
        steps_replace(d, &next);
    }
    answer(d);
    if (d->said.outcome.number == PAGUNLIT_DONE)
        build_where_kept(d);
}

COMMAND(load)
{
    if (words->count > 2) {
        command_usage(d, words);
        return;
    }
    if (words->count == 2)
        load_file(d, words->word[1]);
    else if (!d->image)
        desk_wrong(d, "No image was saved yet. `save` keeps one, `save FILE` writes it to a file, `load FILE` reads one.");
    else
        image_load(d, d->image, d->imagelen);
}

static void broken(desk *d)
{
    d->card.broken = 1;
    d->card.saving.unsaved = 1;
    say_line("This card is no longer what a list of calls left. What the calls promise of any memory, they keep.");
}

static void break_block(desk *d, const desk_words *words)
{
    uint32_t block, byte;

    if (words->count != 5 || strcmp(words->word[3], "byte") != 0) {
        command_usage(d, words);
        return;
    }
    if (!command_number(d, words, 2, "the block", &block) || !command_number(d, words, 4, "the byte", &byte))
        return;
    if (block >= card_blocks(&d->card) || byte >= PAGUNLIT_BLOCK) {
        desk_wrong(d, "The card has %u blocks of %d bytes, counted from 0.", card_blocks(&d->card), PAGUNLIT_BLOCK);
        return;
    }
    d->card.lent.card[(size_t)PAGUNLIT_BLOCK * block + byte] ^= 1;
    d->from = block;
    d->to = block + 1;
    say("Byte %u of block %u has changed, as a worn contact changes it.\n", byte, block);
    broken(d);
}

/* Without more words the entry becomes three zeros, as memory that was never written has them. */
static void break_entry(desk *d, const desk_words *words)
{
    uint32_t sheet, number = 0;
    const char *part = words_at(words, 3);

    if (words->count != 3 && words->count != 5) {
        command_usage(d, words);
        return;
    }
    if (!command_number(d, words, 2, "the sheet", &sheet) ||
        (words->count == 5 && !command_number(d, words, 4, part, &number)))
        return;
    if (sheet >= d->card.lent.cataloguelen) {
        desk_wrong(d, "The card has %zu sheets, counted from 0.", d->card.lent.cataloguelen);
        return;
    }
    pagunlit_entry *entry = &d->card.lent.catalogue[sheet];
    if (words->count == 3)
        *entry = (pagunlit_entry){0, 0, 0};
    else if (strcmp(part, "mark") == 0)
        entry->mark = number;
    else if (strcmp(part, "start") == 0)
        entry->start = number;
    else if (strcmp(part, "length") == 0)
        entry->length = number;
    else {
        command_usage(d, words);
        return;
    }
    say("The entry of sheet %u is now mark %u, start %u, length %u.\n", sheet, entry->mark, entry->start, entry->length);
    broken(d);
}

static void break_bit(desk *d, uint32_t block)
{
    if (block >= card_blocks(&d->card)) {
        desk_wrong(d, "The map has %u blocks, counted from 0.", card_blocks(&d->card));
        return;
    }
    d->card.lent.map[block / 64] ^= (uint64_t)1 << (63 - block % 64);
    say("Block %u is now %s in the map.\n", block, card_is_free(&d->card, block) ? "free" : "taken");
    broken(d);
}

/* The image is no part of the card: the card stays what the calls left. */
static void break_image(desk *d, uint32_t byte)
{
    if (byte >= d->imagelen) {
        desk_wrong(d, "The saved image has %zu bytes, counted from 0; `save` makes one.", d->imagelen);
        return;
    }
    d->image[byte] ^= 1;
    d->step.image = d->images;
    d->step.byte = byte;
    say("Byte %u of the saved image has changed. The card is as it was.\n", byte);
}

COMMAND(break)
{
    const char *what = words_at(words, 1);
    uint32_t number;

    if (strcmp(what, "block") == 0)
        break_block(d, words);
    else if (strcmp(what, "entry") == 0)
        break_entry(d, words);
    else if (words->count != 3 || (strcmp(what, "bit") != 0 && strcmp(what, "image") != 0 && strcmp(what, "free") != 0))
        command_usage(d, words);
    else if (!command_number(d, words, 2, what, &number))
        return;
    else if (strcmp(what, "bit") == 0)
        break_bit(d, number);
    else if (strcmp(what, "image") == 0)
        break_image(d, number);
    else {
        d->card.lent.shape.free = number;
        say("The free count is now %u.\n", number);
        broken(d);
    }
}
