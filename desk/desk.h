/* What the console keeps from line to line. */
#ifndef DESK_H
#define DESK_H

#include "card.h"
#include "rows.h"
#include "words.h"

#include <stdio.h>

/* A block of the card as it was. */
typedef struct {
    uint32_t block;
    uint8_t bytes[PAGUNLIT_BLOCK];
} desk_block;

/* What a command changed: the card before it, but for its bytes, and those of the blocks that it wrote. */
typedef struct {
    desk_card was;
    int whole; /* `was` has its bytes too: another card was put in */
    desk_block *blocks;
    size_t count;
    size_t image; /* which image was damaged, by its number, at which byte; or 0 */
    uint32_t byte;
    int replaced; /* another image was kept: this one was before */
    uint8_t *image_was;
    size_t imagelen_was;
    desk_said offer; /* the last offer before the command */
    int always;      /* it is a step even if it changed nothing */
    char *line;
} desk_step;

enum { DESK_STEPS = 200, DESK_WHOLE = 4 };

/* `quit` in a script ends that script; typed, or from standard input, it ends the console. */
enum { OVER_SCRIPT = 1, OVER_ALL = 2 };

typedef struct desk {
    desk_card card;
    desk_said said;
    desk_said offer;             /* the last offer that was made, for an accept without arguments */
    uint8_t *image;              /* the image that was saved last; before the first save, the one that was loaded from a file */
    size_t imagelen;
    size_t images;               /* how many there were, and so the number of the last */
    const uint8_t *loaded;       /* the image that load is lent */
    size_t loadedlen;
    desk_step steps[DESK_STEPS]; /* the oldest first */
    size_t taken;
    size_t made;                 /* how many steps there were, also those forgotten since */
    desk_step step;              /* of the command at hand */
    uint32_t from, to;           /* the blocks that the command at hand may have written */
    char **lines;                /* every line that was given, for `history` */
    size_t linecount;
    size_t number;               /* of the line at hand */
    int failed;                  /* an `expect` failed, or a line of a script was not understood */
    int wrong;                   /* the line at hand was not understood, or a file could not be read or written */
    int typed;                   /* somebody typed the line at hand on a terminal: it counts as no failure */
    int scripts;                 /* how many scripts are being run, one by a line of the other */
    int over;                    /* `quit` was given, by one of those below */
    int paragraph;               /* a paragraph of comments was begun, and its next line may follow */
    size_t lowest;               /* undo goes no further back than this step */

    /* What only a terminal has: after each line of a script, whether the script goes on; whether Ctrl-C was typed. NULL
     * without one. */
    int (*pause)(struct desk *d, const char *line);
    int (*interrupted)(void);
} desk;

/* Says what is wrong with the line at hand, and what would be right. */
void desk_wrong(desk *d, const char *format, ...);

/* steps.c: before a command, after it, and back again. */
int steps_begin(desk *d, const char *line);
void steps_end(desk *d);
void steps_undo(desk *d);
void steps_free(desk *d);

/* The next card takes the place of the one at hand, which the step keeps. If it has as many blocks it is the same card in its
 * slot, with its bytes, and only map and catalogue are others. */
void steps_replace(desk *d, desk_card *next);

/* answer.c: prints what the call that is in d->said answered, and the card. */
void answer(desk *d);
void answer_payload(const uint8_t payload[PAGUNLIT_PAYLOAD], int dated);
void answer_dose(uint32_t hundredths);

/* A payload as a text, without the zeros behind it: what is no letter or sign as \xNN. At most DESK_TEXT bytes. */
enum { DESK_TEXT = 4 * PAGUNLIT_PAYLOAD + 1 };
void answer_text(const uint8_t *payload, size_t length, char text[DESK_TEXT]);

/* images.c: loads an image into a card of its size. */
void image_load(desk *d, const uint8_t *image, size_t imagelen);

/* power.c: after a call that was done, what is not saved, and what the rule for saving asks next. */
void power_note(desk *d);

/* picture.c: 0 if the file could not be written. */
int picture_write(desk *d, const char *file);

/* commands.c */
void command_run(desk *d, const char *line);

/* scripts.c: a line that was typed, or came from standard input; and all lines of a file, which are printed before they are
 * run. 0 if the file could not be read. */
void script_line(desk *d, const char *line);
int script_run(desk *d, const char *name);
void script_stream(desk *d, FILE *input, int is_script);

/* All memory that the console has, at its end. */
void desk_free(desk *d);

/* What stands before each line: who makes the calls, where it is not the pharmacist. The next call may change the text. */
const char *script_prompt(const desk *d);

/* A command: what it is called, its arguments, what it does, its function, and the call whose rows `help` lists, or CALLS. */
typedef struct {
    const char *name, *arguments, *text;
    void (*run)(desk *d, const desk_words *words);
    desk_call call;
} desk_command;

extern const desk_command commands[];

void command_help(desk *d, const desk_words *words);

/* Takes word i for a number. Says what is wrong, and gives 0, where it is none. */
int command_number(desk *d, const desk_words *words, int i, const char *name, uint32_t *number);

/* Says how the command is used. Gives 0. */
int command_usage(desk *d, const desk_words *words);

/* Builds the summary, where the calls are lent one: it is built once, after fresh or load, and kept by the calls. */
void build_where_kept(desk *d);

/* roles.c: who makes the calls, as "carer" or "role 7". The next call of it may change the text. */
const char *role_name(uint32_t role);

/* calls.c, payloads.c, images.c, power.c, roles.c, scripts.c, others.c, data.c: one function to a command. */
#define COMMAND(name) void command_##name(desk *d, const desk_words *words)
COMMAND(fresh);
COMMAND(search);
COMMAND(survey);
COMMAND(reserve);
COMMAND(offer);
COMMAND(accept);
COMMAND(grow);
COMMAND(complete);
COMMAND(pause);
COMMAND(resume);
COMMAND(release);
COMMAND(standing);
COMMAND(close);
COMMAND(put);
COMMAND(term);
COMMAND(count);
COMMAND(show);
COMMAND(summary);
COMMAND(limit);
COMMAND(role);
COMMAND(save);
COMMAND(load);
COMMAND(cut);
COMMAND(rule);
COMMAND(break);
COMMAND(card);
COMMAND(picture);
COMMAND(data);
COMMAND(why);
COMMAND(expect);
COMMAND(script);
COMMAND(history);
COMMAND(undo);
COMMAND(quit);

#endif
