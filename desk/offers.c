/* The commands as a program offers them. Which roles may make a call is the library's answer on a card of no blocks: it turns a
 * role away before it looks at anything else, and refuses all others for the card's size. */
#include "data.h"

#include <stdio.h>

static pagunlit_outcome ask_blocks(pagunlit_card *card, desk_call call)
{
    switch (call) {
    case CALL_FRESH:
        return pagunlit_card_fresh(card, 0);
    case CALL_SEARCH:
        return pagunlit_card_search(card, 1);
    case CALL_SURVEY:
        return pagunlit_card_survey(card);
    case CALL_PLACED:
        return pagunlit_card_reserve_placed(card, 0, 1, 0, 1, 1);
    case CALL_OFFER:
        return pagunlit_card_offer(card, 0, 1);
    case CALL_ACCEPT:
        return pagunlit_card_accept(card, 0, 0, 1);
    case CALL_GROW:
        return pagunlit_card_grow(card, 0, 1);
    case CALL_CHECK:
        return pagunlit_card_summary_check(card);
    case CALL_CLOSE:
        return pagunlit_card_close(card);
    default:
        return pagunlit_card_reserve(card, 0, 1);
    }
}

static pagunlit_outcome ask_sheet(pagunlit_card *card, desk_call call)
{
    uint8_t bytes[PAGUNLIT_BLOCK] = {0};

    switch (call) {
    case CALL_PUT:
    case CALL_WRITE_COUNT:
        return pagunlit_card_put(card, 0, 0, bytes, PAGUNLIT_PAYLOAD);
    case CALL_COMPLETE:
        return pagunlit_card_complete(card, 0);
    case CALL_PAUSE:
        return pagunlit_card_pause(card, 0);
    case CALL_RESUME:
        return pagunlit_card_resume(card, 0);
    case CALL_RELEASE:
        return pagunlit_card_release(card, 0);
    case CALL_STANDING:
        return pagunlit_card_standing(card, 0);
    case CALL_DATED:
        return pagunlit_card_show_dated(card, 0, 0, 2026, 1, 1, bytes, PAGUNLIT_PAYLOAD);
    case CALL_SAVE:
        return pagunlit_card_save(card, bytes, sizeof bytes);
    case CALL_LOAD:
        return pagunlit_card_load(card, bytes, sizeof bytes);
    default:
        return ask_blocks(card, call);
    }
}

static void print_roles(pagunlit_card *empty, desk_call call)
{
    const char *comma = "";

    printf("\"roles\":[");
    for (empty->role = PAGUNLIT_PHARMACIST; empty->role <= PAGUNLIT_SERVICE; empty->role++)
        if (ask_sheet(empty, call).number != PAGUNLIT_TURNED_AWAY) {
            printf("%s%u", comma, empty->role);
            comma = ",";
        }
    putchar(']');
}

static void print_rows(desk_call call)
{
    const char *comma = "";

    printf("\"rows\":[");
    for (const desk_row *row = rows_of(call); *row != NO_ROW; row++) {
        printf("%s[%u,", comma, rows_number(*row));
        data_text(rows_sentence(*row));
        putchar(']');
        comma = ",";
    }
    printf("],");
}

static void print_command(const desk_command *command, pagunlit_card *empty)
{
    const char *const texts[] = {"{\"name\":", command->name, ",\"arguments\":", command->arguments, ",\"text\":",
                                 command->text};

    for (int i = 0; i < 6; i += 2) {
        fputs(texts[i], stdout);
        data_text(texts[i + 1]);
    }
    if (command->call != CALLS) {
        putchar(',');
        print_rows(command->call);
        print_roles(empty, command->call);
    }
    putchar('}');
}

void data_commands(void)
{
    desk_card empty;

    if (!card_make(&empty, 0, 0)) {
        puts("{}");
        return;
    }
    card_lend_summary(&empty, 1);
    printf("{\"roles\":[");
    for (uint32_t role = PAGUNLIT_PHARMACIST; role <= PAGUNLIT_SERVICE; role++) {
        printf(role == PAGUNLIT_PHARMACIST ? "" : ",");
        data_text(role_name(role));
    }
    printf("],\"commands\":[");
    for (const desk_command *command = commands; command->name; command++) {
        printf(command == commands ? "" : ",");
        print_command(command, &empty.lent);
    }
    puts("]}");
    card_free(&empty);
}
