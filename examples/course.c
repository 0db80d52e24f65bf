/*
 * A course of treatment, from an empty card on: the first page of the library's manual.
 *
 * The program keeps a card of 8 blocks and 4 sheets. After every call it prints which sheet holds each block of the
 * card ('.' is free), and what the call answered. Three things are to be seen in that column and in the answers,
 * whatever is called: a sheet with a blank place is neither completed, shown nor taken for a pause; each block has one
 * sheet at most; and a reserve is told that the card is full only when no run of free blocks is long enough. The calls are
 * the pharmacist's, but for some near the end. What a release or a closing leaves is saved before blocks are taken, where the
 * struct that holds the card says so.
 *
 *     examples/run        builds it, prints what it prints, and compares that with course.txt
 */
#include "calls.h"

/* A count of a payload, as a prescriber reads it: with two decimals, or absent, which is not 0. */
static void count(const uint8_t *payload, uint32_t which)
{
    pagunlit_count c = pagunlit_read_count(payload, PAGUNLIT_PAYLOAD_BYTES, which);

    printf("      count %u: ", which);
    if (c.number != 0)
        printf("refused, %u: %s\n", c.number, pagunlit_meaning(c.number));
    else if (c.hundredths == PAGUNLIT_COUNT_ABSENT)
        puts("absent");
    else
        printf("%u.%02u\n", c.hundredths / 100, c.hundredths % 100);
}

/* The doses of a day, as counts of a payload. */
static void doses(void)
{
    uint8_t payload[PAGUNLIT_PAYLOAD_BYTES] = {0};

    if (pagunlit_write_count(payload, sizeof payload, 0, 250) != PAGUNLIT_DONE ||
        pagunlit_write_count(payload, sizeof payload, 1, PAGUNLIT_COUNT_ABSENT) != PAGUNLIT_DONE)
        puts("      that is no count");
    printf("      2.50 tablets are the bytes %02X %02X %02X %02X\n", payload[0], payload[1], payload[2], payload[3]);
    count(payload, 0);
    count(payload, 1);
    count(payload, 2);
    payload[3] = 0x5A;
    count(payload, 0);
}

static void prescription(void)
{
    puts("An empty card: all blocks are free, all sheets Absent.");
    fresh();
    survey();

    puts("A prescription of three lines. Until all are there, it is Open: neither complete, nor shown, nor a pause.");
    reserve(0, 3);
    put(0, 0, "days 1 to 7: two tablets at 8, one at 20");
    put(0, 2, "from day 15 on: none");
    complete(0);
    show(0, 0);
    pause_sheet(0);
    put(0, 1, "days 8 to 14: one tablet at 8");
    complete(0);
    show(0, 1);

    puts("A pause is its own standing, without blocks.");
    pause_sheet(1);
    standings();
}

static void stopped_course(void)
{
    puts("A finished course is stopped and taken up again. It keeps its blocks, and nothing of it is shown meanwhile.");
    pause_sheet(0);
    standings();
    show(0, 1);
    resume(0);
    show(0, 1);

    puts("A pause without blocks has nothing to take up.");
    resume(1);
}

static void full_card(void)
{
    puts("The card fills up, and is called full when it is.");
    reserve(2, 5);
    survey();
    reserve(3, 1);

    puts("The first course is over: its blocks are free for the next, in which no old line passes for a new one.");
    release(0);
    reserve(3, 4);

    puts("The pharmacist chooses a length by what could be added to it later.");
    search(3);
    search(2);
    reserve(3, 2);
    put(3, 0, "days 1 to 3: one tablet at 8");
    complete(3);
    put(3, 1, "from day 4 on: none");
    complete(3);
    show(3, 0);
    standings();
    survey();
}

static void offers(void)
{
    pagunlit_outcome two, one;

    puts("A pharmacist sees where a sheet would go before agreeing. What another call takes meanwhile is not given twice.");
    release(3);
    two = offer(0, 2);
    one = offer(3, 1);
    reserve(3, 1);
    accept_offer(0, two);
    release(3);
    accept_offer(0, two);
    accept_offer(3, one);
    release(0);
    accept_offer(3, one);
}

static void power_cut(void)
{
    puts("Map and catalogue are saved, and loaded when the power is back. A damaged image is not taken for one.");
    save();
    forget();
    image[100] ^= 1;
    load();
    image[100] ^= 1;
    load();
    show(3, 1);
    survey();
}

static void kept_summary(void)
{
    puts("A summary beside the map says at once whether a run is long enough. Calls that are lent it keep it.");
    lend_summary();
    build_summary();
    read_summary();
    reserve(0, 3);
    read_summary();
    release(2);
    read_summary();
    reserve(0, 7);
    read_summary();

    puts("A call that is not lent it leaves it behind. An old summary can miss a run, so it is built again.");
    take_summary_back();
    release(0);
    lend_summary();
    reserve(0, 3);
    read_summary();
    build_summary();
    reserve(0, 3);
    read_summary();
    take_summary_back();
}

static void shared_card(void)
{
    puts("Wings share the card. Beyond its limit a wing gets nothing, though there are free blocks.");
    card.limits[0] = 5;
    reserve(2, 2);
    reserve(2, 1);
    release(2);
    card.limits[0] = UINT32_MAX;
}

static void closed_gaps(void)
{
    puts("Half the card is free, and a long sheet does not fit. Closing the gaps makes one run of what is free.");
    release(1);
    reserve(1, 2);
    reserve(2, 1);
    put(2, 0, "days 1 to 3: one tablet at 20");
    complete(2);
    release(0);
    survey();
    reserve(0, 4);
    close_gaps();
    save();
    survey();
    reserve(0, 4);
    show(2, 0);
    standings();
}

static void others(void)
{
    puts("The pharmacist prescribes a course from 29 February 2024 to 6 March.");
    release(0);
    reserve(0, 2);
    put_term(0, pagunlit_day_of_date(2024, 2, 29), pagunlit_day_of_date(2024, 3, 6));
    put(0, 1, "one tablet at 8");
    complete(0);
    release(3);

    puts("A carer reads: what holds on the day, and nothing before or after it. All else is turned away.");
    card.role = PAGUNLIT_CARER;
    show(0, 1);
    show_dated(0, 1, 2024, 2, 28);
    show_dated(0, 1, 2024, 2, 29);
    pause_sheet(0);

    puts("Service looks after the card, and reads no prescription.");
    card.role = PAGUNLIT_SERVICE;
    show_dated(0, 1, 2024, 2, 29);
    close_gaps();
    save();
    release(0);
    standings();

    puts("The carer finds the course where it is now.");
    card.role = PAGUNLIT_CARER;
    show_dated(0, 1, 2024, 3, 6);
    card.role = PAGUNLIT_PHARMACIST;
}

int main(void)
{
    lend();
    prescription();
    stopped_course();
    full_card();
    power_cut();
    offers();
    kept_summary();
    shared_card();
    closed_gaps();
    others();
    puts("Doses are counts with two decimals. None is not 0, and a digit that cannot be is refused.");
    doses();
    return 0;
}
