/* Calls every function through the headers, with arguments that all differ, and prints what came back and what was changed.
 * tests/header/src/calls.rs works the same calls out by the card of tests/src, bit by bit, and compares line by line; which
 * calls the first five parts make, it is told by the names: the call, its sheet and its number, or the role of those that
 * follow. */
#include "lent.h"

/* From a fresh card to a saved one. */
static void course(void)
{
    told("fresh 70", pagunlit_fresh(role, shape, N, map, W, catalogue, C));
    reserve("reserve 2 3", 2, 3);
    reserve("reserve 1 5", 1, 5);
    grow("grow 1 2", 1, 2);
    search("search 9", 9);
    survey("survey");
    put("put 1 6", 1, 6);
    put_term("put-term 2 0 8825 8831", 2, 0, 8825, 8831);
    put("put 2 1", 2, 1);
    complete("complete 2", 2);
    put("put 2 2", 2, 2);
    complete("complete 2 again", 2);
    show("show 2 1", 2, 1);
    show_dated("show-dated 2 1 2024 3 6", 2, 1, 2024, 3, 6);
    show_dated("show-dated 2 0 2024 2 29", 2, 0, 2024, 2, 29);
    show_dated("show-dated 2 1 2024 3 7", 2, 1, 2024, 3, 7);
    show_dated("show-dated 2 1 2024 2 28", 2, 1, 2024, 2, 28);
    show_dated("show-dated 2 1 2023 2 29", 2, 1, 2023, 2, 29);
    show_dated("show-dated 2 3 2023 2 29", 2, 3, 2023, 2, 29);
    told("pause course 2", pagunlit_pause(role, shape, map, W, catalogue, C, 2));
    show("show paused 2 1", 2, 1);
    told("resume 2", pagunlit_resume(role, shape, map, W, catalogue, C, 2));
    show("show again 2 1", 2, 1);
    standing("standing 1", 1);
    standing("standing 2", 2);
    told("pause 0", pagunlit_pause(role, shape, map, W, catalogue, C, 0));
    grow("grow 2 1", 2, 1);
    told("release 2", pagunlit_release(role, shape, map, W, catalogue, C, 2));
    search("search 2", 2);
    reserve_placed("reserve-placed 2 4 21 66 7", 2, 4, 21, 66, 7);
    told("release placed 2", pagunlit_release(role, shape, map, W, catalogue, C, 2));
    offer("offer 2 4", 2, 4);
    take("accept 2 15 6", 2, 15, 6);
    told("release accepted 2", pagunlit_release(role, shape, map, W, catalogue, C, 2));
    survey("survey again");
    save("save", sizeof image);
    printf("head\t%u %u\n", pagunlit_image_blocks(image, sizeof image), pagunlit_image_sheets(image, sizeof image));
}

/* A summary beside the map, built and kept; then one that another call has left behind, whose group 0 says that the card is
 * full. */
static void with_summary(void)
{
    check_summary("summary-check");
    build("summary-build short", NUMBERS - 1);
    build("summary-build", NUMBERS);
    reserve_with_summary("summary-reserve 2 4", 2, 4);
    check_summary("summary-check again");
    grow_with_summary("summary-grow 2 1", 2, 1);
    release_with_summary("summary-release 2", 2);
    reserve_placed_with_summary("summary-placed 2 4 21 66 7", 2, 4, 21, 66, 7);
    release_with_summary("summary-release placed 2", 2);
    take_with_summary("summary-accept 2 60 9", 2, 60, 9);
    check_summary("summary-check accepted");
    reserve_with_summary("summary-reserve 0 5", 0, 5);
    take_with_summary("summary-accept 1 1 2", 1, 1, 2);
    grow_with_summary("summary-grow 2 7", 2, 7);
    reserve_placed_with_summary("summary-placed 3 4 21 66 7", 3, 4, 21, 66, 7);
    release_with_summary("summary-release accepted 2", 2);
    take_with_summary("summary-accept full 2 10 60", 2, 10, 60);
    told("release full 2", pagunlit_release(role, shape, map, W, catalogue, C, 2));
    reserve_with_summary("summary-reserve full 2 10", 2, 10);
    check_summary("summary-check full");
}

/* The other refusals, by a state that is sound. */
static void refusals(void)
{
    search("search 61", 61);
    search("search 0", 0);
    standing("standing 3", 3);
    put("put 0 0", 0, 0);
    put("put 1 7", 1, 7);
    complete("complete absent 2", 2);
    reserve_placed("reserve-placed 2 9 58 66 1", 2, 9, 58, 66, 1);
    reserve_placed("reserve-placed 2 1 3 71 2", 2, 1, 3, 71, 2);
    reserve_placed("reserve-placed 2 1 9 8 2", 2, 1, 9, 8, 2);
    reserve_placed("reserve-placed 2 1 9 60 0", 2, 1, 9, 60, 0);
    reserve_placed("reserve-placed 2 0 9 60 0", 2, 0, 9, 60, 0);
    offer("offer 2 61", 2, 61);
    offer("offer 0 61", 0, 61);
    take("accept 2 9 3", 2, 9, 3);
    take("accept 2 68 3", 2, 68, 3);
    take("accept 2 4294967290 7", 2, 4294967290u, 7);
    take("accept 2 9 0", 2, 9, 0);
    told("resume 0", pagunlit_resume(role, shape, map, W, catalogue, C, 0));
    told("resume 1", pagunlit_resume(role, shape, map, W, catalogue, C, 1));
    told("pause 1", pagunlit_pause(role, shape, map, W, catalogue, C, 1));
    grow("grow 1 61", 1, 61);
    limit("limit 10", 10);
    reserve("reserve limit 2 4", 2, 4);
    reserve_placed("reserve-placed limit 2 4 21 66 7", 2, 4, 21, 66, 7);
    offer("offer limit 2 4", 2, 4);
    offer("offer limit 2 3", 2, 3);
    take("accept limit 2 15 6", 2, 15, 6);
    grow("grow limit 1 4", 1, 4);
    limit("limit 70", 70);
    save("save short", sizeof image - 1);
}

/* Gaps before and between two sheets, closed; then a gap again, closed with a summary that is an old one. */
static void closings(void)
{
    take("accept gap 2 60 9", 2, 60, 9);
    close_gaps("close 1", S - 1);
    close_gaps("close 2", S);
    told("release 1", pagunlit_release(role, shape, map, W, catalogue, C, 1));
    close_gaps_with_summary("summary-close 1", S - 1);
    close_gaps_with_summary("summary-close 2", S);
    check_summary("summary-check closed");
    reserve("reserve closed 1 61", 1, 61);
}

/* All calls that a carer may not make; sheet 1 is Open, sheet 2 Complete. */
static void turned_away(void)
{
    told("fresh turned 70", pagunlit_fresh(role, shape, N, map, W, catalogue, C));
    search("search turned 1", 1);
    reserve("reserve turned 0 1", 0, 1);
    reserve_placed("reserve-placed turned 0 1 2 68 3", 0, 1, 2, 68, 3);
    offer("offer turned 0 1", 0, 1);
    take("accept turned 0 69 1", 0, 69, 1);
    grow("grow turned 1 1", 1, 1);
    put("put turned 1 0", 1, 0);
    complete("complete turned 1", 1);
    told("pause turned 2", pagunlit_pause(role, shape, map, W, catalogue, C, 2));
    told("resume turned 2", pagunlit_resume(role, shape, map, W, catalogue, C, 2));
    told("release turned 2", pagunlit_release(role, shape, map, W, catalogue, C, 2));
    show("show turned 2 0", 2, 0);
    build("summary-build turned", NUMBERS);
    check_summary("summary-check turned");
    reserve_with_summary("summary-reserve turned 0 1", 0, 1);
    reserve_placed_with_summary("summary-placed turned 0 1 2 68 3", 0, 1, 2, 68, 3);
    take_with_summary("summary-accept turned 0 69 1", 0, 69, 1);
    grow_with_summary("summary-grow turned 1 1", 1, 1);
    release_with_summary("summary-release turned 2", 2);
    close_gaps("close turned 2", S);
    close_gaps_with_summary("summary-close turned 2", S);
    save("save turned", sizeof image);
    load("load turned");
}

/* What each role may do, and may not; what follows is done by the service. */
static void roles(void)
{
    build("summary-build for roles", NUMBERS);
    release_with_summary("summary-release for roles 2", 2);
    reserve("reserve for roles 2 1", 2, 1);
    put_term("put-term 2 0 8825 8831", 2, 0, 8825, 8831);
    complete("complete for roles 2", 2);
    by_role("role 2", PAGUNLIT_CARER);
    turned_away();
    show_dated("show-dated carer 2 0 2024 2 29", 2, 0, 2024, 2, 29);
    show_dated("show-dated carer 2 0 2024 2 28", 2, 0, 2024, 2, 28);
    standing("standing carer 2", 2);
    survey("survey carer");
    by_role("role 3", PAGUNLIT_SERVICE);
    show_dated("show-dated service 2 0 2024 2 29", 2, 0, 2024, 2, 29);
    put("put service 1 0", 1, 0);
    close_gaps("close service 2", S);
    close_gaps_with_summary("summary-close service 2", S);
    standing("standing service 2", 2);
    survey("survey service");
    by_role("role 0", 0);
    standing("standing unknown 2", 2);
    survey("survey unknown");
    by_role("role 4", 4);
    show_dated("show-dated unknown 2 0 2024 2 29", 2, 0, 2024, 2, 29);
    by_role("role 4294967295", UINT32_MAX);
    turned_away();
    by_role("role 3 again", PAGUNLIT_SERVICE);
    told("fresh service 70", pagunlit_fresh(role, shape, N, map, W, catalogue, C));
}

/* A damaged image, one that asks for no sheets, and the saved one; then an entry that cannot be. */
static void images(void)
{
    uint8_t payload[PAGUNLIT_PAYLOAD];

    disorder();
    image[100] ^= 1;
    load("load damaged");
    image[100] ^= 1;
    memcpy(payload, image + 8, sizeof payload);
    payload[11] = 0;
    printf("seal no sheets\t%u\n", seal(0, 1, payload, sizeof payload, image, sizeof image));
    load("load no sheets");
    payload[11] = C;
    printf("seal sheets\t%u\n", seal(0, 1, payload, sizeof payload, image, sizeof image));
    load("load");
    catalogue[1].mark = 0;
    standing("standing damaged 1", 1);
    save("save damaged", sizeof image);
    shape.free = N + 1;
    survey("survey free above n");
}

/* Single blocks: a sheet and a place all of whose bytes differ. */
static void blocks(void)
{
    uint8_t block[PAGUNLIT_BLOCK];

    fill(slice, sizeof slice, 77);
    printf("seal\t%u", seal(0x01020304, 0x05060708, slice, sizeof slice, block, sizeof block));
    printf(" block %016" PRIx64 "\n", number_of(block, sizeof block));
    printf("check\t%u\n", check(block, sizeof block));
    block[300] ^= 64;
    printf("check damaged\t%u\n", check(block, sizeof block));
    printf("check short\t%u\n", check(block, sizeof block - 1));
    printf("seal short payload\t%u\n", seal(1, 2, slice, sizeof slice - 1, block, sizeof block));
    printf("seal short block\t%u\n", seal(1, 2, slice, sizeof slice, block, sizeof block - 1));
}

/* Dose counts, in a payload whose bytes all count: 1,234.56 as the last count, then absent, then a digit that cannot be; and a
 * term in place of its counts 0 and 1. */
static void doses(void)
{
    pagunlit_count count;
    uint32_t number;

    memset(slice, 0x11, sizeof slice);
    number = pagunlit_write_count(slice, sizeof slice, 123, 123456);
    printf("write count\t%u slice %016" PRIx64 "\n", number, number_of(slice, sizeof slice));
    count = pagunlit_read_count(slice, sizeof slice, 123);
    printf("read count\t%u %u\n", count.number, count.hundredths);
    printf("write absent\t%u\n", pagunlit_write_count(slice, sizeof slice, 1, PAGUNLIT_COUNT_ABSENT));
    count = pagunlit_read_count(slice, sizeof slice, 1);
    printf("read absent\t%u %u\n", count.number, count.hundredths);
    slice[8] = 0x1A;
    count = pagunlit_read_count(slice, sizeof slice, 2);
    printf("read digit\t%u %u\n", count.number, count.hundredths);
    printf("write short\t%u\n", pagunlit_write_count(slice, sizeof slice - 1, 124, 1));
    number = pagunlit_write_term(slice, sizeof slice, 8825, 36524);
    printf("write term\t%u slice %016" PRIx64 "\n", number, number_of(slice, sizeof slice));
    printf("write short term\t%u\n", pagunlit_write_term(slice, sizeof slice - 1, 1, 2));
}

/* The calendar of terms: a leap day, its number again, the ends of the span, and what is no day of it. */
static void day(const char *call, pagunlit_day d)
{
    printf("%s\t%u days %u date %u %u %u\n", call, d.number, d.days, d.year, d.month, d.day);
}

static void days(void)
{
    day("day of 2024 2 29", pagunlit_day_of_date(2024, 2, 29));
    day("day of 2023 2 29", pagunlit_day_of_date(2023, 2, 29));
    day("day of 2077 7 8", pagunlit_day_of_date(2077, 7, 8));
    day("day of 2100 1 1", pagunlit_day_of_date(2100, 1, 1));
    day("date of 0", pagunlit_day_of_number(0));
    day("date of 8825", pagunlit_day_of_number(8825));
    day("date of 28313", pagunlit_day_of_number(28313));
    day("date of 36524", pagunlit_day_of_number(36524));
    day("date of 36525", pagunlit_day_of_number(36525));
}

int main(void)
{
    fill(card, sizeof card, 5);
    fill(image, sizeof image, 6);
    disorder();
    course();
    with_summary();
    refusals();
    closings();
    roles();
    images();
    blocks();
    doses();
    days();
    puts("end");
    return 0;
}
