/* Holds the library to the rules of a wait, [5.40] and [5.75] to [5.90], one by one and with numbers: what is unused time, whose it is,
 * what ends it, and which numbers a summary may hold. */
#include "checks.h"
#include "funnelfawn.h"

#include <string.h>

#define END UINT64_C(1000000000000)

static uint64_t table[FUNNELFAWN_TABLE_LENGTH], summary[FUNNELFAWN_SUMMARY_LENGTH], board[FUNNELFAWN_BOARD_LENGTH];

/* Of n windows, up to 8, with a = 80, b = 90 and c = 100. */
static void start(size_t n)
{
    static const uint64_t a[] = {80, 80, 80, 80, 80, 80, 80, 80};

    CHECK(funnelfawn_fresh(n, 90, 100, a, n, table, FUNNELFAWN_TABLE_LENGTH).number == FUNNELFAWN_OK);
    CHECK(funnelfawn_new_summary(summary, FUNNELFAWN_SUMMARY_LENGTH).number == FUNNELFAWN_OK);
    CHECK(funnelfawn_set_up_board(UINT64_C(1000000000), board, FUNNELFAWN_BOARD_LENGTH).number == FUNNELFAWN_OK);
}

static uint64_t record(uint64_t act, uint64_t window, uint64_t moment)
{
    return funnelfawn_record(table, FUNNELFAWN_TABLE_LENGTH, summary, FUNNELFAWN_SUMMARY_LENGTH, act, window, moment).number;
}

/* An accepted crit: the board is told of it, and counts so many entries with this longest wait. */
static int lets_in(uint64_t window, uint64_t moment, uint64_t entries, uint64_t wait)
{
    struct funnelfawn_told told =
        funnelfawn_record_and_tell(table, FUNNELFAWN_TABLE_LENGTH, summary, FUNNELFAWN_SUMMARY_LENGTH, board, FUNNELFAWN_BOARD_LENGTH,
                                   FUNNELFAWN_ACT_CRIT, window, moment);

    return told.step.number == FUNNELFAWN_OK && told.board.number == FUNNELFAWN_OK && told.board.window == entries &&
           told.board.moment == wait;
}

static uint64_t *waited(size_t window)
{
    return &summary[FUNNELFAWN_AT_WAITED + window - 1];
}

static uint64_t longest(void)
{
    return summary[FUNNELFAWN_AT_LONGEST_WAIT];
}

/* By hand, so that tables are met here which no list of acts leads to. */
static void put(size_t window, uint64_t place, uint64_t arrival)
{
    uint64_t *entry = table + FUNNELFAWN_HEADER_LENGTH + FUNNELFAWN_STRIDE * (window - 1);

    entry[0] = place, entry[1] = arrival;
}

/* Windows 1 to 8 are in the eight places, in the order of their numbers, the timed ones since 50, which is the clock; and every window of
 * the summary has waited 7, those past n = 8 too. Window 6 is the one that sells. */
static void start_everywhere(void)
{
    start(8);
    table[FUNNELFAWN_AT_CLOCK] = 50;
    for (size_t window = 1; window <= 8; window++)
        put(window, window - 1, window == 1 || window == 6 ? 0 : 50);
    for (size_t window = 1; window <= FUNNELFAWN_WINDOWS; window++)
        *waited(window) = 7;
}

/* How many windows have waited so long. */
static size_t have_waited(uint64_t wait)
{
    size_t count = 0;

    for (size_t window = 1; window <= FUNNELFAWN_WINDOWS; window++)
        count += *waited(window) == wait;
    return count;
}

/* Every accepted act that moves the clock adds to the wait, be it of the waiting window, of another, or a wait; one that does not move it
 * adds nothing, and a refused one neither. */
static void unused_time(void)
{
    start(3);
    CHECK(record(FUNNELFAWN_ACT_TRY, 1, 10) == FUNNELFAWN_OK && *waited(1) == 0);
    CHECK(record(FUNNELFAWN_ACT_TEST, 1, 12) == FUNNELFAWN_OK && *waited(1) == 2);
    CHECK(record(FUNNELFAWN_ACT_TRY, 3, 15) == FUNNELFAWN_OK && *waited(1) == 5 && *waited(3) == 0);
    CHECK(record(FUNNELFAWN_ACT_WAIT, 0, 16) == FUNNELFAWN_OK && *waited(1) == 6 && *waited(3) == 1);
    CHECK(record(FUNNELFAWN_ACT_WAIT, 0, 16) == FUNNELFAWN_OK && *waited(1) == 6 && *waited(3) == 1);
    CHECK(record(FUNNELFAWN_ACT_SET, 3, 20) == FUNNELFAWN_REFUSED_OUT_OF_PLACE && *waited(1) == 6 && *waited(3) == 1);
    CHECK(record(FUNNELFAWN_ACT_SET, 1, 20) == FUNNELFAWN_OK && *waited(1) == 10 && *waited(3) == 5);
    CHECK(*waited(2) == 0 && longest() == 0);
}

/* Window 2 tries at 100 and is let in at 1,000; in between window 1 sells from 150 to 900. Its wait is 50 + 100, and not 900. The advance
 * up to the crit at 150 counts, as nobody sold before it, and that up to the exit at 900 does not; the last 5 are of window 2's own crit. */
static void another_sells(void)
{
    start(2);
    CHECK(record(FUNNELFAWN_ACT_TRY, 1, 20) == FUNNELFAWN_OK && record(FUNNELFAWN_ACT_TEST, 1, 30) == FUNNELFAWN_OK);
    CHECK(record(FUNNELFAWN_ACT_SET, 1, 40) == FUNNELFAWN_OK && record(FUNNELFAWN_ACT_TRY, 2, 100) == FUNNELFAWN_OK);
    CHECK(record(FUNNELFAWN_ACT_CHECK, 1, 130) == FUNNELFAWN_OK && *waited(1) == 110 && *waited(2) == 30);
    CHECK(lets_in(1, 150, 1, 130) && *waited(1) == 0 && *waited(2) == 50 && longest() == 130);
    for (uint64_t moment = 180; moment <= 820; moment += 80)
        CHECK(record(FUNNELFAWN_ACT_TEST, 2, moment) == FUNNELFAWN_OK && *waited(2) == 50);
    CHECK(record(FUNNELFAWN_ACT_EXIT, 1, 900) == FUNNELFAWN_OK && *waited(1) == 0 && *waited(2) == 50);
    CHECK(record(FUNNELFAWN_ACT_RESET, 1, 900) == FUNNELFAWN_OK && record(FUNNELFAWN_ACT_TEST, 2, 900) == FUNNELFAWN_OK);
    CHECK(record(FUNNELFAWN_ACT_SET, 2, 905) == FUNNELFAWN_OK && *waited(2) == 55);
    CHECK(record(FUNNELFAWN_ACT_REM, 1, 910) == FUNNELFAWN_OK && *waited(1) == 0 && *waited(2) == 60);
    CHECK(record(FUNNELFAWN_ACT_CHECK, 2, 995) == FUNNELFAWN_OK && *waited(2) == 145 && longest() == 130);
    CHECK(lets_in(2, 1000, 2, 150) && *waited(2) == 0 && longest() == 150);
}

/* Who tries before an act has waited through it: one that comes by the act has not, and one that goes on by it has. */
static void not_trying(void)
{
    start_everywhere();
    put(6, FUNNELFAWN_PLACE_REMAINDER, 0);
    CHECK(record(FUNNELFAWN_ACT_WAIT, 0, 53) == FUNNELFAWN_OK);
    CHECK(*waited(2) == 10 && *waited(3) == 10 && *waited(4) == 10 && *waited(5) == 10);
    CHECK(have_waited(10) == 4 && have_waited(7) == FUNNELFAWN_WINDOWS - 4);
    CHECK(record(FUNNELFAWN_ACT_TRY, 1, 55) == FUNNELFAWN_OK && *waited(1) == 0);
    CHECK(have_waited(12) == 4 && have_waited(7) == FUNNELFAWN_WINDOWS - 5);
}

/* While a window sells nobody adds, whoever acts: neither at its exit, nor at a crit beside it, which no list of acts leads to. Nor with
 * two that sell, of which one exits; from the exit of the last one on it is unused time again. */
static void while_one_sells(void)
{
    start_everywhere();
    CHECK(record(FUNNELFAWN_ACT_WAIT, 0, 60) == FUNNELFAWN_OK && have_waited(7) == FUNNELFAWN_WINDOWS);
    CHECK(lets_in(5, 70, 1, 7) && longest() == 7 && *waited(5) == 0);
    CHECK(record(FUNNELFAWN_ACT_EXIT, 5, 80) == FUNNELFAWN_OK && record(FUNNELFAWN_ACT_EXIT, 6, 90) == FUNNELFAWN_OK);
    CHECK(have_waited(7) == FUNNELFAWN_WINDOWS - 1);
    CHECK(record(FUNNELFAWN_ACT_WAIT, 0, 100) == FUNNELFAWN_OK);
    CHECK(*waited(2) == 17 && *waited(3) == 17 && *waited(4) == 17 && have_waited(17) == 3);
    CHECK(longest() == 7);
}

/* A try, a crit and a withdraw leave the number of their window 0, whatever it was. A crit ends a wait, its own advance included; and only
 * a longer one takes the place of the longest. */
static void what_ends_a_wait(void)
{
    start_everywhere();
    put(6, FUNNELFAWN_PLACE_REMAINDER, 0);
    summary[FUNNELFAWN_AT_LONGEST_WAIT] = 10;
    CHECK(record(FUNNELFAWN_ACT_WITHDRAW, 2, 54) == FUNNELFAWN_OK && *waited(2) == 0 && *waited(5) == 11 && longest() == 10);
    CHECK(record(FUNNELFAWN_ACT_TRY, 1, 54) == FUNNELFAWN_OK && *waited(1) == 0 && longest() == 10);
    CHECK(lets_in(5, 56, 1, 13) && *waited(5) == 0 && *waited(1) == 2 && longest() == 13);
    put(5, FUNNELFAWN_PLACE_ENTERING, 56);
    CHECK(lets_in(5, 69, 2, 13) && longest() == 13);
    put(5, FUNNELFAWN_PLACE_ENTERING, 69);
    CHECK(lets_in(5, 83, 3, 14) && longest() == 14);
    put(5, FUNNELFAWN_PLACE_ENTERING, 83);
    CHECK(lets_in(5, 84, 4, 14) && longest() == 14);
    CHECK(summary[FUNNELFAWN_AT_ENTRIES] == 4 && summary[FUNNELFAWN_AT_EXITS] == 0);
}

/* Each of the 96 numbers may be the clock, and none of them more, be its window trying or not, of the table or past n. */
static void at_most_the_clock(void)
{
    for (size_t window = 1; window <= FUNNELFAWN_WINDOWS; window++) {
        uint64_t before[FUNNELFAWN_SUMMARY_LENGTH];

        start_everywhere();
        *waited(window) = 51;
        memcpy(before, summary, sizeof before);
        CHECK(record(FUNNELFAWN_ACT_WAIT, 0, 60) == FUNNELFAWN_REFUSED_NO_SUMMARY);
        CHECK(memcmp(before, summary, sizeof before) == 0 && table[FUNNELFAWN_AT_CLOCK] == 50);
        *waited(window) = 50;
        CHECK(record(FUNNELFAWN_ACT_WAIT, 0, 60) == FUNNELFAWN_OK && *waited(window) == 50);
    }
}

/* A sound summary stays sound: a number that is the clock is the clock still after each act that adds to it, up to the clock's end; and so
 * long a wait is none that the summary, or the board, refuses. */
static void stays_sound(void)
{
    start(1);
    table[FUNNELFAWN_AT_CLOCK] = END - 3;
    put(1, FUNNELFAWN_PLACE_ENTERING, END - 3);
    for (size_t window = 1; window <= FUNNELFAWN_WINDOWS; window++)
        *waited(window) = END - 3;
    CHECK(record(FUNNELFAWN_ACT_WAIT, 0, END - 2) == FUNNELFAWN_OK && *waited(1) == END - 2 && *waited(2) == END - 3);
    CHECK(record(FUNNELFAWN_ACT_WAIT, 0, END - 1) == FUNNELFAWN_OK && *waited(1) == END - 1);
    CHECK(lets_in(1, END, 1, END) && longest() == END && *waited(1) == 0);
    CHECK(record(FUNNELFAWN_ACT_EXIT, 1, END) == FUNNELFAWN_OK && summary[FUNNELFAWN_AT_ACCEPTED] == 4);
}

int main(void)
{
    CHECK(funnelfawn_layout() == FUNNELFAWN_LAYOUT);
    unused_time();
    another_sells();
    not_trying();
    while_one_sells();
    what_ends_a_wait();
    at_most_the_clock();
    stays_sound();
    return say_checks("waits");
}
