/* Holds include/funnelfawn.h to the library: every constant of the header is met here in what a call gives back.
 * The rules of waits have a program of their own, waits.c. */
#include "checks.h"
#include "funnelfawn.h"

#include <stddef.h>
#include <string.h>

static uint64_t table[FUNNELFAWN_TABLE_LENGTH];
static uint64_t deadlines[FUNNELFAWN_DEADLINES_LENGTH];
static uint64_t summary[FUNNELFAWN_SUMMARY_LENGTH];
static uint64_t board[FUNNELFAWN_BOARD_LENGTH];
static uint8_t text[FUNNELFAWN_MOST_TEXT + 1];
static uint8_t report[FUNNELFAWN_MOST_REPORT];
static uint64_t read_a[FUNNELFAWN_WINDOWS + 1];
static uint64_t moments[FUNNELFAWN_MOST_STEPS], windows[FUNNELFAWN_MOST_STEPS], acts[FUNNELFAWN_MOST_STEPS];

/* An a of 5 for every window. */
static uint64_t fives[FUNNELFAWN_WINDOWS];

/* What stands where a call writes nothing. */
enum { FILLED = 7777 };

static uint64_t step(uint64_t act, uint64_t window, uint64_t moment)
{
    return funnelfawn_step(table, FUNNELFAWN_TABLE_LENGTH, act, window, moment).number;
}

static uint64_t record(uint64_t act, uint64_t window, uint64_t moment)
{
    return funnelfawn_record(table, FUNNELFAWN_TABLE_LENGTH, summary, FUNNELFAWN_SUMMARY_LENGTH, act, window, moment).number;
}

static struct funnelfawn_answer add(uint64_t moment, uint64_t window, uint64_t wait)
{
    return funnelfawn_add_to_board(board, FUNNELFAWN_BOARD_LENGTH, moment, window, wait);
}

static struct funnelfawn_answer show(uint64_t clock)
{
    return funnelfawn_show_board(board, FUNNELFAWN_BOARD_LENGTH, clock);
}

static struct funnelfawn_told tell(uint64_t act, uint64_t window, uint64_t moment)
{
    return funnelfawn_record_and_tell(table, FUNNELFAWN_TABLE_LENGTH, summary, FUNNELFAWN_SUMMARY_LENGTH, board, FUNNELFAWN_BOARD_LENGTH,
                                      act, window, moment);
}

static struct funnelfawn_answer step_deadlines(uint64_t act, uint64_t window, uint64_t moment)
{
    return funnelfawn_step_deadlines(deadlines, FUNNELFAWN_DEADLINES_LENGTH, act, window, moment);
}

static int says(struct funnelfawn_answer answer, uint64_t number, uint64_t window, uint64_t moment)
{
    return answer.number == number && answer.window == window && answer.moment == moment;
}

/* The bytes start as told. */
static int starts(const uint8_t *bytes, const char *words)
{
    return memcmp(bytes, words, strlen(words)) == 0;
}

static void fill(void)
{
    memset(report, '#', sizeof report);
}

/* Since fill, nothing was written to the report from this place on. */
static int is_filled(size_t from)
{
    while (from < sizeof report && report[from] == '#')
        from++;
    return from == sizeof report;
}

static void start(void)
{
    CHECK(funnelfawn_fresh(96, 8, 12, fives, 96, table, FUNNELFAWN_TABLE_LENGTH).number == FUNNELFAWN_OK);
    CHECK(funnelfawn_new_summary(summary, FUNNELFAWN_SUMMARY_LENGTH).number == FUNNELFAWN_OK);
}

/* The lists below are those of this layout: it is another one as soon as a length or a place of them changes, or what a number means. */
static void layout(void)
{
    CHECK(funnelfawn_layout() == FUNNELFAWN_LAYOUT && FUNNELFAWN_LAYOUT == 3);
    CHECK(FUNNELFAWN_TABLE_LENGTH == 293 && FUNNELFAWN_SUMMARY_LENGTH == 101 && FUNNELFAWN_BOARD_LENGTH == 3076);
    CHECK(FUNNELFAWN_DEADLINES_LENGTH == 389 && FUNNELFAWN_HEADER_LENGTH == 101 && FUNNELFAWN_AT_LIMITS == 5);
}

/* Window 96 goes once round: the acts, the places and where each number stands. */
static void round_of_96(void)
{
    static const struct { uint64_t act, moment, place, arrival, word, waited; } turns[] = {
        {FUNNELFAWN_ACT_TRY, 2, FUNNELFAWN_PLACE_TESTING, 2, 0, 0},      {FUNNELFAWN_ACT_TEST, 3, FUNNELFAWN_PLACE_SETTING, 3, 0, 1},
        {FUNNELFAWN_ACT_SET, 4, FUNNELFAWN_PLACE_CHECKING, 4, 96, 2},    {FUNNELFAWN_ACT_CHECK, 12, FUNNELFAWN_PLACE_ENTERING, 12, 96, 10},
        {FUNNELFAWN_ACT_CRIT, 13, FUNNELFAWN_PLACE_SELLING, 0, 96, 0},   {FUNNELFAWN_ACT_EXIT, 14, FUNNELFAWN_PLACE_RESETTING, 14, 96, 0},
        {FUNNELFAWN_ACT_RESET, 15, FUNNELFAWN_PLACE_LEAVING, 15, 0, 0},  {FUNNELFAWN_ACT_REM, 16, FUNNELFAWN_PLACE_REMAINDER, 0, 0, 0},
        {FUNNELFAWN_ACT_TRY, 17, FUNNELFAWN_PLACE_TESTING, 17, 0, 0},    {FUNNELFAWN_ACT_TEST, 20, FUNNELFAWN_PLACE_SETTING, 20, 0, 3},
    };
    const size_t entry = FUNNELFAWN_HEADER_LENGTH + FUNNELFAWN_STRIDE * (96 - 1);

    start();
    CHECK(table[FUNNELFAWN_AT_N] == 96 && table[FUNNELFAWN_AT_B] == 8 && table[FUNNELFAWN_AT_C] == 12);
    CHECK(memcmp(table + FUNNELFAWN_AT_LIMITS, fives, sizeof fives) == 0 && table[FUNNELFAWN_HEADER_LENGTH - 1] == 5);
    for (size_t i = 0; i < sizeof turns / sizeof turns[0]; i++) {
        CHECK(record(turns[i].act, FUNNELFAWN_WINDOWS, turns[i].moment) == FUNNELFAWN_OK);
        CHECK(table[FUNNELFAWN_AT_CLOCK] == turns[i].moment && table[FUNNELFAWN_AT_WORD] == turns[i].word);
        CHECK(table[entry] == turns[i].place && table[entry + 1] == turns[i].arrival);
        CHECK(summary[FUNNELFAWN_AT_WAITED + 96 - 1] == turns[i].waited);
    }
    CHECK(entry + FUNNELFAWN_STRIDE == FUNNELFAWN_TABLE_LENGTH && FUNNELFAWN_AT_WAITED + 96 == FUNNELFAWN_SUMMARY_LENGTH);
    CHECK(record(FUNNELFAWN_ACT_WAIT, 1, 20) == FUNNELFAWN_REFUSED_NO_WINDOW);
    CHECK(summary[FUNNELFAWN_AT_ACCEPTED] == 10 && summary[FUNNELFAWN_AT_REFUSED] == 1 && summary[FUNNELFAWN_AT_ENTRIES] == 1);
    CHECK(summary[FUNNELFAWN_AT_EXITS] == 1 && summary[FUNNELFAWN_AT_LONGEST_WAIT] == 11);
}

/* Window 96 withdraws while window 3 has the word, which stays; what window 96 has waited does not. */
static void withdrawal(void)
{
    const size_t entry = FUNNELFAWN_HEADER_LENGTH + FUNNELFAWN_STRIDE * (96 - 1);

    start();
    CHECK(record(FUNNELFAWN_ACT_TRY, 3, 1) == FUNNELFAWN_OK && record(FUNNELFAWN_ACT_TEST, 3, 2) == FUNNELFAWN_OK);
    CHECK(record(FUNNELFAWN_ACT_SET, 3, 3) == FUNNELFAWN_OK && record(FUNNELFAWN_ACT_TRY, 96, 4) == FUNNELFAWN_OK);
    CHECK(record(FUNNELFAWN_ACT_WAIT, 0, 6) == FUNNELFAWN_OK);
    CHECK(summary[FUNNELFAWN_AT_WAITED + 96 - 1] == 2 && summary[FUNNELFAWN_AT_WAITED + 3 - 1] == 5);
    CHECK(record(FUNNELFAWN_ACT_WITHDRAW, 3, 7) == FUNNELFAWN_REFUSED_OUT_OF_PLACE);
    CHECK(record(FUNNELFAWN_ACT_WITHDRAW, 96, 7) == FUNNELFAWN_OK);
    CHECK(table[FUNNELFAWN_AT_CLOCK] == 7 && table[FUNNELFAWN_AT_WORD] == 3);
    CHECK(table[entry] == FUNNELFAWN_PLACE_REMAINDER && table[entry + 1] == 0);
    CHECK(summary[FUNNELFAWN_AT_ACCEPTED] == 6 && summary[FUNNELFAWN_AT_REFUSED] == 1 && summary[FUNNELFAWN_AT_LONGEST_WAIT] == 0);
    CHECK(summary[FUNNELFAWN_AT_WAITED + 96 - 1] == 0 && summary[FUNNELFAWN_AT_WAITED + 3 - 1] == 6);
}

/* The refusals of an act, and what stands beside each. */
static void refusals(void)
{
    struct funnelfawn_answer answer;

    start();
    CHECK(step(FUNNELFAWN_ACT_TRY, 3, 20) == FUNNELFAWN_OK);
    answer = funnelfawn_step(table, FUNNELFAWN_TABLE_LENGTH, FUNNELFAWN_ACT_WAIT, 0, 19);
    CHECK(answer.number == FUNNELFAWN_REFUSED_BACKWARD && answer.window == 0 && answer.moment == 20);
    CHECK(step(FUNNELFAWN_ACT_WAIT, 0, UINT64_C(1000000000001)) == FUNNELFAWN_REFUSED_END_OF_CLOCK);
    CHECK(step(FUNNELFAWN_ACT_WITHDRAW + 1, 1, 20) == FUNNELFAWN_REFUSED_NO_ACT);
    answer = funnelfawn_step(table, FUNNELFAWN_TABLE_LENGTH, FUNNELFAWN_ACT_TRY, 4, 26);
    CHECK(answer.number == FUNNELFAWN_REFUSED_LATE && answer.window == 3 && answer.moment == 25);
    answer = funnelfawn_step(table, FUNNELFAWN_TABLE_LENGTH, FUNNELFAWN_ACT_SET, 3, 20);
    CHECK(answer.number == FUNNELFAWN_REFUSED_OUT_OF_PLACE && answer.window == 3 && answer.moment == 0);
    CHECK(step(FUNNELFAWN_ACT_TEST, 3, 20) == FUNNELFAWN_OK && step(FUNNELFAWN_ACT_SET, 3, 21) == FUNNELFAWN_OK);
    answer = funnelfawn_step(table, FUNNELFAWN_TABLE_LENGTH, FUNNELFAWN_ACT_CHECK, 3, 28);
    CHECK(answer.number == FUNNELFAWN_REFUSED_EARLY && answer.window == 3 && answer.moment == 29);
    summary[FUNNELFAWN_AT_REFUSED] = UINT64_C(1000000000000);
    CHECK(record(FUNNELFAWN_ACT_WAIT, 0, 21) == FUNNELFAWN_REFUSED_SUMMARY_FULL);
    summary[FUNNELFAWN_AT_WAITED] = 22;
    CHECK(record(FUNNELFAWN_ACT_WAIT, 0, 21) == FUNNELFAWN_REFUSED_NO_SUMMARY);
    /* a fresh table that is refused leaves the older one */
    CHECK(funnelfawn_fresh(97, 8, 12, fives, 96, table, FUNNELFAWN_TABLE_LENGTH).number == FUNNELFAWN_REFUSED_WINDOW_COUNT);
    CHECK(funnelfawn_fresh(96, 8, 12, fives, 95, table, FUNNELFAWN_TABLE_LENGTH).number == FUNNELFAWN_REFUSED_LIMITS);
    CHECK(step(FUNNELFAWN_ACT_CHECK, 3, 29) == FUNNELFAWN_OK);
    table[FUNNELFAWN_AT_WORD] = 97;
    CHECK(step(FUNNELFAWN_ACT_WAIT, 0, 29) == FUNNELFAWN_REFUSED_NO_TABLE);
}

/* Lengths: the least that do, and one less; nothing is read through a null pointer with a count of 0. */
static void lengths(void)
{
    start();
    CHECK(funnelfawn_fresh(1, 8, 12, fives, 1, table, FUNNELFAWN_TABLE_LENGTH - 1).number == FUNNELFAWN_REFUSED_SHORT_OUTPUT);
    CHECK(funnelfawn_fresh(97, 8, 12, NULL, 0, NULL, 0).number == FUNNELFAWN_REFUSED_WINDOW_COUNT);
    CHECK(funnelfawn_fresh(1, 5, 12, fives, 1, NULL, 0).number == FUNNELFAWN_REFUSED_LIMITS);
    CHECK(funnelfawn_fresh(1, 8, 12, NULL, 0, NULL, 0).number == FUNNELFAWN_REFUSED_LIMITS);
    CHECK(funnelfawn_new_summary(summary, FUNNELFAWN_SUMMARY_LENGTH - 1).number == FUNNELFAWN_REFUSED_SHORT_OUTPUT);
    CHECK(funnelfawn_step(table, FUNNELFAWN_TABLE_LENGTH - 1, 0, 0, 0).number == FUNNELFAWN_REFUSED_NO_TABLE);
    CHECK(funnelfawn_step(NULL, 0, 0, 0, 0).number == FUNNELFAWN_REFUSED_NO_TABLE);
    CHECK(funnelfawn_record(table, FUNNELFAWN_TABLE_LENGTH, summary, FUNNELFAWN_SUMMARY_LENGTH - 1, 0, 0, 0).number ==
          FUNNELFAWN_REFUSED_NO_SUMMARY);
    CHECK(funnelfawn_record(table, FUNNELFAWN_TABLE_LENGTH, NULL, 0, 0, 0, 0).number == FUNNELFAWN_REFUSED_NO_SUMMARY);
}

/* The table and the deadline table match: each, as its acts have left it, is what comes of the other. */
static int match(void)
{
    uint64_t there[FUNNELFAWN_DEADLINES_LENGTH], back[FUNNELFAWN_TABLE_LENGTH];

    return says(funnelfawn_to_deadlines(table, FUNNELFAWN_TABLE_LENGTH, there, FUNNELFAWN_DEADLINES_LENGTH), FUNNELFAWN_OK, 0, 0) &&
           says(funnelfawn_to_arrivals(deadlines, FUNNELFAWN_DEADLINES_LENGTH, back, FUNNELFAWN_TABLE_LENGTH), FUNNELFAWN_OK, 0, 0) &&
           memcmp(there, deadlines, sizeof there) == 0 && memcmp(back, table, sizeof back) == 0;
}

static void start_both(void)
{
    start();
    CHECK(says(funnelfawn_fresh_deadlines(96, 8, 12, fives, 96, deadlines, FUNNELFAWN_DEADLINES_LENGTH), FUNNELFAWN_OK, 0, 0) && match());
}

/* Window w has an a of w, with b = c = 97, and all try at 0: so each is late before the next, by its own a, and in both engines alike. Nobody
 * else's a is of any account for it: window 96, the last one, has 96 at last. */
static void own_limits(void)
{
    uint64_t a[FUNNELFAWN_WINDOWS];

    for (uint64_t window = 1; window <= 96; window++)
        a[window - 1] = window;
    CHECK(says(funnelfawn_fresh(96, 97, 97, a, 96, table, FUNNELFAWN_TABLE_LENGTH), FUNNELFAWN_OK, 0, 0));
    CHECK(says(funnelfawn_fresh_deadlines(96, 97, 97, a, 96, deadlines, FUNNELFAWN_DEADLINES_LENGTH), FUNNELFAWN_OK, 0, 0) && match());
    CHECK(memcmp(table + FUNNELFAWN_AT_LIMITS, a, sizeof a) == 0 && memcmp(deadlines + FUNNELFAWN_AT_LIMITS, a, sizeof a) == 0);
    for (uint64_t window = 1; window <= 96; window++)
        CHECK(step(FUNNELFAWN_ACT_TRY, window, 0) == FUNNELFAWN_OK && step_deadlines(FUNNELFAWN_ACT_TRY, window, 0).number == FUNNELFAWN_OK);
    for (uint64_t window = 1; window <= 96; window++) {
        CHECK(says(funnelfawn_step(table, FUNNELFAWN_TABLE_LENGTH, FUNNELFAWN_ACT_WAIT, 0, window + 1), FUNNELFAWN_REFUSED_LATE, window, window));
        CHECK(says(step_deadlines(FUNNELFAWN_ACT_WAIT, 0, window + 1), FUNNELFAWN_REFUSED_LATE, window, window) && match());
        CHECK(step(FUNNELFAWN_ACT_WITHDRAW, window, window) == FUNNELFAWN_OK);
        CHECK(step_deadlines(FUNNELFAWN_ACT_WITHDRAW, window, window).number == FUNNELFAWN_OK);
    }
    CHECK(step(FUNNELFAWN_ACT_WAIT, 0, 1000) == FUNNELFAWN_OK && step_deadlines(FUNNELFAWN_ACT_WAIT, 0, 1000).number == FUNNELFAWN_OK);
    CHECK(memcmp(table + FUNNELFAWN_AT_LIMITS, a, sizeof a) == 0 && match());
}

/* The answers to a list of values of a, of which so many are lent: the three calls that take one look at it alike, and refused they write
 * nothing. An empty `out` is too short, which comes last. */
static uint64_t takes(uint64_t n, uint64_t b, uint64_t c, const uint64_t *a, size_t length)
{
    uint64_t number = funnelfawn_fresh(n, b, c, a, length, table, FUNNELFAWN_TABLE_LENGTH).number, before[FUNNELFAWN_TABLE_LENGTH];
    struct funnelfawn_answer written = funnelfawn_write(n, b, c, a, length, NULL, 0, NULL, 0, NULL, 0, NULL, 0);

    CHECK(funnelfawn_fresh_deadlines(n, b, c, a, length, deadlines, FUNNELFAWN_DEADLINES_LENGTH).number == number);
    CHECK(says(written, number == FUNNELFAWN_OK ? FUNNELFAWN_REFUSED_SHORT_OUTPUT : number, 0, 0));
    memcpy(before, table, sizeof before);
    table[FUNNELFAWN_AT_N] = FILLED;
    CHECK((funnelfawn_fresh(n, b, c, a, length, table, FUNNELFAWN_TABLE_LENGTH).number == FUNNELFAWN_OK) ==
          (table[FUNNELFAWN_AT_N] != FILLED));
    memcpy(table, before, sizeof before);
    return number;
}

/* [2.30] [2.32] [9.45] Values that stand and that do not, of windows up to n and above it; and lists that are shorter than n, than 96, and
 * longer. */
static void values_of_a(void)
{
    uint64_t a[FUNNELFAWN_WINDOWS + 2] = {5, 7};

    start_both();
    CHECK(takes(2, 8, 12, a, 2) == FUNNELFAWN_OK && table[FUNNELFAWN_AT_LIMITS] == 5 && table[FUNNELFAWN_AT_LIMITS + 1] == 7);
    CHECK(table[FUNNELFAWN_AT_LIMITS + 2] == 0 && table[FUNNELFAWN_HEADER_LENGTH - 1] == 0 && match());
    CHECK(takes(2, 8, 12, a, 3) == FUNNELFAWN_OK && takes(2, 8, 12, a, 95) == FUNNELFAWN_OK && takes(2, 8, 12, a, 96) == FUNNELFAWN_OK);
    /* one missing is 0, and a 0 up to n is no a */
    CHECK(takes(2, 8, 12, a, 1) == FUNNELFAWN_REFUSED_LIMITS && takes(2, 8, 12, NULL, 0) == FUNNELFAWN_REFUSED_LIMITS);
    CHECK(takes(3, 8, 12, a, 96) == FUNNELFAWN_REFUSED_LIMITS && takes(1, 8, 12, a, 1) == FUNNELFAWN_OK);
    /* each by its own */
    CHECK(takes(2, 7, 12, a, 2) == FUNNELFAWN_REFUSED_LIMITS && takes(2, 5, 12, a, 2) == FUNNELFAWN_REFUSED_LIMITS);
    CHECK(takes(2, 8, 7, a, 2) == FUNNELFAWN_REFUSED_LIMITS && takes(2, 8, 8, a, 2) == FUNNELFAWN_OK);
    CHECK(takes(2, 8, 10000000, a, 2) == FUNNELFAWN_OK && takes(2, 8, 10000001, a, 2) == FUNNELFAWN_REFUSED_LIMITS);
    a[1] = 9999999;
    CHECK(takes(2, 10000000, 10000000, a, 2) == FUNNELFAWN_OK && takes(2, 9999999, 10000000, a, 2) == FUNNELFAWN_REFUSED_LIMITS);
    a[1] = UINT64_MAX;
    CHECK(takes(2, 8, 12, a, 2) == FUNNELFAWN_REFUSED_LIMITS && takes(0, 8, 12, a, 2) == FUNNELFAWN_REFUSED_WINDOW_COUNT);
    CHECK(takes(97, 8, 12, a, 97) == FUNNELFAWN_REFUSED_WINDOW_COUNT && takes(1, 8, 12, a, 2) == FUNNELFAWN_REFUSED_LIMITS);
    a[1] = 7;
    /* above n, a value that would do below it too */
    for (size_t above = 2; above < 96; above++) {
        a[above] = 5;
        CHECK(takes(2, 8, 12, a, above + 1) == FUNNELFAWN_REFUSED_LIMITS && takes(2, 8, 12, a, above) == FUNNELFAWN_OK);
        a[above] = 0;
    }
    /* past the 96th nothing is looked at, of 96 windows or of fewer */
    a[96] = a[97] = FILLED;
    CHECK(takes(2, 8, 12, a, 97) == FUNNELFAWN_OK && takes(2, 8, 12, a, 98) == FUNNELFAWN_OK);
    memcpy(a, fives, sizeof fives);
    CHECK(takes(96, 8, 12, a, 98) == FUNNELFAWN_OK && table[FUNNELFAWN_HEADER_LENGTH - 1] == 5 && takes(95, 8, 12, a, 95) == FUNNELFAWN_OK);
    CHECK(takes(95, 8, 12, a, 96) == FUNNELFAWN_REFUSED_LIMITS && takes(96, 8, 12, a, 95) == FUNNELFAWN_REFUSED_LIMITS);
    /* the values of a table serve another one */
    CHECK(takes(96, 8, 12, fives, 96) == FUNNELFAWN_OK);
    CHECK(says(funnelfawn_fresh_deadlines(96, 8, 12, table + FUNNELFAWN_AT_LIMITS, 96, deadlines, FUNNELFAWN_DEADLINES_LENGTH), FUNNELFAWN_OK, 0, 0));
    CHECK(match());
}

/* A value of a in a lent table, for both engines: whether the table and the deadline table that match are sound with it. */
static int is_sound_with(size_t window, uint64_t a)
{
    uint64_t number;

    CHECK(takes(2, 8, 12, fives, 2) == FUNNELFAWN_OK);
    table[FUNNELFAWN_AT_LIMITS + window - 1] = deadlines[FUNNELFAWN_AT_LIMITS + window - 1] = a;
    number = step(FUNNELFAWN_ACT_WAIT, 0, 0);
    CHECK(number == FUNNELFAWN_OK || number == FUNNELFAWN_REFUSED_NO_TABLE);
    CHECK(step_deadlines(FUNNELFAWN_ACT_WAIT, 0, 0).number == number && match() == (number == FUNNELFAWN_OK));
    return number == FUNNELFAWN_OK;
}

/* [2.120] The values of a that a sound table may have, up to n, here 2, and above. */
static void sound_values(void)
{
    for (size_t window = 1; window <= 96; window++) {
        CHECK(is_sound_with(window, 5) == (window <= 2) && is_sound_with(window, 0) == (window > 2));
        CHECK(is_sound_with(window, 1) == (window <= 2) && is_sound_with(window, 7) == (window <= 2));
        CHECK(!is_sound_with(window, 8) && !is_sound_with(window, UINT64_MAX) && !is_sound_with(window, UINT64_C(1) << 32));
    }
}

/* Numbers of layout 2, laid out anew as docs/CHANGES.md says; the stride is that of a table or of a deadline table. */
static void lay_out_anew(const uint64_t *stored, size_t stride, uint64_t *made)
{
    enum { N, A, B, C, CLOCK, WORD, ENTRIES };

    made[FUNNELFAWN_AT_N] = stored[N];
    made[FUNNELFAWN_AT_B] = stored[B];
    made[FUNNELFAWN_AT_C] = stored[C];
    made[FUNNELFAWN_AT_CLOCK] = stored[CLOCK];
    made[FUNNELFAWN_AT_WORD] = stored[WORD];
    for (size_t i = 0; i < FUNNELFAWN_WINDOWS; i++)
        made[FUNNELFAWN_AT_LIMITS + i] = i < stored[N] ? stored[A] : 0;
    memcpy(made + FUNNELFAWN_HEADER_LENGTH, stored + ENTRIES, stride * FUNNELFAWN_WINDOWS * sizeof *made);
}

/* What layout 2 had stored of two windows of which the first has set the word at 0: as it is, a list that is long enough takes it for another
 * table, which is sound; laid out anew it is the table that the same acts lead to. */
static void stored_with_layout_2(void)
{
    static const uint64_t stored[FUNNELFAWN_TABLE_LENGTH] = {2, 5, 8, 12, 0, 1, FUNNELFAWN_PLACE_CHECKING, 0};
    static const uint64_t stored_deadlines[FUNNELFAWN_DEADLINES_LENGTH] = {2, 5, 8, 12, 0, 1, FUNNELFAWN_PLACE_CHECKING, 8, 12};
    static const uint64_t acts_of_1[] = {FUNNELFAWN_ACT_TRY, FUNNELFAWN_ACT_TEST, FUNNELFAWN_ACT_SET};
    uint64_t made[FUNNELFAWN_DEADLINES_LENGTH];

    memcpy(table, stored, sizeof table);
    CHECK(funnelfawn_step(table, 198, FUNNELFAWN_ACT_WAIT, 0, 12).number == FUNNELFAWN_REFUSED_NO_TABLE);
    CHECK(says(funnelfawn_step(table, FUNNELFAWN_TABLE_LENGTH, FUNNELFAWN_ACT_WAIT, 0, 12), FUNNELFAWN_OK, 0, 12));
    CHECK(takes(2, 8, 12, fives, 2) == FUNNELFAWN_OK);
    for (size_t i = 0; i < sizeof acts_of_1 / sizeof acts_of_1[0]; i++)
        CHECK(step(acts_of_1[i], 1, 0) == FUNNELFAWN_OK && step_deadlines(acts_of_1[i], 1, 0).number == FUNNELFAWN_OK);
    lay_out_anew(stored, FUNNELFAWN_STRIDE, made);
    CHECK(memcmp(made, table, sizeof table) == 0);
    lay_out_anew(stored_deadlines, FUNNELFAWN_DEADLINES_STRIDE, made);
    CHECK(memcmp(made, deadlines, sizeof deadlines) == 0 && match());
}

/* Window 96 goes once round by both engines: where its first and its last moment stand, and what they are. Only a check may not begin when the
 * window arrives, and only there the last moment is from c. */
static void deadlines_of_96(void)
{
    static const struct { uint64_t act, moment, place, first, last; } turns[] = {
        {FUNNELFAWN_ACT_TRY, 2, FUNNELFAWN_PLACE_TESTING, 2, 7},       {FUNNELFAWN_ACT_TEST, 3, FUNNELFAWN_PLACE_SETTING, 3, 8},
        {FUNNELFAWN_ACT_SET, 4, FUNNELFAWN_PLACE_CHECKING, 12, 16},    {FUNNELFAWN_ACT_CHECK, 12, FUNNELFAWN_PLACE_ENTERING, 12, 17},
        {FUNNELFAWN_ACT_CRIT, 13, FUNNELFAWN_PLACE_SELLING, 0, 0},     {FUNNELFAWN_ACT_EXIT, 14, FUNNELFAWN_PLACE_RESETTING, 14, 19},
        {FUNNELFAWN_ACT_RESET, 15, FUNNELFAWN_PLACE_LEAVING, 15, 20},  {FUNNELFAWN_ACT_REM, 16, FUNNELFAWN_PLACE_REMAINDER, 0, 0},
        {FUNNELFAWN_ACT_TRY, 17, FUNNELFAWN_PLACE_TESTING, 17, 22},    {FUNNELFAWN_ACT_WITHDRAW, 20, FUNNELFAWN_PLACE_REMAINDER, 0, 0},
    };
    const size_t entry = FUNNELFAWN_HEADER_LENGTH + FUNNELFAWN_DEADLINES_STRIDE * (96 - 1);

    start_both();
    for (size_t i = 0; i < sizeof turns / sizeof turns[0]; i++) {
        uint64_t selling = turns[i].place == FUNNELFAWN_PLACE_SELLING ? FUNNELFAWN_WINDOWS : 0;

        CHECK(says(step_deadlines(turns[i].act, FUNNELFAWN_WINDOWS, turns[i].moment), FUNNELFAWN_OK, selling, turns[i].moment));
        CHECK(step(turns[i].act, FUNNELFAWN_WINDOWS, turns[i].moment) == FUNNELFAWN_OK && match());
        CHECK(deadlines[entry] == turns[i].place && deadlines[entry + 1] == turns[i].first && deadlines[entry + 2] == turns[i].last);
        /* what a table begins with */
        CHECK(memcmp(deadlines, table, FUNNELFAWN_HEADER_LENGTH * sizeof *table) == 0);
    }
    CHECK(entry + FUNNELFAWN_DEADLINES_STRIDE == FUNNELFAWN_DEADLINES_LENGTH);
}

/* The refusals of an act are those of the first engine, and what stands beside each too. */
static void refusals_by_deadlines(void)
{
    start_both();
    CHECK(says(step_deadlines(FUNNELFAWN_ACT_TRY, 3, 20), FUNNELFAWN_OK, 0, 20));
    CHECK(says(step_deadlines(FUNNELFAWN_ACT_WAIT, 0, 19), FUNNELFAWN_REFUSED_BACKWARD, 0, 20));
    CHECK(says(step_deadlines(FUNNELFAWN_ACT_WAIT, 0, UINT64_C(1000000000001)), FUNNELFAWN_REFUSED_END_OF_CLOCK, 0, 0));
    CHECK(says(step_deadlines(FUNNELFAWN_ACT_WITHDRAW + 1, 1, 20), FUNNELFAWN_REFUSED_NO_ACT, 0, 0));
    CHECK(says(step_deadlines(FUNNELFAWN_ACT_TRY, 97, 20), FUNNELFAWN_REFUSED_NO_WINDOW, 0, 0));
    CHECK(says(step_deadlines(FUNNELFAWN_ACT_WAIT, 1, 20), FUNNELFAWN_REFUSED_NO_WINDOW, 0, 0));
    CHECK(says(step_deadlines(FUNNELFAWN_ACT_TRY, 4, 26), FUNNELFAWN_REFUSED_LATE, 3, 25));
    CHECK(says(step_deadlines(FUNNELFAWN_ACT_SET, 3, 20), FUNNELFAWN_REFUSED_OUT_OF_PLACE, 3, 0));
    CHECK(says(step_deadlines(FUNNELFAWN_ACT_TEST, 3, 20), FUNNELFAWN_OK, 0, 20));
    CHECK(says(step_deadlines(FUNNELFAWN_ACT_SET, 3, 21), FUNNELFAWN_OK, 0, 21));
    CHECK(says(step_deadlines(FUNNELFAWN_ACT_CHECK, 3, 28), FUNNELFAWN_REFUSED_EARLY, 3, 29));
    /* a fresh one that is refused leaves the older one */
    CHECK(says(funnelfawn_fresh_deadlines(97, 5, 12, fives, 96, deadlines, FUNNELFAWN_DEADLINES_LENGTH), FUNNELFAWN_REFUSED_WINDOW_COUNT, 0, 0));
    CHECK(says(funnelfawn_fresh_deadlines(96, 5, 12, fives, 96, deadlines, FUNNELFAWN_DEADLINES_LENGTH), FUNNELFAWN_REFUSED_LIMITS, 0, 0));
    CHECK(says(step_deadlines(FUNNELFAWN_ACT_CHECK, 3, 29), FUNNELFAWN_OK, 0, 29));
}

/* Whether a deadline table at this clock is sound that has window 1 there, by a step and on the way to arrivals; refused, nothing changes. */
static int is_sound(uint64_t clock, uint64_t place, uint64_t first, uint64_t last)
{
    uint64_t lent[FUNNELFAWN_DEADLINES_LENGTH], arrivals[FUNNELFAWN_TABLE_LENGTH] = {0}, number;

    funnelfawn_fresh_deadlines(96, 8, 12, fives, 96, deadlines, FUNNELFAWN_DEADLINES_LENGTH);
    deadlines[FUNNELFAWN_AT_CLOCK] = clock;
    deadlines[FUNNELFAWN_HEADER_LENGTH] = place;
    deadlines[FUNNELFAWN_HEADER_LENGTH + 1] = first, deadlines[FUNNELFAWN_HEADER_LENGTH + 2] = last;
    memcpy(lent, deadlines, sizeof lent);
    number = step_deadlines(FUNNELFAWN_ACT_WAIT, 0, clock).number;
    CHECK(number == FUNNELFAWN_OK || number == FUNNELFAWN_REFUSED_NO_TABLE);
    CHECK(funnelfawn_to_arrivals(lent, FUNNELFAWN_DEADLINES_LENGTH, arrivals, FUNNELFAWN_TABLE_LENGTH).number == number);
    CHECK(memcmp(lent, deadlines, sizeof lent) == 0 && (arrivals[FUNNELFAWN_AT_N] == 96) == (number == FUNNELFAWN_OK));
    return number == FUNNELFAWN_OK;
}

/* [12.35] Which first and last moments are those of an arrival that a sound table may have. */
static void sound_deadlines(void)
{
    const uint64_t most = UINT64_MAX;

    CHECK(is_sound(20, FUNNELFAWN_PLACE_REMAINDER, 0, 0) && is_sound(20, FUNNELFAWN_PLACE_SELLING, 0, 0));
    CHECK(!is_sound(20, FUNNELFAWN_PLACE_REMAINDER, 1, 0) && !is_sound(20, FUNNELFAWN_PLACE_SELLING, 0, 1));
    CHECK(!is_sound(20, FUNNELFAWN_PLACE_LEAVING + 1, 20, 25));
    /* an arrival from 15 to 20, and for a check from 8 to 20 */
    CHECK(is_sound(20, FUNNELFAWN_PLACE_TESTING, 20, 25) && !is_sound(20, FUNNELFAWN_PLACE_TESTING, 21, 26));
    CHECK(is_sound(20, FUNNELFAWN_PLACE_LEAVING, 15, 20) && !is_sound(20, FUNNELFAWN_PLACE_LEAVING, 14, 19));
    CHECK(is_sound(20, FUNNELFAWN_PLACE_CHECKING, 28, 32) && !is_sound(20, FUNNELFAWN_PLACE_CHECKING, 29, 33));
    CHECK(is_sound(20, FUNNELFAWN_PLACE_CHECKING, 16, 20) && !is_sound(20, FUNNELFAWN_PLACE_CHECKING, 15, 19));
    /* moments of different arrivals; a check's elsewhere, and others' in checking */
    CHECK(!is_sound(20, FUNNELFAWN_PLACE_ENTERING, 19, 25) && !is_sound(20, FUNNELFAWN_PLACE_ENTERING, 20, 26));
    CHECK(!is_sound(20, FUNNELFAWN_PLACE_CHECKING, 27, 32) && !is_sound(20, FUNNELFAWN_PLACE_CHECKING, 28, 33));
    CHECK(!is_sound(20, FUNNELFAWN_PLACE_SETTING, 28, 32) && !is_sound(20, FUNNELFAWN_PLACE_CHECKING, 20, 25));
    /* a check that came before moment 0, and numbers whose sums or differences come around at 2^64 */
    CHECK(is_sound(3, FUNNELFAWN_PLACE_CHECKING, 8, 12) && !is_sound(3, FUNNELFAWN_PLACE_CHECKING, 7, 11));
    CHECK(!is_sound(3, FUNNELFAWN_PLACE_RESETTING, most, 4) && !is_sound(3, FUNNELFAWN_PLACE_CHECKING, most, 3));
    CHECK(!is_sound(3, FUNNELFAWN_PLACE_TESTING, most - 5, most) && !is_sound(3, FUNNELFAWN_PLACE_CHECKING, most - 4, most));
    /* [2.95] at the clock's end they may lie past it */
    CHECK(is_sound(UINT64_C(1000000000000), FUNNELFAWN_PLACE_CHECKING, UINT64_C(1000000000008), UINT64_C(1000000000012)));
    CHECK(!is_sound(UINT64_C(1000000000001), FUNNELFAWN_PLACE_REMAINDER, 0, 0));
}

/* The least lengths that do, and one less; nothing is read through a null pointer with a count of 0. */
static void lengths_of_deadlines(void)
{
    uint64_t longer[FUNNELFAWN_DEADLINES_LENGTH + 1];
    const size_t most = FUNNELFAWN_DEADLINES_LENGTH;

    start_both();
    CHECK(says(funnelfawn_fresh_deadlines(1, 8, 12, fives, 1, deadlines, most - 1), FUNNELFAWN_REFUSED_SHORT_OUTPUT, 0, 0));
    CHECK(says(funnelfawn_fresh_deadlines(97, 8, 12, NULL, 0, NULL, 0), FUNNELFAWN_REFUSED_WINDOW_COUNT, 0, 0));
    CHECK(says(funnelfawn_fresh_deadlines(1, 5, 12, fives, 1, NULL, 0), FUNNELFAWN_REFUSED_LIMITS, 0, 0));
    CHECK(says(funnelfawn_step_deadlines(deadlines, most - 1, 0, 0, 0), FUNNELFAWN_REFUSED_NO_TABLE, 0, 0));
    CHECK(says(funnelfawn_step_deadlines(NULL, 0, 0, 0, 0), FUNNELFAWN_REFUSED_NO_TABLE, 0, 0));
    CHECK(says(funnelfawn_to_deadlines(table, FUNNELFAWN_TABLE_LENGTH, deadlines, most - 1), FUNNELFAWN_REFUSED_SHORT_OUTPUT, 0, 0));
    CHECK(says(funnelfawn_to_deadlines(table, FUNNELFAWN_TABLE_LENGTH - 1, NULL, 0), FUNNELFAWN_REFUSED_NO_TABLE, 0, 0));
    CHECK(says(funnelfawn_to_arrivals(deadlines, most, table, FUNNELFAWN_TABLE_LENGTH - 1), FUNNELFAWN_REFUSED_SHORT_OUTPUT, 0, 0));
    CHECK(says(funnelfawn_to_arrivals(deadlines, most - 1, NULL, 0), FUNNELFAWN_REFUSED_NO_TABLE, 0, 0));
    CHECK(says(funnelfawn_to_arrivals(NULL, 0, NULL, 0), FUNNELFAWN_REFUSED_NO_TABLE, 0, 0) && match());
    /* of a longer list the rest stays */
    longer[most] = FILLED;
    CHECK(says(funnelfawn_fresh_deadlines(2, 8, 12, fives, 2, longer, most + 1), FUNNELFAWN_OK, 0, 0) && longer[most] == FILLED);
    CHECK(says(funnelfawn_step_deadlines(longer, most + 1, FUNNELFAWN_ACT_TRY, 2, 9), FUNNELFAWN_OK, 0, 9) && longer[most] == FILLED);
    CHECK(says(funnelfawn_to_deadlines(table, FUNNELFAWN_TABLE_LENGTH, longer, most + 1), FUNNELFAWN_OK, 0, 0) && longer[most] == FILLED);
    CHECK(memcmp(longer, deadlines, sizeof deadlines) == 0);
    longer[FUNNELFAWN_TABLE_LENGTH] = FILLED;
    CHECK(says(funnelfawn_to_arrivals(deadlines, most, longer, most + 1), FUNNELFAWN_OK, 0, 0));
    CHECK(memcmp(longer, table, sizeof table) == 0 && longer[FUNNELFAWN_TABLE_LENGTH] == FILLED);
}

/* The place k of the board holds this entry. */
static int stands(size_t k, uint64_t moment, uint64_t window, uint64_t wait)
{
    const uint64_t *entry = board + FUNNELFAWN_BOARD_HEADER_LENGTH + FUNNELFAWN_BOARD_STRIDE * k;

    return entry[0] == moment && entry[1] == window && entry[2] == wait;
}

/* The first numbers of the board are these. */
static int heads(uint64_t width, uint64_t last, uint64_t first, uint64_t kept)
{
    return board[FUNNELFAWN_AT_WIDTH] == width && board[FUNNELFAWN_AT_LAST_TOLD] == last && board[FUNNELFAWN_AT_FIRST_KEPT] == first &&
           board[FUNNELFAWN_AT_KEPT] == kept;
}

/* A board is filled, and its ring goes round. */
static void ring(void)
{
    const size_t last = FUNNELFAWN_BOARD_PLACES - 1;
    uint64_t kept = 1;

    CHECK(says(funnelfawn_set_up_board(10, board, FUNNELFAWN_BOARD_LENGTH), FUNNELFAWN_OK, 0, 0) && heads(10, 0, 0, 0));
    CHECK(says(add(5, 96, 7), FUNNELFAWN_OK, 1, 7) && heads(10, 5, 0, 1) && stands(0, 5, 96, 7));
    while (kept < FUNNELFAWN_BOARD_PLACES && says(add(6, 1, 3), FUNNELFAWN_OK, kept + 1, 7))
        kept++;
    CHECK(heads(10, 6, 0, FUNNELFAWN_BOARD_PLACES) && stands(last, 6, 1, 3));
    CHECK(FUNNELFAWN_BOARD_HEADER_LENGTH + FUNNELFAWN_BOARD_STRIDE * (last + 1) == FUNNELFAWN_BOARD_LENGTH);
    CHECK(says(add(14, 2, 4), FUNNELFAWN_REFUSED_BOARD_FULL, 0, 0) && heads(10, 6, 0, FUNNELFAWN_BOARD_PLACES));
    /* the first has expired: place 0 comes after the last */
    CHECK(says(add(15, 2, 4), FUNNELFAWN_OK, FUNNELFAWN_BOARD_PLACES, 4));
    CHECK(heads(10, 15, 1, FUNNELFAWN_BOARD_PLACES) && stands(0, 15, 2, 4));
    CHECK(says(show(16), FUNNELFAWN_OK, 1, 4) && heads(10, 16, 0, 1));
    CHECK(says(show(25), FUNNELFAWN_OK, 0, 0) && heads(10, 25, 1, 0));
}

/* The refusals of a board, and what stands beside each. */
static void board_refusals(void)
{
    CHECK(says(funnelfawn_set_up_board(UINT64_C(1000000000), board, FUNNELFAWN_BOARD_LENGTH), FUNNELFAWN_OK, 0, 0));
    CHECK(says(show(20), FUNNELFAWN_OK, 0, 0));
    CHECK(says(add(19, 1, 0), FUNNELFAWN_REFUSED_BACKWARD, 0, 20) && says(show(19), FUNNELFAWN_REFUSED_BACKWARD, 0, 20));
    CHECK(says(add(UINT64_C(1000000000001), 1, 0), FUNNELFAWN_REFUSED_END_OF_CLOCK, 0, 0));
    CHECK(says(show(UINT64_C(1000000000001)), FUNNELFAWN_REFUSED_END_OF_CLOCK, 0, 0));
    CHECK(says(add(20, 0, 0), FUNNELFAWN_REFUSED_NO_WINDOW, 0, 0) && says(add(20, 97, 0), FUNNELFAWN_REFUSED_NO_WINDOW, 0, 0));
    board[FUNNELFAWN_AT_KEPT] = FUNNELFAWN_BOARD_PLACES + 1;
    CHECK(says(show(20), FUNNELFAWN_REFUSED_NO_SUMMARY, 0, 0));
    board[FUNNELFAWN_AT_KEPT] = 0, board[FUNNELFAWN_AT_FIRST_KEPT] = FUNNELFAWN_BOARD_PLACES;
    CHECK(says(show(20), FUNNELFAWN_REFUSED_NO_SUMMARY, 0, 0));
    board[FUNNELFAWN_AT_FIRST_KEPT] = 0;
    CHECK(says(show(20), FUNNELFAWN_OK, 0, 0));
    /* a board that is not set up does not leave the older one */
    CHECK(says(funnelfawn_set_up_board(UINT64_C(1000000001), board, FUNNELFAWN_BOARD_LENGTH), FUNNELFAWN_REFUSED_WIDTH, 0, 0));
    CHECK(heads(0, 0, 0, 0) && says(add(20, 1, 0), FUNNELFAWN_REFUSED_NO_SUMMARY, 0, 0));
    CHECK(says(funnelfawn_set_up_board(0, NULL, 0), FUNNELFAWN_REFUSED_WIDTH, 0, 0));
    CHECK(says(funnelfawn_set_up_board(1, board, FUNNELFAWN_BOARD_LENGTH - 1), FUNNELFAWN_REFUSED_SHORT_OUTPUT, 0, 0));
    CHECK(funnelfawn_set_up_board(1, board, FUNNELFAWN_BOARD_LENGTH).number == FUNNELFAWN_OK);
    CHECK(says(funnelfawn_show_board(board, FUNNELFAWN_BOARD_LENGTH - 1, 0), FUNNELFAWN_REFUSED_NO_SUMMARY, 0, 0));
    CHECK(says(funnelfawn_add_to_board(NULL, 0, 0, 1, 0), FUNNELFAWN_REFUSED_NO_SUMMARY, 0, 0));
}

/* The recorded step tells the board of an accepted crit, and of nothing else; it stands where the board refuses. */
static void tellings(void)
{
    struct funnelfawn_told told;

    start();
    CHECK(funnelfawn_set_up_board(30, board, FUNNELFAWN_BOARD_LENGTH).number == FUNNELFAWN_OK);
    told = tell(FUNNELFAWN_ACT_TRY, 3, 2);
    CHECK(says(told.step, FUNNELFAWN_OK, 0, 2) && says(told.board, FUNNELFAWN_OK, 0, 0) && heads(30, 0, 0, 0));
    tell(FUNNELFAWN_ACT_TEST, 3, 3), tell(FUNNELFAWN_ACT_SET, 3, 4), tell(FUNNELFAWN_ACT_CHECK, 3, 12);
    told = tell(FUNNELFAWN_ACT_CRIT, 3, 18);
    CHECK(says(told.step, FUNNELFAWN_REFUSED_LATE, 3, 17) && says(told.board, FUNNELFAWN_OK, 0, 0) && heads(30, 0, 0, 0));
    told = tell(FUNNELFAWN_ACT_CRIT, 3, 13);
    CHECK(says(told.step, FUNNELFAWN_OK, 3, 13) && says(told.board, FUNNELFAWN_OK, 1, 11));
    CHECK(heads(30, 13, 0, 1) && stands(0, 13, 3, 11) && summary[FUNNELFAWN_AT_LONGEST_WAIT] == 11);
    tell(FUNNELFAWN_ACT_EXIT, 3, 14), tell(FUNNELFAWN_ACT_RESET, 3, 15), tell(FUNNELFAWN_ACT_REM, 3, 16);
    tell(FUNNELFAWN_ACT_TRY, 4, 17), tell(FUNNELFAWN_ACT_TEST, 4, 18), tell(FUNNELFAWN_ACT_SET, 4, 19), tell(FUNNELFAWN_ACT_CHECK, 4, 27);
    CHECK(says(show(30), FUNNELFAWN_OK, 1, 11));
    told = tell(FUNNELFAWN_ACT_CRIT, 4, 28);
    CHECK(says(told.step, FUNNELFAWN_OK, 4, 28) && says(told.board, FUNNELFAWN_REFUSED_BACKWARD, 0, 30) && heads(30, 30, 0, 1));
}

/* Room for the values of a, and for so many steps. */
static struct funnelfawn_reading read_into(const uint8_t *bytes, size_t length, size_t a_room, size_t room)
{
    return funnelfawn_read(bytes, length, read_a, a_room, moments, room, windows, room, acts, room);
}

static struct funnelfawn_reading read_words(const char *words, size_t a_room, size_t room)
{
    return read_into((const uint8_t *)words, strlen(words), a_room, room);
}

/* What was read is n, b, c and these values of a, of which there are n, with zeros above; what lies past them stayed. */
static int has_values(struct funnelfawn_reading read, uint64_t n, uint64_t b, uint64_t c, const uint64_t *a)
{
    size_t above = (size_t)n;

    while (above < FUNNELFAWN_WINDOWS && read_a[above] == 0)
        above++;
    return read.answer.number == FUNNELFAWN_OK && read.n == n && read.b == b && read.c == c &&
           memcmp(read_a, a, (size_t)n * sizeof *a) == 0 && above == FUNNELFAWN_WINDOWS && read_a[FUNNELFAWN_WINDOWS] == FILLED;
}

/* A list to be read into, as it is before. */
static void fill_lists(void)
{
    for (size_t i = 0; i <= FUNNELFAWN_WINDOWS; i++)
        read_a[i] = FILLED;
    for (size_t i = 0; i < FUNNELFAWN_MOST_STEPS; i++)
        moments[i] = windows[i] = acts[i] = FILLED;
}

/* A refused reading: its answer, zeros, and all four lists as they were, however much room they have. */
static int is_refused(const char *words, uint64_t number, uint64_t line)
{
    struct funnelfawn_reading read;
    int kept = 1;

    fill_lists();
    read = read_words(words, FUNNELFAWN_WINDOWS + 1, FUNNELFAWN_MOST_STEPS);
    for (size_t i = 0; i <= FUNNELFAWN_WINDOWS; i++)
        kept = kept && read_a[i] == FILLED && moments[i] == FILLED && windows[i] == FILLED && acts[i] == FILLED;
    return says(read.answer, number, 0, line) && read.n == 0 && read.b == 0 && read.c == 0 && kept &&
           says(read_words(words, 0, 0).answer, number, 0, line);
}

#define FORMER_HEAD "windows,a,b,c\n2,5,8,12\ntime,window,act\n"
#define HEAD "windows,b,c\n2,8,12\nwindow,a\n1,5\n2,7\ntime,window,act\n"

/* The longest recordings there are, of either shape, written, read and replayed in the room that the header tells. Of the former shape there
 * is one step more, and it is not written any more. */
static void longest_recordings(void)
{
    const char *former = "windows,a,b,c\n96,5,8,12\ntime,window,act\n", *line = "0,1,try\n";
    static const uint64_t one[] = {1};
    struct funnelfawn_answer written;
    struct funnelfawn_reading read;
    size_t length = strlen(former);

    memcpy(text, former, length);
    for (; length < FUNNELFAWN_MOST_TEXT; length += strlen(line))
        memcpy(text + length, line, strlen(line));
    fill_lists();
    read = read_into(text, FUNNELFAWN_MOST_TEXT, FUNNELFAWN_WINDOWS, FUNNELFAWN_MOST_STEPS);
    CHECK(has_values(read, 96, 8, 12, fives) && read.answer.moment == FUNNELFAWN_MOST_STEPS);
    CHECK(read_into(text, FUNNELFAWN_MOST_TEXT, FUNNELFAWN_WINDOWS, FUNNELFAWN_MOST_STEPS - 1).answer.number == FUNNELFAWN_REFUSED_SHORT_OUTPUT);
    CHECK(funnelfawn_replay(text, FUNNELFAWN_MOST_TEXT, report, FUNNELFAWN_MOST_REPORT).number == FUNNELFAWN_OK);
    CHECK(FUNNELFAWN_MOST_REPORT == 687734); /* what the contract of `report` tells; no recording needs all of it */
    CHECK(starts(report, "line,answer,window,moment\n4,0,0,0\n5,9,1,0\n"));
    CHECK(funnelfawn_replay(text, FUNNELFAWN_MOST_TEXT, report, 25).number == FUNNELFAWN_REFUSED_SHORT_OUTPUT);
    CHECK(read_into(text, FUNNELFAWN_MOST_TEXT + 1, 0, 0).answer.number == FUNNELFAWN_REFUSED_LENGTH);
    written = funnelfawn_write(read.n, read.b, read.c, read_a, FUNNELFAWN_WINDOWS, moments, FUNNELFAWN_MOST_STEPS, windows,
                               FUNNELFAWN_MOST_STEPS, acts, FUNNELFAWN_MOST_STEPS, report, sizeof report);
    CHECK(says(written, FUNNELFAWN_REFUSED_LENGTH, 0, 0));
    written = funnelfawn_write(1, 2, 10, one, 1, moments, FUNNELFAWN_MOST_STEPS - 1, windows, FUNNELFAWN_MOST_STEPS, acts,
                               FUNNELFAWN_MOST_STEPS, text, FUNNELFAWN_MOST_TEXT);
    CHECK(says(written, FUNNELFAWN_OK, 0, FUNNELFAWN_MOST_TEXT));
    CHECK(starts(text, "windows,b,c\n1,2,10\nwindow,a\n1,1\ntime,window,act\n0,1,try\n"));
    fill_lists();
    read = read_into(text, FUNNELFAWN_MOST_TEXT, FUNNELFAWN_WINDOWS, FUNNELFAWN_MOST_STEPS);
    CHECK(has_values(read, 1, 2, 10, one) && read.answer.moment == FUNNELFAWN_MOST_STEPS - 1 && moments[FUNNELFAWN_MOST_STEPS - 1] == FILLED);
    CHECK(funnelfawn_replay(text, FUNNELFAWN_MOST_TEXT, report, FUNNELFAWN_MOST_REPORT).number == FUNNELFAWN_OK);
    CHECK(starts(report, "line,answer,window,moment\n6,0,0,0\n7,9,1,0\n"));
}

/* Both shapes are read; what is read of either is written in one, out of as many values of a as were read. */
static void shapes(void)
{
    static const uint64_t a[] = {5, 7}, equal[] = {5, 5};
    struct funnelfawn_reading read;
    struct funnelfawn_answer written;

    fill_lists();
    read = read_words(HEAD "0,1,try\n3,2,try\n", FUNNELFAWN_WINDOWS, 2);
    CHECK(has_values(read, 2, 8, 12, a) && says(read.answer, FUNNELFAWN_OK, 0, 2));
    CHECK(moments[1] == 3 && windows[1] == 2 && acts[1] == FUNNELFAWN_ACT_TRY && moments[2] == FILLED);
    fill();
    written = funnelfawn_write(read.n, read.b, read.c, read_a, FUNNELFAWN_WINDOWS, moments, 2, windows, 2, acts, 2, report, sizeof report);
    CHECK(says(written, FUNNELFAWN_OK, 0, strlen(HEAD) + 16) && starts(report, HEAD "0,1,try\n3,2,try\n") && is_filled(strlen(HEAD) + 16));
    fill_lists();
    read = read_words(FORMER_HEAD "0,1,try\n", FUNNELFAWN_WINDOWS + 1, 1);
    CHECK(has_values(read, 2, 8, 12, equal) && says(read.answer, FUNNELFAWN_OK, 0, 1));
    fill();
    written = funnelfawn_write(read.n, read.b, read.c, equal, 2, moments, 1, windows, 1, acts, 1, report, sizeof report);
    CHECK(written.number == FUNNELFAWN_OK);
    CHECK(starts(report, "windows,b,c\n2,8,12\nwindow,a\n1,5\n2,5\ntime,window,act\n0,1,try\n") && is_filled((size_t)written.moment));
    /* room: 96 places for the values, whatever n is, and as many as there are steps */
    fill_lists();
    read = read_words(HEAD "0,1,try\n", FUNNELFAWN_WINDOWS - 1, 1);
    CHECK(says(read.answer, FUNNELFAWN_REFUSED_SHORT_OUTPUT, 0, 0) && read.n == 0 && read_a[0] == FILLED && moments[0] == FILLED);
    read = read_words(FORMER_HEAD "0,1,try\n", 2, 1);
    CHECK(says(read.answer, FUNNELFAWN_REFUSED_SHORT_OUTPUT, 0, 0) && read.b == 0 && read_a[0] == FILLED && moments[0] == FILLED);
    read = read_words(HEAD "0,1,try\n", FUNNELFAWN_WINDOWS, 0);
    CHECK(says(read.answer, FUNNELFAWN_REFUSED_SHORT_OUTPUT, 0, 0) && read.c == 0 && read_a[0] == FILLED && moments[0] == FILLED);
    CHECK(read_words(HEAD, FUNNELFAWN_WINDOWS, 0).answer.number == FUNNELFAWN_OK);
    /* the line of a step that has no form */
    acts[3] = FUNNELFAWN_ACT_WITHDRAW + 1;
    acts[0] = acts[1] = acts[2] = moments[0] = moments[1] = moments[2] = windows[0] = windows[1] = windows[2] = 0;
    CHECK(says(funnelfawn_write(2, 8, 12, a, 2, moments, 4, windows, 4, acts, 4, text, 0), FUNNELFAWN_REFUSED_LINE, 0, 5 + 2 + 3));
    CHECK(says(funnelfawn_write(96, 8, 12, fives, 96, moments, 4, windows, 4, acts, 4, text, 0), FUNNELFAWN_REFUSED_LINE, 0, 5 + 96 + 3));
    CHECK(says(funnelfawn_write(2, 8, 12, fives, 3, moments, 4, windows, 4, acts, 4, text, 0), FUNNELFAWN_REFUSED_LIMITS, 0, 0));
}

/* A fault of the first lines: the reader's answer, which has the line with 13 and 14 alone, and that of spans, which always has it. */
static int is_faulty(const char *words, uint64_t number, uint64_t line)
{
    int told = number == FUNNELFAWN_REFUSED_NAMES || number == FUNNELFAWN_REFUSED_LINE;

    return is_refused(words, number, told ? line : 0) &&
           says(funnelfawn_spans((const uint8_t *)words, strlen(words), NULL, 0), number, 0, line);
}

/* [6.90] In their order, each with a fault behind it that comes later. */
static void faults_of_heads(void)
{
    CHECK(is_faulty("", FUNNELFAWN_REFUSED_NAMES, 1) && is_faulty("windows,b\n", FUNNELFAWN_REFUSED_NAMES, 1));
    CHECK(is_faulty("windows,b,c", FUNNELFAWN_REFUSED_NAMES, 1) && is_faulty("windows,b,c\n", FUNNELFAWN_REFUSED_LINE, 2));
    CHECK(is_faulty("windows,b,c\n2,5,8,12\n", FUNNELFAWN_REFUSED_LINE, 2) && is_faulty("windows,a,b,c\n2,8,12\n", FUNNELFAWN_REFUSED_LINE, 2));
    CHECK(is_faulty("windows,b,c\n97,8,7\nwindow\n", FUNNELFAWN_REFUSED_WINDOW_COUNT, 2));
    CHECK(is_faulty("windows,b,c\n0,8,12\nwindow,a\ntime,window,act\n", FUNNELFAWN_REFUSED_WINDOW_COUNT, 2));
    CHECK(is_faulty("windows,b,c\n2,8,7\nwindow,b\n", FUNNELFAWN_REFUSED_NAMES, 3));
    CHECK(is_faulty("windows,b,c\n2,8,7\ntime,window,act\n", FUNNELFAWN_REFUSED_NAMES, 3));
    CHECK(is_faulty("windows,b,c\n2,8,7\nwindow,a\n", FUNNELFAWN_REFUSED_LINE, 4));
    CHECK(is_faulty("windows,b,c\n2,8,7\nwindow,a\n2,5\n1,5\n", FUNNELFAWN_REFUSED_LINE, 4));
    CHECK(is_faulty("windows,b,c\n2,8,7\nwindow,a\n1,5\n", FUNNELFAWN_REFUSED_LINE, 5));
    CHECK(is_faulty("windows,b,c\n2,8,7\nwindow,a\n1,5\n1,5\n", FUNNELFAWN_REFUSED_LINE, 5));
    CHECK(is_faulty("windows,b,c\n2,8,7\nwindow,a\n1,5\n2,100000000\n", FUNNELFAWN_REFUSED_LINE, 5));
    CHECK(is_faulty("windows,b,c\n2,8,7\nwindow,a\n1,5\ntime,window,act\n", FUNNELFAWN_REFUSED_LINE, 5));
    CHECK(is_faulty("windows,b,c\n2,8,7\nwindow,a\n1,5\n2,7\ntime\n", FUNNELFAWN_REFUSED_LIMITS, 5));
    CHECK(is_faulty("windows,b,c\n2,8,12\nwindow,a\n1,8\n2,7\n", FUNNELFAWN_REFUSED_LIMITS, 5));
    CHECK(is_faulty("windows,b,c\n1,8,12\nwindow,a\n1,0\n", FUNNELFAWN_REFUSED_LIMITS, 4));
    CHECK(is_faulty("windows,b,c\n1,8,12\nwindow,a\n1,99999999\n2,5\n", FUNNELFAWN_REFUSED_LIMITS, 4));
    CHECK(is_faulty("windows,b,c\n2,8,12\nwindow,a\n1,5\n2,7\n", FUNNELFAWN_REFUSED_NAMES, 6));
    CHECK(is_faulty("windows,b,c\n2,8,12\nwindow,a\n1,5\n2,7\n3,7\n", FUNNELFAWN_REFUSED_NAMES, 6));
    CHECK(is_faulty(HEAD "0,1,try\n1,1,sell\n", FUNNELFAWN_REFUSED_LINE, 8) && is_faulty(HEAD "\n", FUNNELFAWN_REFUSED_LINE, 7));
    /* in the former shape the limits are judged at once */
    CHECK(is_faulty("windows,a,b,c\n97,8,8,7\ntime\n", FUNNELFAWN_REFUSED_WINDOW_COUNT, 2));
    CHECK(is_faulty("windows,a,b,c\n2,8,8,12\ntime\n", FUNNELFAWN_REFUSED_LIMITS, 2));
    CHECK(is_faulty("windows,a,b,c\n2,5,8,12\nwindow,a\n", FUNNELFAWN_REFUSED_NAMES, 3));
    CHECK(is_faulty(FORMER_HEAD "0,1,try\n1,1,sell\n", FUNNELFAWN_REFUSED_LINE, 5));
}

static struct funnelfawn_answer spans_of(const char *words, uint8_t *out, size_t room)
{
    return funnelfawn_spans((const uint8_t *)words, strlen(words), out, room);
}

/* A recording and its spans: into no byte, one too few, just enough, some more, as many as the recording has, and the most there can be.
 * Whatever the room, the bytes that the text does not need stay. */
static void has_spans(const char *recording, const char *due)
{
    const size_t length = strlen(due), rooms[] = {length, length + 1, length + 9, strlen(recording), FUNNELFAWN_MOST_TEXT};

    fill();
    CHECK(says(spans_of(recording, NULL, 0), FUNNELFAWN_REFUSED_SHORT_OUTPUT, 0, 0));
    CHECK(says(spans_of(recording, report, length - 1), FUNNELFAWN_REFUSED_SHORT_OUTPUT, 0, 0) && is_filled(0));
    for (size_t i = 0; i < sizeof rooms / sizeof rooms[0]; i++) {
        fill();
        CHECK(says(spans_of(recording, report, rooms[i]), FUNNELFAWN_OK, 0, length));
        CHECK(starts(report, due) && is_filled(length));
    }
}

#define WHOLE_CASE \
    "0,1,try\n3,1,test\n3,2,try\n4,2,test\n8,1,set\n9,2,set\n15,1,check\n16,1,check\n18,2,check\n24,0,wait\n20,1,test\n20,2,crit\n19,0,wait\n"

#define REFUSED_BETWEEN \
    "0,1,try\n1,1,test\n2,1,set\n10,1,check\n10,2,crit\n12,1,crit\n11,1,exit\n13,2,exit\n16,1,exit\n18,1,reset\n18,2,try\n20,2,test\n" \
    "21,2,set\n22,1,rem\n29,2,check\n31,2,crit\n"

/* [11.100], [11.105], [11.110]; a span of no time at all, and acts that are refused; the last moment that there is; and two windows of
 * different age, of which the older one is let in when the other would be late. */
static void spans(void)
{
    has_spans(FORMER_HEAD, "window,from,to\n");
    has_spans(HEAD, "window,from,to\n");
    has_spans(FORMER_HEAD WHOLE_CASE, "window,from,to\n2,20,-\n");
    has_spans("windows,b,c\n2,8,12\nwindow,a\n1,5\n2,5\ntime,window,act\n" WHOLE_CASE, "window,from,to\n2,20,-\n");
    has_spans(FORMER_HEAD REFUSED_BETWEEN, "window,from,to\n1,12,16\n2,31,-\n");
    has_spans(HEAD "0,2,try\n0,2,test\n0,2,set\n8,2,check\n8,2,crit\n8,2,crit\n7,2,exit\n8,1,exit\n8,2,exit\n8,2,exit\n",
              "window,from,to\n2,8,8\n");
    has_spans("windows,a,b,c\n96,5,8,12\ntime,window,act\n999999999992,96,try\n999999999992,96,test\n999999999992,96,set\n"
              "1000000000000,96,check\n1000000000000,96,crit\n1000000000001,96,exit\n1000000000000,96,exit\n",
              "window,from,to\n96,1000000000000,1000000000000\n");
    has_spans(HEAD "0,1,try\n0,1,test\n0,1,set\n8,1,check\n14,1,crit\n13,1,crit\n20,1,exit\n20,1,reset\n20,1,rem\n20,2,try\n20,2,test\n20,2,set\n"
                   "28,2,check\n35,2,crit\n",
              "window,from,to\n1,13,20\n2,35,-\n");
}

/* The fault comes before a short output, carries the line that `replay` prints, and leaves all bytes. */
static int has_fault(const char *recording, uint64_t number, uint64_t line)
{
    fill();
    return says(spans_of(recording, NULL, 0), number, 0, line) &&
           says(spans_of(recording, report, sizeof report), number, 0, line) && is_filled(0);
}

static void faults_of_spans(void)
{
    CHECK(says(funnelfawn_spans(NULL, 0, NULL, 0), FUNNELFAWN_REFUSED_NAMES, 0, 1));
    CHECK(has_fault("", FUNNELFAWN_REFUSED_NAMES, 1) && has_fault("window,from,to\n", FUNNELFAWN_REFUSED_NAMES, 1));
    CHECK(has_fault("windows,a,b,c\n2,5,8,012\n", FUNNELFAWN_REFUSED_LINE, 2));
    CHECK(has_fault("windows,a,b,c\n97,5,5,12\n", FUNNELFAWN_REFUSED_WINDOW_COUNT, 2));
    CHECK(has_fault("windows,a,b,c\n96,5,5,12\n", FUNNELFAWN_REFUSED_LIMITS, 2));
    CHECK(has_fault("windows,b,c\n2,5,12\nwindow,a\n1,4\n2,5\n", FUNNELFAWN_REFUSED_LIMITS, 5));
    CHECK(has_fault("windows,a,b,c\n2,5,8,12\ntime,window\n", FUNNELFAWN_REFUSED_NAMES, 3));
    CHECK(has_fault(FORMER_HEAD "0,1,try\n1,1,test", FUNNELFAWN_REFUSED_LINE, 5));
    CHECK(has_fault(HEAD "0,1,try\n1,1,test\n2,1,sell\n", FUNNELFAWN_REFUSED_LINE, 9));
}

/* The longest recording there is, with room for just its spans and with as much as the header tells; one byte more is too long. */
static void longest_spans(void)
{
    const char *head = "windows,a,b,c\n96,5,8,12\ntime,window,act\n", *line = "0,1,try\n", *names = "window,from,to\n";
    size_t length = strlen(head);

    memcpy(text, head, length);
    for (; length < FUNNELFAWN_MOST_TEXT; length += strlen(line))
        memcpy(text + length, line, strlen(line));
    CHECK(length == FUNNELFAWN_MOST_TEXT);
    CHECK(says(funnelfawn_spans(text, length, report, 15), FUNNELFAWN_OK, 0, 15) && starts(report, names));
    fill();
    CHECK(says(funnelfawn_spans(text, length, report, FUNNELFAWN_MOST_TEXT), FUNNELFAWN_OK, 0, 15));
    CHECK(starts(report, names) && is_filled(15));
    fill();
    CHECK(says(funnelfawn_spans(text, length + 1, report, sizeof report), FUNNELFAWN_REFUSED_LENGTH, 0, 0));
    CHECK(says(funnelfawn_spans(text, length + 1, NULL, 0), FUNNELFAWN_REFUSED_LENGTH, 0, 0) && is_filled(0));
}

/* The three numbers of a comparison, one behind the other; that the last has a sign, the shifts below show. */
static void comparison_layout(void)
{
    CHECK(sizeof(struct funnelfawn_comparison) == 24 && offsetof(struct funnelfawn_comparison, number) == 0);
    CHECK(offsetof(struct funnelfawn_comparison, window) == 8 && offsetof(struct funnelfawn_comparison, shift) == 16);
    CHECK(FUNNELFAWN_MOST_SHIFT == 1000000);
}

/* A notebook of so many moments and so many acts. */
struct notebook {
    uint64_t moments[4], acts[4];
    size_t moments_length, acts_length;
};

static struct funnelfawn_comparison compare(struct notebook till, struct notebook other, uint64_t d, uint64_t e)
{
    const struct notebook lent[] = {till, other};
    struct funnelfawn_comparison found =
        funnelfawn_compare_logs(till.moments, till.moments_length, till.acts, till.acts_length, other.moments, other.moments_length,
                                other.acts, other.acts_length, d, e);

    CHECK(memcmp(&lent[0], &till, sizeof till) == 0 && memcmp(&lent[1], &other, sizeof other) == 0 && found.window == 0);
    return found;
}

static int agrees(struct notebook till, struct notebook other, uint64_t d, uint64_t e, int64_t shift)
{
    struct funnelfawn_comparison found = compare(till, other, d, e);

    return found.number == FUNNELFAWN_OK && found.shift == shift;
}

static int differs(struct notebook till, struct notebook other, uint64_t d, uint64_t e, uint64_t number)
{
    struct funnelfawn_comparison found = compare(till, other, d, e);

    return found.number == number && found.shift == 0;
}

/* [13.150] [13.155] A clock that is behind, one that is ahead, and notes that are shaken; from one end of the shifts to the other. */
static void shifts(void)
{
    const struct notebook till = {{18800, 19800, 23800}, {1, 2, 3}, 3, 3}, other = {{20000, 21000, 25000}, {1, 2, 3}, 3, 3};
    const struct notebook shaken = {{20000, 21060, 24970}, {1, 2, 3}, 3, 3};
    const struct notebook first = {{0}, {1}, 1, 1}, last = {{FUNNELFAWN_MOST_SHIFT}, {1}, 1, 1};

    CHECK(agrees(till, other, 5000, 0, 1200) && agrees(till, other, 5000, 100, 1100));
    CHECK(differs(till, other, 1000, 100, FUNNELFAWN_REFUSED_NO_SHIFT) && agrees(till, other, 1000, 200, 1000));
    CHECK(agrees(other, till, 5000, 100, -1300) && agrees(other, till, 5000, 0, -1200));
    CHECK(agrees(till, shaken, 5000, 45, 1215) && differs(till, shaken, 5000, 44, FUNNELFAWN_REFUSED_NO_SHIFT));
    CHECK(agrees(first, last, FUNNELFAWN_MOST_SHIFT, 0, FUNNELFAWN_MOST_SHIFT) && agrees(last, first, FUNNELFAWN_MOST_SHIFT, 0, -FUNNELFAWN_MOST_SHIFT));
    CHECK(differs(first, last, FUNNELFAWN_MOST_SHIFT - 1, 0, FUNNELFAWN_REFUSED_NO_SHIFT) && agrees(first, last, FUNNELFAWN_MOST_SHIFT - 1, 1, 999999));
    CHECK(agrees(first, last, 0, FUNNELFAWN_MOST_SHIFT, 0) && agrees(last, last, FUNNELFAWN_MOST_SHIFT, FUNNELFAWN_MOST_SHIFT, -FUNNELFAWN_MOST_SHIFT));
}

/* [13.75] [13.160] Which number comes first, and which places count. */
static void notebook_refusals(void)
{
    const uint64_t end = UINT64_C(1000000000000), most = FUNNELFAWN_MOST_SHIFT;
    const struct notebook none = {{0}, {0}, 0, 0}, till = {{7, end + 1}, {1, 2}, 2, 2}, other = {{7, 8}, {1, 3}, 2, 2};
    struct notebook edited = till;

    CHECK(differs(till, other, 5, 0, FUNNELFAWN_REFUSED_BOUNDS) && differs(other, till, 5, 0, FUNNELFAWN_REFUSED_BOUNDS));
    /* what the shorter list leaves out, be it of the acts or of the moments */
    edited.acts_length = 1;
    CHECK(differs(edited, other, 5, 0, FUNNELFAWN_REFUSED_OTHER_ACTS) && agrees(edited, (struct notebook){{7}, {1}, 1, 4}, 5, 0, 0));
    edited.acts_length = 2, edited.moments_length = 1;
    CHECK(differs(edited, other, 5, 0, FUNNELFAWN_REFUSED_OTHER_ACTS) && agrees((struct notebook){{7}, {1}, 4, 1}, edited, 5, 0, 0));
    edited = till, edited.moments[1] = end;
    CHECK(differs(edited, other, 5, 0, FUNNELFAWN_REFUSED_OTHER_ACTS) && agrees(edited, edited, 5, 2, -2));
    edited.acts[0] = edited.acts[1] = UINT64_MAX;
    CHECK(agrees(edited, edited, 5, 0, 0) && differs(edited, till, 5, 0, FUNNELFAWN_REFUSED_BOUNDS));
    CHECK(differs(none, none, most + 1, 0, FUNNELFAWN_REFUSED_BOUNDS) && differs(none, none, 0, most + 1, FUNNELFAWN_REFUSED_BOUNDS));
    CHECK(differs(none, none, UINT64_MAX, 0, FUNNELFAWN_REFUSED_BOUNDS) && differs(none, none, 0, UINT64_MAX, FUNNELFAWN_REFUSED_BOUNDS));
    CHECK(agrees(none, none, most, most, -FUNNELFAWN_MOST_SHIFT) && agrees(none, none, 5, 0, -5) && agrees(none, none, 0, 0, 0));
    CHECK(differs(none, other, 5, 0, FUNNELFAWN_REFUSED_OTHER_ACTS) && differs(other, none, 5, 0, FUNNELFAWN_REFUSED_OTHER_ACTS));
    CHECK(funnelfawn_compare_logs(NULL, 0, NULL, 0, NULL, 0, NULL, 0, 3, 2).shift == -3);
}

/* The accepted acts of a window, into two lists of so many places. */
static struct funnelfawn_answer accepted_into(const char *words, uint64_t window, size_t moments_room, size_t acts_room)
{
    fill_lists();
    return funnelfawn_accepted_acts((const uint8_t *)words, strlen(words), window, moments, moments_room, acts, acts_room);
}

/* So many places of both lists hold these, and the others are as they were. */
static int has_notes(const uint64_t *due_moments, const uint64_t *due_acts, size_t count)
{
    size_t i = 0;

    while (i < count && moments[i] == due_moments[i] && acts[i] == due_acts[i])
        i++;
    while (i >= count && i < FUNNELFAWN_MOST_STEPS && moments[i] == FILLED && acts[i] == FILLED)
        i++;
    return i == FUNNELFAWN_MOST_STEPS;
}

/* [13.165] What is refused is not there; how much room there has to be, and in what order the refusals come. */
static void accepted_acts(void)
{
    static const uint64_t moments_of_1[] = {0, 1, 2, 10, 12, 16, 18, 22}, acts_of_1[] = {1, 2, 3, 4, 5, 6, 7, 8};
    static const uint64_t moments_of_2[] = {18, 20, 21, 29, 31}, *const acts_of_2 = acts_of_1;
    const size_t most = FUNNELFAWN_MOST_STEPS;

    CHECK(says(accepted_into(FORMER_HEAD REFUSED_BETWEEN, 1, most, most), FUNNELFAWN_OK, 0, 8) && has_notes(moments_of_1, acts_of_1, 8));
    CHECK(says(accepted_into(FORMER_HEAD REFUSED_BETWEEN, 2, most, most), FUNNELFAWN_OK, 0, 5) && has_notes(moments_of_2, acts_of_2, 5));
    CHECK(says(accepted_into(FORMER_HEAD REFUSED_BETWEEN, 1, 8, 9), FUNNELFAWN_OK, 0, 8) && has_notes(moments_of_1, acts_of_1, 8));
    CHECK(says(accepted_into(FORMER_HEAD REFUSED_BETWEEN, 1, 7, 8), FUNNELFAWN_REFUSED_SHORT_OUTPUT, 0, 0) && has_notes(NULL, NULL, 0));
    CHECK(says(accepted_into(FORMER_HEAD REFUSED_BETWEEN, 1, 8, 7), FUNNELFAWN_REFUSED_SHORT_OUTPUT, 0, 0) && has_notes(NULL, NULL, 0));
    CHECK(says(accepted_into(FORMER_HEAD REFUSED_BETWEEN, 0, most, most), FUNNELFAWN_REFUSED_NO_WINDOW, 0, 0) && has_notes(NULL, NULL, 0));
    CHECK(says(accepted_into(FORMER_HEAD REFUSED_BETWEEN, 3, 0, 0), FUNNELFAWN_REFUSED_NO_WINDOW, 0, 0) && has_notes(NULL, NULL, 0));
    CHECK(says(accepted_into(FORMER_HEAD "0,0,wait\n", 1, 0, 0), FUNNELFAWN_OK, 0, 0) && has_notes(NULL, NULL, 0));
    /* the fault comes first, with the line that spans have */
    CHECK(says(accepted_into("windows,b,c\n2,5,12\nwindow,a\n1,4\n2,5\n", 3, 0, 0), FUNNELFAWN_REFUSED_LIMITS, 0, 5));
    CHECK(says(accepted_into("windows,b,c\n97,5,12\n", 98, most, most), FUNNELFAWN_REFUSED_WINDOW_COUNT, 0, 2) && has_notes(NULL, NULL, 0));
    CHECK(says(accepted_into(HEAD "0,1,try\n1,1,sell\n", 1, most, most), FUNNELFAWN_REFUSED_LINE, 0, 8) && has_notes(NULL, NULL, 0));
    CHECK(says(funnelfawn_accepted_acts(NULL, 0, 1, NULL, 0, NULL, 0), FUNNELFAWN_REFUSED_NAMES, 0, 1));
}

/* As many as there can be, or nearly: window 1 tests again and again at 0, as window 2 has set the word. One byte more is too long. */
static void most_accepted_acts(void)
{
    const char *head = FORMER_HEAD "0,2,try\n0,2,test\n0,2,set\n0,1,try\n", *line = "0,1,test\n";
    size_t length = strlen(head), count = 1;

    memcpy(text, head, length);
    for (; length + strlen(line) <= FUNNELFAWN_MOST_TEXT; length += strlen(line), count++)
        memcpy(text + length, line, strlen(line));
    fill_lists();
    CHECK(says(funnelfawn_accepted_acts(text, length, 1, moments, count - 1, acts, count), FUNNELFAWN_REFUSED_SHORT_OUTPUT, 0, 0));
    CHECK(has_notes(NULL, NULL, 0));
    CHECK(says(funnelfawn_accepted_acts(text, length, 1, moments, FUNNELFAWN_MOST_STEPS, acts, FUNNELFAWN_MOST_STEPS), FUNNELFAWN_OK, 0, count));
    CHECK(moments[count - 1] == 0 && acts[0] == FUNNELFAWN_ACT_TRY && acts[count - 1] == FUNNELFAWN_ACT_TEST && acts[count] == FILLED);
    CHECK(says(funnelfawn_accepted_acts(text, sizeof text, 0, moments, 0, acts, 0), FUNNELFAWN_REFUSED_LENGTH, 0, 0));
}

int main(void)
{
    for (size_t i = 0; i < FUNNELFAWN_WINDOWS; i++)
        fives[i] = 5;
    layout();
    round_of_96();
    withdrawal();
    refusals();
    lengths();
    own_limits();
    values_of_a();
    sound_values();
    stored_with_layout_2();
    deadlines_of_96();
    refusals_by_deadlines();
    sound_deadlines();
    lengths_of_deadlines();
    ring();
    board_refusals();
    tellings();
    longest_recordings();
    shapes();
    faults_of_heads();
    spans();
    faults_of_spans();
    longest_spans();
    comparison_layout();
    shifts();
    notebook_refusals();
    accepted_acts();
    most_accepted_acts();
    return say_checks("the header");
}
