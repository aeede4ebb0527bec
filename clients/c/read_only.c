/* What the steps write, tried on memory that can only be read: a refused one writes nothing but the count of refused acts, and an accepted
 * one nothing but its own numbers and, where time goes unused, waits. So it is with the step of the second engine, which counts nothing; the
 * calls between the two kinds of table, and those for a fresh one, write a whole one or nothing; the values of a are only read, but where a
 * reading puts them; and notebooks are only read, but where accepted acts are put. A fault is a check that fails. Each check names the line
 * that fails; the last line counts them. */
#define _DEFAULT_SOURCE

#include "funnelfawn.h"

#include <inttypes.h>
#include <setjmp.h>
#include <signal.h>
#include <stdio.h>
#include <stdlib.h>
#include <string.h>
#include <sys/mman.h>

static unsigned checks, failures;

static void check(int holds, int line, const char *what, uint64_t number)
{
    checks++;
    if (!holds) {
        failures++;
        printf("line %d does not hold: %s, %" PRIu64 "\n", line, what, number);
    }
}

/* The number tells the case, where there are several. */
#define CHECK(holds, what, number) check((holds), __LINE__, what, number)

/* Two stretches of memory side by side, of which each can be closed to writing. A list is laid across the seam: so many numbers before it,
 * the rest behind it. */
enum { STRETCH = 32768 };

struct ground {
    char *seam;
    uint64_t *list;
    size_t length;
};

static struct ground table, deadlines, summary, board, values, times;

/* The lists of two notebooks, a till's moments and acts and then the box's, of which accepted acts take the last two. */
static struct ground notes[4];

static void need(int done)
{
    if (!done) {
        perror("read_only");
        exit(1);
    }
}

static void reserve(struct ground *ground)
{
    char *start = mmap(NULL, 2 * STRETCH, PROT_READ | PROT_WRITE, MAP_PRIVATE | MAP_ANONYMOUS, -1, 0);

    need(start != MAP_FAILED);
    ground->seam = start + STRETCH;
}

static void protect(char *stretch, int protection)
{
    need(mprotect(stretch, STRETCH, protection) == 0);
}

/* Which numbers of a list may be written. */
enum writable { ALL, NONE, BEFORE, BEHIND };

/* Of a list that may not be written at all the end lies at the seam, and what is behind it may not be read either. */
static void lay(struct ground *ground, const uint64_t *numbers, size_t length, enum writable writable, size_t before)
{
    if (writable == NONE)
        before = length;
    protect(ground->seam - STRETCH, PROT_READ | PROT_WRITE);
    protect(ground->seam, PROT_READ | PROT_WRITE);
    ground->list = (uint64_t *)ground->seam - before;
    ground->length = length;
    if (length != 0)
        memcpy(ground->list, numbers, length * sizeof *numbers);
    if (writable == NONE || writable == BEHIND)
        protect(ground->seam - STRETCH, PROT_READ);
    if (writable == NONE)
        protect(ground->seam, PROT_NONE);
    if (writable == BEFORE)
        protect(ground->seam, PROT_READ);
}

static int holds(const struct ground *ground, const uint64_t *numbers)
{
    return memcmp(ground->list, numbers, ground->length * sizeof *numbers) == 0;
}

/* The calls on what is laid out. Where one faults the answer is one that no call gives. */
enum { FAULTED = 99 };

static sigjmp_buf before_the_call;

static void leave_the_call(int signal)
{
    (void)signal;
    siglongjmp(before_the_call, 1);
}

struct act {
    uint64_t act, window, moment;
};

static uint64_t step(struct act act)
{
    if (sigsetjmp(before_the_call, 1) != 0)
        return FAULTED;
    return funnelfawn_step(table.list, table.length, act.act, act.window, act.moment).number;
}

static uint64_t record(struct act act)
{
    if (sigsetjmp(before_the_call, 1) != 0)
        return FAULTED;
    return funnelfawn_record(table.list, table.length, summary.list, summary.length, act.act, act.window, act.moment).number;
}

static uint64_t record_and_tell(struct act act)
{
    if (sigsetjmp(before_the_call, 1) != 0)
        return FAULTED;
    return funnelfawn_record_and_tell(table.list, table.length, summary.list, summary.length, board.list, board.length, act.act, act.window,
                                      act.moment)
        .step.number;
}

static uint64_t step_deadlines(struct act act)
{
    if (sigsetjmp(before_the_call, 1) != 0)
        return FAULTED;
    return funnelfawn_step_deadlines(deadlines.list, deadlines.length, act.act, act.window, act.moment).number;
}

static uint64_t to_deadlines(void)
{
    if (sigsetjmp(before_the_call, 1) != 0)
        return FAULTED;
    return funnelfawn_to_deadlines(table.list, table.length, deadlines.list, deadlines.length).number;
}

static uint64_t to_arrivals(void)
{
    if (sigsetjmp(before_the_call, 1) != 0)
        return FAULTED;
    return funnelfawn_to_arrivals(deadlines.list, deadlines.length, table.list, table.length).number;
}

/* Of two windows, with the values of a that are laid out. */
static uint64_t fresh(uint64_t n)
{
    if (sigsetjmp(before_the_call, 1) != 0)
        return FAULTED;
    return funnelfawn_fresh(n, 8, 12, values.list, values.length, table.list, table.length).number;
}

static uint64_t fresh_deadlines(uint64_t n)
{
    if (sigsetjmp(before_the_call, 1) != 0)
        return FAULTED;
    return funnelfawn_fresh_deadlines(n, 8, 12, values.list, values.length, deadlines.list, deadlines.length).number;
}

/* A recording without a step. */
static uint64_t write_values(uint64_t n, uint8_t *out, size_t room)
{
    if (sigsetjmp(before_the_call, 1) != 0)
        return FAULTED;
    return funnelfawn_write(n, 8, 12, values.list, values.length, NULL, 0, NULL, 0, NULL, 0, out, room).number;
}

/* Steps go to the times that are laid out, and their windows and acts to lists that can be written. */
static uint64_t read_text(const char *text)
{
    uint64_t windows[2], acts[2];

    if (sigsetjmp(before_the_call, 1) != 0)
        return FAULTED;
    return funnelfawn_read((const uint8_t *)text, strlen(text), values.list, values.length, times.list, times.length, windows, 2, acts, 2)
        .answer.number;
}

static uint64_t compare(void)
{
    if (sigsetjmp(before_the_call, 1) != 0)
        return FAULTED;
    return funnelfawn_compare_logs(notes[0].list, notes[0].length, notes[1].list, notes[1].length, notes[2].list, notes[2].length,
                                   notes[3].list, notes[3].length, 10, 1)
        .number;
}

static uint64_t accept(const char *text, uint64_t window)
{
    if (sigsetjmp(before_the_call, 1) != 0)
        return FAULTED;
    return funnelfawn_accepted_acts((const uint8_t *)text, strlen(text), window, notes[2].list, notes[2].length, notes[3].list, notes[3].length)
        .number;
}

/* The two recorded steps, which have to write the same as long as no crit is accepted. */
static uint64_t (*const recorded[])(struct act) = {record, record_and_tell};

/* The table of the refusals: of two windows, which have an a of 4 and of 5, 1 came to checking at 0 and 2 to testing at 5, and the clock is at
 * 6. Both are trying and nobody sells, so that an accepted act past 6 would raise what they have waited. The deadline table that matches it;
 * and a summary, and a board. */
static uint64_t numbers[FUNNELFAWN_TABLE_LENGTH], moments[FUNNELFAWN_DEADLINES_LENGTH];
static uint64_t counts[FUNNELFAWN_SUMMARY_LENGTH], entries[FUNNELFAWN_BOARD_LENGTH];

static void start(void)
{
    static const struct act acts[] = {
        {FUNNELFAWN_ACT_TRY, 1, 0}, {FUNNELFAWN_ACT_TEST, 1, 0}, {FUNNELFAWN_ACT_SET, 1, 0},
        {FUNNELFAWN_ACT_TRY, 2, 5}, {FUNNELFAWN_ACT_WAIT, 0, 6},
    };
    static const uint64_t a[] = {4, 5};

    CHECK(funnelfawn_fresh(2, 8, 12, a, 2, numbers, FUNNELFAWN_TABLE_LENGTH).number == FUNNELFAWN_OK, "fresh", 0);
    CHECK(funnelfawn_new_summary(counts, FUNNELFAWN_SUMMARY_LENGTH).number == FUNNELFAWN_OK, "new summary", 0);
    CHECK(funnelfawn_set_up_board(30, entries, FUNNELFAWN_BOARD_LENGTH).number == FUNNELFAWN_OK, "set up board", 0);
    for (size_t i = 0; i < sizeof acts / sizeof acts[0]; i++)
        CHECK(funnelfawn_record(numbers, FUNNELFAWN_TABLE_LENGTH, counts, FUNNELFAWN_SUMMARY_LENGTH, acts[i].act, acts[i].window,
                                acts[i].moment)
                      .number == FUNNELFAWN_OK,
              "act", i);
    CHECK(counts[FUNNELFAWN_AT_WAITED] == 6 && counts[FUNNELFAWN_AT_WAITED + 1] == 1, "the waits", 0);
    CHECK(funnelfawn_to_deadlines(numbers, FUNNELFAWN_TABLE_LENGTH, moments, FUNNELFAWN_DEADLINES_LENGTH).number == FUNNELFAWN_OK,
          "to deadlines", 0);
}

/* A wait that would be accepted, were table and summary sound. */
static const struct act a_wait = {FUNNELFAWN_ACT_WAIT, 0, 7};

/* Nothing of this table and this summary can be written: the answer comes all the same. */
static void refused_whole(const uint64_t *tabled, size_t tabled_length, const uint64_t *counted, size_t counted_length, uint64_t number,
                          const char *what)
{
    for (size_t i = 0; i < sizeof recorded / sizeof recorded[0]; i++) {
        lay(&table, tabled, tabled_length, NONE, 0);
        lay(&summary, counted, counted_length, NONE, 0);
        lay(&board, entries, FUNNELFAWN_BOARD_LENGTH, NONE, 0);
        CHECK(recorded[i](a_wait) == number, what, number);
    }
}

/* [4.1] Tables that are not sound, in one number each, and too short ones. */
static void no_table(void)
{
    static const struct { size_t place; uint64_t number; } damage[] = {
        {FUNNELFAWN_AT_N, 0},
        {FUNNELFAWN_AT_N, 97},
        {FUNNELFAWN_AT_B, 5},
        {FUNNELFAWN_AT_B, 13},
        {FUNNELFAWN_AT_C, 10000001},
        {FUNNELFAWN_AT_CLOCK, UINT64_C(1000000000001)},
        {FUNNELFAWN_AT_WORD, 3},
        {FUNNELFAWN_AT_LIMITS, 8},
        {FUNNELFAWN_AT_LIMITS, 0},
        {FUNNELFAWN_AT_LIMITS + 1, UINT64_MAX},
        {FUNNELFAWN_AT_LIMITS + 2, 5},
        {FUNNELFAWN_HEADER_LENGTH - 1, 5},
        {FUNNELFAWN_HEADER_LENGTH, 8},
        {FUNNELFAWN_HEADER_LENGTH + 1, 7},
        {FUNNELFAWN_HEADER_LENGTH + 2 * FUNNELFAWN_STRIDE, 5},
        {FUNNELFAWN_TABLE_LENGTH - 1, 1},
    };
    static const size_t lengths[] = {0, 1, FUNNELFAWN_AT_LIMITS, FUNNELFAWN_HEADER_LENGTH, FUNNELFAWN_TABLE_LENGTH - 1};

    for (size_t i = 0; i < sizeof damage / sizeof damage[0]; i++) {
        uint64_t damaged[FUNNELFAWN_TABLE_LENGTH];

        memcpy(damaged, numbers, sizeof damaged);
        damaged[damage[i].place] = damage[i].number;
        lay(&table, damaged, FUNNELFAWN_TABLE_LENGTH, NONE, 0);
        lay(&deadlines, moments, FUNNELFAWN_DEADLINES_LENGTH, NONE, 0);
        CHECK(step(a_wait) == FUNNELFAWN_REFUSED_NO_TABLE, "a step on a damaged table", i);
        CHECK(to_deadlines() == FUNNELFAWN_REFUSED_NO_TABLE, "a damaged table to deadlines", i);
        refused_whole(damaged, FUNNELFAWN_TABLE_LENGTH, counts, FUNNELFAWN_SUMMARY_LENGTH, FUNNELFAWN_REFUSED_NO_TABLE, "a damaged table");
    }
    for (size_t i = 0; i < sizeof lengths / sizeof lengths[0]; i++) {
        lay(&table, numbers, lengths[i], NONE, 0);
        CHECK(step(a_wait) == FUNNELFAWN_REFUSED_NO_TABLE, "a step on a short table", i);
        CHECK(to_deadlines() == FUNNELFAWN_REFUSED_NO_TABLE, "a short table to deadlines", i);
        refused_whole(numbers, lengths[i], counts, FUNNELFAWN_SUMMARY_LENGTH, FUNNELFAWN_REFUSED_NO_TABLE, "a short table");
    }
}

/* [12.115] [12.30] Deadline tables that are none or not sound, in one number each: neither they nor the table that lies ready for what matches
 * can be written. Window 1 may check from 8 to 12, and window 2 test from 5 to 10. */
static void no_deadlines(void)
{
    static const struct { size_t place; uint64_t number; } damage[] = {
        {FUNNELFAWN_AT_N, 0},
        {FUNNELFAWN_AT_N, 97},
        {FUNNELFAWN_AT_B, 5},
        {FUNNELFAWN_AT_B, 9},
        {FUNNELFAWN_AT_C, 11},
        {FUNNELFAWN_AT_C, 10000001},
        {FUNNELFAWN_AT_CLOCK, 4},
        {FUNNELFAWN_AT_CLOCK, 11},
        {FUNNELFAWN_AT_CLOCK, UINT64_C(1000000000001)},
        {FUNNELFAWN_AT_WORD, 3},
        {FUNNELFAWN_AT_LIMITS, 8},
        {FUNNELFAWN_AT_LIMITS, 0},
        {FUNNELFAWN_AT_LIMITS + 1, 4},
        {FUNNELFAWN_AT_LIMITS + 1, 6},
        {FUNNELFAWN_AT_LIMITS + 2, 5},
        {FUNNELFAWN_HEADER_LENGTH - 1, 5},
        {FUNNELFAWN_HEADER_LENGTH, 8},
        {FUNNELFAWN_HEADER_LENGTH, 4},
        {FUNNELFAWN_HEADER_LENGTH + 1, 9},
        {FUNNELFAWN_HEADER_LENGTH + 2, UINT64_MAX},
        {FUNNELFAWN_HEADER_LENGTH + FUNNELFAWN_DEADLINES_STRIDE + 1, 6},
        {FUNNELFAWN_HEADER_LENGTH + 2 * FUNNELFAWN_DEADLINES_STRIDE, 5},
        {FUNNELFAWN_DEADLINES_LENGTH - 2, 1},
        {FUNNELFAWN_DEADLINES_LENGTH - 1, 1},
    };

    lay(&table, numbers, FUNNELFAWN_TABLE_LENGTH, NONE, 0);
    for (size_t i = 0; i < sizeof damage / sizeof damage[0]; i++) {
        uint64_t damaged[FUNNELFAWN_DEADLINES_LENGTH];

        memcpy(damaged, moments, sizeof damaged);
        damaged[damage[i].place] = damage[i].number;
        lay(&deadlines, damaged, FUNNELFAWN_DEADLINES_LENGTH, NONE, 0);
        CHECK(step_deadlines(a_wait) == FUNNELFAWN_REFUSED_NO_TABLE, "a step on a damaged deadline table", i);
        CHECK(to_arrivals() == FUNNELFAWN_REFUSED_NO_TABLE, "a damaged deadline table to arrivals", i);
    }
}

/* [12.115] Deadline tables that are too short, likewise. */
static void short_deadlines(void)
{
    static const size_t lengths[] = {
        0, 1, FUNNELFAWN_AT_LIMITS, FUNNELFAWN_HEADER_LENGTH, FUNNELFAWN_TABLE_LENGTH, FUNNELFAWN_DEADLINES_LENGTH - 1,
    };

    lay(&table, numbers, FUNNELFAWN_TABLE_LENGTH, NONE, 0);
    for (size_t i = 0; i < sizeof lengths / sizeof lengths[0]; i++) {
        lay(&deadlines, moments, lengths[i], NONE, 0);
        CHECK(step_deadlines(a_wait) == FUNNELFAWN_REFUSED_NO_TABLE, "a step on a short deadline table", i);
        CHECK(to_arrivals() == FUNNELFAWN_REFUSED_NO_TABLE, "a short deadline table to arrivals", i);
    }
}

/* [12.140] From one kind of table to the other: what is read cannot be written, and nor can a list that is too short, or what lies behind the
 * numbers of the other table in one that is longer. */
static void to_and_fro(void)
{
    static const size_t lengths[] = {0, 1, FUNNELFAWN_HEADER_LENGTH, FUNNELFAWN_TABLE_LENGTH - 1};
    uint64_t longer[FUNNELFAWN_DEADLINES_LENGTH + 3] = {0};

    for (size_t i = 0; i < sizeof lengths / sizeof lengths[0]; i++) {
        lay(&table, numbers, FUNNELFAWN_TABLE_LENGTH, NONE, 0);
        lay(&deadlines, longer, lengths[i], NONE, 0);
        CHECK(to_deadlines() == FUNNELFAWN_REFUSED_SHORT_OUTPUT, "too short for deadlines", i);
        lay(&table, longer, lengths[i], NONE, 0);
        lay(&deadlines, moments, FUNNELFAWN_DEADLINES_LENGTH, NONE, 0);
        CHECK(to_arrivals() == FUNNELFAWN_REFUSED_SHORT_OUTPUT, "too short for arrivals", i);
    }
    lay(&table, longer, FUNNELFAWN_TABLE_LENGTH + 3, BEFORE, FUNNELFAWN_TABLE_LENGTH);
    CHECK(to_arrivals() == FUNNELFAWN_OK, "the numbers behind a table", 0);
    memcpy(longer, numbers, sizeof numbers);
    CHECK(holds(&table, longer), "the table that matches", 0);
    lay(&table, numbers, FUNNELFAWN_TABLE_LENGTH, NONE, 0);
    lay(&deadlines, longer, FUNNELFAWN_DEADLINES_LENGTH - 1, NONE, 0);
    CHECK(to_deadlines() == FUNNELFAWN_REFUSED_SHORT_OUTPUT, "too short for deadlines", FUNNELFAWN_DEADLINES_LENGTH - 1);
    lay(&deadlines, longer, FUNNELFAWN_DEADLINES_LENGTH + 3, BEFORE, FUNNELFAWN_DEADLINES_LENGTH);
    CHECK(to_deadlines() == FUNNELFAWN_OK, "the numbers behind a deadline table", 0);
    memcpy(longer, moments, sizeof moments);
    CHECK(holds(&deadlines, longer), "the deadline table that matches", 0);
}

/* [9.45] [9.50] [12.120] [9.100] The list of the values of a: it lies at the end of what can be read, so that nothing past it is looked at, and
 * cannot be written. Refused, the table cannot be written either. */
static void values_of_a(void)
{
    static const struct { uint64_t n; size_t length; uint64_t number; } lists[] = {
        {2, 2, FUNNELFAWN_OK},
        {2, 1, FUNNELFAWN_REFUSED_LIMITS},
        {2, 0, FUNNELFAWN_REFUSED_LIMITS},
        {2, 95, FUNNELFAWN_OK},
        {2, 96, FUNNELFAWN_OK},
        {2, 98, FUNNELFAWN_OK},
        {3, 96, FUNNELFAWN_REFUSED_LIMITS},
        {1, 96, FUNNELFAWN_REFUSED_LIMITS},
        {0, 2, FUNNELFAWN_REFUSED_WINDOW_COUNT},
        {97, 98, FUNNELFAWN_REFUSED_WINDOW_COUNT},
        {UINT64_MAX, 96, FUNNELFAWN_REFUSED_WINDOW_COUNT},
    };
    const uint64_t a[FUNNELFAWN_WINDOWS + 2] = {4, 5, [FUNNELFAWN_WINDOWS] = 5, 5};
    uint8_t out[64];

    for (size_t i = 0; i < sizeof lists / sizeof lists[0]; i++) {
        const int is_taken = lists[i].number == FUNNELFAWN_OK;

        lay(&values, a, lists[i].length, NONE, 0);
        lay(&table, numbers, FUNNELFAWN_TABLE_LENGTH, is_taken ? ALL : NONE, 0);
        CHECK(fresh(lists[i].n) == lists[i].number, "a fresh table", i);
        lay(&deadlines, moments, FUNNELFAWN_DEADLINES_LENGTH, is_taken ? ALL : NONE, 0);
        CHECK(fresh_deadlines(lists[i].n) == lists[i].number, "a fresh deadline table", i);
        CHECK(write_values(lists[i].n, out, sizeof out) == lists[i].number, "a writing", i);
        CHECK(write_values(lists[i].n, NULL, 0) == (is_taken ? FUNNELFAWN_REFUSED_SHORT_OUTPUT : lists[i].number), "a writing without room", i);
        if (is_taken) {
            CHECK(memcmp(table.list + FUNNELFAWN_AT_LIMITS, a, FUNNELFAWN_WINDOWS * sizeof *a) == 0, "the values of a table", i);
            CHECK(memcmp(deadlines.list, table.list, FUNNELFAWN_HEADER_LENGTH * sizeof *a) == 0, "the values of a deadline table", i);
        }
    }
}

/* [9.50] [12.120] A list that is too short for a fresh table cannot be written; nor can what lies behind its numbers in a longer one. */
static void room_for_fresh(void)
{
    static const uint64_t a[] = {4, 5};

    lay(&values, a, 2, NONE, 0);
    lay(&table, numbers, FUNNELFAWN_TABLE_LENGTH - 1, NONE, 0);
    CHECK(fresh(2) == FUNNELFAWN_REFUSED_SHORT_OUTPUT, "too short for a fresh table", 0);
    lay(&deadlines, moments, FUNNELFAWN_DEADLINES_LENGTH - 1, NONE, 0);
    CHECK(fresh_deadlines(2) == FUNNELFAWN_REFUSED_SHORT_OUTPUT, "too short for a fresh deadline table", 0);
    lay(&table, moments, FUNNELFAWN_TABLE_LENGTH + 3, BEFORE, FUNNELFAWN_TABLE_LENGTH);
    CHECK(fresh(2) == FUNNELFAWN_OK, "the numbers behind a fresh table", 0);
    lay(&deadlines, entries, FUNNELFAWN_DEADLINES_LENGTH + 3, BEFORE, FUNNELFAWN_DEADLINES_LENGTH);
    CHECK(fresh_deadlines(2) == FUNNELFAWN_OK, "the numbers behind a fresh deadline table", 0);
}

/* [9.90] The values of a that a reading puts: refused, neither their list nor that of the times can be written; read, what lies past the 96
 * places of the one, and past the steps of the other, cannot. */
static void values_read(void)
{
    static const char *const good[] = {
        "windows,b,c\n2,8,12\nwindow,a\n1,4\n2,5\ntime,window,act\n7,1,try\n",
        "windows,a,b,c\n2,5,8,12\ntime,window,act\n7,1,try\n",
    };
    static const struct { const char *text; uint64_t number; } faulty[] = {
        {"windows,b\n", FUNNELFAWN_REFUSED_NAMES},
        {"windows,b,c\n97,8,12\n", FUNNELFAWN_REFUSED_WINDOW_COUNT},
        {"windows,b,c\n2,8,12\nwindow,a\n1,4\n3,5\n", FUNNELFAWN_REFUSED_LINE},
        {"windows,b,c\n2,8,12\nwindow,a\n1,4\n2,8\n", FUNNELFAWN_REFUSED_LIMITS},
        {"windows,b,c\n2,8,12\nwindow,a\n1,4\n2,5\ntime,window,act\n7,1,try\n8,1,sell\n", FUNNELFAWN_REFUSED_LINE},
        {"windows,a,b,c\n2,8,8,12\n", FUNNELFAWN_REFUSED_LIMITS},
    };
    static const uint64_t filled[FUNNELFAWN_WINDOWS + 2] = {0};

    for (size_t i = 0; i < sizeof faulty / sizeof faulty[0]; i++) {
        lay(&values, filled, FUNNELFAWN_WINDOWS, NONE, 0);
        lay(&times, filled, 2, NONE, 0);
        CHECK(read_text(faulty[i].text) == faulty[i].number, "a faulty recording", i);
    }
    for (size_t i = 0; i < sizeof good / sizeof good[0]; i++) {
        uint64_t due[FUNNELFAWN_WINDOWS + 2] = {i == 0 ? 4 : 5, 5};

        lay(&values, filled, FUNNELFAWN_WINDOWS - 1, NONE, 0);
        lay(&times, filled, 2, NONE, 0);
        CHECK(read_text(good[i]) == FUNNELFAWN_REFUSED_SHORT_OUTPUT, "too few places for the values", i);
        lay(&values, filled, FUNNELFAWN_WINDOWS, NONE, 0);
        lay(&times, filled, 0, NONE, 0);
        CHECK(read_text(good[i]) == FUNNELFAWN_REFUSED_SHORT_OUTPUT, "no place for a step", i);
        lay(&values, filled, FUNNELFAWN_WINDOWS + 2, BEFORE, FUNNELFAWN_WINDOWS);
        lay(&times, filled, 2, BEFORE, 1);
        CHECK(read_text(good[i]) == FUNNELFAWN_OK, "the places behind", i);
        CHECK(holds(&values, due) && times.list[0] == 7, "the values that are read", i);
    }
}

/* [13.90] The four lists of a comparison lie at the end of what can be read, and cannot be written, whatever their lengths. */
static void notebooks_compared(void)
{
    static const struct { size_t lengths[4]; uint64_t number; } cases[] = {
        {{3, 3, 3, 3}, FUNNELFAWN_OK},
        {{0, 0, 0, 0}, FUNNELFAWN_OK},
        {{4, 3, 3, 4}, FUNNELFAWN_OK},
        {{0, 4, 4, 0}, FUNNELFAWN_OK},
        {{3, 3, 3, 2}, FUNNELFAWN_REFUSED_OTHER_ACTS},
        {{1, 3, 3, 3}, FUNNELFAWN_REFUSED_OTHER_ACTS},
        {{4, 4, 3, 3}, FUNNELFAWN_REFUSED_BOUNDS},
        {{3, 3, 4, 4}, FUNNELFAWN_REFUSED_BOUNDS},
        {{2, 2, 4, 4}, FUNNELFAWN_REFUSED_BOUNDS},
    };
    static const uint64_t noted[4][4] = {{0, 1, 2, UINT64_MAX}, {1, 2, 3, 4}, {10, 11, 12, UINT64_MAX}, {1, 2, 3, 4}};
    static const uint64_t shaken[] = {10, 14, 12};

    for (size_t i = 0; i < sizeof cases / sizeof cases[0]; i++) {
        for (size_t k = 0; k < 4; k++)
            lay(&notes[k], noted[k], cases[i].lengths[k], NONE, 0);
        CHECK(compare() == cases[i].number, "a comparison", i);
    }
    for (size_t k = 0; k < 4; k++)
        lay(&notes[k], k == 2 ? shaken : noted[k], 3, NONE, 0);
    CHECK(compare() == FUNNELFAWN_REFUSED_NO_SHIFT, "a comparison without a shift", 0);
}

/* [13.120] [13.125] Refused, neither list can be written; taken out, what lies past the accepted acts cannot. */
static void notebooks_accepted(void)
{
    const char *text = "windows,b,c\n2,8,12\nwindow,a\n1,4\n2,5\ntime,window,act\n7,1,try\n7,1,set\n8,2,try\n9,1,test\n";
    const char *faulty = "windows,b,c\n2,8,12\nwindow,a\n1,4\n2,5\ntime,window,act\n7,1,try\n9,1,sell\n";
    static const uint64_t filled[3] = {0}, due_moments[3] = {7, 9}, due_acts[3] = {FUNNELFAWN_ACT_TRY, FUNNELFAWN_ACT_TEST};

    lay(&notes[2], filled, 3, NONE, 0);
    lay(&notes[3], filled, 3, NONE, 0);
    CHECK(accept(faulty, 1) == FUNNELFAWN_REFUSED_LINE, "a faulty recording", 1);
    CHECK(accept(text, 0) == FUNNELFAWN_REFUSED_NO_WINDOW && accept(text, 3) == FUNNELFAWN_REFUSED_NO_WINDOW, "no such window", 3);
    lay(&notes[2], filled, 1, NONE, 0);
    CHECK(accept(text, 1) == FUNNELFAWN_REFUSED_SHORT_OUTPUT, "too few places for the moments", 1);
    lay(&notes[2], filled, 3, NONE, 0);
    lay(&notes[3], filled, 1, NONE, 0);
    CHECK(accept(text, 1) == FUNNELFAWN_REFUSED_SHORT_OUTPUT, "too few places for the acts", 1);
    lay(&notes[2], filled, 3, BEFORE, 2);
    lay(&notes[3], filled, 3, BEFORE, 2);
    CHECK(accept(text, 1) == FUNNELFAWN_OK && holds(&notes[2], due_moments) && holds(&notes[3], due_acts), "the places behind", 2);
}

/* [4.2] [4.3] Summaries that are not sound, in one number each, too short ones, and full ones. */
static void no_summary(void)
{
    static const struct { size_t place; uint64_t number, answer; } damage[] = {
        {FUNNELFAWN_AT_ACCEPTED, UINT64_C(1000000000001), FUNNELFAWN_REFUSED_NO_SUMMARY},
        {FUNNELFAWN_AT_REFUSED, UINT64_MAX, FUNNELFAWN_REFUSED_NO_SUMMARY},
        {FUNNELFAWN_AT_ENTRIES, 6, FUNNELFAWN_REFUSED_NO_SUMMARY},
        {FUNNELFAWN_AT_LONGEST_WAIT, UINT64_C(1000000000001), FUNNELFAWN_REFUSED_NO_SUMMARY},
        {FUNNELFAWN_AT_WAITED, 7, FUNNELFAWN_REFUSED_NO_SUMMARY},
        {FUNNELFAWN_SUMMARY_LENGTH - 1, 7, FUNNELFAWN_REFUSED_NO_SUMMARY},
        {FUNNELFAWN_AT_ACCEPTED, UINT64_C(1000000000000), FUNNELFAWN_REFUSED_SUMMARY_FULL},
        {FUNNELFAWN_AT_REFUSED, UINT64_C(999999999995), FUNNELFAWN_REFUSED_SUMMARY_FULL},
    };
    static const size_t lengths[] = {0, FUNNELFAWN_AT_WAITED, FUNNELFAWN_SUMMARY_LENGTH - 1};

    for (size_t i = 0; i < sizeof damage / sizeof damage[0]; i++) {
        uint64_t damaged[FUNNELFAWN_SUMMARY_LENGTH];

        memcpy(damaged, counts, sizeof damaged);
        damaged[damage[i].place] = damage[i].number;
        refused_whole(numbers, FUNNELFAWN_TABLE_LENGTH, damaged, FUNNELFAWN_SUMMARY_LENGTH, damage[i].answer, "a damaged summary");
    }
    for (size_t i = 0; i < sizeof lengths / sizeof lengths[0]; i++)
        refused_whole(numbers, FUNNELFAWN_TABLE_LENGTH, counts, lengths[i], FUNNELFAWN_REFUSED_NO_SUMMARY, "a short summary");
}

/* [4.4] to [4.10] The tables cannot be written; of the summary only what lies up to the count of refused acts, and then only what lies from
 * it on. The two have that number alone in common. */
static void refused_acts(void)
{
    static const struct { struct act act; uint64_t number; } refused[] = {
        {{FUNNELFAWN_ACT_WAIT, 0, 5}, FUNNELFAWN_REFUSED_BACKWARD},
        {{FUNNELFAWN_ACT_WAIT, 0, UINT64_C(1000000000001)}, FUNNELFAWN_REFUSED_END_OF_CLOCK},
        {{FUNNELFAWN_ACT_WITHDRAW + 1, 1, 7}, FUNNELFAWN_REFUSED_NO_ACT},
        {{FUNNELFAWN_ACT_TRY, 3, 7}, FUNNELFAWN_REFUSED_NO_WINDOW},
        {{FUNNELFAWN_ACT_CRIT, UINT64_MAX, 7}, FUNNELFAWN_REFUSED_NO_WINDOW},
        {{FUNNELFAWN_ACT_WAIT, 1, 7}, FUNNELFAWN_REFUSED_NO_WINDOW},
        {{FUNNELFAWN_ACT_TEST, 2, 11}, FUNNELFAWN_REFUSED_LATE},
        {{FUNNELFAWN_ACT_CRIT, 1, 7}, FUNNELFAWN_REFUSED_OUT_OF_PLACE},
        {{FUNNELFAWN_ACT_CHECK, 1, 7}, FUNNELFAWN_REFUSED_EARLY},
    };
    uint64_t counted[FUNNELFAWN_SUMMARY_LENGTH];

    memcpy(counted, counts, sizeof counted);
    counted[FUNNELFAWN_AT_REFUSED]++;
    lay(&table, numbers, FUNNELFAWN_TABLE_LENGTH, NONE, 0);
    lay(&deadlines, moments, FUNNELFAWN_DEADLINES_LENGTH, NONE, 0);
    lay(&board, entries, FUNNELFAWN_BOARD_LENGTH, NONE, 0);
    for (size_t i = 0; i < sizeof refused / sizeof refused[0]; i++) {
        CHECK(step(refused[i].act) == refused[i].number, "a refused step", refused[i].number);
        CHECK(step_deadlines(refused[i].act) == refused[i].number, "a refused step of deadlines", refused[i].number);
        for (size_t k = 0; k < sizeof recorded / sizeof recorded[0]; k++) {
            lay(&summary, counts, FUNNELFAWN_SUMMARY_LENGTH, BEFORE, FUNNELFAWN_AT_REFUSED + 1);
            CHECK(recorded[k](refused[i].act) == refused[i].number, "the numbers behind the count", refused[i].number);
            CHECK(holds(&summary, counted), "the count is raised", refused[i].number);
            lay(&summary, counts, FUNNELFAWN_SUMMARY_LENGTH, BEHIND, FUNNELFAWN_AT_REFUSED);
            CHECK(recorded[k](refused[i].act) == refused[i].number, "the numbers before the count", refused[i].number);
            CHECK(holds(&summary, counted), "the count is raised", refused[i].number);
        }
    }
}

/* Where the entry of an act's window ends in a table of either kind; for a wait, where the word does. Before its own entry a window has the
 * values of a and the entries of the windows below it, which only the comparison of numbers speaks of. */
static size_t entry_end(size_t stride, struct act act)
{
    return act.window == 0 ? FUNNELFAWN_AT_LIMITS : FUNNELFAWN_HEADER_LENGTH + stride * (size_t)act.window;
}

static uint64_t place_of(size_t window)
{
    return numbers[FUNNELFAWN_HEADER_LENGTH + FUNNELFAWN_STRIDE * (window - 1)];
}

/* What the windows trying before an act wait by it [5.75]. */
static uint64_t unused_time(struct act act)
{
    for (size_t window = 1; window <= FUNNELFAWN_WINDOWS; window++)
        if (place_of(window) == FUNNELFAWN_PLACE_SELLING)
            return 0;
    return act.moment - numbers[FUNNELFAWN_AT_CLOCK];
}

static int is_trying(size_t window)
{
    return place_of(window) >= FUNNELFAWN_PLACE_TESTING && place_of(window) <= FUNNELFAWN_PLACE_ENTERING;
}

/* Up to where an act may write in a summary: its own window's wait; and where there is unused time the waits of all, as that of a window
 * that does not try may be stored anew. What is stored there only the comparison of numbers tells. */
static size_t summary_end(struct act act)
{
    return unused_time(act) != 0 ? FUNNELFAWN_SUMMARY_LENGTH : FUNNELFAWN_AT_WAITED + (size_t)act.window;
}

/* What a window has waited after an act [5.80]. */
static uint64_t waited_after(struct act act, size_t window)
{
    int ends = act.act == FUNNELFAWN_ACT_TRY || act.act == FUNNELFAWN_ACT_CRIT || act.act == FUNNELFAWN_ACT_WITHDRAW;

    if (act.window == window && ends)
        return 0;
    return counts[FUNNELFAWN_AT_WAITED + window - 1] + (is_trying(window) ? unused_time(act) : 0);
}

/* Nothing but the clock, the word and the entry differs from what a table of either kind was. */
static int own_entry(const struct ground *ground, const uint64_t *before, size_t stride, struct act act)
{
    const size_t end = entry_end(stride, act);

    for (size_t i = 0; i < ground->length; i++)
        if (ground->list[i] != before[i] && i != FUNNELFAWN_AT_CLOCK && i != FUNNELFAWN_AT_WORD &&
            (act.window == 0 || i < end - stride || i >= end))
            return 0;
    return ground->list[FUNNELFAWN_AT_CLOCK] == act.moment;
}

/* So it is with the table; and nothing but the counts differs, and the waits as they have to. */
static int own_places(struct act act)
{
    for (size_t window = 1; window <= FUNNELFAWN_WINDOWS; window++)
        if (summary.list[FUNNELFAWN_AT_WAITED + window - 1] != waited_after(act, window))
            return 0;
    return summary.list[FUNNELFAWN_AT_ACCEPTED] == counts[FUNNELFAWN_AT_ACCEPTED] + 1 &&
           own_entry(&table, numbers, FUNNELFAWN_STRIDE, act);
}

/* The same act on the deadline table, which comes to be what matches the table after it. */
static void accepted_by_deadlines(struct act act)
{
    lay(&deadlines, moments, FUNNELFAWN_DEADLINES_LENGTH, BEFORE, entry_end(FUNNELFAWN_DEADLINES_STRIDE, act));
    CHECK(step_deadlines(act) == FUNNELFAWN_OK, "the entries behind, by deadlines", act.act);
    CHECK(own_entry(&deadlines, moments, FUNNELFAWN_DEADLINES_STRIDE, act), "the own numbers, by deadlines", act.act);
    lay(&deadlines, moments, FUNNELFAWN_DEADLINES_LENGTH, BEHIND, FUNNELFAWN_AT_CLOCK);
    CHECK(step_deadlines(act) == FUNNELFAWN_OK, "n, b, c, by deadlines", act.act);
    CHECK(own_entry(&deadlines, moments, FUNNELFAWN_DEADLINES_STRIDE, act), "the own numbers, by deadlines", act.act);
    CHECK(funnelfawn_to_deadlines(numbers, FUNNELFAWN_TABLE_LENGTH, moments, FUNNELFAWN_DEADLINES_LENGTH).number == FUNNELFAWN_OK,
          "to deadlines", act.act);
    CHECK(holds(&deadlines, moments), "the deadline table that matches", act.act);
}

/* [9.130] Accepted acts: what lies behind the last number that one may write cannot be written; then n, b and c cannot. */
static void accepted_act(struct act act)
{
    lay(&table, numbers, FUNNELFAWN_TABLE_LENGTH, BEFORE, entry_end(FUNNELFAWN_STRIDE, act));
    CHECK(step(act) == FUNNELFAWN_OK, "the entries behind, by a step", act.act);
    lay(&board, entries, FUNNELFAWN_BOARD_LENGTH, act.act == FUNNELFAWN_ACT_CRIT ? ALL : NONE, 0);
    for (size_t k = 0; k < sizeof recorded / sizeof recorded[0]; k++) {
        lay(&table, numbers, FUNNELFAWN_TABLE_LENGTH, BEFORE, entry_end(FUNNELFAWN_STRIDE, act));
        lay(&summary, counts, FUNNELFAWN_SUMMARY_LENGTH, BEFORE, summary_end(act));
        CHECK(recorded[k](act) == FUNNELFAWN_OK, "the numbers behind", act.act);
        CHECK(own_places(act), "the own numbers", act.act);
        lay(&table, numbers, FUNNELFAWN_TABLE_LENGTH, BEHIND, FUNNELFAWN_AT_CLOCK);
        lay(&summary, counts, FUNNELFAWN_SUMMARY_LENGTH, ALL, 0);
        CHECK(recorded[k](act) == FUNNELFAWN_OK, "n, b, c", act.act);
        CHECK(own_places(act), "the own numbers", act.act);
    }
    memcpy(numbers, table.list, sizeof numbers);
    memcpy(counts, summary.list, sizeof counts);
    accepted_by_deadlines(act);
}

/* A window goes once round, with a test that finds the word taken, a check that finds another's, a withdraw and waits. The other one tries
 * while it does and while it sells, and at the end has waited from 15 to its crit and from its exit on. */
static void accepted(uint64_t window, uint64_t other)
{
    const struct act acts[] = {
        {FUNNELFAWN_ACT_WAIT, 0, 1},          {FUNNELFAWN_ACT_TRY, window, 2},      {FUNNELFAWN_ACT_TRY, other, 2},
        {FUNNELFAWN_ACT_TEST, window, 3},     {FUNNELFAWN_ACT_TEST, other, 3},      {FUNNELFAWN_ACT_SET, other, 4},
        {FUNNELFAWN_ACT_SET, window, 5},      {FUNNELFAWN_ACT_CHECK, other, 12},    {FUNNELFAWN_ACT_CHECK, window, 13},
        {FUNNELFAWN_ACT_TEST, other, 14},     {FUNNELFAWN_ACT_WITHDRAW, other, 15}, {FUNNELFAWN_ACT_TRY, other, 15},
        {FUNNELFAWN_ACT_CRIT, window, 16},    {FUNNELFAWN_ACT_TEST, other, 17},     {FUNNELFAWN_ACT_WAIT, 0, 18},
        {FUNNELFAWN_ACT_EXIT, window, 19},    {FUNNELFAWN_ACT_RESET, window, 20},   {FUNNELFAWN_ACT_REM, window, 21},
    };
    uint64_t a[FUNNELFAWN_WINDOWS];

    /* three ages of tills: 5, 6 and 7 */
    for (size_t i = 0; i < FUNNELFAWN_WINDOWS; i++)
        a[i] = 5 + i % 3;
    CHECK(funnelfawn_fresh(96, 8, 12, a, 96, numbers, FUNNELFAWN_TABLE_LENGTH).number == FUNNELFAWN_OK, "fresh", 0);
    CHECK(funnelfawn_fresh_deadlines(96, 8, 12, a, 96, moments, FUNNELFAWN_DEADLINES_LENGTH).number == FUNNELFAWN_OK, "fresh deadlines", 0);
    CHECK(funnelfawn_new_summary(counts, FUNNELFAWN_SUMMARY_LENGTH).number == FUNNELFAWN_OK, "new summary", 0);
    for (size_t i = 0; i < sizeof acts / sizeof acts[0]; i++)
        accepted_act(acts[i]);
    CHECK(counts[FUNNELFAWN_AT_ACCEPTED] == sizeof acts / sizeof acts[0] && counts[FUNNELFAWN_AT_LONGEST_WAIT] == 14, "the summary", window);
    CHECK(counts[FUNNELFAWN_AT_WAITED + window - 1] == 0 && counts[FUNNELFAWN_AT_WAITED + other - 1] == 1 + 2, "the waits", window);
}

/* Whether it faults to write a number that is there already. */
static int faults(uint64_t *place)
{
    volatile uint64_t *written = place;

    if (sigsetjmp(before_the_call, 1) != 0)
        return 1;
    *written = *written;
    return 0;
}

/* A write that is not allowed is found, on either side of the seam: or nothing here would show anything. */
static void faults_are_found(void)
{
    lay(&table, numbers, FUNNELFAWN_TABLE_LENGTH, NONE, 0);
    CHECK(faults(table.list) && faults(table.list + FUNNELFAWN_TABLE_LENGTH - 1), "a list that is closed", 0);
    lay(&table, numbers, FUNNELFAWN_TABLE_LENGTH, BEFORE, 1);
    CHECK(!faults(table.list) && faults(table.list + 1), "behind the seam", 1);
    lay(&table, numbers, FUNNELFAWN_TABLE_LENGTH, BEHIND, 1);
    CHECK(faults(table.list) && !faults(table.list + 1), "before the seam", 1);
    lay(&table, numbers, FUNNELFAWN_TABLE_LENGTH, ALL, 1);
    CHECK(!faults(table.list) && !faults(table.list + 1), "a list that is open", 1);
}

int main(void)
{
    struct sigaction action = {0};

    action.sa_handler = leave_the_call;
    need(sigaction(SIGSEGV, &action, NULL) == 0);
    need(funnelfawn_layout() == FUNNELFAWN_LAYOUT);
    reserve(&table), reserve(&deadlines), reserve(&summary), reserve(&board), reserve(&values), reserve(&times);
    for (size_t k = 0; k < sizeof notes / sizeof notes[0]; k++)
        reserve(&notes[k]);
    start();
    faults_are_found();
    no_table();
    no_deadlines();
    short_deadlines();
    to_and_fro();
    values_of_a();
    room_for_fresh();
    values_read();
    notebooks_compared();
    notebooks_accepted();
    no_summary();
    refused_acts();
    accepted(1, 96);
    accepted(96, 1);
    accepted(40, 41);
    printf("%u checks of what is written, %u failed\n", checks, failures);
    return failures != 0;
}
