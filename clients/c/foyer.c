/* The foyer board of a short sale: how many windows were let in during the last 30 microseconds, and the longest wait among them. Window 2
 * tries from 8 to 28 and waits 18, as window 1 sells from 12 to 14. A line comes out whenever a window is let in, and whenever the screen is
 * drawn anew. Exit status: 0; 1 where the box does not open; 3 where the archive has another layout than the header. */
#include "funnelfawn.h"

#include <inttypes.h>
#include <stdio.h>
#include <string.h>

/* In microseconds; ten minutes would be 600000000. */
enum { WIDTH = 30 };

/* What the box keeps from call to call. */
struct box {
    uint64_t table[FUNNELFAWN_TABLE_LENGTH];
    uint64_t summary[FUNNELFAWN_SUMMARY_LENGTH];
    uint64_t board[FUNNELFAWN_BOARD_LENGTH];
};

static int open_box(struct box *box)
{
    static const uint64_t a[] = {5, 5};

    return funnelfawn_fresh(2, 8, 12, a, 2, box->table, FUNNELFAWN_TABLE_LENGTH).number == FUNNELFAWN_OK &&
           funnelfawn_new_summary(box->summary, FUNNELFAWN_SUMMARY_LENGTH).number == FUNNELFAWN_OK &&
           funnelfawn_set_up_board(WIDTH, box->board, FUNNELFAWN_BOARD_LENGTH).number == FUNNELFAWN_OK;
}

/* What the board answers at a moment: the figures stand where an answer has its window and its moment. */
static void say_board(uint64_t moment, struct funnelfawn_answer answer)
{
    if (answer.number == FUNNELFAWN_OK)
        printf("%" PRIu64 ": %" PRIu64 " let in during the last %d, longest wait %" PRIu64 "\n", moment, answer.window, WIDTH,
               answer.moment);
    else
        printf("%" PRIu64 ": the board refuses (%" PRIu64 ")\n", moment, answer.number);
}

/* One act. The step stands whatever the board answers, and the board is told of nothing but an accepted crit. */
static void make(struct box *box, uint64_t act, uint64_t window, uint64_t moment)
{
    struct funnelfawn_told told =
        funnelfawn_record_and_tell(box->table, FUNNELFAWN_TABLE_LENGTH, box->summary, FUNNELFAWN_SUMMARY_LENGTH, box->board,
                                   FUNNELFAWN_BOARD_LENGTH, act, window, moment);

    if (told.step.number != FUNNELFAWN_OK)
        printf("%" PRIu64 ": window %" PRIu64 " is refused (%" PRIu64 ")\n", moment, window, told.step.number);
    else if (act == FUNNELFAWN_ACT_CRIT)
        say_board(moment, told.board);
}

/* The screen at the clock that the acts have reached: shown at a later one, the board would refuse the entries before that. */
static void show(struct box *box)
{
    uint64_t clock = box->table[FUNNELFAWN_AT_CLOCK];

    say_board(clock, funnelfawn_show_board(box->board, FUNNELFAWN_BOARD_LENGTH, clock));
}

/* The screen while nobody acts: a copy is shown, and thrown away, so that the board itself goes on from the acts' clock. */
static void show_ahead(const struct box *box, uint64_t now)
{
    static uint64_t copy[FUNNELFAWN_BOARD_LENGTH];

    memcpy(copy, box->board, sizeof copy);
    say_board(now, funnelfawn_show_board(copy, FUNNELFAWN_BOARD_LENGTH, now));
}

int main(void)
{
    static const struct { uint64_t act, window, moment; } sale[] = {
        {FUNNELFAWN_ACT_TRY, 1, 0},    {FUNNELFAWN_ACT_TEST, 1, 1},   {FUNNELFAWN_ACT_SET, 1, 2},    {FUNNELFAWN_ACT_TRY, 2, 8},
        {FUNNELFAWN_ACT_CHECK, 1, 9},  {FUNNELFAWN_ACT_CHECK, 1, 10}, {FUNNELFAWN_ACT_CRIT, 1, 12},  {FUNNELFAWN_ACT_TEST, 2, 13},
        {FUNNELFAWN_ACT_EXIT, 1, 14},  {FUNNELFAWN_ACT_RESET, 1, 15}, {FUNNELFAWN_ACT_REM, 1, 16},   {FUNNELFAWN_ACT_TEST, 2, 17},
        {FUNNELFAWN_ACT_SET, 2, 18},   {FUNNELFAWN_ACT_CHECK, 2, 26}, {FUNNELFAWN_ACT_CRIT, 2, 28},  {FUNNELFAWN_ACT_EXIT, 2, 30},
        {FUNNELFAWN_ACT_RESET, 2, 31}, {FUNNELFAWN_ACT_REM, 2, 32},
    };
    static struct box box;

    if (funnelfawn_layout() != FUNNELFAWN_LAYOUT)
        return 3;
    if (!open_box(&box))
        return 1;
    for (size_t i = 0; i < sizeof sale / sizeof sale[0]; i++) {
        make(&box, sale[i].act, sale[i].window, sale[i].moment);
        if (sale[i].act == FUNNELFAWN_ACT_REM)
            show(&box);
    }
    show_ahead(&box, 41);
    show_ahead(&box, 42);
    show_ahead(&box, 58);
    printf("in all: %" PRIu64 " let in, longest wait %" PRIu64 "\n", box.summary[FUNNELFAWN_AT_ENTRIES],
           box.summary[FUNNELFAWN_AT_LONGEST_WAIT]);
    return 0;
}
