/* Funnelfawn for C and C++: Fischer's timed lock over a table of up to 96 sales windows.
 *
 * Link with libfunnelfawn.a (x86-64 Linux) and the C library, of which only memcpy and memset are used. No function keeps state, allocates,
 * prints or blocks; each takes any numbers at all and returns. funnelfawn_replay, funnelfawn_spans and funnelfawn_accepted_acts need about
 * 216 KB of stack, funnelfawn_read less than 10 KB, funnelfawn_fresh less than 8 KB, funnelfawn_fresh_deadlines and funnelfawn_write less
 * than 6 KB, the others less than 1 KB, and a step, recorded or not and of either engine, less than 512 bytes. The library is proved
 * against docs/SPECIFICATION.md; numbers such as [9.50] are its clauses, and its section 1 has the words that it uses for the windows,
 * places, moments and acts of this header.
 *
 * What is lent
 *   A list is a pointer and the count of its elements (not of bytes). The caller owns it; the library keeps no pointer past the call.
 *   The caller sees to these three things, which no test within a call can find out [9.160]: the pointer is aligned for its element and
 *   leads to that many elements (with a count of 0 nothing is read through it, and it may be null); lists that are lent to one call do not
 *   overlap, unless they are only read; and nobody else touches them during the call. So one table, one summary or one board is for one
 *   thread at a time (to show a board writes it); two of them have nothing in common.
 *   Elements past those that a call speaks of stay as they are. A call that is refused leaves all that was lent as it was, but for the
 *   count of refused acts in a lent summary, which 4 to 10 raise by one [9.120], and for a board that is not set up, 17, whose list then
 *   holds one that no call accepts [10.65].
 *   What stands where in a list has a number, FUNNELFAWN_LAYOUT: compare it with the archive's before the first list is lent [9.15].
 *
 * Time is counted in whole microseconds, from 0 to 1,000,000,000,000. */
#ifndef FUNNELFAWN_H
#define FUNNELFAWN_H

#include <stddef.h>
#include <stdint.h>

#ifdef __cplusplus
#define FUNNELFAWN_RESTRICT
extern "C" {
#else
#define FUNNELFAWN_RESTRICT restrict
#endif

/* [9.15] The layout: one number for what stands where in all that is lent, tables, deadline tables, summaries and boards. It goes up
 * whenever one of them comes to hold more numbers, or a number there to mean something else; acts, answers and functions are not told by
 * it. FUNNELFAWN_LAYOUT is that of this header, and funnelfawn_layout() that of the archive: a program compares the two once, at its start,
 * so that a header and an archive of different versions are found out before a list is lent.
 *   Whoever stores lists stores the number with them. Numbers that were stored with another layout may well be sound, and mean something
 *   else: no call refuses them then, and only the layout beside them tells. docs/CHANGES.md says what changed from layout to layout, and
 *   what to do with numbers that were stored. */
enum { FUNNELFAWN_LAYOUT = 3 };

uint64_t funnelfawn_layout(void);

/* Tables: [9.10], and section 2 of the specification
 *
 * A table of windows is lent as FUNNELFAWN_TABLE_LENGTH numbers: n, b, c, the clock, the shared word (0, or a window); the 96 values of a;
 * and then for each of the 96 windows its place and its arrival, the moment at which it came there. Window w, from 1, has its a at
 * FUNNELFAWN_AT_LIMITS + w - 1, its place at FUNNELFAWN_HEADER_LENGTH + FUNNELFAWN_STRIDE * (w - 1), and its arrival after that. Timed
 * places are all but remainder and selling; these two have no arrival, and 0 stands for it.
 *
 * The a of a window is the time that its till has for a step, and each may have another; b and c are for all. The latest moment of a window
 * is its arrival + c in checking and + its own a in the other timed places; the earliest moment of a check is its arrival + b. A table is
 * sound when n is 1 to 96, 1 <= a < b <= c <= 10,000,000 for the a of each window up to n, the values of a above n are 0, the clock is in
 * range, the word is at most n, all windows above n are in remainder, and every window in a timed place has its arrival <= the clock <= its
 * latest moment [2.120]. A place above 7, or an arrival other than 0 in remainder or selling, tells no table, and is refused as one that is
 * not sound [9.20].
 *
 * Each call judges the numbers anew, so damage that makes a table unsound is found. An older copy of a table is not found, nor one with
 * two sellers: the lock holds for a table that came from funnelfawn_fresh and was handed on as each call left it, in one copy [9.170]. */
enum { FUNNELFAWN_WINDOWS = 96 };

enum {
    FUNNELFAWN_AT_N,
    FUNNELFAWN_AT_B,
    FUNNELFAWN_AT_C,
    FUNNELFAWN_AT_CLOCK,
    FUNNELFAWN_AT_WORD,
    FUNNELFAWN_AT_LIMITS,
    FUNNELFAWN_HEADER_LENGTH = FUNNELFAWN_AT_LIMITS + FUNNELFAWN_WINDOWS, /* the numbers before the entries */
    FUNNELFAWN_STRIDE = 2,
    FUNNELFAWN_TABLE_LENGTH = FUNNELFAWN_HEADER_LENGTH + FUNNELFAWN_STRIDE * FUNNELFAWN_WINDOWS
};

enum funnelfawn_place {
    FUNNELFAWN_PLACE_REMAINDER,
    FUNNELFAWN_PLACE_TESTING,
    FUNNELFAWN_PLACE_SETTING,
    FUNNELFAWN_PLACE_CHECKING,
    FUNNELFAWN_PLACE_ENTERING,
    FUNNELFAWN_PLACE_SELLING,
    FUNNELFAWN_PLACE_RESETTING,
    FUNNELFAWN_PLACE_LEAVING
};

/* Deadline tables: section 12 of the specification
 *
 * The second engine writes deadlines out. Its tables hold in place of an arrival the first and the last moment at which a window may act:
 * in a timed place the last is its latest moment, and the first its earliest, which is the arrival itself but for checking. They are lent
 * as FUNNELFAWN_DEADLINES_LENGTH numbers: the FUNNELFAWN_HEADER_LENGTH that a table begins with, and then for each of the 96 windows its
 * place, its first and its last moment; remainder and selling have neither, and 0 stands for both [12.110]; another number there, or a
 * place above 7, tells no deadline table [12.115]. Window w, from 1, has its place at FUNNELFAWN_HEADER_LENGTH +
 * FUNNELFAWN_DEADLINES_STRIDE * (w - 1).
 *
 * A table and a deadline table match if all else is equal and each window's two moments are its earliest and its latest [12.20]. A deadline
 * table is sound exactly if some sound table matches it; any other is refused with 1: first and last moments of different arrivals, of an
 * arrival after the clock, or a last moment before it, however near 2^64 the numbers are [12.35]. From matching tables the two engines give
 * the same answer to every act, and leave tables that match [12.80]; so all that is promised of lists of acts holds for both [12.90],
 * and of a lock that is turned from one into the other [12.97]. */
enum {
    FUNNELFAWN_DEADLINES_STRIDE = 3,
    FUNNELFAWN_DEADLINES_LENGTH = FUNNELFAWN_HEADER_LENGTH + FUNNELFAWN_DEADLINES_STRIDE * FUNNELFAWN_WINDOWS
};

/* Summaries: [9.30], and section 5 of the specification
 *
 * A summary is lent as FUNNELFAWN_SUMMARY_LENGTH numbers: the five below, and from FUNNELFAWN_AT_WAITED on what each window has waited
 * so far, that of window w at FUNNELFAWN_AT_WAITED + w - 1. Accepted and refused acts are counted (of the refusals 4 to 10), and as entries
 * and exits the accepted crits and exits.
 *
 * A wait counts unused time, in which nobody sells. If no window sold before an accepted act, the unused time of the act is its moment less
 * the clock before it; otherwise it is 0 [5.75]. It is added to the number of each window that was trying before the act (testing, setting,
 * checking or entering), and to no other. Then an accepted try, crit or withdraw sets the number of its own window to 0 [5.80]. What a crit
 * so sets to 0, its own unused time included, is the wait that it ends: if it is longer than the longest wait it takes its place [5.90]. A
 * withdraw ends no wait.
 *
 * A summary is sound when neither accepted + refused nor the longest wait exceeds 1,000,000,000,000, entries + exits <= accepted, and none
 * of the 96 numbers from FUNNELFAWN_AT_WAITED on exceeds the table's clock, those of windows above n among them [5.40]. No more is asked of
 * these: that of a window which is not trying need not be 0. */
enum {
    FUNNELFAWN_AT_ACCEPTED,
    FUNNELFAWN_AT_REFUSED,
    FUNNELFAWN_AT_ENTRIES,
    FUNNELFAWN_AT_EXITS,
    FUNNELFAWN_AT_LONGEST_WAIT,
    FUNNELFAWN_AT_WAITED,
    FUNNELFAWN_SUMMARY_LENGTH = FUNNELFAWN_AT_WAITED + FUNNELFAWN_WINDOWS
};

/* Boards: section 10 of the specification
 *
 * A board tells how many windows were let in during the last W microseconds, and the longest wait among them. It is lent as
 * FUNNELFAWN_BOARD_LENGTH numbers [10.110]: W, the last moment that it was told, the place of the first entry that it keeps, from 0, and
 * how many it keeps; and then for each of FUNNELFAWN_BOARD_PLACES places an entry's moment, window and wait, those of place k from
 * FUNNELFAWN_BOARD_HEADER_LENGTH + FUNNELFAWN_BOARD_STRIDE * k on. The places are a ring: the kept entries stand one behind the other from
 * the first on, and place 0 comes after the last place; what stands at the others is of no account [10.115].
 *
 * An entry counts at a clock while its moment + W is above it [10.40]; one that no longer does has expired, and gives up its place to the
 * next. A board is sound when W is 1 to 1,000,000,000, it keeps FUNNELFAWN_BOARD_PLACES entries at most, their moments do not fall, and
 * none is after the last moment told [10.30]. Nothing is asked of a wait, nor of a window that is kept [10.35]: a wait is the number that
 * the board was told, which from funnelfawn_record_and_tell is the wait of a summary, in unused time.
 *
 * From funnelfawn_set_up_board on, handed on as each call left it, a board's figures are those of all the entries that it accepted since
 * [10.150]. As with tables, an older copy is not found. */
enum {
    FUNNELFAWN_AT_WIDTH,
    FUNNELFAWN_AT_LAST_TOLD,
    FUNNELFAWN_AT_FIRST_KEPT,
    FUNNELFAWN_AT_KEPT,
    FUNNELFAWN_BOARD_HEADER_LENGTH,
    FUNNELFAWN_BOARD_STRIDE = 3,
    FUNNELFAWN_BOARD_PLACES = 1024,
    FUNNELFAWN_BOARD_LENGTH = FUNNELFAWN_BOARD_HEADER_LENGTH + FUNNELFAWN_BOARD_STRIDE * FUNNELFAWN_BOARD_PLACES
};

/* Acts, [3.0] to [3.9]: the place that each leaves, and what it does. A window arrives in a timed place at the act's moment, anew also
 * where it stays in testing. Directly after an accepted try, funnelfawn_step accepts a withdraw of that window at the same moment, and the
 * table is as it was but for its clock [9.135].
 *
 * A window is trying while it is testing, setting, checking or entering. From any point after funnelfawn_fresh at which some window is
 * trying and nobody sells, the clock moves on by at most 2c + 5a, with the largest a of the windows up to n [2.92], until a window is let
 * in, as long as some window that was trying at that point has not withdrawn since [8.78] [8.80]. It is the largest whoever tries: one old
 * till makes the bound longer for all. Once all of them have withdrawn, the clock may run on. Nobody sells until then, so all of it is
 * unused time. For the wait of one window no bound is promised, as others may be let in before it [8.85]. */
enum funnelfawn_act {
    FUNNELFAWN_ACT_WAIT,    /* none (the window is 0): nothing but the clock changes */
    FUNNELFAWN_ACT_TRY,     /* remainder: to testing */
    FUNNELFAWN_ACT_TEST,    /* testing: to setting if the word is 0, else to testing anew */
    FUNNELFAWN_ACT_SET,     /* setting: the word becomes the window; to checking */
    FUNNELFAWN_ACT_CHECK,   /* checking: to entering if the word is the window, else to testing */
    FUNNELFAWN_ACT_CRIT,    /* entering: to selling */
    FUNNELFAWN_ACT_EXIT,    /* selling: to resetting */
    FUNNELFAWN_ACT_RESET,   /* resetting: the word becomes 0; to leaving */
    FUNNELFAWN_ACT_REM,     /* leaving: to remainder */
    FUNNELFAWN_ACT_WITHDRAW /* testing: to remainder, and the word stays */
};

/* Answers, [4.0] to [4.21]: a number, with a window and a moment. Where these two are said below, in this order, they are in the answer;
 * else 0. */
struct funnelfawn_answer {
    uint64_t number;
    uint64_t window;
    uint64_t moment;
};

enum funnelfawn_number {
    FUNNELFAWN_OK = 0,                    /* accepted, or done: each function says what stands beside it */
    FUNNELFAWN_REFUSED_NO_TABLE = 1,      /* the numbers are those of no sound table, or too few */
    FUNNELFAWN_REFUSED_NO_SUMMARY = 2,    /* the summary is not sound, or has too few numbers */
    FUNNELFAWN_REFUSED_NO_BOARD = 2,      /* the same number: so it is with the board, or the place of its first entry is none */
    FUNNELFAWN_REFUSED_SUMMARY_FULL = 3,  /* accepted + refused is 1,000,000,000,000 */
    FUNNELFAWN_REFUSED_BACKWARD = 4,      /* the moment is before the clock: 0, the clock; of a board, before the last moment that it was
                                             told: 0, that moment */
    FUNNELFAWN_REFUSED_END_OF_CLOCK = 5,  /* the moment is above 1,000,000,000,000 */
    FUNNELFAWN_REFUSED_NO_ACT = 6,        /* there is no such act: its number is 10 or more */
    FUNNELFAWN_REFUSED_NO_WINDOW = 7,     /* a wait whose window is not 0, or another act whose window is none of 1 to n; an entry for a
                                             board whose window is none of 1 to 96; the accepted acts of a window that is none of 1 to n */
    FUNNELFAWN_REFUSED_LATE = 8,          /* the latest moment of some window, any at all, is before the moment: the smallest such
                                             latest moment, with the lowest window that has it: the window, that moment */
    FUNNELFAWN_REFUSED_OUT_OF_PLACE = 9,  /* the window is not in the place that the act leaves: the window, 0 */
    FUNNELFAWN_REFUSED_EARLY = 10,        /* a check comes before the window's earliest moment: the window, that moment */
    FUNNELFAWN_REFUSED_WINDOW_COUNT = 11, /* n is outside 1 to 96; from funnelfawn_spans and funnelfawn_accepted_acts: 0, its line, which
                                             is 2 */
    FUNNELFAWN_REFUSED_LIMITS = 12,       /* b, c or the a of a window up to n break 1 <= a < b <= c <= 10,000,000, or an a above n is not
                                             0; from those two: 0, the last line of a, which is 3 + n; in the former shape 2 */
    FUNNELFAWN_REFUSED_NAMES = 13,        /* a line of names is not the one due there, or is absent: 0, its line */
    FUNNELFAWN_REFUSED_LINE = 14,         /* line 2 or a line of a lacks its form or is absent, a line of a has another window than is due
                                             there, or a step lacks its form; writing: a step has no form: 0, its line */
    FUNNELFAWN_REFUSED_LENGTH = 15,       /* the text is longer than 65,536 bytes */
    FUNNELFAWN_REFUSED_SHORT_OUTPUT = 16, /* a list that is only an output is too short */
    FUNNELFAWN_REFUSED_WIDTH = 17,        /* the W of a board is outside 1 to 1,000,000,000 */
    FUNNELFAWN_REFUSED_BOARD_FULL = 18,   /* FUNNELFAWN_BOARD_PLACES entries of the board still count */
    FUNNELFAWN_REFUSED_BOUNDS = 19,       /* of notebooks: d or e is above 1,000,000, or a moment that counts above 1,000,000,000,000 */
    FUNNELFAWN_REFUSED_OTHER_ACTS = 20,   /* the notebook's acts are not those that it is held against, in their order, or not as many */
    FUNNELFAWN_REFUSED_NO_SHIFT = 21      /* the acts are the same, but no shift from -d to d brings all moments within e */
};

/* [9.50] A fresh table of n windows with the limits b and c and an a for each of them: all in remainder, clock 0, word 0.
 *   The list `a` has the values of a from window 1 on [9.45]: n of them are enough. Where it has fewer numbers than FUNNELFAWN_WINDOWS, 0
 *   stands for the others, and what comes after so many is not looked at. So fewer than n give 12, and so does a number above n that is not
 *   0. Tills of one age have the same number n times. The values of another table are such a list too, at FUNNELFAWN_AT_LIMITS; but those
 *   of the very list that is to take the fresh table overlap with it, and have to be copied first.
 *   0, 0, 0 with the table's numbers in `table`; or 11, 12, or, last, 16.
 *   Look at the answer before stepping on the list. Refused, it is as it was: one that held an older table holds that table still, sound
 *   if it was sound, and steps go on from there. (Within Rattle it is otherwise: a `fresh` that is refused gives back a table that is not
 *   sound, on which every step is refused.) */
struct funnelfawn_answer funnelfawn_fresh(uint64_t n, uint64_t b, uint64_t c, const uint64_t *FUNNELFAWN_RESTRICT a, size_t a_length,
                                          uint64_t *FUNNELFAWN_RESTRICT table, size_t table_length);

/* [9.60] One act of a window at a moment, the clock from then on.
 *   0, the lowest of the windows that are selling after it (0 if none is; from a fresh table on there is at most one), and the clock, with
 *   the table brought up to date: its clock, its word and the two numbers of the acting window are written, and no other [9.130];
 *   or the lowest of 1, 4, 5, .., 10 whose condition holds, and then nothing is written. */
struct funnelfawn_answer funnelfawn_step(uint64_t *table, size_t table_length, uint64_t act, uint64_t window, uint64_t moment);

/* [9.70] A new summary: all zeros. 0, 0, 0; or 16. */
struct funnelfawn_answer funnelfawn_new_summary(uint64_t *summary, size_t summary_length);

/* [9.80] The same act, counted: as funnelfawn_step, and the summary is brought up to date; or the lowest of 1 to 10 whose condition holds.
 *   Accepted, it writes the summary's five numbers and, of those from FUNNELFAWN_AT_WAITED on, that of its own window and, if the clock
 *   moved and nobody sold before it, those of all windows that were trying before it. No other number changes [9.130]; though in the second
 *   case that of a window which was not trying may be stored anew, as it was.
 *   Refused with 1, 2 or 3, it writes nothing, to the table or to the summary; with 4 to 10 one number, the summary's count of refused
 *   acts, which goes up by one. So a table may lie where it can only be read if the act is refused, a summary only if the answer is 1, 2 or
 *   3: an accepted act on such a list faults, and may leave the table moved on and the act uncounted, or counted in part. To ask what an
 *   act would be answered, lend copies. That a refused act writes no other number, not even with the one that it has, is tested; the proofs
 *   speak of what the numbers are. */
struct funnelfawn_answer funnelfawn_record(uint64_t *FUNNELFAWN_RESTRICT table, size_t table_length,
                                           uint64_t *FUNNELFAWN_RESTRICT summary, size_t summary_length, uint64_t act, uint64_t window,
                                           uint64_t moment);

/* [10.60] A new board: it keeps no entry, and has been told the moment 0. Only its first four numbers are written [10.130].
 *   0, 0, 0; or 17, and then W is 0 and every call on the list is answered 2 until it is set up anew, so that an older board in it does not
 *   live on [10.65]. A list that is too short stays as it was, with 17 or else 16.
 *   Set it up anew with each fresh table: the clock starts at 0 again, and an older board answers 4 until it has caught up. */
struct funnelfawn_answer funnelfawn_set_up_board(uint64_t w, uint64_t *board, size_t board_length);

/* [10.70] An entry more. Its moment becomes the last moment told; what has expired by then gives up its place first.
 *   0, how many entries count, this one included, and the longest wait among them: these two stand where an answer has its window and its
 *   moment. The last moment told, the first place, the count and the entry's own place are written, and no other number [10.140].
 *   Or the first of 2, 4, 5, 7, 18 whose condition holds, in this order [10.90]. funnelfawn_record_and_tell makes this call by itself. */
struct funnelfawn_answer funnelfawn_add_to_board(uint64_t *board, size_t board_length, uint64_t moment, uint64_t window, uint64_t wait);

/* [10.80] The figures at a clock, which becomes the last moment told: from then on an entry or a showing before it is refused with 4. So
 * show at the table's clock; to look further ahead, show a copy of the numbers and throw it away.
 *   0, how many entries count, and the longest wait among them, 0 if none does, as above; the last moment told, the first place and the
 *   count are written. Or the first of 2, 4, 5 whose condition holds. */
struct funnelfawn_answer funnelfawn_show_board(uint64_t *board, size_t board_length, uint64_t clock);

/* The two answers of the next function. */
struct funnelfawn_told {
    struct funnelfawn_answer step;
    struct funnelfawn_answer board;
};

/* [10.200] The act of funnelfawn_record; and with an accepted crit the entry of funnelfawn_add_to_board, which has the act's moment and
 * window, and the wait that the crit ends: what its window had waited so far by the summary, with the crit's own unused time [5.90].
 *   Look at both answers. The step stands whatever the board answers, which is 0, 0, 0 where no crit was accepted and the board was left
 *   alone [10.205]. From a fresh table, a new summary and a new board on, if nothing but this call and showings tells the board, it refuses
 *   an accepted crit in two cases alone: with 18, and with 4 where it was shown at a clock past the crit's moment [10.230]; the entry is
 *   then missing from the board. */
struct funnelfawn_told funnelfawn_record_and_tell(uint64_t *FUNNELFAWN_RESTRICT table, size_t table_length,
                                                  uint64_t *FUNNELFAWN_RESTRICT summary, size_t summary_length,
                                                  uint64_t *FUNNELFAWN_RESTRICT board, size_t board_length, uint64_t act, uint64_t window,
                                                  uint64_t moment);

/* [12.120] A fresh deadline table, as funnelfawn_fresh makes a table, out of the same list of values of a: 0, 0, 0 with its numbers in
 * `deadlines`; or 11, 12, or, last, 16. */
struct funnelfawn_answer funnelfawn_fresh_deadlines(uint64_t n, uint64_t b, uint64_t c, const uint64_t *FUNNELFAWN_RESTRICT a,
                                                    size_t a_length, uint64_t *FUNNELFAWN_RESTRICT deadlines, size_t deadlines_length);

/* [12.130] One act on a deadline table, with the answers of funnelfawn_step. Accepted, it writes the clock, the word and the three numbers
 * of the acting window; refused, nothing. */
struct funnelfawn_answer funnelfawn_step_deadlines(uint64_t *deadlines, size_t deadlines_length, uint64_t act, uint64_t window,
                                                   uint64_t moment);

/* [12.140] To and fro: the deadline table that matches a sound table, and the table that matches a sound deadline table. What goes both
 * ways is the same again [12.105]. Act on one of the two from then on: who acts on both has two locks [9.170].
 *   0, 0, 0 with the numbers in the second list; or 1, where the first holds no sound table, or, last, 16, where the second is too short.
 *   The first list is only read, and refused the second stays as it was. */
struct funnelfawn_answer funnelfawn_to_deadlines(const uint64_t *FUNNELFAWN_RESTRICT table, size_t table_length,
                                                 uint64_t *FUNNELFAWN_RESTRICT deadlines, size_t deadlines_length);
struct funnelfawn_answer funnelfawn_to_arrivals(const uint64_t *FUNNELFAWN_RESTRICT deadlines, size_t deadlines_length,
                                                uint64_t *FUNNELFAWN_RESTRICT table, size_t table_length);

/* Recordings, section 6 of the specification: text of at most FUNNELFAWN_MOST_TEXT bytes, of at most FUNNELFAWN_MOST_STEPS steps, and its
 * values of a in a list and its steps in three. The acts are written wait, try, test, set, check, crit, exit, reset, rem, withdraw.
 *
 * A recording begins with `windows,b,c`, a line of these values, `window,a`, a line for each window from 1 to n, such as `1,5`, and
 * `time,window,act`; so its first step is on line 5 + n [6.20] to [6.40]. In the former shape it begins with `windows,a,b,c`, a line of
 * these values and `time,window,act`, and its first step is on line 4: it is read as n values of a that are equal [6.45]. Line 1 tells
 * which of the two it is. Nothing is written in the former shape. What funnelfawn_read gave back, its list of a and its steps,
 * funnelfawn_write turns into the very bytes that were read if they begin with `windows,b,c`, and otherwise into a recording that is read
 * as the same steps with the same values [6.200] [6.202] [9.105]. That has n + 1 lines more, so that of a former recording of nearly
 * FUNNELFAWN_MOST_TEXT bytes the writing may give 15. */
enum { FUNNELFAWN_MOST_TEXT = 65536, FUNNELFAWN_MOST_STEPS = 8187 };

/* n, b, c are 0 where a reading is refused. */
struct funnelfawn_reading {
    struct funnelfawn_answer answer;
    uint64_t n;
    uint64_t b;
    uint64_t c;
};

/* [9.90] Reads a recording. 0, 0, the count of steps, with n, b, c in the reading, the values of a in the first FUNNELFAWN_WINDOWS places
 * of `a`, which are 0 above n, and the steps in the three lists; or 15, or 13, 14, 11 or 12 for the first fault of the text, or, last, 16
 * where `a` has fewer places, whatever n is, or the shortest of the three no room for all steps. With FUNNELFAWN_WINDOWS places in `a` and
 * FUNNELFAWN_MOST_STEPS in each of the three it is never answered 16.
 *   What came with 0 may be handed on as it is [9.105]: n, b, c and `a` to funnelfawn_fresh, for the table that `replay` starts from; the
 *   same and the three lists, with the count of steps for their lengths, to funnelfawn_write. */
struct funnelfawn_reading funnelfawn_read(const uint8_t *FUNNELFAWN_RESTRICT text, size_t text_length, uint64_t *FUNNELFAWN_RESTRICT a,
                                          size_t a_length, uint64_t *FUNNELFAWN_RESTRICT moments, size_t moments_length,
                                          uint64_t *FUNNELFAWN_RESTRICT windows, size_t windows_length,
                                          uint64_t *FUNNELFAWN_RESTRICT acts, size_t acts_length);

/* [9.100] Writes a recording of the steps in the three lists, as many as the shortest has, with the values of a in the list `a`, which is
 * as funnelfawn_fresh has it [9.45]; one that a reading has filled is such a list. 0, 0, the count of bytes, with the text in `out`; or 11,
 * 12, 14 with the line of the first step without a form (a moment of more than 13 digits, a window of more than 8, no such act), 5 + n
 * being that of the first step, 15, or, last, 16. An `out` of FUNNELFAWN_MOST_TEXT bytes always suffices. */
struct funnelfawn_answer funnelfawn_write(uint64_t n, uint64_t b, uint64_t c, const uint64_t *a, size_t a_length, const uint64_t *moments,
                                          size_t moments_length, const uint64_t *windows, size_t windows_length, const uint64_t *acts,
                                          size_t acts_length, uint8_t *FUNNELFAWN_RESTRICT out, size_t out_length);

/* [9.110] What the program `replay` prints for a recording, faulty or not. 0, 0, the count of bytes, with the text in `out`; or 16, which
 * never comes where `out` has FUNNELFAWN_MOST_REPORT bytes. */
enum { FUNNELFAWN_MOST_REPORT = 687734 };

struct funnelfawn_answer funnelfawn_replay(const uint8_t *FUNNELFAWN_RESTRICT text, size_t text_length,
                                           uint8_t *FUNNELFAWN_RESTRICT out, size_t out_length);

/* [9.112] The spans of a recording, for whoever keeps the accounts: its steps are run as `replay` runs them, and out of the answers comes
 * who sold, from when to when. The text is `window,from,to` and then a line for each accepted crit, in their order: its window, its
 * moment, and the moment of the next accepted exit of that window, or `-` where the recording has none and the span is still open
 * [11.20] [11.30] [11.45]. No span begins before the one before it has ended, so only the last one can be open [11.85] [11.90].
 *   0, 0, the count of bytes, with the text in `out`, of which the bytes after it stay;
 *   or, for a faulty recording, the number of its first fault, 0, and the line that `replay` prints: with 13 and 14 that of the fault; with
 *   11 line 2 and with 12 the last line of a, 3 + n, or line 2 in the former shape, where funnelfawn_read has 0; and with 15 it is 0
 *   [11.55]; or, last, 16. Refused, `out` is as it was.
 *   The text is never longer than the recording [11.65]: an `out` of text_length bytes always suffices, and so does one of
 *   FUNNELFAWN_MOST_TEXT. With an `out` at least as long as the recording the steps are run once; with a shorter one twice, unless it is
 *   refused, as they are first run to learn how long the text is. */
struct funnelfawn_answer funnelfawn_spans(const uint8_t *FUNNELFAWN_RESTRICT text, size_t text_length,
                                          uint8_t *FUNNELFAWN_RESTRICT out, size_t out_length);

/* Notebooks: section 13 of the specification
 *
 * A till may write down its own acts by its own clock. Such a notebook is a list of moments and a list of acts; the shorter of the two sets
 * its length, and what stands in the longer one past that does not count, whatever it is [13.10]. It is held against the list of what the
 * box accepted of that window, which funnelfawn_accepted_acts takes out of a recording. */

/* [13.120] The accepted acts of a window in a recording: its steps are run as `replay` runs them, once, and the moments and the acts of the
 * accepted ones of that window come out, in their order. The moments do not fall, and none is above 1,000,000,000,000 [13.140].
 *   0, 0, how many there are, with the moments in the first places of `moments` and the acts in those of `acts`; later places stay;
 *   or, for a faulty recording, the number of its first fault, 0, and the line, as funnelfawn_spans has it; or 7, where the window is none
 *   of 1 to n; or, last, 16, where the shorter of the two lists has fewer places. Refused, both lists are as they were [13.125].
 *   FUNNELFAWN_MOST_STEPS places in each always suffice [13.130]. Hand on to funnelfawn_compare_logs only as many places of each as were
 *   told: later ones would count as acts [13.122]. */
struct funnelfawn_answer funnelfawn_accepted_acts(const uint8_t *FUNNELFAWN_RESTRICT text, size_t text_length, uint64_t window,
                                                  uint64_t *FUNNELFAWN_RESTRICT moments, size_t moments_length,
                                                  uint64_t *FUNNELFAWN_RESTRICT acts, size_t acts_length);

/* What a comparison answers; only the shift may be below 0. */
struct funnelfawn_comparison {
    uint64_t number;
    uint64_t window; /* always 0 */
    int64_t shift;   /* 0 where the number is not 0 */
};

/* [13.90] A till's notebook held against the box's accepted acts of its window. They agree if both have the same acts in the same order and
 * one shift s, -d <= s <= d, added to every moment of the till, leaves it no further than e from the box's [13.50].
 *   0, 0, the smallest such s: it is above 0 where the till's clock is behind the box's. Where the clock is behind by s, from -d to d, give
 *   or take e at each act, the shift that is told is at most s and, if there is an act, at least s - 2e; so with e = 0 it is s [13.80]. To
 *   know the greatest such s too, exchange the two notebooks and the sign [13.87]. Two notebooks without an act give -d [13.75].
 *   Or 19 if d or e is above FUNNELFAWN_MOST_SHIFT, or a moment that counts is above 1,000,000,000,000, be it in either notebook and at
 *   whichever place; or else 20 if the acts differ, or there are more in one of the two; or else 21 if no shift serves.
 *   All four lists are only read. Any acts are compared, numbers that are no act among them. */
enum { FUNNELFAWN_MOST_SHIFT = 1000000 };

struct funnelfawn_comparison funnelfawn_compare_logs(const uint64_t *till_moments, size_t till_moments_length, const uint64_t *till_acts,
                                                     size_t till_acts_length, const uint64_t *box_moments, size_t box_moments_length,
                                                     const uint64_t *box_acts, size_t box_acts_length, uint64_t d, uint64_t e);

#ifdef __cplusplus
}
#endif

#endif
