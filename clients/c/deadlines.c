/* A recording by first and last moments, for who maintains the box. Reads a recording on standard input and makes each act of it twice, on a
 * table and on a deadline table. A line comes out for each: the line of the recording, the answer and, of the acting window, its place after
 * the act with the first and the last moment at which it may leave it. And the two engines are held to each other: after each act the answers
 * have to be the same, and each table what comes of the other.
 * Exit status: 0; 1 where the recording is refused; 2 where the input or the output breaks; 3 where the archive has another layout than the
 * header; 4 where the engines differ. */
#include "funnelfawn.h"

#include <inttypes.h>
#include <stdio.h>
#include <string.h>

/* Both tables, which match from the start on. */
struct box {
    uint64_t table[FUNNELFAWN_TABLE_LENGTH];
    uint64_t deadlines[FUNNELFAWN_DEADLINES_LENGTH];
};

static int same(struct funnelfawn_answer one, struct funnelfawn_answer other)
{
    return one.number == other.number && one.window == other.window && one.moment == other.moment;
}

/* To and fro: each of the two is what comes of the other. */
static int match(const struct box *box)
{
    struct box other;

    return funnelfawn_to_deadlines(box->table, FUNNELFAWN_TABLE_LENGTH, other.deadlines, FUNNELFAWN_DEADLINES_LENGTH).number ==
               FUNNELFAWN_OK &&
           funnelfawn_to_arrivals(box->deadlines, FUNNELFAWN_DEADLINES_LENGTH, other.table, FUNNELFAWN_TABLE_LENGTH).number ==
               FUNNELFAWN_OK &&
           memcmp(&other, box, sizeof other) == 0;
}

/* In remainder and in selling a window may stay for ever, and has neither moment. */
static void say_window(const struct box *box, uint64_t window)
{
    static const char *const places[] = {"in remainder", "testing", "setting", "checking", "entering", "selling", "resetting", "leaving"};
    const uint64_t *entry = box->deadlines + FUNNELFAWN_HEADER_LENGTH + FUNNELFAWN_DEADLINES_STRIDE * (window - 1);

    printf("; window %" PRIu64 " is %s", window, places[entry[0]]);
    if (entry[0] != FUNNELFAWN_PLACE_REMAINDER && entry[0] != FUNNELFAWN_PLACE_SELLING)
        printf(", first %" PRIu64 ", last %" PRIu64, entry[1], entry[2]);
}

/* One act of both engines; whether they agree. */
static int take(struct box *box, uint64_t line, uint64_t act, uint64_t window, uint64_t moment)
{
    struct funnelfawn_answer answer = funnelfawn_step(box->table, FUNNELFAWN_TABLE_LENGTH, act, window, moment);
    struct funnelfawn_answer second = funnelfawn_step_deadlines(box->deadlines, FUNNELFAWN_DEADLINES_LENGTH, act, window, moment);

    printf("%" PRIu64 ": answer %" PRIu64 ", %" PRIu64 ", %" PRIu64, line, second.number, second.window, second.moment);
    if (window >= 1 && window <= box->deadlines[FUNNELFAWN_AT_N])
        say_window(box, window);
    putchar('\n');
    return same(answer, second) && match(box);
}

/* The line of the first step. In either shape the lines of the steps are the last ones of a recording. */
static uint64_t first_line(const uint8_t *text, size_t length, uint64_t steps)
{
    uint64_t lines = 0;

    for (size_t i = 0; i < length; i++)
        lines += text[i] == '\n';
    return lines - steps + 1;
}

int main(void)
{
    /* one byte more than a recording may have, so that a longer one is refused and not cut */
    static uint8_t text[FUNNELFAWN_MOST_TEXT + 1];
    static uint64_t a[FUNNELFAWN_WINDOWS];
    static uint64_t moments[FUNNELFAWN_MOST_STEPS], windows[FUNNELFAWN_MOST_STEPS], acts[FUNNELFAWN_MOST_STEPS];
    static struct box box;
    struct funnelfawn_reading read;
    size_t length;
    uint64_t first;
    int agree;

    if (funnelfawn_layout() != FUNNELFAWN_LAYOUT)
        return 3;
    length = fread(text, 1, sizeof text, stdin);
    read = funnelfawn_read(text, length, a, FUNNELFAWN_WINDOWS, moments, FUNNELFAWN_MOST_STEPS, windows, FUNNELFAWN_MOST_STEPS, acts,
                           FUNNELFAWN_MOST_STEPS);
    if (ferror(stdin))
        return 2;
    if (read.answer.number != FUNNELFAWN_OK) {
        fprintf(stderr, "the recording is refused (%" PRIu64 ")\n", read.answer.number);
        return 1;
    }
    agree = same(funnelfawn_fresh(read.n, read.b, read.c, a, FUNNELFAWN_WINDOWS, box.table, FUNNELFAWN_TABLE_LENGTH),
                 funnelfawn_fresh_deadlines(read.n, read.b, read.c, a, FUNNELFAWN_WINDOWS, box.deadlines, FUNNELFAWN_DEADLINES_LENGTH)) &&
            match(&box);
    first = first_line(text, length, read.answer.moment);
    for (uint64_t i = 0; agree && i < read.answer.moment; i++)
        agree = take(&box, first + i, acts[i], windows[i], moments[i]);
    if (fflush(stdout) != 0 || ferror(stdout))
        return 2;
    return agree ? 0 : 4;
}
