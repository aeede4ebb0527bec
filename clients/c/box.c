/* A small box office: acts come in on standard input as they happen, and out goes what the seat ledger reads.
 * The input starts like a recording (docs/guide/recordings.md), with a head of either shape, and then has one act a line, without end.
 * Exit status: 0; 1 where the head is refused; 2 where the input or the output breaks; 3 where the archive has another layout than the
 * header. */
#include "funnelfawn.h"

#include <inttypes.h>
#include <stdio.h>

/* The longest head of which every line has its form has 1,201 bytes, the longest act 32. */
enum { HEAD_ROOM = 1280, LINE_ROOM = 64 };

struct office {
    uint8_t text[HEAD_ROOM + LINE_ROOM]; /* the head, and behind it the line that is judged */
    size_t head;
    uint64_t lines; /* of the head */
    uint64_t a[FUNNELFAWN_WINDOWS];
    uint64_t table[FUNNELFAWN_TABLE_LENGTH];
    uint64_t summary[FUNNELFAWN_SUMMARY_LENGTH];
    uint64_t selling;
};

struct act {
    uint64_t moment;
    uint64_t window;
    uint64_t act;
};

/* The next line with its byte 10; 0 at the end of the input. A line that has no room is cut, and as it then lacks its byte 10 the
 * reader refuses it. */
static size_t cut_line(uint8_t *line, size_t room)
{
    size_t length = 0;
    int byte;

    while ((byte = getchar()) != EOF) {
        if (length < room)
            line[length++] = (uint8_t)byte;
        if (byte == '\n')
            break;
    }
    return length;
}

/* The proved reader judges the head and so many bytes behind it, which are one line or none. */
static struct funnelfawn_reading judge(struct office *office, size_t length, struct act *act)
{
    return funnelfawn_read(office->text, office->head + length, office->a, FUNNELFAWN_WINDOWS, &act->moment, 1, &act->window, 1, &act->act,
                           1);
}

/* The head, line by line: as long as the reader misses the next line and nothing else, that line is fetched. So it is the reader that knows
 * the shapes, and how many lines a head has. Its last word is given back. */
static struct funnelfawn_reading fetch_head(struct office *office)
{
    struct act none;
    struct funnelfawn_reading read = judge(office, 0, &none);

    while (read.answer.moment == office->lines + 1) {
        size_t length = cut_line(office->text + office->head, HEAD_ROOM - office->head);

        if (length == 0)
            break;
        office->head += length;
        office->lines++;
        read = judge(office, 0, &none);
    }
    return read;
}

/* The table and the summary of a head, or the answer that refuses it. */
static struct funnelfawn_answer open_office(struct office *office)
{
    struct funnelfawn_reading read = fetch_head(office);

    if (read.answer.number != FUNNELFAWN_OK)
        return read.answer;
    funnelfawn_new_summary(office->summary, FUNNELFAWN_SUMMARY_LENGTH);
    return funnelfawn_fresh(read.n, read.b, read.c, office->a, FUNNELFAWN_WINDOWS, office->table, FUNNELFAWN_TABLE_LENGTH);
}

static void say_refusal(struct funnelfawn_answer answer)
{
    printf("refused (%" PRIu64 ", ", answer.number);
    switch (answer.number) {
    case FUNNELFAWN_REFUSED_SUMMARY_FULL:
        puts("summary full): no more acts can be counted");
        break;
    case FUNNELFAWN_REFUSED_BACKWARD:
        printf("backward): the clock is at %" PRIu64 "\n", answer.moment);
        break;
    case FUNNELFAWN_REFUSED_END_OF_CLOCK:
        puts("end of clock): the moment is past it");
        break;
    case FUNNELFAWN_REFUSED_NO_WINDOW:
        puts("no window): there is no such window, or a wait names one");
        break;
    case FUNNELFAWN_REFUSED_LATE:
        printf("late): window %" PRIu64 " has to act by %" PRIu64 "\n", answer.window, answer.moment);
        break;
    case FUNNELFAWN_REFUSED_OUT_OF_PLACE:
        printf("out of place): window %" PRIu64 " is not where the act starts from\n", answer.window);
        break;
    case FUNNELFAWN_REFUSED_EARLY:
        printf("early): window %" PRIu64 " may check from %" PRIu64 " on\n", answer.window, answer.moment);
        break;
    default: /* a fresh table with a new summary leads to neither 1 nor 2, and an act that was read not to 6 */
        puts("unexpected)");
    }
}

/* The ledger opens and closes the seating plan by these lines, so an accepted act that changes no seller says nothing. */
static void say_seller(struct office *office, uint64_t selling)
{
    if (selling == office->selling)
        return;
    office->selling = selling;
    if (selling == 0)
        puts("nobody is selling");
    else
        printf("window %" PRIu64 " is selling\n", selling);
}

static void take(struct office *office, const struct act *act)
{
    struct funnelfawn_answer answer = funnelfawn_record(office->table, FUNNELFAWN_TABLE_LENGTH, office->summary,
                                                        FUNNELFAWN_SUMMARY_LENGTH, act->act, act->window, act->moment);

    if (answer.number == FUNNELFAWN_OK)
        say_seller(office, answer.window);
    else
        say_refusal(answer);
}

/* Each line as it comes, until the input ends or what is said of a line does not get out. */
static void run(struct office *office)
{
    uint8_t *line = office->text + office->head;
    size_t length;

    for (uint64_t number = office->lines + 1; (length = cut_line(line, LINE_ROOM)) != 0; number++) {
        struct act act;
        struct funnelfawn_reading read = judge(office, length, &act);

        if (read.answer.number == FUNNELFAWN_OK)
            take(office, &act);
        else
            printf("line %" PRIu64 " is no act (%" PRIu64 ")\n", number, read.answer.number);
        if (fflush(stdout) != 0)
            return;
    }
}

static void say_summary(const uint64_t *summary)
{
    printf("%" PRIu64 " accepted, %" PRIu64 " refused, %" PRIu64 " entries, %" PRIu64 " exits, longest wait %" PRIu64 "\n",
           summary[FUNNELFAWN_AT_ACCEPTED], summary[FUNNELFAWN_AT_REFUSED], summary[FUNNELFAWN_AT_ENTRIES], summary[FUNNELFAWN_AT_EXITS],
           summary[FUNNELFAWN_AT_LONGEST_WAIT]);
}

int main(void)
{
    struct office office = {0};
    struct funnelfawn_answer opened;

    if (funnelfawn_layout() != FUNNELFAWN_LAYOUT) {
        fprintf(stderr, "the archive has the layout %" PRIu64 ", the header %d\n", funnelfawn_layout(), FUNNELFAWN_LAYOUT);
        return 3;
    }
    opened = open_office(&office);
    if (opened.number != FUNNELFAWN_OK) {
        /* of its refusals 13 and 14 carry their line, and 11 and 12 came as soon as theirs was fetched */
        fprintf(stderr, "the head is refused (%" PRIu64 "): line %" PRIu64 "\n", opened.number,
                opened.moment ? opened.moment : office.lines);
        return 1;
    }
    run(&office);
    say_summary(office.summary);
    return fflush(stdout) != 0 || ferror(stdout) || ferror(stdin) ? 2 : 0;
}
