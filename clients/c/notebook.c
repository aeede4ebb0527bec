/* A till's notebook held against the day's recording, for who looks after the clocks of the tills: `notebook WINDOW NOTEBOOK` reads the
 * recording on standard input, takes out what the box accepted of that window, and says by how much the till's clock is off. The notebook is
 * a file in the form of a recording too, with the till's acts by the till's clock: so the library reads it, and funnelfawn_write writes it.
 * Exit status: 0 where the two agree; 1 where the recording or the notebook is refused; 2 where the arguments are not two, or the input or the
 * output breaks; 3 where the archive has another layout than the header; 4 where they do not agree. streams.h says more. */
#include "streams.h"

#include <fcntl.h>
#include <inttypes.h>
#include <stdarg.h>
#include <stdlib.h>
#include <string.h>

/* In microseconds: how far the clock of a till may be off, and how far from the moment of an act the till may note it. */
enum { D = 5000, E = 100 };

/* The status where the two do not agree. */
enum { DIFFER = 4 };

/* With room for whatever a recording has [13.130]. */
struct notebook {
    uint64_t moments[FUNNELFAWN_MOST_STEPS];
    uint64_t acts[FUNNELFAWN_MOST_STEPS];
    size_t count;
};

static uint64_t window;
static struct notebook till, box;

/* What is to be printed. */
static struct made say(int status, const char *form, ...)
{
    static char words[512];
    va_list values;
    int length;

    va_start(values, form);
    length = vsnprintf(words, sizeof words, form, values);
    va_end(values);
    return (struct made){(const uint8_t *)words, (size_t)length, status};
}

/* Nothing is printed but why, on standard error. Of the numbers 11 and 12 only the recording's have a line, of 7 and 15 none has. */
static int refuse(const char *what, struct funnelfawn_answer answer)
{
    fprintf(stderr, "notebook: the %s is refused (%" PRIu64 ")", what, answer.number);
    if (answer.moment != 0)
        fprintf(stderr, ": line %" PRIu64, answer.moment);
    fputc('\n', stderr);
    return FAULTY;
}

static struct funnelfawn_comparison compare(const struct notebook *one, const struct notebook *other)
{
    return funnelfawn_compare_logs(one->moments, one->count, one->acts, one->count, other->moments, other->count, other->acts,
                                   other->count, D, E);
}

/* From the smallest shift to the largest all serve, and the clock is off by about the middle of them. */
static struct made say_shifts(int64_t smallest, int64_t largest)
{
    int64_t middle = (smallest + largest) / 2;

    if (box.count == 0)
        return say(GOOD, "window %" PRIu64 ": nothing is noted, and nothing was accepted\n", window);
    return say(GOOD,
               "window %" PRIu64 ": the till has noted the %zu acts that the box accepted\n"
               "any shift from %" PRId64 " to %" PRId64 " microseconds brings each moment within %d of the box's\n"
               "the till's clock is about %" PRId64 " microseconds %s\n",
               window, box.count, smallest, largest, E, middle < 0 ? -middle : middle, middle < 0 ? "ahead" : "behind");
}

/* The place of the first act that is not the same, from 1, be it that one of the two has none there. */
static size_t first_other(void)
{
    size_t place = 0;

    while (place < till.count && place < box.count && till.acts[place] == box.acts[place])
        place++;
    return place + 1;
}

static struct made say_comparison(void)
{
    struct funnelfawn_comparison found = compare(&till, &box);

    switch (found.number) {
    case FUNNELFAWN_OK:
        /* the other way round the same shifts serve with the other sign, so that the smallest of those is the largest of these */
        return say_shifts(found.shift, -compare(&box, &till).shift);
    case FUNNELFAWN_REFUSED_OTHER_ACTS:
        return say(DIFFER, "window %" PRIu64 ": the till has noted %zu acts and the box accepted %zu, which differ from act %zu on\n", window,
                   till.count, box.count, first_other());
    case FUNNELFAWN_REFUSED_NO_SHIFT:
        return say(DIFFER,
                   "window %" PRIu64 ": the till has noted the %zu acts that the box accepted\n"
                   "no shift of up to %d microseconds brings each moment within %d of the box's\n",
                   window, box.count, D, E);
    default: /* of the bounds none but that of a moment in the notebook can be passed [13.145] */
        return say(FAULTY, "window %" PRIu64 ": a noted moment is above 1000000000000\n", window);
    }
}

/* Of the recording, once it has come in. */
static struct made hold(const uint8_t *recording, size_t length)
{
    struct funnelfawn_answer accepted =
        funnelfawn_accepted_acts(recording, length, window, box.moments, FUNNELFAWN_MOST_STEPS, box.acts, FUNNELFAWN_MOST_STEPS);

    if (accepted.number != FUNNELFAWN_OK)
        return (struct made){NULL, 0, refuse("recording", accepted)};
    box.count = (size_t)accepted.moment;
    return say_comparison();
}

/* The steps of a notebook, of which those of the window are kept: two windows may share a till. */
static int read_steps(const uint8_t *text, size_t length)
{
    static uint64_t a[FUNNELFAWN_WINDOWS], moments[FUNNELFAWN_MOST_STEPS], windows[FUNNELFAWN_MOST_STEPS], acts[FUNNELFAWN_MOST_STEPS];
    struct funnelfawn_answer read = funnelfawn_read(text, length, a, FUNNELFAWN_WINDOWS, moments, FUNNELFAWN_MOST_STEPS, windows,
                                                    FUNNELFAWN_MOST_STEPS, acts, FUNNELFAWN_MOST_STEPS)
                                        .answer;

    if (read.number != FUNNELFAWN_OK)
        return refuse("notebook", read);
    for (size_t i = 0; i < read.moment; i++) {
        if (windows[i] == window) {
            till.moments[till.count] = moments[i];
            till.acts[till.count++] = acts[i];
        }
    }
    return GOOD;
}

static int read_notebook(const char *path)
{
    /* one byte more than a recording may have, so that a longer one is refused and not cut */
    static uint8_t text[FUNNELFAWN_MOST_TEXT + 1];
    size_t length;
    int file = open(path, O_RDONLY);

    if (file < 0 || !read_input(file, text, sizeof text, &length))
        return broken("notebook", "notebook", "read");
    close(file);
    return read_steps(text, length);
}

/* What is no number, or one of more than 9 digits, gives 0, which is no window. */
static uint64_t number_in(const char *text)
{
    size_t digits = strspn(text, "0123456789");

    return digits <= 9 && text[digits] == '\0' ? strtoull(text, NULL, 10) : 0;
}

int main(int count, char **arguments)
{
    int status;

    if (funnelfawn_layout() != FUNNELFAWN_LAYOUT)
        return 3;
    if (count != 3) {
        fputs("usage: notebook WINDOW NOTEBOOK <RECORDING\n", stderr);
        return BROKEN;
    }
    window = number_in(arguments[1]);
    status = read_notebook(arguments[2]);
    return status == GOOD ? run("notebook", "finding", hold) : status;
}
