/* `replay` with an exit status, for shells: reads a recording on standard input and prints its report on standard output.
 * Exit status: 0; 1 where the recording is faulty, of which the report is printed all the same; 2 where the input or the output breaks.
 * streams.h says more. */
#include "streams.h"

static uint8_t report[FUNNELFAWN_MOST_REPORT];

/* Whether the recording is faulty, by the reader's word and not by the look of the report. The reader is lent no room at all: room is the
 * last that it asks for [9.90], and for values of a it always does, so a recording without a fault is answered 16, and no other is. */
static bool is_faulty(const uint8_t *recording, size_t length)
{
    return funnelfawn_read(recording, length, NULL, 0, NULL, 0, NULL, 0, NULL, 0).answer.number != FUNNELFAWN_REFUSED_SHORT_OUTPUT;
}

/* Never refused, with room for any report. */
static struct made replay(const uint8_t *recording, size_t length)
{
    struct funnelfawn_answer answer = funnelfawn_replay(recording, length, report, sizeof report);

    return (struct made){report, (size_t)answer.moment, is_faulty(recording, length) ? FAULTY : GOOD};
}

int main(void)
{
    return run("replay", "report", replay);
}
