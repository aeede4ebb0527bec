/* `spans` with an exit status, for shells: reads a recording on standard input and prints who sold from when to when on standard output;
 * of a faulty recording it prints what `replay` prints.
 * Exit status: 0; 1 where the recording is faulty; 2 where the input or the output breaks. streams.h says more. */
#include "streams.h"

/* Room for the spans of any recording [11.65], and for the two lines that a faulty one gets. */
static uint8_t out[FUNNELFAWN_MOST_TEXT];

/* Where there is room for any spans, all that is refused is a faulty recording. */
static struct made spans(const uint8_t *recording, size_t length)
{
    struct funnelfawn_answer answer = funnelfawn_spans(recording, length, out, sizeof out);
    bool faulty = answer.number != FUNNELFAWN_OK;

    if (faulty)
        answer = funnelfawn_replay(recording, length, out, sizeof out);
    return (struct made){out, (size_t)answer.moment, faulty ? FAULTY : GOOD};
}

int main(void)
{
    return run("spans", "spans", spans);
}
