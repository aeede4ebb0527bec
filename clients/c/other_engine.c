/* A second engine that is not like the first: put around the library's step by -Wl,--wrap=funnelfawn_step_deadlines, to see that
 * deadlines.c finds it out. With ANSWER it gives another answer to a refused act; without, it gives the window of an accepted one a moment
 * more, which no answer tells at once. */
#include "funnelfawn.h"

struct funnelfawn_answer __real_funnelfawn_step_deadlines(uint64_t *deadlines, size_t length, uint64_t act, uint64_t window, uint64_t moment);
struct funnelfawn_answer __wrap_funnelfawn_step_deadlines(uint64_t *deadlines, size_t length, uint64_t act, uint64_t window, uint64_t moment);

struct funnelfawn_answer __wrap_funnelfawn_step_deadlines(uint64_t *deadlines, size_t length, uint64_t act, uint64_t window, uint64_t moment)
{
    struct funnelfawn_answer answer = __real_funnelfawn_step_deadlines(deadlines, length, act, window, moment);

#ifdef ANSWER
    if (answer.number != FUNNELFAWN_OK)
        answer.moment++;
#else
    if (answer.number == FUNNELFAWN_OK && act == FUNNELFAWN_ACT_SET)
        deadlines[FUNNELFAWN_HEADER_LENGTH + FUNNELFAWN_DEADLINES_STRIDE * (window - 1) + 2]++;
#endif
    return answer;
}
