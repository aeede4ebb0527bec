/* The program of docs/guide/linking.md: two tills of different age, of which the older one takes its turn. */
#include <inttypes.h>
#include <stdio.h>

#include "funnelfawn.h"

int main(void) {
    static const uint64_t a[] = {5, 30}; /* window 1 is a new till; window 2 is an old one, and has more time for each step */
    static const struct { uint64_t act, window, moment; } acts[] = {
        {FUNNELFAWN_ACT_TRY, 1, 0},       {FUNNELFAWN_ACT_TRY, 2, 0},    {FUNNELFAWN_ACT_TEST, 2, 6},
        {FUNNELFAWN_ACT_WITHDRAW, 1, 5},  {FUNNELFAWN_ACT_TEST, 2, 25},  {FUNNELFAWN_ACT_SET, 2, 50},
        {FUNNELFAWN_ACT_CHECK, 2, 89},    {FUNNELFAWN_ACT_CHECK, 2, 90}, {FUNNELFAWN_ACT_CRIT, 2, 115},
    };
    uint64_t table[FUNNELFAWN_TABLE_LENGTH];
    if (funnelfawn_layout() != FUNNELFAWN_LAYOUT) return 3; /* header and archive are of different versions */
    if (funnelfawn_fresh(2, 40, 60, a, 2, table, FUNNELFAWN_TABLE_LENGTH).number != FUNNELFAWN_OK) return 1;
    for (size_t i = 0; i < sizeof acts / sizeof acts[0]; i++) {
        struct funnelfawn_answer answer =
            funnelfawn_step(table, FUNNELFAWN_TABLE_LENGTH, acts[i].act, acts[i].window, acts[i].moment);
        if (answer.number != FUNNELFAWN_OK)
            printf("refused (%" PRIu64 "): window %" PRIu64 ", moment %" PRIu64 "\n", answer.number, answer.window, answer.moment);
        else if (answer.window != 0)
            printf("window %" PRIu64 " is selling\n", answer.window);
    }
    return 0;
}
