/* Session S1 of document 01 by single calls: prints its four lines. */
#include "brb.h"
#include <inttypes.h>
#include <stdio.h>

static const uint64_t s1[][6] = {
    {0, 0, 8, 0},          {4, 0, 49},                   {6, 0, 1, 10},
    {6, 0, 2, 8},          {6, 0, 3, 65536},             {3, 0, 1, 0, 128, 4096},
    {1, 300, 0, 0, 4100, 4112}, {1, 300, 8, 1, 4112, 4096}, {5, 0, 32},
    {5, 0, 33},            {5, 0, 64},                   {5, 0, 2},
};

int main(void) {
    uint64_t state[BRB_STATE_NUMBERS] = {0}; /* a fresh state */
    uint64_t room[BRB_ROOM_NUMBERS(64)];     /* room for the largest size */
    for (size_t i = 0; i < sizeof s1 / sizeof s1[0]; i++) {
        const uint64_t *o = s1[i];
        struct brb_answer answer = brb_step(state, BRB_STATE_NUMBERS, room, BRB_ROOM_NUMBERS(64),
                                            o[0], o[1], o[2], o[3], o[4], o[5]);
        if (answer.number == 0 && o[0] == 5) printf("%016" PRIx64 "\n", answer.value);
        if (answer.number == 100) puts("undefined");
    }
    return 0;
}
