/*
 * The header alone: an answer is taken apart as it is described, and none but a plain yes reads
 * as allowed. Also compiled as C++.
 */
#include <stdio.h>

#include "../include/aestilumne.h"

static int taken_apart(uint64_t outcome, uint64_t number, uint64_t place, uint64_t length)
{
    uint64_t answer = outcome | number << 8 | place << 16 | length << 32;
    struct aestilumne_answer r = aestilumne_apart(answer);
    return r.outcome == outcome && r.number == number && r.place == place &&
           r.length == length && aestilumne_may(answer) == (outcome == 0 && number == 1);
}

/* One outcome with every number beside it. */
static int with_all_numbers(uint64_t outcome)
{
    static const uint64_t place[] = {0, 1, 255, 256, 65535};
    static const uint64_t length[] = {0, 1, 10375, 12352, 4294967295u};
    uint64_t number;
    int i;
    for (number = 0; number < 256; number++)
        for (i = 0; i < 5; i++)
            if (!taken_apart(outcome, number, place[i], length[i]))
                return 0;
    return 1;
}

int main(void)
{
    int passed = 0;
    uint64_t outcome;
    for (outcome = 0; outcome < 256; outcome++)
        passed += with_all_numbers(outcome);
    printf("%d passed, %d failed\n", passed, 256 - passed);
    return passed != 256;
}
