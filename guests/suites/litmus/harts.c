/* Four harts go through all tests side by side. In each round of a test they meet, and each that has a thread of it carries
   that out, another one in each round; at last hart 0 prints what was seen: a line `o`, the test's number, the round, the
   values. */
#include "kernel.h"
#include "litmus_guest.h"

static volatile u64 met;

/* Waits until all harts have come as often. How long that takes, which is the schedule's choice, goes into the gaps. */
static void meet(u64 times, u64 *state)
{
    __atomic_fetch_add(&met, 1, __ATOMIC_SEQ_CST);
    while (met < times * HARTS)
        ++*state;
}

static void go_through(u64 hart)
{
    u64 times = 0;
    gap_state[hart] = hart + 1;
    for (u64 test = 0; test < TESTS; test++)
        for (u64 round = 0; round < ROUNDS; round++) {
            u64 thread = (hart + round) % HARTS;
            meet(++times, &gap_state[hart]);
            if (thread < tests[test].threads)
                tests[test].thread[thread][round & 1](round, &gap_state[hart]);
        }
    meet(++times, &gap_state[hart]);
}

void hart_main(u64 hart, u64 opaque)
{
    go_through(hart);
}

int main(void)
{
    for (u64 test = 0; test < TESTS; test++)
        for (u64 round = 0; round < ROUNDS; round++)
            tests[test].begin(round);
    for (u64 hart = 1; hart < HARTS; hart++)
        hart_start(hart, (u64)_start, 0);
    go_through(0);
    for (u64 test = 0; test < TESTS; test++)
        for (u64 round = 0; round < ROUNDS; round++) {
            put("o ");
            put_number(test);
            print_byte(' ');
            put_number(round);
            tests[test].print(round);
            print_byte('\n');
        }
    return 0;
}
