/* A race. Hart 1 publishes one of two objects in turn, and uses the old one's memory for something else a while later, by which
   time, it trusts, nobody has its address any more. Hart 0 loads the published address, then what lies there, and stores to that.
   Where hart 0 stands still between its two loads for that while, it stores to an address that isn't one.
   Caught by:  verdict stopped write ... gpa of `other_use`, under a schedule that lets hart 0 stand still for so long
   Unguarded:  the kernel's text is changed. */
#include "kernel.h"

struct object { u32 *volatile place; };
static struct object objects[2];
static struct object *volatile current;
static u32 cell;
static volatile int finished;

NOINLINE static int other_use(int x) { return x + 1; }

static void wait(void)
{
    for (volatile int i = 0; i < 100; i++)
        ;
}

void hart_main(u64 hart, u64 opaque)
{
    for (int turn = 0; !finished; turn ^= 1) {
        objects[turn].place = &cell;
        current = &objects[turn];
        wait();
        objects[turn ^ 1].place = (u32 *)other_use;
        wait();
    }
}

int main(void)
{
    objects[0].place = &cell;
    current = &objects[0];
    tell("start", hart_start(1, (u64)_start, 0));
    for (int i = 0; i < 2000; i++)
        *current->place = 0x00008067;
    finished = 1;
    tell("still", other_use(1));
    return 0;
}
