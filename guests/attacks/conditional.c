/* A store-conditional into text. It needs no reservation to be caught: the place is judged first.
   Caught by:  verdict stopped write ... gpa of the text
   Unguarded:  with a reservation it changes the text as a store does. */
#include "kernel.h"

NOINLINE static int victim(int x) { return x + 1; }

int main(void)
{
    u64 failed;
    u32 old;
    tell("before", victim(1));
    __asm__ volatile("lr.w %0, (%2); sc.w %1, %3, (%2); fence.i"
                     : "=&r"(old), "=&r"(failed) : "r"(victim), "r"(0x00000513) : "memory"); /* li a0, 0 */
    tell("failed", failed);
    tell("after", victim(1));
    return 0;
}
