/* A store into the kernel's own text.
   Caught by:  verdict stopped write ... gpa of `victim`
   Unguarded:  the function is replaced, and answers 666. */
#include "kernel.h"

NOINLINE static int victim(int x) { return x + 1; }

int main(void)
{
    u32 *text = (u32 *)victim;
    tell("before", victim(1));
    text[0] = 0x29A00513; /* li a0, 666 */
    text[1] = 0x00008067; /* ret */
    __asm__ volatile("fence.i");
    tell("after", victim(1));
    return 0;
}
