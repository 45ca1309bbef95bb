/* The text is read-only under Sv39. An attacker's device writes over the entry that maps its first page, which is writable
   then; a wild store of the kernel's own, which was a page fault (15) before, now reaches the text.
   Caught by:  verdict stopped write ... gpa of `victim`
   Unguarded:  the function is replaced, and answers 666. */
#include "kernel.h"

NOINLINE static int victim(int x) { return x + 1; }

int main(void)
{
    u32 *text = (u32 *)victim;
    paging_on();
    tell("before", victim(1));
    busy();
    text[0] = 0x29A00513; /* li a0, 666 */
    text[1] = 0x00008067; /* ret */
    __asm__ volatile("fence.i");
    tell("after", victim(1));
    return 0;
}
