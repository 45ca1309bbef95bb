/* The page tables are data: the entry of a text page is turned to a page of data that holds other code.
   Caught by:  demote ... pc of `victim`, gpa of the data page: nothing of it runs in kernel mode,
               and in user mode a page without U can't be fetched (trap 12)
   Unguarded:  the function is another one, and answers 666 in kernel mode. */
#include "kernel.h"

__attribute__((noipa, section(".init.text"))) static int victim(int x) { return x + 1; }

int main(void)
{
    paging_on();
    tell("before", victim(1));
    u64 page = new_page(), at = (u64)victim;
    u32 *code = (u32 *)(page + (at & (PAGE - 1)));
    code[0] = 0x29A00513; /* li a0, 666 */
    code[1] = 0x00008067; /* ret */
    map(at & -PAGE, page, RX);
    fence();
    tell("after", victim(1));
    return 0;
}
