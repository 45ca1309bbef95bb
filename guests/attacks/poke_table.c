/* An attacker's device writes while the kernel is busy: over the text of `answer`, then code into the kernel's data, and the
   data's address into a table of functions.
   Caught by:  denied gpa of `answer`; demote ... pc and gpa of `room`; what runs there is user code, and its return into
               the kernel's text can't be fetched in user mode
   Unguarded:  `answer` is replaced, and so is what the table leads to; both answer 666. */
#include "kernel.h"

__attribute__((noipa, aligned(8))) int answer(int x) { return x + 1; }

int (*volatile table[1])(int) = { answer };
u64 room[1];

int main(void)
{
    tell("before", table[0](1));
    busy();
    tell("the text answers", answer(1));
    tell("the table answers", table[0](1));
    return 0;
}
