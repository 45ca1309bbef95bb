/* A trap of the kernel's own has sepc on its stack while it is busy. An attacker's device writes the address of another
   function over it, and SRET goes on there, in kernel mode.
   Caught by:  nothing: `unlock` is approved, and no rule says which approved code comes after which
   Unguarded:  the same. */
#include "kernel.h"

void unlock(void)
{
    put("unlocked\n");
    shutdown();
}

void trap(struct frame *frame, u64 cause, u64 value)
{
    frame->x[0] += 4;
    busy();
}

int main(void)
{
    __asm__ volatile("ebreak");
    put("still locked\n");
    return 0;
}
