/* Many traps: user mode under Sv39 makes a system call every few instructions; the kernel saves all registers each time. */
#include "kernel.h"

USER static void user_main(void)
{
    for (u64 n = 0;; n++) {
        register u64 a0 __asm__("a0") = n;
        __asm__ volatile("ecall" : "+r"(a0) : : "memory");
    }
}

void trap(struct frame *frame, u64 cause, u64 value)
{
    frame->x[0] += 4;
    frame->x[10] += cause;
}

int main(void)
{
    paging_on();
    run_user(user_main);
    return 0;
}
