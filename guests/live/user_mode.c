/* User mode under Sv39. The user prints by system calls, tries to read the kernel, and exits. */
#include "kernel.h"

#define EXIT 0
#define PRINT 1

USER static u64 system_call(u64 number, u64 argument)
{
    register u64 a0 __asm__("a0") = argument, a7 __asm__("a7") = number;
    __asm__ volatile("ecall" : "+r"(a0) : "r"(a7) : "memory");
    return a0;
}

USER static void user_main(void)
{
    for (u64 c = 'a'; c <= 'e'; c++)
        system_call(PRINT, c);
    system_call(PRINT, '\n');
    *(volatile u64 *)0x80000000;
    system_call(EXIT, 7);
}

void trap(struct frame *frame, u64 cause, u64 value)
{
    if (cause != USER_CALL) {
        tell("the user's fault:", cause);
        put_hex(value);
        put("\n");
        frame->x[0] += 4;
        return;
    }
    frame->x[0] += 4;
    if (frame->x[17] == PRINT) {
        print_byte(frame->x[10]);
        return;
    }
    tell("the user exits:", frame->x[10]);
    shutdown();
}

int main(void)
{
    paging_on();
    run_user(user_main);
    return 0;
}
