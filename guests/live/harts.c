/* Four harts: hart 0 starts the others, interrupts each of them, and all count under one lock. */
#include "kernel.h"

static int lock;
static volatile u64 total, interrupts, finished;

static void take(void)
{
    int held;
    do
        __asm__ volatile("amoswap.w.aq %0, %1, (%2)" : "=&r"(held) : "r"(1), "r"(&lock) : "memory");
    while (held);
}

static void give(void) { __asm__ volatile("amoswap.w.rl zero, zero, (%0)" ::"r"(&lock) : "memory"); }

void trap(struct frame *frame, u64 cause, u64 value)
{
    if (cause != (INTERRUPT | SOFTWARE)) {
        tell("trap", cause);
        shutdown();
    }
    csr_clear(sip, 1ul << SOFTWARE);
    take();
    interrupts++;
    give();
}

static void work(void)
{
    for (int i = 0; i < 25; i++) {
        take();
        total++;
        give();
    }
}

void hart_main(u64 hart, u64 opaque)
{
    csr_write(sie, 1ul << SOFTWARE);
    work();
    /* Waits for the interrupt of hart 0 with interrupts on only here, so that no trap comes while the lock is held. */
    csr_set(sstatus, STATUS_SIE);
    while (interrupts < 3)
        ;
    csr_clear(sstatus, STATUS_SIE);
    take();
    put("hart ");
    put_number(hart);
    tell(" was given", opaque);
    finished++;
    give();
}

int main(void)
{
    for (u64 hart = 1; hart < 4; hart++)
        tell("start", hart_start(hart, (u64)_start, 100 * hart));
    work();
    take();
    tell("interrupt", send_ipi(14));
    give();
    while (finished < 3)
        ;
    for (u64 hart = 1; hart < 4; hart++)
        while (hart_status(hart) != 1)
            ;
    tell("counted", total);
    return 0;
}
