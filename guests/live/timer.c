/* Timer interrupts. Time passes by ticks alone, so it needs a schedule that has them: auto:1. */
#include "kernel.h"

static volatile u64 rings;
static u64 due;

void trap(struct frame *frame, u64 cause, u64 value)
{
    if (cause != (INTERRUPT | TIMER)) {
        tell("trap", cause);
        shutdown();
    }
    rings++;
    tell("ring", rings);
    due += 1000;
    set_timer(due);
}

int main(void)
{
    due = 1000;
    set_timer(due);
    csr_write(sie, 1ul << TIMER);
    csr_set(sstatus, STATUS_SIE);
    while (rings < 5)
        ;
    put(csr_read(time) >= 5000 ? "time has passed\n" : "too early\n");
    return 0;
}
