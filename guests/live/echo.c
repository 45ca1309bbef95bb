/* A key echo: the console interrupts hart 0 while a byte waits. Its script types, and ends with a full stop. */
#include "kernel.h"

static volatile int over;

void trap(struct frame *frame, u64 cause, u64 value)
{
    if (cause != (INTERRUPT | EXTERNAL)) {
        tell("trap", cause);
        shutdown();
    }
    while (CONSOLE[5] & 1) {
        u8 key = CONSOLE[0];
        print_byte(key);
        if (key == '.')
            over = 1;
    }
}

int main(void)
{
    put("type: ");
    csr_write(sie, 1ul << EXTERNAL);
    csr_set(sstatus, STATUS_SIE);
    while (!over)
        __asm__ volatile("wfi");
    put("\nno more\n");
    return 0;
}
