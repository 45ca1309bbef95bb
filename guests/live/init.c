/* Code that runs once and then retires: its pages become free, and the kernel uses them as data. */
#include "kernel.h"

INIT static void set_up(void) { put("init code runs\n"); }

int main(void)
{
    set_up();
    tell("retire", retire());
    tell("again", retire());
    for (u64 *p = (u64 *)init_start; p < (u64 *)init_end; p++)
        *p = 7;
    put("its page is data\n");
    return 0;
}
