/* A kernel that patches its own text, as kernels do for what a processor has, and runs code that it put into data.
   Caught by:  verdict stopped write ... gpa of `feature`; a survey tells all three: two places that write, and the jump
   Unguarded:  the function is replaced, and the code in data runs in kernel mode. */
#include "kernel.h"

NOINLINE int feature(int x) { return x + 1; }

/* Both words of the new function are written here. */
NOINLINE void patch_text(u32 *at, u32 word) { *at = word; }

NOINLINE void patch_exit(u32 *at) { at[1] = 0x00008067; /* ret */ }

u32 trampoline[2] __attribute__((aligned(64))) = {
    0x14029073, /* csrw sscratch, t0 */
    0x00008067, /* ret */
};

int main(void)
{
    u32 *text = (u32 *)feature;
    void (*volatile go)(void) = (void (*)(void))trampoline;
    patch_text(text, 0x29A00513); /* li a0, 666 */
    patch_text(text + 1, 0x00000013); /* nop */
    patch_exit(text);
    __asm__ volatile("fence.i");
    tell("feature", feature(1));
    go();
    put("the data ran in kernel mode\n");
    return 0;
}
