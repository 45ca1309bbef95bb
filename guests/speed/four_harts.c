/* Four harts under Sv39, each with work of its own: loads, arithmetic and stores. */
#include "kernel.h"

#define WORDS 64

static volatile u64 words[4][WORDS];

static void work(u64 hart)
{
    for (u64 n = 0;; n++)
        words[hart][n % WORDS] += n ^ words[hart][(n + 7) % WORDS];
}

void hart_main(u64 hart, u64 root)
{
    csr_write(satp, root);
    fence();
    work(hart);
}

int main(void)
{
    paging_on();
    for (u64 hart = 1; hart < 4; hart++)
        hart_start(hart, (u64)_start, csr_read(satp));
    work(0);
    return 0;
}
