/* Sv39, for the guests that use it. */
#include "kernel.h"

static u64 root[512] __attribute__((aligned(4096)));

/* The entry of the lowest level for va; the tables above it are made where they are missing. */
u64 *entry(u64 va)
{
    u64 *table = root;
    for (int shift = 30; shift > 12; shift -= 9) {
        u64 *slot = &table[va >> shift & 511];
        if (!(*slot & PTE_V))
            *slot = new_page() >> 12 << 10 | PTE_V;
        table = (u64 *)(*slot >> 10 << 12);
    }
    return &table[va >> 12 & 511];
}

void map(u64 va, u64 gpa, u64 bits) { *entry(va) = gpa >> 12 << 10 | bits; }

void paging_on(void)
{
    for (u64 page = (u64)_start; page < (u64)_start + 64 * PAGE; page += PAGE)
        map(page, page, page < (u64)init_end ? RX : RW);
    map(0x10000000, 0x10000000, RW);
    map(0x10001000, 0x10001000, RW);
    csr_write(satp, 8ul << 60 | (u64)root >> 12);
    fence();
}
