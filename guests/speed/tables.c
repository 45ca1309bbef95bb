/* Page tables that change: one address leads to two pages by turns, with a fence and some work behind each change. */
#include "kernel.h"

#define WINDOW 0x40000000ul
#define WORDS 16

int main(void)
{
    paging_on();
    u64 pages[2] = { new_page(), new_page() };
    volatile u64 *words = (volatile u64 *)WINDOW;
    for (u64 n = 0;; n++) {
        map(WINDOW, pages[n % 2], RW);
        fence();
        for (u64 i = 0; i < WORDS; i++)
            words[i] += n;
    }
}
