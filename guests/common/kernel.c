/* Console, disk, and the answers that a guest may replace. */
#include "kernel.h"

void put(const char *text)
{
    while (*text)
        print_byte(*text++);
}

void put_hex(u64 value)
{
    for (int shift = 60; shift >= 0; shift -= 4)
        print_byte("0123456789abcdef"[value >> shift & 15]);
}

void put_number(long value)
{
    if (value < 0)
        print_byte('-');
    u64 rest = value < 0 ? -(u64)value : (u64)value;
    u64 unit = 1;
    while (rest / unit >= 10)
        unit *= 10;
    for (; unit; unit /= 10)
        print_byte('0' + rest / unit % 10);
}

void tell(const char *label, long value)
{
    put(label);
    print_byte(' ');
    put_number(value);
    print_byte('\n');
}

static u32 transfer(u64 sector, u64 gpa, u32 count, u32 command)
{
    const u64 disk = 0x10001000;
    *(volatile u64 *)disk = sector;
    *(volatile u64 *)(disk + 8) = gpa;
    *(volatile u32 *)(disk + 16) = count;
    *(volatile u32 *)(disk + 20) = command;
    u32 status;
    while ((status = *(volatile u32 *)(disk + 24)) == 1)
        ;
    *(volatile u32 *)(disk + 24) = 0;
    return status;
}

u32 disk_read(u64 sector, u64 gpa, u32 count) { return transfer(sector, gpa, count, 1); }
u32 disk_write(u64 sector, u64 gpa, u32 count) { return transfer(sector, gpa, count, 2); }

__attribute__((weak)) void trap(struct frame *frame, u64 cause, u64 value)
{
    tell("trap", cause);
    put("at ");
    put_hex(frame->x[0]);
    put(" value ");
    put_hex(value);
    put(csr_read(sstatus) & STATUS_USER_BEFORE ? " in the kernel\n" : " in user mode\n");
    shutdown();
}

__attribute__((weak)) void hart_main(u64 hart, u64 opaque) {}

static u64 next_page;

u64 new_page(void)
{
    if (!next_page)
        next_page = (u64)free_start;
    next_page += PAGE;
    return next_page - PAGE;
}
