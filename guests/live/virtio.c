/* A virtio disk: sector 0 is read, made upper case, written to sector 1, and read back from there. A request moves by
   beats, so it needs a schedule that has them: auto:1. */
#include "virtio.h"

static u8 sector[512] __attribute__((aligned(64)));

int main(void)
{
    tell("sectors", virtio_begin());
    tell("read", virtio_read(0, (u64)sector, 1));
    for (int i = 0; i < 512; i++) {
        if (sector[i] >= 'a' && sector[i] <= 'z')
            sector[i] -= 32;
    }
    tell("write", virtio_write(1, (u64)sector, 1));
    sector[0] = 0;
    tell("read back", virtio_read(1, (u64)sector, 1));
    for (int i = 0; i < 512 && sector[i]; i++)
        print_byte(sector[i]);
    tell("beyond the disk", virtio_read(2, (u64)sector, 1));
    return 0;
}
