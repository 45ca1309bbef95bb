/* The driver, by the VIRTIO standard 1.2: "MMIO Device Register Layout", "Split Virtqueues", "Block Device". */
#include "virtio.h"

#define DEVICE(offset) (*(volatile u32 *)(0x10001000ul + (offset)))
#define MAGIC 0x000
#define VERSION 0x004
#define KIND 0x008
#define FEATURES 0x020
#define FEATURES_SELECT 0x024
#define QUEUE_SELECT 0x030
#define QUEUE_SIZE 0x038
#define QUEUE_READY 0x044
#define NOTIFY 0x050
#define INTERRUPT_STATUS 0x060
#define ACKNOWLEDGE 0x064
#define STATUS 0x070
#define TABLE 0x080
#define AVAILABLE 0x090
#define USED 0x0A0
#define SECTORS 0x100

#define SEEN 3 /* the driver found the device, and knows how to drive it */
#define FEATURES_OK 8
#define DRIVER_OK 4
#define NEEDS_RESET 64

#define PLACES 4

volatile struct virtio_descriptor virtio_table[PLACES] __attribute__((aligned(16)));
static volatile struct { u16 flags, index, head[PLACES]; } available __attribute__((aligned(4)));
static volatile struct { u16 flags, index; struct { u32 head, size; } request[PLACES]; } used __attribute__((aligned(4)));
static volatile struct { u32 type, unused; u64 sector; } header;
static volatile u8 result;

static void set_address(u32 offset, volatile void *at)
{
    DEVICE(offset) = (u32)(u64)at;
    DEVICE(offset + 4) = (u64)at >> 32;
}

long virtio_begin(void)
{
    if (DEVICE(MAGIC) != 0x74726976 || DEVICE(VERSION) != 2 || DEVICE(KIND) != 2)
        return -1;
    DEVICE(STATUS) = 0;
    DEVICE(STATUS) = SEEN;
    DEVICE(FEATURES_SELECT) = 1; /* features 32 to 63, of which the first is the version's */
    DEVICE(FEATURES) = 1;
    DEVICE(STATUS) = SEEN | FEATURES_OK;
    if (!(DEVICE(STATUS) & FEATURES_OK))
        return -1;
    available.index = used.index = 0;
    DEVICE(QUEUE_SELECT) = 0;
    DEVICE(QUEUE_SIZE) = PLACES;
    set_address(TABLE, virtio_table);
    set_address(AVAILABLE, &available);
    set_address(USED, &used);
    DEVICE(QUEUE_READY) = 1;
    DEVICE(STATUS) = SEEN | FEATURES_OK | DRIVER_OK;
    return DEVICE(SECTORS);
}

static void describe(u32 place, u64 gpa, u32 size, u32 flags)
{
    virtio_table[place].gpa = gpa;
    virtio_table[place].size = size;
    virtio_table[place].flags = flags;
    virtio_table[place].next = place + 1;
}

void virtio_offer(u32 type, u64 sector, u64 gpa, u32 count)
{
    header.type = type;
    header.sector = sector;
    result = VIRTIO_BROKEN;
    describe(0, (u64)&header, sizeof header, VIRTIO_NEXT);
    describe(1, gpa, 512 * count, VIRTIO_NEXT | (type == VIRTIO_READ_DISK ? VIRTIO_WRITE : 0));
    describe(2, (u64)&result, 1, VIRTIO_WRITE);
    available.head[available.index % PLACES] = 0;
    available.index++;
    DEVICE(NOTIFY) = 0;
}

u32 virtio_result(void)
{
    while (used.index != available.index) {
        if (DEVICE(STATUS) & NEEDS_RESET)
            return VIRTIO_BROKEN;
    }
    DEVICE(ACKNOWLEDGE) = DEVICE(INTERRUPT_STATUS);
    return result;
}
