/* A driver of the virtio block device, for one request at a time. It needs `vrun`. */
#ifndef VIRTIO_H
#define VIRTIO_H
#include "kernel.h"

typedef unsigned short u16;

/* A descriptor of the queue's table: so many bytes at a guest-physical address. */
struct virtio_descriptor { u64 gpa; u32 size; u16 flags, next; };
#define VIRTIO_NEXT 1  /* another one follows */
#define VIRTIO_WRITE 2 /* the device writes the bytes */
/* Of a request: its header, its data, its result. */
extern volatile struct virtio_descriptor virtio_table[];

#define VIRTIO_READ_DISK 0
#define VIRTIO_WRITE_DISK 1

/* Results. The last one isn't the device's: it needs a reset, and the request won't end. */
#define VIRTIO_DONE 0
#define VIRTIO_FAILED 1
#define VIRTIO_UNKNOWN 2
#define VIRTIO_BROKEN 255

/* Sets the device up, and gives the sectors of its disk; -1 where there is no such device. */
long virtio_begin(void);
/* Offers a request of whole sectors at an address. */
void virtio_offer(u32 type, u64 sector, u64 gpa, u32 count);
/* Waits for its end, and gives its result. */
u32 virtio_result(void);
static inline u32 virtio_read(u64 sector, u64 gpa, u32 count)
{
    virtio_offer(VIRTIO_READ_DISK, sector, gpa, count);
    return virtio_result();
}
static inline u32 virtio_write(u64 sector, u64 gpa, u32 count)
{
    virtio_offer(VIRTIO_WRITE_DISK, sector, gpa, count);
    return virtio_result();
}
#endif
