// What drives a device by polling: its registers, its queues, and how a driver begins (VIRTIO 1.1, 2.6, 3.1 and 4.2.2).

typedef unsigned char byte;
typedef unsigned short half;
typedef unsigned int word;

#define NETWORK ((volatile word *)0x10001000)
#define BLOCK ((volatile word *)0x10002000)

enum { BUFFERS = 8 };

// Registers of a device, in words (VIRTIO 1.1, 4.2.2).
enum {
    FEATURES = 0x010 / 4, FEATURES_SEL = 0x014 / 4, DRIVER = 0x020 / 4, DRIVER_SEL = 0x024 / 4,
    QUEUE_SEL = 0x030 / 4, QUEUE_MAX = 0x034 / 4, QUEUE_NUM = 0x038 / 4, QUEUE_READY = 0x044 / 4,
    NOTIFY = 0x050 / 4, STATUS = 0x070 / 4, DESC = 0x080 / 4, AVAIL = 0x090 / 4, USED = 0x0A0 / 4, CONFIG = 0x100 / 4
};
enum { ACKNOWLEDGE = 1, HAS_DRIVER = 2, DRIVER_OK = 4, FEATURES_OK = 8 };
enum { NEXT = 1, WRITE = 2 };

// A split virtqueue of eight entries (VIRTIO 1.1, 2.6).
struct descriptor { word low, high, length; half flags, next; };
struct queue {
    struct descriptor table[BUFFERS];
    struct { half flags, index, entries[BUFFERS]; } available;
    struct { half flags, index; struct { word id, length; } entries[BUFFERS]; } used;
    half seen; // used entries that were taken
} __attribute__((aligned(16)));

static void fence(void) { __asm__ volatile("fence" ::: "memory"); }

// ---- both devices

static void stop(void)
{
    for (;;)
        ;
}

// Resets a device and agrees on VERSION_1 alone.
static void greet(volatile word *device)
{
    device[STATUS] = 0;
    device[STATUS] = ACKNOWLEDGE;
    device[STATUS] = ACKNOWLEDGE | HAS_DRIVER;
    device[FEATURES_SEL] = 1;
    if (!(device[FEATURES] & 1))
        stop();
    device[DRIVER_SEL] = 0;
    device[DRIVER] = 0;
    device[DRIVER_SEL] = 1;
    device[DRIVER] = 1;
    device[STATUS] = ACKNOWLEDGE | HAS_DRIVER | FEATURES_OK;
    if (!(device[STATUS] & FEATURES_OK))
        stop();
}

static void give_queue(volatile word *device, word number, volatile struct queue *queue)
{
    device[QUEUE_SEL] = number;
    if (device[QUEUE_MAX] < BUFFERS)
        stop();
    device[QUEUE_NUM] = BUFFERS;
    device[DESC] = (word)queue->table;
    device[DESC + 1] = 0;
    device[AVAIL] = (word)&queue->available;
    device[AVAIL + 1] = 0;
    device[USED] = (word)&queue->used;
    device[USED + 1] = 0;
    queue->available.flags = 1; // no interrupts
    device[QUEUE_READY] = 1;
}

static void describe(volatile struct queue *queue, word k, const volatile void *part, word length, word flags,
                     word next)
{
    queue->table[k].low = (word)part;
    queue->table[k].high = 0;
    queue->table[k].length = length;
    queue->table[k].flags = (half)flags;
    queue->table[k].next = (half)next;
}

// Makes the chain that begins at a descriptor available, and tells the device.
static void offer(volatile word *device, word number, volatile struct queue *queue, word head)
{
    queue->available.entries[queue->available.index % BUFFERS] = (half)head;
    fence();
    queue->available.index += 1;
    fence();
    device[NOTIFY] = number;
}

static int has_used(volatile struct queue *queue)
{
    fence();
    return queue->seen != queue->used.index;
}
