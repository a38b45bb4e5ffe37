// Offers each device a chain that loops, writes down what the device says of it, and then resets the block device and
// has it serve a request. What came out is left at 0x80100000, where check_ring.py looks for it.

#include "virtio.h"

enum { INTERRUPT = 0x060 / 4, NEEDS_RESET = 64, FLUSH = 4 };

#define REPORT ((volatile word *)0x80100000)

static volatile struct queue sending, requests;
static struct { word type, reserved, low, high; } request;
static volatile byte result;
static word length;

static void report(word value)
{
    REPORT[length] = value;
    length += 1;
}

static void start(volatile word *device, word number, volatile struct queue *queue)
{
    greet(device);
    give_queue(device, number, queue);
    device[STATUS] = ACKNOWLEDGE | HAS_DRIVER | FEATURES_OK | DRIVER_OK;
}

// Offers a chain of two descriptors that are each other's next, and waits until the device gives up.
static void offer_loop(volatile word *device, word number, volatile struct queue *queue)
{
    describe(queue, 0, &request, sizeof request, NEXT, 1);
    describe(queue, 1, &request, sizeof request, NEXT, 0);
    offer(device, number, queue, 0);
    while (!(device[STATUS] & NEEDS_RESET))
        ;
    report(device[STATUS]);
    report(device[INTERRUPT]);
    report(queue->used.index);
}

void on_timer(void) {}

void main(void)
{
    start(NETWORK, 1, &sending);
    offer_loop(NETWORK, 1, &sending);
    start(BLOCK, 0, &requests);
    offer_loop(BLOCK, 0, &requests);

    BLOCK[STATUS] = 0;
    report(BLOCK[STATUS]);
    report(BLOCK[INTERRUPT]);
    requests.available.index = 0;
    start(BLOCK, 0, &requests);
    request.type = FLUSH;
    result = 255;
    describe(&requests, 0, &request, sizeof request, NEXT, 1);
    describe(&requests, 1, &result, 1, WRITE, 0);
    offer(BLOCK, 0, &requests, 0);
    while (!has_used(&requests))
        ;
    report(BLOCK[STATUS]);
    report(result);
    report(requests.used.index);
}
