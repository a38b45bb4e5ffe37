// Drives both devices by polling: sends a frame, sends each frame that it receives back to its sender,
// and prints to the disk what it does. Its report is a text of lines from sector 0 on, which check_devices.py reads.

#include "virtio.h"

#define MTIME ((volatile word *)0x0200BFF8)

enum { PATIENCE = 20000, SECTOR = 512, BUFFER = 2048, HEADER = 12 };

static volatile struct queue receiving, sending, requests;
static byte received[BUFFERS][BUFFER];
static byte frame[HEADER + 1514];

static word now(void) { return MTIME[0]; }

// ---- the report on the disk

static struct { word type, reserved, low, high; } request;
static byte text[SECTOR];
static volatile byte result;
static word length, sector;

// Writes the sector of text. The disk serves it in a later turn.
static void flush(void)
{
    request.type = 1;
    request.low = sector;
    result = 255;
    describe(&requests, 0, &request, sizeof request, NEXT, 1);
    describe(&requests, 1, text, SECTOR, NEXT, 2);
    describe(&requests, 2, &result, 1, WRITE, 0);
    offer(BLOCK, 0, &requests, 0);
    while (!has_used(&requests))
        ;
    requests.seen += 1;
    if (result != 0)
        stop();
}

static void put(byte value)
{
    text[length] = value;
    length += 1;
    if (length < SECTOR)
        return;
    flush();
    sector += 1;
    length = 0;
    for (word k = 0; k < SECTOR; k++)
        text[k] = 0;
}

static void print(const char *line)
{
    while (*line)
        put((byte)*line++);
}

static void print_number(word number)
{
    if (number >= 10)
        print_number(number / 10);
    put((byte)('0' + number % 10));
}

static void print_mac(const volatile byte *mac)
{
    for (word k = 0; k < 6; k++) {
        if (k > 0)
            put(':');
        put((byte) "0123456789abcdef"[mac[k] >> 4]);
        put((byte) "0123456789abcdef"[mac[k] & 15]);
    }
}

// ---- frames

static const byte question[42] = {
    0xFF, 0xFF, 0xFF, 0xFF, 0xFF, 0xFF, 0x52, 0x54, 0x00, 0x12, 0x34, 0x56, 0x08, 0x06, // ARP, to all
    0x00, 0x01, 0x08, 0x00, 6, 4, 0x00, 0x01,                                           // a request
    0x52, 0x54, 0x00, 0x12, 0x34, 0x56, 10, 0, 2, 15,                                   // from 10.0.2.15
    0, 0, 0, 0, 0, 0, 10, 0, 2, 2                                                       // who has 10.0.2.2?
};

// Sends `count` bytes of `frame` after the header of 12 zeros.
static void send(word count)
{
    describe(&sending, 0, frame, HEADER + count, 0, 0);
    offer(NETWORK, 1, &sending, 0);
    while (!has_used(&sending))
        ;
    sending.seen += 1;
}

// Sends a received frame back to where it came from.
static void reflect(const byte *from, word count)
{
    for (word k = 0; k < count; k++)
        frame[HEADER + k] = from[k];
    for (word k = 0; k < 6; k++) {
        frame[HEADER + k] = from[6 + k];
        frame[HEADER + 6 + k] = from[k];
    }
    send(count);
}

// Takes the next received frame, gives its buffer back, and says whether there was one.
static int receive(void)
{
    if (!has_used(&receiving))
        return 0;
    word id = receiving.used.entries[receiving.seen % BUFFERS].id;
    word count = receiving.used.entries[receiving.seen % BUFFERS].length - HEADER;
    receiving.seen += 1;
    reflect(received[id] + HEADER, count);
    print("reflected ");
    print_number(count);
    print(" bytes of ");
    print_mac(received[id] + HEADER + 6);
    print("\n");
    offer(NETWORK, 0, &receiving, id);
    return 1;
}

void on_timer(void) {}

void main(void)
{
    greet(BLOCK);
    give_queue(BLOCK, 0, &requests);
    BLOCK[STATUS] = ACKNOWLEDGE | HAS_DRIVER | FEATURES_OK | DRIVER_OK;
    print("disk of ");
    print_number(BLOCK[CONFIG]);
    print(" sectors\n");

    greet(NETWORK);
    give_queue(NETWORK, 0, &receiving);
    give_queue(NETWORK, 1, &sending);
    NETWORK[STATUS] = ACKNOWLEDGE | HAS_DRIVER | FEATURES_OK | DRIVER_OK;
    for (word k = 0; k < BUFFERS; k++) {
        describe(&receiving, k, received[k], BUFFER, WRITE, 0);
        offer(NETWORK, 0, &receiving, k);
    }
    print("card of ");
    print_mac((volatile byte *)(NETWORK + CONFIG));
    print("\n");

    for (word k = 0; k < sizeof question; k++)
        frame[HEADER + k] = question[k];
    send(sizeof question);
    print("asked\n");

    word frames = 0;
    for (word last = now(); now() - last < PATIENCE;)
        if (receive()) {
            frames += 1;
            last = now();
        }
    print_number(frames);
    print(" frames\n");
    flush();
}
