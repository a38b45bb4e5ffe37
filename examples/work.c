// Sorts numbers, computes the CRC-32 of a text and handles three timer interrupts. What came out is
// left at 0x80100000, where check.py looks for it.

typedef unsigned int word;
typedef unsigned char byte;

enum { COUNT = 256, TICKS = 1000, INTERRUPTS = 3 };

struct results {
    word finished; // 0x444F4E45
    word crc;
    word interrupts;
    word cause; // mcause at the last interrupt
    int sorted[COUNT];
};

#define RESULTS ((volatile struct results *)0x80100000)
#define MTIMECMP ((volatile word *)0x02004000)
#define MTIME ((volatile word *)0x0200BFF8)

static const char text[] =
    "A fault-tolerant pair of virtual machines runs one bare-metal server image twice. "
    "The client sees one server, also after one of the two has stopped.";

// A scale of the numbers to be sorted, in the segment of data, so that it is read from there.
static volatile word scale = 2654435761u;

static int numbers[COUNT];
static word table[256];
static volatile word interrupts;
static volatile word cause;

static unsigned long long now(void)
{
    word high, low;
    do {
        high = MTIME[1];
        low = MTIME[0];
    } while (high != MTIME[1]);
    return (unsigned long long)high << 32 | low;
}

static void set_timer(unsigned long long at)
{
    MTIMECMP[1] = 0xFFFFFFFF;
    MTIMECMP[0] = (word)at;
    MTIMECMP[1] = (word)(at >> 32);
}

__attribute__((interrupt("machine"), aligned(4))) void on_timer(void)
{
    word mcause;
    __asm__ volatile("csrr %0, mcause" : "=r"(mcause));
    cause = mcause;
    interrupts += 1;
    set_timer(interrupts < INTERRUPTS ? now() + TICKS : 0xFFFFFFFFFFFFFFFFull);
}

static void sift(int *heap, int root, int count)
{
    int moved = heap[root];
    for (;;) {
        int child = 2 * root + 1;
        if (child >= count)
            break;
        if (child + 1 < count && heap[child] < heap[child + 1])
            child += 1;
        if (heap[child] <= moved)
            break;
        heap[root] = heap[child];
        root = child;
    }
    heap[root] = moved;
}

static void sort(int *list, int count)
{
    for (int root = count / 2 - 1; root >= 0; root--)
        sift(list, root, count);
    for (int last = count - 1; last > 0; last--) {
        int greatest = list[0];
        list[0] = list[last];
        list[last] = greatest;
        sift(list, 0, last);
    }
}

static word crc32(const char *bytes, word count)
{
    for (word value = 0; value < 256; value++) {
        word rest = value;
        for (int bit = 0; bit < 8; bit++)
            rest = rest & 1 ? 0xEDB88320 ^ rest >> 1 : rest >> 1;
        table[value] = rest;
    }
    word crc = 0xFFFFFFFF;
    for (word k = 0; k < count; k++)
        crc = table[(crc ^ (byte)bytes[k]) & 0xFF] ^ crc >> 8;
    return ~crc;
}

void main(void)
{
    set_timer(now() + TICKS);
    __asm__ volatile("csrs mie, %0" ::"r"(1 << 7));
    __asm__ volatile("csrsi mstatus, 8");

    for (word k = 0; k < COUNT; k++)
        numbers[k] = (int)(scale * (k + 1));
    sort(numbers, COUNT);
    word crc = crc32(text, sizeof text - 1);

    while (interrupts < INTERRUPTS)
        __asm__ volatile("wfi");
    __asm__ volatile("csrci mstatus, 8");

    for (word k = 0; k < COUNT; k++)
        RESULTS->sorted[k] = numbers[k];
    RESULTS->crc = crc;
    RESULTS->interrupts = interrupts;
    RESULTS->cause = cause;
    RESULTS->finished = 0x444F4E45;
}
