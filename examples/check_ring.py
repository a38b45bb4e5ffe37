"""Compares what the example of looping rings left in memory with what VIRTIO 1.1 asks: DEVICE_NEEDS_RESET (2.1) and the
interrupt of a changed configuration (4.2.2), no used buffer, all zeros after a reset, and then a request that is served."""

import struct
import sys

PLACE = 0x100000
STARTED = 1 | 2 | 8 | 4
NEEDS_RESET = 64
CONFIGURATION = 2
BROKEN = [STARTED | NEEDS_RESET, CONFIGURATION, 0]
WANT = BROKEN + BROKEN + [0, 0] + [STARTED, 0, 1]


def main():
    with open(sys.argv[1], "rb") as file:
        memory = file.read()
    got = list(struct.unpack_from(f"<{len(WANT) + 1}I", memory, PLACE))
    if got != WANT + [0]:
        sys.exit(f"the report is {got}, not {WANT + [0]}")
    print("both devices stop at a ring that loops, until a reset")


main()
