"""Compares what the example left in memory with the same results computed here."""

import struct
import sys
import zlib

PLACE = 0x100000
TEXT = (
    b"A fault-tolerant pair of virtual machines runs one bare-metal server image twice. "
    b"The client sees one server, also after one of the two has stopped."
)
NUMBERS = [2654435761 * (k + 1) % 2**32 for k in range(256)]


def signed(word):
    return word - 2**32 if word >= 2**31 else word


def expected():
    head = struct.pack("<4I", 0x444F4E45, zlib.crc32(TEXT), 3, 0x80000007)
    return head + struct.pack("<256i", *sorted(map(signed, NUMBERS)))


def main():
    with open(sys.argv[1], "rb") as file:
        memory = file.read()
    want = expected()
    got = memory[PLACE : PLACE + len(want)]
    if got != want:
        first = next((k for k in range(len(want)) if got[k : k + 1] != want[k : k + 1]), None)
        place = 0x80000000 + PLACE + first
        sys.exit(f"differs at {place:#x}: {got[first:first + 4].hex()} is not {want[first:first + 4].hex()}")
    print(f"the {len(want)} bytes of results are right")


main()
