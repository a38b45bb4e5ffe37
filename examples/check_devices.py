"""Compares the report that the example of both devices printed to the disk with what it must be."""

import sys

REPORT = b"disk of 4 sectors\ncard of 52:54:00:12:34:56\nasked\n0 frames\n"


def main():
    with open(sys.argv[1], "rb") as file:
        disk = file.read()
    want = REPORT + bytes(2048 - len(REPORT))
    if disk != want:
        sys.exit(f"the disk holds {disk[:512].rstrip(bytes(1))!r}, not {REPORT!r}")
    print("the report on the disk is right")


main()
