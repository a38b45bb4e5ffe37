"""The failover that the stored run of `colo` shows, worked out here without the program.

    echo_failover.py DATA           compares the stored client's frames and the schedule in DATA
    echo_failover.py DATA OUT       and what a run of them left: its log line by line, and what the client saw

A client opens a connection to the `echo` server and sends `hello `. Both machines send it back, so it goes out. Then the primary
stops; what the client sends before this is found out is lost, and it sends it again. The survivor first releases what the client
hasn't acknowledged, and goes on: under the number that the client was shown, which is the primary's.
"""

import pathlib
import struct
import sys

from client_view import look, read_frames, read_log
from server_model import ACK, GUEST_ADDRESS, GUEST_MAC, PSH, SYN, tcp_frame

CLIENT = bytes.fromhex("525400aa0001"), bytes([10, 0, 2, 2]), 40000
GUEST = GUEST_MAC, GUEST_ADDRESS, 7
FIRST = 1000            # the client's first number; the server's is its clock when the SYN comes: 200 and 250
STEPS = 50_000          # more than the server takes to start, or for a frame

# the log as it must be: a line an event, before the colon the schedule's line
LOG = f"""\
P 100 0 0 {STEPS} : - 0
S 150 0 0 {STEPS} : - 0
c : 0 - 0 0
> : 1
P 100 1 0 {STEPS} : 0 0
> : 2
S 100 1 0 {STEPS} : 0 0
< : 12 0 0
< : 13 1 1
c : 1 1000/200 1 0
> : 1
P 100 1 0 {STEPS} : 1 0
S 100 1 0 {STEPS} : 1 0
< : 13 2 1
x p : 0
c : 2 lost
r : 2
c : 3 1000/200 7 0
S 100 1 0 {STEPS} : 3 1
"""


def from_client(number, acknowledged, flags, payload=b""):
    return tcp_frame(CLIENT, GUEST, number, acknowledged, flags, 4096, payload=payload)


def frames():
    """The client's frames: its SYN, `hello `, and `world` twice, since the first one isn't acknowledged."""
    world = from_client(FIRST + 7, 207, PSH | ACK, b"world")
    return [from_client(FIRST, 0, SYN), from_client(FIRST + 1, 201, PSH | ACK, b"hello "), world, world]


def main(data, out=None):
    data = pathlib.Path(data)
    wanted = {
        "failover.schedule": "".join(line.split(" : ")[0] + "\n" for line in LOG.splitlines()).encode(),
        "client.bin": b"".join(struct.pack(">I", len(frame)) + frame for frame in frames()),
    }
    for name, contents in wanted.items():
        if (data / name).read_bytes() != contents:
            sys.exit(f"{data / name} isn't as worked out")
    if out is not None:
        for number, (got, line) in enumerate(zip(open(f"{out}.log"), LOG.splitlines(keepends=True), strict=True), 1):
            if got != line:
                sys.exit(f"{out}.log, line {number}: {got.rstrip()}, not {line.rstrip()}")
        (_, connection), = look(read_log(f"{out}.log"), read_frames(data / "client.bin"), read_frames(f"{out}.released"))
        if connection.stream != ["SYN", *b"hello world"] or connection.acknowledged != 12:
            sys.exit(f"{out}: the client has {connection.stream}, and {connection.acknowledged} of its own are acknowledged")
    print("the stored failover: as worked out")


if __name__ == "__main__":
    main(*sys.argv[1:])
