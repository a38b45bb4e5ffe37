"""A whole connection to the `echo` server through a pair, by `colo replay`.

    echo_rounds.py COLO FOLDER

A client opens a connection, sends `ping`, and closes. Its three frames come in the first three of 200 rounds; a round is a turn of each
machine and four deliveries each way. What is released must be SYN, `ping` and FIN, at offsets 0 to 5, and the greatest acknowledgement
one behind the client's FIN.
"""

import pathlib
import struct
import subprocess
import sys

from client_view import Seen, look, read_frames, read_log
from server_model import ACK, FIN, GUEST_ADDRESS, GUEST_MAC, PSH, SYN, tcp_frame

CLIENT = bytes.fromhex("525400aa0001"), bytes([10, 0, 2, 2]), 40000
GUEST = GUEST_MAC, GUEST_ADDRESS, 7
ROUNDS = 200


def schedule():
    for number in range(ROUNDS):
        yield from ["c"] * (number < 3) + ["P 50 1 8 5000", "S 70 1 8 5000"] + [">"] * 4 + ["<"] * 4


def run(colo, folder, frames):
    """Runs the rounds with these frames, and gives the events and what was released."""
    path = pathlib.Path(folder) / "rounds"
    path.with_suffix(".start").write_bytes(bytes(512))
    path.with_suffix(".client").write_bytes(b"".join(struct.pack(">I", len(frame)) + frame for frame in frames))
    path.with_suffix(".schedule").write_text("".join(line + "\n" for line in schedule()))
    words = [f"{folder}/echo.elf", *(f"{path}.{end}" for end in ("start", "client", "schedule")), str(path)]
    subprocess.run([colo, "replay", *words], stdout=subprocess.DEVNULL, check=True)
    return read_log(f"{path}.log"), read_frames(f"{path}.released")


def main(colo, folder):
    syn = tcp_frame(CLIENT, GUEST, 1000, 0, SYN, 4096)
    _, released = run(colo, folder, [syn])
    shown = Seen(released[0]).number + 1
    frames = [syn, tcp_frame(CLIENT, GUEST, 1001, shown, PSH | ACK, 4096, payload=b"ping"),
              tcp_frame(CLIENT, GUEST, 1005, shown, FIN | ACK, 4096)]
    events, released = run(colo, folder, frames)
    (_, connection), = look(events, frames, released)
    if connection.stream != ["SYN", *b"ping", "FIN"] or 1000 + connection.acknowledged != 1006:
        sys.exit(f"the client has {connection.stream}, acknowledged up to {1000 + connection.acknowledged}")
    print("a connection in 200 rounds: SYN, `ping` and FIN, acknowledged up to 1006")


if __name__ == "__main__":
    main(*sys.argv[1:])
