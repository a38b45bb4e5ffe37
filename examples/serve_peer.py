"""A network of one client for `colo serve`: QEMU's length-framed stream on a socket, and over it
TCP connections to the server `echo`, all at once. Each sends bytes of its own, sends them again
where they aren't acknowledged in time, closes with a FIN, and checks that what comes back is what
it sent.

    serve_peer.py PORTFILE CONNECTIONS BYTES [SECONDS]

It listens on 127.0.0.1, at a port that it writes into PORTFILE, and takes one link. It ends with 0
where each stream came back byte for byte within SECONDS (60 if they aren't given), and closes the
link then.
"""

import pathlib
import random
import select
import socket
import struct
import sys
import time

from server_model import ACK, FIN, GUEST_ADDRESS, GUEST_MAC, PSH, RST, SYN, Segment, tcp_frame

ECHO_PORT, WINDOW = 7, 4096
# a piece is at most so long, and goes out again after so many seconds
PIECE, AGAIN = 1000, 0.2
GUEST = GUEST_MAC, GUEST_ADDRESS, ECHO_PORT


class Connection:
    """A client's end. `taken` is how many symbols the server acknowledged and `came` how many of
    its symbols came in order: SYN, bytes, FIN."""

    def __init__(self, number, data):
        self.end = bytes.fromhex("525400aa0001"), bytes([10, 0, 2, 2]), 40000 + number
        self.first = 1000 * (number + 1) + 2**32 - 500_000 * (number % 2)
        self.data, self.back = data, bytearray()
        self.taken = self.sent = self.came = 0
        self.own = self.since = None
        self.window, self.pauses, self.repeats = WINDOW, [], 0
        self.asked = {}

    def is_over(self):
        return self.taken == self.came == len(self.data) + 2

    def frame(self, flags, at, payload=b""):
        acknowledgement = 0 if self.own is None else self.own + self.came
        return tcp_frame(self.end, GUEST, self.first + at, acknowledgement, flags, WINDOW,
                         payload=payload)

    def next_piece(self, now):
        """The next symbols that may go out, as a frame: the SYN, bytes, or the FIN."""
        at = self.sent
        if at == 0:
            self.sent, self.asked[1] = 1, now
            return self.frame(SYN, 0)
        if self.taken == 0 or at > len(self.data) + 1:
            return None
        payload = self.data[at - 1:at - 1 + PIECE]
        if at + max(len(payload), 1) > self.taken + self.window:
            return None
        self.sent = at + max(len(payload), 1)
        self.asked.setdefault(self.sent, now)
        return self.frame(ACK | PSH if payload else ACK | FIN, at, payload)

    def frames(self, now):
        """What goes out now. What isn't acknowledged in time goes out again, from its start."""
        if self.sent > self.taken and self.since is not None and now - self.since > AGAIN:
            self.sent, self.since = self.taken, now
            self.repeats += 1
        out = []
        while (frame := self.next_piece(now)) is not None:
            out.append(frame)
        if out and self.since is None:
            self.since = now
        return out

    def receive(self, frame, now):
        """A segment of the server. It gives the acknowledgement that answers it, if one does."""
        segment = Segment(frame)
        if segment.has(RST):
            sys.exit(f"port {self.end[2]}: a reset, after {self.came} symbols")
        number = segment.number
        acknowledged, = struct.unpack_from(">I", frame, 42)
        window, = struct.unpack_from(">H", frame, 48)
        if segment.has(SYN):
            self.own = number if self.own is None else self.own
        if self.own is None or (segment.has(SYN) and number != self.own):
            sys.exit(f"port {self.end[2]}: the server's number changed")
        self.take(acknowledged, window, now)
        symbols = len(segment.payload) + segment.has(SYN) + segment.has(FIN)
        if symbols == 0:
            return None
        passed = (self.came - (number - self.own)) % 2**32
        if passed < symbols:
            old = max(passed - segment.has(SYN), 0)
            self.back += segment.payload[old:]
            self.came += symbols - passed
            for at in [at for at in self.asked if at <= self.came]:
                self.pauses.append(now - self.asked.pop(at))
        return self.frame(ACK, min(self.sent, len(self.data) + 2))

    def take(self, acknowledged, window, now):
        """An acknowledgement of what was sent, and the room that the server has."""
        passed = (acknowledged - self.first - self.taken) % 2**32
        if passed > len(self.data) + 2 - self.taken:
            return
        self.window = window
        if passed > 0:
            self.taken += passed
            self.sent = max(self.sent, self.taken)
            self.since = now if self.sent > self.taken else None


class Link:
    """Frames over a stream, each after its length in four bytes."""

    def __init__(self, stream):
        self.stream, self.come, self.go = stream, bytearray(), bytearray()
        stream.setblocking(False)
        stream.setsockopt(socket.IPPROTO_TCP, socket.TCP_NODELAY, 1)

    def put(self, frame):
        self.go += struct.pack(">I", len(frame)) + frame

    def turn(self, seconds):
        """Sends and takes what it can, after waiting a little; it gives the frames that came."""
        stream = [self.stream]
        readable, writable, _ = select.select(stream, stream if self.go else [], [], seconds)
        if writable:
            del self.go[:self.stream.send(self.go)]
        if readable:
            piece = self.stream.recv(65536)
            if not piece:
                sys.exit("the link was closed")
            self.come += piece
        frames = []
        while len(self.come) >= 4:
            size, = struct.unpack_from(">I", self.come)
            if len(self.come) < 4 + size:
                break
            frames.append(bytes(self.come[4:4 + size]))
            del self.come[:4 + size]
        return frames


def run(link, connections, seconds):
    """Lets all connections go on until each is over, or the time is."""
    by_port = {connection.end[2]: connection for connection in connections}
    end = time.monotonic() + seconds
    while not all(connection.is_over() for connection in connections):
        now = time.monotonic()
        if now > end:
            places = [(connection.taken, connection.came) for connection in connections]
            sys.exit(f"not over in time: {places}")
        for connection in connections:
            for frame in connection.frames(now):
                link.put(frame)
        for frame in link.turn(0.01):
            connection = by_port[struct.unpack_from(">H", frame, 36)[0]]
            answer = connection.receive(frame, time.monotonic())
            if answer is not None:
                link.put(answer)
    while link.go:
        link.turn(0.01)


def main(port_file, count, size, seconds=60):
    listener = socket.create_server(("127.0.0.1", 0))
    place = pathlib.Path(port_file)
    place.with_suffix(".new").write_text(f"{listener.getsockname()[1]}\n")
    place.with_suffix(".new").rename(place)
    stream, _ = listener.accept()
    draw = random.Random(1)
    connections = [Connection(k, draw.randbytes(int(size))) for k in range(int(count))]
    begin = time.monotonic()
    run(Link(stream), connections, float(seconds))
    took = time.monotonic() - begin
    for connection in connections:
        if connection.back != connection.data:
            sys.exit(f"port {connection.end[2]}: other bytes came back")
    pauses = sorted(pause for connection in connections for pause in connection.pauses)
    repeats = sum(connection.repeats for connection in connections)
    print(f"{count} connections of {size} bytes, as sent")
    print(f"{int(count) * int(size) / took:.0f} bytes a second; a piece came back after "
          f"{pauses[len(pauses) // 2] * 1000:.1f} ms (median), {pauses[-len(pauses) // 100] * 1000:.1f} ms "
          f"(99 of 100), {pauses[-1] * 1000:.1f} ms at most; sent again {repeats} times", file=sys.stderr)
    stream.close()


main(*sys.argv[1:])
