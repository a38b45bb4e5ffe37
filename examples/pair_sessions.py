"""Sessions of clients with a pair, by `colo replay`: each demo server, with no stop and with a stop of either node at several moments.

    pair_sessions.py COLO FOLDER

Three clients connect, send and close as RFC 9293 has it: they acknowledge what comes, and send again what isn't acknowledged. A
session grows by rounds as a live one does: a round's lines are run, with all before them, and the clients go on from what was
released to them. At the end each client must have its whole stream (`client_view` asks the rest of every segment), and the disk
must hold what was sent to `disk_log`.
"""

import pathlib
import struct
import subprocess
import sys

from client_view import Seen, look, read_frames, read_log
from server_model import ACK, FIN, GUEST_ADDRESS, GUEST_MAC, PORTS, PSH, RST, SECTOR, SYN, tcp_frame

SECTORS, ROUNDS, PATIENCE, CHUNK = 8, 60, 4, 200
MESSAGES, CHECKPOINT = 40, 300       # deliveries a round: without a checkpoint under way, and with one of 1 MiB
STOPS = [None, ("p", 1, 1), ("p", 3, 0), ("p", 4, 1), ("p", 9, 0), ("s", 1, 0), ("s", 4, 1)]


class Client:
    """A client of one connection, from its SYN to the FIN of the server."""

    def __init__(self, port, server, number, payload):
        self.ends = (bytes.fromhex("525400aa0001"), bytes([10, 0, 2, 2]), port), (GUEST_MAC, GUEST_ADDRESS, PORTS[server])
        self.number, self.payload = number, payload
        self.sent = self.taken = 0              # symbols of the client: sent at least once, acknowledged
        self.server_number, self.stream, self.closed = None, {}, False
        self.quiet, self.owes = 0, False

    def symbols(self):
        """How many symbols the client has: SYN, its bytes, FIN."""
        return len(self.payload) + 2

    def got(self):
        """How many symbols of the server came, without a gap."""
        return next(k for k in range(len(self.stream) + 1) if k not in self.stream)

    def hear(self, segment):
        if segment.has(RST):
            sys.exit("a reset comes to a client that did nothing wrong")
        if segment.has(SYN) and self.server_number is None:
            self.server_number = segment.number
        self.taken = max(self.taken, (segment.acknowledged - self.number) % 2**32)
        start = (segment.number - self.server_number) % 2**32
        for k, symbol in enumerate(segment.symbols()):
            self.stream[start + k] = symbol
            self.owes = True
        self.closed = self.stream.get(self.got() - 1) == "FIN"
        self.quiet = 0

    def frame(self, start, flags, payload=b""):
        acknowledged = 0 if self.server_number is None else self.server_number + self.got()
        return tcp_frame(*self.ends, self.number + start, acknowledged, flags, 4096, payload=payload)

    def say(self):
        """The frames of this round: the next chunk once all before it is acknowledged, or the oldest again."""
        if self.closed and self.taken == self.symbols() and not self.owes:
            return []
        self.quiet += 1
        again = self.quiet > PATIENCE
        if self.taken < self.sent and not again:
            frames = [self.frame(self.sent, ACK)] if self.owes and self.server_number is not None else []
        else:
            frames = self.next_frames()
            self.quiet = 0 if again else self.quiet
        self.owes = False
        return frames

    def next_frames(self):
        if self.taken == 0:
            self.sent = 1
            return [self.frame(0, SYN)]
        start = self.taken
        chunk = self.payload[start - 1:start - 1 + CHUNK]
        if chunk:
            self.sent = start + len(chunk)
            return [self.frame(start, ACK | PSH, chunk)]
        if start < self.symbols():
            self.sent = self.symbols()
            return [self.frame(start, ACK | FIN)]
        return [self.frame(start, ACK)]

    def data(self):
        return bytes(self.stream[k] for k in sorted(self.stream) if self.stream[k] not in ("SYN", "FIN"))


class Session:
    """A session with a pair: what was offered to it so far, and what came of it."""

    def __init__(self, colo, image, folder, name, stop):
        self.colo, self.image, self.path, self.stop = colo, image, f"{folder}/{name}", stop
        self.frames, self.lines, self.events, self.heard = [], [], [], 0
        pathlib.Path(f"{self.path}.start").write_bytes(bytes(SECTOR * SECTORS))

    def run(self):
        """Runs all lines, and gives the events and the released frames."""
        client = b"".join(struct.pack(">I", len(frame)) + frame for frame in self.frames)
        pathlib.Path(f"{self.path}.client").write_bytes(client)
        pathlib.Path(f"{self.path}.schedule").write_text("".join(line + "\n" for line in self.lines), "ascii")
        words = [self.image, *(f"{self.path}.{e}" for e in ("start", "client", "schedule")), self.path, "--ram", "1"]
        made = subprocess.run([self.colo, "replay", *words], capture_output=True, text=True, check=False)
        if made.returncode != 0:
            sys.exit(f"{self.path}: status {made.returncode}, {made.stdout.strip()}")
        return read_log(f"{self.path}.log"), read_frames(f"{self.path}.released")

    def deliveries(self, arrow):
        """Deliveries of what is on a link, a checkpoint with all its messages among them."""
        marks = [mark[0] for event in self.events for mark in event.marks]
        return [arrow] * (CHECKPOINT if marks.count("q") > marks.count("a") else MESSAGES)

    def round(self, number, clients):
        """One round: what the clients say, a turn of each machine, and the messages between them."""
        stop, at, wait = self.stop or ("", 0, 0)
        if number == at + 1 and stop:
            self.lines.append(f"x {stop}")
        if number == at + 1 + wait and stop:
            self.lines.append("r")
        for client in clients:
            for frame in client.say():
                self.frames.append(frame)
                self.lines.append("c")
        self.lines += ["P 100 1 8 20000"] + self.deliveries(">") + ["S 130 1 8 20000"] + self.deliveries("<")
        self.events, released = self.run()
        for frame in released[self.heard:]:
            segment = Seen(frame)
            for client in clients:
                if segment.target_port == client.ends[0][2]:
                    client.hear(segment)
        self.heard = len(released)


def wanted(server, payload):
    """What the server sends to a client, if that is known beforehand."""
    return {"echo": payload, "disk_log": b"ok" * -(-len(payload) // CHUNK)}.get(server)


def play(colo, folder, image, server, stop):
    """Plays a session, and says what is wrong with it, if something is."""
    name = f"{server}." + ("whole" if stop is None else "".join(map(str, stop)))
    session = Session(colo, image, folder, name, stop)
    sizes = (150, 100, 90) if server == "disk_log" else (700, 41, 390)
    clients = [Client(40000 + k, server, 1000 * (k + 1), bytes((k + 3 * i) % 251 for i in range(size)))
               for k, size in enumerate(sizes)]
    for number in range(1, ROUNDS + 1):
        session.round(number, clients)
        if all(client.closed and client.taken == client.symbols() for client in clients) and number > 12:
            break
    else:
        return f"{name}: a client isn't served after {ROUNDS} rounds"
    for client in clients:
        want = wanted(server, client.payload)
        if want is not None and client.data() != want:
            return f"{name}: the client with port {client.ends[0][2]} has got {client.data()!r}, not {want!r}"
        if server == "clocked" and len(client.data()) != 16:
            return f"{name}: {client.data()!r} is no time"
    events, released = session.run()
    look(events, session.frames, released)
    if server == "disk_log":
        disk = pathlib.Path(f"{session.path}.disk").read_bytes()
        for client in clients:
            if client.payload.ljust(SECTOR, b"\0") not in [disk[k:k + SECTOR] for k in range(0, len(disk), SECTOR)]:
                return f"{name}: what the client with port {client.ends[0][2]} has sent isn't on the disk"
    return None


def main(colo, folder):
    total = 0
    for server in ("echo", "clocked", "disk_log"):
        image = f"{folder}/{server}.elf"
        subprocess.run([colo, "image", server, image], stdout=subprocess.DEVNULL, check=True)
        for stop in STOPS:
            wrong = play(colo, folder, image, server, stop)
            if wrong:
                sys.exit(wrong)
            total += 1
    print(f"{total} sessions with a pair: each client was served")


if __name__ == "__main__":
    main(*sys.argv[1:3])
