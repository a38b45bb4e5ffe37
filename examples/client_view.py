"""What a client sees of a run, worked out as a client would: one stream a connection, in order, nothing missing, nothing twice.

    client_view.py OUT CLIENT       reads OUT.log, OUT.released and the client's frames, and lists the connections

The client's frames and the released ones are taken in the order of the log. A connection begins with a SYN of the client (RFC 9293,
3.4) and is known by both ends and that SYN's number. Of each released segment it asks what a client relies on:

- its sums are right, and it goes to a client that has asked for the connection;
- the server answers a SYN with one number, which stays the same until the client begins anew;
- its symbols (SYN, bytes, FIN) join those that came before without a gap, and where they come again they are the same;
- after the FIN nothing new comes;
- what it acknowledges, the client has sent.
"""

import pathlib
import struct
import sys

sys.path.insert(0, str(pathlib.Path(__file__).resolve().parent.parent / "tools"))
from run_files import read_frames, read_log, run_tool      # noqa: E402
from server_model import ACK, FIN, GUEST_MAC, RST, SYN, sum_of      # noqa: E402

ARP, IPV4, TCP = b"\x08\x06", b"\x08\x00", 6
USAGE = "usage: client_view.py OUT CLIENT"


class Unseemly(Exception):
    """Something that no client may meet."""


class Seen:
    """A TCP segment in a frame, with its sums."""

    def __init__(self, frame):
        ip_length = (frame[14] & 15) * 4
        total, = struct.unpack_from(">H", frame, 16)
        ip, tcp = frame[14:14 + ip_length], frame[14 + ip_length:14 + total]
        pseudo = ip[12:20] + struct.pack(">BBH", 0, TCP, len(tcp))
        self.sums_are_right = sum_of(ip) == 0 and sum_of(pseudo + tcp) == 0
        self.to, self.source, self.target = frame[:6], ip[12:16], ip[16:20]
        self.source_port, self.target_port, self.number, self.acknowledged = struct.unpack_from(">HHII", tcp)
        self.flags = tcp[13]
        self.payload = tcp[(tcp[12] >> 4) * 4:]

    def has(self, flag):
        return self.flags & flag != 0

    def symbols(self):
        """SYN, the bytes, FIN: as many as they take of the sequence space (RFC 9293, 3.4)."""
        return ["SYN"] * self.has(SYN) + list(self.payload) + ["FIN"] * self.has(FIN)


class Connection:
    """A connection as its client knows it, from the client's SYN on."""

    def __init__(self, number):
        self.client_number = number
        self.client_end = 1                 # symbols that the client has sent, its SYN among them
        self.server_number = None
        self.stream = []                    # symbols of the server, from its SYN on
        self.acknowledged = 0               # the most that the server has acknowledged
        self.refused = self.reset = False

    def send(self, segment):
        """The client sends a segment."""
        start = (segment.number - self.client_number) % 2**32
        if start < 2**31:
            self.client_end = max(self.client_end, start + len(segment.symbols()))

    def see(self, segment):
        """A segment of the server comes to the client. Before its SYN is answered a client takes nothing but the answer to it
        (RFC 9293, 3.10.7.3); what else comes then belongs to a connection that it had before."""
        if self.server_number is None:
            answers = segment.has(ACK) and segment.acknowledged == (self.client_number + 1) % 2**32
            if not answers or not segment.flags & (SYN | RST):
                return
        if segment.has(RST):
            self.reset = True
            self.refused = self.refused or not self.stream
            return
        if segment.has(ACK):
            acknowledged = (segment.acknowledged - self.client_number) % 2**32
            if acknowledged > self.client_end:
                raise Unseemly(f"{acknowledged} symbols are acknowledged, {self.client_end} were sent")
            self.acknowledged = max(self.acknowledged, acknowledged)
        if self.server_number is None:
            self.server_number = segment.number
        start = (segment.number - self.server_number) % 2**32
        symbols = segment.symbols()
        if segment.has(SYN) and start != 0:
            raise Unseemly(f"a SYN with the number {segment.number} after one with {self.server_number}")
        if start > len(self.stream):
            raise Unseemly(f"a gap: {len(self.stream)} symbols have come, these begin at {start}")
        known = self.stream[start:start + len(symbols)]
        if symbols[:len(known)] != known:
            raise Unseemly(f"other symbols at {start} than came before")
        new = symbols[len(known):]
        if new and self.stream[-1:] == ["FIN"]:
            raise Unseemly("symbols after the FIN")
        self.stream += new

    def data(self):
        return bytes(s for s in self.stream if s not in ("SYN", "FIN"))

    def is_closed(self):
        return self.stream[-1:] == ["FIN"]


def look(events, client, released):
    """The connections that the client has had, in the order in which they began, each with its ends."""
    current, all_of_them = {}, []
    client, released = iter(client), iter(released)
    for event in events:
        if event.words[0] == "c" and not event.did_nothing:
            frame = next(client)
            if event.answer[1] not in ("arp", "drop", "full", "lost"):
                segment = Seen(frame)
                ends = segment.source, segment.source_port, segment.target_port
                known = current.get(ends)
                opens = segment.flags & (SYN | RST | ACK) == SYN
                if opens and (known is None or known.client_number != segment.number):
                    known = current[ends] = Connection(segment.number)
                    all_of_them.append((ends, known))
                if known is not None:
                    known.send(segment)
        for _ in range(event.released):
            frame = next(released)
            try:
                see(frame, current)
            except Unseemly as why:
                raise Unseemly(f"log, line {event.number}: {why}") from None
    return all_of_them


def see(frame, current):
    """A released frame comes to the client."""
    if frame[12:14] == ARP:
        return
    segment = Seen(frame)
    if not segment.sums_are_right:
        raise Unseemly("a sum is wrong")
    known = current.get((segment.target, segment.target_port, segment.source_port))
    if known is None:
        raise Unseemly("a segment for a client that has begun no connection")
    known.see(segment)


def main(out, client):
    events = read_log(f"{out}.log")
    for (address, port, server_port), c in look(events, read_frames(client), read_frames(f"{out}.released")):
        state = "refused" if c.refused else "closed" if c.is_closed() else "open" if c.stream else "no answer"
        print(f"{'.'.join(map(str, address))}:{port} to {server_port}, {c.client_number}: {len(c.data())} bytes, {state}")


if __name__ == "__main__":
    run_tool(main, USAGE, 2, 2)
