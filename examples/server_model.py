"""What the demo servers must send and write, worked out here without the program and its assembly:
frames with their sums (Ethernet, RFC 791, RFC 1071, RFC 9293), TCP by a table of 64 connections,
and what each server answers, as docs/SERVERS.md says it."""

import struct

GUEST_MAC = bytes.fromhex("525400123456")
GUEST_ADDRESS = bytes([10, 0, 2, 15])
FIN, SYN, RST, PSH, ACK = 1, 2, 4, 8, 16
MSS, WINDOW = 1460, 4096
PORTS = {"echo": 7, "clocked": 13, "disk_log": 9}
SECTOR = 512


def sum_of(data):
    """The complement of the one's complement sum of 16-bit words (RFC 1071)."""
    data += bytes(len(data) % 2)
    total = sum(struct.unpack(f">{len(data) // 2}H", data))
    while total > 0xFFFF:
        total = (total & 0xFFFF) + (total >> 16)
    return total ^ 0xFFFF


def tcp_frame(source, target, number, acknowledgement, flags, window,
              options=b"", payload=b"", ip_options=b"", identification=0, hops=64):
    """A frame from one end to the other, with its sums. An end is a MAC, an address and a port."""
    tcp_length = 20 + len(options) + len(payload)
    ip = struct.pack(
        ">BBHHHBBH4s4s", 0x45 + len(ip_options) // 4, 0, 20 + len(ip_options) + tcp_length,
        identification, 0x4000, hops, 6, 0, source[1], target[1]) + ip_options
    ip = ip[:10] + struct.pack(">H", sum_of(ip)) + ip[12:]
    tcp = struct.pack(
        ">HHIIBBHHH", source[2], target[2], number % 2**32, acknowledgement % 2**32,
        (20 + len(options)) // 4 << 4, flags, window, 0, 0) + options + payload
    pseudo = source[1] + target[1] + struct.pack(">BBH", 0, 6, tcp_length)
    tcp = tcp[:16] + struct.pack(">H", sum_of(pseudo + tcp)) + tcp[18:]
    return target[0] + source[0] + b"\x08\x00" + ip + tcp


class Segment:
    """What a server reads in a frame that was accepted."""

    def __init__(self, frame):
        ip_length = (frame[14] & 15) * 4
        total, = struct.unpack_from(">H", frame, 16)
        tcp = frame[14 + ip_length:14 + total]
        self.mac, self.address = frame[6:12], frame[26:30]
        self.port, self.guest_port, self.number = struct.unpack_from(">HHI", tcp)
        self.flags = tcp[13]
        self.payload = tcp[(tcp[12] >> 4) * 4:]

    def has(self, flag):
        return self.flags & flag != 0

    def opens(self):
        """A SYN without RST and ACK."""
        return self.flags & (SYN | RST | ACK) == SYN


class Connection:
    def __init__(self, segment, own):
        self.client = segment.address, segment.port
        self.client_first, self.own_first = segment.number, own
        self.client_next, self.own_next = (segment.number + 1) % 2**32, (own + 1) % 2**32
        self.is_open, self.told = True, False

    def took(self):
        """Whether a byte of the client was taken, or its FIN."""
        return self.client_next != (self.client_first + 1) % 2**32


class Server:
    """A server that goes on turn by turn. `sent` has its frames, `disk` the bytes of its disk."""

    def __init__(self, name, sectors):
        self.name, self.port = name, PORTS.get(name)
        self.disk = bytearray(SECTOR * sectors)
        self.sector = 0
        self.time = 0
        self.table = [None] * 64
        self.waiting, self.request, self.sent = [], None, []
        self.loop = self.serve()

    def turn(self, ticks, frame, requests, steps):
        """The clock, a frame, the disk's requests, and then steps: none, or as many as it takes."""
        self.time += ticks
        if frame is not None:
            self.waiting.append(frame)
        if self.request is not None and requests > 0:
            sector, data = self.request
            self.disk[SECTOR * sector:SECTOR * (sector + 1)] = data
            self.request = None
        if steps > 0:
            next(self.loop)

    def serve(self):
        """Takes the frames in order; it yields where it can't go on in this turn."""
        while True:
            while not self.waiting or self.port is None:
                yield
            segment = Segment(self.waiting.pop(0))
            yield from self.receive(segment)

    def send(self, segment, flags, number, acknowledgement, window=WINDOW, **more):
        own = GUEST_MAC, GUEST_ADDRESS, segment.guest_port
        client = segment.mac, segment.address, segment.port
        self.sent.append(tcp_frame(own, client, number, acknowledgement, flags, window, **more))

    def refuse(self, segment):
        self.send(segment, RST | ACK, 0, segment.number + 1, window=0)

    def welcome(self, segment, known):
        self.send(segment, SYN | ACK, known.own_first, known.client_next,
                  options=struct.pack(">BBH", 2, 4, MSS))

    def open(self, segment, place):
        self.table[place] = Connection(segment, self.time % 2**32)
        self.welcome(segment, self.table[place])

    def receive(self, segment):
        if segment.guest_port != self.port:
            if segment.opens():
                self.refuse(segment)
            return
        client = segment.address, segment.port
        place = next((k for k, c in enumerate(self.table) if c and c.client == client), None)
        if place is not None:
            yield from self.take(segment, place)
        elif segment.opens():
            free = next((k for k, c in enumerate(self.table) if not c or not c.is_open), None)
            if free is None:
                self.refuse(segment)
            else:
                self.open(segment, free)

    def take(self, segment, place):
        known = self.table[place]
        if segment.has(SYN):
            if segment.opens() and segment.number != known.client_first:
                self.open(segment, place)
            elif segment.opens() and known.is_open and not known.took():
                self.welcome(segment, known)
            return
        if segment.has(RST):
            if segment.number == known.client_next:
                self.table[place] = None
            return
        length = len(segment.payload) + segment.has(FIN)
        taken = (known.client_next - segment.number) % 2**32
        if known.is_open and (taken < length or length == taken == 0):
            yield from self.take_new(segment, known, segment.payload[taken:])
        elif length > 0:
            self.send(segment, ACK, known.own_next, known.client_next)

    def take_new(self, segment, known, payload):
        """Bytes in order, a FIN, or neither: an acknowledgement alone."""
        answer = yield from self.answer(known, payload)
        fin = FIN if segment.has(FIN) else 0
        known.client_next = (known.client_next + len(payload) + fin) % 2**32
        if payload or answer or fin:
            flags = ACK | fin | (PSH if answer else 0)
            self.send(segment, flags, known.own_next, known.client_next, payload=answer)
        known.own_next = (known.own_next + len(answer) + fin) % 2**32
        known.is_open = fin == 0

    def answer(self, known, payload):
        if self.name == "echo":
            return payload
        if self.name == "clocked":
            told, known.told = known.told, True
            return b"" if told else b"%016X" % self.time
        for at in range(0, len(payload), SECTOR):
            if self.sector == len(self.disk) // SECTOR:
                return b""
            self.request = self.sector, payload[at:at + SECTOR].ljust(SECTOR, b"\0")
            while self.request is not None:
                yield
            self.sector += 1
        return b"ok" if payload else b""
