"""Sessions with the demo servers, by `colo solo`, byte for byte: each is a client's frames and a
single run, and what the program then sends, and writes to the disk, is compared with what
`server_model` says.

    sessions.py COLO FOLDER             runs each session with each server
    sessions.py COLO FOLDER --mutate    and then tries wrong servers

For a wrong server a word of an image is made a statement that does nothing, each word in turn, and
those are listed whose loss no session notices. Some do nothing that can be seen: fences, zeros to
memory that is 0, tests that the devices pass, numbers whose lower half is 0.
"""

import struct
import subprocess
import sys

from server_model import (
    ACK, FIN, GUEST_ADDRESS, GUEST_MAC, PORTS, PSH, RST, SYN, Server, tcp_frame)

# steps that are more than enough for a server's work on a frame: some for each of its bytes
STEPS, STEPS_A_BYTE = 5_000, 12


class Client:
    """An end of connections to the guest."""

    def __init__(self, port=40000, address=(10, 0, 2, 2), mac="525400aa0001"):
        self.end = bytes.fromhex(mac), bytes(address), port

    def frame(self, guest_port, number, flags, payload=b"", **more):
        guest = GUEST_MAC, GUEST_ADDRESS, guest_port
        return tcp_frame(self.end, guest, number, more.pop("acknowledgement", 0), flags,
                         more.pop("window", 4096), payload=payload, **more)


class Session:
    """A single run as it is written, and the model that goes along with it. The first turn has no
    frame: a card takes one only once its driver has started it."""

    def __init__(self, server, sectors=8):
        self.name, self.sectors = server, sectors
        self.port = PORTS[server] if server in PORTS else 7
        self.model = Server(server, sectors)
        # `stop` is the number of the turn whose frame can't be given, if there is one
        self.frames, self.lines, self.stop = [], [], None
        self.client = Client()
        self.turn()

    def turn(self, frame=None, ticks=10, requests=0, steps=None, seen=""):
        if steps is None:
            steps = STEPS + STEPS_A_BYTE * len(frame or b"")
        word = "-" if frame is None else f"{len(self.frames)}{seen}"
        self.lines.append(f"T {ticks} {word} {requests} {steps}\n")
        if frame is not None:
            self.frames.append(frame)
        if self.stop is None:
            self.model.turn(ticks, frame, requests, steps)

    def give(self, frame, **more):
        """A turn with this frame, and turns without one for as long as the disk is asked."""
        self.turn(frame, **more)
        while self.model.request is not None:
            self.turn(requests=1)

    def say(self, number, flags, payload=b"", client=None, port=None, **more):
        client = client or self.client
        port = self.port if port is None else port
        self.give(client.frame(port, number, flags, payload, **more))

    def refuse(self, frame):
        """A turn whose frame can't be given: the run stops here."""
        self.stop = self.stop or len(self.lines) + 1
        self.turn(frame)


# ---- the sessions: each is a function of a session that has begun


def handshake_and_bytes(s):
    s.say(1000, SYN)
    s.say(1000, SYN)                                    # once more: the same numbers, later
    s.say(1001, ACK)
    s.say(1000, SYN)                                    # no byte was taken yet
    s.say(1001, ACK | PSH, b"one ")
    s.say(1005, ACK, b"two")                            # an odd number of bytes
    s.say(1008, 0, b"\xff")                             # no ACK
    s.say(1009, ACK | PSH, b" and three")
    s.say(1000, SYN)                                    # bytes were taken: no answer
    s.say(1019, ACK | FIN)


def taken_and_ahead(s):
    s.say(1000, SYN)
    s.say(1003, ACK, b"ahead")
    s.say(1001, ACK, b"12345")
    s.say(1001, ACK, b"12345")                          # taken already
    s.say(1004, ACK, b"45")                             # its end, taken already
    s.say(1003, ACK, b"345678")                         # three bytes of it are new
    s.say(1001, ACK)                                    # an acknowledgement at another number
    s.say(1008, ACK)                                    # and one ahead
    s.say(1010, ACK | FIN, b"later")                    # a FIN ahead
    s.say(1007, FIN, b"8" * 3)                          # two of three are new, and the FIN
    s.say(1007, ACK | FIN, b"8" * 3)                    # after it nothing is
    s.say(1011, ACK, b"more")
    s.say(1011, ACK)
    s.say(1000, SYN)


def fin_with_data_and_anew(s):
    s.say(1000, SYN)
    s.say(1001, ACK | PSH | FIN, b"all at once")
    s.say(1013, ACK)                                    # the server's FIN is acknowledged
    s.say(1012, ACK | FIN)                              # the FIN once more
    s.say(1000, SYN)                                    # no answer: it was closed
    s.say(5000, SYN)                                    # the client begins anew
    s.say(1001, ACK, b"old")
    s.say(5001, ACK, b"new")
    s.say(7000, SYN)                                    # and again, in the middle
    s.say(7001, ACK | FIN)
    s.say(7001, FIN)


def fin_first(s):
    s.say(1000, SYN)
    s.say(1001, FIN | ACK)
    s.say(1001, ACK, b"after the end")
    s.say(1002, RST)                                    # at the due number: it is forgotten
    s.say(1001, FIN | ACK)
    s.say(1000, SYN)
    s.say(1001, FIN)
    s.say(1, SYN, client=Client(50000))                 # takes the entry of the one that was closed
    s.say(1001, FIN)


def resets(s):
    s.say(1000, SYN)
    s.say(1001, ACK, b"ab")
    s.say(1001, RST)                                    # not the due number
    s.say(1004, RST | ACK)
    s.say(1003, ACK, b"still open")
    s.say(1013, RST | ACK)
    s.say(1013, ACK, b"gone")
    s.say(1013, ACK | FIN)
    s.say(1000, SYN)                                    # it can begin again, with the same number
    s.say(1001, RST | PSH, b"x")
    s.say(1001, ACK, b"gone")


def odd_flags(s):
    s.say(1000, SYN | ACK)                              # for no connection
    s.say(1000, SYN | RST)
    s.say(1001, ACK, b"who?")
    s.say(1001, ACK | FIN)
    s.say(1001, RST)
    s.say(1000, SYN | FIN, b"in a SYN")                 # bytes in a SYN aren't taken
    s.say(1000, SYN | ACK)                              # nothing to a connection that is open
    s.say(2000, SYN | RST)
    s.say(1001, SYN | RST | ACK)
    s.say(1001, ACK | 0xE0, b"x")                       # URG, ECE and CWR


def other_ports(s):
    for port in (s.port ^ 0x100, s.port + 1, 0, 65535):
        s.say(1000, SYN, port=port)
        s.say(1000, SYN | ACK, port=port)
        s.say(1000, SYN | RST, port=port)
        s.say(1001, ACK, b"bytes", port=port)
        s.say(1001, ACK | FIN, port=port)
        s.say(1001, RST, port=port)
    s.say(2**32 - 1, SYN, b"x", port=80)                # acknowledged is 0
    s.say(1000, SYN)


def five_clients(s):
    near, swapped = Client(40001), Client(0x409C)
    far = Client(40000, (192, 168, 255, 254), "02ff03fe04fd")
    turned = Client(40000, (2, 2, 10, 0))
    clients = s.client, near, far, swapped, turned
    numbers = [0x89ABCDEF + 1000 * k for k in range(5)]
    s.turn(ticks=0x12345678)
    for client, number in zip(clients, numbers):
        s.say(number, SYN, client=client)
    for k in (2, 0, 4, 3, 1):
        s.say(numbers[k] + 1, ACK, b"to %d" % k, client=clients[k])
    for k in (3, 1, 2, 4, 0):
        s.say(numbers[k] + 5, ACK | FIN, b"end of %d" % k, client=clients[k])
    moved = Client(mac="525400bb0002")
    s.say(numbers[0], ACK, b"from another card", client=moved)


def sixty_four(s):
    clients = [Client(40000 + k // 2, (10, 0, 2 + k % 2, 2)) for k in range(67)]
    for k, client in enumerate(clients[:65]):
        s.say(100 * k, SYN, client=client)              # the last is refused
    s.say(6401, ACK, b"nobody", client=clients[64])
    s.say(6300, SYN, client=clients[63])
    s.say(3001, ACK, b"the thirtieth", client=clients[30])
    s.say(1001, ACK | FIN, client=clients[10])          # one place can be taken
    s.say(1001, ACK | FIN, client=clients[10])
    s.say(1, SYN, client=clients[64])
    s.say(1001, ACK | FIN, client=clients[10])          # which now is forgotten
    s.say(2, SYN, client=clients[65])
    s.say(4001, RST, client=clients[40])
    s.say(4001, ACK, b"gone", client=clients[40])
    s.say(2, SYN, client=clients[65])
    s.say(3, SYN, client=clients[66])
    s.say(9, SYN, client=clients[0])                    # begins anew where it was
    s.say(3014, ACK | FIN, client=clients[30])
    s.say(3015, RST, client=clients[30])
    s.say(3, SYN, client=clients[66])
    for client in clients[:64]:
        s.say(50, ACK, b"ahead or taken", client=client)


def large_frames(s):
    s.say(1000, SYN)
    s.say(1001, ACK, bytes(k * k % 251 for k in range(1460)))        # a frame of 1,514 bytes
    s.say(2461, ACK, b"\xff" * 1459)
    s.say(3920, ACK, b"\xff" * 1460)
    s.say(5380, ACK, bytes(1460))
    s.say(5000, ACK | FIN, b"e" * 1460)


def sums_at_their_edges(s):
    """The sum that a server makes of two echoed bytes is each of these."""
    s.say(1000, SYN)
    number = 1001
    for want in (0, 1, 0xFFFE, 0x8000, 0x7FFF):
        s.say(number, ACK, bytes(2))
        zeros, = struct.unpack_from(">H", s.model.sent[-1], 50)
        # both numbers have gone on by 2 in the next answer
        s.say(number + 2, ACK, struct.pack(">H", (zeros - 4 - want) % 0xFFFF))
        made, = struct.unpack_from(">H", s.model.sent[-1], 50)
        assert made == want or s.name != "echo"
        number += 4
    for payload in (b"\xff\xff", b"\x00\x01", b"\x80", b"\x00", b"\x01\x00\x00"):
        s.say(number, ACK, payload)
        number += len(payload)
    # sums, of words as they lie in memory, whose two halves have a carry again when they are added
    for low in range(0xFD00, 0x10000, 0x80):
        payload = b"\xff" * 1400
        own = s.model.table[0].own_next
        frame = tcp_frame(
            (GUEST_MAC, GUEST_ADDRESS, s.port), s.client.end, own, number + 1402, ACK | PSH, 4096,
            payload=payload + bytes(2))
        places = (*range(26, 50, 2), *range(52, len(frame), 2))
        total = 0x0600 + struct.unpack("<H", struct.pack(">H", len(frame) - 34))[0]
        total += sum(struct.unpack_from("<H", frame, at)[0] for at in places)
        s.say(number, ACK, payload + struct.pack("<H", (low - total) % 0x10000))
        number += 1402


def numbers_that_wrap(s):
    s.turn(ticks=2**32 - 14 - s.model.time)
    s.say(2**32 - 3, SYN)                               # the own number is 2^32 - 4
    s.say(2**32 - 3, SYN)
    s.say(2**32 - 2, ACK, b"12345")
    s.say(3, ACK, b"6")
    s.say(2**32 - 1, ACK, b"taken")
    s.say(2**31, ACK, b"far")
    s.say(4, ACK | FIN)


def options_and_padding(s):
    s.say(1000, SYN, options=bytes.fromhex("020405b40402080a000000010000000001030307"))
    s.say(1001, ACK, b"timed", options=bytes.fromhex("0101080a0000000100000002"))
    s.say(1006, ACK, b"routed", ip_options=bytes.fromhex("94040000"), identification=77, hops=1)
    s.say(1012, ACK, b"both", ip_options=b"\x01" * 40, options=b"\x01" * 40)
    for payload, number in ((b"", 1016), (b"x", 1016), (b"", 1017), (b"yz", 1017)):
        frame = s.client.frame(s.port, number, ACK, payload)
        s.give(frame + b"\xaa" * (60 - len(frame)))
    s.give(s.client.frame(s.port, 1019, ACK | FIN).ljust(1514, b"\xbb"))


def never_acknowledges(s):
    s.say(1000, SYN)
    for k in range(40):
        s.say(1001 + 20 * k, 0, b"%020d" % k, acknowledgement=k)
    for _ in range(20):
        s.turn(ticks=2**32 - 1)                         # nothing is sent again
    s.say(1801, FIN)
    s.turn(ticks=2**32 - 1)


def full_ring(s):
    """Sixteen frames wait in the card's buffers, and are then served in order, at one time."""
    s.say(1000, SYN)
    number = 1001
    for _ in range(3):
        for k in range(16):
            s.turn(s.client.frame(s.port, number, ACK, b"<%d>" % k), steps=0, ticks=1000)
            number += len(b"<%d>" % k)
        s.turn(steps=16 * STEPS)
        while s.model.request is not None or s.model.waiting:
            s.turn(requests=1)
    s.say(number, ACK | FIN)


def seventeen_frames(s):
    for k in range(16):
        s.turn(s.client.frame(s.port, 1000, SYN), steps=0)
    s.refuse(s.client.frame(s.port, 1000, SYN))


def wrong_sum(s):
    s.say(1000, SYN)
    frame = bytearray(s.client.frame(s.port, 1001, ACK, b"spoiled"))
    frame[-1] ^= 1
    s.refuse(bytes(frame))


def of_another_guest(s):
    frame = bytearray(s.client.frame(s.port, 1000, SYN))
    frame[5] ^= 1
    s.refuse(bytes(frame))


def seen_numbers(s):
    """The acknowledgement is raised on the way in; these servers don't look at it."""
    s.say(1000, SYN)
    frame = s.client.frame(s.port, 1001, ACK, b"raised", acknowledgement=5001)
    s.give(frame, seen="/1000/5000")


def time_in_bytes(s):
    for ticks, number in ((0xABCDE, 1000), (2**32 - 1, 2000), (0x12345678, 3000)):
        s.turn(ticks=ticks)
        client = Client(number)
        s.say(number, SYN, client=client)
        s.turn(ticks=0x98765432)
        s.say(number + 2, ACK, b"ahead", client=client)
        s.say(number, ACK, client=client)               # another number
        s.say(number + 1, ACK, client=client)           # an acknowledgement alone is enough
        s.say(number, SYN, client=client)               # no byte of the client was taken
        s.say(number + 1, ACK, b"what?", client=client)
    for _ in range(12):
        s.turn(ticks=2**32 - 1)
    s.say(1, SYN)
    s.say(2, FIN | ACK, b"last")
    s.say(9, SYN)                                       # the time is told again
    s.say(10, ACK)


def slow_disk(s):
    """The disk waits; what comes meanwhile is served after it."""
    s.say(1000, SYN)
    s.turn(s.client.frame(s.port, 1001, ACK, b"a" * 513))
    s.turn(s.client.frame(s.port, 1514, ACK | FIN, b"b"))
    s.turn(Client(1).frame(80, 1, SYN))
    s.turn(requests=0)
    for _ in range(6):
        s.turn(requests=256)
        s.turn(requests=0)


def full_disk(s):
    s.say(1000, SYN)
    number = 1001
    for size in (1, 512, 513, 1024, 1025, 1460, 1, 600):
        s.say(number, ACK, bytes([65 + size % 26]) * size)
        number += size
    s.say(number, ACK | FIN, b"nothing is written")


def many_frames(s):
    """More frames than a ring's positions have numbers: they begin again at 0."""
    s.say(1000, SYN)
    for k in range(66_000):
        s.turn(s.client.frame(s.port, 1001 + k, 0, b"%d" % (k % 10)), steps=1500)


def too_soon(s):
    """A card takes no frame before its driver has started it."""
    s.lines.clear()
    s.refuse(s.client.frame(s.port, 1000, SYN))


def nothing(s):
    for _ in range(3):
        s.turn(ticks=2**32 - 1, requests=256)


def deaf(s):
    s.refuse(s.client.frame(7, 1000, SYN))


TCP_SESSIONS = [
    handshake_and_bytes, taken_and_ahead, fin_with_data_and_anew, fin_first, resets, odd_flags,
    other_ports, five_clients, sixty_four, large_frames, sums_at_their_edges, numbers_that_wrap,
    options_and_padding, never_acknowledges, full_ring, seventeen_frames, wrong_sum,
    of_another_guest, seen_numbers, too_soon,
]
SESSIONS = {
    "mute": [nothing, deaf],
    "echo": TCP_SESSIONS + [many_frames],
    "clocked": TCP_SESSIONS + [time_in_bytes],
    "disk_log": TCP_SESSIONS + [slow_disk, full_disk],
}


# ---- running them


def framed(frames):
    return b"".join(struct.pack(">I", len(frame)) + frame for frame in frames)


class Run:
    """A session whose files are written, to be run."""

    def __init__(self, folder, server, script):
        self.session = Session(server)
        script(self.session)
        self.title = f"{server}: {script.__name__}"
        self.path = f"{folder}/{server}.{script.__name__}"
        with open(f"{self.path}.client", "wb") as file:
            file.write(framed(self.session.frames))
        with open(f"{self.path}.single", "w", encoding="ascii") as file:
            file.writelines(self.session.lines)
        with open(f"{self.path}.start", "wb") as file:
            file.write(bytes(512 * self.session.sectors))

    def result(self, colo, image):
        """The status, the line printed, the bytes sent and those of the disk."""
        words = [image, *(f"{self.path}.{ending}" for ending in ("start", "client", "single"))]
        words += [self.path, "--ram", "1"]
        run = subprocess.run([colo, "solo", *words], capture_output=True, check=False)
        files = []
        for ending in ("sent", "disk"):
            with open(f"{self.path}.{ending}", "rb") as file:
                files.append(file.read())
        return run.returncode, run.stdout, *files

    def wanted(self):
        s = self.session
        if s.stop is not None:
            return 4, b"line %d\n" % s.stop, b"", b""
        line = b"turns %d sent %d\n" % (len(s.lines), len(s.model.sent))
        return 0, line, framed(s.model.sent), bytes(s.model.disk)

    def passes(self, colo, image):
        return self.result(colo, image) == self.wanted()

    def explain(self, colo, image):
        """What is wrong, for a reader."""
        names = "status", "printed line", "bytes sent", "disk"
        for name, made, want in zip(names, self.result(colo, image), self.wanted()):
            if made == want:
                continue
            if isinstance(made, bytes) and len(made) + len(want) > 200:
                shorter = min(len(made), len(want))
                at = next((k for k in range(shorter) if made[k] != want[k]), shorter)
                name = f"{name}, from byte {at}"
                made, want = made[at:at + 40].hex(), want[at:at + 40].hex()
            return f"{self.title}: {name}: {made!r}, not {want!r}"
        return f"{self.title}: another result each time"


def mutate(colo, folder, server, runs):
    """Makes each word `addi x0, x0, 0`, alone, and lists those whose loss no session notices."""
    with open(f"{folder}/{server}.elf", "rb") as file:
        image = file.read()
    missed = []
    for at in range(84, len(image), 4):
        with open(f"{folder}/wrong.elf", "wb") as file:
            file.write(image[:at] + struct.pack("<I", 0x13) + image[at + 4:])
        if all(run.passes(colo, f"{folder}/wrong.elf") for run in runs):
            word, = struct.unpack_from("<I", image, at)
            missed.append(f"{0x80000000 + at - 84:08X}: {word:08X}")
    count = (len(image) - 84) // 4
    print(f"{server}: no session notices the loss of {len(missed)} words of {count}")
    for line in missed:
        print(f"  {line}")


def main():
    colo, folder = sys.argv[1:3]
    failed = total = 0
    for server, scripts in SESSIONS.items():
        image = f"{folder}/{server}.elf"
        subprocess.run([colo, "image", server, image], stdout=subprocess.DEVNULL, check=True)
        runs = [Run(folder, server, script) for script in scripts]
        wrong = [run for run in runs if not run.passes(colo, image)]
        for run in wrong:
            print(run.explain(colo, image), file=sys.stderr)
        failed, total = failed + len(wrong), total + len(runs)
        if "--mutate" in sys.argv[3:] and server != "mute":
            mutate(colo, folder, server, runs)
    if failed:
        sys.exit(f"{failed} of {total} sessions differ")
    print(f"{total} sessions with the demo servers: byte for byte as they must be")


if __name__ == "__main__":
    main()
