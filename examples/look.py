"""The three tools that show a run, on a worked failover and on bad files.

    look.py FOLDER      writes files to FOLDER

`failover.log` is the log of a pair whose guests open the client's connection under the numbers 5000 and
9000, agree on `ab`, and differ in the third byte; a checkpoint starts, and afterwards the primary stops.
What the tools must show of it, and of a message of each kind, stands here. Where `tshark` is installed it
reads the capture too.
"""

import json
import pathlib
import shutil
import struct
import subprocess
import sys

from server_model import ACK, GUEST_ADDRESS, GUEST_MAC, PSH, SYN, tcp_frame

HERE = pathlib.Path(__file__).resolve().parent
TOOLS = HERE.parent / "tools"
CLIENT = bytes.fromhex("525400aa0001"), bytes([10, 0, 2, 2]), 40000
GUEST = GUEST_MAC, GUEST_ADDRESS, 7
MSS_OPTION = b"\x02\x04\x05\xb4"
FRAME = bytes(range(60))


def guest_frame(number, payload=b"", options=b"", flags=PSH | ACK):
    return tcp_frame(GUEST, CLIENT, number, 1001, flags, 4096, options=options, payload=payload)


def opening():
    return guest_frame(5000, options=MSS_OPTION, flags=SYN | ACK)


RELEASED = [opening(), guest_frame(5001, b"ab"), guest_frame(5003, b"c"), opening(), guest_frame(5001, b"abc")]
ASKED = tcp_frame(CLIENT, GUEST, 1000, 0, SYN, 4096)
# direction (1 to the guest, 2 to the client), clock, the event's line and its marks
PACKETS = [
    (1, 0, "c : 0 - 0 0", ASKED),
    (2, 1, "< : 13 1 1", RELEASED[0]),
    (2, 7, "< : 13 2 1\n! q 1 differ", RELEASED[1]),
    (2, 7, "< : 14 0 1\n! a 1", RELEASED[2]),
    (2, 7, "r : 2", RELEASED[3]),
    (2, 7, "r : 2", RELEASED[4]),
]

TUPLE = bytes([10, 0, 2, 2]) + struct.pack(">HH", 40000, 7)
LINE = struct.pack(">IIIIIHHI", 1000, 9000, 5000, 0, 1001, 4096, 1460, 4)
REFUSING = struct.pack(">IIIIIHHI", 0, 0, 0, 77, 0, 0, 0, 0)
MESSAGES = [
    (">", 1, struct.pack(">QBIII", 3, 1, 1000, 5000, 4) + FRAME), (">", 2, TUPLE + struct.pack(">II", 1000, 5000)),
    (">", 3, struct.pack(">I", 1)), (">", 4, bytes(359)), (">", 5, bytes(4) + bytes(4096)),
    (">", 5, struct.pack(">I", 1) + bytes(4096)), (">", 6, bytes(4) + bytes(128 * 512)),
    (">", 6, struct.pack(">I", 128) + bytes(2 * 512)), (">", 7, struct.pack(">I", 9) + bytes(512)),
    (">", 8, struct.pack(">QBIII", 4, 0, 0, 0, 0) + FRAME[:14]), (">", 9, TUPLE + CLIENT[0] + bytes([9]) + LINE),
    (">", 9, TUPLE + CLIENT[0] + bytes([4]) + REFUSING), (">", 10, b"abc"), (">", 11, struct.pack(">I", 1)),
    ("<", 12, TUPLE + struct.pack(">II", 1000, 5000)), ("<", 13, FRAME), ("<", 14, struct.pack(">I", 1)),
]
MESSAGE_LINES = """\
> Frame index 3 seen 1000/5000 trim 4, 60 bytes
> Number 10.0.2.2:40000 to port 7, client 1000 number 5000
> Begin 1
> State 359 bytes
> 2 pages, 8192 bytes
> 130 sectors of the disk in 2 messages
> Write from sector 9, 1 sectors
> Held index 4 seen - trim 0, 14 bytes
> Line 10.0.2.2:40000 to port 7, mac 52:54:00:aa:00:01, client 1000 own 9000 number 5000 acked 1001 window 4096 mss \
1460 base 4, fin
> Line 10.0.2.2:40000 to port 7, mac 52:54:00:aa:00:01, refused 77
> Bytes 3 bytes
> End 1
< Known 10.0.2.2:40000 to port 7, client 1000 number 5000
< Sent 60 bytes
< Ack 1
"""


def framed(frames):
    return b"".join(struct.pack(">I", len(frame)) + frame for frame in frames)


def run(tool, *words):
    """A tool's status, output and errors."""
    done = subprocess.run([sys.executable, TOOLS / tool, *map(str, words)], capture_output=True, check=False)
    return done.returncode, done.stdout, done.stderr.decode()


def shown(tool, *words):
    """What a tool prints, which must end well."""
    status, output, errors = run(tool, *words)
    assert status == 0 and errors == "", (tool, words, status, errors)
    return output


def refuses(tool, line, *words):
    """The tool ends with 1, prints nothing and says the line."""
    status, output, errors = run(tool, *words)
    assert (status, output, errors) == (1, b"", f"{line}\n"), (tool, words, status, output, errors)


def packets(capture):
    """Of each packet of a capture its direction, clock, comment and bytes."""
    at = 0
    while at < len(capture):
        kind, length = struct.unpack_from("<II", capture, at)
        body = capture[at + 8:at + length - 4]
        assert struct.unpack_from("<I", capture, at + length - 4) == (length,)
        at += length
        if kind != 6:
            continue
        _, high, low, size, _ = struct.unpack_from("<IIIII", body)
        options, place = {}, 20 + (size + 3) // 4 * 4
        while place < len(body):
            code, size_of = struct.unpack_from("<HH", body, place)
            options[code] = body[place + 4:place + 4 + size_of]
            place += 4 + (size_of + 3) // 4 * 4
        yield struct.unpack("<I", options[2])[0], high << 32 | low, options[1].decode(), body[20:20 + size]


def tshark(folder, *words):
    """The lines that tshark prints of the capture."""
    command = ["tshark", "-r", folder / "failover.pcapng", *words]
    return subprocess.run(command, capture_output=True, check=True, text=True).stdout.split("\n")[:-1]


def check_capture(folder):
    """The frames of the worked failover stand in order, each with its event's line and clock."""
    (folder / "failover.log").write_bytes((HERE / "failover.log").read_bytes())
    (folder / "failover.released").write_bytes(framed(RELEASED))
    (folder / "failover.client").write_bytes(framed([ASKED]))
    capture = shown("pcap", folder / "failover", folder / "failover.client")
    assert list(packets(capture)) == PACKETS, list(packets(capture))
    assert [packet[3] for packet in packets(shown("pcap", folder / "failover"))] == RELEASED
    (folder / "failover.pcapng").write_bytes(capture)
    if not shutil.which("tshark"):
        print("skipped: no tshark to read the capture")
        return
    fields = ["-T", "fields", "-e", "ip.checksum.status", "-e", "tcp.checksum.status"]
    tests = ["-o", "ip.check_checksum:TRUE", "-o", "tcp.check_checksum:TRUE"]
    assert tshark(folder, *tests, *fields) == ["1\t1"] * len(PACKETS)
    followed = tshark(folder, "-q", "-z", "follow,tcp,raw,0")
    assert "".join(line.strip() for line in followed if line.startswith("\t")) == b"abc".hex(), followed


def check_messages(folder):
    """A message of each kind is a line, and pages and pieces of the disk are counted."""
    spelled = [arrow.encode() + struct.pack(">BI", kind, len(body)) + body for arrow, kind, body in MESSAGES]
    (folder / "each.wire").write_bytes(b"".join(spelled))
    lines = shown("wire", folder / "each.wire").decode()
    assert lines == MESSAGE_LINES, lines
    listed = shown("wire", folder / "each.wire", "--pages").decode().split("\n")
    sectors = ["> Disk from sector 0, 128 sectors", "> Disk from sector 128, 2 sectors"]
    assert listed[4:8] == ["> Page 0", "> Page 1", *sectors], listed


def page_data(page):
    return json.loads(page.decode().split("const run = ", 1)[1].split(";\nconst colours", 1)[0])


def check_page(folder):
    """The page has each event that did something, and the checkpoint from capture to acknowledgement."""
    page = shown("timeline", HERE / "failover.log")
    data = page_data(page)
    assert (len(data["events"]), data["idle"], data["cut"]) == (19, 1, 0)
    assert data["checkpoints"] == [{"e": 1, "why": "differ", "q": 9, "k": 14, "a": 15}], data["checkpoints"]
    assert data["events"][16:18] == [[21, "x p : 0", 7, 0, []], [22, "r : 2", 7, 2, []]], data["events"][16:18]
    assert b"http://" not in page and b"https://" not in page
    (folder / "long.log").write_text("< : 13 1 1\n> : -\n" * 100_000)
    data = page_data(shown("timeline", folder / "long.log"))
    assert (len(data["events"]), data["idle"], data["cut"]) == (40_000, 100_000, 60_000)


def check_faults(folder):
    """A bad file gets one line: which file, where, and what is wrong."""
    bad = folder / "bad"
    log, released, wire, client = (folder / f"bad.{name}" for name in ("log", "released", "wire", "client"))
    for text, line in [
        ("P 1 0 0 0 : - 0\nP 1 0 0 : - 0\n", "line 2: no line of a log: 'P 1 0 0 : - 0'"),
        ("P 1 0 0 0 : - x\n", "line 1: no answer of such a line: '- x'"),
        ("! k 1\n", "line 1: no mark after an event's line: '! k 1'"),
        ("c : -\nc : -", "line 2: the last newline is missing"),
    ]:
        log.write_text(text)
        refuses("timeline", f"{log}: {line}", log)
    log.write_text("c : 0 - 0 1\n")
    released.write_bytes(framed(RELEASED[:2]))
    client.write_bytes(b"")
    refuses("pcap", f"{released}: 2 frames: the log releases 1", bad)
    released.write_bytes(framed(RELEASED[:1]))
    refuses("pcap", f"{client}: frame 0: isn't there, and line 1 of the log took it", bad, client)
    released.write_bytes(framed(RELEASED[:1])[:-1])
    refuses("pcap", f"{released}: byte 0: the file ends within this frame", bad)
    for data, line in [
        (b"=", "byte 0: an arrow '<' or '>' must stand here, not '='"),
        (b">\x0f\0\0\0\0", "byte 1: no kind of a message: 15"),
        (b">\x03\0\0\0\x04\0", "byte 0: the file ends within this message"),
        (b">\x03\0\0\0\x01\0", "byte 0: a Begin with a body of 1 bytes"),
    ]:
        wire.write_bytes(data)
        refuses("wire", f"{wire}: {line}", wire)
    refuses("wire", f"{folder / 'none'}: can't be read: No such file or directory", folder / "none")
    refuses("timeline", "usage: tools/timeline OUT.log > run.html")


def main(folder):
    folder = pathlib.Path(folder)
    folder.mkdir(exist_ok=True)
    check_capture(folder)
    check_messages(folder)
    check_page(folder)
    check_faults(folder)
    print("pcap, wire and timeline: as they must be")


main(*sys.argv[1:])
