"""Reads what the program writes of a run: a log, framed streams, messages between the nodes.

`pcap`, `wire` and `timeline` beside it stand on it. Bad input raises `BadFile`, whose text says in a
line which file is wrong, where, and in what.
"""

import dataclasses
import pathlib
import re
import sys

# A schedule's line, by its first word: its number of words, and what it is called.
LINES = {
    "P": (5, "a turn of the primary"),
    "S": (5, "a turn of the secondary"),
    "c": (1, "a frame comes from the client"),
    ">": (1, "a message is delivered to the secondary"),
    "<": (1, "a message is delivered to the primary"),
    "x": (2, "a machine stops"),
    "r": (1, "the stop is reported"),
    "k": (1, "a checkpoint is asked for"),
}

KINDS = {
    1: "Frame", 2: "Number", 3: "Begin", 4: "State", 5: "Page", 6: "Disk", 7: "Write", 8: "Held",
    9: "Line", 10: "Bytes", 11: "End", 12: "Known", 13: "Sent", 14: "Ack",
}

# A client's frame has at most so many bytes in its stream; a message's body has no more than a state.
LONGEST_FRAME, LONGEST_BODY = 69_632, 16_777_216

# The answers that a line may have beside `-`, and the name of the number of released frames in it.
ANSWERS = {
    "P": [r"(-|\d+) (?P<released>\d+)"],
    "S": [r"(-|\d+) (?P<released>\d+)"],
    "c": [r"\d+ (-|\d+/\d+) \d+ (?P<released>\d+)", r"\d+ arp (?P<released>1)",
          r"\d+ drop \d+", r"\d+ full", r"\d+ lost"],
    ">": [r"1 full", r"\d+"],
    "<": [r"\d+ \d+ (?P<released>\d+)"],
    "x": [r"0"],
    "r": [r"(?P<released>\d+)"],
    "k": [r"0"],
}
ANSWERS = {word: [re.compile(form) for form in forms] for word, forms in ANSWERS.items()}
MARK = re.compile(r"! (?:(?P<q>q) \d+ (?:differ|restart|wait|asked)|(?P<other>[ka]) \d+)")


class BadFile(Exception):
    """A file that can't be read as what it should be."""

    def __init__(self, path, place, what):
        super().__init__(f"{path}: {place}: {what}")


@dataclasses.dataclass
class Event:
    """A line of a log, with the marks after it."""

    number: int          # its line in the file, from 1
    text: str
    words: list          # of the schedule's line
    answer: list         # the words of the answer
    released: int        # frames that went out in the event
    marks: list          # of each mark the words after `!`

    @property
    def did_nothing(self):
        return self.answer == ["-"]


def read_bytes(path):
    """The bytes of a file."""
    try:
        return pathlib.Path(path).read_bytes()
    except OSError as fault:
        raise BadFile(path, "can't be read", fault.strerror) from None


def event_of(path, number, text):
    """The event of a log's line, without its marks."""
    line, found, answer = text.partition(" : ")
    words = line.split(" ")
    count, _ = LINES.get(words[0], (0, ""))
    if not found or len(words) != count:
        raise BadFile(path, f"line {number}", f"no line of a log: {text[:60]!r}")
    released = 0
    if answer != "-":
        for form in ANSWERS[words[0]]:
            match = form.fullmatch(answer)
            if match:
                released = int(match.groupdict().get("released") or 0)
                break
        else:
            raise BadFile(path, f"line {number}", f"no answer of such a line: {answer[:60]!r}")
    return Event(number, text, words, answer.split(" "), released, [])


def read_log(path):
    """The events of a log."""
    try:
        text = read_bytes(path).decode("ascii")
    except UnicodeDecodeError as fault:
        raise BadFile(path, f"byte {fault.start}", "no text of ASCII characters") from None
    if text and not text.endswith("\n"):
        raise BadFile(path, f"line {text.count(chr(10)) + 1}", "the last newline is missing")
    events = []
    for number, line in enumerate(text.split("\n")[:-1], 1):
        if not line.startswith("!"):
            events.append(event_of(path, number, line))
        elif MARK.fullmatch(line) and events:
            events[-1].marks.append(line.split(" ")[1:])
        else:
            raise BadFile(path, f"line {number}", f"no mark after an event's line: {line[:60]!r}")
    return events


def read_frames(path):
    """The frames of a framed stream: each after its length as four bytes, big-endian."""
    data = read_bytes(path)
    frames, at = [], 0
    while at < len(data):
        length = int.from_bytes(data[at:at + 4], "big")
        if at + 4 > len(data) or at + 4 + length > len(data):
            raise BadFile(path, f"byte {at}", "the file ends within this frame")
        if length > LONGEST_FRAME:
            raise BadFile(path, f"byte {at}", f"a frame of {length} bytes, above {LONGEST_FRAME}")
        frames.append(data[at + 4:at + 4 + length])
        at += 4 + length
    return frames


def read_messages(path):
    """The messages of a file OUT.wire, each as arrow, kind, body."""
    data = read_bytes(path)
    messages, at = [], 0
    while at < len(data):
        arrow = chr(data[at])
        if arrow not in "<>":
            raise BadFile(path, f"byte {at}", f"an arrow '<' or '>' must stand here, not {arrow!r}")
        if at + 6 > len(data):
            raise BadFile(path, f"byte {at}", "the file ends within this message")
        kind, length = data[at + 1], int.from_bytes(data[at + 2:at + 6], "big")
        if kind not in KINDS:
            raise BadFile(path, f"byte {at + 1}", f"no kind of a message: {kind}")
        if length > LONGEST_BODY:
            raise BadFile(path, f"byte {at + 2}", f"a body of {length} bytes, above {LONGEST_BODY}")
        if at + 6 + length > len(data):
            raise BadFile(path, f"byte {at}", "the file ends within this message")
        messages.append((arrow, kind, data[at + 6:at + 6 + length]))
        at += 6 + length
    return messages


def clocks(events):
    """The clock of each event, in microseconds: the primary's turns move it, and the secondary's once the
    primary has stopped."""
    now, mover, moments = 0, "P", []
    for event in events:
        if event.words[0] == mover and not event.did_nothing:
            now += int(event.words[1])
        if event.words == ["x", "p"]:
            mover = "S"
        moments.append(now)
    return moments


def run_tool(main, usage, fewest, most):
    """Runs a tool's `main` on its words, and ends with 1 and a line where a word or a file is bad."""
    words = sys.argv[1:]
    if not fewest <= len(words) <= most or any(w in ("-h", "--help") for w in words):
        print(usage, file=sys.stderr)
        sys.exit(1)
    try:
        main(*words)
    except BadFile as fault:
        print(fault, file=sys.stderr)
        sys.exit(1)
    except BrokenPipeError:
        sys.exit(1)
