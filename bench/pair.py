"""Times sessions of a pair by `colo replay`, beside single runs by `colo solo`. There is no bar.

    pair.py COLO FOLDER

Each session is a schedule over the demo server `echo`; its files go to FOLDER, which is made where it is missing. What an event costs
is the difference of two sessions that differ in these events alone, the best of ROUNDS runs each.
"""

import os
import pathlib
import struct
import subprocess
import sys
import time

sys.path.insert(0, str(pathlib.Path(__file__).resolve().parent.parent / "examples"))
from server_model import ACK, GUEST_ADDRESS, GUEST_MAC, PSH, SYN, tcp_frame      # noqa: E402

ROUNDS = int(os.environ.get("ROUNDS", "3"))
CLIENT_MAC, CLIENT_ADDRESS = bytes.fromhex("525400aa0001"), bytes([10, 0, 2, 2])
STEPS = 50_000          # more than the server takes for a frame
MIB, PAGE = 1 << 20, 4096

# runs a program from a process of its own, which is small: the system counts what a process took before it became the program
RUN = """
import os, subprocess, sys, time
start = time.monotonic()
process = subprocess.Popen(sys.argv[1:], stdout=subprocess.DEVNULL)
_, status, usage = os.wait4(process.pid, 0)
print(os.waitstatus_to_exitcode(status), time.monotonic() - start, usage.ru_maxrss)
"""


class Bench:
    def __init__(self, colo, folder):
        self.colo, self.folder = colo, folder
        self.image, self.disk = folder / "echo.elf", folder / "disk.img"
        self.disk.write_bytes(bytes(512))
        self.run("image", "echo", self.image)

    def run(self, *words):
        """Seconds, and the most MiB that were taken."""
        made = subprocess.run([sys.executable, "-c", RUN, self.colo, *map(str, words)], capture_output=True, text=True, check=True)
        status, seconds, kibibytes = made.stdout.split()
        if status != "0":
            sys.exit(f"'{' '.join(map(str, words))}' ended with status {status}")
        return float(seconds), int(kibibytes) / 1024

    def best(self, *words):
        runs = [self.run(*words) for _ in range(ROUNDS)]
        return min(seconds for seconds, _ in runs), max(memory for _, memory in runs)

    def replay(self, lines, frames=(), ram=1):
        schedule, client = self.folder / "schedule", self.folder / "client"
        schedule.write_text("".join(line + "\n" for line in lines))
        client.write_bytes(b"".join(struct.pack(">I", len(frame)) + frame for frame in frames))
        return self.best("replay", self.image, self.disk, client, schedule, self.folder / "run", "--ram", ram)

    def solo(self, lines, ram=1):
        single, client = self.folder / "single", self.folder / "client"
        single.write_text("".join(line + "\n" for line in lines))
        client.write_bytes(b"")
        return self.best("solo", self.image, self.disk, client, single, self.folder / "run", "--ram", ram)

    def log_has(self, text):
        return text in (self.folder / "run.log").read_text()


def frame(port, number, acknowledged, flags, payload=b""):
    ends = (CLIENT_MAC, CLIENT_ADDRESS, port), (GUEST_MAC, GUEST_ADDRESS, 7)
    return tcp_frame(*ends, number, acknowledged, flags, 4096, payload=payload)


def long_session(bench, events=100_000, steps=20_000):
    pair, _ = bench.replay([f"P 200 0 0 {steps}", f"S 200 0 0 {steps}"] * (events // 2))
    alone, _ = bench.solo([f"T 200 - 0 {steps}"] * events)
    print(f"{events} turns of {steps} steps: {pair:.2f} s, and {alone:.2f} s by solo: {pair / alone:.2f} times as long", flush=True)


def short_events(bench, events=1_000_000):
    seconds, _ = bench.replay(["P 1 0 0 0", "S 1 0 0 0", "c", ">", "<"] * (events // 5))
    none, _ = bench.replay([])
    alone, _ = bench.solo(["T 1 - 0 0"] * (2 * events // 5))
    print(f"{events} short events: {seconds:.2f} s, {(seconds - none - alone) / events * 1e6:.2f} µs an event beyond the turns", flush=True)


def checkpoint(bench, mebibytes):
    """A session with a checkpoint from capture to acknowledgement, and one that is the same without it."""
    pages = mebibytes * MIB // PAGE
    boot = [f"P 100 0 0 {STEPS}", f"S 100 0 0 {STEPS}"]
    deliveries = [">"] * (pages + 16)
    with_it, memory = bench.replay([*boot, "k", *deliveries, "<"], ram=mebibytes)
    if not bench.log_has("! a 1"):
        sys.exit("the checkpoint isn't acknowledged")
    without, little = bench.replay([*boot, *deliveries, "<"], ram=mebibytes)
    wire = bench.folder / "bare"
    contents = bytes(mebibytes * MIB)
    start = time.monotonic()
    wire.write_bytes(contents)
    bare = time.monotonic() - start
    wire.unlink()
    print(f"a checkpoint of {mebibytes} MiB: {(with_it - without) * 1e3:.0f} ms, {(with_it - without) / pages * 1e6:.2f} µs a page "
          f"(a file of as many bytes is written in {bare * 1e3:.0f} ms); at most {memory:.0f} MiB, without it {little:.0f}", flush=True)


def echoes(bench, count=20_000):
    """Small echoes on one connection: each a frame, two turns, its deliveries."""
    boot = [f"P 100 0 0 {STEPS}", f"S 100 0 0 {STEPS}"]
    opening = ["c", ">", f"P 0 1 0 {STEPS}", ">", f"S 0 1 0 {STEPS}", "<", "<"]
    echo = ["c", ">", "P 0 1 0 2000", "S 0 1 0 2000", "<"]
    frames = [frame(40000, 1000, 0, SYN)]
    for k in range(count):
        frames.append(frame(40000, 1001 + 6 * k, 101 + 6 * k, PSH | ACK, b"abcdef"))
    seconds, memory = bench.replay([*boot, *opening, *echo * count], frames)
    if not bench.log_has(f"< : 13 {count + 1} 1"):
        sys.exit("the echoes aren't released")
    print(f"{count} echoes of 6 bytes: {seconds:.2f} s, {seconds / count * 1e6:.1f} µs each; at most {memory:.0f} MiB", flush=True)


def refused(port, number):
    """A SYN to a closed port."""
    return tcp_frame((CLIENT_MAC, CLIENT_ADDRESS, port), (GUEST_MAC, GUEST_ADDRESS, 8), number, 0, SYN, 4096)


def sent(bench, count=20_000):
    """What the delivery of a Sent costs that has the 54 bytes of a reset: a session with these deliveries, and one without."""
    boot = [f"P 100 0 0 {STEPS}", f"S 100 0 0 {STEPS}"]
    lines = [*boot, *["c", ">", "S 0 1 0 2000"] * count]
    frames = [refused(40000, 1000 + k) for k in range(count)]
    without, _ = bench.replay(lines, frames)
    with_it, _ = bench.replay([*lines, *["<"] * count], frames)
    with open(bench.folder / "bare", "wb", buffering=0) as file:
        start = time.monotonic()
        for _ in range(count):
            file.write(bytes(60))
        bare = time.monotonic() - start
    print(f"the delivery of a Sent of 54 bytes: {(with_it - without) / count * 1e6:.2f} µs (60 bytes are written to a file in {bare / count * 1e6:.2f} µs)",
          flush=True)


def idle(bench, connections, turns=1_000):
    """An idle turn of the primary beside connections that were refused."""
    boot = [f"P 100 0 0 {STEPS}", f"S 100 0 0 {STEPS}"]
    lines = [*boot, *["c", ">", "P 0 1 0 2000", "S 0 1 0 2000", "<"] * connections]
    frames = [refused(1024 + k, 1000) for k in range(connections)]
    without, _ = bench.replay(lines, frames)
    with_them, memory = bench.replay([*lines, *["P 1 0 0 0"] * turns], frames)
    if bench.log_has("! q"):
        sys.exit("a checkpoint was captured beside idle turns")
    print(f"an idle turn beside {connections} connections: {(with_them - without) / turns * 1e6:.1f} µs; at most {memory:.0f} MiB", flush=True)


def refusals(bench, count):
    """SYNs to a closed port, from one port and from as many ports as there are frames."""
    boot = [f"P 100 0 0 {STEPS}", f"S 100 0 0 {STEPS}"]
    lines = [*boot, *["c", ">", "P 0 1 0 2000", "S 0 1 0 2000", "<"] * count]

    one, _ = bench.replay(lines, [refused(40000, 1000 + k) for k in range(count)])
    many, memory = bench.replay(lines, [refused(1024 + k, 1000) for k in range(count)])
    print(f"{count} refused connections: {one:.2f} s from one port, {many:.2f} s from {count}; at most {memory:.0f} MiB", flush=True)


def main(colo, folder):
    folder = pathlib.Path(folder)
    folder.mkdir(parents=True, exist_ok=True)
    bench = Bench(colo, folder)
    short_events(bench)
    echoes(bench)
    sent(bench)
    idle(bench, 10, 100_000)
    idle(bench, int(os.environ.get("CONNECTIONS", "10000")))
    refusals(bench, 1_000)
    checkpoint(bench, 16)
    checkpoint(bench, 64)
    long_session(bench)


if __name__ == "__main__":
    main(*sys.argv[1:])
