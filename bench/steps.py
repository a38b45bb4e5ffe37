"""Runs a program on each image, beside another program where one is given, and prints how many million
steps it made in a second (the best of ROUNDS), how many x86 instructions a step takes where valgrind is
there, and the most memory that it took. There is no bar.

    steps.py FOLDER PROGRAM [BEFORE]

FOLDER has the images, an empty client file and a disk. TURNS turns of STEPS steps are timed, of each
program in turn, so that both meet the same noise. Instructions are those of a run of one turn less those
of a run of one shorter turn, so that start and end fall away; they don't vary from run to run."""

import os
import re
import shutil
import subprocess
import sys
import time

from images import LOOPS

TURNS = int(os.environ.get("TURNS", "200"))
STEPS = int(os.environ.get("STEPS", "100000"))
ROUNDS = int(os.environ.get("ROUNDS", "5"))
SHORT, LONG = 20_000, 100_000


def words_of(program, folder, name, schedule):
    files = [f"{folder}/{file}" for file in (f"{name}.elf", "disk", "client", schedule, "run")]
    return [program, "replay", *files, "--ram", "1"]


def write_schedule(folder, name, turns, steps):
    with open(f"{folder}/{name}", "w", encoding="ascii") as file:
        file.write(f"P 10 0 0 {steps}\n" * turns)


def time_run(words):
    """Seconds, and MiB at most."""
    start = time.monotonic()
    run = subprocess.Popen(words, stdout=subprocess.DEVNULL)
    _, status, usage = os.wait4(run.pid, 0)
    seconds = time.monotonic() - start
    run.returncode = os.waitstatus_to_exitcode(status)
    if run.returncode != 0:
        sys.exit(f"'{' '.join(words)}' ended with status {run.returncode}")
    return seconds, usage.ru_maxrss / 1024


def count(words):
    """The x86 instructions of a run."""
    tool = ["valgrind", "--tool=callgrind", "--callgrind-out-file=/dev/null"]
    run = subprocess.run(tool + words, capture_output=True, text=True, check=False)
    collected = re.search(r"Collected : (\d+)", run.stderr)
    if run.returncode != 0 or collected is None:
        sys.exit(f"valgrind of '{' '.join(words)}': {run.stderr}")
    return int(collected.group(1))


def instructions_a_step(program, folder, name):
    long, short = (count(words_of(program, folder, name, part)) for part in ("long", "short"))
    return (long - short) / (LONG - SHORT)


def beside(numbers):
    """The program's number, and that of the other one."""
    first, *before = [f"{number:5.1f}" for number in numbers]
    return first if not before else f"{first} (before {before[0]})"


def main():
    folder, programs = sys.argv[1], sys.argv[2:]
    write_schedule(folder, "schedule", TURNS, STEPS)
    write_schedule(folder, "short", 1, SHORT)
    write_schedule(folder, "long", 1, LONG)
    counts = shutil.which("valgrind") is not None
    if not counts:
        print("no instructions are counted, since there is no valgrind")
    most = 0
    for name in LOOPS:
        best = [float("inf")] * len(programs)
        for _ in range(ROUNDS):
            for k, program in enumerate(programs):
                seconds, memory = time_run(words_of(program, folder, name, "schedule"))
                best[k] = min(best[k], seconds)
                most = max(most, memory)
        rates = [TURNS * STEPS / seconds / 1e6 for seconds in best]
        line = f"{name:16}{beside(rates)} million steps a second"
        if counts:
            taken = [instructions_a_step(program, folder, name) for program in programs]
            line += f", {beside(taken)} instructions a step"
        print(line, flush=True)
    print(f"at most {most:.1f} MiB with a memory of 1 MiB")


main()
