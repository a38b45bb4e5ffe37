"""Lists what breaks the rules of docs/STYLE.md that a script can see: lines that are longer than it allows (100 columns in code and
definitions, 120 in proofs, in characters), files of definitions that docs/DEFINITIONS.md doesn't name, and crates whose line in crates.txt
doesn't stand below those that they stand on. The gate runs it over all crates.

`python3 tools/house.py [CRATE..]`, at the top of the repository; every crate where none is named. Lines of `use`, attributes, rows of
tables and text in a string may be longer. It ends with 1 where it lists something.
"""

import pathlib
import re
import sys

FREE = re.compile(r"\s*((ghost |pub )*use |#!?\[|//[/!] \|)")
COMMENT = re.compile(r"\s*(//|--)")
CRATES = pathlib.Path("crates")
DEFINITIONS = pathlib.Path("docs/DEFINITIONS.md")
# So many long lines of a file are passed over: many crates stand on it, or its tests take long, and all of these would be proved again for
# a few columns. Whoever opens the file for other work breaks them, and takes its row away here.
LEFT = {
    "colo_base/src/system.rt": 2,
    "colo_wire/proofs/NumberLemmas.antt": 1,
    "frame_examples/src/building.rt": 1,
    "machine_laws/specs/Laws.antt": 1,
    "pair_examples/src/comparer.rt": 1,
    "pair_theorem/proofs/EachHistory.antt": 9,
    "pair_theorem/proofs/EventCases.antt": 1,
    "pair_theorem/specs/Splicing.antt": 1,
    "shared_definitions/src/lib.rt": 1,
    "state_wire/specs/Regular.antt": 2,
    "text_examples/src/texts.rt": 1,
    "virtio_net/proofs/net/Net/sent/Answers.antt": 4,
    "virtio_net/src/sending.rt": 1,
}


def long_lines(path):
    """The lines of a file that are too long, by number, and their lengths."""
    limit = 120 if "proofs" in path.parts else 100
    in_string = False
    for number, line in enumerate(path.read_text().splitlines(), 1):
        front = '"' * in_string + line[:limit]
        in_string_there = front.count('"') % 2 == 1
        if not COMMENT.match(line):
            in_string = ('"' * in_string + line).count('"') % 2 == 1
        if len(line) > limit and not in_string_there and not FREE.match(line):
            yield number, len(line)


def faults_of_lines(names):
    """A line for each line of these crates that is too long."""
    for crate in names:
        for path in sorted((CRATES / crate).rglob("*")):
            if path.suffix not in (".rt", ".antt") or "out" in path.parts:
                continue
            found = list(long_lines(path))
            if len(found) > LEFT.get(str(path.relative_to(CRATES)), 0):
                yield from (f"{path}:{number}: {length} columns" for number, length in found)


def faults_of_definitions(names):
    """A line for each file of definitions of these crates that has no name in DEFINITIONS."""
    named = set(re.findall(r"`(\w+)`", DEFINITIONS.read_text())) | {"Lib"}
    for crate in names:
        for path in sorted((CRATES / crate / "specs").glob("*.antt")):
            if path.stem not in named:
                yield f"{path}: {DEFINITIONS} doesn't name it"


def faults_of_order(rows):
    """A line for each crate that stands on one whose line is below its own."""
    above = set()
    for number, (crate, libraries) in enumerate(rows):
        lower = [name for name in libraries if name in {row[0] for row in rows[number:]}]
        if lower:
            yield f"crates.txt: {crate} stands before {' '.join(lower)}, on which it stands"
        if crate in above:
            yield f"crates.txt: {crate} has two lines"
        above.add(crate)


def rows_of(text):
    """The crates of the text of crates.txt, each with its libraries, in order."""
    lines = [line.partition("#")[0].partition(":") for line in text.splitlines()]
    return [(front.split()[0], libraries.split()) for front, colon, libraries in lines if colon]


def main(names):
    """Lists what breaks a rule in the crates with these names, and in crates.txt."""
    rows = rows_of(pathlib.Path("crates.txt").read_text())
    crates = names or sorted(crate for crate, _ in rows)
    faults = [*faults_of_order(rows), *faults_of_lines(crates), *faults_of_definitions(crates)]
    print("".join(fault + "\n" for fault in faults), end="")
    return 1 if faults else 0


if __name__ == "__main__":
    sys.exit(main(sys.argv[1:]))
