#!/usr/bin/env python3
"""Compares the decoding of rv_isa with binutils' objdump for RISC-V on random words.

No part of the gate. Skipped with a message where objdump for RISC-V or rt is missing. Run at the top
of the repository: tools/compare_objdump.py [WORDS] [SEED]

It makes a small program over rv_isa in a temporary folder, which prints what decode gives, and runs it
by `rt try`. Fences are compared by name alone, since here every field of theirs is kept and ignored,
and CSRs without their number, which objdump gives by name.
"""
import os
import random
import re
import shutil
import subprocess
import sys
import tempfile

OPCODES = [0x37, 0x17, 0x6F, 0x67, 0x63, 0x03, 0x23, 0x13, 0x33, 0x0F, 0x73, 0x2F]
# One run of a program may print a megabyte.
BATCH = 25000
NAMES = {"FenceI": "fence.i", "Lr": "lr.w", "Sc": "sc.w"}
OBJDUMPS = ["riscv64-unknown-elf-objdump", "riscv32-unknown-elf-objdump", "riscv64-linux-gnu-objdump"]
# What objdump calls hints that are instructions of the table.
HINTS = ("prefetch.", "ntl.", "pause", "fence.tso")


def variants(path):
    """Each variant of the enum Instr with its fields, from the source."""
    text = re.sub(r"//.*", "", open(path).read())
    body = text[text.index("pub enum Instr {") + len("pub enum Instr {"):]
    found = []
    for name, fields in re.findall(r"\b([A-Z]\w*)\s*(?:\{([^}]*)\})?\s*,", body):
        found.append((name, re.findall(r"(\w+):", fields or "")))
    return found


def program(rows):
    """A program that reads words in decimal and prints what each says."""
    arms = ""
    for name, fields in rows:
        pattern = " { %s }" % ", ".join(fields) if fields else ""
        shown = " ".join("%s={%s}" % (field, field) for field in fields)
        arms += '        Some(Instr::%s%s) => println!(rt; "%s %s"),\n' % (name, pattern, name, shown)
    return """#![tactic(auto)]
use rv_isa::{Instr, decode};
use std::io;

fn show(rt: &impl Print, word: u32) -> io::Result<()> {
    match decode(word) {
        None => println!(rt; "None"),
%s    }
}

fn main(rt: HostRuntime) -> io::Result<()> {
    for line in rt.lines(rt.alloc()) {
        let line = line?;
        if let Ok(word) = line.as_str().parse::<u32>() {
            show(&rt, word)?;
        }
    }
    Ok(())
}
""" % arms


def random_word():
    """A word whose fixed fields are often those of a row."""
    if random.random() < 0.1:
        # Bits 4 to 2 all ones would begin a longer instruction.
        return random.getrandbits(30) << 2 & ~0x10 | 3
    if random.random() < 0.02:
        return random.choice([0, 1, 2, 0x102, 0x105, 0x302, 0x7B2]) << 20 | 0x73
    word = random.getrandbits(32) & ~0x7F | random.choice(OPCODES)
    if random.random() < 0.7:
        word = word & 0x1FFFFFF | random.choice([0, 0x20, 1, 0x08, 0x10]) << 25
    if random.random() < 0.3:
        word = word & ~0x1F00000 | random.choice([0, 1, 2, 5]) << 20
    if random.random() < 0.2:
        word = word & ~0xFFF80
    return word


def decoded(top, rows, words):
    """The lines of the program for these words."""
    with tempfile.TemporaryDirectory() as folder:
        crates = os.path.join(folder, "crates")
        shutil.copytree(os.path.join(top, "crates/rv_isa"), os.path.join(crates, "rv_isa"),
                        ignore=shutil.ignore_patterns("out", "must-fail", "edits"))
        place = os.path.join(crates, "rv_words")
        os.makedirs(os.path.join(place, "src"))
        with open(os.path.join(place, "src/main.rt"), "w") as file:
            file.write(program(rows))
        with open(os.path.join(folder, "crates.txt"), "w") as file:
            file.write("rv_isa:\nrv_words: rv_isa\n")
        lines = []
        for start in range(0, len(words), BATCH):
            lines += printed(place, rows, words[start:start + BATCH])
        return lines


def printed(place, rows, words):
    """The lines of one run."""
    run = subprocess.run(["rt", "try"], cwd=place, input="".join("%d\n" % word for word in words),
                         capture_output=True, text=True)
    kinds = {name for name, _ in rows} | {"None"}
    lines = [line for line in run.stdout.splitlines() if line.split() and line.split()[0] in kinds]
    if len(lines) != len(words):
        sys.exit("the program printed %d lines for %d words:\n%s" % (len(lines), len(words), run.stderr[-2000:]))
    return lines


def dumped(objdump, words):
    """The text of objdump for these words, without blanks between operands."""
    with tempfile.NamedTemporaryFile(suffix=".bin") as file:
        file.write(b"".join(word.to_bytes(4, "little") for word in words))
        file.flush()
        run = subprocess.run([objdump, "-D", "-z", "-b", "binary", "-m", "riscv:rv32",
                              "-M", "no-aliases,numeric", file.name],
                             capture_output=True, text=True, check=True)
    texts = {}
    for line in run.stdout.splitlines():
        match = re.match(r"\s*([0-9a-f]+):\t([0-9a-f]+)\s*\t(.*)", line)
        if match:
            texts[int(match[1], 16)] = re.sub(r"\s*[#<].*", "", match[3]).strip()
    return texts


def mnemonic(name):
    """The row's name in the standard's assembly."""
    if name in NAMES:
        return NAMES[name]
    return "amo%s.w" % name[3:].lower() if name.startswith("Amo") else name.lower()


def text_of(name, place, f):
    """What objdump is to print for an instruction at a place."""
    head = mnemonic(name)
    if "aq" in f:
        head += {(0, 0): "", (1, 0): ".aq", (0, 1): ".rl", (1, 1): ".aqrl"}[f["aq"], f["rl"]]
        middle = ",x%d" % f["rs2"] if "rs2" in f else ""
        return "%s\tx%d%s,(x%d)" % (head, f["rd"], middle, f["rs1"])
    if name in ("Lui", "Auipc"):
        return "%s\tx%d,0x%x" % (head, f["rd"], f["imm"])
    if name == "Jal":
        return "%s\tx%d,0x%x" % (head, f["rd"], (place + f["imm"]) % 2**32)
    if name.startswith("B"):
        return "%s\tx%d,x%d,0x%x" % (head, f["rs1"], f["rs2"], (place + f["imm"]) % 2**32)
    if name in ("Sb", "Sh", "Sw"):
        return "%s\tx%d,%d(x%d)" % (head, f["rs2"], f["imm"], f["rs1"])
    if name in ("Lb", "Lh", "Lw", "Lbu", "Lhu", "Jalr"):
        return "%s\tx%d,%d(x%d)" % (head, f["rd"], f["imm"], f["rs1"])
    if "shamt" in f:
        return "%s\tx%d,x%d,0x%x" % (head, f["rd"], f["rs1"], f["shamt"])
    if "rs2" in f:
        return "%s\tx%d,x%d,x%d" % (head, f["rd"], f["rs1"], f["rs2"])
    if "csr" in f:
        return "%s\tx%d,*,%s" % (head, f["rd"], f["imm"] if "imm" in f else "x%d" % f["rs1"])
    if "rd" in f:
        return "%s\tx%d,x%d,%d" % (head, f["rd"], f["rs1"], f["imm"])
    return head


def agrees(line, place, theirs, ours):
    """Whether a line of the program and objdump's text say one thing."""
    name, *parts = line.split()
    said = theirs.split()[0] if theirs.split() else ""
    if name == "None":
        # objdump shows shifts by 32 or more, which RV32I reserves.
        return said not in ours or bool(re.match(r"s(ll|rl|ra)i\t.*,0x[23].$", theirs))
    if name in ("Fence", "FenceI"):
        return said == mnemonic(name) or said in HINTS or said not in ours
    if said.startswith(HINTS):
        return True
    fields = {}
    for part in parts:
        key, value = part.split("=")
        fields[key] = {"true": 1, "false": 0}.get(value) if value in ("true", "false") else int(value)
    if "csr" in fields:
        theirs = re.sub(r",[^,]*,", ",*,", theirs)
    return theirs == text_of(name, place, fields)


def main():
    top = os.path.dirname(os.path.dirname(os.path.abspath(__file__)))
    objdump = next((found for found in map(shutil.which, OBJDUMPS) if found), None)
    if objdump is None or shutil.which("rt") is None:
        print("skipped: no objdump for RISC-V, or no rt, on this machine")
        return
    count = int(sys.argv[1]) if len(sys.argv) > 1 else 20000
    random.seed(int(sys.argv[2]) if len(sys.argv) > 2 else 1)
    rows = variants(os.path.join(top, "crates/rv_isa/src/instr.rt"))
    words = [random_word() for _ in range(count)]
    lines = decoded(top, rows, words)
    texts = dumped(objdump, words)
    ours = {mnemonic(name) for name, _ in rows}
    bad = [(word, line, texts[4 * k]) for k, (word, line) in enumerate(zip(words, lines))
           if not agrees(line, 4 * k, texts[4 * k], ours)]
    seen = {line.split()[0] for line in lines}
    for word, line, theirs in bad[:20]:
        print("%08x: %s; objdump: %s" % (word, line, theirs))
    print("%d words, %d of %d rows among them, %d differ" % (count, len(seen - {"None"}), len(rows), len(bad)))
    sys.exit(1 if bad else 0)


if __name__ == "__main__":
    main()
