"""Writes the images that steps.sh times, each an ELF32 file of one segment at 0x80000000, put together
here word by word. Each is a few words of setup and a loop, and none of them traps unless it is to."""

import struct
import sys

BASE = 0x80000000


def upper(opcode, rd, value):
    return value << 12 | rd << 7 | opcode


def immediate(opcode, f3, rd, rs1, value):
    return (value & 0xFFF) << 20 | rs1 << 15 | f3 << 12 | rd << 7 | opcode


def register(opcode, f3, f7, rd, rs1, rs2):
    return f7 << 25 | rs2 << 20 | rs1 << 15 | f3 << 12 | rd << 7 | opcode


def store(f3, rs2, rs1, value):
    return (value >> 5 & 0x7F) << 25 | rs2 << 20 | rs1 << 15 | f3 << 12 | (value & 0x1F) << 7 | 0x23


def branch(f3, rs1, rs2, by):
    return (
        (by >> 12 & 1) << 31 | (by >> 5 & 0x3F) << 25 | rs2 << 20 | rs1 << 15
        | f3 << 12 | (by >> 1 & 0xF) << 8 | (by >> 11 & 1) << 7 | 0x63
    )


def jump(rd, by):
    return (
        (by >> 20 & 1) << 31 | (by >> 1 & 0x3FF) << 21 | (by >> 11 & 1) << 20
        | (by >> 12 & 0xFF) << 12 | rd << 7 | 0x6F
    )


# an atomic row's number stands above the two bits of order, which are 0
def atomic(number, rd, rs2, rs1): return register(0x2F, 2, number << 2, rd, rs1, rs2)
def csr(f3, rd, number, rs1): return immediate(0x73, f3, rd, rs1, number)
def lui(rd, value): return upper(0x37, rd, value)
def addi(rd, rs1, value): return immediate(0x13, 0, rd, rs1, value)
def sltiu(rd, rs1, value): return immediate(0x13, 3, rd, rs1, value)
def andi(rd, rs1, value): return immediate(0x13, 7, rd, rs1, value)
def slli(rd, rs1, value): return immediate(0x13, 1, rd, rs1, value)
def lb(rd, rs1, value): return immediate(0x03, 0, rd, rs1, value)
def lh(rd, rs1, value): return immediate(0x03, 1, rd, rs1, value)
def lw(rd, rs1, value): return immediate(0x03, 2, rd, rs1, value)
def lbu(rd, rs1, value): return immediate(0x03, 4, rd, rs1, value)
def lhu(rd, rs1, value): return immediate(0x03, 5, rd, rs1, value)
def sb(rs2, rs1, value): return store(0, rs2, rs1, value)
def sh(rs2, rs1, value): return store(1, rs2, rs1, value)
def sw(rs2, rs1, value): return store(2, rs2, rs1, value)
def add(rd, rs1, rs2): return register(0x33, 0, 0, rd, rs1, rs2)
def sub(rd, rs1, rs2): return register(0x33, 0, 0x20, rd, rs1, rs2)
def sll(rd, rs1, rs2): return register(0x33, 1, 0, rd, rs1, rs2)
def sltu(rd, rs1, rs2): return register(0x33, 3, 0, rd, rs1, rs2)
def xor(rd, rs1, rs2): return register(0x33, 4, 0, rd, rs1, rs2)
def or_(rd, rs1, rs2): return register(0x33, 6, 0, rd, rs1, rs2)
def and_(rd, rs1, rs2): return register(0x33, 7, 0, rd, rs1, rs2)
def mul(rd, rs1, rs2): return register(0x33, 0, 1, rd, rs1, rs2)
def beq(rs1, rs2, by): return branch(0, rs1, rs2, by)
def bne(rs1, rs2, by): return branch(1, rs1, rs2, by)
def bltu(rs1, rs2, by): return branch(6, rs1, rs2, by)


def loop(setup, turns):
    """The words of the setup, and then those of the loop for ever."""
    return setup + turns + [jump(0, -4 * len(turns))]


JUMP = [jump(0, 0)]

# x1 is a table of 256 bytes, x2 an index, x8 a mixed value and x9 a counter in memory
MIXED = loop(
    [lui(1, 0x80010), lui(9, 0x80020)],
    [
        addi(2, 2, 13),
        andi(2, 2, 255),
        add(4, 1, 2),
        lbu(5, 4, 0),
        xor(5, 5, 2),
        sb(5, 4, 0),
        slli(6, 5, 3),
        mul(7, 6, 3),
        add(8, 8, 7),
        addi(3, 3, 1),
        atomic(0, 10, 3, 9),
        lw(11, 9, 0),
        sw(8, 9, 4),
        bltu(5, 2, 8),
        addi(12, 12, 1),
        bne(3, 0, -60),
    ],
)

# the time is read until its upper half stood still, and compared with a time that never comes
TIMER_POLL = loop(
    [lui(1, 0x0200C), addi(5, 0, -1)],
    [lw(3, 1, -4), lw(2, 1, -8), lw(4, 1, -4), bne(3, 4, -12), bltu(3, 5, -16)],
)

STORES = loop(
    [lui(1, 0x80010)],
    [
        sw(3, 1, 0),
        sh(3, 1, 4),
        sb(3, 1, 6),
        sw(3, 1, 8),
        sw(3, 1, 12),
        sb(3, 1, 7),
        sw(3, 1, 2044),
        addi(3, 3, 1),
    ],
)

ROWS = [
    add(3, 3, 1),
    xor(4, 4, 3),
    sub(5, 4, 2),
    sll(6, 5, 2),
    or_(7, 6, 1),
    and_(8, 7, 4),
    sltu(9, 8, 3),
    slli(10, 9, 5),
    mul(11, 10, 3),
    sltiu(12, 11, 100),
    addi(13, 13, 1),
]

ALU = loop([addi(1, 0, 7), addi(2, 0, 3)], ROWS)

# the same with MIE of mstatus set, and no interrupt that comes
INTERRUPTS_ON = loop([csr(6, 0, 0x300, 8), addi(1, 0, 7), addi(2, 0, 3)], ROWS)

LOADS = loop(
    [lui(1, 0x80000)],
    [lw(2, 1, 0), lhu(3, 1, 4), lbu(4, 1, 6), lw(5, 1, 8), lh(6, 1, 10), lb(7, 1, 7), lw(8, 1, 2044)],
)

# swap, add, xor, and, or, min, maxu, and a pair of lr and sc that succeeds
AMO = loop(
    [lui(1, 0x80010)],
    [
        atomic(1, 2, 3, 1),
        atomic(0, 2, 3, 1),
        atomic(4, 2, 3, 1),
        atomic(12, 2, 3, 1),
        atomic(8, 2, 3, 1),
        atomic(16, 2, 3, 1),
        atomic(28, 2, 3, 1),
        atomic(2, 4, 0, 1),
        atomic(3, 5, 4, 1),
        addi(3, 3, 1),
    ],
)

# mscratch is written, mstatus and minstret read, bits of mie set and cleared, mcause written
CSR = loop(
    [addi(1, 0, 8)],
    [
        csr(1, 2, 0x340, 1),
        csr(2, 3, 0x300, 0),
        csr(2, 4, 0xB02, 0),
        csr(2, 5, 0x304, 1),
        csr(3, 5, 0x304, 1),
        csr(5, 6, 0x342, 3),
        csr(6, 7, 0x340, 1),
    ],
)

# the handler, four words on, returns to the ecall that came to it
ECALL_MRET = [
    lui(1, 0x80000),
    addi(1, 1, 16),
    csr(1, 0, 0x305, 1),
    0x00000073,
    0x30200073,
]

# the network card's InterruptStatus, until it isn't 0
DEVICE_POLL = loop(
    [lui(1, 0x10001)],
    [lw(2, 1, 0x60), beq(2, 0, -4)],
)

# a store into each of 16 pages in turn; x2 goes round by 4,100 bytes, so that each word is met
STORES_16_PAGES = loop(
    [lui(1, 0x80010), lui(6, 0x10), addi(6, 6, -4), lui(5, 1), addi(5, 5, 4)],
    [add(4, 1, 2), sw(2, 4, 0), add(2, 2, 5), and_(2, 2, 6)],
)

LOOPS = {
    "jump": JUMP,
    "mixed": MIXED,
    "timer_poll": TIMER_POLL,
    "stores": STORES,
    "alu": ALU,
    "interrupts_on": INTERRUPTS_ON,
    "loads": LOADS,
    "amo": AMO,
    "csr": CSR,
    "ecall_mret": ECALL_MRET,
    "device_poll": DEVICE_POLL,
    "stores_16_pages": STORES_16_PAGES,
}


def image(words):
    size = 4 * len(words)
    header = struct.pack("<16B", 0x7F, 0x45, 0x4C, 0x46, 1, 1, 1, *[0] * 9)
    header += struct.pack("<2H5I6H", 2, 243, 1, BASE, 52, 0, 0, 52, 32, 1, 0, 0, 0)
    segment = struct.pack("<8I", 1, 84, BASE, BASE, size, size, 7, 4)
    return header + segment + struct.pack(f"<{len(words)}I", *words)


def main():
    folder = sys.argv[1]
    for name, words in LOOPS.items():
        with open(f"{folder}/{name}.elf", "wb") as file:
            file.write(image(words))


if __name__ == "__main__":
    main()
