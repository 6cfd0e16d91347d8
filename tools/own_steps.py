#!/usr/bin/env python3
"""own_steps.py OUT LISTING: steps and runs that QEMU is no witness for, with what the documents say of them.

Each vector names the sentence of document 01, or of document 02's request 3, that settles it. What comes out is written
here vector by vector; no model computes it. The words are GNU's assembler's. LISTING is a text that has each vector
under its sentence.

A record has 348 bytes, words little endian:
  program length, program place, data length, data place, address, call (0 step, 1 run), n of the run (7 words)
  after it: address, steps made by the run, cause, refusal (4 words)
  program (16 bytes), data (16), data after it (16), x0 to x31 (32 words), x0 to x31 after it (32)
The 16 bytes of a program or of data stand at the place, and all others are 0. Where the length is below 16, the bytes
past it are not lent.
"""
import struct
import sys
import tempfile
from typing import NamedTuple

import toolchain
from operations import FENCE, Instruction, text
from steps import WORDS, scramble

ROOM = 16
FULL = 16384
BYTES = bytes(range(0x78, 0x88))                # data, unless a vector has others; bytes 8 to 15 have the sign bit
STORED = {5: 0xAABBCCDD}                        # what stores write

# ---- document 01's sentences

OTHER = "Any other word is illegal."
SHIFT = "A shift by a constant needs bits 31–25 zero (SRAI: 0x20)."
SYSTEM = "SYSTEM has only 0x00000073 (ECALL) and 0x00100073 (EBREAK)."
WRAP = "In arithmetic, sums and address steps wrap at 2^32."
SIGNED = "SLT, BLT, BGE and SRA read their operands as signed (SLTI and SRAI too)."
ZERO = "x0 reads 0; writing it is no destination."
SPACES = "Program and data are two address spaces, each from 0, little endian."
PROGRAM = "Program: 4 to 16,384 bytes, a multiple of 4."
DATA = "Data: 0 to 16,384 bytes."
FETCH = "A stop has a cause: … 4 fetch address outside the program or not a multiple of 4; …"
TARGET = "A stop has a cause: … 5 taken branch or jump to a target not a multiple of 4 (JALR clears bit 0 first); …"
ACCESS = ("A stop has a cause: … 6 load, 7 store, whose address is no multiple of its size or whose bytes leave the "
          "data.")
NOTHING = "A stopped instruction changes nothing."
ELEMENT = "The in-order step …; element 0 counts as 0 and comes back as given."
RUN = ("The in-order run makes up to n steps, n a 16-bit number …, ends early at a stop, and hands back registers, "
       "address, steps made and cause (0 none).")
REFUSED = "At a refusal registers and address come back as given, with 0 steps."
LENGTHS = "Whoever sets up or runs in order: … 3 program length; 4 data length."
ORDER = "Set-up 1, 2, 3, 4."
WORKED = {
    "a": "(a) 0xFFF00093 is ADDI x1, x0, −1.", "b": "(b) 0x002081B3 ADD x3, x1, x2.", "c": "(c) 0x402081B3 SUB.",
    "d": "(d) 0x00109093 SLLI x1, x1, 1; 0x02109093 illegal.", "e": "(e) 0 illegal.", "f": "(f) 0xFFFFFFFF + 1 = 0.",
    "g": "(g) 0x80000000 by 31: SRA 0xFFFFFFFF, SRL 1.", "h": "(h) 0xFFFFFFFF against 0: SLT 1, SLTU 0.",
    "i": "(i) JALR to 9 goes to 8; to 7, cause 5.",
    "j": "(j) 16 data bytes: LW at 12 reads, at 13 and 16 cause 6; LB at 15 reads."}

# ---- document 02's, of request 3

ACCEPTED = "Opcode 0x0F with bits 14–12 zero is accepted from now on, with any value in the other fields."
ONWARD = "It has no operands and no destination, … and goes on at address + 4."
FENCE_I = "FENCE.I stays illegal."
ALIKE = "The in-order run changes alike: a committed prefix is measured against 40 instructions."


# ---- a vector

class Block(NamedTuple):
    """A program or data: so many bytes, of which these stand at a place and the others are 0."""
    length: int
    content: bytes
    place: int = 0


class Vector(NamedTuple):
    sentence: str
    lines: tuple                # assembly text, one word each
    program: Block              # its content comes from the lines
    data: Block
    given: dict                 # registers before; others hold scramble(number), x0 holds 0
    address: int
    n: int                      # steps that the run may make; None for a step
    changes: dict               # registers after, where they differ
    goes: int                   # address after
    steps: int
    cause: int
    refusal: int
    stored: bytes               # the content of the data after


def vector(sentence, *lines, data=BYTES, length=None, place=0, program_length=None, program_place=0, given=None, at=0,
           n=None, changes=None, to=None, steps=0, cause=0, refusal=0, stored=None):
    """A step, unless n says that it is a run. It goes on 4 further, unless `to` says where, or it does not go on."""
    stays = cause or refusal or n is not None
    return Vector(
        sentence, lines, Block(4 * len(lines) if program_length is None else program_length, b"", program_place),
        Block(len(data) if length is None else length, data, place), given or {}, at, n, changes or {},
        (at if stays else at + 4) if to is None else to, steps, cause, refusal, data if stored is None else stored)


def run(sentence, *lines, n, **words):
    return vector(sentence, *lines, n=n, **words)


# ---- the vectors, by subject

def worked():
    minus = WORDS - 1
    yield vector(WORKED["a"], ".word 0xfff00093", changes={1: minus})
    yield vector(WORKED["b"], ".word 0x002081b3", given={1: 5, 2: 7}, changes={3: 12})
    yield vector(WORKED["c"], ".word 0x402081b3", given={1: 5, 2: 7}, changes={3: WORDS - 2})
    yield vector(WORKED["d"], ".word 0x00109093", given={1: 0x80000003}, changes={1: 6})
    yield vector(WORKED["d"], ".word 0x02109093", cause=1)
    yield vector(WORKED["e"], ".word 0", cause=1)
    yield vector(WORKED["f"], "add x3, x1, x2", given={1: minus, 2: 1}, changes={3: 0})
    yield vector(WORKED["f"], "addi x3, x1, 1", given={1: minus}, changes={3: 0})
    yield vector(WORKED["g"], "sra x3, x1, x2", given={1: 0x80000000, 2: 31}, changes={3: minus})
    yield vector(WORKED["g"], "srl x3, x1, x2", given={1: 0x80000000, 2: 31}, changes={3: 1})
    yield vector(WORKED["g"], "srai x3, x1, 31", given={1: 0x80000000}, changes={3: minus})
    yield vector(WORKED["g"], "srli x3, x1, 31", given={1: 0x80000000}, changes={3: 1})
    yield vector(WORKED["h"], "slt x3, x1, x2", given={1: minus, 2: 0}, changes={3: 1})
    yield vector(WORKED["h"], "sltu x3, x1, x2", given={1: minus, 2: 0}, changes={3: 0})
    yield vector(WORKED["i"], "jalr x1, 2(x2)", given={2: 7}, changes={1: 4}, to=8)
    yield vector(WORKED["i"], "jalr x1, 0(x2)", given={2: 7}, cause=5)
    yield vector(WORKED["j"], "lw x1, 12(x0)", changes={1: 0x87868584})
    yield vector(WORKED["j"], "lw x1, 13(x0)", cause=6)
    yield vector(WORKED["j"], "lw x1, 16(x0)", cause=6)
    yield vector(WORKED["j"], "lb x1, 15(x0)", changes={1: 0xFFFFFF87})


def misaligned():
    """Each misalignment of each size, from the constant and from the register, inside the data and at their end."""
    halves, words = (1, 7, 15), (1, 2, 3, 13, 14, 15)
    for name, places in (("lh", halves), ("lhu", halves), ("lw", words), ("sh", halves), ("sw", words)):
        cause = 6 if name[0] == "l" else 7
        for at in places:
            yield vector(ACCESS, "%s x5, %d(x0)" % (name, at), cause=cause)
            yield vector(ACCESS, "%s x5, -2048(x6)" % name, given={6: at + 2048}, cause=cause)
    yield vector(ACCESS, "lw x0, 2(x0)", cause=6)
    yield vector(ACCESS, "lhu x0, 1(x0)", cause=6)
    yield vector(ACCESS, "sw x0, 2(x0)", cause=7)


def inside():
    """Reads and writes in the last bytes of data of every small length, little endian."""
    for length in (1, 2, 3, 4, 16):
        last = length - 1
        yield vector(ACCESS, "lb x5, %d(x0)" % last, length=length, changes={5: signed(BYTES[last])})
        yield vector(ACCESS, "lbu x5, %d(x0)" % last, length=length, changes={5: BYTES[last]})
        yield vector(ACCESS, "sb x5, %d(x0)" % last, length=length, given=STORED, stored=put(last, b"\xdd"))
    for length, last in ((2, 0), (3, 0), (4, 2), (16, 14)):
        pair = BYTES[last] + 256 * BYTES[last + 1]
        upper = 0xFFFF0000 if last == 14 else 0
        yield vector(SPACES, "lh x5, %d(x0)" % last, length=length, changes={5: pair + upper})
        yield vector(SPACES, "lhu x5, %d(x0)" % last, length=length, changes={5: pair})
        yield vector(SPACES, "sh x5, %d(x0)" % last, length=length, given=STORED, stored=put(last, b"\xdd\xcc"))
    for length, last, word in ((4, 0, 0x7B7A7978), (16, 12, 0x87868584)):
        yield vector(SPACES, "lw x5, %d(x0)" % last, length=length, changes={5: word})
        written = put(last, b"\xdd\xcc\xbb\xaa")
        yield vector(SPACES, "sw x5, %d(x0)" % last, length=length, given=STORED, stored=written)


def signed(byte):
    return byte if byte < 128 else byte + 0xFFFFFF00


def put(at, content):
    return BYTES[:at] + content + BYTES[at + len(content):]


def leaving():
    """Accesses at a multiple of their size that lie past the data, or start inside and leave them."""
    places = {0: "b0 h0 w0", 1: "b1 h0 h2 w0", 2: "b2 h2 w0", 3: "b3 h2 h4 w0", 4: "b4 h4 w4", 13: "b13 h12 h14 w12",
              14: "b14 h14 w12", 15: "b15 h14 w12", 16: "b16 h16 w16"}
    for length, accesses in places.items():
        for size, at in ((access[0], int(access[1:])) for access in accesses.split()):
            yield vector(ACCESS, "l%s x5, %d(x0)" % (size, at), length=length, cause=6)
            yield vector(ACCESS, "s%s x5, %d(x0)" % (size, at), length=length, cause=7)
    for name in ("lbu", "lhu"):
        yield vector(ACCESS, "%s x5, 16(x0)" % name, cause=6)
    for size, at in (("b", WORDS - 1), ("h", WORDS - 2), ("w", WORDS - 4)):     # the bytes after these would be at 0
        yield vector(ACCESS, "l%s x5, 0(x6)" % size, given={6: at}, cause=6)
        yield vector(ACCESS, "s%s x5, 0(x6)" % size, given={6: at}, cause=7)
    yield vector(ACCESS, "lw x5, 0(x6)", given={6: 2 ** 31}, cause=6)
    yield vector(ACCESS, "sw x5, 0(x6)", given={6: 2 ** 31}, cause=7)
    yield vector(WRAP, "lb x5, 1(x6)", given={6: WORDS - 1}, changes={5: 0x78})
    yield vector(WRAP, "lw x5, -4(x6)", given={6: 8}, changes={5: 0x7F7E7D7C})
    yield vector(WRAP, "sb x5, 2047(x6)", given={5: 0, 6: WORDS - 2046}, stored=put(1, b"\0"))


def full_data():
    """Data of 16,384 bytes: the last bytes, and the first past them."""
    end = {"length": FULL, "place": FULL - 16, "given": {**STORED, 6: FULL}}
    yield vector(DATA, "lw x7, -4(x6)", changes={7: 0x87868584}, **end)
    yield vector(DATA, "lhu x7, -2(x6)", changes={7: 0x8786}, **end)
    yield vector(DATA, "lb x7, -1(x6)", changes={7: 0xFFFFFF87}, **end)
    yield vector(DATA, "sw x5, -4(x6)", stored=put(12, b"\xdd\xcc\xbb\xaa"), **end)
    yield vector(DATA, "sh x5, -2(x6)", stored=put(14, b"\xdd\xcc"), **end)
    yield vector(DATA, "sb x5, -1(x6)", stored=put(15, b"\xdd"), **end)
    for name in ("lw", "lh", "lhu", "lb", "lbu"):
        yield vector(ACCESS, "%s x7, 0(x6)" % name, cause=6, **end)
    for name in ("sw", "sh", "sb"):
        yield vector(ACCESS, "%s x5, 0(x6)" % name, cause=7, **end)
    yield vector(DATA, "lw x7, 0(x0)", length=FULL, changes={7: 0x7B7A7978})
    yield vector(DATA, "addi x7, x0, 1", data=b"", changes={7: 1})


def fetch():
    """Programs of 4, 8, 16 and 16,384 bytes: the last instruction, and every kind of address where there is none."""
    nop = "addi x0, x0, 0"
    yield vector(PROGRAM, nop, to=4)
    yield vector(PROGRAM, nop, nop, at=4, to=8)
    yield vector(PROGRAM, nop, nop, nop, nop, at=12, to=16)
    yield vector(PROGRAM, nop, nop, nop, nop, program_length=FULL, program_place=FULL - 16, at=FULL - 4, to=FULL)
    for at in (1, 2, 3, 4, 5, 8, 2 ** 31, WORDS - 4, WORDS - 3, WORDS - 2, WORDS - 1):
        yield vector(FETCH, nop, at=at, cause=4)
    for at in (1, 2, 3, 5, 6, 7, 8):
        yield vector(FETCH, nop, nop, at=at, cause=4)
    for at in (FULL - 3, FULL - 2, FULL - 1, FULL, FULL + 4, WORDS - 4):
        yield vector(FETCH, nop, nop, nop, nop, program_length=FULL, program_place=FULL - 16, at=at, cause=4)
    yield vector(FETCH, ".word 0", at=2, cause=4)


def spaces():
    """A program is not data: no load reads it, no store changes it, and data are no program."""
    ecall = 0x73
    first = bytes.fromhex("11223344") + bytes(12)
    yield vector(SPACES, "lw x5, 0(x0)", data=first, changes={5: 0x44332211})
    yield vector(SPACES, "sw x5, 0(x0)", given={5: ecall}, stored=put(0, b"\x73\0\0\0"))
    yield run(SPACES, "sw x5, 0(x0)", "sw x5, 4(x0)", "addi x6, x0, 9", "jal x0, .-12", n=5, given={5: ecall},
              changes={6: 9}, to=4, steps=5, stored=put(0, b"\x73\0\0\0\x73\0\0\0"))
    yield run(SPACES, "sw x5, 4(x0)", "addi x6, x0, 9", "ebreak", n=9, given={5: ecall}, changes={6: 9}, to=8, steps=2,
              cause=3, stored=put(4, b"\x73\0\0\0"))
    nops = (0x13).to_bytes(4, "little") * 4
    yield vector(SPACES, "addi x0, x0, 0", data=nops, at=4, cause=4)                # the data have an instruction there
    yield vector(SPACES, "addi x5, x0, 1", "lw x6, 4(x0)", length=4, at=4, cause=6)   # the program has a word there
    yield vector(SPACES, "addi x5, x0, 1", "sw x6, 4(x0)", length=4, at=4, cause=7)
    yield vector(SPACES, "addi x5, x0, 1", "addi x6, x0, 2", data=b"", at=4, changes={6: 2})
    yield vector(SPACES, ".word 0x00500093", changes={1: 5})


def first_register():
    """Element 0 of the registers is not 0 on entry."""
    odd = {0: 0xDEADBEEF}
    yield vector(ELEMENT, "add x1, x0, x0", given=odd, changes={1: 0})
    yield vector(ELEMENT, "addi x1, x0, 7", given=odd, changes={1: 7})
    yield vector(ELEMENT, "sub x1, x2, x0", given={**odd, 2: 9}, changes={1: 9})
    yield vector(ELEMENT, "addi x0, x2, 1", given=odd)
    yield vector(ELEMENT, "lui x0, 5", given=odd)
    yield vector(ELEMENT, "jal x0, .+8", given=odd, to=8)
    yield vector(ELEMENT, "jalr x0, 12(x0)", given=odd, to=12)
    yield vector(ELEMENT, "beq x0, x1, .+8", given={**odd, 1: 0}, to=8)
    yield vector(ELEMENT, "bne x1, x0, .+8", given={**odd, 1: 0xDEADBEEF}, to=8)
    yield vector(ELEMENT, "bltu x0, x1, .+8", given={**odd, 1: 1}, to=8)
    yield vector(ELEMENT, "lw x1, 4(x0)", given=odd, changes={1: 0x7F7E7D7C})
    yield vector(ELEMENT, "lb x0, 15(x0)", given=odd)
    yield vector(ELEMENT, "sw x0, 4(x0)", given=odd, stored=put(4, bytes(4)))
    yield vector(ELEMENT, "sb x0, 3(x0)", given=odd, stored=put(3, b"\0"))
    yield vector(ELEMENT, "lw x1, 16(x0)", given=odd, cause=6)
    yield vector(ELEMENT, "ecall", given=odd, cause=2)
    yield vector(ELEMENT, ".word 0", given=odd, cause=1)
    yield vector(ELEMENT, "ecall", given=odd, at=4, cause=4)
    yield vector(ELEMENT, "ecall", given=odd, program_length=5, refusal=3)
    yield run(ELEMENT, "addi x0, x0, 1", "add x1, x0, x0", "ecall", n=9, given=odd, changes={1: 0}, to=8, steps=2,
              cause=2)
    yield vector(ZERO, "add x0, x1, x2", given={1: 1, 2: 2})
    yield vector(ZERO, "auipc x0, 1")
    yield vector(ZERO, "lw x0, 0(x0)")


def system():
    """Words of the SYSTEM opcode that the manual has, or that differ from ECALL and EBREAK in one field."""
    yield vector(SYSTEM, "ecall", cause=2)
    yield vector(SYSTEM, "ebreak", cause=3)
    yield vector(SYSTEM, ".word 0x00000073", cause=2)
    yield vector(SYSTEM, ".word 0x00100073", cause=3)
    words = (0x00200073, 0x10200073, 0x30200073, 0x10500073, 0x12000073, 0x7B200073,    # returns from traps, WFI, …
             0x000000F3, 0x00008073, 0x001000F3, 0x00108073, 0x00300073, 0x80000073, 0x40100073, 0x02000073,
             0xC0001073, 0xC00020F3, 0xC00030F3, 0x34005073, 0x34006073, 0x34007073, 0x00004073, 0x00104073)
    for word in words:
        yield vector(SYSTEM, ".word 0x%08x" % word, cause=1)


def other_words():
    """FENCE as assemblers write it, the extensions, compressed instructions, and shifts by a constant with other upper
    bits."""
    for line in ("fence", "fence rw, w", "fence.tso"):
        yield vector(ACCEPTED, line)
    for word in (0x0000000F, 0x0100000F, 0x0FF0808F):
        yield vector(ACCEPTED, ".word 0x%08x" % word)
    yield vector(FENCE_I, ".word 0x0000100f", cause=1)
    for word in (0x02208033, 0x0220C033, 0x100120AF, 0x0000A007, 0x00010001, 0x00000012, 0x0000006B, 0xFFFFFFFF):
        yield vector(OTHER, ".word 0x%08x" % word, cause=1)
    for name in ("slli", "srli", "srai"):
        yield vector(SHIFT, "%s x5, x6, 0" % name, given={6: 0x80000001}, changes={5: 0x80000001})
    for word in (0x02009293, 0x40009293, 0x0200D293, 0x4200D293, 0x8000D293, 0x1000D293, 0x20009293, 0x6000D293):
        yield vector(SHIFT, ".word 0x%08x" % word, cause=1)


def targets():
    """Targets that are no multiple of 4 stop a jump or a taken branch, and no other; whether the program has something
    there is the next fetch's affair."""
    yield vector(TARGET, "jal x1, .+2", cause=5)
    yield vector(TARGET, "jal x1, .-2", cause=5)
    yield vector(TARGET, "jal x1, .+1048574", cause=5)
    yield vector(TARGET, "jalr x1, 2(x0)", cause=5)
    yield vector(TARGET, "jalr x1, 3(x0)", cause=5)
    yield vector(TARGET, "jalr x1, 1(x0)", changes={1: 4}, to=0)
    yield vector(TARGET, "jalr x2, 1(x2)", given={2: 0x1004}, changes={2: 4}, to=0x1004)
    yield vector(TARGET, "jalr x2, 2(x2)", given={2: 0x1004}, cause=5)
    minus = WORDS - 1
    for name, (a, b) in {"beq": (5, 5), "bne": (5, 6), "blt": (minus, 0), "bge": (0, minus), "bltu": (0, minus),
                         "bgeu": (minus, 0)}.items():
        yield vector(TARGET, "%s x1, x2, .+6" % name, given={1: a, 2: b}, cause=5)
        yield vector(TARGET, "%s x1, x2, .-4094" % name, given={1: a, 2: b}, cause=5)
    for name, (a, b) in {"beq": (5, 6), "bne": (5, 5), "blt": (0, minus), "bge": (minus, 0), "bltu": (minus, 0),
                         "bgeu": (0, minus)}.items():
        yield vector(TARGET, "%s x1, x2, .+6" % name, given={1: a, 2: b})
    yield vector(WRAP, "jal x1, .-4", changes={1: 4}, to=WORDS - 4)
    yield vector(WRAP, "beq x1, x1, .-4096", to=WORDS - 4096)
    yield vector(WRAP, "jalr x1, 2047(x2)", given={2: WORDS - 1}, cause=5)
    yield vector(WRAP, "jalr x1, 5(x2)", given={2: WORDS - 1}, changes={1: 4}, to=4)
    yield vector(FETCH, "jal x1, .+4096", changes={1: 4}, to=4096)
    yield vector(FETCH, "jal x1, .+0", changes={1: 4}, to=0)
    yield vector(WRAP, "auipc x5, 0xfffff", changes={5: 0xFFFFF000})
    yield vector(SIGNED, "slti x5, x6, -1", given={6: 0x80000000}, changes={5: 1})
    yield vector(SIGNED, "sltiu x5, x6, -1", given={6: 0x80000000}, changes={5: 1})
    yield vector(SIGNED, "slt x5, x6, x7", given={6: 0x7FFFFFFF, 7: 0x80000000}, changes={5: 0})


def refusals():
    """Lengths out of range, for the step and for the run, where the instruction would go on, stop, or lie outside."""
    nop = "addi x5, x5, 1"
    for n in (None, 7):
        for length in (0, 1, 2, 3, 5, 6, 7, 15, FULL + 1, FULL + 2, FULL + 4, FULL + 16):
            yield vector(LENGTHS, nop, program_length=length, n=n, refusal=3)
        for length in (FULL + 1, FULL + 2, FULL + 4, FULL + 16):
            yield vector(LENGTHS, nop, length=length, n=n, refusal=4)
        yield vector(ORDER, nop, program_length=FULL + 4, length=FULL + 1, n=n, refusal=3)
        yield vector(ORDER, nop, program_length=0, length=FULL + 16, n=n, refusal=3)
        yield vector(REFUSED, nop, program_length=6, at=3, n=n, refusal=3)
        yield vector(REFUSED, "ecall", length=FULL + 1, n=n, refusal=4)
        yield vector(REFUSED, "sw x5, 0(x0)", length=FULL + 4, n=n, refusal=4)
        yield vector(REFUSED, nop, length=FULL + 1, at=WORDS - 1, n=n, refusal=4)
    yield run(REFUSED, nop, program_length=2, n=0, refusal=3)
    yield run(REFUSED, nop, length=FULL + 1, n=0, refusal=4)
    yield vector(LENGTHS, nop, program_length=FULL, length=FULL, given={5: 1}, changes={5: 2})
    yield run(LENGTHS, nop, nop, program_length=8, data=b"", n=2, given={5: 1}, changes={5: 3}, to=8, steps=2)


def runs():
    """Numbers of steps, and every kind of end."""
    one, count = "addi x5, x5, 1", ("addi x5, x5, 1", "jal x0, .-4")
    start = {5: 0}
    yield run(RUN, one, n=0, given=start)
    yield run(RUN, "ecall", n=0)
    yield run(RUN, one, n=0, at=2)
    yield run(RUN, one, n=1, given=start, changes={5: 1}, to=4, steps=1)
    yield run(RUN, one, one, "ecall", n=1, given=start, changes={5: 1}, to=4, steps=1)
    yield run(RUN, one, one, "ecall", n=2, given=start, changes={5: 2}, to=8, steps=2)
    yield run(RUN, one, one, "ecall", n=3, given=start, changes={5: 2}, to=8, steps=2, cause=2)
    yield run(RUN, one, one, "ecall", n=65535, given=start, changes={5: 2}, to=8, steps=2, cause=2)
    yield run(RUN, "ebreak", n=5, cause=3)
    yield run(RUN, one, ".word 0", n=5, given=start, changes={5: 1}, to=4, steps=1, cause=1)
    yield run(RUN, one, one, n=5, given=start, changes={5: 2}, to=8, steps=2, cause=4)
    yield run(RUN, one, "jal x1, .+6", n=5, given=start, changes={5: 1}, to=4, steps=1, cause=5)
    yield run(RUN, one, "lw x6, 1(x0)", n=5, given=start, changes={5: 1}, to=4, steps=1, cause=6)
    yield run(RUN, one, "sh x6, 16(x0)", n=5, given=start, changes={5: 1}, to=4, steps=1, cause=7)
    yield run(RUN, "sb x5, 0(x0)", "sb x5, 1(x0)", "sh x5, 15(x0)", n=5, given=STORED, to=8, steps=2, cause=7,
              stored=put(0, b"\xdd\xdd"))
    yield run(RUN, *count, n=7, given=start, changes={5: 4}, to=4, steps=7)
    yield run(RUN, *count, n=65535, given=start, changes={5: 32768}, to=4, steps=65535)
    yield run(RUN, "jal x0, .+0", n=65535, steps=65535)
    yield run(RUN, one, "jal x0, .+8", one, "ecall", n=256, given=start, changes={5: 1}, to=12, steps=2, cause=2)
    yield run(NOTHING, "lw x5, 2(x0)", n=1, cause=6)
    yield run(NOTHING, "sw x5, 13(x0)", n=1, cause=7)
    yield run(NOTHING, "jal x5, .+2", n=1, cause=5)
    yield run(NOTHING, one, n=1, at=6, cause=4)


def fence(rd=0, rs1=0, constant=0):
    """The line of a FENCE with these fields; bits 31-20 are the constant's."""
    return text(Instruction(FENCE, rd=rd, rs1=rs1, constant=constant))


def fences():
    """FENCE with fields of every kind, and words that differ from it in bits 14-12 or in the opcode."""
    full = fence(31, 31, -1)
    for constant in (*(2 ** k for k in range(11)), -2048):
        yield vector(ACCEPTED, fence(constant=constant))
    for fields in ((0, 0, -1), (31, 31, 0), (31, 0, 2047), (0, 31, -2048), (1, 2, 3), (2, 2, 2), (31, 31, -1)):
        yield vector(ACCEPTED, fence(*fields))
    for bits in range(1, 8):
        for others in (0, 0xFFFF8F80):
            yield vector(FENCE_I if bits == 1 else OTHER, ".word 0x%08x" % (others | bits << 12 | 0x0F), cause=1)
    for opcode in (0x0C, 0x0D, 0x0E, 0x0B, 0x07, 0x1F, 0x2F, 0x4F):
        yield vector(OTHER, ".word 0x%08x" % opcode, cause=1)
    # the registers that its fields name stay, and so do the data
    yield vector(ONWARD, full, given={31: 5})
    yield vector(ONWARD, full, given={31: WORDS - 1})
    yield vector(ONWARD, full, given={31: 2 ** 31})
    yield vector(ONWARD, fence(5, 6, 7), given={5: 1, 6: 2, 7: 3})
    yield vector(ONWARD, fence(5, 6, 13), given={5: 0xAABBCCDD, 6: 0})      # no access that leaves the data …
    yield vector(ONWARD, fence(5, 6, 2), given={5: 0, 6: 1})                # … and no jump
    yield vector(ONWARD, fence(1, 2, 8), data=b"")
    yield vector(ONWARD, full, length=FULL)
    # the next address, also past the program's end
    yield vector(ONWARD, "fence", "ebreak", program_length=4)
    yield vector(ONWARD, "ecall", full, at=4)
    yield vector(ONWARD, "ecall", "ecall", "ecall", full, program_length=FULL, program_place=FULL - 16, at=FULL - 4)
    yield run(FETCH, "fence", n=9, to=4, steps=1, cause=4)
    yield run(FETCH, full, full, n=9, to=8, steps=2, cause=4)
    yield run(FETCH, "ecall", "ecall", "ecall", full, program_length=FULL, program_place=FULL - 16, at=FULL - 4, n=2,
              to=FULL, steps=1, cause=4)
    for at in (1, 2, 3, 4, WORDS - 4):
        yield vector(FETCH, "fence", at=at, cause=4)
    # element 0
    for fields in ((0, 0, 0), (0, 5, -1), (5, 0, 5), (31, 31, -1)):
        yield vector(ELEMENT, fence(*fields), given={0: 0xDEADBEEF})
    yield run(ELEMENT, fence(0, 0, 1), fence(5, 0, -1), "add x6, x0, x5", n=3, given={0: 0xDEADBEEF, 5: 9},
              changes={6: 9}, to=12, steps=3)
    yield vector(LENGTHS, "fence", program_length=5, refusal=3)
    yield vector(LENGTHS, full, length=FULL + 1, refusal=4)


def fence_runs():
    """A FENCE is a step like others, wherever it stands."""
    one, full = "addi x5, x5, 1", fence(5, 5, -1)
    start = {5: 0}
    yield run(ALIKE, full, n=0, given=start)
    yield run(ALIKE, full, one, "ecall", n=1, given=start, to=4, steps=1)
    yield run(ALIKE, full, one, "ecall", n=2, given=start, changes={5: 1}, to=8, steps=2)
    yield run(ALIKE, one, full, one, "ecall", n=2, given=start, changes={5: 1}, to=8, steps=2)
    yield run(ALIKE, one, full, one, "ecall", n=9, given=start, changes={5: 2}, to=12, steps=3, cause=2)
    yield run(ALIKE, full, full, full, "ebreak", n=4, given=start, to=12, steps=3, cause=3)
    yield run(ALIKE, full, "jal x0, .-4", n=65535, given=start, to=4, steps=65535)
    yield run(ALIKE, full, one, "jal x0, .-8", n=65535, given=start, changes={5: 21845}, to=0, steps=65535)
    yield run(ALIKE, "beq x0, x0, .+8", "ebreak", full, "ecall", n=9, given=start, to=12, steps=2, cause=2)
    yield run(ALIKE, "fence", ".word 0x0000100f", n=9, to=4, steps=1, cause=1)
    yield run(ALIKE, "fence", "lw x6, 13(x0)", n=9, to=4, steps=1, cause=6)
    yield run(ALIKE, "sw x5, 4(x0)", fence(6, 5, 4), "lw x6, 4(x0)", "ecall", n=9, given=STORED,
              changes={6: 0xAABBCCDD}, to=12, steps=3, cause=2, stored=put(4, b"\xdd\xcc\xbb\xaa"))
    yield run(ALIKE, "lw x6, 4(x0)", fence(6, 5, 4), "sw x5, 4(x0)", "ecall", n=9, given=STORED,
              changes={6: 0x7F7E7D7C}, to=12, steps=3, cause=2, stored=put(4, b"\xdd\xcc\xbb\xaa"))


def vectors():
    for subject in (worked, misaligned, inside, leaving, full_data, fetch, spaces, first_register, system, other_words,
                    targets, refusals, runs, fences, fence_runs):
        yield from subject()


# ---- the file

def assembled(lines):
    """The word of each line, by GNU's assembler. It reads the distance of a jump from `.`."""
    with tempfile.TemporaryDirectory() as folder:
        source = "".join(line + "\n" for line in lines)
        toolchain.call([*toolchain.GNU_ASSEMBLER, "-", "-o", folder + "/object"], source)
        words = toolchain.section(folder)
    assert len(words) == len(lines)
    return words


def values(v, changes):
    return [{**{0: 0}, **v.given, **changes}.get(n, scramble(n)) for n in range(32)]


def record(v, words):
    program = struct.pack("<%dI" % len(words), *words)
    numbers = (v.program.length, v.program.place, v.data.length, v.data.place, v.address, v.n is not None, v.n or 0,
               v.goes % WORDS, v.steps, v.cause, v.refusal)
    blocks = [content.ljust(ROOM, b"\0") for content in (program, v.data.content, v.stored)]
    assert all(len(block) == ROOM for block in blocks)
    return struct.pack("<11I", *numbers) + b"".join(blocks) + struct.pack("<64I", *values(v, {}), *values(v, v.changes))


def described(v):
    call = "step" if v.n is None else "run, n %d" % v.n
    what = ["cause %d" % v.cause] if v.cause else ["refused by %d" % v.refusal] if v.refusal else []
    what += ["%d steps" % v.steps] if v.n is not None else []
    what += ["to %#x" % (v.goes % WORDS)] if v.goes != v.address else []
    what += ["x%d = %#x" % pair for pair in sorted(v.changes.items())]
    what += ["data %s" % v.stored.hex()] if v.stored != v.data.content else []
    given = "".join(", x%d = %#x" % pair for pair in sorted(v.given.items()))
    return "%s at %#x of `%s`, program %d, data %d%s: %s" % (
        call, v.address, "; ".join(v.lines), v.program.length, v.data.length, given, ", ".join(what) or "goes nowhere")


def listing(chosen):
    lines, sentence = [], None
    for number, v in enumerate(chosen):
        if v.sentence != sentence:
            lines += ["", v.sentence]
            sentence = v.sentence
        lines.append("  %3d  %s" % (number, described(v)))
    title = "The vectors of own_steps.py, each under the sentence of document 01 or 02 that settles it."
    return "\n".join([title, *lines]) + "\n"


def main():
    chosen = list(vectors())
    words = iter(assembled([line for v in chosen for line in v.lines]))
    with open(sys.argv[1], "wb") as file:
        for v in chosen:
            file.write(record(v, [next(words) for _ in v.lines]))
    with open(sys.argv[2], "w") as file:
        file.write(listing(chosen))
    print(len(chosen), "vectors")


if __name__ == "__main__":
    main()
