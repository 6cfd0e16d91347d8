#!/usr/bin/env python3
"""words.py SEED OUT: instruction words, with what GNU's and LLVM's tools and QEMU make of them.

A record has 12 bytes, little endian: word (4), operation (1; 0 for an illegal word), rd, rs1, rs2 (1 each), constant
(4, signed). The operation numbers are those of operations.py, the M extension (41 to 48) included, which is not legal
yet: until it is, a test takes a record with an operation above 40 as an illegal word.

Legal words are written by GNU's assembler from fields chosen here; LLVM's assembler must write the same, and both
disassemblers must read the same fields back. Words that are close to legal ones come from changed bits. Every word is
judged by both disassemblers and by QEMU, and they must agree, save where a document has a sentence of its own: see
`judge`. Each word stands in the file once.
"""
import itertools
import struct
import sys
from collections import Counter

import toolchain
from chance import Chance
from operations import EBREAK, ECALL, FENCE, FORMATS, NAMES, Instruction
from qemu import BREAKPOINT, CALL, ILLEGAL, Machine

LEAST = 130                 # legal words of each operation that has fields
SAMPLES = 8                 # words of each operation of which every bit is flipped in turn
ANY, OPCODES, FIXED, SYSTEM = 2000, 2500, 1500, 400         # words of each random kind
ALL_ONES = 2 ** 32 - 1
FUNCT7, FUNCT3, OPCODE = 127 << 25, 7 << 12, 127            # where most of the fixed bits are
SYSTEM_WORDS = (0x00000073, 0x00100073)                     # the two of document 01
ELSEWHERE = {               # words that other parts of the manual have
    "uret": 0x00200073, "sret": 0x10200073, "mret": 0x30200073, "wfi": 0x10500073, "sfence.vma": 0x12000073,
    "csrrw x0, cycle, x0": 0xC0001073, "csrrs x1, cycle, x0": 0xC00020F3, "csrrwi x1, mscratch, 1": 0x3400D0F3,
    "fence.i": 0x0000100F, "lr.w x1, (x2)": 0x100120AF, "c.nop twice": 0x00010001}


# ---- legal instructions

def corners(operation):
    """The ends of the constant's range, with the first and the last register in every register field."""
    form = FORMATS[operation]
    for constant in sorted({form.constants[0], form.constants[-1]}):
        for numbers in itertools.product((0, 31), repeat=len(form.registers)):
            yield Instruction(operation, constant=constant, **dict(zip(form.registers, numbers)))


def every_register(chance, operation):
    """Each register number in each register field."""
    form = FORMATS[operation]
    shifts = [chance.below(32) for _ in form.registers]
    for number in range(32):
        registers = {field: (number + shift) % 32 for field, shift in zip(form.registers, shifts)}
        yield chance.instruction(operation)._replace(**registers)


def every_bit(chance, operation):
    """Constants that have one bit, lack one bit, or have all bits below or above one: they show where each bit goes."""
    form = FORMATS[operation]
    near = {sign * 2 ** k + less for k in range(21) for sign in (1, -1) for less in (0, -1, -2)}
    for constant in sorted(c for c in near if form.has_constant() and c in form.constants):
        yield chance.instruction(operation)._replace(constant=constant)


def legal_instructions(chance):
    for operation in range(1, len(NAMES)):
        chosen = set(corners(operation))
        if FORMATS[operation].registers:
            chosen.update(every_register(chance, operation))
            chosen.update(every_bit(chance, operation))
            while len(chosen) < LEAST:
                chosen.add(chance.instruction(operation))
        yield from sorted(chosen)


# ---- words that are close to legal ones, and others; `words` are the legal words by operation

def flipped(chance, words):
    """Legal words, each with one bit flipped."""
    for group in words.values():
        for _ in range(min(SAMPLES, len(group))):
            word = chance.pick(group)
            yield from (word ^ 1 << bit for bit in range(32))


def shifts(chance, words):
    """SLLI, SRLI and SRAI with each value of bits 31-25."""
    for operation in map(NAMES.index, ("slli", "srli", "srai")):
        for upper in range(128):
            yield chance.pick(words[operation]) & ~FUNCT7 | upper << 25


def system(chance):
    """Words of the SYSTEM opcode, half of them without registers, as ECALL and EBREAK are."""
    for _ in range(SYSTEM):
        yield 0x73 | chance.word() & chance.pick([0xFFF << 20, ~OPCODE])


def anything(chance, words):
    every = [word for group in words.values() for word in group]
    opcodes = sorted({word & OPCODE for word in every})
    for _ in range(ANY):
        yield chance.word()
    for _ in range(OPCODES):
        yield chance.word() & ~OPCODE | chance.pick(opcodes)
    for _ in range(FIXED):
        mask = chance.pick([FUNCT3, FUNCT7, FUNCT3 | FUNCT7])
        yield chance.pick(every) & ~mask | chance.word() & mask


# ---- what the tools say

def is_system(word):
    return word & OPCODE == 0x73


def is_fence(word):
    return word & (FUNCT3 | OPCODE) == 0x0F


def ask_disassemblers(words):
    """They do not show the fields that document 02 gives FENCE, those of an I format. Instead of a FENCE they are asked
    for the word that differs from it in the opcode alone, an ADDI."""
    shown = [word ^ 0x0F ^ 0x13 if is_fence(word) else word for word in words]
    return toolchain.gnu_readings(shown), toolchain.llvm_readings(shown)


def ask_qemu(words, multiply=True):
    """The mcause of QEMU's trap at each word, None where there is none. Of the SYSTEM opcode only document 01's words
    are asked: others would change the trap registers or halt QEMU."""
    with Machine(multiply) as machine:
        return [None if is_system(word) and word not in SYSTEM_WORDS else cause(machine.step([0] * 32, 8, word))
                for word in words]


def cause(after):
    return after.trap.cause if after.trap else None


def judge(word, gnu, llvm, trap, notes):
    """The instruction that the word is, or None. Where a tool and a document differ, `notes` counts it."""
    if is_system(word):
        return judge_system(gnu, llvm, trap, notes)
    runs = trap != ILLEGAL
    if is_fence(word):
        # Document 02: FENCE has any value in its registers and in bits 31-20. QEMU runs all of these.
        assert runs and gnu == llvm and NAMES[gnu.operation] == "addi", hex(word)
        return gnu._replace(operation=FENCE)
    if llvm == "fence.i":
        # Document 02: FENCE.I stays illegal. LLVM reads it unasked; GNU and QEMU, told to have RV32IM alone, do not.
        notes["FENCE.I, which LLVM reads"] += 1
        llvm = None
    assert gnu == llvm and not isinstance(gnu, str), (hex(word), gnu, llvm)
    if gnu and gnu.constant not in FORMATS[gnu.operation].constants:
        # Document 01: a shift by a constant needs bits 31-25 zero (SRAI: 0x20). Both disassemblers read RV64's shifts by
        # 32 to 63 in RV32 too; QEMU takes them as illegal.
        assert NAMES[gnu.operation] in ("slli", "srli", "srai") and gnu.constant in range(32, 64), hex(word)
        notes["shifts by 32 to 63, which GNU and LLVM read"] += 1
        gnu = None
    assert runs == (gnu is not None), (hex(word), gnu, trap)
    return gnu


def judge_system(gnu, llvm, trap, notes):
    """Document 01: SYSTEM has only ECALL and EBREAK. The tools know CSR access, returns from traps and more."""
    for operation, expected in ((ECALL, CALL), (EBREAK, BREAKPOINT)):
        if gnu == Instruction(operation):
            assert llvm == gnu and trap == expected
            return gnu
    for tool, read in (("GNU", gnu), ("LLVM", llvm)):
        if read:
            notes["SYSTEM words that %s reads" % tool] += 1
    return None


def judge_all(words, notes):
    answers = zip(words, *ask_disassemblers(words), ask_qemu(words))
    return {word: judge(word, gnu, llvm, trap, notes) for word, gnu, llvm, trap in answers}


# ---- the file

def by_operation(instructions, words):
    groups = {}
    for i, word in zip(instructions, words):
        groups.setdefault(i.operation, []).append(word)
    return groups


def make(chance, notes):
    """The instruction of each word, None for an illegal one, in the order of the file."""
    chosen = list(legal_instructions(chance))
    written = toolchain.gnu_words(chosen)
    groups = by_operation(chosen, written)
    near = [*flipped(chance, groups), *shifts(chance, groups), *system(chance), *ELSEWHERE.values(), 0, ALL_ONES]
    other = list(anything(chance, groups))
    judged = judge_all(list(dict.fromkeys(written + near + other)), notes)
    assert [judged[word] for word in written] == chosen
    # a flipped bit that makes another legal word is mostly one of a field, and fields have words enough
    kept = set(written + other)
    return {word: i for word, i in judged.items() if i is None or word in kept}


def examine(records):
    """Both assemblers write every legal word from its fields, QEMU without M refuses M's words, and nothing is missing."""
    legal = {word: i for word, i in records.items() if i}
    for assembler in toolchain.gnu_words, toolchain.llvm_words:
        assert assembler(legal.values()) == list(legal)
    multiply = [word for word, i in legal.items() if i.operation > FENCE]
    assert set(ask_qemu(multiply, multiply=False)) == {ILLEGAL}
    assert len(records) - len(legal) >= 5000 and records[0] is None and records[ALL_ONES] is None
    for operation in range(1, len(NAMES)):
        covered(FORMATS[operation], [i for i in legal.values() if i.operation == operation])


def covered(form, instructions):
    assert len(instructions) >= (LEAST if form.registers else 1)
    assert {form.constants[0], form.constants[-1]} <= {i.constant for i in instructions}
    for field in form.registers:
        assert {getattr(i, field) for i in instructions} == set(range(32))


def report(records, notes):
    counts = Counter(i.operation if i else 0 for i in records.values())
    print(", ".join("%s %d" % (NAMES[operation], counts[operation]) for operation in sorted(counts)))
    for what in sorted(notes):
        print("illegal by the documents: %d %s" % (notes[what], what))
    print(len(records), "words")


def main():
    seed, out = int(sys.argv[1]), sys.argv[2]
    notes = Counter()
    records = make(Chance(seed), notes)
    examine(records)
    with open(out, "wb") as file:
        for word, i in records.items():
            file.write(struct.pack("<IBBBBi", word, *(i or Instruction(0))))
    report(records, notes)


if __name__ == "__main__":
    main()
