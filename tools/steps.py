#!/usr/bin/env python3
"""steps.py SEED OUT: single instructions of RV32I, with what QEMU makes of them.

A record has eight words of 4 bytes, little endian: word, address, a, b, next, what, where, value.

Before the step, on either side:
- register i holds scramble(i) = i * 2654435761 mod 2^32, but the register that bits 24-20 of the word name holds b, and
  the one that bits 19-15 name, which may be the same, holds a; x0 holds 0;
- byte i of the 16,384 data bytes is the highest byte of scramble(i);
- the program has 16,384 bytes, of which only the word at the address matters.
After it registers and data are as before and the address is `next`, except for what `what` says:
  0         nothing else changes
  1 to 31   that register holds `value`
  64        the data word at `where` is `value`
  32 + c    a stop with document 01's cause c: nothing changes, `next` is the address, and `where` is the value that
            document 02's request 5 adds to the cause

QEMU has one memory for program and data, so a load or store never meets the instruction's own word. Nor has it ever an
address that is no multiple of its size: QEMU makes such accesses, document 01 does not. See own_steps.py for these.

FENCE and the other words of its opcode are drawn last, so that a seed gives the same records of all else.
"""
import struct
import sys
from collections import Counter
from typing import NamedTuple

import toolchain
from chance import Chance
from operations import BRANCH, EBREAK, ECALL, FENCE, FORMATS, J, NAMES, STORE, Instruction
from qemu import ILLEGAL, SIZE, STOP, TRAP, Machine

EACH = 285                                      # records of each operation from 1 to 37, and of FENCE
CALLS, ILLEGALS, OUTSIDE = 20, 320, 95          # of ECALL and of EBREAK, of illegal words, of fetches outside memory
NO_FENCES = 5                                   # of each other value of bits 14-12 under FENCE's opcode
WORDS = 2 ** 32
STRIDE = 2654435761                             # near the golden section of 2^32: its multiples look like anything
JALR = NAMES.index("jalr")
LOADS, STORES = range(NAMES.index("lb"), NAMES.index("sb")), range(NAMES.index("sb"), NAMES.index("addi"))
MULTIPLY = range(NAMES.index("mul"), len(NAMES))
FENCE_OPCODE = 0x0F
EDGES = [0, 1, WORDS - 1, 0x7FFFFFFF, 0x80000000, 31, 32, 33]
CORNERS = [-1, 0, 1, 31, 0x7FFFF, 0x80000]
LENGTH_BITS = 3                                 # bits 1-0 are ones in every word that is not a compressed one
# 0, all ones, FENCE.I, and shifts by a constant with wrong upper bits
NEVER = [0, WORDS - 1, 0x0000100F, 0x02109093, 0x40109093, 0x0200D093, 0x4200D093]


def scramble(i):
    return i * STRIDE % WORDS


DATA = bytes(scramble(i) >> 24 for i in range(SIZE))


class Trial(NamedTuple):
    instruction: Instruction                    # operation 0 for a word that is none
    address: int
    a: int
    b: int
    word: int = 0


# ---- what to try

def operand(chance):
    small = chance.below(2 ** chance.pick([4, 8, 16, 31]))
    return chance.pick([chance.pick(EDGES), small, chance.word(), chance.word()])


def address(chance):
    return chance.pick([0, SIZE - 4, *[4 * chance.below(SIZE // 4)] * 14])


def constant(chance, form):
    near = [c for c in CORNERS if c in form.constants]
    between = chance.pick(form.constants)
    if form in (BRANCH, J) and chance.below(8):
        between = between // 4 * 4                          # mostly a target that is a multiple of 4
    first, last = form.constants[0], form.constants[-1]
    return chance.pick([first, last, last // 4 * 4, chance.pick(near), *[between] * 8])


def instruction(chance, operation, turn):
    """In the first 32 turns each register in each field; then any, and now and then x0 as destination, the destination
    among the sources, or equal sources."""
    form = FORMATS[operation]
    i = chance.instruction(operation)._replace(constant=constant(chance, form))
    if turn < 32:
        return i._replace(**{field: (turn + 11 * n) % 32 for n, field in enumerate(form.registers)})
    fields = {"rd": [0, i.rs1, i.rs2], "rs2": [i.rs1]}
    for field, others in fields.items():
        if field in form.registers and chance.below(4) == 0:
            i = i._replace(**{field: chance.pick(others)})
    return i


def edge(chance, operation, n):
    """The n-th pair of edge operands (for an operation with a constant, of edge operand and end of its range), in
    registers that differ."""
    form = FORMATS[operation]
    ends = sorted({form.constants[0], form.constants[-1], *(c for c in CORNERS if c in form.constants)})
    first = 1 + chance.below(29)
    numbers = {"rs1": first, "rs2": first + 1, "rd": first + 2}
    i = Instruction(operation, constant=ends[n // len(EDGES) % len(ends)], **{f: numbers[f] for f in form.registers})
    if form in (BRANCH, J):
        i = i._replace(constant=chance.pick(form.constants) // 4 * 4)
    return Trial(i, address(chance), EDGES[n % len(EDGES)], EDGES[n // len(EDGES)])


def plain(chance, operation, turn):
    i = instruction(chance, operation, turn)
    a, b = operand(chance), operand(chance)
    if FORMATS[operation] == BRANCH:
        b = chance.pick([a, (a + 1) % WORDS, a ^ 2 ** 31, b, b, b])
    return Trial(i, address(chance), a, b)


def jump(chance, operation, turn):
    """JALR, mostly to a multiple of 4; it drops the lowest bit of the sum."""
    i = instruction(chance, operation, turn)
    target = chance.pick([chance.below(SIZE), chance.word()])
    if chance.below(8):
        target = target // 4 * 4 + chance.below(2)
    return Trial(i, address(chance), (target - i.constant) % WORDS, operand(chance))


def access(chance, operation, turn):
    size = size_of(operation)
    i = instruction(chance, operation, turn)
    inside = [0, SIZE - size, *[size * chance.below(SIZE // size)] * 8]
    outside = [SIZE, WORDS - size, chance.word() // size * size]
    at = chance.pick(outside if chance.below(10) == 0 else inside)
    if i.rs1 == 0:                                          # the constant alone is the address
        i = i._replace(constant=i.constant // size * size)
        at = i.constant % WORDS
    pc = address(chance)
    if at // 4 == pc // 4:
        pc ^= 4096
    return Trial(i, pc, (at - i.constant) % WORDS, operand(chance))


def size_of(operation):
    return {"b": 1, "h": 2, "w": 4}[NAMES[operation][1]]


def trials_of(chance, operation):
    if operation == JALR:
        return [jump(chance, operation, turn) for turn in range(EACH)]
    if operation in (*LOADS, *STORES):
        return [access(chance, operation, turn) for turn in range(EACH)]
    edges = [edge(chance, operation, n) for n in range(len(EDGES) ** 2)]
    return edges + [plain(chance, operation, turn) for turn in range(EACH - len(edges))]


def fences(chance):
    """FENCE, whose fields name registers that it neither reads nor writes. The pairs of edge operands stand in those
    that bits 19-15 and 24-20 name; bits 11-7 name the first of these, the second, or another."""
    trials = trials_of(chance, FENCE)
    for n in range(len(EDGES) ** 2):
        i = trials[n].instruction
        first, second = i.rs1, i.rs1 + 1
        i = i._replace(rd=[first, second, second + 1][n % 3], constant=i.constant // 32 * 32 + second)
        trials[n] = trials[n]._replace(instruction=i)
    return trials


def no_fences(chance):
    """FENCE.I and the other words of FENCE's opcode that have a one in bits 14-12."""
    found = [chance.word() & ~0x707F | bits << 12 | FENCE_OPCODE for bits in range(1, 8) for _ in range(NO_FENCES)]
    with Machine(multiply=False) as machine:
        assert all(is_illegal(machine, word) for word in found)
    return found


def illegal_words(chance):
    """M's words, words with wrong fixed bits, and any others, if QEMU calls them illegal. SYSTEM is left out: QEMU runs
    more of its words than document 01 has."""
    written = toolchain.gnu_words([chance.instruction(o) for o in (*range(1, ECALL), *MULTIPLY) for _ in range(20)])
    legal, multiply = written[:-20 * len(MULTIPLY)], written[-20 * len(MULTIPLY):]
    fixed = [*range(7), *range(12, 15), *range(25, 32)]
    flipped = [chance.pick(legal) ^ 1 << chance.pick(fixed) for _ in range(4 * ILLEGALS)]
    anything = [chance.word() | LENGTH_BITS for _ in range(ILLEGALS)]
    found = [*NEVER, *multiply[::4]]
    with Machine(multiply=False) as machine:
        for word in shuffled(chance, flipped + anything):
            if word & 127 != 0x73 and word not in found and is_illegal(machine, word):
                found.append(word)
    return found[:ILLEGALS]


def is_illegal(machine, word):
    trap = machine.step([0] * 32, 8, word).trap
    return trap is not None and trap.cause == ILLEGAL


def no_instruction(chance, word, at):
    return Trial(Instruction(0), at, operand(chance), operand(chance), word)


def trials(chance):
    legal = [t for operation in range(1, ECALL) for t in trials_of(chance, operation)]
    legal += [Trial(Instruction(o), address(chance), operand(chance), operand(chance)) for o in [ECALL, EBREAK] * CALLS]
    words = toolchain.gnu_words([t.instruction for t in legal])
    made = [t._replace(word=word) for t, word in zip(legal, words)]
    made += [no_instruction(chance, word, address(chance)) for word in illegal_words(chance)]
    beyond = [SIZE, SIZE + 4, 2 ** 31, WORDS - 4]
    beyond += [SIZE + 4 * chance.below(chance.pick([SIZE, 2 ** 29])) for _ in range(OUTSIDE - len(beyond))]
    made += [no_instruction(chance, 0x13, at) for at in beyond]
    added = fences(chance)
    words = toolchain.gnu_words([t.instruction for t in added])
    made += [t._replace(word=word) for t, word in zip(added, words)]
    made += [no_instruction(chance, word, address(chance)) for word in no_fences(chance)]
    return shuffled(chance, made)


def shuffled(chance, items):
    """So that the beginning of the file has something of everything."""
    items = list(items)
    for n in range(len(items) - 1, 0, -1):
        other = chance.below(n + 1)
        items[n], items[other] = items[other], items[n]
    return items


# ---- what QEMU says

def destination(instruction):
    """FENCE has none, whatever its field says."""
    return 0 if instruction.operation == FENCE else instruction.rd


def registers(trial):
    x = [scramble(i) for i in range(32)]
    x[trial.word >> 20 & 31] = trial.b
    x[trial.word >> 15 & 31] = trial.a
    x[0] = 0
    return x


class Witness:
    """QEMU with the data in its memory, and a second one that has 2-byte instructions, and so goes to targets that are
    no multiple of 4."""

    def __init__(self):
        self.core, self.compressed = Machine(multiply=False), Machine(multiply=False, compressed=True)
        self.core.write(0, DATA)
        self.changed = []                       # words of memory to write back

    def close(self):
        self.core.close()
        self.compressed.close()

    def ask(self, trial):
        before = registers(trial)
        place = store_place(trial, before)
        writes = [(at, DATA[at:at + 4]) for at in self.changed]
        self.changed = [at for at in (place, trial.address) if at is not None and at < SIZE]
        look = (0, 0) if place is None else (place, 4)
        after = self.core.step(before, trial.address, trial.word, writes, look)
        given = (trial.word, trial.address, trial.a, trial.b)
        changed = [n for n in range(32) if before[n] != after.registers[n]]
        if after.trap:
            assert not changed and after.trap.address == trial.address
            cause = STOP[after.trap.cause]
            return (*given, trial.address, 32 + cause, self.value(trial, before, cause, after.trap.value), 0)
        assert after.address != TRAP
        if place is not None:
            assert not changed
            return (*given, after.address, 64, place, struct.unpack("<I", after.memory)[0])
        rd = destination(trial.instruction)
        assert set(changed) <= {rd}
        return (*given, after.address, rd, 0, after.registers[rd])

    def value(self, trial, before, cause, value):
        """The value that comes with a cause. QEMU's own is cut for a word that begins as a compressed one, and stale
        for the target of a branch or JAL."""
        if cause == 1:
            assert value in (trial.word, trial.word & 0xFFFF)
            return trial.word
        if cause == 5:
            return self.compressed.step(before, trial.address, trial.word).address
        return value

    def unchanged(self):
        for at in self.changed:
            self.core.write(at, DATA[at:at + 4])
        return self.core.read(0, SIZE) == DATA


def store_place(trial, before):
    """Where the data word lies that a store changes, None if there is none in memory."""
    if FORMATS[trial.instruction.operation] != STORE:
        return None
    at = (before[trial.instruction.rs1] + trial.instruction.constant) % WORDS
    return at // 4 * 4 if at < SIZE else None


# ---- the file

def examine(asked, records):
    """Nothing is missing: numbers of each operation, ends of constants, registers, edge operands, places, stops."""
    for operation in (*range(1, ECALL), FENCE):
        examine_operation(operation, [(t, r) for t, r in zip(asked, records) if t.instruction.operation == operation])
    examine_fences([(t, r) for t, r in zip(asked, records) if t.word & 127 == FENCE_OPCODE])
    stops = Counter(r[5] - 32 for r in records if 32 < r[5] < 64)
    assert all(stops[cause] >= CALLS for cause in range(1, 8)), stops


def examine_operation(operation, pairs):
    form = FORMATS[operation]
    fields = [t.instruction for t, _ in pairs]
    assert len(pairs) >= EACH
    assert {form.constants[0], form.constants[-1]} <= {i.constant for i in fields}
    for field in form.registers:
        assert {getattr(i, field) for i in fields} == set(range(32))
    if "rd" in form.registers and "rs1" in form.registers:
        assert any(i.rd == i.rs1 for i in fields) and any(i.rd == 0 for i in fields)
    if "rs2" in form.registers:
        assert any(i.rs1 == i.rs2 for i in fields)
        if operation not in STORES:
            assert {(a, b) for a in EDGES for b in EDGES} <= {(t.a, t.b) for t, _ in pairs}
    if form == BRANCH:
        assert {r[4] == (t.address + 4) % WORDS for t, r in pairs if r[5] == 0} == {True, False}
    if operation in (*LOADS, *STORES):
        places = {(t.a + t.instruction.constant) % WORDS for t, _ in pairs}
        assert {0, SIZE - size_of(operation), SIZE} <= places


def examine_fences(pairs):
    """FENCE changes nothing and goes on, with all pairs of edge operands in the registers that bits 19-15 and 24-20
    name, and each of them in the one that bits 11-7 name. Each other value of bits 14-12 stops with cause 1."""
    legal = [(t, r) for t, r in pairs if t.instruction.operation == FENCE]
    assert all(r[4:] == ((t.address + 4) % WORDS, 0, 0, 0) for t, r in legal)
    named = [[registers(t)[t.word >> low & 31] for low in (15, 20, 7)] for t, _ in legal]
    assert {(a, b) for a in EDGES for b in EDGES} <= {(a, b) for a, b, _ in named}
    assert set(EDGES) <= {c for _, _, c in named}
    stopped = Counter(t.word >> 12 & 7 for t, r in pairs if t.instruction.operation == 0 and r[5] == 32 + 1)
    assert len(legal) + sum(stopped.values()) == len(pairs)
    assert 0 not in stopped and all(stopped[bits] >= NO_FENCES for bits in range(1, 8))


def report(records):
    stops = Counter(r[5] - 32 for r in records if 32 < r[5] < 64)
    print(len(records), "steps;", ", ".join("cause %d %d" % pair for pair in sorted(stops.items())))


def main():
    seed, out = int(sys.argv[1]), sys.argv[2]
    asked = trials(Chance(seed))
    witness = Witness()
    try:
        records = [witness.ask(trial) for trial in asked]
        assert witness.unchanged()
    finally:
        witness.close()
    examine(asked, records)
    with open(out, "wb") as file:
        file.write(b"".join(struct.pack("<8I", *record) for record in records))
    report(records)


if __name__ == "__main__":
    main()
