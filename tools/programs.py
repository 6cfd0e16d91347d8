#!/usr/bin/env python3
"""programs.py SEED OUT: random programs of 64 words, run in QEMU until they stop.

A record has 1,164 bytes, words little endian:
  program (256 bytes)   data bytes 256 to 511 (256)
  after the run: x0 to x31, address, steps made, document 01's cause (35 words), data bytes 0 to 511 (512)
The data have 16,384 bytes: a copy of the program, these 256, and zeros. All registers and the address start as 0.

A program sets some registers, then goes through a loop of blocks a few times, and ends by a stop; a block may also stop
it earlier. Branches and jumps go forward to the start of a block, back at the end of a loop, or to a routine and from
there back, so every program ends. Loads read the copy of the program and the 256 bytes, stores write the latter. FENCEs
with any fields stand between them and elsewhere.
"""
import itertools
import struct
import sys
from collections import Counter
from typing import NamedTuple

import toolchain
from chance import Chance
from operations import FENCE, FORMATS, NAMES, STORE, Instruction
from qemu import SIZE, STOP, Machine
from steps import LOADS, STORES, size_of

PROGRAMS, WORDS = 300, 64
ROOM = 46                                       # words before the loop's end
LOW, MIDDLE, HIGH = 256, 384, 512               # the data that stores write, and what x8 points to
LINK, INNER, BASE, OUTER = 1, 7, 8, 9           # registers with a fixed use: return address, counters, data
FREE = [r for r in range(1, 32) if r not in (LINK, INNER, BASE, OUTER)]
ILLEGAL_WORDS = [0, 0xFFFFFFFF, 0x02109093, 0x0000707F, 0x04208033, 0x0000100F]    # the last is FENCE.I


def numbered(*names):
    return [NAMES.index(name) for name in names]


LUI, AUIPC, JAL, JALR, BEQ, BNE, ADDI, ECALL, EBREAK = numbered(
    "lui", "auipc", "jal", "jalr", "beq", "bne", "addi", "ecall", "ebreak")
BRANCHES = range(BEQ, LOADS[0])
COMPUTING = [LUI, AUIPC, *range(ADDI, ECALL)]


class Line(NamedTuple):
    instruction: Instruction
    to: str = None              # the constant is then the distance to this block,
    back: int = 0               # counted from so many words before this one,
    more: int = 0               # plus so much
    word: int = None            # written as it is, instead of the instruction


class Block(NamedTuple):
    name: str
    lines: list


# ---- blocks; each has its registers from `few`

class Writer:
    def __init__(self, chance):
        self.chance = chance
        # few registers make many dependences
        self.few = [chance.pick(FREE) for _ in range(chance.pick([3, 6, 12]))]

    def source(self):
        return self.chance.pick(self.few) if self.chance.below(10) else self.chance.below(32)

    def destination(self):
        return self.chance.pick(self.few) if self.chance.below(14) else 0

    def instruction(self, operation):
        """Any constant, and registers of this program."""
        choose = {"rd": self.destination, "rs1": self.source, "rs2": self.source}
        chosen = {field: choose[field]() for field in FORMATS[operation].registers}
        return self.chance.instruction(operation)._replace(**chosen)

    def compute(self):
        return [Line(self.instruction(self.chance.pick(COMPUTING)))]

    def access(self):
        """A load or a store, often at the same places as others."""
        operation = self.chance.pick([*LOADS, *STORES])
        size = size_of(operation)
        start = LOW if FORMATS[operation] == STORE else 0
        at = start + self.chance.below((HIGH - start) // size) * size
        at = self.chance.pick([at, at // 16 * 16])
        base, offset = self.chance.pick([(BASE, at - MIDDLE), (0, at)])
        return [Line(self.instruction(operation)._replace(rs1=base, constant=offset))]

    def fence(self):
        """FENCE with any fields; those that name registers often name ones that the program uses."""
        return [Line(self.chance.pick([self.instruction, self.chance.instruction])(FENCE))]

    def fenced(self):
        return [*self.access(), *self.fence(), *self.access()]

    def branch(self, later):
        return [Line(self.instruction(self.chance.pick(BRANCHES)), to=later)]

    def jump(self, later):
        return [Line(self.instruction(JAL), to=later)]

    def far_jump(self, later):
        """By AUIPC and JALR, which drops bit 0."""
        register = self.chance.pick(self.few)
        jump = self.instruction(JALR)._replace(rs1=register)
        return [Line(Instruction(AUIPC, rd=register)), Line(jump, to=later, back=1, more=self.chance.below(2))]

    def call(self):
        return [Line(Instruction(JAL, rd=LINK), to="routine")]

    def inner_loop(self):
        kinds = [self.chance.pick([*[self.compute, self.access] * 2, self.fence])
                 for _ in range(1 + self.chance.below(4))]
        body = [line for kind in kinds for line in kind()]
        times = 1 + self.chance.below(6)
        back = Instruction(BNE, rs1=INNER, constant=-4 * (len(body) + 1))
        return [Line(add(INNER, 0, times)), *body, Line(add(INNER, INNER, -1)), Line(back)]

    def early_stop(self, later):
        return [*self.branch(later), *self.stop()]

    def stop(self):
        """A stop of any kind: illegal words, ECALL, EBREAK, jumps out of memory, targets that are no multiple of 4,
        accesses outside the data."""
        x = self.chance.pick(FREE)
        beyond = Instruction(LUI, rd=x, constant=SIZE // 4096 + self.chance.below(2 ** 18))
        odd = self.chance.pick([2, 3, 6, 7])
        return self.chance.pick([
            [Line(Instruction(ECALL))], [Line(Instruction(EBREAK))],
            [Line(None, word=self.chance.pick(ILLEGAL_WORDS))],
            [Line(beyond), Line(Instruction(JALR, rd=self.destination(), rs1=x, constant=4 * self.chance.below(99)))],
            [Line(Instruction(JALR, rd=self.destination(), constant=odd))],
            [Line(Instruction(JAL, rd=self.destination(), constant=4 * self.chance.below(9) + 2))],
            [Line(Instruction(BEQ, rs1=x, rs2=x, constant=4 * self.chance.below(9) - 2))],
            [Line(Instruction(self.chance.pick(LOADS), rd=x, constant=-4))],
            [Line(beyond), Line(Instruction(self.chance.pick(LOADS), rd=self.destination(), rs1=x))],
            [Line(Instruction(self.chance.pick(STORES), rs2=x, constant=-4))],
            [Line(beyond), Line(Instruction(self.chance.pick(STORES), rs1=x, rs2=self.source()))]])

    def block(self, later):
        kind = self.chance.below(100)
        if kind < 37:
            return self.compute()
        if kind < 60:
            return self.access()
        if kind < 67:
            return self.fenced()
        if kind < 70:
            return self.fence()
        if kind < 83:
            return self.branch(later)
        if kind < 87:
            return self.jump(later)
        if kind < 91:
            return self.far_jump(later)
        if kind < 94:
            return self.call()
        if kind < 98:
            return self.inner_loop()
        return self.early_stop(later)

    def program(self):
        start = [Line(add(BASE, 0, MIDDLE)), Line(add(OUTER, 0, 1 + self.chance.below(4)))]
        for register in self.few[:4]:
            start += [Line(self.instruction(operation)._replace(rd=register)) for operation in (LUI, ADDI)]
        bodies, size = [], len(start)
        while size < ROOM:
            later = 1 + self.chance.below(4)
            bodies.append(self.block("block %d" % (len(bodies) + later)))
            size += len(bodies[-1])
        blocks = [Block("start", start), *(Block("block %d" % n, lines) for n, lines in enumerate(bodies))]
        # a jump past the last block goes to the end of the loop
        blocks += [Block("block %d" % (len(bodies) + n), []) for n in range(4)]
        again = Line(Instruction(BNE, rs1=OUTER), to="block 0")
        blocks += [Block("end", [Line(add(OUTER, OUTER, -1)), again, *self.stop(), Line(Instruction(ECALL))])]
        returning = Line(Instruction(JALR, rs1=LINK, constant=self.chance.below(2)))
        return blocks + [Block("routine", [*self.compute(), *self.access(), returning])]


def add(rd, rs1, constant):
    return Instruction(ADDI, rd=rd, rs1=rs1, constant=constant)


# ---- words

def resolved(blocks):
    """The lines, with the distances to blocks filled in, and ECALLs up to the program's length."""
    places, lines = {}, []
    for block in blocks:
        places[block.name] = len(lines)
        lines += block.lines
    assert len(lines) <= WORDS
    for place, line in enumerate(lines):
        if line.to is not None:
            distance = 4 * (places[line.to] - (place - line.back)) + line.more
            lines[place] = line._replace(instruction=line.instruction._replace(constant=distance))
    return lines + [Line(Instruction(ECALL))] * (WORDS - len(lines))


def assembled(programs):
    """The bytes of each program. GNU's assembler writes all instructions at once."""
    written = iter(toolchain.gnu_words([line.instruction for lines in programs for line in lines if line.word is None]))
    for lines in programs:
        words = [next(written) if line.word is None else line.word for line in lines]
        yield struct.pack("<%dI" % WORDS, *words)


# ---- what QEMU says

def run(machine, program, data):
    """Registers, address, steps, cause, and the data bytes 0 to 511 at the end."""
    machine.write(0, program + data)
    before = machine.steps()
    after = machine.run([0] * 32, 0, look=(0, HIGH))
    cause = STOP[after.trap.cause]
    counted = cause not in (4, 6, 7)            # QEMU counts an instruction that stops for another reason
    steps = machine.steps() - before - counted
    assert after.memory[:LOW] == program
    return after.registers, after.trap.address, steps, cause, after.memory


def around_fences(operations):
    """The operations before and after each FENCE."""
    return [(a, b) for a, middle, b in zip(operations, operations[1:], operations[2:]) if middle == FENCE]


def examine(programs, ends):
    """Every operation stands in some program, FENCE in many and between loads and stores of every order, and every
    cause ends some."""
    used = [[line.instruction.operation if line.word is None else 0 for line in lines] for lines in programs]
    counts = Counter(operation for operations in used for operation in operations)
    assert all(counts[operation] >= 20 for operation in range(1, EBREAK + 1))
    assert sum(FENCE in operations for operations in used) >= 20
    around = [pair for operations in used for pair in around_fences(operations)]
    for first, second in itertools.product((LOADS, STORES), repeat=2):
        assert sum(a in first and b in second for a, b in around) >= 20
    causes = Counter(cause for _, cause in ends)
    assert all(causes[cause] >= 10 for cause in range(1, 8)), causes
    steps = sorted(steps for steps, _ in ends)
    print("%d programs, %d steps (%d to %d);" % (len(ends), sum(steps), steps[0], steps[-1]),
          ", ".join("cause %d %d" % pair for pair in sorted(causes.items())))


def main():
    seed, out = int(sys.argv[1]), sys.argv[2]
    chance = Chance(seed)
    programs = [resolved(Writer(chance).program()) for _ in range(PROGRAMS)]
    records, ends = [], []
    with Machine(multiply=False, counting=True) as machine:
        for program in assembled(programs):
            data = bytes(chance.below(256) for _ in range(HIGH - LOW))
            registers, address, steps, cause, final = run(machine, program, data)
            records.append(program + data + struct.pack("<35I", *registers, address, steps, cause) + final)
            ends.append((steps, cause))
        assert not any(machine.read(HIGH, SIZE - HIGH))
    examine(programs, ends)
    with open(out, "wb") as file:
        file.write(b"".join(records))


if __name__ == "__main__":
    main()
