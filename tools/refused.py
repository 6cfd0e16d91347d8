#!/usr/bin/env python3
"""refused.py SEED OUT: fields that the encoder has to refuse, each a legal instruction with one number changed.

A record has 20 bytes, little endian: operation, rd, rs1, rs2 (4 each), constant (4, signed). The encoder answers each
with refusal 30 and word 0. Operations 41 to 48, which come later, are left out, so that the file serves then too. An
operation that is added is drawn last: so the records that were there before stay, in their order.

Who says that a number is out of range:
- a constant out of its range, or odd where it must be even: LLVM's assembler, which refuses the text, and GNU's too,
  except for branches and JAL, where GNU's writes two instructions instead or leaves the matter to the linker;
- a register above 31: both assemblers, which refuse the text;
- a number in a field that the operation lacks, and an operation number out of range: no text can say such a thing, and
  it is document 01's own sentence ("a field that the operation lacks must be 0. It refuses any other number").
For the first two both assemblers must also take the text of the unchanged instruction. FENCE is written as an I format
with its opcode (see operations.py), since the text of the assemblers' own FENCE has no registers; it lacks rs2 alone.
"""
import struct
import sys

import toolchain
from chance import Chance
from operations import BRANCH, FENCE, FORMATS, J, NAMES, Instruction, text

FIRST, ADDED = range(1, FENCE), [FENCE]         # operations, in the order of their draws
LAST = ADDED[-1]
LOWEST, HIGHEST = -2 ** 31, 2 ** 31 - 1
NUMBERS = [0, 49, 255, 256, 257, 294, 295, 65537, 2 ** 31 + 1, 2 ** 32 - 1]         # no operation, now or later
NEARLY = [256 + FENCE, 65536 + FENCE, 2 ** 31 + FENCE]                              # neither, with FENCE's low bits
REGISTERS = [32, 33, 63, 255, 256, 288, 2 ** 31, 2 ** 32 - 1]
NOT_ZERO = [1, 31, 32, 256, 2 ** 32 - 1]
NOT_ZERO_CONSTANTS = [1, -1, 2, 31, 2048, 2 ** 20, HIGHEST, LOWEST]


def bad_constants(chance, allowed):
    """Just outside both ends; odd ones where the step is 2; some with the low bits of an allowed one; the extremes."""
    low, high, span = allowed[0], allowed[-1], len(allowed) * allowed.step
    near = [low - 1, low - allowed.step, high + 1, high + allowed.step]
    within = [low + 1, -1, 0, 1, high - 1]
    same_bits = [chance.pick(allowed) + sign * span * 2 ** k for sign in (1, -1) for k in (0, 1, 4)]
    every = near + within + same_bits + [LOWEST, HIGHEST]
    return sorted({c for c in every if c not in allowed and LOWEST <= c <= HIGHEST})


def out_of_range(chance, operations):
    """Pairs of a legal instruction and the same with one of its own fields out of range."""
    for operation in operations:
        form = FORMATS[operation]
        if form.has_constant():
            for constant in bad_constants(chance, form.constants):
                legal = chance.instruction(operation)
                yield legal, legal._replace(constant=constant)
        for field in form.registers:
            for number in REGISTERS:
                legal = chance.instruction(operation)
                yield legal, legal._replace(**{field: number})


def lacking(chance, operations):
    """Instructions with a number in a field that the operation lacks."""
    for operation in operations:
        form = FORMATS[operation]
        if not form.has_constant():
            for constant in NOT_ZERO_CONSTANTS:
                yield chance.instruction(operation)._replace(constant=constant)
        for field in ("rd", "rs1", "rs2"):
            if field not in form.registers:
                for number in NOT_ZERO:
                    yield chance.instruction(operation)._replace(**{field: number})


def no_operation(chance, numbers, operations):
    """Operation numbers out of range, with zero fields, and with the fields of some operation."""
    for number in numbers:
        yield Instruction(number)
        yield chance.instruction(chance.pick(operations))._replace(operation=number)


def drawn(chance, operations, numbers):
    """The pairs that the assemblers are asked about, and what is refused by document 01's sentence."""
    asked = list(out_of_range(chance, operations))
    return asked, [*lacking(chance, operations), *no_operation(chance, numbers, operations)]


def jumps(i):
    return FORMATS[i.operation] in (BRANCH, J)


def ask_assemblers(pairs):
    """Both must take the legal text and refuse the other; GNU's is not asked how far a branch or JAL goes. Gives the
    number of GNU's refusals."""
    legal, bad = zip(*pairs)
    assert not toolchain.gnu_refusals([text(i, toolchain.GNU_TARGET) for i in legal])
    assert not toolchain.llvm_refusals(list(map(text, legal)))
    assert toolchain.llvm_refusals(list(map(text, bad))) == set(range(len(bad)))
    asked = [i for was, i in pairs if not (jumps(i) and i.constant != was.constant)]
    assert toolchain.gnu_refusals([text(i, toolchain.GNU_TARGET) for i in asked]) == set(range(len(asked)))
    return len(asked)


def main():
    chance, out = Chance(int(sys.argv[1])), sys.argv[2]
    groups = [drawn(chance, FIRST, NUMBERS), drawn(chance, ADDED, NEARLY)]
    pairs = [pair for asked, _ in groups for pair in asked]
    own = [i for _, others in groups for i in others]
    gnu = ask_assemblers(pairs)
    records = list(dict.fromkeys(i for asked, others in groups for i in [*(bad for _, bad in asked), *others]))
    assert not {i.operation for i in records} & set(range(LAST + 1, len(NAMES)))
    with open(out, "wb") as file:
        for i in records:
            file.write(struct.pack("<IIIIi", *i))
    print("%d refused by LLVM, %d of these by GNU, %d by document 01's sentence; %d different records"
          % (len(pairs), gnu, len(own), len(records)))


if __name__ == "__main__":
    main()
