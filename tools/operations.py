"""The operations by their numbers, the fields that each has, and how assembly text shows them.

Document 01 has 1 to 39, in the order of the manual's listing without FENCE, and document 02 adds 40, FENCE. 41 to 48, the
M extension, come later. Where a field stands in a word is not said here: words come from assemblers, and fields from
disassemblers.
"""
import re
from typing import NamedTuple

NAMES = """illegal
    lui auipc jal jalr beq bne blt bge bltu bgeu lb lh lw lbu lhu sb sh sw
    addi slti sltiu xori ori andi slli srli srai add sub sll slt sltu xor srl sra or and
    ecall ebreak fence mul mulh mulhsu mulhu div divu rem remu""".split()
ECALL, EBREAK, FENCE = 38, 39, 40


class Instruction(NamedTuple):
    operation: int
    rd: int = 0
    rs1: int = 0
    rs2: int = 0
    constant: int = 0


class Format(NamedTuple):
    operands: str           # in assembly text; {to} is the constant of a branch or JAL, an offset in bytes
    registers: tuple        # the register fields that it has
    constants: range        # what its constant may be; 0 alone where it has none

    def has_constant(self):
        return len(self.constants) > 1


R = Format("x{rd}, x{rs1}, x{rs2}", ("rd", "rs1", "rs2"), range(1))
I = Format("x{rd}, x{rs1}, {constant}", ("rd", "rs1"), range(-2048, 2048))
LOAD = Format("x{rd}, {constant}(x{rs1})", ("rd", "rs1"), range(-2048, 2048))       # JALR is written so too
STORE = Format("x{rs2}, {constant}(x{rs1})", ("rs1", "rs2"), range(-2048, 2048))
SHIFT = Format("x{rd}, x{rs1}, {constant}", ("rd", "rs1"), range(32))
BRANCH = Format("x{rs1}, x{rs2}, {to}", ("rs1", "rs2"), range(-4096, 4096, 2))
U = Format("x{rd}, {constant}", ("rd",), range(2 ** 20))
J = Format("x{rd}, {to}", ("rd",), range(-2 ** 20, 2 ** 20, 2))
BARE = Format("", (), range(1))

FORMATS = [BARE, U, U, J, LOAD, *[BRANCH] * 6, *[LOAD] * 5, *[STORE] * 3, *[I] * 6, *[SHIFT] * 3, *[R] * 10, BARE, BARE,
           I, *[R] * 8]
assert len(FORMATS) == len(NAMES) == 49


def text(i, target="%d"):
    """The assembly text of an instruction. `target` is how the offset of a branch or JAL is written: LLVM's assembler
    takes the number, GNU's would take that as an address and needs `.+8`."""
    fields = {**i._asdict(), "to": target % i.constant}
    if i.operation == FENCE:
        # the assemblers' own FENCE has no registers: an I format with opcode 0x0F and bits 14-12 zero
        return ".insn i 0x0f, 0, " + I.operands.format(**fields)
    return NAMES[i.operation] + " " + FORMATS[i.operation].operands.format(**fields)


def instruction(name, operands, number):
    """The other way: from a disassembler's name and operands, without spaces; None for a name that is not in the list.
    `number` reads a constant: it gets the digits, and whether they say where a branch or JAL goes."""
    if name not in NAMES:
        return None
    operation = NAMES.index(name)
    found = pattern(FORMATS[operation].operands).fullmatch(operands)
    if not found:
        raise ValueError("%s %s" % (name, operands))
    fields = {key: int(found[key]) for key in ("rd", "rs1", "rs2") if key in found.groupdict()}
    for key in ("constant", "to"):
        if key in found.groupdict():
            fields["constant"] = number(found[key], key == "to")
    return Instruction(operation, **fields)


def pattern(operands):
    """What `operands` looks like in a disassembler's text."""
    shape = re.escape(operands.replace(" ", "")).replace(r"\{", "{").replace(r"\}", "}")
    for field in ("rd", "rs1", "rs2"):
        shape = shape.replace("{%s}" % field, r"(?P<%s>\d+)" % field)
    for field in ("constant", "to"):
        shape = shape.replace("{%s}" % field, r"(?P<%s>-?[0-9a-fx]+)" % field)
    return re.compile(shape)
