"""GNU's and LLVM's assemblers and disassemblers for RV32IM: words from text, fields from words, and refusals of text."""
import re
import struct
import subprocess
import tempfile

import operations

GNU = "riscv64-unknown-elf-"
GNU_ASSEMBLER = [GNU + "as", "-march=rv32im", "-mabi=ilp32", "-mno-relax"]
LLVM = ["llvm-mc", "-triple=riscv32", "-mattr=+m"]
GNU_TARGET = ".%+d"
NOP = 0x13
SLOT = 8            # words from one word to read to the next: objdump may take up to 22 bytes for one instruction


def call(command, text=None):
    return subprocess.run(command, input=text, check=True, capture_output=True, text=True).stdout


def section(folder):
    """The words of the object file in this folder."""
    call([GNU + "objcopy", "-O", "binary", "-j", ".text", folder + "/object", folder + "/binary"])
    with open(folder + "/binary", "rb") as file:
        return [word for word, in struct.iter_unpack("<I", file.read())]


# ---- words from instructions

def gnu_words(instructions):
    with tempfile.TemporaryDirectory() as folder:
        source = "".join(operations.text(i, GNU_TARGET) + "\n" for i in instructions)
        call([*GNU_ASSEMBLER, "-", "-o", folder + "/object"], source)
        return section(folder)


def llvm_words(instructions):
    with tempfile.TemporaryDirectory() as folder:
        source = "".join(operations.text(i) + "\n" for i in instructions)
        call([*LLVM, "-filetype=obj", "-o", folder + "/object"], source)
        return section(folder)


# ---- instructions from words: None where the tool shows none, the bare name where it shows one that is not in our list

def gnu_readings(words):
    filler = ", 0x%x" % NOP * (SLOT - 1)
    with tempfile.TemporaryDirectory() as folder:
        source = "".join(".word 0x%x%s\n" % (word, filler) for word in words)
        call([*GNU_ASSEMBLER, "-", "-o", folder + "/object"], source)
        shown = call([GNU + "objdump", "-D", "-z", "-j", ".text", "-M", "no-aliases,numeric", folder + "/object"])
    readings = [None] * len(words)
    # address, word in eight digits (an instruction of another length has more or fewer), name, operands, a comment
    for line in re.finditer(r"^ *([0-9a-f]+):\t[0-9a-f]{8} +\t([a-z][^\s]*)(?:\t([^ \n]*))?", shown, re.M):
        place, offset = divmod(int(line[1], 16), 4 * SLOT)
        if offset == 0:
            readings[place] = reading(line[2], line[3] or "", gnu_number(4 * SLOT * place))
    return readings


def gnu_number(address):
    """objdump shows where a jump goes as an address, in hexadecimal without 0x."""
    def number(digits, target):
        return (int(digits, 16) - address + 2 ** 31) % 2 ** 32 - 2 ** 31 if target else int(digits, 0)
    return number


def llvm_readings(words):
    source = "".join("[%s]\n" % " ".join("0x%02x" % byte for byte in struct.pack("<I", word)) for word in words)
    options = ["-disassemble", "-M", "no-aliases", "-M", "numeric"]
    done = subprocess.run([*LLVM, *options], input=source, capture_output=True, text=True)      # fails if it refuses any
    refused = {int(line) - 1 for line in re.findall(r"<stdin>:(\d+):\d+: warning: invalid", done.stderr)}
    shown = [line for line in done.stdout.splitlines() if line.strip() and line.strip() != ".text"]
    assert len(shown) + len(refused) == len(words)
    lines = iter(shown)
    return [None if place in refused else llvm_reading(next(lines)) for place in range(len(words))]


def llvm_reading(line):
    name, _, operands = line.strip().partition("\t")
    return reading(name, operands.replace(" ", ""), lambda digits, target: int(digits, 0))


def reading(name, operands, number):
    if name == "fence":
        return name         # its text does not have the fields that document 02 gives it
    return operations.instruction(name, operands, number) or name


# ---- refusals

def gnu_refusals(texts):
    """The places of the texts that GNU's assembler calls wrong. How far a branch or JAL goes is none of its reasons: it
    writes two instructions for a far branch, drops an odd offset's lowest bit, and leaves the rest to the linker."""
    with tempfile.TemporaryDirectory() as folder:
        return refusals([*GNU_ASSEMBLER, "-", "-o", folder + "/object"], texts, r"^\{standard input\}:(\d+): Error")


def llvm_refusals(texts):
    return refusals([*LLVM, "-filetype=null"], texts, r"^<stdin>:(\d+):\d+: error")


def refusals(command, texts, shape):
    done = subprocess.run(command, input="".join(text + "\n" for text in texts), capture_output=True, text=True)
    return {int(line) - 1 for line in re.findall(shape, done.stderr, re.M)}
