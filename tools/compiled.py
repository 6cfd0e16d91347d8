#!/usr/bin/env python3
"""compiled.py OUT: the C programs of c/, compiled by GCC for rv32i at -O1 and -O2, and run in QEMU until their ECALL.

A record has 9,360 bytes, words little endian:
  program length, then after the run address, steps made, document 01's cause, x0 to x31 (36 words)
  program, with zeros up to 1,024 bytes   data (4,096 bytes)   data after the run (4,096)
All registers and the address start as 0; the data have 4,096 bytes.

The model has the program and the data at 0 in two address spaces, QEMU has one memory. So the data stand at 0 and the
code elsewhere. That this makes no difference is tested: linked for two places the code has the same bytes, and from
both QEMU ends with the same registers, data and steps. The answers, in a0, are those that the C files name.
"""
import os
import struct
import subprocess
import sys
import tempfile

from qemu import CALL, STOP, Machine

HERE = os.path.dirname(os.path.abspath(__file__))
TOOL = "riscv64-unknown-elf-"
PLACES = (0x10000, 0x14000)                     # where the code is put in QEMU
MEMORY = 0x18000
ROOM, DATA = 1024, 4096                         # bytes of program and of data in a record
ANSWERS = {"sort": 1, "crc": 0xCBF43926, "matrix": 4936066, "search": 1410, "sieve": 168997, "fibonacci": 610,
           "ring": 671650, "lock": 40040}
FENCED = ("ring", "lock")                       # the ones whose code has FENCEs
LEVELS = ("-O1", "-O2")

# Addresses of code come from the program counter alone, so no tables of jumps; and nothing is taken from a C library.
OPTIONS = ["-march=rv32i", "-mabi=ilp32", "-mcmodel=medlow", "-mno-relax", "-fno-jump-tables", "-ffreestanding",
           "-fno-tree-loop-distribute-patterns", "-Wall", "-Werror", "-nostdlib", "-static",
           "-T", os.path.join(HERE, "c", "layout.ld"), "-Wl,--build-id=none,--no-warn-rwx-segments"]


def build(name, level, place):
    """Code and data of a C program, the code linked for this place."""
    with tempfile.TemporaryDirectory() as folder:
        sources = [os.path.join(HERE, "c", file) for file in ("start.s", name + ".c")]
        linked = os.path.join(folder, "linked")
        subprocess.run([TOOL + "gcc", *OPTIONS, level, "-Wl,--defsym=CODE=%d" % place, *sources, "-lgcc", "-o", linked],
                       check=True)
        return section(linked, ".text"), section(linked, ".data")


def section(linked, name):
    part = linked + name
    subprocess.run([TOOL + "objcopy", "-O", "binary", "-j", name, "--set-section-flags", ".data=alloc,load,contents",
                    linked, part], check=True)
    with open(part, "rb") as file:
        return file.read()


def fences(code):
    """How many FENCEs the code has: opcode 0x0F with bits 14-12 zero."""
    return sum(word & 0x707F == 0x0F for word, in struct.iter_unpack("<I", code))


def run(machine, code, place, data):
    """What is left at the ECALL: registers, address in the program, steps, data."""
    machine.write(0, data)
    machine.write(place, code)
    before = machine.steps()
    after = machine.run([0] * 32, place)
    assert after.trap.cause == CALL
    steps = machine.steps() - before - 1        # QEMU counts the ECALL
    return after.registers, after.trap.address - place, steps, machine.read(0, DATA)


def record(machine, name, level):
    code, data = build(name, level, PLACES[0])
    assert (code, data) == build(name, level, PLACES[1]) and len(code) <= ROOM
    start = data.ljust(DATA, b"\0")
    ends = [run(machine, code, place, start) for place in PLACES]
    assert ends[0] == ends[1]
    registers, address, steps, final = ends[0]
    assert registers[10] == ANSWERS[name] and (fences(code) > 0) == (name in FENCED)
    print("%-9s %s  program %4d, data %4d, FENCEs %d, steps %6d, answer %08x"
          % (name, level, len(code), len(data), fences(code), steps, registers[10]))
    numbers = struct.pack("<36I", len(code), address, steps, STOP[CALL], *registers)
    return numbers + code.ljust(ROOM, b"\0") + start + final


def main():
    with Machine(multiply=False, memory=MEMORY, counting=True) as machine:
        records = [record(machine, name, level) for name in ANSWERS for level in LEVELS]
    with open(sys.argv[1], "wb") as file:
        file.write(b"".join(records))


if __name__ == "__main__":
    main()
