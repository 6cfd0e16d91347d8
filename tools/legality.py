#!/usr/bin/env python3
"""legality.py OUT: for every value of bits 31-25, 14-12 and 6-0 whether QEMU, as an RV32IM core, runs such a word.

131,072 bits in 16,384 bytes: bit i % 8 of byte i // 8 stands for i = (bits 31-25) * 1024 + (bits 14-12) * 128 + (bits
6-0). The other bits say rd 1, rs1 2, rs2 3. FENCE and the M extension are legal here; a test takes the latter as illegal
until it comes. Opcode 0x73 is not asked and has zeros: its words could change the trap registers, and
none with these registers is one of document 01's two.
"""
import sys
from collections import Counter

from qemu import ILLEGAL, Machine

PATTERNS = 2 ** 17
SYSTEM = 0x73


def pattern(i):
    return i // 1024 << 25 | 3 << 20 | 2 << 15 | i // 128 % 8 << 12 | 1 << 7 | i % 128


def runs(machine, word):
    after = machine.step([0] * 32, 4096, word)
    return after.trap is None or after.trap.cause != ILLEGAL


def main():
    with Machine() as machine:
        legal = [i for i in range(PATTERNS) if i % 128 != SYSTEM and runs(machine, pattern(i))]
    bits = bytearray(PATTERNS // 8)
    for i in legal:
        bits[i // 8] |= 1 << i % 8
    with open(sys.argv[1], "wb") as file:
        file.write(bits)
    opcodes = Counter(i % 128 for i in legal)
    print("legal patterns by opcode:", ", ".join("%02x %d" % pair for pair in sorted(opcodes.items())))


if __name__ == "__main__":
    main()
