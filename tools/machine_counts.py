#!/usr/bin/env python3
"""Prints what `check_machine` is to write: how many machines it tries of each kind, counted here from document 01's limits
and from the list of cases alone; no machine is made."""
from itertools import product
from typing import NamedTuple

WINDOWS, REGISTERS = (1, 2, 63, 64), (32, 33, 94, 95)
OPERATIONS = 40
STATES = 3                      # waiting, issued, completed
MOST = 2 ** 32 - 1


class Machine(NamedTuple):
    window: int
    registers: int
    data: int                   # bytes
    count: int                  # entries

    def ends(self):
        """How many places of the window are tried: the oldest and the last, which may be the same."""
        return 1 if self.window == 1 else 2


# 16 fresh machines, 16 with a full window; the data's length goes by turns
MACHINES = [
    Machine(w, n, 16384 if i % 2 == j % 2 else 4, w if full else 0)
    for full in (False, True) for j, n in enumerate(REGISTERS) for i, w in enumerate(WINDOWS)
]
ALL = len(MACHINES)


def set_ups():
    by = [0] * 5
    for w, n, p, d in product((0, 1, 2, 63, 64, 65, MOST), (0, 31, 32, 33, 94, 95, 96, MOST),
                              (0, 3, 4, 6, 8, 16380, 16384, 16388), (0, 1, 16384, 16385)):
        wrong = (w not in range(1, 65), n not in range(32, 96), p not in range(4, 16385, 4), d > 16384)
        by[wrong.index(True) + 1 if any(wrong) else 0] += 1
    print("set-ups %d" % sum(by))
    for number in (1, 2, 3, 4):
        print("refused by %d %d" % (number, by[number]))
    print("accepted %d\ndiffer 0" % by[0])


def line(name, refused, in_range, ignored):
    print("%s: refused %d, in range %d, not looked at %d, differ 0" % (name, refused, in_range, ignored))


def numbers():
    """Numbers that stand in no table: so many out of range and in range, on each machine."""
    full = sum(m.count > 0 for m in MACHINES)
    with_store = sum(m.count > 2 for m in MACHINES)         # the store among the entries needs a data word
    line("undamaged", 0, ALL, 0)
    line("W", 3 * ALL, ALL, 0)
    line("N", 4 * ALL, ALL, 0)
    line("program length", 6 * ALL, 3 * ALL, 0)
    line("data length", 2 * ALL + 2 * with_store, 4 * ALL - 2 * with_store, 0)
    line("count", 3 * ALL + 2 * (ALL - full), ALL + 2 * full, 0)        # an empty place is no entry
    for name in ("head of registers", "head of names", "halt cause"):
        line(name, 2 * ALL, 2 * ALL, 0)
    line("fetch and next address", 0, 0, 3 * ALL)


def table(name, places, last):
    """Each place gets the limit and two numbers above it; last(machine) is the last place that is looked at."""
    seen = sum(last(m) for m in MACHINES)
    line(name, 2 * seen, places * ALL, 2 * (places * ALL - seen))


def tables():
    table("links of registers", 96, lambda m: m.registers)
    table("links of names", 96, lambda m: 31 + m.window)
    table("physical map", 96, lambda m: 31 + m.window)
    # 32 places, with the valid bit as it is and clear; those of x1 to x31 are looked at
    table("names of the general map", 2 * 32, lambda m: 2 * 31)
    table("registers of the general map", 2 * 32, lambda m: 2 * 31)
    line("valid bits", 0, 0, 32 * ALL)
    line("values", 0, 0, 96 * ALL)


def entries(name, refused, in_range, ignored=lambda m: 0):
    """Cases at each end of the window: how many of each kind, by the machine. Each is tried below the count, where the
    machine has entries, and past it, where none is looked at."""
    def tried(cases, machines):
        return sum(m.ends() * cases(m) for m in machines)

    full = [m for m in MACHINES if m.count]
    past = sum(tried(cases, MACHINES) for cases in (refused, in_range, ignored))
    line(name, tried(refused, full), tried(in_range, full), past + tried(ignored, full))


def always(number):
    return lambda m: number


def leaving(machine):
    """Stores of 1, 2 and 4 bytes that leave the data, among the ten addresses tried."""
    found = 0
    for size in (1, 2, 4):
        last = machine.data - size
        addresses = (last, last + 1, last, last + 1, 0, 1, MOST, 0, 2 ** 32 - 4, 2 ** 31)
        found += sum(address + size > machine.data for address in addresses)
    return found


def entry_cases():
    # 14 instructions of each operation, 3 of them with all fields in range
    entries("instructions", always(OPERATIONS * STATES * 11), always(OPERATIONS * STATES * 3))
    # four operations that are none, six choices of fields, causes 0 to 7: two pass, operation 0 completed with cause 1 or 4
    entries("no instruction", always(4 * 6 * STATES * 8 - 2), always(2))
    # three fields, each with two numbers in range and two above
    entries("destination, name, previous", always(3 * STATES * 2), always(3 * STATES * 2))
    # two operands: waiting on a name, ready with a name, ready with a register
    entries("operands", always(2 * 3 * STATES * 2), always(2 * 3 * STATES * 2))
    # causes 0 to 9 and 255: completed 0 to 7 pass, in the two other states 0 alone
    entries("causes", always(3 * STATES + 2 * 7), always(8 + 2))
    # three stores and a load at ten addresses, waiting, issued, completed without a cause, completed with cause 7: refused
    # are stores that leave the data, completed without a cause
    entries("stores", leaving, lambda m: 4 * 10 * 4 - leaving(m))
    # three words for each of five fields
    entries("addresses and values of an entry", always(0), always(0), always(3 * 5 * STATES))


def main():
    set_ups()
    numbers()
    tables()
    entry_cases()


if __name__ == "__main__":
    main()
