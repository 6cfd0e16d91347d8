"""A bare RV32 machine inside qemu-system-riscv32, driven through QEMU's gdb stub.

The machine has memory from address 0 and nothing beyond it: no devices, no firmware. Program and data share it.

    with Machine() as machine:
        after = machine.step([0] * 32, 8, word=0x00500093)
        after.registers, after.address, after.trap          # x1 is 5, address 12, no trap

A step gives the registers, the next address, the trap if there was one, and, where asked for, bytes of memory after
it. `run` goes on until a trap. About 4,000 steps a second.
"""
import os
import socket
import struct
import subprocess
import tempfile
import time
from typing import NamedTuple

SIZE = 16384                # bytes of memory; QEMU rounds other sizes up to a multiple of 8,192

# RV32I, to which M and C are added on demand: QEMU has the extensions named here on by itself. User and supervisor mode
# go too (s=off needs h=off). Zicsr stays: without it the stub does not show the registers that describe a trap.
CPU = "rv32,a=off,f=off,d=off,h=off,s=off,u=off,mmu=off,pmp=off,Zifencei=off,zba=off,zbb=off,zbc=off,zbs=off"

# The stub's numbers of the control registers: 34 + the manual's number, in a core without floating point.
MTVEC, MEPC, MCAUSE, MTVAL, MINSTRET = (34 + csr for csr in (0x305, 0x341, 0x342, 0x343, 0xB02))

# Where traps go. It lies outside memory, so nothing runs there, and a test must not jump there.
TRAP = 0xA5C3B100

# The manual's mcause of a trap, and document 01's cause of the same stop.
STOP = {0: 5, 1: 4, 2: 1, 3: 3, 5: 6, 7: 7, 11: 2}
ILLEGAL, BREAKPOINT, CALL = 2, 3, 11


class Trap(NamedTuple):
    cause: int          # mcause
    value: int          # mtval; stale for a branch or JAL to a target that is no multiple of 4
    address: int        # mepc


class After(NamedTuple):
    registers: list     # x0 to x31
    address: int        # of the next instruction; TRAP after a trap
    trap: Trap          # None if there was none
    memory: bytes       # the bytes that were asked for


class Machine:
    def __init__(self, multiply=True, compressed=False, memory=SIZE, counting=False):
        """`counting` makes `steps` exact, at some cost in speed."""
        self.folder = tempfile.TemporaryDirectory()
        path = os.path.join(self.folder.name, "gdb")
        cpu = CPU + ",m=%s,c=%s" % ("on" if multiply else "off", "on" if compressed else "off")
        self.process = subprocess.Popen(
            ["qemu-system-riscv32", "-M", "none", "-m", "%dK" % (memory // 1024), "-cpu", cpu, "-S",
             "-display", "none", "-monitor", "none", "-serial", "none",
             *(("-icount", "shift=0,sleep=off") if counting else ()),
             "-gdb", "unix:%s,server=on,wait=off" % path], stderr=subprocess.DEVNULL)
        self.memory = memory
        self.buffer = b""
        try:
            self.connect(path)
        except Exception:
            self.process.kill()
            raise

    def __enter__(self):
        return self

    def __exit__(self, *_):
        self.close()

    def close(self):
        self.stub.close()
        self.process.kill()
        self.process.wait()
        self.folder.cleanup()

    # ---- the protocol

    def connect(self, path):
        self.stub = socket.socket(socket.AF_UNIX)
        self.stub.settimeout(30)
        for _ in range(200):
            try:
                self.stub.connect(path)
                break
            except OSError:
                time.sleep(0.02)
        self.ask("qSupported:swbreak+")
        self.ask("QStartNoAckMode")
        self.stub.sendall(b"+")
        self.ask("qXfer:features:read:target.xml:0,fff")    # the stub answers p and P only after this
        self.set_control(MTVEC, TRAP)
        self.ask("Z0,%x,4" % TRAP)                          # a run ends where traps go

    def reply(self):
        while True:
            start = self.buffer.find(b"$")
            end = self.buffer.find(b"#", start + 1)
            if start >= 0 and 0 <= end <= len(self.buffer) - 3:
                text, self.buffer = self.buffer[start + 1:end], self.buffer[end + 3:]
                return text.decode()
            part = self.stub.recv(65536)
            if not part:
                raise EOFError("QEMU is gone")
            self.buffer += part

    def bundle(self, texts):
        """Sends several requests at once, since each wait for QEMU costs more than its work. Only the last may be `s` or
        `c`: while QEMU runs it takes any request as an order to halt."""
        self.stub.sendall(b"".join(b"$%s#%02x" % (t.encode(), sum(t.encode()) % 256) for t in texts))
        return [self.reply() for _ in texts]

    def ask(self, text):
        return self.bundle([text])[0]

    # ---- memory and control registers

    def write(self, address, content):
        for i in range(0, len(content), 1024):
            self.accept(self.ask(put(address + i, content[i:i + 1024])), "write at %x" % (address + i))

    def read(self, address, count):
        return b"".join(bytes.fromhex(self.ask("m%x,%x" % (address + i, min(1024, count - i))))
                        for i in range(0, count, 1024))

    def control(self, number):
        return number_of(self.ask("p%x" % number))

    def set_control(self, number, value):
        self.accept(self.ask("P%x=%s" % (number, struct.pack("<I", value).hex())), "control register %x" % number)

    @staticmethod
    def accept(answer, what):
        if answer != "OK":
            raise ValueError("QEMU refuses: %s" % what)

    # ---- execution

    def step(self, registers, address, word=None, writes=(), look=(0, 0)):
        """One instruction from these registers at this address. First each (address, bytes) of `writes` is written, and
        `word` at the address, if that lies in memory. `look` is the memory to hand back: address and count, at most
        1,024."""
        if word is not None and address < self.memory:
            writes = (*writes, (address, struct.pack("<I", word)))
        return self.go(registers, address, "s", writes, look)

    def run(self, registers, address, look=(0, 0)):
        """The same, until a trap. A program that meets none ends in a timeout."""
        return self.go(registers, address, "c", (), look)

    def go(self, registers, address, how, writes, look):
        for answer in self.bundle([*(put(*w) for w in writes), state(registers, address), how])[:-1]:
            self.accept(answer, "memory or registers before an instruction")
        memory = ["m%x,%x" % look] if look[1] else []
        answers = self.bundle(["g", *("p%x" % n for n in (MCAUSE, MTVAL, MEPC)), *memory])
        registers, address = registers_of(answers[0])
        trap = Trap(*map(number_of, answers[1:4])) if address == TRAP else None
        return After(registers, address, trap, b"".join(map(bytes.fromhex, answers[4:])))

    def steps(self):
        """How many instructions have run, on a counting machine. One that traps counts as well, unless its fetch, load
        or store met no memory."""
        return self.control(MINSTRET)


def put(address, content):
    return "M%x,%x:%s" % (address, len(content), content.hex())


def state(registers, address):
    return "G" + struct.pack("<33I", *registers, address).hex()


def registers_of(text):
    """x0 to x31, and the address of the next instruction."""
    values = struct.unpack("<33I", bytes.fromhex(text)[:132])
    return list(values[:32]), values[32]


def number_of(text):
    return struct.unpack("<I", bytes.fromhex(text)[:4])[0]
