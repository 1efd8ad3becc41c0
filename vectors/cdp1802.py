"""A CDP1802 that makes single instructions, written from RCA's data sheet ("Instruction Summary").

It needs no other package and stands on no other code of this project, so that what both make of an
instruction can be compared. Opcode 68, which the 1802 doesn't have, does nothing.
"""
from __future__ import annotations

from dataclasses import dataclass, field
from typing import Callable, List, Optional, Tuple

# What has the bus in a machine cycle: an address in memory, or the number of a port; the byte; and
# the kind: fetch, read, write, DMA, input or output.
Access = Tuple[int, int, str]


@dataclass
class Processor:
    """The registers of a processor, and what it does on its bus.

    `read` gives the byte at an address; `write` takes one; `flags` has EF1 to EF4 as bits 0 to 3,
    1 if active; `bus` is the byte that INP takes. Each machine cycle appends its accesses to
    `cycles`.
    """

    read: Callable[[int], int]
    write: Callable[[int, int], None]
    r: List[int]
    d: int = 0
    df: int = 0
    p: int = 0
    x: int = 0
    t: int = 0
    q: int = 0
    ie: int = 1
    idle: bool = False
    flags: int = 0
    bus: int = 0
    cycles: List[List[Access]] = field(default_factory=list)

    # ---- the bus

    def _access(self, address: int, byte: int, kind: str) -> None:
        self.cycles[-1].append((address, byte, kind))

    def _load(self, n: int, step: int = 0) -> int:
        """Read by a register, and add to it."""
        address = self.r[n]
        byte = self.read(address)
        self._access(address, byte, "read")
        self.r[n] = (address + step) & 0xFFFF
        return byte

    def _store(self, n: int, byte: int, step: int = 0) -> None:
        """Write by a register, and add to it."""
        address = self.r[n]
        self.write(address, byte)
        self._access(address, byte, "write")
        self.r[n] = (address + step) & 0xFFFF

    # ---- machine cycles beside instructions

    def dma(self) -> None:
        """Make a cycle of DMA out: the byte at R(0) goes to the bus."""
        self.cycles.append([])
        address = self.r[0]
        self._access(address, self.read(address), "DMA")
        self.r[0] = (address + 1) & 0xFFFF
        self.idle = False

    def interrupt(self) -> None:
        """Make the cycle of an interrupt: T takes X and P, which become 2 and 1."""
        self.cycles.append([])
        self.t, self.x, self.p, self.ie, self.idle = self.x << 4 | self.p, 2, 1, 0, False

    def idle_cycle(self) -> None:
        """Make a cycle of an idling processor."""
        self.cycles.append([])

    # ---- instructions

    def instruction(self) -> None:
        """Fetch and execute an instruction."""
        self.cycles.append([])
        address = self.r[self.p]
        opcode = self.read(address)
        self._access(address, opcode, "fetch")
        self.r[self.p] = (address + 1) & 0xFFFF
        self.cycles.append([])
        i, n = opcode >> 4, opcode & 15
        if opcode == 0x00:
            self.idle = True
        elif i == 0x0:
            self.d = self._load(n)
        elif i == 0x1:
            self.r[n] = (self.r[n] + 1) & 0xFFFF
        elif i == 0x2:
            self.r[n] = (self.r[n] - 1) & 0xFFFF
        elif i == 0x3:
            self._short_branch(n)
        elif i == 0x4:
            self.d = self._load(n, 1)
        elif i == 0x5:
            self._store(n, self.d)
        elif i == 0x6:
            self._input_output(n)
        elif i == 0x7:
            self._control(n)
        elif i == 0x8:
            self.d = self.r[n] & 0xFF
        elif i == 0x9:
            self.d = self.r[n] >> 8
        elif i == 0xA:
            self.r[n] = self.r[n] & 0xFF00 | self.d
        elif i == 0xB:
            self.r[n] = self.r[n] & 0x00FF | self.d << 8
        elif i == 0xC:
            self._long(n)
        elif i == 0xD:
            self.p = n
        elif i == 0xE:
            self.x = n
        else:
            self._logic(n)

    def _holds(self, condition: int) -> bool:
        """Whether a branch is taken: 0 always, 1 by Q, 2 by D = 0, 3 by DF, 4 to 7 by EF1 to EF4."""
        if condition >= 4:
            return bool(self.flags >> (condition - 4) & 1)
        return (True, bool(self.q), self.d == 0, bool(self.df))[condition]

    def _short_branch(self, n: int) -> None:
        if n == 8:  # SKP
            self.r[self.p] = (self.r[self.p] + 1) & 0xFFFF
            return
        address = self.r[self.p]
        target = self._load(self.p, 1)
        if self._holds(n & 7) != (n >= 8):
            self.r[self.p] = address & 0xFF00 | target

    def _long(self, n: int) -> None:
        """Long branches, long skips and NOP, which take a third cycle."""
        is_branch = n & 4 == 0
        if n in (0x4, 0xC):  # NOP and LSIE
            holds = n == 0xC and bool(self.ie)
        else:
            holds = self._holds(n & 3) != (n >= 8 if is_branch else n < 8)
            holds = True if n == 8 else holds  # LSKP
        if n == 8 or not is_branch:
            self.cycles.append([])
            self.r[self.p] = (self.r[self.p] + 2 * holds) & 0xFFFF
            return
        high = self._load(self.p, 1)
        self.cycles.append([])
        low = self._load(self.p, 1)
        if holds:
            self.r[self.p] = high << 8 | low

    def _input_output(self, n: int) -> None:
        if n == 0:  # IRX
            self.r[self.x] = (self.r[self.x] + 1) & 0xFFFF
        elif n < 8:  # OUT
            byte = self._load(self.x, 1)
            self._access(n, byte, "output")
        elif n > 8:  # INP
            self.d = self.bus
            self._store(self.x, self.bus)
            self._access(n & 7, self.bus, "input")

    def _control(self, n: int) -> None:
        if n in (0x0, 0x1):  # RET and DIS
            byte = self._load(self.x, 1)
            self.x, self.p, self.ie = byte >> 4, byte & 15, 1 - n
        elif n == 0x2:  # LDXA
            self.d = self._load(self.x, 1)
        elif n == 0x3:  # STXD
            self._store(self.x, self.d, -1)
        elif n == 0x6:  # SHRC
            self.d, self.df = self.df << 7 | self.d >> 1, self.d & 1
        elif n == 0x8:  # SAV
            self._store(self.x, self.t)
        elif n == 0x9:  # MARK
            self.t = self.x << 4 | self.p
            self._store(2, self.t, -1)
            self.x = self.p
        elif n in (0xA, 0xB):  # REQ and SEQ
            self.q = n & 1
        elif n == 0xE:  # SHLC
            self._sum(self.d + self.d + self.df)
        else:  # with carry or borrow
            byte = self._load(self.p, 1) if n & 8 else self._load(self.x)
            self._add_or_subtract(n & 7, byte, self.df)

    def _logic(self, n: int) -> None:
        if n in (0x6, 0xE):  # SHR and SHL
            self.d, self.df = (self.d >> 1, self.d & 1) if n == 6 else (self.d << 1 & 0xFF, self.d >> 7)
            return
        byte = self._load(self.p, 1) if n & 8 else self._load(self.x)
        if n & 7 == 0:
            self.d = byte
        elif n & 7 < 4:
            self.d = (self.d | byte, self.d & byte, self.d ^ byte)[(n & 7) - 1]
        else:
            self._add_or_subtract(n & 7, byte, None)

    def _add_or_subtract(self, which: int, byte: int, carry: Optional[int]) -> None:
        """4 adds, 5 subtracts D from the byte, 7 the byte from D: with a carry, or without."""
        if which == 4:
            self._sum(self.d + byte + (carry or 0))
        else:
            borrow = 0 if carry is None else 1 - carry
            first, second = (byte, self.d) if which == 5 else (self.d, byte)
            self._sum(first + 256 - second - borrow)

    def _sum(self, value: int) -> None:
        """Take a sum of nine bits; a difference has 256 added, so DF is 1 without a borrow."""
        self.d, self.df = value & 0xFF, value >> 8 & 1
