"""The COSMAC VIP with its proved CHIP-8 interpreter.

    import vip
    game = vip.assemble(open("brick.asm").read())
    run = vip.Run(game, keys=[(0, "down", 5)])
    for frame in run.frames(600):
        print(frame.cycle, frame.screen)
    run = run.press(6).advance(frames=3).release(6)
    print(run.state.v[0], run.state.pc)

A run is a value: its start, its key script, and the cycle at which it stands. Each move gives a new
one, so a run can be kept, compared, gone back to, and continued twice. Times are machine cycles,
each of 8 clock cycles; a frame has 3,668 of them, a second 60 frames. Addresses are numbers. What
can't be done raises Refused, with the status and the report of the program `vip`, whose texts and
rules docs/COMMANDS.md and docs/FORMATS.md have.
"""
from __future__ import annotations

import re
from dataclasses import dataclass
from typing import Iterable, Iterator, NamedTuple

from . import _texts
from ._call import BAD_SOURCE, Refused, SourceError, call, uses_library
from ._call import done as _done
from ._call import encoded as _bytes
from ._texts import Dma, Fault, Faults, Idle, Instruction, Interrupt, Point, Step
from .keys import FRAME, MOST_CYCLES, KeyEvent, KeyScript
from .machine import (
    DeviceError,
    Machine,
    NoGame,
    Reason,
    Registers,
    Rewind,
    Snapshot,
    Stop,
    minimise,
)
from .pictures import Picture, Screen, assert_same, film, steady
from .run import Frame, Profile, Run

__all__ = [
    "FRAME",
    "MOST_CYCLES",
    "Assembled",
    "Case",
    "DeviceError",
    "Dma",
    "Fault",
    "Faults",
    "Frame",
    "Idle",
    "Instruction",
    "Interrupt",
    "KeyEvent",
    "KeyScript",
    "Machine",
    "NoGame",
    "Picture",
    "Point",
    "Profile",
    "Program",
    "Reason",
    "Refused",
    "Registers",
    "Rewind",
    "Run",
    "Screen",
    "Snapshot",
    "SourceError",
    "Step",
    "Stop",
    "assemble",
    "assert_same",
    "bounds",
    "call",
    "certify",
    "check",
    "cycles",
    "disassemble",
    "film",
    "listing",
    "minimise",
    "read_cases",
    "safe",
    "steady",
    "timing",
    "uses_library",
    "version",
]

_PICTURE = len(b"P4\n64 128\n") + 1024


# ---- sources


def _isa(isa: str) -> list[str]:
    if isa not in ("chip8", "1802"):
        raise ValueError("isa is 'chip8' or '1802'")
    return ["--chip8"] if isa == "chip8" else []


def check(source: str | bytes, isa: str = "chip8") -> Faults:
    """Return every fault and note of a source, CHIP-8's or the 1802's.

    The list is empty if `assemble` accepts the source and nothing in it looks like a mistake.
    """
    text = _bytes(source)
    out, _ = _done(["check", "s", *_isa(isa)], {"s": text}, also=(BAD_SOURCE,))
    return _texts.faults(out.decode(), text)


class Assembled(bytes):
    """The bytes of a source, with its names.

    `address` is that of the first byte. `symbols` has the address of each label and the value of
    each EQU, `registers` the register of each name that stands for one, as "R7" or "V3".
    """

    address: int

    symbols: dict[str, int]
    registers: dict[str, str]
    _lines: dict[int, int]
    _source: dict[int, str]

    def __new__(cls, code: bytes, listing: _texts.Listing) -> Assembled:
        """Make it from its bytes and its listing."""
        made = super().__new__(cls, code)
        made.symbols, made.registers = listing.numbers, listing.registers
        made._lines, made._source = listing.lines, listing.texts
        made.address = min(listing.lines, default=0)
        return made

    def line_of(self, address: int | str) -> int | None:
        """Return the number of the line that gave the byte at an address or at a label, or None."""
        return self._lines.get(self.symbols[address] if isinstance(address, str) else address)

    def text_of(self, line: int) -> str:
        """Return a line of the source, by its number."""
        return self._source[line]


def assemble(source: str | bytes, isa: str = "chip8") -> Assembled:
    """Return the bytes of a source, with its names; those of a game begin at 0x0200.

    Raises SourceError, which has every error of the source.
    """
    given = {"s": _bytes(source)}
    try:
        code = _done(["asm", "s", "--raw", *_isa(isa)], given)[0]
        return Assembled(code, _texts.listing(_done(["list", "s", *_isa(isa)], given)[0].decode()))
    except Refused as why:
        if why.status != BAD_SOURCE:
            raise
        raise SourceError(why.status, why.report, check(source, isa)) from None


def listing(source: str | bytes, isa: str = "chip8") -> str:
    """Return the listing of a source."""
    return _done(["list", "s", *_isa(isa)], {"s": _bytes(source)})[0].decode()


def disassemble(code: bytes, at: int = 0x200, isa: str = "chip8") -> str:
    """Return a source that gives these bytes, the first of them at the address."""
    return _done(["dis", "b", f"{at:X}", *_isa(isa)], {"b": bytes(code)})[0].decode()


# ---- certificates


def _tall(tall: bool) -> list[str]:
    return ["--tall"] if tall else []


def certify(game: bytes, tall: bool = False) -> str:
    """Return a certificate that no run of the game stops, whatever the input.

    Raises Refused, with status 21 and the reason, if there is none.
    """
    return _done(["certify", "g", *_tall(tall)], {"g": bytes(game)})[0].decode()


def safe(game: bytes, certificate: str, tall: bool = False) -> int:
    """Check a game's certificate and return its number of lines.

    If it is right, no run of the game stops. Raises Refused, with the first fault, if it
    isn't right.
    """
    return int(
        _done(["safe", "g", "c", *_tall(tall)], {"g": bytes(game), "c": _bytes(certificate)})[
            0
        ].split()[1]
    )


def timing(source: str | bytes, entry: int | str, p: int, k: int) -> str:
    """Return a worst-case time certificate of a routine of an 1802 source.

    The routine is entered at an address or a name, with the program counter in register
    `p` and its loop counter in register `k`.
    """
    entry = f"{entry:04X}" if isinstance(entry, int) else f":{entry}"
    return _done(["timing", "s", entry, f"{p:X}", f"{k:X}"], {"s": _bytes(source)})[0].decode()


def cycles(source: str | bytes, certificate: str) -> tuple[int, int]:
    """Check a routine's certificate, and return its entry and its most machine cycles.

    Raises Refused, with the first fault, if the certificate isn't right.
    """
    words = _done(["cycles", "s", "c"], {"s": _bytes(source), "c": _bytes(certificate)})[0].split()
    return int(words[1], 16), int(words[3])


def bounds() -> dict[str, int | None]:
    """Return the most machine cycles that each instruction of CHIP-8 takes, by name.

    FX0A, which waits for a key, has None.
    """
    rows = (line.rsplit(None, 1) for line in _done(["bounds"])[0].decode().splitlines())
    return {name: None if most == "key" else int(most) for name, most in rows}


def version() -> str:
    """Return the version of `vip`."""
    return _done(["version"])[0].decode().split()[1]


__version__ = version()


# ---- what a run shows


def _pictures(out: bytes) -> list[Picture]:
    return [Picture(out[at : at + _PICTURE]) for at in range(0, len(out), _PICTURE)]


# ---- a program for the processor


@dataclass(frozen=True)
class Program:
    """A program for the 1802, in RAM or in place of the ROM, and its key script.

    `memory` is "ram", from 0x0000 on, or "rom", from 0x8000 on. What `vip.assemble` returns is
    placed at its own address. `machine()` returns a machine that runs it.
    """

    code: bytes
    memory: str = "ram"
    keys: KeyScript = KeyScript()

    def __post_init__(self) -> None:
        if self.memory not in ("ram", "rom"):
            raise ValueError("memory is 'ram' or 'rom'")
        script = self.keys if isinstance(self.keys, KeyScript) else KeyScript(self.keys)
        object.__setattr__(self, "keys", script)

    def _image(self) -> bytes:
        """Return the bytes from the beginning of RAM or of the ROM on."""
        start, most = (0x0000, 0x1000) if self.memory == "ram" else (0x8000, 0x800)
        before = max(0, getattr(self.code, "address", start) - start)
        if before + len(self.code) > most:
            raise ValueError(
                f"the program ends at {start + before + len(self.code):04X}, after the memory"
            )
        return bytes(before) + bytes(self.code)

    def machine(self) -> Machine:
        """Return a machine after reset that runs the program, with its labels.

        The key script isn't pressed: `play` does that.
        """
        image = self._image()
        machine = (
            Machine.board(ram=[(0, image)]) if self.memory == "ram" else Machine.board(rom=image)
        )
        machine.symbols = dict(getattr(self.code, "symbols", {}))
        return machine

    def _ask(self, verb: str, limit: int) -> tuple[bytes, str]:
        if not 0 <= limit <= MOST_CYCLES:
            raise ValueError(f"a cycle is from 0 to {MOST_CYCLES:,}")
        words = [verb, "p", str(limit), "--" + self.memory, "--keys", "k"]
        return _done(words, {"p": self._image(), "k": str(self.keys).encode()})

    def trace(self, limit: int) -> list[Instruction | Idle | Interrupt | Dma]:
        """Return what the program does up to a cycle, from reset on."""
        return [_texts.move(line) for line in self._ask("trace", limit)[0].decode().splitlines()]

    def ended(self, limit: int) -> str:
        """Return the message with which a run up to a cycle ends.

        It is `done` and the cycle, or `idle at` and the address.
        """
        return self._ask("play", limit)[1]

    def pictures(self, limit: int) -> list[Picture]:
        """Return the pictures that are finished up to a cycle."""
        return _pictures(self._ask("play", limit)[0])

    def bytes_at(self, cycle: int, address: int, count: int) -> bytes:
        """Return a number of bytes that the processor would read at a cycle, from an address on."""
        machine = self.machine()
        machine.play(self.keys, cycle)
        return machine.read(address, count)


# ---- cases


class Case(NamedTuple):
    """A case of the file `cases.txt` (docs/VECTORS.md).

    It has its group and name, the arguments, the files, and the statuses of which one is
    expected.
    """

    group: str
    name: str
    words: tuple[str, ...]
    files: dict[str, bytes]
    statuses: tuple[int, ...]


def _content(lines: Iterable[str]) -> bytes:
    """Return the bytes that a case's lines of one text give."""
    out = b""
    for line in lines:
        kind, _, rest = line.partition(" ")
        if kind == "text":
            out += rest.encode() + b"\n"
        elif kind == "part":
            out += rest.encode()
        elif kind == "repeat":
            count, _, digits = rest.partition(" ")
            out += bytes.fromhex(digits) * int(count)
        else:
            out += bytes.fromhex(rest if kind == "hex" else line)
    return out


def read_cases(text: str) -> Iterator[Case]:
    """Yield the cases of a text in the form of `cases.txt`, one for each run.

    Cases that need a read or a write to fail are skipped.
    """
    group = ""
    for block in re.split(r"(?m)^(?=group |case )", text):
        lines = [
            line.lstrip() for line in block.split("\n") if line.strip() and not line.startswith("#")
        ]
        if not lines or not lines[0].startswith("case "):
            group = lines[0][6:] if lines and lines[0].startswith("group ") else group
            continue
        words: tuple[str, ...] = ()
        files: dict[str, bytes] = {}
        statuses: tuple[int, ...] = ()
        into: str | None = None
        for line in lines[1:]:
            kind, _, rest = line.partition(" ")
            if kind in ("hex", "text", "part", "repeat"):
                if into is not None:
                    files[into] += _content([line])
                continue
            into = None
            if kind == "words":
                words = tuple(rest.split(" ")) if line != "words" else ()
            elif kind == "status":
                statuses = tuple(map(int, rest.split()))
            elif kind == "file":
                into, _, digits = rest.partition(" ")
                files[into] = bytes.fromhex(digits)
        if any(line.startswith("fails ") for line in lines):
            continue
        yield Case(group, lines[0][5:], words, files, statuses)
        if "both" in lines:
            yield Case(group, lines[0][5:], (*words, "--tall"), files, statuses)
