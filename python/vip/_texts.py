"""Readers of the texts that `vip` writes, one for each kind of line."""
from __future__ import annotations

import re
from typing import Iterator, List, NamedTuple


class Point(NamedTuple):
    """A dispatch point: the state when the opcode at pc is about to be fetched.

    The opcode is None if it isn't in game memory. The timers count frames. The stack has
    addresses, the oldest first. `ticks` counts the timer ticks modulo 65536, and `cycle` is
    the machine cycle; both are 0 if the line doesn't have them.
    """

    pc: int
    opcode: int | None
    v: tuple[int, ...]
    i: int
    dt: int
    st: int
    tone: bool
    stack: tuple[int, ...]
    ticks: int
    cycle: int


def point(line: str) -> Point:
    """Read a line of a game's trace, with or without ticks, cycle and mnemonic."""
    words = line.partition("  ; ")[0].split()
    end = words.index("N") if "N" in words else len(words)
    return Point(
        int(words[0], 16),
        None if words[1] == "----" else int(words[1], 16),
        tuple(int(word, 16) for word in words[3:19]),
        int(words[20], 16),
        int(words[22], 16),
        int(words[24], 16),
        words[26] == "1",
        tuple(int(word, 16) for word in words[28:end]),
        int(words[end + 1], 16) if end < len(words) else 0,
        int(words[end + 3]) if end + 3 < len(words) else 0,
    )


class Registers(NamedTuple):
    """The registers of the processor, and the machine cycle; `r` has R0 to RF."""

    cycle: int
    p: int
    x: int
    d: int
    df: int
    q: int
    ie: int
    t: int
    idle: int
    r: tuple[int, ...]


# (bytes, since a search reads millions of them)
REGISTERS = re.compile(
    rb"cycle (\d+) P (.) X (.) D (..) DF (.) Q (.) IE (.) T (..) IDL (.)\nR((?: [0-9A-F]{4}){16})\n"
)


def registers(text: bytes | str) -> Registers:
    """Read the two lines of `regs`."""
    found = REGISTERS.match(text.encode() if isinstance(text, str) else text)
    if not found:
        raise ValueError(f"these are no lines of regs: {text!r}")
    return registers_of(found.groups())


def registers_of(groups: tuple[bytes, ...]) -> Registers:
    """Return the registers of a match of `REGISTERS`."""
    p, x, d, df, q, ie, t, idle = (int(each, 16) for each in groups[1:9])
    r = tuple(int(each, 16) for each in groups[9].split())
    return Registers(int(groups[0]), p, x, d, df, q, ie, t, idle, r)


class Instruction(NamedTuple):
    """An instruction that a program makes, and what the processor has before it.

    `words` is its mnemonic and its operand; `named` is what it names, or ''.
    """

    cycle: int
    address: int
    code: bytes
    words: str
    p: int
    x: int
    d: int
    df: int
    q: int
    rx: int
    at_rx: int
    named: str


class Idle(NamedTuple):
    """A number of cycles in which the processor idles."""

    cycle: int
    count: int  # type: ignore[assignment]


class Interrupt(NamedTuple):
    """An interrupt, and the T that it makes."""

    cycle: int
    t: int


class Dma(NamedTuple):
    """The DMA cycles of one raster line: R(0) before the first, and the bytes."""

    cycle: int
    r0: int
    code: bytes


def move(line: str) -> Instruction | Idle | Interrupt | Dma:
    """Read a line of a program's trace."""
    words = line.split()
    cycle = int(words[0])
    if words[1] == "IDLE":
        return Idle(cycle, int(words[2]))
    if words[1] == "INT":
        return Interrupt(cycle, int(words[3], 16))
    if words[1] == "DMA":
        return Dma(cycle, int(words[3], 16), bytes.fromhex("".join(words[4:])))
    held = line[35:].split()
    p, x, d, df, q, rx, at_rx = (int(held[at], 16) for at in (1, 3, 5, 7, 9, 11, 12))
    code, mnemonic = bytes.fromhex(line[16:22].strip()), line[23:34].strip()
    named = " ".join(held[13:])
    return Instruction(
        cycle, int(line[11:15], 16), code, mnemonic, p, x, d, df, q, rx, at_rx, named
    )


def instruction_place(line: str) -> tuple[int, int] | None:
    """Return the cycle and the address of an instruction's line, or None."""
    found = re.match(r"(?=.{10} )( *\d+) ([0-9A-F]{4}) [0-9A-F]{2}", line)
    return (int(found[1]), int(found[2], 16)) if found else None


def dump(lines: list[str]) -> bytes:
    """Read the bytes of lines of `mem`."""
    return bytes.fromhex("".join(line[5:] for line in lines))


def answers(text: bytes) -> Iterator[tuple[str, list[str]]]:
    """Read what `debug --echo` writes: each command, and the lines of its answer."""
    parts = re.split(r"(?m)^> (.*)\n", text.decode(errors="replace"))
    return ((command, part.splitlines()) for command, part in zip(parts[1::2], parts[2::2]))


class Step(NamedTuple):
    """A row of a profile.

    It has the address at which its steps began, the opcode or the bytes or None, the
    number of steps, and the sum, the least and the most of their cycles.
    """

    pc: int
    opcode: int | None
    steps: int
    cycles: int
    least: int
    most: int


def step(line: str) -> Step:
    """Read a row of a profile, of a game or of a program."""
    row = line.split()
    opcode = None if row[1] == "----" else int(row[1], 16)
    return Step(int(row[0], 16), opcode, *map(int, row[2:6]))


class Listing(NamedTuple):
    """A listing.

    It has the text of each line by its number, the line that gave each byte by its
    address, and the names with their values, some of which are registers.
    """

    texts: dict[int, str]
    lines: dict[int, int]
    numbers: dict[str, int]
    registers: dict[str, str]


def listing(text: str) -> Listing:
    """Read a listing."""
    # (each line begins with its number or with blanks, so the first empty line ends them)
    rows, _, names = text.partition("\n\n") if not text.startswith("\n") else ("", "", text[1:])
    texts: dict[int, str] = {}
    lines: dict[int, int] = {}
    number = 0
    for row in rows.rstrip("\n").split("\n") if rows else []:
        found = re.fullmatch(r" *(\d+) (.{4}) ([0-9A-F ]{6}) (.*)", row)
        if found:
            number = int(found[1])
            texts[number] = found[4]
            # (a name of a register has that in place of an address)
            address, digits = int(found[2], 16) if found[3].strip() else 0, found[3]
        else:
            address, digits = int(row[6:10], 16), row[11:]
        for at in range(len(digits.strip()) // 2):
            lines.setdefault(address + at, number)
    given = [entry.split() for entry in names.splitlines()]
    return Listing(
        texts,
        lines,
        {name: int(value, 16) for name, value in given if len(value) == 4},
        {name: value for name, value in given if len(value) != 4},
    )


class Fault(NamedTuple):
    """A fault of a source.

    It has line and column from 1, its cause by name, the offending text, and a suggestion
    or ''. The cause of a note is 'note'.
    """

    line: int
    column: int
    cause: str
    culprit: str
    remedy: str

    def __str__(self) -> str:
        """Return it as `check` prints it, without the name of the file."""
        suggestion = f" ({self.remedy})" if self.remedy else ""
        return f"{self.line}:{self.column}: {self.cause}: {self.culprit}{suggestion}"


class Faults(List[Fault]):
    """The faults and notes of a source, in order.

    `waiting` is how many other lines can only be judged once these are mended; `is_octo` says
    whether the source looks like Octo's.
    """

    waiting: int = 0
    is_octo: bool = False


def _shown(line: bytes) -> list[str]:
    """Return each byte of a line as `check` shows it."""
    return [chr(byte) if 32 <= byte <= 126 else f"\\x{byte:02X}" for byte in line]


def _parted(text: str, cause: str, line: bytes) -> tuple[str, str]:
    """Split an offending text, at the start of this part, from its suggestion."""
    most, culprit = "", ""
    for shown in ["", *_shown(line)]:
        culprit += shown
        if not text.startswith(culprit):
            break
        rest = text[len(culprit) :]
        if not rest or (rest.startswith(" (") and rest.endswith(")")):
            most = culprit
            # (a mnemonic has no space; a comment like an instruction has one suggestion)
            if rest and (cause == "UnknownMnemonic" or rest.count(" (") == 1 and cause == "note"):
                break
    return most, text[len(most) + 2 : -1]


def faults(text: str, source: bytes, name: str = "s") -> Faults:
    """Read what `check` writes of a source whose file has this name."""
    lines, found = source.split(b"\n"), Faults()
    for row in text.split("\n")[:-1]:
        place = re.match(r"(\d+):(\d+): (\w+): ", row[len(name) + 1 :])
        if place:
            line, column = int(place[1]), int(place[2])
            rest = row[len(name) + 1 + place.end() :]
            culprit, remedy = _parted(rest, place[3], lines[line - 1][column - 1 :])
            found.append(Fault(line, column, place[3], culprit, remedy))
            continue
        more = re.match(r" (\d+) more lines? ", row[len(name) + 1 :])
        if more:
            found.waiting = int(more[1])
        elif row[len(name) + 1 :].startswith(" this looks like Octo"):
            found.is_octo = True
        else:
            raise ValueError(f"this is no line of check: {row!r}")
    return found
