"""Dumps of real machines: a monitor, an interpreter and a tape put onto this board.

    from vip import dumps
    machine = dumps.board("monitor.bin", [(0x0000, "interpreter.bin"), (0x0200, "pong.ch8")])

The script `board` beside `vip` writes the machine state of such a board.
"""
from __future__ import annotations

import os
import random
import zlib
from typing import Iterable, NamedTuple

from . import _device
from .keys import MOST_CYCLES
from .machine import Machine, Source, content_of

RAM_END = _device.RAM
ROM_SIZE = _device.ROM


class DumpError(ValueError):
    """A dump, or an option of a board, that can't be used. The message says which and why."""


class Known(NamedTuple):
    """A dump that is known by its checksum: what it is, its length, and its address."""

    name: str
    size: int
    address: int


#: Known dumps by their CRC-32.
KNOWN = {
    0x438EC5D5: Known("RCA's CHIP-8 interpreter", 512, 0x0000),
    0x5BE0A51F: Known("the monitor of the VP-711", 512, 0x8000),
}


class Dump(NamedTuple):
    """The bytes of a dump, the address of the first one, and a name for messages."""

    address: int
    content: bytes
    name: str

    @property
    def end(self) -> int:
        """The address after the last byte."""
        return self.address + len(self.content)


def _named(source: Source, otherwise: str) -> tuple[bytes, str]:
    """Return the bytes of a dump, and a name for messages."""
    name = os.fspath(source) if isinstance(source, (str, os.PathLike)) else otherwise
    content = content_of(source)
    if content[:4] == b"VIPS":
        kind = "a game" if content[4:5] == b"\1" else "a board"
        raise DumpError(f"{name} is a machine state of {kind}, and not a dump")
    return content, name


def known(content: bytes) -> Known | None:
    """Return what a dump is, if it is known by its CRC-32."""
    return KNOWN.get(zlib.crc32(content))


def hint(content: bytes, address: int) -> str:
    """Return what can be said of a dump from its bytes and from the address where it is to be.

    The text is empty if there is nothing to say.
    """
    found = known(content)
    if found:
        if found.address != address:
            place = "the ROM" if found.address == 0x8000 else f"{found.address:04X}"
            return f"is {found.name}, which belongs into {place}, and not at {address:04X}"
        return f"is {found.name}"
    for checksum, each in KNOWN.items():
        if zlib.crc32(content[: each.size]) == checksum:
            return f"begins with {each.name}, and has {len(content) - each.size:,} bytes after it"
        if len(content) == each.size and zlib.crc32(content[::-1]) == checksum:
            return f"is {each.name} with its bytes in reverse order"
    if content and content == content[:1] * len(content):
        return f"has the byte {content[0]:02X} alone, so the dump may have failed"
    half = len(content) // 2
    if half and content == content[:half] * 2:
        return f"has its first {half:,} bytes twice, so the dump may be too long"
    if len(content) == 512:
        sums = " and ".join(f"{checksum:08x} ({each.name})" for checksum, each in KNOWN.items())
        return f"isn't known: its CRC-32 is {zlib.crc32(content):08x}, and known are {sums}"
    return ""


def _rom(source: Source, is_repeated: bool) -> Dump:
    content, name = _named(source, "the ROM")
    if not 1 <= len(content) <= ROM_SIZE:
        raise DumpError(f"{name} has {len(content):,} bytes, and a ROM has 1 to {ROM_SIZE:,}")
    if is_repeated:
        if ROM_SIZE % len(content):
            raise DumpError(f"{name} has {len(content):,} bytes, which don't divide {ROM_SIZE:,}")
        content *= ROM_SIZE // len(content)
    return Dump(0x8000, content, name)


def _ram(places: Iterable[tuple[int, Source]]) -> list[Dump]:
    dumps: list[Dump] = []
    for address, source in places:
        content, name = _named(source, f"the dump at {address:04X}")
        if not 0 <= address < RAM_END:
            raise DumpError(f"{name} is to be at {address:04X}, and RAM is from 0000 to 0FFF")
        if not content:
            raise DumpError(f"{name} has no bytes")
        made = Dump(address, content, name)
        if made.end > RAM_END:
            raise DumpError(
                f"{name} has {len(content):,} bytes from {address:04X} on, which pass 0FFF"
            )
        for other in dumps:
            if other.address < made.end and made.address < other.end:
                place = max(other.address, made.address)
                raise DumpError(f"{other.name} and {name} both have a byte at {place:04X}")
        dumps.append(made)
    return dumps


def board(
    rom: Source | None = None,
    places: Iterable[tuple[int, Source]] = (),
    *,
    repeat_rom: bool = False,
    fill: int | None = None,
    seed: int | None = None,
    cycle: int = 0,
    latch: bool | None = None,
) -> Machine:
    """Return a board after reset, with dumps in its ROM and its RAM.

    `rom` has 1 to 2,048 bytes from 0x8000 on, and the rest is 00; `repeat_rom` repeats it through
    all 2,048 bytes. `places` has an address of RAM for each dump. The rest of RAM is the byte
    `fill`, or random bytes by `seed`, or 00. `cycle` is the machine cycle at which the board
    begins: RCA's random byte depends on its place in the frame of 3,668 cycles. The boot latch is
    set if there is a ROM, as after reset, unless `latch` says otherwise. Raises DumpError with a
    sentence if something doesn't fit.
    """
    if fill is not None and seed is not None:
        raise DumpError("RAM is filled with a byte or by a seed, and not with both")
    if fill is not None and not 0 <= fill <= 0xFF:
        raise DumpError(f"a byte is from 0 to FF, and not {fill:X}")
    if not 0 <= cycle <= MOST_CYCLES:
        raise DumpError(f"a cycle is from 0 to {MOST_CYCLES:,}, and not {cycle:,}")
    if repeat_rom and rom is None:
        raise DumpError("there is no ROM to repeat")
    made = _rom(rom, repeat_rom) if rom is not None else None
    dumps = _ram(places)
    if made is None and not dumps:
        raise DumpError("there are no dumps")
    if seed is not None:
        rest = random.Random(seed).getrandbits(8 * RAM_END).to_bytes(RAM_END, "little")
    else:
        rest = bytes([fill or 0]) * RAM_END
    ram = [(0, rest), *((dump.address, dump.content) for dump in dumps)]
    machine = Machine.board(rom=made.content if made else None, ram=ram, latch=latch)
    if cycle:
        state = machine.save()
        # (a machine state has the cycle in its bytes 6 to 13)
        machine = Machine.load(state[:6] + cycle.to_bytes(8, "big") + state[14:])
    return machine
