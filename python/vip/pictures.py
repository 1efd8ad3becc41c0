"""What was shown, and what memory holds: pictures of the video chip, and screens of CHIP-8.

A picture is what a player saw: the video chip sent it during one frame, while the game may have
drawn. A screen is what the memory of the game holds at one cycle. The two often differ: in PONG
they differ at the end of 184 of 300 frames. Test what was shown by pictures, and what a game drew
by screens.
"""
from __future__ import annotations

import functools
import importlib
import os
import struct
import zlib
from dataclasses import dataclass
from typing import Any, Iterable, Iterator, Sequence, Union

Path = Union[str, "os.PathLike[str]"]

HEAD = b"P4\n64 128\n"
FONT = bytes.fromhex(
    "F0909090F0 2060202070 F010F080F0 F010F010F0 9090F01010 F080F010F0 F080F090F0 F010204040"
    "F090F090F0 F090F010F0 F090F09090 E090E090E0 F0808080F0 E0909090E0 F080F080F0 F080F08080"
)


class _Rows:
    """What pictures and screens share. A row is a string of `#` for lit and `.` for dark pixels."""

    rows: tuple[str, ...]

    @property
    def width(self) -> int:
        """How many pixels a row has: 64."""
        return len(self.rows[0]) if self.rows else 0

    @property
    def height(self) -> int:
        """How many rows there are."""
        return len(self.rows)

    @property
    def lit(self) -> int:
        """How many pixels are lit."""
        return sum(row.count("#") for row in self.rows)

    def __getitem__(self, place: tuple[int, int]) -> bool:
        """Return whether the pixel of column x and row y is lit."""
        x, y = place
        return self.rows[y][x] == "#"

    def __str__(self) -> str:
        return "\n".join(self.rows)

    def __repr__(self) -> str:
        return f"<{type(self).__name__} {self.width}x{self.height}, {self.lit} lit>"

    def region(self, x: int, y: int, width: int, height: int) -> Screen:
        """Return a part, whose upper left pixel is column x of row y."""
        if (
            x < 0
            or y < 0
            or width < 1
            or height < 1
            or x + width > self.width
            or y + height > self.height
        ):
            raise ValueError(
                f"{width}x{height} from ({x}, {y}) isn't within {self.width}x{self.height}"
            )
        return Screen(tuple(row[x : x + width] for row in self.rows[y : y + height]))

    def digit(self, x: int, y: int) -> int | None:
        """Return the digit of the font, 0 to 15, of which this is the upper left pixel, or None."""
        if x < 0 or y < 0 or x + 4 > self.width or y + 5 > self.height:
            return None
        seen = bytes(
            int(row[x : x + 4].replace("#", "1").replace(".", "0"), 2) << 4
            for row in self.rows[y : y + 5]
        )
        return next((digit for digit in range(16) if FONT[5 * digit : 5 * digit + 5] == seen), None)

    def find(self, sprite: bytes) -> tuple[int, int] | None:
        """Return the first place, row by row, at which a sprite is shown exactly, or None.

        Columns that are dark in the whole sprite count only as far as the sprite's last lit one.
        """
        wide = max((8 - (byte & -byte).bit_length() + 1 for byte in sprite if byte), default=0)
        if not wide:
            return None
        wanted = [f"{byte:08b}"[:wide].replace("1", "#").replace("0", ".") for byte in sprite]
        for y in range(self.height - len(sprite) + 1):
            x = self.rows[y].find(wanted[0])
            while x >= 0:
                if all(self.rows[y + at].startswith(row, x) for at, row in enumerate(wanted)):
                    return x, y
                x = self.rows[y].find(wanted[0], x + 1)
        return None

    def difference(self, other: _Rows) -> str:
        """Return a text that shows where two differ: `+` lit only here, `-` lit only in the other.

        It shows the smallest part in which all differences are.
        """
        if (self.width, self.height) != (other.width, other.height):
            return (
                f"{self.width}x{self.height} pixels, and {other.width}x{other.height} in the other"
            )
        marks = {"##": "#", "..": ".", "#.": "+", ".#": "-"}
        pairs = zip(self.rows, other.rows)
        rows = ["".join(marks[a + b] for a, b in zip(here, there)) for here, there in pairs]
        places = [
            (x, y) for y, row in enumerate(rows) for x, mark in enumerate(row) if mark in "+-"
        ]
        if not places:
            return "no difference"
        left, right = min(x for x, _ in places), max(x for x, _ in places)
        top, bottom = places[0][1], places[-1][1]
        count = "1 pixel differs" if len(places) == 1 else f"{len(places)} pixels differ"
        where = f"columns {left} to {right} of rows {top} to {bottom}"
        head = f"{count}, in {where} (+ lit only here, - lit only there):"
        return "\n".join([head, *(row[left : right + 1] for row in rows[top : bottom + 1])])

    def __array__(self, dtype: Any = None, copy: Any = None) -> Any:
        """Return it as an array of numpy, a row for each row, 1 for a lit pixel."""
        numpy: Any = importlib.import_module("numpy")
        rows = [[pixel == "#" for pixel in row] for row in self.rows]
        return numpy.array(rows, dtype=dtype if dtype is not None else numpy.uint8)

    def _pixels(self) -> tuple[tuple[str, ...], int, int]:
        """The rows, and how wide and how high one pixel is drawn."""
        return self.rows, 1, 1

    def png(self, path: Path, scale: int = 8) -> None:
        """Write it as a PNG file, white on black, a pixel `scale` points wide."""
        rows, wide, high = self._pixels()
        lines = []
        for row in rows:
            dots = b"".join((b"\xff" if pixel == "#" else b"\0") * (scale * wide) for pixel in row)
            lines += [b"\0" + dots] * (scale * high)

        def chunk(kind: bytes, content: bytes) -> bytes:
            return (
                struct.pack(">I", len(content))
                + kind
                + content
                + struct.pack(">I", zlib.crc32(kind + content))
            )

        size = struct.pack(">IIBBBBB", len(rows[0]) * wide * scale, len(lines), 8, 0, 0, 0, 0)
        with open(path, "wb") as file:
            file.write(
                b"\x89PNG\r\n\x1a\n"
                + chunk(b"IHDR", size)
                + chunk(b"IDAT", zlib.compress(b"".join(lines), 9))
                + chunk(b"IEND", b"")
            )


def _rows_of(content: bytes) -> tuple[str, ...]:
    digits = f"{int.from_bytes(content, 'big'):0{8 * len(content)}b}"
    text = digits.translate({48: ".", 49: "#"})
    return tuple(text[at : at + 64] for at in range(0, len(text), 64))


@dataclass(frozen=True, repr=False)
class Screen(_Rows):
    """What the memory of a game holds: 32 rows of 64 pixels, or 64 rows in the tall variant."""

    rows: tuple[str, ...]

    @classmethod
    def of_bytes(cls, content: bytes) -> Screen:
        """Return the screen of these bytes, eight a row, the highest bit leftmost."""
        return cls(_rows_of(content))


@dataclass(frozen=True, repr=False)
class Picture(_Rows):
    """What was shown: a picture of the video chip, 64 by 128 dots, as a file of PBM, form P4.

    Its rows are those of the screen if lines of it are alike: a row for each four lines, or for
    each two, or else for each line. A dot is four times as wide as it is high.
    """

    pbm: bytes

    @functools.cached_property
    def lines(self) -> tuple[str, ...]:
        """All 128 lines."""
        return _rows_of(self.pbm[-1024:])

    @functools.cached_property
    def rows(self) -> tuple[str, ...]:  # type: ignore[override]
        """The rows of pixels: 32, 64 or 128."""
        lines = self.lines
        for size in (4, 2):
            if all(lines[at::size] == lines[::size] for at in range(1, size)):
                return lines[::size]
        return lines

    def screen(self, tall: bool = False) -> Screen:
        """Return it as a screen: every fourth line, or in the tall variant every second one."""
        return Screen(self.lines[:: 2 if tall else 4])

    def _pixels(self) -> tuple[tuple[str, ...], int, int]:
        return self.lines, 4, 1

    def png(self, path: Path, scale: int = 2) -> None:
        """Write it as a PNG file, white on black.

        A line is `scale` points high, and a dot four times as wide.
        """
        super().png(path, scale)


Shown = Union[Screen, Picture]


def assert_same(here: Shown, there: Shown) -> None:
    """Raise AssertionError with the pixels that differ, unless two screens are equal."""
    if here != there:
        raise AssertionError(here.difference(there))


def steady(pictures: Sequence[Shown], count: int = 2) -> list[Screen]:
    """Return the pictures without flicker.

    A pixel is lit if it was lit in one of the last `count` pictures.

    Games draw by XOR, so what moves is erased for a part of a frame. A picture of that frame lacks
    it.
    """
    if count < 1:
        raise ValueError("count is at least 1")
    rows = [picture.rows for picture in pictures]
    result = []
    for at, here in enumerate(rows):
        near = [other for other in rows[max(0, at - count + 1) : at + 1] if len(other) == len(here)]
        result.append(
            Screen(
                tuple(
                    "".join("#" if "#" in column else "." for column in zip(*lines))
                    for lines in zip(*near)
                )
            )
        )
    return result


def _lzw(indices: bytes) -> bytes:
    """Pack the pixels of a GIF, of which each is 0 or 1."""
    clear, end = 4, 5
    table: dict[bytes, int] = {bytes([code]): code for code in range(4)}
    bits, held, size, out = 0, 0, 3, bytearray()

    def put(code: int) -> None:
        nonlocal bits, held
        held |= code << bits
        bits += size
        while bits >= 8:
            out.append(held & 0xFF)
            held >>= 8
            bits -= 8

    put(clear)
    word = b""
    for index in indices:
        longer = word + bytes([index])
        if longer in table:
            word = longer
            continue
        put(table[word])
        if len(table) + 2 < 4096:
            table[longer] = len(table) + 2
            if len(table) + 1 >= 1 << size and size < 12:
                size += 1
        else:
            put(clear)
            table, size = {bytes([code]): code for code in range(4)}, 3
        word = bytes([index])
    put(table[word])
    put(end)
    if bits:
        out.append(held & 0xFF)
    return bytes(out)


def film(pictures: Iterable[Shown], path: Path, scale: int = 4, rate: float = 50) -> int:
    """Write pictures as a GIF that repeats, and return how many it has.

    A GIF counts hundredths of a second, so 50 pictures a second are the most that every program
    shows.
    """

    def frames() -> Iterator[tuple[int, int, bytes]]:
        for picture in pictures:
            rows = picture.rows
            high = max(1, scale * 32 // len(rows))
            lines = [
                b"".join((b"\1" if pixel == "#" else b"\0") * scale for pixel in row)
                for row in rows
            ]
            yield len(rows[0]) * scale, len(rows) * high, b"".join(line * high for line in lines)

    delay, count = max(2, round(100 / rate)), 0
    with open(path, "wb") as file:
        for wide, high, indices in frames():
            if not count:
                file.write(
                    b"GIF89a"
                    + struct.pack("<HHBBB", wide, high, 0xF0, 0, 0)
                    + b"\0\0\0\xff\xff\xff"
                )
                file.write(b"!\xff\x0bNETSCAPE2.0\x03\x01\0\0\0")
            file.write(
                b"!\xf9\x04\x04"
                + struct.pack("<H", delay)
                + b"\0\0,"
                + struct.pack("<HHHHB", 0, 0, wide, high, 0)
                + b"\x02"
            )
            packed = _lzw(indices)
            for at in range(0, len(packed), 255):
                part = packed[at : at + 255]
                file.write(bytes([len(part)]) + part)
            file.write(b"\0")
            count += 1
        if not count:
            raise ValueError("a film has at least one picture")
        file.write(b";")
    return count
