"""A run that can be asked at any of its cycles: what `vip debug` answers there.

It begins anew at a kept state near the cycle, so that each question costs as much far from reset as
near it. A kept state has no source: names are numbers here, and the lines of labels are added.
"""
from __future__ import annotations

import bisect
import contextlib
import os
import pathlib
import re
from concurrent.futures import Future, ThreadPoolExecutor
from typing import Callable, Iterable, Iterator, Sequence, Tuple

from . import _texts, call

FRAME = 3668  # machine cycles of a frame
CLOCK = 60 * FRAME  # and of a second
MOST_CYCLE = 4_000_000_000
REACH = 600 * CLOCK  # how far ahead a command looks: ten minutes of the machine's time
KEPT_EACH = 1 << 19  # the cycles between two kept states
AT_ONCE = os.cpu_count() or 1
# (calls are made in threads, since C code can't be interrupted: an interrupt ends the wait)
IN_THREADS = ThreadPoolExecutor(AT_ONCE)
MOST_COMMANDS = 1 << 20  # bytes

FAULTS = {
    "BadWord": "no such command here: help lists them",
    "BadCount": "too many or too few arguments: help shows each command with its arguments",
    "BadNumber": "an address is one to four hexadecimal digits without 0x, or with --asm a name; a count is decimal",
    "Range": "a number is out of range",
}


class Refused(Exception):
    """What can't be done, in a sentence that says what to do instead."""


def written(words: Sequence[str], files: dict[str, bytes]) -> bytes:
    """Return what `vip` writes."""
    status, out, report = call(words, files)
    if status > 1:
        fault = FAULTS.get(report.rpartition(" ")[2]) if report.startswith("vip: commands line") else None
        raise Refused(fault or report)
    return out


def read_file(name: str) -> bytes:
    """Return a file's bytes."""
    try:
        return pathlib.Path(name).read_bytes()
    except OSError as why:
        raise Refused(f"cannot read {name}: {why.strerror}") from None


Event = Tuple[int, str, str]  # of a key script: a cycle, `down` or `up`, and a key


def read_script(text: bytes) -> tuple[Event, ...]:
    """Return the events of a key script that `vip` takes."""
    lines = (line.split() for line in text.decode(errors="replace").splitlines())
    try:
        return tuple(
            (int(cycle), way, key.upper())
            for cycle, way, key in (words for words in lines if words and not words[0].startswith("#"))
        )
    except ValueError:
        raise Refused("the key script is refused: `vip trace` with it names the line") from None


class Source:
    """What a source says of addresses: names, labels, and the line of each byte."""

    def __init__(self, text: bytes, is_game: bool):
        isa = ["--chip8"] if is_game else []
        try:
            listing = written(["list", "source", *isa], {"source": text}).decode(errors="replace")
        except Refused as why:
            raise Refused(f"{why}: `vip check` reports every error of the source") from None
        self.texts, self.lines, self.numbers, self.registers = _texts.listing(listing)
        self._labels: dict[int, list[str]] | None = None
        self._text, self._is_game = text, is_game

    @property
    def labels(self) -> dict[int, list[str]]:
        """Return the labels at each address, as `vip debug` shows them."""
        if self._labels is None:
            places = sorted(set(self.numbers.values()))
            self._labels = {}
            for at in range(0, len(places), MOST_COMMANDS // 16):
                self._labels.update(self._labels_at(places[at : at + MOST_COMMANDS // 16]))
        return self._labels

    def _labels_at(self, places: list[int]) -> dict[int, list[str]]:
        # (at reset, for a program with the boot latch clear, so that each address is read itself)
        word, start = ("code", []) if self._is_game else ("list", ["--ram"])
        commands = "".join(f"{word} {at:04X} 1\n" for at in places).encode()
        files = {"source": self._text, "commands": commands}
        out = written(["debug", "source", "0", "commands", "--echo", "--asm", *start], files)
        shown = (lines[:-1] for _, lines in _texts.answers(out))
        return {at: [line[:-1] for line in names] for at, names in zip(places, shown) if names}

    def around(self, address: int | None) -> list[str]:
        """Return the line that gave an address, marked, with the lines around it."""
        number = self.lines.get(address, -9) if address is not None else -9
        return [
            f"{'>' if k == number else ' '} {k}: {self.texts[k].strip()}"
            for k in range(number - 1, number + 2)
            if k in self.texts
        ]


USAGE = """    ./debugger GAME [--asm] [--tall] [--keys FILE] [--state]
    ./debugger PROGRAM --rom|--ram [--asm] [--keys FILE] [--state]"""


class Replay:
    """A run from its start under a key script; states are kept at intervals."""

    def __init__(self, words: Sequence[str]):
        keys = words.index("--keys") if "--keys" in words else len(words)
        others = [word for at, word in enumerate(words) if at not in (keys, keys + 1)]
        names = [word for word in others if not word.startswith("-")]
        self.options = [word for word in others if word.startswith("-")]
        known = {"--asm", "--tall", "--state", "--rom", "--ram"}
        if len(names) != 1 or keys + 1 == len(words) or set(self.options) - known:
            raise Refused("the arguments are refused; these are taken:\n" + USAGE)
        self.is_program = bool({"--rom", "--ram"} & set(self.options))
        self.name, self.start = names[0], read_file(names[0])
        self.script = read_script(read_file(words[keys + 1])) if keys < len(words) else ()
        is_source = "--asm" in self.options
        self.source = Source(self.start, not self.is_program) if is_source else None
        self.first = int.from_bytes(self.start[6:14], "big") if "--state" in self.options else 0
        self._cycles: list[int] = []  # of the kept states
        self._states: list[bytes] = []
        self._latched, self._unlatched = -1, MOST_CYCLE + 1  # cycles at which the latch is known
        self.ask(self.first, [], self.first)  # (refuses what a run would)

    def set_script(self, script: tuple[Event, ...]) -> None:
        """Take another key script, and forget the states that it may change."""
        pairs = zip(script, self.script)
        same = next((at for at, (one, other) in enumerate(pairs) if one != other), None)
        if same is None:
            same = min(len(script), len(self.script))
        differs = min((events[same][0] for events in (script, self.script) if len(events) > same), default=None)
        if differs is not None:
            at = bisect.bisect_right(self._cycles, differs)
            del self._cycles[at:], self._states[at:]
            self._latched, self._unlatched = min(self._latched, differs), MOST_CYCLE + 1
        self.script = script

    def keys(self) -> bytes:
        """Return the key script as a text."""
        return "".join(f"{cycle} {way} {key}\n" for cycle, way, key in self.script).encode()

    # ---- calls of vip

    def _near(self, cycle: int) -> tuple[int, str, bytes, list[str]]:
        """Return the nearest kept state at or before a cycle, or the start.

        The result is its cycle, its name as a file, its content and its options.
        """
        at = bisect.bisect_right(self._cycles, cycle)
        if not at:
            return self.first, "start", self.start, self.options
        options = ["--state", "--rom"] if self.is_program else ["--state"]
        return self._cycles[at - 1], "state", self._states[at - 1], options

    def begin(self, cycle: int) -> int:
        """Return the last cycle up to a given one at which a call can begin."""
        return self._near(cycle)[0]

    def request(
        self, verb: str, cycle: int, limit: int, more: Sequence[str] = (), commands: Iterable[str] = ()
    ) -> tuple[list[str], dict[str, bytes]]:
        """Return the arguments and files of a verb for the run up to a limit.

        The call begins at or before a cycle.
        """
        _, name, content, options = self._near(cycle)
        text = "".join(f"{line}\n" for line in commands).encode()
        files = {name: content, "keys": self.keys()}
        if text:
            files["commands"] = text
        words = [verb, name, str(limit), *(["commands"] if text else []), "--keys", "keys", *options, *more]
        return words, files

    def make(self, verb: str, cycle: int, limit: int) -> bytes:
        """Return what a verb writes of the run up to a limit."""
        return IN_THREADS.submit(written, *self.request(verb, cycle, limit)).result()

    def make_from_start(self, verb: str, limit: int) -> bytes:
        """Return what a verb writes of the run from its start up to a limit."""
        words = [verb, "start", str(limit), "--keys", "keys", *self.options]
        return IN_THREADS.submit(written, words, {"start": self.start, "keys": self.keys()}).result()

    def answers(self, cycle: int, commands: Sequence[str], limit: int) -> bytes:
        """Return what `vip debug` writes for commands at a cycle, without echo.

        Threads may call this.
        """
        words, files = self.request("debug", cycle, max(limit, cycle), (), [f"to {cycle}", *commands])
        return written(words, files).partition(b"\n")[2]

    def ask(self, cycle: int, commands: Sequence[str], limit: int) -> list[list[str]]:
        """Return the answer of each command of `vip debug` at a cycle, with labels."""
        words, files = self.request("debug", cycle, max(limit, cycle), ["--echo"], [f"to {cycle}", *commands])
        out = IN_THREADS.submit(written, words, files).result()
        found = [lines for _, lines in _texts.answers(out)][1:]
        if self.source and "--asm" not in words:
            labels = self.source.labels
            found = [self._labelled(labels, *each, cycle) for each in zip(commands, found)]
        return found

    def trace(self, begin: int, end: int) -> str:
        """Return the trace of a stretch of a game; it may begin before the stretch."""
        return "" if self.is_program else written(*self.request("trace", begin, end, ["--at"])).decode()

    # ---- labels

    def _labelled(
        self, labels: dict[int, list[str]], command: str, lines: list[str], cycle: int
    ) -> list[str]:
        """Return the lines of an answer, with labels before instructions or opcodes."""
        word = command.split()[0]
        shows = ("list", "code") if not self.is_program else ("list", "step", "watch")
        if word not in shows:
            return lines
        places: list[tuple[int, int] | None]
        if word in ("list", "code"):
            places = [(cycle, int(line[:4], 16)) for line in lines]
        else:
            places = [_texts.instruction_place(line) for line in lines]
        self._settle([place[0] for place in places if place])
        out: list[str] = []
        for line, place in zip(lines, places):
            if place:
                out += (f"{name}:" for name in labels.get(self._read_from(place[1], place[0]), ()))
            out.append(line)
        return out

    def _settle(self, cycles: list[int]) -> None:
        """Find out at which of these rising cycles the boot latch is clear."""
        if cycles and not self._is_latched(cycles[-1]):
            low, high = 0, len(cycles) - 1
            while low < high:
                middle = (low + high) // 2
                low, high = (middle + 1, high) if self._is_latched(cycles[middle]) else (low, middle)

    def _read_from(self, address: int, cycle: int) -> int:
        """Return the address that is read: the ROM's while the boot latch is set."""
        return address | 0x8000 if self.is_program and self._is_latched(cycle) else address

    def _is_latched(self, cycle: int) -> bool:
        # (once clear it stays so, and --ram begins with it clear)
        if "--rom" not in self.options or cycle >= self._unlatched:
            return False
        if cycle > self._latched:
            # bit 0 of byte 5 of a program's state
            if self.make("save", cycle, cycle)[5] % 2:
                self._latched = cycle
            else:
                self._unlatched = cycle
        return cycle <= self._latched

    def latched_up_to(self, limit: int) -> int:
        """Return the last cycle up to a limit at which the boot latch is set, or -1."""
        low, high = -1, 1
        while high < limit and self._is_latched(high):
            low, high = high, 4 * high
        high = min(high, limit)
        while low < high:
            middle = (low + high + 1) // 2
            low, high = (middle, high) if self._is_latched(middle) else (low, middle - 1)
        return low

    # ---- states

    def keep(self, cycle: int) -> None:
        """Keep states up to a cycle, at intervals, if the run has points there."""
        place = self._cycles[-1] if self._cycles else self.first
        while cycle - place > KEPT_EACH:
            place += KEPT_EACH
            with contextlib.suppress(Refused):  # (there may be no point yet)
                state = self.make("save", place, place)
                at = int.from_bytes(state[6:14], "big")
                if self.is_program and at + 2 < place:
                    break  # (the processor sleeps)
                if not self._cycles or at > self._cycles[-1]:
                    self._cycles.append(at)
                    self._states.append(state)

    # ---- stretches of a search

    def backward(self, end: int, ask: Callable[[int, int], str]) -> Iterator[tuple[int, int, str]]:
        """Yield stretches of a game's run before a cycle, the last one first.

        Each is longer than the one after it and comes with what is asked of it; several are
        asked at once.
        """
        size, first = 1 << 12, self.first if "--state" in self.options else -1
        ahead: list[tuple[int, int, Future[str]]] = []
        while end > first or ahead:
            while end > first and len(ahead) < AT_ONCE:
                begin = end - size if end - size > max(first, 60) else first
                ahead.append((begin, end, IN_THREADS.submit(ask, begin, end)))
                end, size = begin, min(8 * size, 1 << 21)
            begin, stop, answer = ahead.pop(0)
            yield begin, stop, answer.result()

    def onward(self, begin: int) -> Iterator[tuple[int, int, str]]:
        """Yield stretches of a game's run after a cycle, ten minutes in all.

        Each comes with its trace. The states of finished stretches are kept.
        """
        size, most = 1 << 19, min(MOST_CYCLE, begin + REACH)
        while begin < most:
            end = min(begin + size, most)
            yield begin, end, IN_THREADS.submit(self.trace, begin, end).result()
            self.keep(end)
            begin, size = end, min(2 * size, 1 << 22)
