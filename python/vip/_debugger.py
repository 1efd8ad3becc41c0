"""A session of `./debugger`: its commands, and what they write."""
from __future__ import annotations

import itertools
import os
import pathlib
import re
import sys
import time
from typing import Any, Callable, Iterator, NamedTuple, Sequence

from . import _texts, uses_library
from ._engine import Processes
from ._replay import CLOCK, FRAME, IN_THREADS, MOST_CYCLE, REACH, Event, Refused, Replay, written
from ._search import (
    NAMES_OF_REGISTERS,
    OF_PROCESSOR,
    Expression,
    ProgramSearch,
    fields_of_registers,
)

WINDOW_END = 2912  # the place in a frame at which its picture is whole
MOVING = ("step", "to", "at", "watch", "next", "break")
SHOWING = ("regs", "state", "mem", "dis", "list", "screen", "code")
OF_THE_LANGUAGE = ("next", "break", "state", "screen", "code")
TAKES_ADDRESS = ("at", "watch", "break", "mem", "dis", "list", "code")
# each is short for the first of these that begins so
NAMES = (
    "step next to at back break watch regs mem list dis code frame press quit state screen last when "
    "play release script mark goto compare save page help commands"
).split()
VARIABLES = (*(f"V{k:X}" for k in range(16)), "pc", "I", "DT", "ST", "Q", "S")


class Moment(NamedTuple):
    """A position of a session.

    It has a cycle of the run, the key script that led there, and the commands of
    `vip debug` that lead there, each with its cycle.
    """

    cycle: int
    script: tuple[Event, ...]
    entries: tuple[tuple[str, int], ...]


def fields_of_point(point: _texts.Point) -> dict[str, Any]:
    """Return the variables of a dispatch point by their names."""
    values = (*point.v, point.pc, point.i, point.dt, point.st, int(point.tone), point.stack)
    return dict(zip(VARIABLES, values)) | {"cycle": point.cycle, "frame": point.cycle // FRAME}


def shown(value: int | tuple[int, ...], name: str = "") -> str:
    """Return a value as the trace shows it."""
    if isinstance(value, tuple):
        return " ".join(f"{at:04X}" for at in value) or "empty"
    if name == "cycle":
        return str(value)
    return f"{value:04X}" if name in ("I", "pc", *NAMES_OF_REGISTERS) else f"{value:02X}"


def count_in(words: Sequence[str], at: int) -> int:
    """Return an operand that is a count, or 1 if there is none."""
    word = words[at] if len(words) > at else "1"
    if not word.isdecimal() or not 1 <= int(word) <= 1_000_000:
        raise Refused(f"{words[0]}: not a decimal number from 1 to 1,000,000: {word}")
    return int(word)


COUNTED = {  # what a command counts, and the most of it
    "step": ("moves", 1_000_000),
    "next": ("dispatch points", 1_000_000),
    "watch": ("bytes", 4096),
    "mem": ("bytes", 4096),
    "dis": ("lines", 4096),
    "list": ("instructions", 4096),
    "code": ("opcodes", 4096),
}


def check_limits(words: Sequence[str], address: int | None) -> None:
    """Reject a number that is too large for `vip debug`, and say which one it is."""
    if words[0] == "to" and words[1:] and words[1].isdecimal() and int(words[1]) > MOST_CYCLE:
        raise Refused(f"the cycle {words[1]} is too large: the last cycle is {MOST_CYCLE:,}")
    what, most = COUNTED.get(words[0], ("", 0))
    if not what or not words[-1].isdecimal() or len(words) != (2 if words[0] in ("step", "next") else 3):
        return
    count = int(words[-1])
    if not 1 <= count <= most:
        size = "too small" if count < 1 else "too large"
        raise Refused(f"{words[-1]} {what} is {size}: {words[0]} takes 1 to {most:,}")
    if what == "bytes" and address is not None and address + count > 0x10000:
        raise Refused(
            f"{count} bytes from {address:04X} on are too many: the last byte is at FFFF, "
            f"so at most {0x10000 - address}"
        )


def name_in(words: Sequence[str]) -> str:
    """Return the one operand of a command."""
    if len(words) == 2:
        return words[1]
    raise Refused(f"{words[0]} takes one name")


class Session:
    """A session: the run, the position in it, and the positions before."""

    def __init__(self, run: Replay, put: Callable[..., Any], is_terminal: bool, top: str):
        self.run, self.put, self.is_terminal, self.top = run, put, is_terminal, top
        self.search = ProgramSearch(run)
        self.here = Moment(run.first, run.script, ())
        self.past: list[Moment] = []
        self.marks: dict[str, tuple[Moment, tuple[Any, ...]]] = {}
        self.last_mark: Moment | None = None
        # the commands whose answers say where a run is
        self.looks = ["regs"] if run.is_program else ["regs", "state"]
        self.seen = self.look(self.here.cycle)

    def say(self, text: object, colour: str | None = "36") -> None:
        """Write a line of the debugger's own."""
        self.put(f"| {text}", colour)

    def answer(self, lines: Sequence[str]) -> None:
        """Write an answer of `vip debug`."""
        for line in lines:
            self.put(line, None)

    # ---- the place

    @staticmethod
    def fields_of(answers: Sequence[Sequence[str]]) -> dict[str, Any]:
        """Return the fields of the answers of `looks`.

        `point` is the cycle of the last dispatch point.
        """
        fields = fields_of_registers(_texts.registers("\n".join(answers[0]) + "\n"))
        if len(answers) > 1 and answers[1] != ["none"]:
            state = fields_of_point(_texts.point(answers[1][0]))
            fields |= {**state, "cycle": fields["cycle"], "frame": fields["frame"], "point": state["cycle"]}
        return fields

    def look(self, cycle: int) -> dict[str, Any]:
        """Return the variables at a cycle, and the processor's registers."""
        return self.fields_of(self.run.ask(cycle, self.looks, cycle))

    def show_place(self, fields: dict[str, Any]) -> None:
        """Write what has changed since the last position, and the source's lines."""
        names = fields if self.run.is_program else VARIABLES
        changes = [
            f"{name} {shown(self.seen[name], name)} to {shown(fields[name], name)}"
            for name in names
            if name not in ("cycle", "frame", "pc")
            and name in self.seen
            and name in fields
            and self.seen[name] != fields[name]
        ]
        if changes:
            self.say("changed: " + ", ".join(changes), "33")
        if self.run.source:
            at = fields[f"R{fields['P']:X}"] if self.run.is_program else fields.get("pc")
            for line in self.run.source.around(at):
                self.say(line, "32" if line.startswith(">") else "2")
        self.seen = fields

    def go(self, moment: Moment, fields: dict[str, Any] | None = None, is_kept: bool = True) -> None:
        """Go to a moment, and keep the one before for `back`."""
        self.past += [self.here] if is_kept else []
        self.run.set_script(moment.script)
        self.here = moment
        self.show_place(fields or self.look(moment.cycle))

    def go_to(self, cycle: int, is_told: bool = True) -> None:
        """Go to a cycle before or after here, and say so as `vip debug` does."""
        cycle = max(cycle, self.run.first)
        self.run.keep(cycle)
        answer, *looks = self.run.ask(self.run.begin(cycle), [f"to {cycle}", *self.looks], cycle)
        fields = self.fields_of(looks)
        if is_told:
            self.answer(answer)
        here = fields["cycle"]
        entries = tuple(entry for entry in self.here.entries if entry[1] <= cycle)
        self.go(Moment(here, self.run.script, (*entries, (f"to {here}", here))), fields)

    # ---- commands of vip debug

    def moves(self, words: list[str]) -> None:
        """step N, next N, to C, at A, break A, watch A N: run forward, as in `vip debug`.
        to C: if cycle C is before here, run in reverse."""
        if words[0] == "to" and len(words) == 2 and words[1].isdecimal() and int(words[1]) <= MOST_CYCLE:
            return self.go_to(int(words[1]))
        most = min(MOST_CYCLE, self.here.cycle + REACH)
        answer, *looks = self.run.ask(self.here.cycle, [self.plain(words), *self.looks], most)
        self.answer(answer)
        if answer[-1:] == ["end"]:
            return self.say(
                f"not within ten minutes from here, so nothing has moved; to look further: `to {most}`, then again"
            )
        fields = self.fields_of(looks)
        self.run.keep(fields["cycle"])
        entry = (" ".join(words), fields["cycle"])
        return self.go(Moment(fields["cycle"], self.run.script, (*self.here.entries, entry)), fields)

    def shows(self, words: list[str]) -> None:
        """regs, state, mem A N, dis A N, list A N, code A N, screen: as in `vip debug`."""
        (lines,) = self.run.ask(self.here.cycle, [self.plain(words)], self.here.cycle)
        self.answer(lines)
        self.here = self.here._replace(entries=(*self.here.entries, (" ".join(words), self.here.cycle)))

    def plain(self, words: list[str]) -> str:
        """Return the command with names as numbers, since a kept state has no names."""
        at = self.address_of(words[1]) if len(words) > 1 and words[0] in TAKES_ADDRESS else None
        check_limits(words, at)
        return " ".join(words if at is None else [words[0], f"{at:04X}", *words[2:]])

    def address_of(self, word: str) -> int | None:
        """Return the address that `vip debug` means by an operand, or None.

        It is a name of the source, which wins over a number, or one to four hexadecimal
        digits. After a colon it is always a name.
        """
        numbers = self.run.source.numbers if self.run.source else {}
        name = word[1:] if word.startswith(":") else word
        if name in numbers:
            return numbers[name]
        if re.fullmatch("[0-9A-Fa-f]{1,4}", word):
            return int(word, 16)
        if self.run.source and re.fullmatch(r":?[A-Za-z_]\w*", word):
            raise Refused(f"the source gives {name} no address; Tab completes its names")
        return None

    # ---- back

    def back(self, words: list[str]) -> None:
        """back [N]: undo the last N commands that moved."""
        count = count_in(words, 1)
        if not self.past:
            raise Refused("nothing has moved yet")
        self.past, moment = self.past[:-count], self.past[-count:][0]
        self.answer([f"cycle {moment.cycle}"])
        self.go(moment, is_kept=False)

    def before(self, words: list[str]) -> None:
        """step -N: go N moves back.
        next -N: go to the N-th dispatch point before here.
        break -A: go to the last dispatch point before here whose pc is A."""
        if words[0] == "step":
            return self.go_to(self.moves_back(int(words[1][1:])))
        count, head = 1, ""
        if words[0] == "break":
            at = self.address_of(words[1][1:])
            if at is None:
                raise Refused(f"not an address: {words[1][1:]}")
            head = f"{at:04X} "
        else:
            count = int(words[1][1:])
        for begin, _, text in self.run.backward(self.here.cycle, self.run.trace):
            cycles = (int(line.rpartition(" ")[2]) for line in text.splitlines() if line.startswith(head))
            found = [cycle for cycle in cycles if begin < cycle < self.here.cycle]
            if len(found) >= count > 0:
                return self.go_to(found[-count])
            count -= len(found)
        raise Refused("there is no such point before here")

    def moves_back(self, count: int) -> int:
        """Return the cycle a number of moves before here.

        A move has at most three cycles.
        """
        here = self.here.cycle
        start = max(self.run.first, here - 3 * count - 12)
        low, high = 0, here - start  # moves from there that end before here, and that don't
        while low < high:
            middle = (low + high) // 2
            low, high = (middle + 1, high) if self.after(start, middle) < here else (low, middle)
        return self.after(start, max(low - count, 0))

    def after(self, start: int, moves: int) -> int:
        """Return the cycle a number of moves after a position."""
        commands = [f"step {moves}", "regs"] if moves else ["regs"]
        answer = self.run.ask(start, commands, self.here.cycle)[-1]
        return _texts.registers("\n".join(answer) + "\n").cycle

    # ---- last

    def last(self, words: list[str]) -> None:
        """last NAME|ADDRESS: go to the last change of a variable, a byte or a register."""
        name, source = name_in(words), self.run.source
        name = source.registers.get(name, name) if source else name
        if not (source and name.removeprefix(":") in source.numbers):
            known = next((one for one in self.seen if one in (name, name.upper())), name)
            if known in VARIABLES and not self.run.is_program:
                return self.last_variable(known)
            if known in NAMES_OF_REGISTERS or known in OF_PROCESSOR:
                return self.last_register(known)
        at = self.address_of(name)
        if at is None:
            raise Refused(
                f"not a variable, a register or an address: {name}" + ("" if source else "; names need --asm")
            )
        return self.last_byte(at)

    def since(self) -> str:
        """Return the name of the run's start, before which no change is known."""
        return "the saved state" if "--state" in self.run.options else "reset"

    def last_variable(self, name: str) -> None:
        """Go to the point whose instruction last changed a variable of the language."""
        seen_at, now = self.seen.get("point", self.here.cycle), self.seen.get(name, 0)
        later: _texts.Point | None = None
        stretches = self.run.backward(
            seen_at + 1, lambda begin, end: self.run.trace(begin, min(end, seen_at))
        )
        for _, _, text in stretches:
            for line in reversed(text.splitlines()) if self.differs(name, text, later) else ():
                point = _texts.point(line)
                held = fields_of_point(point)[name]
                if later is not None and held != fields_of_point(later)[name]:
                    self.answer([line.rpartition(" N ")[0]])
                    self.say(f"{name} was {shown(held, name)}, and from cycle {later.cycle} on is {shown(now, name)}")
                    return self.go_to(point.cycle, is_told=False)
                later = point
            first = text.partition("\n")[0]
            later = _texts.point(first) if first else later
        raise Refused(f"nothing since {self.since()} has changed {name}")

    @staticmethod
    def differs(name: str, text: str, later: _texts.Point | None) -> bool:
        """Return whether a variable has two values in a text (a fast test)."""
        if name == "S" or later is None or not text:
            return True
        line = text.partition("\n")[0]
        words = list(re.finditer(r"\S+", line))
        at = {"pc": 0, "I": 20, "DT": 22, "ST": 24, "Q": 26}.get(name, 3 + int(name[1:], 16) if name[0] == "V" else 0)
        start, stop = words[at].span()
        value = shown(fields_of_point(later)[name], name)[-(stop - start) :]
        return bool(re.search(rf"(?m)^(?!.{{{start}}}{value} ).", text))

    def last_register(self, name: str) -> None:
        """Go to the instruction that last changed a register of the processor."""
        found = self.search.last_register(name, self.here.cycle)
        if not found:
            raise Refused(f"{name} never changed since {self.since()}")
        before, after = (fields_of_registers(registers) for registers in found)
        at = before[f"R{before['P']:X}"]
        (lines,) = self.run.ask(before["cycle"], [f"list {at:04X} 1"], before["cycle"])
        self.answer(lines)
        self.say(f"{name} was {shown(before[name], name)}, and from cycle {after['cycle']} on is {shown(after[name], name)}")
        self.go_to(before["cycle"], is_told=False)

    def last_byte(self, address: int) -> None:
        """Go to the instruction that last changed a byte."""
        found = self.search.last_write(address, self.here.cycle)
        if not found:
            raise Refused(
                f"{address:04X} was never written since {self.since()}, or only with the byte that it had"
            )
        watch = [f"watch {address:04X} 1", *self.looks]
        answer, *looks = self.run.ask(found.before.cycle, watch, found.after.cycle)
        self.answer([*answer, *(looks[1] if len(looks) > 1 else [])])
        self.go_to(self.fields_of(looks).get("point", found.before.cycle), is_told=False)

    # ---- when

    def when(self, text: str) -> None:
        """when EXPRESSION: go to the next point at which it holds.
        when - EXPRESSION: go to the last point before here at which it holds.
        For example: V3 > 0x20 and score == 10; [0x300] == 7; (5, 7) and frame > 2."""
        is_back, here = text.lstrip().startswith("-"), self.here.cycle
        expression = Expression(text.lstrip().removeprefix("-"), self.run)
        if self.run.is_program:
            if expression.has_pixels:
                raise Refused("a program has no CHIP-8 screen and so no pixels; bytes are [A]")
            found = self.search.when(expression, here, is_back)
        else:
            found = self.when_in_game(expression, here, is_back)
        if found is None:
            raise Refused(
                "it held at no point before here"
                if is_back
                else "it holds at no point within ten minutes from here; to look further, use `to`, then again"
            )
        return self.go_to(found)

    def when_in_game(self, expression: Expression, here: int, is_back: bool) -> int | None:
        """Return the cycle of the dispatch point at which a condition holds."""
        for stretch in self.run.backward(here, self.run.trace) if is_back else self.run.onward(here):
            points = (
                fields
                for fields in self.points(expression, *stretch)
                if fields["cycle"] != here and (fields["cycle"] < here) == is_back
            )
            hits = (fields["cycle"] for fields in points if expression.value(fields))
            if found := list(hits if is_back else itertools.islice(hits, 1)):
                return int(found[-1])
        return None

    def points(self, expression: Expression, begin: int, end: int, text: str) -> Iterator[dict[str, Any]]:
        """Yield the points of a game after a cycle, with what an expression needs."""
        lines = (line for line in text.splitlines() if int(line.rpartition(" ")[2]) > begin)
        found = (fields_of_point(_texts.point(line)) for line in lines)
        if not expression.asks_more:
            yield from found
            return
        place, count = max(begin, self.run.first), 250
        while part := list(itertools.islice(found, count)):
            count = min(2 * count, 1 << 14)
            asked = [expression.asked(fields) for fields in part]
            commands = [line for _, more in asked for line in ("next 1", *more)]
            answers = iter(self.run.ask(place, commands, end))
            for fields, (addresses, shows) in zip(part, asked):
                moved, *group = itertools.islice(answers, 1 + len(shows))
                registers = fields_of_registers(_texts.registers("\n".join(group[0]) + "\n"))
                if moved[-1:] == ["end"] or registers["cycle"] == place:
                    return
                place = registers["cycle"]
                read = {at: _texts.dump(answer)[0] for at, answer in zip(addresses, group[1:])}
                yield {**fields, **registers, "bytes": read, "screen": group[-1], "Q": fields["Q"]}

    # ---- pictures

    def frame(self, words: list[str]) -> None:
        """frame [N]: go to the N-th next picture and show the screen, two rows per line.
        For a program the last picture is shown."""
        number = (self.here.cycle - WINDOW_END) // FRAME + count_in(words, 1)
        self.go_to(FRAME * number + WINDOW_END)
        if self.run.is_program:
            rows = self.rows_of(self.picture(FRAME * number + WINDOW_END))
        else:
            (rows,) = self.run.ask(self.here.cycle, ["screen"], self.here.cycle)
        self.say(f"frame {self.here.cycle // FRAME}")
        for above, below in zip(rows[::2], rows[1::2]):
            line = (" ▀▄█"[(a == "#") + 2 * (b == "#")] for a, b in zip(above, below))
            self.say("".join(line), None)

    @staticmethod
    def rows_of(dots: bytes) -> list[str]:
        """Return the rows of a picture, without its repetitions."""
        lines = [f"{int.from_bytes(dots[k : k + 8], 'big'):064b}".replace("1", "#") for k in range(0, 1024, 8)]
        is_repeated = {
            size: all(len(set(lines[k : k + size])) == 1 for k in range(0, 128, size)) for size in (4, 2)
        }
        return lines[:: next((size for size in (4, 2) if is_repeated[size]), 2)]

    def picture(self, cycle: int) -> bytes:
        """Return the last picture of a program up to the end of a window.

        It is what DMA reads there, or if that isn't whole the last picture of the run.
        """
        (lines,) = self.run.ask(max(cycle - 1820, self.run.first), ["step 2000"], cycle)
        shown_moves = (line for line in lines if _texts.instruction_place(line) or " DMA R0 " in line)
        moves = [_texts.move(line) for line in shown_moves]
        dots = b"".join(move.code for move in moves if isinstance(move, _texts.Dma))
        switches = any(isinstance(move, _texts.Instruction) and move.code[0] in (0x61, 0x69) for move in moves)
        if len(dots) == 1024 and not switches:
            return dots
        if "--state" in self.run.options:
            raise Refused("no picture is complete here, and a saved state has none from before")
        return self.run.make_from_start("play", cycle)[-1024:] or bytes(1024)

    def play(self, words: list[str]) -> None:
        """play N [SPEED]: show N frames one after another, at the machine's speed times SPEED."""
        count, pause = count_in(words, 1), FRAME / CLOCK / count_in(words, 2)
        for _ in range(count):
            due = time.monotonic() + pause
            if self.is_terminal:
                self.put("\033[H\033[2J", None)
            self.frame(["frame"])
            time.sleep(max(0, due - time.monotonic()) if self.is_terminal else 0)

    # ---- keys

    def press(self, words: list[str]) -> None:
        """press K [N]: hold a key from here on, or for N frames.
        release K: release it."""
        if len(words) < 2 or not re.fullmatch("[0-9A-Fa-f]", words[1]):
            raise Refused(f"{words[0]} takes one hexadecimal digit, as in: {words[0]} 5")
        key, here = words[1].upper(), self.here.cycle
        later = [event for event in self.run.script if event[0] >= here and event[2] == key]
        if later and self.is_terminal:
            asked = f"| {len(later)} later events of key {key} are in the script; replace them? [y/n] "
            if input(asked) != "y":
                raise Refused("the script is unchanged")
        events = [(here, "down" if words[0] == "press" else "up", key)]
        if words[0] == "press" and len(words) > 2:
            events.append((min(here + FRAME * count_in(words, 2), MOST_CYCLE), "up", key))
        others = [event for event in self.run.script if event not in later]
        script = tuple(sorted([*others, *events], key=lambda event: event[0]))
        self.go(Moment(here, script, self.here.entries))
        told = (f"key {key} {way} from cycle {cycle}, frame {cycle // FRAME}" for cycle, way, key in events)
        self.say(", ".join(told))

    release = press

    def script(self, words: list[str]) -> None:
        """script: list the key events by frames.
        script FILE: write them as a key script."""
        if len(words) > 1:
            return self.write(name_in(words), self.run.keys())
        for cycle, way, key in self.run.script:
            more = "" if cycle < self.here.cycle else ", still to come"
            self.say(f"frame {cycle // FRAME} cycle {cycle} {way} {key}{more}")
        return None if self.run.script else self.say("no key is pressed; press K adds an event")

    # ---- marks

    def snapshot(self) -> tuple[dict[str, Any], bytes, str]:
        """Return what `compare` compares: variables or registers, memory and screen."""
        screen = [] if self.run.is_program else ["screen"]
        commands = ["mem 0000 4096", *self.looks, *screen]
        memory, *answers = self.run.ask(self.here.cycle, commands, self.here.cycle)
        names = (*NAMES_OF_REGISTERS, "D", "DF", "X", "P", "Q", "IE", "T") if self.run.is_program else VARIABLES
        fields = self.fields_of(answers[: len(self.looks)])
        held = {name: fields[name] for name in ("cycle", *names) if name in fields}
        return held, _texts.dump(memory), "".join(answers[-1])

    def mark(self, words: list[str]) -> None:
        """mark NAME: keep this position under a name."""
        self.marks[name_in(words)] = (self.here, self.snapshot())
        self.last_mark = self.here
        self.say(f"{words[1]} is cycle {self.here.cycle}")

    def marked(self, words: list[str]) -> tuple[Moment, tuple[Any, ...]]:
        """Return the moment and the snapshot of a mark."""
        if name_in(words) not in self.marks:
            there = f"there are {', '.join(self.marks)}" if self.marks else "mark NAME makes one"
            raise Refused(f"unknown mark: {words[1]} ({there})")
        return self.marks[words[1]]

    def goto(self, words: list[str]) -> None:
        """goto NAME: go to a mark, with the key script that led there."""
        moment, _ = self.marked(words)
        self.answer([f"cycle {moment.cycle}"])
        self.go(moment)

    def compare(self, words: list[str]) -> None:
        """compare NAME: print the differences between a mark and here."""
        (fields, memory, screen), (fields2, memory2, screen2) = self.marked(words)[1], self.snapshot()
        lines = [
            f"{name} {shown(value, name)} there, {shown(fields2[name], name)} here"
            for name, value in fields.items()
            if value != fields2.get(name, value)
        ]
        labels = self.run.source.labels if self.run.source else {}
        changed = [at for at in range(4096) if memory[at] != memory2[at]]
        lines += [
            "".join(f"{name} " for name in labels.get(at, ())[:1])
            + f"{at:04X} {memory[at]:02X} there, {memory2[at]:02X} here"
            for at in changed[:64]
        ]
        if len(changed) > 64:
            lines.append(f"{len(changed) - 64} more bytes")
        pixels = 0 if self.run.is_program else sum(a != b for a, b in zip(screen, screen2))
        if pixels:
            lines.append(f"{pixels} pixels of the screen")
        for line in lines or ["no differences"]:
            self.say(line)

    # ---- files

    def write(self, name: str, content: bytes) -> None:
        """Write a file and say so."""
        try:
            pathlib.Path(name).write_bytes(content)
        except OSError as why:
            raise Refused(f"cannot write {name}: {why.strerror}") from None
        self.say(f"{name}: {len(content)} bytes")

    def commands(self, words: list[str]) -> None:
        """commands FILE: write what led here as commands of `vip debug`."""
        text = "".join(f"{text}\n" for text, _ in self.here.entries)
        self.write(name_in(words), text.encode())
        options = " ".join(self.run.options)
        self.say(
            f"after `script SCRIPT` this prints the same: vip debug {self.run.name} {self.here.cycle} "
            f"{words[1]} --keys SCRIPT {options}"
        )

    def save(self, words: list[str]) -> None:
        """save FILE: write the machine state, for a game at the last dispatch point."""
        self.write(name_in(words), self.run.make("save", self.here.cycle, self.here.cycle))

    def page(self, words: list[str]) -> None:
        """page FILE: write the page of `view` from the last mark or the start up to here."""
        name, content, options = "start", self.run.start, self.run.options
        if self.last_mark and self.last_mark.cycle <= self.here.cycle and not self.run.is_program:
            at = self.last_mark.cycle
            name, content, options = "state", self.run.make("save", at, at), ["--state"]
        files = {name: content, "keys": self.run.keys()}
        paths = (os.path.join(self.top, view) for view in ("view", "vip-view"))
        view = next((path for path in paths if os.access(path, os.X_OK)), "vip-view")
        asked = [name, str(self.here.cycle), "--keys", "keys", *options]
        status, page, report = Processes(view)(asked, files)
        if status > 1:
            raise Refused(report.decode(errors="replace").strip())
        self.write(name_in(words), page)

    # ---- lines

    def help(self, _words: list[str]) -> None:
        """help: list the commands; each is short for the first that begins so.
        quit: end the session."""
        own = (getattr(self, name) for name in NAMES if hasattr(self, name))
        for way in dict.fromkeys((self.moves, self.shows, self.before, *own)):
            self.answer([f"| {line.strip()}" for line in way.__doc__.splitlines()])

    def does(self, line: str) -> None:
        """Execute a line. If it can't be done, say so and move nothing."""
        words = line.split()
        try:
            self.do(words, line)
        except (Refused, ArithmeticError, LookupError, TypeError, ValueError, RecursionError) as why:
            self.say(why if isinstance(why, Refused) else f"this can't be evaluated: {why}", "31")
        except KeyboardInterrupt:
            self.say(f"interrupted: still at cycle {self.here.cycle}", "31")

    def do(self, words: list[str], line: str) -> None:
        """Execute a command."""
        typed = words[0]
        words[0] = next((name for name in NAMES if name.startswith(typed)), "")
        if not words[0]:
            raise Refused(f"unknown command: {typed} (help lists them)")
        if words[0] in OF_THE_LANGUAGE and self.run.is_program:
            raise Refused(
                f"{words[0]} is for games, and this is a program; for it there are "
                "step, to, at, watch, regs, mem, dis and list"
            )
        words += ["1"] if words in (["step"], ["next"]) else []
        goes_back = r"-\d+" if words[0] in ("step", "next") else "-.+" if words[0] == "break" else "(?!)"
        if len(words) == 2 and re.fullmatch(goes_back, words[1]):
            self.before(words)
        elif words[0] == "when":
            self.when(line.partition(typed)[2])
        elif words[0] in MOVING:
            self.moves(words)
        elif words[0] in SHOWING:
            self.shows(words)
        else:
            getattr(self, words[0])(words)


def complete_by(run: Replay) -> None:
    """Complete commands and, after one, the source's names."""
    try:
        import readline  # pylint: disable=import-outside-toplevel
    except ImportError:
        return  # (a Python without it)

    def complete(text: str, state: int) -> str | None:
        before = readline.get_line_buffer()[: readline.get_begidx()].strip()
        source = (*run.source.numbers, *run.source.registers) if run.source else ()
        names = source if before else NAMES
        return next(itertools.islice((name for name in names if name.startswith(text)), state, None), None)

    readline.set_completer(complete)
    readline.set_completer_delims(" :[](),")
    readline.parse_and_bind("tab: complete")


def main(words: Sequence[str], top: str) -> int:
    """Run a session over the arguments of the command line.

    `top` is the debugger's own folder.
    """
    is_terminal = sys.stdin.isatty() and sys.stdout.isatty()

    def put(line: str, colour: str | None) -> None:
        print(f"\033[{colour}m{line}\033[0m" if colour and is_terminal else line, flush=True)

    try:
        session = Session(Replay(list(words)), put, is_terminal, top)
    except Refused as why:
        print(f"debugger: {why}", file=sys.stderr)
        return 2
    complete_by(session.run)
    while True:
        try:
            line = input("> " if is_terminal else "")
        except EOFError:
            line = "quit"
        except KeyboardInterrupt:
            line = ""
        if line.split()[:1] in (["quit"], ["q"]):
            # (no call in the library is waited for, but each process, which has a folder to remove)
            if uses_library():
                os._exit(0)
            return 0
        if not is_terminal:
            put(f"> {line}", None)
        if line.strip() and not line.lstrip().startswith("#"):
            session.does(line)
