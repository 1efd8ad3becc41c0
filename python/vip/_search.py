"""Searches in a run: the last instruction that changed something, and the points at which a
condition holds.

A program's run is searched without a text of all its moves. What can change a register is known from
the instructions that were executed, so only those are looked at, and `at` and `watch` reach them at
the speed of a run.
"""
from __future__ import annotations

import ast
import re
from types import CodeType
from typing import Any, Iterable, Iterator, NamedTuple, Sequence

from . import _texts
from ._replay import FRAME, IN_THREADS, MOST_CYCLE, REACH, Refused, Replay
from ._texts import Registers

NAMES_OF_REGISTERS = tuple(f"R{k:X}" for k in range(16))
OF_PROCESSOR = ("P", "X", "D", "DF", "Q", "IE", "T", "IDL")


def fields_of_registers(registers: Registers) -> dict[str, Any]:
    """Return the registers by their names, with the cycle and the frame."""
    named: dict[str, Any] = dict(zip(("cycle", *OF_PROCESSOR), registers[:9]))
    return named | {"frame": registers.cycle // FRAME} | dict(zip(NAMES_OF_REGISTERS, registers.r))


# ---- conditions


class Expression(ast.NodeTransformer):
    """A condition over a point.

    It may use names, variables, the processor's registers, bytes `[A]`, pixels `(x, y)`,
    the cycle and the frame.
    """

    TAKEN = (
        ast.Expression, ast.BoolOp, ast.boolop, ast.UnaryOp, ast.unaryop, ast.BinOp, ast.Compare,
        ast.cmpop, ast.Name, ast.Load, ast.Constant, ast.Call, ast.Add, ast.Sub, ast.Mult,
        ast.FloorDiv, ast.Mod, ast.BitAnd, ast.BitOr, ast.BitXor,
    )  # fmt: skip

    def __init__(self, text: str, run: Replay):
        self.source, self.has_pixels = run.source, False
        self._addresses: list[tuple[CodeType, set[str]]] = []
        try:
            tree = self.visit(ast.parse(text.strip(), mode="eval").body)
        except (SyntaxError, ValueError, RecursionError, MemoryError):
            raise Refused(
                f"`{text.strip()}` is no expression; these are: V3 > 0x20 and [score] == 10, or (5, 7)"
            ) from None
        self.code, self.names = self._compiled(tree)
        if self.source:
            self.names = {self.source.registers.get(name, name) for name in self.names}
        processor = {"byte", "pixel", *NAMES_OF_REGISTERS, *OF_PROCESSOR}
        self.asks_more = bool(processor & self.names)

    @staticmethod
    def _compiled(node: ast.expr) -> tuple[CodeType, set[str]]:
        tree = ast.fix_missing_locations(ast.Expression(node))
        names = {node.id for node in ast.walk(tree) if isinstance(node, ast.Name)}
        return compile(tree, "when", "eval"), names

    def visit(self, node: ast.AST) -> ast.expr:
        """Return the code of a node: bytes and pixels are calls."""
        if isinstance(node, ast.List) and len(node.elts) == 1:
            self._addresses.append(self._compiled(self.visit(node.elts[0])))
            return self.visit(ast.Call(ast.Name("byte", ast.Load()), node.elts, []))
        if isinstance(node, ast.Tuple) and len(node.elts) == 2:
            self.has_pixels = True
            return self.visit(ast.Call(ast.Name("pixel", ast.Load()), node.elts, []))
        if not isinstance(node, self.TAKEN) or (
            isinstance(node, ast.Constant) and not isinstance(node.value, int)
        ):
            raise ValueError
        return self.generic_visit(node)  # type: ignore[return-value]

    def value(self, fields: dict[str, Any], code: CodeType | None = None) -> int:
        """Return the value at a point with these variables, registers and bytes.

        Names of the source win over others.
        """
        names = {}
        if self.source:
            named = self.source.registers.items()
            names = self.source.numbers | {name: fields[of] for name, of in named if of in fields}
        calls = {
            "byte": lambda at: fields["bytes"][at & 0xFFFF],
            "pixel": lambda x, y: fields["screen"][y % len(fields["screen"])][x % 64] == "#",
        }
        scope = {**fields, **names, **calls}
        try:
            return int(eval(code or self.code, {"__builtins__": {}}, scope))  # pylint: disable=eval-used
        except NameError as why:
            raise Refused(f"{why} here" + ("" if self.source else ": names of a source need --asm")) from None

    def asked(self, fields: dict[str, Any]) -> tuple[list[int], list[str]]:
        """Return the addresses of the bytes that it asks for at a point, and commands.

        The commands show the bytes, the registers and the screen.
        """
        addresses = sorted({self.value(fields, code) & 0xFFFF for code, _ in self._addresses})
        screen = ["screen"] if self.has_pixels else []
        return addresses, ["regs", *(f"mem {at:04X} 1" for at in addresses), *screen]

    def constant_addresses(self) -> list[int] | None:
        """Return the addresses of its bytes, or None if one depends on a register."""
        known = set(self.source.numbers) if self.source else set()
        if any(names - known for _, names in self._addresses):
            return None
        return sorted({self.value({}, code) & 0xFFFF for code, _ in self._addresses})


# ---- what instructions change

_THROUGH_X = {0x60, 0x61, 0x62, 0x63, 0x64, 0x65, 0x66, 0x67, 0x70, 0x71, 0x72, 0x73}
_RETURNS = {0x70, 0x71}  # RET and DIS: they take X and P from memory
_MARK = 0x79
_DISPLAY_ON = 0x69
_BY_SIGNALS = ("R0", "P", "X", "T", "IE", "IDL")


class Executed(NamedTuple):
    """The instructions that a run executed up to a cycle.

    For each address it has the opcode, or None if bytes there have changed.
    """

    limit: int
    script: tuple[Any, ...]
    opcodes: dict[int, int | None]

    def changing(self, name: str) -> list[int] | None:
        """Return the addresses of the instructions that may change a register.

        The result is None if an interrupt or DMA may change it, or nearly every instruction.
        """
        known: set[int | None] = set(self.opcodes.values())
        if name in ("D", "DF") or (known & {None, _DISPLAY_ON} and name in _BY_SIGNALS):
            return None
        changers = self.changers(name, known)
        return [at for at, opcode in self.opcodes.items() if opcode is None or opcode in changers]

    @staticmethod
    def changers(name: str, known: set[int | None]) -> set[int]:
        """Return the opcodes that may change a register, if these are executed."""
        seps, sexes = {0xD0 + n for n in range(16)}, {0xE0 + n for n in range(16)}
        others = {
            "P": seps | _RETURNS,
            "X": sexes | _RETURNS | {_MARK},
            "Q": {0x7A, 0x7B},
            "IE": _RETURNS,
            "T": {_MARK},
            "IDL": {0x00},
        }
        if name in others:
            return others[name]
        n = int(name[1], 16)
        # (RET, DIS, and what isn't known may set X and P to anything)
        any_x_and_p = bool(known & {None, *_RETURNS})
        is_p = any_x_and_p or n == 0 or 0xD0 + n in known or (n == 1 and _DISPLAY_ON in known)
        is_x = any_x_and_p or n == 0 or 0xE0 + n in known or (n == 2 and _DISPLAY_ON in known)
        is_x = is_x or (_MARK in known and is_p)
        own = {0x10 + n, 0x20 + n, 0x40 + n, 0xA0 + n, 0xB0 + n}
        own |= {_MARK} if n == 2 else set()
        own |= _THROUGH_X if is_x else set()
        # (each fetch by R(P) changes it, the last one being of an instruction that sets P)
        return own | (seps | _RETURNS if is_p else set())


class Event(NamedTuple):
    """An instruction that was executed.

    It has the registers before and after it, and the bytes that it changed by their
    addresses.
    """

    before: Registers
    after: Registers
    bytes: dict[int, int]


_LABELS = rb"(?:\w+:\n)*"
_REGS = _texts.REGISTERS.pattern
_BOTH = re.compile(rb"cycle \d+\n" + _REGS + _LABELS + rb" *\d+ [0-9A-F]{4} .*\n" + _REGS)
_WATCHED = re.compile(rb"(?m)^( *\d+ [0-9A-F]{4} .*)\n[0-9A-F]{4} (..)\n[0-9A-F]{4} (..)\n" + _REGS)
_BYTE = re.compile(rb"(?m)^[0-9A-F]{4} ([0-9A-F]{2})$")
_DUMPED = re.compile(r"[0-9A-F]{4}(?: [0-9A-F]{2}){1,16}")
_ROW = re.compile(rb"(?m)^([0-9A-F]{4}) ((?:[0-9A-F]{2}){1,3}) +(\d+) ")
NEAR = 1 << 15  # the cycles of a window that is searched move by move
LONGEST = 4  # more than the cycles of any instruction
MOST_AT_ONCE = 20_000  # events of one call
MOST_PLACES = 12  # addresses that a search looks at one by one, without a profile


class NotReached(Exception):
    """An instruction that `at` can't reach, since it follows itself."""


class ProgramSearch:
    """Searches in a program's run."""

    def __init__(self, run: Replay):
        self.run = run
        self._executed: Executed | None = None
        self._quiet: dict[tuple[Any, ...], set[int] | None] = {}

    def _answers(self, cycle: int, commands: Sequence[str], limit: int) -> bytes:
        return IN_THREADS.submit(self.run.answers, cycle, commands, limit).result()

    # ---- moves, one by one

    def moves(self, begin: int, end: int) -> list[Registers]:
        """Return the registers at a place, and after each move up to another place."""
        found: list[Registers] = []
        while True:
            count = max(1, min(end - begin, NEAR))
            out = self._answers(begin, ["regs", *["step 1", "regs"] * count], end)
            part = [_texts.registers_of(groups) for groups in _texts.REGISTERS.findall(out)]
            moved = next((k + 1 for k in range(count) if part[k] == part[k + 1]), count + 1)
            found += part[1 if found else 0 : moved]
            if moved <= count:
                return found
            begin = part[-1].cycle

    # ---- instructions

    def executed(self, limit: int) -> Executed | None:
        """Return the instructions up to a cycle or a later one.

        The result is None for a game, and for a run from a saved state.
        """
        if not self.run.is_program or "--state" in self.run.options:
            return None
        kept = self._executed
        if not kept or kept.limit < limit or kept.script != self.run.script:
            kept = self._executed = Executed(limit, self.run.script, self._opcodes(limit))
        return kept

    def _rows(self, limit: int) -> dict[int, tuple[bytes, int]]:
        """Return, for each address of an instruction, its bytes and a count.

        These are the first bytes there, and the number of instructions that began there up
        to a cycle.
        """
        rows = _ROW.findall(self.run.make_from_start("profile", limit))
        return {int(pc, 16): (bytes.fromhex(code.decode()), int(count)) for pc, code, count in rows}

    def _opcodes(self, limit: int) -> dict[int, int | None]:
        rows = self._rows(limit)
        # (the ROM doesn't change, and what was read through the boot latch was the ROM)
        latched = self._rows(min(limit, self.run.latched_up_to(limit))) if "--rom" in self.run.options else {}
        in_ram = {
            at: code
            for at, (code, count) in rows.items()
            if at < 0x1000 and count != latched.get(at, (b"", 0))[1]
        }
        places = {at + k for at, code in in_ram.items() for k in range(len(code))}
        changed = self._changed(places, self.run.first, limit, len(places)) or set()
        changed |= in_ram.keys() & latched.keys()
        return {
            at: None if at in in_ram and changed & set(range(at, at + len(code))) else code[0]
            for at, (code, _) in rows.items()
        }

    def _changed(self, places: set[int], begin: int, end: int, most: int) -> set[int] | None:
        """Return the addresses among these at which a byte changes between two cycles.

        The result is None if there are more of them than the limit.
        """
        changed: set[int] = set()
        waiting = [(min(places), max(places))] if places else []
        while waiting:
            asked = [
                IN_THREADS.submit(self.run.answers, begin, [f"watch {low:04X} {high - low + 1}"], end)
                for low, high in waiting
            ]
            following = []
            for (low, high), answer in zip(waiting, asked):
                lines = [line for line in answer.result().decode().splitlines() if _DUMPED.fullmatch(line)]
                half = len(lines) // 2
                old, new = _texts.dump(lines[:half]), _texts.dump(lines[half:])
                found = [low + k for k in range(len(old)) if old[k] != new[k]]
                changed.update(found)
                if len(changed) > most:
                    return None
                bounds = [low - 1, *found, high + 1] if found else []
                for one, other in zip(bounds, bounds[1:]):
                    inside = [at for at in places if one < at < other]
                    following += [(min(inside), max(inside))] if inside else []
            waiting = following
        return changed

    def changing(self, names: Iterable[str], begin: int, end: int) -> set[int] | None:
        """Return the addresses of the instructions that may change some registers.

        Only instructions between two cycles count. The result is None if other moves may
        change them, or nearly all instructions do.
        """
        names = set(names)
        if names & {"D", "DF"} or not self.run.is_program:
            return None
        found = self._by_bytes(names, begin, end)
        executed = self.executed(end) if found is None else None
        if executed is None:
            return found
        some = [executed.changing(name) for name in names]
        return None if None in some else {at for each in some for at in each or ()}

    def _by_bytes(self, names: set[str], begin: int, end: int) -> set[int] | None:
        """Return the same by the contents of memory.

        This works if no byte is an instruction that sets X and P to anything or turns the
        display on, and if bytes that change aren't executed.
        """
        state = self.run.make("save", begin, begin)
        if state[5] & 3 or names & {"IDL"}:
            return None  # (the boot latch is set, or the display is on)
        out = self._answers(begin, ["regs", "mem 0000 4096", "mem 8000 2048"], begin).decode()
        lines = [line for line in out.splitlines() if _DUMPED.fullmatch(line)]
        memory = {int(line[:4], 16) + k: byte for line in lines for k, byte in enumerate(_texts.dump([line]))}
        held = _texts.registers(out)
        present: set[int | None] = set(memory.values())
        wanted: set[int] = set()
        for name in names:
            n = int(name[1], 16) if name in NAMES_OF_REGISTERS else -1
            if n >= 0 and (n in (held.p, held.x) or {0xD0 + n, 0xE0 + n} & present):
                return None
            wanted |= Executed.changers(name, present)
        places = {at for at, byte in memory.items() if byte in wanted}
        if present & {*_RETURNS, _MARK, _DISPLAY_ON} or len(places) > MOST_PLACES:
            return None
        asked = (begin, end, self.run.script)
        if asked not in self._quiet:
            self._quiet[asked] = self._data(held.r[held.p], begin, end)
        changed = self._quiet[asked]
        return None if changed is None else places - changed

    def _data(self, place: int, begin: int, end: int) -> set[int] | None:
        """Return the addresses of RAM at which a byte changes.

        The result is None if there are many, or if one of them is executed.
        """
        changed = self._changed(set(range(4096)), begin, end, MOST_PLACES)
        if changed is None or place in changed:
            return None
        tasks = [IN_THREADS.submit(self.run.answers, begin, [f"at {at:04X}"], end) for at in changed]
        return None if any(task.result().startswith(b"cycle") for task in tasks) else changed

    def events(self, address: int, begin: int, end: int) -> list[Event]:
        """Yield the executions of the instruction at an address between two cycles.

        They begin after the first cycle and up to the second one.
        """
        found: list[Event] = []
        count, limit = 1, min(end + LONGEST, MOST_CYCLE)
        while True:
            group = [f"at {address:04X}", "regs", "step 1", "regs"]
            out = self.run.answers(begin, group * count, limit)
            part = [
                Event(_texts.registers_of(both[:10]), _texts.registers_of(both[10:]), {})
                for both in (match.groups() for match in _BOTH.finditer(out))
            ]
            if any(event.after.r[event.after.p] == address for event in part):
                raise NotReached
            found += part
            if len(part) < count:
                return [event for event in found if event.before.cycle <= end]
            begin, count = part[-1].before.cycle, min(16 * count, MOST_AT_ONCE)

    def writes(self, address: int, begin: int, end: int) -> list[Event]:
        """Yield the instructions that changed what is read at an address.

        They ended after a cycle and up to another one. An instruction that only cleared the
        boot latch changed no byte.
        """
        found: list[Event] = []
        count = 1
        while True:
            out = self.run.answers(begin, [f"watch {address:04X} 1", "regs"] * count, end)
            part = [match.groups() for match in _WATCHED.finditer(out)]
            for line, _, byte, *regs in part:
                after = _texts.registers_of(tuple(regs))
                before = after._replace(cycle=int(line.split()[0]))
                is_out = line[23:27] == b"OUT "  # (which writes nothing)
                found.append(Event(before, after, {} if is_out else {address: int(byte, 16)}))
            if len(part) < count:
                return found
            begin, count = found[-1].after.cycle, min(16 * count, MOST_AT_ONCE)

    # ---- windows

    def _back(self, end: int, grows: bool) -> Iterator[tuple[int, int]]:
        """Yield windows before a cycle, the last one first."""
        size = NEAR
        while end > self.run.first:
            begin = max(end - size, self.run.first)
            yield begin, end
            end, size = begin, 4 * size if grows else size

    @staticmethod
    def _on(begin: int, grows: bool) -> Iterator[tuple[int, int]]:
        """Yield windows after a cycle, ten minutes in all."""
        most, size = min(MOST_CYCLE, begin + REACH), NEAR
        while begin < most:
            end = min(begin + size, most)
            yield begin, end
            begin, size = end, 4 * size if grows else size

    # ---- the last change

    def last_register(self, name: str, here: int) -> tuple[Registers, Registers] | None:
        """Return the registers before and after the last move that changed one."""
        addresses: set[int] | None = None
        for begin, end in self._back(here, grows=False):
            found = self._changes_by_moves(name, begin, end)
            if found or begin == self.run.first:
                return found
            if end == here:
                addresses = self.changing([name], self.run.first, here)
            if addresses is not None:
                return self._last_far(name, addresses, begin)
        return None

    def _changes_by_moves(self, name: str, begin: int, end: int) -> tuple[Registers, Registers] | None:
        moves = self.moves(begin, end)
        pairs = zip(moves[-2::-1], moves[::-1])
        return next(((a, b) for a, b in pairs if register_in(a, name) != register_in(b, name)), None)

    def _last_far(self, name: str, addresses: set[int], here: int) -> tuple[Registers, Registers] | None:
        """Return the last change before a cycle by these instructions."""
        for begin, end in self._back(here, grows=True):
            tasks = [IN_THREADS.submit(self.events, at, begin, end) for at in addresses]
            try:
                events = [event for task in tasks for event in task.result()]
            except NotReached:
                if found := self._last_by_moves(name, begin, end):
                    return found
                continue
            made = [one for one in events if register_in(one.before, name) != register_in(one.after, name)]
            if made:
                last = max(made, key=lambda event: event.before.cycle)
                return last.before, last.after
        # (`at` moves first, so the first instruction isn't among them)
        return self._changes_by_moves(name, self.run.first, min(self.run.first + LONGEST, here))

    def _last_by_moves(self, name: str, begin: int, end: int) -> tuple[Registers, Registers] | None:
        while end > begin:
            start = max(end - NEAR, begin)
            if found := self._changes_by_moves(name, start, end):
                return found
            end = start
        return None

    def last_write(self, address: int, here: int) -> Event | None:
        """Return the last instruction before a cycle that changed a byte."""
        for begin, end in self._back(here, grows=True):
            made = [one for one in IN_THREADS.submit(self.writes, address, begin, end).result() if one.bytes]
            if made:
                return made[-1]
        return None

    # ---- conditions

    def when(self, expression: Expression, here: int, is_back: bool) -> int | None:
        """Return the cycle of the next or the last point at which it holds."""
        changers: Changers | None = None
        window = 0
        windows = self._back if is_back else self._on
        place, grows = here, False
        while True:
            for begin, end in windows(place, grows):
                points = (
                    self._between(expression, changers, begin, end)
                    if changers
                    else self._every(expression, begin, end)
                )
                found = self._hit(expression, points, here, is_back)
                if found is not None:
                    return found
                window += 1
                if window == 1:
                    whole = (self.run.first, here) if is_back else (here, min(MOST_CYCLE, here + REACH + 2 * NEAR))
                    changers = self._changers(expression, *whole)
                    if changers:
                        place = begin if is_back else end
                        break
            else:
                return None
            grows = True

    @staticmethod
    def _hit(expression: Expression, points: Iterator[tuple[int, dict[str, Any]]], here: int, is_back: bool) -> int | None:
        hits = (
            cycle
            for cycle, fields in points
            if cycle != here and (cycle < here) == is_back and expression.value(fields)
        )
        if not is_back:
            return next(hits, None)
        last: int | None = None
        for last in hits:
            pass
        return last

    def _changers(self, expression: Expression, begin: int, end: int) -> Changers | None:
        """Return what may change a condition, or None if that isn't known."""
        numbers = set(expression.source.numbers) if expression.source else set()
        asked = expression.names - numbers - {"byte"}
        places = expression.constant_addresses()
        if asked - {*NAMES_OF_REGISTERS, "P", "X", "Q", "IE", "T", "IDL"} or places is None:
            return None
        instructions = self.changing(asked, begin, end) if asked else set()
        if instructions is None:
            return None
        return Changers(instructions, places)

    def _between(
        self, expression: Expression, changers: Changers, begin: int, end: int
    ) -> Iterator[tuple[int, dict[str, Any]]]:
        """Yield the first and the last point of each stretch without changes."""
        instructions, places = changers
        tasks = [IN_THREADS.submit(self.events, at, begin, end) for at in instructions]
        tasks += [IN_THREADS.submit(self.writes, at, begin, end) for at in places]
        try:
            events = [event for task in tasks for event in task.result()]
        except NotReached:
            yield from self._every(expression, begin, end)
            return
        merged: dict[int, Event] = {}
        for event in events:
            other = merged.get(event.after.cycle, event)
            merged[event.after.cycle] = event._replace(bytes=other.bytes | event.bytes)
        out = self._answers(begin, ["regs", *(f"mem {at:04X} 1" for at in places)], begin)
        held = _texts.registers(out)
        read = dict(zip(places, (int(byte, 16) for byte in _BYTE.findall(out))))
        fields = fields_of_registers(held) | {"bytes": read}
        yield held.cycle, fields
        for _, event in sorted(merged.items()):
            yield event.before.cycle, fields
            read = read | event.bytes
            fields = fields_of_registers(event.after) | {"bytes": read}
            yield event.after.cycle, fields
        yield end, fields  # (`to` leads to the last point up to there)

    def _every(self, expression: Expression, begin: int, end: int) -> Iterator[tuple[int, dict[str, Any]]]:
        """Yield all points of a window, with what a condition asks for."""
        while begin < end:
            stop = min(begin + NEAR, end)
            moves = self.moves(begin, stop)
            points = [fields_of_registers(held) for held in moves]
            asked = [expression.asked(fields)[0] for fields in points]
            if any(asked):
                lines = [[f"mem {at:04X} 1" for at in addresses] for addresses in asked]
                commands = [*lines[0], *(line for some in lines[1:] for line in ("step 1", *some))]
                read = iter(_BYTE.findall(self._answers(moves[0].cycle, commands, stop)))
                memories = [{at: int(next(read), 16) for at in addresses} for addresses in asked]
                points = [fields | {"bytes": memory} for fields, memory in zip(points, memories)]
            yield from ((fields["cycle"], fields) for fields in points)
            begin = stop


class Changers(NamedTuple):
    """The addresses of the instructions and bytes by which a condition may change."""

    instructions: set[int]
    bytes: list[int]


def register_in(registers: Registers, name: str) -> int:
    """Return the value of a register of the processor by its name."""
    if name in NAMES_OF_REGISTERS:
        return registers.r[int(name[1], 16)]
    return int(getattr(registers, "idle" if name == "IDL" else name.lower()))
