"""Any interpreter on this board read as CHIP-8, and two runs compared.

RCA's interpreter keeps its language state where this project's does: pc in R5, I in RA, the timers
in R8, V0 to VF at 0x0EF0, the screen at 0x0F00. At its fetch, 0x001B with P = 4, it is at a
dispatch point.

    import vip
    from vip.compare import RCA, compare, points
    there = vip.Machine.board(rom="monitor.bin", ram=[(0, "interpreter.bin"), (0x200, "pong.ch8")])
    here = vip.Machine.game("pong.ch8")
    print(compare(points(here), points(there, fetch=0x001B), skip_waits=True))
"""
from __future__ import annotations

import collections
import itertools
from dataclasses import dataclass
from typing import Any, Iterable, Iterator, NamedTuple, Sequence

from ._texts import Point
from .keys import KeyScript
from .machine import LOOK, Machine, Reason
from .pictures import Screen


@dataclass(frozen=True)
class Places:
    """Where an interpreter keeps the language state.

    `pc`, `i`, `timers`, `stack` and `ticks` are numbers of registers; the delay timer is the high
    byte of `timers`, and the sound timer the low one. `ticks` is None if no register counts them.
    `stack_top` is the address of the low byte of the oldest entry; entries go down, with `gap`
    bytes below the stack register.
    """

    pc: int = 0x5
    i: int = 0xA
    timers: int = 0x8
    stack: int = 0x2
    ticks: int | None = None
    stack_top: int = 0x0ECF
    variables: int = 0x0EF0
    screen: int = 0x0F00
    screen_size: int = 256
    memory: tuple[int, int] = (0x0000, 0x1000)


#: RCA's interpreter of the COSMAC VIP, and its fetch.
RCA = Places()
RCA_FETCH = (0x001B, 4)
#: This project's interpreter, and its fetch.
HERE = Places(ticks=0x9, memory=(0x0200, 0x0EA0))
HERE_TALL = Places(
    ticks=0x9,
    stack_top=0x0DCF,
    variables=0x0DF0,
    screen=0x0E00,
    screen_size=512,
    memory=(0x0200, 0x0DA0),
)
HERE_FETCH = (0x8031, 4)


class At(NamedTuple):
    """A dispatch point of a run: its number from 0, the language state, the screen, the machine."""

    number: int
    state: Point
    screen: Screen
    machine: Machine


def state_of(machine: Machine, places: Places) -> Point:
    """Return the language state of a machine, whichever interpreter runs on it."""
    registers, ram = machine.registers, machine.memory
    file = list(registers.r)
    pc, timers = file[places.pc], file[places.timers]
    low, high = places.memory
    opcode = ram[pc] << 8 | ram[pc + 1] if low <= pc and pc + 1 < high else None
    depth = max(0, min(12, (places.stack_top - file[places.stack]) // 2))
    stack = tuple(
        ram[places.stack_top - 2 * at] | ram[places.stack_top - 2 * at - 1] << 8
        for at in range(depth)
    )
    return Point(
        pc,
        opcode,
        tuple(ram[places.variables : places.variables + 16]),
        file[places.i],
        timers >> 8,
        timers & 0xFF,
        registers.q,
        stack,
        file[places.ticks] if places.ticks is not None else 0,
        machine.cycle,
    )


def points(
    machine: Machine,
    fetch: int | None = None,
    p: int = 4,
    *,
    places: Places | None = None,
    until: int | None = None,
    keys: KeyScript | None = None,
    keys_by_point: Iterable[tuple[int, str, int]] | None = None,
    random: Iterable[int] | None = None,
) -> Iterator[At]:
    """Yield the dispatch points of a run, from the machine's present cycle on.

    `fetch` is the address of the interpreter's fetch, with this `p`. Without it the machine runs a
    game of this project's interpreter. `places` are those of RCA's interpreter if `fetch` is given.
    `keys` are pressed by their cycles; `keys_by_point` has numbers of points in place of cycles.
    `random` has bytes: each CXKK of the run gets the next one, with KK applied, whatever the
    interpreter made. The run ends at `until`, at a stop, if the machine idles, or if no byte is
    left.
    """
    if fetch is None:
        where = places or (HERE_TALL if machine.is_tall else HERE)
        fetch = HERE_FETCH[0]
    else:
        where = places or RCA
    limit = machine.cycle + LOOK if until is None else until
    changes = list(keys.changes()) if keys else []
    by_point = sorted(keys_by_point or (), key=lambda event: event[0])
    bytes_left = iter(random) if random is not None else None
    pending: tuple[int, int] | None = None
    for number in itertools.count():
        while True:
            change = changes[0][0] if changes else limit + 1
            reason = machine.run_to(fetch, p=p, limit=min(limit, change))
            if reason is not Reason.LIMIT or change > limit:
                break
            machine.keys = _keys(changes.pop(0)[1])
        if reason is not Reason.PLACE:
            return
        if pending is not None:
            machine.memory[where.variables + pending[0]] = pending[1]
            pending = None
        while by_point and by_point[0][0] <= number:
            _, way, key = by_point.pop(0)
            machine.press(key) if way == "down" else machine.release(key)
        state = state_of(machine, where)
        if bytes_left is not None and state.opcode is not None and state.opcode >> 12 == 0xC:
            byte = next(bytes_left, None)
            if byte is None:
                return
            pending = (state.opcode >> 8 & 0xF, byte & state.opcode & 0xFF)
        shown = machine.memory[where.screen : where.screen + where.screen_size]
        yield At(number, state, Screen.of_bytes(bytes(shown)), machine)


def _keys(mask: int) -> frozenset[int]:
    return frozenset(key for key in range(16) if mask >> key & 1)


class Difference(NamedTuple):
    """The first point at which two runs differ: its number, what differs, and both points.

    A point is None if that run has ended. `before` has the last points before it, here and there.
    """

    number: int
    what: tuple[str, ...]
    here: At | None
    there: At | None
    before: tuple[tuple[At, At], ...] = ()

    def __str__(self) -> str:
        if not self.here or not self.there:
            return f"point {self.number}: the {'second' if self.here else 'first'} run has ended"
        verb = "differs" if len(self.what) == 1 else "differ"
        head = f"point {self.number}: {', '.join(self.what)} {verb}"
        return "\n".join([head, line_of(self.here.state), line_of(self.there.state)])


def differences(here: At, there: At, ignore: Iterable[str] = ()) -> tuple[str, ...]:
    """Return in what two points differ.

    The names are "pc", "opcode", "v0" to "vF", "i", "dt", "st", "stack" and "screen".
    """
    a, b = here.state, there.state
    pairs: list[tuple[str, Any, Any]] = [("pc", a.pc, b.pc), ("opcode", a.opcode, b.opcode)]
    pairs += [(f"v{at:X}", x, y) for at, (x, y) in enumerate(zip(a.v, b.v))]
    pairs += [
        ("i", a.i, b.i),
        ("dt", a.dt, b.dt),
        ("st", a.st, b.st),
        ("stack", a.stack, b.stack),
        ("screen", here.screen, there.screen),
    ]
    left_out = frozenset(ignore)
    return tuple(name for name, x, y in pairs if x != y and name not in left_out)


#: The opcodes with which a game waits: FX07, FX0A, EX9E and EXA1, without X.
_WAITS = frozenset((0xF007, 0xF00A, 0xE09E, 0xE0A1))
#: How many points an iteration of a wait has at most.
_LONGEST = 8


def without_waits(run: Iterable[At]) -> Iterator[At]:
    """Leave out the iterations of loops that wait for DT or a key, but for the last pass of each.

    A wait is a stretch of at most eight points that comes back to its first pc with nothing changed
    but DT, ST and the variables that its FX07 read. How often it is repeated depends on the
    interpreter's speed.
    """
    held: list[At] = []
    for at in run:
        held.append(at)
        size = _iteration(held)
        if size:
            del held[-size - 1 : -1]
        if len(held) > _LONGEST:
            yield held.pop(0)
    yield from held


def _iteration(held: Sequence[At]) -> int:
    """Return how many points make an iteration of a wait that ends with the last point, or 0."""
    for size in range(1, min(_LONGEST, len(held) - 1) + 1):
        body = [at.state.opcode or 0 for at in held[-size - 1 : -1]]
        first, last = held[-size - 1], held[-1]
        if first.state.pc != last.state.pc or not any(code & 0xF0FF in _WAITS for code in body):
            continue
        read = {f"v{code >> 8 & 0xF:X}" for code in body if code & 0xF0FF == 0xF007}
        if not differences(first, last, {"dt", "st", *read}):
            return size
    return 0


def form_of(opcode: int) -> str:
    """Return the form of an opcode, as "6XKK" or "DXY5"."""
    digit, low = opcode >> 12, opcode & 0xFF
    if digit == 0:
        return f"{opcode:04X}" if opcode in (0x00E0, 0x00EE) else "0MMM"
    if digit in (1, 2, 0xA, 0xB):
        return f"{digit:X}MMM"
    if digit in (3, 4, 6, 7, 0xC):
        return f"{digit:X}XKK"
    if digit in (0xE, 0xF):
        return f"{digit:X}X{low:02X}"
    return f"{digit:X}XY{opcode & 0xF:X}"


def timed(run: Iterable[At], times: dict[str, list[int]]) -> Iterator[At]:
    """Yield the points of a run, and note the cycles from each to the next by the opcode's form."""
    before: Point | None = None
    for at in run:
        if before is not None and before.opcode is not None:
            times.setdefault(form_of(before.opcode), []).append(at.state.cycle - before.cycle)
        before = at.state
        yield at


def compare(
    here: Iterable[At],
    there: Iterable[At],
    *,
    count: int | None = None,
    skip_waits: bool = False,
    ignore: Iterable[str] = ("dt", "st"),
    context: int = 9,
    both_end: bool = False,
) -> Difference | int:
    """Return the first point at which two runs differ, or how many points agree.

    The timers are ignored unless `ignore` says otherwise, since they depend on each interpreter's
    speed. With `skip_waits` the iterations of loops that wait for DT or a key count once. The
    comparison ends with the run that ends first; with `both_end` that is a difference too.
    `context` is how many points before the difference it keeps.
    """
    if skip_waits:
        here, there = without_waits(here), without_waits(there)
    before: collections.deque[tuple[At, At]] = collections.deque(maxlen=context)
    left_out = tuple(ignore)
    number = 0
    for a, b in itertools.zip_longest(here, there):
        if number == count:
            break
        if a is None or b is None:
            if both_end:
                return Difference(number, ("end",), a, b, tuple(before))
            break
        code = a.state.opcode or 0
        # (what FX07 is about to overwrite depends on the passes of a wait that were left out)
        dead = (f"v{code >> 8 & 0xF:X}",) if skip_waits and code & 0xF0FF == 0xF007 else ()
        what = differences(a, b, (*left_out, *dead))
        if what:
            return Difference(number, what, a, b, tuple(before))
        before.append((a, b))
        number += 1
    return number


def line_of(state: Point) -> str:
    """Return a state as a line of `vip trace --at`, so that `diff` compares runs."""
    v = " ".join(f"{value:02X}" for value in state.v)
    stack = "".join(f" {address:04X}" for address in state.stack)
    opcode = "----" if state.opcode is None else f"{state.opcode:04X}"
    return (
        f"{state.pc:04X} {opcode} V {v} I {state.i:04X} DT {state.dt:02X} ST {state.st:02X}"
        f" Q {int(state.tone)} S{stack}"
        f" N {state.ticks:04X} AT {state.cycle}"
    )


def by_points(events: Iterable[tuple[int, str, int]], run: Iterable[At]) -> KeyScript:
    """Return a key script whose times are numbers of dispatch points of a run."""
    return KeyScript.by_points(events, (at.state.cycle for at in run))
