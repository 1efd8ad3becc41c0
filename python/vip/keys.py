"""Key scripts: which keys go down and up at which machine cycle."""
from __future__ import annotations

import os
from dataclasses import dataclass
from typing import Callable, Iterable, Iterator, NamedTuple, Union

FRAME = 3668
MOST_CYCLES = 4_000_000_000
MOST_EVENTS = 100_000

Path = Union[str, "os.PathLike[str]"]


class KeyEvent(NamedTuple):
    """A key that goes down or up at a machine cycle. It equals the tuple of its fields."""

    cycle: int
    way: str
    key: int


def _event(event: Iterable[object]) -> KeyEvent:
    cycle, way, key = event
    number = int(key, 16) if isinstance(key, str) else int(key)  # type: ignore[call-overload]
    made = KeyEvent(int(cycle), str(way), number)  # type: ignore[call-overload]
    if (
        made.way not in ("down", "up")
        or not 0 <= made.key <= 15
        or not 0 <= made.cycle <= MOST_CYCLES
    ):
        raise ValueError(
            f"an event is a cycle, 'down' or 'up', and a key from 0 to 15, and not {tuple(made)}"
        )
    return made


@dataclass(frozen=True)
class KeyScript:
    """A key script: events in the order of their cycles.

    Events may be given in any order. Those of one cycle stay as they were given, and the last one
    of a key counts.
    """

    events: tuple[KeyEvent, ...] = ()

    def __init__(self, events: Iterable[Iterable[object]] = ()):
        made = sorted(map(_event, events), key=lambda event: event.cycle)
        if len(made) > MOST_EVENTS:
            raise ValueError(
                f"a key script has at most {MOST_EVENTS:,} events, and not {len(made):,}"
            )
        object.__setattr__(self, "events", tuple(made))

    # ---- files

    @classmethod
    def parse(cls, text: str) -> KeyScript:
        """Read the text of a key script. ValueError names the first line that is none."""
        events: list[KeyEvent] = []
        for number, line in enumerate(text.split("\n"), 1):
            words = line.split()
            if not words or words[0].startswith("#"):
                continue
            try:
                cycle, way, key = words
                if not (cycle.isdecimal() and cycle.isascii()) or len(key) != 1:
                    raise ValueError
                event = _event((int(cycle), way, int(key, 16)))
            except ValueError:
                raise ValueError(
                    f"line {number} is no event of a key script: {line.strip()!r}"
                ) from None
            if events and event.cycle < events[-1].cycle:
                raise ValueError(f"line {number} comes before the event above it: {line.strip()!r}")
            events.append(event)
        return cls(events)

    @classmethod
    def read(cls, path: Path) -> KeyScript:
        """Read a key script file."""
        with open(path, encoding="ascii") as file:
            return cls.parse(file.read())

    def write(self, path: Path) -> None:
        """Write a key script file."""
        with open(path, "w", encoding="ascii") as file:
            file.write(str(self))

    def __str__(self) -> str:
        return "".join(f"{cycle} {way} {key:X}\n" for cycle, way, key in self.events)

    # ---- by other times

    @classmethod
    def by_frames(cls, events: Iterable[tuple[float, str, int]], start: int = 0) -> KeyScript:
        """Return a script whose times are given in frames after the cycle `start`."""
        return cls((start + round(frame * FRAME), way, key) for frame, way, key in events)

    @classmethod
    def by_points(cls, events: Iterable[tuple[int, str, int]], cycles: Iterable[int]) -> KeyScript:
        """Return a script whose times are numbers of dispatch points at these cycles, from 0."""
        points = list(cycles)
        return cls((points[number], way, key) for number, way, key in events)

    @property
    def frames(self) -> tuple[tuple[int, str, int], ...]:
        """The events with the frame of each in place of its cycle."""
        return tuple((cycle // FRAME, way, key) for cycle, way, key in self.events)

    # ---- what is held

    def changes(self) -> Iterator[tuple[int, int]]:
        """Yield each cycle at which keys change, with a bit for each key that is down then."""
        mask, at = 0, 0
        while at < len(self.events):
            cycle, before = self.events[at].cycle, mask
            while at < len(self.events) and self.events[at].cycle == cycle:
                _, way, key = self.events[at]
                mask = mask | 1 << key if way == "down" else mask & ~(1 << key)
                at += 1
            if mask != before:
                yield cycle, mask

    def held(self, cycle: int) -> frozenset[int]:
        """Return the keys that are down at a cycle."""
        mask = 0
        for at, keys in self.changes():
            if at > cycle:
                break
            mask = keys
        return frozenset(key for key in range(16) if mask >> key & 1)

    # ---- as a sequence

    def __len__(self) -> int:
        return len(self.events)

    def __iter__(self) -> Iterator[KeyEvent]:
        return iter(self.events)

    def __add__(self, other: Iterable[Iterable[object]]) -> KeyScript:
        return KeyScript((*self.events, *other))

    def until(self, cycle: int) -> KeyScript:
        """Return the events before a cycle."""
        return KeyScript(event for event in self.events if event.cycle < cycle)

    def __repr__(self) -> str:
        shown = ", ".join(f"({cycle}, {way!r}, {key})" for cycle, way, key in self.events[:3])
        more = f", .. {len(self.events) - 3:,} more" if len(self.events) > 3 else ""
        return f"KeyScript([{shown}{more}])"

    # ---- a smaller script

    def minimise(self, fails: Callable[[KeyScript], bool]) -> KeyScript:
        """Return a script with as few of these events as it finds for which `fails` still is true.

        No single event of the result can be left out. `fails` is asked again and again, so let it
        begin at the machine's state before the first event that matters: `vip.minimise` does that.
        """
        return KeyScript(smallest(list(self.events), lambda events: fails(KeyScript(events))))


def smallest(events: list[KeyEvent], fails: Callable[[list[KeyEvent]], bool]) -> list[KeyEvent]:
    """Return a part of the events that fails, and that doesn't fail without any one of them.

    This is delta debugging, after Zeller and Hildebrandt: halves, quarters and so on are left out.
    """
    if not fails(events):
        raise ValueError("the whole script doesn't fail")
    parts = 2
    while len(events) >= 2:
        size = -(-len(events) // parts)
        for start in range(0, len(events), size):
            rest = events[:start] + events[start + size :]
            if fails(rest):
                events, parts = rest, max(parts - 1, 2)
                break
        else:
            if size == 1:
                break
            parts = min(2 * parts, len(events))
    return [] if len(events) == 1 and fails([]) else events
