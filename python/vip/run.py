"""A run of a game as a value: its start, its key script, and the cycle at which it is."""
from __future__ import annotations

import ctypes
import os
import threading
from dataclasses import dataclass
from typing import Any, Iterable, Iterator, NamedTuple, Sequence

from . import _device, _texts
from ._call import HAS_STOPPED, NO_POINT, Refused, done
from ._device import DeviceStruct, StateStruct
from ._texts import Point, Step
from .keys import FRAME, KeyEvent, KeyScript, MOST_CYCLES
from .machine import DeviceError, LOOK, Stop
from .pictures import HEAD, Picture, Screen

_DISPATCH, _PICTURE = 4, 1
_DARK = {False: Screen(("." * 64,) * 32), True: Screen(("." * 64,) * 64)}


class Profile(NamedTuple):
    """Where the time of a run goes.

    It has the steps and their cycles, the cycles of the first and the last point, the whole frames,
    the least, the mean and the most of the points in one frame, and a row for each address.
    """

    steps: int
    cycles: int
    first: int
    last: int
    frames: int
    least: int
    mean: float
    most: int
    rows: tuple[Step, ...]


@dataclass(frozen=True)
class Frame:
    """A frame of a run.

    `run` is the run at the end of the frame, `points` are the dispatch points in it, and `picture`
    is the picture that was finished in it, or None.
    """

    run: Run
    points: tuple[Point, ...]
    picture: Picture | None

    @property
    def cycle(self) -> int:
        """The cycle at which the frame is over."""
        return self.run.cycle

    @property
    def screen(self) -> Screen | None:
        """The picture as a screen."""
        return self.picture.screen(self.run.tall) if self.picture else None


class _Keys:
    """The first events of a list that runs share, so that adding one at the end copies none."""

    __slots__ = ("events", "count")

    def __init__(self, events: list[KeyEvent], count: int):
        self.events, self.count = events, count

    def with_event(self, event: KeyEvent) -> _Keys:
        at = self.count
        while at and self.events[at - 1].cycle > event.cycle:
            at -= 1
        if at == self.count == len(self.events):
            self.events.append(event)
            return _Keys(self.events, at + 1)
        events = [*self.events[:at], event, *self.events[at : self.count]]
        return _Keys(events, len(events))

    def after(self, cycle: int) -> int:
        """Return the number of the first event after a cycle."""
        low, high = 0, self.count
        while low < high:
            middle = (low + high) // 2
            if self.events[middle].cycle <= cycle:
                low = middle + 1
            else:
                high = middle
        return low

    def mask(self, cycle: int) -> int:
        """Return the keys that are down at a cycle, a bit for each."""
        mask = 0
        for _, way, key in self.events[: self.after(cycle)]:
            mask = mask | 1 << key if way == "down" else mask & ~(1 << key)
        return mask


class _Place(NamedTuple):
    """A device, and the keys that are down there."""

    device: bytes
    mask: int
    event: int  # the first event that comes later


class _Scratch(threading.local):
    """One device for each thread, in which runs are made."""

    def __init__(self) -> None:
        self.calls = _device.calls()
        self.struct = DeviceStruct()
        self.at = ctypes.addressof(self.struct)
        self.state = StateStruct()
        self.state_at = ctypes.addressof(self.state)

    def take(self, device: bytes) -> None:
        ctypes.memmove(self.at, device, _device.SIZE)

    def point(self) -> Point:
        self.calls.state(self.at, self.state_at)
        s = self.state
        opcode = s.opcode if s.has_opcode else None
        stack = tuple(s.stack[: s.depth])
        return Point(
            s.pc,
            opcode,
            tuple(s.v),
            s.i,
            s.dt,
            s.st,
            bool(s.tone),
            stack,
            s.ticks,
            int(self.struct.cycle),
        )


_scratch: list[_Scratch] = []


def _device_here() -> _Scratch:
    if not _scratch:
        _scratch.append(_Scratch())
    return _scratch[0]


class Run:
    """A run of a game from reset up to a cycle, under a key script.

    It is a value: no method changes it, and each move gives another run. So a run can be kept,
    compared, gone back to, and continued twice. To continue takes only the time of the cycles that
    are added.
    """

    __slots__ = ("game", "tall", "cycle", "saved", "_keys", "_here", "_last", "_last_at")

    game: bytes
    tall: bool
    cycle: int
    saved: bytes | None
    _keys: _Keys
    _here: _Place
    _last: _Place | None
    _last_at: int

    def __init__(
        self,
        game: bytes,
        keys: Iterable[Iterable[object]] = (),
        tall: bool = False,
        cycle: int = 0,
        saved: bytes | None = None,
    ):
        if isinstance(game, (str, os.PathLike)):
            raise TypeError(
                f"a game is bytes: use open({os.fspath(game)!r}, 'rb').read(), or "
                "vip.Machine.game, which takes a path"
            )
        script = keys if isinstance(keys, KeyScript) else KeyScript(keys)
        self._set(
            bytes(game),
            bool(tall),
            _limit(cycle),
            saved,
            _Keys(list(script.events), len(script.events)),
        )
        start = self._start()
        self._put("_here", self._reach(start, self.cycle))
        self._put("_last", None)
        self._put("_last_at", -1)

    def _set(self, game: bytes, tall: bool, cycle: int, saved: bytes | None, keys: _Keys) -> None:
        for name, value in (
            ("game", game),
            ("tall", tall),
            ("cycle", cycle),
            ("saved", saved),
            ("_keys", keys),
        ):
            object.__setattr__(self, name, value)

    def _put(self, name: str, value: Any) -> None:
        object.__setattr__(self, name, value)

    def __setattr__(self, name: str, value: Any) -> None:
        raise AttributeError(f"a run is a value, so its {name} can't be set")

    @classmethod
    def from_state(cls, saved: bytes, keys: Iterable[Iterable[object]] = ()) -> Run:
        """Return the run that resumes at a saved state. Raise Refused if the file has an error."""
        saved = bytes(saved)
        done(["save", "s", "0", "--state"], {"s": saved}, also=(HAS_STOPPED,))
        return cls(b"", keys, tall=saved[5] == 1, cycle=_cycle_of(saved), saved=saved)

    # ---- the device

    def _start(self) -> _Place:
        scratch = _device_here()
        if self.saved is not None:
            result = scratch.calls.load(scratch.at, self.saved, len(self.saved))
            cycle = _cycle_of(self.saved)
        else:
            result = scratch.calls.game(scratch.at, self.game, len(self.game), self.tall)
            cycle = 0
        if result < 0:
            # (the program has the message)
            done(["trace", "g", "0", *(["--tall"] if self.tall else [])], {"g": self.game})
            raise DeviceError(result)
        return _Place(bytes(scratch.struct), self._keys.mask(cycle), self._keys.after(cycle))

    def _go(self, place: _Place, until: int, call: Any, each: Any) -> _Place:
        """Take a place into the scratch device, and run it until a cycle.

        `call` is the device's function, and `each` is called whenever it returns its own reason.
        """
        scratch, keys = _device_here(), self._keys
        scratch.take(place.device)
        mask, event = place.mask, place.event
        while True:
            change = keys.events[event].cycle if event < keys.count else MOST_CYCLES + LOOK
            result = call(scratch.at, mask, min(until, change))
            if result == 0 and change <= until:
                _, way, key = keys.events[event]
                mask = mask | 1 << key if way == "down" else mask & ~(1 << key)
                event += 1
            elif result in (_DISPATCH, _PICTURE):
                each(mask, event)
            elif result != 0 and change <= until:
                # (a device that makes no further move still has its keys)
                event = keys.after(until)
                mask = keys.mask(until)
                break
            else:
                break
        return _Place(bytes(scratch.struct), mask, event)

    def _reach(self, place: _Place, until: int) -> _Place:
        return self._go(place, until, _device_here().calls.run, None)

    def _point_place(self) -> _Place | None:
        """The last dispatch point at or before the cycle."""
        if self._last_at != self.cycle:
            begin = self._last or self._start()
            found = [self._last]
            if self._last is None and self.saved is not None:
                found[0] = begin
            scratch = _device_here()

            def each(mask: int, event: int) -> None:
                found[0] = _Place(bytes(scratch.struct), mask, event)

            self._go(begin, self.cycle, scratch.calls.opcode, each)
            self._put("_last", found[0])
            self._put("_last_at", self.cycle)
        return self._last

    def _with(self, cycle: int, keys: _Keys, here: _Place, last: _Place | None) -> Run:
        other = object.__new__(Run)
        other._set(self.game, self.tall, cycle, self.saved, keys)
        other._put("_here", here)
        other._put("_last", last)
        other._put("_last_at", -1)
        return other

    # ---- to other runs

    def advance(self, *, frames: int = 0, cycles: int = 0) -> Run:
        """Return the run a number of frames and cycles later."""
        if frames < 0 or cycles < 0:
            raise ValueError("a run goes on; keep an earlier one to go back")
        return self.to(self.cycle + frames * FRAME + cycles)

    def to(self, cycle: int) -> Run:
        """Return the run at a cycle. If it has passed that, it begins anew from its start."""
        if self.saved and cycle < _cycle_of(self.saved):
            raise ValueError("a run from a saved state doesn't go back before it")
        if _limit(cycle) >= self.cycle:
            return self._with(cycle, self._keys, self._reach(self._here, cycle), self._last)
        return self._with(cycle, self._keys, self._reach(self._start(), cycle), None)

    def press(self, key: int) -> Run:
        """Return the run with a key down from its cycle on. Later events of the script stay."""
        return self._event(key, "down")

    def release(self, key: int) -> Run:
        """Return the run with a key up from its cycle on."""
        return self._event(key, "up")

    def _event(self, key: int, way: str) -> Run:
        if self.stop:
            raise ValueError("the game has stopped, so no key changes anything")
        last = self._point_place()
        bit = 1 << key if 0 <= key <= 15 else 0
        if not bit:
            raise ValueError(f"a key is a number from 0 to 15, and not {key}")
        if bool(self._here.mask & bit) == (way == "down"):
            return self
        keys = self._keys.with_event(KeyEvent(self.cycle, way, key))
        mask = self._here.mask | bit if way == "down" else self._here.mask & ~bit
        run = self._with(
            self.cycle, keys, self._here._replace(mask=mask, event=keys.after(self.cycle)), last
        )
        run._put("_last_at", self.cycle)
        return run

    # ---- what is seen

    @property
    def keys(self) -> tuple[KeyEvent, ...]:
        """The events of the key script."""
        return tuple(self._keys.events[: self._keys.count])

    @property
    def script(self) -> KeyScript:
        """The key script."""
        return KeyScript(self.keys)

    def points(self, *, frames: int = 0, cycles: int = 0) -> list[Point]:
        """Return the present dispatch point, and those of the next frames and cycles."""
        points: list[Point] = []
        scratch, last = _device_here(), self._point_place()
        if last:
            scratch.take(last.device)
            points.append(scratch.point())
        end = _limit(self.cycle + frames * FRAME + cycles)
        self._go(
            last or self._start(),
            end,
            scratch.calls.opcode,
            lambda mask, event: points.append(scratch.point()),
        )
        return points

    def pictures(self, *, frames: int = 0, cycles: int = 0) -> list[Picture]:
        """Return the pictures that are finished in the next frames and cycles."""
        pictures: list[Picture] = []
        scratch = _device_here()
        end = _limit(self.cycle + frames * FRAME + cycles)
        self._go(
            self._here,
            end,
            scratch.calls.frame,
            lambda mask, event: pictures.append(Picture(HEAD + bytes(scratch.struct.picture))),
        )
        return pictures

    def frames(self, count: int) -> Iterator[Frame]:
        """Yield the next frames, up to the one in which the game stops."""
        run, scratch = self, _device_here()
        for _ in range(count):
            points: list[Point] = []
            last: list[_Place | None] = [run._point_place()]
            before = int.from_bytes(run._here.device[8:16], "little")

            def each(mask: int, event: int) -> None:
                last[0] = _Place(bytes(scratch.struct), mask, event)
                points.append(scratch.point())

            over = _limit(run.cycle + FRAME)
            here = run._go(run._here, over, scratch.calls.opcode, each)
            pictures = int.from_bytes(here.device[8:16], "little")
            after = run._with(over, run._keys, here, last[0])
            after._put("_last_at", over)
            inside = tuple(point for point in points if run.cycle < point.cycle)
            if after.stop and not inside:
                return
            shown = Picture(HEAD + here.device[1104:2128]) if pictures != before else None
            yield Frame(after, inside, shown)
            if after.stop:
                return
            run = after

    @property
    def state(self) -> Point | None:
        """The last dispatch point, or None before the first one."""
        last = self._point_place()
        if not last:
            return None
        scratch = _device_here()
        scratch.take(last.device)
        return scratch.point()

    @property
    def screen(self) -> Screen:
        """What memory held as the screen at the last dispatch point: not what was shown."""
        last = self._point_place()
        if not last:
            return _DARK[self.tall]
        scratch = _device_here()
        scratch.take(last.device)
        scratch.calls.state(scratch.at, scratch.state_at)
        return Screen.of_bytes(bytes(scratch.state.screen[: scratch.state.screen_size]))

    @property
    def picture(self) -> Picture | None:
        """The last finished picture: what was shown. None if the run has none yet."""
        device = self._here.device
        return Picture(HEAD + device[1104:2128]) if int.from_bytes(device[8:16], "little") else None

    @property
    def stop(self) -> Stop | None:
        """Why the game has stopped, with the cycle, or None."""
        scratch = _device_here()
        scratch.take(self._here.device)
        scratch.calls.state(scratch.at, scratch.state_at)
        code = scratch.state.stop
        if not code:
            return None
        state = self.state
        cycle = int.from_bytes(self._here.device[:8], "little")
        return Stop(
            _device.STOPS[code], state.opcode if state else None, state.pc if state else 0, cycle
        )

    @property
    def memory(self) -> bytes:
        """The 4,096 bytes of RAM at the last dispatch point, and zeros before the first one."""
        last = self._point_place()
        return last.device[3280 : 3280 + 4096] if last else bytes(4096)

    def save(self) -> bytes:
        """Return the machine state at the last dispatch point.

        Raises Refused, with status 16, before the first one.
        """
        last = self._point_place()
        if last is None:
            raise Refused(NO_POINT, "vip: no dispatch point")
        scratch = _device_here()
        scratch.take(last.device)
        buffer = ctypes.create_string_buffer(_device.GAME_STATE)
        length = scratch.calls.save(scratch.at, 1, buffer, len(buffer))
        if length < 0:
            raise DeviceError(length)
        return buffer.raw[:length]

    def profile(self) -> Profile:
        """Return where the time of the run went, from its start."""
        start = ["--state"] if self.saved else ["--tall"] if self.tall else []
        words = ["profile", "g", str(self.cycle), *start, *(["--keys", "k"] if self.keys else [])]
        out, _ = done(
            words,
            {"g": self.saved or self.game, "k": str(self.script).encode()},
            also=(HAS_STOPPED,),
        )
        lines = out.decode().splitlines()
        one, two = lines[0].split(), lines[1].split()
        counts = (int(two[1]), int(two[4]), float(two[6]), int(two[8]))
        return Profile(
            int(one[1]),
            int(one[3]),
            int(one[5]),
            int(one[7]),
            *counts,
            tuple(map(_texts.step, lines[3:])),
        )

    # ---- as a value

    def _value(self) -> Sequence[Any]:
        return (self.game, self.keys, self.tall, self.cycle, self.saved)

    def __eq__(self, other: object) -> bool:
        if not isinstance(other, Run):
            return NotImplemented
        return self._value() == other._value()

    def __hash__(self) -> int:
        return hash((self.game, self.tall, self.cycle, self._keys.count))

    def __repr__(self) -> str:
        start = (
            f"state of {len(self.saved):,} bytes"
            if self.saved
            else f"game of {len(self.game):,} bytes"
        )
        tall = ", tall" if self.tall else ""
        return f"<Run: {start} at cycle {self.cycle:,}, {self._keys.count} key events{tall}>"


def _limit(cycle: int) -> int:
    if not 0 <= cycle <= MOST_CYCLES:
        raise ValueError(f"a cycle is from 0 to {MOST_CYCLES:,}")
    return cycle


def _cycle_of(saved: bytes) -> int:
    return int.from_bytes(saved[6:14], "big")
