"""A COSMAC VIP that runs: the board as a device, one call at a time.

    import vip
    machine = vip.Machine.game("pong.ch8")
    while not machine.stopped:
        machine.frame(keys={1} if ball_is_above(machine.picture) else {4})
    machine.log.write("played.keys")        # vip play pong.ch8 N --keys played.keys

A machine is mutable. `vip.Run` is a value: it never changes. Times are machine cycles since reset;
a frame has 3,668 of them, and a second has 60 frames. Keys are numbers from 0 to 15.
"""
from __future__ import annotations

import ctypes
import enum
import lzma
import os
import re
from dataclasses import dataclass, field
from struct import Struct
from typing import (
    TYPE_CHECKING,
    Any,
    Callable,
    Iterable,
    Iterator,
    Mapping,
    NamedTuple,
    TypeVar,
    Union,
)

from . import _device
from ._device import (
    ANY_P,
    BOARD_STATE,
    DeviceStruct,
    GAME_STATE,
    PlaceStruct,
    RegistersStruct,
    StateStruct,
)
from ._texts import Point
from .keys import FRAME, KeyEvent, KeyScript, MOST_CYCLES
from .pictures import HEAD, Picture, Screen

if TYPE_CHECKING:
    from .compare import At

Bytes = Union[bytes, bytearray, memoryview]
Source = Union[Bytes, str, "os.PathLike[str]"]
Place = Union[int, str]
M = TypeVar("M", bound="Machine")

# How far a run to a place or a step goes if nothing else is said: a minute.
LOOK = 3600 * FRAME


class DeviceError(ValueError):
    """A call that the device rejects. Nothing was changed. `code` is the error of vip_device.h."""

    def __init__(self, code: int, what: str = "", sentence: str = ""):
        said = f"{what}: {_device.ERRORS[code]}" if what else _device.ERRORS[code]
        super().__init__(sentence or said)
        self.code = code


class NoGame(DeviceError):
    """A question about CHIP-8 to a machine that runs no game."""


@dataclass(frozen=True)
class Stop:
    """Why a game stopped: the name of the stop, the opcode or None, pc, and the cycle.

    Two are equal if name, opcode and pc are: the cycle is not compared.
    """

    name: str
    opcode: int | None
    pc: int
    cycle: int = field(default=0, compare=False)


class Reason(enum.Enum):
    """Why a call that runs the machine returned."""

    LIMIT = 0
    PICTURE = 1
    PLACE = 2
    IDLE = 3
    DISPATCH = 4
    STOP = 5
    DMA = 21
    INTERRUPT = 22
    IDLE_CYCLE = 23
    INSTRUCTION = 24

    @property
    def is_end(self) -> bool:
        """Whether the machine makes no further move: at a stop, or idle with the display off."""
        return self in (Reason.STOP, Reason.IDLE)


_REASONS: list[Reason | None] = [None] * 25
for _reason in Reason:
    _REASONS[_reason.value] = _reason
for _code in _device.STOPS:
    _REASONS[_code] = Reason.STOP


class Registers:
    """The registers and switches of a machine. Setting one sets it on the board.

    `r` has R(0) to R(F). `d` is D; `df`, `p`, `x`, `t`, `q`, `ie` and `idle` are named as in the
    data sheet; `latch` is the boot latch, `display` the display, and `key` the latched key. Flags
    are bools.
    """

    __slots__ = ("_machine",)
    _FLAGS = frozenset(("df", "q", "ie", "idle", "latch", "display"))
    _NUMBERS = frozenset(("d", "p", "x", "t", "key"))

    def __init__(self, machine: Machine):
        object.__setattr__(self, "_machine", machine)

    def __getattr__(self, name: str) -> Any:
        struct = self._machine._struct.registers
        if name in self._FLAGS:
            return bool(getattr(struct, name))
        if name in self._NUMBERS:
            return getattr(struct, name)
        if name == "r":
            return _RegisterFile(self._machine)
        raise AttributeError(f"the machine has no register {name!r}")

    def __setattr__(self, name: str, value: Any) -> None:
        if name == "r":
            values = list(value)
            if len(values) != 16:
                raise ValueError(f"there are 16 registers, and not {len(values)}")
            self._machine._set_registers({f"r{at}": each for at, each in enumerate(values)})
        elif name in self._FLAGS or name in self._NUMBERS:
            self._machine._set_registers({name: value})
        else:
            raise AttributeError(f"the machine has no register {name!r}")

    def set(self, **values: Any) -> None:
        """Set several at once, as `set(p=3, x=2, d=0x55)`."""
        self._machine._set_registers(values)

    @property
    def pc(self) -> int:
        """The program counter of the processor, R(P)."""
        struct = self._machine._struct.registers
        return int(struct.r[struct.p])

    def __repr__(self) -> str:
        struct = self._machine._struct.registers
        file = " ".join(f"{value:04X}" for value in struct.r)
        return (
            f"<P {struct.p:X} X {struct.x:X} D {struct.d:02X} DF {struct.df} Q {struct.q} "
            f"IE {struct.ie} T {struct.t:02X} R {file}>"
        )


class _RegisterFile:
    """R(0) to R(F)."""

    __slots__ = ("_machine",)

    def __init__(self, machine: Machine):
        self._machine = machine

    def __getitem__(self, number: int) -> int:
        return int(self._machine._struct.registers.r[range(16)[number]])

    def __setitem__(self, number: int, value: int) -> None:
        self._machine._set_registers({f"r{range(16)[number]}": value})

    def __len__(self) -> int:
        return 16

    def __iter__(self) -> Iterator[int]:
        return iter(self._machine._struct.registers.r)

    def __eq__(self, other: object) -> bool:
        if not isinstance(other, Iterable):
            return NotImplemented
        return list(self) == list(other)

    def __repr__(self) -> str:
        return repr([f"{value:04X}" for value in self])


# The keys of a machine: a chain of changes, the last one first. A snapshot keeps the last link.
class _Link(NamedTuple):
    before: _Link | None
    cycle: int
    mask: int


class Snapshot(NamedTuple):
    """A machine at one cycle: its bytes, and the keys that were pressed up to there."""

    device: bytes
    link: _Link | None
    mask: int

    @property
    def cycle(self) -> int:
        """The machine cycle."""
        return int.from_bytes(self.device[:8], "little")


def _limit(cycle: int) -> int:
    if not 0 <= cycle < 1 << 64:
        raise ValueError(f"a cycle is from 0 to 2^64 - 1, and not {cycle}")
    return cycle


def mask_of(keys: Iterable[int] | int) -> int:
    """Return a bit for each key, of a set of keys or of one key."""
    mask = 0
    for key in (keys,) if isinstance(keys, int) else keys:
        if not isinstance(key, int):
            raise TypeError(f"a key is a number from 0 to 15, and not {key!r}")
        if not 0 <= key <= 15:
            raise ValueError(f"a key is a number from 0 to 15, and not {key}")
        mask |= 1 << key
    return mask


def content_of(source: Source) -> bytes:
    """Return bytes as they are, or those of a file."""
    if isinstance(source, (str, os.PathLike)):
        with open(source, "rb") as file:
            return file.read()
    if not isinstance(source, (bytes, bytearray, memoryview)):
        raise TypeError(f"bytes or a path are needed, and not {type(source).__name__}")
    return bytes(source)


class Machine:
    """A COSMAC VIP. Make one with `Machine.game`, `Machine.board` or `Machine.load`."""

    def __init__(self) -> None:
        self._calls = _device.calls()
        self._struct = DeviceStruct()
        self._at = ctypes.addressof(self._struct)
        self._mask = 0
        self._link: _Link | None = None
        self._start = 0
        self._places: dict[tuple[tuple[int, int], ...], Any] = {}
        #: The labels for `run_to`: those of the source, if `vip.assemble` made the game.
        self.symbols: dict[str, int] = {}

    # ---- setting up

    @classmethod
    def game(cls: type[M], game: Source, *, tall: bool = False) -> M:
        """Return a machine after reset with a CHIP-8 game, given as bytes or as the path of a file.

        `tall` chooses the variant with 64x64 pixels. A game has at most 3,232 bytes, or 2,976 if
        tall.
        """
        machine, content = cls(), content_of(game)
        most = _device.MOST_GAME[tall]
        if len(content) > most:
            sentence = f"a game has at most {most:,} bytes, and not {len(content):,}"
            raise DeviceError(-1, sentence=sentence)
        machine._done(machine._calls.game(machine._at, content, len(content), tall))
        machine.symbols = dict(getattr(game, "symbols", {}))
        return machine

    @classmethod
    def board(
        cls: type[M],
        *,
        rom: Source | None = None,
        ram: bytes | Iterable[tuple[int, Source]] | Mapping[int, Source] = (),
        latch: bool | None = None,
    ) -> M:
        """Return a board after reset, with bytes in its ROM and its RAM.

        `rom` has 1 to 2,048 bytes from 0x8000 on. `ram` has addresses and bytes, or is what
        `vip.assemble` returned, which goes to its own address. The boot latch is set if there is a
        ROM, so that the ROM's program runs; without a ROM the program at 0x0000 runs. `latch`
        overrides that.
        """
        machine = cls()
        content = b"\0" if rom is None else content_of(rom)
        if not 1 <= len(content) <= _device.ROM:
            sentence = f"a ROM has 1 to {_device.ROM:,} bytes, and not {len(content):,}"
            raise DeviceError(-1, sentence=sentence)
        machine._done(
            machine._calls.reset(
                machine._at, content, len(content), rom is not None if latch is None else latch
            )
        )
        if isinstance(ram, bytes):
            ram = [(getattr(ram, "address", 0), ram)]
        for address, source in ram.items() if isinstance(ram, Mapping) else ram:
            machine.write(address, content_of(source))
            machine.symbols.update(getattr(source, "symbols", {}))
        machine.symbols.update(getattr(rom, "symbols", {}))
        return machine

    @classmethod
    def load(cls: type[M], state: Source) -> M:
        """Return a machine that resumes at a machine state, of `vip save` or `Machine.save`."""
        machine, content = cls(), content_of(state)
        machine._done(machine._calls.load(machine._at, content, len(content)), "a machine state")
        machine._start = machine.cycle
        return machine

    def save(self) -> bytes:
        """Return a machine state: of a game if it is at a dispatch point, else of the board."""
        for kind, size in ((1, GAME_STATE), (2, BOARD_STATE)):
            buffer = ctypes.create_string_buffer(size)
            result = self._calls.save(self._at, kind, buffer, size)
            if result > 0:
                return buffer.raw[:result]
        raise DeviceError(result, "a machine state")

    # ---- results

    def _done(self, result: int, what: str = "") -> int:
        if result < 0:
            raise (NoGame if result == _device.NO_GAME else DeviceError)(result, what)
        return result

    def _reason(self, result: int) -> Reason:
        if result < 0:
            self._done(result)
        return _REASONS[result]  # type: ignore[return-value]

    # ---- keys

    @property
    def keys(self) -> frozenset[int]:
        """The keys that are held down. Set it to hold others."""
        return frozenset(key for key in range(16) if self._mask >> key & 1)

    @keys.setter
    def keys(self, keys: Iterable[int]) -> None:
        self._mask = mask_of(keys)

    def press(self, *keys: int) -> None:
        """Hold keys down from here on."""
        self._mask |= mask_of(keys)

    def release(self, *keys: int) -> None:
        """Let keys go, or all of them if none is named."""
        self._mask &= ~mask_of(keys) if keys else 0

    @property
    def log(self) -> KeyScript:
        """What was pressed so far, as a key script.

        `vip trace`, `play` and `profile` with it give the same run.
        """
        links, link = [], self._link
        while link:
            links.append(link)
            link = link.before
        events, before = [], 0
        for link in reversed(links):
            for key in range(16):
                if (before ^ link.mask) >> key & 1:
                    events.append(
                        KeyEvent(link.cycle, "down" if link.mask >> key & 1 else "up", key)
                    )
            before = link.mask
        return KeyScript(events)

    def _note(self, keys: Iterable[int] | int | None) -> int:
        """Note the keys of a call that begins here, and return them."""
        if keys is not None:
            self._mask = mask_of(keys)
        mask, link = self._mask, self._link
        if (link.mask if link else 0) != mask:
            cycle = self._struct.cycle
            # (keys that changed twice at one cycle are one change)
            while link and link.cycle >= cycle:
                link = link.before
            self._link = _Link(link, cycle, mask) if (link.mask if link else 0) != mask else link
        return mask

    # ---- running

    def frame(self, n: int = 1, *, keys: Iterable[int] | int | None = None) -> Reason:
        """Run to the n-th next finished picture, with these keys held, or with those that are held.

        Return PICTURE, or why the machine stopped before: STOP, IDLE, or LIMIT if no picture comes
        within a minute, as with the display off.
        """
        if not isinstance(n, int) or n < 1:
            raise ValueError(f"a number of frames is a whole number of at least 1, and not {n}")
        mask, frame, at, struct = self._note(keys), self._calls.frame, self._at, self._struct
        result = 0
        for _ in range(n):
            result = frame(at, mask, struct.cycle + LOOK)
            if result != 1:
                break
        return self._reason(result)

    def run(
        self,
        cycles: int = FRAME,
        *,
        until: int | None = None,
        keys: Iterable[int] | int | None = None,
    ) -> Reason:
        """Run for a number of cycles, or until a cycle: no move is made that ends after it."""
        limit = _limit(self._struct.cycle + cycles if until is None else until)
        return self._reason(self._calls.run(self._at, self._note(keys), limit))

    def address(self, place: Place) -> int:
        """Return the address of a place: a number, or a name of the source."""
        if isinstance(place, int):
            if not 0 <= place <= 0xFFFF:
                raise ValueError(f"an address is from 0 to 0xFFFF, and not {place:#x}")
            return place
        try:
            return self.symbols[place]
        except KeyError:
            raise ValueError(f"the source has no label {place!r}") from None

    def run_to(
        self,
        *places: Place,
        p: int | None = None,
        count: int = 1,
        limit: int | None = None,
        keys: Iterable[int] | int | None = None,
    ) -> Reason:
        """Run until the machine is about to execute at one of 1 to 8 places: PLACE.

        At least one move is made. `place` then has the number of the place, and `count` chooses the
        n-th time that one is reached. A place is an address or a label. In a game it is one of
        CHIP-8: the run ends at the dispatch point with that pc. With `p`, and on a board without a
        game, it is an address of the processor, for this P or for any. `limit` is a cycle, one
        minute from here if none is given.
        """
        addresses = tuple(map(self.address, places))
        if not 1 <= len(addresses) <= _device.MOST_PLACES:
            raise ValueError(
                f"there are 1 to {_device.MOST_PLACES} places, and not {len(addresses)}"
            )
        if p is not None and not 0 <= p <= 15:
            raise ValueError(f"P is from 0 to 15, and not {p}")
        if count < 1:
            raise ValueError(f"count is at least 1, and not {count}")
        end = _limit(self._struct.cycle + LOOK if limit is None else limit)
        mask = self._note(keys)
        if self.is_game and p is None:
            return self._run_to_pc(mask, addresses, end, count)
        wanted = tuple((address, ANY_P if p is None else p) for address in addresses)
        if wanted not in self._places:
            self._places[wanted] = (PlaceStruct * len(wanted))(
                *(PlaceStruct(*each) for each in wanted)
            )
        given = self._places[wanted]
        result = 0
        for _ in range(count):
            result = self._calls.run_to(self._at, mask, end, given, len(wanted))
            if result != Reason.PLACE.value:
                break
        return self._reason(result)

    def _run_to_pc(self, mask: int, addresses: tuple[int, ...], end: int, count: int) -> Reason:
        # (R5 is pc, by the interpreter's map)
        opcode, at, struct = self._calls.opcode, self._at, self._struct
        while True:
            result = opcode(at, mask, end)
            if result != Reason.DISPATCH.value:
                return self._reason(result)
            if struct.registers.r[5] in addresses:
                count -= 1
                if not count:
                    struct.place = addresses.index(struct.registers.r[5])
                    return Reason.PLACE

    def run_until(
        self,
        condition: Callable[[Machine], object],
        unit: str | None = None,
        *,
        limit: int | None = None,
        keys: Iterable[int] | int | None = None,
    ) -> Reason:
        """Make steps until a condition holds after one, and return the last step's reason.

        The condition is a function of the machine, as `lambda m: m.memory[0x0EF3] == 5`. Return
        LIMIT if it holds after no step up to the cycle `limit`, one minute from here if none is
        given.
        """
        end = _limit(self._struct.cycle + LOOK if limit is None else limit)
        reason = self.step(1, unit, limit=end, keys=keys)
        while reason.value >= Reason.DISPATCH.value and not reason.is_end and not condition(self):
            reason = self.step(1, unit, limit=end)
        return reason

    @property
    def place(self) -> int:
        """The number of the place at which the last `run_to` ended."""
        return int(self._struct.place)

    def step(
        self,
        n: int = 1,
        unit: str | None = None,
        *,
        limit: int | None = None,
        keys: Iterable[int] | int | None = None,
    ) -> Reason:
        """Make n steps: opcodes of a game, or instructions with the moves before each.

        `unit` is "opcode", "instruction" or "move". A move is one instruction, one DMA cycle, one
        interrupt or one idle cycle. The default is "opcode" for a game and "instruction" for a
        board. `limit` is a cycle, one minute after each step's beginning if none is given.
        """
        unit = unit or ("opcode" if self.is_game else "instruction")
        if unit not in ("opcode", "instruction", "move"):
            raise ValueError(f'a unit is "opcode", "instruction" or "move", and not {unit!r}')
        if n < 1:
            raise ValueError(f"a number of steps is at least 1, and not {n}")
        if unit == "opcode" and not self.is_game:
            raise NoGame(_device.NO_GAME, 'a step of an "opcode"')
        end = None if limit is None else _limit(limit)
        mask, at, struct = self._note(keys), self._at, self._struct
        call = self._calls.opcode if unit == "opcode" else self._calls.move
        done = 0
        result = Reason.LIMIT.value
        while done < n:
            result = call(at, mask, struct.cycle + LOOK if end is None else end)
            if result < Reason.DISPATCH.value or result in _device.STOPS:
                break
            done += unit != "instruction" or result == Reason.INSTRUCTION.value
        return self._reason(result)

    def play(self, script: KeyScript, until: int) -> Reason:
        """Run until a cycle under a key script, whose times count from reset."""
        reason = Reason.LIMIT
        changes = [change for change in script.changes() if change[0] < until]
        past = [mask for cycle, mask in changes if cycle <= self.cycle]
        if past:
            self._mask = past[-1]
        for cycle, mask in [
            *(change for change in changes if change[0] > self.cycle),
            (until, self._mask),
        ]:
            # (a key that changes during a move is seen by the next one)
            reason = self.run(until=cycle)
            if reason.is_end or cycle == until:
                break
            self._mask = mask
        return reason

    def points(
        self, fetch: int | None = None, p: int = 4, *, until: int | None = None, **options: Any
    ) -> Iterator[At]:
        """Yield the dispatch points from here on, of this project's interpreter or of another.

        `fetch` is the address of the other interpreter's fetch, as 0x001B of RCA's, and `p` is P
        there. `vip.compare.points` describes the options.
        """
        from .compare import points

        return points(self, fetch, p, until=until, **options)

    # ---- what there is

    @property
    def cycle(self) -> int:
        """The machine cycles since reset."""
        return int(self._struct.cycle)

    @property
    def pictures(self) -> int:
        """How many pictures were finished."""
        return int(self._struct.pictures)

    @property
    def is_game(self) -> bool:
        """Whether the machine runs a CHIP-8 game."""
        return bool(self._struct.kind)

    @property
    def is_tall(self) -> bool:
        """Whether the machine runs a game of the variant with 64x64 pixels."""
        return bool(self._struct.kind == 2)

    @property
    def picture(self) -> Picture | None:
        """What was shown last: the last finished picture, or None before the first one."""
        return Picture(HEAD + bytes(self._struct.picture)) if self._struct.pictures else None

    @property
    def picture_bytes(self) -> memoryview:
        """The 1,024 bytes of the last picture, 8 for each of 128 lines.

        It is a view of the machine: the bytes change as the machine runs.
        """
        return memoryview(self._struct.picture).cast("B").toreadonly()

    @property
    def q(self) -> bool:
        """Whether the tone sounds."""
        return bool(self._struct.registers.q)

    @property
    def q_changes(self) -> list[int]:
        """The cycles at which Q changed in the last call, the first 128 of them."""
        return list(self._struct.turns[: min(self._struct.turn_count, _device.MOST_TURNS)])

    def _state(self) -> StateStruct:
        state = StateStruct()
        self._done(self._calls.state(self._at, ctypes.addressof(state)))
        return state

    @property
    def state(self) -> Point:
        """The language state in the memory of the game: at a dispatch point, that of the game."""
        s = self._state()
        opcode = s.opcode if s.has_opcode else None
        return Point(
            s.pc,
            opcode,
            tuple(s.v),
            s.i,
            s.dt,
            s.st,
            bool(s.tone),
            tuple(s.stack[: s.depth]),
            s.ticks,
            self.cycle,
        )

    @property
    def at_point(self) -> bool:
        """Whether the machine is at a dispatch point."""
        return bool(self._state().at_point)

    @property
    def screen(self) -> Screen:
        """What the memory of the game holds as its screen now. What was shown is `picture`."""
        s = self._state()
        return Screen.of_bytes(bytes(s.screen[: s.screen_size]))

    @property
    def stopped(self) -> Stop | None:
        """Why the game stopped, with the cycle, or None."""
        if not self.is_game:
            return None
        s = self._state()
        if not s.stop:
            return None
        return Stop(_device.STOPS[s.stop], s.opcode if s.has_opcode else None, s.pc, self.cycle)

    @property
    def registers(self) -> Registers:
        """The registers and switches of the board."""
        return Registers(self)

    def _set_registers(self, values: Mapping[str, Any]) -> None:
        made = RegistersStruct.from_buffer_copy(self._struct.registers)
        for name, value in values.items():
            number = int(value)
            if name[0] == "r" and name[1:].isdecimal():
                if not 0 <= number <= 0xFFFF:
                    raise DeviceError(-3, f"R({int(name[1:]):X}) = {number}")
                made.r[int(name[1:])] = number
            elif name in Registers._FLAGS or name in Registers._NUMBERS:
                if not 0 <= number <= 0xFF:
                    raise DeviceError(-3, f"{name} = {number}")
                setattr(made, name, number)
            else:
                raise AttributeError(f"the machine has no register {name!r}")
        self._done(
            self._calls.set_registers(self._at, ctypes.addressof(made)),
            ", ".join(f"{name} = {value}" for name, value in values.items()),
        )

    @property
    def memory(self) -> memoryview:
        """The 4,096 bytes of RAM, which may be changed."""
        return memoryview(self._struct.ram).cast("B")

    @property
    def rom(self) -> memoryview:
        """The 2,048 bytes of ROM, which may be changed."""
        return memoryview(self._struct.rom).cast("B")

    def read(self, address: Place, count: int) -> bytes:
        """Return bytes as the processor reads them: through the boot latch, 0xFF without memory."""
        buffer = ctypes.create_string_buffer(max(count, 1))
        self._done(
            self._calls.read(self._at, self.address(address), buffer, count), f"{count} bytes"
        )
        return buffer.raw[:count]

    def write(self, address: Place, content: Bytes) -> None:
        """Write bytes into RAM or into ROM, whatever the boot latch is."""
        given = bytes(content)
        at = self.address(address)
        self._done(
            self._calls.write(self._at, at, given, len(given)), f"{len(given):,} bytes at {at:04X}"
        )

    @property
    def mnemonic(self) -> str:
        """The mnemonic of the next opcode of a game, or of the next instruction of a board."""
        if not self.is_game:
            return self.instruction(self.registers.pc)
        s = self._state()
        buffer = ctypes.create_string_buffer(16)
        length = self._done(self._calls.opcode_text(s.opcode, buffer, 16)) if s.has_opcode else 0
        return buffer.raw[:length].decode()

    def instruction(self, address: Place) -> str:
        """Return the mnemonic of the instruction of the processor at an address."""
        buffer = ctypes.create_string_buffer(16)
        length = self._done(
            self._calls.instruction_text(self._at, self.address(address), buffer, 16)
        )
        return buffer.raw[:length].decode()

    # ---- snapshots

    def snapshot(self) -> Snapshot:
        """Return the machine as it is now, with the keys that were pressed."""
        return Snapshot(bytes(self._struct), self._link, self._mask)

    def restore(self, snapshot: Snapshot) -> None:
        """Go to a snapshot, of this machine or of another."""
        ctypes.memmove(self._at, snapshot.device, _device.SIZE)
        self._link, self._mask = snapshot.link, snapshot.mask

    def copy(self) -> Machine:
        """Return another machine at the same point."""
        other = Machine()
        other.restore(self.snapshot())
        other.symbols, other._start = dict(self.symbols), self._start
        return other

    __copy__ = copy

    def __deepcopy__(self, memo: Any) -> Machine:
        return self.copy()

    def __repr__(self) -> str:
        kind = ("board", "game", "tall game")[self._struct.kind]
        held = " ".join(f"{key:X}" for key in sorted(self.keys))
        held = f", keys {held}" if held else ""
        return f"<Machine: {kind} at cycle {self.cycle:,}, {self.pictures:,} pictures{held}>"


def minimise(machine: Machine, script: KeyScript, until: int, fails: Any) -> KeyScript:
    """Return as few events of a key script as it finds with which a run until a cycle fails.

    `machine` is at the beginning of the run and stays there. `fails` is called with a machine that
    was run until the cycle, or to a stop before it. Each try begins at the state before the first
    event that it leaves out, so a long play is cheap.
    """
    from .keys import smallest

    events = list(script.until(until).events)
    start = machine.snapshot()
    tried = machine.copy()
    known: dict[int, tuple[list[KeyEvent], Snapshot]] = {}

    def run(part: list[KeyEvent]) -> bool:
        # the longest beginning of this part of which the state is known
        length, from_here = 0, start
        for count, (prefix, snapshot) in known.items():
            if length < count <= len(part) and part[:count] == prefix:
                length, from_here = count, snapshot
        tried.restore(from_here)
        whole = KeyScript(part)
        # (states are kept at eighths of the script)
        marks = sorted({len(part) * eighth // 8 for eighth in range(1, 8)} - {0})
        for count in marks:
            if (
                count <= length
                or part[count].cycle <= tried.cycle
                or part[count].cycle == part[count - 1].cycle
            ):
                continue
            reason = tried.play(whole, part[count].cycle)
            if reason.is_end:
                return bool(fails(tried))
            known[count] = (part[:count], tried.snapshot())
        tried.play(whole, until)
        return bool(fails(tried))

    return KeyScript(smallest(events, run))


class Rewind:
    """The last frames of a machine, to go back to. It keeps what changed from frame to frame.

    rewind = vip.Rewind(machine, frames=216_000)   # an hour
    machine.frame(keys=..); rewind.keep()
    rewind.back(90)
    """

    BLOCK = 120

    def __init__(self, machine: Machine, frames: int = 216_000):
        if frames < 1:
            raise ValueError("frames is at least 1")
        self.machine, self.frames = machine, frames
        # (each block is a snapshot and the differences of the frames after it, packed if full)
        self._packed: list[_Block] = []
        self._open: list[Snapshot] = []
        self.keep()

    def keep(self) -> None:
        """Keep the machine as it is now. Call it after each frame."""
        self._open.append(self.machine.snapshot())
        if len(self._open) == self.BLOCK:
            self._packed.append(_Block.of(self._open))
            self._open = []
            if len(self._packed) > self.frames // self.BLOCK + 1:
                del self._packed[0]

    def __len__(self) -> int:
        return min(len(self._packed) * self.BLOCK + len(self._open), self.frames + 1)

    @property
    def nbytes(self) -> int:
        """How many bytes are kept, the keys aside."""
        blocks = sum(block.nbytes for block in self._packed)
        return blocks + sum(len(snapshot.device) for snapshot in self._open)

    def back(self, frames: int = 1) -> None:
        """Take the machine back by a number of kept frames. What came after is forgotten."""
        if not 0 <= frames < len(self):
            raise ValueError(f"{len(self) - 1} frames are kept, so {frames} can't be gone back")
        while frames >= len(self._open):
            frames -= len(self._open)
            self._open = self._packed.pop().snapshots()
        if frames:
            del self._open[-frames:]
        self.machine.restore(self._open[-1])


class _Block(NamedTuple):
    """Snapshots in few bytes: their devices, and the numbers of their links."""

    devices: bytes
    links: list[_Link | None]
    numbers: bytes
    masks: bytes

    @classmethod
    def of(cls, snapshots: list[Snapshot]) -> _Block:
        links: list[_Link | None] = []
        numbers = bytearray()
        for snapshot in snapshots:
            if not links or links[-1] is not snapshot.link:
                links.append(snapshot.link)
            numbers.append(len(links) - 1)
        masks = b"".join(snapshot.mask.to_bytes(2, "little") for snapshot in snapshots)
        return cls(_pack([snapshot.device for snapshot in snapshots]), links, bytes(numbers), masks)

    def snapshots(self) -> list[Snapshot]:
        return [
            Snapshot(
                device,
                self.links[number],
                int.from_bytes(self.masks[2 * at : 2 * at + 2], "little"),
            )
            for at, (device, number) in enumerate(zip(_unpack(self.devices), self.numbers))
        ]

    @property
    def nbytes(self) -> int:
        """How many bytes it takes, the changes of keys aside, which the machine's log has."""
        return len(self.devices) + len(self.numbers) + len(self.masks) + 8 * len(self.links)


def _pack(devices: list[bytes]) -> bytes:
    """Return devices in few bytes: of each one the stretches that differ from the one before."""
    before, parts = 0, []
    for device in devices:
        number = int.from_bytes(device, "little")
        changed = (number ^ before).to_bytes(_device.SIZE, "little")
        stretches = [(found.start(), found[0]) for found in _CHANGED.finditer(changed)]
        parts.append(_SHORT.pack(len(stretches)))
        parts += [_TWO.pack(start, len(content)) + content for start, content in stretches]
        before = number
    return lzma.compress(b"".join(parts), format=lzma.FORMAT_RAW, filters=_FILTERS)


def _unpack(block: bytes) -> list[bytes]:
    content = lzma.decompress(block, format=lzma.FORMAT_RAW, filters=_FILTERS)
    devices, device, at = [], bytearray(_device.SIZE), 0
    while at < len(content):
        (count,) = _SHORT.unpack_from(content, at)
        at += 2
        for _ in range(count):
            start, length = _TWO.unpack_from(content, at)
            at += 4
            for number, byte in enumerate(content[at : at + length], start):
                device[number] ^= byte
            at += length
        devices.append(bytes(device))
    return devices


_CHANGED = re.compile(rb"[^\0]+")
_SHORT, _TWO = Struct("<H"), Struct("<HH")
_FILTERS = [{"id": lzma.FILTER_LZMA2, "preset": 0, "dict_size": 1 << 20}]
