"""The device of libvip.so: its structs and its functions, as include/vip_device.h declares them."""
from __future__ import annotations

import ctypes
from typing import Any, Callable

from . import _engine

SIZE = 9424
MOST_TURNS = 128
MOST_PLACES = 8
RAM = 4096
ROM = 2048
MOST_GAME = {False: 3232, True: 2976}
ANY_P = 0xFF
GAME_STATE, BOARD_STATE = 4147, 6195
NO_GAME = -8

ERRORS = {
    -1: "a wrong number of bytes or places",
    -2: "the bytes don't fit into memory at this address",
    -3: "a number is out of its range",
    -4: "this is no machine state",
    -5: "the machine state names no variant",
    -6: "the machine state has a cycle that it can't have",
    -7: "the machine state has registers that it can't have",
    -8: "the board runs no game",
}
STOPS = {
    11: "MachineCall",
    12: "Unknown",
    13: "FetchOutside",
    14: "ReadOutside",
    15: "WriteOutside",
    16: "StackFull",
    17: "StackEmpty",
}


class RegistersStruct(ctypes.Structure):
    """The struct vip_registers."""

    _fields_ = [("r", ctypes.c_uint16 * 16)] + [
        (name, ctypes.c_uint8)
        for name in (
            "d",
            "df",
            "p",
            "x",
            "t",
            "q",
            "ie",
            "idle",
            "latch",
            "display",
            "key",
            "unused",
        )
    ]


class DeviceStruct(ctypes.Structure):
    """The struct vip_device."""

    _fields_ = [
        ("cycle", ctypes.c_uint64),
        ("pictures", ctypes.c_uint64),
        ("frame", ctypes.c_uint64),
        ("turns", ctypes.c_uint64 * MOST_TURNS),
        ("turn_count", ctypes.c_uint32),
        ("kind", ctypes.c_uint8),
        ("place", ctypes.c_uint8),
        ("shown", ctypes.c_uint8),
        ("unused", ctypes.c_uint8),
        ("registers", RegistersStruct),
        ("unused_too", ctypes.c_uint8 * 4),
        ("picture", ctypes.c_uint8 * 1024),
        ("lines", ctypes.c_uint8 * 1024),
        ("lengths", ctypes.c_uint8 * 128),
        ("ram", ctypes.c_uint8 * RAM),
        ("rom", ctypes.c_uint8 * ROM),
    ]


class PlaceStruct(ctypes.Structure):
    """The struct vip_place."""

    _fields_ = [("address", ctypes.c_uint16), ("p", ctypes.c_uint8), ("unused", ctypes.c_uint8)]


class StateStruct(ctypes.Structure):
    """The struct vip_state."""

    _fields_ = [
        ("pc", ctypes.c_uint16),
        ("i", ctypes.c_uint16),
        ("opcode", ctypes.c_uint16),
        ("ticks", ctypes.c_uint16),
        ("stack", ctypes.c_uint16 * 12),
        ("screen_size", ctypes.c_uint16),
        ("has_opcode", ctypes.c_uint8),
        ("depth", ctypes.c_uint8),
        ("v", ctypes.c_uint8 * 16),
        ("dt", ctypes.c_uint8),
        ("st", ctypes.c_uint8),
        ("tone", ctypes.c_uint8),
        ("random", ctypes.c_uint8),
        ("at_point", ctypes.c_uint8),
        ("stop", ctypes.c_uint8),
        ("screen", ctypes.c_uint8 * 512),
    ]


class Calls:
    """The functions of the library, with their types."""

    def __init__(self, path: str):
        library = ctypes.CDLL(path)
        size, text, void = ctypes.c_size_t, ctypes.c_char_p, ctypes.c_void_p
        u8, u16, u64 = ctypes.c_uint8, ctypes.c_uint16, ctypes.c_uint64

        def function(name: str, *types: Any, result: Any = ctypes.c_int32) -> Callable[..., Any]:
            found = getattr(library, "vip_device_" + name)
            found.argtypes, found.restype = list(types), result
            return found  # type: ignore[no-any-return]

        self.reset = function("reset", void, text, size, u8)
        self.game = function("game", void, text, size, u8)
        self.write = function("write", void, u16, text, size)
        self.read = function("read", void, u16, void, size)
        self.set_registers = function("set_registers", void, void)
        self.run = function("run", void, u16, u64)
        self.frame = function("frame", void, u16, u64)
        self.run_to = function("run_to", void, u16, u64, void, size)
        self.opcode = function("opcode", void, u16, u64)
        self.move = function("move", void, u16, u64)
        self.state = function("state", void, void)
        self.save = function("save", void, u8, void, size)
        self.load = function("load", void, text, size)
        self.opcode_text = function("opcode_text", u16, void, size)
        self.instruction_text = function("instruction_text", void, u16, void, size)
        if function("size", result=size)() != SIZE or ctypes.sizeof(DeviceStruct) != SIZE:
            raise ImportError(f"{path} has a device of another size than this module")


_calls: list[Calls] = []


def calls() -> Calls:
    """Return the functions of the library, which is loaded at the first call."""
    if not _calls:
        path = _engine.library_path()
        try:
            _calls.append(Calls(path))
        except (OSError, AttributeError):
            raise ImportError(
                "vip.Machine and vip.Run need a library with the functions of vip_device.h, and "
                f"{path} has none: it is older than this module"
            ) from None
    return _calls[0]
