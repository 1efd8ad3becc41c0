"""Calls of `vip`, by its library, or by processes if VIP_PROGRAM names a program."""
from __future__ import annotations

import ctypes
import mmap
import os
import shutil
import subprocess
import tempfile
from typing import Any, Mapping, Sequence, Union

HERE = os.path.dirname(os.path.realpath(__file__))
# the folder of a checkout or of what ./install puts below a prefix
TOP = os.path.dirname(os.path.dirname(HERE))
PREFIX = os.path.dirname(os.path.dirname(TOP))
# bytes of the output buffer of a first call; pages that aren't written take no memory
ROOM = 1 << 25


class _File(ctypes.Structure):
    _fields_ = [
        (name, ctypes.c_size_t) for name in ("name", "name_length", "content", "content_length")
    ]


class _Lengths(ctypes.Structure):
    _fields_ = [("out", ctypes.c_size_t), ("err", ctypes.c_size_t)]


class Library:
    """Calls of `vip_run` of libvip.so. Threads may call at once."""

    def __init__(self, path: str):
        self.path = path
        self._run = ctypes.CDLL(path).vip_run
        size, text = ctypes.c_size_t, ctypes.c_char_p
        self._run.restype = ctypes.c_uint8
        pointer, lengths = ctypes.c_void_p, ctypes.POINTER(_Lengths)
        sources: list[Any] = [text, size, pointer, size, text, size]
        self._run.argtypes = [*sources, pointer, size, pointer, size, lengths]

    def __call__(
        self, words: Sequence[str], files: Mapping[str, bytes]
    ) -> tuple[int, bytes, bytes]:
        line = b"".join(word.encode() + b"\0" for word in words)
        places, at = (_File * (len(files) or 1))(), 0
        parts: list[bytes] = []
        for place, (title, content) in zip(places, files.items()):
            name = title.encode()
            place.name, place.name_length = at, len(name)
            place.content, place.content_length = at + len(name), len(content)
            parts += (name, content)
            at += len(name) + len(content)
        held, lengths = b"".join(parts), _Lengths()
        room, said = ROOM, 1 << 16
        while True:
            out, err = mmap.mmap(-1, room, mmap.MAP_PRIVATE | mmap.MAP_ANONYMOUS), bytearray(said)
            into = (ctypes.c_char * room).from_buffer(out)
            report = (ctypes.c_char * said).from_buffer(err)
            given = line, len(line), places, len(files), held, len(held)
            status = self._run(*given, into, room, report, said, lengths)
            if lengths.out <= room and lengths.err <= said:
                return status, out[: lengths.out], bytes(memoryview(err)[: lengths.err])
            # (a call is a function of its arguments and files, so the same output comes again)
            room, said = max(room, lengths.out), max(said, lengths.err)


class Processes:
    """Calls of the program `vip`, each over a folder of its own with the files."""

    def __init__(self, path: str):
        self.path = path

    def __call__(
        self, words: Sequence[str], files: Mapping[str, bytes]
    ) -> tuple[int, bytes, bytes]:
        if any(b"\0" in word.encode() for word in words):
            return 2, b"", b""
        with tempfile.TemporaryDirectory(prefix="vip-") as folder:
            for name, content in files.items():
                path = os.path.normpath(os.path.join(folder, name))
                if not path.startswith(folder + os.sep):
                    raise ValueError(
                        f"without the library a file's name stays in one folder: {name!r}"
                    )
                os.makedirs(os.path.dirname(path), exist_ok=True)
                with open(path, "wb") as file:
                    file.write(content)
            ran = subprocess.run(
                [self.path, *words],
                cwd=folder,
                stdin=subprocess.DEVNULL,
                capture_output=True,
                check=False,
            )
        return ran.returncode, ran.stdout, ran.stderr


Engine = Union[Library, Processes]


def library_path() -> str:
    """Return the path of the library: the one VIP_LIBRARY names, else beside the module, of the
    checkout, of the prefix, or of the system, the first that is there.
    """
    if "VIP_LIBRARY" in os.environ:
        return os.environ["VIP_LIBRARY"]
    beside = os.path.join(HERE, "libvip.so")
    if os.path.exists(beside):
        return beside
    choose = os.path.join(TOP, "share", "choose")
    if os.path.exists(choose):
        # (the library that ./vip would use: the one made from the sources of this checkout)
        command = [choose, "library", "--no-build"]
        chosen = subprocess.run(command, capture_output=True, text=True, check=False)
        if chosen.returncode != 0:
            raise ImportError(chosen.stderr.strip() or "share/choose finds no libvip.so")
        return chosen.stdout.strip()
    installed = os.path.join(PREFIX, "lib", "libvip.so.1")
    return installed if os.path.exists(installed) else "libvip.so.1"


def engine() -> Engine:
    """Return the library, or the program if VIP_PROGRAM names one.

    Raises ImportError if there is no library. Calls by processes are some 50 times slower,
    so they are never used unless they are asked for.
    """
    if "VIP_PROGRAM" in os.environ:
        program = shutil.which(os.environ["VIP_PROGRAM"])
        if not program:
            raise ImportError(f"VIP_PROGRAM names no program: {os.environ['VIP_PROGRAM']}")
        return Processes(os.path.abspath(program))
    path = library_path()
    try:
        return Library(path)
    except (OSError, AttributeError) as fault:
        raise ImportError(
            f"vip needs its library, and {path} can't be loaded ({fault}): install the module by "
            "`pip install ./python` in a checkout, which has libvip.so in it, or set "
            "VIP_LIBRARY to its path"
        ) from fault
