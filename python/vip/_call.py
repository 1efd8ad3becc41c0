"""Calls of `vip`: arguments and files go in, the status, the output and the message come out."""
from __future__ import annotations

from typing import Container, Mapping, Sequence

from . import _texts
from ._engine import Library, engine

HAS_STOPPED, NO_POINT, BAD_SOURCE, NO_CERTIFICATE = 1, 16, 7, 21  # statuses

# (at import, so that a module without its library says so there)
_ENGINE = engine()


class Refused(Exception):
    """A call that `vip` rejects: its status (docs/STATUSES.md), and its message, one line.

    `why` is what `vip why` says of the same arguments, or ''.
    """

    def __init__(self, status: int, report: str, why: str = ""):
        super().__init__(f"{report or 'rejected'} (status {status}){': ' + why if why else ''}")
        self.status, self.report, self.why = status, report, why


class SourceError(Refused):
    """A source with errors: all that `check` reports, in order."""

    def __init__(self, status: int, report: str, faults: _texts.Faults):
        super().__init__(status, report)
        self.faults = faults

    def __str__(self) -> str:
        shown = "".join(f"\n{fault}" for fault in self.faults[:5])
        more = len(self.faults) - 5
        return f"{self.report}{shown}{f'{chr(10)}and {more} more' if more > 0 else ''}"


def call(words: Sequence[str], files: Mapping[str, bytes] | None = None) -> tuple[int, bytes, str]:
    """Return the status, the output and the message of `vip` on these arguments and files."""
    status, out, err = _ENGINE(list(words), files or {})
    return status, out, err.decode(errors="replace").rstrip("\n")


def uses_library() -> bool:
    """Return whether calls go to the library, and not to the program, a process each."""
    return isinstance(_ENGINE, Library)


def done(
    words: Sequence[str], files: Mapping[str, bytes] | None = None, also: Container[int] = ()
) -> tuple[bytes, str]:
    """Return the output and the message of a call, or raise Refused."""
    status, out, report = call(words, files)
    if status != 0 and status not in also:
        why = call(["why", *words])[1].decode(errors="replace").strip() if status == 2 else ""
        raise Refused(status, report, why)
    return out, report


def encoded(text: str | bytes) -> bytes:
    """Return a text as bytes."""
    return text.encode() if isinstance(text, str) else bytes(text)
