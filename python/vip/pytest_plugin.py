"""A plugin for pytest: machines from files, certificates, and screens in failures.

    import pytest

    @pytest.mark.vip("pen.asm")
    def test_draws(machine):
        machine.frame(10, keys={6})
        assert machine.screen.lit == 10

    @pytest.mark.certified("ball.asm")
    def test_never_stops():
        pass

`@pytest.mark.vip(FILE)` names a game, or a source that ends in .asm; `tall=True` chooses the
variant with 64x64 pixels. The fixtures are `game`, its bytes, and `machine`, the machine after
reset. FILE is looked for beside the test. If a test fails, the last 300 frames that its machine
showed go into the folder `vip-failures` as a GIF.
"""
from __future__ import annotations

import collections
import importlib
import pathlib
import re
from typing import Any, Callable, Iterable, Iterator, TypeVar

import vip

pytest: Any = importlib.import_module("pytest")
F = TypeVar("F", bound=Callable[..., Any])
_fixture: Callable[[F], F] = pytest.fixture
KEPT = 300


def _hook(**options: bool) -> Callable[[F], F]:
    marked: Callable[[F], F] = pytest.hookimpl(**options)
    return marked


def pytest_configure(config: Any) -> None:
    """Declare the markers."""
    config.addinivalue_line(
        "markers", "vip(file, tall=False): the game of the fixtures `game` and `machine`"
    )
    config.addinivalue_line(
        "markers",
        "certified(file, tall=False): fails if the game has no certificate that it never stops",
    )


def _bytes_of(request: Any, marker: Any) -> tuple[bytes, bool]:
    if not marker.args:
        raise pytest.UsageError(f"@pytest.mark.{marker.name} names a file")
    path = pathlib.Path(request.path).parent / marker.args[0]
    tall = bool(marker.kwargs.get("tall", False))
    if path.suffix == ".asm":
        return vip.assemble(path.read_bytes()), tall
    return path.read_bytes(), tall


@_fixture
def game(request: Any) -> bytes:
    """The bytes of the game that @pytest.mark.vip names."""
    marker = request.node.get_closest_marker("vip")
    if marker is None:
        raise pytest.UsageError("the fixture `game` needs @pytest.mark.vip(FILE)")
    return _bytes_of(request, marker)[0]


class Watched(vip.Machine):
    """A machine that keeps what it showed last."""

    def __init__(self) -> None:
        super().__init__()
        self.shown: collections.deque[vip.Picture] = collections.deque(maxlen=KEPT)

    def frame(self, n: int = 1, *, keys: Iterable[int] | int | None = None) -> vip.Reason:
        """Run to the n-th next picture, and keep each one."""
        if n < 1:
            return super().frame(n)
        for at in range(n):
            reason = super().frame(keys=None if at else keys)
            if reason is not vip.Reason.PICTURE or not self.picture:
                break
            self.shown.append(self.picture)
        return reason


@_fixture
def machine(request: Any, game: bytes) -> Iterator[vip.Machine]:
    """A machine after reset with the game."""
    tall = bool(request.node.get_closest_marker("vip").kwargs.get("tall", False))
    made = Watched.game(game, tall=tall)
    yield made
    report = getattr(request.node, "vip_report", None)
    if report is not None and report.failed and made.shown:
        folder = pathlib.Path(request.config.rootpath) / "vip-failures"
        folder.mkdir(exist_ok=True)
        name = re.sub(r"[^\w.-]+", "-", request.node.name) + ".gif"
        vip.film(made.shown, folder / name)
        print(f"the last {len(made.shown)} frames are in {folder / name}")


@_hook(hookwrapper=True)
def pytest_runtest_makereport(item: Any, call: Any) -> Any:
    """Keep the report of a test's call for its fixtures."""
    outcome = yield
    report = outcome.get_result()
    if report.when == "call":
        item.vip_report = report


@_hook(tryfirst=True)
def pytest_runtest_call(item: Any) -> None:
    """Fail a test whose game has no certificate."""
    for marker in item.iter_markers("certified"):
        content, tall = _bytes_of(item, marker)
        why = ""
        try:
            vip.certify(content, tall)
        except vip.Refused as refused:
            why = refused.report
        if why:
            pytest.fail(f"{marker.args[0]}: {why.removeprefix('vip: ')}", pytrace=False)


def pytest_assertrepr_compare(op: str, left: object, right: object) -> list[str] | None:
    """Show where two screens or pictures differ."""
    shown = (vip.Screen, vip.Picture)
    if op == "==" and isinstance(left, shown) and isinstance(right, shown):
        return ["screens differ", *left.difference(right).splitlines()]
    return None
