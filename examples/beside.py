#!/usr/bin/env python3
"""Runs a game on another interpreter beside this project's, and prints where the two first differ.

    PYTHONPATH=python python3 examples/beside.py GAME --rom MONITOR --interpreter FILE [OPTION..]

    --rom FILE          the dump of a ROM, at 8000
    --interpreter FILE  the dump of an interpreter, at 0000
    --fetch ADDRESS     where the interpreter fetches an opcode: 001B, as RCA's, if not given
    --p N               P at the fetch: 4 if not given
    --places rca|own    where the interpreter keeps its state: as RCA's, or as this project's
    --keys FILE         a key script, pressed by its cycles in both runs
    --points FILE       a key script that has numbers of points in place of cycles
    --cycles N          how far each run goes: 1,000,000 if not given
    --seed N            the random bytes that RND gets in both runs: of the seed 0 if not given
    --own-random        leave each interpreter its own random bytes
    --all-points        compare the iterations of loops that wait, too
    --trace here|there  print that run in the format of `vip trace --at`, and compare nothing

It prints how many points agree. At a difference it prints what differs, the last points of both
runs, and both screens. Then it prints the machine cycles of each opcode in the game, there and
here: least, mean and most. The status is 0 if all points agree, and 1 if there is a difference.
"""
import argparse
import random
import signal
import sys

import vip
from vip import compare, dumps


def arguments():
    """Return the options of the command line."""
    parser = argparse.ArgumentParser(usage=__doc__, allow_abbrev=False)
    parser.add_argument("game")
    parser.add_argument("--rom", required=True)
    parser.add_argument("--interpreter")
    parser.add_argument("--fetch", type=lambda text: int(text, 16), default=compare.RCA_FETCH[0])
    parser.add_argument("--p", type=int, default=compare.RCA_FETCH[1])
    parser.add_argument("--places", choices=("rca", "own"), default="rca")
    parser.add_argument("--keys")
    parser.add_argument("--points")
    parser.add_argument("--cycles", type=int, default=1_000_000)
    parser.add_argument("--seed", type=int, default=0)
    parser.add_argument("--own-random", action="store_true")
    parser.add_argument("--all-points", action="store_true")
    parser.add_argument("--trace", choices=("here", "there"))
    return parser.parse_args()


def random_bytes(seed):
    """Yield random bytes without end, the same ones for the same seed."""
    dice = random.Random(seed)
    while True:
        yield dice.randrange(256)


def runs(given):
    """Return both runs, here and there, and their machines."""
    with open(given.game, "rb") as file:
        game = file.read()
    here = vip.Machine.game(game)
    places = [(0x0000, given.interpreter)] if given.interpreter else []
    there = dumps.board(given.rom, [*places, (0x0200, given.game)])
    options = {
        "until": given.cycles,
        "keys": vip.KeyScript.read(given.keys) if given.keys else None,
        "keys_by_point": vip.KeyScript.read(given.points) if given.points else None,
    }

    def dice():
        return None if given.own_random else random_bytes(given.seed)

    own = compare.HERE if given.places == "own" else compare.RCA
    return (
        compare.points(here, random=dice(), **options),
        compare.points(there, given.fetch, given.p, places=own, random=dice(), **options),
        (here, there),
    )


def shown(found):
    """Print a difference: the last points of both runs, and both screens."""
    print(found)
    for side, name in enumerate(("here", "there")):
        print(f"\n{name}")
        for pair in found.before:
            print("  " + compare.line_of(pair[side].state))
        last = (found.here, found.there)[side]
        if last:
            print("> " + compare.line_of(last.state))
    if found.here and found.there:
        print(f"\n{'here':64}   there")
        for one, two in zip(found.here.screen.rows, found.there.screen.rows):
            print(one, " " if one == two else "|", two)


def table(here, there):
    """Print the cycles of each opcode in the game, there and here."""
    print(
        f"\n{'opcode':8}{'times':>7}"
        + "".join(f"{side + ': least':>15}{'mean':>8}{'most':>7}" for side in ("there", "here"))
    )
    for form in sorted(here.keys() | there.keys()):
        row = f"{form:8}{len(there.get(form, ())):7}"
        for cycles in (there.get(form), here.get(form)):
            row += (
                f"{min(cycles):15}{sum(cycles) / len(cycles):8.0f}{max(cycles):7}"
                if cycles
                else f"{'-':>15}{'-':>8}{'-':>7}"
            )
        print(row)


def main():
    """Compare, and return the status."""
    # (a reader of the output that ends early, as `head` does, ends this program too)
    signal.signal(signal.SIGPIPE, signal.SIG_DFL)
    given = arguments()
    try:
        one, two, machines = runs(given)
    except (ValueError, OSError) as why:
        sys.stderr.write(f"beside: {why}\n")
        return 2
    if given.trace:
        for at in one if given.trace == "here" else two:
            print(compare.line_of(at.state))
        return 0
    here, there = {}, {}
    found = compare.compare(
        compare.timed(one, here), compare.timed(two, there), skip_waits=not given.all_points
    )
    if isinstance(found, int):
        print(
            f"{found:,} points agree, up to cycle {machines[0].cycle:,} here "
            f"and {machines[1].cycle:,} there"
        )
    else:
        shown(found)
    stop = machines[0].stopped
    if stop:
        print(f"here the game stopped: {stop.name} at {stop.pc:04X}, cycle {stop.cycle:,}")
    table(here, there)
    return int(not isinstance(found, int))


if __name__ == "__main__":
    sys.exit(main())
