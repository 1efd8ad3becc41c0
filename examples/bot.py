"""Let a bot in plain Python play catch.asm, and print its catches and the frames a second.

    PYTHONPATH=python python3 examples/bot.py [FRAMES]

The bot sees what a player sees: the last picture, as bytes. It holds key 4 or key 6 so that the
bowl comes below the drop, and presses key 5 when a round is over. The keys that it pressed are in
`machine.log`, with which `vip play` makes the same pictures.
"""
import os
import sys
import time

import vip

HERE = os.path.dirname(os.path.realpath(__file__))
LEFT, RIGHT, AGAIN, NOTHING = (4,), (6,), (5,), ()
LINE = 8  # bytes of a line
BOWL = 120 * LINE  # a pixel has four lines, so row 30 begins at line 120
CAUGHT = 0x0EFA  # where the interpreter has VA


def column(shown, at):
    """Return the column of the leftmost lit pixel in the line that begins at a byte."""
    return 64 - int.from_bytes(shown[at : at + LINE], "big").bit_length()


def play(machine, frames):
    """Play for a number of frames, and return how many drops were caught and how many missed."""
    caught = missed = without_bowl = before = 0
    shown, memory = machine.picture_bytes, machine.memory  # they always have what there is now
    keys = NOTHING
    for _ in range(frames):
        machine.frame(keys=keys)
        if memory[CAUGHT] != before:
            caught, before = caught + (memory[CAUGHT] > 0), memory[CAUGHT]
        seen = bytes(shown)
        bowl = column(seen, BOWL)
        if bowl == 64:
            # (a bowl that moves is erased for a part of some frames; without it the round is over)
            without_bowl += 1
            if without_bowl > 8:
                keys = NOTHING if keys is AGAIN else AGAIN
                missed += without_bowl == 9
            continue
        without_bowl = 0
        first = 1024 - len(seen.lstrip(b"\0"))
        if first < BOWL:
            drop = column(seen, first - first % LINE) - 3
            keys = LEFT if drop < bowl else RIGHT if drop > bowl else NOTHING
    return caught, missed


def main(frames):
    """Play, and print the result."""
    with open(os.path.join(HERE, "catch.asm"), encoding="utf-8") as file:
        machine = vip.Machine.game(vip.assemble(file.read()))
    started = time.perf_counter()
    caught, missed = play(machine, frames)
    seconds = time.perf_counter() - started
    print(f"{caught:,} drops caught in {frames:,} frames, {missed} missed")
    print(f"{frames / seconds:,.0f} frames a second, {len(machine.log):,} events of keys")


if __name__ == "__main__":
    main(int(sys.argv[1]) if len(sys.argv) > 1 else 20_000)
