"""Run another interpreter beside `vip` on random games, and print the shortest difference.

    PYTHONPATH=python python3 examples/fuzz.py [SEED]

The other interpreter is other.py, which is wrong on purpose. To test yours, give it the
methods `point()` and `step()` of other.py. Both are compared at each dispatch point, which
doesn't depend on cycles.
"""
import random
import sys

import vip
from other import Other

CYCLES, STEPS = 60_000, 60
OPCODES = [
    0x6000, 0x7000, 0x8000, 0x8001, 0x8002, 0x8003, 0x8004, 0x8005, 0x8006, 0x8007, 0x800E,
    0x3000, 0x4000, 0x5000, 0x9000, 0xA000, 0xF01E,
]


def random_game(dice):
    """Return random opcodes with random operands."""
    game = []
    for _ in range(dice.randrange(1, 20)):
        code = dice.choice(OPCODES)
        code |= dice.randrange(16) << 8
        if code >> 12 in (5, 8, 9):
            code |= dice.randrange(16) << 4
        elif code >> 12 != 15:
            code |= dice.randrange(256)
        game.append(code)
    return game


def bytes_of(game):
    """Return the bytes of opcodes."""
    return b"".join(code.to_bytes(2, "big") for code in game)


def difference(game):
    """Return the two states at the first difference, or None if the interpreters agree."""
    code = bytes_of([*game, 0x1200 + 2 * len(game)])
    other = Other(code)
    for point in vip.Run(code).points(cycles=CYCLES)[:STEPS]:
        here = point.pc, point.v, point.i, point.stack
        if here != other.point():
            return here, other.point()
        if not other.step():
            return None
    return None


def shortest(game):
    """Return the game without opcodes and operand bits that the difference doesn't need."""
    again = True
    while again:
        again = False
        for at in range(len(game)):
            before, after = game[:at], game[at + 1 :]
            masks = (0xF00F, 0xFF0F, 0xF0FF, 0xFFF0)
            smaller = [[*before, *after]] + [[*before, game[at] & mask, *after] for mask in masks]
            found = next((less for less in smaller if less != game and difference(less)), None)
            if found is not None:
                game, again = found, True
                break
    return game


def main():
    """Test random games until one differs."""
    dice = random.Random(int(sys.argv[1]) if len(sys.argv) > 1 else 1)
    for number in range(1, 100_001):
        game = random_game(dice)
        if difference(game):
            game = shortest(game)
            here, there = difference(game)
            print(f"game {number} differs; the shortest one that does:")
            print(vip.disassemble(bytes_of(game)), end="")
            for name, (pc, v, i, stack) in (("vip", here), ("other", there)):
                variables = " ".join(f"{value:02X}" for value in v)
                calls = " ".join(f"{at:04X}" for at in stack)
                print(f"{name:5} pc {pc:04X} V {variables} I {i:04X} S {calls}".rstrip())
            return
    print("100,000 games agree")


if __name__ == "__main__":
    main()
