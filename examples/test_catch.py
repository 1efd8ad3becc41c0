"""A test of catch.asm by the module `vip`: a recorded play, and the start of a new round.

    PYTHONPATH=python python3 -m unittest examples/test_catch.py
"""
import os
import unittest

import vip

FOLDER = os.path.dirname(os.path.abspath(__file__))
CAUGHT = 10                     # the variable VA
WAITS_FOR_A_KEY = 0xF00A        # the opcode of `LD V0, K`


def read(name):
    """Return the text of a file in this folder."""
    with open(os.path.join(FOLDER, name), encoding="utf-8") as file:
        return file.read()


def events(script):
    """Return the events of a key script as `vip.Run` takes them."""
    lines = (line.split() for line in script.splitlines() if not line.startswith("#"))
    return [(int(cycle), way, int(key, 16)) for cycle, way, key in lines]


class Catch(unittest.TestCase):
    game = vip.assemble(read("catch.asm"))

    def test_the_recorded_play_catches_three_drops(self):
        run = vip.Run(self.game, events(read("catch.keys"))).advance(frames=200)
        self.assertEqual(run.state.v[CAUGHT], 3)
        self.assertEqual(run.state.opcode, WAITS_FOR_A_KEY)

    def test_a_key_starts_a_new_round(self):
        run = vip.Run(self.game).advance(frames=100)
        self.assertEqual(run.state.opcode, WAITS_FOR_A_KEY)
        run = run.press(5).advance(frames=2).release(5).advance(frames=10)
        self.assertEqual(run.state.v[CAUGHT], 0)
        self.assertNotEqual(run.state.opcode, WAITS_FOR_A_KEY)


if __name__ == "__main__":
    unittest.main()
