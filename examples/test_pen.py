"""Test a game, pen.asm, by the module `vip`: what one run does, and what no run does.

    PYTHONPATH=python python3 -m unittest examples/test_pen.py
"""
import os
import random
import unittest

import vip

HERE = os.path.dirname(os.path.realpath(__file__))
SCRIPTS = int(os.environ.get("SCRIPTS", "2000"))
STOP = vip.Stop("MachineCall", 0, 0x224)


def path(name):
    """Return the path of a file beside this one."""
    return os.path.join(HERE, name)


class Pen(unittest.TestCase):
    @classmethod
    def setUpClass(cls):
        with open(path("pen.asm"), encoding="utf-8") as file:
            cls.game = vip.assemble(file.read())

    def test_when_the_spiral_closes(self):
        """Check that pen.keys closes its spiral in frame 292, in which key 5 stops the game."""
        machine = vip.Machine.game(self.game)
        script = vip.KeyScript.read(path("pen.keys"))
        machine.play(script, 291 * vip.FRAME)
        self.assertIsNone(machine.stopped)
        self.assertEqual(machine.screen.lit, 288)
        machine.play(script, 292 * vip.FRAME)
        self.assertEqual(machine.stopped, STOP)
        self.assertEqual(machine.screen.lit, 289)

    def test_a_held_key_draws_a_line(self):
        """Check that a held key draws a line, which is what the player sees."""
        machine = vip.Machine.game(self.game)
        machine.frame(20, keys={6})
        pen = machine.picture.screen()
        self.assertEqual(pen.lit, max(row.count("#") for row in pen.rows))
        machine.release()
        machine.frame(20)
        self.assertEqual(machine.picture.screen(), machine.screen)

    def test_no_input_stops_it(self):
        """Check that no random script without key 5 stops it: 20 events in two seconds."""
        dice = random.Random(1977)
        keys = [key for key in range(16) if key != 5]
        machine = vip.Machine.game(self.game)
        start = machine.snapshot()
        for _ in range(SCRIPTS):
            cycles = sorted(dice.randrange(440_000) for _ in range(20))
            events = [(cycle, dice.choice(("down", "up")), dice.choice(keys)) for cycle in cycles]
            machine.restore(start)
            machine.play(vip.KeyScript(events), 440_000)
            self.assertIsNone(machine.stopped)

    def test_key_5_does(self):
        """Check that key 5 stops it, so there is no certificate; the error names the place."""
        machine = vip.Machine.game(self.game)
        machine.frame(3)
        machine.frame(2, keys={5})
        self.assertEqual(machine.stopped, STOP)
        with self.assertRaises(vip.Refused) as refused:
            vip.certify(self.game)
        self.assertEqual(refused.exception.status, 21)


if __name__ == "__main__":
    unittest.main()
