"""Tests of `vip.Machine` and of what is built on it: python3 -m unittest discover -s python/tests.

`vip trace` and `vip play`, under the key script that the machine logged, say what is expected.
"""
import importlib
import importlib.util
import os
import random
import struct
import subprocess
import sys
import tempfile
import types
import unittest
import zlib
from unittest import mock

import vip
import vip.gym
from vip.compare import HERE, HERE_TALL, line_of, points
from vip.machine import Reason, minimise

TOP = os.path.dirname(os.path.dirname(os.path.dirname(os.path.realpath(__file__))))
FRAME = vip.FRAME
# VA = 5; draws the digit VA again and again, each time a column further to the right
DRAW = bytes.fromhex("6A05 FA29 D115 7101 1204")
# counts in V0 how many times key 5 went down
COUNT = vip.assemble(
    """
    start:  LD V5, 5
    up:     SKNP V5
            JP down
            JP up
    down:   ADD V0, 1
    wait:   SKP V5
            JP up
            JP wait
    """
)
# counts R7 from 5 down to 0, with a byte that changes, and begins again
LOOP = vip.assemble(
    """
    start:  LDI 0
            PHI R8
            LDI 0x80
            PLO R8
    again:  LDI 5
            PLO R7
    loop:   GLO R7
            STR R8
            DEC R7
            GLO R7
            BNZ loop
            BR again
    """,
    isa="1802",
)


def games():
    """Yield the games of vectors/games.txt: name, whether it is tall, its bytes, and the limit."""
    name, tall, content, limit = "", False, bytearray(), 0
    with open(os.path.join(TOP, "vectors", "games.txt"), encoding="ascii") as file:
        for line in (*file, "game\n"):
            kind, _, rest = line.strip().partition(" ")
            if kind == "game":
                if name:
                    yield name, tall, bytes(content), limit
                name, tall, content, limit = rest, False, bytearray(), 0
            elif kind == "tall":
                tall = True
            elif kind == "bytes":
                content += bytes.fromhex(rest)
            elif kind == "limit":
                limit = int(rest)


def example(name):
    """Return the bytes of an example."""
    with open(os.path.join(TOP, "examples", name), "rb") as file:
        return file.read()


def ask(verb, machine, game, *words):
    """Return what `vip` writes of a run up to the machine's cycle, under the machine's log."""
    tall = ["--tall"] if machine.is_tall else []
    files = {"g": game, "k": str(machine.log).encode()}
    return vip.call([verb, "g", str(machine.cycle), *words, "--keys", "k", *tall], files)[1]


def some_keys(dice):
    """Return a set of keys, the empty one among them."""
    return set(dice.sample(range(16), dice.choice((0, 1, 1, 2, 5))))


class Games(unittest.TestCase):
    """Each game of games.txt, with keys changed at random times, against the program."""

    def test_points_and_pictures(self):
        count = seen = shown = 0
        for name, tall, game, limit in games():
            count += 1
            dice = random.Random(name)
            with self.subTest(name):
                machine = vip.Machine.game(game, tall=tall)
                lines, change, end = [], 0, min(limit, 300_000)
                while machine.cycle < end:
                    if machine.cycle >= change:
                        machine.keys = some_keys(dice)
                        change = machine.cycle + dice.randrange(3 * FRAME)
                    if machine.step() is not Reason.DISPATCH:
                        break
                    lines.append(line_of(machine.state))
                stop = machine.stopped
                said = ask("trace", machine, game, "--at").decode().splitlines()
                self.assertEqual(lines, said[: len(lines)])
                self.assertEqual(len(said), len(lines))
                seen += len(lines)
                machine = vip.Machine.game(game, tall=tall)
                pictures = []
                while machine.cycle < end and machine.frame(keys=some_keys(dice)) is Reason.PICTURE:
                    pictures.append(machine.picture.pbm)
                self.assertEqual(ask("play", machine, game), b"".join(pictures))
                shown += len(pictures)
                if stop:
                    self.assertIn(
                        stop.name,
                        (
                            "MachineCall",
                            "Unknown",
                            "FetchOutside",
                            "ReadOutside",
                            "WriteOutside",
                            "StackFull",
                            "StackEmpty",
                        ),
                    )
        self.assertEqual(count, 223)
        self.assertGreater(seen, 40_000)
        self.assertGreater(shown, 3_500)

    def test_a_run_has_the_same(self):
        dice = random.Random(8)
        for name, tall, game, limit in list(games())[::9]:
            with self.subTest(name):
                machine = vip.Machine.game(game, tall=tall)
                run = vip.Run(game, tall=tall)
                while machine.cycle < min(limit, 60 * FRAME):
                    key = dice.randrange(16)
                    cycles = dice.randrange(3 * FRAME)
                    if key in machine.keys:
                        machine.release(key)
                        run = run if run.stop else run.release(key)
                    else:
                        machine.press(key)
                        run = run if run.stop else run.press(key)
                    if machine.run(cycles) is Reason.STOP:
                        break
                    run = run.to(run.cycle + cycles)
                    # (a machine ends between two moves, so it can be a cycle or two behind)
                    machine.run(until=run.cycle)
                    self.assertEqual(run.picture, machine.picture)
                    if machine.at_point:
                        self.assertEqual(run.state, machine.state)
                        self.assertEqual(run.screen, machine.screen)

    def test_a_stop_has_its_cycle(self):
        machine = vip.Machine.game(bytes.fromhex("6A02 0000"))
        self.assertIs(machine.frame(9), Reason.STOP)
        self.assertEqual(machine.stopped, vip.Stop("MachineCall", 0, 0x202))
        self.assertGreater(machine.stopped.cycle, 0)
        before = bytes(machine.snapshot().device)
        self.assertIs(machine.step(), Reason.STOP)
        self.assertIs(machine.run(1000), Reason.STOP)
        self.assertEqual(machine.snapshot().device[:16], before[:16])

    def test_interpreters_places(self):
        for tall, places in ((False, HERE), (True, HERE_TALL)):
            game = example("pen.ch8")
            one = vip.Machine.game(game, tall=tall)
            two = vip.Machine.game(game, tall=tall)
            for at in points(one, until=400_000):
                two.step()
                self.assertEqual(at.state, two.state)
                self.assertEqual(at.screen, two.screen)
            board = vip.Machine.board(rom=bytes(one.rom), ram=[(0x200, game)])
            found = list(points(board, fetch=0x8031, places=places, until=60_000))
            self.assertEqual(
                [at.state for at in found],
                [at.state for at in points(vip.Machine.game(game, tall=tall), until=60_000)],
            )


class Mistakes(unittest.TestCase):
    """What can't be done raises an error with a name, and changes nothing."""

    def unchanged(self, machine, error, call, code=None):
        before = machine.snapshot(), machine.keys, str(machine.log)
        with self.assertRaises(error) as raised:
            call()
        if code is not None:
            self.assertEqual(raised.exception.code, code)
        self.assertNotEqual(str(raised.exception), "")
        self.assertEqual((machine.snapshot(), machine.keys, str(machine.log)), before)

    def test_set_up(self):
        for size in (0, 2049):
            with self.assertRaises(vip.DeviceError) as bad:
                vip.Machine.board(rom=bytes(size))
            self.assertEqual(bad.exception.code, -1)
        for tall, most in ((False, 3232), (True, 2976)):
            vip.Machine.game(bytes(most), tall=tall)
            with self.assertRaises(vip.DeviceError) as bad:
                vip.Machine.game(bytes(most + 1), tall=tall)
            self.assertEqual(bad.exception.code, -1)
        with self.assertRaises(vip.DeviceError) as bad:
            vip.Machine.board(ram=[(0xFFF, b"ab")])
        self.assertEqual(bad.exception.code, -2)
        with self.assertRaises(vip.DeviceError):
            vip.Machine.load(b"VIPS")
        with self.assertRaises(FileNotFoundError):
            vip.Machine.game("no-such-game.ch8")
        with self.assertRaisesRegex(TypeError, "open"):
            vip.Run("pong.ch8")

    def test_running(self):
        game, board = vip.Machine.game(COUNT), vip.Machine.board(ram=[(0, LOOP)])
        game.frame(5)
        board.step(5)
        for machine, error, call in (
            (board, ValueError, lambda: board.run_to(0, p=16, keys={3})),
            (board, ValueError, lambda: board.run_to(*range(9), keys={3})),
            (board, ValueError, lambda: board.run_to(keys={3})),
            (game, ValueError, lambda: game.run_to(*range(0x200, 0x209), keys={3})),
            (board, ValueError, lambda: board.run_to("nowhere", keys={3})),
            (board, ValueError, lambda: board.run_to(0x10000, keys={3})),
            (board, ValueError, lambda: board.run_to(0, count=0, keys={3})),
            (board, ValueError, lambda: board.run_to(0, limit=1 << 64, keys={3})),
            (board, ValueError, lambda: board.run(until=-1, keys={3})),
            (board, ValueError, lambda: board.step(0, keys={3})),
            (board, ValueError, lambda: board.step(1, "frame", keys={3})),
            (board, vip.NoGame, lambda: board.step(1, "opcode", keys={3})),
            (game, ValueError, lambda: game.frame(0, keys={3})),
            (game, ValueError, lambda: game.frame(keys={16})),
            (game, ValueError, lambda: game.press(-1)),
            (game, ValueError, lambda: game.release(16)),
        ):
            self.unchanged(machine, error, call)
        self.unchanged(board, vip.NoGame, lambda: board.state, -8)
        self.unchanged(board, vip.NoGame, lambda: board.screen, -8)
        self.assertIsNone(board.stopped)

    def test_changes(self):
        board = vip.Machine.board(ram=[(0, LOOP)])
        for name, value in (("p", 16), ("x", 16), ("key", 16), ("d", 256), ("df", 2), ("t", -1)):
            self.unchanged(
                board, vip.DeviceError, lambda n=name, v=value: setattr(board.registers, n, v), -3
            )
        self.unchanged(board, AttributeError, lambda: setattr(board.registers, "r16", 1))
        self.unchanged(board, AttributeError, lambda: board.registers.set(pc=1))
        self.unchanged(board, IndexError, lambda: board.registers.r.__setitem__(16, 0))
        self.unchanged(
            board, vip.DeviceError, lambda: board.registers.r.__setitem__(3, 0x10000), -3
        )
        self.unchanged(board, ValueError, lambda: setattr(board.registers, "r", [1, 2]))
        self.unchanged(board, vip.DeviceError, lambda: board.write(0x0FFF, b"ab"), -2)
        self.unchanged(board, vip.DeviceError, lambda: board.write(0x4000, b"a"), -2)
        self.unchanged(board, vip.DeviceError, lambda: board.read(0xFFFF, 2), -2)
        self.unchanged(board, ValueError, lambda: board.read(0, -1))


class Boards(unittest.TestCase):
    """A bare 1802: places, steps, registers and memory."""

    def setUp(self):
        self.board = vip.Machine.board(ram=[(0, LOOP)])

    def test_run_to(self):
        board = self.board
        self.assertIs(board.run_to("loop"), Reason.PLACE)
        self.assertEqual((board.registers.pc, board.place), (LOOP.symbols["loop"], 0))
        self.assertIs(board.run_to("again", "loop", count=2), Reason.PLACE)
        self.assertEqual((board.place, board.registers.r[7] & 0xFF), (1, 3))
        self.assertIs(board.run_to("again", p=0), Reason.PLACE)
        cycle = board.cycle
        self.assertIs(board.run_to("again", p=5, limit=cycle + 999), Reason.LIMIT)
        self.assertTrue(cycle + 996 < board.cycle <= cycle + 999)
        self.assertIs(board.run_until(lambda m: m.memory[0x80] == 2), Reason.INSTRUCTION)
        self.assertEqual(board.memory[0x80], 2)
        self.assertIs(board.run_until(lambda m: False, limit=board.cycle + 50), Reason.LIMIT)

    def test_run_to_in_a_game(self):
        machine = vip.Machine.game(COUNT)
        self.assertIs(machine.run_to("wait", limit=200_000), Reason.LIMIT)
        self.assertIs(machine.run_to("up", "wait", keys={5}), Reason.PLACE)
        self.assertEqual((machine.state.pc, machine.place), (COUNT.symbols["up"], 0))
        self.assertIs(machine.run_to("up", "wait"), Reason.PLACE)
        self.assertEqual((machine.place, machine.state.v[0]), (1, 1))
        self.assertEqual(COUNT.line_of("up"), 3)
        self.assertIn("SKNP V5", COUNT.text_of(COUNT.line_of("up")))
        # the interpreter's fetch is an address of the processor
        self.assertIs(machine.run_to(0x8031, p=4), Reason.PLACE)
        self.assertTrue(machine.at_point)

    def test_units(self):
        board = self.board
        board.step(4)
        self.assertEqual((board.cycle, board.registers.pc), (8, LOOP.symbols["again"]))
        self.assertIs(board.step(unit="move"), Reason.INSTRUCTION)
        game = vip.Machine.game(DRAW)
        moves = set()
        while game.pictures < 3:
            moves.add(game.step(unit="move"))
        self.assertEqual(
            moves, {Reason.DMA, Reason.INTERRUPT, Reason.IDLE_CYCLE, Reason.INSTRUCTION}
        )
        before = game.state.pc
        self.assertIs(game.step(3), Reason.DISPATCH)
        self.assertIn(game.state.pc, (0x204, 0x206, 0x208))
        self.assertNotEqual(before, 0)

    def test_registers(self):
        board = self.board
        board.registers.set(p=3, x=2, d=0x55, df=1)
        board.registers.r[3] = LOOP.symbols["again"]
        board.registers.q = True
        self.assertEqual(
            (board.registers.p, board.registers.d, board.registers.df), (3, 0x55, True)
        )
        self.assertTrue(board.q)
        board.step()
        self.assertEqual((board.registers.pc, board.registers.d), (LOOP.symbols["again"] + 2, 5))
        board.registers.r = range(16)
        self.assertEqual(list(board.registers.r), list(range(16)))
        self.assertLess(len(repr(board.registers)), 160)

    def test_memory(self):
        board = self.board
        board.memory[0x300:0x303] = b"abc"
        self.assertEqual(board.read(0x300, 3), b"abc")
        board.write(0x8000, b"\xd3")
        self.assertEqual(
            (board.rom[0], board.read(0x8000, 2), board.read(0x1000, 1)), (0xD3, b"\xd3\0", b"\xff")
        )
        self.assertEqual(board.instruction(0), "LDI 0x00")
        latched = vip.Machine.board(rom=LOOP, ram=[(0, b"\x7b")])
        self.assertEqual(latched.read(0, 2), bytes(LOOP[:2]))
        self.assertEqual(
            vip.Machine.board(rom=LOOP, ram=[(0, b"\x7b")], latch=False).read(0, 1), b"\x7b"
        )

    def test_a_source_keeps_its_address(self):
        code = vip.assemble(
            " LBR start\n ORG 0x0100\nstart: LDI 7\n PLO R7\nend: BR end\n", isa="1802"
        )
        self.assertEqual(code.address, 0)
        part = vip.assemble(" ORG 0x0100\nstart: LDI 7\n PLO R7\nend: BR end\n", isa="1802")
        self.assertEqual(part.address, 0x100)
        board = vip.Machine.board(ram=part)
        board.registers.r[0] = board.address("start")
        self.assertIs(board.run_to("end"), Reason.PLACE)
        self.assertEqual(board.registers.r[7], 7)
        program = vip.Program(code)
        machine = program.machine()
        self.assertIs(machine.run_to("end"), Reason.PLACE)
        self.assertEqual(machine.registers.r[7], 7)
        self.assertEqual(program.trace(8)[1].address, 0x100)
        self.assertEqual(program.ended(100), "done 100")
        self.assertEqual(vip.Program(b"\x7a\0").ended(100), "idle at 0001")
        rom = vip.Program(
            vip.assemble(" ORG 0x8000\n LBR go\ngo: LDI 1\nx: BR x\n", isa="1802"), "rom"
        )
        self.assertIs(rom.machine().run_to("x"), Reason.PLACE)
        self.assertEqual(rom.bytes_at(9, 0x8003, 2), b"\xf8\x01")
        with self.assertRaises(ValueError):
            vip.Program(part, "rom", [(1, "down", 16)])

    def test_q(self):
        # SEQ, REQ, IDL
        board = vip.Machine.board(ram=[(0, bytes.fromhex("7B7A00"))])
        self.assertIs(board.run(100), Reason.IDLE)
        self.assertEqual(board.q_changes, [2, 4])


class Snapshots(unittest.TestCase):
    """Going back, and keeping a machine."""

    def test_snapshot(self):
        machine = vip.Machine.game(DRAW)
        machine.frame(10, keys={3})
        kept = machine.snapshot()
        machine.frame(10, keys={4, 5})
        later, log = machine.snapshot(), machine.log
        machine.restore(kept)
        self.assertEqual((machine.cycle, machine.keys, len(machine.log)), (kept.cycle, {3}, 1))
        machine.frame(10, keys={4, 5})
        self.assertEqual((machine.snapshot().device, machine.log), (later.device, log))
        other = machine.copy()
        other.frame()
        self.assertNotEqual(other.cycle, machine.cycle)

    def test_save(self):
        machine = vip.Machine.game(DRAW)
        machine.frame(10)
        machine.step()
        saved = machine.save()
        status, out, _ = vip.call(["save", "g", str(machine.cycle)], {"g": DRAW})
        self.assertEqual((status, out), (0, saved))
        again = vip.Machine.load(saved)
        self.assertEqual(
            (again.state, again.memory.tobytes()), (machine.state, machine.memory.tobytes())
        )
        machine.run(77)
        board = vip.Machine.load(machine.save())
        self.assertEqual(board.is_game, machine.at_point)
        self.assertEqual(board.registers.r, machine.registers.r)
        board = vip.Machine.board(ram=[(0, LOOP)])
        board.run(1001)
        other = vip.Machine.load(board.save())
        self.assertEqual((other.cycle, other.save()), (board.cycle, board.save()))

    def test_rewind(self):
        dice = random.Random(3)
        machine = vip.Machine.game(vip.assemble(example("catch.asm")))
        rewind, kept = vip.Rewind(machine), [machine.snapshot()]
        for _ in range(700):
            machine.frame(keys=dice.choice(({4}, {6}, set())))
            rewind.keep()
            kept.append(machine.snapshot())
        self.assertEqual(len(rewind), 701)
        # 20 MB for an hour are 92 bytes a frame; the last, open block aside
        self.assertLess((rewind.nbytes - len(kept) % 120 * len(kept[0].device)) / 700, 92)
        for back in (0, 1, 90, 250, 13):
            del kept[len(kept) - back :]
            rewind.back(back)
            self.assertEqual(machine.snapshot(), kept[-1])
            machine.frame(keys={7})
            rewind.keep()
            kept.append(machine.snapshot())
        with self.assertRaises(ValueError):
            rewind.back(len(rewind))

    def test_rewind_forgets(self):
        machine = vip.Machine.game(DRAW)
        rewind = vip.Rewind(machine, frames=200)
        for _ in range(1000):
            machine.frame()
            rewind.keep()
        self.assertEqual(len(rewind), 201)
        rewind.back(200)
        self.assertEqual(machine.pictures, 800)


class Keys(unittest.TestCase):
    """Key scripts."""

    def test_files(self):
        script = vip.KeyScript.parse(example("pen.keys").decode())
        self.assertEqual(vip.KeyScript.parse(str(script)), script)
        with tempfile.TemporaryDirectory() as folder:
            script.write(os.path.join(folder, "a.keys"))
            self.assertEqual(vip.KeyScript.read(os.path.join(folder, "a.keys")), script)
        for text, line in (
            ("0 down 5\n0 dow 5\n", 2),
            ("\n# x\n1 down 10\n", 3),
            ("5 up 1\n4 up 1\n", 2),
        ):
            with self.assertRaisesRegex(ValueError, f"line {line} "):
                vip.KeyScript.parse(text)

    def test_the_program_reads_the_same(self):
        dice = random.Random(2)
        events = [
            (dice.randrange(90_000), dice.choice(("down", "up")), dice.randrange(16))
            for _ in range(40)
        ]
        script = vip.KeyScript(events)
        machine = vip.Machine.game(COUNT)
        machine.play(script, 100_000)
        run = vip.Run(COUNT, script).to(100_000)
        self.assertEqual(machine.memory.tobytes()[0xEF0:0xF00], bytes(run.state.v))
        status, out, _ = vip.call(
            ["trace", "g", "100000", "--keys", "k"], {"g": COUNT, "k": str(script).encode()}
        )
        self.assertEqual(status, 0)
        self.assertEqual(
            out,
            vip.call(
                ["trace", "g", "100000", "--keys", "k"],
                {"g": COUNT, "k": str(machine.log).encode()},
            )[1],
        )

    def test_times(self):
        script = vip.KeyScript.by_frames([(2, "down", 5), (3.5, "up", 5)])
        self.assertEqual([event.cycle for event in script], [2 * FRAME, 7 * FRAME // 2])
        self.assertEqual(script.frames, ((2, "down", 5), (3, "up", 5)))
        self.assertEqual((script.held(2 * FRAME - 1), script.held(2 * FRAME)), (set(), {5}))
        numbered = vip.KeyScript.by_points([(1, "down", 2)], [100, 250, 300])
        self.assertEqual(numbered.events, ((250, "down", 2),))

    def test_minimise(self):
        needed = {(40, "down", 1), (41, "up", 9)}
        events = [
            (cycle, way, key) for cycle in range(100) for way, key in (("down", 1), ("up", 9))
        ]
        least = vip.KeyScript(events).minimise(lambda script: needed <= set(script.events))
        self.assertEqual(set(least.events), needed)
        with self.assertRaises(ValueError):
            vip.KeyScript(events).minimise(lambda script: False)

    def test_minimise_a_play(self):
        """600 random events, of which two matter: key 5 goes down, and up again."""
        dice = random.Random(600)
        events = [
            (dice.randrange(600 * FRAME), dice.choice(("down", "up")), dice.choice([0, 1, 2, 3]))
            for _ in range(598)
        ]
        events += [(417 * FRAME, "down", 5), (431 * FRAME, "up", 5)]
        machine = vip.Machine.game(COUNT)

        def fails(end):
            return end.memory[0xEF0] == 1 and 5 not in end.keys

        least = minimise(machine, vip.KeyScript(events), 600 * FRAME, fails)
        self.assertEqual(least.events, ((417 * FRAME, "down", 5), (431 * FRAME, "up", 5)))
        self.assertEqual(machine.cycle, 0)


def png_of(content):
    """Return the rows of a PNG of 8 bits grey, each chunk's sum checked."""
    assert content[:8] == b"\x89PNG\r\n\x1a\n"
    at, data, head = 8, b"", ()
    while at < len(content):
        (size,) = struct.unpack_from(">I", content, at)
        kind, body = content[at + 4 : at + 8], content[at + 8 : at + 8 + size]
        assert struct.unpack_from(">I", content, at + 8 + size)[0] == zlib.crc32(kind + body)
        if kind == b"IHDR":
            head = struct.unpack(">IIBBBBB", body)
        elif kind == b"IDAT":
            data += body
        at += 12 + size
    wide, high = head[:2]
    assert head[2:] == (8, 0, 0, 0, 0)
    raw = zlib.decompress(data)
    assert len(raw) == high * (wide + 1)
    return [raw[row * (wide + 1) + 1 : (row + 1) * (wide + 1)] for row in range(high)]


def codes_of(data, size):
    """Yield the codes of LZW as a GIF packs them; a list has the width of the next one."""
    held = bits = 0
    for byte in data:
        held |= byte << bits
        bits += 8
        while bits >= size[0]:
            code = held & (1 << size[0]) - 1
            held >>= size[0]
            bits -= size[0]
            yield code


def pixels_of(data, least):
    """Return the bytes that LZW as in a GIF packs."""
    clear, end, out = 1 << least, (1 << least) + 1, bytearray()
    size, table, before = [least + 1], [], None
    for code in codes_of(data, size):
        if code == end:
            break
        if code == clear:
            table, before, size[0] = (
                [bytes([at]) for at in range(clear)] + [b"", b""],
                None,
                least + 1,
            )
            continue
        if before is None:
            entry = table[code]
        else:
            entry = table[code] if code < len(table) else before + before[:1]
            if len(table) < 4096:
                table.append(before + entry[:1])
        out += entry
        before = entry
        if len(table) == 1 << size[0] and size[0] < 12:
            size[0] += 1
    return bytes(out)


def gif_of(content):
    """Return the pictures of a GIF, each as its rows of indices."""
    assert content[:6] == b"GIF89a" and content[10] == 0xF0
    at, pictures = 13 + 6, []
    while content[at] != 0x3B:
        if content[at] == 0x21:
            at += 2
        else:
            assert content[at] == 0x2C
            _, _, wide, high, _ = struct.unpack_from("<HHHHB", content, at + 1)
            least = content[at + 10]
            at += 11
        data = b""
        kind = content[at - 1]
        while content[at]:
            data += content[at + 1 : at + 1 + content[at]]
            at += 1 + content[at]
        at += 1
        if kind == 2 and len(data) > 8:
            pixels = pixels_of(data, least)
            assert len(pixels) == wide * high
            pictures.append([pixels[row * wide : (row + 1) * wide] for row in range(high)])
    assert at == len(content) - 1
    return pictures


class Shown(unittest.TestCase):
    """Pictures and screens."""

    @classmethod
    def setUpClass(cls):
        machine = vip.Machine.game(DRAW)
        cls.pictures = []
        for _ in range(40):
            machine.frame()
            cls.pictures.append(machine.picture)
        cls.screen = machine.screen

    def test_png(self):
        with tempfile.TemporaryDirectory() as folder:
            path = os.path.join(folder, "a.png")
            self.screen.png(path, scale=3)
            with open(path, "rb") as file:
                rows = png_of(file.read())
            self.assertEqual((len(rows), len(rows[0])), (96, 192))
            for y, row in enumerate(self.screen.rows):
                self.assertEqual(
                    rows[3 * y + 1],
                    b"".join(b"\xff\xff\xff" if dot == "#" else b"\0\0\0" for dot in row),
                )
            self.pictures[-1].png(path, scale=2)
            with open(path, "rb") as file:
                rows = png_of(file.read())
            # a dot of a picture is four times as wide as it is high
            self.assertEqual((len(rows), len(rows[0])), (256, 512))
            self.assertEqual(
                [row[::8] for row in rows[::2]],
                [bytes(255 * (dot == "#") for dot in line) for line in self.pictures[-1].lines],
            )

    def test_film(self):
        with tempfile.TemporaryDirectory() as folder:
            path = os.path.join(folder, "a.gif")
            self.assertEqual(vip.film(self.pictures, path, scale=2), 40)
            with open(path, "rb") as file:
                pictures = gif_of(file.read())
            self.assertEqual(len(pictures), 40)
            for picture, rows in zip(self.pictures, pictures):
                self.assertEqual((len(rows), len(rows[0])), (64, 128))
                shown = [
                    "".join(".#"[dot] for dot in row[::2]) for row in rows[:: 64 // picture.height]
                ]
                self.assertEqual(tuple(shown), picture.rows)
            with self.assertRaises(ValueError):
                vip.film([], path)

    def test_film_of_noise(self):
        dice = random.Random(1)
        noise = [vip.Screen.of_bytes(dice.randbytes(512)) for _ in range(3)]
        with tempfile.TemporaryDirectory() as folder:
            path = os.path.join(folder, "a.gif")
            vip.film(noise, path, scale=3)
            with open(path, "rb") as file:
                pictures = gif_of(file.read())
        for screen, rows in zip(noise, pictures):
            step = len(rows) // screen.height
            self.assertEqual(
                tuple("".join(".#"[dot] for dot in row[::3]) for row in rows[::step]), screen.rows
            )

    def test_steady(self):
        one, two = vip.Screen(("#..", "...")), vip.Screen(("..#", "..."))
        self.assertEqual(
            [screen.rows[0] for screen in vip.steady([one, two, two], 2)], ["#..", "#.#", "..#"]
        )
        with self.assertRaises(ValueError):
            vip.steady([one], 0)

    def test_parts(self):
        machine = vip.Machine.game(bytes.fromhex("6A05 6103 6204 FA29 D125 120A"))
        machine.frame(4)
        screen = machine.screen
        self.assertEqual(
            (screen.digit(3, 4), screen.digit(4, 4), screen.digit(62, 4)), (5, None, None)
        )
        self.assertEqual(screen.find(bytes.fromhex("F080F010F0")), (3, 4))
        self.assertIsNone(screen.find(bytes.fromhex("F090F010F0")))
        self.assertIsNone(screen.find(b"\0"))
        self.assertEqual(screen.region(3, 4, 4, 5).rows, ("####", "#...", "####", "...#", "####"))
        self.assertEqual((screen.lit, screen[3, 4], screen[4, 5]), (14, True, False))
        with self.assertRaises(ValueError):
            screen.region(61, 0, 4, 1)
        self.assertEqual(machine.picture.screen(), screen)
        self.assertEqual(repr(screen), "<Screen 64x32, 14 lit>")

    def test_a_picture_is_what_was_shown(self):
        differ = sum(
            picture.screen() != self.pictures[at - 1].screen()
            for at, picture in enumerate(self.pictures)
        )
        self.assertGreater(differ, 10)
        text = self.pictures[3].screen().difference(self.pictures[9].screen())
        self.assertRegex(text, r"^\d+ pixels differ, in columns \d+ to \d+ of rows")
        self.assertEqual(self.screen.difference(self.screen), "no difference")
        vip.assert_same(self.screen, self.screen)
        with self.assertRaisesRegex(AssertionError, "pixels differ, in columns"):
            vip.assert_same(self.pictures[3].screen(), self.pictures[9].screen())
        self.assertIn("64x32", self.screen.difference(vip.Screen(("#",))))

    def test_array(self):
        try:
            import numpy
        except ImportError:
            self.skipTest("numpy isn't installed")
        array = numpy.asarray(self.screen)
        self.assertEqual((array.shape, int(array.sum())), ((32, 64), self.screen.lit))


def stand_in():
    """Return the part of gymnasium's interface that vip.gym uses, as a module."""

    class Env:
        def reset(self, *, seed=None, options=None):
            self.seeded = seed

    class Discrete:
        def __init__(self, n):
            self.n = n

    class Box:
        def __init__(self, low, high, shape, dtype):
            self.low, self.high, self.shape, self.dtype = low, high, shape, dtype

    module = types.ModuleType("gymnasium")
    module.Env, module.spaces = Env, types.SimpleNamespace(Discrete=Discrete, Box=Box)
    module.vector = types.SimpleNamespace(
        utils=types.SimpleNamespace(batch_space=lambda space, n: (space, n)),
        AutoresetMode=types.SimpleNamespace(NEXT_STEP="next step"),
    )
    return module


def small_numpy():
    """Return the part of numpy that vip.gym uses, as a module."""

    class Array(list):
        def reshape(self, *shape):
            return self

    module = types.ModuleType("numpy")
    module.uint8 = int
    module.frombuffer = lambda content, dtype=None: Array(content)
    module.asarray = module.stack = module.array = Array
    return module


class Gym(unittest.TestCase):
    """Environments, with and without gymnasium's interface."""

    def make(self, module):
        game = vip.Machine.game(COUNT)
        return module.Environment(
            game, [(), (5,)], lambda machine: machine.memory[0xEF0], skip=4, steps=10, wait=3
        )

    def use(self, module):
        env = self.make(module)
        one, info = env.reset(seed=1)
        self.assertEqual(len(bytes(one)), 1024)
        self.assertGreater(info["cycle"], 0)
        rewards, ends = [], []
        for action in (0, 1, 1, 0, 1, 0, 0, 1, 0, 0):
            _, reward, ended, cut, info = env.step(action)
            rewards.append(reward)
            ends.append((ended, cut))
        self.assertEqual(rewards, [0, 1, 0, 0, 1, 0, 0, 1, 0, 0])
        self.assertEqual(ends, [(False, False)] * 9 + [(False, True)])
        again, info_again = env.reset(seed=1)
        other = self.make(module)
        self.assertEqual(bytes(again), bytes(one))
        self.assertEqual(other.reset(seed=1)[1], info_again)
        self.assertEqual(len({env.reset(seed=seed)[1]["cycle"] for seed in range(20)}), 4)
        env.close()
        vector = module.Vector(lambda: self.make(module), 3)
        observations, _ = vector.reset(seed=5)
        self.assertEqual((len(observations), vector.num_envs), (3, 3))
        for _ in range(10):
            _, rewards, ended, cut, _ = vector.step([0, 1, 0])
        self.assertEqual([bool(each) for each in cut], [True] * 3)
        _, rewards, ended, cut, _ = vector.step([0, 1, 0])
        self.assertEqual(
            [bool(each) for each in cut] + [float(each) for each in rewards], [False] * 3 + [0] * 3
        )
        return env, vector

    def test_alone(self):
        self.use(vip.gym)

    def test_with_gymnasium(self):
        modules = {"gymnasium": stand_in()}
        if importlib.util.find_spec("numpy") is None:
            modules["numpy"] = small_numpy()
        try:
            with mock.patch.dict(sys.modules, modules):
                module = importlib.reload(vip.gym)
                env, vector = self.use(module)
                self.assertEqual((env.action_space.n, env.observation_space.shape), (2, (128, 8)))
                self.assertEqual(vector.action_space[1], 3)
                self.assertEqual(vector.metadata["autoreset_mode"], "next step")
        finally:
            importlib.reload(vip.gym)

    def test_a_stop_ends_it(self):
        env = vip.gym.Environment(
            vip.Machine.game(bytes.fromhex("6A02 0000")), [()], lambda machine: 0
        )
        env.reset()
        _, _, ended, cut, info = env.step(0)
        self.assertEqual((ended, cut, info["stop"]), (True, False, "MachineCall"))


PLUGIN = """
import pytest

@pytest.mark.vip("pen.asm")
def test_passes(machine, game):
    machine.frame(10)
    assert machine.pictures == 10 and len(game) > 10

@pytest.mark.vip("pen.asm")
def test_fails(machine):
    machine.frame(12, keys={6})
    one = machine.screen
    machine.frame(30, keys={6})
    assert machine.screen == one

@pytest.mark.certified("ball.asm")
def test_ball():
    pass

@pytest.mark.certified("pen.asm")
def test_pen():
    pass
"""


class Plugin(unittest.TestCase):
    """The plugin for pytest."""

    def test_plugin(self):
        try:
            import pytest  # noqa: F401
        except ImportError:
            self.skipTest("pytest isn't installed")
        with tempfile.TemporaryDirectory() as folder:
            for name in ("pen.asm", "ball.asm"):
                with open(os.path.join(folder, name), "wb") as file:
                    file.write(example(name))
            with open(os.path.join(folder, "test_it.py"), "w", encoding="utf-8") as file:
                file.write(PLUGIN)
            words = [
                sys.executable,
                "-m",
                "pytest",
                "-p",
                "vip.pytest_plugin",
                "-p",
                "no:cacheprovider",
                "-q",
            ]
            path = os.pathsep.join(map(os.path.abspath, filter(None, sys.path)))
            ran = subprocess.run(
                words,
                cwd=folder,
                env={**os.environ, "PYTHONPATH": path},
                capture_output=True,
                text=True,
                check=False,
            )
            self.assertIn("2 failed, 2 passed", ran.stdout, ran.stdout + ran.stderr)
            self.assertIn("screens differ", ran.stdout)
            self.assertIn("30 pixels differ, in columns", ran.stdout)
            self.assertIn("pen.asm: no certificate: ", ran.stdout)
            with open(os.path.join(folder, "vip-failures", "test_fails.gif"), "rb") as file:
                self.assertEqual(len(gif_of(file.read())), 42)


if __name__ == "__main__":
    unittest.main()
