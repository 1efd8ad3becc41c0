"""The module `vip`: python3 -m unittest discover -s python/tests, with PYTHONPATH=python. What is due is taken from the pages, and of runs from one another."""
import os
import random
import unittest

import vip

TOP = os.path.dirname(os.path.dirname(os.path.dirname(os.path.realpath(__file__))))
SUM = bytes.fromhex("6A02 6B0C 8AB4 1206")  # VA = 02, VB = 0C, VA = VA + VB, and a jump to itself
DRAW = bytes.fromhex("6A05 FA29 D115 7101 1204")  # draws the digit 5 again and again, each a column further to the right


def example(name):
    with open(os.path.join(TOP, "examples", name), "rb") as file:
        return file.read()


class Sources(unittest.TestCase):
    def test_assembles(self):
        self.assertEqual(vip.assemble("LD VA, 2\nLD VB, 12\nADD VA, VB\nend: JP end\n"), SUM)
        self.assertEqual(vip.assemble("LDI 5\n", isa="1802"), b"\xf8\x05")

    def test_tells_every_fault(self):
        with self.assertRaises(vip.SourceError) as bad:
            vip.assemble("start: LDI 05H\n PLO 7\n", isa="1802")
        faults = [(1, 12, "BadOperand", "05H", "write hexadecimal as 0x05"), (2, 6, "BadOperand", "7", "write the register as R7")]
        self.assertEqual([tuple(fault) for fault in bad.exception.faults], faults)
        self.assertEqual((bad.exception.status, bad.exception.report), (7, "vip: source line 1: BadOperand"))

    def test_disassembles(self):
        self.assertEqual(vip.assemble(vip.disassemble(SUM)), SUM)


WORDS = (
    "LDI PLO SEP BR OUT DB EQU ORG DS PAGE LD ADD JP DRW CALL start loop x X 5 300 0x10 05H R7 V3 #05 $A (5) [I] [x] = := += SET .EQU : ; , < > + - ' \" .. // jump "
    "sprite again bcd BGE SUB TITLE INCLUDE HIGH(x) LOW(x) 1+ $ é (a (b) c) ( ) {NAME} " + "n" * 40
).split()


RIGHT = (" BR far", " LBR far", " LDI <far", " JP far", " LD I, far", " CALL far", " DB 1, 2", " ORG far", "near: DS 2", " LDI 5", " LD V1, 5", " LD V0, far-near")
OCTO = (": main", "v0 := 5", "v1 += v0", "jump main", "if v0 == 3 then", "loop", "again", "sprite v0 v1 5", "i := long main", "return", ":alias x v3", "v2 := key")


def random_source(seed):
    """Lines of words that assemblers know in any order, beside some that are right and some of Octo."""
    chance = random.Random(seed)
    right, octo = chance.choice([(0, 0), (3, 0), (8, 0), (1, 8)])
    lines = ["far: DB 0"] * chance.randrange(2)
    for _ in range(chance.randrange(1, 24)):
        words = [chance.choice(WORDS) for _ in range(chance.randrange(5))]
        some = chance.choice(["", " ", "x: ", "start: ", "loop ", "\t"]) + chance.choice([" ", " ", "  ", ","]).join(words)
        lines.append(chance.choices([some, chance.choice(RIGHT), chance.choice(OCTO)], (2, right, octo))[0])
    return chance.choice(["\n", "\n", "\r\n"]).join(lines) + chance.choice(["", "\n"])


class Faults(unittest.TestCase):
    """Every line that `check` writes is read, and nothing of it is lost."""

    def read(self, source, isa):
        words = ["check", "s", *(["--chip8"] if isa == "chip8" else [])]
        status, out, _ = vip.call(words, {"s": source})
        faults = vip.check(source, isa)
        lines = [
            f"s:{fault.line}:{fault.column}: {fault.cause}: {fault.culprit}" + (f" ({fault.remedy})" if fault.remedy else "")
            for fault in faults
        ]
        if faults.is_octo:
            lines.append("s: this looks like Octo: see docs/FIRST_GAME.md")
        if faults.waiting:
            more = "more line is" if faults.waiting == 1 else "more lines are"
            lines.append(f"s: {faults.waiting} {more} checked after these errors are fixed")
        self.assertEqual(out.decode().splitlines(), lines)
        for fault in faults:
            line = source.split(b"\n")[fault.line - 1][fault.column - 1 :]
            shown = "".join(chr(byte) if 32 <= byte <= 126 else f"\\x{byte:02X}" for byte in line)
            self.assertTrue(shown.startswith(fault.culprit), (fault, line))
            if fault.cause == "UnknownMnemonic":
                self.assertNotIn(" ", fault.culprit)
        if status == 7:
            with self.assertRaises(vip.SourceError) as bad:
                vip.assemble(source, isa)
            self.assertEqual(bad.exception.faults, faults)
        return faults

    def test_reads_all_cases(self):
        with open(os.path.join(TOP, "crates", "test_cases", "data", "cases.txt"), encoding="utf-8") as file:
            cases = [case for case in vip.read_cases(file.read()) if case.words[:1] == ("check",)]
        found = [
            self.read(case.files[case.words[1]], "chip8" if "--chip8" in case.words else "1802")
            for case in cases
            if len(case.words) > 1 and len(case.files.get(case.words[1], b"x" * (1 << 21))) <= 1 << 20
        ]
        self.assertGreater(len(found), 150)
        self.assertTrue(any(faults.waiting for faults in found) and any(faults.is_octo for faults in found))

    def test_reads_random_sources(self):
        found = [self.read(random_source(seed).encode(), ("1802", "chip8")[seed % 2]) for seed in range(1000)]
        self.assertGreater(sum(map(len, found)), 3000)
        self.assertGreater(sum(faults.waiting > 0 for faults in found), 100)
        self.assertGreater(sum(faults.is_octo for faults in found), 20)

    def test_parts_the_suggestion_from_the_text(self):
        faults = vip.check(" LDI 1 (2)\n LDI (5)\n FOO (x)\n BGE (use BDF)\n", "1802")
        parts = [(fault.culprit, fault.remedy) for fault in faults]
        self.assertEqual(parts[0], ("1 (2)", "an expression can't contain blanks"))
        self.assertEqual(parts[1], ("(5)", "parentheses are not supported"))
        self.assertEqual(parts[2], ("FOO", ""))
        self.assertEqual(parts[3], ("BGE", "use BDF"))

    def test_says_how_many_lines_wait(self):
        faults = vip.check(" LDI #5\nx: BR x\n FOO\n", "1802")
        self.assertEqual([fault.line for fault in faults], [1, 3])
        self.assertEqual(faults.waiting, 1)


class Runs(unittest.TestCase):
    def test_state(self):
        run = vip.Run(SUM)
        self.assertIsNone(run.state)
        with self.assertRaises(vip.Refused) as early:
            run.save()
        self.assertEqual(early.exception.status, 16)
        state = run.advance(cycles=900).state
        self.assertEqual((state.pc, state.opcode, state.v[0xA], state.v[0xB], state.stack), (0x206, 0x1206, 14, 12, ()))

    def test_is_a_value(self):
        run = vip.Run(DRAW).advance(frames=4)
        one, other = run.press(6).advance(frames=2), run.press(6).advance(frames=1).advance(frames=1)
        self.assertEqual(one, other)
        self.assertEqual(one.state, other.state)
        self.assertEqual((run.keys, one.keys), ((), ((4 * vip.FRAME, "down", 6),)))
        self.assertEqual(one.to(run.cycle).state, vip.Run(DRAW, one.keys).to(run.cycle).state)

    def test_goes_on_as_from_the_start(self):
        near = vip.Run(DRAW).advance(frames=2).advance(cycles=777).press(1).advance(frames=1)
        far = vip.Run(DRAW, near.keys).to(near.cycle)
        for what in ("state", "screen", "memory", "stop"):
            self.assertEqual(getattr(near, what), getattr(far, what), what)
        self.assertEqual(near.save(), far.save())
        self.assertEqual(near.profile(), far.profile())
        self.assertEqual(near.points(frames=1), far.points(frames=1))

    def test_frames(self):
        run = vip.Run(DRAW)
        frames = list(run.frames(6))
        self.assertEqual([frame.cycle for frame in frames], [vip.FRAME * k for k in range(1, 7)])
        self.assertEqual([point for frame in frames for point in frame.points], run.points(frames=6))
        self.assertEqual([frame.picture for frame in frames if frame.picture], run.pictures(frames=6))
        for frame in frames[1:]:
            # a picture is the screen at the last dispatch point before its end
            self.assertEqual(frame.screen, run.to(frame.cycle - vip.FRAME + 2912).screen)

    def test_stops(self):
        run = vip.Run(bytes.fromhex("6A02 0000")).advance(frames=1)
        self.assertEqual(run.stop, vip.Stop("MachineCall", 0, 0x202))
        self.assertEqual(len(list(vip.Run(bytes.fromhex("6A02 0000")).frames(9))), 1)

    def test_keys(self):
        game = bytes.fromhex("E1A1 1206 1200 6A07 1208")  # waits while key 0 is up, and then sets VA
        run = vip.Run(game).advance(frames=2)
        self.assertEqual((run.advance(frames=1).state.v[0xA], run.press(0).advance(frames=1).state.v[0xA]), (0, 7))
        with self.assertRaises(ValueError):
            vip.Run(game, [(0, "down", 16)])

    def test_saved(self):
        run = vip.Run(DRAW).advance(frames=3)
        again = vip.Run.from_state(run.save())
        self.assertEqual((again.state, again.memory), (run.state, run.memory))
        self.assertEqual(again.to(run.cycle + vip.FRAME).state, run.advance(frames=1).state)
        with self.assertRaises(vip.Refused) as bad:
            vip.Run.from_state(run.save()[:-1])
        self.assertEqual((bad.exception.status, bad.exception.report), (15, "vip: state file: BadLength"))

    def test_both_editions(self):
        self.assertEqual([len(vip.Run(DRAW, tall=tall).advance(frames=2).screen.rows) for tall in (False, True)], [32, 64])


class Certificates(unittest.TestCase):
    def test_games(self):
        certificate = vip.certify(SUM)
        self.assertGreater(vip.safe(SUM, certificate), 0)
        with self.assertRaises(vip.Refused) as none:
            vip.certify(b"\0\0")
        self.assertEqual(none.exception.status, 21)
        with self.assertRaises(vip.Refused) as wrong:
            vip.safe(DRAW, certificate)
        self.assertEqual(wrong.exception.status, 19)

    def test_routines(self):
        source = example("delay.asm")
        self.assertEqual(vip.cycles(source, vip.timing(source, "delay", 3, 7)), (0x8000, 24))


class Programs(unittest.TestCase):
    def test_trace(self):
        program = vip.Program(vip.assemble("start: LDI 5\n PLO R7\nloop: DEC R7\n GLO R7\n BNZ loop\n IDL\n", isa="1802"))
        moves = program.trace(1000)
        self.assertEqual([move.words for move in moves[:3]], ["LDI 0x05", "PLO R7", "DEC R7"])
        self.assertEqual(sum(move.words.startswith("BNZ") for move in moves), 5)
        self.assertEqual(moves[1].d, 5)
        self.assertEqual(program.bytes_at(0, 0, 2), b"\xf8\x05")


class Calls(unittest.TestCase):
    def test_statuses(self):
        self.assertEqual(vip.call(["trace", "g", "10"]), (3, b"", "vip: cannot read g"))
        self.assertEqual(vip.call(["dance"])[0], 2)
        self.assertEqual(vip.call(["dis", "a b", "0"], {"a b": b"\x7b"})[0], 0)

    def test_an_output_that_is_larger_than_a_first_room(self):
        status, out, _ = vip.call(["trace", "g", "40000000"], {"g": bytes.fromhex("1200")}) if vip.uses_library() else (0, b"\n" * (1 << 21), "")
        self.assertEqual((status, len(out) > 1 << 20, out[-1:]), (0, True, b"\n"))


if __name__ == "__main__":
    unittest.main()
