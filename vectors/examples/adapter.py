"""Speaks the line protocol of docs/VECTORS.md ("An adapter") for the interpreter chip8.py.

    vectors/run --adapter python3 vectors/examples/adapter.py
"""
import sys

from chip8 import Chip8


def digits(rows):
    return "".join("%016X" % row for row in rows)


def main():
    chip, script = None, []
    for line in sys.stdin:
        word, *rest = line.split()
        if word == "load":
            script = []
            chip = Chip8(bytes.fromhex(rest[1].replace("-", "")), rest[0] == "tall", script)
            answers = ["ok"]
        elif word == "key":
            script.append((int(rest[0]), int(rest[2], 16), rest[1] == "down"))
            answers = ["ok"]
        elif word == "run":
            answers = ["%s %s" % (kind, digits(what) if kind == "picture" else what) for kind, what in chip.run(int(rest[0]))]
        elif word == "screen":
            answers = [digits(chip.screen)]
        elif word == "memory":
            address = int(rest[0], 16)
            answers = [chip.memory[address:address + int(rest[1])].hex().upper()]
        else:
            answers = ["unknown"]
        print("\n".join(answers), flush=True)


if __name__ == "__main__":
    main()
