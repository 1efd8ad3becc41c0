"""A CHIP-8 interpreter with one mistake, for fuzz.py to find.

It has no cycles: an instruction is a step, and no key is ever down.
"""


class Other:
    def __init__(self, game):
        self.memory = bytearray(4096)
        self.memory[0x200 : 0x200 + len(game)] = game
        self.v, self.i, self.pc, self.stack = [0] * 16, 0, 0x200, []
        self.screen = [[False] * 64 for _ in range(32)]

    def point(self):
        """Return what is compared before each instruction: pc, the variables, I, the stack."""
        return self.pc, tuple(self.v), self.i, tuple(self.stack)

    def step(self):
        """Execute an instruction; return False if it stops or isn't known here."""
        v, code = self.v, int.from_bytes(self.memory[self.pc : self.pc + 2], "big")
        x, y, n, kk, at = code >> 8 & 15, code >> 4 & 15, code & 15, code & 255, code & 4095
        self.pc += 2
        kind = code >> 12
        if code == 0x00E0:
            self.screen = [[False] * 64 for _ in range(32)]
        elif code == 0x00EE and self.stack:
            self.pc = self.stack.pop()
        elif kind == 1:
            self.pc = at
        elif kind == 2 and len(self.stack) < 12:
            self.stack.append(self.pc)
            self.pc = at
        elif kind in (3, 4):
            self.pc += 2 * ((v[x] == kk) == (kind == 3))
        elif kind in (5, 9) and n == 0:
            self.pc += 2 * ((v[x] == v[y]) == (kind == 5))
        elif kind == 6:
            v[x] = kk
        elif kind == 7:
            v[x] = v[x] + kk & 255
        elif kind == 8 and n in range(8) or kind == 8 and n == 14:
            self.arithmetic(x, y, n)
        elif kind == 10:
            self.i = at
        elif kind == 13:
            self.draw(v[x], v[y], n)
        elif kind == 15 and kk == 0x1E:
            self.i = self.i + v[x] & 0xFFFF
        else:
            return False
        return True

    def arithmetic(self, x, y, n):
        """Execute 8XYN."""
        v, a, b = self.v, self.v[x], self.v[y]
        if n < 4:
            v[x] = (b, a | b, a & b, a ^ b)[n]
            if n:
                v[15] = 0
            return
        # (the mistake: 8XY6 and 8XYE shift VX, as many later interpreters do, and not VY)
        flag = {4: a + b > 255, 5: a >= b, 6: a & 1, 7: b >= a, 14: a >> 7}[n]
        v[x] = {4: a + b, 5: a - b, 6: a >> 1, 7: b - a, 14: a << 1}[n] & 255
        v[15] = int(flag)

    def draw(self, column, row, height):
        """Execute DXYN."""
        hit = False
        for line in range(height):
            byte, y = self.memory[self.i + line & 4095], row % 32 + line
            for bit in range(8):
                x = column % 64 + bit
                if byte >> 7 - bit & 1 and x < 64 and y < 32:
                    hit |= self.screen[y][x]
                    self.screen[y][x] ^= True
        self.v[15] = int(hit)
