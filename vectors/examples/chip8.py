"""A CHIP-8 interpreter with exact cycles: docs/LANGUAGE.md with the formulas of docs/TIMING.md, and no machine in it."""

FRAME, ROUTINE, MAIN = 3668, 1846, 1822
FONT_AT = 0x8700
FONT = bytes.fromhex("F0909090F0 2060202070 F010F080F0 F010F010F0 9090F01010 F080F010F0 F080F090F0 F010204040"
                     "F090F090F0 F090F010F0 F090F09090 E090E090E0 F0808080F0 E0909090E0 F080F080F0 F080F08080")
# Main cycles of the instructions that always take as many, by the first digit and, of 8XYN and FXKK, what tells them apart.
FIXED = {0x1: 92, 0x2: 108, 0x6: 86, 0x7: 90, 0xA: 92, 0xB: 106, 0xC: 114}
SUMS = {0x0: 100, 0x1: 120, 0x2: 120, 0x3: 120, 0x4: 118, 0x5: 118, 0x6: 118, 0x7: 118, 0xE: 118}
OTHERS = {0x07: 92, 0x15: 104, 0x18: 110, 0x1E: 126, 0x29: 146}
# Up to which of its main cycles a tick comes before the step.
TICKS_FIRST = {0xF07: 87, 0xC: 91, 0xF15: 101, 0xF18: 107}


def interrupts(t, k):
    """How many interrupts come before main code that goes on in cycle t has made k main cycles."""
    d = (4760 - t % FRAME) % FRAME
    return 0 if k < d else 1 + (k - d) // MAIN


def later(t, k):
    """The cycle in which main code goes on behind k main cycles."""
    return t + k + ROUTINE * interrupts(t, k)


def woken(t):
    """The cycle in which main code goes on that waits for an interrupt from cycle t on."""
    return t + (4760 - t % FRAME) % FRAME + ROUTINE


class Stop(Exception):
    """A stop: its name, and main cycles up to it."""

    def __init__(self, name, cycles):
        super().__init__(name)
        self.name, self.cycles = name, cycles


class Chip8:
    """The state of a game in an edition, and the cycle of its dispatch point."""

    def __init__(self, code, tall, script):
        self.rows = 64 if tall else 32
        self.top = 0xD9F if tall else 0xE9F
        self.memory = bytearray(0x1000)
        self.memory[0x200:0x200 + len(code)] = code
        self.script = script  # events (cycle, key, whether it goes down), in order
        self.v = bytearray(16)
        self.i, self.pc, self.stack = 0, 0x200, []
        self.dt = self.st = self.tone = self.n = self.b = 0
        self.screen = [0] * self.rows
        self.cycle = 56

    # ------------------------------------------------ a run

    def run(self, limit):
        """Yields ("point", line) and ("picture", rows) in order, and at last ("end", report)."""
        frame = 0
        while self.cycle <= limit:
            yield "point", self.line()
            try:
                cycle, first, behind, key = self.plan(limit)
                stop = None
            except Stop as fault:
                stop, cycle = fault, later(self.cycle, fault.cycles)
            while FRAME * frame + 2912 <= min(cycle, limit):
                yield "picture", list(self.screen)
                frame += 1
            if cycle > limit:
                break
            if stop:
                yield "end", "stopped %s%s at %04X" % (stop.name, "" if stop.name == "FetchOutside" else " %04X" % self.opcode(), self.pc)
                return
            self.tick(first)
            self.step(key)
            self.tick(behind)
            self.cycle = cycle
        yield "end", "done %d" % limit

    def line(self):
        """The line of `trace --at`."""
        code = "%04X" % self.opcode() if self.in_game(self.pc, 2) else "----"
        stack = "".join(" %04X" % address for address in self.stack)
        return "%04X %s V %s I %04X DT %02X ST %02X Q %d S%s N %04X AT %d" % (
            self.pc, code, self.v.hex(" ").upper(), self.i, self.dt, self.st, self.tone, stack, self.n, self.cycle)

    def opcode(self):
        return self.memory[self.pc] << 8 | self.memory[self.pc + 1]

    def in_game(self, address, count):
        return 0x200 <= address and address + count - 1 <= self.top

    def in_font(self, address, count):
        return FONT_AT <= address and address + count <= FONT_AT + len(FONT)

    def read(self, address, count):
        if address >= FONT_AT:
            return FONT[address - FONT_AT:][:count]
        return bytes(self.memory[address:address + count])

    def is_down(self, key, cycle):
        down = False
        for at, name, goes_down in self.script:
            if at > cycle:
                break
            if name == key:
                down = goes_down
        return down

    def tick(self, count):
        for _ in range(count):
            self.n = (self.n + 1) & 0xFFFF
            self.dt -= self.dt > 0
            self.tone = int(self.st > 0)
            self.st -= self.st > 0

    # ------------------------------------------------ time

    def plan(self, limit):
        """The cycle of the next point, the ticks before the step and behind it, and the key; raises Stop."""
        t = self.cycle
        if not self.in_game(self.pc, 2):
            raise Stop("FetchOutside", 32 if self.pc < 0x200 else 42)
        code = self.opcode()
        if code == 0x00E0 or code >> 12 == 0xD:
            before, behind = (102, 2 + 24 * self.rows) if code == 0x00E0 else self.draw_time(code)
            return woken(later(t, before - 1) + 1) + behind, interrupts(t, before - 1) + 1, 0, None
        cycles, key = self.cycles(code, limit)
        first = TICKS_FIRST.get(code >> 12 if code >> 12 == 0xC else 0xF00 | code & 0xFF if code >> 12 == 0xF else None, cycles)
        first, ticks = interrupts(t, first), interrupts(t, cycles)
        return later(t, cycles), first, ticks - first, key

    def cycles(self, code, limit):
        """The main cycles of an instruction that doesn't wait for the display, and the key that it looks at."""
        kind, x, y, kk = code >> 12, code >> 8 & 15, code >> 4 & 15, code & 0xFF
        if kind in FIXED:
            if kind == 2 and len(self.stack) == 12:
                raise Stop("StackFull", 112)
            return FIXED[kind], None
        if kind == 0:
            if code != 0x00EE:
                raise Stop("MachineCall", 122 if code < 0x100 else 110)
            if not self.stack:
                raise Stop("StackEmpty", 128)
            return 126, None
        if kind in (3, 4):
            return 90 + 4 * ((self.v[x] == kk) == (kind == 3)), None
        if kind in (5, 9):
            if code & 15:
                raise Stop("Unknown", 112)
            return 96 + 4 * ((self.v[x] == self.v[y]) == (kind == 5)), None
        if kind == 8:
            if code & 15 not in SUMS:
                raise Stop("Unknown", 120)
            return SUMS[code & 15], None
        return self.key_cycles(kk, self.v[x] & 15) if kind == 0xE else self.other_cycles(kk, x, limit)

    def key_cycles(self, kk, key):
        """EX9E and EXA1, and the key as they take it."""
        if kk not in (0x9E, 0xA1):
            raise Stop("Unknown", 120)
        base = 90 if kk == 0x9E else 96
        down = self.is_down(key, later(self.cycle, base) + 1)
        return base + 4 + 4 * (down == (kk == 0x9E)), down

    def other_cycles(self, kk, x, limit):
        """FXKK."""
        outside = 0 if self.i < 0x200 else 26 if FONT_AT <= self.i <= 0x87FF else 18
        if kk in OTHERS:
            return OTHERS[kk], None
        if kk == 0x0A:
            return self.wait_cycles(limit)
        if kk == 0x33:
            if not self.in_game(self.i, 3):
                raise Stop("WriteOutside", 188 + outside)
            return 230 + 6 * (self.v[x] // 100 + self.v[x] // 10 % 10), None
        if kk == 0x55:
            if not self.in_game(self.i, x + 1):
                raise Stop("WriteOutside", 198 + outside)
            return 206 + 12 * x, None
        if kk == 0x65:
            if not self.in_game(self.i, x + 1) and not self.in_font(self.i, x + 1):
                raise Stop("ReadOutside", 206 + outside)
            return 214 + 12 * x + 14 * (self.i >= FONT_AT), None
        raise Stop("Unknown", 160)

    def wait_cycles(self, limit):
        """FX0A, and its key; more cycles than are left where none comes."""
        tests = ((j, later(self.cycle, 114 + 14 * j) + 1) for j in range(limit))
        for j, cycle in tests:
            if cycle > limit:
                break
            if self.is_down(j & 15, cycle):
                for i in range(limit):
                    cycle = later(self.cycle, 116 + 14 * j + 2 * i) + 1
                    if cycle > limit:
                        return limit, None
                    if not self.is_down(j & 15, cycle):
                        return 126 + 14 * j + 2 * i, j & 15
        return limit, None

    def draw_time(self, code):
        """The main cycles of DXYN before its wait and behind it."""
        n, x, y = code & 15, self.v[code >> 8 & 15] & 63, self.v[code >> 4 & 15] % self.rows
        if n == 0:
            return 222, 24
        if not self.in_game(self.i, n) and not self.in_font(self.i, n):
            raise Stop("ReadOutside", 152 + (0 if self.i < 0x200 else 26 if FONT_AT <= self.i <= 0x87FF else 18))
        height = min(n, self.rows - y)
        row = 40 + 12 * (x & 7) - 2 * (x >= 56)
        return 272 + 14 * (self.i >= FONT_AT) + 8 * (n >= self.rows - y) + height * row, 24 + 58 * height

    # ------------------------------------------------ the instructions

    def step(self, key):
        code = self.opcode()
        kind, x, y, kk, address = code >> 12, code >> 8 & 15, code >> 4 & 15, code & 0xFF, code & 0xFFF
        v, self.pc = self.v, self.pc + 2
        if kind == 0:
            if code == 0x00E0:
                self.screen = [0] * self.rows
            else:
                self.pc = self.stack.pop()
        elif kind in (1, 2):
            if kind == 2:
                self.stack.append(self.pc)
            self.pc = address
        elif kind in (3, 4):
            self.pc += 2 * ((v[x] == kk) == (kind == 3))
        elif kind in (5, 9):
            self.pc += 2 * ((v[x] == v[y]) == (kind == 5))
        elif kind == 6:
            v[x] = kk
        elif kind == 7:
            v[x] = v[x] + kk & 0xFF
        elif kind == 8:
            self.sum(code & 15, x, v[x], v[y])
        elif kind == 0xA:
            self.i = address
        elif kind == 0xB:
            self.pc = address + v[0]
        elif kind == 0xC:
            self.b = 5 * self.b + self.n + 113 & 0xFF
            v[x] = self.b & kk
        elif kind == 0xD:
            self.draw(v[x] & 63, v[y] % self.rows, code & 15)
        elif kind == 0xE:
            self.pc += 2 * (key == (kk == 0x9E))
        else:
            self.other(kk, x, key)

    def sum(self, kind, x, a, b):
        """8XYN of VX = a and VY = b."""
        results = {0: (b, None), 1: (a | b, 0), 2: (a & b, 0), 3: (a ^ b, 0), 4: (a + b, a + b > 255), 5: (a - b, a >= b), 6: (b >> 1, b & 1),
                   7: (b - a, b >= a), 0xE: (b << 1, b >> 7)}
        result, flag = results[kind]
        self.v[x] = result & 0xFF
        if flag is not None:
            self.v[15] = flag

    def draw(self, x, y, n):
        hit = 0
        for row, dots in enumerate(self.read(self.i, n)[:self.rows - y]):
            dots = dots << 56 >> x
            hit |= self.screen[y + row] & dots
            self.screen[y + row] ^= dots
        self.v[15] = hit != 0

    def other(self, kk, x, key):
        v = self.v
        if kk == 0x07:
            v[x] = self.dt
        elif kk == 0x0A:
            v[x] = key
        elif kk == 0x15:
            self.dt = v[x]
        elif kk == 0x18:
            self.st = v[x]
        elif kk == 0x1E:
            self.i = self.i + v[x] & 0xFFFF
        elif kk == 0x29:
            self.i = FONT_AT + 5 * (v[x] & 15)
        elif kk == 0x33:
            self.memory[self.i:self.i + 3] = bytes((v[x] // 100, v[x] // 10 % 10, v[x] % 10))
        elif kk == 0x55:
            self.memory[self.i:self.i + x + 1] = v[:x + 1]
            self.i += x + 1
        else:
            v[:x + 1] = self.read(self.i, x + 1)
            self.i += x + 1
