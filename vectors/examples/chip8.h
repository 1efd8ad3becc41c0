/* A CHIP-8 interpreter without cycles, by docs/LANGUAGE.md, with the clock of docs/VECTORS.md ("Without cycles"). */
#include <stdint.h>
#include <string.h>

enum { FRAME = 3668, INTERRUPT = 1092, ROUTINE = 1846, FONT_AT = 0x8700, MOST_EVENTS = 100000 };
enum stop { RUNS, MACHINE_CALL, UNKNOWN, FETCH_OUTSIDE, READ_OUTSIDE, WRITE_OUTSIDE, STACK_FULL, STACK_EMPTY };

static const char *const STOPS[] = {"", "MachineCall", "Unknown", "FetchOutside", "ReadOutside", "WriteOutside", "StackFull", "StackEmpty"};

struct event { long cycle; int key, down; };

struct chip8 {
    uint8_t v[16], memory[0x1000], dt, st, tone, b;
    uint16_t i, pc, n, stack[12];
    int depth, rows, top;
    uint64_t screen[64];
    long cycle, tick; /* those of the next instruction and of the next tick */
    long clock; /* of each instruction; 0 is no clock, so no tick */
    int events;
    struct event script[MOST_EVENTS];
};

/* Who is told of the dispatch points and of the pictures of a run. */
typedef void listener(const struct chip8 *c);

static const uint8_t FONT[80] = {
    0xF0, 0x90, 0x90, 0x90, 0xF0, 0x20, 0x60, 0x20, 0x20, 0x70, 0xF0, 0x10, 0xF0, 0x80, 0xF0, 0xF0, 0x10, 0xF0, 0x10, 0xF0,
    0x90, 0x90, 0xF0, 0x10, 0x10, 0xF0, 0x80, 0xF0, 0x10, 0xF0, 0xF0, 0x80, 0xF0, 0x90, 0xF0, 0xF0, 0x10, 0x20, 0x40, 0x40,
    0xF0, 0x90, 0xF0, 0x90, 0xF0, 0xF0, 0x90, 0xF0, 0x10, 0xF0, 0xF0, 0x90, 0xF0, 0x90, 0x90, 0xE0, 0x90, 0xE0, 0x90, 0xE0,
    0xF0, 0x80, 0x80, 0x80, 0xF0, 0xE0, 0x90, 0x90, 0x90, 0xE0, 0xF0, 0x80, 0xF0, 0x80, 0xF0, 0xF0, 0x80, 0xF0, 0x80, 0x80,
};

static void chip8_start(struct chip8 *c, int tall)
{
    long clock = c->clock;
    memset(c, 0, sizeof *c);
    c->clock = clock;
    c->rows = tall ? 64 : 32;
    c->top = tall ? 0xD9F : 0xE9F;
    c->pc = 0x200;
    c->tick = INTERRUPT;
}

static int in_game(const struct chip8 *c, int at, int count) { return at >= 0x200 && at + count - 1 <= c->top; }
static int in_font(int at, int count) { return at >= FONT_AT && at + count <= FONT_AT + 80; }
static uint8_t byte_at(const struct chip8 *c, int at) { return at >= FONT_AT ? FONT[at - FONT_AT] : c->memory[at]; }
static int opcode(const struct chip8 *c) { return c->memory[c->pc] << 8 | c->memory[c->pc + 1]; }

static int is_down(const struct chip8 *c, int key, long cycle)
{
    int down = 0;
    for (int e = 0; e < c->events && c->script[e].cycle <= cycle; e++)
        if (c->script[e].key == key)
            down = c->script[e].down;
    return down;
}

static void make_tick(struct chip8 *c)
{
    c->n++;
    c->dt -= c->dt > 0;
    c->tone = c->st > 0;
    c->st -= c->st > 0;
    c->tick += FRAME;
}

static void draw(struct chip8 *c, int x, int y, int n)
{
    int hit = 0;
    for (int row = 0; row < n && y + row < c->rows; row++) {
        uint64_t dots = (uint64_t)byte_at(c, c->i + row) << 56 >> x;
        hit |= (c->screen[y + row] & dots) != 0;
        c->screen[y + row] ^= dots;
    }
    c->v[15] = hit;
}

static enum stop sums(struct chip8 *c, int kind, int x, int a, int b)
{
    int result, flag = 0;
    switch (kind) {
    case 0x0: c->v[x] = b; return RUNS;
    case 0x1: result = a | b; break;
    case 0x2: result = a & b; break;
    case 0x3: result = a ^ b; break;
    case 0x4: result = a + b, flag = result > 255; break;
    case 0x5: result = a - b, flag = a >= b; break;
    case 0x6: result = b >> 1, flag = b & 1; break;
    case 0x7: result = b - a, flag = b >= a; break;
    case 0xE: result = b << 1, flag = b >> 7; break;
    default: return UNKNOWN;
    }
    c->v[x] = result;
    c->v[15] = flag;
    return RUNS;
}

/* FX33, FX55 and FX65. */
static enum stop digits_and_memory(struct chip8 *c, int kk, int x)
{
    int count = kk == 0x33 ? 3 : x + 1, at = c->i;
    if (!in_game(c, at, count) && !(kk == 0x65 && in_font(at, count)))
        return kk == 0x65 ? READ_OUTSIDE : WRITE_OUTSIDE;
    if (kk == 0x33) {
        c->memory[at] = c->v[x] / 100;
        c->memory[at + 1] = c->v[x] / 10 % 10;
        c->memory[at + 2] = c->v[x] % 10;
        return RUNS;
    }
    for (int k = 0; k < count; k++)
        if (kk == 0x55)
            c->memory[at + k] = c->v[k];
        else
            c->v[k] = byte_at(c, at + k);
    c->i += count;
    return RUNS;
}

static enum stop others(struct chip8 *c, int kk, int x)
{
    switch (kk) {
    case 0x07: c->v[x] = c->dt; return RUNS;
    case 0x15: c->dt = c->v[x]; return RUNS;
    case 0x18: c->st = c->v[x]; return RUNS;
    case 0x1E: c->i += c->v[x]; return RUNS;
    case 0x29: c->i = FONT_AT + 5 * (c->v[x] & 15); return RUNS;
    case 0x33: case 0x55: case 0x65: return digits_and_memory(c, kk, x);
    default: return UNKNOWN;
    }
}

static enum stop calls(struct chip8 *c, int code)
{
    if (code == 0x00EE) {
        if (!c->depth)
            return STACK_EMPTY;
        c->pc = c->stack[--c->depth] - 2;
        return RUNS;
    }
    if (code >> 12 == 0)
        return MACHINE_CALL;
    if (c->depth == 12)
        return STACK_FULL;
    c->stack[c->depth++] = c->pc + 2;
    c->pc = (code & 0xFFF) - 2;
    return RUNS;
}

/* Makes the step of an instruction, but for FX0A. A stop changes nothing. */
static enum stop step(struct chip8 *c, int code)
{
    int x = code >> 8 & 15, y = code >> 4 & 15, kk = code & 255, address = code & 0xFFF;
    uint8_t *v = c->v;
    enum stop stop = RUNS;
    switch (code >> 12) {
    case 0x0: case 0x2:
        if (code == 0x00E0)
            memset(c->screen, 0, sizeof c->screen);
        else
            stop = calls(c, code);
        break;
    case 0x1: c->pc = address - 2; break;
    case 0x3: c->pc += 2 * (v[x] == kk); break;
    case 0x4: c->pc += 2 * (v[x] != kk); break;
    case 0x5: stop = code & 15 ? UNKNOWN : RUNS; c->pc += 2 * (!stop && v[x] == v[y]); break;
    case 0x9: stop = code & 15 ? UNKNOWN : RUNS; c->pc += 2 * (!stop && v[x] != v[y]); break;
    case 0x6: v[x] = kk; break;
    case 0x7: v[x] += kk; break;
    case 0x8: stop = sums(c, code & 15, x, v[x], v[y]); break;
    case 0xA: c->i = address; break;
    case 0xB: c->pc = address + v[0] - 2; break;
    case 0xC: c->b = 5 * c->b + c->n + 113, v[x] = c->b & kk; break;
    case 0xD: draw(c, v[x] & 63, v[y] % c->rows, code & 15); break;
    case 0xE:
        stop = kk == 0x9E || kk == 0xA1 ? RUNS : UNKNOWN;
        c->pc += 2 * (!stop && is_down(c, v[x] & 15, c->cycle) == (kk == 0x9E));
        break;
    default: stop = others(c, kk, x);
    }
    c->pc += stop ? 0 : 2;
    return stop;
}

/* The stop that an instruction makes before it acts or waits. */
static enum stop stop_of(const struct chip8 *c)
{
    if (!in_game(c, c->pc, 2))
        return FETCH_OUTSIDE;
    int n = opcode(c) & 15;
    return opcode(c) >> 12 == 0xD && n && !in_game(c, c->i, n) && !in_font(c->i, n) ? READ_OUTSIDE : RUNS;
}

/* FX0A: the cycle in which the first key that is down goes up, and that key. -1 where none does. */
static long key_taken(const struct chip8 *c, int *key)
{
    long since = c->cycle;
    *key = -1;
    for (int k = 15; k >= 0; k--)
        if (is_down(c, k, c->cycle))
            *key = k;
    for (int e = 0; e < c->events; e++) {
        const struct event *event = &c->script[e];
        if (event->cycle <= since)
            continue;
        if (*key < 0 && event->down)
            *key = event->key, since = event->cycle;
        else if (event->key == *key && !event->down)
            return event->cycle;
    }
    return -1;
}

static void tick_up_to(struct chip8 *c, long cycle, long limit, listener *picture)
{
    for (; c->clock && c->tick < cycle; make_tick(c))
        if (c->tick - INTERRUPT + 2912 <= limit)
            picture(c);
}

/* Makes an instruction. Answers the stop; the cycle is the limit where it doesn't end. */
static enum stop go_on(struct chip8 *c, long limit, listener *picture)
{
    enum stop stop = stop_of(c);
    int code = stop ? 0 : opcode(c), key, is_wait = (code & 0xF0FF) == 0xF00A;
    if (stop)
        return stop;
    if (is_wait) {
        long cycle = key_taken(c, &key);
        tick_up_to(c, cycle < 0 || cycle > limit ? limit : cycle, limit, picture);
        c->cycle = cycle < 0 ? limit : cycle > c->cycle ? cycle : c->cycle;
        c->v[code >> 8 & 15] = cycle < 0 ? 0 : key, c->pc += 2;
    } else {
        if (c->clock && (code == 0x00E0 || code >> 12 == 0xD)) {
            c->cycle = c->tick + ROUTINE;
            tick_up_to(c, c->tick + 1 < limit ? c->tick + 1 : limit, limit, picture);
            if (c->cycle - ROUTINE >= limit)
                return RUNS;
        }
        stop = step(c, code);
    }
    c->cycle += stop ? 0 : c->clock ? c->clock : 100;
    for (; !stop && c->clock && c->tick < c->cycle && c->tick < limit; c->cycle += is_wait ? 0 : ROUTINE)
        tick_up_to(c, c->tick + 1, limit, picture);
    return stop;
}

/* Runs a game up to its stop, which is answered, or to the limit. */
static enum stop chip8_run(struct chip8 *c, long limit, listener *point, listener *picture)
{
    enum stop stop = RUNS;
    for (; !stop && c->cycle < limit; stop = go_on(c, limit, picture))
        point(c);
    if (!stop)
        tick_up_to(c, limit, limit, picture);
    return stop;
}
