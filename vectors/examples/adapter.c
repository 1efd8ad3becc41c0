/* Speaks the line protocol of docs/VECTORS.md ("An adapter") for the interpreter chip8.h.

       cc -O2 -o adapter vectors/examples/adapter.c
       vectors/run --without-cycles 60 --adapter ./adapter */
#include <stdio.h>
#include "chip8.h"

static void put_rows(const struct chip8 *c, const char *word)
{
    fputs(word, stdout);
    for (int y = 0; y < c->rows; y++)
        printf("%016llX", (unsigned long long)c->screen[y]);
    putchar('\n');
}

static void put_picture(const struct chip8 *c) { put_rows(c, "picture "); }

static void put_point(const struct chip8 *c)
{
    printf("point %04X ", c->pc);
    printf(in_game(c, c->pc, 2) ? "%04X V" : "---- V", in_game(c, c->pc, 2) ? opcode(c) : 0);
    for (int x = 0; x < 16; x++)
        printf(" %02X", c->v[x]);
    printf(" I %04X DT %02X ST %02X Q %d S", c->i, c->dt, c->st, c->tone);
    for (int k = 0; k < c->depth; k++)
        printf(" %04X", c->stack[k]);
    printf(" N %04X AT %ld\n", c->n, c->cycle);
}

int main(void)
{
    static struct chip8 c;
    static char line[20000], edition, game[10000], way;
    unsigned at, count, byte;
    for (long n; fgets(line, sizeof line, stdin); fflush(stdout))
        if (sscanf(line, "run %ld", &n) == 1) {
            enum stop stop = chip8_run(&c, n, put_point, put_picture);
            if (stop == RUNS)
                printf("end done %ld\n", n);
            else if (stop == FETCH_OUTSIDE)
                printf("end stopped FetchOutside at %04X\n", c.pc);
            else
                printf("end stopped %s %04X at %04X\n", STOPS[stop], opcode(&c), c.pc);
        } else if (sscanf(line, "memory %x %u", &at, &count) == 2) {
            while (count--)
                printf(count ? "%02X" : "%02X\n", c.memory[at++]);
        } else if (line[0] == 's') {
            put_rows(&c, "");
        } else {
            if (sscanf(line, "load %c%*s %9999s", &edition, game) == 2)
                for (chip8_start(&c, edition == 't'), at = 0; sscanf(game + 2 * at, "%2x", &byte) == 1; at++)
                    c.memory[0x200 + at] = byte;
            else if (sscanf(line, "key %ld %c%*s %x", &n, &way, &at) == 3)
                c.script[c.events++] = (struct event){n, at, way == 'd'};
            else
                sscanf(line, "clock %ld", &c.clock);
            puts("ok");
        }
    return 0;
}
