/* Plays the game of examples/catch.asm by looking at its pictures: after each frame it finds
 * the drop and the bowl, and holds key 4 or 6 until the bowl is below the drop. It plays for a
 * minute of the machine's time and prints how many drops were caught.
 *
 *     ./vip asm --chip8 --raw examples/catch.asm > catch.ch8
 *     cc -o catch examples/catch.c -I include -L "$(dirname "$(share/choose library)")" -lvip
 *     LD_LIBRARY_PATH=$(dirname "$(share/choose library)") ./catch catch.ch8
 */
#include <stdio.h>
#include <vip_device.h>

static struct vip_device device;

/* Returns the column of the leftmost lit pixel in some rows of the picture, or -1. */
static int leftmost(int first_row, int last_row)
{
    for (int column = 0; column < 64; column++)
        for (int row = first_row; row <= last_row; row++)
            if (device.picture[4 * row][column / 8] << column % 8 & 0x80)
                return column;
    return -1;
}

int main(int count, char **words)
{
    static uint8_t game[3232];
    static struct vip_state state;
    FILE *file = count == 2 ? fopen(words[1], "rb") : NULL;
    size_t length = file ? fread(game, 1, sizeof game, file) : 0;
    if (!file || fclose(file) || vip_device_game(&device, game, length, 0) < 0) {
        fputs("usage: catch GAME\n", stderr);
        return 2;
    }
    uint16_t keys = 0;
    while (device.frame < 3600) {
        if (vip_device_frame(&device, keys, device.cycle + 2 * 3668) != VIP_PICTURE)
            return 1;
        int drop = leftmost(0, 27), bowl = leftmost(28, 29);
        if (drop >= 0 && bowl >= 0)
            keys = bowl > drop - 3 ? 1 << 4 : bowl < drop - 3 ? 1 << 6 : 0;
    }
    vip_device_state(&device, &state);
    printf("%d drops caught by frame %d\n", state.v[8], (int)device.frame);
    return 0;
}
