/* A run of a game through the device, with the keys of a key script as sets that are held
 * from one event to the next. It writes what `vip trace --at` and `vip play` write.
 *
 *     device trace|play GAME KEYS LIMIT [tall]   the lines, or the pictures, to standard output
 *     device speed GAME FRAMES                   frames a second with a key decided at each frame,
 *                                                and calls of run_to a second in an 1802 loop
 *     device misuse                              each misuse gives its error and changes nothing
 */
#include <inttypes.h>
#include <stdio.h>
#include <stdlib.h>
#include <string.h>
#include <time.h>
#include <vip_device.h>

static struct vip_device device;
static struct vip_state state;

static size_t read_file(const char *name, uint8_t *bytes, size_t most)
{
    FILE *file = fopen(name, "rb");
    size_t length = file ? fread(bytes, 1, most, file) : 0;
    if (!file || fclose(file))
        exit(fprintf(stderr, "device: %s can't be read\n", name));
    return length;
}

/* Writes the line that a trace has for the dispatch point of the device. */
static void put_line(void)
{
    vip_device_state(&device, &state);
    printf("%04X ", state.pc);
    if (state.has_opcode)
        printf("%04X V", state.opcode);
    else
        printf("---- V");
    for (int x = 0; x < 16; x++)
        printf(" %02X", state.v[x]);
    printf(" I %04X DT %02X ST %02X Q %d S", state.i, state.dt, state.st, state.tone);
    for (int k = 0; k < state.depth; k++)
        printf(" %04X", state.stack[k]);
    printf(" N %04X AT %" PRIu64 "\n", state.ticks, device.cycle);
}

static void put_picture(void)
{
    fputs("P4\n64 128\n", stdout);
    fwrite(device.picture, 1, sizeof device.picture, stdout);
}

/* Runs up to a cycle with these keys, and writes what comes. Returns why it ended. */
static int32_t run_part(int is_trace, uint16_t keys, uint64_t until)
{
    for (;;) {
        int32_t why = is_trace ? vip_device_opcode(&device, keys, until)
                               : vip_device_frame(&device, keys, until);
        if (why == VIP_DISPATCH)
            put_line();
        else if (why == VIP_PICTURE)
            put_picture();
        else
            return why;
    }
}

static int run_game(int is_trace, char **words, int is_tall)
{
    static uint8_t game[4096];
    uint64_t limit = strtoull(words[2], NULL, 10), cycle;
    size_t length = read_file(words[0], game, sizeof game);
    uint16_t keys = 0;
    unsigned key;
    char how[8];
    int32_t why = VIP_LIMIT;
    FILE *script = fopen(words[1], "r");
    if (!script || vip_device_game(&device, game, length, is_tall) < 0)
        return 2;
    while (why == VIP_LIMIT && fscanf(script, "%" SCNu64 " %7s %x", &cycle, how, &key) == 3) {
        if (cycle > limit)
            break;
        why = run_part(is_trace, keys, cycle);
        keys = how[0] == 'd' ? keys | 1u << key : keys & ~(1u << key);
    }
    fclose(script);
    if (why == VIP_LIMIT)
        why = run_part(is_trace, keys, limit);
    return why == VIP_LIMIT ? 0 : why >= VIP_STOP_MACHINE_CALL && why <= VIP_STOP_STACK_EMPTY ? 1 : 3;
}

static double seconds(void)
{
    struct timespec now;
    clock_gettime(CLOCK_MONOTONIC, &now);
    return now.tv_sec + now.tv_nsec / 1e9;
}

static int speed(const char *name, long frames)
{
    static uint8_t game[4096];
    static const struct vip_place place = {0x0001, 0xFF, 0};
    static const uint8_t no_rom[1] = {0}, loop[] = {0x11, 0x30, 0x00};
    size_t length = read_file(name, game, sizeof game);
    uint32_t chance = 1;
    if (vip_device_game(&device, game, length, 0) < 0)
        return 2;
    double start = seconds();
    for (long frame = 0; frame < frames; frame++) {
        chance = chance * 1664525 + 1013904223;
        uint16_t keys = device.picture[64][3] & 1 ? 0 : 1u << (chance >> 28);
        if (vip_device_frame(&device, keys, UINT64_MAX) != VIP_PICTURE)
            return 3;
    }
    printf("%.0f frames a second\n", frames / (seconds() - start));
    vip_device_reset(&device, no_rom, 1, 0);
    vip_device_write(&device, 0, loop, sizeof loop);
    start = seconds();
    for (long call = 0; call < frames; call++)
        if (vip_device_run_to(&device, 0, UINT64_MAX, &place, 1) != VIP_PLACE)
            return 3;
    printf("%.0f calls of run_to a second\n", frames / (seconds() - start));
    return 0;
}

static int bad;

/* Checks what a call returned, and that it changed nothing. */
static void is_refused(const char *call, int32_t result, int32_t error, const struct vip_device *before)
{
    if (result == error && memcmp(&device, before, sizeof device) == 0)
        return;
    printf("device: %s returned %d, or changed something\n", call, result);
    bad = 1;
}

static int misuse(void)
{
    static struct vip_device before;
    static uint8_t bytes[8192];
    struct vip_place places[9] = {{0, 0, 0}}, place = {0, 16, 0};
    if (vip_device_size() != sizeof device || sizeof device != VIP_DEVICE_SIZE)
        return printf("device: its size is %zu\n", vip_device_size());
    vip_device_game(&device, bytes, 100, 0);
    vip_device_frame(&device, 0, 100000);
    memcpy(&before, &device, sizeof device);
    struct vip_registers registers = device.registers;
#define REFUSED(call, error) is_refused(#call, call, error, &before)
    REFUSED(vip_device_reset(&device, bytes, 0, 1), VIP_BAD_LENGTH);
    REFUSED(vip_device_reset(&device, bytes, 2049, 1), VIP_BAD_LENGTH);
    REFUSED(vip_device_reset(&device, bytes, 1, 2), VIP_BAD_NUMBER);
    REFUSED(vip_device_game(&device, bytes, 3233, 0), VIP_BAD_LENGTH);
    REFUSED(vip_device_game(&device, bytes, 2977, 1), VIP_BAD_LENGTH);
    REFUSED(vip_device_game(&device, bytes, 1, 2), VIP_BAD_NUMBER);
    REFUSED(vip_device_write(&device, 0x0FFF, bytes, 2), VIP_BAD_ADDRESS);
    REFUSED(vip_device_write(&device, 0x7FFF, bytes, 2), VIP_BAD_ADDRESS);
    REFUSED(vip_device_write(&device, 0x87FF, bytes, 2), VIP_BAD_ADDRESS);
    REFUSED(vip_device_read(&device, 0xFFFF, bytes, 2), VIP_BAD_ADDRESS);
    registers.p = 16;
    REFUSED(vip_device_set_registers(&device, &registers), VIP_BAD_NUMBER);
    registers.p = 0, registers.q = 2;
    REFUSED(vip_device_set_registers(&device, &registers), VIP_BAD_NUMBER);
    REFUSED(vip_device_run_to(&device, 0, 200000, places, 9), VIP_BAD_LENGTH);
    REFUSED(vip_device_run_to(&device, 0, 200000, &place, 1), VIP_BAD_NUMBER);
    REFUSED(vip_device_save(&device, 3, bytes, sizeof bytes), VIP_BAD_NUMBER);
    REFUSED(vip_device_save(&device, 1, bytes, 4146), VIP_BAD_LENGTH);
    REFUSED(vip_device_save(&device, 2, bytes, 6194), VIP_BAD_LENGTH);
    REFUSED(vip_device_load(&device, bytes, 4146), VIP_BAD_LENGTH);
    REFUSED(vip_device_load(&device, bytes, 4147), VIP_BAD_HEAD);
    REFUSED(vip_device_opcode_text(0x00E0, bytes, 14), VIP_BAD_LENGTH);
    REFUSED(vip_device_instruction_text(&device, 0, bytes, 10), VIP_BAD_LENGTH);
    vip_device_reset(&device, bytes, 1, 0);
    memcpy(&before, &device, sizeof device);
    REFUSED(vip_device_opcode(&device, 0, 100), VIP_NO_GAME);
    REFUSED(vip_device_state(&device, &state), VIP_NO_GAME);
    REFUSED(vip_device_save(&device, 1, bytes, sizeof bytes), VIP_NO_GAME);
    return bad;
}

int main(int count, char **words)
{
    if (count >= 5 && (!strcmp(words[1], "trace") || !strcmp(words[1], "play")))
        return run_game(words[1][0] == 't', words + 2, count > 5);
    if (count == 4 && !strcmp(words[1], "speed"))
        return speed(words[2], atol(words[3]));
    if (count == 2 && !strcmp(words[1], "misuse"))
        return misuse();
    fputs("usage: device trace|play GAME KEYS LIMIT [tall] | speed GAME FRAMES | misuse\n", stderr);
    return 2;
}
