/* A program for the bare 1802, without the interpreter: it turns Q on and off. This runs it for
 * a tenth of a second, lists when Q changed, and then stops at one of its instructions.
 *
 *     cc -o blink examples/blink.c -I include -L "$(dirname "$(share/choose library)")" -lvip
 *     LD_LIBRARY_PATH=$(dirname "$(share/choose library)") ./blink
 */
#include <inttypes.h>
#include <stdio.h>
#include <vip_device.h>

int main(void)
{
    static const uint8_t no_rom[1] = {0};
    static const uint8_t program[] = {
        0x7B,       /* 0000 SEQ          Q is on */
        0xF8, 0xFF, /* 0001 LDI 0xFF */
        0xFF, 0x01, /* 0003 SMI 0x01 */
        0x3A, 0x03, /* 0005 BNZ 0x0003   255 times */
        0x7A,       /* 0007 REQ          Q is off */
        0xF8, 0xFF, /* 0008 LDI 0xFF */
        0xFF, 0x01, /* 000A SMI 0x01 */
        0x3A, 0x0A, /* 000C BNZ 0x000A */
        0x30, 0x00, /* 000E BR 0x0000 */
    };
    static const struct vip_place off = {0x0007, 0xFF, 0};
    static struct vip_device device;
    uint8_t text[16];
    vip_device_reset(&device, no_rom, sizeof no_rom, 0);
    vip_device_write(&device, 0x0000, program, sizeof program);
    vip_device_run(&device, 0, 22008);
    for (uint32_t turn = 0; turn < device.turn_count && turn < VIP_MOST_TURNS; turn++)
        printf("%" PRIu64 " Q %d\n", device.turns[turn], turn % 2 == 0);
    if (vip_device_run_to(&device, 0, device.cycle + 3668, &off, 1) != VIP_PLACE)
        return 1;
    uint16_t at = device.registers.r[device.registers.p];
    int length = vip_device_instruction_text(&device, at, text, sizeof text);
    printf("%" PRIu64 " %04X %.*s\n", device.cycle, (unsigned)at, length, text);
    return 0;
}
