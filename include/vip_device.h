/* vip_device.h - the COSMAC VIP as a device in your memory.
 *
 * A device is one struct of plain data: registers, RAM, ROM, the video chip and the
 * last picture. You own the struct. The functions below reset it, run it with a set of
 * keys held down, change it, and save and load it. No function allocates memory, opens
 * a file or keeps anything between calls. A copy of the struct is a snapshot: copy it
 * back, and the device resumes there.
 *
 * Units. Addresses are those of the processor, 0x0000 to 0xFFFF: RAM is 0x0000 to
 * 0x0FFF, ROM 0x8000 to 0x87FF. A cycle is a machine cycle, 8 cycles of the crystal,
 * counted from reset. A frame has 3,668 cycles. Lengths are bytes.
 *
 * Moves. The board runs in moves: one whole instruction, one DMA cycle, one interrupt
 * cycle or one idle cycle. Each call ends between two moves.
 *
 * Fields. You may read every field of a device between two calls. Change a device by
 * the functions, or by copying a whole device. The functions leave each field in its
 * range. If you write a field directly, P, X and the latched key count modulo 16, and a
 * flag is set if its byte isn't 0. No content of the struct makes a call unsafe.
 *
 * Results. Each function except vip_device_size returns an int32_t. A negative result
 * is an error, and then nothing was changed. Functions that run the device return why
 * they stopped. The others return 0, or the length that their comment names.
 *
 * Pointers. No pointer may be null, even if its length is 0. What a call writes must
 * not overlap with anything else that is passed to the call.
 *
 * Threads. Calls on different devices may run at once. Don't use a device in two calls
 * at the same time.
 *
 * Link with -lvip, or by `pkg-config --cflags --libs vip`. This runs a game for 60
 * frames and prints its last picture:
 *
 *     #include <stdio.h>
 *     #include <vip_device.h>
 *
 *     int main(void)
 *     {
 *         static const uint8_t game[] = {0, 0xE0, 0xF0, 0x29, 0xD1, 0x15, 0x12, 0x06};
 *         static struct vip_device device;
 *         vip_device_game(&device, game, sizeof game, 0);
 *         while (device.pictures < 60)
 *             if (vip_device_frame(&device, 0, device.cycle + 7336) != VIP_PICTURE)
 *                 return 1;
 *         for (int line = 0; line < 128; line += 4, putchar('\n'))
 *             for (int dot = 0; dot < 64; dot++)
 *                 putchar(device.picture[line][dot / 8] << dot % 8 & 0x80 ? '#' : '.');
 *         return 0;
 *     }
 */
#ifndef VIP_DEVICE_H
#define VIP_DEVICE_H

#include <stddef.h>
#include <stdint.h>

#ifdef __cplusplus
extern "C" {
#endif

/* The size of a device in bytes, as vip_device_size returns it. */
#define VIP_DEVICE_SIZE 9424

/* How many changes of Q a device records in one call. */
#define VIP_MOST_TURNS 128

/* The most places of vip_device_run_to. */
#define VIP_MOST_PLACES 8

/* The sizes of the two formats of a machine state. */
#define VIP_GAME_STATE_SIZE 4147
#define VIP_BOARD_STATE_SIZE 6195

/* Errors. */
#define VIP_BAD_LENGTH (-1)  /* a number of bytes or places that isn't allowed */
#define VIP_BAD_ADDRESS (-2) /* the bytes don't fit into memory at this address */
#define VIP_BAD_NUMBER (-3)  /* a number out of its range, as P of 16 */
#define VIP_BAD_HEAD (-4)    /* a machine state doesn't begin as one */
#define VIP_BAD_EDITION (-5) /* a machine state of a game names no variant */
#define VIP_BAD_CYCLE (-6)   /* a machine state has a cycle that it can't have */
#define VIP_BAD_MACHINE (-7) /* a machine state has registers that it can't have */
#define VIP_NO_GAME (-8)     /* the device runs no game */

/* Why a run stopped. */
#define VIP_LIMIT 0    /* the next move would end after the limit */
#define VIP_PICTURE 1  /* the last move finished a picture */
#define VIP_PLACE 2    /* the next move is the instruction at a place */
#define VIP_IDLE 3     /* the processor idles forever: the display is off */
#define VIP_DISPATCH 4 /* a game is at a dispatch point: its next opcode comes next */

/* The stops of a game. It makes no further move. */
#define VIP_STOP_MACHINE_CALL 11  /* SYS: 0MMM other than 00E0 and 00EE */
#define VIP_STOP_UNKNOWN 12       /* an opcode that CHIP-8 doesn't have */
#define VIP_STOP_FETCH_OUTSIDE 13 /* pc left game memory */
#define VIP_STOP_READ_OUTSIDE 14  /* a read outside memory */
#define VIP_STOP_WRITE_OUTSIDE 15 /* a write outside game memory */
#define VIP_STOP_STACK_FULL 16    /* CALL with 12 addresses on the stack */
#define VIP_STOP_STACK_EMPTY 17   /* RET without an address on the stack */

/* What the one move of vip_device_move was. */
#define VIP_MOVED_DMA 21
#define VIP_MOVED_INTERRUPT 22
#define VIP_MOVED_IDLE 23
#define VIP_MOVED_INSTRUCTION 24

/* The processor, the switches of the board, and the latched key. A flag is 0 or 1. */
struct vip_registers {
    uint16_t r[16];  /* R(0) to R(F) */
    uint8_t d;       /* the accumulator D */
    uint8_t df;      /* DF, the carry */
    uint8_t p;       /* P, 0 to 15: R(P) is the program counter */
    uint8_t x;       /* X, 0 to 15: R(X) is the data pointer */
    uint8_t t;       /* T: X in the high half and P in the low half */
    uint8_t q;       /* the output Q: 1 while the tone sounds */
    uint8_t ie;      /* IE: 1 if interrupts are enabled */
    uint8_t idle;    /* 1 from IDL until a DMA cycle or an interrupt */
    uint8_t latch;   /* 1 while the boot latch is set: reads go to ROM */
    uint8_t display; /* 1 if the display is on */
    uint8_t key;     /* the latched key, 0 to 15 */
    uint8_t unused;
};

struct vip_device {
    uint64_t cycle;    /* the machine cycles since reset */
    uint64_t pictures; /* how many pictures were finished */
    uint64_t frame;    /* the frame of the last picture, 0 for cycles 0 to 3,667 */
    /* The cycles at which Q changed in the last run, the first VIP_MOST_TURNS of them:
     * Q has its new value from this cycle on. */
    uint64_t turns[VIP_MOST_TURNS];
    uint32_t turn_count; /* how often Q changed in the last run */
    uint8_t kind;        /* 0 a board, 1 a game, 2 a game of the tall (64x64) variant */
    uint8_t place;       /* after VIP_PLACE: the number of the place, from 0 */
    uint8_t shown;       /* 1 if the frame under way can still give a picture */
    uint8_t unused;
    struct vip_registers registers;
    uint8_t unused_too[4];
    /* The last finished picture: 128 lines of 8 bytes, the highest bit leftmost, 1 for
     * a lit dot. Zeros before the first. A CHIP-8 pixel has 4 lines, or 2 if tall. */
    uint8_t picture[128][8];
    uint8_t lines[128][8]; /* the frame under way: the bytes that the video chip got */
    uint8_t lengths[128];  /* how many bytes each of these lines has */
    uint8_t ram[4096];     /* RAM from address 0x0000 on */
    uint8_t rom[2048];     /* ROM from address 0x8000 on */
};

/* A place: an instruction at this address that runs with this P. */
struct vip_place {
    uint16_t address;
    uint8_t p; /* 0 to 15, or 0xFF for any P */
    uint8_t unused;
};

/* The CHIP-8 state in the memory of a game. */
struct vip_state {
    uint16_t pc;          /* the address of the next opcode */
    uint16_t i;           /* I */
    uint16_t opcode;      /* the opcode at pc, if has_opcode is 1 */
    uint16_t ticks;       /* the ticks since reset, modulo 65,536 */
    uint16_t stack[12];   /* the return addresses, the oldest first */
    uint16_t screen_size; /* 256, or 512 if tall */
    uint8_t has_opcode;   /* 1 if both bytes at pc are in game memory */
    uint8_t depth;        /* how many addresses the stack has */
    uint8_t v[16];        /* V0 to VF */
    uint8_t dt;           /* the delay timer, in 60ths of a second */
    uint8_t st;           /* the sound timer, in 60ths of a second */
    uint8_t tone;         /* 1 while the tone sounds */
    uint8_t random;       /* the byte from which RND makes the next number */
    uint8_t at_point;     /* 1 at a dispatch point */
    uint8_t stop;         /* 0, or at a stop point VIP_STOP_.. */
    uint8_t screen[512];  /* the pixels, 8 bytes a row, the highest bit leftmost */
};

/* Returns VIP_DEVICE_SIZE of the library. */
size_t vip_device_size(void);

/* Resets the board with `rom`, 1 to 2,048 bytes at 0x8000, followed by zeros. RAM is
 * zeros. `latch` is 1 to set the boot latch, so that the program at 0x8000 runs, or 0
 * to clear it, so that the program at 0x0000 runs. What `device` held before doesn't
 * matter. Errors: VIP_BAD_LENGTH, VIP_BAD_NUMBER. */
int32_t vip_device_reset(struct vip_device *device, const uint8_t *rom,
                         size_t rom_length, uint8_t latch);

/* Resets the board with the CHIP-8 interpreter and a game at 0x0200, the boot latch
 * set. `tall` is 0 for the usual variant (64x32 pixels, at most 3,232 bytes) or 1 for
 * the tall one (64x64 pixels, at most 2,976 bytes). A game of 0 bytes is allowed.
 * Errors: VIP_BAD_LENGTH, VIP_BAD_NUMBER. */
int32_t vip_device_game(struct vip_device *device, const uint8_t *game, size_t length,
                        uint8_t tall);

/* Writes bytes into RAM or ROM, whatever the boot latch is. All of them have to be in
 * RAM or all in ROM. Error: VIP_BAD_ADDRESS. */
int32_t vip_device_write(struct vip_device *device, uint16_t address,
                         const uint8_t *bytes, size_t length);

/* Copies bytes as the processor reads them: through the boot latch while it is set,
 * 0xFF where no memory is. Addresses may not pass 0xFFFF. Error: VIP_BAD_ADDRESS. */
int32_t vip_device_read(const struct vip_device *device, uint16_t address,
                        uint8_t *bytes, size_t length);

/* Sets all registers, the switches and the latched key. Error: VIP_BAD_NUMBER. */
int32_t vip_device_set_registers(struct vip_device *device,
                                 const struct vip_registers *registers);

/* The functions that run the device. Bit k of `keys` is 1 if key k is held down, in
 * every cycle of the call. `limit` is a cycle: no move is made that ends after it. Each
 * returns VIP_LIMIT, VIP_IDLE, a stop of a game, or its own reason. A device at a stop
 * of a game, or idle forever, makes no move and returns the same reason again. */

/* Runs up to the limit. */
int32_t vip_device_run(struct vip_device *device, uint16_t keys, uint64_t limit);

/* Runs up to the next finished picture: VIP_PICTURE. */
int32_t vip_device_frame(struct vip_device *device, uint16_t keys, uint64_t limit);

/* Makes at least one move, and runs until the next move is the instruction at one of
 * `count` places: VIP_PLACE, with the number of the place in device->place. `count` is
 * at most VIP_MOST_PLACES. Errors: VIP_BAD_LENGTH, VIP_BAD_NUMBER for a P. */
int32_t vip_device_run_to(struct vip_device *device, uint16_t keys, uint64_t limit,
                          const struct vip_place *places, size_t count);

/* Runs a game to its next dispatch point, and makes at least one move: VIP_DISPATCH.
 * Error: VIP_NO_GAME. */
int32_t vip_device_opcode(struct vip_device *device, uint16_t keys, uint64_t limit);

/* Makes one move: VIP_MOVED_... */
int32_t vip_device_move(struct vip_device *device, uint16_t keys, uint64_t limit);

/* Reads the CHIP-8 state in the memory of a game. At a dispatch point it is the state
 * of the game; between two dispatch points an opcode may have changed a part of it.
 * Error: VIP_NO_GAME. */
int32_t vip_device_state(const struct vip_device *device, struct vip_state *state);

/* Writes a machine state in format 1 or 2, as `vip save` does, and returns its size.
 * Format 1, VIP_GAME_STATE_SIZE bytes, is of a game at a dispatch point. Format 2,
 * VIP_BOARD_STATE_SIZE bytes, is of any board. Pictures aren't part of it. Errors:
 * VIP_BAD_NUMBER for another format, VIP_BAD_LENGTH if `length` is too small,
 * VIP_NO_GAME for format 1 of a board, VIP_BAD_CYCLE after cycle 4,000,000,000 or for
 * format 1 at a cycle without a dispatch point, VIP_BAD_MACHINE for format 1 elsewhere.
 */
int32_t vip_device_save(const struct vip_device *device, uint8_t format, uint8_t *bytes,
                        size_t length);

/* Sets the device to a machine state of either format. There is no picture then.
 * Errors: VIP_BAD_LENGTH, VIP_BAD_HEAD, VIP_BAD_EDITION, VIP_BAD_CYCLE,
 * VIP_BAD_MACHINE. */
int32_t vip_device_load(struct vip_device *device, const uint8_t *bytes, size_t length);

/* Writes the mnemonic of a CHIP-8 opcode, as "LD V0, 0x05", without a final zero, and
 * returns its length, at most 15. Error: VIP_BAD_LENGTH if `length` is below 15. */
int32_t vip_device_opcode_text(uint16_t opcode, uint8_t *text, size_t length);

/* Writes the mnemonic of the 1802 instruction at an address, as "LBR 0x0025", from the
 * bytes that the processor reads there, and returns its length, at most 11. Error:
 * VIP_BAD_LENGTH if `length` is below 11. */
int32_t vip_device_instruction_text(const struct vip_device *device, uint16_t address,
                                    uint8_t *text, size_t length);

#ifdef __cplusplus
}
#endif

#endif
