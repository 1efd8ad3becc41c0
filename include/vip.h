/* vip.h - the COSMAC VIP with its proved CHIP-8 interpreter, as a library.
 *
 * One function, vip_run, does all that the program `vip` does. It takes the
 * arguments of a command line and the files that these name, all in memory,
 * and writes the output and the message into memory. It opens no file, prints
 * nothing, and keeps nothing between calls. docs/C.md describes it with
 * examples, docs/COMMANDS.md the arguments, docs/FORMATS.md the texts.
 *
 * Units. Lengths and offsets are in bytes. A limit of a run, which is an
 * argument, is in machine cycles, each of 8 clock cycles; a frame has 3,668.
 *
 * Ownership. All memory that is passed remains the caller's. What a call takes
 * by malloc it frees before it returns. `words`, `files` and `bytes` are read
 * and not changed. `out`, `err` and `lengths` must not overlap anything else
 * that is passed. No pointer may be null, even if no byte of it is read or
 * written: pass the address of any byte.
 *
 * Result. The status is the number with which `vip` would exit;
 * docs/STATUSES.md lists them:
 *
 *     0     the work was done, or the run reached its limit
 *     1     the run stopped
 *     2     the arguments are rejected
 *     3     a file that they name isn't among `files`
 *     10    out of memory for the output
 *     11    out of memory
 *     else  something is wrong with a file; `err` has one line about it
 *
 * Status 2 also comes, with nothing written and both lengths 0, if an argument
 * or a name isn't UTF-8, if the last argument doesn't end in a byte 00, if an
 * offset isn't within `bytes`, or if two files have the same name. No input
 * makes a call fail in another way.
 *
 * Short buffers. If a buffer is too small, it gets the first bytes, and the
 * length in `lengths` is the one that would have been needed, as with
 * snprintf. No byte 00 is appended. So a call with buffers of size 0 asks for
 * the lengths.
 *
 * Threads. Two threads may call at once, each with its own `out`, `err` and
 * `lengths`. Don't call from a signal handler, nor from the forked child of a
 * process that has threads. A call takes some 100 KB of the stack.
 *
 * Link with -lvip, or by `pkg-config --cflags --libs vip`. This program traces
 * four instructions of a game:
 *
 *     #include <stdio.h>
 *     #include <vip.h>
 *
 *     int main(void)
 *     {
 *         static const char words[] = "trace\0add.ch8\0" "1000";
 *         static const char bytes[] = "add.ch8" "\x60\x02\x70\x03\x12\x04";
 *         struct vip_file file = {0, 7, 7, 6};
 *         char out[4096], err[256];
 *         struct vip_lengths lengths;
 *         uint8_t status = vip_run(
 *             (const uint8_t *)words, sizeof words, &file, 1,
 *             (const uint8_t *)bytes, sizeof bytes - 1, (uint8_t *)out,
 *             sizeof out, (uint8_t *)err, sizeof err, &lengths);
 *         if (status > 1 || lengths.out > sizeof out) {
 *             fprintf(stderr, "status %d: %.*s", status, (int)lengths.err, err);
 *             return 1;
 *         }
 *         fwrite(out, 1, lengths.out, stdout);
 *         return 0;
 *     }
 */
#ifndef VIP_H
#define VIP_H

#include <stddef.h>
#include <stdint.h>

#ifdef __cplusplus
extern "C" {
#endif

/* A file that the arguments may name: the offsets and lengths of its name and
 * of its content in `bytes`. The name is UTF-8 without a final byte 00. */
struct vip_file {
    size_t name;
    size_t name_length;
    size_t content;
    size_t content_length;
};

/* The lengths of the output and of the message, even if the buffers are
 * shorter. */
struct vip_lengths {
    size_t out;
    size_t err;
};

/* Runs the program and returns its status.
 *
 * `words`        the arguments, each ended by a byte 00; the first is a verb
 * `files`        `files_count` files, with names and contents in `bytes`
 * `out`          gets the output, as far as it fits
 * `err`          gets the message, one line or none, as far as it fits
 * `lengths`      gets the whole lengths of both */
uint8_t vip_run(const uint8_t *words, size_t words_length,
                const struct vip_file *files, size_t files_count,
                const uint8_t *bytes, size_t bytes_length,
                uint8_t *out, size_t out_room,
                uint8_t *err, size_t err_room,
                struct vip_lengths *lengths);

#ifdef __cplusplus
}
#endif

#endif
