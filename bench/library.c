/* Tries the library from C, and measures it. Built and run by .ci/library.
 *
 *     library speed PROGRAM FOLDER   calls a second of a short trace, by the program as a process in FOLDER, which has the game `g`, and by the library
 *     library threads                8 threads, 10,000 calls each, every one with the same answer
 *     library rooms                  rooms of 0, 1, one less than the length, and the length: no byte behind a room is written
 *     library replay FILE            makes the calls that FILE has, each three numbers of 8 bytes, the words, the places of the files, and their bytes
 */
#include <fcntl.h>
#include <pthread.h>
#include <spawn.h>
#include <stdio.h>
#include <stdlib.h>
#include <string.h>
#include <sys/wait.h>
#include <time.h>
#include <unistd.h>
#include <vip.h>

enum { LINES = 50, THREADS = 8, CALLS = 10000, GUARD = 16 };

/* A game of two instructions that go round, and the limit in which it comes to 50 dispatch points. */
static const char words[] = "trace\0g\0" "8250";
static const char bytes[] = "g\x60\x02\x70\x03\x12\x02";
static const struct vip_file game = {0, 1, 1, 6};

static uint8_t trace(char *out, size_t out_room, char *err, size_t err_room, struct vip_lengths *lengths)
{
    return vip_run((const uint8_t *)words, sizeof words, &game, 1, (const uint8_t *)bytes, sizeof bytes - 1, (uint8_t *)out, out_room, (uint8_t *)err, err_room,
                   lengths);
}

static int fails(const char *what)
{
    fprintf(stderr, "library: %s\n", what);
    return 1;
}

static double now(void)
{
    struct timespec at;
    clock_gettime(CLOCK_MONOTONIC, &at);
    return (double)at.tv_sec + (double)at.tv_nsec / 1e9;
}

static int speed(char *program, const char *folder)
{
    char out[1 << 16], err[256], *arguments[] = {program, "trace", "g", "8250", NULL}, *none[] = {NULL};
    struct vip_lengths lengths;
    posix_spawn_file_actions_t actions;
    int processes = 200, calls = 20000, lines = 0;
    if (trace(out, sizeof out, err, sizeof err, &lengths) != 0 || chdir(folder) != 0)
        return fails("the trace ends with a fault");
    for (size_t at = 0; at < lengths.out; at++)
        lines += out[at] == '\n';
    posix_spawn_file_actions_init(&actions);
    posix_spawn_file_actions_addopen(&actions, 1, "/dev/null", O_WRONLY, 0);
    posix_spawn_file_actions_addopen(&actions, 2, "/dev/null", O_WRONLY, 0);
    double start = now();
    for (int k = 0; k < processes; k++) {
        pid_t child;
        int status;
        if (posix_spawn(&child, program, &actions, NULL, arguments, none) != 0 || waitpid(child, &status, 0) < 0 || status != 0)
            return fails("the process ends with a fault");
    }
    double by_process = processes / (now() - start);
    start = now();
    for (int k = 0; k < calls; k++)
        if (trace(out, sizeof out, err, sizeof err, &lengths) != 0)
            return fails("a call ends with a fault");
    double by_call = calls / (now() - start);
    printf("a trace of %d points: %.0f a second by process, %.0f by C, %.0f times as many\n", lines, by_process, by_call, by_call / by_process);
    return 0;
}

static void *many(void *expected)
{
    char out[1 << 16], err[256];
    struct vip_lengths lengths;
    for (int k = 0; k < CALLS; k++)
        if (trace(out, sizeof out, err, sizeof err, &lengths) != 0 || lengths.out != strlen(expected) || memcmp(out, expected, lengths.out) != 0)
            return expected;
    return NULL;
}

static int threads(void)
{
    static char out[1 << 16];
    char err[256];
    struct vip_lengths lengths;
    pthread_t each[THREADS];
    int bad = trace(out, sizeof out - 1, err, sizeof err, &lengths) != 0;
    for (int k = 0; k < THREADS; k++)
        if (pthread_create(&each[k], NULL, many, out) != 0)
            return fails("no thread can be started");
    for (int k = 0; k < THREADS; k++) {
        void *result;
        pthread_join(each[k], &result);
        bad |= result != NULL;
    }
    return bad ? fails("a thread got another answer") : 0;
}

static int rooms(void)
{
    char whole[1 << 16], said[256];
    struct vip_lengths full, lengths;
    if (trace(whole, sizeof whole, said, sizeof said, &full) != 0 || full.out < 2 || full.err < 2)
        return fails("the trace ends with a fault");
    size_t outs[] = {0, 1, full.out - 1, full.out}, errs[] = {0, 1, full.err - 1, full.err};
    for (int k = 0; k < 4; k++) {
        char *out = malloc(outs[k] + GUARD), *err = malloc(errs[k] + GUARD), guard[GUARD];
        memset(out, '?', outs[k] + GUARD), memset(err, '?', errs[k] + GUARD), memset(guard, '?', GUARD);
        uint8_t status = trace(out, outs[k], err, errs[k], &lengths);
        int same = status == 0 && lengths.out == full.out && lengths.err == full.err && memcmp(out, whole, outs[k]) == 0 && memcmp(err, said, errs[k]) == 0;
        if (!same || memcmp(out + outs[k], guard, GUARD) != 0 || memcmp(err + errs[k], guard, GUARD) != 0)
            return fails("a room is filled in another way");
        free(out), free(err);
    }
    return 0;
}

static int replay(const char *name)
{
    FILE *file = fopen(name, "rb");
    uint64_t sizes[3];
    while (file && fread(sizes, 8, 3, file) == 3) {
        /* (each in a block of its own size, so that a read or a write behind its end is seen) */
        uint8_t *line = malloc(sizes[0] + 1), *held = malloc(sizes[2] + 1), *out = malloc(4096), err[512];
        struct vip_file *files = malloc((sizes[1] + 1) * sizeof *files);
        struct vip_lengths lengths;
        if (fread(line, 1, sizes[0], file) != sizes[0] || fread(files, sizeof *files, sizes[1], file) != sizes[1] || fread(held, 1, sizes[2], file) != sizes[2])
            return fails("a call is cut off");
        uint8_t status = vip_run(line, sizes[0], files, sizes[1], held, sizes[2], out, 4096, err, sizeof err, &lengths);
        printf("%d %zu %zu\n", status, lengths.out, lengths.err);
        free(line), free(files), free(held), free(out);
    }
    return file ? fclose(file) : fails("there is no such file");
}

int main(int count, char **arguments)
{
    const char *mode = count > 1 ? arguments[1] : "";
    if (!strcmp(mode, "speed") && count == 4)
        return speed(arguments[2], arguments[3]);
    if (!strcmp(mode, "replay") && count == 3)
        return replay(arguments[2]);
    return !strcmp(mode, "threads") ? threads() : !strcmp(mode, "rooms") ? rooms() : fails("speed, threads, rooms or replay");
}
