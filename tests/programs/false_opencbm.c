/* A stand-in for libopencbm: the calls that the suite's player makes, over a script of the drive that the environment's FALSE_OPENCBM starts. */
#include <stdio.h>
#include <stdlib.h>
#include <string.h>
#include <sys/types.h>
#include <unistd.h>

#define LONGEST 200000

static FILE *to, *from;
static int channel, has_end;

int cbm_driver_open(ssize_t *file, int port) {
    int down[2], up[2];
    const char *command = getenv("FALSE_OPENCBM");
    *file = 1;
    if (port || !command || pipe(down) || pipe(up)) return 1;
    if (fork() == 0) {
        dup2(down[0], 0);
        dup2(up[1], 1);
        close(down[1]);
        close(up[0]);
        execl("/bin/sh", "sh", "-c", command, (char *)0);
        _exit(127);
    }
    close(down[0]);
    close(up[1]);
    to = fdopen(down[1], "w");
    from = fdopen(up[0], "r");
    return 0;
}

void cbm_driver_close(ssize_t file) {
    (void)file;
    fclose(to);
    fclose(from);
}

static void print_bytes(const unsigned char *bytes, size_t count) {
    size_t n;
    for (n = 0; n < count; ++n) fprintf(to, "\\%02x", bytes[n]);
    fputc('\n', to);
}

static int all_equal(const unsigned char *bytes, size_t count) {
    size_t n;
    for (n = 1; n < count; ++n) if (bytes[n] != bytes[0]) return 0;
    return count > 0;
}

int cbm_open(ssize_t file, unsigned char device, unsigned char second, const void *name, size_t count) {
    (void)file;
    (void)device;
    fprintf(to, count ? "open %d " : "open %d", second);
    print_bytes(name, count);
    return 0;
}

int cbm_close(ssize_t file, unsigned char device, unsigned char second) {
    (void)file;
    (void)device;
    fprintf(to, "close %d\n", second);
    return 0;
}

int cbm_listen(ssize_t file, unsigned char device, unsigned char second) {
    (void)file;
    (void)device;
    channel = second;
    return 0;
}

int cbm_raw_write(ssize_t file, const void *bytes, size_t count) {
    const unsigned char *first = bytes;
    (void)file;
    if (all_equal(bytes, count)) {
        fprintf(to, "fill %d %zu %02x\n", channel, count, first[0]);
    } else {
        fprintf(to, count ? "put %d " : "put %d", channel);
        print_bytes(bytes, count);
    }
    return count;
}

int cbm_unlisten(ssize_t file) {
    (void)file;
    return 0;
}

int cbm_talk(ssize_t file, unsigned char device, unsigned char second) {
    return cbm_listen(file, device, second);
}

int cbm_untalk(ssize_t file) {
    return cbm_unlisten(file);
}

int cbm_get_eoi(ssize_t file) {
    (void)file;
    return has_end;
}

int cbm_raw_read(ssize_t file, void *bytes, size_t count) {
    static char line[2 * LONGEST + 64];
    unsigned char *next = bytes;
    const char *at;
    unsigned value;
    (void)file;
    fprintf(to, "get %d %zu\n", channel, count);
    fflush(to);
    if (!fgets(line, sizeof line, from)) return -1;
    at = strchr(strchr(line, ' ') + 1, ' ') + 1;
    if (*at == 'n') return 0;
    for (; *at > ' '; at += 2) {
        sscanf(at, "%2x", &value);
        *next++ = value;
    }
    has_end = *at == ' ';
    return next - (unsigned char *)bytes;
}
