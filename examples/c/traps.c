/* LOAD and SAVE of an emulator with traps, which take the place of the KERNAL's routines: traps IMAGE. The drive is asked by calls, without its wires. HELLO is LOADed
 * and SAVEd as COPY, and the directory is LOADed. */
#include <yellowadze1541.h>
#include "files.h"
#include <string.h>

/* The memory of the computer. */
static uint8_t memory[65536];

/* The KERNAL's codes for the accumulator: 0 for success. */
enum { FILE_NOT_FOUND = 4, LOAD_ERROR = 29 };

static int is_error(y1541 *d) {
    int32_t status = y1541_status(d);
    return status >= 20 && status != 73;
}

/* LOAD of a file to its own address, or with `relocated` to `start`. `end` gets the address after it. */
static int load(y1541 *d, const char *name, int relocated, uint16_t start, uint16_t *end) {
    uint8_t head[2], last = 0;
    size_t got = 0;
    if (y1541_channel_open(d, 0, (const uint8_t *)name, strlen(name)) != Y1541_OK) return LOAD_ERROR;
    if (is_error(d) || y1541_channel_read(d, 0, head, 2, &got, &last) != Y1541_OK || got < 2) return y1541_channel_close(d, 0), FILE_NOT_FOUND;
    if (!relocated) start = (uint16_t)(head[0] | head[1] << 8);
    got = 0;
    if (!last && y1541_channel_read(d, 0, memory + start, sizeof memory - start, &got, &last) != Y1541_OK) return LOAD_ERROR;
    *end = (uint16_t)(start + got);
    return y1541_channel_close(d, 0), last && !is_error(d) ? 0 : LOAD_ERROR;
}

/* SAVE of the bytes from `start` to before `end`. */
static int save(y1541 *d, const char *name, uint16_t start, uint16_t end) {
    uint8_t head[2] = {(uint8_t)start, (uint8_t)(start >> 8)};
    if (y1541_channel_open(d, 1, (const uint8_t *)name, strlen(name)) != Y1541_OK) return LOAD_ERROR;
    if (!is_error(d)) y1541_channel_write(d, 1, head, 2), y1541_channel_write(d, 1, memory + start, (size_t)(end - start));
    return y1541_channel_close(d, 1), is_error(d) ? LOAD_ERROR : 0;
}

int main(int argc, char **argv) {
    if (argc < 2) return fprintf(stderr, "traps IMAGE\n"), 2;
    size_t len, got = 0;
    uint16_t end = 0, again = 0;
    uint8_t line[40], last = 0, *image = read_file(argv[1], &len);
    y1541 d = {0};
    expect(y1541_open(&d, image, len, 0, 8, 20, Y1541_KERNAL) == Y1541_OK, "a drive");
    expect(load(&d, "HELLO", 1, 0x801, &end) == 0 && end > 0x801, "LOAD\"HELLO\",8");
    expect(save(&d, "COPY", 0x801, end) == 0, "SAVE\"COPY\",8");
    memory[0x801]++;
    expect(load(&d, "COPY", 0, 0, &again) == 0 && again == end, "LOAD\"COPY\",8,1");
    expect(load(&d, "HELLO", 1, 0xc000, &again) == 0 && !memcmp(memory + 0x801, memory + 0xc000, end - 0x801u), "the same bytes");
    expect(load(&d, "$", 0, 0, &again) == 0 && again > 0x401, "LOAD\"$\",8");
    expect(save(&d, "COPY", 0x801, end) == LOAD_ERROR && y1541_status(&d) == 63, "a file of that name");
    expect(load(&d, "NONE", 0, 0, &again) == FILE_NOT_FOUND, "no file");
    expect(y1541_channel_read(&d, 15, line, sizeof line, &got, &last) == Y1541_OK && got == 24 && last && !memcmp(line, "62,FILE NOT FOUND,00,00\r", 24), "its line");
    y1541_close(&d);
    free(image);
    return wrong ? puts("it went wrong"), 1 : (puts("all went well"), 0);
}
