/* A bus of two drives whose changes are recorded as a trace: traced IMAGE TRACE. A computer with a KERNAL LOADs HELLO from drive 8 and SAVEs it to drive 9. */
#include "files.h"
#include "kernal.h"

static void print_change(void *to, uint64_t moment, uint8_t who, uint8_t line, uint8_t low) {
    static const char *const lines[] = {"atn", "clock", "data"};
    fprintf(to, who ? "%llu %u" : "%llu host", (unsigned long long)moment, who);
    fprintf(to, " %s %s\n", lines[line], low ? "pull" : "free");
}

int main(int argc, char **argv) {
    static uint8_t hello[70000];
    if (argc < 3) return fprintf(stderr, "traced IMAGE TRACE\n"), 2;
    size_t len;
    uint8_t *image = read_file(argv[1], &len);
    bus b = {0};
    kernal k;
    FILE *trace = fopen(argv[2], "w");
    expect(trace != NULL, "the trace's file");
    b.seen = print_change, b.with = trace;
    expect(bus_open(&b, 0, image, len, 8, 20, Y1541_KERNAL, 0) == Y1541_OK && bus_open(&b, 1, image, len, 9, 35, Y1541_KERNAL, 0) == Y1541_OK, "two drives");
    kernal_init(&k, &b, PAL, 1);
    long count = kernal_load(&k, 8, "HELLO", hello, sizeof hello);
    expect(count > 2 && kernal_save(&k, 9, "AGAIN", hello, (size_t)count), "LOAD from one drive, SAVE to the other");
    expect(!fclose(trace), "the trace");
    y1541_close(&b.drive[0]), y1541_close(&b.drive[1]), free(image);
    return wrong ? puts("traced: it went wrong"), 1 : (puts("traced: all went well"), 0);
}
