/* What the calls take: bench IMAGE. */
#define _POSIX_C_SOURCE 199309L
#include "files.h"
#include "kernal.h"
#include <time.h>

static double seconds(void) {
    struct timespec t;
    clock_gettime(CLOCK_MONOTONIC, &t);
    return (double)t.tv_sec + (double)t.tv_nsec / 1e9;
}

/* ATN pulled and freed, with the drive's reaction to each: two changes of the host, two of the drive. */
static double line_events(const uint8_t *image, size_t len, long rounds) {
    y1541 d = {0};
    y1541_reacted r;
    long events = 0;
    uint64_t now = 1000;
    if (y1541_open(&d, image, len, 0, 8, 20, 0)) exit(2);
    double begun = seconds();
    for (long i = 0; i < rounds; i++, now += 1000) {
        y1541_lines(&d, now, 1, 1, 0);
        y1541_due(&d, now + 400, &r);
        events += 2 + r.clock_changed + r.data_changed;
        y1541_lines(&d, now + 500, 0, 0, 0);
        y1541_due(&d, now + 900, &r);
        events += 2 + r.clock_changed + r.data_changed;
    }
    double took = seconds() - begun;
    y1541_close(&d);
    return (double)events / took / 1e6;
}

int main(int argc, char **argv) {
    if (argc < 2) return fprintf(stderr, "bench IMAGE\n"), 2;
    size_t len, needed = 0, g64_len = 0;
    uint8_t *image = read_file(argv[1], &len), *out = malloc(1 << 20), *g64 = malloc(1 << 20);
    y1541_lost lost;
    if (y1541_image_convert(image, len, &lost, g64, 1 << 20, &g64_len)) return 2;
    y1541 d = {0};
    double begun = seconds();
    for (int i = 0; i < 1000; i++) y1541_open(&d, image, len, 0, 8, 20, 0), y1541_close(&d);
    printf("open and close: %.1f microseconds", (seconds() - begun) * 1e3);
    begun = seconds();
    for (int i = 0; i < 100; i++) y1541_open(&d, g64, g64_len, 0, 8, 20, 0), y1541_close(&d);
    printf(", of a G64 %.1f\n", (seconds() - begun) * 1e4);
    if (y1541_open(&d, image, len, 0, 8, 20, 0)) return 2;
    volatile uint64_t sum = 0;
    begun = seconds();
    for (long i = 0; i < 50000000; i++) sum += y1541_next_due(&d);
    printf("next_due: %.1f million a second\n", 50 / (seconds() - begun));
    begun = seconds();
    for (int i = 0; i < 1000; i++) y1541_eject(&d, out, 1 << 20, &needed), y1541_insert(&d, image, len, 0);
    printf("eject and insert: %.1f microseconds\n", (seconds() - begun) * 1e3);
    y1541_close(&d);
    double best = 0;
    for (int i = 0; i < 3; i++) {
        double rate = line_events(image, len, 2000000);
        if (rate > best) best = rate;
    }
    printf("line events: %.1f million a second\n", best);
    begun = seconds();
    for (int i = 0; i < 1000; i++) y1541_image_list(image, len, image, 0, out, 1 << 20, &needed);
    printf("image_list: %.1f microseconds\n", (seconds() - begun) * 1e3);
    bus b = {0};
    kernal k;
    bus_open(&b, 0, image, len, 8, 20, Y1541_KERNAL, 0);
    kernal_init(&k, &b, DARK_PAL, 1);
    begun = seconds();
    long bytes = 0;
    for (int i = 0; i < 100; i++) bytes += kernal_load(&k, 8, "$", out, 1 << 20);
    double took = seconds() - begun;
    printf("a KERNAL loads %ld bytes in %.2f seconds of its own: %.0f times as fast\n", bytes, (double)moment(&k) / 1e6, (double)moment(&k) / 1e6 / took);
    y1541_close(&b.drive[0]);
    free(image), free(out), free(g64);
    return 0;
}
