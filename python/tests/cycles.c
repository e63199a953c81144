/* The cycles that the KERNAL of examples/c/kernal.h has taken after each of some jobs: cycles IMAGE. A line for each computer and seed. */
#include "files.h"
#include "kernal.h"

int main(int argc, char **argv) {
    static const computer computers[] = {PAL, DARK_PAL, NTSC, DARK_NTSC, VIC};
    static const uint8_t saved[] = {1, 8, 0xff, 0x55, 0};
    static uint8_t bytes[70000];
    size_t len;
    if (argc < 2) return 2;
    uint8_t *image = read_file(argv[1], &len);
    for (unsigned i = 0; i < 10; i++) {
        bus b = {0};
        kernal k;
        if (bus_open(&b, 0, image, len, 8, (uint8_t)(6 * i + 1), Y1541_KERNAL, 0) || bus_open(&b, 1, image, len, 9, 20, Y1541_KERNAL, 0)) return 1;
        kernal_init(&k, &b, computers[i % 5], i);
        kernal_load(&k, 8, "$", bytes, sizeof bytes);
        printf("%llu", (unsigned long long)k.passed);
        kernal_save(&k, 9, "NEW", saved, sizeof saved);
        printf(" %llu", (unsigned long long)k.passed);
        kernal_load(&k, 9, "NONE", bytes, sizeof bytes);
        printf(" %llu\n", (unsigned long long)k.passed);
        y1541_close(&b.drive[0]), y1541_close(&b.drive[1]);
    }
    free(image);
    return 0;
}
