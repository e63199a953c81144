/* Two drives and a computer on one bus, as in an emulator (bus.h): emulator_loop IMAGE. HELLO is LOADed from drive 8, SAVEd to drive 9, whose
 * disk is new, and LOADed from there; the image of drive 9 is saved, as it was written; then it gets another disk, and is switched off and on. */
#include "files.h"
#include "kernal.h"

int main(int argc, char **argv) {
    static uint8_t hello[70000], again[70000];
    if (argc < 2) return fprintf(stderr, "emulator_loop IMAGE\n"), 2;
    size_t len, new_len = 0, needed = 0;
    uint8_t *image = read_file(argv[1], &len), *new_image = malloc(1 << 20), *out = malloc(1 << 20);
    expect(y1541_image_new(Y1541_D64_35, (const uint8_t *)"COPIES", 6, 'C', '9', new_image, 1 << 20, &new_len) == Y1541_OK, "a new image");
    bus b = {0};
    expect(bus_open(&b, 0, image, len, 8, 20, Y1541_KERNAL, 0) == Y1541_OK, "drive 8");
    expect(bus_open(&b, 1, new_image, new_len, 9, 41, Y1541_KERNAL, 0) == Y1541_OK, "drive 9");
    kernal k;
    kernal_init(&k, &b, PAL, 1);
    long count = kernal_load(&k, 8, "HELLO", hello, sizeof hello);
    expect(count > 0, "LOAD from 8");
    expect(count > 0 && kernal_save(&k, 9, "HELLO", hello, (size_t)count), "SAVE to 9");
    expect(kernal_load(&k, 9, "HELLO", again, sizeof again) == count && count > 0 && !memcmp(hello, again, (size_t)count), "LOAD from 9");
    expect(y1541_writes(&b.drive[0]) == 0 && y1541_writes(&b.drive[1]) > 0, "9 is worth saving, and 8 isn't");
    expect(y1541_image(&b.drive[1], out, 1 << 20, &needed) == Y1541_OK, "the image of 9");
    expect(y1541_image_file(out, needed, (const uint8_t *)"H*", 2, again, sizeof again, &needed) == Y1541_OK && (long)needed == count, "HELLO in it");
    expect(y1541_insert(&b.drive[1], image, len, 1) == Y1541_OK && y1541_writes(&b.drive[1]) == 0, "another disk for 9");
    expect(kernal_load(&k, 9, "HELLO", again, sizeof again) == count, "LOAD from it");
    expect(y1541_reset(&b.drive[1]) == Y1541_OK && y1541_status(&b.drive[1]) == 73, "9 off and on");
    bus_switched(&b, 1, moment(&k) + 1);
    pass(&k, 2000);
    expect(kernal_load(&k, 9, "$", again, sizeof again) > 0, "LOAD\"$\",9");
    printf("%ld bytes went from 8 to 9\n", count);
    y1541_close(&b.drive[0]), y1541_close(&b.drive[1]);
    free(image), free(new_image), free(out);
    return wrong ? puts("it went wrong"), 1 : (puts("all went well"), 0);
}
