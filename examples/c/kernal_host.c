/* A computer with a KERNAL at a drive of the library: kernal_host IMAGE [OUT]. It reads the status, LOADs the directory and HELLO, SAVEs a
 * program, LOADs it again, SAVEs it where that is refused, and asks for a file that isn't there; with a drive at each pace. OUT gets the image as it is then.
 * A drive at the bus profile's pace is served with the screen off, and its missing file would hang the computer: it isn't asked for. */
#include "files.h"
#include "kernal.h"

static const uint8_t saved[] = {0x00, 0xc0, 0x00, 0xff, 0x55, 0xaa, 0x0f, 0xf0, 0x80, 0x01};

static void show(const char *what, const uint8_t *bytes, long count) {
    printf("%s: %ld bytes:", what, count);
    for (long i = 0; i < count && i < 16; i++) printf(" %02x", bytes[i]);
    puts(count > 16 ? " .." : "");
}

/* The status line, which begins with a number. */
static int status_is(kernal *k, uint8_t device, const char *begins) {
    uint8_t text[64];
    long count = kernal_input(k, device, 15, text, sizeof text - 1);
    text[count < 0 ? 0 : count] = 0;
    printf("status: %.*s\n", (int)strcspn((char *)text, "\r"), text);
    return count > 0 && !strncmp((char *)text, begins, strlen(begins)) && kernal_close(k, device, 15);
}

static void jobs(kernal *k, const uint8_t *image, size_t len, int asks_missing) {
    static uint8_t bytes[70000], wanted[70000];
    size_t needed = 0;
    expect(status_is(k, 8, "73,"), "the status at power up");
    long count = kernal_load(k, 8, "$", bytes, sizeof bytes);
    show("LOAD\"$\",8", bytes, count);
    expect(y1541_image_list(image, len, (const uint8_t *)"", 0, wanted, sizeof wanted, &needed) == Y1541_OK, "the list of the image");
    expect(count == (long)needed && !memcmp(bytes, wanted, needed), "LOAD of the directory");
    count = kernal_load(k, 8, "HELLO", bytes, sizeof bytes);
    show("LOAD\"HELLO\",8", bytes, count);
    expect(y1541_image_file(image, len, (const uint8_t *)"HELLO", 5, wanted, sizeof wanted, &needed) == Y1541_OK, "the file of the image");
    expect(count == (long)needed && !memcmp(bytes, wanted, needed), "LOAD of a program");
    expect(kernal_save(k, 8, "NEW", saved, sizeof saved), "SAVE");
    count = kernal_load(k, 8, "NEW", bytes, sizeof bytes);
    show("LOAD\"NEW\",8", bytes, count);
    expect(count == (long)sizeof saved && !memcmp(bytes, saved, sizeof saved), "LOAD of what was saved");
    /* The bus accepts a SAVE that the drive refused at its OPEN: only the status shows it, and only a drive at the KERNAL's pace keeps it. */
    expect(kernal_save(k, 8, "HELLO", saved, sizeof saved), "SAVE of a name that is there");
    expect(status_is(k, 8, asks_missing ? "63," : "61,"), "the status of a name that is there");
    if (!asks_missing) return;
    count = kernal_load(k, 8, "NONE", bytes, sizeof bytes);
    expect(count < 0 && !k->stuck && k->status == (KERNAL_EOI | KERNAL_READ_TIMEOUT), "LOAD of no file");
    expect(y1541_status(&k->bus->drive[0]) == 62, "the status by the library");
    expect(status_is(k, 8, "62,"), "the status after no file");
    expect(status_is(k, 8, "00,"), "the status after the status");
}

/* SAVE on a disk whose notch is covered: the status is 26, and the disk stays as it is. */
static int protected_save(const uint8_t *image, size_t len) {
    bus b = {0};
    kernal k;
    if (y1541_open(&b.drive[0], image, len, 1, 8, 20, Y1541_KERNAL) != Y1541_OK) return 0;
    kernal_init(&k, &b, PAL, 0);
    int well = status_is(&k, 8, "73,") && kernal_save(&k, 8, "NEW", saved, sizeof saved) && status_is(&k, 8, "26,") && !y1541_writes(&b.drive[0]);
    y1541_close(&b.drive[0]);
    return well;
}

int main(int argc, char **argv) {
    static const struct { const char *name; computer computer; uint8_t pace, reaction; } runs[] = {
        {"a C64 for PAL, screen off, at the profile's pace", DARK_PAL, Y1541_PROFILE, 20},
        {"a C64 for PAL at the KERNAL's pace", PAL, Y1541_KERNAL, 20},
        {"a C64 for NTSC at the KERNAL's pace", NTSC, Y1541_KERNAL, 60},
        {"a VIC-20 at the KERNAL's pace", VIC, Y1541_KERNAL, 1},
    };
    if (argc < 2) return fprintf(stderr, "kernal_host IMAGE [OUT]\n"), 2;
    size_t len, needed = 0;
    uint8_t *image = read_file(argv[1], &len), *out = malloc(1 << 20);
    for (size_t i = 0; i < sizeof runs / sizeof runs[0]; i++) {
        bus b = {0};
        kernal k;
        printf("-- %s\n", runs[i].name);
        int32_t said = bus_open(&b, 0, image, len, 8, runs[i].reaction, runs[i].pace, 0);
        expect(said == Y1541_OK, y1541_text(said));
        kernal_init(&k, &b, runs[i].computer, (uint32_t)i);
        jobs(&k, image, len, runs[i].pace == Y1541_KERNAL);
        expect(y1541_writes(&b.drive[0]) > 0 && y1541_image(&b.drive[0], out, 1 << 20, &needed) == Y1541_OK, "the image");
        y1541_place first;
        expect(y1541_image_check(out, needed, &first) == Y1541_OK, "the image is sound");
        y1541_close(&b.drive[0]);
    }
    expect(protected_save(image, len), "SAVE on a protected disk");
    if (argc > 2) write_file(argv[2], out, needed);
    free(image), free(out);
    return wrong ? puts("it went wrong"), 1 : (puts("all went well"), 0);
}
