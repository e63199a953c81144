/* The calls with arguments that they refuse, an image of each form, and a thread for each of four drives: calls IMAGE. */
#include "files.h"
#include "kernal.h"
#include <pthread.h>

enum { ROOM = 1 << 20 };

static const uint8_t program[] = {0x01, 0x08, 'A', 0, 0xff, 'Z'};

static int same_bytes(const uint8_t *a, const uint8_t *b, size_t n) { return memcmp(a, b, n) == 0; }

/* No handle, a handle twice, arguments out of their range. */
static void refused(const uint8_t *image, size_t len) {
    y1541 d = {0}, before;
    y1541_reacted r = {7, 7, 7, 7, 7};
    y1541_pulls p = {7, 7};
    uint8_t out[4] = {9, 9, 9, 9};
    size_t needed = 5;
    expect(y1541_lines(&d, 0, 0, 0, 0) == Y1541_NO_DRIVE && y1541_next_due(&d) == Y1541_NEVER, "no drive: lines");
    expect(y1541_due(&d, 0, &r) == Y1541_NO_DRIVE && r.moment == 7 && y1541_pulls_now(&d, &p) == Y1541_NO_DRIVE && p.clock_low == 7, "no drive: due");
    expect(y1541_reset(&d) == Y1541_NO_DRIVE && y1541_status(&d) == Y1541_NO_DRIVE, "no drive: reset");
    expect(y1541_eject(&d, out, 4, &needed) == Y1541_NO_DRIVE && needed == 5, "no drive: eject");
    expect(y1541_image(&d, out, 4, &needed) == Y1541_NO_DRIVE && needed == 5 && out[0] == 9 && y1541_writes(&d) == 0, "no drive: image");
    expect(y1541_insert(&d, image, len, 0) == Y1541_NO_DRIVE, "no drive: insert");
    y1541_close(&d);
    expect(!d.at, "closed none");
    static const struct { uint8_t device, reaction, pace; } bad[] = {{7, 20, 0}, {12, 20, 0}, {255, 20, 0}, {8, 0, 0}, {8, 61, 0}, {8, 20, 2}, {8, 20, 255}};
    for (size_t i = 0; i < sizeof bad / sizeof bad[0]; i++)
        expect(y1541_open(&d, image, len, 0, bad[i].device, bad[i].reaction, bad[i].pace) == Y1541_INVALID && !d.at, "an argument of open");
    for (size_t i = 0; i < sizeof bad / sizeof bad[0]; i++)
        expect(y1541_open_direct(&d, image, len, 0, bad[i].device, bad[i].reaction, bad[i].pace) == Y1541_INVALID && !d.at, "an argument of open_direct");
    for (size_t i = 0; i < sizeof bad / sizeof bad[0]; i++)
        expect(y1541_open_raw(&d, image, len, 0, bad[i].device, bad[i].reaction, bad[i].pace) == Y1541_INVALID && !d.at, "an argument of open_raw");
    expect(y1541_open_direct(&d, image, len - 1, 0, 8, 20, 0) == Y1541_NO_IMAGE && !d.at, "no size of a D64 for direct access");
    expect(y1541_open_raw(&d, image, len - 1, 0, 8, 20, 0) == Y1541_NO_IMAGE && !d.at, "no size of a D64 for raw access");
    expect(y1541_open(&d, image, len - 1, 0, 8, 20, 0) == Y1541_NO_IMAGE && !d.at, "no size of a D64");
    expect(y1541_open(&d, image, 0, 0, 8, 20, 0) == Y1541_NO_IMAGE && !d.at, "no byte");
    expect(y1541_open(&d, (const uint8_t *)"GCR-1541", 8, 0, 8, 20, 0) == Y1541_NO_IMAGE && !d.at, "a G64's beginning");
    expect(y1541_open(&d, image, len, 0, 8, 20, 0) == Y1541_OK && d.at, "open");
    before = d;
    expect(y1541_open(&d, image, len, 0, 9, 20, 0) == Y1541_NO_DRIVE && d.at == before.at, "open twice");
    expect(y1541_open_direct(&d, image, len, 0, 9, 20, 0) == Y1541_NO_DRIVE && d.at == before.at, "open twice, with direct access");
    expect(y1541_open_raw(&d, image, len, 0, 9, 20, 0) == Y1541_NO_DRIVE && d.at == before.at, "open twice, with raw access");
    expect(y1541_lines(&d, 1000, 1, 0, 0) == Y1541_OK && y1541_next_due(&d) == 1020, "ATN");
    expect(y1541_lines(&d, 999, 0, 0, 0) == Y1541_INVALID && y1541_next_due(&d) == 1020, "back in time");
    expect(y1541_lines(&d, 1021, 0, 0, 0) == Y1541_INVALID && y1541_next_due(&d) == 1020, "past what is due");
    expect(y1541_lines(&d, (uint64_t)1 << 60, 0, 0, 0) == Y1541_INVALID && y1541_lines(&d, Y1541_NEVER, 0, 0, 0) == Y1541_INVALID, "no moment");
    expect(y1541_due(&d, 1019, &r) == Y1541_ABSENT && r.moment == 7, "too soon");
    expect(y1541_due(&d, 5000, &r) == Y1541_OK && r.moment == 1020 && r.data_low == 1 && r.data_changed == 1 && !r.clock_low && !r.clock_changed, "the reaction to ATN");
    expect(y1541_pulls_now(&d, &p) == Y1541_OK && p.data_low == 1 && !p.clock_low, "DATA is held");
    expect(y1541_insert(&d, image, 12, 0) == Y1541_NO_IMAGE && y1541_pulls_now(&d, &p) == Y1541_OK && p.data_low == 1, "no other image");
    expect(y1541_reset(&d) == Y1541_OK && y1541_next_due(&d) == Y1541_NEVER && y1541_pulls_now(&d, &p) == Y1541_OK && !p.data_low, "reset");
    expect(y1541_lines(&d, 1019, 1, 0, 0) == Y1541_INVALID && y1541_lines(&d, 1020, 1, 0, 0) == Y1541_OK, "moments go on");
    expect(y1541_image(&d, out, 4, &needed) == Y1541_NO_ROOM && needed == len && out[0] == 9 && out[3] == 9, "no room for an image");
    needed = 5;
    expect(y1541_eject(&d, out, 4, &needed) == Y1541_NO_ROOM && needed == len && out[0] == 9 && out[3] == 9, "no room for the image that comes out");
    uint8_t *all = malloc(len);
    expect(y1541_image(&d, all, len, &needed) == Y1541_OK && needed == len && same_bytes(all, image, len) && y1541_writes(&d) == 0, "the image, which wasn't written");
    memset(all, 0, len);
    expect(y1541_eject(&d, all, len, &needed) == Y1541_OK && needed == len && same_bytes(all, image, len), "the disk comes out");
    needed = 5;
    expect(y1541_eject(&d, all, len, &needed) == Y1541_ABSENT && y1541_image(&d, all, len, &needed) == Y1541_ABSENT && needed == 5, "no disk");
    expect(y1541_status(&d) == 73 && y1541_next_due(&d) == 1040, "the drive goes on without a disk");
    expect(y1541_due(&d, 1040, &r) == Y1541_OK && r.data_low == 1 && y1541_insert(&d, image, len, 0) == Y1541_OK, "a disk again");
    expect(y1541_pulls_now(&d, &p) == Y1541_OK && p.data_low == 1 && y1541_lines(&d, 1039, 0, 0, 0) == Y1541_INVALID, "its lines and its moments stay");
    expect(y1541_image(&d, all, len, &needed) == Y1541_OK && same_bytes(all, image, len), "the image again");
    free(all);
    y1541_close(&d);
    expect(!d.at, "closed");
    y1541_close(&d);
}

/* What is refused of images. */
static void refused_images(const uint8_t *image, size_t len) {
    static uint8_t out[ROOM];
    size_t needed = 5;
    y1541_place place = {7, 7, 7};
    y1541_entry entry;
    y1541_lost lost;
    memset(out, 9, 16);
    expect(y1541_image_check(image, 3, &place) == Y1541_NO_IMAGE && place.what == 7, "check of no image");
    expect(y1541_image_file(image, len, (const uint8_t *)"NONE", 4, out, ROOM, &needed) == Y1541_ABSENT && needed == 5 && out[0] == 9, "no file");
    expect(y1541_image_file(image, len, (const uint8_t *)"HELLO", 5, out, 2, &needed) == Y1541_NO_ROOM && needed > 2 && out[0] == 9, "no room for a file");
    expect(y1541_image_entry(image, len, 0, &entry) == Y1541_OK && entry.track == 17 && entry.sector == 0, "where HELLO begins");
    expect(y1541_image_entry(image, len, 255, &entry) == Y1541_ABSENT, "past the last slot");
    expect(!strncmp(y1541_text(63), "FILE EXISTS", 12) && !strncmp(y1541_text(Y1541_ABSENT), "no such thing", 14) && !strncmp(y1541_text(2), "an unknown number", 18), "words for what a call answers");
    expect(y1541_image_sector(image, len, 0, 0, out, 256) == Y1541_ABSENT && y1541_image_sector(image, len, 36, 0, out, 256) == Y1541_ABSENT && y1541_image_sector(image, len, 1, 21, out, 256) == Y1541_ABSENT, "no sector");
    expect(y1541_image_sector(image, len, 18, 0, out, 255) == Y1541_NO_ROOM && out[0] == 9, "no room for a sector");
    expect(y1541_image_new(3, out, 0, 0, 0, out + 100, 1, &needed) == Y1541_INVALID && y1541_image_new(0, out, 17, 0, 0, out + 100, 1, &needed) == Y1541_INVALID, "no form, no title");
    expect(y1541_image_command(image, len, (const uint8_t *)"X", 1, out, ROOM, &needed) == 31, "no command");
    expect(y1541_image_put(image, len, (const uint8_t *)"HELLO,P,W", 9, program, sizeof program, out, ROOM, &needed) == 63, "a name that is there");
    expect(y1541_image_convert(image, 1, &lost, out, ROOM, &needed) == Y1541_NO_IMAGE, "no image to convert");
}

static y1541_file file_of(const char *text, const uint8_t *bytes, size_t count) { return (y1541_file){(const uint8_t *)text, strlen(text), bytes, count}; }

/* Several files in one call, all or none; and a command with what the drive says after it. */
static void in_one_call(uint8_t form) {
    static uint8_t a[ROOM], b[ROOM], bytes[200000];
    size_t len = 0, needed = 5, put = 7, n = 0;
    y1541_place place;
    y1541_title title;
    y1541_said said;
    y1541_file files[3] = {file_of("ONE,P,W", program, sizeof program), file_of("TWO,S,W", program, 2), file_of("0:THREE,U,W", bytes, 1000)};
    memset(bytes, 'x', sizeof bytes), memset(&said, 7, sizeof said), b[0] = 9;
    expect(y1541_image_new(form, (const uint8_t *)"ALL", 3, 'I', 'D', a, ROOM, &len) == Y1541_OK, "a disk for several files");
    expect(y1541_image_put_all(a, 3, files, 3, &put, b, ROOM, &needed) == Y1541_NO_IMAGE && put == 0 && needed == 5 && b[0] == 9, "files on no image");
    expect(y1541_image_put_all(a, len, files, 3, &put, b, 4, &needed) == Y1541_NO_ROOM && needed == len && b[0] == 9, "no room for the image with files");
    expect(y1541_image_put_all(a, len, files, 0, &put, b, ROOM, &needed) == Y1541_OK && put == 0 && needed == len && same_bytes(a, b, len), "no file");
    expect(y1541_image_put_all(a, len, files, 3, &put, b, ROOM, &needed) == Y1541_OK && put == 3 && needed == len, "three files");
    expect(y1541_image_check(b, needed, &place) == Y1541_OK && y1541_image_title(b, needed, &title) == Y1541_OK && title.free == (form == Y1541_D64_40 ? 743 : 658), "and their six blocks");
    for (uint8_t i = 0; i < 3; i++)
        expect(y1541_image_read(b, needed, i, a, ROOM, &n) == Y1541_OK && n == files[i].count && same_bytes(a, files[i].bytes, n), "the bytes of each");
    files[0] = file_of("FOUR,P,W", program, 1), files[1] = file_of("FIVE", program, 1);
    put = 7, len = 5, a[0] = 9;
    expect(y1541_image_put_all(b, needed, files, 2, &put, a, ROOM, &len) == 62 && put == 1 && len == 5 && a[0] == 9, "the second isn't opened for writing");
    files[1] = file_of("FIVE,P,W", bytes, sizeof bytes);
    expect(y1541_image_put_all(b, needed, files, 2, &put, a, ROOM, &len) == 72 && put == 1 && len == 5 && a[0] == 9, "the second is too long");
    expect(y1541_image_command_status(b, needed, (const uint8_t *)"S0:T*", 5, &said, a, ROOM, &len) == Y1541_OK && said.number == 1 && said.first == 2 && said.second == 0
        && !strcmp((const char *)said.line, "01, FILES SCRATCHED,02,00"), "how many files were scratched");
    expect(y1541_image_title(a, len, &title) == Y1541_OK && title.free == (form == Y1541_D64_40 ? 748 : 663), "and their blocks are free");
    len = 5, a[0] = 9;
    expect(y1541_image_command_status(b, needed, (const uint8_t *)"R0:TWO=ONE", 10, &said, a, ROOM, &len) == 63 && len == 5 && a[0] == 9 && said.number == 63
        && !strcmp((const char *)said.line, "63,FILE EXISTS,00,00"), "what the drive says of what it refuses");
    memset(&said, 7, sizeof said);
    expect(y1541_image_command_status(b, 3, (const uint8_t *)"V0", 2, &said, a, ROOM, &len) == Y1541_NO_IMAGE && said.number == 7 && said.line[0] == 7, "no image to say anything of");
    expect(y1541_image_command_status(b, needed, (const uint8_t *)"V0", 2, &said, a, 4, &len) == Y1541_NO_ROOM && len == needed && said.number == 0 && !strcmp((const char *)said.line, "00, OK,00,00"), "no room, but a status");
}

/* A new image of a form: a file is put, found, scratched; a drive with it serves a KERNAL. */
static void form_of(uint8_t form, const char *what) {
    static uint8_t image[ROOM], next[ROOM], bytes[70000];
    size_t len = 0, needed = 0;
    y1541_title title;
    y1541_entry entry;
    y1541_place place;
    expect(y1541_image_new(form, (const uint8_t *)"FORM", 4, 'I', 'D', image, ROOM, &len) == Y1541_OK, what);
    expect(y1541_image_check(image, len, &place) == Y1541_OK, "a new image is sound");
    expect(y1541_image_title(image, len, &title) == Y1541_OK && same_bytes(title.title, (const uint8_t *)"FORM\xa0", 5) && title.mark[0] == 'I' && title.free == (form == Y1541_D64_40 ? 749 : 664), "its title");
    expect(y1541_image_put(image, len, (const uint8_t *)"PROG,P,W", 8, program, sizeof program, next, ROOM, &needed) == Y1541_OK && needed == len, "a file is put");
    expect(y1541_image_entry(next, needed, 0, &entry) == Y1541_OK && entry.kind == 2 && entry.closed == 1 && entry.blocks == 1 && same_bytes(entry.name, (const uint8_t *)"PROG\xa0", 5), "its entry");
    bus b = {0};
    kernal k;
    expect(bus_open(&b, 0, next, len, 8, 20, Y1541_KERNAL, 0) == Y1541_OK, "a drive with it");
    kernal_init(&k, &b, PAL, form);
    expect(kernal_load(&k, 8, "PROG", bytes, sizeof bytes) == (long)sizeof program && same_bytes(bytes, program, sizeof program), "LOAD from it");
    expect(kernal_save(&k, 8, "MORE", bytes, 700), "SAVE to it");
    expect(y1541_eject(&b.drive[0], next, ROOM, &needed) == Y1541_OK && y1541_image_check(next, needed, &place) == Y1541_OK, "its image is sound");
    expect(y1541_image_command(next, needed, (const uint8_t *)"S0:MORE", 7, image, ROOM, &len) == Y1541_OK, "a file is scratched");
    expect(y1541_image_title(image, len, &title) == Y1541_OK && title.free == (form == Y1541_D64_40 ? 748 : 663), "its blocks are free");
    y1541_close(&b.drive[0]);
}

/* Whether the entry in a slot has this name, filled up with $A0, and is or isn't locked. */
static int has_entry(const uint8_t *image, size_t len, uint8_t slot, const char *name, int locked) {
    y1541_entry entry;
    if (y1541_image_entry(image, len, slot, &entry) != Y1541_OK || entry.locked != locked) return 0;
    for (size_t i = 0, n = strlen(name); i < 16; i++)
        if (entry.name[i] != (i < n ? (uint8_t)name[i] : 0xa0)) return 0;
    return 1;
}

/* Files by their slots: names that no command of the drive can say, and one that two files have. */
static void by_slot(uint8_t form) {
    static uint8_t a[ROOM], b[ROOM], bytes[1000];
    size_t len = 0, needed = 0, n = 0;
    y1541_entry entries[144];
    y1541_flaw flaws[10];
    y1541_title title;
    y1541_place place;
    expect(y1541_image_new(form, (const uint8_t *)"SLOTS", 5, 'I', 'D', a, ROOM, &len) == Y1541_OK, "a disk for slots");
    expect(y1541_image_put(a, len, (const uint8_t *)"ONE,P,W", 7, program, sizeof program, b, ROOM, &needed) == Y1541_OK, "the first file");
    expect(y1541_image_put(b, needed, (const uint8_t *)"TWO,S,W", 7, program, 2, a, ROOM, &len) == Y1541_OK, "the second");
    expect(y1541_image_entries(a, len, entries, 144, &n) == Y1541_OK && n == 8 && entries[0].kind == 2 && entries[1].kind == 1 && entries[2].kind == 0 && entries[1].blocks == 1, "all entries of a sector");
    expect(y1541_image_entries(a, len, entries, 7, &n) == Y1541_NO_ROOM && n == 8, "no room for the entries");
    expect(y1541_image_read(a, len, 1, bytes, sizeof bytes, &n) == Y1541_OK && n == 2 && same_bytes(bytes, program, 2), "the bytes of the second");
    expect(y1541_image_read(a, len, 8, bytes, sizeof bytes, &n) == Y1541_ABSENT && n == 2, "past the last slot");
    expect(y1541_image_rename(a, len, 0, (const uint8_t *)"TWO", 3, b, ROOM, &needed) == 63, "a name that is there");
    expect(y1541_image_rename(a, len, 0, (const uint8_t *)"", 0, b, ROOM, &needed) == Y1541_INVALID && y1541_image_rename(a, len, 0, program, 17, b, ROOM, &needed) == Y1541_INVALID, "no name, a long one");
    expect(y1541_image_rename(a, len, 2, (const uint8_t *)"X", 1, b, ROOM, &needed) == Y1541_ABSENT, "an empty slot");
    expect(y1541_image_rename(a, len, 0, (const uint8_t *)"T*,\"", 4, b, ROOM, &needed) == Y1541_OK && has_entry(b, needed, 0, "T*,\"", 0) && has_entry(b, needed, 1, "TWO", 0), "any name");
    expect(y1541_image_lock(b, needed, 0, 1, a, ROOM, &len) == Y1541_OK && has_entry(a, len, 0, "T*,\"", 1), "locked");
    expect(y1541_image_delete(a, len, 0, b, ROOM, &needed) == 26, "a locked file stays");
    expect(y1541_image_lock(a, len, 0, 0, b, ROOM, &needed) == Y1541_OK && has_entry(b, needed, 0, "T*,\"", 0), "freed");
    expect(y1541_image_swap(b, needed, 0, 1, a, ROOM, &len) == Y1541_OK && has_entry(a, len, 0, "TWO", 0) && has_entry(a, len, 1, "T*,\"", 0), "changed places");
    expect(y1541_image_swap(a, len, 0, 8, b, ROOM, &needed) == Y1541_ABSENT, "no such slot");
    expect(y1541_image_delete(a, len, 1, b, ROOM, &needed) == Y1541_OK && has_entry(b, needed, 0, "TWO", 0) && y1541_image_title(b, needed, &title) == Y1541_OK && title.free == (form == Y1541_D64_40 ? 748 : 663), "one is deleted, and no other");
    expect(y1541_image_delete(b, needed, 1, a, ROOM, &len) == Y1541_ABSENT, "once");
    expect(y1541_image_undelete(b, needed, 1, 5, a, ROOM, &len) == Y1541_INVALID && y1541_image_undelete(b, needed, 0, 2, a, ROOM, &len) == Y1541_ABSENT, "no type, no deleted file");
    expect(y1541_image_undelete(b, needed, 1, 2, a, ROOM, &len) == Y1541_OK && has_entry(a, len, 1, "T*,\"", 0), "given back under its name");
    expect(y1541_image_read(a, len, 1, bytes, sizeof bytes, &n) == Y1541_OK && n == sizeof program && same_bytes(bytes, program, sizeof program), "with its bytes");
    expect(y1541_image_copy(a, len, 1, (const uint8_t *)"TWO", 3, b, ROOM, &needed) == 63 && y1541_image_copy(a, len, 2, (const uint8_t *)"X", 1, b, ROOM, &needed) == Y1541_ABSENT, "no copy to a name that is there, nor of no file");
    expect(y1541_image_copy(a, len, 1, (const uint8_t *)"", 0, b, ROOM, &needed) == Y1541_INVALID && y1541_image_copy(a, len, 1, program, 17, b, ROOM, &needed) == Y1541_INVALID, "no name for a copy, a long one");
    expect(y1541_image_lock(a, len, 1, 1, b, ROOM, &needed) == Y1541_OK && y1541_image_copy(b, needed, 1, (const uint8_t *)"C=:\x03", 4, a, ROOM, &len) == Y1541_OK && y1541_image_check(a, len, &place) == Y1541_OK, "a copy of a locked file");
    expect(has_entry(a, len, 0, "TWO", 0) && has_entry(a, len, 1, "T*,\"", 1) && has_entry(a, len, 2, "C=:\x03", 0), "any name for it, and the others as they were");
    expect(y1541_image_read(a, len, 2, bytes, sizeof bytes, &n) == Y1541_OK && n == sizeof program && same_bytes(bytes, program, n), "with the same bytes");
    expect(y1541_image_delete(a, len, 2, b, ROOM, &needed) == Y1541_OK && y1541_image_lock(b, needed, 1, 0, a, ROOM, &len) == Y1541_OK, "it is deleted, and the file freed");
    expect(y1541_image_retitle(a, len, program, 17, b, ROOM, &needed) == Y1541_INVALID && y1541_image_remark(a, len, program, 4, b, ROOM, &needed) == Y1541_INVALID, "no title, no id");
    expect(y1541_image_retitle(a, len, (const uint8_t *)"OTHER", 5, b, ROOM, &needed) == Y1541_OK && y1541_image_remark(b, needed, (const uint8_t *)"XY 2A", 5, a, ROOM, &len) == Y1541_OK
        && y1541_image_title(a, len, &title) == Y1541_OK && same_bytes(title.title, (const uint8_t *)"OTHER\xa0", 6) && same_bytes(title.mark, (const uint8_t *)"XY 2A", 5), "another title and id");
    expect(y1541_image_flaws(a, len, flaws, 10, &n) == Y1541_OK && n == 0, "nothing is wrong");
}

/* A directory that leads back to its first sector, and a file whose block is free: on a D64 of 35 tracks, where 18/1 begins at byte 91,648. */
static void broken(void) {
    static uint8_t a[ROOM], b[ROOM];
    size_t len = 0, needed = 0, n = 0;
    y1541_entry entries[144];
    y1541_flaw flaws[10];
    expect(y1541_image_new(Y1541_D64_35, (const uint8_t *)"B", 1, 'I', 'D', b, ROOM, &needed) == Y1541_OK && y1541_image_put(b, needed, (const uint8_t *)"F,P,W", 5, program, sizeof program, a, ROOM, &len) == Y1541_OK, "a disk to break");
    uint8_t *map = a + 91392 + 4 * 17;
    a[91648] = 18, a[91649] = 1, map[0]++, map[1] |= 1;
    expect(y1541_image_entries(a, len, entries, 144, &n) == 71 && n == 8 && entries[0].kind == 2, "entries up to the loop");
    expect(y1541_image_flaws(a, len, flaws, 1, &n) == Y1541_NO_ROOM && n == 2, "no room for the flaws");
    expect(y1541_image_flaws(a, len, flaws, 10, &n) == Y1541_OK && n == 2 && flaws[0].what == 3 && flaws[0].whose == 1 && flaws[0].track == 18 && flaws[0].sector == 1, "the loop is told");
    expect(flaws[1].what == 2 && flaws[1].whose == 2 && flaws[1].slot == 0 && flaws[1].track == 17 && flaws[1].sector == 0 && flaws[1].before == 0, "and the file's free block");
    expect(y1541_image_rename(a, len, 0, (const uint8_t *)"G", 1, b, ROOM, &needed) > 0, "and nothing is changed");
}

/* A D64 with a file, and in slot 1 a line of art that leads to a sector; 18/1 begins at byte 91,648. Its length. */
static size_t with_art(uint8_t *image, uint8_t track, uint8_t sector) {
    static uint8_t fresh[ROOM];
    size_t len = 0, needed = 0;
    expect(y1541_image_new(Y1541_D64_35, (const uint8_t *)"ART", 3, 'I', 'D', fresh, ROOM, &len) == Y1541_OK, "a disk for art");
    expect(y1541_image_put(fresh, len, (const uint8_t *)"ONE,P,W", 7, program, sizeof program, image, ROOM, &needed) == Y1541_OK, "and its file");
    uint8_t *entry = image + 91648 + 34;
    entry[0] = 0x82, entry[1] = track, entry[2] = sector, memcpy(entry + 3, "----------------", 16), entry[28] = 99;
    return needed;
}

/* Odd entries are left alone: a disk with a line of art that leads to 18/0. */
static void odd_entries(void) {
    static uint8_t art[ROOM], left[ROOM], changed[ROOM], b[ROOM], wanted[ROOM];
    size_t len = with_art(art, 18, 0), needed = 0, n = 5;
    y1541_place place;
    y1541_entry entry;
    uint8_t *slots = wanted + 91648;
    expect(y1541_image_check(art, len, &place) == Y1541_UNSOUND && place.what == 4 && place.track == 18 && place.sector == 0, "art isn't sound");
    expect(y1541_image_put(art, len, (const uint8_t *)"TWO,P,W", 7, program, 3, b, ROOM, &needed) == Y1541_OK && needed == len && has_entry(b, len, 2, "TWO", 0)
        && same_bytes(b + 91648 + 32, art + 91648 + 32, 32), "a file is put, and the art stays");
    memcpy(wanted, art, len), memcpy(slots + 5, "NEW", 3);
    expect(y1541_image_command(art, len, (const uint8_t *)"R0:NEW=ONE", 10, b, ROOM, &needed) == Y1541_OK && needed == len && same_bytes(b, wanted, len), "a command leaves it alone");
    expect(y1541_image_command(art, len, (const uint8_t *)"V0", 2, b, ROOM, &needed) == Y1541_UNSOUND && same_bytes(b, wanted, len), "VALIDATE isn't carried out beside it");
    expect(y1541_image_rename(art, len, 0, (const uint8_t *)"NEW", 3, b, ROOM, &needed) == Y1541_UNSOUND, "a call by slot wants what is left");
    memcpy(wanted, art, len), slots[34] = 0xc0, slots[35] = slots[36] = 0;
    expect(y1541_image_put_away(art, len, left, ROOM, &n) == Y1541_OK && n == len && same_bytes(left, wanted, len) && y1541_image_check(left, len, &place) == Y1541_OK, "what is left is sound");
    expect(y1541_image_entry(left, len, 1, &entry) == Y1541_OK && entry.kind == 0 && entry.closed && entry.locked && !entry.track && has_entry(left, len, 1, "----------------", 1), "with a locked DEL");
    expect(y1541_image_put_away(left, len, b, ROOM, &n) == Y1541_OK && n == len && same_bytes(b, left, len), "of a sound disk all is left");
    expect(y1541_image_put_back(art, len, left, len, b, ROOM, &n) == Y1541_OK && n == len && same_bytes(b, art, len), "and back without a change");
    memcpy(wanted, art, len), memcpy(slots + 5, "A*\xa0", 3);
    expect(y1541_image_rename(left, len, 0, (const uint8_t *)"A*", 2, changed, ROOM, &n) == Y1541_OK && y1541_image_put_back(art, len, changed, n, b, ROOM, &needed) == Y1541_OK
        && needed == len && same_bytes(b, wanted, len), "renamed by its slot, and the art put back");
    needed = n = 5, b[0] = 9;
    expect(y1541_image_put_away(art, len, b, 4, &n) == Y1541_NO_ROOM && n == len && b[0] == 9 && y1541_image_put_back(art, len, changed, len, b, 4, &needed) == Y1541_NO_ROOM && needed == len && b[0] == 9, "no room");
    expect(y1541_image_delete(left, len, 1, changed, ROOM, &n) == 26, "what stands for the art is locked");
    expect(y1541_image_rename(left, len, 1, (const uint8_t *)"X", 1, changed, ROOM, &n) == Y1541_OK && y1541_image_put_back(art, len, changed, n, b, ROOM, &needed) == 26, "another name for the art");
    expect(y1541_image_swap(left, len, 0, 1, changed, ROOM, &n) == Y1541_OK && y1541_image_put_back(art, len, changed, n, b, ROOM, &needed) == 26 && b[0] == 9, "another slot for it");
    expect(y1541_image_put_back(art, len, left, 3, b, ROOM, &needed) == Y1541_NO_IMAGE && y1541_image_put_back(art, 3, left, len, b, ROOM, &needed) == Y1541_NO_IMAGE && y1541_image_put_away(art, 3, b, ROOM, &needed) == Y1541_NO_IMAGE, "no image to put away");
    left[91392 + 4]--;
    expect(y1541_image_put_back(art, len, left, len, b, ROOM, &needed) == Y1541_UNSOUND, "what was changed isn't sound");
    art[91392 + 4]--;
    expect(y1541_image_put_away(art, len, b, ROOM, &needed) == Y1541_UNSOUND && y1541_image_put(art, len, (const uint8_t *)"TWO,P,W", 7, program, 3, b, ROOM, &needed) == Y1541_UNSOUND, "a wrong BAM isn't an entry's");
    len = with_art(art, 1, 0);
    expect(y1541_image_put_away(art, len, b, ROOM, &needed) == Y1541_UNSOUND && y1541_image_command(art, len, (const uint8_t *)"V0", 2, b, ROOM, &needed) == Y1541_UNSOUND && b[0] == 9, "art that leads to a free block");
}

/* The same on a G64, which the D64 is converted to and from; and two images that aren't of one format. */
static void odd_entries_of_g64(void) {
    static uint8_t art[ROOM], g64[ROOM], left[ROOM], changed[ROOM], back[ROOM];
    size_t len = with_art(art, 18, 1), size = 0, n = 0;
    y1541_lost lost;
    y1541_place place;
    expect(y1541_image_convert(art, len, &lost, g64, ROOM, &size) == Y1541_OK && y1541_image_put_away(g64, size, left, ROOM, &n) == Y1541_OK && n == size && y1541_image_check(left, n, &place) == Y1541_OK, "what is left of a G64");
    expect(y1541_image_rename(left, n, 0, (const uint8_t *)"NEW", 3, changed, ROOM, &n) == Y1541_OK && y1541_image_put_back(g64, size, changed, n, back, ROOM, &n) == Y1541_OK && n == size, "and put back");
    expect(y1541_image_convert(back, n, &lost, left, ROOM, &n) == Y1541_OK && n == len, "a D64 of it");
    memcpy(art + 91648 + 5, "NEW", 3);
    expect(same_bytes(left, art, len), "only the name is another one");
    expect(y1541_image_put_back(art, len, changed, size, back, ROOM, &n) == Y1541_NO_IMAGE, "images of two formats");
}

/* A disk in a drive that goes on: its image while a file is being written, how often it was written, and another disk in its place. */
static void exchanged(const uint8_t *image, size_t len, uint8_t form) {
    static uint8_t disk[ROOM], now[ROOM], other[ROOM], bytes[70000];
    size_t size = 0, needed = 0, other_size = 0;
    y1541_entry entry;
    y1541_place place;
    bus b = {0};
    kernal k;
    expect(y1541_image_new(form, (const uint8_t *)"ONE", 3, '1', 'A', disk, ROOM, &size) == Y1541_OK && y1541_image_new(form, (const uint8_t *)"TWO", 3, '2', 'B', other, ROOM, &other_size) == Y1541_OK, "two disks");
    expect(bus_open(&b, 0, disk, size, 8, 20, Y1541_KERNAL, 0) == Y1541_OK, "a drive with the first");
    y1541 *d = &b.drive[0];
    kernal_init(&k, &b, PAL, form);
    expect(kernal_load(&k, 8, "$", bytes, sizeof bytes) > 0 && y1541_writes(d) == 0, "what is read isn't written");
    expect(kernal_open(&k, 8, 2, "LOG,S,W") && kernal_print(&k, 8, 2, program, sizeof program), "a file is being written");
    uint64_t opened = y1541_writes(d);
    expect(opened > 0, "its entry is written");
    expect(y1541_image(d, now, ROOM, &needed) == Y1541_OK && needed == size && y1541_writes(d) == opened, "the image meanwhile");
    expect(y1541_image_entry(now, needed, 0, &entry) == Y1541_OK && entry.kind == 1 && !entry.closed, "the file isn't closed in it");
    expect(kernal_print(&k, 8, 2, program, sizeof program) && kernal_close(&k, 8, 2) && y1541_writes(d) > opened, "the drive goes on");
    expect(y1541_image(d, now, ROOM, &needed) == Y1541_OK && y1541_image_check(now, needed, &place) == Y1541_OK, "a sound image");
    size_t count = 0;
    expect(y1541_image_file(now, needed, (const uint8_t *)"LOG", 3, bytes, sizeof bytes, &count) == Y1541_OK && count == 2 * sizeof program && same_bytes(bytes, program, sizeof program) && same_bytes(bytes + sizeof program, program, sizeof program), "the file in it");
    uint64_t closed = y1541_writes(d);
    expect(y1541_reset(d) == Y1541_OK && y1541_writes(d) == closed, "a reset puts no other disk in");
    bus_switched(&b, 0, moment(&k) + 1);
    pass(&k, 2000);
    expect(kernal_load(&k, 8, "NONE", bytes, sizeof bytes) < 0 && y1541_status(d) == 62, "no such file");
    expect(kernal_open(&k, 8, 3, "MORE,S,W") && kernal_print(&k, 8, 3, program, sizeof program) && y1541_status(d) == 0, "another file is begun");
    expect(kernal_load(&k, 8, "NONE", bytes, sizeof bytes) < 0 && y1541_status(d) == 62, "again no such file");
    expect(y1541_insert(d, other, other_size, 0) == Y1541_OK && y1541_writes(d) == 0 && y1541_status(d) == 62, "another disk, and the same status");
    expect(kernal_print(&k, 8, 3, program, sizeof program) && kernal_close(&k, 8, 3) && y1541_writes(d) == 0, "no channel is open any more");
    expect(y1541_image(d, now, ROOM, &needed) == Y1541_OK && needed == other_size && same_bytes(now, other, other_size), "nothing of the first disk goes to it");
    long read = kernal_load(&k, 8, "$", bytes, sizeof bytes);
    expect(read > 0 && y1541_image_list(other, other_size, (const uint8_t *)"", 0, now, ROOM, &needed) == Y1541_OK && (long)needed == read && same_bytes(now, bytes, needed), "its directory");
    expect(y1541_insert(d, image, len, 1) == Y1541_OK, "a protected one");
    expect(kernal_open(&k, 8, 2, "NEW,P,W"), "OPEN for writing");
    expect(y1541_status(d) == 26 && y1541_writes(d) == 0, "it isn't written");
    expect(y1541_eject(d, now, ROOM, &needed) == Y1541_OK && needed == len && same_bytes(now, image, len), "it comes out as it was");
    expect(kernal_load(&k, 8, "HELLO", bytes, sizeof bytes) < 0 && y1541_writes(d) == 0, "no file without a disk");
    y1541_close(d);
}

static void converted(const uint8_t *image, size_t len) {
    static uint8_t g64[ROOM], d64[ROOM];
    size_t needed = 0, back = 0;
    y1541_lost lost;
    expect(y1541_image_convert(image, len, &lost, g64, ROOM, &needed) == Y1541_OK && !lost.unreadable && !lost.tracks && !lost.errors && !lost.id, "a G64 of a D64");
    expect(y1541_image_convert(g64, needed, &lost, d64, ROOM, &back) == Y1541_OK && back == len && same_bytes(d64, image, len), "and back");
}

/* A list of changes in one call: the reaction to ATN at its moment, and what is refused. */
static void played(const uint8_t *image, size_t len) {
    static uint8_t after[ROOM];
    y1541_signal host[] = {{1000, 0, Y1541_ATN, 1}, {1000, 0, Y1541_CLOCK, 1}, {3000, 0, Y1541_ATN, 0}}, events[8];
    size_t count = 0, needed = 0;
    expect(y1541_play(image, len, 8, 20, Y1541_PROFILE, host, 3, 4000, events, 8, &count, after, ROOM, &needed) == Y1541_OK && needed == len && same_bytes(after, image, len), "played");
    expect(count == 5 && events[2].moment == 1020 && events[2].who == 8 && events[2].line == Y1541_DATA && events[2].low == 1, "DATA is pulled 20 after ATN");
    expect(events[4].moment == 3020 && events[4].who == 8 && events[4].line == Y1541_DATA && events[4].low == 0, "and freed 20 after it");
    after[0] = 7, count = needed = 0;
    expect(y1541_play(image, len, 8, 20, Y1541_PROFILE, host, 3, 4000, events, 4, &count, after, ROOM, &needed) == Y1541_NO_ROOM && count == 5 && needed == len && after[0] == 7, "no room for events");
    count = needed = 0, events[0].moment = 77;
    expect(y1541_play(image, len, 8, 20, Y1541_PROFILE, host, 3, 4000, events, 8, &count, after, len - 1, &needed) == Y1541_NO_ROOM && count == 5 && needed == len && after[0] == 7 && events[0].moment == 77, "no room for the image");
    count = needed = 66;
    expect(y1541_play(image, len, 8, 20, Y1541_PROFILE, host, 3, 2999, events, 8, &count, after, ROOM, &needed) == Y1541_INVALID, "past the end");
    host[2].moment = 999;
    expect(y1541_play(image, len, 8, 20, Y1541_PROFILE, host, 3, 4000, events, 8, &count, after, ROOM, &needed) == Y1541_INVALID, "back in time");
    host[2].moment = 3000, host[2].line = 3;
    expect(y1541_play(image, len, 8, 20, Y1541_PROFILE, host, 3, 4000, events, 8, &count, after, ROOM, &needed) == Y1541_INVALID, "no line");
    expect(y1541_play(image, len, 7, 20, Y1541_PROFILE, host, 0, 4000, events, 8, &count, after, ROOM, &needed) == Y1541_INVALID, "no device");
    expect(y1541_play(image, 9, 8, 20, Y1541_PROFILE, host, 0, 4000, events, 8, &count, after, ROOM, &needed) == Y1541_NO_IMAGE && count == 66 && needed == 66, "no image to play");
}

typedef struct task {
    const uint8_t *image;
    size_t len;
    int seed, wrong;
} task;

/* A drive of its own for each thread. */
static void *runs(void *given) {
    task *t = given;
    uint8_t *bytes = malloc(70000), *image = malloc(ROOM);
    size_t needed = 0;
    bus b = {0};
    kernal k;
    t->wrong += bus_open(&b, 0, t->image, t->len, (uint8_t)(8 + t->seed), 20, Y1541_KERNAL, 0) != Y1541_OK;
    kernal_init(&k, &b, PAL, (uint32_t)t->seed);
    for (int i = 0; i < 20; i++) {
        t->wrong += kernal_load(&k, (uint8_t)(8 + t->seed), "HELLO", bytes, 70000) <= 0;
        char name[] = {'F', (char)('A' + i), 0};
        t->wrong += !kernal_save(&k, (uint8_t)(8 + t->seed), name, program, sizeof program);
    }
    y1541_place place;
    t->wrong += y1541_eject(&b.drive[0], image, ROOM, &needed) != Y1541_OK || y1541_image_check(image, needed, &place) != Y1541_OK;
    y1541_close(&b.drive[0]);
    free(bytes), free(image);
    return NULL;
}

static void threads(const uint8_t *image, size_t len) {
    pthread_t thread[DRIVES];
    task tasks[DRIVES];
    for (int i = 0; i < DRIVES; i++) {
        tasks[i] = (task){image, len, i, 0};
        if (pthread_create(&thread[i], NULL, runs, &tasks[i])) exit(2);
    }
    for (int i = 0; i < DRIVES; i++) {
        pthread_join(thread[i], NULL);
        expect(!tasks[i].wrong, "a thread with a drive");
    }
}

int main(int argc, char **argv) {
    if (argc < 2) return fprintf(stderr, "calls IMAGE\n"), 2;
    size_t len;
    uint8_t *image = read_file(argv[1], &len);
    expect(y1541_version() == Y1541_VERSION, "the version");
    refused(image, len);
    refused_images(image, len);
    by_slot(Y1541_D64_35), by_slot(Y1541_D64_40), by_slot(Y1541_G64), broken(), odd_entries(), odd_entries_of_g64();
    in_one_call(Y1541_D64_35), in_one_call(Y1541_D64_40), in_one_call(Y1541_G64);
    form_of(Y1541_D64_35, "a D64");
    form_of(Y1541_D64_40, "a D64 of 40 tracks");
    form_of(Y1541_G64, "a G64");
    for (uint8_t form = 0; form < 3; form++) exchanged(image, len, form);
    converted(image, len);
    played(image, len);
    threads(image, len);
    free(image);
    printf("calls: %d wrong\n", wrong);
    return wrong != 0;
}
