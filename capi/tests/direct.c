/* Drives with direct access, guarded and raw, by a computer on their lines, with images of each form and at both paces: direct IMAGE. What a block holds is asked of the calls
 * on images, and of the bytes that were put there. */
#include "files.h"
#include "kernal.h"

enum { ROOM = 1 << 20, BLOCK = 256 };

static const uint8_t program[] = {0x01, 0x08, 'A', 0, 0xff, 'Z'};

/* A drive's direct access. */
typedef enum access { NONE, GUARDED, RAW } access;

/* A computer at one drive. */
typedef struct host {
    bus bus;
    kernal kernal;
} host;

/* Whether a drive was switched on beside it. At the bus profile's pace the screen is dark. */
static int begins(host *h, const uint8_t *image, size_t len, uint8_t pace, access access) {
    memset(h, 0, sizeof *h);
    /* (three calls, as a pointer to a function is nothing that a module of 32 bits can be made of) */
    int came = access == RAW ? bus_open_raw(&h->bus, 0, image, len, 8, 20, pace, 0)
        : access == GUARDED ? bus_open_direct(&h->bus, 0, image, len, 8, 20, pace, 0)
        : bus_open(&h->bus, 0, image, len, 8, 20, pace, 0);
    if (came != Y1541_OK) return 0;
    kernal_init(&h->kernal, &h->bus, pace == Y1541_PROFILE ? DARK_PAL : PAL, 1);
    return 1;
}

static y1541 *drive(host *h) { return &h->bus.drive[0]; }

/* A command for channel 15. */
static int told(host *h, const char *command) { return kernal_print(&h->kernal, 8, 15, (const uint8_t *)command, strlen(command)); }

/* Whether channel 15 says this, up to its return. */
static int says(host *h, const char *line) {
    uint8_t text[64];
    long count = kernal_input(&h->kernal, 8, 15, text, sizeof text);
    return count == (long)strlen(line) + 1 && !memcmp(text, line, (size_t)count - 1) && text[count - 1] == '\r';
}

static int is_fine(host *h) { return says(h, "00, OK,00,00"); }

/* Whether just these bytes come from channel 2, up to EOI. */
static int comes(host *h, const uint8_t *bytes, size_t count) {
    uint8_t got[2 * BLOCK];
    return kernal_input(&h->kernal, 8, 2, got, sizeof got) == (long)count && !memcmp(got, bytes, count);
}

/* U1 of a sector below track and sector 100, to the buffer of channel 2. */
static int block_asked(host *h, uint8_t track, uint8_t sector) {
    char text[] = "U1:2,0,00,00";
    text[7] = (char)('0' + track / 10), text[8] = (char)('0' + track % 10), text[10] = (char)('0' + sector / 10), text[11] = (char)('0' + sector % 10);
    return told(h, text);
}

/* Whether a block is read, and holds what the image has there. */
static int block_is(host *h, const uint8_t *image, size_t len, uint8_t track, uint8_t sector) {
    uint8_t bytes[BLOCK];
    return y1541_image_sector(image, len, track, sector, bytes, BLOCK) == Y1541_OK && block_asked(h, track, sector) && is_fine(h) && comes(h, bytes, BLOCK);
}

/* An image with a file. Its length. */
static size_t disk_of(uint8_t form, const char *title, uint8_t *image) {
    static uint8_t empty[ROOM];
    size_t len = 0, needed = 0;
    expect(y1541_image_new(form, (const uint8_t *)title, strlen(title), 'I', 'D', empty, ROOM, &len) == Y1541_OK, "a disk");
    expect(y1541_image_put(empty, len, (const uint8_t *)"PROG,P,W", 8, program, sizeof program, image, ROOM, &needed) == Y1541_OK, "with a file");
    return needed;
}

/* Without the word for it a drive has no buffer, and knows none of the commands. */
static void without(const uint8_t *image, size_t len, uint8_t pace) {
    static const char *commands[] = {"U1:2,0,18,0", "B-R:2,0,18,0", "B-P:2,0", "UI", "M-R\x40\xff\x02"};
    host h;
    expect(begins(&h, image, len, pace, NONE) && says(&h, "73,CBM DOS V2.6 1541,00,00"), "a drive without direct access");
    expect(kernal_open(&h.kernal, 8, 2, "#") && says(&h, "70,NO CHANNEL,00,00"), "it has no buffer");
    for (size_t i = 0; i < sizeof commands / sizeof commands[0]; i++) expect(told(&h, commands[i]) && says(&h, "31,SYNTAX ERROR,00,00"), commands[i]);
    y1541_close(drive(&h));
}

/* Blocks that are read, and those that aren't. */
static void reads(host *h, const uint8_t *image, size_t len) {
    uint8_t bytes[BLOCK], file[BLOCK] = {0, sizeof program + 1};
    y1541_entry entry;
    memcpy(file + 2, program, sizeof program);
    expect(kernal_open(&h->kernal, 8, 2, "#") && is_fine(h), "a buffer");
    expect(block_is(h, image, len, 18, 0) && block_is(h, image, len, 18, 1) && block_is(h, image, len, 35, 16), "blocks as the image has them");
    expect(y1541_image_entry(image, len, 0, &entry) == Y1541_OK && block_asked(h, entry.track, entry.sector) && is_fine(h) && kernal_input(&h->kernal, 8, 2, bytes, BLOCK) == BLOCK && !memcmp(bytes, file, sizeof program + 2), "a file's block has a link of two bytes before it");
    expect(told(h, "B-P:2,2") && is_fine(h) && kernal_input(&h->kernal, 8, 2, bytes, BLOCK) == BLOCK - 2 && !memcmp(bytes, program, sizeof program), "from a place on");
    expect(y1541_image_sector(image, len, 18, 0, bytes, BLOCK) == Y1541_OK && bytes[0] == 18 && told(h, "B-R:2,0,18,0") && is_fine(h) && comes(h, bytes + 1, 18), "up to the byte that byte 0 says");
    expect(block_asked(h, 18, 19) && y1541_status(drive(h)) == 66 && says(h, "66,ILLEGAL TRACK OR SECTOR,18,19"), "no such sector");
    expect(told(h, "U1:2,1,18,0") && y1541_status(drive(h)) == 74 && says(h, "74,DRIVE NOT READY,00,00"), "no such drive");
    expect(told(h, "U1:3,0,18,0") && y1541_status(drive(h)) == 70 && says(h, "70,NO CHANNEL,00,00"), "no buffer");
    expect(told(h, "U1:2,0,18") && says(h, "30,SYNTAX ERROR,00,00"), "a number too few");
    expect(told(h, "V0") && says(h, "60,WRITE FILE OPEN,00,00") && told(h, "N0:OTHER,OT") && says(h, "60,WRITE FILE OPEN,00,00"), "N and V wait until no channel has a buffer");
    expect(told(h, "M-R\x40\xff\x02") && kernal_input(&h->kernal, 8, 15, bytes, BLOCK) == 2 && bytes[0] == 0xaa && bytes[1] == 0xaa && is_fine(h), "M-R of two bytes, and then the status");
    expect(told(h, "B-P:2,0") && is_fine(h) && y1541_image_sector(image, len, 18, 0, file, BLOCK) == Y1541_OK && kernal_input(&h->kernal, 8, 2, bytes, 3) == 3 && !memcmp(bytes, file, 3), "what wasn't read has changed nothing");
}

/* A file is written beside a buffer, and the disk stays sound. */
static void writes_beside(host *h, const uint8_t *image, size_t len) {
    static uint8_t now[ROOM], bytes[BLOCK];
    size_t needed = 0;
    y1541_place place;
    expect(!y1541_writes(drive(h)) && y1541_image(drive(h), now, ROOM, &needed) == Y1541_OK && needed == len && !memcmp(now, image, len), "reading changes nothing");
    expect(kernal_save(&h->kernal, 8, "MORE", program, sizeof program) && y1541_writes(drive(h)) > 0, "SAVE beside a buffer");
    expect(y1541_image(drive(h), now, ROOM, &needed) == Y1541_OK && y1541_image_check(now, needed, &place) == Y1541_OK, "and the disk is sound");
    expect(y1541_image_file(now, needed, (const uint8_t *)"MORE", 4, bytes, BLOCK, &needed) == Y1541_OK && needed == sizeof program && !memcmp(bytes, program, needed), "with the file");
}

/* Another disk, none, and a new start: no buffer is left, and the drive goes on. */
static void goes_on(host *h, uint8_t form) {
    static uint8_t other[ROOM], out[ROOM], zeros[BLOCK];
    size_t len = disk_of(form, "OTHER", other), needed = 0;
    expect(y1541_insert(drive(h), other, len, 0) == Y1541_OK && !y1541_writes(drive(h)), "another disk");
    expect(block_asked(h, 18, 0) && says(h, "70,NO CHANNEL,00,00"), "the buffer is gone with the disk");
    expect(kernal_open(&h->kernal, 8, 2, "#") && is_fine(h) && block_is(h, other, len, 18, 0), "a block of that disk");
    expect(told(h, "UI") && y1541_status(drive(h)) == 73 && says(h, "73,CBM DOS V2.6 1541,00,00") && block_asked(h, 18, 0) && says(h, "70,NO CHANNEL,00,00"), "UI leaves no buffer");
    expect(kernal_open(&h->kernal, 8, 2, "#") && is_fine(h) && y1541_reset(drive(h)) == Y1541_OK && y1541_status(drive(h)) == 73, "reset");
    bus_switched(&h->bus, 0, moment(&h->kernal));
    expect(says(h, "73,CBM DOS V2.6 1541,00,00") && block_asked(h, 18, 0) && says(h, "70,NO CHANNEL,00,00"), "reset leaves no buffer");
    expect(y1541_eject(drive(h), out, ROOM, &needed) == Y1541_OK && needed == len && !memcmp(out, other, len), "the disk comes out as it was");
    expect(y1541_eject(drive(h), out, ROOM, &needed) == Y1541_ABSENT && y1541_image(drive(h), out, ROOM, &needed) == Y1541_ABSENT, "there is no disk");
    expect(kernal_open(&h->kernal, 8, 2, "#") && is_fine(h) && block_asked(h, 18, 0) && is_fine(h) && comes(h, zeros, BLOCK), "without a disk all bytes are zeros");
    expect(y1541_insert(drive(h), other, 9, 0) == Y1541_NO_IMAGE && told(h, "B-P:2,250") && is_fine(h) && comes(h, zeros, 6), "what isn't put in changes nothing");
}

static void form_of(uint8_t form, uint8_t pace) {
    static uint8_t image[ROOM];
    size_t len = disk_of(form, "FORM", image);
    host h;
    without(image, len, pace);
    expect(begins(&h, image, len, pace, GUARDED) && says(&h, "73,CBM DOS V2.6 1541,00,00"), "a drive with direct access");
    reads(&h, image, len), writes_beside(&h, image, len), goes_on(&h, form);
    y1541_close(drive(&h));
    expect(!drive(&h)->at, "closed");
}

/* A D64 of 35 tracks with error bytes, of which 18/2's is 5, so that it reads with 23; and a wrong BAM, which hinders nobody who reads. */
static void damaged(uint8_t pace) {
    enum { LEN = 174848, SECTORS = 683, HEAD = 357 };
    static uint8_t image[ROOM];
    host h;
    y1541_place place;
    expect(disk_of(Y1541_D64_35, "BAD", image) == LEN, "a disk to damage");
    memset(image + LEN, 1, SECTORS), image[LEN + HEAD + 2] = 5;
    image[HEAD * BLOCK + 4] = 0;
    expect(y1541_image_check(image, LEN + SECTORS, &place) == Y1541_UNSOUND, "it isn't sound");
    expect(begins(&h, image, LEN + SECTORS, pace, GUARDED) && says(&h, "73,CBM DOS V2.6 1541,00,00") && kernal_open(&h.kernal, 8, 2, "#") && is_fine(&h), "a buffer on it");
    expect(block_is(&h, image, LEN + SECTORS, 18, 1), "its blocks are read");
    expect(block_asked(&h, 18, 2) && says(&h, "23,READ ERROR,18,02") && told(&h, "B-P:2,0") && is_fine(&h) && comes(&h, image + (HEAD + 1) * BLOCK, BLOCK), "but for one, which leaves the buffer");
    y1541_close(drive(&h));
}

/* A file's block is read, byte 2 of it is changed, and it is written: whether the drive says this. */
static int byte_2_changed(host *h, const y1541_entry *entry, uint8_t byte, const char *line) {
    char text[] = "U2:2,0,00,00";
    text[7] = (char)('0' + entry->track / 10), text[8] = (char)('0' + entry->track % 10), text[10] = (char)('0' + entry->sector / 10), text[11] = (char)('0' + entry->sector % 10);
    return kernal_open(&h->kernal, 8, 2, "#") && block_asked(h, entry->track, entry->sector) && told(h, "B-P:2,2") && kernal_print(&h->kernal, 8, 2, &byte, 1) && told(h, text) && says(h, line);
}

/* Guarded, a file's block is refused; raw, it is written, and no other block of the image is. The next disk is as open to it. */
static void of_files(uint8_t form, uint8_t pace) {
    static uint8_t image[ROOM], now[ROOM], bytes[BLOCK];
    size_t len = disk_of(form, "RAW", image), needed = 0;
    char refused[] = "26,WRITE PROTECT ON,00,00";
    y1541_entry entry;
    y1541_place place;
    host h;
    expect(y1541_image_entry(image, len, 0, &entry) == Y1541_OK, "a file");
    refused[20] = (char)('0' + entry.track / 10), refused[21] = (char)('0' + entry.track % 10), refused[23] = (char)('0' + entry.sector / 10), refused[24] = (char)('0' + entry.sector % 10);
    expect(begins(&h, image, len, pace, GUARDED) && byte_2_changed(&h, &entry, 'R', refused) && !y1541_writes(drive(&h)), "its block is the file's");
    y1541_close(drive(&h));
    expect(begins(&h, image, len, pace, RAW), "a raw drive");
    for (int i = 0; i < 2; i++) {
        expect(byte_2_changed(&h, &entry, 'R', "00, OK,00,00") && y1541_writes(drive(&h)) == 1, "one block is written");
        expect(y1541_image(drive(&h), now, ROOM, &needed) == Y1541_OK && needed == len && y1541_image_check(now, needed, &place) == Y1541_OK, "the disk is sound, as the link stayed");
        expect(y1541_image_sector(now, len, entry.track, entry.sector, bytes, BLOCK) == Y1541_OK && bytes[2] == 'R' && bytes[3] == program[1], "the block has the byte");
        for (uint8_t sector = 0; sector < 19; sector++)
            expect(y1541_image_sector(image, len, 18, sector, now + ROOM - BLOCK, BLOCK) == Y1541_OK && y1541_image_sector(now, len, 18, sector, bytes, BLOCK) == Y1541_OK && !memcmp(bytes, now + ROOM - BLOCK, BLOCK), "no other block is");
        expect(y1541_insert(drive(&h), image, len, 0) == Y1541_OK, "the disk again");
    }
    /* (byte 4 of the BAM counts the free blocks of track 1, of which a buffer of zeros has none) */
    expect(kernal_open(&h.kernal, 8, 2, "#") && told(&h, "B-P:2,4") && kernal_print(&h.kernal, 8, 2, (const uint8_t *)"M", 1) && told(&h, "U2:2,0,18,0") && says(&h, "00, OK,00,00"), "the BAM is written, too");
    expect(y1541_image(drive(&h), now, ROOM, &needed) == Y1541_OK && y1541_image_check(now, needed, &place) == Y1541_UNSOUND && place.track == 1, "the disk isn't sound any more");
    y1541_close(drive(&h));
}

/* A bus with a drive 8 that has direct access, with a drive 9 that hasn't, or with both. */
static void switched_on(host *h, const uint8_t *disks[2], const size_t lens[2], uint8_t pace, int first, int second) {
    memset(h, 0, sizeof *h);
    expect(!first || bus_open_direct(&h->bus, 0, disks[0], lens[0], 8, 20, pace, 0) == Y1541_OK, "a drive with direct access");
    expect(!second || bus_open(&h->bus, 1, disks[1], lens[1], 9, 35, pace, 0) == Y1541_OK, "a drive without");
    kernal_init(&h->kernal, &h->bus, pace == Y1541_PROFILE ? DARK_PAL : PAL, 1);
}

static int commanded(host *h, uint8_t device, const char *command) { return kernal_print(&h->kernal, device, 15, (const uint8_t *)command, strlen(command)); }

/* A block is claimed and written at drive 8. */
static void writes_a_block(host *h) {
    expect(kernal_open(&h->kernal, 8, 2, "#") && kernal_print(&h->kernal, 8, 2, (const uint8_t *)"BLOCK", 5), "bytes for a block");
    expect(commanded(h, 8, "B-A:0,1,0") && is_fine(h) && commanded(h, 8, "U2:2,0,1,0") && is_fine(h), "it is claimed and written");
}

/* A file is written at drive 9, which has no buffers. */
static void writes_a_file(host *h) {
    expect(kernal_save(&h->kernal, 9, "FILE", program, sizeof program) && kernal_open(&h->kernal, 9, 3, "#") && y1541_status(&h->bus.drive[1]) == 70, "SAVE, and no buffer");
}

/* The image of a drive, which is switched off. Its length; its disk is sound. */
static size_t image_of(host *h, int i, uint8_t *image) {
    size_t needed = 0;
    y1541_place place;
    expect(y1541_image(&h->bus.drive[i], image, ROOM, &needed) == Y1541_OK && y1541_image_check(image, needed, &place) == Y1541_OK, "a sound disk");
    y1541_close(&h->bus.drive[i]);
    return needed;
}

/* Two drives on one bus, one with direct access and one without: each leaves the disk that it leaves alone. */
static void beside_another(uint8_t form, uint8_t pace) {
    static uint8_t disk[2][ROOM], alone[2][ROOM], both[2][ROOM];
    const uint8_t *disks[2] = {disk[0], disk[1]};
    const size_t lens[2] = {disk_of(form, "FIRST", disk[0]), disk_of(form, "SECOND", disk[1])};
    size_t was[2];
    host h;
    switched_on(&h, disks, lens, pace, 1, 0), expect(says(&h, "73,CBM DOS V2.6 1541,00,00"), "alone"), writes_a_block(&h);
    was[0] = image_of(&h, 0, alone[0]);
    switched_on(&h, disks, lens, pace, 0, 1), writes_a_file(&h);
    was[1] = image_of(&h, 1, alone[1]);
    switched_on(&h, disks, lens, pace, 1, 1), expect(says(&h, "73,CBM DOS V2.6 1541,00,00"), "beside another"), writes_a_block(&h), writes_a_file(&h);
    for (int i = 0; i < 2; i++) expect(image_of(&h, i, both[i]) == was[i] && !memcmp(both[i], alone[i], was[i]), "as alone");
}

int main(int argc, char **argv) {
    if (argc < 2) return fprintf(stderr, "direct IMAGE\n"), 2;
    size_t len;
    uint8_t *image = read_file(argv[1], &len);
    for (uint8_t pace = Y1541_PROFILE; pace <= Y1541_KERNAL; pace++) {
        without(image, len, pace), damaged(pace);
        for (uint8_t form = Y1541_D64_35; form <= Y1541_G64; form++) form_of(form, pace), of_files(form, pace), beside_another(form, pace);
    }
    free(image);
    printf("direct: %d wrong\n", wrong);
    return wrong != 0;
}
