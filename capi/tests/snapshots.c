/* A drive that is saved and restored goes on as it would have done: snapshots IMAGE. A computer with a KERNAL works with a drive; then again with one that
 * is exchanged for its own restored state at hundreds of moments. Both must do the same, event by event. */
#include <yellowadze1541.h>

static int32_t told(y1541 *d, uint64_t moment, uint8_t atn_low, uint8_t clock_low, uint8_t data_low);
static int32_t reacts(y1541 *d, uint64_t moment, y1541_reacted *reacted);

#define y1541_lines told
#define y1541_due reacts
#include "files.h"
#include "kernal.h"
#undef y1541_lines
#undef y1541_due

enum { ROOM = 1 << 20, EVENTS = 1 << 20 };

/* What a run did: each line change and reaction as a number. */
typedef struct run {
    uint64_t *events;
    size_t count, apart, restored; /* apart: how many events lie between two moments at which the drive is exchanged; 0: it never is */
} run;

static run *current;
static uint8_t state[ROOM], image_after[2][ROOM];

static void note(uint64_t event) {
    if (current->count < EVENTS) current->events[current->count] = event;
    current->count++;
}

/* The drive is saved, restored into another handle, and takes the first one's place. */
static void exchange(y1541 *d) {
    y1541 other = {0};
    size_t n = 0, again = 0;
    static uint8_t same[ROOM];
    if (!current->apart || current->count % current->apart) return;
    expect(y1541_save(d, state, ROOM, &n) == Y1541_OK && n > 13, "saved");
    expect(y1541_restore(&other, state, n) == Y1541_OK && other.at, "restored into an empty handle");
    expect(y1541_save(&other, same, ROOM, &again) == Y1541_OK && again == n && !memcmp(same, state, n), "its state is the same");
    expect(y1541_restore(d, state, n) == Y1541_OK, "restored over a drive");
    y1541_close(&other);
    current->restored++;
}

static int32_t told(y1541 *d, uint64_t moment, uint8_t atn_low, uint8_t clock_low, uint8_t data_low) {
    exchange(d);
    int32_t said = y1541_lines(d, moment, atn_low, clock_low, data_low);
    note(moment << 8 | (uint64_t)(said != 0) << 3 | atn_low << 2 | clock_low << 1 | data_low);
    return said;
}

static int32_t reacts(y1541 *d, uint64_t moment, y1541_reacted *reacted) {
    exchange(d);
    int32_t said = y1541_due(d, moment, reacted);
    if (!said) note(reacted->moment << 8 | 0x80 | reacted->clock_low << 1 | reacted->data_low);
    return said;
}

/* LOAD, SAVE, a directory, files in parts, an append, records, SCRATCH, and what is refused. Gives the size of the image at the end. */
static size_t session(const uint8_t *image, size_t len, uint8_t pace, uint8_t *after) {
    static uint8_t bytes[70000];
    bus b = {0};
    kernal k;
    size_t needed = 0;
    for (size_t i = 0; i < 600; i++) bytes[i] = (uint8_t)(i * 7);
    expect(bus_open(&b, 0, image, len, 8, 20, pace, 0) == Y1541_OK, "a drive");
    kernal_init(&k, &b, pace == Y1541_PROFILE ? DARK_PAL : PAL, 1);
    expect(kernal_save(&k, 8, "ONE", bytes, 600), "SAVE");
    expect(kernal_open(&k, 8, 2, "TWO,S,W") && kernal_print(&k, 8, 2, bytes, 100), "a file is being written");
    expect(kernal_load(&k, 8, "ONE", bytes, sizeof bytes) == 600, "LOAD");
    expect(kernal_load(&k, 8, "$", bytes, sizeof bytes) > 0, "the directory");
    expect(kernal_print(&k, 8, 2, bytes, 300) && kernal_close(&k, 8, 2), "the file is finished");
    expect(kernal_open(&k, 8, 3, "REL,L,\x14") && kernal_print(&k, 8, 15, (const uint8_t *)"P\x63\x04\x00\x01", 5), "records");
    expect(kernal_print(&k, 8, 3, (const uint8_t *)"FOUR", 4) && kernal_close(&k, 8, 3), "a record");
    expect(kernal_open(&k, 8, 4, "TWO,S,A") && kernal_print(&k, 8, 4, bytes, 300) && kernal_close(&k, 8, 4), "an append");
    expect(kernal_open(&k, 8, 5, "TWO,S") && kernal_input(&k, 8, 5, bytes, sizeof bytes) == 700 && kernal_close(&k, 8, 5), "the whole file");
    expect(kernal_print(&k, 8, 15, (const uint8_t *)"S0:ONE", 6), "SCRATCH");
    kernal_load(&k, 8, "NONE", bytes, sizeof bytes);
    expect(y1541_status(&b.drive[0]) == (pace == Y1541_KERNAL ? 62 : 61), "no such file");
    expect(y1541_image(&b.drive[0], after, ROOM, &needed) == Y1541_OK, "the image");
    y1541_close(&b.drive[0]);
    return needed;
}

/* Both runs over an image, at a pace. */
static void goes_on(const uint8_t *image, size_t len, uint8_t pace) {
    run plain = {malloc(EVENTS * sizeof(uint64_t)), 0, 0, 0}, other = {malloc(EVENTS * sizeof(uint64_t)), 0, 53, 0};
    if (!plain.events || !other.events) exit(2);
    current = &plain;
    size_t n = session(image, len, pace, image_after[0]);
    current = &other;
    size_t m = session(image, len, pace, image_after[1]);
    expect(plain.count == other.count && plain.count < EVENTS && !memcmp(plain.events, other.events, plain.count * sizeof(uint64_t)), "event by event");
    expect(other.restored > 300, "at hundreds of moments");
    expect(n == m && !memcmp(image_after[0], image_after[1], n), "the images are equal");
    free(plain.events), free(other.events);
}

/* Each of the first bytes and some of the others changed, each such length cut: refused, and nothing changes. */
static void broken(const uint8_t *image, size_t len) {
    y1541 d = {0}, e = {0};
    size_t n = 0, m = 0;
    static uint8_t now[ROOM];
    expect(y1541_restore(&d, image, len) == Y1541_NO_IMAGE && !d.at, "an image is no state");
    expect(y1541_save(&d, state, ROOM, &n) == Y1541_NO_DRIVE && n == 0, "no drive");
    expect(y1541_open(&d, image, len, 0, 8, 20, 0) == Y1541_OK && y1541_open(&e, image, len, 1, 9, 30, 1) == Y1541_OK, "two drives");
    expect(y1541_save(&d, state, 12, &n) == Y1541_NO_ROOM && n > len && n <= len + 16384, "no room");
    expect(y1541_save(&d, state, ROOM, &n) == Y1541_OK, "saved");
    for (size_t i = 0; i < n; i += i < 300 ? 1 : 499) {
        uint8_t was = state[i];
        state[i] ^= (uint8_t)(1 + i % 255);
        expect(y1541_restore(&e, state, n) == Y1541_NO_IMAGE, "a byte is changed");
        state[i] = was;
        expect(y1541_restore(&e, state, i) == Y1541_NO_IMAGE, "it is cut");
    }
    expect(y1541_lines(&e, 1000, 1, 0, 0) == Y1541_OK && y1541_next_due(&e) == 1030, "the drive stays");
    expect(y1541_restore(&e, state, n) == Y1541_OK && y1541_save(&e, now, ROOM, &m) == Y1541_OK && m == n && !memcmp(now, state, n), "the state at last");
    y1541_close(&d), y1541_close(&e);
}

int main(int argc, char **argv) {
    if (argc < 2) return fprintf(stderr, "snapshots IMAGE\n"), 2;
    size_t len, n = 0;
    static uint8_t g64[ROOM];
    uint8_t *image = read_file(argv[1], &len);
    goes_on(image, len, Y1541_KERNAL), goes_on(image, len, Y1541_PROFILE);
    broken(image, len);
    expect(y1541_image_new(Y1541_G64, (const uint8_t *)"ROUND", 5, 'G', '6', g64, ROOM, &n) == Y1541_OK, "a G64");
    goes_on(g64, n, Y1541_KERNAL), goes_on(g64, n, Y1541_PROFILE);
    free(image);
    printf("snapshots: %d wrong\n", wrong);
    return wrong != 0;
}
