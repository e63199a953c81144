#define _XOPEN_SOURCE 700
/* How much stack each call needs, by a stack that is painted before it: stack IMAGE [FORM]. Fails if one needs more than its row says, which is just above what was
 * measured (docs/emulators.md), and never above 64 kB. With `rust` as second word the library is one that cargo made, some of whose rows are higher. What y1541_lines and y1541_due need depends on what the drive does then, so a computer with a KERNAL has it do its work; the
 * computer's own frames take less than 1 kB. */
#include "files.h"
#include "kernal.h"
#include <pthread.h>
#include <yellowadze1541.h>

enum { STACK = 4 << 20, ROOM = 1 << 20, PAINT = 0xa5, MOST = 64000 };

static uint8_t *image, *out, *g64;
static size_t len, g64_len, needed;
static y1541 d, g;

static void nothing(void) {}
static void opens(void) { y1541_open(&d, image, len, 0, 8, 20, 0); }
static void opens_g64(void) { y1541_open(&g, g64, g64_len, 0, 8, 20, 0); }
static void lines(void) { y1541_lines(&d, 1000, 1, 0, 0), y1541_lines(&g, 1000, 1, 0, 0); }
static void next_due(void) { y1541_next_due(&d); }
static void due(void) { y1541_reacted r; y1541_due(&d, 2000, &r), y1541_due(&g, 2000, &r); }
static void pulls(void) { y1541_pulls p; y1541_pulls_now(&d, &p); }
static void shows(void) { y1541_image(&d, out, ROOM, &needed), y1541_image(&g, out, ROOM, &needed), y1541_writes(&d), y1541_status(&d); }
/* The state of a drive with a G64, and a drive of it. */
static uint8_t *state;
static size_t state_len;
static void saves(void) { y1541_save(&d, state, ROOM, &state_len), y1541_save(&g, state, ROOM, &state_len); }
static void restores(void) {
    y1541 other = {0};
    expect(y1541_restore(&other, state, state_len) == Y1541_OK, "restored");
    y1541_close(&other);
}
static void ejects(void) { y1541_eject(&d, out, ROOM, &needed), y1541_eject(&g, out, ROOM, &needed); }
static void inserts(void) { y1541_insert(&d, g64, g64_len, 0), y1541_insert(&g, image, len, 0); }
static void resets(void) { y1541_reset(&d), y1541_reset(&g); }
static void closes(void) { y1541_close(&d), y1541_close(&g); }
static void opens_direct(void) { y1541_open_direct(&d, image, len, 0, 8, 20, 0); }
static void opens_raw(void) { y1541_open_raw(&d, image, len, 0, 8, 20, 0); }
static void opens_direct_g64(void) { y1541_open_direct(&g, g64, g64_len, 0, 8, 20, 0); }
static void checks(void) { y1541_place p; y1541_image_check(image, len, &p), y1541_image_check(g64, g64_len, &p); }
static void lists(void) { y1541_image_list(image, len, image, 0, out, ROOM, &needed); }
static void files(void) { y1541_image_file(image, len, (const uint8_t *)"H*", 2, out, ROOM, &needed); }
static void puts_file(void) { y1541_image_put(image, len, (const uint8_t *)"N,P,W", 5, image, 3000, out, ROOM, &needed), y1541_image_put(g64, g64_len, (const uint8_t *)"N,P,W", 5, image, 3000, out, ROOM, &needed); }
static void puts_all(void) {
    static const uint8_t text[2][6] = {"N,P,W", "M,P,W"};
    const y1541_file files[2] = {{text[0], 5, image, 3000}, {text[1], 5, image, 3000}};
    size_t put;
    y1541_image_put_all(image, len, files, 2, &put, out, ROOM, &needed), y1541_image_put_all(g64, g64_len, files, 2, &put, out, ROOM, &needed);
}
static void command_status(void) {
    y1541_said said;
    y1541_image_command_status(image, len, (const uint8_t *)"N0:NEW,ID", 9, &said, out, ROOM, &needed);
    y1541_image_command_status(g64, g64_len, (const uint8_t *)"N0:NEW,ID", 9, &said, out, ROOM, &needed);
}
static void copies(void) { y1541_image_copy(image, len, 0, (const uint8_t *)"N", 1, out, ROOM, &needed), y1541_image_copy(g64, g64_len, 0, (const uint8_t *)"N", 1, out, ROOM, &needed); }
/* A disk with a line of art that leads to 18/0 in slot 1, in both formats. */
static uint8_t *art, *art_g64;
static size_t art_g64_len;
static void art_is_made(void) {
    y1541_lost lost;
    art = malloc(ROOM), art_g64 = malloc(ROOM);
    memcpy(art, image, len), memcpy(art + 91648 + 34, "\x82\x12\0----------------", 19);
    y1541_image_convert(art, len, &lost, art_g64, ROOM, &art_g64_len);
}
static void puts_away(void) { y1541_image_put_away(art_g64, art_g64_len, out, ROOM, &needed), y1541_image_put_away(art, len, out, ROOM, &needed); }
/* (of the D64 that puts_away left) */
static void puts_back(void) {
    static uint8_t back[ROOM];
    expect(y1541_image_put_back(art, len, out, needed, back, ROOM, &needed) == Y1541_OK, "put back");
    y1541_image_put_away(art_g64, art_g64_len, out, ROOM, &needed), y1541_image_put_back(art_g64, art_g64_len, out, needed, back, ROOM, &needed);
}
static void puts_around(void) { y1541_image_put(art, len, (const uint8_t *)"N,P,W", 5, image, 3000, out, ROOM, &needed), y1541_image_put(art_g64, art_g64_len, (const uint8_t *)"N,P,W", 5, image, 3000, out, ROOM, &needed); }
static void command_around(void) {
    y1541_image_command(art, len, (const uint8_t *)"N0:NEW,ID", 9, out, ROOM, &needed), y1541_image_command(art_g64, art_g64_len, (const uint8_t *)"V0", 2, out, ROOM, &needed);
    y1541_image_command(art, len, (const uint8_t *)"C0:TWO=HELLO", 12, out, ROOM, &needed), y1541_image_command(art_g64, art_g64_len, (const uint8_t *)"C0:TWO=HELLO", 12, out, ROOM, &needed);
}
static void deletes(void) { y1541_image_delete(image, len, 0, out, ROOM, &needed), y1541_image_delete(g64, g64_len, 0, out, ROOM, &needed); }
/* A command on an image of each format. */
static void command(const char *text) {
    y1541_image_command(image, len, (const uint8_t *)text, strlen(text), out, ROOM, &needed);
    y1541_image_command(g64, g64_len, (const uint8_t *)text, strlen(text), out, ROOM, &needed);
}
static void command_validates(void) { command("V0"); }
static void command_copies(void) { command("C0:TWO=HELLO"); }
static void command_formats(void) { command("N0:NEW,ID"); }
static void plays(void) {
    static const y1541_signal host[] = {{1000, 0, Y1541_ATN, 1}, {3000, 0, Y1541_ATN, 0}};
    static y1541_signal events[8];
    size_t count;
    y1541_play(image, len, 8, 20, Y1541_PROFILE, host, 2, 5000, events, 8, &count, out, ROOM, &needed);
}
static void makes(void) { y1541_image_new(2, image, 0, 0, 0, out, ROOM, &needed); }
static void converts(void) { y1541_lost l; y1541_image_convert(image, len, &l, out, ROOM, &needed), y1541_image_convert(g64, g64_len, &l, out, ROOM, &needed); }

/* A computer at a drive with a D64, and one at a drive with a G64. */
static struct host { bus at; kernal with; } hosts[2];
static void host_begins(struct host *h, const uint8_t *bytes, size_t count, int direct) {
    memset(h, 0, sizeof *h);
    if ((direct ? bus_open_direct : bus_open)(&h->at, 0, bytes, count, 8, 20, Y1541_KERNAL, 0) != Y1541_OK) exit(2);
    kernal_init(&h->with, &h->at, PAL, 1);
}
static void hosts_begin(int direct) { host_begins(&hosts[0], image, len, direct), host_begins(&hosts[1], g64, g64_len, direct); }
/* Each has its drive carry out a command on channel 15. */
static void hosts_command(const char *text) {
    for (int i = 0; i < 2; i++) kernal_open(&hosts[i].with, 8, 15, text), kernal_close(&hosts[i].with, 8, 15);
}
static void hosts_load(const char *name) {
    for (int i = 0; i < 2; i++) expect(kernal_load(&hosts[i].with, 8, name, out, ROOM) > 0, name);
}
static void host_lists(void) { hosts_load("$"); }
static void host_loads(void) { hosts_load("HELLO"); }
static void host_saves(void) {
    for (int i = 0; i < 2; i++) kernal_save(&hosts[i].with, 8, "NEW", image, 3000);
}
static void host_renames(void) { hosts_command("R0:OLD=NEW"), hosts_load("OLD"); }
static void host_copies(void) { hosts_command("C0:TWO=OLD,HELLO"), hosts_load("TWO"); }
static void host_scratches(void) { hosts_command("S0:TWO"); }
static void host_validates(void) { hosts_command("V0"); }
static void host_formats(void) { hosts_command("N0:NEW,ID"); }
static void host_reads_blocks(void) {
    for (int i = 0; i < 2; i++)
        expect(kernal_open(&hosts[i].with, 8, 2, "#") && kernal_print(&hosts[i].with, 8, 15, (const uint8_t *)"U1:2,0,18,1", 11) && kernal_input(&hosts[i].with, 8, 2, out, ROOM) == 256, "U1");
}
/* The same without the wires, when they are at rest. */
static void channels_say(uint8_t channel, const char *text) {
    for (int i = 0; i < 2; i++) {
        y1541 *drive = &hosts[i].at.drive[0];
        expect(y1541_reset(drive) == Y1541_OK && y1541_channel_open(drive, channel, (const uint8_t *)text, strlen(text)) == Y1541_OK, text);
    }
}
static void channels_read(void) {
    uint8_t last;
    channels_say(0, "$");
    for (int i = 0; i < 2; i++) expect(y1541_channel_read(&hosts[i].at.drive[0], 0, out, ROOM, &needed, &last) == Y1541_OK && last, "read");
}
static void channels_write(void) {
    channels_say(1, "MORE,P,W");
    for (int i = 0; i < 2; i++) expect(y1541_channel_write(&hosts[i].at.drive[0], 1, image, 3000) == Y1541_OK && y1541_channel_close(&hosts[i].at.drive[0], 1) == Y1541_OK, "written");
}
static void channels_copy(void) { channels_say(15, "C0:MOST=HELLO"); }
static void hosts_end(void) {
    for (int i = 0; i < 2; i++) y1541_close(&hosts[i].at.drive[0]);
}

/* In bytes. */
static const struct { const char *name; void (*call)(void); size_t most; } calls[] = {
    {"open", opens, 14000}, {"open a G64", opens_g64, 47000}, {"lines, ATN", lines, 1000}, {"next_due", next_due, 1000}, {"due, ATN", due, 1000},
    {"pulls_now", pulls, 1000}, {"image", shows, 2000}, {"save", saves, 10200}, {"restore", restores, 50800}, {"eject", ejects, 5800}, {"insert", inserts, 36000}, {"reset", resets, 5200}, {"close", closes, 1000},
    {"open_raw", opens_raw, 12600}, {"close, raw", closes, 1000}, {"open_direct", opens_direct, 14400}, {"open_direct a G64", opens_direct_g64, 46000}, {"lines, ATN, direct", lines, 1200}, {"due, ATN, direct", due, 1000},
    {"image, direct", shows, 2000}, {"eject, direct", ejects, 9300}, {"insert, direct", inserts, 36000}, {"reset, direct", resets, 5200}, {"close, direct", closes, 1000},
    {"image_check", checks, 36000}, {"image_list", lists, 56200}, {"image_file", files, 4000}, {"image_put", puts_file, 56500},
    {"image_put_all", puts_all, 56500}, {"image_command_status", command_status, 48800}, {"image_copy", copies, 51000}, {"image_delete", deletes, 51000},
    {"image_command V", command_validates, 48200}, {"image_command C", command_copies, 48200}, {"image_command N", command_formats, 48900},
    {"image_put_away", puts_away, 37200}, {"image_put_back", puts_back, 37300}, {"image_put, art", puts_around, 59800}, {"image_command, art", command_around, 51200},
    {"image_new", makes, 52000}, {"image_convert", converts, 36000}, {"play", plays, 15200},
    {"LOAD $", host_lists, 46000}, {"LOAD", host_loads, 46000}, {"SAVE", host_saves, 46000}, {"R", host_renames, 46000}, {"C", host_copies, 46000},
    {"S", host_scratches, 14500}, {"V", host_validates, 14500}, {"N", host_formats, 37800}, {"channels, $", channels_read, 46000},
    {"channels, SAVE", channels_write, 46000}, {"channels, C", channels_copy, 46000}, {"their close", hosts_end, 1000},
    {"U1, direct", host_reads_blocks, 13200}, {"SAVE, direct", host_saves, 46700}, {"V, direct", host_validates, 13200}, {"channels, direct", channels_write, 46700}, {"their close, direct", hosts_end, 1000},
};

/* Where the library that cargo makes needs more. */
static const struct { const char *name; size_t most; } of_rust[] = {
    {"lines, ATN", 3000}, {"N", 38800},
};

/* The most that a call may need. */
static size_t most_of(size_t call, int is_rust) {
    for (size_t i = 0; is_rust && i < sizeof of_rust / sizeof of_rust[0]; i++)
        if (!strcmp(of_rust[i].name, calls[call].name)) return of_rust[i].most;
    return calls[call].most;
}

static void *runs(void *call) {
    (*(void (**)(void))call)();
    return NULL;
}

static uint8_t *map(void) {
    void *at = NULL;
    return posix_memalign(&at, 4096, STACK) ? NULL : at;
}

/* How many bytes of a thread's stack were written. */
static size_t touched(void (*call)(void)) {
    pthread_t thread;
    pthread_attr_t how;
    uint8_t *stack = map();
    if (!stack) exit(2);
    memset(stack, PAINT, STACK);
    pthread_attr_init(&how);
    pthread_attr_setstack(&how, stack, STACK);
    if (pthread_create(&thread, &how, runs, &call)) exit(2);
    pthread_join(thread, NULL);
    size_t left = 0;
    while (left < STACK && stack[left] == PAINT) left++;
    free(stack);
    return STACK - left;
}

int main(int argc, char **argv) {
    if (argc < 2) return fprintf(stderr, "stack IMAGE [FORM]\n"), 2;
    int is_rust = argc > 2 && !strcmp(argv[2], "rust");
    y1541_lost lost;
    image = read_file(argv[1], &len), out = malloc(ROOM), g64 = malloc(ROOM), state = malloc(ROOM);
    y1541_image_convert(image, len, &lost, g64, ROOM, &g64_len);
    art_is_made();
    hosts_begin(0);
    size_t none = touched(nothing);
    printf("stack in bytes:\n");
    for (size_t i = 0; i < sizeof calls / sizeof calls[0]; i++) {
        size_t used = touched(calls[i].call) - none, most = most_of(i, is_rust);
        printf("  %-18s %6zu, at most %6zu\n", calls[i].name, used, most);
        expect(used <= most && most <= MOST, calls[i].name);
        if (calls[i].call == hosts_end) hosts_begin(1);
    }
    hosts_end();
    printf("stack: %d wrong\n", wrong);
    free(image), free(out), free(g64), free(art), free(art_g64), free(state);
    return wrong != 0;
}
