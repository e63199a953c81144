/* The DOS by calls against the DOS by wires: channels IMAGE [SESSIONS]. In each session three drives get the same random requests: one by a computer on its wires, one
 * by calls, and one by either, as chance has it. Each must answer the same, and have the same image at the end. Before that, each refusal of a call. */
#include "files.h"
#include "kernal.h"

enum { ROOM = 1 << 20, MOST = 400, REQUESTS = 40 };

/* How a drive is asked. */
typedef enum how { BY_WIRES, BY_CALLS, BY_EITHER } how;

/* A drive and a computer. */
typedef struct host {
    bus bus;
    kernal kernal;
    how how;
} host;

/* What is asked, and what comes. */
typedef struct request { char kind; uint8_t channel; uint8_t bytes[MOST]; size_t count; } request;
typedef struct answer { uint8_t bytes[MOST]; size_t count; uint8_t last; int32_t status; } answer;

static uint32_t seed = 1;

static uint32_t random_below(uint32_t n) {
    seed = seed * 1664525u + 1013904223u;
    return (seed >> 8) % n;
}

static y1541 *drive(host *h) { return &h->bus.drive[0]; }

static int begins(host *h, how how, const uint8_t *image, size_t len, uint8_t pace, int access, uint8_t is_protected) {
    memset(h, 0, sizeof *h);
    h->how = how;
    int32_t said = access == 2 ? bus_open_raw(&h->bus, 0, image, len, 8, 20, pace, 0)
        : access == 1 ? bus_open_direct(&h->bus, 0, image, len, 8, 20, pace, 0)
        : bus_open(&h->bus, 0, image, len, 8, 20, pace, 0);
    kernal_init(&h->kernal, &h->bus, pace == Y1541_PROFILE ? DARK_PAL : PAL, 1);
    /* (it pulls CLOCK from power-up on, up to its first use of the bus) */
    release(&h->kernal, 60);
    return said == Y1541_OK && y1541_insert(drive(h), image, len, is_protected) == Y1541_OK;
}

/* --- a request */

static void by_wires(host *h, const request *r, answer *a) {
    kernal *k = &h->kernal;
    long came = 0;
    switch (r->kind) {
    case 'o': tells(k, 8, 0xf0 | r->channel, r->bytes, r->count); break;
    case 'w': tells(k, 8, 0x60 | r->channel, r->bytes, r->count); break;
    case 'c': tells(k, 8, 0xe0 | r->channel, r->bytes, 0); break;
    default:
        came = kernal_input(k, 8, r->channel, a->bytes, r->count);
        a->last = came > 0 && k->status & KERNAL_EOI;
        a->count = came > 0 ? (size_t)came : 0;
        /* (a real computer waits for ever for a byte that never comes, up to RUN/STOP and RESTORE) */
        k->stuck = 0;
        if (came < 0) kernal_untalk(k);
    }
    /* (the drive reacts to the end of ATN) */
    pass(k, 2000);
    bus_run_to(&h->bus, moment(k));
}

static void by_calls(host *h, const request *r, answer *a) {
    int32_t said = r->kind == 'o' ? y1541_channel_open(drive(h), r->channel, r->bytes, r->count)
        : r->kind == 'w' ? y1541_channel_write(drive(h), r->channel, r->bytes, r->count)
        : r->kind == 'c' ? y1541_channel_close(drive(h), r->channel)
        : y1541_channel_read(drive(h), r->channel, a->bytes, r->count, &a->count, &a->last);
    expect(said == Y1541_OK, "a call while the wires are at rest");
}

static void asked(host *h, const request *r, answer *a) {
    memset(a, 0, sizeof *a);
    if (h->how == BY_WIRES || (h->how == BY_EITHER && random_below(2))) by_wires(h, r, a);
    else by_calls(h, r, a);
    a->status = y1541_status(drive(h));
}

/* --- requests by chance */

static const char *texts[] = {"$", "HELLO", "H*", "A,S,W", "A,S", "A,S,A", "@0:A,S,W", "B,P,W", "B", "C,U,W", "C,U", "R,L,\x20", "R", "NOFILE", "", "#", "#1", "$:A*"};
static const char *commands[] = {"S0:A", "S0:B,C", "R0:D=A", "R0:A=D", "C0:E=A,B", "C0:E=B", "I0", "V0", "P\x62\x01", "P\x63\x05", "U1:2,0,18,1", "U1 2 0 17 0", "U2:2,0,20,3", "B-P:2,5",
    "B-A:0,20,4", "B-F:0,20,4", "M-R\x40\xff\x02", "UI", "X", "N0:NEW", "N0:NEW,ID"};

static void put_text(request *r, const char *text) {
    r->count = strlen(text);
    memcpy(r->bytes, text, r->count);
}

static void by_chance(request *r) {
    static const uint8_t channels[] = {0, 1, 2, 2, 2, 3, 15};
    memset(r, 0, sizeof *r);
    r->kind = "oowwrrrc"[random_below(8)];
    r->channel = channels[random_below(sizeof channels)];
    if (r->kind == 'r') r->count = 1 + random_below(random_below(3) ? MOST : 3);
    else if (r->kind != 'c' && r->channel == 15) put_text(r, commands[random_below(sizeof commands / sizeof *commands - !!random_below(4) * 2)]);
    else if (r->kind == 'o') put_text(r, texts[random_below(sizeof texts / sizeof *texts)]);
    else if (r->kind == 'w') {
        r->count = random_below(MOST);
        for (size_t i = 0; i < r->count; i++) r->bytes[i] = (uint8_t)random_below(256);
    }
}

static void session(const uint8_t *image, size_t len, uint8_t pace, int access, uint8_t is_protected) {
    static host hosts[3];
    static uint8_t images[3][ROOM];
    static const how hows[] = {BY_WIRES, BY_CALLS, BY_EITHER};
    answer answers[3];
    size_t needed[3] = {0};
    for (int i = 0; i < 3; i++) expect(begins(&hosts[i], hows[i], image, len, pace, access, is_protected), "a drive");
    for (int n = 0; n < REQUESTS; n++) {
        request r;
        by_chance(&r);
        for (int i = 0; i < 3; i++) asked(&hosts[i], &r, &answers[i]);
        for (int i = 1; i < 3; i++) {
            int is_same = answers[0].count == answers[i].count && answers[0].last == answers[i].last && answers[0].status == answers[i].status;
            expect(is_same && !memcmp(answers[0].bytes, answers[i].bytes, answers[0].count), "the same answer");
        }
    }
    for (int i = 0; i < 3; i++) {
        expect(y1541_image(drive(&hosts[i]), images[i], ROOM, &needed[i]) == Y1541_OK, "an image");
        expect(needed[i] == needed[0] && !memcmp(images[i], images[0], needed[0]), "the same image");
        expect(y1541_writes(drive(&hosts[i])) == y1541_writes(drive(&hosts[0])), "as many writes");
    }
    for (int i = 0; i < 3; i++) y1541_close(drive(&hosts[i]));
}

/* --- what is refused */

static int is_refused(y1541 *d, int32_t why, uint8_t channel) {
    uint8_t out[4] = {9, 9, 9, 9}, last = 7;
    size_t got = 5;
    return y1541_channel_open(d, channel, (const uint8_t *)"$", 1) == why && y1541_channel_write(d, channel, out, 4) == why && y1541_channel_close(d, channel) == why
        && y1541_channel_read(d, channel, out, 4, &got, &last) == why && got == 5 && last == 7 && out[0] == 9;
}

static void refusals(const uint8_t *image, size_t len, int access) {
    host h;
    uint8_t text[40], last = 0;
    size_t got = 0;
    y1541 none = {0};
    expect(is_refused(&none, Y1541_NO_DRIVE, 2), "no drive");
    expect(begins(&h, BY_CALLS, image, len, Y1541_KERNAL, access, 0), "a drive");
    expect(is_refused(drive(&h), Y1541_INVALID, 16) && is_refused(drive(&h), Y1541_INVALID, 255), "no channel");
    expect(y1541_status(drive(&h)) == 73, "nothing has changed");
    expect(y1541_lines(drive(&h), 1000000, 0, 1, 0) == Y1541_OK && is_refused(drive(&h), Y1541_INVALID, 2), "a line is pulled");
    expect(y1541_lines(drive(&h), 1000100, 0, 0, 0) == Y1541_OK && y1541_channel_open(drive(&h), 2, (const uint8_t *)"NO", 2) == Y1541_OK && y1541_status(drive(&h)) == 62, "it is free again");
    expect(y1541_lines(drive(&h), 1000200, 1, 0, 0) == Y1541_OK && is_refused(drive(&h), Y1541_INVALID, 2), "a reaction is due");
    expect(y1541_reset(drive(&h)) == Y1541_OK && y1541_channel_read(drive(&h), 15, text, sizeof text, &got, &last) == Y1541_OK && got == 27 && last, "after a reset");
    expect(!memcmp(text, "73,CBM DOS V2.6 1541,00,00\r", 27), "its line");
    expect(y1541_channel_read(drive(&h), 15, text, 3, &got, &last) == Y1541_OK && got == 3 && !last && !memcmp(text, "00,", 3), "a part of a line");
    expect(y1541_channel_read(drive(&h), 15, text, sizeof text, &got, &last) == Y1541_OK && got == 10 && last && !memcmp(text, " OK,00,00\r", 10), "the rest of it");
    y1541_close(drive(&h));
}

int main(int argc, char **argv) {
    if (argc < 2) return fprintf(stderr, "channels IMAGE [SESSIONS]\n"), 2;
    int sessions = argc > 2 ? atoi(argv[2]) : 300;
    size_t len, round_len = 0;
    static uint8_t circles[ROOM];
    y1541_lost lost;
    uint8_t *image = read_file(argv[1], &len);
    expect(y1541_image_convert(image, len, &lost, circles, ROOM, &round_len) == Y1541_OK, "a G64");
    for (int access = 0; access < 3; access++) refusals(image, len, access);
    for (int n = 0; n < sessions && wrong < 10; n++) {
        int is_round = n % 5 == 4;
        session(is_round ? circles : image, is_round ? round_len : len, n % 2 ? Y1541_KERNAL : Y1541_PROFILE, n % 3, n % 16 == 15);
    }
    printf("%d sessions of %d requests by wires and by calls: %s\n", sessions, REQUESTS, wrong ? "it went wrong" : "the same answers");
    free(image);
    return wrong != 0;
}
