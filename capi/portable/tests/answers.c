/* The answers of random calls, as a checksum: answers IMAGE CALLS [SEED]. Two builds of the library answer alike if they print the same lines: each number,
 * each struct, each byte that is given, and what is left of the caller's room. The calls are those of ../../tests/random.c, and y1541_play; each number by
 * chance is drawn in a statement of its own, as compilers evaluate arguments in different orders. */
#include "files.h"
#include <yellowadze1541.h>

enum { HANDLES = 3 };

static uint32_t seed = 1;
static uint8_t *image, *g64;
static size_t len, g64_len;

static uint32_t by_chance(uint32_t below) {
    seed = seed * 1664525u + 1013904223u;
    return (uint32_t)((uint64_t)(seed >> 8) * below >> 24);
}

/* A block with these bytes, some of which may be others. */
static uint8_t *block(const uint8_t *bytes, size_t n, uint32_t changes) {
    uint8_t *at = malloc(n ? n : 1);
    if (!at) exit(2);
    if (n) memcpy(at, bytes, n);
    while (n && changes--) {
        uint32_t where = by_chance((uint32_t)n);
        at[where] = (uint8_t)by_chance(256);
    }
    return at;
}

static uint8_t *some_image(size_t *n) {
    int is_g64 = by_chance(4) == 0;
    *n = is_g64 ? g64_len : len;
    if (by_chance(8) == 0) *n = by_chance((uint32_t)*n);
    return block(is_g64 ? g64 : image, *n, by_chance(3) ? 0 : by_chance(40));
}

static uint8_t *some_text(size_t *n) {
    static const char *texts[] = {"", "*", "HELLO", "$", "S0:H*", "R0:A=HELLO", "C0:B=HELLO", "N0:NEW,ID", "V0", "A,P,W", "@0:HELLO,P,W", "X,S,A", "R,L,\x20", "I", "U9", "P\x02\x01\x01\x01"};
    const char *text = texts[by_chance(sizeof texts / sizeof texts[0])];
    *n = strlen(text);
    return block((const uint8_t *)text, *n, by_chance(4) ? 0 : 2);
}

static uint64_t sum = 0xcbf29ce484222325u;

static void saw(uint64_t v) { for (int i = 0; i < 8; i++) sum = (sum ^ (v >> 8 * i & 255)) * 0x100000001b3u; }

static void saw_bytes(const uint8_t *at, size_t n) { for (size_t i = 0; i < n; i++) sum = (sum ^ at[i]) * 0x100000001b3u; }

/* Room for bytes, filled, so that what a call leaves of it is seen. */
static uint8_t *room_of(size_t room) {
    uint8_t *at = malloc(room ? room : 1);
    if (!at) exit(2);
    memset(at, 0x5a, room);
    return at;
}

static void saw_image(uint8_t *out, size_t room, size_t needed) {
    size_t n = needed < room ? needed : room, m = n + 64 < room ? n + 64 : room;
    saw(needed), saw_bytes(out, m);
    for (size_t i = m; i < room; i++) if (out[i] != 0x5a) { saw(i); break; }
}

static int known(int32_t said) { return (said >= Y1541_NO_DRIVE && said <= 0) || (said >= 20 && said <= 77); }

/* A call on a channel of a drive. */
static int32_t on_channel(y1541 *d) {
    uint8_t channel = (uint8_t)(by_chance(20) ? by_chance(3) : by_chance(256)), last = 7, *text, *out;
    size_t n, got = 5, room = by_chance(600);
    int32_t said;
    switch (by_chance(4)) {
    case 0:
        text = some_text(&n), channel = by_chance(3) ? channel : 15, said = y1541_channel_open(d, channel, text, n);
        free(text);
        return said;
    case 1:
        text = block(image, room, 3), said = y1541_channel_write(d, channel, text, room);
        free(text);
        return said;
    case 2:
        out = room_of(room), channel = by_chance(3) ? channel : 15, said = y1541_channel_read(d, channel, out, room, &got, &last);
        saw(got), saw(last), saw_bytes(out, room);
        free(out);
        return said;
    default: return by_chance(3) ? 0 : y1541_channel_close(d, channel);
    }
}

/* A call on a drive. */
static int32_t on_drive(y1541 *d, uint64_t *now) {
    y1541_reacted r = {7, 7, 7, 7, 7};
    y1541_pulls p = {7, 7};
    size_t n, needed = 5, room;
    uint8_t *a, *out, b[4];
    uint64_t when;
    int32_t said = 0;
    switch (by_chance(24)) {
    case 0:
        a = some_image(&n);
        b[0] = (uint8_t)by_chance(2), b[1] = (uint8_t)(by_chance(20) ? 8 : by_chance(256)), b[2] = (uint8_t)(by_chance(20) ? 1 + by_chance(60) : by_chance(256)), b[3] = (uint8_t)by_chance(3);
        /* (three calls, as a pointer to a function is nothing that a module of 32 bits can be made of) */
        switch (by_chance(3)) {
        case 0: said = y1541_open(d, a, n, b[0], b[1], b[2], b[3]); break;
        case 1: said = y1541_open_direct(d, a, n, b[0], b[1], b[2], b[3]); break;
        default: said = y1541_open_raw(d, a, n, b[0], b[1], b[2], b[3]);
        }
        *now = said ? *now : 0;
        free(a);
        return said;
    case 1: if (!by_chance(8)) y1541_close(d); return 0;
    case 2: return by_chance(20) ? 0 : y1541_reset(d);
    case 3:
        room = by_chance(2) ? len : by_chance(1000), out = room_of(room);
        said = by_chance(4) ? y1541_image(d, out, room, &needed) : y1541_eject(d, out, room, &needed);
        saw_image(out, room, needed);
        free(out);
        return said;
    case 4:
        if (by_chance(10)) return 0;
        a = some_image(&n), said = y1541_insert(d, a, n, (uint8_t)by_chance(2));
        free(a);
        return said;
    case 5:
    case 6: said = y1541_status(d), saw((uint64_t)(int64_t)said); return said > 0 && said <= 77 ? 0 : said;
    case 7: saw(y1541_writes(d)), said = y1541_pulls_now(d, &p), saw(p.clock_low), saw(p.data_low); return said;
    case 15: case 16: return on_channel(d);
    case 8: case 9: case 10: case 11: case 12: case 13: case 14: when = *now + by_chance(300), said = y1541_due(d, when, &r), saw(r.moment), saw(r.clock_low), saw(r.data_low), saw(r.clock_changed), saw(r.data_changed);
        return said;
    default:
        *now += by_chance(120);
        when = *now;
        if (!by_chance(50)) when = by_chance(1 << 24), when <<= by_chance(40);
        b[0] = by_chance(6) == 0, b[1] = (uint8_t)by_chance(2), b[2] = (uint8_t)by_chance(2);
        return y1541_lines(d, when, b[0], b[1], b[2]);
    }
}

static void saw_entry(const y1541_entry *e) {
    saw(e->blocks), saw(e->kind), saw(e->closed), saw(e->locked), saw(e->record_length), saw_bytes(e->name, 16), saw(e->track), saw(e->sector);
}

/* A call on an image. */
static int32_t on_image(void) {
    size_t n, m, needed = 0, room = by_chance(3) ? 400000 : by_chance(500);
    uint8_t *a = some_image(&n), *text = some_text(&m), *out = room_of(room), b[4];
    y1541_place place = {7, 7, 7};
    y1541_title title;
    y1541_entry entry;
    y1541_lost lost = {7, 7, 7, 7};
    y1541_said status;
    static y1541_entry entries[144];
    static y1541_flaw flaws[144];
    memset(&status, 7, sizeof status), memset(&title, 7, sizeof title), memset(&entry, 7, sizeof entry), memset(entries, 7, sizeof entries), memset(flaws, 7, sizeof flaws);
    int32_t said = 0;
    if (!out) exit(2);
    switch (by_chance(26)) {
    case 20: {
        y1541_file files[3];
        size_t put = 9, count = by_chance(4);
        for (size_t i = 0; i < count; i++) files[i].text = some_text(&files[i].n), files[i].count = by_chance(3000), files[i].bytes = block(image, files[i].count, 1);
        said = y1541_image_put_all(a, n, files, count, &put, out, room, &needed);
        saw(put);
        for (size_t i = 0; i < count; i++) free((void *)files[i].text), free((void *)files[i].bytes);
        break;
    }
    case 21: said = y1541_image_command_status(a, n, text, m, &status, out, room, &needed); break;
    case 22: b[0] = (uint8_t)by_chance(20), said = y1541_image_copy(a, n, b[0], text, m, out, room, &needed); break;
    case 23: said = y1541_image_put_away(a, n, out, room, &needed); break;
    case 24: {
        size_t count;
        uint8_t *changed = some_image(&count);
        said = y1541_image_put_back(a, n, changed, count, out, room, &needed);
        free(changed);
        break;
    }
    case 10: {
        y1541_signal host[20], *events = malloc(60 * sizeof *events);
        size_t count = 9, changes = by_chance(21), events_room = by_chance(60);
        uint64_t now = 0;
        if (!events) exit(2);
        memset(events, 0, 60 * sizeof *events);
        for (size_t i = 0; i < changes; i++) {
            now += by_chance(40) ? by_chance(900) : 0;
            host[i].moment = now, host[i].who = 0, host[i].line = (uint8_t)(by_chance(60) ? by_chance(3) : by_chance(256)), host[i].low = (uint8_t)by_chance(2);
        }
        b[0] = (uint8_t)(by_chance(20) ? 8 + by_chance(4) : by_chance(256)), b[1] = (uint8_t)(1 + by_chance(60)), b[2] = (uint8_t)by_chance(2), now += by_chance(3000);
        said = y1541_play(a, n, b[0], b[1], b[2], host, changes, now, events, events_room, &count, out, room, &needed);
        saw(count);
        for (size_t i = 0; i < 60; i++) saw(events[i].moment), saw(events[i].who), saw(events[i].line), saw(events[i].low);
        free(events);
        break;
    }
    case 0: said = y1541_image_check(a, n, &place); break;
    case 1: said = y1541_image_title(a, n, &title); break;
    case 2: said = y1541_image_entry(a, n, (uint8_t)by_chance(256), &entry); break;
    case 3: said = y1541_image_list(a, n, text, m, out, room, &needed); break;
    case 4: said = y1541_image_file(a, n, text, m, out, room, &needed); break;
    case 5: b[0] = (uint8_t)by_chance(42), b[1] = (uint8_t)by_chance(22), said = y1541_image_sector(a, n, b[0], b[1], out, room); break;
    case 6: said = y1541_image_put(a, n, text, m, image, by_chance(3000), out, room, &needed); break;
    case 7: said = y1541_image_command(a, n, text, m, out, room, &needed); break;
    case 8: b[0] = (uint8_t)by_chance(4), b[1] = (uint8_t)by_chance(256), b[2] = (uint8_t)by_chance(256), said = y1541_image_new(b[0], text, m, b[1], b[2], out, room, &needed); break;
    case 9: said = y1541_image_entries(a, n, entries, by_chance(145), &needed); break;
    case 11: said = y1541_image_flaws(a, n, flaws, by_chance(145), &needed); break;
    case 12: said = y1541_image_read(a, n, (uint8_t)by_chance(20), out, room, &needed); break;
    case 13: said = y1541_image_rename(a, n, (uint8_t)by_chance(20), text, m, out, room, &needed); break;
    case 14: b[0] = (uint8_t)by_chance(20), b[1] = (uint8_t)by_chance(2), said = y1541_image_lock(a, n, b[0], b[1], out, room, &needed); break;
    case 15: said = y1541_image_delete(a, n, (uint8_t)by_chance(20), out, room, &needed); break;
    case 16: b[0] = (uint8_t)by_chance(20), b[1] = (uint8_t)by_chance(6), said = y1541_image_undelete(a, n, b[0], b[1], out, room, &needed); break;
    case 17: b[0] = (uint8_t)by_chance(20), b[1] = (uint8_t)by_chance(20), said = y1541_image_swap(a, n, b[0], b[1], out, room, &needed); break;
    case 18: said = y1541_image_retitle(a, n, text, m, out, room, &needed); break;
    case 19: said = y1541_image_remark(a, n, text, m, out, room, &needed); break;
    default: said = y1541_image_convert(a, n, &lost, out, room, &needed); break;
    }
    for (size_t i = 0; i < 144; i++) {
        saw_entry(&entries[i]);
        saw(flaws[i].what), saw(flaws[i].track), saw(flaws[i].sector), saw(flaws[i].whose), saw(flaws[i].slot), saw(flaws[i].before);
    }
    saw_image(out, room, needed), saw(place.what), saw(place.track), saw(place.sector);
    saw(title.free), saw_bytes(title.title, 16), saw_bytes(title.mark, 5);
    saw_entry(&entry);
    saw(lost.unreadable), saw(lost.tracks), saw(lost.errors), saw(lost.id);
    saw(status.number), saw(status.first), saw(status.second), saw_bytes(status.line, sizeof status.line);
    free(a), free(text), free(out);
    return said;
}

int main(int argc, char **argv) {
    if (argc < 3) return fprintf(stderr, "answers IMAGE CALLS [SEED]\n"), 2;
    y1541 d[HANDLES] = {{0}};
    uint64_t now[HANDLES] = {0};
    y1541_lost lost;
    image = read_file(argv[1], &len), g64 = malloc(400000);
    expect(y1541_image_convert(image, len, &lost, g64, 400000, &g64_len) == Y1541_OK, "a G64");
    long count = atol(argv[2]);
    if (argc > 3) seed = (uint32_t)atol(argv[3]);
    for (long i = 0; i < count && !wrong; i++) {
        uint32_t which = by_chance(HANDLES);
        int32_t said = by_chance(12) ? on_drive(&d[which], &now[which]) : on_image();
        saw(which), saw((uint64_t)(int64_t)said), saw(y1541_next_due(&d[which])), saw(d[which].at != NULL);
        if ((i + 1) % 5000 == 0 || i + 1 == count) printf("%ld: %08lx%08lx\n", i + 1, (unsigned long)(sum >> 32), (unsigned long)(sum & 0xffffffffu));
        if (!known(said)) printf("%d\n", said), expect(0, "a number that is none");
    }
    for (int i = 0; i < HANDLES; i++) y1541_close(&d[i]);
    free(image), free(g64);
    printf("answers: %ld calls, %d wrong\n", count, wrong);
    return wrong != 0;
}
