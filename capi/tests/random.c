/* Calls by chance, with arguments good and bad: random IMAGE CALLS [SEED]. Each gets its bytes in a block of just their size, so that the sanitizers see
 * what goes beyond. Nothing is asked of the answers but that they are known numbers. */
#include "files.h"
#include <yellowadze1541.h>

enum { HANDLES = 3 };

static uint32_t seed = 1;
static uint8_t *image, *g64;
static size_t len, g64_len;

static uint32_t by_chance(uint32_t below) {
    seed = seed * 1664525u + 1013904223u;
    return (uint32_t)((uint64_t)(seed >> 8) * below >> 24);
}

/* A block with these bytes, some of which may be others. */
static uint8_t *block(const uint8_t *bytes, size_t n, uint32_t changes) {
    uint8_t *at = malloc(n ? n : 1);
    if (!at) exit(2);
    if (n) memcpy(at, bytes, n);
    while (n && changes--) at[by_chance((uint32_t)n)] = (uint8_t)by_chance(256);
    return at;
}

static uint8_t *some_image(size_t *n) {
    int is_g64 = by_chance(4) == 0;
    *n = is_g64 ? g64_len : len;
    if (by_chance(8) == 0) *n = by_chance((uint32_t)*n);
    return block(is_g64 ? g64 : image, *n, by_chance(3) ? 0 : by_chance(40));
}

static uint8_t *some_text(size_t *n) {
    static const char *texts[] = {"", "*", "HELLO", "$", "S0:H*", "R0:A=HELLO", "C0:B=HELLO", "N0:NEW,ID", "V0", "A,P,W", "@0:HELLO,P,W", "X,S,A", "R,L,\x20", "I", "U9", "P\x02\x01\x01\x01"};
    const char *text = texts[by_chance(sizeof texts / sizeof texts[0])];
    *n = strlen(text);
    return block((const uint8_t *)text, *n, by_chance(4) ? 0 : 2);
}

static int known(int32_t said) { return (said >= Y1541_NO_DRIVE && said <= 0) || (said >= 20 && said <= 77); }

/* A drive switched on, its numbers mostly in range. (Three calls, as a pointer to a function is nothing that a module of 32 bits can be made of.) */
static int32_t opened(y1541 *d, const uint8_t *image, size_t n) {
    uint8_t is_protected = (uint8_t)by_chance(2), number = (uint8_t)(by_chance(20) ? 8 : by_chance(256)), pace = (uint8_t)by_chance(3);
    uint8_t reaction = (uint8_t)(by_chance(20) ? 1 + by_chance(60) : by_chance(256));
    switch (by_chance(3)) {
    case 0: return y1541_open(d, image, n, is_protected, number, reaction, pace);
    case 1: return y1541_open_direct(d, image, n, is_protected, number, reaction, pace);
    default: return y1541_open_raw(d, image, n, is_protected, number, reaction, pace);
    }
}

/* A call on a channel of a drive; a file is read or written over and over. */
static int32_t on_channel(y1541 *d) {
    uint8_t channel = (uint8_t)(by_chance(20) ? by_chance(3) : by_chance(256)), last = 0, *text, *out;
    size_t n, got = 0, room = by_chance(600);
    int32_t said;
    switch (by_chance(4)) {
    case 0:
        text = some_text(&n), said = y1541_channel_open(d, by_chance(3) ? channel : 15, text, n);
        free(text);
        return said;
    case 1:
        text = block(image, room, 3), said = y1541_channel_write(d, channel, text, room);
        free(text);
        return said;
    case 2:
        out = malloc(room ? room : 1), said = y1541_channel_read(d, by_chance(3) ? channel : 15, out, room, &got, &last);
        free(out);
        return got > room || last > 1 ? 1 : said;
    default: return by_chance(3) ? 0 : y1541_channel_close(d, channel);
    }
}

/* A call on a drive. */
static int32_t on_drive(y1541 *d, uint64_t *now) {
    y1541_reacted r;
    y1541_pulls p;
    size_t n, needed, room;
    uint8_t *a, *out;
    int32_t said = 0;
    switch (by_chance(24)) {
    case 0:
        a = some_image(&n);
        said = opened(d, a, n);
        *now = said ? *now : 0;
        free(a);
        return said;
    case 1: if (!by_chance(8)) y1541_close(d); return 0;
    case 2: return by_chance(20) ? 0 : y1541_reset(d);
    case 3:
        room = by_chance(2) ? len : by_chance(1000), out = block(image, 0, 0), out = realloc(out, room ? room : 1);
        said = by_chance(4) ? y1541_image(d, out, room, &needed) : y1541_eject(d, out, room, &needed);
        free(out);
        return said;
    case 4:
        if (by_chance(10)) return 0;
        a = some_image(&n), said = y1541_insert(d, a, n, (uint8_t)by_chance(2));
        free(a);
        return said;
    case 5:
        out = NULL, room = 400000, needed = 0;
        if (by_chance(4) || !(out = malloc(room))) return 0;
        said = y1541_save(d, out, room, &needed);
        if (!said && by_chance(2)) {
            if (by_chance(3)) out[by_chance(needed)] ^= (uint8_t)(1 + by_chance(255));
            a = block(out, needed, 0);
            said = y1541_restore(d, a, needed);
            free(a);
        }
        free(out);
        return said;
    case 6: said = y1541_status(d); return said > 0 && said <= 77 ? 0 : said;
    case 7: return y1541_writes(d) < Y1541_NEVER ? y1541_pulls_now(d, &p) : 1;
    case 15: case 16: return on_channel(d);
    case 8: case 9: case 10: case 11: case 12: case 13: case 14: return y1541_due(d, *now + by_chance(300), &r);
    default:
        *now += by_chance(120);
        return y1541_lines(d, by_chance(50) ? *now : (uint64_t)by_chance(1 << 24) << by_chance(40), (uint8_t)(by_chance(6) == 0), (uint8_t)by_chance(2), (uint8_t)by_chance(2));
    }
}

/* A call on an image. */
static int32_t on_image(void) {
    size_t n, m, needed = 0, room = by_chance(3) ? 400000 : by_chance(500);
    uint8_t *a = some_image(&n), *text = some_text(&m), *out = malloc(room ? room : 1);
    y1541_place place;
    y1541_title title;
    y1541_entry entry, entries[144];
    y1541_flaw flaws[144];
    y1541_lost lost;
    y1541_said status;
    int32_t said = 0;
    if (!out) exit(2);
    switch (by_chance(25)) {
    case 19: {
        y1541_file files[3];
        size_t put, count = by_chance(4);
        for (size_t i = 0; i < count; i++) files[i].text = some_text(&files[i].n), files[i].count = by_chance(3000), files[i].bytes = block(image, files[i].count, 1);
        said = y1541_image_put_all(a, n, files, count, &put, out, room, &needed);
        for (size_t i = 0; i < count; i++) free((void *)files[i].text), free((void *)files[i].bytes);
        break;
    }
    case 20: said = y1541_image_command_status(a, n, text, m, &status, out, room, &needed); break;
    case 21: said = y1541_image_copy(a, n, (uint8_t)by_chance(20), text, m, out, room, &needed); break;
    case 22: said = y1541_image_put_away(a, n, out, room, &needed); break;
    case 23: {
        size_t count;
        uint8_t *changed = some_image(&count);
        said = y1541_image_put_back(a, n, changed, count, out, room, &needed);
        free(changed);
        break;
    }
    case 0: said = y1541_image_check(a, n, &place); break;
    case 1: said = y1541_image_title(a, n, &title); break;
    case 2: said = y1541_image_entry(a, n, (uint8_t)by_chance(256), &entry); break;
    case 3: said = y1541_image_list(a, n, text, m, out, room, &needed); break;
    case 4: said = y1541_image_file(a, n, text, m, out, room, &needed); break;
    case 5: said = y1541_image_sector(a, n, (uint8_t)by_chance(42), (uint8_t)by_chance(22), out, room); break;
    case 6: said = y1541_image_put(a, n, text, m, image, by_chance(3000), out, room, &needed); break;
    case 7: said = y1541_image_command(a, n, text, m, out, room, &needed); break;
    case 8: said = y1541_image_new((uint8_t)by_chance(4), text, m, (uint8_t)by_chance(256), (uint8_t)by_chance(256), out, room, &needed); break;
    case 9: said = y1541_image_entries(a, n, entries, by_chance(145), &needed); break;
    case 10: said = y1541_image_flaws(a, n, flaws, by_chance(145), &needed); break;
    case 11: said = y1541_image_read(a, n, (uint8_t)by_chance(20), out, room, &needed); break;
    case 12: said = y1541_image_rename(a, n, (uint8_t)by_chance(20), text, m, out, room, &needed); break;
    case 13: said = y1541_image_lock(a, n, (uint8_t)by_chance(20), (uint8_t)by_chance(2), out, room, &needed); break;
    case 14: said = y1541_image_delete(a, n, (uint8_t)by_chance(20), out, room, &needed); break;
    case 15: said = y1541_image_undelete(a, n, (uint8_t)by_chance(20), (uint8_t)by_chance(6), out, room, &needed); break;
    case 16: said = y1541_image_swap(a, n, (uint8_t)by_chance(20), (uint8_t)by_chance(20), out, room, &needed); break;
    case 17: said = y1541_image_retitle(a, n, text, m, out, room, &needed); break;
    case 18: said = y1541_image_remark(a, n, text, m, out, room, &needed); break;
    default: said = y1541_image_convert(a, n, &lost, out, room, &needed); break;
    }
    free(a), free(text), free(out);
    return said;
}

int main(int argc, char **argv) {
    if (argc < 3) return fprintf(stderr, "random IMAGE CALLS [SEED]\n"), 2;
    y1541 d[HANDLES] = {{0}};
    uint64_t now[HANDLES] = {0};
    y1541_lost lost;
    image = read_file(argv[1], &len), g64 = malloc(400000);
    expect(y1541_image_convert(image, len, &lost, g64, 400000, &g64_len) == Y1541_OK, "a G64");
    long count = atol(argv[2]);
    if (argc > 3) seed = (uint32_t)atol(argv[3]);
    for (long i = 0; i < count && !wrong; i++) {
        uint32_t which = by_chance(HANDLES);
        int32_t said = by_chance(200) ? on_drive(&d[which], &now[which]) : on_image();
        if (!known(said)) printf("%d\n", said), expect(0, "a number that is none");
    }
    for (int i = 0; i < HANDLES; i++) y1541_close(&d[i]);
    free(image), free(g64);
    printf("random: %ld calls, %d wrong\n", count, wrong);
    return wrong != 0;
}
