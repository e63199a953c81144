/* Memory is refused at the first request, then at the second, and so on: refusing IMAGE. Each call answers Y1541_NO_MEMORY, nothing has changed, and
 * nothing is lost. It gives the library's three functions itself, in place of heap.c. */
#include "files.h"
#include <yellowadze1541.h>

enum { ROOM = 1 << 20, DRIVES = 3 }; /* DRIVES: the last calls of the table are those on a drive that is open */

struct tried { uint64_t ok; void *at; };
static long requests, refuse, live;

static struct tried asked(void *was, size_t size, size_t align) {
    if (++requests == refuse) return (struct tried){0, (void *)align};
    live += was == NULL;
    void *at = realloc(was, size ? size : align);
    if (!at) exit(2);
    return (struct tried){1, at};
}

struct tried rattle_alloc(size_t size, size_t align) { return asked(NULL, size, align); }

struct tried rattle_realloc(void *at, size_t kept, size_t size, size_t align) {
    (void)kept;
    return asked(at, size, align);
}

void rattle_dealloc(void *at) { live--, free(at); }

static uint8_t *image, out[ROOM];
static size_t len, needed;
static y1541 d;

/* What a call said that switches a drive on, which is closed again. */
static int32_t after_open(int32_t said) {
    expect((said == Y1541_OK) == (d.at != NULL), "open says whether there is a drive");
    y1541_close(&d);
    return said;
}

static int32_t opens(void) { return after_open(y1541_open(&d, image, len, 0, 8, 20, 0)); }
static int32_t opens_direct(void) { return after_open(y1541_open_direct(&d, image, len, 0, 8, 20, 0)); }
static int32_t opens_raw(void) { return after_open(y1541_open_raw(&d, image, len, 0, 8, 20, 0)); }

/* Memory is given while the drive is looked at. */
static int is_whole(void) {
    static uint8_t now[ROOM];
    size_t size = 0;
    long was = requests, then = refuse;
    refuse = 0;
    int is = y1541_status(&d) == 73 && y1541_image(&d, now, ROOM, &size) == Y1541_OK && size == len && !memcmp(now, image, len);
    requests = was, refuse = then;
    return is;
}

static int32_t shows(void) {
    int32_t said = y1541_image(&d, out, ROOM, &needed);
    expect(is_whole(), "the drive goes on with its disk");
    return said;
}

/* The disk is taken out and, where it came, put in again. */
static int32_t ejects(void) {
    int32_t said = y1541_eject(&d, out, ROOM, &needed);
    long was = requests, then = refuse;
    refuse = 0;
    if (said == Y1541_OK) expect(y1541_insert(&d, image, len, 0) == Y1541_OK, "the disk again");
    requests = was, refuse = then;
    expect(is_whole(), "the disk stays where it doesn't come out");
    return said;
}

static int32_t inserts(void) {
    int32_t said = y1541_insert(&d, image, len, 0);
    expect(is_whole(), "a disk is in the drive");
    return said;
}

static int32_t checks(void) { y1541_place p; return y1541_image_check(image, len, &p); }
static int32_t titles(void) { y1541_title t; return y1541_image_title(image, len, &t); }
static int32_t enters(void) { y1541_entry e; return y1541_image_entry(image, len, 0, &e); }
static int32_t lists(void) { return y1541_image_list(image, len, (const uint8_t *)"", 0, out, ROOM, &needed); }
static int32_t files(void) { return y1541_image_file(image, len, (const uint8_t *)"HELLO", 5, out, ROOM, &needed); }
static int32_t reads(void) { return y1541_image_sector(image, len, 18, 0, out, ROOM); }
static int32_t puts_file(void) { return y1541_image_put(image, len, (const uint8_t *)"N,P,W", 5, image, 3000, out, ROOM, &needed); }
static int32_t commands(void) { return y1541_image_command(image, len, (const uint8_t *)"R0:N=HELLO", 10, out, ROOM, &needed); }
static int32_t puts_all(void) {
    const y1541_file files[2] = {{(const uint8_t *)"N,P,W", 5, image, 3000}, {(const uint8_t *)"M,P,W", 5, image, 10}};
    size_t put;
    return y1541_image_put_all(image, len, files, 2, &put, out, ROOM, &needed);
}
static int32_t commands_status(void) { y1541_said said; return y1541_image_command_status(image, len, (const uint8_t *)"R0:N=HELLO", 10, &said, out, ROOM, &needed); }
static int32_t makes(void) { return y1541_image_new(0, (const uint8_t *)"T", 1, 1, 2, out, ROOM, &needed); }
static int32_t makes_g64(void) { return y1541_image_new(2, (const uint8_t *)"T", 1, 1, 2, out, ROOM, &needed); }
static int32_t converts(void) { y1541_lost l; return y1541_image_convert(image, len, &l, out, ROOM, &needed); }

static int32_t enters_all(void) { static y1541_entry e[144]; return y1541_image_entries(image, len, e, 144, &needed); }
static int32_t flaws_all(void) { static y1541_flaw f[10]; return y1541_image_flaws(image, len, f, 10, &needed); }
static int32_t reads_slot(void) { return y1541_image_read(image, len, 0, out, ROOM, &needed); }
static int32_t renames(void) { return y1541_image_rename(image, len, 0, (const uint8_t *)"*", 1, out, ROOM, &needed); }
static int32_t copies(void) { return y1541_image_copy(image, len, 0, (const uint8_t *)"*", 1, out, ROOM, &needed); }
static int32_t locks(void) { return y1541_image_lock(image, len, 0, 1, out, ROOM, &needed); }
static int32_t deletes(void) { return y1541_image_delete(image, len, 0, out, ROOM, &needed); }
static int32_t swaps(void) { return y1541_image_swap(image, len, 0, 1, out, ROOM, &needed); }
static int32_t retitles(void) { return y1541_image_retitle(image, len, (const uint8_t *)"T", 1, out, ROOM, &needed); }
static int32_t remarks(void) { return y1541_image_remark(image, len, (const uint8_t *)"ID 2A", 5, out, ROOM, &needed); }

/* The disk with a line of art that leads to 18/0 in slot 1, and what is left of that. */
static const uint8_t *with(const char *entry) {
    static uint8_t its[2][ROOM];
    uint8_t *it = its[(uint8_t)entry[0] == 0x82];
    memcpy(it, image, len), memcpy(it + 91648 + 34, entry, 19);
    return it;
}
static const uint8_t *art(void) { return with("\x82\x12\0----------------"); }
static const uint8_t *left(void) { return with("\xc0\0\0----------------"); }
static int32_t puts_away(void) { return y1541_image_put_away(art(), len, out, ROOM, &needed); }
static int32_t puts_back(void) { return y1541_image_put_back(art(), len, left(), len, out, ROOM, &needed); }
static int32_t puts_around(void) { return y1541_image_put(art(), len, (const uint8_t *)"N,P,W", 5, image, 3000, out, ROOM, &needed); }
static int32_t commands_around(void) { return y1541_image_command(art(), len, (const uint8_t *)"R0:N=HELLO", 10, out, ROOM, &needed); }

static int32_t plays(void) {
    static const y1541_signal host[] = {{1000, 0, Y1541_ATN, 1}, {3000, 0, Y1541_ATN, 0}};
    static y1541_signal events[100];
    size_t count;
    return y1541_play(image, len, 8, 20, 0, host, 2, 5000, events, 100, &count, out, ROOM, &needed);
}

static const struct { const char *name; int32_t (*call)(void); } calls[] = {
    {"open", opens}, {"open_direct", opens_direct}, {"open_raw", opens_raw}, {"check", checks}, {"title", titles}, {"entry", enters}, {"list", lists}, {"file", files}, {"sector", reads},
    {"entries", enters_all}, {"flaws", flaws_all}, {"read", reads_slot}, {"rename", renames}, {"copy", copies}, {"lock", locks}, {"delete", deletes}, {"swap", swaps},
    {"retitle", retitles}, {"remark", remarks}, {"put_away", puts_away}, {"put_back", puts_back}, {"put, art", puts_around}, {"command, art", commands_around}, {"put", puts_file}, {"put_all", puts_all}, {"command", commands}, {"command_status", commands_status},
    {"new", makes}, {"new g64", makes_g64}, {"convert", converts}, {"play", plays},
    {"image", shows}, {"eject", ejects}, {"insert", inserts},
};

/* How many requests a call makes, each of them refused in turn. */
static void tries(size_t i, long held) {
    for (refuse = 1;; refuse++) {
        requests = 0, needed = 77;
        int32_t said = calls[i].call();
        if (live != held) expect(0, "memory is lost");
        if (requests < refuse) {
            expect(said == Y1541_OK, calls[i].name);
            printf("%s: %ld requests\n", calls[i].name, refuse - 1);
            return;
        }
        expect(said == Y1541_NO_MEMORY && needed == 77, calls[i].name);
    }
}

int main(int argc, char **argv) {
    if (argc < 2) return fprintf(stderr, "refusing IMAGE\n"), 2;
    image = read_file(argv[1], &len);
    size_t count = sizeof calls / sizeof calls[0];
    for (size_t i = 0; i < count - DRIVES; i++) tries(i, 0);
    for (int direct = 0; direct < 2; direct++) {
        refuse = 0;
        expect((direct ? y1541_open_direct : y1541_open)(&d, image, len, 0, 8, 20, 0) == Y1541_OK, "open");
        long held = live;
        for (size_t i = count - DRIVES; i < count; i++) tries(i, held);
        refuse = 0;
        expect(y1541_status(&d) == 73 && y1541_lines(&d, 10, 1, 0, 0) == Y1541_OK && y1541_next_due(&d) == 30, "the drive goes on");
        y1541_close(&d);
    }
    expect(live == 0, "nothing is left");
    free(image);
    printf("refusing: %d wrong\n", wrong);
    return wrong != 0;
}
