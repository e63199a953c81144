/* Plays the operations of a data file (tools/lib/suite/code.py lists them). */
#include <cbm.h>
#include <string.h>
#include "player.h"
#include "operations.h"
#include "suite.h"

#define DATA 0x60
#define OPEN_TO 0xf0
#define COMMANDS 15
#define BUFFER 2
#define TIMED_OUT 0x02
#define HAS_EOI 0x40
#define IS_SHARED 0x80

unsigned char results[MOST_CASES];
struct difference differences[MOST_DIFFERENCES];
unsigned char difference_count;
unsigned char data[DATA_SIZE];

/* The case that is played. */
static struct difference found;
static unsigned char result, class_of_case, request;
/* The disk that is in the drive, as a number of this file, and none. */
#define NO_DISK 255
static unsigned char disk;
static unsigned char has_buffer;

static void play(void);

static const unsigned char *of_table(unsigned int at) {
    return data + (data[at] | data[at + 1] << 8);
}

/* Keeps a difference, if it is the first. */
static void differ(unsigned char kind, unsigned int byte, unsigned char wanted, unsigned char came) {
    if (result >= kind) return;
    result = kind;
    found.request = request;
    found.byte = byte;
    found.wanted = wanted;
    found.came = came;
}

/* Compares what a channel sends with the text at `place`. Returns the KERNAL's status. */
static unsigned char compare_text(unsigned int *count) {
    unsigned char status = 0, came;
    begin_text();
    while (next_value()) {
        came = 0;
        if (!(status & (TIMED_OUT | HAS_EOI))) {
            came = take();
            status = cbm_k_readst();
        } else {
            status |= TIMED_OUT;
        }
        ++*count;
        if (status & TIMED_OUT || came != value) differ(DIFFERENT, *count, value, came);
    }
    return status;
}

static void get(void) {
    unsigned char channel = *place++, has_end = *place++, status;
    unsigned int count = 0;
    talk(channel);
    status = compare_text(&count);
    if (has_end != (status & HAS_EOI ? 1 : 0)) differ(DIFFERENT, count + 1, has_end, status);
    cbm_k_untlk();
}

static void get_beginning(void) {
    unsigned char channel = *place++, status;
    unsigned int most = take_word(), count = 0;
    talk(channel);
    status = compare_text(&count);
    while (!status && count < most) {
        take();
        status = cbm_k_readst();
        ++count;
    }
    cbm_k_untlk();
}

static void get_nothing(void) {
    unsigned char came;
    talk(*place++);
    came = take();
    if (!(cbm_k_readst() & TIMED_OUT)) differ(DIFFERENT, 1, 0, came);
    cbm_k_untlk();
}

static const char *past_comma(const char *text) {
    while (*text && *text != ',') ++text;
    return *text ? text + 1 : text;
}

/* Compares two texts up to the next comma, or the end. */
static char expected[sizeof line];
static void compare_part(unsigned char kind, const char *wanted, const char *came) {
    while (*wanted == *came && *wanted && *wanted != ',') {
        ++wanted;
        ++came;
    }
    if (*wanted != *came) differ(kind, wanted - expected + 1, *wanted, *came);
}

/* Compares a status. Its words, the second of four parts, can differ in a drive that isn't wrong. */
static void status(void) {
    const char *wanted = expected, *came = (const char *)line;
    unsigned char part, count = 0;
    begin_text();
    while (next_value()) expected[count++] = value;
    expected[count] = 0;
    take_line(COMMANDS);
    for (part = 0; part < 4; ++part) {
        compare_part(part == 1 ? WORDS : DIFFERENT, wanted, came);
        wanted = past_comma(wanted);
        came = past_comma(came);
    }
}

static void open_buffer(void) {
    if (has_buffer) return;
    has_buffer = 1;
    send_string(OPEN_TO | BUFFER, "#");
}

static void close_buffer(void) {
    if (!has_buffer) return;
    has_buffer = 0;
    close_channel(BUFFER);
    take_line(COMMANDS);
}

/* The number of a byte in the buffer is the next one. */
static void go_to(unsigned char position) {
    char text[12], digits[5];
    digits[4] = 0;
    strcpy(text, "b-p 2 ");
    strcat(text, write_number(digits + 4, position));
    send_string(DATA | COMMANDS, text);
}

/* Writes the buffer to a sector; a drive that can't shows another status than 00. */
static void write_sector(unsigned char track, unsigned char sector) {
    send_command("u2", BUFFER, 0, track, sector);
    take_line(COMMANDS);
    if (line[0] != '0') differ(DIFFERENT, 0, '0', line[0]);
}

static void zeros(void) {
    static unsigned char bytes[256];
    unsigned char track = *place++, sector = *place++, at;
    memset(bytes, 0, sizeof bytes);
    while (*place++) {
        at = *place++;
        begin_text();
        while (next_value()) bytes[at++] = value;
    }
    open_buffer();
    go_to(0);
    send_bytes(DATA | BUFFER, bytes, sizeof bytes);
    write_sector(track, sector);
}

static void patch(void) {
    unsigned char track = *place++, sector = *place++;
    open_buffer();
    send_command("u1", BUFFER, 0, track, sector);
    while (*place++) {
        go_to(*place++);
        send_text(DATA | BUFFER);
    }
    write_sector(track, sector);
}

static void sector_is(void) {
    unsigned char track = *place++, sector = *place++;
    unsigned int count = 0;
    open_buffer();
    send_command("u1", BUFFER, 0, track, sector);
    go_to(*place++);
    talk(BUFFER);
    begin_text();
    while (next_value()) {
        unsigned char came = take();
        ++count;
        if (came != value) differ(DIFFERENT, count, value, came);
    }
    cbm_k_untlk();
}

/* A line of the directory in `line`: its number, a space, its text with single spaces. Returns 0 at the end. */
static unsigned int blocks;
static unsigned char next_line(void) {
    char digits[6];
    unsigned char count, byte;
    take();
    if (!take() || cbm_k_readst()) return 0;
    blocks = take();
    blocks |= take() << 8;
    digits[5] = 0;
    strcpy((char *)line, write_number(digits + 5, blocks));
    count = strlen((char *)line);
    line[count++] = ' ';
    while ((byte = take()) && !cbm_k_readst()) {
        if (byte == ' ' && line[count - 1] == ' ') continue;
        if (count < sizeof line - 2) line[count++] = byte;
    }
    if (line[count - 1] == ' ') --count;
    line[count++] = '\n';
    line[count] = 0;
    return 1;
}

static void open_directory(void) {
    send_string(OPEN_TO, "$");
    talk(0);
    take();
    take();
    next_line();
}

static void close_directory(void) {
    cbm_k_untlk();
    close_channel(0);
    take_line(COMMANDS);
}

static void directory(void) {
    unsigned int count = 0;
    const unsigned char *came = line;
    open_directory();
    *line = 0;
    begin_text();
    while (next_value()) {
        if (!*came) {
            if (!next_line()) *line = 0;
            came = line;
        }
        ++count;
        if (*came != value) differ(DIFFERENT, count, value, *came);
        if (*came) ++came;
    }
    if (next_line()) differ(DIFFERENT, count + 1, 0, *line);
    close_directory();
}

static void free_blocks(void) {
    unsigned int wanted = take_word();
    open_directory();
    blocks = 0;
    while (next_line()) { }
    close_directory();
    if (blocks != wanted) differ(DIFFERENT, 1, wanted & 255, blocks & 255);
}

/* The disk as a long NEW leaves it. */
static void format(void) {
    send_string(DATA | COMMANDS, "n0:test,ab");
    take_line(COMMANDS);
}

static void new_disk(void) {
    send_string(DATA | COMMANDS, "n0:test");
    take_line(COMMANDS);
}

static void prepare(void) {
    unsigned char number = *place++;
    const unsigned char *after = place;
    unsigned char last = request;
    if (disk == number) return;
    request = 0;
    calm();
    place = of_table(4 + 2 * data[0] + 2 * number);
    while (*place != END_OF_DISK) play();
    close_buffer();
    calm();
    disk = number;
    request = last;
    place = after;
}

/* Asks for an image, which has a disk that no drive can make. */
static void insert(void) {
    close_buffer();
    disk = NO_DISK;
    say("\n  image ");
    say_text();
    wait_for_return(": put it in");
    calm();
}

static void begin_case(void) {
    class_of_case = *place++;
    result = SAME;
    request = 0;
    say_number(found.number);
    say(" ");
    say_text();
}

static void show_difference(void) {
    say(result == WORDS ? "  other words" : class_of_case == 'm' ? "  wrong" : "  different");
    say(": request ");
    say_number(found.request);
    say(" byte ");
    say_number(found.byte);
    say(" wanted ");
    say_number(found.wanted);
    say(" came ");
    say_number(found.came);
    say("\n");
}

static void end_case(void) {
    close_buffer();
    say("\n");
    results[found.number] = result;
    if (result == SAME) return;
    show_difference();
    if (difference_count < MOST_DIFFERENCES) differences[difference_count++] = found;
}

/* Operations that are no requests. Returns 0 if it is another. */
static unsigned char play_step(unsigned char op) {
    switch (op) {
    case PREPARE: prepare(); break;
    case CHANGED: disk = NO_DISK; break;
    case NEW: close_buffer(); new_disk(); break;
    case FORMAT: close_buffer(); format(); break;
    case CALM: close_buffer(); calm(); break;
    case RESTART: close_buffer(); restart(); break;
    case IMAGE: insert(); break;
    case ZEROS: zeros(); break;
    case PATCH: patch(); break;
    default: return 0;
    }
    return 1;
}

static void play_request(unsigned char op) {
    ++request;
    switch (op) {
    case SECTOR: sector_is(); return;
    case STATUS: status(); return;
    }
    close_buffer();
    switch (op) {
    case OPEN: op = *place++; send_text(OPEN_TO | op); break;
    case PUT: op = *place++; send_text(DATA | op); break;
    case GET: get(); break;
    case GET_BEGINNING: get_beginning(); break;
    case GET_NOTHING: get_nothing(); break;
    case CLOSE: close_channel(*place++); break;
    case DIRECTORY: directory(); break;
    case FREE: free_blocks(); break;
    }
}

/* Plays one operation. */
static void play(void) {
    unsigned char op = *place++;
    if (op & IS_SHARED) {
        const unsigned char *after = place;
        place = of_table(4 + 2 * (op & ~IS_SHARED));
        play();
        place = after;
        return;
    }
    if (!play_step(op)) play_request(op);
}

/* Plays the cases of the data file that is in memory, from one number to another. Returns 0 if the user stopped it. */
unsigned char play_file(unsigned int first, unsigned int last) {
    const unsigned char *end;
    disk = NO_DISK;
    place = of_table(2);
    while (*place++ == CASE) {
        end = data + take_word();
        found.number = take_word();
        if (found.number >= first && found.number <= last) {
            begin_case();
            while (*place != END_OF_CASE) play();
            end_case();
        }
        place = end;
        if (is_stopped()) return 0;
    }
    return 1;
}
