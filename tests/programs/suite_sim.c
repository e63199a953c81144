/* suite_sim PRG KEYS NUMBER:COMMAND..: a 6502 with RAM, and the KERNAL's calls that a program for a C64 or a VIC-20 makes, without a ROM.
 *
 * It runs PRG until it returns to BASIC, and prints what the program shows. Each COMMAND, run by a shell, is a drive with this device number: it reads lines
 * of a script and prints the answers, as `drive1541 IMAGE - --pace kernal` does. KEYS are the keys that are typed: | is RETURN, and ~ changes the disks: each
 * number with several drives then has its next one. The 6502 has no decimal mode, no interrupts and no undocumented opcodes. Serial calls become lines:
 * LISTEN to UNLSN is `open`, `put`, `fill` or `close`, each ACPTR is a `get` of one byte.
 * It ends with 0 if the program returned; 1 if it ran too long, waited for a key that isn't there, or called anything else.
 */
#include <signal.h>
#include <stdio.h>
#include <stdlib.h>
#include <string.h>
#include <sys/wait.h>
#include <unistd.h>

typedef unsigned char byte;
typedef unsigned short word;

#define MOST_DRIVES 400
#define LONGEST_LINE 1000
#define LIMIT 40000000000ULL
/* Where the program returns to. */
#define RETURNED 0xffff
#define KERNAL 0xff81
/* The KERNAL's status. */
#define TIMED_OUT 0x42
#define HAS_EOI 0x40
#define ABSENT 0x80
#define FILE_NOT_FOUND 4
/* How far the clock goes on each time the program looks. */
#define JIFFIES 60

static byte memory[65536];
static byte a, x, y, stack = 0xfd;
static word pc;
static int carry, zero, overflow, negative;

static void fail(const char *why) {
    fflush(stdout);
    fprintf(stderr, "suite_sim: %s (at %04x)\n", why, pc);
    exit(1);
}

/* --- drives */

struct drive {
    int number, is_in;
    const char *command;
    FILE *to, *from;
    pid_t process;
};
static struct drive drives[MOST_DRIVES];
static int drive_count;

static void add_drive(char *text) {
    struct drive *it = drives + drive_count;
    char *command = strchr(text, ':');
    int n;
    if (!command || drive_count == MOST_DRIVES) fail("NUMBER:COMMAND is a drive");
    it->number = atoi(text);
    it->command = command + 1;
    it->is_in = 1;
    for (n = 0; n < drive_count; ++n) it->is_in &= drives[n].number != it->number;
    ++drive_count;
}

/* Starts a drive when it is used first. */
static void start_drive(struct drive *it) {
    int to[2], from[2], n;
    if (pipe(to) || pipe(from)) fail("no pipe");
    it->process = fork();
    if (it->process == 0) {
        dup2(to[0], 0);
        dup2(from[1], 1);
        for (n = 3; n < 1024; ++n) close(n);
        execl("/bin/sh", "sh", "-c", it->command, (char *)0);
        _exit(127);
    }
    close(to[0]);
    close(from[1]);
    it->to = fdopen(to[1], "w");
    it->from = fdopen(from[0], "r");
}

static struct drive *drive_of(int number) {
    int n = 0;
    while (n < drive_count && (drives[n].number != number || !drives[n].is_in)) ++n;
    if (n == drive_count) return 0;
    if (!drives[n].to) start_drive(drives + n);
    return drives + n;
}

/* The next drive of the same number, around. */
static int next_of(int n) {
    int k = n;
    do k = (k + 1) % drive_count; while (drives[k].number != drives[n].number);
    return k;
}

/* Each number with several drives has its next one. */
static void change_disks(void) {
    int n, was_in[MOST_DRIVES];
    for (n = 0; n < drive_count; ++n) was_in[n] = drives[n].is_in;
    for (n = 0; n < drive_count; ++n) drives[next_of(n)].is_in = was_in[n];
}

static void end_drives(void) {
    int n;
    for (n = 0; n < drive_count; ++n) {
        if (!drives[n].to) continue;
        fclose(drives[n].to);
        fclose(drives[n].from);
        waitpid(drives[n].process, 0, 0);
    }
}

/* --- the serial bus, as lines of a script */

static struct drive *partner;
static int second, status;
static byte sent[65536 * 4];
static unsigned sent_count;

static int all_equal(void) {
    unsigned n;
    for (n = 1; n < sent_count; ++n) if (sent[n] != sent[0]) return 0;
    return sent_count > 0;
}

static void print_bytes(FILE *to) {
    unsigned n;
    for (n = 0; n < sent_count; ++n) {
        if (sent[n] >= 32 && sent[n] < 127 && sent[n] != '\\') fputc(sent[n], to);
        else fprintf(to, "\\%02x", sent[n]);
    }
}

static void unlisten(void) {
    FILE *to;
    int channel = second & 15;
    if (!partner || second < 0) return;
    to = partner->to;
    if (second >= 0xf0) {
        fprintf(to, sent_count ? "open %d " : "open %d", channel);
        print_bytes(to);
    } else if (second >= 0xe0) {
        fprintf(to, "close %d", channel);
    } else if (all_equal()) {
        fprintf(to, "fill %d %u %02x", channel, sent_count, sent[0]);
    } else {
        fprintf(to, sent_count ? "put %d " : "put %d", channel);
        print_bytes(to);
    }
    fputc('\n', to);
    sent_count = 0;
    second = -1;
}

static void call_partner(int number) {
    partner = drive_of(number & 31);
    status = partner ? 0 : ABSENT;
    sent_count = 0;
    second = -1;
}

static void read_answer(struct drive *it, char *line, int size) {
    fflush(it->to);
    if (!fgets(line, size, it->from)) fail("a drive has ended");
}

/* Bytes that were taken ahead, of a channel that sends many. A script has a limit of lines. */
#define ONE_BY_ONE 300
#define AHEAD 200
static byte ahead[AHEAD];
static int ahead_count, ahead_at, ahead_end, taken;

static int hex_digit(char it) {
    return it <= '9' ? it - '0' : it - 'a' + 10;
}

/* Asks for some bytes. Returns 0 if none come. */
static int take_ahead(int count) {
    char line[2 * AHEAD + 64], *at = line;
    fprintf(partner->to, "get %d %d\n", second & 15, count);
    read_answer(partner, line, sizeof line);
    at = strchr(strchr(line, ' ') + 1, ' ') + 1;
    if (*at == 'n') return 0;
    for (ahead_at = ahead_count = 0; *at > ' '; at += 2) ahead[ahead_count++] = hex_digit(at[0]) << 4 | hex_digit(at[1]);
    ahead_end = *at == ' ';
    return 1;
}

/* ACPTR. */
static byte take(void) {
    if (!partner) {
        status = ABSENT;
        return 0;
    }
    if (ahead_at == ahead_count && !take_ahead(++taken > ONE_BY_ONE ? AHEAD : 1)) {
        status |= TIMED_OUT;
        return 13;
    }
    if (ahead_at + 1 == ahead_count && ahead_end) status |= HAS_EOI;
    return ahead[ahead_at++];
}

/* UNTALK: bytes that were taken ahead would be lost. */
static void untalk(void) {
    if (ahead_at != ahead_count) fail("a long transfer ends before the drive's last byte");
    taken = 0;
}

/* --- files: LOAD only */

static int load_device;
static byte name[256];
static int name_length;

static void load(void) {
    static char line[400000];
    struct drive *it = drive_of(load_device);
    word at = x | y << 8;
    char *end;
    int n;
    carry = 1;
    a = FILE_NOT_FOUND;
    if (!it) return;
    fprintf(it->to, "open 0 %.*s\nget 0 65536\nclose 0\n", name_length, name);
    read_answer(it, line, sizeof line);
    if (strstr(line, "none")) return;
    for (n = 0, end = line + strlen("get 0 "); *end > ' '; end += 2, ++n) {
        if (n >= 2) memory[at++] = hex_digit(end[0]) << 4 | hex_digit(end[1]);
    }
    carry = 0;
    x = at;
    y = at >> 8;
}

/* --- the screen and the keyboard */

static const char *keys;
static unsigned long jiffies;

static void show(byte key) {
    if (key == 13) putchar('\n');
    else if (key >= 0xc1 && key <= 0xda) putchar(key & 0x7f);
    else if (key >= 0x20 && key < 0x7f) putchar(key);
}

static byte typed(void) {
    while (*keys == '~') {
        change_disks();
        ++keys;
    }
    if (!*keys) fail("it waits for a key");
    a = *keys++;
    return a == '|' ? 13 : a;
}

/* --- the 6502 */

static void push(byte it) {
    memory[0x100 + stack--] = it;
}

static byte pull(void) {
    return memory[0x100 + ++stack];
}

static byte flags_for(byte it) {
    negative = it >> 7;
    zero = it == 0;
    return it;
}

static word word_at(word at) {
    return memory[at] | memory[(word)(at + 1)] << 8;
}

static word word_of_page(byte at) {
    return memory[at] | memory[(byte)(at + 1)] << 8;
}

static word next_word(void) {
    pc += 2;
    return word_at(pc - 2);
}

static void jump_back(void) {
    pc = pull();
    pc |= pull() << 8;
    ++pc;
}

static void call_kernal(void) {
    switch (pc) {
    case 0xffb1: call_partner(a); break;
    case 0xffb4: call_partner(a); break;
    case 0xff93: case 0xff96: second = a; break;
    case 0xffa8: if (sent_count < sizeof sent) sent[sent_count++] = a; break;
    case 0xffae: unlisten(); break;
    case 0xffa5: a = flags_for(take()); break;
    case 0xffab: untalk(); break;
    case 0xffb7: a = flags_for(status); break;
    case 0xffba: load_device = x; break;
    case 0xffbd: name_length = a; memcpy(name, memory + (x | y << 8), a); break;
    case 0xffd5: load(); return jump_back();
    case 0xffd2: show(a); break;
    case 0xffcf: a = flags_for(typed()); break;
    case 0xffe4: a = flags_for(0); break;
    case 0xffde: jiffies += JIFFIES; a = jiffies; x = jiffies >> 8; y = jiffies >> 16; break;
    case 0xff99: case 0xff9c: x = 0; y = 0xa0; break;
    case 0xff81: case 0xffcc: case 0xffe7: break;
    case 0xffed: x = 40; y = 25; break;
    default: fail("a call of the KERNAL that isn't here");
    }
    carry = 0;
    jump_back();
}

/* The place that an operand of opcodes with the low bits 01 names. */
static word place_of(int mode) {
    byte low = memory[pc];
    switch (mode) {
    case 0: ++pc; return word_of_page(low + x);
    case 1: ++pc; return low;
    case 2: return pc++;
    case 3: return next_word();
    case 4: ++pc; return word_of_page(low) + y;
    case 5: ++pc; return (byte)(low + x);
    case 6: return next_word() + y;
    default: return next_word() + x;
    }
}

static void compare(byte it, byte with) {
    carry = it >= with;
    flags_for(it - with);
}

static void add(byte it) {
    int sum = a + it + carry;
    overflow = (~(a ^ it) & (a ^ sum) & 128) != 0;
    carry = sum > 255;
    a = flags_for(sum);
}

static void arithmetic(byte op) {
    word at = place_of(op >> 2 & 7);
    switch (op >> 5) {
    case 0: a = flags_for(a | memory[at]); break;
    case 1: a = flags_for(a & memory[at]); break;
    case 2: a = flags_for(a ^ memory[at]); break;
    case 3: add(memory[at]); break;
    case 4: memory[at] = a; break;
    case 5: a = flags_for(memory[at]); break;
    case 6: compare(a, memory[at]); break;
    default: add(~memory[at]);
    }
}

static byte shifted(int kind, byte it) {
    int in = kind & 1 ? carry : 0;
    carry = kind & 2 ? it & 1 : it >> 7;
    return flags_for(kind & 2 ? it >> 1 | in << 7 : it << 1 | in);
}

/* Shifts, STX, LDX, DEC and INC in memory. */
static void in_memory(byte op) {
    int kind = op >> 5, mode = op >> 2 & 7, is_x = kind == 4 || kind == 5;
    word at = mode == 1 ? memory[pc++] : mode == 3 ? next_word() : mode == 5 ? (byte)(memory[pc++] + (is_x ? y : x)) : next_word() + (is_x ? y : x);
    switch (kind) {
    case 4: memory[at] = x; break;
    case 5: x = flags_for(memory[at]); break;
    case 6: --memory[at]; flags_for(memory[at]); break;
    case 7: ++memory[at]; flags_for(memory[at]); break;
    default: memory[at] = shifted(kind, memory[at]);
    }
}

static void branch(byte op) {
    int flags[] = {negative, overflow, carry, zero};
    signed char by = memory[pc++];
    if (flags[op >> 6] == (op >> 5 & 1)) pc += by;
}

static byte flags(void) {
    return negative << 7 | overflow << 6 | 0x30 | zero << 1 | carry;
}

static void set_flags(byte it) {
    negative = it >> 7;
    overflow = it >> 6 & 1;
    zero = it >> 1 & 1;
    carry = it & 1;
}

static void call(void) {
    word to = word_at(pc);
    push((pc + 1) >> 8);
    push(pc + 1);
    pc = to;
}

/* LDY, STY, CPY, CPX and BIT. Returns 0 if it is another. */
static int with_index(byte op) {
    switch (op) {
    case 0xa0: y = flags_for(memory[pc++]); break;
    case 0xa4: y = flags_for(memory[memory[pc++]]); break;
    case 0xac: y = flags_for(memory[next_word()]); break;
    case 0xb4: y = flags_for(memory[(byte)(memory[pc++] + x)]); break;
    case 0xbc: y = flags_for(memory[(word)(next_word() + x)]); break;
    case 0x84: memory[memory[pc++]] = y; break;
    case 0x8c: memory[next_word()] = y; break;
    case 0x94: memory[(byte)(memory[pc++] + x)] = y; break;
    case 0xc0: compare(y, memory[pc++]); break;
    case 0xc4: compare(y, memory[memory[pc++]]); break;
    case 0xcc: compare(y, memory[next_word()]); break;
    case 0xe0: compare(x, memory[pc++]); break;
    case 0xe4: compare(x, memory[memory[pc++]]); break;
    case 0xec: compare(x, memory[next_word()]); break;
    case 0xa2: x = flags_for(memory[pc++]); break;
    default: return 0;
    }
    return 1;
}

static void test_bits(byte it) {
    negative = it >> 7;
    overflow = it >> 6 & 1;
    zero = (it & a) == 0;
}

/* Opcodes of one byte, jumps and BIT. */
static void single(byte op) {
    switch (op) {
    case 0x20: call(); break;
    case 0x60: jump_back(); break;
    case 0x4c: pc = word_at(pc); break;
    case 0x6c: pc = word_at(word_at(pc)); break;
    case 0x24: test_bits(memory[memory[pc++]]); break;
    case 0x2c: test_bits(memory[next_word()]); break;
    case 0x0a: case 0x2a: case 0x4a: case 0x6a: a = shifted(op >> 5, a); break;
    case 0xaa: x = flags_for(a); break;
    case 0xa8: y = flags_for(a); break;
    case 0x8a: a = flags_for(x); break;
    case 0x98: a = flags_for(y); break;
    case 0xba: x = flags_for(stack); break;
    case 0x9a: stack = x; break;
    case 0xe8: x = flags_for(x + 1); break;
    case 0xca: x = flags_for(x - 1); break;
    case 0xc8: y = flags_for(y + 1); break;
    case 0x88: y = flags_for(y - 1); break;
    case 0x48: push(a); break;
    case 0x68: a = flags_for(pull()); break;
    case 0x08: push(flags()); break;
    case 0x28: set_flags(pull()); break;
    case 0x18: case 0x38: carry = op >> 5; break;
    case 0xb8: overflow = 0; break;
    case 0x58: case 0x78: case 0xd8: case 0xea: break;
    default: fail("an opcode that isn't here");
    }
}

static void step(void) {
    byte op = memory[pc++];
    if ((op & 31) == 16) branch(op);
    else if ((op & 3) == 1) arithmetic(op);
    else if (with_index(op)) return;
    else if ((op & 3) == 2 && op >> 2 & 1) in_memory(op);
    else if ((op & 31) == 30) in_memory(op);
    else single(op);
}

/* Loads a program, and finds the number after SYS in its line of BASIC. */
static void load_program(const char *path) {
    FILE *it = fopen(path, "rb");
    word at;
    int n;
    if (!it) fail("the program can't be read");
    at = fgetc(it);
    at |= fgetc(it) << 8;
    n = fread(memory + at, 1, 65536 - at, it);
    fclose(it);
    for (; n && memory[at] != 0x9e; --n) ++at;
    pc = atoi((char *)memory + at + 1);
}

int main(int count, char **words) {
    unsigned long long steps = 0;
    int n;
    if (count < 3) fail("suite_sim PRG KEYS NUMBER:COMMAND..");
    signal(SIGPIPE, SIG_IGN);
    load_program(words[1]);
    keys = words[2];
    for (n = 3; n < count; ++n) add_drive(words[n]);
    push((RETURNED - 1) >> 8);
    push((RETURNED - 1) & 255);
    while (pc != RETURNED) {
        if (++steps > LIMIT) fail("it runs too long");
        if (pc >= KERNAL) call_kernal();
        else step();
    }
    end_drives();
    return 0;
}
