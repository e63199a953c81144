/* The KERNAL of a C64 or a VIC-20 as a host on the bus, store by store and look by look, in cycles. Its moments are a model: counted from
 * memory of the ROM's listing, and not measured at a computer. crates/kernal_tests has the same host. */
#ifndef KERNAL_H
#define KERNAL_H

#include "bus.h"
#include <stdlib.h>
#include <string.h>

typedef enum { PAL, DARK_PAL, NTSC, DARK_NTSC, VIC } computer; /* dark: with its screen off */
typedef enum { ATN, CLOCK, DATA } line;
enum { KERNAL_TIMEOUT = 3, KERNAL_READ_TIMEOUT = 2, KERNAL_EOI = 0x40, KERNAL_ABSENT = 0x80 };

typedef struct kernal {
    bus *bus;
    computer computer;
    uint64_t passed, bad_line, lines; /* cycles; the next bad line, and from one to the next */
    uint32_t seed;
    uint32_t timer_low; /* the low byte of the timer, which the KERNAL doesn't set */
    uint8_t status;
    int buffered; /* the byte that waits until it is known whether it is the last; -1: none */
    int stuck;    /* it waits in vain, for ever */
} kernal;

static const uint64_t hertz[] = {985248, 985248, 1022727, 1022727, 1108405};

static inline uint64_t chance(kernal *k) {
    k->seed = k->seed * 1664525u + 1013904223u;
    return k->seed >> 24;
}

/* Cycles pass, and those that a bad line steals among them. */
static inline void pass(kernal *k, uint64_t cycles) {
    k->passed += cycles;
    while (k->lines && k->passed >= k->bad_line) {
        k->passed += 40 + chance(k) % 4;
        k->bad_line += k->lines;
    }
}

static inline uint64_t moment(const kernal *k) { return (k->passed * 1000000 + hertz[k->computer] / 2) / hertz[k->computer]; }

/* A store to the port: a line is pulled or freed. */
static inline void store(kernal *k, uint64_t cycles, line which, int low) {
    pass(k, cycles);
    if (k->stuck) return;
    bus *b = k->bus;
    bus_write(b, moment(k), which == ATN ? low : b->atn, which == CLOCK ? low : b->clock, which == DATA ? low : b->data);
}

typedef struct seen { uint8_t clock, data; } seen;

static inline seen look(kernal *k, uint64_t cycles) {
    seen s;
    pass(k, cycles);
    bus_read(k->bus, moment(k), &s.clock, &s.data);
    return s;
}

/* LDA and CMP of the port, until both see the same. */
static inline seen look_twice(kernal *k, uint64_t cycles) {
    seen s = look(k, cycles);
    for (int i = 0; i < 8000; i++) {
        seen again = look(k, 4);
        if (again.clock == s.clock && again.data == s.data) break;
        s = look(k, 7);
    }
    return s;
}

/* Looks until a line is low, or free; so many cycles to the first look, and from one to the next. */
static inline seen await(kernal *k, uint64_t cycles, line which, int low, uint64_t again) {
    seen s = look_twice(k, cycles);
    for (int i = 0; i < 8000; i++) {
        if ((which == CLOCK ? s.clock : s.data) == low || k->stuck) return s;
        s = look_twice(k, again);
    }
    k->stuck = 1;
    return s;
}

static inline uint64_t timer_end(const kernal *k, uint64_t high) { return k->passed + (high | k->timer_low); }

/* Whether a line is low before a timer ends. */
static inline int low_before(kernal *k, uint64_t cycles, uint64_t end, line which) {
    pass(k, cycles);
    for (int i = 0; i < 8000 && k->passed < end; i++) {
        seen s = look_twice(k, 14);
        if (which == CLOCK ? s.clock : s.data) return 1;
        pass(k, 17);
    }
    return 0;
}

/* What a program does between two calls. */
static inline void works(kernal *k) {
    pass(k, 12);
    uint64_t by = chance(k);
    if (by >= 240) pass(k, 1000);
    else if (by >= 64) pass(k, chance(k));
}

/* As it is switched on: IOINIT pulls CLOCK, and leaves it so. */
static inline void kernal_init(kernal *k, bus *b, computer which, uint32_t seed) {
    memset(k, 0, sizeof *k);
    k->bus = b, k->computer = which, k->buffered = -1;
    k->seed = seed * 2654435761u;
    k->lines = which == PAL ? 504 : which == NTSC ? 520 : 0;
    k->bad_line = k->lines ? chance(k) * 2 : 0;
    k->timer_low = seed / 2 % 2 ? 0xff : 0;
    store(k, 1000, CLOCK, 1);
    pass(k, 1000);
}

static inline void release(kernal *k, uint64_t cycles) {
    store(k, cycles, ATN, 0);
    store(k, 77, CLOCK, 0);
    store(k, 19, DATA, 0);
}

static inline void fail(kernal *k, int status) {
    if (k->stuck) return;
    k->status |= status;
    release(k, 60);
}

/* ISOUR: a byte out. */
static inline void send(kernal *k, uint64_t cycles, uint8_t byte, int last) {
    store(k, cycles, DATA, 0);
    if (!look_twice(k, 16).data) {
        fail(k, KERNAL_ABSENT);
        return;
    }
    store(k, 28, CLOCK, 0);
    await(k, last ? 21 : 22, DATA, 0, 23);
    if (last) await(k, 22, DATA, 1, 23), await(k, 22, DATA, 0, 23);
    store(k, 28, CLOCK, 1);
    int to_look = 15;
    for (int i = 0; i < 8; i++, to_look = 12) {
        if (look_twice(k, to_look).data) {
            fail(k, KERNAL_TIMEOUT);
            return;
        }
        int one = byte >> i & 1;
        store(k, one ? 30 : 29, DATA, !one);
        store(k, one ? 22 : 25, CLOCK, 0);
        store(k, 26, CLOCK, 1);
        store(k, 0, DATA, 0);
    }
    pass(k, 19);
    if (!low_before(k, 8, timer_end(k, 0x400), DATA)) fail(k, KERNAL_TIMEOUT);
}

static inline void attention(kernal *k, uint64_t cycles, uint8_t byte) {
    store(k, cycles, CLOCK, 1);
    store(k, 22, DATA, 0);
    send(k, 961, byte, 0);
}

static inline void list1(kernal *k, uint64_t cycles, uint8_t byte) {
    store(k, cycles, DATA, 0);
    store(k, 21, ATN, 1);
    attention(k, 18, byte);
}

static inline void kernal_listen(kernal *k, uint8_t device) { works(k), list1(k, 62, 0x20 | device); }

static inline void kernal_talk(kernal *k, uint8_t device) { works(k), list1(k, 62, 0x40 | device); }

static inline void kernal_second(kernal *k, uint8_t byte) {
    works(k);
    attention(k, 41, byte);
    store(k, 30, ATN, 0);
}

static inline void kernal_tksa(kernal *k, uint8_t byte) {
    works(k);
    attention(k, 41, byte);
    store(k, 38, DATA, 1);
    store(k, 22, ATN, 0);
    store(k, 22, CLOCK, 0);
    await(k, 16, CLOCK, 1, 23);
}

static inline void kernal_ciout(kernal *k, uint8_t byte) {
    works(k);
    if (k->buffered >= 0) send(k, 53, (uint8_t)k->buffered, 0);
    k->buffered = byte;
}

static inline void kernal_unlisten(kernal *k) {
    works(k);
    if (k->buffered >= 0) {
        uint8_t byte = (uint8_t)k->buffered;
        k->buffered = -1;
        send(k, 67, byte, 1);
        list1(k, 55, 0x3f);
    } else {
        list1(k, 42, 0x3f);
    }
    release(k, 36);
}

static inline void kernal_untalk(kernal *k) {
    works(k);
    store(k, 31, CLOCK, 1);
    store(k, 16, ATN, 1);
    list1(k, 46, 0x5f);
    release(k, 36);
}

static inline int begun_in_time(kernal *k, uint64_t cycles) {
    pass(k, cycles);
    uint64_t end = timer_end(k, 0x100);
    store(k, 16, DATA, 0);
    return low_before(k, 14, end, CLOCK);
}

/* ACPTR: a byte in. */
static inline uint8_t kernal_acptr(kernal *k) {
    works(k);
    store(k, 37, CLOCK, 0);
    await(k, 16, CLOCK, 0, 23);
    if (!begun_in_time(k, 24)) {
        store(k, 27, DATA, 1);
        store(k, 22, CLOCK, 0);
        k->status |= KERNAL_EOI;
        if (!begun_in_time(k, 46)) {
            fail(k, KERNAL_READ_TIMEOUT);
            return 0;
        }
    }
    uint8_t byte = 0;
    int to_look = 24;
    for (int i = 0; i < 8; i++, to_look = 18) {
        byte = (uint8_t)(byte >> 1 | (await(k, to_look, CLOCK, 0, 11).data ? 0 : 0x80));
        await(k, 15, CLOCK, 1, 11);
    }
    store(k, 29, DATA, 1);
    if (k->status & KERNAL_EOI) {
        store(k, 88, CLOCK, 0);
        store(k, 19, DATA, 0);
    }
    return byte;
}

/* --- what a program has it do; each answers whether all went well */

static inline int tells(kernal *k, uint8_t device, uint8_t secondary, const uint8_t *bytes, size_t count) {
    k->status = 0;
    kernal_listen(k, device);
    kernal_second(k, secondary);
    if (k->status & KERNAL_ABSENT) return 0;
    for (size_t i = 0; i < count && !k->stuck; i++) kernal_ciout(k, bytes[i]);
    kernal_unlisten(k);
    return !k->stuck && !k->status;
}

/* OPEN with a name, PRINT#, CLOSE. */
static inline int kernal_open(kernal *k, uint8_t device, uint8_t channel, const char *name) { return tells(k, device, 0xf0 | channel, (const uint8_t *)name, strlen(name)); }

static inline int kernal_print(kernal *k, uint8_t device, uint8_t channel, const uint8_t *bytes, size_t count) { return tells(k, device, 0x60 | channel, bytes, count); }

static inline int kernal_close(kernal *k, uint8_t device, uint8_t channel) { return tells(k, device, 0xe0 | channel, (const uint8_t *)"", 0); }

/* INPUT# up to the channel's last byte; how many came, or -1. */
static inline long kernal_input(kernal *k, uint8_t device, uint8_t channel, uint8_t *out, size_t room) {
    k->status = 0;
    kernal_talk(k, device);
    kernal_tksa(k, 0x60 | channel);
    if (k->stuck || k->status) return -1;
    size_t count = 0;
    do {
        uint8_t byte = kernal_acptr(k);
        if (k->stuck || k->status & ~KERNAL_EOI) return -1;
        if (count < room) out[count] = byte;
        count++;
    } while (!(k->status & KERNAL_EOI) && count < room);
    kernal_untalk(k);
    return k->stuck ? -1 : (long)count;
}

/* LOAD: how many bytes came, or -1. */
static inline long kernal_load(kernal *k, uint8_t device, const char *name, uint8_t *out, size_t room) {
    if (!kernal_open(k, device, 0, name)) return -1;
    long count = kernal_input(k, device, 0, out, room);
    return count < 0 || !kernal_close(k, device, 0) ? -1 : count;
}

static inline int kernal_save(kernal *k, uint8_t device, const char *name, const uint8_t *bytes, size_t count) {
    return kernal_open(k, device, 1, name) && kernal_print(k, device, 1, bytes, count) && kernal_close(k, device, 1);
}

#endif
