/* An emulator's IEC bus with drives: three lines, each low if anyone pulls it. Up to four drives and a host. */
#ifndef BUS_H
#define BUS_H

#include <yellowadze1541.h>

enum { DRIVES = 4 };

typedef struct bus {
    y1541 drive[DRIVES]; /* all zero: none */
    y1541_pulls pulls[DRIVES];
    uint8_t atn, clock, data; /* the lines that the host pulls */
    uint8_t device[DRIVES];   /* the drives' numbers */
    /* If not NULL, it gets each change of a line that the host or a drive makes: who is 0 for the host, or the drive's number; a y1541_line; whether it is low. */
    void (*seen)(void *with, uint64_t moment, uint8_t who, uint8_t line, uint8_t low);
    void *with;
} bus;

/* A party's line, if it has changed. */
static inline void bus_note(bus *b, uint64_t now, uint8_t who, uint8_t line, uint8_t before, uint8_t low) {
#ifndef BUS_UNSEEN /* where no function can be called by a pointer */
    if (b->seen && !before != !low) b->seen(b->with, now, who, line, low != 0);
#endif
}

/* Passes a drive the lines that all others pull. */
static inline void bus_tell(bus *b, int to, uint64_t now) {
    uint8_t clock = b->clock, data = b->data;
    for (int i = 0; i < DRIVES; i++)
        if (i != to && b->drive[i].at) clock |= b->pulls[i].clock_low, data |= b->pulls[i].data_low;
    y1541_lines(&b->drive[to], now, b->atn, clock, data);
}

/* The same for all drives but one. */
static inline void bus_tell_all(bus *b, int but, uint64_t now) {
    for (int i = 0; i < DRIVES; i++)
        if (i != but && b->drive[i].at) bus_tell(b, i, now);
}

/* The drive that reacts first before a moment; of several at once the first one. -1: none does. */
static inline int bus_first(bus *b, uint64_t before, uint64_t *due) {
    int first = -1;
    for (int i = 0; i < DRIVES; i++) {
        uint64_t t = b->drive[i].at ? y1541_next_due(&b->drive[i]) : Y1541_NEVER;
        if (t < before) before = *due = t, first = i;
    }
    return first;
}

/* All reactions before a moment, in their order: to be called before each access of the port, and at the end of a frame. */
static inline void bus_run_to(bus *b, uint64_t now) {
    uint64_t due = 0;
    for (int i; (i = bus_first(b, now, &due)) >= 0;) {
        y1541_reacted r;
        if (y1541_due(&b->drive[i], due, &r) != Y1541_OK) return;
        bus_note(b, due, b->device[i], Y1541_CLOCK, b->pulls[i].clock_low, r.clock_low);
        bus_note(b, due, b->device[i], Y1541_DATA, b->pulls[i].data_low, r.data_low);
        b->pulls[i].clock_low = r.clock_low, b->pulls[i].data_low = r.data_low;
        if (r.clock_changed | r.data_changed) bus_tell_all(b, i, due);
    }
}

/* The host's port is written; the host comes before what drives do at the same moment. */
static inline void bus_write(bus *b, uint64_t now, uint8_t atn, uint8_t clock, uint8_t data) {
    bus_run_to(b, now);
    if (b->atn == atn && b->clock == clock && b->data == data) return;
    bus_note(b, now, 0, Y1541_ATN, b->atn, atn);
    bus_note(b, now, 0, Y1541_CLOCK, b->clock, clock);
    bus_note(b, now, 0, Y1541_DATA, b->data, data);
    b->atn = atn, b->clock = clock, b->data = data;
    bus_tell_all(b, -1, now);
}

/* The host's port is read: the wires just before. */
static inline void bus_read(bus *b, uint64_t now, uint8_t *clock, uint8_t *data) {
    bus_run_to(b, now);
    *clock = b->clock, *data = b->data;
    for (int i = 0; i < DRIVES; i++)
        if (b->drive[i].at) *clock |= b->pulls[i].clock_low, *data |= b->pulls[i].data_low;
}

/* A drive was switched off and on by y1541_reset: its lines are free, and it gets those of all others. */
static inline void bus_switched(bus *b, int i, uint64_t now) {
    bus_run_to(b, now);
    bus_note(b, now, b->device[i], Y1541_CLOCK, b->pulls[i].clock_low, 0);
    bus_note(b, now, b->device[i], Y1541_DATA, b->pulls[i].data_low, 0);
    b->pulls[i].clock_low = b->pulls[i].data_low = 0;
    bus_tell_all(b, -1, now);
}

/* A drive of this number was switched on by y1541_open, if this is Y1541_OK: it gets the lines of all others. */
static inline int32_t bus_opened(bus *b, int i, int32_t said, uint8_t device, uint64_t now) {
    if (said == Y1541_OK) {
        b->device[i] = device;
        b->pulls[i].clock_low = b->pulls[i].data_low = 0;
        bus_tell(b, i, now);
    }
    return said;
}

/* A drive is switched on at the bus. */
static inline int32_t bus_open(bus *b, int i, const uint8_t *image, size_t len, uint8_t device, uint8_t reaction, uint8_t pace, uint64_t now) {
    return bus_opened(b, i, y1541_open(&b->drive[i], image, len, 0, device, reaction, pace), device, now);
}

/* The same, with direct access. */
static inline int32_t bus_open_direct(bus *b, int i, const uint8_t *image, size_t len, uint8_t device, uint8_t reaction, uint8_t pace, uint64_t now) {
    return bus_opened(b, i, y1541_open_direct(&b->drive[i], image, len, 0, device, reaction, pace), device, now);
}

/* The same, with raw direct access. */
static inline int32_t bus_open_raw(bus *b, int i, const uint8_t *image, size_t len, uint8_t device, uint8_t reaction, uint8_t pace, uint64_t now) {
    return bus_opened(b, i, y1541_open_raw(&b->drive[i], image, len, 0, device, reaction, pace), device, now);
}

#endif
