/* The functions of yellowadze1541.h over the module. Each drive has a module of its own, and so has each call on an image while it lasts, so threads are
 * as free as the header says. Bytes and structs are copied, field by field, into the memory of the module and out of it. Nothing here is proved. */
#include "yellowadze1541.h"

typedef Z_y1541m_instance_t module;

/* A module, the place of its drive's handle, and a place for small structs. */
typedef struct machine {
    module in;
    u64 handle, small;
} machine;

#define IN(name) Z_y1541mZ_##name
/* MOST: what is first asked for an image; few have more bytes. */
enum { SMALL = 64, MOST = 300000 };

static u64 room_in(machine *m, size_t n) { return n > 0x7fffffff ? 0 : IN(room)(&m->in, n); }

static void machine_gone(machine *m) {
    Y1541_FREE(m->in.w2c_memory.data);
    Y1541_FREE(m);
}

static machine *machine_made(void) {
    machine *m = Y1541_MALLOC(sizeof *m);
    if (!m) return NULL;
    memset(m, 0, sizeof *m);
    m->in.w2c_memory.max_pages = Y1541_PAGES + 0x400;
    if (wasm_rt_grow_memory(&m->in.w2c_memory, Y1541_PAGES) == (u32)-1) { machine_gone(m); return NULL; }
    y1541_starts(&m->in);
    m->small = room_in(m, SMALL);
    m->handle = room_in(m, 8);
    if (!m->small || !m->handle) { machine_gone(m); return NULL; }
    memset(m->in.w2c_memory.data + m->handle, 0, 8);
    return m;
}

static u8 *at(machine *m, u64 place) { return m->in.w2c_memory.data + (size_t)place; }

/* The place of a copy of the caller's bytes; 0: no memory. */
static u64 given(machine *m, const uint8_t *bytes, size_t n) {
    u64 place = room_in(m, n);
    if (place && n) memcpy(at(m, place), bytes, n);
    return place;
}

static u64 number(machine *m, u64 place) { return i64_load(&m->in.w2c_memory, place); }
static void put_number(machine *m, u64 place, u64 v) { i64_store(&m->in.w2c_memory, place, v); }

static int32_t signed32(u32 v) { return v & 0x80000000u ? -(int32_t)(~v) - 1 : (int32_t)v; }

/* A call that gives bytes. It first gets room for an image, or as much as the caller has; if there are more, and the caller has room, it is made again. */
typedef u32 gives(machine *m, const u64 *args, u64 out, u64 room);

static int32_t gave(machine *m, gives *call, const u64 *args, uint8_t *out, size_t room, size_t *needed) {
    size_t own = room < MOST ? room : MOST;
    for (;;) {
        u64 place = room_in(m, own);
        if (!place) return Y1541_NO_MEMORY;
        put_number(m, m->small, (u64)*needed);
        int32_t said = signed32(call(m, args, place, own));
        u64 n = number(m, m->small);
        if (said == Y1541_NO_ROOM && n <= room && n > own) {
            IN(room_back)(&m->in, place);
            own = (size_t)n;
            continue;
        }
        *needed = (size_t)n;
        if (said == Y1541_OK && n <= own && n) memcpy(out, at(m, place), (size_t)n);
        IN(room_back)(&m->in, place);
        return said;
    }
}

uint32_t y1541_version(void) { return Y1541_VERSION; }

/* --- a drive */

/* One of the two calls that switch a drive on. */
typedef u32 opens(module *in, u64 handle, u64 image, u64 len, u32 is_protected, u32 device, u32 reaction, u32 pace);

static int32_t opened(opens *call, y1541 *d, const uint8_t *image, size_t len, uint8_t is_protected, uint8_t device, uint8_t reaction, uint8_t pace) {
    if (d->at) return Y1541_NO_DRIVE;
    machine *m = machine_made();
    if (!m) return Y1541_NO_MEMORY;
    int32_t said = Y1541_NO_MEMORY;
    u64 copy = given(m, image, len);
    if (copy) {
        said = signed32(call(&m->in, m->handle, copy, len, is_protected, device, reaction, pace));
        IN(room_back)(&m->in, copy);
    }
    if (said == Y1541_OK) d->at = m;
    else machine_gone(m);
    return said;
}

int32_t y1541_open(y1541 *d, const uint8_t *image, size_t len, uint8_t is_protected, uint8_t device, uint8_t reaction, uint8_t pace) {
    return opened(IN(y1541_open), d, image, len, is_protected, device, reaction, pace);
}

int32_t y1541_open_direct(y1541 *d, const uint8_t *image, size_t len, uint8_t is_protected, uint8_t device, uint8_t reaction, uint8_t pace) {
    return opened(IN(y1541_open_direct), d, image, len, is_protected, device, reaction, pace);
}

int32_t y1541_open_raw(y1541 *d, const uint8_t *image, size_t len, uint8_t is_protected, uint8_t device, uint8_t reaction, uint8_t pace) {
    return opened(IN(y1541_open_raw), d, image, len, is_protected, device, reaction, pace);
}

void y1541_close(y1541 *d) {
    if (d->at) machine_gone(d->at);
    d->at = NULL;
}

int32_t y1541_lines(y1541 *d, uint64_t moment, uint8_t atn_low, uint8_t clock_low, uint8_t data_low) {
    machine *m = d->at;
    return m ? signed32(IN(y1541_lines)(&m->in, m->handle, moment, atn_low, clock_low, data_low)) : Y1541_NO_DRIVE;
}

uint64_t y1541_next_due(y1541 *d) {
    machine *m = d->at;
    return m ? IN(y1541_next_due)(&m->in, m->handle) : Y1541_NEVER;
}

int32_t y1541_due(y1541 *d, uint64_t moment, y1541_reacted *reacted) {
    machine *m = d->at;
    if (!m) return Y1541_NO_DRIVE;
    int32_t said = signed32(IN(y1541_due)(&m->in, m->handle, moment, m->small));
    if (said == Y1541_OK) {
        const u8 *s = at(m, m->small) + 8;
        reacted->moment = number(m, m->small);
        reacted->clock_low = s[0], reacted->data_low = s[1], reacted->clock_changed = s[2], reacted->data_changed = s[3];
    }
    return said;
}

int32_t y1541_pulls_now(y1541 *d, y1541_pulls *pulls) {
    machine *m = d->at;
    if (!m) return Y1541_NO_DRIVE;
    int32_t said = signed32(IN(y1541_pulls_now)(&m->in, m->handle, m->small));
    if (said == Y1541_OK) pulls->clock_low = at(m, m->small)[0], pulls->data_low = at(m, m->small)[1];
    return said;
}

int32_t y1541_reset(y1541 *d) {
    machine *m = d->at;
    return m ? signed32(IN(y1541_reset)(&m->in, m->handle)) : Y1541_NO_DRIVE;
}

static u32 call_image(machine *m, const u64 *a, u64 out, u64 room) {
    (void)a;
    return IN(y1541_image)(&m->in, m->handle, out, room, m->small);
}
static u32 call_eject(machine *m, const u64 *a, u64 out, u64 room) {
    (void)a;
    return IN(y1541_eject)(&m->in, m->handle, out, room, m->small);
}

int32_t y1541_image(y1541 *d, uint8_t *out, size_t room, size_t *needed) {
    return d->at ? gave(d->at, call_image, NULL, out, room, needed) : Y1541_NO_DRIVE;
}

uint64_t y1541_writes(y1541 *d) {
    machine *m = d->at;
    return m ? IN(y1541_writes)(&m->in, m->handle) : 0;
}

int32_t y1541_eject(y1541 *d, uint8_t *out, size_t room, size_t *needed) {
    return d->at ? gave(d->at, call_eject, NULL, out, room, needed) : Y1541_NO_DRIVE;
}

static u32 call_save(machine *m, const u64 *a, u64 out, u64 room) {
    (void)a;
    return IN(y1541_save)(&m->in, m->handle, out, room, m->small);
}

int32_t y1541_save(y1541 *d, uint8_t *out, size_t room, size_t *needed) {
    return d->at ? gave(d->at, call_save, NULL, out, room, needed) : Y1541_NO_DRIVE;
}

/* A drive is restored in a module of its own; what the handle held goes only if that succeeds. */
int32_t y1541_restore(y1541 *d, const uint8_t *bytes, size_t len) {
    machine *m = machine_made();
    if (!m) return Y1541_NO_MEMORY;
    int32_t said = Y1541_NO_MEMORY;
    u64 copy = given(m, bytes, len);
    if (copy) {
        said = signed32(IN(y1541_restore)(&m->in, m->handle, copy, len));
        IN(room_back)(&m->in, copy);
    }
    if (said != Y1541_OK) { machine_gone(m); return said; }
    y1541_close(d);
    d->at = m;
    return said;
}

int32_t y1541_insert(y1541 *d, const uint8_t *image, size_t len, uint8_t is_protected) {
    machine *m = d->at;
    if (!m) return Y1541_NO_DRIVE;
    u64 copy = given(m, image, len);
    if (!copy) return Y1541_NO_MEMORY;
    int32_t said = signed32(IN(y1541_insert)(&m->in, m->handle, copy, len, is_protected));
    IN(room_back)(&m->in, copy);
    return said;
}

int32_t y1541_status(y1541 *d) {
    machine *m = d->at;
    return m ? signed32(IN(y1541_status)(&m->in, m->handle)) : Y1541_NO_DRIVE;
}

/* --- the drive's DOS without its wires */

static u32 tells(machine *m, int is_open, u64 channel, u64 bytes, u64 n) {
    return is_open ? IN(y1541_channel_open)(&m->in, m->handle, (u32)channel, bytes, n) : IN(y1541_channel_write)(&m->in, m->handle, (u32)channel, bytes, n);
}

static int32_t sent(y1541 *d, int is_open, uint8_t channel, const uint8_t *bytes, size_t n) {
    machine *m = d->at;
    if (!m) return Y1541_NO_DRIVE;
    u64 copy = given(m, bytes, n);
    if (!copy) return Y1541_NO_MEMORY;
    int32_t said = signed32(tells(m, is_open, channel, copy, n));
    IN(room_back)(&m->in, copy);
    return said;
}

int32_t y1541_channel_open(y1541 *d, uint8_t channel, const uint8_t *text, size_t n) { return sent(d, 1, channel, text, n); }

int32_t y1541_channel_write(y1541 *d, uint8_t channel, const uint8_t *bytes, size_t n) { return sent(d, 0, channel, bytes, n); }

int32_t y1541_channel_read(y1541 *d, uint8_t channel, uint8_t *out, size_t room, size_t *got, uint8_t *last) {
    machine *m = d->at;
    if (!m) return Y1541_NO_DRIVE;
    u64 place = room_in(m, room);
    if (!place) return Y1541_NO_MEMORY;
    int32_t said = signed32(IN(y1541_channel_read)(&m->in, m->handle, channel, place, room, m->small, m->small + 8));
    if (said == Y1541_OK) {
        *got = (size_t)number(m, m->small), *last = at(m, m->small)[8];
        if (*got) memcpy(out, at(m, place), *got);
    }
    IN(room_back)(&m->in, place);
    return said;
}

int32_t y1541_channel_close(y1541 *d, uint8_t channel) {
    machine *m = d->at;
    return m ? signed32(IN(y1541_channel_close)(&m->in, m->handle, channel)) : Y1541_NO_DRIVE;
}

/* --- images: each call begins with a module and a copy of the image, and ends with machine_gone */

#define WITH_IMAGE \
    machine *m = machine_made(); \
    u64 copy = m ? given(m, image, len) : 0; \
    int32_t said = Y1541_NO_MEMORY; \
    if (!copy) { if (m) machine_gone(m); return Y1541_NO_MEMORY; }

int32_t y1541_image_check(const uint8_t *image, size_t len, y1541_place *first) {
    WITH_IMAGE
    u8 *s = at(m, m->small);
    s[0] = first->what, s[1] = first->track, s[2] = first->sector;
    said = signed32(IN(y1541_image_check)(&m->in, copy, len, m->small));
    s = at(m, m->small);
    first->what = s[0], first->track = s[1], first->sector = s[2];
    machine_gone(m);
    return said;
}

int32_t y1541_image_title(const uint8_t *image, size_t len, y1541_title *title) {
    WITH_IMAGE
    said = signed32(IN(y1541_image_title)(&m->in, copy, len, m->small));
    if (said == Y1541_OK) {
        const u8 *s = at(m, m->small);
        title->free = (uint16_t)(s[0] | s[1] << 8);
        memcpy(title->title, s + 2, 16), memcpy(title->mark, s + 18, 5);
    }
    machine_gone(m);
    return said;
}

static void entry_from(const u8 *s, y1541_entry *entry) {
    entry->blocks = (uint16_t)(s[0] | s[1] << 8);
    entry->kind = s[2], entry->closed = s[3], entry->locked = s[4], entry->record_length = s[5];
    memcpy(entry->name, s + 6, 16);
    entry->track = s[22], entry->sector = s[23];
}

int32_t y1541_image_entry(const uint8_t *image, size_t len, uint8_t slot, y1541_entry *entry) {
    WITH_IMAGE
    said = signed32(IN(y1541_image_entry)(&m->in, copy, len, slot, m->small));
    if (said == Y1541_OK) entry_from(at(m, m->small), entry);
    machine_gone(m);
    return said;
}

/* A call that gives structs: as many as the caller has room for, by their size in the module. No image has more than MOST_STRUCTS of them. */
enum { ENTRY = 24, FLAW = 8, MOST_STRUCTS = 65536 };
typedef u32 gives_structs(machine *m, u64 image, u64 len, u64 out, u64 room);

static u32 call_entries(machine *m, u64 image, u64 len, u64 out, u64 room) { return IN(y1541_image_entries)(&m->in, image, len, out, room, m->small); }
static u32 call_flaws(machine *m, u64 image, u64 len, u64 out, u64 room) { return IN(y1541_image_flaws)(&m->in, image, len, out, room, m->small); }

/* The structs' place, or 0: there is no memory, or none were given. */
static u64 structs_given(machine *m, gives_structs *call, u64 copy, size_t len, size_t size, size_t room, size_t *count, int32_t *said) {
    size_t own = room < MOST_STRUCTS ? room : MOST_STRUCTS;
    u64 place = room_in(m, own * size);
    if (!place) return 0;
    put_number(m, m->small, (u64)*count);
    *said = signed32(call(m, copy, len, place, own));
    *count = (size_t)number(m, m->small);
    return *said >= Y1541_OK ? place : 0;
}

int32_t y1541_image_entries(const uint8_t *image, size_t len, y1541_entry *entries, size_t room, size_t *count) {
    WITH_IMAGE
    u64 place = structs_given(m, call_entries, copy, len, ENTRY, room, count, &said);
    for (size_t i = 0; place && i < *count; i++) entry_from(at(m, place) + i * ENTRY, entries + i);
    machine_gone(m);
    return said;
}

int32_t y1541_image_flaws(const uint8_t *image, size_t len, y1541_flaw *flaws, size_t room, size_t *count) {
    WITH_IMAGE
    u64 place = structs_given(m, call_flaws, copy, len, FLAW, room, count, &said);
    for (size_t i = 0; place && i < *count; i++) {
        const u8 *s = at(m, place) + i * FLAW;
        flaws[i].what = s[0], flaws[i].track = s[1], flaws[i].sector = s[2], flaws[i].whose = s[3];
        flaws[i].slot = (uint16_t)(s[4] | s[5] << 8), flaws[i].before = (uint16_t)(s[6] | s[7] << 8);
    }
    machine_gone(m);
    return said;
}

static u32 call_list(machine *m, const u64 *a, u64 out, u64 room) {
    return IN(y1541_image_list)(&m->in, a[0], a[1], a[2], a[3], out, room, m->small);
}
static u32 call_file(machine *m, const u64 *a, u64 out, u64 room) {
    return IN(y1541_image_file)(&m->in, a[0], a[1], a[2], a[3], out, room, m->small);
}
static u32 call_command(machine *m, const u64 *a, u64 out, u64 room) {
    return IN(y1541_image_command)(&m->in, a[0], a[1], a[2], a[3], out, room, m->small);
}
static u32 call_put_all(machine *m, const u64 *a, u64 out, u64 room) {
    return IN(y1541_image_put_all)(&m->in, a[0], a[1], a[2], a[3], m->small + 8, out, room, m->small);
}
static u32 call_command_status(machine *m, const u64 *a, u64 out, u64 room) {
    return IN(y1541_image_command_status)(&m->in, a[0], a[1], a[2], a[3], m->small + 8, out, room, m->small);
}
static u32 call_put(machine *m, const u64 *a, u64 out, u64 room) {
    return IN(y1541_image_put)(&m->in, a[0], a[1], a[2], a[3], a[4], a[5], out, room, m->small);
}
static u32 call_new(machine *m, const u64 *a, u64 out, u64 room) {
    return IN(y1541_image_new)(&m->in, (u32)a[0], a[1], a[2], (u32)a[3], (u32)a[4], out, room, m->small);
}
static u32 call_convert(machine *m, const u64 *a, u64 out, u64 room) {
    return IN(y1541_image_convert)(&m->in, a[0], a[1], m->small + 8, out, room, m->small);
}

static u32 call_read(machine *m, const u64 *a, u64 out, u64 room) {
    return IN(y1541_image_read)(&m->in, a[0], a[1], (u32)a[2], out, room, m->small);
}
static u32 call_rename(machine *m, const u64 *a, u64 out, u64 room) {
    return IN(y1541_image_rename)(&m->in, a[0], a[1], (u32)a[2], a[3], a[4], out, room, m->small);
}
static u32 call_copy(machine *m, const u64 *a, u64 out, u64 room) {
    return IN(y1541_image_copy)(&m->in, a[0], a[1], (u32)a[2], a[3], a[4], out, room, m->small);
}
static u32 call_lock(machine *m, const u64 *a, u64 out, u64 room) {
    return IN(y1541_image_lock)(&m->in, a[0], a[1], (u32)a[2], (u32)a[3], out, room, m->small);
}
static u32 call_delete(machine *m, const u64 *a, u64 out, u64 room) {
    return IN(y1541_image_delete)(&m->in, a[0], a[1], (u32)a[2], out, room, m->small);
}
static u32 call_undelete(machine *m, const u64 *a, u64 out, u64 room) {
    return IN(y1541_image_undelete)(&m->in, a[0], a[1], (u32)a[2], (u32)a[3], out, room, m->small);
}
static u32 call_swap(machine *m, const u64 *a, u64 out, u64 room) {
    return IN(y1541_image_swap)(&m->in, a[0], a[1], (u32)a[2], (u32)a[3], out, room, m->small);
}
static u32 call_retitle(machine *m, const u64 *a, u64 out, u64 room) {
    return IN(y1541_image_retitle)(&m->in, a[0], a[1], a[2], a[3], out, room, m->small);
}
static u32 call_remark(machine *m, const u64 *a, u64 out, u64 room) {
    return IN(y1541_image_remark)(&m->in, a[0], a[1], a[2], a[3], out, room, m->small);
}
static u32 call_put_away(machine *m, const u64 *a, u64 out, u64 room) {
    return IN(y1541_image_put_away)(&m->in, a[0], a[1], out, room, m->small);
}
static u32 call_put_back(machine *m, const u64 *a, u64 out, u64 room) {
    return IN(y1541_image_put_back)(&m->in, a[0], a[1], a[2], a[3], out, room, m->small);
}

/* A call on a slot, and a number or nothing more. */
static int32_t with_slot(gives *call, const uint8_t *image, size_t len, uint8_t slot, uint8_t more, uint8_t *out, size_t room, size_t *needed) {
    WITH_IMAGE
    u64 args[4];
    args[0] = copy, args[1] = len, args[2] = slot, args[3] = more;
    said = gave(m, call, args, out, room, needed);
    machine_gone(m);
    return said;
}

static int32_t with_text(gives *call, const uint8_t *image, size_t len, const uint8_t *text, size_t n, const uint8_t *bytes, size_t count, uint8_t *out, size_t room, size_t *needed) {
    WITH_IMAGE
    u64 args[6];
    args[0] = copy, args[1] = len, args[2] = given(m, text, n), args[3] = n, args[4] = bytes ? given(m, bytes, count) : 1, args[5] = count;
    if (args[2] && args[4]) said = gave(m, call, args, out, room, needed);
    machine_gone(m);
    return said;
}

int32_t y1541_image_list(const uint8_t *image, size_t len, const uint8_t *pattern, size_t n, uint8_t *out, size_t room, size_t *needed) {
    return with_text(call_list, image, len, pattern, n, NULL, 0, out, room, needed);
}

int32_t y1541_image_file(const uint8_t *image, size_t len, const uint8_t *pattern, size_t n, uint8_t *out, size_t room, size_t *needed) {
    return with_text(call_file, image, len, pattern, n, NULL, 0, out, room, needed);
}

int32_t y1541_image_sector(const uint8_t *image, size_t len, uint8_t track, uint8_t sector, uint8_t *out, size_t room) {
    WITH_IMAGE
    u64 place = room_in(m, 256);
    if (place) said = signed32(IN(y1541_image_sector)(&m->in, copy, len, track, sector, place, room < 256 ? room : 256));
    if (said == Y1541_OK) memcpy(out, at(m, place), 256);
    machine_gone(m);
    return said;
}

int32_t y1541_image_put(const uint8_t *image, size_t len, const uint8_t *text, size_t n, const uint8_t *bytes, size_t count, uint8_t *out, size_t room, size_t *needed) {
    return with_text(call_put, image, len, text, n, bytes, count, out, room, needed);
}

int32_t y1541_image_command(const uint8_t *image, size_t len, const uint8_t *text, size_t n, uint8_t *out, size_t room, size_t *needed) {
    return with_text(call_command, image, len, text, n, NULL, 0, out, room, needed);
}

int32_t y1541_image_command_status(const uint8_t *image, size_t len, const uint8_t *text, size_t n, y1541_said *status, uint8_t *out, size_t room, size_t *needed) {
    WITH_IMAGE
    u64 args[4];
    args[0] = copy, args[1] = len, args[2] = given(m, text, n), args[3] = n;
    /* (a struct of bytes alone, which lies as it does in the module) */
    memcpy(at(m, m->small + 8), status, sizeof *status);
    if (args[2]) said = gave(m, call_command_status, args, out, room, needed);
    memcpy(status, at(m, m->small + 8), sizeof *status);
    machine_gone(m);
    return said;
}

/* FILE_SIZE: of a y1541_file in the module, which is four numbers of eight bytes. */
enum { FILE_SIZE = 32, MOST_FILES = 65536 };

/* The place of copies of the files, or 0: no memory. */
static u64 files_given(machine *m, const y1541_file *files, size_t n) {
    u64 list = n > MOST_FILES ? 0 : room_in(m, n * FILE_SIZE);
    for (size_t i = 0; list && i < n; i++) {
        u64 place = list + i * FILE_SIZE, text = given(m, files[i].text, files[i].n), bytes = given(m, files[i].bytes, files[i].count);
        if (!text || !bytes) return 0;
        put_number(m, place, text), put_number(m, place + 8, files[i].n), put_number(m, place + 16, bytes), put_number(m, place + 24, files[i].count);
    }
    return list;
}

int32_t y1541_image_put_all(const uint8_t *image, size_t len, const y1541_file *files, size_t n, size_t *put, uint8_t *out, size_t room, size_t *needed) {
    WITH_IMAGE
    u64 args[4];
    args[0] = copy, args[1] = len, args[2] = files_given(m, files, n), args[3] = n;
    put_number(m, m->small + 8, (u64)*put);
    if (args[2]) said = gave(m, call_put_all, args, out, room, needed);
    *put = (size_t)number(m, m->small + 8);
    machine_gone(m);
    return said;
}

int32_t y1541_image_read(const uint8_t *image, size_t len, uint8_t slot, uint8_t *out, size_t room, size_t *needed) {
    return with_slot(call_read, image, len, slot, 0, out, room, needed);
}

/* A call on a slot, and a name. */
static int32_t with_name(gives *call, const uint8_t *image, size_t len, uint8_t slot, const uint8_t *name, size_t n, uint8_t *out, size_t room, size_t *needed) {
    WITH_IMAGE
    u64 args[5];
    args[0] = copy, args[1] = len, args[2] = slot, args[3] = given(m, name, n), args[4] = n;
    if (args[3]) said = gave(m, call, args, out, room, needed);
    machine_gone(m);
    return said;
}

int32_t y1541_image_rename(const uint8_t *image, size_t len, uint8_t slot, const uint8_t *name, size_t n, uint8_t *out, size_t room, size_t *needed) {
    return with_name(call_rename, image, len, slot, name, n, out, room, needed);
}

int32_t y1541_image_copy(const uint8_t *image, size_t len, uint8_t slot, const uint8_t *name, size_t n, uint8_t *out, size_t room, size_t *needed) {
    return with_name(call_copy, image, len, slot, name, n, out, room, needed);
}

int32_t y1541_image_lock(const uint8_t *image, size_t len, uint8_t slot, uint8_t locked, uint8_t *out, size_t room, size_t *needed) {
    return with_slot(call_lock, image, len, slot, locked, out, room, needed);
}

int32_t y1541_image_delete(const uint8_t *image, size_t len, uint8_t slot, uint8_t *out, size_t room, size_t *needed) {
    return with_slot(call_delete, image, len, slot, 0, out, room, needed);
}

int32_t y1541_image_undelete(const uint8_t *image, size_t len, uint8_t slot, uint8_t kind, uint8_t *out, size_t room, size_t *needed) {
    return with_slot(call_undelete, image, len, slot, kind, out, room, needed);
}

int32_t y1541_image_swap(const uint8_t *image, size_t len, uint8_t first, uint8_t second, uint8_t *out, size_t room, size_t *needed) {
    return with_slot(call_swap, image, len, first, second, out, room, needed);
}

int32_t y1541_image_retitle(const uint8_t *image, size_t len, const uint8_t *title, size_t n, uint8_t *out, size_t room, size_t *needed) {
    return with_text(call_retitle, image, len, title, n, NULL, 0, out, room, needed);
}

int32_t y1541_image_remark(const uint8_t *image, size_t len, const uint8_t *mark, size_t n, uint8_t *out, size_t room, size_t *needed) {
    return with_text(call_remark, image, len, mark, n, NULL, 0, out, room, needed);
}

int32_t y1541_image_put_away(const uint8_t *image, size_t len, uint8_t *out, size_t room, size_t *needed) {
    return with_slot(call_put_away, image, len, 0, 0, out, room, needed);
}

int32_t y1541_image_put_back(const uint8_t *image, size_t len, const uint8_t *changed, size_t count, uint8_t *out, size_t room, size_t *needed) {
    return with_text(call_put_back, image, len, changed, count, NULL, 0, out, room, needed);
}

int32_t y1541_image_new(uint8_t form, const uint8_t *title, size_t n, uint8_t id0, uint8_t id1, uint8_t *out, size_t room, size_t *needed) {
    machine *m = machine_made();
    int32_t said = Y1541_NO_MEMORY;
    u64 args[5];
    if (!m) return said;
    args[0] = form, args[1] = given(m, title, n), args[2] = n, args[3] = id0, args[4] = id1;
    if (args[1]) said = gave(m, call_new, args, out, room, needed);
    machine_gone(m);
    return said;
}

int32_t y1541_image_convert(const uint8_t *image, size_t len, y1541_lost *lost, uint8_t *out, size_t room, size_t *needed) {
    WITH_IMAGE
    u64 args[2];
    args[0] = copy, args[1] = len;
    u8 *s = at(m, m->small);
    put_number(m, m->small + 8, lost->unreadable);
    s[16] = lost->tracks, s[17] = lost->errors, s[18] = lost->id;
    said = gave(m, call_convert, args, out, room, needed);
    s = at(m, m->small);
    lost->unreadable = (size_t)number(m, m->small + 8), lost->tracks = s[16], lost->errors = s[17], lost->id = s[18];
    machine_gone(m);
    return said;
}

/* --- a list of changes */

static u64 signals_given(machine *m, const y1541_signal *from, size_t n) {
    u64 place = n > 0x7ffffff ? 0 : room_in(m, n * 16);
    if (!place) return 0;
    for (size_t i = 0; i < n; i++) {
        u8 *s = at(m, place) + i * 16;
        put_number(m, place + i * 16, from[i].moment);
        memset(s + 8, 0, 8);
        s[8] = from[i].who, s[9] = from[i].line, s[10] = from[i].low;
    }
    return place;
}

int32_t y1541_play(const uint8_t *image, size_t len, uint8_t device, uint8_t reaction, uint8_t pace, const y1541_signal *changes, size_t n, uint64_t end,
                   y1541_signal *events, size_t events_room, size_t *count, uint8_t *after, size_t after_room, size_t *needed) {
    WITH_IMAGE
    size_t own = events_room < 4096 ? events_room : 4096, bytes = after_room < MOST ? after_room : MOST;
    u64 host = signals_given(m, changes, n);
    for (;;) {
        u64 list = host ? room_in(m, own * 16) : 0, out = list ? room_in(m, bytes) : 0;
        if (!out) { said = Y1541_NO_MEMORY; break; }
        put_number(m, m->small, *count), put_number(m, m->small + 8, *needed);
        said = signed32(IN(y1541_play)(&m->in, copy, len, device, reaction, pace, host, n, end, list, own, m->small, out, bytes, m->small + 8));
        u64 k = number(m, m->small), w = number(m, m->small + 8);
        if (said == Y1541_NO_ROOM && k <= events_room && w <= after_room && (k > own || w > bytes) && k < 0x7ffffff) {
            IN(room_back)(&m->in, out), IN(room_back)(&m->in, list);
            own = k > own ? (size_t)k : own, bytes = w > bytes ? (size_t)w : bytes;
            continue;
        }
        *count = (size_t)k, *needed = (size_t)w;
        if (said != Y1541_OK) break;
        for (size_t i = 0; i < k; i++) {
            const u8 *s = at(m, list) + i * 16;
            events[i].moment = number(m, list + i * 16), events[i].who = s[8], events[i].line = s[9], events[i].low = s[10];
        }
        memcpy(after, at(m, out), (size_t)w);
        break;
    }
    machine_gone(m);
    return said;
}
