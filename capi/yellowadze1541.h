/* yellowadze1541.h: a Commodore 1541 as the computer on its serial cable sees it, and its disk images. C99 and C++.
 *
 * What it can't do: no code runs in the drive, so fast loaders can't work; there is no LED, motor or head.
 *
 * Results: 0 is success; numbers below 0 are the call's own refusals (y1541_result); 20 to 74 is the drive's status. Each call lists its
 * other results. A call that fails has changed nothing, with the exceptions that it names.
 * Moments are microseconds on a clock of the caller's, which can begin anywhere; they are below 2^60, and for one drive never go back.
 * Output: `needed` gets the count of the bytes. Y1541_NO_ROOM: they didn't fit, and none was written. A call without output leaves `needed` unchanged.
 * Pointers must not be NULL, even with a length of 0. Output buffers must not overlap any other argument.
 * No call blocks, starts a thread, reads a file or a clock, prints, or keeps a pointer of the caller's.
 * Threads: the library has no state but its handles. Different handles may be used by different threads at once, one handle by one call at a
 * time. A handle may be passed to another thread; the caller must synchronise.
 * Memory comes from malloc, realloc and free, only in the calls marked [m]. If there is none, the call answers Y1541_NO_MEMORY.
 * Stack: on x86-64 no call was measured to take more than 64 kB. y1541_open takes 14 kB with a D64 and 46 with a G64, y1541_lines and y1541_due up to 45, the
 * calls that change an image 47 to 59. docs/emulators.md has the table, and answers to questions.
 */
#ifndef YELLOWADZE1541_H
#define YELLOWADZE1541_H

#include <stddef.h>
#include <stdint.h>

#ifdef __cplusplus
extern "C" {
#endif

/* Major, minor, patch: a byte each. A program works with a library whose y1541_version() >> 8 is the one it was compiled with; from 1.0.0 on
 * y1541_version() >> 16 is enough. */
#define Y1541_VERSION 0x000400u

/* Success, and the refusals. */
enum y1541_result {
    Y1541_OK = 0,
    Y1541_NO_MEMORY = -1,
    Y1541_INVALID = -2,  /* an argument is out of its range, or a moment is too late or too soon */
    Y1541_NO_ROOM = -3,  /* the output doesn't fit: `needed` has the required room */
    Y1541_ABSENT = -4,   /* no such file, slot, sector or disk; or nothing is due */
    Y1541_NO_IMAGE = -5, /* not a D64 or G64; or the new image would be recognised as another format */
    Y1541_UNSOUND = -6,  /* the disk isn't sound */
    Y1541_NO_DRIVE = -7  /* the handle is empty; at y1541_open: it holds a drive already */
};

/* The moment of an event that never comes. */
#define Y1541_NEVER UINT64_MAX

/* A drive's pace: for hosts that keep the bus profile (docs/bus.md), or for the KERNAL of a C64 or a VIC-20. */
enum y1541_pace { Y1541_PROFILE = 0, Y1541_KERNAL = 1 };

/* The forms of a new image. */
enum y1541_form { Y1541_D64_35 = 0, Y1541_D64_40 = 1, Y1541_G64 = 2 };

/* A handle: a drive, or empty. y1541 d = {0} is empty. Its field belongs to the library; a handle must not be copied. Nobody checks that two drives
 * of a bus have different numbers. */
typedef struct y1541 { void *at; } y1541;

/* The lines of the bus. */
enum y1541_line { Y1541_ATN = 0, Y1541_CLOCK = 1, Y1541_DATA = 2 };

typedef struct y1541_pulls { uint8_t clock_low, data_low; } y1541_pulls;
typedef struct y1541_reacted { uint64_t moment; uint8_t clock_low, data_low, clock_changed, data_changed; } y1541_reacted;
typedef struct y1541_signal { uint64_t moment; uint8_t who, line, low; } y1541_signal; /* who: 0 the host, or the device */
typedef struct y1541_place { uint8_t what, track, sector; } y1541_place; /* what: 1 to 9, docs/numbers.md */
typedef struct y1541_title { uint16_t free; uint8_t title[16], mark[5]; } y1541_title;
typedef struct y1541_entry { uint16_t blocks; uint8_t kind, closed, locked, record_length, name[16], track, sector; } y1541_entry; /* track, sector: of the file's first block */
typedef struct y1541_flaw { uint8_t what, track, sector, whose; uint16_t slot, before; } y1541_flaw; /* whose: the owner of the sectors that led to it: 0 none, 1 the directory, 2 the file in `slot`; before: their number */
typedef struct y1541_lost { size_t unreadable; uint8_t tracks, errors, id; } y1541_lost;
typedef struct y1541_file { const uint8_t *text; size_t n; const uint8_t *bytes; size_t count; } y1541_file; /* for y1541_image_put_all, as the arguments of y1541_image_put */
typedef struct y1541_said { uint8_t number, first, second, line[33]; } y1541_said; /* line: a string in C, such as 01, FILES SCRATCHED,05,00 */

/* --- the library */

/* The Y1541_VERSION of the linked library. */
uint32_t y1541_version(void);

/* --- a drive on the bus: a wire is low if the drive or any other party pulls it, which the caller joins */

/* [m] Switches a drive on with a copy of the image: device 8 to 11, reaction 1 to 60 microseconds (20 is a good choice), a y1541_pace. d must be empty.
 * The sticker over the notch is is_protected; it can only change by y1541_insert.
 * NO_DRIVE: d holds a drive. INVALID: device, reaction or pace. NO_IMAGE. NO_MEMORY. */
int32_t y1541_open(y1541 *d, const uint8_t *image, size_t len, uint8_t is_protected, uint8_t device, uint8_t reaction, uint8_t pace);

/* [m] The same, but a drive with direct access (docs/direct.md): it reads single blocks by #, U1 and B-R, writes unused ones by U2 and B-W, and
 * carries out UI and M-R; a drive of y1541_open answers these with 70 and 31. All other calls work the same on it. */
int32_t y1541_open_direct(y1541 *d, const uint8_t *image, size_t len, uint8_t is_protected, uint8_t device, uint8_t reaction, uint8_t pace);

/* [m] The same, but raw: U2 and B-W write any block, even of files and of the directory. Each changes only that block; the disk can become unsound. */
int32_t y1541_open_raw(y1541 *d, const uint8_t *image, size_t len, uint8_t is_protected, uint8_t device, uint8_t reaction, uint8_t pace);

/* Closes the drive and frees its memory; d is then empty. Closing an empty handle does nothing. */
void y1541_close(y1541 *d);

/* From this moment on, all others together pull these lines low (0: free). If several change, ATN changes first, then CLOCK, then DATA.
 * INVALID: the moment is before that of an earlier call; a reaction is due before it (call y1541_due first); or it is 2^60 or more. NO_DRIVE. */
int32_t y1541_lines(y1541 *d, uint64_t moment, uint8_t atn_low, uint8_t clock_low, uint8_t data_low);

/* The moment of the drive's next reaction; Y1541_NEVER if it waits for a line, or d is empty. */
uint64_t y1541_next_due(y1541 *d);

/* Performs the reaction due at or before `moment`. `reacted` gets its moment, the lines that the drive now pulls, and which of them changed.
 * ABSENT: nothing is due by then. NO_DRIVE. */
int32_t y1541_due(y1541 *d, uint64_t moment, y1541_reacted *reacted);

/* The lines that the drive now pulls. NO_DRIVE. */
int32_t y1541_pulls_now(y1541 *d, y1541_pulls *pulls);

/* Switches the drive off and on with its disk, as the IEC RESET line does: no channel stays open, a file being written stays unclosed, the drive's
 * lines are free. It assumes that all lines are free until y1541_lines is called. Moments and the count of writes go on. NO_DRIVE. */
int32_t y1541_reset(y1541 *d);

/* --- the disk in a drive, while the drive goes on */

/* [m] The image of the disk as it is now, in the format in which it was inserted; a file being written is in it as on the disk, not closed.
 * Enough room is that of the inserted image, or 278,234 bytes for a G64 if that is more.
 * ABSENT: there is no disk. NO_ROOM. NO_MEMORY. NO_DRIVE. */
int32_t y1541_image(y1541 *d, uint8_t *out, size_t room, size_t *needed);

/* The number of sectors written since the disk was inserted (formatting all counts as one): save the image when it has grown. It stops at
 * UINT64_MAX. 0 if d is empty. */
uint64_t y1541_writes(y1541 *d);

/* [m] Ejects the disk and returns its image, like y1541_image; if that fails, the disk stays in the drive. Without a disk the drive reads zeros
 * that can't be written. No channel stays open, a file being written stays unclosed; the drive's lines and the status stay. */
int32_t y1541_eject(y1541 *d, uint8_t *out, size_t room, size_t *needed);

/* [m] Inserts a copy of another image; the old disk is discarded. Channels, lines and status as at y1541_eject. NO_IMAGE. NO_MEMORY. NO_DRIVE. */
int32_t y1541_insert(y1541 *d, const uint8_t *image, size_t len, uint8_t is_protected);

/* The number of the status, 0 to 74; this doesn't read channel 15. 20 or more is an error, except 73 (power up). NO_DRIVE. */
int32_t y1541_status(y1541 *d);

/* --- the drive's DOS without its wires: for traps in place of LOAD and SAVE, and for computers with another bus */

/* The next four calls have the effect of the same bytes on the wires, at once and with the same answers. The wires must be at rest: all others have freed all lines, the
 * drive isn't addressed, and nothing is due. They are at rest afterwards, no time passes, and a session on them goes on. Channels are the secondary addresses 0 to 15.
 * INVALID: the channel is above 15, or the wires aren't at rest; nothing has changed then. NO_DRIVE.
 * An error of the DOS isn't a result: y1541_status has its number. Reading channel 15 gives its line, after which the status is 0. */

/* OPEN with a text such as NAME,P,R; on channel 15 the text is a command. The DOS takes the first 256 bytes of it. */
int32_t y1541_channel_open(y1541 *d, uint8_t channel, const uint8_t *text, size_t n);

/* Bytes to a channel, as LISTEN, the bytes with EOI at the last one, UNLISTEN. On channel 15 they are a command. */
int32_t y1541_channel_write(y1541 *d, uint8_t channel, const uint8_t *bytes, size_t n);

/* Bytes from a channel, at most `room`, as TALK, the bytes, UNTALK. `got` gets their number: 0 if the channel has none to send. `last` gets 1 if the last one came with
 * EOI, otherwise 0; the next call then goes on with the next byte. If the call fails, both are unchanged. */
int32_t y1541_channel_read(y1541 *d, uint8_t channel, uint8_t *out, size_t room, size_t *got, uint8_t *last);

/* CLOSE; that of channel 15 closes all channels. */
int32_t y1541_channel_close(y1541 *d, uint8_t channel);

/* --- the whole state of a drive, its disk included, as bytes that a later run of the program can restore */

/* [m] The state of the drive as it is now: its lines and pending reaction, who is addressed, its channels, its status, its disk with the count of its
 * writes, and its latest moment. The drive goes on. Enough room is that of y1541_image (0 without a disk) and 16,384 bytes.
 * INVALID for a drive with direct access. NO_ROOM. NO_MEMORY. NO_DRIVE. */
int32_t y1541_save(y1541 *d, uint8_t *out, size_t room, size_t *needed);

/* [m] d becomes the drive of a state from y1541_save, and behaves like the saved one; a drive in d is closed. Its moments go on from those of the
 * saved one: pass it the lines from then on.
 * NO_IMAGE: the bytes are not a state of this version, or damaged; d is unchanged. NO_MEMORY. */
int32_t y1541_restore(y1541 *d, const uint8_t *bytes, size_t len);

/* --- a whole list of changes in one call, with a drive of its own */

/* [m] Switches a drive on with the disk of an image and plays these changes of the host (their `who` is ignored) up to and including `end`: all
 * events in order, the host's and the drive's, and the final image. `count` and `needed` get their lengths, even with NO_ROOM: either
 * room is too small, and neither was written. INVALID: device, reaction, pace, a line, an end of 2^59 or more, a change that goes back in time or comes
 * after the end. NO_IMAGE. NO_MEMORY. */
int32_t y1541_play(const uint8_t *image, size_t len, uint8_t device, uint8_t reaction, uint8_t pace, const y1541_signal *changes, size_t n, uint64_t end,
                   y1541_signal *events, size_t events_room, size_t *count, uint8_t *after, size_t after_room, size_t *needed);

/* --- images, without a drive: each call opens the image, and can answer NO_IMAGE and NO_MEMORY; it changes only its out parameters */

/* [m] 0 exactly if the disk is sound. UNSOUND: `first` has the first fault and its place. */
int32_t y1541_image_check(const uint8_t *image, size_t len, y1541_place *first);

/* [m] Title, id with the kind of DOS, and the count of free blocks. 20 to 29: 18/0 can't be read. */
int32_t y1541_image_title(const uint8_t *image, size_t len, y1541_title *title);

/* [m] The entry in a slot of the directory, counted from 0; an empty slot has kind 0 and isn't closed. ABSENT: past the last slot. A status: the
 * directory breaks off before. */
int32_t y1541_image_entry(const uint8_t *image, size_t len, uint8_t slot, y1541_entry *entry);

/* [m] All entries of the directory, those of empty slots too: slot n is entries[n]. `count` gets their number, even with NO_ROOM; 144 are
 * always enough. A status: the directory breaks off after these, which are returned (71: it is circular). */
int32_t y1541_image_entries(const uint8_t *image, size_t len, y1541_entry *entries, size_t room, size_t *count);

/* [m] All faults of the disk, in the order of a check: none if it is sound. `count` as above. */
int32_t y1541_image_flaws(const uint8_t *image, size_t len, y1541_flaw *flaws, size_t room, size_t *count);

/* [m] The directory as LOAD"$",8 gets it, with the files that match a pattern; all files if n is 0. NO_ROOM. A status. */
int32_t y1541_image_list(const uint8_t *image, size_t len, const uint8_t *pattern, size_t n, uint8_t *out, size_t room, size_t *needed);

/* [m] The bytes of the first file of any type that matches a pattern. ABSENT: no file matches. 60: it was never closed. NO_ROOM. Another status. */
int32_t y1541_image_file(const uint8_t *image, size_t len, const uint8_t *pattern, size_t n, uint8_t *out, size_t room, size_t *needed);

/* [m] The 256 bytes of a sector. ABSENT: the disk has no such sector. 20 to 29: it can't be read. NO_ROOM: room is less than 256. */
int32_t y1541_image_sector(const uint8_t *image, size_t len, uint8_t track, uint8_t sector, uint8_t *out, size_t room);

/* [m] The image after a file was opened with a text such as NAME,P,W (without ,P,W it is opened for reading, so 62), given these bytes, and closed.
 * UNSOUND: the disk isn't sound, unless only odd entries are wrong (y1541_image_put_away), which are left untouched. A status: the drive refused it. NO_ROOM. */
int32_t y1541_image_put(const uint8_t *image, size_t len, const uint8_t *text, size_t n, const uint8_t *bytes, size_t count, uint8_t *out, size_t room, size_t *needed);

/* [m] The image after these files were added, one after another, or none if one is refused. `put` gets the number added: with a status, those before the
 * refused one. As y1541_image_put, but UNSOUND even if only odd entries are wrong. */
int32_t y1541_image_put_all(const uint8_t *image, size_t len, const y1541_file *files, size_t n, size_t *put, uint8_t *out, size_t room, size_t *needed);

/* [m] The image after a command for channel 15, such as S0:NAME, R0:NEW=OLD, C0:NEW=OLD, N0:TITLE,ID or V0. As y1541_image_put, but V0 is
 * UNSOUND even if only odd entries are wrong: unused blocks could be the rest of an odd entry's chain. */
int32_t y1541_image_command(const uint8_t *image, size_t len, const uint8_t *text, size_t n, uint8_t *out, size_t room, size_t *needed);

/* [m] As y1541_image_command; `status` gets the answer of channel 15 after the command, even a refused one. UNSOUND even if only odd entries are
 * wrong. */
int32_t y1541_image_command_status(const uint8_t *image, size_t len, const uint8_t *text, size_t n, y1541_said *status, uint8_t *out, size_t room, size_t *needed);

/* The next calls take a file by the slot of its entry, whatever its name is. Each can answer ABSENT (no such slot, or it is empty), UNSOUND, and NO_ROOM. */

/* [m] The bytes of the file in a slot; of a relative file all records. A status: its chain can't be followed. */
int32_t y1541_image_read(const uint8_t *image, size_t len, uint8_t slot, uint8_t *out, size_t room, size_t *needed);

/* [m] The image in which the file has another name, of 1 to 16 bytes. 63: another file has it. INVALID: its length. */
int32_t y1541_image_rename(const uint8_t *image, size_t len, uint8_t slot, const uint8_t *name, size_t n, uint8_t *out, size_t room, size_t *needed);

/* [m] The image with a copy of the file at its end, under a name of 1 to 16 bytes, unlocked. 63: another file has the name. 64: a relative file. 60: it was
 * never closed. 72: the disk is full. INVALID: the length of the name. */
int32_t y1541_image_copy(const uint8_t *image, size_t len, uint8_t slot, const uint8_t *name, size_t n, uint8_t *out, size_t room, size_t *needed);

/* [m] The image in which the file is locked against SCRATCH, or, with 0, isn't. */
int32_t y1541_image_lock(const uint8_t *image, size_t len, uint8_t slot, uint8_t locked, uint8_t *out, size_t room, size_t *needed);

/* [m] The image without the file, as SCRATCH leaves it. 26: it is locked. */
int32_t y1541_image_delete(const uint8_t *image, size_t len, uint8_t slot, uint8_t *out, size_t room, size_t *needed);

/* [m] The image with the deleted file of a slot again, as a file of this type (0 to 4). ABSENT: the slot has none, one of its blocks is in use again, or
 * the disk has lost blocks (V0 first). INVALID: the type. */
int32_t y1541_image_undelete(const uint8_t *image, size_t len, uint8_t slot, uint8_t kind, uint8_t *out, size_t room, size_t *needed);

/* [m] The image in which the entries of two slots, empty or not, have changed places. */
int32_t y1541_image_swap(const uint8_t *image, size_t len, uint8_t first, uint8_t second, uint8_t *out, size_t room, size_t *needed);

/* [m] The image with another title, of at most 16 bytes. INVALID: its length. UNSOUND. NO_ROOM. */
int32_t y1541_image_retitle(const uint8_t *image, size_t len, const uint8_t *title, size_t n, uint8_t *out, size_t room, size_t *needed);

/* [m] The image with other five bytes after its title: the id, a byte, and the two of the DOS. INVALID: n isn't 5. UNSOUND. NO_ROOM. The ids in the
 * sectors' headers stay. */
int32_t y1541_image_remark(const uint8_t *image, size_t len, const uint8_t *mark, size_t n, uint8_t *out, size_t room, size_t *needed);

/* An entry is odd if the drive's rules don't allow it: directory art that leads to 18/0, a circular chain, an unknown type. If nothing else is wrong, any
 * call can change the disk in three steps: y1541_image_put_away, the call on its result, y1541_image_put_back. */

/* [m] The image without its odd entries: a sound disk, with a locked DEL of its name and without a block in each one's slot. The image itself if its disk is
 * sound. UNSOUND: more is wrong than entries, or an odd entry leads to a block that is free or belongs to a file. A status: a sector can't be read, or the
 * directory can't be followed (66, 71). NO_ROOM. */
int32_t y1541_image_put_away(const uint8_t *image, size_t len, uint8_t *out, size_t room, size_t *needed);

/* [m] The image `changed`, a changed result of y1541_image_put_away for `image`, with the odd entries of `image` again: each in its slot, byte for byte, and
 * with its sectors unchanged. 26: the change touched one of them. UNSOUND: `changed` isn't sound, or the change touched a sector that an odd entry leads to.
 * NO_IMAGE: one of the two isn't an image, or their formats differ. Otherwise as y1541_image_put_away of `image`. */
int32_t y1541_image_put_back(const uint8_t *image, size_t len, const uint8_t *changed, size_t count, uint8_t *out, size_t room, size_t *needed);

/* [m] A new image of an empty disk: a y1541_form, a title of at most 16 bytes, and the two bytes of its id. INVALID: form or title. NO_ROOM. */
int32_t y1541_image_new(uint8_t form, const uint8_t *title, size_t n, uint8_t id0, uint8_t id1, uint8_t *out, size_t room, size_t *needed);

/* [m] The image in the other format, D64 or G64; `lost` gets the losses, even with NO_ROOM. */
int32_t y1541_image_convert(const uint8_t *image, size_t len, y1541_lost *lost, uint8_t *out, size_t room, size_t *needed);

/* --- words */

/* A text for the result of a call: 0, a number below 0, or a status, with the drive's text on channel 15. */
static inline const char *y1541_text(int32_t number) {
    switch (number) {
    case Y1541_OK: return "all went well";
    case Y1541_NO_MEMORY: return "no memory";
    case Y1541_INVALID: return "an argument is out of its range";
    case Y1541_NO_ROOM: return "too little room";
    case Y1541_ABSENT: return "no such thing";
    case Y1541_NO_IMAGE: return "no image of a 1541's disk";
    case Y1541_UNSOUND: return "the disk isn't sound";
    case Y1541_NO_DRIVE: return "no drive, or one already";
    case 1: return "FILES SCRATCHED";
    case 20: case 21: case 22: case 23: case 24: case 27: return "READ ERROR";
    case 25: case 28: return "WRITE ERROR";
    case 26: return "WRITE PROTECT ON";
    case 29: return "DISK ID MISMATCH";
    case 30: case 31: case 32: case 33: case 34: return "SYNTAX ERROR";
    case 50: return "RECORD NOT PRESENT";
    case 51: return "OVERFLOW IN RECORD";
    case 52: return "FILE TOO LARGE";
    case 60: return "WRITE FILE OPEN";
    case 61: return "FILE NOT OPEN";
    case 62: return "FILE NOT FOUND";
    case 63: return "FILE EXISTS";
    case 64: return "FILE TYPE MISMATCH";
    case 65: return "NO BLOCK";
    case 66: return "ILLEGAL TRACK OR SECTOR";
    case 70: return "NO CHANNEL";
    case 71: return "DIR ERROR";
    case 72: return "DISK FULL";
    case 73: return "CBM DOS V2.6 1541";
    case 74: return "DRIVE NOT READY";
    default: return "an unknown number";
    }
}

#ifdef __cplusplus
}
#endif
#endif
