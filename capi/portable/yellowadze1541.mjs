// The drive and its images in JavaScript, over yellowadze1541.wasm: the calls, numbers and texts of yellowadze1541.h.
//
//   import { load } from "yellowadze1541";
//   const y1541 = await load();                                  // the module next to this file; or load(bytes), load(fetch(url))
//   y1541.list(image);                                           // the bytes that LOAD"$" gets
//   const drive = y1541.open(image, { device: 8 });              // a drive on lines
//
// What the library refuses is thrown as Refused, with its number. After a trap in its module a drive is gone, and each of its calls throws Gone. The types
// are in yellowadze1541.d.mts. Nothing in this file is proved; docs/install.md says what is.

export const PROFILE = 0, KERNAL = 1;
export const D64_35 = 0, D64_40 = 1, G64 = 2;
export const ATN = 0, CLOCK = 1, DATA = 2;
export const NEVER = Infinity;

const NO_MEMORY = -1, NO_ROOM = -3, ABSENT = -4, UNSOUND = -6, NO_DRIVE = -7, STATUS = 20; // from STATUS on it is the drive's
const TEXTS = {
  [NO_MEMORY]: "no memory",
  "-2": "an argument is out of its range",
  [NO_ROOM]: "too little room",
  [ABSENT]: "no such thing",
  "-5": "no image of a 1541's disk",
  [UNSOUND]: "the disk isn't sound",
  [NO_DRIVE]: "the drive is closed",
};
// The drive's texts on channel 15, by status.
const STATUS_TEXTS = [
  [[1], "FILES SCRATCHED"],
  [[20, 21, 22, 23, 24, 27], "READ ERROR"],
  [[25, 28], "WRITE ERROR"],
  [[26], "WRITE PROTECT ON"],
  [[29], "DISK ID MISMATCH"],
  [[30, 31, 32, 33, 34], "SYNTAX ERROR"],
  [[50], "RECORD NOT PRESENT"],
  [[51], "OVERFLOW IN RECORD"],
  [[52], "FILE TOO LARGE"],
  [[60], "WRITE FILE OPEN"],
  [[61], "FILE NOT OPEN"],
  [[62], "FILE NOT FOUND"],
  [[63], "FILE EXISTS"],
  [[64], "FILE TYPE MISMATCH"],
  [[65], "NO BLOCK"],
  [[66], "ILLEGAL TRACK OR SECTOR"],
  [[70], "NO CHANNEL"],
  [[71], "DIR ERROR"],
  [[72], "DISK FULL"],
  [[73], "CBM DOS V2.6 1541"],
  [[74], "DRIVE NOT READY"],
];
const STATUS_TEXT = new Map(STATUS_TEXTS.flatMap(([numbers, words]) => numbers.map((it) => [it, words])));
// Faults, in disk1541's words.
const FLAW_TEXTS = [
  "it isn't sound",
  "the count of the track's free blocks isn't the number of blocks marked free",
  "the block is in use, but marked free",
  "the block is used twice",
  "a file's chain leads here, where no block of a file can be",
  "the sector's header can't be read",
  "the directory's chain leads here, off the directory's track",
  "the side sectors that begin here don't list the blocks of their relative file",
  "an entry in this sector of the directory has a type that no file has",
  "the block is in use, but can't be read",
];
// The sizes of structs in the header.
const SIGNAL = 16, SECTOR = 256, ENTRY = 24, FLAW = 8, SAID = 36;
const SLOTS = 144, FLAWS = 4096;
// The channel of commands and of the status, and how many bytes are asked of a channel at a time.
const COMMANDS = 15, PART = 65536;

/** The words for a result or a status: "no memory" for -1, "63, FILE EXISTS" for 63. */
export const text = (number) => TEXTS[number] ?? (STATUS_TEXT.has(number) ? `${number}, ${STATUS_TEXT.get(number)}` : `status ${number} of the drive`);

/** A call that the library refuses: a number below 0, or a status of the drive from 20 on. */
export class Refused extends Error {
  constructor(number, place) {
    super(text(number));
    this.name = "Refused";
    this.number = number;
    if (place) this.place = place;
  }
}

/** Where something is wrong, and what. */
export const flawText = ({ what, track, sector }) => `track ${track}, sector ${sector}: ${FLAW_TEXTS[what] ?? FLAW_TEXTS[0]}`;

/** A module trapped, as one does whose stack is too small: what it held can't be had any more. */
export class Gone extends Error {
  constructor(cause) {
    super("the drive is gone: its module trapped", { cause });
    this.name = "Gone";
  }
}

const check = (said, place) => {
  if (said !== 0) throw new Refused(said, place);
};

const byte = (value, what) => {
  if (!Number.isInteger(value) || value < 0 || value > 255) throw new RangeError(`${what} is no byte: ${value}`);
  return value;
};

const moment = (value) => {
  if (!Number.isSafeInteger(value) || value < 0) throw new RangeError(`no moment: ${value}`);
  return value;
};

const channel = (value) => {
  if (!Number.isInteger(value) || value < 0 || value > COMMANDS) throw new RangeError(`no channel: ${value}`);
  return value;
};

const joined = (parts) => {
  const all = new Uint8Array(parts.reduce((size, it) => size + it.length, 0));
  let place = 0;
  for (const it of parts) {
    all.set(it, place);
    place += it.length;
  }
  return all;
};

// Bytes, of a buffer, a view of one, or a text whose characters are bytes.
const bytesOf = (value) => {
  if (typeof value === "string") return Uint8Array.from(value, (it) => byte(it.charCodeAt(0), "a character"));
  if (value instanceof ArrayBuffer) return new Uint8Array(value);
  if (ArrayBuffer.isView(value)) return new Uint8Array(value.buffer, value.byteOffset, value.byteLength);
  throw new TypeError("bytes are needed: a Uint8Array, an ArrayBuffer or a string");
};

// A name, a pattern or a command, as a C64 has it after power-up: the keys of its letters send capitals. Codes stay as they are.
const typed = (value) => (typeof value === "string" ? value.replace(/[a-z]/g, (it) => it.toUpperCase()) : value);

// How a module passes places and sizes: the one that is made from the proof with 64 bits, the one that cargo makes with 32.
const WIDE = {
  bytes: 8,
  of: BigInt,
  read: (view, place) => Number(view.getBigUint64(Number(place), true)),
  write: (view, place, value) => view.setBigUint64(Number(place), BigInt(value), true),
};
const NARROW = {
  bytes: 4,
  of: Number,
  read: (view, place) => view.getUint32(place, true),
  write: (view, place, value) => view.setUint32(place, value, true),
};

// An instance of the module: its memory, and its functions, which throw Gone from the first trap on.
class Inside {
  #trap = null;
  #bytes = new Uint8Array(0);

  constructor(module) {
    const { memory, ...functions } = new WebAssembly.Instance(module).exports;
    this.memory = memory;
    this.word = functions.address_bytes?.() === 4 ? NARROW : WIDE;
    this.calls = {};
    for (const [name, it] of Object.entries(functions)) if (typeof it === "function") this.calls[name] = this.#guarded(it);
    // (called all the time: guarded where they are called)
    this.lines = functions.js_lines;
    this.nextDue = functions.js_next_due;
    this.due = functions.js_due;
    this.small = this.room(64);
  }

  get isGone() {
    return this.#trap !== null;
  }

  #guarded(call) {
    return (...args) => {
      this.alive();
      try {
        return call(...args);
      } catch (trap) {
        throw this.gone(trap);
      }
    };
  }

  alive() {
    if (this.#trap) throw new Gone(this.#trap);
  }

  // What is thrown for a trap; from then on every call throws it.
  gone(trap) {
    if (trap instanceof Gone) return trap;
    this.#trap = trap;
    this.lines = this.nextDue = this.due = () => this.alive();
    return new Gone(trap);
  }

  view() {
    return new DataView(this.memory.buffer);
  }

  // (a memory that grew has a new buffer)
  byteAt(place) {
    if (this.#bytes.buffer !== this.memory.buffer) this.#bytes = new Uint8Array(this.memory.buffer);
    return this.#bytes[place];
  }

  // A place for this many bytes, for `back` to give back.
  room(size) {
    const place = this.calls.room(this.word.of(size));
    if (!place) throw new Refused(NO_MEMORY);
    return place;
  }

  // The size that a call left at a place.
  sizeAt(place) {
    return this.word.read(this.view(), place);
  }

  back(place) {
    this.calls.room_back(place);
  }

  put(data) {
    const place = this.room(data.length);
    new Uint8Array(this.memory.buffer).set(data, Number(place));
    return place;
  }

  take(place, size) {
    return new Uint8Array(this.memory.buffer).slice(Number(place), Number(place) + size);
  }

  // Makes a call with a copy of each of these (bytes or texts): it gets a place and a length for each.
  with(datas, call) {
    const places = [], args = [];
    try {
      for (const it of datas.map(bytesOf)) {
        places.push(this.put(it));
        args.push(places.at(-1), this.word.of(it.length));
      }
      return call(...args);
    } finally {
      places.forEach((it) => this.#backUnlessGone(it));
    }
  }

  #backUnlessGone(place) {
    if (!this.#trap) this.back(place);
  }

  // The bytes that a call(out, room, needed) gives, for which it first gets `room` bytes, and then just as many as it says.
  given(room, call) {
    for (;;) {
      const out = this.room(room);
      try {
        this.word.write(this.view(), this.small, 0);
        const said = call(out, this.word.of(room), this.small);
        const needed = this.sizeAt(this.small);
        if (said !== NO_ROOM || needed <= room) {
          check(said);
          return this.take(out, needed);
        }
        room = needed;
      } finally {
        this.#backUnlessGone(out);
      }
    }
  }
}

// How many bytes the image of a disk may have that was put in as this one: a G64 whose tracks the drive formats grows to 278,234.
const roomFor = (image) => {
  const bytes = bytesOf(image);
  return bytes[0] === 0x47 && bytes[1] === 0x43 ? Math.max(bytes.length, 278234) : bytes.length;
};

class Drive {
  #in;
  #handle;
  #room;
  // Where the handle is, and the flags of a reaction, as numbers.
  #place;
  #flags;

  constructor(module, image, { device = 8, reaction = 20, pace = KERNAL, isProtected = false, direct = false } = {}) {
    const it = new Inside(module), handle = it.put(new Uint8Array(8));
    const settings = [Number(isProtected), byte(device, "device"), byte(reaction, "reaction"), byte(pace, "pace")];
    const { y1541_open, y1541_open_direct, y1541_open_raw } = it.calls;
    const open = direct === "raw" ? y1541_open_raw : direct ? y1541_open_direct : y1541_open;
    it.with([image], (at, size) => check(open(handle, at, size, ...settings)));
    this.#in = it;
    this.#handle = handle;
    this.#room = roomFor(image);
    this.#place = Number(handle);
    this.#flags = Number(it.small);
  }

  get #calls() {
    return this.#open.calls;
  }

  get isOpen() {
    return this.#in !== null && !this.#in.isGone;
  }

  close() {
    this.#in = null;
  }

  // (`using drive = y1541.open(..)`, where the language has it)
  [Symbol.dispose ?? Symbol("dispose")]() {
    this.close();
  }

  get #open() {
    if (this.#in === null) throw new Refused(NO_DRIVE);
    return this.#in;
  }

  lines(now, atn, clock, data) {
    const it = this.#open, at = moment(now);
    let said;
    try {
      said = it.lines(this.#place, at, atn ? 1 : 0, clock ? 1 : 0, data ? 1 : 0);
    } catch (trap) {
      throw it.gone(trap);
    }
    check(said);
  }

  nextDue() {
    const it = this.#open;
    try {
      return it.nextDue(this.#place);
    } catch (trap) {
      throw it.gone(trap);
    }
  }

  due(by) {
    const it = this.#open, until = moment(by);
    let said;
    try {
      said = it.due(this.#place, until, this.#flags);
    } catch (trap) {
      throw it.gone(trap);
    }
    if (said === ABSENT) return null;
    if (said < 0) throw new Refused(said);
    const flags = it.byteAt(this.#flags);
    return { moment: said, clock: (flags & 1) !== 0, data: (flags & 2) !== 0, clockChanged: (flags & 4) !== 0, dataChanged: (flags & 8) !== 0 };
  }

  pulls() {
    check(this.#calls.y1541_pulls_now(this.#handle, this.#in.small));
    const [clock, data] = this.#in.take(this.#in.small, 2);
    return { clock: clock !== 0, data: data !== 0 };
  }

  reset() {
    check(this.#calls.y1541_reset(this.#handle));
  }

  status() {
    return this.#calls.y1541_status(this.#handle);
  }

  writes() {
    return BigInt.asUintN(64, this.#calls.y1541_writes(this.#handle));
  }

  image() {
    const calls = this.#calls;
    return this.#in.given(this.#room, (...out) => calls.y1541_image(this.#handle, ...out));
  }

  eject() {
    const calls = this.#calls;
    return this.#in.given(this.#room, (...out) => calls.y1541_eject(this.#handle, ...out));
  }

  insert(image, isProtected = false) {
    const calls = this.#calls;
    this.#in.with([image], (at, size) => check(calls.y1541_insert(this.#handle, at, size, Number(isProtected))));
    this.#room = roomFor(image);
  }

  // The DOS without the wires: the effect of the same bytes, at once.
  openChannel(number, text) {
    const calls = this.#calls;
    this.#in.with([typed(text)], (at, size) => check(calls.y1541_channel_open(this.#handle, channel(number), at, size)));
  }

  writeChannel(number, data) {
    const calls = this.#calls;
    this.#in.with([data], (at, size) => check(calls.y1541_channel_write(this.#handle, channel(number), at, size)));
  }

  readChannel(number, most = Infinity) {
    const parts = [];
    for (let left = most, last = false; ; ) {
      const part = this.#part(channel(number), Math.min(left, PART));
      parts.push(part.data);
      left -= part.data.length;
      last = part.last;
      if (last || part.data.length < PART || left === 0) return { data: joined(parts), last };
    }
  }

  // The bytes of one TALK.
  #part(number, most) {
    const calls = this.#calls, it = this.#in, out = it.room(most), last = Number(it.small) + 8;
    try {
      check(calls.y1541_channel_read(this.#handle, number, out, it.word.of(most), it.small, it.word.of(last)));
      return { data: it.take(out, it.sizeAt(it.small)), last: it.take(last, 1)[0] !== 0 };
    } finally {
      if (!it.isGone) it.back(out);
    }
  }

  closeChannel(number) {
    check(this.#calls.y1541_channel_close(this.#handle, channel(number)));
  }

  command(text) {
    this.writeChannel(COMMANDS, typed(text));
    return this.statusLine();
  }

  statusLine() {
    return String.fromCharCode(...this.readChannel(COMMANDS).data).replace(/\r$/, "");
  }

  // The whole state, its disk included; a state has fewer than 16,384 bytes beside the image.
  save() {
    const calls = this.#calls;
    return this.#in.given(this.#room + 16384, (...out) => calls.y1541_save(this.#handle, ...out));
  }

  restore(state) {
    const calls = this.#calls;
    this.#in.with([state], (at, size) => check(calls.y1541_restore(this.#handle, at, size)));
  }
}

// The calls on images. Each has an instance of its own, which the collector takes afterwards: the memory of a module only grows.
class Library {
  #module;

  constructor(module) {
    this.#module = module;
  }

  #fresh() {
    return new Inside(this.#module);
  }

  // The bytes that a call on these gives, with `room` of them asked for first.
  #made(name, datas, room, ...more) {
    const it = this.#fresh();
    return it.with(datas, (...args) => it.given(room, (...out) => it.calls[name](...args, ...more, ...out)));
  }

  // A struct of this size that a call on an image fills, or null where it says that there is no such thing.
  #struct(name, size, image, ...more) {
    const it = this.#fresh();
    return it.with([image], (at, length) => {
      const said = it.calls[name](at, length, ...more, it.small);
      if (said === ABSENT) return null;
      check(said);
      return it.take(it.small, size);
    });
  }

  version() {
    return this.#fresh().calls.y1541_version();
  }

  open(image, settings) {
    return new Drive(this.#module, image, settings);
  }

  check(image) {
    const it = this.#fresh();
    it.with([image], (at, size) => {
      const said = it.calls.y1541_image_check(at, size, it.small);
      const [what, track, sector] = it.take(it.small, 3);
      check(said, said === UNSOUND ? { what, track, sector } : undefined);
    });
  }

  title(image) {
    const s = this.#struct("y1541_image_title", 23, image);
    return { free: s[0] | (s[1] << 8), title: s.slice(2, 18), mark: s.slice(18, 23) };
  }

  entry(image, slot) {
    const s = this.#struct("y1541_image_entry", ENTRY, image, byte(slot, "slot"));
    return s && entryOf(s);
  }

  // The structs of this size that a call on an image gives, and what it answered. Where `room` of them are too few, it is asked again.
  #structs(name, size, image, room) {
    const it = this.#fresh(), out = it.room(size * room), count = it.put(new Uint8Array(8));
    return it.with([image], (at, length) => {
      const said = it.calls[name](at, length, out, it.word.of(room), count);
      const wanted = it.sizeAt(count);
      if (said === NO_ROOM) return this.#structs(name, size, image, wanted);
      if (said < 0) throw new Refused(said);
      const bytes = it.take(out, size * wanted);
      return { said, structs: Array.from({ length: wanted }, (_, i) => bytes.subarray(size * i, size * (i + 1))) };
    });
  }

  entries(image) {
    const { said, structs } = this.#structs("y1541_image_entries", ENTRY, image, SLOTS);
    return { entries: structs.map(entryOf), status: said };
  }

  flaws(image) {
    return this.#structs("y1541_image_flaws", FLAW, image, FLAWS).structs.map(flawOf);
  }

  odd(image) {
    const slots = new Set(this.flaws(image).map((it) => it.slot));
    try {
      if (slots.size) this.putAway(image);
    } catch (e) {
      if (e.number === UNSOUND || e.number >= STATUS) return null;
      throw e;
    }
    return [...slots];
  }

  list(image, pattern = "") {
    return this.#made("y1541_image_list", [image, typed(pattern)], 0);
  }

  file(image, pattern) {
    return this.#made("y1541_image_file", [image, typed(pattern)], 0);
  }

  sector(image, track, sector) {
    const it = this.#fresh(), out = it.room(SECTOR);
    it.with([image], (at, size) => check(it.calls.y1541_image_sector(at, size, byte(track, "track"), byte(sector, "sector"), out, it.word.of(SECTOR))));
    return it.take(out, SECTOR);
  }

  put(image, text, data) {
    return this.#made("y1541_image_put", [image, typed(text), data], roomFor(image));
  }

  putAll(image, files) {
    const it = this.#fresh(), list = it.room(4 * it.word.bytes * files.length), put = it.put(new Uint8Array(8));
    try {
      // (a file is the places and lengths of its text and its bytes, as `with` has them)
      return it.with([image, ...files.flatMap(({ text, data }) => [typed(text), data])], (at, size, ...fields) => {
        fields.forEach((field, i) => it.word.write(it.view(), Number(list) + it.word.bytes * i, field));
        return it.given(roomFor(image), (...out) => it.calls.y1541_image_put_all(at, size, list, it.word.of(files.length), put, ...out));
      });
    } catch (e) {
      if (e.number >= STATUS) e.file = it.sizeAt(put);
      throw e;
    }
  }

  command(image, text) {
    return this.#made("y1541_image_command", [image, typed(text)], roomFor(image));
  }

  commandStatus(image, text) {
    const it = this.#fresh(), said = it.put(new Uint8Array(SAID));
    let after = null;
    try {
      after = it.with([image, typed(text)], (...args) => it.given(roomFor(image), (...out) => it.calls.y1541_image_command_status(...args, said, ...out)));
    } catch (e) {
      if (!(e.number >= STATUS)) throw e;
    }
    const [number, first, second, ...line] = it.take(said, SAID);
    return { image: after, status: { number, first, second, line: String.fromCharCode(...line.slice(0, line.indexOf(0))) } };
  }

  read(image, slot) {
    return this.#made("y1541_image_read", [image], 0, byte(slot, "slot"));
  }

  // The image after a call that takes a slot before its other words.
  #inSlot(name, image, slot, words, ...more) {
    const it = this.#fresh();
    return it.with([image, ...words], (at, size, ...rest) =>
      it.given(roomFor(image), (...out) => it.calls[name](at, size, byte(slot, "slot"), ...rest, ...more, ...out)));
  }

  rename(image, slot, name) {
    return this.#inSlot("y1541_image_rename", image, slot, [typed(name)]);
  }

  copy(image, slot, name) {
    return this.#inSlot("y1541_image_copy", image, slot, [typed(name)]);
  }

  lock(image, slot, isLocked) {
    return this.#inSlot("y1541_image_lock", image, slot, [], Number(!!isLocked));
  }

  remove(image, slot) {
    return this.#inSlot("y1541_image_delete", image, slot, []);
  }

  undelete(image, slot, kind) {
    return this.#inSlot("y1541_image_undelete", image, slot, [], byte(kind, "kind"));
  }

  swap(image, first, second) {
    return this.#inSlot("y1541_image_swap", image, first, [], byte(second, "slot"));
  }

  retitle(image, title) {
    return this.#made("y1541_image_retitle", [image, typed(title)], roomFor(image));
  }

  remark(image, mark) {
    return this.#made("y1541_image_remark", [image, mark], roomFor(image));
  }

  putAway(image) {
    return this.#made("y1541_image_put_away", [image], roomFor(image));
  }

  putBack(image, changed) {
    return this.#made("y1541_image_put_back", [image, changed], roomFor(image));
  }

  create(form, title, id) {
    const [first, second] = bytesOf(typed(id));
    const it = this.#fresh();
    return it.with([typed(title)], (...name) => it.given(0, (...out) => it.calls.y1541_image_new(byte(form, "form"), ...name, first, second, ...out)));
  }

  convert(image) {
    const it = this.#fresh(), lost = it.put(new Uint8Array(16));
    const made = it.with([image], (at, size) => it.given(0, (...out) => it.calls.y1541_image_convert(at, size, lost, ...out)));
    const s = it.take(Number(lost) + it.word.bytes, 3);
    return { image: made, lost: { unreadable: it.sizeAt(lost), tracks: s[0], errors: s[1] !== 0, id: s[2] !== 0 } };
  }

  play(image, changes, end, { device = 8, reaction = 20, pace = KERNAL } = {}) {
    const it = this.#fresh(), host = signalBytes(changes), count = it.put(new Uint8Array(8));
    const settings = [byte(device, "device"), byte(reaction, "reaction"), byte(pace, "pace")];
    const countNow = () => it.sizeAt(count);
    return it.with([image, host], (at, size, from) => {
      const played = (events, room) =>
        it.given(roomFor(image), (...out) => it.calls.y1541_play(at, size, ...settings, from, it.word.of(changes.length), BigInt(moment(end)), events, it.word.of(room), count, ...out));
      for (let room = 4096; ; room = countNow()) {
        const events = it.room(SIGNAL * room);
        try {
          const after = played(events, room);
          return { image: after, events: signalsOf(it.take(events, SIGNAL * countNow())) };
        } catch (refused) {
          if (!(refused instanceof Refused && refused.number === NO_ROOM && countNow() > room)) throw refused;
          it.back(events);
        }
      }
    });
  }
}

const entryOf = (s) => ({
  blocks: s[0] | (s[1] << 8), kind: s[2], closed: s[3] !== 0, locked: s[4] !== 0, recordLength: s[5], name: s.slice(6, 22), track: s[22], sector: s[23],
});

const flawOf = (s) => ({ what: s[0], track: s[1], sector: s[2], whose: s[3], slot: s[4] | (s[5] << 8), before: s[6] | (s[7] << 8) });

const signalBytes = (changes) => {
  const made = new Uint8Array(SIGNAL * changes.length), view = new DataView(made.buffer);
  changes.forEach((it, i) => {
    view.setBigUint64(SIGNAL * i, BigInt(moment(it.moment)), true);
    made[SIGNAL * i + 9] = byte(it.line, "line");
    made[SIGNAL * i + 10] = Number(!!it.low);
  });
  return made;
};

const signalsOf = (bytes) => {
  const view = new DataView(bytes.buffer);
  return Array.from({ length: bytes.length / SIGNAL }, (_, i) => {
    const at = SIGNAL * i;
    return { moment: Number(view.getBigUint64(at, true)), who: bytes[at + 8], line: bytes[at + 9], low: bytes[at + 10] !== 0 };
  });
};

// The module next to this file.
async function nextToThis() {
  const url = new URL("yellowadze1541.wasm", import.meta.url);
  if (url.protocol !== "file:") return fetch(url);
  const { readFile } = await import("node:fs/promises");
  return readFile(url);
}

/** The library, of a compiled module, its bytes, or a response that has them (or a promise of one of these); by default of the module next to this file. */
export async function load(source = nextToThis()) {
  const from = await source;
  if (from instanceof WebAssembly.Module) return new Library(from);
  const isBytes = from instanceof ArrayBuffer || ArrayBuffer.isView(from);
  return new Library(await WebAssembly.compile(isBytes ? from : await from.arrayBuffer()));
}
