// The types of yellowadze1541.mjs. docs/emulators.md describes each call, under its name in C.

/** How the drive answers: hosts that keep the project's bus profile, or the KERNAL of a C64 or VIC-20. */
export type Pace = 0 | 1;
export const PROFILE: 0;
export const KERNAL: 1;

/** The form of a new image: a D64 of 35 or 40 tracks, or a G64. */
export type Form = 0 | 1 | 2;
export const D64_35: 0;
export const D64_40: 1;
export const G64: 2;

export type Line = 0 | 1 | 2;
export const ATN: 0;
export const CLOCK: 1;
export const DATA: 2;

/** What nextDue() gives when the drive waits for a line. */
export const NEVER: number;

/** Bytes, or a text whose characters are bytes. */
export type Bytes = Uint8Array | ArrayBuffer | ArrayBufferView | string;

/** A name, a pattern or a command: its codes as bytes, or a text, whose letters are those of a C64 after power-up ("hello" is HELLO). */
export type Text = Bytes;

/** The first fault of a disk that isn't sound: a number from 1 to 9 of docs/numbers.md, and its place. */
export interface Place {
  what: number;
  track: number;
  sector: number;
}

/** The words for a result or a status: "no memory" for -1, "63, FILE EXISTS" for 63. */
export function text(number: number): string;

/** A call that the library refuses: a number below 0, or a status of the drive from 20 on. */
export class Refused extends Error {
  readonly number: number;
  readonly place?: Place;
  /** At putAll the number of the file that the drive refused, counted from 0. */
  readonly file?: number;
}

/** Where something is wrong, and what, in the words of `disk1541 check`. */
export function flawText(flaw: Place): string;

/** A module trapped: the drive, and what its disk held, can't be had any more. */
export class Gone extends Error {}

export interface Settings {
  /** 8 to 11; 8 where it isn't given. */
  device?: number;
  /** How many microseconds the drive takes to answer a line, 1 to 60; 20 where it isn't given. */
  reaction?: number;
  /** KERNAL where it isn't given. */
  pace?: Pace;
}

export interface DriveSettings extends Settings {
  /** Whether the disk's notch is covered. */
  isProtected?: boolean;
  /** Whether the drive has direct access (docs/direct.md): blocks by `#`, U1 and U2. `"raw"`: U2 writes any block, so the disk needn't stay sound. */
  direct?: boolean | "raw";
}

/** The moment of a reaction in microseconds, the lines that the drive holds low from then on, and which of them are new. */
export interface Reaction {
  moment: number;
  clock: boolean;
  data: boolean;
  clockChanged: boolean;
  dataChanged: boolean;
}

/** A change of a line; who: 0 for the host, or the device. */
export interface Signal {
  moment: number;
  who: number;
  line: Line;
  low: boolean;
}

export interface Title {
  free: number;
  title: Uint8Array;
  mark: Uint8Array;
}

export interface Entry {
  blocks: number;
  kind: number;
  closed: boolean;
  locked: boolean;
  recordLength: number;
  name: Uint8Array;
  /** Where the file's first block is; the track is 0 if it has none. */
  track: number;
  sector: number;
}

/** A fault: `what`, `track` and `sector` as in Place. */
export interface Flaw extends Place {
  /** The owner of the sectors that led to it: 0 none, 1 the directory, 2 the file in `slot`. */
  whose: number;
  slot: number;
  /** How many sectors of the chain come before it. */
  before: number;
}

export interface Lost {
  unreadable: number;
  tracks: number;
  errors: boolean;
  id: boolean;
}

/** The drive's answer on channel 15, with a line such as 01, FILES SCRATCHED,05,00. */
export interface Said {
  number: number;
  first: number;
  second: number;
  line: string;
}

/** Bytes of a channel, and whether the last of them came with EOI. */
export interface Received {
  data: Uint8Array;
  last: boolean;
}

/** A drive on lines. Moments are microseconds since it was opened, and never go back. */
export interface Drive {
  readonly isOpen: boolean;
  close(): void;
  lines(now: number, atn: unknown, clock: unknown, data: unknown): void;
  nextDue(): number;
  /** The reaction that is due by a moment, or null. */
  due(by: number): Reaction | null;
  pulls(): { clock: boolean; data: boolean };
  reset(): void;
  /**
   * OPEN of a channel from 0 to 15 with a text such as "NAME,P,R"; on channel 15 it is a command. This and the next calls have the effect of the same bytes on the
   * wires, at once. The wires must be at rest, otherwise they throw Refused with -2. status() then has the number of the drive's answer.
   */
  openChannel(channel: number, text: Text): void;
  /** Bytes to a channel, the last one with EOI. */
  writeChannel(channel: number, data: Bytes): void;
  /** Bytes from a channel: up to the one with EOI, but at most so many; none if the channel has nothing to send. */
  readChannel(channel: number, most?: number): Received;
  /** CLOSE; that of channel 15 closes all. */
  closeChannel(channel: number): void;
  /** Sends a command to channel 15, and gives its line, such as "01, FILES SCRATCHED,02,00". */
  command(text: Text): string;
  /** The line of channel 15, which is then read: after it the status is 0. */
  statusLine(): string;
  status(): number;
  writes(): bigint;
  image(): Uint8Array;
  eject(): Uint8Array;
  insert(image: Uint8Array, isProtected?: boolean): void;
  /** The whole state of the drive, its disk included: `restore` makes a drive of it that does what this one would have done. */
  save(): Uint8Array;
  /** Makes this drive the one that was saved. Throws Refused when the bytes are no state, or broken; then the drive stays as it is. */
  restore(state: Uint8Array): void;
}

export interface Library {
  version(): number;
  open(image: Uint8Array, settings?: DriveSettings): Drive;
  /** Throws Refused, with the first fault as its place, if the disk isn't sound. */
  check(image: Uint8Array): void;
  title(image: Uint8Array): Title;
  /** The entry of a slot of the directory, or null past the last one. */
  entry(image: Uint8Array, slot: number): Entry | null;
  /** All entries, those of empty slots too: the index is the slot. The status is 0, or the reason why the directory breaks off after them. */
  entries(image: Uint8Array): { entries: Entry[]; status: number };
  flaws(image: Uint8Array): Flaw[];
  /** The slots of the odd entries, if nothing else is wrong with the disk; null if more is. */
  odd(image: Uint8Array): number[] | null;
  list(image: Uint8Array, pattern?: Text): Uint8Array;
  file(image: Uint8Array, pattern: Text): Uint8Array;
  sector(image: Uint8Array, track: number, sector: number): Uint8Array;
  put(image: Uint8Array, text: Text, data: Bytes): Uint8Array;
  /** All of the files, or none. */
  putAll(image: Uint8Array, files: { text: Text; data: Bytes }[]): Uint8Array;
  command(image: Uint8Array, text: Text): Uint8Array;
  /** The drive's answer to a command, and the image; null if the drive refused it. */
  commandStatus(image: Uint8Array, text: Text): { image: Uint8Array | null; status: Said };
  /** The file in a slot, whatever its name is; the others give the image after the change. */
  read(image: Uint8Array, slot: number): Uint8Array;
  rename(image: Uint8Array, slot: number, name: Text): Uint8Array;
  copy(image: Uint8Array, slot: number, name: Text): Uint8Array;
  lock(image: Uint8Array, slot: number, isLocked: boolean): Uint8Array;
  remove(image: Uint8Array, slot: number): Uint8Array;
  undelete(image: Uint8Array, slot: number, kind: number): Uint8Array;
  /** The entries of two slots change places. */
  swap(image: Uint8Array, first: number, second: number): Uint8Array;
  retitle(image: Uint8Array, title: Text): Uint8Array;
  /** Other five bytes after the title: the id, a byte, and the two of the DOS. */
  remark(image: Uint8Array, mark: Bytes): Uint8Array;
  /** The disk without its odd entries: a sound disk, with a locked DEL in the slot of each. */
  putAway(image: Uint8Array): Uint8Array;
  /** A changed image from putAway, with the odd entries of `image` again. Throws Refused, 26, if the change touched one of them. */
  putBack(image: Uint8Array, changed: Uint8Array): Uint8Array;
  create(form: Form, title: Text, id: Text): Uint8Array;
  convert(image: Uint8Array): { image: Uint8Array; lost: Lost };
  play(image: Uint8Array, changes: Omit<Signal, "who">[], end: number, settings?: Settings): { image: Uint8Array; events: Signal[] };
}

type Source = WebAssembly.Module | BufferSource | Response;

/** The library, of a compiled module, its bytes, or a response that has them (or a promise of one of these); by default of the module next to the file. */
export function load(source?: Source | Promise<Source>): Promise<Library>;
