// A terminal to a drive on its lines. The drive has a copy of the disk, and goes on until the disk is changed elsewhere; what it
// wrote becomes the disk's.
import { Host } from "./host.mjs";
import { codes, text } from "./petscii.mjs";
import { refuse } from "./words.mjs";
import { PROFILE } from "./yellowadze1541.mjs";

const SECONDARY = { open: 0xf0, "print#": 0x60, close: 0xe0 };
const STATUS = 15;
const REVERSE = 0x12; // begins the line with the title
const MEMORY = 65536; // bytes of a computer, into which a program is loaded
const HELP = /^\s*help\s*$/i;
const LOAD = /^\s*load\s*"([^"]*)"\s*(?:,\s*8\s*(?:,\s*[01]\s*)?)?$/i;
const LINE = /^\s*(open|print#|get#|close)\s*(\d|1[0-5])\s*(?:,\s*"(.*)")?\s*$/i;

export class Terminal {
  static HELP = `LOAD"$",8: the directory. LOAD"NAME",8: a program's size and address.
I0 or S0:NAME: a command, then the drive's status. An empty line: the status.
OPEN 2,"NAME,S,W"   PRINT# 2,"TEXT{0d}"   GET# 2   CLOSE 2`;
  #host = null;
  #bytes = null;

  constructor(disk) {
    this.disk = disk;
  }

  // The computer at the drive with the disk as it is now.
  #atDrive() {
    if (this.#bytes !== this.disk.bytes) {
      this.#bytes = this.disk.bytes;
      this.#host = new Host(this.disk.library.open(this.#bytes, { pace: PROFILE }));
      this.#host.hear(STATUS); // the drive's greeting, 73
    }
    return this.#host;
  }

  // What the drive says to a line. If that changed the disk, `disk` has become the new one.
  say(line, set) {
    if (HELP.test(line)) return Terminal.HELP;
    const host = this.#atDrive(), before = host.drive.writes();
    const heard = carryOut(host, line.trim(), set);
    if (host.isStuck) {
      this.#bytes = null;
      refuse("The drive doesn't answer. The next line switches it on again.");
    }
    if (host.drive.writes() > before) this.disk.become(host.drive.image());
    this.#bytes = this.disk.bytes;
    return heard.map((it) => (typeof it === "string" ? it : it ? text(it, set) : "nothing")).join("\n").replace(/\{0d\}$/, "");
  }
}

const typedCodes = (words, set) => [...(codes(words ?? "", set) ?? refuse("It has a character that no key of a C64 types."))];

// The lines of a directory, which comes as a BASIC program: a link, a number and a text up to a 0 for each.
function listed(bytes, set) {
  const out = [];
  for (let at = 2; at + 4 < bytes.length && bytes[at + 1]; ) {
    const end = bytes.indexOf(0, at + 4);
    if (end < 0) break;
    out.push(`${bytes[at + 2] | (bytes[at + 3] << 8)} ${text(bytes.slice(at + 4, end).filter((it) => it !== REVERSE), set)}`.trimEnd());
    at = end + 1;
  }
  return out;
}

// A program in words: the lines of a directory, or its size and address.
function program(bytes, name, set) {
  if (bytes.length < 2) return [];
  if (name.startsWith("$")) return listed(bytes, set);
  const address = (bytes[0] | (bytes[1] << 8)).toString(16).padStart(4, "0");
  return [`${bytes.length - 2} bytes at $${address}`];
}

// LOAD: the program in words, and the status. If OPEN is refused, its status is the answer: a read would replace it.
function loaded(host, name, set) {
  host.tell(SECONDARY.open, typedCodes(name, set));
  const opened = host.hear(STATUS);
  const isOpen = text(opened ?? [], set).startsWith("00");
  const words = isOpen ? program(host.hear(0, MEMORY) ?? [], name, set) : [];
  host.tell(SECONDARY.close, []);
  return [...words, isOpen ? host.hear(STATUS) : opened];
}

// Carries out a line. Returns the answer to GET# or LOAD, and the status.
function carryOut(host, line, set) {
  const load = LOAD.exec(line);
  if (load) return loaded(host, load[1], set);
  const [, verb = "print#", channel = STATUS, words] = LINE.exec(line) ?? ["", undefined, undefined, line];
  if (/^get#$/i.test(verb)) return [host.hear(channel), host.hear(STATUS)];
  const typed = typedCodes(words, set);
  if (line) host.tell(SECONDARY[verb.toLowerCase()] | channel, typed);
  return [host.hear(STATUS)];
}
