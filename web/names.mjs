// What a file of this computer becomes on a disk, and the other way, by disk1541's rules.
import { join, text } from "./petscii.mjs";

// The types of files by their numbers.
export const KINDS = ["del", "seq", "prg", "usr", "rel"];
export const PRG = 2, REL = 4;

const UNSAFE = '/%\\:*?"<>|'; // what a name can't have on some computer
const MARK = "C64File\0", NAME = 16, HEAD = 26; // the emulator PC64's head: a mark, the name, a zero, the length of records

const parts = (name) => /^(.+)\.([^.]*)$/s.exec(name) ?? ["", name, ""];
export const stem = (name) => parts(name)[1];

// What a file becomes on a disk: { kind, data }, and the name of a head before it. The ending says the type.
export function unwrapped(file, data) {
  const ending = parts(file)[2].toLowerCase(), isPc64 = /^[psur]\d\d$/.test(ending);
  const kind = KINDS.findIndex((it) => it === ending || (isPc64 && it[0] === ending[0]));
  const its = { kind: kind > 0 ? kind : PRG, data }, head = String.fromCharCode(...data.subarray(0, HEAD));
  if (!isPc64 || head.length < HEAD || !head.startsWith(MARK)) return its;
  return { ...its, name: join(head.slice(MARK.length, -2).split("\0")[0]), data: data.subarray(HEAD) };
}

// A relative file's records after such a head; what follows the last whole one in its block is left out.
const wrapped = ({ name, recordLength, data }) =>
  join(MARK, name, "\0".repeat(NAME + 1 - name.length), [recordLength], data.subarray(0, data.length - (data.length % recordLength || 0)));

function letter(code, place) {
  if (code >= 0xc1 && code <= 0xda) return String.fromCharCode(code - 0x80);
  const shown = text([code >= 0x60 && code < 0x80 ? code + 0x60 : code], "upper");
  return shown.length > 2 || UNSAFE.includes(shown) || (shown === "." && !place) ? `%${code.toString(16).toUpperCase().padStart(2, "0")}` : shown;
}

// The files of a computer, { name, data }, for files of a disk: each has a name of its own.
export function hostFiles(files) {
  const taken = {};
  return files.map((file) => {
    const isRelative = file.kind === REL;
    const base = Array.from(file.name, letter).join("") || "%A0", end = isRelative ? "r00" : (KINDS[file.kind] ?? "del");
    const number = (taken[`${base}.${end}`] = (taken[`${base}.${end}`] ?? -1) + 1);
    return { name: `${base}${number ? `~${number}` : ""}.${end}`, data: isRelative ? wrapped(file) : file.data };
  });
}
