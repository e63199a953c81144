// A disk to try the page with.
import { join } from "./petscii.mjs";

const START = [0x01, 0x08]; // where BASIC programs are loaded
const PRINT = 0x99, END = 0x80; // BASIC's tokens

// A BASIC program of lines, each its number and its codes.
function basic(...lines) {
  let at = 0x0801;
  const bytes = lines.flatMap(([number, ...parts]) => {
    const codes = [...join(...parts)];
    at += codes.length + 5;
    return [at & 255, at >> 8, number & 255, number >> 8, ...codes, 0];
  });
  return Uint8Array.from([...START, ...bytes, 0, 0]);
}

// Bytes that stand for those of a picture or a tune.
const pattern = (length, step) => Uint8Array.from({ length }, (_, i) => (i < START.length ? [0, 0x20][i] : (i * step) & 255));

const FILES = [
  { text: "0:HELLO,P,W", data: basic([10, [PRINT], '"HELLO FROM A 1541"'], [20, [END]]) },
  { text: "0:PICTURE,P,W", data: pattern(9002, 7) },
  { text: "0:TUNE,P,W", data: pattern(4098, 13) },
  { text: "0:NOTES,S,W", data: join("A SEQUENTIAL FILE HAS LINES,\rAND EACH ENDS WITH A RETURN.\r") },
  { text: "0:HIGH SCORES,U,W", data: join("1000 ADA\r 900 BEN\r") },
];

export const exampleDisk = (library) => library.putAll(library.create(0, "EXAMPLE DISK", "15"), FILES);
