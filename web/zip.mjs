// A zip of files as they are: nothing is packed, as a disk's files are small.
import { join } from "./petscii.mjs";

const TABLE = Array.from({ length: 256 }, (_, n) => {
  for (let i = 0; i < 8; i++) n = n & 1 ? 0xedb88320 ^ (n >>> 1) : n >>> 1;
  return n;
});
const VERSION = 20, UTF8 = 0x800, DAY = 0x21; // 1980-01-01, as the disk tells no day

export const checksum = (data) => ~data.reduce((sum, it) => TABLE[(sum ^ it) & 255] ^ (sum >>> 8), -1);
const short = (value) => [value & 255, (value >> 8) & 255];
const long = (value) => [...short(value), ...short(value >>> 16)];

// What the head of a file and its entry at the end both say.
const common = (label, data) =>
  join(short(VERSION), short(UTF8), long(0), short(DAY), long(checksum(data)), long(data.length), long(data.length), short(label.length), short(0));

export function zip(files) {
  const parts = [], entries = [];
  let at = 0;
  for (const { name, data } of files) {
    const label = new TextEncoder().encode(name), both = common(label, data);
    parts.push(join("PK\x03\x04", both, label, data));
    entries.push(join("PK\x01\x02", short(VERSION), both, Array(10).fill(0), long(at), label));
    at += parts.at(-1).length;
  }
  const directory = join(...entries), count = short(files.length);
  return join(...parts, directory, "PK\x05\x06", long(0), count, count, long(directory.length), long(at), short(0));
}
