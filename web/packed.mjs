// Images that gzip or ZIP packed, by disk1541's rule: of an archive the one file with an image's name, or the only file.
import { join } from "./petscii.mjs";
import { refuse } from "./words.mjs";
import { checksum } from "./zip.mjs";

export const LARGEST = 833292; // bytes of an image, a G64 of 84 tracks
const SIZES = [174848, 175531, 196608]; // of a D64, which is an image however it begins
const IMAGE = /\.[dg]64$/i;
const STORED = 0, DEFLATED = 8; // how a file lies in an archive
const END = 22, ENTRY = 46, HEAD = 30; // bytes of the parts of an archive, without names

const begins = (bytes, ...mark) => mark.every((it, i) => bytes[i] === it);
const isGzip = (bytes) => begins(bytes, 0x1f, 0x8b);
const isZip = (bytes) => begins(bytes, 0x50, 0x4b, 3, 4) || begins(bytes, 0x50, 0x4b, 5, 6);
const isG64 = (bytes) => begins(bytes, ...new TextEncoder().encode("GCR-1541"));
// The name of an image in an archive, with an image's ending.
const imageName = (name, bytes) => {
  const base = name.split("/").at(-1);
  return IMAGE.test(base) ? base : `${base}.${isG64(bytes) ? "g64" : "d64"}`;
};

async function inflated(name, data, format) {
  const parts = [];
  let size = 0;
  try {
    for (const reader = new Blob([data]).stream().pipeThrough(new DecompressionStream(format)).getReader(); ; ) {
      const { done, value } = await reader.read();
      if (done) return join(...parts);
      parts.push(value);
      if ((size += value.length) > LARGEST) break;
    }
  } catch {
    refuse(`${name} is compressed, but truncated or damaged.`);
  }
  return refuse(`${name} is larger than any disk.`);
}

// The files of an archive: where each begins, and how it lies there.
function* filesOf(bytes) {
  const view = new DataView(bytes.buffer, bytes.byteOffset, bytes.length);
  let end = bytes.length - END;
  while (end >= 0 && view.getUint32(end, true) !== 0x06054b50) end--;
  let at = view.getUint32(end + 16, true);
  for (let left = view.getUint16(end + 10, true); left; left--) {
    const length = view.getUint16(at + 28, true), name = new TextDecoder().decode(bytes.subarray(at + ENTRY, at + ENTRY + length));
    const its = { name, method: view.getUint16(at + 10, true), sum: view.getInt32(at + 16, true), size: view.getUint32(at + 20, true) };
    const head = view.getUint32(at + 42, true);
    if (!name.endsWith("/")) yield { ...its, from: head + HEAD + view.getUint16(head + 26, true) + view.getUint16(head + 28, true) };
    at += ENTRY + length + view.getUint16(at + 30, true) + view.getUint16(at + 32, true);
  }
}

function listOf(name, bytes) {
  try {
    return [...filesOf(bytes)];
  } catch {
    return refuse(`${name} is compressed, but truncated or damaged.`);
  }
}

async function zipped(name, bytes) {
  const files = listOf(name, bytes), images = files.filter((it) => IMAGE.test(it.name));
  const [file, ...more] = images.length ? images : files;
  if (!file || more.length) refuse(images.length ? `${name} has several disk images: unpack it first.` : `${name} has no disk image.`);
  const data = bytes.subarray(file.from, file.from + file.size);
  if (file.method !== STORED && file.method !== DEFLATED) refuse(`${name} is compressed in a way that is not supported.`);
  const image = file.method === STORED ? data : await inflated(name, data, "deflate-raw");
  if (checksum(image) !== file.sum) refuse(`${name} is compressed, but its checksum is wrong.`);
  return { name: imageName(file.name, image), bytes: image };
}

// The image in a file of this computer, and its name: as it is, or unpacked.
export async function unpacked(name, bytes) {
  if (SIZES.includes(bytes.length)) return { name, bytes };
  if (isGzip(bytes)) return { name: name.replace(/\.gz$/i, ""), bytes: await inflated(name, bytes, "gzip") };
  return isZip(bytes) ? zipped(name, bytes) : { name, bytes };
}
