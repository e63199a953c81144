// The page's own reading of a D64: whose each block is, and which files are GEOS's.
import { REL } from "./names.mjs";
import { join } from "./petscii.mjs";

const BLOCK = 256, ENTRY = 32;
const TRACKS = 35, OF_40_TRACKS = 196608; // and the size of a D64 that has 40
const DIRECTORY = 18;
const MAP = 0xc0; // where the BAM of tracks 36 to 40 stands in 18/0
const CLOSED = 0x80;
const UNREADABLE = [5, 9]; // the numbers of such flaws
// What a block is, by whether it is used, and free in the BAM; the last can't be read.
const STATES = ["lost", "free", "used", "used, but marked free", "can't be read"];

const sectorsOf = (track) => (track < 18 ? 21 : track < 25 ? 19 : track < 31 ? 18 : 17);

function places(image) {
  const tracks = Array.from({ length: image.length === OF_40_TRACKS ? 40 : TRACKS }, (_, i) => i + 1);
  return tracks.flatMap((track) => Array.from({ length: sectorsOf(track) }, (_, sector) => ({ track, sector, place: `${track}/${sector}` })));
}

const blocksOf = (image) => new Map(places(image).map(({ place }, i) => [place, image.subarray(BLOCK * i, BLOCK * (i + 1))]));

// The places of a chain, up to its end or to where it breaks off.
function chain(blocks, track, sector) {
  const out = new Set();
  for (let place; blocks.has((place = `${track}/${sector}`)) && !out.has(place); [track, sector] = blocks.get(place)) out.add(place);
  return [...out];
}

// The thirty bytes of each entry of the directory.
const entriesOf = (blocks) =>
  chain(blocks, DIRECTORY, 1).flatMap((place) => Array.from({ length: 8 }, (_, i) => blocks.get(place).subarray(ENTRY * i + 2, ENTRY * (i + 1))));

export const isG64 = (image) => join("GCR-1541").every((it, i) => it === image[i]);

// The image as a D64; zeros stand for sectors that can't be read.
const plain = (library, image) => (isG64(image) ? library.convert(image).image : image);

// A closed file of bytes is GEOS's if its entry has a type of GEOS's, and says how it is kept.
const isGeos = (it) => it[0] & CLOSED && (it[0] & 7) > 0 && (it[0] & 7) < REL && it[21] < 2 && it[22] !== 0;

export const geosSlots = (library, image) => entriesOf(blocksOf(plain(library, image))).flatMap((it, slot) => (isGeos(it) ? [slot] : []));

function isFree(bam, track, sector) {
  const at = track <= TRACKS ? 4 * track : MAP + 4 * (track - TRACKS - 1);
  return (bam[at + 1 + (sector >> 3)] >> (sector & 7)) & 1;
}

// The slot of the closed file that uses each place first; undefined for those of the directory.
function usersOf(blocks) {
  const out = new Map();
  const use = (slot, ...its) => chain(blocks, ...its).forEach((it) => out.has(it) || out.set(it, slot));
  use(undefined, DIRECTORY, 0);
  use(undefined, DIRECTORY, 1);
  entriesOf(blocks).forEach((it, slot) => {
    if (!(it[0] & CLOSED)) return;
    use(slot, it[1], it[2]);
    if ((it[0] & 7) === REL) use(slot, it[19], it[20]);
  });
  return out;
}

// What each block is: { track, sector, slot, state }.
export function mapOf(library, image, flaws) {
  const d64 = plain(library, image), blocks = blocksOf(d64), users = usersOf(blocks), bam = blocks.get("18/0");
  const bad = new Set(flaws.filter((it) => UNREADABLE.includes(it.what)).map((it) => `${it.track}/${it.sector}`));
  return places(d64).map(({ track, sector, place }) => {
    const state = bad.has(place) ? 4 : 2 * users.has(place) + isFree(bam, track, sector);
    return { track, sector, slot: users.get(place), state: STATES[state] };
  });
}
