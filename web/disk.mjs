// A disk's image with its past. Each change is a new image that the library made; the old ones are kept to undo.
import { geosSlots, isG64, mapOf } from "./blocks.mjs";
import { PAD, join } from "./petscii.mjs";
import { refuse } from "./words.mjs";

const DEEP = 50; // images that are kept
const DIRECTORY = 18; // its track
export const UNLINKED = "Sectors of track 18 are in use, but no link of the directory leads to them, and files may be listed there.";
const DIVIDES = join(',=:"?*'); // what the drive's OPEN can't say in a name
const LETTERS = { 1: "S", 2: "P", 3: "U" }; // of the types that OPEN can write
// What a directory is sorted by; among the same the names count.
const KEYS = { name: () => 0, type: (it) => it.kind, size: (it) => it.blocks };
export const ORDERS = Object.keys(KEYS);

export const same = (a, b) => a.length === b.length && a.every((it, i) => it === b[i]);

// A name ends at its first shifted space.
const nameOf = (codes) => (codes.includes(PAD) ? codes.slice(0, codes.indexOf(PAD)) : codes);
const latin = (it) => String.fromCharCode(...it.name);
const isEmpty = (it) => !it.kind && !it.closed && !it.locked;
const canBeSaid = (name) => name.every((it) => it >= 0x20 && it !== PAD && !DIVIDES.includes(it));
const letterOf = (kind) => LETTERS[kind] ?? refuse("Relative and deleted files can't be put on a disk here; `disk1541 put` puts relative ones.");

// Title, id and free blocks; nothing if their sector can't be read.
function labelOf(library, bytes) {
  try {
    return library.title(bytes);
  } catch (e) {
    if (!(e.number >= 20)) throw e;
    return {};
  }
}

export class Disk {
  #past = [];
  #future = [];
  #saved;

  constructor(library, name, bytes, isSaved = true) {
    this.library = library;
    this.#saved = isSaved ? bytes : null;
    this.#take({ bytes, name });
  }

  #take(image) {
    Object.assign(this, image, { geos: null, map: null });
    const { library, bytes } = this;
    const { entries, status } = library.entries(bytes);
    this.slots = entries.map((it, slot) => ({ ...it, slot, name: nameOf(it.name) }));
    this.entries = this.slots.filter((it) => !isEmpty(it));
    this.deleted = this.slots.filter((it) => isEmpty(it) && it.track && it.name.length);
    this.broken = status; // why the directory can't be followed to its end, or 0
    this.flaws = library.flaws(bytes);
    this.odd = library.odd(bytes) ?? [];
    this.title = labelOf(library, bytes);
  }

  get isG64() {
    return isG64(this.bytes);
  }

  entry(slot) {
    return this.entries.find((it) => it.slot === slot);
  }

  get blocks() {
    return (this.map ??= mapOf(this.library, this.bytes, this.flaws));
  }

  // The blocks that are in use in the BAM, and that no file has; GEOS has files that this page doesn't see.
  get lost() {
    return this.#geos.length ? [] : this.blocks.filter((it) => it.state === "lost");
  }

  // Whether one of them lies on the directory's track, so that files may be listed there.
  get isUnlinked() {
    return this.lost.some((it) => it.track === DIRECTORY);
  }

  file(slot) {
    if (!this.entry(slot).closed) refuse("It was never closed: Validate removes it.");
    if (this.#geos.includes(slot)) refuse("It is a file of GEOS, of which the drive sees only a part.");
    return this.library.read(this.bytes, slot);
  }

  get isChanged() {
    return this.bytes !== this.#saved;
  }

  get canUndo() {
    return this.#past.length > 0;
  }

  get canRedo() {
    return this.#future.length > 0;
  }

  // What undo and redo would take back or make again, in words.
  get undoes() {
    return this.#past.at(-1)?.what ?? "";
  }

  get redoes() {
    return this.#future.at(-1)?.what ?? "";
  }

  // Names the change that was made last, unless it has a name.
  note(what) {
    const last = this.#past.at(-1);
    if (last) last.what ??= what;
  }

  saved(bytes) {
    this.#saved = bytes;
  }

  // Both answer what was undone or made again.
  undo() {
    return this.#step(this.#past, this.#future);
  }

  redo() {
    return this.#step(this.#future, this.#past);
  }

  #step(from, to) {
    const { what, ...image } = from.pop();
    to.push({ bytes: this.bytes, name: this.name, what });
    this.#take(image);
    return what;
  }

  // Takes a new image. Answers whether that changes anything.
  become(bytes, name = this.name) {
    if (name === this.name && same(bytes, this.bytes)) return false;
    this.#past.push({ bytes: this.bytes, name: this.name });
    if (this.#past.length > DEEP) this.#past.shift();
    this.#future = [];
    this.#take({ bytes, name });
    return true;
  }

  // Makes a change, around odd entries if only these are wrong.
  #change(change) {
    const { library, bytes, odd } = this;
    return this.become(odd.length ? library.putBack(bytes, change(library.putAway(bytes))) : change(bytes));
  }

  // Makes a change for each of these, all or none.
  #each(list, change) {
    return this.#change((bytes) => list.reduce(change, bytes));
  }

  // Files are { name, kind, data }: all, or none. One whose name the drive's OPEN can't say gets another name first.
  put(files) {
    const taken = [...this.entries, ...files].map(latin);
    const free = (i) => (taken.includes(`NEW ${i}`) ? free(i + files.length) : join(`NEW ${i}`));
    const first = files.map(({ name }, i) => (canBeSaid(name) ? name : free(i)));
    const texts = files.map(({ kind, data }, i) => ({ text: join("0:", first[i], `,${letterOf(kind)},W`), data }));
    return this.#change((old) => {
      const made = this.library.putAll(old, texts);
      const slotOf = (name) => new Disk(this.library, this.name, made).entries.find((it) => same(it.name, name)).slot;
      return files.reduce((bytes, { name }, i) => (first[i] === name ? bytes : this.library.rename(bytes, slotOf(first[i]), name)), made);
    });
  }

  rename(slot, name) {
    return this.#change((it) => this.library.rename(it, slot, name));
  }

  copy(slot, name) {
    if (this.file(slot)) letterOf(this.entry(slot).kind);
    return this.#change((it) => this.library.copy(it, slot, name));
  }

  remove(slots) {
    if (slots.some((it) => this.entry(it).locked)) refuse("A locked file can't be deleted: unlock it first.");
    return this.#each(slots, (bytes, it) => this.library.remove(bytes, it));
  }

  lock(slots, isLocked) {
    return this.#each(slots, (bytes, it) => this.library.lock(bytes, it, isLocked));
  }

  undelete(slot, kind) {
    return this.#change((it) => this.library.undelete(it, slot, kind));
  }

  retitle(title, mark) {
    return this.#change((it) => this.library.remark(this.library.retitle(it, title), mark));
  }

  // Each slot in turn gets the entry that comes first of those left; odd entries stay.
  sort(by) {
    const left = this.slots.filter((it) => !this.odd.includes(it.slot)), slots = left.map((it) => it.slot);
    return this.#each([...left.keys()], (bytes, place) => {
      const first = left.reduce((least, it, i) => (i > place && isBefore(it, left[least], by) ? i : least), place);
      [left[first], left[place]] = [left[place], left[first]];
      return first === place ? bytes : this.library.swap(bytes, slots[first], slots[place]);
    });
  }

  get #geos() {
    return (this.geos ??= geosSlots(this.library, this.bytes));
  }

  // What validating would make: the image, and the files that would go.
  validated() {
    if (this.#geos.length) refuse("The drive's VALIDATE would free blocks that files of GEOS use. `disk1541 validate` keeps them.");
    if (this.odd.length) refuse("It may free an odd entry's blocks: `disk1541 validate` doesn't.");
    if (this.isUnlinked) refuse(`${UNLINKED} Validate would free the blocks of their files. \`disk1541 get-all --salvage\` extracts them.`);
    const after = new Disk(this.library, this.name, this.library.command(this.bytes, "V0"));
    return { bytes: after.bytes, gone: this.entries.filter((it) => !after.entry(it.slot)) };
  }

  converted() {
    return this.library.convert(this.bytes);
  }
}

// Whether an entry comes before another one in a sorted directory; empty slots come last.
function isBefore(one, other, by) {
  if (isEmpty(one) || isEmpty(other)) return !isEmpty(one);
  const difference = KEYS[by](one) - KEYS[by](other);
  return difference ? difference < 0 : latin(one) < latin(other);
}
