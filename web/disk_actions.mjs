// What is done to a whole disk. Each action is a method of a panel.
import { ask } from "./ask.mjs";
import { Disk, ORDERS } from "./disk.mjs";
import { exampleDisk } from "./example.mjs";
import { stem } from "./names.mjs";
import { LARGEST, unpacked } from "./packed.mjs";
import { codes, unpadded } from "./petscii.mjs";
import { Place, download } from "./saving.mjs";
import { Terminal } from "./terminal.mjs";
import { count, refuse, sentence } from "./words.mjs";

const FORMS = [[0, "D64, 35 tracks"], [1, "D64, 40 tracks"], [2, "G64"]];
const TITLE = 16, ID = 2, MARK = 5; // lengths

// What a conversion would lose, in words.
const losses = ({ unreadable, tracks, errors, id }) => [
  unreadable && `${count(unreadable, "sector")} that can't be read`,
  tracks && "tracks beyond those that it has room for",
  errors && "the error bytes",
  id && "the id in the sectors' headers",
].filter(Boolean);

export const diskActions = {
  // Whether the disk may leave its place.
  async mayGo() {
    return !this.disk?.isChanged || ask(`${this.disk.name} was changed and not saved.`, "Discard the changes");
  },

  async open(files, handle = null) {
    if (files.length !== 1) refuse("Open one disk at a time.");
    const [file] = files, disk = await this.diskOf(file);
    if (!(await this.mayGo())) return;
    this.take(disk);
    const its = await handle;
    if (its) this.place = new Place(its, file);
    this.done(`${disk.name} is open.`);
  },

  async bytesOf(file) {
    if (file.size > LARGEST) refuse(`${file.name} is larger than any disk.`);
    return new Uint8Array(await file.arrayBuffer().catch(() => refuse(`${file.name} can't be read.`)));
  },

  async diskOf(file) {
    const { name, bytes } = await unpacked(file.name, await this.bytesOf(file));
    try {
      return new Disk(this.page.library, name, bytes);
    } catch (e) {
      return refuse(`${file.name}: ${sentence(e)}`);
    }
  },

  take(disk) {
    Object.assign(this, { disk, place: null, terminal: new Terminal(disk) });
    this.listing.selected.clear();
    this.find(".terminal pre").textContent = `${Terminal.HELP}\n`;
  },

  example() {
    this.take(new Disk(this.page.library, "example.d64", exampleDisk(this.page.library)));
    this.done("An example. Changes stay in this page until you save them.");
  },

  // The codes of a text that was typed.
  typed(words, least, most = least) {
    const its = codes(words, this.page.set);
    return its?.length >= least && its.length <= most ? its : refuse(`"${words}" can't be used: ${least === most ? "it needs" : "at most"} ${most} characters, each on a key of a C64.`);
  },

  async fresh() {
    if (!(await this.mayGo())) return;
    const got = await ask("A new disk", "Make it", [["Title", "WORK"], ["Id, two characters", "64"], ["Form", FORMS]]);
    if (!got) return;
    const [title, id, form] = got;
    const bytes = this.page.library.create(+form, this.typed(title, 0, TITLE), this.typed(id, ID));
    this.take(new Disk(this.page.library, form === "2" ? "new.g64" : "new.d64", bytes, false));
    this.done("A new disk.");
  },

  async save() {
    const { disk, place } = this, { bytes } = disk; // as they are now, whatever is done while they are written
    const isInPlace = place?.name === disk.name && (await place.save(bytes));
    if (isInPlace === null) return;
    if (!isInPlace) download(disk.name, bytes);
    disk.saved(bytes);
    this.done(isInPlace ? `${disk.name} is saved.` : `${disk.name} is among your downloads.`);
  },

  undo() {
    const what = this.disk.undo();
    this.show();
    this.page.say(`Undone: ${what}`);
  },

  redo() {
    const what = this.disk.redo();
    this.show();
    this.page.say(`Redone: ${what}`);
  },

  async retitle() {
    const { title, mark } = this.disk.title;
    if (!title) refuse("The block with the title can't be read.");
    const got = await ask("Another title", "Change", [["Title", this.name(unpadded(title))], ["Id and DOS, five characters", this.name(mark)]]);
    if (!got) return;
    this.disk.retitle(this.typed(got[0], 0, TITLE), this.typed(got[1], MARK));
    this.done(`The title is ${got[0]}.`);
  },

  async sort() {
    const got = await ask("Sort the directory", "Sort", [["By", ORDERS.map((it) => [it, it])]]);
    if (got) this.done(this.disk.sort(got[0]) ? "Sorted." : "Already in this order.");
  },

  async validate() {
    const { bytes, gone } = this.disk.validated();
    const why = `These files were never closed and would be removed: ${gone.map((it) => this.name(it.name)).join(", ")}.`;
    if (gone.length && !(await ask("Validate the disk", "Validate", [], why))) return;
    this.done(this.disk.become(bytes) ? `Validated: ${count(this.disk.title.free, "block")} free.` : "Validated: nothing to repair.");
  },

  async convert() {
    const { image, lost } = this.disk.converted(), less = losses(lost);
    const why = `The other format can't hold: ${less.join("; ")}.`;
    if (less.length && !(await ask("Something will be lost.", "Convert", [], why))) return;
    this.disk.become(image, `${stem(this.disk.name)}.${this.disk.isG64 ? "d64" : "g64"}`);
    this.done(`It is a ${this.disk.isG64 ? "G64" : "D64"} now${less.length ? "" : "; nothing was lost"}.`);
  },
};
