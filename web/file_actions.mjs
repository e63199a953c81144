// What is done to the files of a disk. Each action is a method of a panel.
import { ask } from "./ask.mjs";
import { same } from "./disk.mjs";
import { KINDS, hostFiles, stem, unwrapped } from "./names.mjs";
import { codes } from "./petscii.mjs";
import { download } from "./saving.mjs";
import { count, refuse, sentence } from "./words.mjs";
import { zip } from "./zip.mjs";

const NAME = 16;
const GIVEN_BACK = ["prg", "seq", "usr"].map((it) => [KINDS.indexOf(it), it]);

export const fileActions = {
  // Why a name can't be a new file's, or an empty text. `more` are files that come with it.
  whyNot(name, more) {
    if (!name) return "It has a character that no key of a C64 types.";
    if (!name.length) return "A file needs a name.";
    if (name.length > NAME) return "A name has at most 16 characters.";
    return [...this.disk.entries, ...more].some((it) => same(it.name, name)) ? "A file of this name exists." : "";
  },

  // A name for a file of this disk, or null: it is asked for until it can be one.
  async askName(title, value, yes, more = [], why = "") {
    for (;;) {
      const got = await ask(title, yes, [["Name on the disk", value]], why);
      if (!got) return null;
      [value] = got;
      const name = codes(value, this.page.set);
      why = this.whyNot(name, more);
      if (!why) return name;
    }
  },

  async put(files) {
    const out = [];
    for (const it of files) out.push(...(await this.asFile(it, out)));
    this.putIn(out, "added");
  },

  async asFile(file, others) {
    const { name: its, ...it } = unwrapped(file.name, await this.bytesOf(file));
    const wanted = its ? this.name(its) : stem(file.name), name = its ?? codes(wanted, this.page.set);
    const why = this.whyNot(name, others);
    const given = why ? await this.askName(`${file.name} needs another name`, wanted.slice(0, NAME), "Add", others, why) : name;
    return given ? [{ ...it, name: given }] : [];
  },

  putIn(files, what) {
    if (!files.length) return this.page.say("Nothing was added.");
    this.disk.put(files);
    this.done(`${count(files.length, "file")} ${what}.`);
  },

  chosen() {
    return [...this.listing.selected].map((it) => this.disk.entry(it));
  },

  chosenNames() {
    return this.chosen().map((it) => this.name(it.name)).join(", ");
  },

  // Files with their bytes, and sentences on those that can't be read.
  readAll(entries) {
    const files = [], left = [];
    for (const it of entries) {
      try {
        files.push({ ...it, data: this.disk.file(it.slot) });
      } catch (e) {
        left.push(`${this.name(it.name)} was left out: ${sentence(e)}`);
      }
    }
    return { files, left };
  },

  takeOut() {
    const { files, left } = this.readAll(this.listing.selected.size ? this.chosen() : this.disk.entries);
    const [first, ...more] = hostFiles(files);
    if (more.length) download(`${stem(this.disk.name)}.zip`, zip([first, ...more]));
    else if (first) download(first.name, first.data);
    this.page.say([`${count(files.length, "file")} extracted to your downloads.`, ...left].join(" "), left.length > 0);
  },

  across() {
    const { disk } = this.other, { files, left } = this.readAll(this.chosen());
    if (left.length) refuse(left.join(" "));
    this.other.putIn(files, `copied to ${disk.name}`);
  },

  // Asks for a new name of the selected file, and makes a change with it.
  async named(what, title, done) {
    const [{ slot, name }] = this.chosen();
    const got = await this.askName(title, this.name(name), title);
    if (!got) return;
    this.disk[what](slot, got);
    this.done(`${done}: ${this.name(got)}.`);
  },

  rename() {
    return this.named("rename", "Rename", "Renamed");
  },

  duplicate() {
    return this.named("copy", "Copy", "Copied");
  },

  lock() {
    const isLocked = !this.areLocked;
    this.disk.lock([...this.listing.selected], isLocked);
    this.done(`${isLocked ? "Locked" : "Unlocked"}: ${this.chosenNames()}.`);
  },

  // Undo brings them back, so nothing is asked.
  remove() {
    const names = this.chosenNames();
    this.disk.remove([...this.listing.selected]);
    this.done(`Deleted: ${names}.`);
  },

  async undelete() {
    const options = this.disk.deleted.map((it) => [it.slot, `${this.name(it.name)}, ${count(it.blocks, "block")}`]);
    const got = await ask("Undelete a file", "Undelete", [["File", options], ["Type, which was lost", GIVEN_BACK]]);
    if (!got) return;
    const [slot, kind] = got.map(Number);
    this.disk.undelete(slot, kind);
    this.done(`Undeleted: ${this.name(this.disk.entry(slot).name)}.`);
  },

  send(input) {
    const log = this.find(".terminal pre"), line = input.value;
    input.value = "";
    let answer;
    try {
      answer = this.terminal.say(line, this.page.set);
    } catch (e) {
      answer = sentence(e);
    }
    log.append(`> ${line}\n${answer}\n`);
    log.scrollTop = log.scrollHeight;
    this.disk.note(`${line} in the terminal.`);
    this.show();
  },
};
