// One of the two disks as it is shown: its buttons, keys, and what is dropped on it.
import { diskActions } from "./disk_actions.mjs";
import { fileActions } from "./file_actions.mjs";
import { Listing } from "./listing.mjs";
import { picture } from "./map.mjs";
import { text } from "./petscii.mjs";
import { UNLINKED } from "./disk.mjs";
import { count, refuse, sentence } from "./words.mjs";
import { flawText } from "./yellowadze1541.mjs";

const OURS = "application/x-1541-files"; // what a drag from one disk to the other has
// Why a button does nothing, by what it needs.
const REASONS = {
  disk: "Open a disk first.",
  past: "There is nothing to undo.",
  future: "There is nothing to redo.",
  one: "Select one file first.",
  some: "Select a file first.",
  deleted: "The directory has no deleted file.",
  across: "Select a file, and open a disk on the other side.",
};
const KEYS = { z: "undo", y: "redo", Z: "redo", s: "save" };
const IMAGE = /\.([dg]64(\.gz)?|zip)$/i;

export class Panel {
  disk = null;
  place = null; // where the disk can be saved in place

  constructor(page, label) {
    Object.assign(this, { page, label, root: document.querySelector("template").content.firstElementChild.cloneNode(true) });
    this.root.ariaLabel = label;
    document.querySelector("main").append(this.root);
    this.find = (what) => this.root.querySelector(what);
    this.listing = new Listing(this.find(".screen"), label, (what) => this.#press(what), () => this.#showSelected());
    this.#listen();
    this.#takeDrops();
  }

  name(codes) {
    return text(codes, this.page.set);
  }

  #listen() {
    const on = (what, event, does) => this.find(what).addEventListener(event, does);
    this.root.addEventListener("click", (e) => e.target.dataset.do && this.#press(e.target.dataset.do));
    this.root.addEventListener("keydown", (e) => this.#shortcut(e));
    this.root.addEventListener("change", (e) => e.target.dataset.take && this.#taken(e.target));
    on("[data-take=open]", "click", (e) => this.#pick(e));
    on(".map", "toggle", () => this.#showMap());
    on(".map", "click", (e) => e.target.dataset.slot && this.listing.only(Number(e.target.dataset.slot)));
    on(".terminal form", "submit", (e) => {
      e.preventDefault();
      this.send(e.target.elements[0]);
    });
  }

  #press(what) {
    const { needs } = this.find(`[data-do=${what}]`).dataset;
    if (needs && !this.#has(needs)) return this.page.say(REASONS[needs], true);
    this.page.try(() => this[what]());
  }

  #shortcut(e) {
    if (!(e.ctrlKey || e.metaKey) || !KEYS[e.key] || e.target.form) return;
    e.preventDefault();
    this.#press(KEYS[e.key]);
  }

  async #taken(input) {
    await this.page.try(() => this[input.dataset.take]([...input.files]));
    input.value = "";
  }

  // A browser that gives handles of files can save in place.
  #pick(e) {
    if (!window.showOpenFilePicker) return;
    e.preventDefault();
    this.page.try(async () => {
      const [handle] = await window.showOpenFilePicker().catch(() => []);
      if (handle) await this.open([await handle.getFile()], handle);
    });
  }

  #takeDrops() {
    const on = (event, isOver, does) =>
      this.root.addEventListener(event, (e) => {
        e.preventDefault();
        this.root.classList.toggle("over", isOver);
        does?.(e.dataTransfer);
      });
    on("dragover", true);
    on("dragleave", false);
    on("drop", false, (data) => this.page.try(() => this.dropped(data)));
    this.listing.list.addEventListener("dragstart", (e) => {
      this.listing.drag(e.target);
      e.dataTransfer.setData(OURS, this.label);
    });
  }

  // What a drop has can only be asked for before anything is waited for.
  dropped(data) {
    const from = data.getData(OURS);
    if (from) return from === this.other.label && this.other.across();
    const files = [...data.files], images = imagesOf(data);
    if (this.disk && !images.length) return this.put(files);
    if (images.length === files.length && images.length === 2) return openBoth([this, this.other], images);
    return this.open(files, images[0]?.handle);
  }

  show() {
    const { disk } = this;
    this.find("h2 span").textContent = disk?.name ?? this.label;
    this.root.classList.toggle("changed", !!disk?.isChanged);
    this.root.classList.toggle("empty", !disk);
    this.page.shown();
    if (disk) {
      this.listing.show(disk, this.page.set);
      this.#showVerdict();
      this.find("[data-do=convert]").textContent = `Make it a ${disk.isG64 ? "D64" : "G64"}`;
      this.find("[data-do=undo]").title = `${disk.undoes} Ctrl+Z`.trim();
      this.find("[data-do=redo]").title = `${disk.redoes} Ctrl+Y`.trim();
    }
    this.#showSelected();
    this.other.#showNeeds();
  }

  #showVerdict() {
    const { flaws, broken, odd: { length } } = this.disk;
    const verdict = this.find(".verdict");
    verdict.textContent = length ? `Sound but for ${length} odd ${length === 1 ? "entry" : "entries"}:` : flaws.length ? "The disk isn't sound:" : "The disk is sound.";
    verdict.classList.toggle("fault", flaws.length > 0 && !length);
    this.root.classList.toggle("odd", length > 0);
    this.#showLost(verdict);
    if (broken) verdict.prepend(`The directory breaks off: ${sentence({ number: broken })} `);
    const fileOf = ({ whose, slot }) => (whose === 2 && this.disk.entry(slot) ? ` (${this.name(this.disk.entry(slot).name)})` : "");
    this.find(".flaws").replaceChildren(...flaws.map((it) => Object.assign(document.createElement("li"), { textContent: flawText(it) + fileOf(it) })));
  }

  #showLost(verdict) {
    const { lost: { length }, isUnlinked, flaws, odd } = this.disk;
    if (!length || (flaws.length && !odd.length)) return;
    const [are, them] = length === 1 ? ["is", "it"] : ["are", "them"], way = odd.length ? "" : `: Validate frees ${them}`;
    verdict.append(" ", Object.assign(document.createElement("span"), { textContent: isUnlinked ? UNLINKED : `${count(length, "block")} ${are} lost${way}.` }));
    verdict.classList.toggle("fault", isUnlinked);
  }

  #has(need) {
    const { disk } = this, { size } = this.listing.selected;
    return { disk, past: disk?.canUndo, future: disk?.canRedo, one: size === 1, some: size, deleted: disk?.deleted.length, across: size && this.other.disk }[need];
  }

  // A button that can't do anything stays where the keyboard finds it, and says why.
  #showNeeds() {
    for (const it of this.root.querySelectorAll("[data-needs]")) it.ariaDisabled = String(!this.#has(it.dataset.needs));
  }

  #showSelected() {
    const { size } = this.listing.selected;
    this.find("[data-do=takeOut]").textContent = size === 1 ? "Extract" : size ? `Extract ${size}` : "Extract all";
    this.find("[data-do=lock]").textContent = this.areLocked ? "Unlock" : "Lock";
    this.#showNeeds();
    this.#showMap();
  }

  get areLocked() {
    const slots = [...this.listing.selected];
    return slots.length > 0 && slots.every((it) => this.disk.entry(it).locked);
  }

  #showMap() {
    if (!this.disk || !this.find(".map").open) return;
    this.find(".map div").replaceChildren(...picture(this.disk.blocks, this.listing.selected, (slot) => this.name(this.disk.entry(slot).name)));
  }

  done(what) {
    this.disk.note(what);
    this.show();
    this.page.say(what);
  }
}

// The dropped images, each with the handle of its file where a browser gives one. (It gives them only while the drop is handled.)
function imagesOf(data) {
  return [...data.items]
    .filter((it) => it.kind === "file")
    .map((it) => ({ file: it.getAsFile(), handle: it.getAsFileSystemHandle?.().catch(() => null) }))
    .filter(({ file }) => file && IMAGE.test(file.name));
}

async function openBoth(panels, images) {
  for (const [i, { file, handle }] of images.entries()) await panels[i].open([file], handle);
}

// Files dropped next to both disks: an image goes where no disk is, and two images to both.
export function droppedOn(panels, data) {
  const images = imagesOf(data), empty = panels.filter((it) => !it.disk);
  if (!images.length || images.length < data.files.length) refuse("Drop files on the disk that gets them.");
  if (images.length > empty.length) refuse(images.length > 2 ? "Two disks can be open at a time." : "Drop an image on the disk that it replaces.");
  return openBoth(empty, images);
}

Object.assign(Panel.prototype, diskActions, fileActions);
