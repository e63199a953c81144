// The directory as a C64 shows it, as a listbox: arrows and letters move, Shift extends, Ctrl and Space add, Ctrl+A takes all.
import { draw } from "./drawn.mjs";
import { KINDS } from "./names.mjs";
import { glyph, join, text } from "./petscii.mjs";
import { count } from "./words.mjs";

const NAME = 16, PAGE = 10;
const ACTIONS = { Enter: "takeOut", F2: "rename", Delete: "remove" };

// Codes as they look, in as few spans as can be. Graphics get a cell each, as fonts have them in other widths.
function looks(codes, set, isReversed = false) {
  const out = document.createDocumentFragment();
  let run = null;
  for (const code of codes) {
    const it = glyph(code, set), isCell = it.shown > "~";
    const look = `${it.isReversed === isReversed ? "" : "reversed"}${isCell ? " cell" : ""}`;
    if (!run || isCell || run.className !== look) out.append((run = Object.assign(document.createElement("span"), { className: look })));
    run.append(it.shown);
    if (isCell) draw(run, it.shown);
  }
  return out;
}

// The codes of a file's line, as LIST shows them.
function lineOf({ name, kind, blocks, closed, locked }) {
  const type = (KINDS[kind] ?? "???").toUpperCase();
  return join(String(blocks).padEnd(5), '"', name, '"', " ".repeat(NAME - name.length), closed ? " " : "*", type, locked ? "<" : "");
}

function label({ name, kind, blocks, locked, closed }, set) {
  return `${text(name, set)}, ${KINDS[kind] ?? "unknown type"}, ${count(blocks, "block")}${locked ? ", locked" : ""}${closed ? "" : ", never closed"}`;
}

export class Listing {
  selected = new Set();
  #slots = [];
  #names = []; // as text in small letters
  #at = 0;
  #anchor = 0;

  // What keys and the mouse ask for goes to `act`; `changed` is called if other files are selected.
  constructor(screen, name, act, changed) {
    [this.head, this.list, this.foot] = screen.children;
    Object.assign(this, { name, act, changed });
    this.list.addEventListener("keydown", (e) => this.#key(e));
    this.list.addEventListener("click", (e) => this.#click(e));
    this.list.addEventListener("dblclick", (e) => this.#placeOf(e.target) >= 0 && act("takeOut"));
  }

  show({ entries, title }, set) {
    this.#slots = entries.map((it) => it.slot);
    this.#names = entries.map((it) => text(it.name, set).toLowerCase());
    const header = title.title ? join('"', title.title, '" ', title.mark) : join("UNREADABLE");
    this.head.replaceChildren("0 ", looks(header, set, true));
    this.foot.replaceChildren(looks(join(`${title.free ?? "?"} BLOCKS FREE.`), set));
    this.list.replaceChildren(...entries.map((it) => this.#row(it, set)));
    this.#at = Math.min(this.#at, Math.max(0, this.#slots.length - 1));
    this.#select(this.#slots.filter((it) => this.selected.has(it)));
  }

  #row(entry, set) {
    const row = Object.assign(document.createElement("li"), { id: `${this.name[0]}${entry.slot}`, role: "option", draggable: true });
    row.ariaLabel = label(entry, set);
    row.append(looks(lineOf(entry), set));
    return row;
  }

  #placeOf(element) {
    return [...this.list.children].indexOf(element.closest("[role=option]"));
  }

  #select(slots) {
    this.selected = new Set(slots);
    const rows = [...this.list.children], at = rows[this.#at];
    rows.forEach((row, i) => {
      row.ariaSelected = String(this.selected.has(this.#slots[i]));
      row.classList.toggle("at", row === at);
    });
    this.list.setAttribute("aria-activedescendant", at?.id ?? "");
    if (document.activeElement === this.list) at?.scrollIntoView({ block: "nearest" });
    this.changed();
  }

  only(slot) {
    this.#move(this.#slots.indexOf(slot));
  }

  // Selects what is dragged, unless it goes along with others that are selected.
  drag(row) {
    const place = this.#placeOf(row);
    if (!this.selected.has(this.#slots[place])) this.#move(place);
  }

  // The files from where it began to where it is are selected; with Ctrl it moves alone.
  #move(to, { shiftKey, ctrlKey } = {}) {
    this.#at = Math.max(0, Math.min(this.#slots.length - 1, to));
    if (ctrlKey) return this.#select(this.selected);
    if (!shiftKey) this.#anchor = this.#at;
    this.#select(this.#slots.slice(Math.min(this.#anchor, this.#at), Math.max(this.#anchor, this.#at) + 1));
  }

  // Goes to the next file whose name begins with a letter.
  #seek(letter) {
    const count = this.#names.length, first = this.selected.size ? 1 : 0;
    const places = Array.from({ length: count }, (_, i) => (this.#at + first + i) % count);
    const found = places.find((it) => this.#names[it].startsWith(letter));
    if (found !== undefined) this.#move(found);
  }

  #toggle(place) {
    this.#at = this.#anchor = place;
    const slot = this.#slots[place], { selected } = this;
    this.#select(selected.has(slot) ? [...selected].filter((it) => it !== slot) : [...selected, slot]);
  }

  #click(e) {
    const place = this.#placeOf(e.target);
    if (place < 0) return;
    if (e.ctrlKey || e.metaKey) this.#toggle(place);
    else this.#move(place, e);
  }

  #key(e) {
    const { key } = e, step = this.selected.size ? 1 : 0; // with nothing selected an arrow selects the file at the mark
    const moves = { ArrowDown: this.#at + step, ArrowUp: this.#at - step, PageDown: this.#at + PAGE, PageUp: this.#at - PAGE, Home: 0, End: Infinity };
    if (!this.#slots.length) return;
    if (key in moves) this.#move(moves[key], e);
    else if (key in ACTIONS) this.act(ACTIONS[key]);
    else if (key === " ") this.#toggle(this.#at);
    else if (key === "a" && (e.ctrlKey || e.metaKey)) this.#select(this.#slots);
    else if (key.length === 1 && !e.ctrlKey && !e.metaKey && !e.altKey) this.#seek(key.toLowerCase());
    else return;
    e.preventDefault();
  }
}
