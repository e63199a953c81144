// The page: two disks side by side, the character set, and the message line.
import { Panel, droppedOn } from "./panel.mjs";
import { Sentence, refuse, sentence } from "./words.mjs";
import { load } from "./yellowadze1541.mjs";

const said = document.getElementById("said");

const byId = (id) => document.getElementById(id);
byId("stuck").remove();

const page = {
  set: "upper",
  panels: [],

  // A disk is shown, or another one: the introduction is for a page without one.
  shown() {
    byId("intro").hidden = page.panels.some((it) => it.disk);
  },

  say(text, isFault = false) {
    said.textContent = text;
    said.classList.toggle("fault", isFault);
  },

  async try(work) {
    try {
      await work();
    } catch (e) {
      page.say(sentence(e), true);
      if (!("number" in e) && !(e instanceof Sentence)) console.error(e);
    }
  },
};

// The module's bytes: a file in the page's folder, or a part of the page if all is in one file.
async function moduleBytes() {
  const inside = document.getElementById("module");
  if (inside) return Uint8Array.from(atob(inside.textContent), (it) => it.charCodeAt(0));
  const answer = await fetch("yellowadze1541.wasm");
  if (!answer.ok) refuse("yellowadze1541.wasm isn't in the folder of this page.");
  return answer.arrayBuffer();
}

page.try(async () => {
  page.library = await load(moduleBytes());
  const panels = ["Left disk", "Right disk"].map((label) => new Panel(page, label));
  panels.forEach((it, i) => (it.other = panels[1 - i]));
  page.panels = panels;
  const show = () => panels.forEach((it) => it.show());
  document.getElementById("small").addEventListener("change", (e) => {
    page.set = e.target.checked ? "lower" : "upper";
    show();
  });
  byId("example").addEventListener("click", () => page.try(() => panels[0].example()));
  addEventListener("beforeunload", (e) => panels.some((it) => it.disk?.isChanged) && e.preventDefault());
  addEventListener("dragover", (e) => e.preventDefault());
  addEventListener("drop", (e) => {
    e.preventDefault();
    if (!e.target.closest?.(".disk")) page.try(() => droppedOn(panels, e.dataTransfer));
  });
  show();
  page.say("Ready.");
});
