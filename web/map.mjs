// A picture of a disk's blocks: a column for each track, a colour for each file, numbers and a legend.

const CELL = 8, ROWS = 21, TOP = 8, LEFT = 12;
const CLASSES = { free: "free", used: "used", lost: "lost", "used, but marked free": "clash", "can't be read": "bad" };
// The legend: the meaning of each colour.
const MEANINGS = { free: "free", used: "directory", lost: "lost: no file has it", "used, but marked free": "used, but marked free", "can't be read": "unreadable" };
const HUES = [30, 300]; // of files: from here on, so many, without the red of faults

function element(tag, attributes, text = "") {
  const out = document.createElementNS("http://www.w3.org/2000/svg", tag);
  for (const [name, value] of Object.entries(attributes)) out.setAttribute(name, value);
  out.textContent = text;
  return out;
}

// Neighbours in the directory get colours far apart.
const colour = (slot) => `hsl(${HUES[0] + ((slot * 137) % HUES[1])} 65% 55%)`;

function square({ track, sector, slot, state }, selected, nameOf) {
  const isFile = slot !== undefined && state !== "free", isGood = isFile && state === "used";
  const place = { x: LEFT + CELL * track - 7.5, y: TOP + CELL * sector + 0.5 };
  const out = element("rect", { ...place, width: CELL - 1, height: CELL - 1, class: isGood ? "file" : CLASSES[state] });
  out.classList.toggle("chosen", isFile && selected.has(slot));
  if (isGood) out.style.fill = colour(slot);
  if (isFile) out.dataset.slot = slot;
  out.append(element("title", {}, `${track}/${sector} ${isFile ? nameOf(slot) : state}`));
  return out;
}

// The same in words.
function words(blocks, selected, nameOf) {
  const counts = Object.keys(CLASSES).map((state) => [blocks.filter((it) => it.state === state).length, state]);
  const placesOf = (slot) => blocks.filter((it) => it.slot === slot).map((it) => `${it.track}/${it.sector}`);
  const files = [...selected].map((slot) => `${nameOf(slot)}: ${placesOf(slot).join(" ") || "no block"}`);
  return [`Blocks: ${counts.filter(([n]) => n).map((it) => it.join(" ")).join(", ")}.`, ...files].join("\n");
}

// The numbers of tracks above, and of sectors at the left.
function numbers(tracks) {
  const columns = Array.from({ length: tracks }, (_, i) => i + 1).filter((it) => it === 1 || it % 5 === 0 || it === 18);
  const rows = Array.from({ length: ROWS }, (_, i) => i).filter((it) => it % 5 === 0);
  return [
    ...columns.map((it) => element("text", { x: LEFT + CELL * it - CELL / 2, y: TOP - 2 }, it)),
    ...rows.map((it) => element("text", { x: LEFT / 2, y: TOP + CELL * it + 6 }, it)),
  ];
}

// A square with its meaning.
function meaning(shown, words) {
  const svg = element("svg", { viewBox: "0 0 8 8", "aria-hidden": "true" });
  svg.append(shown);
  const out = document.createElement("li");
  out.append(svg, words);
  return out;
}

function legend(blocks) {
  const swatch = (its) => element("rect", { x: 0.5, y: 0.5, width: CELL - 1, height: CELL - 1, class: its });
  const isOfFile = (it) => it.slot !== undefined && it.state === "used";
  const states = Object.keys(CLASSES).filter((state) => blocks.some((it) => it.state === state && !isOfFile(it)));
  const file = swatch("file");
  file.style.fill = colour(0);
  const out = Object.assign(document.createElement("ul"), { className: "legend", ariaLabel: "Legend" });
  if (blocks.some(isOfFile)) out.append(meaning(file, "a file, each in its color"));
  out.append(...states.map((state) => meaning(swatch(CLASSES[state]), MEANINGS[state])));
  return out;
}

export function picture(blocks, selected, nameOf) {
  const tracks = blocks.at(-1).track;
  const svg = element("svg", { viewBox: `0 0 ${LEFT + CELL * tracks} ${TOP + CELL * ROWS}`, role: "img", "aria-label": "Map; its words follow" });
  svg.append(...numbers(tracks), ...blocks.map((it) => square(it, selected, nameOf)));
  const text = document.createElement("p");
  text.textContent = words(blocks, selected, nameOf);
  return [svg, legend(blocks), text];
}
