// Sentences for the library's numbers.

const WORDS = {
  "-1": "The browser gave no memory for it.",
  "-4": "It can't be restored: another file uses one of its blocks, or the disk has lost blocks. Validate frees those.",
  "-5": "This is not an image of a 1541's disk: neither a G64, nor a D64 of 35 or 40 tracks. It may be truncated or compressed. `disk1541` reads D71, D81, T64 and Lynx.",
  "-6": "The disk isn't sound, so nothing was changed. Its flaws are listed under its files: Validate repairs those of the BAM.",
  26: "The disk or the file is protected, or its entry is odd.",
  62: "There is no such file on the disk.",
  63: "A file of this name exists: use another name.",
  66: "A chain of blocks leads to a place that the disk doesn't have.",
  71: "The directory, or a chain of blocks, has no end.",
  72: "The disk is full: delete files, or use another disk.",
};

// Throws a sentence of the page's own, to be shown.
export class Sentence extends Error {}
export function refuse(why) {
  throw new Sentence(why);
}

export function sentence(error) {
  if (error instanceof Sentence) return error.message;
  const { number } = error;
  if (number === undefined) return `Something in this page went wrong: ${error.message}`;
  if (number < 0) return WORDS[number] ?? "That isn't possible.";
  return `${WORDS[number] ?? (number < 30 ? "A sector can't be read." : "The drive refused it.")} (status ${number})`;
}

export const count = (n, what) => `${n} ${what}${n === 1 ? "" : "s"}`;
