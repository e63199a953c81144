// The characters of a C64, and names as text that can be typed, by disk1541's tables (Unicode, "Symbols for Legacy Computing").

const NONE = Array(32).fill(null);
const DIGITS = " !\"#$%&'()*+,-./0123456789:;<=>?";
const LETTERS = "@ABCDEFGHIJKLMNOPQRSTUVWXYZ[£]↑←";
const LINES = "─♠🭲🭸🭷🭶🭺🭱🭴╮╰╯🭼╲╱🭽🭾●🭻♥🭰╭╳○♣🭵♦┼🮌│π◥";
const CAPITALS = "─ABCDEFGHIJKLMNOPQRSTUVWXYZ┼🮌│🮖🮘";
const BLOCKS = "▌▄▔▁▏▒▕🮏◤🮇├▗└┐▂┌┴┬┤▎▍🮈🮂🮃▃🭿▖▝┘▘▚";
const FILLS = "▌▄▔▁▏▒▕🮏🮙🮇├▗└┐▂┌┴┬┤▎▍🮈🮂🮃▃✓▖▝┘▘▚";

// The character on the key of each code, in the set of power up and in the other one.
const keys = (letters, blocks, lines) => [...NONE, ...DIGITS, ...letters, ...NONE, ...NONE, null, ...blocks, ...lines, ...NONE];
const KEYS = { upper: keys(LETTERS, BLOCKS, LINES), lower: keys(LETTERS.toLowerCase(), FILLS, CAPITALS) };
// The 32 codes that each 32 codes look like: control codes look like letters, reversed.
const LIKE = [2, 1, 2, 6, 6, 5, 6, 5];
const PI = 0xff;
export const PAD = 0xa0; // the shifted space that ends a name

// How a code looks between quotes.
export function glyph(code, set) {
  const row = code >> 5;
  const like = code === PI ? 0xde : (LIKE[row] << 5) | (code & 31);
  return { shown: KEYS[set][like] ?? " ", isReversed: row === 0 || row === 4 };
}

// A name as text; a code that no key types stands by its number, as in {c1}.
export const text = (codes, set) => Array.from(codes, (code) => KEYS[set][code] ?? `{${code.toString(16).padStart(2, "0")}}`).join("");

function codeOf(character, set) {
  if (character === "_") return codeOf("▁", set);
  return KEYS[set].indexOf(set === "upper" && /[a-z]/.test(character) ? character.toUpperCase() : character);
}

// The codes of a text, or null if a character of it is on no key.
export function codes(typed, set) {
  const out = Array.from(typed.matchAll(/\{([0-9a-f]{2})\}|./gisu), ([part, number]) => (number ? parseInt(number, 16) : codeOf(part, set)));
  return out.includes(-1) ? null : Uint8Array.from(out);
}

const codesOf = (part) => (typeof part === "string" ? Array.from(part, (it) => it.charCodeAt(0)) : [...part]);

// Codes, and texts in ASCII's codes, one after another.
export const join = (...parts) => Uint8Array.from(parts.flatMap(codesOf));

// Codes without the shifted spaces at their end.
export const unpadded = (its) => its.slice(0, its.findLastIndex((it) => it !== PAD) + 1);
