// The types of petscii.mjs.

/** The character set of a C64 after power-up, or the one with small letters. */
export type Charset = "upper" | "lower";

/** The shifted space that ends a name. */
export const PAD: number;

/** The codes of a typed text, or null if a character of it is on no key; {c1} is the code $c1. */
export function codes(typed: string, set: Charset): Uint8Array | null;

/** Codes as text; a code that no key sends is shown by its number, as in {c1}. */
export function text(codes: Iterable<number>, set: Charset): string;

/** How a C64 shows a code between quotation marks. */
export function glyph(code: number, set: Charset): { shown: string; isReversed: boolean };

/** Codes, and texts in ASCII, one after another. */
export function join(...parts: (Iterable<number> | string)[]): Uint8Array;

/** Codes without the shifted spaces at their end. */
export function unpadded<T extends Uint8Array | number[]>(codes: T): T;
