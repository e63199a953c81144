// Each call of yellowadze1541.mjs, good and refused, and that the types name them all: calls.mjs MODULE SMALL_STACK TRAPS IMAGE
import fs from "node:fs";
import * as library from "../yellowadze1541.mjs";

const { load, flawText, text, Refused, Gone, NEVER, PROFILE, ATN, CLOCK, DATA } = library;
const [file, smallStack, traps, name] = process.argv.slice(2);
const y1541 = await load(fs.readFileSync(file)), image = new Uint8Array(fs.readFileSync(name));
const program = Uint8Array.of(1, 8, 65, 0, 255, 90);
let wrong = 0;

const expect = (is, what) => is || (wrong++, console.log(`WRONG: ${what}`));
const same = (a, b) => Buffer.compare(a, b) === 0;
const isEqual = (a, b) => JSON.stringify(a) === JSON.stringify(b);
const thrown = (call) => {
  try {
    call();
  } catch (it) {
    return it;
  }
};
const refused = (number, call, what) => {
  const it = thrown(call);
  expect(it instanceof Refused && it.number === number, `${what}: ${it}`);
};

// What is exported, and the calls of both classes, are what the types say.
const types = fs.readFileSync(new URL("../yellowadze1541.d.mts", import.meta.url), "utf8");
const typed = (kind) => [...types.split(`export interface ${kind} {`)[1].split("\n}")[0].matchAll(/^  (?:readonly )?(\w+)[?]?[(:]/gm)].map((it) => it[1]);
const calls = (it) => Object.getOwnPropertyNames(Object.getPrototypeOf(it)).filter((name) => name !== "constructor");
const isSame = (a, b) => String([...a].sort()) === String([...b].sort());
expect(isSame([...types.matchAll(/^export (?:const|class|function) (\w+)/gm)].map((it) => it[1]), Object.keys(library)), "the types of the exports");
expect(isSame(typed("Library"), calls(y1541)), "the types of the library");
expect(isSame(typed("Drive"), calls(y1541.open(image))), "the types of a drive");

// Images.
const header = fs.readFileSync(new URL("../../yellowadze1541.h", import.meta.url), "utf8");
expect(y1541.version() === Number(header.match(/define Y1541_VERSION (0x\w+)u/)[1]), "the version");
for (const it of [{ device: 7 }, { device: 12 }, { reaction: 0 }, { reaction: 61 }, { pace: 2 }])
  for (const direct of [false, true]) refused(-2, () => y1541.open(image, { ...it, direct }), "an argument of open");
refused(-5, () => y1541.open(image.subarray(1)), "no size of a D64");
refused(-5, () => y1541.check(new Uint8Array(3)), "no image");
refused(-4, () => y1541.file(image, "NONE"), "no file");
refused(-4, () => y1541.sector(image, 36, 0), "no sector");
refused(31, () => y1541.command(image, "X"), "no command");
refused(63, () => y1541.put(image, "HELLO,P,W", program), "a name that is there");
expect(thrown(() => y1541.sector(image, 256, 0)) instanceof RangeError, "no byte");
expect(y1541.entry(image, 255) === null, "past the last slot");
// package.json has the header's version, and its paths are those of the archive.
const { version, exports } = JSON.parse(fs.readFileSync(new URL("../package.json", import.meta.url), "utf8"));
expect(version === [16, 8, 0].map((bits) => (y1541.version() >> bits) & 255).join("."), "the version of the package");
expect(isSame(Object.keys(exports), [".", "./petscii", "./yellowadze1541.wasm"]), "the modules of the package");
// The words are the header's.
const words = header.split("y1541_text(int32_t number) {")[1].split("default:")[0], results = new Map([...header.matchAll(/(Y1541_\w+) = (-?\d+)/g)].map((it) => [it[1], it[2]]));
for (const [, cases, said] of words.matchAll(/((?:case \w+: )+)return "([^"]*)";/g))
  for (const [, name] of cases.matchAll(/case (\w+):/g)) {
    const number = Number(results.get(name) ?? name);
    // (a drive that is closed can't be opened again in JavaScript, and 0 is no refusal)
    if (number > 0 || (number < 0 && number !== -7)) expect(text(number) === (number > 0 ? `${number}, ${said}` : said), `the words of ${number}`);
  }
expect(thrown(() => y1541.put(image, "HELLO,P,W", program)).message === "63, FILE EXISTS", "the words of a refusal");
// Letters are those of the keys after power-up; other bytes, and codes, stay as they are.
expect(same(y1541.file(image, "hello"), y1541.file(image, "HELLO")), "a name in small letters");
expect(same(y1541.put(image, "new,s,w", "ab"), y1541.put(image, "NEW,S,W", "ab")), "the text of a file in small letters, and its data as it is");
expect(same(y1541.create(0, "my disk", "ab"), y1541.create(0, "MY DISK", "AB")), "a title in small letters");
refused(-4, () => y1541.file(image, Uint8Array.of(0x68, 0x65, 0x6c, 0x6c, 0x6f)), "codes that no key sends");
// Bytes come in a buffer or a view of one, and nothing is taken for bytes that isn't.
expect(same(y1541.put(image, "NEW,P,W", program.buffer), y1541.put(image, "NEW,P,W", program)), "bytes in a buffer");
expect(same(y1541.put(image, "NEW,P,W", new DataView(program.buffer, 1, 3)), y1541.put(image, "NEW,P,W", program.subarray(1, 4))), "bytes in a view");
for (const it of [5, [1, 2], null, undefined, {}]) expect(thrown(() => y1541.put(image, "NEW,P,W", it)) instanceof TypeError, `no bytes: ${it}`);
for (const form of [0, 1, 2]) {
  const disk = y1541.create(form, "FORM", "ID"), title = y1541.title(disk);
  y1541.check(disk);
  expect(title.free === (form === 1 ? 749 : 664) && Buffer.from(title.title).toString("latin1").startsWith("FORM\xa0"), "the title");
  const next = y1541.put(disk, "PROG,P,W", program), entry = y1541.entry(next, 0);
  expect(entry.kind === 2 && entry.closed && !entry.locked && entry.blocks === 1 && entry.track === 17 && entry.sector === 0 && same(y1541.file(next, "P*"), program), "a file is put and found");
  expect(y1541.title(y1541.command(next, "S0:PROG")).free === title.free, "and scratched");
  expect(y1541.sector(next, 18, 0).length === 256 && y1541.list(next).length > y1541.list(next, "X*").length, "a sector, the directory");
}
// Files by their slots, whatever their names are: as tests/calls.c has them in C.
for (const form of [0, 1, 2]) {
  let disk = y1541.put(y1541.put(y1541.create(form, "SLOTS", "ID"), "ONE,P,W", program), "TWO,S,W", "ab");
  const names = () => y1541.entries(disk).entries.filter((it) => it.kind).map((it) => Buffer.from(it.name).toString("latin1").replace(/\xa0*$/, "") + (it.locked ? "<" : ""));
  const are = (wanted, what) => expect(isEqual(names(), wanted), `${what}: ${names()}`);
  expect(y1541.entries(disk).entries.length === 8 && y1541.entries(disk).status === 0 && same(y1541.read(disk, 1), Buffer.from("ab")), "all entries, a file by its slot");
  refused(63, () => y1541.rename(disk, 0, "TWO"), "a name that is there");
  refused(-2, () => y1541.rename(disk, 0, ""), "no name");
  refused(-4, () => y1541.read(disk, 8), "no slot");
  disk = y1541.lock(y1541.rename(disk, 0, 'T*,"'), 0, true);
  are(['T*,"<', "TWO"], "renamed and locked");
  refused(26, () => y1541.remove(disk, 0), "a locked file");
  disk = y1541.swap(y1541.lock(disk, 0, false), 0, 1);
  are(["TWO", 'T*,"'], "freed, and changed places");
  disk = y1541.remove(disk, 1);
  are(["TWO"], "one is deleted");
  disk = y1541.undelete(disk, 1, 2);
  are(["TWO", 'T*,"'], "and given back");
  disk = y1541.remark(y1541.retitle(disk, "OTHER"), "XY 2A");
  const { title, mark } = y1541.title(disk);
  expect(Buffer.from(title).toString("latin1").startsWith("OTHER\xa0") && Buffer.from(mark).toString("latin1") === "XY 2A" && y1541.flaws(disk).length === 0, "another title and id");
}
// Several files in one call, and a command with its status.
for (const form of [0, 1, 2]) {
  const disk = y1541.create(form, "ALL", "ID"), files = [{ text: "ONE,P,W", data: program }, { text: "TWO,S,W", data: "ab" }];
  const both = y1541.putAll(disk, files);
  expect(same(both, files.reduce((it, { text, data }) => y1541.put(it, text, data), disk)) && same(y1541.putAll(disk, []), disk), "two files as by two calls, and none");
  for (const [text, number] of [["THREE", 62], ["ONE,P,W", 63]]) {
    const it = thrown(() => y1541.putAll(disk, [...files, { text, data: "c" }]));
    expect(it instanceof Refused && it.number === number && it.file === 2, `which file is refused: ${it} ${it.file}`);
  }
  const { image: less, status } = y1541.commandStatus(both, "S0:*");
  expect(isEqual(status, { number: 1, first: 2, second: 0, line: "01, FILES SCRATCHED,02,00" }) && y1541.title(less).free === y1541.title(disk).free, "how many were scratched");
  expect(isEqual(y1541.commandStatus(both, "R0:TWO=ONE"), { image: null, status: { number: 63, first: 0, second: 0, line: "63,FILE EXISTS,00,00" } }), "what the drive says of what it refuses");
  refused(-5, () => y1541.commandStatus(new Uint8Array(3), "V0"), "no image for a command");
  refused(-5, () => y1541.putAll(new Uint8Array(3), files), "no image for files");
  const copy = y1541.copy(both, 0, "C=:*");
  expect(isEqual(y1541.entries(copy).entries.filter((it) => it.kind).map((it) => Buffer.from(it.name).toString("latin1").replace(/\xa0*$/, "")), ["ONE", "TWO", "C=:*"]) && same(y1541.read(copy, 2), program), "a copy");
  refused(63, () => y1541.copy(both, 0, "TWO"), "a copy to a name that is there");
}
// Odd entries are left alone: a line of art in slot 1 that leads to 18/0, as tests/calls.c has it in C.
{
  const art = y1541.put(y1541.create(0, "ART", "ID"), "ONE,P,W", program), entry = [0x82, 18, 0, ...Buffer.from("----------------")];
  art.set(entry, 91648 + 34);
  const wanted = art.slice();
  wanted.set(Buffer.from("NEW"), 91648 + 5);
  expect(same(y1541.command(art, "R0:NEW=ONE"), wanted), "a command leaves art alone");
  expect(same(y1541.put(art, "TWO,P,W", "ab").slice(91648 + 34, 91648 + 34 + entry.length), Buffer.from(entry)), "and so does a put");
  for (const [disk, its] of [[art, wanted], [y1541.convert(art).image, null]]) {
    const left = y1541.putAway(disk), back = y1541.putBack(disk, y1541.rename(left, 0, "NEW"));
    y1541.check(left);
    expect(same(its ? back : y1541.convert(back).image, wanted) && same(y1541.putAway(left), left), "renamed by its slot, and the art put back");
    refused(-6, () => y1541.rename(disk, 0, "NEW"), "not without it");
    refused(26, () => y1541.putBack(disk, y1541.swap(left, 0, 1)), "the art's slot");
    refused(-5, () => y1541.putBack(disk, left.subarray(1)), "no image to put back into");
  }
  expect(isEqual([y1541.odd(art), y1541.odd(image)], [[1], []]), "the slots of odd entries");
  expect(flawText(y1541.flaws(art)[0]) === "track 18, sector 0: a file's chain leads here, where no block of a file can be", "a flaw in words");
  art[91392 + 4]--;
  expect(y1541.odd(art) === null, "more is wrong than entries");
  refused(-6, () => y1541.putAway(art), "a wrong BAM");
}
const loop = image.slice();
loop.set([18, 1], 91648); // 18/1 leads to itself
expect(y1541.entries(loop).status === 71 && y1541.entries(loop).entries.length === 8, "entries up to a loop");
expect(isEqual(y1541.flaws(loop), [{ what: 3, track: 18, sector: 1, whose: 1, slot: 0, before: 1 }]), "a loop is told");
const g64 = y1541.convert(image);
expect(!g64.lost.unreadable && same(y1541.convert(g64.image).image, image), "a G64 of a D64, and back");
const bad = image.slice();
bad.fill(0xff, 91392, 91392 + 256); // 18/0
const unsound = thrown(() => y1541.check(bad));
expect(unsound.number === -6 && unsound.place.what > 0, "what is wrong first");

// A drive.
const drive = y1541.open(image, { pace: PROFILE });
expect(drive.isOpen && drive.nextDue() === NEVER && drive.status() === 73 && drive.writes() === 0n, "as switched on");
drive.lines(1000, 1, 0, 0);
expect(drive.nextDue() === 1020 && drive.due(1019) === null, "not yet");
const reaction = drive.due(5000);
expect(reaction.moment === 1020 && reaction.data && reaction.dataChanged && !reaction.clock && !reaction.clockChanged && drive.pulls().data, "the reaction to ATN");
refused(-2, () => drive.lines(999, 0, 0, 0), "back in time");
expect(same(drive.image(), image) && same(drive.eject(), image), "the image comes out");
refused(-4, () => drive.image(), "no disk");
drive.insert(g64.image);
expect(same(drive.image(), g64.image), "another disk");
drive.reset();
expect(drive.nextDue() === NEVER && !drive.pulls().data, "reset");
drive.close();
refused(-7, () => drive.reset(), "closed");
expect(!drive.isOpen, "closed");
const changes = [[1000, ATN, true], [1000, CLOCK, true], [3000, ATN, false]].map(([moment, line, low]) => ({ moment, line, low }));
const played = y1541.play(image, changes, 4000, { pace: PROFILE });
expect(played.events.length === 5 && played.events[2].moment === 1020 && played.events[2].who === 8 && played.events[2].line === DATA && same(played.image, image), "played");
const many = Array.from({ length: 3000 }, (_, i) => ({ moment: 1000 + 500 * i, line: ATN, low: i % 2 === 0 }));
expect(y1541.play(image, many, 2000000, { pace: PROFILE }).events.length > 4096, "more events than room was asked for");

// The DOS without the wires.
const codes = (it) => [...it].map((letter) => letter.charCodeAt(0));
for (const direct of [false, true, "raw"]) {
  const it = y1541.open(image, { direct });
  expect(it.statusLine() === "73,CBM DOS V2.6 1541,00,00", "the line at power-up");
  it.openChannel(2, "notes,s,w");
  it.writeChannel(2, "TEN ");
  it.writeChannel(2, Uint8Array.from(codes("LINES")));
  it.closeChannel(2);
  it.openChannel(2, "notes,s");
  expect(isEqual({ ...it.readChannel(2, 4) }, { data: Uint8Array.from(codes("TEN ")), last: false }), "a part of a file");
  const rest = it.readChannel(2);
  expect(same(rest.data, Uint8Array.from(codes("LINES"))) && rest.last, "the rest of it");
  const none = it.readChannel(2);
  expect(none.data.length === 0 && !none.last, "nothing more");
  it.closeChannel(2);
  it.statusLine();
  expect(it.command("s0:notes") === "01, FILES SCRATCHED,01,00" && it.statusLine() === "00, OK,00,00", "a command");
  it.openChannel(0, "none");
  expect(it.status() === 62 && it.statusLine() === "62,FILE NOT FOUND,00,00" && it.status() === 0, "an error");
  expect(thrown(() => it.openChannel(16, "$")) instanceof RangeError, "no channel");
  it.lines(1000, 1, 0, 0);
  refused(-2, () => it.readChannel(15), "the wires aren't at rest");
  it.close();
  refused(-7, () => it.closeChannel(2), "a closed drive");
}

// A trap.
const gone = (await load(fs.readFileSync(traps))).open(image);
expect(gone.isOpen && gone.status() === 73, "a drive before it traps");
for (const call of [() => gone.nextDue(), () => gone.status(), () => gone.image(), () => gone.lines(0, 0, 0, 0)]) expect(thrown(call) instanceof Gone, "gone after a trap");
expect(!gone.isOpen, "it says that it is gone");
const small = await load(fs.readFileSync(smallStack));
expect(thrown(() => small.open(image)) instanceof Gone, "a stack that is too small");
expect(same(small.file(image, "HELLO"), y1541.file(image, "HELLO")), "the next call has a module of its own");

console.log(`calls.mjs: ${wrong} wrong`);
process.exitCode = Number(wrong > 0);
