// A computer with a KERNAL at a drive: examples/c/kernal_host.c in JavaScript, over yellowadze1541.mjs. It prints the text and writes the image that the C
// program does with the native library. kernal_host.mjs MODULE IMAGE [OUT]
import fs from "node:fs";
import { load, PROFILE, KERNAL } from "../yellowadze1541.mjs";
import { Bus, Kernal, PAL, DARK_PAL, NTSC, VIC, EOI, READ_TIMEOUT } from "./kernal.mjs";

const [file, name, to] = process.argv.slice(2);
const y1541 = await load(fs.readFileSync(file));
const image = new Uint8Array(fs.readFileSync(name));
let wrong = 0;
const expect = (is, what) => is || (wrong++, console.log(`WRONG: ${what}`));

const same = (a, b) => a && b && Buffer.compare(a, b) === 0;
const show = (what, data) => console.log(`${what}: ${data ? data.length : -1} bytes:${[...(data ?? []).slice(0, 16)].map((v) => ` ${v.toString(16).padStart(2, "0")}`).join("")}${data && data.length > 16 ? " .." : ""}`);
const statusIs = (k, begins) => {
  const text = Buffer.from(k.input(8, 15, 63) ?? []).toString("latin1");
  console.log(`status: ${text.split("\r")[0]}`);
  return text.startsWith(begins) && k.close(8, 15);
};
const SAVED = Uint8Array.of(0x00, 0xc0, 0x00, 0xff, 0x55, 0xaa, 0x0f, 0xf0, 0x80, 0x01);

function jobs(k, asksMissing) {
  expect(statusIs(k, "73,"), "the status at power up");
  let got = k.load(8, "$");
  show('LOAD"$",8', got);
  expect(same(got, y1541.list(image)), "LOAD of the directory");
  got = k.load(8, "HELLO");
  show('LOAD"HELLO",8', got);
  expect(same(got, y1541.file(image, "HELLO")), "LOAD of a program");
  expect(k.save(8, "NEW", SAVED), "SAVE");
  got = k.load(8, "NEW");
  show('LOAD"NEW",8', got);
  expect(same(got, SAVED), "LOAD of what was saved");
  expect(k.save(8, "HELLO", SAVED), "SAVE of a name that is there");
  expect(statusIs(k, asksMissing ? "63," : "61,"), "the status of a name that is there");
  if (!asksMissing) return;
  got = k.load(8, "NONE");
  expect(!got && !k.stuck && k.status === (EOI | READ_TIMEOUT), "LOAD of no file");
  expect(k.bus.drives[0].status() === 62, "the status by the library");
  expect(statusIs(k, "62,"), "the status after no file");
  expect(statusIs(k, "00,"), "the status after the status");
}

function savesProtected() {
  const bus = new Bus(), drive = y1541.open(image, { device: 8, reaction: 20, pace: KERNAL, isProtected: true });
  bus.drives.push(drive);
  bus.pulls.push({ clock: 0, data: 0 });
  const k = new Kernal(bus, PAL, 0);
  return statusIs(k, "73,") && k.save(8, "NEW", SAVED) && statusIs(k, "26,") && drive.writes() === 0n;
}

const RUNS = [
  ["a C64 for PAL, screen off, at the profile's pace", DARK_PAL, PROFILE, 20],
  ["a C64 for PAL at the KERNAL's pace", PAL, KERNAL, 20],
  ["a C64 for NTSC at the KERNAL's pace", NTSC, KERNAL, 60],
  ["a VIC-20 at the KERNAL's pace", VIC, KERNAL, 1],
];
let out;
RUNS.forEach(([what, computer, pace, reaction], i) => {
  console.log(`-- ${what}`);
  const bus = new Bus(), drive = y1541.open(image, { device: 8, reaction, pace });
  bus.open(drive, 0);
  jobs(new Kernal(bus, computer, i), pace === KERNAL);
  expect(drive.writes() > 0n, "the writes");
  out = drive.image();
  y1541.check(out);
  drive.close();
});
expect(savesProtected(), "SAVE on a protected disk");
if (to) fs.writeFileSync(to, out);
console.log(wrong ? "it went wrong" : "all went well");
process.exitCode = Number(wrong > 0);
