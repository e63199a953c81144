// Drives with direct access, by a computer on their lines, as ../../tests/direct.c has them in C: direct.mjs MODULE IMAGE. What a block holds is asked of the
// calls on images.
import fs from "node:fs";
import { load, PROFILE, KERNAL, D64_35, D64_40, G64 } from "../yellowadze1541.mjs";
import { Bus, Kernal, PAL, DARK_PAL } from "./kernal.mjs";

const [file, name] = process.argv.slice(2);
const y1541 = await load(fs.readFileSync(file)), hello = new Uint8Array(fs.readFileSync(name));
let wrong = 0;
const expect = (is, what) => is || (wrong++, console.log(`WRONG: ${what}`));
const same = (a, b) => a && Buffer.compare(a, b) === 0;

const begins = (drive, pace) => {
  const bus = new Bus();
  bus.open(drive, 0);
  return new Kernal(bus, pace === PROFILE ? DARK_PAL : PAL, 1);
};
const says = (k, line) => Buffer.from(k.input(8, 15) ?? []).toString("latin1") === `${line}\r`;
const tells = (k, command, line = "00, OK,00,00") => k.tells(8, 0x6f, Buffer.from(command, "latin1")) && says(k, line);

function without(image, pace, settings) {
  const k = begins(y1541.open(image, { pace, ...settings }), pace);
  expect(says(k, "73,CBM DOS V2.6 1541,00,00") && k.open(8, 2, "#") && says(k, "70,NO CHANNEL,00,00"), "no buffer without direct access");
  for (const command of ["U1:2,0,18,0", "UI", "M-R\x40\xff\x02"]) expect(tells(k, command, "31,SYNTAX ERROR,00,00"), command);
}

function reads(image, pace) {
  const drive = y1541.open(image, { pace, direct: true }), k = begins(drive, pace);
  expect(says(k, "73,CBM DOS V2.6 1541,00,00") && k.open(8, 2, "#") && says(k, "00, OK,00,00"), "a buffer");
  for (const [track, sector] of [[18, 0], [18, 1], [35, 16]])
    expect(tells(k, `U1:2,0,${track},${sector}`) && same(k.input(8, 2), y1541.sector(image, track, sector)), `block ${track}/${sector}`);
  expect(tells(k, "U1:2,0,18,19", "66,ILLEGAL TRACK OR SECTOR,18,19"), "no such sector");
  expect(k.tells(8, 0x6f, Buffer.from("M-R\x40\xff\x02", "latin1")) && same(k.input(8, 15), Uint8Array.of(0xaa, 0xaa)) && says(k, "00, OK,00,00"), "M-R");
  expect(drive.writes() === 0n && same(drive.image(), image), "reading changes nothing");
  drive.insert(hello);
  expect(tells(k, "U1:2,0,18,0", "70,NO CHANNEL,00,00") && k.open(8, 2, "#") && says(k, "00, OK,00,00") && tells(k, "U1:2,0,18,0") && same(k.input(8, 2), y1541.sector(hello, 18, 0)), "a block of another disk");
  drive.reset();
  expect(drive.status() === 73 && same(drive.eject(), hello), "a new start, and the disk comes out");
}

for (const pace of [PROFILE, KERNAL])
  for (const form of [D64_35, D64_40, G64]) {
    const image = y1541.put(y1541.create(form, "FORM", "ID"), "PROG,P,W", Uint8Array.of(1, 8, 65, 0, 255, 90));
    without(image, pace, {}), without(image, pace, { direct: false }), reads(image, pace);
  }
console.log(`direct.mjs: ${wrong} wrong`);
process.exitCode = Number(wrong > 0);
