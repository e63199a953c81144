// What the calls of yellowadze1541.mjs take: bench.mjs MODULE IMAGE
import fs from "node:fs";
import { load, PROFILE } from "../yellowadze1541.mjs";

const [file, name] = process.argv.slice(2);
const y1541 = await load(fs.readFileSync(file)), image = new Uint8Array(fs.readFileSync(name));

// The least processor time of three, in seconds, of so many rounds.
const best = (rounds, call) => {
  let least = Infinity;
  for (let i = 0; i < 3; i++) {
    const begun = process.cpuUsage();
    for (let k = 0; k < rounds; k++) call(k);
    least = Math.min(least, process.cpuUsage(begun).user / 1e6);
  }
  return least;
};

const drive = y1541.open(image, { pace: PROFILE });
let now = 1000, sum = 0;
const ROUNDS = 2000000;
console.log(`next_due: ${(ROUNDS / 1e6 / best(ROUNDS, () => (sum += drive.nextDue()))).toFixed(1)} million a second`);
const events = best(ROUNDS / 4, () => {
  drive.lines(now, 1, 1, 0);
  drive.due(now + 400);
  drive.lines(now + 500, 0, 0, 0);
  drive.due(now + 900);
  now += 1000;
});
console.log(`line events: ${(ROUNDS / 1e6 / events).toFixed(1)} million a second`);
console.log(`list: ${((best(200, () => y1541.list(image)) / 200) * 1000).toFixed(2)} ms`);
