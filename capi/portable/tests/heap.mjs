// The heap of the module (inside.c alone) by random requests: blocks don't overlap and keep their bytes, also when they grow, what is given back is used again,
// and a memory that is full answers so. heap.mjs MODULE
import fs from "node:fs";

const ROUNDS = 200000, MOST_LIVE = 200;
const { instance } = await WebAssembly.instantiate(fs.readFileSync(process.argv[2]));
const { memory, room, room_back, rattle_realloc } = instance.exports;
let seed = 1, wrong = 0;
const byChance = (below) => {
  seed = (Math.imul(seed, 1664525) + 1013904223) >>> 0;
  return Math.floor(((seed >>> 8) / 2 ** 24) * below);
};
const expect = (is, what) => is || wrong++ || console.log(`WRONG: ${what}`);
const bytes = (at, n) => new Uint8Array(memory.buffer, Number(at), n);

const live = [];
const answer = room(16n);
const fill = (it) => bytes(it.at, it.size).fill(it.mark);
const keeps = (it, size) => bytes(it.at, size).every((byte) => byte === it.mark);
const size = () => (byChance(50) ? byChance(byChance(2) ? 100 : 5000) : byChance(300000));

for (let i = 0; i < ROUNDS; i++) {
  const which = byChance(live.length), is = live[which];
  if (live.length < MOST_LIVE && byChance(2)) {
    const it = { size: size(), mark: 1 + byChance(255) };
    it.at = room(BigInt(it.size));
    expect(it.at !== 0n && it.at % 16n === 0n, "room, on 16 bytes");
    fill(it);
    live.push(it);
  } else if (is && byChance(3)) {
    expect(keeps(is, is.size), "a block keeps its bytes");
    room_back(is.at);
    live.splice(which, 1);
  } else if (is) {
    const more = size();
    rattle_realloc(answer, is.at, BigInt(is.size), BigInt(more), 8n);
    const view = new DataView(memory.buffer);
    expect(view.getBigUint64(Number(answer), true) === 1n, "a block grows or shrinks");
    is.at = view.getBigUint64(Number(answer) + 8, true);
    expect(keeps(is, Math.min(is.size, more)), "and keeps its bytes");
    is.size = more;
    fill(is);
  }
}
const spans = live.map((it) => [Number(it.at), Number(it.at) + it.size]).sort((a, b) => a[0] - b[0]);
expect(spans.every(([from], i) => !i || from >= spans[i - 1][1]), "blocks that overlap");
for (const it of live) expect(keeps(it, it.size), "a block keeps its bytes"), room_back(it.at);

// All of it is one block again; a memory of 4 GB is never handed out twice.
const whole = memory.buffer.byteLength;
const big = room(BigInt(whole - 600000));
expect(big !== 0n && memory.buffer.byteLength === whole, "what is given back is used again");
room_back(big);
expect(room(1n << 31n) === 0n || memory.buffer.byteLength > 2 ** 31, "2 GB");
expect(room((1n << 31n) + 1n) === 0n && room(-1n) === 0n, "more than there may be");
rattle_realloc(answer, room(8n), 8n, -1n, 8n);
expect(new DataView(memory.buffer).getBigUint64(Number(answer), true) === 0n, "a block of no size");
const held = [];
for (let it; (it = room(200000000n)) !== 0n && held.length < 100; ) held.push(it);
expect(held.length > 0 && held.length < 30, "a memory that is full says so");
console.log(`heap: ${ROUNDS} requests, ${wrong} wrong`);
process.exitCode = Number(wrong > 0);
