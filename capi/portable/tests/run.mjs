// Runs a C test or example that was linked with the module and libc/libc.c: run.mjs MODULE WORD..
import fs from "node:fs";

const [module, ...given] = process.argv.slice(2);
let it, memory;
const bytes = (at, n) => new Uint8Array(memory.buffer, Number(BigInt.asUintN(64, at)), Number(n));
class Left extends Error {}
const host = {
  say: (at, n) => void fs.writeSync(1, bytes(at, n)),
  load: (name, n, to, room) => {
    try {
      const read = fs.readFileSync(Buffer.from(bytes(name, n)).toString()).subarray(0, Number(room));
      bytes(to, read.length).set(read);
      return BigInt(read.length);
    } catch {
      return -1n;
    }
  },
  save: (name, n, from, count) => fs.writeFileSync(Buffer.from(bytes(name, n)).toString(), bytes(from, count)),
  clock: () => performance.now() / 1000,
  leave: (status) => {
    throw Object.assign(new Left(), { status });
  },
};
const { instance } = await WebAssembly.instantiate(fs.readFileSync(module), { host });
it = instance.exports;
memory = it.memory;
const words = Buffer.from([module, ...given].join("\0") + "\0");
bytes(it.words(), words.length).set(words);
try {
  process.exitCode = it.run(given.length + 1);
} catch (e) {
  if (!(e instanceof Left)) throw e;
  process.exitCode = e.status;
}
