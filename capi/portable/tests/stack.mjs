// How much of its own stack the module takes in each call, by a painted one: stack.mjs MODULE STACK IMAGE. The module has STACK bytes of it, at the bottom of
// its memory. Fails if a call takes more than MOST bytes, or less than SPARE stay untouched.
import fs from "node:fs";

const MOST = 64000, SPARE = 16384, PAINT = 0xa5, ROOM = 1 << 20;
const [file, size, name] = process.argv.slice(2);
const { instance } = await WebAssembly.instantiate(fs.readFileSync(file));
const calls = instance.exports, stack = Number(size), room = BigInt(ROOM);
const memory = () => new Uint8Array(calls.memory.buffer);

const put = (bytes) => {
  const at = calls.room(BigInt(bytes.length || 1));
  memory().set(bytes, Number(at));
  return at;
};
const text = (it) => [put(Buffer.from(it)), BigInt(it.length)];
const number = (at) => new DataView(calls.memory.buffer).getBigUint64(Number(at), true);

const bytes = fs.readFileSync(name), image = put(bytes), length = BigInt(bytes.length), d64 = [image, length];
const [needed, small, drive, other] = [8, 64, 8, 8].map((it) => put(new Uint8Array(it)));
const out = calls.room(room), result = [out, room, needed];
calls.y1541_image_convert(...d64, small, ...result);
const taken = () => [put(memory().slice(Number(out), Number(out) + Number(number(needed)))), number(needed)];
const g64 = taken();
const host = new Uint8Array(32), view = new DataView(host.buffer);
view.setBigUint64(0, 1000n, true), view.setBigUint64(16, 3000n, true), (host[10] = 1);
const twice = new Uint8Array(64), fields = new DataView(twice.buffer);
[...text("N,P,W"), image, 3000n, ...text("M,P,W"), image, 3000n].forEach((it, i) => fields.setBigUint64(8 * i, it, true));
const files = put(twice), changes = put(host), events = calls.room(1000n);

// A disk with a line of art in slot 1, which leads to 18/0, as a G64; and what is left of it.
const art = bytes.slice();
art.set([0x82, 18, 0, ...Buffer.from("----------------")], 91648 + 34);
calls.y1541_image_convert(put(art), length, small, ...result);
const art64 = taken();
calls.y1541_image_put_away(...art64, ...result);
const left = taken();

// The state of a drive with a G64.
const [again, saved] = [8, 8].map((it) => put(new Uint8Array(it)));
calls.y1541_open(saved, ...g64, 0, 8, 20, 0), calls.y1541_save(saved, ...result);
const state = taken();

const measured = {
  open: () => calls.y1541_open(drive, ...d64, 0, 8, 20, 0),
  "open a G64": () => calls.y1541_open(other, ...g64, 0, 8, 20, 0),
  lines: () => calls.y1541_lines(drive, 1000n, 1, 0, 0),
  next_due: () => calls.y1541_next_due(drive) && 0,
  due: () => calls.y1541_due(drive, 2000n, small),
  image: () => calls.y1541_image(other, ...result),
  save: () => calls.y1541_save(other, ...result),
  restore: () => calls.y1541_restore(again, ...state),
  eject: () => calls.y1541_eject(drive, ...result),
  insert: () => calls.y1541_insert(drive, ...g64, 0),
  reset: () => calls.y1541_reset(drive),
  open_direct: () => (calls.y1541_close(drive), calls.y1541_open_direct(drive, ...d64, 0, 8, 20, 0)),
  open_raw: () => (calls.y1541_close(drive), calls.y1541_open_raw(drive, ...d64, 0, 8, 20, 0)),
  "open_direct a G64": () => (calls.y1541_close(other), calls.y1541_open_direct(other, ...g64, 0, 8, 20, 0)),
  "insert, direct": () => calls.y1541_insert(drive, ...g64, 0),
  "reset, direct": () => calls.y1541_reset(drive),
  image_check: () => calls.y1541_image_check(...g64, small),
  image_list: () => calls.y1541_image_list(...g64, ...text(""), ...result),
  image_file: () => calls.y1541_image_file(...d64, ...text("H*"), ...result),
  image_put: () => calls.y1541_image_put(...g64, ...text("N,P,W"), image, 3000n, ...result),
  image_put_all: () => calls.y1541_image_put_all(...g64, files, 2n, small, ...result),
  image_copy: () => calls.y1541_image_copy(...g64, 0, ...text("N"), ...result),
  "image_command_status N, of a G64": () => calls.y1541_image_command_status(...g64, ...text("N0:NEW,ID"), small, ...result),
  "image_command V": () => calls.y1541_image_command(...d64, ...text("V0"), ...result),
  "image_command N, of a G64": () => calls.y1541_image_command(...g64, ...text("N0:NEW,ID"), ...result),
  "image_command C": () => calls.y1541_image_command(...g64, ...text("C0:TWO=HELLO"), ...result),
  image_put_away: () => calls.y1541_image_put_away(...art64, ...result),
  image_put_back: () => calls.y1541_image_put_back(...art64, ...left, ...result),
  "image_put, art": () => calls.y1541_image_put(...art64, ...text("N,P,W"), image, 3000n, ...result),
  "image_command C, art": () => calls.y1541_image_command(...art64, ...text("C0:TWO=HELLO"), ...result),
  image_new: () => calls.y1541_image_new(2, image, 0n, 0, 0, ...result),
  image_convert: () => calls.y1541_image_convert(...g64, small, ...result),
  play: () => calls.y1541_play(...d64, 8, 20, 0, changes, 2n, 5000n, events, 8n, small, ...result),
};

const used = Object.entries(measured).map(([what, call]) => {
  memory().fill(PAINT, 0, stack);
  const said = call(), first = memory().subarray(0, stack).findIndex((it) => it !== PAINT);
  if (said !== 0) throw new Error(`${what} said ${said}`);
  return [what, first < 0 ? 0 : stack - first];
});
const most = Math.max(...used.map(([, it]) => it));
console.log(`stack of the module in bytes: ${used.map(([what, it]) => `${what} ${it}`).join(", ")}; of ${stack} at most ${most}`);
process.exitCode = Number(most > MOST || stack - most < SPARE);
