// A computer with a KERNAL, and the bus that it shares with drives: examples/c/bus.h and kernal.h in JavaScript, over yellowadze1541.mjs.
import { ATN, CLOCK, DATA } from "../yellowadze1541.mjs";

// The computers; dark: with its screen off.
export const PAL = 0, DARK_PAL = 1, NTSC = 2, DARK_NTSC = 3, VIC = 4;
export const EOI = 0x40, READ_TIMEOUT = 2;
const TIMEOUT = 3, ABSENT = 0x80;
const HERTZ = [985248, 985248, 1022727, 1022727, 1108405];

export class Bus {
  drives = [];
  pulls = [];
  held = [0, 0, 0];
  tell(to, now) {
    let [atn, clock, data] = this.held;
    this.drives.forEach((d, i) => i !== to && ((clock |= this.pulls[i].clock), (data |= this.pulls[i].data)));
    this.drives[to].lines(now, atn, clock, data);
  }
  tellAll(but, now) {
    this.drives.forEach((_, i) => i !== but && this.tell(i, now));
  }
  runTo(now) {
    for (;;) {
      let first = -1, due = now;
      this.drives.forEach((d, i) => {
        const t = d.nextDue();
        if (t < due) (due = t), (first = i);
      });
      if (first < 0) return;
      const r = this.drives[first].due(due);
      this.pulls[first] = { clock: r.clock, data: r.data };
      if (r.clockChanged | r.dataChanged) this.tellAll(first, due);
    }
  }
  write(now, held) {
    this.runTo(now);
    if (held.every((v, i) => v === this.held[i])) return;
    this.held = held;
    this.tellAll(-1, now);
  }
  read(now) {
    this.runTo(now);
    let [, clock, data] = this.held;
    for (const p of this.pulls) (clock |= p.clock), (data |= p.data);
    return { clock, data };
  }
  open(drive, now) {
    const i = this.drives.push(drive) - 1;
    this.pulls[i] = { clock: 0, data: 0 };
    this.tell(i, now);
  }
}

export class Kernal {
  passed = 0;
  status = 0;
  buffered = -1;
  stuck = false;
  constructor(bus, computer, seed) {
    this.bus = bus;
    this.hertz = HERTZ[computer];
    this.seed = Math.imul(seed, 2654435761) >>> 0;
    this.lines = computer === PAL ? 504 : computer === NTSC ? 520 : 0;
    this.badLine = this.lines ? this.chance() * 2 : 0;
    this.timerLow = (seed >>> 1) % 2 ? 0xff : 0;
    this.store(1000, CLOCK, 1);
    this.pass(1000);
  }
  chance() {
    this.seed = (Math.imul(this.seed, 1664525) + 1013904223) >>> 0;
    return this.seed >>> 24;
  }
  pass(cycles) {
    this.passed += cycles;
    while (this.lines && this.passed >= this.badLine) {
      this.passed += 40 + (this.chance() % 4);
      this.badLine += this.lines;
    }
  }
  moment() {
    return Math.floor((this.passed * 1000000 + Math.floor(this.hertz / 2)) / this.hertz);
  }
  store(cycles, line, low) {
    this.pass(cycles);
    if (this.stuck) return;
    const held = [...this.bus.held];
    held[line] = low;
    this.bus.write(this.moment(), held);
  }
  look(cycles) {
    this.pass(cycles);
    return this.bus.read(this.moment());
  }
  lookTwice(cycles) {
    let s = this.look(cycles);
    for (let i = 0; i < 8000; i++) {
      const again = this.look(4);
      if (again.clock === s.clock && again.data === s.data) break;
      s = this.look(7);
    }
    return s;
  }
  await(cycles, line, low, again) {
    let s = this.lookTwice(cycles);
    for (let i = 0; i < 8000; i++) {
      if ((line === CLOCK ? s.clock : s.data) === low || this.stuck) return s;
      s = this.lookTwice(again);
    }
    this.stuck = true;
    return s;
  }
  timerEnd(high) {
    return this.passed + (high | this.timerLow);
  }
  lowBefore(cycles, end, line) {
    this.pass(cycles);
    for (let i = 0; i < 8000 && this.passed < end; i++) {
      const s = this.lookTwice(14);
      if (line === CLOCK ? s.clock : s.data) return true;
      this.pass(17);
    }
    return false;
  }
  works() {
    this.pass(12);
    const by = this.chance();
    if (by >= 240) this.pass(1000);
    else if (by >= 64) this.pass(this.chance());
  }
  release(cycles) {
    this.store(cycles, ATN, 0);
    this.store(77, CLOCK, 0);
    this.store(19, DATA, 0);
  }
  fail(status) {
    if (this.stuck) return;
    this.status |= status;
    this.release(60);
  }
  send(cycles, value, last) {
    this.store(cycles, DATA, 0);
    if (!this.lookTwice(16).data) return this.fail(ABSENT);
    this.store(28, CLOCK, 0);
    this.await(last ? 21 : 22, DATA, 0, 23);
    if (last) this.await(22, DATA, 1, 23), this.await(22, DATA, 0, 23);
    this.store(28, CLOCK, 1);
    for (let i = 0, toLook = 15; i < 8; i++, toLook = 12) {
      if (this.lookTwice(toLook).data) return this.fail(TIMEOUT);
      const one = (value >> i) & 1;
      this.store(one ? 30 : 29, DATA, 1 - one);
      this.store(one ? 22 : 25, CLOCK, 0);
      this.store(26, CLOCK, 1);
      this.store(0, DATA, 0);
    }
    this.pass(19);
    if (!this.lowBefore(8, this.timerEnd(0x400), DATA)) this.fail(TIMEOUT);
  }
  attention(cycles, value) {
    this.store(cycles, CLOCK, 1);
    this.store(22, DATA, 0);
    this.send(961, value, false);
  }
  list1(cycles, value) {
    this.store(cycles, DATA, 0);
    this.store(21, ATN, 1);
    this.attention(18, value);
  }
  listen(device) {
    this.works();
    this.list1(62, 0x20 | device);
  }
  talk(device) {
    this.works();
    this.list1(62, 0x40 | device);
  }
  second(value) {
    this.works();
    this.attention(41, value);
    this.store(30, ATN, 0);
  }
  tksa(value) {
    this.works();
    this.attention(41, value);
    this.store(38, DATA, 1);
    this.store(22, ATN, 0);
    this.store(22, CLOCK, 0);
    this.await(16, CLOCK, 1, 23);
  }
  ciout(value) {
    this.works();
    if (this.buffered >= 0) this.send(53, this.buffered, false);
    this.buffered = value;
  }
  unlisten() {
    this.works();
    if (this.buffered >= 0) {
      const value = this.buffered;
      this.buffered = -1;
      this.send(67, value, true);
      this.list1(55, 0x3f);
    } else this.list1(42, 0x3f);
    this.release(36);
  }
  untalk() {
    this.works();
    this.store(31, CLOCK, 1);
    this.store(16, ATN, 1);
    this.list1(46, 0x5f);
    this.release(36);
  }
  begunInTime(cycles) {
    this.pass(cycles);
    const end = this.timerEnd(0x100);
    this.store(16, DATA, 0);
    return this.lowBefore(14, end, CLOCK);
  }
  acptr() {
    this.works();
    this.store(37, CLOCK, 0);
    this.await(16, CLOCK, 0, 23);
    if (!this.begunInTime(24)) {
      this.store(27, DATA, 1);
      this.store(22, CLOCK, 0);
      this.status |= EOI;
      if (!this.begunInTime(46)) return this.fail(READ_TIMEOUT), 0;
    }
    let value = 0;
    for (let i = 0, toLook = 24; i < 8; i++, toLook = 18) {
      value = (value >> 1) | (this.await(toLook, CLOCK, 0, 11).data ? 0 : 0x80);
      this.await(15, CLOCK, 1, 11);
    }
    this.store(29, DATA, 1);
    if (this.status & EOI) this.store(88, CLOCK, 0), this.store(19, DATA, 0);
    return value;
  }
  tells(device, secondary, data) {
    this.status = 0;
    this.listen(device);
    this.second(secondary);
    if (this.status & ABSENT) return false;
    for (const it of data) if (!this.stuck) this.ciout(it);
    this.unlisten();
    return !this.stuck && !this.status;
  }
  open(device, channel, text) {
    return this.tells(device, 0xf0 | channel, Buffer.from(text));
  }
  close(device, channel) {
    return this.tells(device, 0xe0 | channel, []);
  }
  input(device, channel, room = 70000) {
    this.status = 0;
    this.talk(device);
    this.tksa(0x60 | channel);
    if (this.stuck || this.status) return null;
    const out = [];
    do {
      const value = this.acptr();
      if (this.stuck || this.status & ~EOI) return null;
      out.push(value);
    } while (!(this.status & EOI) && out.length < room);
    this.untalk();
    return this.stuck ? null : Uint8Array.from(out);
  }
  load(device, text) {
    if (!this.open(device, 0, text)) return null;
    const out = this.input(device, 0);
    return out && this.close(device, 0) ? out : null;
  }
  save(device, text, data) {
    return this.open(device, 1, text) && this.tells(device, 0x61, data) && this.close(device, 1);
  }
}
