// A computer at the lines of a drive, which keeps the timing of the bus profile (docs/bus.md). Times are in microseconds.

const LISTEN = 0x28, UNLISTEN = 0x3f, TALK = 0x48, UNTALK = 0x5f; // of device 8
const CHANNEL = 0x60; // the secondary address for its bytes
const PAUSE = 100, SETTLE = 30, PULSE = 60, LAST = 200; // LAST: a talker that begins no bit for so long has a last byte
const PATIENCE = 10000;
const BITS = [0, 1, 2, 3, 4, 5, 6, 7];

export class Host {
  #now = 0;
  #held = { atn: false, clock: false, data: false };
  #its = { clock: false, data: false }; // what the drive holds
  isStuck = false;

  constructor(drive) {
    this.drive = drive;
  }

  #pass(time) {
    this.#now += time;
    for (let it; (it = this.drive.due(this.#now)); ) this.#its = it;
  }

  // Lets time pass, then pulls or frees lines. After a change of the drive's the host's comes later.
  #set(after, changes) {
    this.#pass(after);
    if (this.#its.moment === this.#now) this.#now++;
    const { atn, clock, data } = Object.assign(this.#held, changes);
    this.drive.lines(this.#now, atn, clock, data);
  }

  // Waits until the drive holds a line, or doesn't. Answers whether that came.
  #until(line, isLow, most) {
    const end = this.#now + most;
    while (this.#its[line] !== isLow) {
      const it = this.drive.due(end);
      this.#now = it?.moment ?? end;
      if (!it) return false;
      this.#its = it;
    }
    return true;
  }

  #must(line, isLow) {
    this.isStuck ||= !this.#until(line, isLow, PATIENCE);
  }

  #send(value, isLast = false) {
    this.#set(PAUSE, { clock: false });
    this.#must("data", false);
    if (isLast) for (const isLow of [true, false]) this.#must("data", isLow);
    for (const i of BITS) {
      this.#set(SETTLE, { clock: true, data: !((value >> i) & 1) });
      this.#set(SETTLE, { clock: false });
    }
    this.#set(SETTLE, { clock: true, data: false });
    this.#must("data", true);
  }

  // Bytes in attention, which lasts until ATN is freed.
  #call(...values) {
    this.#set(PAUSE, { atn: true, clock: true, data: false });
    this.#must("data", true);
    for (const it of values) if (!this.isStuck) this.#send(it);
  }

  #end(value) {
    this.#call(value);
    this.#set(SETTLE, { atn: false, clock: false });
  }

  // Sends bytes after LISTEN and a secondary address.
  tell(secondary, data) {
    this.#call(LISTEN, secondary);
    this.#set(SETTLE, { atn: false });
    this.#pass(PAUSE);
    // A drive that doesn't listen lets go of DATA.
    if (this.#its.data) data.forEach((it, i) => this.isStuck || this.#send(it, i === data.length - 1));
    this.#end(UNLISTEN);
  }

  // Takes bytes from a channel up to its end, or up to so many; null if it has none.
  hear(channel, most = 254) {
    this.#call(TALK, CHANNEL | channel);
    this.#set(SETTLE, { data: true });
    this.#set(0, { atn: false });
    this.#set(SETTLE, { clock: false });
    const out = [];
    if (this.#until("clock", true, PAUSE)) while (!this.isStuck && out.length < most && this.#take(out));
    else this.#set(SETTLE, { data: false });
    this.#end(UNTALK);
    return out.length && !this.isStuck ? out : null;
  }

  // Takes a byte. Answers whether another one follows.
  #take(out) {
    this.#must("clock", false);
    this.#set(SETTLE, { data: false });
    const isLast = !this.#until("clock", true, LAST);
    if (isLast) {
      this.#set(0, { data: true });
      this.#set(PULSE, { data: false });
      this.#must("clock", true);
    }
    const bits = BITS.map((i) => {
      this.#must("clock", false);
      const bit = this.#its.data ? 0 : 1 << i;
      this.#must("clock", true);
      return bit;
    });
    this.#set(SETTLE, { data: true });
    out.push(bits.reduce((sum, it) => sum | it));
    return !isLast;
  }
}
