#!/usr/bin/env python3
"""kernal_traces.py: jobs of a C64's KERNAL on the wires, as transcripts (docs/dev/transcripts.md).

It plays the KERNAL's serial routines, counted in cycles from one access of the port to the next, in a closed loop with a drive
that does what the rows of docs/bus.md say, and writes the host's changes as requests and both parties' as answers. It knows
nothing of the drive's code; the drive's disk is only what the jobs ask for. Moments are a model of these routines (docs/bus.md,
"Real hosts"), and were measured at no computer.

    tools/make/kernal_traces.py > crates/cases/data/kernal.cases
"""

PULL, FREE = "pull", "free"
REACTION = 20

# The directory of an empty disk `N0:TEST,AB`: the load address, the title's line, the last line.
LISTING = (bytes([1, 4, 1, 1, 0, 0, 0x12]) + b'"TEST            " AB 2A\0' + bytes([1, 1, 664 % 256, 664 // 256])
           + b"BLOCKS FREE.             \0" + bytes(2))
NOT_FOUND = b"62,FILE NOT FOUND,00,00\r"


class Drive:
    """Drive 8: a row of docs/bus.md for each cause. `waits` names the row, `due` is the moment of its reaction."""

    def __init__(self, kernal):
        self.kernal = kernal
        self.pulse = self.half = 80 if kernal else 60
        self.own = {"clock": False, "data": False}
        self.host = {"atn": False, "clock": False, "data": False}
        self.waits, self.due = "idle", None
        self.role, self.secondary = None, None
        self.name, self.bytes, self.said = b"", {}, []
        self.status, self.channel = b"73,CBM DOS V2.6 1541,00,00\r", None

    def then(self, waits, due=None):
        self.waits, self.due = waits, due

    # ---- what the host changes

    def tell(self, t, line, low):
        self.host[line] = low
        if line == "atn":
            return self.attention(t) if low else self.release(t)
        getattr(self, line)(t, low)

    def attention(self, t):
        if self.secondary == "open" and self.role == "listener":
            self.open()
        self.secondary = None
        self.then("start", t + REACTION)

    def release(self, t):
        if self.role is None:
            self.then("leave", t + REACTION)
        elif self.role == "talker":
            self.turn(t)
        elif self.waits not in ("hold", "freeing"):
            self.then("return", t + REACTION)

    def hold(self, t):
        if self.host["clock"]:
            self.then("hold")
        else:
            self.then("freeing", t + REACTION)

    def turn(self, t):
        if self.host["clock"]:
            self.then("turned")
        else:
            self.then("answering", t + REACTION)

    def ready(self, t):
        if self.host["data"]:
            self.then("ready")
        else:
            self.then("timed", t + 200 + REACTION)

    def gather(self, eoi):
        self.eoi, self.bits = eoi, []
        self.then("bits")

    def clock(self, t, low):
        if self.waits == "await" and low:
            self.then("hold")
        elif self.waits in ("hold", "freeing"):
            self.hold(t)
        elif self.waits in ("turned", "answering"):
            self.turn(t)
        elif self.waits in ("ready", "timed") and low:
            self.gather(False)
        elif self.waits == "noted" and low:
            self.gather(True)
        elif self.waits == "bits" and low and len(self.bits) == 8:
            self.then("accepting", t + REACTION)
        elif self.waits == "bits" and not low and len(self.bits) < 8:
            self.bits.append(0 if self.host["data"] else 1)

    def data(self, t, low):
        if self.waits == "ready":
            self.ready(t)
        elif self.waits == "offering" and not low:
            self.offered(t)
        elif self.waits == "eoi offered" and low:
            self.then("eoi pulsed")
        elif self.waits == "eoi pulsed" and not low:
            self.begin_bits(t)
        elif self.waits == "sent" and low:
            self.taken(t)

    def offered(self, t):
        if len(self.said) == 1:
            self.then("eoi offered")
        else:
            self.begin_bits(t)

    def begin_bits(self, t):
        self.halves = 0
        self.then("sending", t + REACTION)

    def taken(self, t):
        last = len(self.said) == 1
        self.said.pop(0)
        if self.channel == 15 and not self.said:
            self.status = b"00, OK,00,00\r"
        if last:
            self.then("ending", t + REACTION)
        else:
            self.then("leading", t + 100)

    # ---- what it does when its reaction is due: the lines that it holds then

    def react(self):
        t, waits = self.due, self.waits
        self.then("idle")
        getattr(self, "at_" + waits)(t)
        return t

    def at_start(self, t):
        self.own = {"clock": False, "data": True}
        if self.kernal and not self.host["clock"]:
            self.then("await")
        else:
            self.hold(t)

    def at_leave(self, t):
        self.own = {"clock": False, "data": False}

    def at_return(self, t):
        self.own["data"] = True
        self.hold(t)

    def at_freeing(self, t):
        self.own["data"] = False
        self.ready(t)

    def at_timed(self, t):
        self.own["data"] = True
        self.then("pulsing", t + self.pulse)

    def at_pulsing(self, t):
        self.own["data"] = False
        if self.host["clock"]:
            self.gather(True)
        else:
            self.then("noted")

    def at_accepting(self, t):
        self.own["data"] = True
        byte = sum(bit << place for place, bit in enumerate(self.bits))
        self.attended(byte) if self.host["atn"] else self.heard(byte)
        self.hold(t)

    def at_answering(self, t):
        if self.said:
            self.own = {"clock": True, "data": False}
            self.then("leading", t + 80)
        elif self.kernal:
            self.own["clock"] = True
            self.then("mute", t + 80)
        else:
            self.own["data"] = False

    def at_mute(self, t):
        self.own = {"clock": False, "data": False}

    def at_leading(self, t):
        self.own["clock"] = False
        if self.host["data"]:
            self.then("offering")
        else:
            self.offered(t)

    def at_sending(self, t):
        if self.halves == 16:
            self.own = {"clock": True, "data": False}
            if self.host["data"]:
                self.taken(t)
            else:
                self.then("sent")
            return
        if self.halves % 2 == 0:
            bit = self.said[0] >> (self.halves // 2) & 1
            self.own = {"clock": True, "data": bit == 0}
        else:
            self.own["clock"] = False
        self.halves += 1
        self.then("sending", t + self.half)

    def at_ending(self, t):
        self.own["clock"] = False

    # ---- the bytes, and what the DOS makes of them

    def attended(self, byte):
        if byte in (0x28, 0x48):
            self.role = "listener" if byte == 0x28 else "talker"
            self.secondary = None
        elif byte in (0x3F, 0x5F):
            self.role = None
        elif byte >> 4 == 0x6 and self.role == "talker":
            self.channel, self.secondary = byte & 15, "bytes"
            self.talk()
        elif byte >> 4 == 0xF and self.role == "listener":
            self.channel, self.secondary, self.name = byte & 15, "open", b""
        elif byte >> 4 == 0xE and self.role == "listener":
            self.bytes.pop(byte & 15, None)

    def heard(self, byte):
        self.name += bytes([byte])

    def open(self):
        if self.name == b"$":
            self.bytes[self.channel] = LISTING
            self.status = b"00, OK,00,00\r"
        else:
            self.status = NOT_FOUND

    def talk(self):
        if self.channel == 15:
            self.said = list(self.status)
        else:
            self.said = list(self.bytes.get(self.channel, b""))
            if not self.said and not (self.kernal and self.status == NOT_FOUND):
                self.status = b"61,FILE NOT OPEN,00,00\r"


class Hang(Exception):
    """The host waits for a line without an end."""


class Host:
    """A C64 with its KERNAL; so many cycles stand before each access of the port."""

    def __init__(self, drive, second, every=0, bad_line=0, stolen=43):
        self.drive, self.second = drive, second
        self.passed, self.every, self.bad_line, self.stolen = 0, every, bad_line, stolen
        self.events, self.looks = [], []
        self.atn = self.eoi = self.failed = False
        self.stored = {"atn": False, "clock": False, "data": False}
        self.waiting = None
        self.store(1000, "clock", PULL)
        self.go(1000)

    def go(self, cycles):
        self.passed += cycles
        while self.every and self.passed >= self.bad_line:
            self.passed += self.stolen
            self.bad_line += self.every

    def moment(self):
        return (self.passed * 1_000_000 + self.second // 2) // self.second

    def settle(self, moment):
        while self.drive.due is not None and self.drive.due < moment:
            before = dict(self.drive.own)
            t = self.drive.react()
            for line in ("clock", "data"):
                if before[line] != self.drive.own[line]:
                    self.events.append((t, "8", line, PULL if self.drive.own[line] else FREE))

    def store(self, cycles, line, way):
        self.go(cycles)
        low = way == PULL
        if self.stored[line] == low:
            return
        t = self.moment()
        self.settle(t)
        self.stored[line] = low
        self.events.append((t, "host", line, way))
        self.drive.tell(t, line, low)

    def look(self, cycles):
        self.go(cycles)
        self.settle(self.moment())
        return tuple(self.stored[line] or self.drive.own[line] for line in ("clock", "data"))

    def read(self, cycles):
        seen = self.look(cycles)
        while (again := self.look(4)) != seen:
            seen = self.look(7)
        return seen

    def wait(self, cycles, line, low, again=23):
        place = ("clock", "data").index(line)
        for _ in range(200):
            seen = self.read(cycles)
            self.looks.append((self.moment(), seen[place]))
            if seen[place] == low:
                return seen
            cycles = again
        raise Hang

    def pulled_before(self, cycles, end, line):
        place = ("clock", "data").index(line)
        self.go(cycles)
        while self.passed < end:
            if self.read(14)[place]:
                return True
            self.go(17)
        return False

    # ---- the routines

    def fail(self):
        self.failed = True
        self.store(60, "atn", FREE)
        self.store(77, "clock", FREE)
        self.store(19, "data", FREE)

    def send(self, cycles, byte, last=False):
        self.store(cycles, "data", FREE)
        seen = self.read(16)
        self.looks.append((self.moment(), seen[1]))
        if not seen[1]:
            return self.fail()
        self.store(28, "clock", FREE)
        if last:
            self.wait(21, "data", False)
            self.wait(22, "data", True)
            self.wait(22, "data", False)
        else:
            self.wait(22, "data", False)
        self.store(28, "clock", PULL)
        to_look = 15
        for place in range(8):
            if self.read(to_look)[1]:
                return self.fail()
            if byte >> place & 1:
                self.store(30, "data", FREE)
                self.store(22, "clock", FREE)
            else:
                self.store(29, "data", PULL)
                self.store(25, "clock", FREE)
            self.store(26, "clock", PULL)
            self.store(0, "data", FREE)
            to_look = 12
        self.go(19)
        if not self.pulled_before(8, self.passed + 0x4FF, "data"):
            self.fail()

    def list1(self, cycles, byte):
        self.store(cycles, "data", FREE)
        self.store(21, "atn", PULL)
        self.attention(18, byte)

    def attention(self, cycles, byte):
        self.store(cycles, "clock", PULL)
        self.store(22, "data", FREE)
        self.send(961, byte)

    def listen(self, secondary):
        self.list1(62 + 12, 0x28)
        if not self.failed:
            self.attention(41 + 12, secondary)
            self.store(30, "atn", FREE)

    def talk(self, secondary):
        self.list1(62 + 12, 0x48)
        self.attention(41 + 12, secondary)
        self.store(38, "data", PULL)
        self.store(22, "atn", FREE)
        self.store(22, "clock", FREE)
        self.wait(16, "clock", True)

    def bytes_out(self, sent):
        for byte in sent[:-1]:
            self.send(53 + 12, byte)
        self.send(67 + 12, sent[-1], True)
        self.list1(55, 0x3F)
        self.let_go(36)

    def let_go(self, cycles):
        self.store(cycles, "atn", FREE)
        self.store(77, "clock", FREE)
        self.store(19, "data", FREE)

    def begun(self, cycles):
        self.go(cycles)
        end = self.passed + 0x1FF
        self.store(16, "data", FREE)
        return self.pulled_before(14, end, "clock")

    def byte_in(self):
        self.store(37 + 12, "clock", FREE)
        self.wait(16, "clock", False)
        if not self.begun(24):
            self.store(27, "data", PULL)
            self.store(22, "clock", FREE)
            self.eoi = True
            if not self.begun(46):
                self.fail()
                return None
        byte, to_look = 0, 24
        for place in range(8):
            seen = self.wait(to_look, "clock", False, 11)
            byte |= (0 if seen[1] else 1) << place
            self.wait(15, "clock", True, 11)
            to_look = 18
        self.store(29, "data", PULL)
        if self.eoi:
            self.store(88, "clock", FREE)
            self.store(19, "data", FREE)
        return byte

    def bytes_in(self):
        taken, self.eoi = [], False
        while not self.eoi:
            byte = self.byte_in()
            if byte is None:
                return bytes(taken)
            taken.append(byte)
        self.store(31 + 12, "clock", PULL)
        self.store(16, "atn", PULL)
        self.list1(46, 0x5F)
        self.let_go(36)
        return bytes(taken)

    # ---- the jobs

    def opens(self, name):
        self.listen(0xF0)
        if not self.failed:
            self.bytes_out(name)

    def closes(self, channel):
        self.listen(0xE0 | channel)
        self.list1(42 + 12, 0x3F)
        self.let_go(36)


PAL, NTSC = 985_248, 1_022_727


def written(title, comment, host):
    print(f"\n== {title}")
    for line in comment:
        print(f"; {line}")
    end = host.moment() + 1000
    host.settle(end + 1)
    print("disk empty" + (", pace kernal" if host.drive.kernal else ""))
    print("> lines")
    for t, who, line, way in host.events:
        if who == "host":
            print(f"> {t} {line} {way}")
    print(f"> end {end}")
    for event in host.events:
        print(*event)
    print("same as old")


def directory():
    host = Host(Drive(True), PAL, 504, 300)
    host.opens(b"$")
    host.talk(0x60)
    assert host.bytes_in() == LISTING and not host.failed
    host.closes(0)
    assert not host.failed
    written('LOAD"$",8 of a C64 for PAL with its screen on', [
        "OPEN of channel 0 with the name $, TALK, the bytes of the directory with EOI on the last, CLOSE.",
    ], host)


def missing():
    host = Host(Drive(True), PAL, 504, 300)
    host.opens(b"NONE")
    before = len(host.events)
    host.talk(0x60)
    assert host.byte_in() is None and host.failed
    low, high, freed = [e for e in host.events[before:] if e[1] == "8"][-3:]
    assert low[2:] == ("clock", PULL) and high[2:] == ("clock", FREE) and freed[2:] == ("data", FREE)
    assert low[0] + 80 == high[0] == freed[0]
    host.failed = False
    host.talk(0x6F)
    assert host.bytes_in() == NOT_FOUND and not host.failed
    host.closes(15)
    assert not host.failed
    written("LOAD of a missing file, and the status", [
        f"With nothing to say the drive pulls CLOCK at {low[0]}, and 80 later lets go of CLOCK and DATA; the computer's timer ends twice, a",
        "read timeout. The status that it reads then is the OPEN's still: 62.",
    ], host)


def hangs_of_a_missing_file():
    host = Host(Drive(False), PAL)
    host.opens(b"NONE")
    before = len(host.events)
    try:
        host.talk(0x60)
        assert False, "it doesn't hang"
    except Hang:
        pass
    own = [e for e in host.events[before:] if e[1] == "8"][-1]
    assert own[2:] == ("data", FREE)
    written("at the profile's pace a missing file hangs a C64", [
        f"With nothing to say the drive only lets go of DATA, at {own[0]}. The computer waits until CLOCK is pulled, without an end: it looks",
        f"on at {host.moment()}.",
    ], host)


# The first bad lines, by how many cycles they steal and their phase, at which a job goes wrong so.
def first_phase(second, every, job):
    for stolen in (43, 42, 41, 40):
        for phase in range(every):
            host = Host(Drive(False), second, every, phase, stolen)
            before = job(host)
            if before is not None:
                return host, before
    raise AssertionError("it goes well at each phase")


def absent():
    def job(host):
        host.opens(b"$")
        if host.failed:
            return None
        before = len(host.events)
        host.list1(74, 0x48)
        return before if host.failed else None

    host, before = first_phase(PAL, 504, job)
    events = host.events[before:]
    atn, clock = (next(e[0] for e in events if e[1:] == ("host", line, PULL)) for line in ("atn", "clock"))
    freed = next(e[0] for e in events if e[1:] == ("8", "data", FREE))
    assert clock - atn > 2 * REACTION and freed == atn + 2 * REACTION and not host.looks[-1][1]
    written("at the profile's pace a bad line hides the drive from a C64", [
        f"ATN is pulled at {atn}, and CLOCK {clock - atn} later, for a bad line comes between. By then the drive has taken CLOCK for free, and has let go of",
        f"DATA, at {freed}. At {host.looks[-1][0]} the computer finds DATA free: device not present.",
    ], host)


def unseen_pulse():
    def job(host):
        try:
            host.opens(b"$")
        except Hang:
            return len(host.events)
        return None

    host, before = first_phase(NTSC, 520, job)
    low, high = [e for e in host.events if e[1] == "8"][-2:]
    assert low[2:] == ("data", PULL) and high == (low[0] + 60, "8", "data", FREE)
    looks = [t for t, seen in host.looks]
    last = max(t for t in looks if t <= low[0])
    next_one = min(t for t in looks if t > low[0])
    assert next_one > high[0]
    written("at the profile's pace EOI is lost on a C64 for NTSC", [
        f"The drive notes EOI: it pulls DATA at {low[0]}, and frees it at {high[0]}. The computer looks at {last} and, for a bad line, at {next_one}:",
        "it never sees DATA pulled, and waits for that without an end.",
    ], host)


def main():
    print("; Jobs of a C64's KERNAL on the wires, written by tools/make/kernal_traces.py: what the computer changes is a model of its routines, what the")
    print("; drive does are the rows of docs/bus.md.")
    print("\n== the disk of these jobs\ndisk empty\n> status\nstatus 73,CBM DOS V2.6 1541,00,00\nkeep old")
    directory()
    missing()
    hangs_of_a_missing_file()
    absent()
    unseen_pulse()


if __name__ == "__main__":
    main()
