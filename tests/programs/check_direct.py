#!/usr/bin/env python3
"""check_direct.py DRIVE1541 [--scripts N] [--only WORD]: random scripts of direct access, compared with a plain model in Python.
1. Scripts of buffers and commands on blocks, on a disk of random bytes, which isn't sound: each answer is the model's, and the image stays as it is.
2. The same on an empty disk: each answer is the model's, and so is each byte of the image.
3. The same on a disk of random files that were never closed, which in each second script GEOS formatted: the same.
4. The first with --direct=raw, which writes any block: each answer is the model's, and so is each byte of the image.
5. Scripts of files only: with --direct everything is printed and saved as without it.
6. Scripts of both, with files open: the image is sound after each, and each file that was closed reads as it was written.
With --only, only those whose names contain the word. Prints one line a case. Last line: 'N passed, M failed'."""
import argparse, os, random, subprocess, sys, tempfile

SECTORS = [0] + [21] * 17 + [19] * 7 + [18] * 6 + [17] * 5
ROM = {0xE5B6 + i: b for i, b in enumerate(b"\x73\xc3BM DOS V2.6 154\xb1")} | {0xFEA0: 0x0D, 0xFEA1: 0xED, 0xFF40: 0xAA, 0xFF41: 0xAA}
TEXTS = {0: " OK", 26: "WRITE PROTECT ON", 30: "SYNTAX ERROR", 31: "SYNTAX ERROR", 60: "WRITE FILE OPEN", 65: "NO BLOCK", 66: "ILLEGAL TRACK OR SECTOR", 70: "NO CHANNEL", 73: "CBM DOS V2.6 1541", 74: "DRIVE NOT READY"}


def place(track, sector):
    return (sum(SECTORS[1:track]) + sector) * 256


class Drive:
    """Three buffers, and the commands on blocks, by the rules of docs/direct.md. A disk that is sound has no closed file here."""

    def __init__(self, image, sound=False, protected=False, raw=False):
        self.image, self.sound, self.protected, self.raw = bytearray(image), sound, protected, raw
        self.held = {(18, 0), (18, 1)} | self.unclosed()
        self.is_geos = image[place(18, 0) + 173 :][:11] == b"GEOS format"
        self.start()

    def chain(self, track, sector):
        """The sectors to which links lead from one on."""
        met = []
        while 1 <= track <= 35 and sector < SECTORS[track] and (track, sector) not in met:
            met.append((track, sector))
            track, sector = self.image[place(track, sector) :][:2]
        return met

    def unclosed(self):
        """The sectors of the files that were never closed; all entries are in 18/1."""
        entries = [self.image[place(18, 1) + 32 * n + 2 :][:30] for n in range(8)]
        open_ones = [it for it in entries if 0 < it[0] < 128]
        return {at for it in open_ones for at in self.chain(*it[1:3]) + (self.chain(*it[19:21]) if it[0] % 16 == 4 else [])}

    def start(self):
        self.memory = [bytearray(256) for _ in range(3)]
        self.owner, self.at, self.last, self.reply, self.status = [None] * 3, [0] * 3, [255] * 3, b"", (73, 0, 0)

    def buffer(self, channel):
        return self.owner.index(channel) if channel in self.owner else None

    def open(self, channel, text):
        if self.buffer(channel) is not None:
            self.owner[self.buffer(channel)] = None
        free = [i for i in range(3) if self.owner[i] is None and (len(text) == 1 or int(text[1]) == i)]
        if not free:
            self.status = (70, 0, 0)
            return
        i = free[0]
        self.owner[i], self.at[i], self.last[i], self.status = channel, 1, 255, (0, 0, 0)

    def close(self, channel):
        if channel == 15:
            self.owner, self.reply = [None] * 3, b""
        elif self.buffer(channel) is not None:
            self.owner[self.buffer(channel)] = None

    def is_refused(self, drive, track, sector):
        """Whether the command names another drive, or no sector."""
        if drive:
            self.status = (74, 0, 0)
        elif not 1 <= track <= 35 or sector >= SECTORS[track]:
            self.status = (66, track, sector)
        else:
            return False
        return True

    def read(self, channel, drive, track, sector, counted):
        i = self.buffer(channel)
        if i is None:
            self.status = (70, 0, 0)
        elif not self.is_refused(drive, track, sector):
            self.memory[i][:] = self.image[place(track, sector):][:256]
            self.at[i], self.last[i] = (1, self.memory[i][0]) if counted else (0, 255)
            self.status = (0, 0, 0)

    def is_protected(self):
        if self.protected:
            self.status = (26, 0, 0)
        return self.protected

    def is_somebodys(self, track, sector):
        """Whether the disk is protected, or the sector isn't to be written."""
        if self.is_protected():
            return True
        if not self.sound or (track, sector) in self.held or self.is_geos and not self.bit(track, sector)[2]:
            self.status = (26, track, sector)
            return True
        return False

    def write(self, channel, drive, track, sector, counted):
        i = self.buffer(channel)
        if i is None:
            self.status = (70, 0, 0)
        elif not self.is_refused(drive, track, sector) and not (self.is_protected() if self.raw else self.is_somebodys(track, sector)):
            front = bytes([(self.at[i] - 1) % 256]) if counted else self.memory[i][:1]
            self.image[place(track, sector) : place(track, sector) + 256] = front + self.memory[i][1:]
            self.status = (0, 0, 0)

    def bit(self, track, sector):
        """The byte of the BAM that has a sector, its bit, and whether the sector is free."""
        at, bit = place(18, 0) + 4 * track + 1 + sector // 8, 1 << sector % 8
        return at, bit, bool(self.image[at] & bit)

    def allocate(self, drive, track, sector):
        if self.is_refused(drive, track, sector):
            return
        at, bit, free = self.bit(track, sector)
        if self.is_protected():
            return
        if not free:
            behind = ((t, s) for t in range(track, 36) for s in range(SECTORS[t]) if (t, s) > (track, sector) and self.bit(t, s)[2])
            self.status = (65, *next(behind, (0, 0)))
        elif not self.sound:
            self.status = (26, track, sector)
        else:
            self.image[at] &= ~bit
            self.image[place(18, 0) + 4 * track] -= 1
            self.status = (0, 0, 0)

    def free(self, drive, track, sector):
        if self.is_refused(drive, track, sector) or self.is_somebodys(track, sector):
            return
        at, bit, free = self.bit(track, sector)
        if not free:
            self.image[at] |= bit
            self.image[place(18, 0) + 4 * track] += 1
        self.status = (0, 0, 0)

    def seek(self, channel, to):
        i = self.buffer(channel)
        if i is None:
            self.status = (70, 0, 0)
        else:
            self.at[i], self.status = to, (0, 0, 0)

    def get(self, channel, most):
        i, said, eoi = self.buffer(channel), b"", False
        if i is None:
            self.status = (61, 0, 0)
            return f"get {channel} none"
        while len(said) < most and not eoi:
            said += bytes([self.memory[i][self.at[i]]])
            eoi = self.at[i] == self.last[i]
            self.at[i] = (self.at[i] + 1) % 256
        return f"get {channel} {said.hex()}" + " eoi" * eoi

    def put(self, channel, text):
        i = self.buffer(channel)
        if i is None:
            self.status = (61, 0, 0)
        for byte in text if i is not None else ():
            self.memory[i][self.at[i]] = byte
            self.at[i] = (self.at[i] + 1) % 256

    def told(self):
        """What `status` prints: what is left of M-R's answer, or the status, which is then 00."""
        if self.reply:
            return None
        code, first, second = self.status
        self.status = (0, 0, 0)
        text = {61: "FILE NOT OPEN"}.get(code, TEXTS.get(code))
        return f"status {code:02},{text},{min(first, 99):02},{min(second, 99):02}"


def escaped(data):
    return "".join(chr(b) if 0x20 <= b <= 0x7E and b != 0x5C else f"\\{b:02x}" for b in data)


def direct_script(r, drive):
    """A script of direct access, and what the model says is printed."""
    lines, wanted = [], []

    def ask():
        # M-R's answer is taken at once, so that a status is one
        lines.append("status")
        wanted.append(drive.told())

    for _ in range(r.randint(5, 40)):
        channel, kind = r.choice((2, 3, 4, 5, 14)), r.randint(0, 12)
        if kind <= 1:
            text = r.choice(("#", "#", "#0", "#1", "#2", "#5"))
            lines.append(f"open {channel} {text}")
            drive.open(channel, text)
            ask()
        elif kind >= 10:
            # (a few places, so that a block is claimed that is taken)
            track, sector = r.choice(((17, r.randint(0, 20)), (18, r.randint(0, 3)), (r.choice((1, 19, 35)), r.randint(15, 17)), (r.randint(0, 40), r.randint(0, 30))))
            other, gap = int(r.random() < 0.03), r.choice((" ", ",", "\\1d", "  ", ", "))
            if kind == 10:
                counted = r.random() < 0.4
                word = r.choice(("B-W", "BLOCK-WRITE")) if counted else r.choice(("U2", "UB"))
                numbers = (channel, other, track, sector)
                drive.write(*numbers, counted)
            else:
                word = r.choice(("B-A", "BLOCK-ALLOCATE") if kind == 11 else ("B-F", "BLOCK-FREE"))
                numbers = (other, track, sector)
                (drive.allocate if kind == 11 else drive.free)(*numbers)
            lines.append(f"put 15 {word}:" + gap.join(map(str, numbers)) + r.choice(("", "\\0d")))
            ask()
        elif kind <= 4:
            track, sector = r.choice(((r.randint(1, 35), r.randint(0, 16)), (18, r.randint(0, 20)), (r.randint(0, 40), r.randint(0, 255)))), None
            track, sector = track
            other, counted, gap = int(r.random() < 0.03), r.random() < 0.3, r.choice((" ", ",", "\\1d", "  ", ", "))
            word = r.choice(("B-R", "BLOCK-READ")) if counted else r.choice(("U1", "UA"))
            lines.append(f"put 15 {word}:" + gap.join(map(str, (channel, other, track, sector))) + r.choice(("", "\\0d")))
            drive.read(channel, other, track, sector, counted)
            ask()
        elif kind == 5:
            to = r.randint(0, 255)
            lines.append(f"put 15 B-P {channel} {to}")
            drive.seek(channel, to)
            ask()
        elif kind == 6:
            address, count = r.choice((*ROM, 0xE5B0, 0xFFFE, r.randint(0, 65535))), r.randint(1, 30)
            if count == 13:
                count = 12
            lines += [f"put 15 M-R\\{address & 255:02x}\\{address >> 8:02x}\\{count:02x}", "get 15 99"]
            said = bytes(ROM.get((address + i) % 65536, 0) for i in range(count))
            wanted.append(f"get 15 {said.hex()} eoi")
            drive.status = (0, 0, 0)
            ask()
        elif kind == 7 and r.random() < 0.3:
            if r.random() < 0.5:
                lines.append(f"put 15 {r.choice(('UI', 'UJ', 'U:', 'U9'))}")
                drive.start()
            else:
                lines.append("close 15")
                drive.close(15)
            ask()
        elif kind == 7:
            lines.append(f"close {channel}")
            drive.close(channel)
        elif kind == 8 and any(it is not None for it in drive.owner) and r.random() < 0.3:
            lines.append(f"put 15 {r.choice(('N0:OTHER', 'N:OTHER,OT', 'NEW0:OTHER,OT', 'V', 'V0', 'VALIDATE'))}")
            drive.status = (60, 0, 0)
            ask()
        elif kind == 8 and drive.is_geos and all(it is None for it in drive.owner) and r.random() < 0.6:
            lines.append(f"{r.choice(('put', 'open'))} 15 {r.choice(('V', 'V0', 'VALIDATE'))}")
            drive.status = (26, 0, 0)
            ask()
        elif kind == 8:
            text = bytes(r.randrange(256) for _ in range(r.randint(1, 40)))
            lines.append(f"put {channel} {escaped(text)}")
            drive.put(channel, text)
        else:
            most = r.choice((1, 3, 100, 256, 300))
            lines.append(f"get {channel} {most}")
            wanted.append(drive.get(channel, most))
    ask()
    return lines, wanted


def file_lines(r, files):
    """Requests of files, which change what `files` has of those that are closed."""
    name = f"F{r.randint(1, 4)}"
    kind = r.randint(0, 4)
    if kind <= 1:
        data = bytes(r.randrange(256) for _ in range(r.randint(1, 600)))
        files[name] = data
        return [f"open 6 @0:{name},S,W", *(f"put 6 {escaped(data[i:i + 200])}" for i in range(0, len(data), 200)), "close 6", "status"]
    if kind == 2:
        files.pop(name, None)
        return [f"put 15 S0:{name}", "status"]
    if kind == 3:
        return [f"open 6 {name},S", "get 6 50", "close 6", "status"]
    return ["open 0 $", "get 0 9000", "close 0"]


def with_blocks(r, lines):
    """The same requests, and between them commands that write blocks while the files are open."""
    writes = lambda: f"put 15 {r.choice(('U2 3 0', 'B-W 3 0', 'B-A 0', 'B-F 0'))} {r.choice((16, 17, 17, 17, 18, 19))} {r.randint(0, 18)}"
    return ["open 3 #", "put 3 OVERWRITTEN", *(it for line in lines for it in (line, writes(), writes())), "close 3"]


class Checker:
    def __init__(self, drive, room):
        self.drive, self.room, self.passed, self.failed = drive, room, 0, 0

    def say(self, name, wrong):
        self.passed, self.failed = self.passed + (not wrong), self.failed + bool(wrong)
        print(f"WRONG {name}: {wrong}" if wrong else f"ok    {name}", flush=True)

    def run(self, image, lines, *words):
        for name, data in (("in.d64", image), ("a.script", "\n".join(lines).encode() + b"\n")):
            with open(f"{self.room}/{name}", "wb") as out:
                out.write(data)
        ran = subprocess.run([self.drive, "in.d64", "a.script", "out.d64", *words], cwd=self.room, capture_output=True, encoding="latin-1")
        with open(f"{self.room}/out.d64", "rb") as it:
            return ran.stdout.splitlines() if ran.returncode == 0 else [f"ended with {ran.returncode}: {ran.stderr}"], it.read()


def against_the_model(check, r):
    image = bytes(r.randrange(256) for _ in range(683)) * 256
    return answers(check, r, image, False, r.choice(((), ("--read-only",))))


def raw_against_the_model(check, r, raw=True):
    image = bytes(r.randrange(256) for _ in range(683)) * 256
    return answers(check, r, image, False, r.choice(((), (), (), ("--read-only",))), "--direct=raw", raw)


def on_an_empty_disk(check, r, empty):
    return answers(check, r, empty, True, r.choice(((), (), (), ("--read-only",))))


def with_unclosed_files(check, r, empty, geos=None):
    image, free = bytearray(empty), [(t, s) for t in (1, 17, 19, 35) for s in range(SECTORS[t])]
    for n in range(r.randint(1, 8)):
        # (its links lead to a few sectors, to one of another file, or to none)
        blocks = [*r.sample(free, r.randint(1, 6)), (r.choice((0, 0, 41)), 255)]
        for (track, sector), to in zip(blocks, blocks[1:]):
            image[place(track, sector) : place(track, sector) + 2] = bytes(to)
        entry = bytes([r.choice((1, 2, 3, 4, 4, 0x42)), *blocks[0]]) + f"FILE {n}".encode().ljust(16, b"\xa0") + bytes(r.choice(blocks[:-1]))
        image[place(18, 1) + 32 * n + 2 : place(18, 1) + 32 * n + 2 + len(entry)] = entry
    if geos if geos is not None else r.random() < 0.5:
        image[place(18, 0) + 173 : place(18, 0) + 189] = b"GEOS format V1.0"
    return answers(check, r, bytes(image), True, r.choice(((), (), (), ("--read-only",))))


def answers(check, r, image, sound, words, access="--direct", raw=False):
    """What is wrong with the answers to a script, or with the image after it."""
    drive = Drive(image, sound, bool(words), raw)
    lines, wanted = direct_script(r, drive)
    said, after = check.run(image, lines, access, *words)
    if after != drive.image:
        return f"another image after {lines}"
    return next((f"{one!r} where {other!r} is right, of {lines}" for one, other in zip([*said, None], [*wanted, None]) if one != other), len(said) != len(wanted) and "lines are missing")


def files_alone(check, r, empty):
    lines = [line for _ in range(r.randint(1, 8)) for line in file_lines(r, {})]
    return check.run(empty, lines) != check.run(empty, lines, "--direct") and f"other than without --direct: {lines}"


def files_and_blocks(check, r, empty):
    files, lines = {}, []
    for _ in range(r.randint(2, 10)):
        of_files = file_lines(r, files)
        lines += of_files if r.random() < 0.4 else with_blocks(r, of_files)
        lines += [it.replace("put 15 UI", "put 15 I") for it in direct_script(r, Drive(empty))[0][: r.randint(1, 12)]]
        lines += ["close 2", "close 3", "close 4", "close 5", "close 14"]
    said, after = check.run(empty, lines, "--direct")
    said, _ = check.run(after, [it for name, data in files.items() for it in (f"open 2 {name},S", "get 2 9999", "close 2")], "--check")
    wanted = ["check sound", *(f"get 2 {data.hex()} eoi" for data in files.values())]
    return said != wanted and f"{[it[:60] for it in said]} of {lines}"


def main():
    parser = argparse.ArgumentParser()
    parser.add_argument("drive")
    parser.add_argument("--scripts", type=int, default=300)
    parser.add_argument("--only", default="")
    words = parser.parse_args()
    with tempfile.TemporaryDirectory() as room:
        check = Checker(os.path.realpath(words.drive), room)
        _, empty = check.run(bytes(174848), ["put 15 N0:TEST,AB"])
        for name, one in (
            ("blocks, against the model", lambda r: against_the_model(check, r)),
            ("blocks of an empty disk, against the model", lambda r: on_an_empty_disk(check, r, empty)),
            ("blocks of unclosed files and of GEOS, against the model", lambda r: with_unclosed_files(check, r, empty)),
            ("blocks, raw, against the model", lambda r: raw_against_the_model(check, r)),
            ("files alone, with direct access and without", lambda r: files_alone(check, r, empty)),
            ("files and blocks: sound, and each file whole", lambda r: files_and_blocks(check, r, empty)),
        ):
            if words.only not in name:
                continue
            wrong = next((f"seed {seed}: {it}" for seed in range(words.scripts) if (it := one(random.Random(f"{name} {seed}")))), None)
            check.say(f"{words.scripts} scripts of {name}", wrong)
        # (a model that is wrong is told)
        ROM[0xE5B6] ^= 1
        check.say("a wrong byte of the ROM is found", not any(against_the_model(check, random.Random(f"planted {seed}")) for seed in range(300)) and "it isn't")
        ROM[0xE5B6] ^= 1
        check.say("a model that isn't raw is found", not any(raw_against_the_model(check, random.Random(f"planted {seed}"), False) for seed in range(300)) and "it isn't")
        unclosed, Drive.unclosed = Drive.unclosed, lambda self: set()
        check.say("a model that writes over unclosed files is found", not any(with_unclosed_files(check, random.Random(f"planted {seed}"), empty, False) for seed in range(300)) and "it isn't")
        Drive.unclosed = unclosed
        Drive.is_somebodys = lambda self, track, sector: False
        check.say("a model that writes over the directory is found", not any(on_an_empty_disk(check, random.Random(f"planted {seed}"), empty) for seed in range(300)) and "it isn't")
    print(f"{check.passed} passed, {check.failed} failed")
    sys.exit(bool(check.failed))


if __name__ == "__main__":
    main()
