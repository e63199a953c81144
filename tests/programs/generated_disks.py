#!/usr/bin/env python3
"""generated_disks.py DISK1541 [DISKS]: sound disks made here, byte by byte, and the answers of disk1541 for each.

A plain writer of the D64 format (Inside Commodore DOS), independent of the program's code. For each disk, as a D64 or converted
to a G64: the directory must be the written one, line for line; `get-all` must give each file byte for byte, under the name that
docs/disk1541/files.md promises. Each file is added to a new disk of the other format, which then must have it byte for byte; and
both must be sound. Prints one line; ends with 1 if a disk is wrong, which it names.
"""

import concurrent.futures
import os
import random
import shutil
import subprocess
import sys
import tempfile

# The characters of the codes 91 to 127 and 161 to 191, as a C64 shows them at power up.
MIDDLE = "[£]↑←─♠🭲🭸🭷🭶🭺🭱🭴╮╰╯🭼╲╱🭽🭾●🭻♥🭰╭╳○♣🭵♦┼🮌│π◥"
HIGH = "▌▄▔▁▏▒▕🮏◤🮇├▗└┐▂┌┴┬┤▎▍🮈🮂🮃▃🭿▖▝┘▘▚"
SHOWN = {code: chr(code) for code in range(32, 91)}
SHOWN |= {91 + n: shown for n, shown in enumerate(MIDDLE)} | {161 + n: shown for n, shown in enumerate(HIGH)}
# The shifted letters look as the codes 97 to 122 do.
SHOWN |= {code: SHOWN[code - 96] for code in range(193, 219)}
# The characters of the keys, in both sets of a C64; any other code is written by its number.
GRAPHICS = {code: SHOWN[code] for code in range(161, 192)}
UPPER = {code: SHOWN[code] for code in range(32, 96)} | GRAPHICS | {code: SHOWN[code - 96] for code in range(192, 224)}
LOWER = UPPER | {code: chr(code + 32) for code in range(65, 91)} | {code: chr(code - 128) for code in range(193, 219)}
LOWER |= {169: "\U0001fb99", 186: "\u2713", 222: "\U0001fb96", 223: "\U0001fb98"}
KEYS = {"upper": UPPER, "lower": LOWER}
LETTERS = {1: "SEQ", 2: "PRG", 3: "USR"}
# What no command of the drive can say in a name.
DIVIDES = b',=:"*?@$#'


def sectors_of(track):
    return 21 if track < 18 else 19 if track < 25 else 18 if track < 31 else 17


def place(track, sector):
    return 256 * (sum(sectors_of(t) for t in range(1, track)) + sector)


def blocks_for(count):
    return max(1, -(-count // 254))


def plain_name(r):
    """Codes that `put` makes the same codes of."""
    codes = [code for code in SHOWN if code not in DIVIDES and code < 192]
    return bytes([r.choice(codes[1:])] + [r.choice(codes) for _ in range(r.randrange(15))] + [r.choice(codes[1:])])[: r.randint(1, 16)]


def odd_name(r):
    """Codes that a host can't have, or that stand for others there."""
    return bytes(r.choice([*range(193, 219), *b"/%.,=:", *range(65, 91)]) for _ in range(r.randint(1, 16)))


def text(name, charset="upper"):
    """A name as it is shown, and typed."""
    return "".join(KEYS[charset].get(code, f"{{{code:02x}}}") for code in name)


def host_name(name):
    """A name among the host's files, without its ending."""
    out = ""
    for n, code in enumerate(name):
        if 193 <= code < 219:
            out += chr(code - 128)
        elif code in b"/%" or (code == 46 and n == 0):
            out += f"%{code:02X}"
        else:
            out += SHOWN[code]
    return out


class File:
    def __init__(self, r, name):
        self.name = name
        self.kind = r.choice([1, 2, 2, 2, 3])
        self.bytes = r.randbytes(r.choice([1, 2, 253, 254, 255, 508, r.randint(1, 4000), r.randint(1, 4000), r.randint(1, 20000)]))
        self.is_locked = r.randrange(8) == 0
        self.is_closed = r.randrange(16) != 0
        self.shown = blocks_for(len(self.bytes)) if r.randrange(8) else r.randrange(65536)

    def line(self):
        gap = " " * (3 - (self.shown > 9) - (self.shown > 99))
        named = f'{gap}"{text(self.name)}"' + " " * (16 - len(self.name))
        flags = (" " if self.is_closed else "*") + LETTERS[self.kind] + ("<" if self.is_locked else " ")
        return f"{self.shown} {named}{flags}" + " " * (1 + (self.shown > 9) + (self.shown > 99))


class Disk:
    """A sound disk: files in blocks that lie anywhere, empty slots between them, some blocks that are lost."""

    tracks = 35

    def __init__(self, seed):
        r = self.random = random.Random(seed)
        self.image = bytearray(place(self.tracks + 1, 0))
        self.taken = {(18, 0)}
        names = {odd_name(r) if r.randrange(4) == 0 else plain_name(r) for _ in range(r.choice([0, 1, 3, 5, 8, 12]))}
        self.files = [File(r, name) for name in sorted(names)]
        r.shuffle(self.files)
        self.title = bytes(r.choice(range(65, 91)) for _ in range(r.randint(0, 16)))
        self.put_directory()
        free = [(t, s) for t in range(1, self.tracks + 1) if t != 18 for s in range(sectors_of(t)) if (t, s) not in self.taken]
        self.taken |= set(r.sample(free, r.choice([0, 0, 5])))
        self.put_map()

    def put(self, at, values):
        self.image[at : at + len(values)] = bytes(values)

    def chain(self, data):
        """Writes a file, and gives its first block."""
        r = self.random
        blocks = []
        while len(blocks) < blocks_for(len(data)):
            at = (r.choice([*range(1, 18), *range(19, self.tracks + 1)]), 0)
            at = (at[0], r.randrange(sectors_of(at[0])))
            if at not in self.taken:
                self.taken.add(at)
                blocks.append(at)
        for n, at in enumerate(blocks):
            part = data[254 * n : 254 * n + 254]
            link = blocks[n + 1] if n + 1 < len(blocks) else (0, len(part) + 1)
            self.put(place(*at), bytes(link) + part)
        return blocks[0]

    def put_directory(self):
        r = self.random
        slots = list(self.files)
        for _ in range(r.randrange(10)):
            slots.insert(r.randint(0, len(slots)), None)
        count = max(1, -(-len(slots) // 8))
        sectors = [1, *r.sample(range(2, 19), count - 1)]
        for n, sector in enumerate(sectors):
            self.taken.add((18, sector))
            link = (18, sectors[n + 1]) if n + 1 < count else (0, 255)
            self.put(place(18, sector), link)
            for k, file in enumerate(slots[8 * n : 8 * n + 8]):
                if file:
                    self.put(place(18, sector) + 32 * k + 2, self.entry(file))

    def entry(self, file):
        # The blocks of a file that was never closed are free.
        first = self.chain(file.bytes) if file.is_closed else (17, 3)
        kind = file.kind + 128 * file.is_closed + 64 * file.is_locked
        return bytes([kind, *first]) + file.name.ljust(16, b"\xa0") + bytes(9) + file.shown.to_bytes(2, "little")

    def put_map(self):
        head = place(18, 0)
        self.put(head, [18, 1, 0x41, 0])
        self.free = 0
        for track in range(1, 36):
            bits = sum(1 << s for s in range(sectors_of(track)) if (track, s) not in self.taken)
            count = bin(bits).count("1")
            self.free += count * (track != 18)
            self.put(head + 4 * track, [count, bits & 255, bits >> 8 & 255, bits >> 16])
        self.put(head + 144, self.title.ljust(16, b"\xa0") + b"\xa0\xa0ID\xa02A" + b"\xa0" * 4)

    def listing(self):
        title = self.title.decode().ljust(16)
        lines = [f'0 "{title}" ID 2A', *(file.line() for file in self.files), f"{self.free} BLOCKS FREE." + " " * 13]
        return "".join(line + "\n" for line in lines)


class Wrong(Exception):
    pass


def require(what, holds, said=""):
    if not holds:
        raise Wrong(f"{what} {said}")


class Tool:
    def __init__(self, program, folder):
        self.program = program
        self.folder = folder

    def run(self, *words, status=0):
        ran = subprocess.run([self.program, *words], cwd=self.folder, capture_output=True)
        require(" ".join(words), ran.returncode == status, f"ended with {ran.returncode}: {ran.stderr.decode()}")
        return ran.stdout.decode()

    def taken(self, image, folder, status):
        """The files that `get-all` takes out, by their names."""
        self.run("get-all", image, folder, status=status)
        path = os.path.join(self.folder, folder)
        return {name: open(os.path.join(path, name), "rb").read() for name in os.listdir(path)}


def host_names(files):
    """The name of each file, in their order; the second of one name has a number."""
    names = []
    for file in files:
        base, ending = host_name(file.name), LETTERS[file.kind].lower()
        number = sum(1 for other, end, _ in names if (other, end) == (base, ending))
        names.append((base, ending, f"{base}~{number}.{ending}" if number else f"{base}.{ending}"))
    return [name for _, _, name in names]


def move(tool, files, old_folder, image):
    """Puts the files on the image, and gives what `get-all` must then take out of it."""
    wanted = {}
    for n, (name, file) in enumerate(files):
        is_said = all(code < 192 and code not in DIVIDES for code in file.name)
        new = file.name if is_said else f"F{n}".encode()
        ending = LETTERS[file.kind].lower()
        tool.run("put", image, os.path.join(old_folder, name), f"--name={text(new)}", "--type", ending)
        wanted[f"{host_name(new)}.{ending}"] = file.bytes
    return wanted


def try_disk(program, seed):
    disk = Disk(seed)
    with tempfile.TemporaryDirectory(dir=ROOM) as folder:
        tool = Tool(program, folder)
        old, new = ("old.g64", "new.d64") if seed % 2 else ("old.d64", "new.g64")
        with open(os.path.join(folder, "old.d64"), "wb") as image:
            image.write(disk.image)
        if seed % 2:
            tool.run("convert", "old.d64", "old.g64")
        require("check", tool.run("check", old) == "sound\n")
        said = tool.run("list", old)
        require("list", said == disk.listing(), f"says\n{said}and not\n{disk.listing()}")
        named = list(zip(host_names(disk.files), disk.files))
        there = [(name, file) for name, file in named if file.is_closed]
        status = 0 if len(there) == len(named) else 1
        require("get-all", tool.taken(old, "files", status) == {name: file.bytes for name, file in there})
        tool.run("new", new, "--title", "MOVED", "--id", "64")
        wanted = move(tool, there, "files", new)
        require("get-all of the new disk", tool.taken(new, "again", 0) == wanted)
        require("check of the new disk", tool.run("check", new) == "sound\n")


def tried(arguments):
    program, seed = arguments
    try:
        try_disk(program, seed)
        return None
    except Wrong as fault:
        return f"disk {seed}: {fault}"


def main():
    if len(sys.argv) < 2:
        sys.exit(__doc__)
    program = os.path.realpath(sys.argv[1])
    count = int(sys.argv[2]) if len(sys.argv) > 2 else 1000
    with concurrent.futures.ProcessPoolExecutor() as pool:
        wrong = [fault for fault in pool.map(tried, [(program, seed) for seed in range(count)], chunksize=10) if fault]
    for fault in wrong[:10]:
        print(f"WRONG {fault}")
    if not wrong:
        print(f"ok    {count} generated disks, their files on new ones")
    sys.exit(bool(wrong))


# Where memory serves as a disk nothing waits for one.
ROOM = "/dev/shm" if os.access("/dev/shm", os.W_OK) else None

if __name__ == "__main__":
    main()
