#!/usr/bin/env python3
"""check_odd.py DISK1541 [--disks N]: disks with odd entries, such as directory art that leads into the directory, loops, unknown types. A plain model here knows the
entries, the sectors that they lead to, and the files. Each command must change the rest of the disk like a disk without such entries, and leave the odd entries
untouched: each in its slot byte for byte, each sector that it leads to unchanged, in use or free in the BAM as before, and in no file that didn't have it. If that is
impossible, nothing is changed, and the message names the sector. With N disks (default 60), every fifth also as a G64; beyond 60 one command is tried on each, and 10,000 take some minutes.
Prints a line for each property, with the number of disks, and one for each that is WRONG; ends with 1 if one is."""
import argparse, collections, os, random, shutil, subprocess, sys, tempfile

words = argparse.ArgumentParser(description=__doc__, formatter_class=argparse.RawDescriptionHelpFormatter)
words.add_argument("disk1541")
words.add_argument("--disks", type=int, default=60)
words = words.parse_args()
DISK1541 = os.path.realpath(words.disk1541)
cases, wrong = {}, 0


def is_so(disk, case, holds, said=""):
    global wrong
    if not holds:
        print(f"WRONG {disk}: {case}: {said}", flush=True)
        wrong += 1
    cases[case] = cases.get(case, 0) + bool(holds)


def run(*call, feed=None):
    ran = subprocess.run([DISK1541, *map(str, call)], capture_output=True, timeout=60, input=feed)
    return ran.returncode, ran.stdout.decode(errors="replace"), ran.stderr.decode(errors="replace")


# ---- a disk, read plainly


def sectors_on(track):
    return 21 if track < 18 else 19 if track < 25 else 18 if track < 31 else 17


START, at = {}, 0
for track in range(1, 36):
    START[track] = at
    at += 256 * sectors_on(track)


def has(track, sector):
    return 1 <= track <= 35 and sector < sectors_on(track)


def place(track, sector):
    return START[track] + 256 * sector


def block(disk, track, sector):
    return bytes(disk[place(track, sector) : place(track, sector) + 256])


def chain(disk, track, sector):
    """The sectors that links lead to, up to an end, a place that is none, or one that came already."""
    way = []
    while has(track, sector) and (track, sector) not in way:
        way.append((track, sector))
        track, sector = block(disk, track, sector)[:2]
    return way


def directory(disk):
    return chain(disk, 18, 1)


def slot_place(disk, slot):
    track, sector = directory(disk)[slot // 8]
    return place(track, sector) + 32 * (slot % 8) + 2


def entry(disk, slot):
    return bytes(disk[slot_place(disk, slot) : slot_place(disk, slot) + 30])


def entries(disk):
    return [entry(disk, slot) for slot in range(8 * len(directory(disk)))]


def is_free(disk, track, sector):
    return bool(block(disk, 18, 0)[4 * track + 1 + sector // 8] >> sector % 8 & 1)


def mark(disk, track, sector, free):
    at = place(18, 0) + 4 * track
    if is_free(disk, track, sector) != free:
        disk[at + 1 + sector // 8] ^= 1 << sector % 8
        disk[at] += 1 if free else -1


def files(disk):
    """The bytes of each file that is closed, by slot, as its chain has them."""
    found = {}
    for slot, it in enumerate(entries(disk)):
        if it[0] & 0x80 and it[0] & 15 < 4:
            way, data = chain(disk, it[1], it[2]), b""
            for where in way:
                sector = block(disk, *where)
                data += sector[2:] if sector[0] else sector[2 : sector[1] + 1]
            found[slot] = (it[3:19].rstrip(b"\xa0"), data, way)
    return found


# ---- odd entries


def bare(kind, track, sector, name):
    return bytes([kind, track, sector]) + name.ljust(16, b"\xa0") + bytes(11)


def put_entry(disk, slot, data):
    disk[slot_place(disk, slot) : slot_place(disk, slot) + 30] = data


def claim(disk, rng, count, but=()):
    """Free sectors that the BAM loses, none of those that are named."""
    free = [(t, s) for t in range(1, 36) if t != 18 for s in range(sectors_on(t)) if is_free(disk, t, s) and (t, s) not in but]
    taken = rng.sample(free, count)
    for where in taken:
        mark(disk, *where, free=False)
    return taken


def link(disk, way, last):
    """Random bytes in these sectors, which are linked; the last one's link is this."""
    for n, where in enumerate(way):
        to = way[n + 1] if n + 1 < len(way) else last
        disk[place(*where) : place(*where) + 2] = bytes(to)


def fill(disk, rng, way):
    for where in way:
        disk[place(*where) : place(*where) + 256] = rng.randbytes(256)


def art(disk, rng, name):
    return bare(rng.choice((0x80, 0xC0)), 18, rng.choice((0, 1)), name), []


def loop(disk, rng, name):
    way = claim(disk, rng, rng.randint(1, 4))
    fill(disk, rng, way)
    link(disk, way, rng.choice(way))
    return bare(0x82, *way[0], name), way


def unknown(disk, rng, name):
    way = claim(disk, rng, rng.randint(1, 3))
    fill(disk, rng, way)
    link(disk, way, (0, 255))
    return bare(rng.choice((0x85, 0x87, 0x8F, 0xC9, 0x05)), *way[0], name), way


def beyond(disk, rng, name):
    way = claim(disk, rng, rng.randint(0, 2))
    fill(disk, rng, way)
    away = rng.choice(((36, 0), (17, 21), (200, 7)))
    link(disk, way, away)
    return bare(0x82, *(way[0] if way else away), name), way


def on_directory(disk, rng, name):
    way = claim(disk, rng, 2)
    fill(disk, rng, way)
    link(disk, way, (18, 1))
    return bare(0x81, *way[0], name), way


def loose(disk, rng, name):
    """An entry that counts no block, and leads to sectors that are free."""
    free = [(t, s) for t in (*range(1, 18), *range(19, 36)) for s in range(sectors_on(t)) if is_free(disk, t, s)]
    # (the sectors that the drive would allocate next come first)
    way = sorted(free, key=lambda it: abs(it[0] - 18))[: rng.randint(1, 3)] if rng.random() < 0.5 else rng.sample(free, rng.randint(1, 3))
    fill(disk, rng, way)
    link(disk, way, (0, rng.randint(2, 255)))
    return bare(rng.choice((0x80, 0xC0, 0x82)), *way[0], name), way


def alias(disk, rng, name, slot):
    """An entry that leads into the chain of a sound file before it; art, if there is none."""
    ways = [way for other, (called, _, way) in files(disk).items() if other < slot and called.startswith(b"FILE")]
    if not ways:
        return art(disk, rng, name)
    way = rng.choice(ways)
    way = way[rng.choice((0, 0, rng.randrange(len(way)))) :]
    return bare(rng.choice((0x80, 0xC0, 0x82)), *way[0], name), way


KINDS = (art, loop, unknown, beyond, on_directory, loose, alias)


class Disk:
    """A sound disk, the same with odd entries, and what these lead to."""

    def __init__(self, rng, room, n):
        self.rng, self.name = rng, f"{room}/d{n}.d64"
        self.plain = bytearray(open(f"{room}/base{n % BASES}.d64", "rb").read())
        self.image, self.odd, self.held = bytearray(self.plain), {}, {}
        free = [slot for slot, it in enumerate(entries(self.image)) if it[0] == 0]
        for number, slot in enumerate(rng.sample(free, min(len(free), rng.randint(1, 3)))):
            kind = rng.choice(KINDS)
            name = b"ODD %d" % number + rng.choice((b"", b" \xc1\xdd", b"\xa0,8"))
            # (no two odd entries get one free sector)
            free = [where for where in self.held if is_free(self.image, *where)]
            for where in free:
                mark(self.image, *where, free=False)
            data, way = kind(self.image, rng, name, slot) if kind is alias else kind(self.image, rng, name)
            for where in free:
                mark(self.image, *where, free=True)
            put_entry(self.image, slot, data)
            self.odd[slot] = data
            self.held.update({where: block(self.image, *where) for where in way})
            self.is_cut = getattr(self, "is_cut", False) or kind in (loop, beyond)
        self.lost = claim(self.image, rng, 2, self.held) if rng.random() < 0.3 else []
        self.free = [where for where in self.held if is_free(self.image, *where)]
        self.used = {where for slot, (_, _, way) in files(self.image).items() if slot not in self.odd for where in way}

    def without(self):
        """What is left: in each odd entry's slot a locked DEL of its name without a block; what it leads to is in use."""
        left = bytearray(self.image)
        for slot, data in self.odd.items():
            put_entry(left, slot, b"\xc0\0\0" + data[3:])
        for where in self.free:
            mark(left, *where, free=False)
        return left

    def touched(self, left):
        """The first sector that an odd entry leads to which a change of the rest frees, or which a file has got."""
        used = {where for slot, (_, _, way) in files(left).items() if slot not in self.odd for where in way}
        return next((where for where in sorted(self.held) if is_free(left, *where) or where in used - self.used), None)

    def is_left_alone(self, new, claims=False):
        """Whether each odd entry and what it leads to is as it was, and no file's that didn't have it; or all that it leads to is claimed."""
        said = [f"slot {slot}" for slot, data in self.odd.items() if entry(new, slot) != data]
        said += [f"sector {where}" for where, data in self.held.items() if block(new, *where) != data]
        said += [f"{where} is marked otherwise" for where in self.held if is_free(new, *where) != (where in self.free and not claims)]
        used = {where for slot, (_, _, way) in files(new).items() if slot not in self.odd for where in way}
        return said + [f"{where} is a file's" for where in self.held if where in used - self.used]


def with_odd(disk, left, claims):
    """What was made of the rest, with the odd entries in their slots; what was free is free again, unless it is claimed."""
    new = bytearray(left)
    for where in [] if claims else disk.free:
        mark(new, *where, free=True)
    for slot, data in disk.odd.items():
        put_entry(new, slot, data)
    return bytes(new)


def calls(rng, disk, room):
    """Commands that change a disk, each as words after the image, and whether blocks may be given back."""
    there = [name for slot, (name, _, _) in files(disk.plain).items() if name]
    one = rng.choice(there).decode()
    size = rng.choice((0, 1, 254, 255, 3000))
    with open(f"{room}/put.prg", "wb") as out:
        out.write(rng.randbytes(size))
    return [
        ("put", ("put", "{}", f"{room}/put.prg", "--name", "NEW FILE")),
        ("rename", ("rename", "{}", one, "RENAMED")),
        ("delete", ("delete", "{}", one)),
        ("copy", ("copy", "{}", one, "COPY")),
        ("lock", ("lock", "{}", one)),
        ("unlock", ("unlock", "{}", "*")),
        ("title", ("title", "{}", "ANOTHER TITLE")),
        ("delete *", ("delete", "{}", "*")),
        ("rename by slot", ("rename", "{}", "--slot", str(min(files(disk.plain))), "X,Y")),
        ("delete by slot", ("delete", "{}", "--slot", str(min(files(disk.plain))))),
        ("validate", ("validate", "{}")),
    ]


def compare(disk, name, call, room):
    """A command on the disk with odd entries and on what is left."""
    with open(disk.name, "wb") as out:
        out.write(disk.image)
    with open(f"{room}/left.d64", "wb") as out:
        out.write(disk.without())
    ran = run(*(disk.name if it == "{}" else it for it in call))
    left = run(*(f"{room}/left.d64" if it == "{}" else it for it in call))
    new, rest = open(disk.name, "rb").read(), bytearray(open(f"{room}/left.d64", "rb").read())
    if name == "validate" and disk.lost and disk.is_cut:
        is_so(disk.name, "blocks that may be the rest of a cut chain aren't freed", ran[0] == 1 and new == disk.image, ran)
        return new
    if name == "validate":
        for where in disk.held:
            mark(rest, *where, free=False)
    if where := disk.touched(rest):
        is_so(disk.name, "a change that touches what an odd entry leads to is refused", ran[0] == 1 and new == disk.image and "an odd entry points to track %d, sector %d:" % where in ran[2], (ran, where))
        return new
    is_so(disk.name, f"{name}: status", ran[0] == left[0], (ran, left))
    is_so(disk.name, f"{name}: as on what is left", new == with_odd(disk, rest, name == "validate" and ran[0] == 0), ran)
    if "*" in call:
        told = sum(line.endswith("is an odd entry, and was not changed") for line in ran[2].splitlines())
        is_so(disk.name, f"{name}: each odd entry that it means is told", told == (len(disk.odd) if ran[0] == 0 else 0), ran)
    if ran[0] == 0:
        said = disk.is_left_alone(new, claims=name == "validate")
        is_so(disk.name, f"{name}: odd entries", not said, said)
    return new


def as_g64(disk, name, call, expected, room):
    """The same on a G64 of the disk."""
    g64, back = f"{room}/odd.g64", f"{room}/back.d64"
    with open(disk.name, "wb") as out:
        out.write(disk.image)
    run("convert", disk.name, g64, "--replace", "--lossy")
    run(*(g64 if it == "{}" else it for it in call))
    run("convert", g64, back, "--replace", "--lossy")
    is_so(disk.name, f"{name} on a G64", open(back, "rb").read() == expected, name)


def told(disk):
    """What check, info and JSON say."""
    with open(disk.name, "wb") as out:
        out.write(disk.image)
    noun = "entry" if len(disk.odd) == 1 else "entries"
    status, out, _ = run("check", disk.name)
    is_so(disk.name, "check", status == 1 and f"; sound but for {len(disk.odd)} odd {noun}\n" in out, out)
    status, out, _ = run("check", "--all", disk.name)
    is_so(disk.name, "check --all", status == 1 and f"sound but for {len(disk.odd)} odd {noun}: everything else can be changed" in out, out)
    is_so(disk.name, "info", f"odd entries  {len(disk.odd)}\n" in run("info", disk.name)[1])
    slots = ",".join(map(str, sorted(disk.odd)))
    is_so(disk.name, "JSON", f'"odd":[{slots}]' in run("info", "--json", disk.name)[1], slots)


def named(disk, room):
    """An odd entry itself: it isn't renamed, and delete takes it out; with the last one the disk is sound."""
    with open(disk.name, "wb") as out:
        out.write(disk.image)
    slot = min(disk.odd)
    status, _, said = run("rename", disk.name, "--slot", slot, "OTHER")
    is_so(disk.name, "an odd entry isn't renamed", status == 1 and "odd entry" in said and open(disk.name, "rb").read() == disk.image, (status, said))
    for slot in disk.odd:
        if entry(open(disk.name, "rb").read(), slot)[0] & 0x40:
            continue
        before = open(disk.name, "rb").read()
        status, _, said = run("delete", disk.name, "--slot", slot)
        cleared = bytearray(before)
        cleared[slot_place(disk.image, slot)] = 0
        is_so(disk.name, "an odd entry is deleted", status == 0 and open(disk.name, "rb").read() == cleared, (status, said))


def sorted_around(disk, room):
    """sort leaves odd entries in their slots, and sorts the others."""
    with open(disk.name, "wb") as out:
        out.write(disk.image)
    status, _, said = run("sort", disk.name)
    new = open(disk.name, "rb").read()
    names = [it[3:19].split(b"\xa0")[0] for slot, it in enumerate(entries(new)) if it[0] and slot not in disk.odd]
    is_so(disk.name, "sort", status == 0 and names == sorted(names) and not disk.is_left_alone(new), (status, said, names))
    before = collections.Counter(it for slot, it in enumerate(entries(disk.image)) if slot not in disk.odd)
    is_so(disk.name, "sort keeps all", collections.Counter(it for slot, it in enumerate(entries(new)) if slot not in disk.odd) == before)


def refused(rng, room):
    """A file that counts blocks which the BAM has as free: the BAM is at fault, nothing is changed, and the sentence names the sector."""
    for n in range(BASES):
        disk = bytearray(open(f"{room}/base{n}.d64", "rb").read())
        where = next(way[0] for _, _, way in files(disk).values() if way)
        mark(disk, *where, free=True)
        with open(f"{room}/bad.d64", "wb") as out:
            out.write(disk)
        status, _, said = run("title", f"{room}/bad.d64", "NO")
        is_so(f"base {n}", "a file whose block is marked free is refused", status == 1 and f"track {where[0]}, sector {where[1]}" in said and open(f"{room}/bad.d64", "rb").read() == disk, (status, said))


def bases(rng, room):
    """Sound disks with files."""
    for n in range(BASES):
        image = f"{room}/base{n}.d64"
        run("new", image, "--title", f"BASE {n}", "--id", "OD")
        for number in range(rng.choice((3, 5, 6, 10, 12))):
            with open(f"{room}/f.prg", "wb") as out:
                out.write(rng.randbytes(rng.choice((1, 254, 700, 5000))))
            run("put", image, f"{room}/f.prg", "--name", f"FILE {rng.randrange(1000)} {number}")
        if n % 3 == 0:
            run("lock", image, "FILE*0")


BASES = 6
# On so many disks each command is tried, on the others one.
WHOLE = 60


def all_calls(rng, disk, room, is_g64):
    told(disk)
    for name, call in calls(rng, disk, room):
        new = compare(disk, name, call, room)
        if is_g64:
            as_g64(disk, name, call, new, room)
    named(disk, room)
    sorted_around(disk, room)


def main():
    rng = random.Random(1541)
    with tempfile.TemporaryDirectory() as room:
        bases(rng, room)
        for n in range(words.disks):
            disk = Disk(rng, room, n)
            if n < WHOLE:
                all_calls(rng, disk, room, n % 5 == 0)
            else:
                compare(disk, *rng.choice(calls(rng, disk, room)), room)
        refused(rng, room)
        peers(rng, room)
    for case, count in cases.items():
        print(f"ok    {case}: on {count} disks")
    return int(wrong > 0)


# What cc1541 writes in addition to the file ONE; an alias leads into ONE.
PEERS = (
    ("a file on the directory's track", ("-r", "18", "-t", "-f", "odd", "-w", "p.prg")),
    ("another type", ("-T", "5", "-f", "odd", "-w", "p.prg")),
    ("an alias", ("-f", "odd", "-l", "one")),
)


def peers(rng, room):
    """Odd entries of cc1541."""
    if not shutil.which("cc1541"):
        print("skip: cc1541 isn't installed: its odd entries aren't tried")
        return
    with open(f"{room}/p.prg", "wb") as out:
        out.write(rng.randbytes(900))
    image = f"{room}/peer.d64"
    for name, extra in PEERS:
        subprocess.run(["cc1541", "-q", "-n", "peer", "-f", "one", "-w", "p.prg", *extra, image], check=True, capture_output=True, cwd=room)
        before = open(image, "rb").read()
        odd = {slot: it for slot, it in enumerate(entries(before)) if it[3:7] == b"ODD\xa0"}
        status, _, said = run("rename", image, "ONE", "TWO")
        after = open(image, "rb").read()
        is_so("peer.d64", f"cc1541: {name}", status == 0 and len(odd) == 1 and all(entry(after, slot) == it for slot, it in odd.items()), said)
        if name == "an alias":
            status, _, said = run("delete", image, "TWO")
            is_so("peer.d64", "cc1541: the file of an alias isn't deleted", status == 1 and "an odd entry points to track " in said and open(image, "rb").read() == after, said)
        os.unlink(image)


if __name__ == "__main__":
    sys.exit(main())
