"""A collection of images, made here byte by byte: sound ones, damaged ones, and everything else in a collector's folders."""
import gzip, io, os, random, zipfile

import g64_image as g64
import generated_disks as disks
import source_model as model
from source_writer import SHAPES, disk_of, lynx_of, tape_of

SPEED, DOLPHIN = 0xC0, 0xAC
HEAD = disks.place(18, 0)
# What every second disk has, for `find` to find.
PLANTED = b"PLANTED"


class WideDisk(disks.Disk):
    """A sound disk of 40 tracks, which has the BAM of the last five where Speed DOS has it."""

    tracks, map_at = 40, SPEED

    def put_map(self):
        super().put_map()
        for track in range(36, 41):
            bits = sum(1 << s for s in range(17) if (track, s) not in self.taken)
            self.put(HEAD + self.map_at + 4 * (track - 36), [bin(bits).count("1"), bits & 255, bits >> 8 & 255, bits >> 16])


class DolphinDisk(WideDisk):
    """The same with the BAM where Dolphin DOS has it."""

    map_at = DOLPHIN


class Writer:
    """Adds to a disk what no command would add."""

    def __init__(self, rng, disk):
        self.rng, self.image, self.tracks, self.map_at = rng, disk.image, disk.tracks, getattr(disk, "map_at", SPEED)
        self.is_sound = True

    def put(self, place, data, at=0):
        start = disks.place(*place) + at
        self.image[start : start + len(data)] = bytes(data)

    def block(self, place):
        return self.image[disks.place(*place) :][:256]

    def row(self, track):
        return HEAD + (4 * track if track < 36 else self.map_at + 4 * (track - 36))

    def is_free(self, place):
        return self.image[self.row(place[0]) + 1 + place[1] // 8] >> place[1] % 8 & 1 == 1

    def mark(self, place, free):
        if self.is_free(place) != free:
            self.image[self.row(place[0]) + 1 + place[1] // 8] ^= 1 << place[1] % 8
            at = self.row(place[0])
            self.image[at] = (self.image[at] + (1 if free else -1)) % 256

    def free(self):
        return [(t, s) for t in range(1, self.tracks + 1) if t != 18 for s in range(disks.sectors_of(t)) if self.is_free((t, s))]

    def claim(self, count):
        """Free blocks, taken; none if there are too few."""
        free = self.free()
        taken = self.rng.sample(free, count) if count <= len(free) else []
        for place in taken:
            self.mark(place, False)
        return taken

    def chain(self, data, places=None):
        places = places or self.claim(max(1, -(-len(data) // 254)))
        for n, place in enumerate(places):
            part = data[254 * n : 254 * n + 254]
            self.put(place, bytes(places[n + 1] if n + 1 < len(places) else (0, len(part) + 1)) + part)
        return places

    def directory(self):
        found = [(18, 1)]
        while self.block(found[-1])[0] == 18 and self.block(found[-1])[1] < 19 and len(found) < 18:
            found.append(tuple(self.block(found[-1])[:2]))
        return found

    def slots(self):
        """The places in the image of each entry, and whether it is one."""
        return [(disks.place(*it) + 32 * n + 2, self.image[disks.place(*it) + 32 * n + 2] != 0) for it in self.directory() for n in range(8)]

    def closed(self):
        """The places of the entries of closed files that have blocks."""
        return [at for at, there in self.slots() if there and self.image[at] & 0x80 and self.image[at] & 15 in (1, 2, 3) and self.has(*self.image[at + 1 : at + 3])]

    def has(self, track, sector):
        return 1 <= track <= self.tracks and sector < disks.sectors_of(track)

    def add(self, kind, first, name, blocks, more=b""):
        entry = bytes([kind, *first]) + name.ljust(16, b"\xa0") + more.ljust(9, b"\0") + blocks.to_bytes(2, "little")
        empty = [at for at, there in self.slots() if not there]
        if not empty:
            rest = [(18, s) for s in range(1, 19) if self.is_free((18, s))]
            if not rest:
                return
            self.put(self.directory()[-1], rest[0])
            self.put(rest[0], bytes([0, 255]) + bytes(254))
            self.mark(rest[0], False)
            empty = [disks.place(*rest[0]) + 2]
        self.image[empty[0] : empty[0] + 30] = entry

    def file(self, name, data, kind=0x82):
        if places := self.chain(data):
            self.add(kind, places[0], name, len(places))


# ---- what a disk may have beside its files


def nothing(writer):
    pass


def records(writer):
    """Relative files; what follows the last whole record is the beginning of one more."""
    rng = writer.rng
    for n in range(2):
        length = rng.choice((1, 10, 100, 127, 254))
        data = rng.randbytes(length * rng.randint(1, 3000 // length) + rng.choice((0, rng.randrange(length))))
        if not (places := writer.chain(data)) or not (side := writer.claim(1)):
            return
        listed = b"".join(bytes(it) for it in places)
        writer.put(side[0], bytes((0, 15 + len(listed), 0, length, *side[0])) + bytes(10) + listed)
        writer.add(0x84, places[0], b"RECORDS%d" % n, len(places) + 1, bytes((*side[0], length)))


def geos(writer):
    """A document of records and an application, each with an info block."""
    for n, (kind, structure) in enumerate(((7, 1), (6, 0))):
        if not (info := writer.chain(b"\3\x15\xbf" + writer.rng.randbytes(251))):
            return
        parts = [writer.chain(writer.rng.randbytes(size)) for size in (300, 254, 20)] if structure else []
        index = b"".join(bytes(it[0]) for it in parts if it) + b"\0\xff"
        first = writer.chain(index.ljust(254, b"\0") if structure else writer.rng.randbytes(1000))
        if first:
            writer.add((0x83, 0x82)[n], first[0], (b"LETTER", b"TOOL")[n], 5, bytes((*info[0], structure, kind)))
    writer.image[HEAD + 0xAD : HEAD + 0xAD + 16] = b"GEOS format V1.0"
    writer.is_sound = None


def art(writer):
    for n in range(writer.rng.randint(1, 6)):
        first = writer.rng.choice(((0, 0), (18, 0), (18, 1)))
        writer.add(writer.rng.choice((0x80, 0xC0)), first, writer.rng.choice((b"-" * 16, b"\xc1\xdd LINE %d" % n, b"\xa0BY ME")), 0)
        writer.is_sound = writer.is_sound and first == (0, 0)


def alias(writer):
    if there := writer.closed():
        at = writer.rng.choice(there)
        writer.add(0x82, writer.image[at + 1 : at + 3], b"ALIAS", 1)
        writer.is_sound = False


def odd_names(writer):
    for n, name in enumerate((b"ST*R", b"WH?T", b'A"B', b"A,B", b"A=B:C", b"START\xa0,8,1", b"\0\x01\r", b"..", b"\xa0BLANK", b"\xc1\x61\xe1", b" ")):
        writer.file(name, b"odd %d " % n + writer.rng.randbytes(10), 0x80 + n % 3 + 1)


def unclosed(writer):
    for n in range(2):
        if places := writer.chain(writer.rng.randbytes(600)):
            writer.add(2, places[0], b"OPEN%d" % n, 0)


def locks(writer):
    for at in writer.closed():
        writer.image[at] |= 0x40


def twins(writer):
    for n in range(2):
        writer.file(b"TWIN", b"twin %d" % n, 0x81 + n)


def shorts(writer):
    """A block with one byte, none, and a link that says even less."""
    for n, last in enumerate((2, 1, 0)):
        if places := writer.claim(1):
            writer.put(places[0], bytes((0, last)) + b"Z" * 254)
            writer.add(0x82, places[0], b"SHORT%d" % n, 1)


def full(writer):
    writer.file(b"FULL", writer.rng.randbytes(254 * max(1, len(writer.free()) - writer.rng.choice((0, 1, 3)))))


def crowded(writer):
    for n in range(144):
        writer.add(0x80, (0, 0), b"LINE %d" % n, 0)


def lost(writer):
    writer.claim(5)


def wrong_link(writer, link_of):
    """The link of a block of a closed file becomes another."""
    for at in writer.rng.sample(there := writer.closed(), min(1, len(there))):
        first = tuple(writer.image[at + 1 : at + 3])
        second = tuple(writer.block(first)[:2])
        writer.put(writer.rng.choice((first, second)) if writer.has(*second) else first, link_of(first))
        writer.is_sound = False


def loop(writer):
    wrong_link(writer, lambda first: first)


def astray(writer):
    wrong_link(writer, lambda first: writer.rng.choice(((99, 0), (17, 30), (18, 1), (41, 0))))


def cross(writer):
    there = writer.closed()
    wrong_link(writer, lambda first: tuple(writer.image[writer.rng.choice(there) + 1 :][:2]))


def directory_breaks(writer):
    writer.put(writer.directory()[-1], writer.rng.choice(((255, 255), (18, 19), (99, 0))))
    writer.is_sound = False


def directory_loops(writer):
    writer.put(writer.directory()[-1], writer.rng.choice(writer.directory()))
    writer.is_sound = False


def directory_leaves(writer):
    """The directory goes on outside of its track."""
    if places := writer.claim(1):
        last = writer.directory()[-1]
        writer.file(b"NEAR", b"near")
        file = writer.chain(b"far")
        writer.put(places[0], bytes((0, 255, 0x82, *(file or [(0, 0)])[0])) + b"FAR".ljust(16, b"\xa0") + bytes(9) + b"\1\0" + bytes(224))
        writer.put(last, places[0])
        writer.is_sound = False


def wrong_map(writer):
    for at in writer.closed():
        writer.mark(tuple(writer.image[at + 1 : at + 3]), True)
        writer.is_sound = False


def wrong_counts(writer):
    writer.image[writer.row(writer.rng.choice((1, 17, 20)))] ^= 1
    writer.is_sound = False


def unknown_types(writer):
    for kind in (0x85, 0xC9, 0x8F):
        if places := writer.chain(b"unknown"):
            writer.add(kind, places[0], b"UNKNOWN", 1)
            writer.is_sound = False


def mutated(writer):
    """Bytes that say where things are become others."""
    rng = writer.rng
    firsts = [tuple(writer.image[at + 1 : at + 3]) for at in writer.closed()]
    places = [disks.place(*it) + n for it in firsts for n in (0, 1)] + [HEAD + n for n in range(144)] + [disks.place(18, 1) + n for n in range(512)]
    for _ in range(rng.randint(1, 5)):
        writer.image[rng.choice(places)] = rng.choice((0, 1, 17, 18, 35, 36, 41, 128, 130, 255, rng.randrange(256)))
    writer.is_sound = None


SUBJECTS = (
    nothing, records, geos, art, alias, odd_names, unclosed, locks, twins, shorts, full, crowded, lost, loop, astray, cross, directory_breaks, directory_loops,
    directory_leaves, wrong_map, wrong_counts, unknown_types, mutated, mutated,
)


# ---- images of these disks


def faults_of(rng, writer):
    """Sectors that can't be read: of files, of the directory, or such as no file has."""
    firsts = [tuple(writer.image[at + 1 : at + 3]) for at in writer.closed()]
    pools = ([], [], firsts, writer.directory(), [(18, 0)], [it for it in writer.free() if it[0] < 36])
    pool = rng.choice([it for it in pools if not it or it[0][0] < 36])
    pool = [(t, s) for t, s in pool if 1 <= t < 36 and s < disks.sectors_of(t)]
    return {it: rng.choice((g64.NO_HEADER, g64.NO_DATA, g64.BAD_DATA)) for it in rng.sample(pool, min(len(pool), 2))}


def with_error_bytes(rng, writer):
    errors, faults = bytearray([1]) * 683, faults_of(rng, writer)
    for place, error in faults.items():
        errors[disks.place(*place) // 256] = error
    return bytes(writer.image + errors), bool(faults)


def as_g64(rng, writer):
    faults = faults_of(rng, writer)
    more = {33: rng.randbytes(500), 70: b"\x55" * 6250} if rng.random() < 0.3 else {}
    return g64.made_of(bytes(writer.image), faults, rng.choice((0, 0, 3)), more), bool(faults)


class Image:
    """A file of the collection: where it lies, its bytes, whether its disk is sound (None if that isn't known)."""

    def __init__(self, path, data, is_sound=None):
        self.path, self.data, self.is_sound = path, data, is_sound


def disk_image(number):
    """One of the images of a 1541's disk, each time the same for a number."""
    rng = random.Random(15410 + number)
    is_wide = number % 7 == 3
    kind = (DolphinDisk if number % 14 == 3 else WideDisk) if is_wide else disks.Disk
    writer = Writer(rng, kind(1000 + number))
    subjects = [SUBJECTS[number % len(SUBJECTS)], *(rng.sample(SUBJECTS, 1) if rng.random() < 0.3 else [])]
    if number % 2:
        writer.file(PLANTED, rng.randbytes(rng.randint(1, 2000)))
    for subject in subjects:
        subject(writer)
    data, ending, has_faults = bytes(writer.image), "d64", False
    if not is_wide and number % 5 == 3:
        data, has_faults = with_error_bytes(rng, writer)
    elif not is_wide and number % 5 == 4:
        (data, has_faults), ending = as_g64(rng, writer), "g64"
    is_sound = None if has_faults or kind is DolphinDisk or not writer.is_sound and len(subjects) > 1 else writer.is_sound
    named = "-".join(it.__name__ for it in subjects)
    return Image(f"{'games' if is_sound else 'odd'}/{number:04}-{named}.{ending}", data, is_sound)


def other_kinds(rng):
    """Disks and archives that are only read, packed ones, and what is no image at all."""
    files = [(b"ONE", "prg", False, b"\1\x08" + rng.randbytes(500)), (PLANTED, "seq", True, rng.randbytes(300)), (b"A,B", "usr", False, rng.randbytes(3000))]
    programs = [(name, "prg", False, b"\1\x08" + data) for name, _, _, data in files]
    ends = {"d64": "d64", "d71": "d71", "d81": "d81"}
    for kind, shape in SHAPES.items():
        yield Image(f"kinds/{kind.replace(' ', '-')}.{ends[kind[:3]]}", disk_of(shape, files))
    yield Image("kinds/tape.T64", tape_of(programs))
    yield Image("kinds/archive.lnx", lynx_of(files))
    whole = bytes(disks.Disk(1).image)
    packed = io.BytesIO()
    with zipfile.ZipFile(packed, "w") as archive:
        archive.writestr("in.d64", whole)
    yield Image("packed/zip.d64", packed.getvalue())
    yield Image("packed/gzip.d64", gzip.compress(whole))
    yield Image("packed/other.d64.gz", gzip.compress(whole))
    yield Image("packed/other.zip", packed.getvalue())
    for name, data in (("empty", b""), ("cut", whole[:100_000]), ("byte", whole[:-1]), ("long", whole + b"x"), ("nib", b"MNIB-1541-RAW" + bytes(9000)), ("p64", b"P64-1541" + bytes(90))):
        yield Image(f"none/{name}.d64", data)
    yield Image("none/cut.g64", g64.made_of(whole)[:50_000])
    yield Image("none/readme.txt", b"none")


# Names of files and folders that are odd on this computer, as bytes.
ODD_NAMES = (
    b"star*.d64", b"what?.d64", b'quote".d64', b"comma,.d64", b"-dash.d64", b"back\\slash.d64", b"line\nfeed.d64", b"latin\xe9.d64", b"tab\t.d64", b"two words.D64",
    "\u00e4\u2665.d64".encode(), b"{41}.d64", b"$(x);'.d64", b"latin\xe9.txt", b"folder.d64/inside.d64", b"line\nfolder/inside.d64",
)


def odd_paths():
    """Sound images, all of one disk, under odd names."""
    data = bytes(disks.Disk(2).image)
    for name in ODD_NAMES:
        yield Image(b"names/" + name, data, True)


def in_odd_folder():
    return [Image(b"latin\xe9 folder/inside.d64", bytes(disks.Disk(2).image), True), Image(b"beside.d64", bytes(disks.Disk(3).image), True)]


def lay_deep(room):
    """An image in so many folders that no path of 4,096 bytes leads to it."""
    at = os.open(room, os.O_RDONLY)
    for name in ("deep", *("d" * 250,) * 17):
        os.mkdir(name, dir_fd=at)
        above, at = at, os.open(name, os.O_RDONLY, dir_fd=at)
        os.close(above)
    with open("inside.d64", "wb", opener=lambda name, flags: os.open(name, flags, 0o666, dir_fd=at)) as out:
        out.write(bytes(disks.Disk(2).image))
    os.close(at)


def collection(count):
    rng = random.Random(1541)
    return [*(disk_image(n) for n in range(count)), *other_kinds(rng), *odd_paths()]


def lay(images, room):
    """Writes them into a folder."""
    for it in images:
        path = os.path.join(os.fsencode(room), it.path if isinstance(it.path, bytes) else os.fsencode(it.path))
        os.makedirs(os.path.dirname(path), exist_ok=True)
        with open(path, "wb") as out:
            out.write(it.data)


def add_links(room):
    """A pipe, and links to files and folders, some of which lead nowhere."""
    os.makedirs(f"{room}/links")
    os.mkfifo(f"{room}/links/pipe.d64")
    for name, to in (("file.d64", "../none/byte.d64"), ("gone.d64", "nowhere"), ("round.d64", "round.d64"), ("up", ".."), ("up.d64", "..")):
        os.symlink(to, f"{room}/links/{name}")
