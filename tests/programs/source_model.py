"""A plain reader of disks and archives of other kinds, by the rules of their formats: D64 of each size, D71, D81, T64, Lynx. It has nothing in
common with the program's code, and check_sources.py compares the two."""
import bisect, hashlib

TYPES = {0: "del", 1: "seq", 2: "prg", 3: "usr", 4: "rel"}
# The error bytes that mean a sector can't be read, and the drive's codes for them.
ERRORS = {2: 20, 3: 21, 4: 22, 5: 23, 6: 24, 9: 27, 11: 29}
ILLEGAL, ENDLESS = 66, 71
LETTERS = {b"D": 0, b"S": 1, b"P": 2, b"U": 3, b"R": 4}


def zone(track):
    return 21 if track < 18 else 19 if track < 25 else 18 if track < 31 else 17


class Shape:
    """A kind of disk: its format's name, the sectors of each track, where its directory begins, and how many sectors its track has for it."""

    def __init__(self, name, tracks, sectors_on, directory, most, header):
        self.name, self.tracks, self.directory, self.most, self.header = name, tracks, directory, most, header
        self.places = [(t, s) for t in range(1, tracks + 1) for s in range(sectors_on(t))]
        self.number = {place: n for n, place in enumerate(self.places)}


D64_35 = Shape("D64", 35, zone, (18, 1), 18, (18, 0))
D64_40 = Shape("D64", 40, zone, (18, 1), 18, (18, 0))
D64_42 = Shape("D64", 42, zone, (18, 1), 18, (18, 0))
D71 = Shape("D71", 70, lambda t: zone(t if t < 36 else t - 35), (18, 1), 18, (18, 0))
D81 = Shape("D81", 80, lambda t: 40, (40, 3), 37, (40, 0))
SIZES = {197376: D64_40, 205312: D64_42, 206114: D64_42, 349696: D71, 351062: D71, 819200: D81, 822400: D81}
# The sizes of images of a 1541's disk, which are no other kind.
OURS = {174848, 175531, 196608}


class File:
    """An entry, and the bytes of its file; None where they can't be read."""

    def __init__(self, kind, name, blocks, first, record, data):
        self.type, self.closed, self.locked = TYPES.get(kind % 16, "unknown"), kind & 128 != 0, kind & 64 != 0
        self.name, self.blocks, self.first, self.record = name.split(b"\xa0")[0], blocks, first, record if kind % 16 == 4 else None
        self.behind = name.partition(b"\xa0")[2].rstrip(b"\xa0")
        self.data = data if self.closed else None

    def as_json(self, slot):
        """What JSON says of it, but for its name in a character set and what GEOS says; of what stands behind the name, whether there is anything."""
        has_load = self.data is not None and self.type == "prg" and len(self.data) >= 2
        return {
            "slot": slot, "petscii": self.name.hex(), "behind": self.behind != b"", "type": self.type, "closed": self.closed, "locked": self.locked, "blocks": self.blocks,
            "bytes": None if self.data is None else len(self.data), "load": self.data[0] + 256 * self.data[1] if has_load else None,
            "first": {"track": self.first[0], "sector": self.first[1]}, "record": self.record,
        }


class Disk:
    """A disk of another kind."""

    def __init__(self, image, shape):
        self.image, self.shape, self.errors = image, shape, image[256 * len(shape.places) :]
        self.format = shape.name + (" with error bytes" if self.errors else "")
        self.tracks, self.sectors = shape.tracks, image[: 256 * len(shape.places)]
        self.unreadable = sum(self.errors.count(it) for it in ERRORS)
        blocks, stop = self.chain(shape.directory, shape.most)
        entries = [block[32 * n + 2 : 32 * n + 32] for block in blocks for n in range(8)]
        self.files = [self.file(it) for it in entries if it[0]]
        self.broken = stop and {"entries": len(self.files), "track": stop[1], "sector": stop[2], "error": stop[0]}

    def chain(self, at, most=9999):
        """The sectors of a chain of at most so many, and the code and the place where it breaks off."""
        blocks, met = [], set()
        while at[0]:
            n = self.shape.number.get(at)
            if n is None:
                return blocks, (ILLEGAL, *at)
            if self.errors and self.errors[n] in ERRORS:
                return blocks, (ERRORS[self.errors[n]], *at)
            if at in met or len(met) == most:
                return blocks, (ENDLESS, *at)
            met.add(at)
            block = self.image[256 * n : 256 * n + 256]
            blocks.append(block)
            at = (block[0], block[1])
        return blocks, None

    def file(self, entry):
        first = (entry[1], entry[2])
        blocks, stop = self.chain(first)
        data = b"".join(it[2:] if it[0] else it[2 : max(it[1] + 1, 2)] for it in blocks)
        return File(entry[0], entry[3:19], entry[28] + 256 * entry[29], first, entry[21], None if stop else data)


class Tape:
    """A T64 archive."""

    format, tracks, unreadable, broken = "T64", None, None, None

    def __init__(self, image):
        self.sectors = image
        count = min(max(1, self.word(34), self.word(36)), (len(image) - 64) // 32)
        records = [image[64 + 32 * n : 96 + 32 * n] for n in range(count)]
        self.records = [it for it in records if it[0]]
        self.starts = sorted({self.offset(it) for it in self.records})
        self.files = [self.file(it) for it in self.records]

    def word(self, at):
        return self.sectors[at] + 256 * self.sectors[at + 1]

    @staticmethod
    def offset(record):
        return int.from_bytes(record[8:12], "little")

    def file(self, record):
        start, end, at = record[2] + 256 * record[3], record[4] + 256 * record[5], self.offset(record)
        after = bisect.bisect_right(self.starts, at)
        limit = min([*self.starts[after : after + 1], len(self.sectors)])
        room = max(0, limit - at)
        size = end - start if 0 < end - start <= room else min(room, 65536 - start)
        data = record[2:4] + self.sectors[at : at + size] if at < len(self.sectors) else None
        return File(0x82, record[16:32].rstrip(b" "), max(1, -(-(2 + size) // 254)), (0, 0), 0, data)


class Unread(Exception):
    """A line isn't what it must be."""


class Lynx:
    """A Lynx archive."""

    format, tracks, unreadable = "Lynx", None, None

    def __init__(self, image):
        self.sectors = image
        end = image.find(b"\0\0\0\r")
        if end < 0:
            raise Unread
        stop = end + 4
        while stop < len(image) and image[stop] in b" 0123456789":
            stop += 1
        if stop == len(image) or not image[stop:].startswith((b"LYNX", b"*LYNX")):
            raise Unread
        blocks = self.spelled(image[end + 4 : stop])
        count, at = self.number(self.line(stop)[1])
        self.files, self.broken, start = [], None, 254 * blocks
        for _ in range(count):
            try:
                member, after, taken = self.member(at, start)
            except Unread:
                self.broken = {"entries": len(self.files), "track": None, "sector": None, "error": None}
                break
            self.files.append(member)
            at, start = after, start + 254 * taken

    def line(self, at):
        end = self.sectors.find(b"\r", at)
        if end < 0:
            raise Unread
        return self.sectors[at:end], end + 1

    @staticmethod
    def spelled(text):
        if text.strip(b" 0123456789"):
            raise Unread
        value = 0
        for digit in text.replace(b" ", b""):
            value = 10 * value + digit - 48
            if value > 65535:
                raise Unread
        return value

    def number(self, at):
        text, after = self.line(at)
        return self.spelled(text), after

    def member(self, at, start):
        name, at = self.line(at)
        blocks, at = self.number(at)
        kind, at = self.line(at)
        kind = LETTERS.get(kind[:1])
        if kind is None:
            raise Unread
        if kind == 4:
            _, at = self.number(at)
        last, at = self.number(at)
        side = -(-blocks // 121) if kind == 4 else 0
        size = 254 * (blocks - side - 1) + max(min(last, 255) - 1, 0) if blocks > side else 0
        begin = start + 254 * side
        data = self.sectors[begin : begin + size] if begin + size <= len(self.sectors) else None
        return File(0x80 + kind, name[:16], blocks, (0, 0), 0, data), at, blocks


def read(image):
    """What the bytes are; None if they are no other kind of disk and no archive."""
    if len(image) in OURS or image.startswith(b"GCR-1541"):
        return None
    if len(image) in SIZES:
        return Disk(image, SIZES[len(image)])
    if len(image) >= 64 and image.startswith(b"C64"):
        return Tape(image)
    try:
        return Lynx(image)
    except Unread:
        return None


def compared(files):
    """The files of a line of JSON, as `as_json` of a file has them."""
    return [{key: value for key, value in it.items() if key not in ("name", "geos")} | {"behind": it["behind"] is not None} for it in files]


def as_json(source):
    """What JSON says of it, but for the names in a character set, the label, and what GEOS says."""
    files = [it.as_json(slot) for slot, it in enumerate(source.files)]
    return {"format": source.format, "tracks": source.tracks, "unreadable": source.unreadable, "files": files, "broken": source.broken}


def sum_of(source):
    """What `hash` prints of it: the sum of its sectors without error bytes, or of an archive's bytes."""
    return hashlib.sha256(source.sectors).hexdigest()
