#!/usr/bin/env python3
"""damaged_disks.py [FOLDER]: 500 damaged disks, and what `check` and VALIDATE say of each, as a transcript (docs/dev/transcripts.md).
With FOLDER: the disks as images in it, and damaged.txt with the SHA-256 of each and the result of a check.

A plain reading of the D64 format and of the drive's rules (docs/quirks.md), apart from the drive's own code: what it prints
is crates/cases/data/damaged.cases.
"""
import hashlib
import os
import sys

DISKS = 500
CODES = {2: 20, 3: 21, 4: 22, 5: 23, 6: 24, 9: 27, 11: 29}  # a D64's error bytes
HEADER_FAULTS = (20, 21, 27, 29)
TEXTS = {29: "DISK ID MISMATCH", 66: "ILLEGAL TRACK OR SECTOR", 71: "DIR ERROR"}
IMAGE = 174_848


def sectors_of(track):
    return 21 if track < 18 else 19 if track < 25 else 18 if track < 31 else 17


def place(track, sector):
    return 256 * (sum(sectors_of(t) for t in range(1, track)) + sector)


def all_sectors():
    return [(t, s) for t in range(1, 36) for s in range(sectors_of(t))]


def put(image, at, values):
    image[at : at + len(values)] = bytes(values)


def formatted(used):
    """A disk with error bytes as NEW leaves it, but that these sectors are taken."""
    image = bytearray(IMAGE + 683)
    put(image, IMAGE, [1] * 683)
    head = place(18, 0)
    put(image, head, [18, 1, 0x41, 0])
    for track in range(1, 36):
        bits = sum(1 << s for s in range(sectors_of(track)) if (track, s) not in used)
        put(image, head + 4 * track, [bin(bits).count("1"), bits & 255, bits >> 8 & 255, bits >> 16])
    put(image, head + 144, [0xA0] * 27)
    put(image, head + 144, b"TEST")
    put(image, head + 162, b"AB\xa02A")
    put(image, place(18, 1), [0, 255])
    return image


def base():
    """A closed SEQ file of two blocks, a PRG file that was never closed, a USR file of three, a REL file."""
    image = formatted({(18, 0), (18, 1), (17, 0), (17, 10), (17, 20), (16, 1), (16, 2), (16, 3), (19, 1), (19, 2)})
    entries = [(0x81, 17, 0, b"A", 0, 0, 0, 2), (2, 17, 20, b"B", 0, 0, 0, 0), (0x83, 16, 1, b"C", 0, 0, 0, 3), (0x84, 19, 1, b"R", 19, 2, 20, 2)]
    for n, (kind, track, sector, name, side_track, side, length, blocks) in enumerate(entries):
        entry = place(18, 1) + 32 * n
        put(image, entry + 2, [kind, track, sector])
        put(image, entry + 5, [0xA0] * 16)
        put(image, entry + 5, name)
        put(image, entry + 21, [side_track, side, length])
        put(image, entry + 30, [blocks, 0])
    for at, link in [((17, 0), (17, 10)), ((17, 10), (0, 90)), ((16, 1), (16, 2)), ((16, 2), (16, 3)), ((16, 3), (0, 9)), ((19, 1), (0, 41)), ((19, 2), (0, 17))]:
        put(image, place(*at), link)
    put(image, place(19, 2) + 3, [20, 19, 2])
    put(image, place(19, 2) + 16, [19, 1])
    return image


class Random:
    def __init__(self, seed):
        self.state = seed

    def below(self, n):
        self.state = (self.state * 1664525 + 1013904223) % 2**32
        return (self.state >> 16) % n


INTERESTING = [(18, 0), (18, 1), (17, 0), (17, 10), (16, 1), (16, 2), (16, 3), (19, 1), (19, 2)]
FIELDS = [2, 3, 4, 21, 22, 23]


def damage(image, r):
    kind = r.below(8)
    if kind == 0:
        at = place(18, 1) + 32 * r.below(4)
        at += FIELDS[r.below(6)]
        image[at] = r.below(36)
    elif kind == 1:
        at = place(*INTERESTING[2 + r.below(7)])
        at += r.below(2)
        image[at] = r.below(36)
    elif kind == 2:
        at = place(18, 0) + 4 + r.below(140)
        image[at] = r.below(256)
    elif kind == 3:
        at = place(18, 1) + r.below(2)
        image[at] = r.below(20)
    elif kind == 4:
        at = place(19, 2) + r.below(20)
        image[at] = r.below(24)
    elif kind == 5:
        at = IMAGE + place(*INTERESTING[r.below(9)]) // 256
        image[at] = r.below(12)
    elif kind == 6:
        at = IMAGE + r.below(683)
        image[at] = r.below(12)
    else:
        at = place(18, 1) + 32 * r.below(4) + 2
        image[at] ^= 0x80


class Flaw(Exception):
    pass


def code_of(image, at):
    return CODES.get(image[IMAGE + place(*at) // 256], 0)


def cell(image, at):
    return None if code_of(image, at) else image[place(*at) : place(*at) + 256]


def is_free(image, at):
    bits = image[place(18, 0) + 4 * at[0] + 1 :][:3]
    return bits[at[1] // 8] >> at[1] % 8 & 1 == 1


def judge(image, validates):
    """The free blocks, if only what is used is taken; or raises the first flaw.

    VALIDATE doesn't look at the map, nor at entries that aren't closed.
    """
    used = []

    def claim(at, ours, flaw):
        track, sector = at
        if not (1 <= track <= 35 and sector < sectors_of(track) and ours(track)):
            raise Flaw(flaw, at)
        if at in used:
            raise Flaw(3, at)
        if cell(image, at) is None:
            raise Flaw(9, at)
        if not validates and is_free(image, at):
            raise Flaw(2, at)
        used.append(at)
        return cell(image, at)

    def chain(at, ours, flaw):
        blocks = []
        while at[0] != 0:
            sector = claim(at, ours, flaw)
            blocks.append(at)
            at = (sector[0], sector[1])
        return blocks

    def relative(entry):
        first, side, length = (entry[3], entry[4]), (entry[21], entry[22]), entry[23]
        if first[0] == 0:
            raise Flaw(4, first)
        blocks = chain(first, lambda t: t != 18, 4)
        head = claim(side, lambda t: t != 18, 4)
        sides = []
        for n in range(6):
            at = (head[4 + 2 * n], head[5 + 2 * n])
            if at[0] == 0:
                break
            if n > 0:
                claim(at, lambda t: t != 18, 4)
            sides.append(at)
        if not 1 <= length <= 254 or not sides or sides[0] != side:
            raise Flaw(7, side)
        listed = []
        for n, at in enumerate(sides):
            sector = cell(image, at)
            if sector[2] != n or sector[3] != length:
                raise Flaw(7, side)
            for k in range(120):
                if sector[16 + 2 * k] == 0:
                    break
                listed.append((sector[16 + 2 * k], sector[17 + 2 * k]))
        if blocks[: len(listed)] != listed:
            raise Flaw(7, side)

    for at in all_sectors():
        if code_of(image, at) in HEADER_FAULTS:
            raise Flaw(5, at)
    head = claim((18, 0), lambda t: t == 18, 6)
    if not validates:
        for track in range(1, 36):
            if head[4 * track] != sum(is_free(image, (track, s)) for s in range(sectors_of(track))):
                raise Flaw(1, (track, 0))
    directory = chain((18, 1), lambda t: t == 18, 6)
    for at in directory:
        for n in range(8):
            entry = cell(image, at)[32 * n : 32 * n + 32]
            closed = entry[2] >= 128
            if validates and not closed:
                continue
            if entry[2] % 16 > 4:
                raise Flaw(8, at)
            if closed and entry[2] % 16 == 4:
                relative(entry)
            elif closed:
                chain((entry[3], entry[4]), lambda t: t != 18, 4)
    return 664 - sum(track != 18 for track, sector in used)


def verdict(image):
    """What `check` says."""
    try:
        judge(image, False)
        return "sound"
    except Flaw as flaw:
        number, at = flaw.args
        return "%d %d %d" % (number, *at)


def refusal(image):
    """What VALIDATE answers where it refuses, and the blocks that it leaves free where it doesn't."""
    try:
        return None, judge(image, True)
    except Flaw as flaw:
        number, at = flaw.args
        code = code_of(image, at) if number in (5, 9) else 66 if number in (4, 6) else 71
        return "%d,%s,%02d,%02d" % (code, TEXTS.get(code, "READ ERROR"), min(at[0], 99), min(at[1], 99)), None


def pokes(before, after):
    """The lines that make of one image another."""
    lines = []
    for track, sector in all_sectors():
        at = place(track, sector)
        changed = [n for n in range(256) if before[at + n] != after[at + n]]
        while changed:
            first = last = changed[0]
            while changed and changed[0] <= last + 3:
                last = changed.pop(0)
            lines.append("poke %d/%d+$%02x = %s" % (track, sector, first, after[at + first : at + last + 1].hex(" ")))
        error = IMAGE + at // 256
        if before[error] != after[error]:
            lines.append("poke %d/%d error %d" % (track, sector, after[error]))
    return lines


VALIDATE = ["> put 15 V0", "> status"]


def damaged(seed):
    """The disk of this number."""
    image = base()
    r = Random(seed)
    for _ in range(1 + r.below(3)):
        damage(image, r)
    return image


def write_images(folder):
    """Writes the disks and the list of them."""
    os.makedirs(folder, exist_ok=True)
    with open(f"{folder}/damaged.txt", "w", encoding="utf-8") as rows:
        for seed in range(DISKS):
            image, name = bytes(damaged(seed)), f"damaged-{seed:03}.d64"
            with open(f"{folder}/{name}", "wb") as out:
                out.write(image)
            print(hashlib.sha256(image).hexdigest(), name, verdict(image), file=rows)


def case(seed):
    """The lines of the disk of this number."""
    image = damaged(seed)
    lines = ["", "== damaged disk %d" % seed, "disk files", *pokes(base(), image)]
    found = verdict(image)
    unsound = ["check " + found] if found != "sound" else []
    status, free = refusal(image)
    if status:
        return [*lines, *unsound, "stays", *VALIDATE, "status " + status, *unsound]
    fine = [*VALIDATE, "status 00, OK,00,00"]
    return [*lines, *unsound, "then", *fine, "free %d" % free, "stays", *fine]


def print_transcript():
    print("; 500 damaged disks, written by tools/make/damaged_disks.py: what a check says of each, and what VALIDATE answers. Where it")
    print("; refuses, the disk stays; else the disk is sound afterwards, and a second VALIDATE changes nothing.")
    print()
    print("== four files")
    print("; A closed SEQ file of two blocks, a PRG file that was never closed, a USR file of three blocks, and a REL file.")
    print("disk empty, error bytes")
    empty = formatted({(18, 0), (18, 1)})
    print("\n".join([*pokes(empty, base()), "keep files"]))
    for seed in range(DISKS):
        print("\n".join(case(seed)))


if __name__ == "__main__":
    if sys.argv[1:]:
        write_images(sys.argv[1])
    else:
        print_transcript()
