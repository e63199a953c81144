#!/usr/bin/env python3
"""check_diff.py DISK1541 [PAIRS]: the output of `disk1541 diff` for two images, and of `disk1541 show` for a file, compared with a model in Python that follows
the rules of docs/disk1541/ (json.md, files.md) and of the D64 format. The images are those of generated_disks.py and variants of them: other bytes, titles, entries,
links, error bytes, blank tracks, as a D64 or a G64. A BASIC program is also compared with petcat, if that is installed. Prints one line a case, which
begins with ok or WRONG; ends with 1 if one is wrong."""
import json, os, random, shutil, subprocess, sys, tempfile

from generated_disks import KEYS, Disk, place, sectors_of, text

DISK1541 = os.path.realpath(sys.argv[1])
PAIRS = int(sys.argv[2]) if len(sys.argv) > 2 else 120
KINDS = ("del", "seq", "prg", "usr", "rel")
# The errors that error bytes mean (the D64 format's table); any other byte is that of a good sector.
ERRORS = {2: 20, 3: 21, 4: 22, 5: 23, 6: 24, 9: 27, 11: 29}
UNKNOWN = "unknown, because track 18, sector 0 is unreadable"
wrong = 0


def is_so(name, holds, said=""):
    global wrong
    print(f"ok    {name}" if holds else f"WRONG {name}: {said}")
    wrong += not holds


def run(*words):
    ran = subprocess.run([DISK1541, *map(str, words)], capture_output=True, timeout=60)
    return ran.returncode, ran.stdout.decode(errors="replace"), ran.stderr.decode(errors="replace")


# --- a disk as the model reads it: the bytes of each sector, or the number of its error


def cells_of(image):
    tracks = 40 if len(image) == 196_608 else 35
    places = [(t, s) for t in range(1, tracks + 1) for s in range(sectors_of(t))]
    errors = image[256 * len(places) :] or bytes(len(places))
    return {at: ERRORS.get(errors[n]) or image[256 * n : 256 * n + 256] for n, at in enumerate(places)}


def followed(cells, first, most):
    """The sectors of a chain, each once, and why it breaks off there: the error and the sector."""
    at, seen = first, []
    while at[0] != 0:
        if at not in cells:
            return seen, (66, at)
        if at in seen or len(seen) == most:
            return seen, (71, at)
        if isinstance(cells[at], int):
            return seen, (cells[at], at)
        seen.append(at)
        at = (cells[at][0], cells[at][1])
    return seen, None


def cause(trouble):
    error, (track, sector) = trouble
    if error == 66:
        return f"a link leads to track {track}, sector {sector}, which the disk doesn't have (error 66)"
    if error == 71:
        return f"a link leads back to track {track}, sector {sector} (error 71)"
    return f"track {track}, sector {sector} can't be read (error {error})"


def bytes_of(cells, first):
    chain, trouble = followed(cells, first, len(cells))
    data = b""
    for at in chain:
        sector = cells[at]
        data += sector[2:] if sector[0] else sector[2 : max(2, sector[1] + 1)]
    return data, trouble


class Entry:
    def __init__(self, cells, slot, raw):
        self.slot, self.raw, self.kind = slot, raw, raw[2]
        self.name = raw[5:21]
        while self.name.endswith(b"\xa0"):
            self.name = self.name[:-1]
        if b"\xa0" in self.name:
            self.name = self.name[: self.name.index(b"\xa0")]
        self.type = KINDS[self.kind & 15] if self.kind & 15 < 5 else "unknown"
        self.record = raw[23] if self.type == "rel" else 0
        self.blocks = raw[30] + 256 * raw[31]
        self.data, self.trouble = bytes_of(cells, (raw[3], raw[4]))
        self.cut = self.trouble and f"breaks off after {len(self.data)} bytes: {cause(self.trouble)}"


class Model:
    def __init__(self, cells, charset):
        self.cells, self.tracks = cells, 40 if (40, 0) in cells else 35
        head = cells[18, 0]
        self.label = (None, None, None)
        if not isinstance(head, int):
            title = head[144:160].rstrip(b"\xa0")
            self.label = tuple(text(it, charset) for it in (title, head[162:164], head[165:167]))
        chain, trouble = followed(cells, (18, 1), 18)
        entries = [Entry(cells, 8 * n + k, cells[at][32 * k : 32 * k + 32]) for n, at in enumerate(chain) for k in range(8)]
        self.files = [it for it in entries if it.kind]
        self.broken = None
        if trouble:
            is_long = trouble[0] == 71 and len(entries) == 144
            self.broken = "the directory has more than the 18 sectors that the drive reads" if is_long else f"the directory breaks off after {len(entries)} entries: {cause(trouble)}"


def longest(values):
    """The numbers of the values that stay in order: as many as there can be, and of several choices the one whose numbers come first."""
    best = [None] * (len(values) + 1)
    for n in reversed(range(len(values))):
        later = [best[k] for k in range(n + 1, len(values)) if values[k] > values[n]]
        tail = min((it for it in later), key=lambda it: (-len(it), it), default=[])
        best[n] = [n, *tail]
    return min((it for it in best[:-1]), key=lambda it: (-len(it), it), default=[])


def both(first, second):
    return None if first == second else {"first": first, "second": second}


def either(first, second):
    return {"first": first, "second": second} if first is not None or second is not None else None


def differences(a, b, charset, names):
    """What differs, as `diff --json` says it."""
    left, pairs = list(b.files), []
    for one in a.files:
        other = next((it for it in left if it.name == one.name), None)
        if other:
            left.remove(other)
            pairs.append((one, other))
    alone = [it for it in a.files if it not in [one for one, _ in pairs]]
    lone = lambda it: {"slot": it.slot, "name": text(it.name, charset), "petscii": it.name.hex(), "type": it.type, "blocks": it.blocks}
    stays, files = longest([other.slot for _, other in pairs]), []
    for n, (one, other) in enumerate(pairs):
        same = next((k for k, (x, y) in enumerate(zip(one.data, other.data)) if x != y), min(len(one.data), len(other.data)))
        file = {
            "name": text(one.name, charset),
            "petscii": one.name.hex(),
            "slots": {"first": one.slot, "second": other.slot},
            "bytes": None if one.data == other.data else {"first": len(one.data), "second": len(other.data), "from": same},
            "type": both(one.type, other.type),
            "locked": both(bool(one.kind & 64), bool(other.kind & 64)),
            "closed": both(bool(one.kind & 128), bool(other.kind & 128)),
            "blocks": both(one.blocks, other.blocks),
            "record": both(one.record, other.record),
            "place": None if n in stays else {"first": a.files.index(one) + 1, "second": b.files.index(other) + 1},
            "cut": either(one.cut, other.cut),
        }
        if any(v is not None for k, v in file.items() if k not in ("name", "petscii", "slots")):
            files.append(file)
    sectors, unread = [], {"first": [], "second": []}
    for track in range(1, min(a.tracks, b.tracks) + 1):
        numbers = []
        for s in range(sectors_of(track)):
            one, other = a.cells[track, s], b.cells[track, s]
            if one == other:
                continue
            if isinstance(one, int) or isinstance(other, int):
                for side, cell in (("first", one), ("second", other)):
                    unread[side] += [{"track": track, "sector": s, "error": cell}] if isinstance(cell, int) else []
            else:
                numbers.append(s)
        sectors += [{"track": track, "sectors": numbers}] if numbers else []
    told = {
        "first": names[0],
        "second": names[1],
        "same": None,
        "tracks": both(a.tracks, b.tracks),
        "title": both(a.label[0], b.label[0]),
        "id": both(a.label[1], b.label[1]),
        "dos": both(a.label[2], b.label[2]),
        "broken": either(a.broken, b.broken),
        "only_first": [lone(it) for it in alone],
        "only_second": [lone(it) for it in left],
        "files": files,
        "sectors": sectors,
        "unreadable": unread,
    }
    alike = lambda it: it is None or it["first"] == it["second"]
    told["same"] = (
        not any(told[k] for k in ("tracks", "title", "id", "dos", "only_first", "only_second", "sectors"))
        and alike(told["broken"])
        and not unread["first"]
        and not unread["second"]
        and all(alike(v) for it in files for k, v in it.items() if k not in ("name", "petscii", "slots"))
        and not any(it["place"] for it in files)
    )
    return told


def lines_of(told):
    """The lines of `diff`."""
    lines = []
    two = lambda name, it, shown=str: lines.append(f"{name}: {shown(it['first'])} | {shown(it['second'])}") if it else None
    quoted = lambda it: UNKNOWN if it is None else f'"{it}"'
    two("tracks", told["tracks"])
    two("title", told["title"], quoted)
    two("id", told["id"], quoted)
    two("DOS", told["dos"], quoted)

    def cuts(name, it):
        for side in ("first", "second"):
            if it and it[side] is not None:
                lines.append(f"{name}{side}: {it[side]}; what comes before is compared")

    cuts("", told["broken"])
    for side in ("first", "second"):
        for it in told[f"only_{side}"]:
            lines.append(f'"{it["name"]}": only in the {side} ({it["type"]}, {it["blocks"]} block{"" if it["blocks"] == 1 else "s"})')
    for it in told["files"]:
        name = f'"{it["name"]}": '
        if it["bytes"]:
            lines.append(f"{name}bytes: {it['bytes']['first']} | {it['bytes']['second']}, different from byte {it['bytes']['from']} on")
        two(f"{name}type", it["type"])
        for word in ("locked", "closed"):
            if it[word]:
                lines.append(f"{name}{word} only in the {'first' if it[word]['first'] else 'second'}")
        two(f"{name}blocks", it["blocks"])
        two(f"{name}record length", it["record"])
        two(f"{name}place in the directory", it["place"])
        cuts(name, it["cut"])
    if told["sectors"]:
        lines.append(f"sectors that differ: {sum(len(it['sectors']) for it in told['sectors'])}")
    for it in told["sectors"]:
        lines.append(f"track {it['track']}: {', '.join(map(str, it['sectors']))}")
    for side in ("first", "second"):
        for track in sorted({it["track"] for it in told["unreadable"][side]}):
            these = [f"{it['sector']} (error {it['error']})" for it in told["unreadable"][side] if it["track"] == track]
            lines.append(f"track {track}: {', '.join(these)} can't be read in the {side}")
    return "".join(f"{it}\n" for it in lines + (["nothing differs"] if told["same"] else []))


# --- what is made of a disk


def slots_of(image):
    """Where the entries of files stand in an image."""
    chain, _ = followed(cells_of(image), (18, 1), 18)
    return [place(*at) + 32 * k for at in chain for k in range(8) if image[place(*at) + 32 * k + 2]]


def other_bytes(r, image):
    for _ in range(r.randint(1, 5)):
        at = place(r.choice([*range(1, 18), *range(19, 36)]), r.randrange(17))
        image[at + r.randrange(2, 256)] ^= r.randint(1, 255)


def other_label(r, image):
    at, size = r.choice([(144, 16), (162, 2), (165, 2)])
    image[place(18, 0) + at + r.randrange(size)] = r.choice(range(65, 91))


def swapped(r, image):
    slots = slots_of(image)
    if len(slots) > 1:
        one, other = r.sample(slots, 2)
        image[one + 2 : one + 32], image[other + 2 : other + 32] = image[other + 2 : other + 32], image[one + 2 : one + 32]


def other_entry(r, image):
    for slot in slots_of(image)[:1] + r.sample(slots_of(image), min(2, len(slots_of(image)))):
        what = r.randrange(6)
        if what == 0:
            image[slot + 2] = r.choice([0x81, 0x82, 0x83, 0x80, 0x84, 0xC2, 0x02, 0x86])
            image[slot + 23] = r.randint(1, 254)
        elif what == 1:
            image[slot + 30] ^= r.randint(1, 255)
        elif what == 2:
            image[slot + 2] = 0
        elif what == 3:
            image[slot + 5 : slot + 21] = b"RENAMED".ljust(16, b"\xa0")
        elif what == 4:
            image[slot + 3 : slot + 5] = bytes((r.choice([0, 1, 17, 18, 35, 36, 99]), r.randrange(25)))
        else:
            image[slot + 2] ^= 64


def other_link(r, image):
    for slot in r.sample(slots_of(image), min(2, len(slots_of(image)))):
        chain, _ = followed(cells_of(image), (image[slot + 3], image[slot + 4]), 683)
        if chain:
            at = place(*r.choice(chain))
            image[at : at + 2] = r.choice([bytes((0, r.randrange(256))), bytes((99, 1)), bytes(r.choice(chain)), bytes((20, 30)), bytes((r.randint(1, 35), 0))])


def other_directory(r, image):
    chain, _ = followed(cells_of(image), (18, 1), 18)
    at = place(*r.choice(chain))
    image[at : at + 2] = r.choice([bytes((0, 255)), bytes((18, 1)), bytes((99, 1)), bytes((18, r.randrange(2, 19))), bytes((18, 0))])


CHANGES = (other_bytes, other_label, swapped, other_entry, other_link, other_directory)


def with_errors(r, image):
    errors = bytearray(b"\1" * 683)
    for _ in range(r.choice([1, 1, 4, 40])):
        errors[r.choice([r.randrange(683), 357, 358])] = r.choice([0, 1, 2, 3, 4, 5, 6, 7, 9, 11, 15])
    return bytes(image + errors)


def saved(name, image):
    with open(name, "wb") as out:
        out.write(image)


def blank_track(name, track):
    """Takes each sync mark from a track of a G64, so that none of its sectors is found (error 21)."""
    image = bytearray(open(name, "rb").read())
    at = int.from_bytes(image[12 + 8 * (track - 1) : 16 + 8 * (track - 1)], "little")
    size = int.from_bytes(image[at : at + 2], "little")
    image[at + 2 : at + 2 + size] = b"\x55" * size
    saved(name, image)


def made(r, name, image):
    """Saves an image in one of its forms. Returns the file and what can be read of it."""
    form = r.randrange(4)
    if form == 0:
        image = with_errors(r, image)
    saved(f"{name}.d64", image)
    cells = cells_of(bytes(image))
    if form < 2:
        return f"{name}.d64", cells
    run("convert", f"{name}.d64", f"{name}.g64", "--replace")
    if form == 3 and r.randrange(2):
        track = r.choice([1, 17, 19, 35])
        blank_track(f"{name}.g64", track)
        cells |= {at: 21 for at in cells if at[0] == track}
    return f"{name}.g64", cells


def is_compared(name, files, models, charset):
    """Both outputs, and the status. Returns what went wrong."""
    told = differences(*models, charset, files)
    words = [*files, "--charset", charset]
    status, out, said = run("diff", *words, "--json")
    if (status, said) != (0 if told["same"] else 1, "") or json.loads(out) != told or list(json.loads(out)) != list(told):
        return f"{name}: --json: {status} {said}\n{out}wanted {json.dumps(told)}"
    status, out, said = run("diff", *words)
    if (status, out, said) != (0 if told["same"] else 1, lines_of(told), ""):
        return f"{name}: {status} {said}\n{out}wanted\n{lines_of(told)}"
    return None


def pairs():
    bad, alike, lines = [], 0, set()
    for seed in range(PAIRS):
        r = random.Random(seed)
        charset = r.choice(list(KEYS))
        image = Disk(seed).image
        images = [bytearray(image), bytearray(image)]
        for it in images:
            for change in r.sample(CHANGES, r.choice([0, 0, 1, 1, 2, 4])):
                change(r, it)
        done = [made(r, name, it) for name, it in zip("ab", images)]
        models = [Model(cells, charset) for _, cells in done]
        said = is_compared(f"pair {seed}", [file for file, _ in done], models, charset)
        alike += run("diff", *[file for file, _ in done])[0] == 0
        bad += [said] if said else []
    is_so(f"{PAIRS} pairs of generated images", not bad, "\n".join(bad[:2]))
    is_so("of which some are alike, and some not", 0 < alike < PAIRS, alike)


def chosen():
    """Pairs whose lines are written here by hand."""
    run("new", "one.d64", "--title", "ONE", "--id", "64")
    for n, name in enumerate(("first", "second", "third")):
        saved(f"{name}.prg", bytes((1, 8)) + bytes((n,)) * 300)
        run("put", "one.d64", f"{name}.prg")
    run("convert", "one.d64", "one.g64")
    is_so("an image and its conversion", run("diff", "one.d64", "one.g64") == (0, "nothing differs\n", ""))
    shutil.copy("one.d64", "two.d64")
    run("title", "two.d64", "TWO", "--id", "65")
    run("lock", "two.d64", "SECOND")
    run("delete", "two.d64", "THIRD")
    saved("first.prg", bytes((1, 8)) + bytes(20))
    run("put", "two.d64", "first.prg", "--replace")
    run("put", "two.d64", "first.prg", "--name", "fourth", "--type", "seq")
    status, out, said = run("diff", "one.g64", "two.d64")
    wanted = [
        'title: "ONE" | "TWO"',
        'id: "64" | "65"',
        '"THIRD": only in the first (prg, 2 blocks)',
        '"FOURTH": only in the second (seq, 1 block)',
        '"FIRST": bytes: 302 | 22, different from byte 22 on',
        '"FIRST": blocks: 2 | 1',
        '"SECOND": locked only in the second',
    ]
    is_so("lines of files and labels", (status, said, out.splitlines()[:7]) == (1, "", wanted), f"{status} {out} {said}")
    is_so("and then of sectors", out.splitlines()[7].startswith("sectors that differ: ") and any(it.startswith("track 18: 0, 1") for it in out.splitlines()[8:]), out)
    is_so("the same the other way round", run("diff", "two.d64", "one.g64")[1].splitlines()[0] == 'title: "TWO" | "ONE"')
    run("new", "long.d64", "--title", "ONE", "--id", "64", "--tracks", "40")
    run("new", "short.d64", "--title", "ONE", "--id", "64")
    is_so("35 tracks and 40", run("diff", "short.d64", "long.d64")[:2] == (1, "tracks: 35 | 40\nsectors that differ: 1\ntrack 18: 0\n"), run("diff", "short.d64", "long.d64"))
    saved("none.d64", b"none")
    is_so("a file that is no image", run("diff", "one.d64", "none.d64")[0] == 2)
    is_so("a file that isn't there", run("diff", "one.d64", "missing.d64")[0] == 3)
    is_so("standard input once", run("diff", "-", "-")[0] == 64)
    ran = subprocess.run([DISK1541, "diff", "-", "one.g64"], stdin=open("one.d64", "rb"), capture_output=True)
    is_so("an image from standard input", (ran.returncode, ran.stdout) == (0, b"nothing differs\n"), ran)
    run("new", "order.d64", "--title", "ORDER", "--id", "64")
    for name in "abcdef":
        run("put", "order.d64", "first.prg", "--name", name)
    image = bytearray(open("order.d64", "rb").read())
    slots = slots_of(image)
    entries = [bytes(image[at + 2 : at + 32]) for at in slots]
    for at, entry in zip(slots, [entries[5], *entries[:5]]):
        image[at + 2 : at + 32] = entry
    saved("moved.d64", image)
    is_so("one file that moved", run("diff", "order.d64", "moved.d64")[1] == '"F": place in the directory: 6 | 1\nsectors that differ: 1\ntrack 18: 1\n', run("diff", "order.d64", "moved.d64")[1])


# --- files on the screen


WORDS = """END FOR NEXT DATA INPUT# INPUT DIM READ LET GOTO RUN IF RESTORE GOSUB RETURN REM STOP ON WAIT LOAD SAVE VERIFY DEF POKE PRINT# PRINT CONT
LIST CLR CMD SYS OPEN CLOSE GET NEW TAB( TO FN SPC( THEN NOT STEP + - * / ↑ AND OR > = < SGN INT ABS USR FRE POS SQR RND LOG EXP COS SIN TAN ATN PEEK LEN
STR$ VAL ASC CHR$ LEFT$ RIGHT$ MID$ GO""".split()


def word(token, charset):
    return WORDS[token - 128] if charset == "upper" else WORDS[token - 128].lower()


def basic(program, charset):
    """A program as LIST shows it: numbers, words of tokens, characters within quotation marks. And how many bytes follow it."""
    out, at = "", 2
    while at + 4 <= len(program) and program[at + 1]:
        out += f"{program[at + 2] + 256 * program[at + 3]} "
        at, quoted = at + 4, False
        while at < len(program) and program[at]:
            code = program[at]
            if quoted or code < 128:
                out += text(bytes([code]), charset)
            elif code == 255:
                out += text(bytes([222]), charset)
            else:
                out += word(code, charset) if code < 204 else f"{{{code:02x}}}"
            quoted ^= code == 34
            at += 1
        out, at = out + "\n", at + 1
    # (nothing follows a program that is cut off)
    return out, len(program) - at - 2 if at + 1 < len(program) and not program[at + 1] else 0


def is_basic(program):
    """Whether it is loaded at $0801 and each link is the address of the next line, up to the program's end."""
    if program[:2] != b"\1\x08":
        return False
    at, address = 2, 2049
    while at + 2 <= len(program):
        if not program[at + 1]:
            return True
        end = program.find(b"\0", at + 4)
        if len(program) < at + 4 or end < 0 or program[at] + 256 * program[at + 1] != address + end + 1 - at:
            return False
        at, address = end + 1, address + end + 1 - at
    return False


def dump(data, charset):
    keys, out = KEYS[charset], ""
    for at in range(0, len(data), 16):
        part = data[at : at + 16]
        out += f"{at:04x}  {' '.join(f'{it:02x}' for it in part).ljust(47)}  {''.join(keys.get(it, '.') for it in part)}\n"
    return out


def written(data, charset):
    parts = data.split(b"\r")
    ends = [*parts[:-1], *([parts[-1]] if parts[-1] else [])]
    return "".join(text(it, charset) + "\n" for it in ends)


def followed_by(count):
    """What standard error says of the bytes that follow a program."""
    return count and f"disk1541: {count} byte{'' if count == 1 else 's'} follow{'s' if count == 1 else ''} the program\n" or ""


def program_of(lines, more=b""):
    """A program of these lines, each a number and its codes, and what follows it."""
    out, address = b"", 2049
    for number, codes in lines:
        address += 5 + len(codes)
        out += address.to_bytes(3, "little")[:2] + number.to_bytes(2, "little") + codes + b"\0"
    return b"\1\x08" + out + bytes(2) + more


def random_line(r):
    codes = b""
    for _ in range(r.randrange(12)):
        codes += r.choice([bytes([r.randint(128, 203)]), b'"' + bytes(r.randint(1, 255) for _ in range(r.randrange(6))) + b'"' * r.randrange(2), bytes([r.randint(32, 95)]), bytes([r.randint(1, 255)])])
    return codes


def files_of(r):
    more = r.randbytes(r.choice([0, 0, 1, 100]))
    yield program_of([(10 * n, random_line(r)) for n in range(1, r.randint(2, 30))], more)
    broken = bytearray(program_of([(r.randrange(65536), random_line(r)) for n in range(1, r.randint(2, 9))], more))
    broken[r.randrange(len(broken))] = r.choice([0, 8, 255])
    yield bytes(broken[: r.randint(0, len(broken))]) or b"\1"
    yield r.choice([b"\1\x08", b"\1", b"\0\xc0", b""]) + r.randbytes(r.randrange(1, 600))
    yield bytes(r.choice([13, 13, *range(32, 96), r.randrange(256)]) for _ in range(r.randint(1, 400)))


def screens(count=40):
    bad, kinds = [], set()
    run("new", "screen.d64", "--title", "SCREEN", "--id", "64", "--replace")
    for seed in range(count):
        r = random.Random(seed)
        for data in files_of(r):
            saved("file.prg", data)
            run("put", "screen.d64", "file.prg", "--replace")
            charset = r.choice(list(KEYS))
            kinds.add(is_basic(data))
            wanted = {
                (): basic(data, charset) if is_basic(data) else (dump(data, charset), 0),
                ("--basic",): basic(data, charset),
                ("--hex",): (dump(data, charset), 0),
                ("--text",): (written(data, charset), 0),
            }
            for words, (out, more) in wanted.items():
                got = run("show", "screen.d64", "file", *words, "--charset", charset)
                bad += [] if got == (0, out, followed_by(more)) else [f"{seed} {words} {charset} {data.hex()}\n{got[0]} {got[2]} {got[1]}wanted\n{out}{more}"]
    is_so(f"{4 * count} files on the screen, each in four ways", not bad, "\n".join(bad[:2]))
    is_so("of which some are programs, and some not", kinds == {True, False}, kinds)


def by_hand():
    """Listings that are written here by hand."""
    lines = [(10, b'\x99"HELLO ' + bytes([211]) + b'"'), (20, b"\x8b A\xb31 \xa7 \x89 10"), (63999, b"\x8f " + bytes([0xcc, 0xff]))]
    saved("hand.prg", program_of(lines))
    run("new", "hand.d64", "--title", "HAND", "--id", "64")
    run("put", "hand.d64", "hand.prg")
    is_so("a program is listed", run("show", "hand.d64", "HAND") == (0, '10 PRINT"HELLO ♥"\n20 IF A<1 THEN GOTO 10\n63999 REM {cc}π\n', ""), run("show", "hand.d64", "HAND"))
    is_so("in small letters, too", run("show", "hand.d64", "hand", "--charset", "lower")[1].startswith('10 print"hello S"\n20 if a<1 then goto 10\n'))
    saved("all.prg", program_of([(n, bytes([n])) for n in range(128, 204)]))
    run("put", "hand.d64", "all.prg")
    is_so("each token has its word", run("show", "hand.d64", "ALL")[1] == "".join(f"{n} {WORDS[n - 128]}\n" for n in range(128, 204)))
    saved("many.prg", program_of([(n, b"") for n in range(11000)]))
    run("put", "hand.d64", "many.prg")
    is_so("11,000 lines", run("show", "hand.d64", "MANY")[1] == "".join(f"{n} \n" for n in range(11000)))
    saved("more.prg", b"\1\x08" + b"".join(b"\1\1" + (n % 65536).to_bytes(2, "little") + b"\0" for n in range(33000)))
    run("new", "more.d64", "--title", "MORE", "--id", "64")
    run("put", "more.d64", "more.prg")
    is_so("33,000 lines with wrong links and no end", run("show", "more.d64", "MORE", "--basic")[1] == "".join(f"{n} \n" for n in range(33000)))
    is_so("which is no program", run("show", "more.d64", "MORE")[1].startswith("0000  01 08 01 01 00 00 00"))
    is_so("a file by its slot", run("show", "hand.d64", "--slot", "0")[1] == run("show", "hand.d64", "H*")[1])
    is_so("no such file", run("show", "hand.d64", "NONE") == (1, "", "disk1541: no file of the disk has the name or the slot NONE\n"))
    saved("code.prg", program_of([(10, b"\x9e2061")], bytes(1000)))
    run("put", "hand.d64", "code.prg")
    is_so("machine code after a program is counted", run("show", "hand.d64", "CODE") == (0, "10 SYS2061\n", "disk1541: 1000 bytes follow the program\n"), run("show", "hand.d64", "CODE"))
    is_so("two forms at once", run("show", "hand.d64", "HAND", "--hex", "--text")[0] == 64)
    is_so("no name", run("show", "hand.d64")[0] == 64)
    image = bytearray(open("hand.d64", "rb").read())
    image[slots_of(image)[0] + 2] = 2
    saved("open.d64", image)
    is_so("a file that was never closed", run("show", "open.d64", "HAND")[0] == 1)
    image[slots_of(image)[0] + 2 : slots_of(image)[0] + 5] = bytes((0x82, 99, 1))
    saved("open.d64", image)
    is_so("a chain that breaks off", run("show", "open.d64", "HAND") == (1, "", "disk1541: HAND: a link leads to track 99, sector 1, which the disk doesn't have (error 66)\n"), run("show", "open.d64", "HAND"))


def by_petcat():
    if not shutil.which("petcat"):
        return print("petcat isn't installed: no program is compared with it")
    r, bad = random.Random(7), []
    for n in range(20):
        lines = [(10 * k, b'\x99"HELLO"' + bytes(r.choice([r.randint(128, 203), r.randint(48, 57), r.randint(65, 90)]) for _ in range(20))) for k in range(1, 30)]
        saved("cat.prg", program_of(lines))
        run("put", "hand.d64", "cat.prg", "--replace")
        ran = subprocess.run(["petcat", "-2", "-nh", "-o", "cat.txt", "--", "cat.prg"], capture_output=True)
        wanted = [it.split() for it in open("cat.txt", encoding="latin-1").read().replace("^", "↑").splitlines() if it.strip()]
        got = [it.split() for it in run("show", "hand.d64", "cat", "--charset", "lower")[1].splitlines()]
        bad += [] if not ran.returncode and got == wanted else [(got[:2], wanted[:2])]
    is_so("20 programs as petcat lists them", not bad, bad[:1])


def main():
    with tempfile.TemporaryDirectory() as room:
        os.chdir(room)
        chosen()
        pairs()
        by_hand()
        screens()
        by_petcat()
    print("all as it should be" if not wrong else f"{wrong} wrong")
    sys.exit(wrong != 0)


main()
