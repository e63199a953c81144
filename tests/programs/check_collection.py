#!/usr/bin/env python3
"""check_collection.py DISK1541 DRIVE1541 [--disks N] [--only TEXT] [--keep FOLDER]: a collector's job over a tree of generated images (collection.py), N of
which are of a 1541 disk. Expected values come from a plain model (source_model.py, g64_image.py), or from drive1541 on the same image.
Each image of the tree is named once by check, list, hash and find, and in JSON. No file that the drive gives is withheld. No command that ends with 0
loses a byte of a closed file that it doesn't name, and a refused one leaves the image unchanged.
Prints a line for each property, with the number of images, and one for each that is WRONG; ends with 1 if one is. With 72 images it takes half a minute.
With --only, only images of a 1541 disk whose path has TEXT are used; --keep leaves the tree in FOLDER."""
import argparse, collections, concurrent.futures, gzip, hashlib, io, json, os, re, shutil, subprocess, sys, tempfile, zipfile

import collection
import g64_image as g64
import generated_disks as disks
import source_model as model

words = argparse.ArgumentParser(description=__doc__, formatter_class=argparse.RawDescriptionHelpFormatter)
words.add_argument("disk1541")
words.add_argument("drive1541")
words.add_argument("--disks", type=int, default=72)
words.add_argument("--only", default="")
words.add_argument("--keep")
LETTERS = {"seq": "S", "prg": "P", "usr": "U"}
# What a name can't have that is asked of the drive, or typed without --exact.
DIVIDES = b',=:*?"\r'
# Seconds that a command may take.
LIMIT = 20


class Tally:
    """What holds of how many images, and what is wrong."""

    def __init__(self):
        self.holds, self.wrong = collections.Counter(), []

    def is_so(self, image, case, holds, said=""):
        self.holds[case] += bool(holds)
        if not holds:
            self.wrong.append(f"WRONG {case}: {image}: {str(said)[:600]}")

    def add(self, other):
        self.holds.update(other.holds)
        self.wrong += other.wrong


def run(*call, room=None):
    """The status, output and errors of disk1541; the status is 'late' if it doesn't end."""
    try:
        ran = subprocess.run([DISK1541, *call], capture_output=True, timeout=LIMIT, cwd=room, stdin=subprocess.DEVNULL)
    except subprocess.TimeoutExpired:
        return "late", b"", ""
    return ran.returncode, ran.stdout, ran.stderr.decode(errors="replace")


# ---- a disk of the 1541, read plainly


def uses_40(image):
    """Whether the counts of tracks 36 to 40 are those of their bits, as docs/quirks.md says."""
    rows = [image[collection.HEAD + 0xC0 + 4 * n :][:4] for n in range(5)]
    return all(row[0] == sum(bin(it).count("1") for it in row[1:]) for row in rows)


class Disk(model.Disk):
    """A disk, with the slots of its files and their entries."""

    def __init__(self, image):
        self.is_g64 = image.startswith(b"GCR-1541")
        flat = g64.read(image) if self.is_g64 else image
        wide = len(flat) == 196_608 and uses_40(flat)
        super().__init__(flat if wide or len(flat) != 196_608 else flat[:174_848], model.D64_40 if wide else model.D64_35)
        self.flat = flat
        entries = [it[32 * n + 2 : 32 * n + 32] for it in self.chain(self.shape.directory, self.shape.most)[0] for n in range(8)]
        self.system = {(18, 0), *ways(self.shape.directory, self.chain(self.shape.directory, self.shape.most)[0])}
        self.slots = [slot for slot, it in enumerate(entries) if it[0]]
        self.entries = [it for it in entries if it[0]]
        for file, it in zip(self.files, self.entries):
            file.geos = self.geos_of(file, it)
            file.parts = self.parts_of(file, it)

    @staticmethod
    def geos_of(file, entry):
        """The structure of a file of GEOS, by the rule of docs/disk1541/formats.md; else none."""
        is_one = file.closed and file.type in LETTERS and entry[19] and entry[21] < 2 and entry[22]
        return entry[21] if is_one else None

    def parts_of(self, file, entry):
        """The blocks of its chain, those of GEOS beside it, and where each chain breaks off."""
        firsts = [file.first] if file.type != "del" or file.first[0] != 18 else []
        if file.geos is not None:
            firsts.append((entry[19], entry[20]))
            index = self.chain(file.first)[0] if file.geos else []
            firsts += [(index[0][n], index[0][n + 1]) for n in range(2, 256, 2) if index[0][n]] if index else []
        return [self.own_chain(it) for it in firsts]

    def own_chain(self, first):
        """The blocks of a chain up to where it breaks off, or comes to 18/0 or into the directory."""
        blocks, stop = self.chain(first)
        count = next((n for n, at in enumerate(ways(first, blocks)) if at in self.system), None)
        return (blocks, stop) if count is None else (blocks[:count], (0, "directory"))

    def held(self):
        """What each closed file holds, whichever blocks it has."""
        return collections.Counter((it.name, it.type, held(it.parts)) for it in self.files if it.closed)

    def places(self):
        """The blocks of all closed files that are marked free."""
        found = set()
        for file in self.files if not self.is_unread((18, 0)) else []:
            for blocks, _ in file.parts if file.closed and file.type != "del" else []:
                if blocks is file.parts[0][0]:
                    found |= {at for at in ways(file.first, blocks) if self.is_free(at)}
        return found

    def is_unread(self, place):
        return bool(self.errors) and self.errors[self.shape.number[place]] in model.ERRORS

    def is_free(self, place):
        row = collection.HEAD + (4 * place[0] if place[0] < 36 else 0xC0 + 4 * (place[0] - 36))
        return self.image[row + 1 + place[1] // 8] >> place[1] % 8 & 1 == 1

    def sum(self):
        """The sum of the sectors; those of a G64 that can't be read are zeros."""
        blocks = [self.flat[256 * n : 256 * n + 256] for n in range(768 if len(self.flat) == 196_608 else 683)]
        return hashlib.sha256(b"".join(bytes(256) if self.is_g64 and self.errors[n] in model.ERRORS else it for n, it in enumerate(blocks))).hexdigest()


def ways(first, blocks):
    """The places of the blocks of a chain."""
    return [first, *((it[0], it[1]) for it in blocks)][: len(blocks)]


def data_of(block):
    return block[2:] if block[0] else block[2 : max(block[1] + 1, 2)]


def held(parts):
    """The bytes of chains, and how they end, without the places of their blocks. For the index of a file of GEOS its records stand."""
    is_index = [n == 0 and len(parts) > 2 for n in range(len(parts))]
    return tuple((len(blocks) if index else tuple(map(data_of, blocks)), stop and stop[0]) for index, (blocks, stop) in zip(is_index, parts))


def is_readable(file):
    """Whether the model has the bytes of a file that `get` gives as it is."""
    return file.closed and file.data is not None and file.type in (*LETTERS, "rel") and file.geos != 1


def typed(name):
    return "".join(f"{{{it:02x}}}" for it in name)


# ---- what is withheld


def asked(path, disk):
    """What the drive gives of the files whose names it can be asked for: by slot, if they are read whole."""
    names = collections.Counter(it.name for it in disk.files)
    safe = [(slot, it) for slot, it in zip(disk.slots, disk.files) if it.closed and it.type in LETTERS and names[it.name] == 1 and it.name and not set(it.name) & set(DIVIDES)]
    script = b"".join(b"open 2 0:%s,%s,R\nget 2 200000\nclose 2\nstatus\n" % (escaped(it.name), LETTERS[it.type].encode()) for _, it in safe)
    ran = subprocess.run([DRIVE1541, path, "-"], input=script, capture_output=True, timeout=LIMIT)
    lines = ran.stdout.decode().splitlines()
    pairs = zip(lines[::2], lines[1::2])
    return ran.returncode, {slot: bytes.fromhex(got.split()[2]) for (slot, _), (got, status) in zip(safe, pairs) if got.endswith(" eoi") and status.startswith("status 00")}


def escaped(name):
    return b"".join(bytes([it]) if 32 <= it < 127 and it != 92 else b"\\%02x" % it for it in name)


def nothing_is_withheld(tally, image, path, disk):
    status, given = asked(path, disk)
    tally.is_so(image.path, "the drive takes the image", status == 0, status)
    for slot, file in zip(disk.slots, disk.files):
        if slot in given:
            is_got(tally, image, path, file, given[slot])
        if is_readable(file):
            ran = run("get", path, "--slot", str(slot))
            tally.is_so(image.path, "get --slot gives what the model reads", ran[:2] == (0, file.data), (slot, file.name, ran[0], ran[2]))
    is_got_exactly(tally, image, path, disk)
    is_listed(tally, image, path, disk)
    are_all_taken_out(tally, image, path, disk, given)


def is_got(tally, image, path, file, data):
    """A file that the drive gives by its name."""
    ran = run("get", path, typed(file.name))
    if file.geos == 1:
        again = run("get", path, typed(file.name), "--salvage")
        tally.is_so(image.path, "get refuses the records of GEOS, and --salvage gives what the drive gives", ran[0] == 1 and ran[2] and again[:2] == (0, data), (ran[0], again[0]))
    else:
        tally.is_so(image.path, "get gives what the drive gives", ran[:2] == (0, data), (file.name, ran[0], ran[2]))


def is_got_exactly(tally, image, path, disk):
    """The first file of each name, whatever characters it has."""
    met = set()
    for file in disk.files:
        if file.name and file.name not in met and is_readable(file):
            ran = run("get", path, "--exact", typed(file.name))
            tally.is_so(image.path, "get --exact gives what the model reads", ran[:2] == (0, file.data), (file.name, ran[0], ran[2]))
        met.add(file.name)


def is_listed(tally, image, path, disk):
    status, out, said = run("list", path, "--json")
    files = model.compared(json.loads(out)["files"])
    wanted = [dict(it.as_json(slot)) for slot, it in zip(disk.slots, disk.files)]
    tally.is_so(image.path, "list --json has each file", files == wanted, [(a, b) for a, b in zip(files, wanted) if a != b][:1] or (len(files), len(wanted)))
    broken = json.loads(out)["broken"]
    tally.is_so(image.path, "and where the directory breaks off", (broken is None) == (not disk.broken) and status == int(bool(disk.broken)), (broken, disk.broken, status))
    status, text, _ = run("list", path)
    text = text.decode()
    tally.is_so(image.path, "list ends with 1 if the directory breaks off, or 18/0 can't be read", status == int(bool(disk.broken or disk.is_unread((18, 0)))), status)
    shown = [f'"{disks.text(it.name)}"' for it in disk.files if it.name and all(code in disks.UPPER and code != 34 for code in it.name)]
    tally.is_so(image.path, "list shows each name", all(text.count(it) >= shown.count(it) for it in shown), [it for it in shown if it not in text][:3])


def in_records(file):
    """A relative file in whole records, as get-all writes it behind its head."""
    whole = len(file.data) // file.record * file.record if file.record else 0
    rest = file.data[whole:].rstrip(b"\0")
    return file.data[:whole] + (rest.ljust(file.record, b"\0") if rest else b"")


def are_all_taken_out(tally, image, path, disk, given):
    out = tempfile.mkdtemp(dir=os.path.dirname(path))
    status, _, said = run("get-all", path, f"{out}/all")
    names = os.listdir(f"{out}/all") if os.path.isdir(f"{out}/all") else []
    got = collections.Counter()
    for name in names:
        with open(f"{out}/all/{name}", "rb") as it:
            data = it.read()
        got[data[26:] if data.startswith(b"C64File\0") else data] += 1
    readable = [it for it in disk.files if is_readable(it)]
    wanted = collections.Counter(in_records(it) if it.type == "rel" else it.data for it in readable)
    tally.is_so(image.path, "get-all has each file that the model reads", not wanted - got, [it.name for it in readable if not got[in_records(it) if it.type == "rel" else it.data]])
    files = {slot: file for slot, file in zip(disk.slots, disk.files) if file.geos != 1}
    tally.is_so(image.path, "and each that the drive gives", all(got[data] for slot, data in given.items() if slot in files))
    left = [it for it in disk.files if not is_readable(it) and it.type not in ("del", "unknown")]
    tally.is_so(image.path, "get-all ends with 0 only if it left none", status != 0 or not left, (said, [it.name for it in left]))
    tally.is_so(image.path, "and else says what it left", status in (0, 1) and (status == 0 or said), (status, said))
    shutil.rmtree(out)


# ---- what is lost


def named_file(disk):
    """A file for the commands that name one: its slot, and the file."""
    there = [(slot, it) for slot, it in zip(disk.slots, disk.files) if it.closed and it.type in LETTERS and it.data is not None and it.geos is None]
    return there[len(there) // 2] if there else (None, None)


# Each command: its name, its words, the files that it names (by slot), and the files that are new.
Call = collections.namedtuple("Call", "name words named new", defaults=((), ()))


def calls(disk, path):
    new = b"new file " * 40
    with open(f"{path}.prg", "wb") as out:
        out.write(new)
    yield Call("put", ("put", path, f"{path}.prg", "--name", "NEW FILE"), (), [(b"NEW FILE", "prg", new)])
    yield Call("sort", ("sort", path))
    yield Call("validate", ("validate", path))
    yield Call("title", ("title", path, "ANOTHER"))
    slot, file = named_file(disk)
    if file:
        yield Call("put --replace", ("put", path, f"{path}.prg", "--name", typed(file.name), "--replace", "--type", file.type), (slot,), [(file.name, file.type, new)])
        yield Call("copy", ("copy", path, "--slot", str(slot), "COPIED"), (), [(b"COPIED", file.type, file.data)])
        yield Call("rename", ("rename", path, "--slot", str(slot), "RENAMED"), (slot,), [(b"RENAMED", file.type, file.data)])
        yield Call("delete", ("delete", path, "--slot", str(slot)), (slot,))
        yield Call("delete by name", ("delete", path, "--exact", typed(file.name)), tuple(n for n, it in zip(disk.slots, disk.files) if it.name == file.name))
        yield Call("retype", ("retype", path, "--slot", str(slot), "usr"), (slot,), [(file.name, "usr", file.data)])
        yield Call("place", ("place", path, typed(file.name), "--track", "2", "--interleave", "3"))
        lines = f"put {path}.prg --name 'NEW FILE'\nrename --slot {slot} RENAMED\nlock RENAMED\nsort\n"
        with open(f"{path}.run", "w", encoding="utf-8") as out:
            out.write(lines)
        yield Call("run", ("run", path, f"{path}.run"), (slot,), [(b"NEW FILE", "prg", new), (b"RENAMED", file.type, file.data)])


def nothing_is_lost(tally, image, path, disk, others):
    for call in calls(disk, path):
        with open(path, "wb") as out:
            out.write(image.data)
        is_kept(tally, image, call, run(*call.words), disk, path)
    for ending, more in (("d64", ()), ("g64", ()), ("d64", ("--tracks", "40")), ("d64", ("--tracks", "35"))):
        is_converted(tally, image, path, disk, ending, more)
    is_built_again(tally, image, path, disk)
    for other in others:
        is_transferred(tally, image, path, disk, other)


def is_kept(tally, image, call, ran, disk, path):
    """What a command left of the closed files that it didn't name."""
    with open(path, "rb") as it:
        after = it.read()
    if ran[0] != 0:
        tally.is_so(image.path, f"{call.name}, refused, leaves the image as it was", after == image.data and ran[0] in (1, 4, 64) and ran[2], (ran[0], ran[2]))
        return
    now, wanted = Disk(after), disk.held()
    wanted -= collections.Counter((it.name, it.type, held(it.parts)) for slot, it in zip(disk.slots, disk.files) if slot in call.named)
    lost = wanted - now.held()
    tally.is_so(image.path, f"{call.name} loses no file", not lost, ([it[:2] for it in lost], ran[2]))
    files = [(it.name, it.type, it.data) for it in now.files if it.closed]
    tally.is_so(image.path, f"{call.name} does what it is told", all(it in files for it in call.new), (call.words, [it[:2] for it in files]))
    freed = now.places() - disk.places() if call.name != "place" else now.places()
    tally.is_so(image.path, f"{call.name} frees no block of a file", not freed, freed)


def is_converted(tally, image, path, disk, ending, more):
    with open(path, "wb") as out:
        out.write(image.data)
    made, name = f"{path}.made.{ending}", " ".join(("convert to a", ending, *more[1:]))
    if os.path.exists(made):
        os.remove(made)
    status, _, said = run("convert", path, made, *more)
    if status == 0 and os.path.exists(made):
        with open(made, "rb") as it:
            now = Disk(it.read())
        lost = disk.held() - now.held()
        tally.is_so(image.path, f"{name} loses no file", not lost, ([it[:2] for it in lost], said))
    else:
        tally.is_so(image.path, f"{name} says why not", status in (1, 64) and said and not os.path.exists(made), (status, said))


def is_built_again(tally, image, path, disk):
    """Taken apart into files and a recipe, and made again of these: each closed file is there, unless one of the commands says what is missing."""
    parts, recipe, made = f"{path}.parts", f"{path}.toml", f"{path}.built.d64"
    os.makedirs(parts, exist_ok=True)
    taken, described = run("get-all", path, parts), run("describe", path, "--folder", parts)
    with open(recipe, "wb") as out:
        out.write(described[1])
    status, _, said = run("build", recipe, made)
    if (taken[0], described[0], status) == (0, 0, 0):
        with open(made, "rb") as it:
            files = collections.Counter(recorded(it) for it in Disk(it.read()).files if it.closed)
        lost = collections.Counter(recorded(it) for it in disk.files if is_readable(it)) - files
        tally.is_so(image.path, "build of what describe says loses no file", not lost, ([it[:2] for it in lost], said))
    else:
        tally.is_so(image.path, "get-all, describe or build says why not", taken[2] or described[2] or said, (taken, described, status))


def recorded(file):
    """A file as a recipe's names and files have it: an empty one gets one byte, and a relative one is filled up with empty records."""
    if file.type != "rel":
        return file.name, file.type, file.data or b"\r"
    return file.name, file.record, file.data.rstrip(b"\0\xff")


def is_transferred(tally, image, path, disk, other):
    """The files of another image of the collection come to this one."""
    with open(path, "wb") as out:
        out.write(image.data)
    source = model_of(other.data)
    from_path = f"{path}.from"
    with open(from_path, "wb") as out:
        out.write(other.data)
    ran = run("transfer", from_path, path)
    readable = [it for it in source.files if it.closed and it.type in LETTERS]
    # (a drive closes an empty file with one byte, 13, as docs/disk1541/files.md says)
    new = [(it.name, it.type, it.data or b"\r") for it in readable if it.data is not None and getattr(it, "geos", None) is None]
    is_kept(tally, image, Call("transfer", (other.path,), (), new), ran, disk, path)
    if ran[0] == 0:
        left = [it.name for it in source.files if it.closed and it.data is None]
        tally.is_so(image.path, "transfer ends with 0 only if it left none", not left, (other.path, left))
        with open(path, "rb") as it:
            now = [geos_parts(it) for it in Disk(it.read()).files]
        lost = [it.name for it in source.files if getattr(it, "geos", None) is not None and geos_parts(it) not in now]
        tally.is_so(image.path, "transfer keeps the info block and the records of files of GEOS", not lost, (other.path, lost))


def geos_parts(file):
    """A file of GEOS: its info block, and its chain or its records, wherever their blocks are."""
    if file.geos is None:
        return None
    (index, _), (info, _), *records = file.parts
    bytes_of = lambda blocks: b"".join(map(data_of, blocks))
    return file.name, file.type, file.geos, data_of(info[0]), [bytes_of(it) for it, _ in records] if file.geos else bytes_of(index)


# ---- a tree of images


def shown(path):
    """A path as the program shows it: bytes that aren't UTF-8, and those that move a terminal's cursor, as numbers."""
    text = path.decode(errors="surrogateescape") if isinstance(path, bytes) else path
    return "".join(f"\\x{ord(it) - 0xDC00:02X}" if 0xDC80 <= ord(it) <= 0xDCFF else f"\\x{ord(it):02X}" if it < " " else it for it in text)


def is_text(path):
    """Whether a path is UTF-8."""
    try:
        os.fsencode(path).decode()
    except UnicodeDecodeError:
        return False
    return True


ENDS = {"check": (".d64", ".g64"), **dict.fromkeys(("list", "hash", "find"), (".d64", ".g64", ".d71", ".d81", ".t64", ".lnx"))}
LINKS = ("links/file.d64", "links/gone.d64", "links/round.d64")


def is_found(path, command):
    """Whether a search of a folder takes a file, by its name: packed ones too, and ZIP archives."""
    name = path.lower()
    return name.endswith(".zip") or name.removesuffix(".gz").endswith(ENDS[command])


def names_wanted(images, command):
    return sorted([shown(it.path) for it in images if is_found(shown(it.path), command)] + list(LINKS))


def unpacked(data):
    """The image in a packed file; other bytes as they are."""
    if data[:2] == b"\x1f\x8b":
        return gzip.decompress(data)
    if data[:4] == b"PK\3\4":
        with zipfile.ZipFile(io.BytesIO(data)) as archive:
            return archive.read(archive.namelist()[0])
    return data


def each_is_named(tally, images, room):
    """Every image of the tree once, by each of the four commands; what can't be looked at has its reason."""
    for command in ENDS:
        pattern = (typed(collection.PLANTED),) if command == "find" else ()
        wanted = names_wanted(images, command)
        status, out, said = run(command, "-r", "--json", *pattern, ".", room=room)
        lines = [json.loads(it) for it in out.decode().splitlines()]
        names = [it["image"].removeprefix("./") for it in lines]
        if command == "find":
            has = {shown(it.path) for it in images if has_planted(it.data)}
            refused = {it["image"].removeprefix("./") for it in lines if "status" in it}
            wanted = [it for it in wanted if it in has | refused]
        tally.is_so("the tree", f"{command} --json names each image once", sorted(names) == wanted, differ(names, wanted))
        tally.is_so("the tree", f"{command} --json has the reason of what it can't look at", all(it["error"] and it["status"] in (2, 3) for it in lines if "status" in it), lines[-1:])
        bare = [it["image"] for it in lines if it.get("error") == "it can't be read"]
        tally.is_so("the tree", f"{command} --json says why an image can't be read", not bare, bare)
        tally.is_so("the tree", f"{command} ends", status == 4, status)
        if command in ("list", "hash"):
            facts_hold(tally, command, {it["image"].removeprefix("./"): it for it in lines}, images)
        is_named_in_text(tally, command, pattern, wanted, room)


def differ(names, wanted):
    names, wanted = collections.Counter(names), collections.Counter(wanted)
    return f"missing {sorted((wanted - names).elements())[:5]}, too many {sorted((names - wanted).elements())[:5]}"


def model_of(data):
    if len(data) in model.OURS or data.startswith(b"GCR-1541") and len(data) > 60_000:
        return Disk(data)
    return model.read(data)


def has_planted(data):
    """Whether `find` has to name it: for the file, or because its directory can't be read to its end."""
    there = model_of(unpacked(data))
    return bool(there) and (any(it.name == collection.PLANTED for it in there.files) or bool(there.broken))


def facts_hold(tally, command, lines, images):
    """The names of files, and the sums, that the model reads of each image."""
    for image in images:
        line, there = lines.get(shown(image.path)), model_of(unpacked(image.data))
        if line is None or there is None or "status" in line:
            continue
        if command == "list":
            tally.is_so(image.path, "list -r has the names of its files", [it["petscii"] for it in line.get("files", ())] == [it.name.hex() for it in there.files], line.get("error"))
        else:
            wanted = there.sum() if isinstance(there, Disk) else model.sum_of(there)
            tally.is_so(image.path, "hash -r has the sum of its sectors", line.get("sha256") == wanted, line)


def is_named_in_text(tally, command, pattern, wanted, room):
    """The same as lines for people, with sentences on standard error; the last line counts."""
    status, out, said = run(command, "-r", *pattern, ".", room=room)
    lines = out.decode(errors="replace").splitlines()
    heads = {"check": r"^\./(.*?): (?:sound|track|the |.*sound but)", "list": r"^\./(.*?):(?:| [DTL].*)$", "hash": r"^[0-9a-f]{64}  \./(.*)$", "find": r'^\./(.*?): "'}
    names = {it[1] for it in (re.match(heads[command], line) for line in lines) if it}
    refused = re.findall(r"^disk1541: (?:can't read )?\./(.*?)(?:: | is )", said, re.M)
    named = names | set(refused)
    # (what has no name in UTF-8 may be a folder, and so is named, whatever its ending)
    unreached = {shown(it.path) for it in IMAGES if not is_text(it.path)}
    tally.is_so("the tree", f"{command} names each image", set(wanted) <= named <= {*wanted, *unreached}, differ(named, wanted))
    if command != "hash":
        count = re.match(r"(\d+) images?: (.*)", lines[-1])
        parts = count and sum(int(it) for it in re.findall(r"(\d+) (?:sound|not\b|shown|with a match|without|no images)", count[2]))
        total = len(names_wanted(IMAGES, command))
        tally.is_so("the tree", f"{command} counts them, and the pipe", count and int(count[1]) == parts == total and "1 pipes or devices" in count[2], (lines[-1], total))


def folders_are_named(tally, room):
    """An image in a folder whose name isn't UTF-8, and one that no path leads to: they are named, or their folders are, and the status tells of it."""
    collection.lay(collection.in_odd_folder(), f"{room}/odd")
    os.mkdir(f"{room}/long")
    collection.lay_deep(f"{room}/long")
    for what, folder, name in (("in a folder whose name isn't UTF-8", "odd", "latin\\xE9 folder"), ("too deep for a path", "long", "deep/d")):
        for command in ENDS:
            status, out, said = run(command, "-r", *(("*",) if command == "find" else ()), folder, room=room)
            tally.is_so("the tree", f"{command} names what is {what}", name in out.decode() + said, (status, out[-200:], said))
            tally.is_so("the tree", f"{command} of what is {what} ends with 4, or has looked at it", status == 4 or "inside.d64" in out.decode(), status)


def shut_folder_is_named(tally):
    """A folder that may not be read has its sentence and its line in JSON, as an image has. The superuser may read any, so that it is tried as another user."""
    with tempfile.TemporaryDirectory() as room:
        os.chmod(room, 0o755)
        os.makedirs(f"{room}/tree/shut", 0o755)
        os.chmod(f"{room}/tree/shut", 0)
        program = shutil.copy(DISK1541, f"{room}/disk1541")
        other = {} if os.geteuid() else {"user": 65534, "group": 65534, "extra_groups": []}
        ran = subprocess.run([program, "check", "-r", "--json", "tree"], cwd=room, capture_output=True, timeout=LIMIT, stdin=subprocess.DEVNULL, **other)
        lines = [json.loads(it) for it in ran.stdout.splitlines()]
        line = next((it for it in lines if it.get("image") == "tree/shut"), {})
        told = ran.stderr.decode() == "disk1541: can't read tree/shut: permission denied\n"
        tally.is_so("the tree", "a folder that may not be read is named, also in JSON", ran.returncode == 4 and line.get("error") == "permission denied" and told, (ran, lines))


def soundness_holds(tally, images, room):
    """What the generator knows: sound disks are sound, those it damaged are not."""
    lines = dict(it.rsplit(": ", 1) for it in run("check", "-r", ".", room=room)[1].decode().splitlines() if it.startswith("./"))
    for image in images:
        if image.is_sound is not None and shown(image.path) == os.fsdecode(image.path) and shown(image.path).lower().endswith(ENDS["check"]):
            said = lines.get("./" + shown(image.path), next((f"{key}: {value}" for key, value in lines.items() if key.startswith(f"./{shown(image.path)}: ")), None))
            tally.is_so(image.path, "a sound disk is called so, a damaged one isn't", said is not None and (said == "sound") == image.is_sound, (said, image.is_sound))


def kind_is_converted(tally, image, room):
    """A disk or archive of another kind, made into a D64: each of its files is there."""
    path, made, there = f"{room}/{image.path.split('/')[1]}", f"{room}/made.d64", model.read(image.data)
    with open(path, "wb") as out:
        out.write(image.data)
    status, _, said = run("convert", path, made, "--replace")
    if status == 0 and os.path.exists(made):
        with open(made, "rb") as it:
            files = [(it.name, it.type, it.data) for it in Disk(it.read()).files if it.closed]
        tally.is_so(image.path, "convert of another kind loses no file", all((it.name, it.type, it.data) in files for it in there.files), [it[:2] for it in files])
    else:
        tally.is_so(image.path, "convert of another kind says why not", status == 1 and said, (status, said))


# ---- all of it


def try_image(number):
    image, others = OURS[number], (OURS[number - 1], KINDS[number % len(KINDS)])
    tally = Tally()
    with tempfile.TemporaryDirectory(dir=disks.ROOM) as room:
        path = f"{room}/disk.{image.path[-3:]}"
        with open(path, "wb") as out:
            out.write(image.data)
        disk = Disk(image.data)
        nothing_is_withheld(tally, image, path, disk)
        nothing_is_lost(tally, image, path, disk, others)
    return tally


def look_at_tree(tally, room):
    collection.lay(IMAGES, room)
    collection.add_links(room)
    each_is_named(tally, IMAGES, room)
    soundness_holds(tally, IMAGES, room)


def look_beside(tally, room):
    folders_are_named(tally, room)
    shut_folder_is_named(tally)
    for image in KINDS:
        kind_is_converted(tally, image, room)


def try_images(tally):
    with concurrent.futures.ProcessPoolExecutor(2) as pool:
        for part in pool.map(try_image, [n for n, it in enumerate(OURS) if given.only in it.path], chunksize=4):
            tally.add(part)


def main():
    tally = Tally()
    for look in (look_at_tree, look_beside):
        with tempfile.TemporaryDirectory(dir=disks.ROOM) as room:
            look(tally, given.keep if given.keep and look is look_at_tree else room)
    try_images(tally)
    for case, count in tally.holds.items():
        if count and not any(it.startswith(f"WRONG {case}: ") for it in tally.wrong):
            print(f"ok    {case}: {count}")
    print("\n".join(tally.wrong))
    return int(bool(tally.wrong))


if __name__ == "__main__":
    given = words.parse_args()
    DISK1541, DRIVE1541 = os.path.realpath(given.disk1541), os.path.realpath(given.drive1541)
    IMAGES = collection.collection(given.disks)
    KINDS = [it for it in IMAGES if model.read(it.data)]
    OURS = [it for it in IMAGES if not isinstance(it.path, bytes) and it.path.split("/")[0] in ("games", "odd")]
    sys.exit(main())
