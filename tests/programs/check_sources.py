#!/usr/bin/env python3
"""check_sources.py DISK1541 [--damaged N]: disks and archives of other kinds, which disk1541 only reads: D64 of other sizes, D71, D81, T64, Lynx. They
are made here by a plain writer, and by cc1541 and cbmconvert if they are installed. Each file's bytes are compared, and again after `transfer` and `convert` to a
D64 and a G64. Of N damaged ones (default 1,000; 20,000 take a minute) JSON must agree with source_model.py, and a message must name each broken one.
Prints one line a case, which begins with ok or WRONG; ends with 1 if one is wrong."""
import argparse, csv, io, json, os, random, shutil, subprocess, sys, tempfile
import source_model as model
from source_writer import SHAPES, disk_of, lynx_of, tape_of

arguments = argparse.ArgumentParser()
arguments.add_argument("disk1541")
arguments.add_argument("--damaged", type=int, default=1000)
given = arguments.parse_args()
DISK1541 = os.path.realpath(given.disk1541)
wrong = 0


def is_so(name, holds, said=""):
    global wrong
    print(f"ok    {name}" if holds else f"WRONG {name}: {said}")
    wrong += not holds


def run(*words):
    ran = subprocess.run([DISK1541, *map(str, words)], capture_output=True, timeout=60)
    return ran.returncode, ran.stdout, ran.stderr.decode(errors="replace")


# --- what is compared


def listed(image):
    """Names as bytes, types, locks and bytes of the files on a D64 or G64."""
    status, out, _ = run("list", image, "--json")
    files = json.loads(out)["files"]
    return [(it["name"], it["type"], it["locked"]) for it in files]


def is_taken_out(what, file, files, room):
    out = f"{room}/out"
    shutil.rmtree(out, ignore_errors=True)
    status, _, said = run("get-all", file, out)
    got = {open(f"{out}/{it}", "rb").read() for it in os.listdir(out)} if os.path.isdir(out) else set()
    is_so(f"{what}: get-all", status == 0 and got == {it[3] for it in files} and len(os.listdir(out)) == len(files), f"{status} {said}")
    for name, _, _, data in files:
        status, one, said = run("get", file, name.decode())
        is_so(f"{what}: get {name.decode()}", (status, one) == (0, data), f"{status} {said}")


def is_transferred(what, file, files, room):
    before = open(file, "rb").read()
    for form in ("d64", "g64"):
        to = f"{room}/to.{form}"
        run("new", to, "--title", "TO", "--id", "64", "--replace")
        status, out, said = run("transfer", file, to)
        wanted = [(n.decode(), k, bool(l)) for n, k, l, _ in files]
        is_so(f"{what}: transfer to a {form}", (status, out, said) == (0, b"", "") and listed(to) == wanted, f"{status} {said} {listed(to)}")
        is_so(f"{what}: whose files are the same", all(run("get", to, "--exact", n.decode())[1] == d for n, _, _, d in files))
        is_so(f"{what}: and which is sound", run("check", to)[0] == 0)
        saved = open(to, "rb").read()
        status, _, said = run("transfer", file, to)
        is_so(f"{what}: not twice", status == 1 and "status 63" in said and open(to, "rb").read() == saved, f"{status} {said}")
    is_so(f"{what}: it stays as it is", open(file, "rb").read() == before)


def told(line):
    """A line of JSON without names in a character set, the label, and what GEOS says, which the model doesn't know."""
    broken = line["broken"] and {key: value for key, value in line["broken"].items() if key != "text"}
    return {"format": line["format"], "tracks": line["tracks"], "unreadable": line["unreadable"], "files": model.compared(line["files"]), "broken": broken}


def rows_of(file, word):
    """A table's rows, by the heads of their columns."""
    return list(csv.DictReader(io.StringIO(run(word, file, "--csv")[1].decode())))


def is_looked_at(what, file, source):
    """find, info, hash, JSON and tables."""
    status, out, said = run("list", file, "--json")
    is_so(f"{what}: JSON", (status, said) == (0, "") and told(json.loads(out)) == model.as_json(source), out)
    wanted = [["" if it is None else str(it).lower() if isinstance(it, bool) else str(it) for it in (f["petscii"], f["type"], f["closed"], f["locked"], f["blocks"], f["bytes"], f["load"], *f["first"].values(), f["record"])] for f in model.as_json(source)["files"]]
    rows = [[it[key] for key in ("petscii", "type", "closed", "locked", "blocks", "bytes", "load", "track", "sector", "record")] for it in rows_of(file, "list")]
    is_so(f"{what}: a table", rows == wanted, rows)
    label = [("title", "OTHER KIND"), ("id", "K7"), ("DOS", "3D")] if source.tracks else []
    facts = [("format", source.format + (f", {source.tracks} tracks" if source.tracks else "")), *label, ("files", len(source.files))]
    facts += [("unreadable", source.unreadable)] if source.tracks else []
    is_so(f"{what}: info", run("info", file) == (0, "".join(f"{key:13}{value}\n" for key, value in facts).encode(), ""), run("info", file))
    row = rows_of(file, "info")[0]
    is_so(f"{what}: info as a table", (row["format"], row["tracks"], row["title"], row["sound"]) == (source.format, str(source.tracks or ""), "OTHER KIND" if label else "", ""), row)
    is_so(f"{what}: hash", run("hash", file) == (0, f"{model.sum_of(source)}  {file}\n".encode(), ""))
    first = source.files[0]
    line = f'{file}: "{first.name.decode()}" {first.type}, {first.blocks} block{"" if first.blocks == 1 else "s"}\n'
    is_so(f"{what}: find", run("find", first.name.decode(), file) == (0, line.encode(), ""), run("find", first.name.decode(), file))
    is_so(f"{what}: find nothing", run("find", "NONE", file) == (1, b"", "disk1541: no file matches\n"))


def is_read(what, file, files, room, kind=None):
    status, out, said = run("list", file)
    lines = out.decode().splitlines()
    is_so(f"{what}: list", status == 0 and len(lines) == len(files) + 1 and all(f'"{n.decode()}"' in l for (n, _, _, _), l in zip(files, lines[1:])), f"{status} {out} {said}")
    if kind:
        is_so(f"{what}: named", lines[0] == f"{file}: {kind}", lines[0])
        is_looked_at(what, file, model.read(open(file, "rb").read()))
    is_taken_out(what, file, files, room)
    is_transferred(what, file, files, room)


def data_of(rng, size):
    return bytes((1, 8)) + rng.randbytes(size - 2)


def main():
    rng = random.Random(1541)
    files = [
        (b"HELLO", "prg", False, data_of(rng, 20)),
        (b"ONE BLOCK", "seq", False, data_of(rng, 254)),
        (b"ONE MORE", "usr", True, data_of(rng, 255)),
        (b"LONG", "prg", True, data_of(rng, 20000)),
        (b"A,B:C=D", "prg", False, data_of(rng, 700)),
    ]
    many = [(f"FILE {n}".encode(), "prg", n % 2 == 1, data_of(rng, 2 + rng.randrange(900))) for n in range(20)]
    with tempfile.TemporaryDirectory() as room:
        os.chdir(room)
        images = {}
        for kind, shape in SHAPES.items():
            file = f"{room}/{kind.replace(' ', '_')}.img"
            images[kind] = disk_of(shape, files)
            for what, these in ((kind, files), (f"{kind}, three sectors of entries", many)):
                open(file, "wb").write(disk_of(shape, these))
                name, errors = (kind.split(" with ")[0], ", with error bytes" if "error" in kind else "")
                form = {"d71": "D71 of 70 tracks", "d81": "D81 of 80 tracks"}.get(name, name.replace("d64", "D64"))
                is_read(what, file, these, room, form + errors)
        programs = [(n, "prg", False, d) for n, _, _, d in files if b"," not in n]
        images["t64"] = tape_of(programs)
        open("tape.t64", "wb").write(images["t64"])
        is_read("t64", f"{room}/tape.t64", programs, room, "T64 archive")
        images["lynx"] = lynx_of(files)
        open("archive.lnx", "wb").write(images["lynx"])
        is_read("lynx", f"{room}/archive.lnx", [(n, k, False, d) for n, k, _, d in files], room, "Lynx archive")
        of_peers(rng, room)
        patterns(rng, room)
        dry_runs(rng, room)
        converted(rng, room)
        in_folders(room, images)
        damaged(random.Random(given.damaged), room, given.damaged)
    print("all as it should be" if not wrong else f"{wrong} wrong")
    sys.exit(wrong != 0)


def of_peers(rng, room):
    """The same from disks and archives that other programs make."""
    files = [(b"ONE", "prg", False, data_of(rng, 500)), (b"TWO", "prg", False, data_of(rng, 12345)), (b"THREE", "prg", False, data_of(rng, 3))]
    for name, _, _, data in files:
        open(f"{name.decode().lower()}.prg", "wb").write(data)
    if shutil.which("cc1541"):
        words = [it for name, *_ in files for it in ("-f", name.decode().lower(), "-w", f"{name.decode().lower()}.prg")]
        for end in ("d71", "d81"):
            subprocess.run(["cc1541", "-q", "-n", "peer", *words, f"peer.{end}"], check=True, capture_output=True)
            is_read(f"{end} of cc1541", f"{room}/peer.{end}", files, room)
    else:
        print("cc1541 isn't installed: its disks aren't tried")
    if shutil.which("cbmconvert"):
        for end, flag in (("d71", "-D7"), ("d81", "-D8"), ("lnx", "-L")):
            subprocess.run(["cbmconvert", "-n", flag, f"other.{end}", *(f"{n.decode().lower()}.prg" for n, *_ in files)], check=True, capture_output=True)
            is_read(f"{end} of cbmconvert", f"{room}/other.{end}", files, room)
    else:
        print("cbmconvert isn't installed: its disks and archives aren't tried")


def patterns(rng, room):
    """Some files alone, and what isn't transferred."""
    files = [(b"LEVEL 1", "prg", False, data_of(rng, 300)), (b"LEVEL 2", "prg", False, data_of(rng, 300)), (b"OTHER", "seq", True, data_of(rng, 300))]
    open("some.d81", "wb").write(disk_of(SHAPES["d81"], files))
    run("new", "some.d64", "--title", "SOME", "--id", "64")
    is_so("transfer of a pattern", run("transfer", "some.d81", "some.d64", "LEVEL*")[0] == 0 and [it[0] for it in listed("some.d64")] == ["LEVEL 1", "LEVEL 2"])
    status, _, said = run("transfer", "some.d81", "some.d64", "OTHER", "NONE")
    is_so("a pattern that means no file: nothing is transferred", status == 1 and "NONE" in said and len(listed("some.d64")) == 2, said)
    run("lock", "some.d64", "LEVEL 1")
    status, _, said = run("transfer", "some.d81", "some.d64", "--replace")
    is_so("a locked file isn't replaced", status == 1 and len(listed("some.d64")) == 2, f"{status} {said}")
    run("unlock", "some.d64", "LEVEL 1")
    is_so("--replace replaces", run("transfer", "some.d81", "some.d64", "--replace")[0] == 0 and len(listed("some.d64")) == 3)
    big = [(b"BIG", "prg", False, data_of(rng, 200000))]
    open("big.d81", "wb").write(disk_of(SHAPES["d81"], big))
    saved = open("some.d64", "rb").read()
    status, _, said = run("transfer", "big.d81", "some.d64")
    is_so("a file that doesn't fit: nothing is transferred", status == 1 and "status 72" in said and open("some.d64", "rb").read() == saved, said)
    status, _, said = run("transfer", "some.d64", "some.d81")
    is_so("nothing is written to another kind of disk", status == 2 and "D81" in said, said)
    status, _, said = run("check", "some.d81")
    is_so("what only a 1541's image has is refused", status == 2 and "D81" in said, said)


def dry_runs(rng, room):
    """What would be transferred, and what can't be: nothing is changed."""
    files = [(b"ONE", "prg", False, data_of(rng, 300)), (b"TWO", "seq", True, data_of(rng, 300))]
    open("dry.d81", "wb").write(disk_of(SHAPES["d81"], files))
    run("new", "dry.d64", "--title", "DRY", "--id", "64")
    saved = open("dry.d64", "rb").read()
    lines = 'dry.d81: "ONE" prg, 2 blocks\ndry.d81: "TWO" seq, 2 blocks\n'
    ran = run("transfer", "dry.d81", "dry.d64", "--dry-run")
    is_so("a dry run", ran == (0, f"{lines}2 files would be transferred\n".encode(), "") and open("dry.d64", "rb").read() == saved, ran)
    ran = run("transfer", "dry.d81", "dry.d64", "T*", "--dry-run")
    is_so("of a pattern", ran == (0, b'dry.d81: "TWO" seq, 2 blocks\n1 file would be transferred\n', ""), ran)
    open("dry.d81", "wb").write(disk_of(SHAPES["d81"], [files[0], (b"BIG", "prg", False, data_of(rng, 200000)), files[1]]))
    status, out, said = run("transfer", "dry.d81", "dry.d64", "--dry-run")
    wanted = f"{lines}2 of 3 files could be transferred, so none would be\n"
    is_so("a dry run with a file that doesn't fit", (status, out) == (1, wanted.encode()) and '"BIG"' in said and "status 72" in said and open("dry.d64", "rb").read() == saved, f"{status} {out} {said}")


def is_refused(name, ran, status, words, *out):
    is_so(name, ran[0] == status and all(it in ran[2] for it in words) and not any(os.path.exists(it) for it in out), ran)


def converted(rng, room):
    """A D64 or G64 of another kind: its files, or its sectors."""
    files = [(b"ONE", "prg", False, data_of(rng, 300)), (b"A,B", "seq", True, data_of(rng, 20000))]
    for kind in SHAPES:
        for form in ("d64", "g64"):
            open("from.img", "wb").write(disk_of(SHAPES[kind], files, most=35))
            ran = run("convert", "from.img", f"new.{form}", "--replace", *(["--lossy"] if form == "g64" and kind.startswith("d64") else []))
            names = [(n.decode(), k, bool(l)) for n, k, l, _ in files]
            is_so(f"{kind}: convert to a {form}", ran[0] == 0 and listed(f"new.{form}") == names, ran)
            is_so(f"{kind}: with the same files", all(run("get", f"new.{form}", "--exact", n.decode())[1] == d for n, _, _, d in files))
            is_so(f"{kind}: its title and its id", b"title        OTHER KIND\nid           K7\n" in run("info", f"new.{form}")[1])
            if kind.startswith("d64") and form == "d64":
                is_so(f"{kind}: its sectors", open("new.d64", "rb").read() == open("from.img", "rb").read()[:196608])
            else:
                is_so(f"{kind}: a sound disk", kind.startswith("d64") or run("check", f"new.{form}")[0] == 0)
    for file, archive, these in (("tape.t64", tape_of, [files[0]]), ("archive.lnx", lynx_of, files)):
        open(file, "wb").write(archive(these))
        ran = run("convert", file, "fresh.d64", "--replace")
        is_so(f"{file}: convert", ran == (0, b"", "") and run("check", "fresh.d64")[0] == 0 and b"title        FRESH\nid           64\n" in run("info", "fresh.d64")[1], ran)
        is_so(f"{file}: with the same files", all(run("get", "fresh.d64", "--exact", n.decode())[1] == d for n, _, _, d in these))
    is_refused("not over an image that is there", run("convert", "tape.t64", "fresh.d64"), 3, ["already exists"])
    lost(rng, files)


def lost(rng, files):
    """What can't be held."""
    image = bytearray(disk_of(SHAPES["d64 of 40 tracks with error bytes"], files, most=35))
    image[-1] = 5
    open("from.img", "wb").write(image)
    is_refused("error bytes are lost", run("convert", "from.img", "lost.d64"), 1, ["can't hold the error bytes", ": 1, ", "track 40, sector 16 (error 23)", "--lossy"], "lost.d64")
    is_so("but by --lossy", run("convert", "from.img", "lost.d64", "--lossy")[0] == 0 and open("lost.d64", "rb").read() == image[:196608])
    os.remove("lost.d64")
    image = bytearray(disk_of(SHAPES["d64 of 42 tracks"], files, most=35))
    image[256 * 768 + 1000] = image[-1] = 1
    open("from.img", "wb").write(image)
    is_refused("data on track 41 is lost", run("convert", "from.img", "lost.d64"), 1, ["tracks 41 and 42", ": 2\n"], "lost.d64")
    is_so("but by --lossy", run("convert", "from.img", "lost.d64", "--lossy")[0] == 0 and open("lost.d64", "rb").read() == image[:196608])
    os.remove("lost.d64")
    open("from.img", "wb").write(disk_of(SHAPES["d64 of 42 tracks"], files))
    is_refused("a file on track 42 isn't lost", run("convert", "from.img", "lost.d64", "--lossy"), 1, ['"ONE" has blocks beyond track 40', "transfer"], "lost.d64")
    open("from.img", "wb").write(disk_of(SHAPES["d81"], [*files, (b"BIG", "prg", False, data_of(rng, 200000))]))
    is_refused("a file that doesn't fit", run("convert", "from.img", "lost.d64", "--lossy"), 1, ['"BIG"', "status 72"], "lost.d64")
    open("from.img", "wb").write(disk_of(SHAPES["d81"], [(b"N%d" % n, "seq", False, b"X") for n in range(145)]))
    is_refused("145 files", run("convert", "from.img", "lost.d64", "--lossy"), 1, ['"N144"', "the directory is full"], "lost.d64")
    broken = bytearray(disk_of(SHAPES["d81"], files))
    at = 256 * model.D81.number[(40, 3)]
    broken[at : at + 2] = bytes((40, 3))
    open("from.img", "wb").write(broken)
    is_refused("a directory that comes back", run("convert", "from.img", "lost.d64"), 1, ["leads back to track 40, sector 3"], "lost.d64")


def in_folders(room, images):
    """Those of a folder."""
    os.makedirs("many/more")
    for name, kind in (("a.d71", "d71"), ("more/b.D81", "d81"), ("c.t64", "t64"), ("more/d.lnx", "lynx"), ("e.d64", "d64 of 42 tracks")):
        open(f"many/{name}", "wb").write(images[kind])
    run("new", "many/f.d64", "--title", "F", "--id", "64")
    open("many/notes.txt", "w").write("none")
    status, out, said = run("list", "-r", "many")
    is_so("list -r", (status, said) == (0, "") and out.decode().endswith("6 images: 6 shown, 0 no images, 5 of other kinds, and 1 other file\n"), out[-200:])
    ran = run("find", "-r", "HELLO", "many")
    is_so("find -r", ran[0] == 0 and ran[1].decode().endswith("6 images: 5 with a match, 1 without, 0 no images, 5 of other kinds, and 1 other file\n"), ran)
    is_so("hash -r", [it.split()[1] for it in run("hash", "-r", "many")[1].decode().splitlines()] == ["many/a.d71", "many/c.t64", "many/e.d64", "many/f.d64", "many/more/b.D81", "many/more/d.lnx"])
    ran = run("check", "-r", "many")
    is_so("check -r has none but a 1541's", ran[0] == 4 and ran[1].decode().endswith("2 images: 1 sound, 0 not sound, 1 not images, and 5 other files\n"), ran)


# --- damaged ones


def small_sources(rng):
    """A source of each kind, with some short files in it."""
    files = [(b"FILE %d" % n, ("prg", "seq", "usr")[n % 3], n % 4 == 1, data_of(rng, 2 + rng.randrange(1500))) for n in range(12)]
    ends = {"d64": "d64", "d71": "d71", "d81": "d81"}
    disks = [(ends[kind[:3]], disk_of(shape, files)) for kind, shape in SHAPES.items()]
    # (the archives twice, as they are short)
    return disks + 2 * [("t64", tape_of([(n, "prg", l, d) for n, _, l, d in files])), ("lnx", lynx_of([*files, (b"RECORDS", "rel", False, data_of(rng, 900))]))]


def places_of(image):
    """Places of bytes that say how the rest is read, and of a disk the links of its sectors and where these lie."""
    shape = model.SIZES.get(len(image))
    if shape is None:
        return range(min(len(image), 1000)), []
    head = 256 * shape.number[shape.directory]
    used = [(256 * n, bytes(place)) for n, place in enumerate(shape.places) if any(image[256 * n : 256 * n + 256])]
    directory = [it for it in used if it[0] in (head, head + 256)]
    return [at + k for at, _ in used for k in (0, 1)] + 2 * [head + k for k in range(512)] + list(range(256 * len(shape.places), len(image))), used + 4 * directory


def spoilt(rng, image, places, links):
    """A source in which some bytes are others, among them links that lead nowhere or come back; or that is cut off, or too long."""
    broken = bytearray(image)
    for _ in range(rng.choice((0, 1, 1, 2, 5, 20))):
        at = rng.choice(places)
        broken[at] = rng.choice((0, 1, 18, 36, 40, 41, 70, 80, 255, broken[rng.choice(places)], rng.randrange(256)))
        if links and rng.random() < 0.4:
            at, _ = rng.choice(links)
            broken[at : at + 2] = rng.choice(links)[1]
    cut = rng.random()
    if cut < 0.04:
        return bytes(broken[: rng.randrange(len(broken))])
    if cut < 0.06:
        return bytes(broken[: rng.choice((0, 1, 63, 64, 65, 255, 256, 197376, 205312, 206114, 349696, 819200))])
    return bytes(broken) + (rng.randbytes(rng.randrange(300)) if cut < 0.08 else b"")


def taken_of(source):
    """The files that get-all takes of what can be read, of relative ones the whole records."""
    taken = [it.data[: len(it.data) - len(it.data) % (it.record or len(it.data) or 1)] if it.record is not None else it.data for it in source.files if it.data is not None]
    return sorted(taken)


def is_same_taken(path, source):
    """What get-all makes of it; a relative file has a head of 26 bytes."""
    shutil.rmtree("out", ignore_errors=True)
    status, _, said = run("get-all", path, "out")
    names = os.listdir("out") if os.path.isdir("out") else []
    got = sorted(open(f"out/{it}", "rb").read()[26 if it.endswith(".r00") or ".r00" in it else 0 :] for it in names)
    is_whole = not source.broken and all(it.data is not None for it in source.files)
    return got == taken_of(source) and status == (0 if is_whole else 1) and (is_whole or said)


def ends_well(path, source):
    """transfer and convert end with 0, or with 1 and a sentence; a disk that convert makes of files is sound."""
    status, _, said = run("transfer", path, "into.d64", "--dry-run")
    made, _, told = run("convert", path, "made.d64", "--replace", "--lossy")
    is_sound = made or source.format.startswith("D64") or run("check", "made.d64")[0] == 0
    return all(it == 0 or it == 1 and why for it, why in ((status, said), (made, told))) and is_sound


def look_at_spoilt(paths):
    """What is wrong with the answer to these, which are looked at in one call."""
    status, out, said = run("list", "-r", "spoilt", "--json")
    lines = {it["image"]: it for it in map(json.loads, out.decode().splitlines())}
    wrong, is_fine = [], True
    for n, path in enumerate(paths):
        source, line = model.read(open(path, "rb").read()), lines.get(path)
        if source is None:
            is_fine = False
            right = line and (line.get("status") == 2 and path in said or len(open(path, "rb").read()) in model.OURS)
        else:
            is_fine = is_fine and not source.broken
            right = line and "files" in line and told(line) == model.as_json(source) and (not source.broken or path in said)
            right = right and (n % 10 or is_same_taken(path, source)) and (n % 50 != 7 or ends_well(path, source))
        if not right:
            wrong.append(path)
    return wrong if wrong or status == (0 if is_fine else 4) else ["the status"]


def damaged(rng, room, count):
    """Damaged ones, many in one call."""
    sources = [(end, image, *places_of(image)) for end, image in small_sources(rng)]
    run("new", "into.d64", "--title", "INTO", "--id", "64", "--replace")
    wrong = []
    for begin in range(0, count, 250):
        shutil.rmtree("spoilt", ignore_errors=True)
        os.makedirs("spoilt")
        paths = []
        for n in range(begin, min(begin + 250, count)):
            end, image, places, links = sources[n % len(sources)]
            paths.append(f"spoilt/{n:05}.{end}")
            with open(paths[-1], "wb") as out:
                out.write(spoilt(rng, image, places, links))
        wrong += look_at_spoilt(paths)
    is_so(f"{count} damaged ones", not wrong, wrong[:5])


main()
