#!/usr/bin/env python3
"""check_place.py DISK1541 [--moves N]: `disk1541 place`, and recipes with places for their files. A plain model here places the blocks and computes the whole new
image; each move must give exactly that image, byte for byte. So a file has the same bytes, only the first block in its entry differs, every other file is
unchanged, and the file's old sectors are zeros and free. N moves (default 400) are made on generated disks of all fillings, with lost blocks, locked and
relative files; every tenth of them on a G64, whose sectors are compared. Then come refused moves, which leave the image unchanged; kills during a save; and, if
cc1541 is installed, disks that it and `build` make, which must be the same file. Prints a line for each property, with the number of cases, and one for each that
is WRONG; ends with 1 if one is."""
import argparse, os, random, shutil, subprocess, sys, tempfile, time

words = argparse.ArgumentParser(description=__doc__, formatter_class=argparse.RawDescriptionHelpFormatter)
words.add_argument("disk1541")
words.add_argument("--moves", type=int, default=400)
words = words.parse_args()
DISK1541 = os.path.realpath(words.disk1541)
cases, wrong = {}, 0


def is_so(name, case, holds, said=""):
    global wrong
    if not holds:
        print(f"WRONG {case}: {name}: {said}", flush=True)
        wrong += 1
    cases[case] = cases.get(case, 0) + bool(holds)


def run(*call):
    ran = subprocess.run([DISK1541, *map(str, call)], capture_output=True, timeout=60)
    return ran.returncode, ran.stdout.decode(errors="replace"), ran.stderr.decode(errors="replace")


def read(path):
    with open(path, "rb") as it:
        return it.read()


def write(path, data):
    with open(path, "wb") as out:
        out.write(data)


# ---- a D64, read plainly


def sectors_on(track):
    return 21 if track < 18 else 19 if track < 25 else 18 if track < 31 else 17


START, at = {}, 0
for track in range(1, 41):
    START[track] = at
    at += 256 * sectors_on(track)


def place(track, sector):
    return START[track] + 256 * sector


def tracks_of(disk):
    return 40 if len(disk) == 196608 else 35


def chain(disk, track, sector):
    way = []
    while track:
        way.append((track, sector))
        track, sector = disk[place(track, sector)], disk[place(track, sector) + 1]
    return way


def entry_places(disk):
    return [place(*at) + 32 * n + 2 for at in chain(disk, 18, 1) for n in range(8)]


def map_byte(track, sector):
    """Where the BAM has a sector's bit, and which it is; and where its track is counted."""
    count = place(18, 0) + (4 * track if track < 36 else 192 + 4 * (track - 36))
    return count + 1 + sector // 8, 1 << sector % 8, count


def is_free(disk, track, sector):
    byte, bit, _ = map_byte(track, sector)
    return bool(disk[byte] & bit)


def set_free(disk, track, sector, free):
    byte, bit, count = map_byte(track, sector)
    if bool(disk[byte] & bit) != free:
        disk[byte] ^= bit
        disk[count] += 1 if free else -1


# ---- the rule: from a sector on, round its track, else on the next tracks from 0; each next block is looked for so many sectors behind


def planned(disk, own, head, interleave):
    """Where a file of these blocks goes, and where the next one begins; None if it doesn't fit."""
    taken, ways, (track, sector) = set(), [], head
    for _ in own:
        found = None
        for at in range(track, tracks_of(disk) + 1):
            if at == 18:
                continue
            begin = sector if at == track else 0
            for step in range(sectors_on(at)):
                it = (at, (begin + step) % sectors_on(at))
                if it not in taken and (is_free(disk, *it) or it in own):
                    found = it
                    break
            if found:
                break
        if not found:
            return None
        taken.add(found)
        ways.append(found)
        track, sector = found[0], (found[1] + interleave) % sectors_on(found[0])
    return ways, (track, sector)


def moved(disk, at, head, interleave):
    """The disk whose entry at a byte has its file laid so, and where the next one begins; None if it doesn't fit."""
    own = chain(disk, disk[at + 1], disk[at + 2])
    plan = planned(disk, own, head, interleave)
    if plan is None:
        return None
    ways, head = plan
    blocks = [bytes(disk[place(*it) : place(*it) + 256]) for it in own]
    new = bytearray(disk)
    for it in own:
        new[place(*it) : place(*it) + 256] = bytes(256)
        set_free(new, *it, True)
    for n, it in enumerate(ways):
        block = bytearray(blocks[n])
        if n + 1 < len(ways):
            block[:2] = bytes(ways[n + 1])
        new[place(*it) : place(*it) + 256] = block
        set_free(new, *it, False)
    if ways:
        new[at + 1 : at + 3] = bytes(ways[0])
    return bytes(new), head, ways


# ---- generated disks


def new_disk(room, rng, name):
    """A disk with files of all sizes, some locked, one relative, some blocks lost, some deleted."""
    path = f"{room}/{name}"
    tracks = rng.choice(("35", "35", "40"))
    assert run("new", path, "--title", "PLACES", "--id", "64", "--tracks", tracks, "--replace")[0] == 0
    files = []
    for n in range(rng.randrange(1, 14)):
        size = rng.choice((1, 254, 255, rng.randrange(2000), rng.randrange(60000), rng.randrange(9000)))
        file = f"{room}/f{n}.{rng.choice(('prg', 'seq', 'usr'))}"
        write(file, rng.randbytes(size))
        files.append(file)
    if rng.random() < 0.3:
        write(f"{room}/rel.bin", rng.randbytes(1000))
        run("put", path, f"{room}/rel.bin", "--name", "REL", "--type", "rel", "--record", "50")
    for file in files:
        run("put", path, file)
    for n in range(len(files)):
        if rng.random() < 0.2:
            run("delete", path, f"F{n}")
        elif rng.random() < 0.2:
            run("lock", path, f"F{n}")
    disk = bytearray(read(path))
    for _ in range(rng.choice((0, 0, 5, 40))):
        track = rng.choice([it for it in range(1, tracks_of(disk) + 1) if it != 18])
        set_free(disk, track, rng.randrange(sectors_on(track)), False)
    write(path, disk)
    return path, bytes(disk)


def names_on(disk):
    """The entries that can be moved: where each stands, and its name as disk1541 takes it."""
    return [(at, bytes(disk[at + 3 : at + 19]).rstrip(b"\xa0").decode()) for at in entry_places(disk) if disk[at] & 0x8F in (0x81, 0x82, 0x83)]


def plain(path):
    """The sectors of an image: a G64's as a D64."""
    if path.endswith(".d64"):
        return read(path)
    assert run("convert", path, f"{path}.back.d64", "--replace", "--lossy")[0] == 0
    return read(f"{path}.back.d64")


def try_disk(room, rng, number):
    path, disk = new_disk(room, rng, "w.d64")
    if number % 10 == 0 and len(disk) == 174848:
        assert run("convert", path, f"{room}/w.g64")[0] == 0, path
        path = f"{room}/w.g64"
    movable = names_on(disk)
    for _ in range(min(3, words.moves - sum(cases.get(it, 0) for it in MOVES))):
        if not movable:
            return
        chosen = rng.sample(movable, min(len(movable), rng.choice((1, 1, 2, 3))))
        head = rng.choice([it for it in range(1, tracks_of(disk) + 1) if it != 18])
        head = (head, rng.randrange(sectors_on(head)))
        interleave = rng.randrange(1, 21)
        call = ("place", path, *(it[1] for it in chosen), "--track", head[0], "--sector", head[1], "--interleave", interleave)
        new, next_head, told = disk, head, ""
        for at, name in chosen:
            made = moved(new, at, next_head, interleave)
            if made is None:
                new = None
                break
            new, next_head, ways = made
            told += f'"{name}":' + "".join(f" {t}/{s}" for t, s in ways) + "\n"
        before, dry = read(path), run(*call, "--dry-run")
        is_so(call, "a dry run leaves the image as it was", read(path) == before)
        ran = run(*call)
        if new is None:
            is_so(call, MOVES[1], ran[0] == 1 and "too few free blocks" in ran[2] and read(path) == before and dry[0] == 1, ran)
            continue
        is_so(call, "a dry run says where the blocks will lie", dry == (0, told, ""), dry)
        is_so(call, MOVES[0], ran == (0, "", "") and plain(path) == new, ran)
        is_so(call, "the disk is sound", run("check", path)[0] == 0)
        disk = plain(path)


MOVES = ("a move gives just the image of the model", "a move for which there is no room is refused")


def try_moves(room):
    rng, number = random.Random(1541), 0
    while sum(cases.get(it, 0) for it in MOVES) < words.moves and number < 4 * words.moves and not wrong:
        try_disk(room, rng, number)
        for name in os.listdir(room):
            os.remove(f"{room}/{name}")
        number += 1


# ---- what is refused


def try_refusals(room):
    path = f"{room}/r.d64"
    run("new", path, "--title", "X", "--id", "64")
    write(f"{room}/a.prg", bytes(3000))
    write(f"{room}/rel.bin", bytes(500))
    run("put", path, f"{room}/a.prg")
    run("put", path, f"{room}/rel.bin", "--name", "REL", "--type", "rel", "--record", "50")
    before = read(path)
    for call, status, sentence in (
        (("A", "--track", "18"), 64, "track 18 holds the directory"),
        (("A", "--track", "0"), 64, "no disk has such a sector"),
        (("A", "--track", "41"), 64, "no disk has such a sector"),
        (("A", "--track", "31", "--sector", "17"), 64, "no disk has such a sector"),
        (("A", "--sector", "-1"), 64, ""),
        (("A", "--interleave", "0"), 64, "an interleave is 1 to 20, not 0"),
        (("A", "--interleave", "21"), 64, "an interleave is 1 to 20, not 21"),
        (("A", "--interleave", "x"), 64, "an interleave is 1 to 20, not x"),
        (("NONE",), 1, "no file of the disk has the name"),
        (("REL",), 1, "REL is a relative file"),
        (("A", "--track", "36"), 1, "too few free blocks"),
        ((), 64, ""),
    ):
        ran = run("place", path, *call)
        is_so(call, "what can't be placed is refused", ran[0] == status and sentence in ran[2] and read(path) == before, ran)
    broken = bytearray(before)
    at = entry_places(broken)[0]
    set_free(broken, broken[at + 1], broken[at + 2], True)
    write(path, broken)
    ran = run("place", path, "A")
    is_so("a block in use is marked free", "a disk that isn't sound is refused", ran[0] == 1 and "the disk is not sound" in ran[2] and read(path) == broken, ran)
    broken = bytearray(before)
    broken[at] = 0x02
    write(path, broken)
    ran = run("place", path, "A")
    is_so("never closed", "a file that was never closed is refused", ran[0] == 1 and "never closed" in ran[2] and read(path) == broken, ran)
    # an odd entry, whose type no DOS knows, stays, and so does what it leads to
    odd = bytearray(before)
    odd[at] = 0x87
    write(path, odd)
    write(f"{room}/b.prg", bytes(range(256)) * 9)
    ran = run("put", path, f"{room}/b.prg"), run("place", path, "B", "--interleave", "1")
    new = read(path)
    stays = all(new[place(*it) : place(*it) + 256] == odd[place(*it) : place(*it) + 256] and not is_free(new, *it) for it in chain(odd, odd[at + 1], odd[at + 2]))
    is_so("an odd entry", "a file is moved beside odd entries, which stay", ran[0][0] == ran[1][0] == 0 and new[at : at + 30] == odd[at : at + 30] and stays, ran)
    is_so("an odd entry", "the moved file has its bytes", run("get", path, "B", "-o", f"{room}/b.out")[0] == 0 and read(f"{room}/b.out") == read(f"{room}/b.prg"))


# ---- kills


def try_kills(room):
    """A kill at any moment of a move leaves the old image or the new one, and the next command works."""
    rng = random.Random(9)
    path, disk = new_disk(room, rng, "k.d64")
    at, name = names_on(disk)[0]
    head = next(it for it in ((1, 0), (20, 0), (30, 0)) if moved(disk, at, it, 4))
    new = moved(disk, at, head, 4)[0]
    call = [DISK1541, "place", path, name, "--track", str(head[0]), "--interleave", "4"]
    begun = time.perf_counter()
    subprocess.run(call, check=True)
    whole = time.perf_counter() - begun
    for _ in range(60):
        write(path, disk)
        child = subprocess.Popen(call, stderr=subprocess.DEVNULL)
        time.sleep(rng.random() * 1.3 * whole)
        child.kill()
        child.wait()
        found = read(path)
        is_so(call, "a kill leaves the old image or the new one", found in (disk, new))
    write(path, disk)
    is_so(call, "after kills the move is made", run(*call[1:])[0] == 0 and read(path) == new)


# ---- recipes


RECIPES = (
    # what stands in the recipe for the disk, for each file, and cc1541's words for the same
    ("interleave = 4", [""] * 6, ["-S", "4", "-s", "4"], [[]] * 6),
    ("interleave = 10", [""] * 6, [], [[]] * 6),
    ("", ["interleave = 7\ntrack = 19"], [], [["-s", "7", "-r", "19"]]),
    ("", ["interleave = 3\ntrack = 5\nsector = 3", "interleave = 3\ntrack = 20\nsector = 2"], ["-S", "3"], [["-s", "3", "-r", "5", "-b", "3"], ["-s", "3", "-r", "20", "-b", "2"]]),
)


def try_recipes(room):
    rng = random.Random(35)
    has_peer = shutil.which("cc1541")
    if not has_peer:
        print("cc1541 isn't installed: its disks aren't compared")
    for disk_words, files, peer_first, peer_words in RECIPES:
        recipe, peer = f'title = "PLACES"\nid = "64 2A"\n{disk_words}\n', []
        for n, line in enumerate(files):
            write(f"{room}/p{n}.prg", b"\1\x08" + rng.randbytes(rng.randrange(1, 25000)))
            recipe += f'[[entry]]\nfile = "p{n}.prg"\n{line}\n'
            peer += [*peer_words[n], "-f", f"p{n}", "-w", f"{room}/p{n}.prg"]
        write(f"{room}/r.toml", recipe.encode())
        ran = run("build", f"{room}/r.toml", f"{room}/ours.d64", "--replace")
        is_so(recipe, "a recipe lays files", ran == (0, "", "") and run("check", f"{room}/ours.d64")[0] == 0, ran)
        for n in range(len(files)):
            got = run("get", f"{room}/ours.d64", f"P{n}", "-o", f"{room}/got", "--replace")
            is_so(recipe, "a file that a recipe lays has its bytes", got[0] == 0 and read(f"{room}/got") == read(f"{room}/p{n}.prg"), got)
        if has_peer:
            if os.path.exists(f"{room}/theirs.d64"):
                os.remove(f"{room}/theirs.d64")
            subprocess.run(["cc1541", "-q", "-n", "places", "-i", "64 2a", *peer_first, *peer, f"{room}/theirs.d64"], check=True)
            is_so(recipe, "the disk is cc1541's, byte for byte", read(f"{room}/ours.d64") == read(f"{room}/theirs.d64"))
    # a disk that is full to its last block
    write(f"{room}/full.prg", rng.randbytes(400 * 254))
    write(f"{room}/rest.prg", rng.randbytes(264 * 254))
    write(f"{room}/r.toml", b'title = "FULL"\nid = "64"\ninterleave = 6\n[[entry]]\nfile = "full.prg"\n[[entry]]\nfile = "rest.prg"\n')
    ran = run("build", f"{room}/r.toml", f"{room}/full.d64")
    is_so("664 blocks", "a disk that is full is laid", ran[0] == 0 and "0 BLOCKS FREE" in run("list", f"{room}/full.d64")[1], ran)
    for line, status, sentence in (
        ("interleave = 21", 64, "`interleave` is 1 to 20"),
        ("track = 18", 64, "but not 18"),
        ("track = 35\nsector = 17", 64, "`sector` one of that track"),
        ("track = 35\ninterleave = 1", 1, "too few free blocks"),
        ('type = "rel"\nrecord = 30\ntrack = 2', 1, "is a relative file"),
    ):
        write(f"{room}/r.toml", f'title = "X"\nid = "64"\n[[entry]]\nfile = "full.prg"\n{line}\n'.encode())
        ran = run("build", f"{room}/r.toml", f"{room}/none.d64")
        is_so(line, "a recipe that lays what can't be laid makes nothing", ran[0] == status and sentence in ran[2] and "entry 1" in ran[2] and not os.path.exists(f"{room}/none.d64"), ran)


with tempfile.TemporaryDirectory() as room:
    try_moves(room)
    try_refusals(room)
with tempfile.TemporaryDirectory() as room:
    try_kills(room)
with tempfile.TemporaryDirectory() as room:
    try_recipes(room)
for case, count in cases.items():
    if count:
        print(f"ok {case} ({count})")
sys.exit(1 if wrong else 0)
