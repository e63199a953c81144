#!/usr/bin/env python3
"""check_unlinked.py DISK1541: a directory of 144 files that ends too early, by a link that is 0 or by a first sector that is wiped. No command may end with 0
and say nothing of the files that it passes over; and whatever commands without --force do to the image, `get-all --salvage` gives each file whole.
Prints a line for each case, which begins with ok or WRONG; ends with 1 if one is WRONG."""
import os, random, shutil, subprocess, sys, tempfile

DISK = os.path.realpath(sys.argv[1])
SEQUENCES, STEPS = 20, 6
# The bytes of a file of the disk, by its number.
WRONG = []


def body(number):
    return bytes([number]) * 254 + bytes([number ^ 255]) * (10 + number % 7)


def place(track, sector):
    """Where a sector of track 18 lies in a D64."""
    return (357 + sector) * 256 if track == 18 else sys.exit("only track 18")


def run(*words):
    ran = subprocess.run([DISK, *words], capture_output=True, text=True, errors="replace", stdin=subprocess.DEVNULL)
    return ran.returncode, ran.stdout, ran.stderr


def say(is_right, name, told=""):
    print(f"{'ok   ' if is_right else 'WRONG'} {name}{'' if is_right else ': ' + told}")
    if not is_right:
        WRONG.append(name)


def full_disk(room):
    """A disk of 144 files of two blocks, each of other bytes."""
    os.makedirs(f"{room}/files")
    for number in range(144):
        with open(f"{room}/files/f{number:03}.seq", "wb") as out:
            out.write(body(number))
    path = f"{room}/full.d64"
    assert run("new", path, "--title", "FULL", "--id", "64")[0] == 0
    assert run("put", path, *(f"{room}/files/f{it:03}.seq" for it in range(144)))[0] == 0
    with open(path, "rb") as image:
        return bytearray(image.read())


def sectors_of(image):
    """The sectors of the directory, in order."""
    at, found = 1, []
    while True:
        found.append(at)
        track, at = image[place(18, at)], image[place(18, at) + 1]
        if track == 0:
            return found


def cut(image, count):
    """The image whose directory ends after so many sectors, and the numbers of the files that aren't listed any more."""
    image = bytearray(image)
    image[place(18, sectors_of(image)[count - 1])] = 0
    return image, range(8 * count, 144)


def wiped(image):
    """The image with 256 zeros for 18/1."""
    image = bytearray(image)
    image[place(18, 1) : place(18, 1) + 256] = bytes(256)
    return image, range(8, 144)


def whole(room, path, hidden):
    """Which of the files that aren't listed don't come out whole."""
    out = f"{room}/out"
    shutil.rmtree(out, ignore_errors=True)
    run("get-all", "--salvage", path, out)
    # (a new file may have the name of one that isn't listed, which is then written with a number)
    found = set()
    for name in os.listdir(out) if os.path.isdir(out) else ():
        with open(f"{out}/{name}", "rb") as file:
            found.add(file.read())
    return [it for it in hidden if body(it) not in found]


# Commands that show what is on a disk, or take files out.
LOOKS = ("list P", "list P --json", "list P --csv", "list P --raw", "list P --blocks", "find * P", "find * P --json", "info P", "info P --json", "info P --csv", "check P", "check P --json", "check P --csv", "check --all P", "check --all P --json", "get-all P D", "describe P", "list P P", "check -r R", "transfer P E")


def look(room, name, image):
    path, empty = f"{room}/r/look.d64", f"{room}/empty.d64"
    os.makedirs(f"{room}/r", exist_ok=True)
    with open(path, "wb") as out:
        out.write(image)
    for words in LOOKS:
        run("new", empty, "--title", "E", "--id", "64", "--replace")
        shutil.rmtree(f"{room}/d", ignore_errors=True)
        names = {"P": path, "D": f"{room}/d", "R": f"{room}/r", "E": empty}
        given = [names.get(it, it) for it in words.split()]
        status, out, err = run(*given)
        say(status != 0 and "no link reaches" in out + err or status != 0 and '"unlinked":[{' in out, f"{name}: {words}", f"status {status}, {err[:200]}")


def change(room, kind, number, hidden):
    """The words of a random change."""
    name = f"F{random.choice(range(144)):03}"
    some = f"{room}/files/f{random.randrange(144):03}.seq"
    return {
        "validate": ["validate", "P"],
        "put": ["put", "P", some, "--name", f"N{number}"],
        "big": ["put", "P", f"{room}/big.prg", "--name", f"B{number}"],
        "replace": ["put", "P", some, "--name", name, "--replace"],
        "delete": ["delete", "P", name],
        "delete all": ["delete", "P", "*"],
        "copy": ["copy", "P", name, f"C{number}"],
        "rename": ["rename", "P", name, f"R{number}"],
        "sort": ["sort", "P"],
        "undelete": ["undelete", "P", name],
        "lock": ["lock", "P", name],
        "title": ["title", "P", f"T{number}"],
        "retype": ["retype", "P", name, "prg"],
        "place": ["place", "P", name, "--track", "1", "--sector", "0", "--interleave", "10"],
        "transfer": ["transfer", f"{room}/full.d64", "P", "F00?", "--replace"],
    }[kind]


KINDS = ("validate", "put", "big", "replace", "delete", "delete all", "copy", "rename", "sort", "undelete", "lock", "title", "retype", "place", "transfer")


def damage(room, name, image, hidden):
    """Random sequences of changes; after each change the files that aren't listed come out whole."""
    path, kept, done = f"{room}/work.d64", set(), 0
    with open(path, "wb") as out:
        out.write(image)
    say(not whole(room, path, hidden), f"{name}: --salvage gives each file", "some are lost at once")
    for sequence in range(SEQUENCES):
        random.seed(sequence)
        with open(path, "wb") as out:
            out.write(image)
        words = []
        for number in range(STEPS):
            kind = KINDS[sequence] if number == 0 and sequence < len(KINDS) else random.choice(KINDS)
            given = [path if it == "P" else it for it in change(room, kind, number, hidden)]
            status, _, err = run(*given)
            words.append(f"{' '.join(given)} ({status})")
            done += status == 0
            kept.add(kind) if status == 0 else None
        lost = whole(room, path, hidden)
        if lost:
            return say(False, f"{name}: sequence {sequence}", f"{len(lost)} files are lost, {lost[:5]}: {'; '.join(words)}")
    say(True, f"{name}: {SEQUENCES} sequences of {STEPS} changes, {done} of them carried out ({', '.join(sorted(kept))})")
    status, _, err = run("validate", path)
    say(status == 1 and "no link reaches" in err and "--force" in err, f"{name}: validate is refused", f"{status} {err}")
    # By --force it is carried out, and then nothing is hidden any more.
    status, _, err = run("validate", "--force", path)
    say(status == 0, f"{name}: validate --force isn't", f"{status} {err}")
    status, _, err = run("list", path)
    say(status == 0 and not err, f"{name}: and then no file is hidden", f"{status} {err}")


def main():
    with tempfile.TemporaryDirectory() as room:
        image = full_disk(room)
        with open(f"{room}/big.prg", "wb") as out:
            out.write(bytes(60000))
        path = f"{room}/full.d64"
        for words in (["list", path], ["check", path], ["check", "--all", path], ["get-all", path, f"{room}/all"]):
            status, _, err = run(*words)
            say(status == 0 and not err, f"a whole directory: {words[0]}", f"{status} {err}")
        for name, (hurt, hidden) in (("a link of 0", cut(image, 2)), ("a link of 0 in the first sector", cut(image, 1)), ("18/1 wiped", wiped(image)), ("the last sector but one", cut(image, 17))):
            look(room, name, hurt)
            damage(room, name, hurt, hidden)
        # What a quick format leaves is no file that is withheld.
        formatted = f"{room}/formatted.d64"
        assert run("new", formatted, "--title", "NEW", "--id", "64")[0] == 0
        with open(formatted, "rb") as it:
            fresh = it.read()
        quick = bytearray(image)
        quick[place(18, 0) : place(18, 2)] = fresh[place(18, 0) : place(18, 2)]
        with open(formatted, "wb") as out:
            out.write(quick)
        status, _, err = run("list", formatted)
        say(status == 0 and not err, "a disk that was formatted without an id hides nothing", f"{status} {err}")
    sys.exit(1 if WRONG else 0)


main()
