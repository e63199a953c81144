"""Makes the suite's files: the data, the players, and the image with all of them."""
import collections
import hashlib
import os
import shutil
import string
import subprocess
import tempfile

from . import classes, code, images, packing, plan, times, transcripts

# How many bytes a data file has at most: what fits into a VIC-20 with 24 kB beside the player.
SIZE = 12_000
# A player: its name on the disk, and how it is compiled.
PLAYERS = {"SUITE64": ["-t", "c64"], "SUITE20": ["-t", "vic20", "-C", "vic20-32k.cfg"]}
SOURCES = ("main.c", "player.c", "drive.c", "text.c", "console.c", "report.c")
# Letters of the images of a case.
LETTERS = string.ascii_uppercase + string.digits
BYTES_OF_IMAGE = 174_848
# How many characters of TEXT a line of a script has at most here.
PART = 250


class Failed(Exception):
    """A program that makes a part of the suite failed."""


def planned(root):
    """All transcripts as the player plays them, the shortest first. Those that it plays have numbers from 1 on, all have classes."""
    folder = f"{root}/tools/suite.d"
    cases = transcripts.read_all(f"{root}/crates/cases/data")
    by_name = classes.read(folder)
    wrong = classes.faults(root, by_name, cases)
    if wrong:
        raise Failed("\n".join(wrong))
    classes.set_kernal_answers(folder, cases)
    found = plan.all_of(cases)
    images.plan_all(found)
    found.sort(key=lambda it: (not it.requests, it.is_image, times.of_case(it)))
    for number, it in enumerate(found, 1):
        it.number, it.class_of_case = number, classes.class_of(by_name, it.case)
        it.class_letter = classes.LETTERS[it.class_of_case.name]
        name_images(it)
    return found


def images_of(played):
    """The images of a case, in their order."""
    return [it for it in played.ops if isinstance(it, images.Insert)]


def name_images(played):
    """Names the images of a case by its number."""
    for letter, it in enumerate(images_of(played)):
        it.name = f"I{played.number:03}{LETTERS[letter]}"


def write_images(plans, folder, drive1541):
    """Writes the images of all cases. Returns their number."""
    os.makedirs(folder, exist_ok=True)
    maker, inserts = images.Maker(drive1541), [it for played in plans for it in images_of(played)]
    for it in inserts:
        with open(f"{folder}/{it.name}.d64", "wb") as out:
            out.write(maker.made(it.start, it.history))
    return len(inserts)


def files_of(plans):
    """The data files."""
    return packing.files([it for it in plans if it.requests], SIZE)


def sum_of_files(files):
    """What names this suite in a report."""
    return hashlib.sha256(b"".join(it.data() for it in files)).hexdigest()[:8]


def sum_of(plans):
    return sum_of_files(files_of(plans))


def suite_header(files):
    """What the player knows of the data."""
    count = sum(len(it.cases) for it in files)
    plain = sum(not it.is_image for file in files for it in file.cases)
    rows = {"SUITE_SUM": f'"{sum_of_files(files)}"', "SUITE_COUNT": f'"{count}"', "DATA_SIZE": SIZE, "FILES": len(files), "CASES": count, "PLAIN_CASES": plain}
    firsts, lasts = (", ".join(str(pick(case.number for case in it.cases)) for it in files) for pick in (min, max))
    numbers = f"static const unsigned int first_of_file[] = {{{firsts}}};\nstatic const unsigned int last_of_file[] = {{{lasts}}};\n"
    return "".join(f"#define {name} {value}\n" for name, value in rows.items()), numbers


def run(command, folder, **words):
    """Runs a program, which must end with 0. Returns its output."""
    ran = subprocess.run(command, cwd=folder, capture_output=True, text=True, **words)
    if ran.returncode != 0:
        raise Failed(f"{' '.join(command)}: {ran.stdout}{ran.stderr}")
    return ran.stdout


def compile_players(root, folder, header, numbers):
    """Compiles the players. Returns their bytes by name."""
    shutil.copytree(f"{root}/tools/suite.d", folder, dirs_exist_ok=True)
    for name, text in (("operations.h", code.header()), ("suite.h", header), ("numbers.h", numbers)):
        with open(f"{folder}/{name}", "w", encoding="utf-8") as out:
            out.write(text)
    found = {}
    for name, words in PLAYERS.items():
        run(["cl65", *words, "-O", "-o", f"{name}.prg", *SOURCES], folder)
        with open(f"{folder}/{name}.prg", "rb") as it:
            found[name] = it.read()
    return found


def escaped(data):
    """Bytes as a script's TEXT."""
    return "".join(chr(it) if 32 <= it < 127 and it != 92 else f"\\{it:02x}" for it in data)


def file_lines(name, data):
    """The lines of a script that write a program file."""
    parts = [data[n : n + PART] for n in range(0, len(data), PART)]
    return [f"open 1 {name}", *(f"put 1 {escaped(it)}" for it in parts), "close 1", "status"]


def write_image(files, path, drive1541):
    """Writes a new image with these files."""
    lines = ["put 15 N0:SUITE,YS", *(line for name, data in files.items() for line in file_lines(name, data))]
    with tempfile.TemporaryDirectory() as room:
        with open(f"{room}/blank.d64", "wb") as out:
            out.write(bytes(BYTES_OF_IMAGE))
        said = run([os.path.realpath(drive1541), "blank.d64", "-", os.path.realpath(path)], room, input="\n".join([*lines, ""]))
    if said.splitlines() != ["status 00, OK,00,00"] * len(files):
        raise Failed(f"the image can't be written: {said}")


def why_left_out(it):
    """Why a transcript without a request isn't played."""
    return it.left_out[0] if it.left_out else "nothing that a computer can see"


def rows_of_counts(plans):
    """The rows of a table: how many transcripts are included, and why others aren't."""
    plain, with_images = ([it for it in plans if it.requests and it.is_image == wanted] for wanted in (False, True))
    reasons = collections.Counter(why_left_out(it) for it in plans if not it.requests)
    for group, how in ((plain, "included"), (with_images, "included, with images")):
        yield f"| {sum(not it.left_out for it in group)} | {how} |"
        yield f"| {sum(bool(it.left_out) for it in group)} | {how}, in part |"
    for reason, count in reasons.most_common():
        yield f"| {count} | left out: {reason} |"
    yield f"| {len(plans)} | all |"


def list_of_cases(plans):
    """The list of all transcripts: number, class, requests, seconds, name, and why steps are left out."""
    yield "number\tclass\treference\trequests\tseconds\tcase\tleft out"
    for it in plans:
        number = str(it.number) if it.requests else "-"
        left_out = "; ".join(dict.fromkeys(it.left_out)) or ("" if it.requests else why_left_out(it))
        yield "\t".join([number, it.class_of_case.name, it.class_of_case.reference, str(it.requests), f"{times.of_case(it):.0f}", it.case.name(), left_out])


def make(root, out, drive1541):
    """Makes the suite. Returns lines about it."""
    plans = planned(root)
    files = files_of(plans)
    data = {f"CASES{number:02}": b"\0\x40" + it.data() for number, it in enumerate(files, 1)}
    with tempfile.TemporaryDirectory() as room:
        players = compile_players(root, room, *suite_header(files))
    write_image({**players, **data}, f"{out}/suite.d64", drive1541)
    with open(f"{out}/cases.txt", "w", encoding="utf-8") as it:
        it.write("\n".join([*list_of_cases(plans), ""]))
    for name, program in players.items():
        with open(f"{out}/{name.lower()}.prg", "wb") as it:
            it.write(program)
    count = write_images(plans, f"{out}/images", drive1541)
    requests = sum(it.requests for it in plans)
    return [*rows_of_counts(plans), f"{requests} requests; {count} images; {len(files)} data files with {sum(map(len, data.values()))} bytes; players with {', '.join(str(len(it)) for it in players.values())} bytes"]
