#!/usr/bin/env python3
"""check_suite.py DRIVE1541 [--reports FOLDER] [--mend]: makes the conformance suite (tools/suite), and plays it in a simulated C64 and VIC-20 (suite_sim.c) over drive1541. Every case must
come out as its transcript. Drives that are wrong in one point (wrong_drives.py) must each be told by a case; drives that differ only where the manuals are
silent must be different, and not wrong. It needs cl65 (Debian: cc65) and a C compiler. With --reports the reports of this drive at both paces are kept in a
folder, as kernal.N and profile.N; with --mend docs/conformance.md gets the right tables.
Prints a line for each case, which begins with ok or WRONG. Last line: 'N passed, M failed'. Exit 0: nothing failed."""
import argparse
import concurrent.futures
import os
import re
import shlex
import shutil
import subprocess
import sys
import tempfile

HERE = os.path.dirname(os.path.realpath(__file__))
ROOT = os.path.realpath(f"{HERE}/../..")
sys.path.insert(0, f"{ROOT}/tools/lib")
sys.path.insert(0, HERE)
import wrong_drives
from suite import build, classes, reports

# How many parts the cases are played in, of which two at a time.
PARTS, JOBS = 6, 2
# How many cases the VIC-20, a single drive and the drives that only differ play.
SOME = 60
LIMIT = 900
BLANK = bytes(174_848)


class Tally:
    """Counts what passed and failed."""

    def __init__(self):
        self.passed, self.failed = 0, 0

    def add(self, is_right, name, why=""):
        self.passed, self.failed = self.passed + is_right, self.failed + (not is_right)
        print(f"ok    {name}" if is_right else f"WRONG {name}: {why}", flush=True)


class Run:
    """What a run of the suite showed: the screen, and the report."""

    def __init__(self, screen, data):
        self.screen, self.data = screen, data
        self.report = reports.read(data)
        self.results = self.report.results

    def of_letter(self, letter):
        return {number for number, it in self.results.items() if it == letter}

    def told(self, number):
        """A difference, in words."""
        words = self.report.places.get(number)
        return "request {}, byte {}: wanted {}, came {}".format(*words) if words else "no difference"


class Suite:
    """The suite, made in a folder, and a simulator that plays it."""

    def __init__(self, room, drive1541):
        self.room, self.drive1541 = room, os.path.realpath(drive1541)
        self.plans = [it for it in build.planned(ROOT) if it.requests]
        self.names = {it.number: it.case.name() for it in self.plans}
        self.numbers = {name: number for number, name in self.names.items()}
        subprocess.run([f"{ROOT}/tools/suite", room, self.drive1541], check=True, stdout=subprocess.DEVNULL)
        subprocess.run(["cc", "-O2", "-o", f"{room}/sim", f"{HERE}/suite_sim.c"], check=True)

    def drive(self, folder, image, *words):
        """A drive with an image in its folder, which is saved there."""
        return [self.drive1541, f"{folder}/{image}", "-", f"{folder}/{image}.new", *words]

    def run(self, folder, keys, drives, player):
        """Runs the player with these keys and drives. Returns the screen."""
        texts = [f"{number}:{shlex.join(command)}" for number, command in drives]
        ran = subprocess.run([f"{self.room}/sim", f"{self.room}/{player}.prg", keys, *texts], cwd=folder, capture_output=True, text=True, errors="replace", timeout=LIMIT)
        if ran.returncode != 0:
            raise RuntimeError(ran.stdout[-2000:] + ran.stderr[-2000:])
        return ran.stdout

    def report(self, folder):
        """The report on the suite's disk."""
        lines = "open 2 REPORT,S\nget 2 200000\n"
        ran = subprocess.run([self.drive1541, f"{folder}/suite.d64.new", "-"], input=lines, capture_output=True, text=True, check=True)
        values = ran.stdout.split()[2]
        return bytes.fromhex(values) if values != "none" else b""

    def play(self, first, last, wrong=None, pace="kernal", player="suite64"):
        """Plays these cases on drive 9, with the suite's disk in drive 8."""
        with tempfile.TemporaryDirectory(dir=self.room) as folder:
            self.copy_disks(folder)
            tested = self.drive(folder, "test.d64", "--pace", pace, "--direct=raw")
            if wrong:
                tested = [sys.executable, f"{HERE}/wrong_drives.py", wrong, *tested]
            drives = [(8, self.drive(folder, "suite.d64", "--pace", "kernal")), (9, tested)]
            return Run(self.run(folder, f"8|9|{first}|{last}|Y|8|", drives, player), self.report(folder))

    def play_images(self, cases, pace):
        """Plays these cases with images, which are put into drive 9 one after another."""
        with tempfile.TemporaryDirectory(dir=self.room) as folder:
            self.copy_disks(folder)
            words = ("--pace", pace, "--direct=raw")
            drives = [(8, self.drive(folder, "suite.d64", "--pace", "kernal")), (9, self.drive(folder, "test.d64", *words))]
            inserts = [it for played in cases for it in build.images_of(played)]
            for it in inserts:
                shutil.copy(f"{self.room}/images/{it.name}.d64", folder)
                drives.append((9, self.drive(folder, f"{it.name}.d64", *words, *["--read-only"] * it.is_protected())))
            keys = f"8|9|{cases[0].number}|{cases[-1].number}|Y|" + "~|" * len(inserts) + "8|"
            return Run(self.run(folder, keys, drives, "suite64"), self.report(folder))

    def play_alone(self, first, last):
        """Plays these cases of one data file on a single drive, whose disks are changed."""
        with tempfile.TemporaryDirectory(dir=self.room) as folder:
            self.copy_disks(folder)
            drives = [(8, self.drive(folder, "suite.d64", "--pace", "kernal")), (8, self.drive(folder, "test.d64", "--pace", "kernal", "--direct=raw"))]
            screen = self.run(folder, f"8|8|{first}|{last}|~|Y|~|~|8|~|", drives, "suite64")
            return Run(screen, self.report(folder))

    def refuse(self):
        """Answers no to the question whether the disk can be lost. Returns the screen, and the disk."""
        with tempfile.TemporaryDirectory(dir=self.room) as folder:
            self.copy_disks(folder)
            drives = [(8, self.drive(folder, "suite.d64", "--pace", "kernal")), (9, self.drive(folder, "test.d64", "--pace", "kernal", "--direct=raw"))]
            screen = self.run(folder, "8|9|||N|", drives, "suite64")
            with open(f"{folder}/test.d64.new", "rb") as it:
                return screen, it.read()

    def play_from_pc(self, folder, host, first, last, *command):
        """Plays these cases by the PC's player. Returns the results."""
        environment = {**os.environ, "SUITE_RESTART": "0", "FALSE_OPENCBM": shlex.join(self.drive(folder, "test.d64", "--pace", "kernal", "--direct=raw"))}
        words = [f"{ROOT}/tools/suite", "play", host, f"{folder}/report", str(first), str(last), *command]
        subprocess.run(words, input="y\n", env=environment, capture_output=True, text=True, check=True, timeout=LIMIT)
        with open(f"{folder}/report", "rb") as it:
            return reports.read(it.read()).results

    def play_opencbm(self, first, last):
        """Plays these cases over a stand-in for libopencbm."""
        with tempfile.TemporaryDirectory(dir=self.room) as folder:
            self.copy_disks(folder)
            library = f"{folder}/false_opencbm.so"
            subprocess.run(["cc", "-O2", "-shared", "-fPIC", "-o", library, f"{HERE}/false_opencbm.c"], check=True)
            return self.play_from_pc(folder, f"opencbm:8:{library}", first, last)

    def play_reply(self, first, last):
        """Plays these cases over the lines of the bus."""
        with tempfile.TemporaryDirectory(dir=self.room) as folder:
            self.copy_disks(folder)
            command = [self.drive1541, "reply", f"{folder}/test.d64", "--drive", "8:20:kernal", "--direct=raw"]
            return self.play_from_pc(folder, "reply:8", first, last, "--", *command)

    def copy_disks(self, folder):
        shutil.copy(f"{self.room}/suite.d64", f"{folder}/suite.d64")
        with open(f"{folder}/test.d64", "wb") as out:
            out.write(BLANK)

    def play_parts(self, pool, pace):
        """All cases, in parts. Returns the runs."""
        count = sum(not it.is_image for it in self.plans)
        ends = [count * n // PARTS for n in range(PARTS + 1)]
        cases = [it for it in self.plans if it.is_image]
        futures = [pool.submit(self.play, first + 1, last, None, pace) for first, last in zip(ends, ends[1:])]
        futures += [pool.submit(self.play_images, cases[n : n + SOME], pace) for n in range(0, len(cases), SOME)]
        return [it.result() for it in futures]


def check_all(tally, suite, runs):
    """Every case is as its transcript."""
    results = {number: (letter, run.told(number)) for run in runs for number, letter in run.results.items()}
    for number, name in suite.names.items():
        letter, told = results.get(number, ("-", "it wasn't played"))
        tally.add(letter == reports.SAME, f"case {number}, {name}", told)
    heads = {run.report.drive for run in runs}
    tally.add(heads == {"73,CBM DOS V2.6 1541,00,00"}, "a report has the drive's first status", heads)
    said = sum(int(re.search(r"(\d+) SAME", run.screen)[1]) for run in runs)
    tally.add(said == sum(it[0] == reports.SAME for it in results.values()), "the screen shows as many as the reports", said)


def check_paces(tally, suite, runs):
    """At the pace `profile` only those cases differ that have an answer of their own at the pace `kernal`, or are written for it."""
    named = {row[0] for row in classes.rows(f"{ROOT}/tools/suite.d/kernal_answers.txt", 4)}
    written = {it.case.name() for it in suite.plans if any("pace kernal" in step.words for step in it.case.steps)}
    differ = {suite.names[number] for run in runs for number in run.results if run.results[number] != reports.SAME}
    tally.add(named <= differ <= named | written, f"at the pace profile {len(differ)} cases differ, whose answers are a computer's", differ)


def check_ways(tally, suite):
    """Other computers and ways to play."""
    run = suite.play(1, SOME, player="suite20")
    tally.add(run.of_letter(reports.SAME) == set(range(1, SOME + 1)), f"a VIC-20 plays {SOME} cases", run.screen[-500:])
    run = suite.play(5, 9)
    tally.add(set(run.results) == set(range(5, 10)), "the first and the last case can be chosen", set(run.results))
    run = suite.play_alone(3, 20)
    tally.add(run.of_letter(reports.SAME) == set(range(3, 21)), "a single drive whose disks are changed", run.screen[-500:])
    screen, disk = suite.refuse()
    tally.add(disk == BLANK and "FORMATS" not in screen, "nothing is written after a no", screen)


def check_pc(tally, suite, pool):
    """The PC's player has the same results."""
    count = sum(not it.is_image for it in suite.plans)
    opencbm, reply = pool.submit(suite.play_opencbm, 1, count), pool.submit(suite.play_reply, 1, SOME)
    for name, found, last in (("a stand-in for libopencbm", opencbm.result(), count), ("the lines of reply", reply.result(), SOME)):
        right = {number: reports.SAME for number in range(1, last + 1)}
        tally.add(found == right, f"from a PC over {name}: {last} cases", {n: it for n, it in found.items() if it != reports.SAME})


def check_corpus(tally, suite):
    """The 500 damaged disks: drive1541 finds the fault that their list has."""
    with tempfile.TemporaryDirectory(dir=suite.room) as folder:
        subprocess.run([sys.executable, f"{ROOT}/tools/make/damaged_disks.py", folder], check=True)
        with open(f"{folder}/damaged.txt", encoding="utf-8") as it:
            rows = [line.split(" ", 2) for line in it.read().splitlines()]
        wrong = [name for _, name, fault in rows if check_of(suite, f"{folder}/{name}") != f"check {fault}\n"]
    tally.add(len(rows) == 500 and not wrong, f"the list of {len(rows)} damaged disks", wrong)


def check_of(suite, image):
    """What drive1541 prints of a disk's fault."""
    return subprocess.run([suite.drive1541, "--check", image, "-"], stdin=subprocess.DEVNULL, capture_output=True, text=True, check=False).stdout


def check_wrong(tally, suite, name):
    """A wrong drive is told by its case."""
    case = wrong_drives.WRONG[name][2]
    number = suite.numbers.get(case)
    run = suite.play(number, number, name) if number else None
    is_told = bool(run) and run.results.get(number) == reports.DIFFERENT
    tally.add(is_told, f"{name}: told by case {number}, {case}" + (f", {run.told(number)}" if is_told else ""), "it isn't told")


def check_other(tally, suite, name):
    """A drive that differs where the manuals are silent is different, and nowhere wrong."""
    case = wrong_drives.OTHER[name][2]
    number = suite.numbers[case]
    runs = [suite.play(1, 2 * SOME, name), suite.play(number, number, name)]
    screen = "".join(it.screen for it in runs)
    found = {suite.names[n] for run in runs for n, it in run.results.items() if it != reports.SAME}
    tally.add(case in found and "  WRONG" not in screen, f"{name}: different, not wrong, by {len(found)} cases", screen[-1500:])


def blocks_of_page(suite, runs):
    """What docs/conformance.md has of the suite: the table of both paces with the differences, and the counts of transcripts."""
    by_pace = {f"this drive, `{pace}`": reports.merged([run.report for run in of_pace]) for pace, of_pace in runs.items()}
    return [list(reports.table(suite.plans, by_pace)), ["| transcripts | |", "|---|---|", *build.rows_of_counts(build.planned(ROOT))]]


def mended(page, block):
    """The lines of a page, with the lines of a table in place of those that have the same beginning."""
    begin = next(n for n, line in enumerate(page) if line.startswith(block[0][:14]))
    end = begin
    while page[end].startswith(("|", "- ", "this drive")) or not page[end] and page[end + 1].startswith(("- ", "this drive")):
        end += 1
    return [*page[:begin], *block, *page[end:]]


def check_page(tally, suite, runs, mends):
    """The page has the right tables, or gets them."""
    path = f"{ROOT}/docs/conformance.md"
    with open(path, encoding="utf-8") as it:
        page = it.read().split("\n")
    right = page
    for block in blocks_of_page(suite, runs):
        right = mended(right, block)
    if mends:
        with open(path, "w", encoding="utf-8") as out:
            out.write("\n".join(right))
    missing = [it for it in right if it not in page]
    tally.add(mends or right == page, "the page has the table of both paces and the counts", "run check_suite.py --mend: it lacks\n" + "\n".join(missing))


def keep_reports(folder, runs):
    """Writes the reports of this drive."""
    os.makedirs(folder, exist_ok=True)
    for pace, of_pace in runs.items():
        for number, run in enumerate(of_pace):
            with open(f"{folder}/{pace}.{number}", "wb") as out:
                out.write(run.data)


def main():
    words = argparse.ArgumentParser(description=__doc__, formatter_class=argparse.RawDescriptionHelpFormatter)
    words.add_argument("drive1541")
    words.add_argument("--reports", metavar="FOLDER")
    words.add_argument("--mend", action="store_true")
    words = words.parse_args()
    missing = [it for it in ("cl65", "cc") if not shutil.which(it)]
    if missing:
        print(f"skip  the conformance suite: {missing[0]} isn't installed\n0 passed, 0 failed")
        return 0
    tally = Tally()
    with tempfile.TemporaryDirectory() as room, concurrent.futures.ThreadPoolExecutor(JOBS) as pool:
        suite = Suite(room, words.drive1541)
        runs = {pace: suite.play_parts(pool, pace) for pace in ("kernal", "profile")}
        if words.reports:
            keep_reports(words.reports, runs)
        check_all(tally, suite, runs["kernal"])
        check_paces(tally, suite, runs["profile"])
        check_page(tally, suite, runs, words.mend)
        check_ways(tally, suite)
        check_pc(tally, suite, pool)
        check_corpus(tally, suite)
        list(pool.map(lambda name: check_wrong(tally, suite, name), wrong_drives.WRONG))
        list(pool.map(lambda name: check_other(tally, suite, name), wrong_drives.OTHER))
    print(f"{tally.passed} passed, {tally.failed} failed")
    return int(tally.failed > 0)


if __name__ == "__main__":
    sys.exit(main())
