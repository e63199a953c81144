"""The tests of a workspace: cargo's, and those of tests/programs over its programs."""
import os
import re
import subprocess
import sys
import threading
import time

# The scripts of tests/programs for each program.
SCRIPTS = {
    "drive1541": ("check_cases.py drive1541", "check_program.sh", "check_traces.sh", "check_judge.py", "check_reply.sh", "check_direct.py"),
    "disk1541": ("check_cases.py disk1541", "check_disk1541.sh", "check_saving.sh", "check_odd.py", "check_unlinked.py", "check_place.py", "check_sources.py", "check_diff.py"),
}
# Those that need both programs.
OVER_BOTH = ("check_collection.py", "check_beside.sh")
SUMS = re.compile(r"^test result: \S+ (\d+) passed; (\d+) failed", re.M)


class Tally:
    """What passed, what failed, and what differs as it is known to."""

    def __init__(self, known):
        self.passed, self.failed, self.differs = 0, 0, 0
        self.known, self.begun, self.lock = known, time.time(), threading.Lock()

    def say(self, text):
        with self.lock:
            print(f"[{time.time() - self.begun:4.0f} s] {text}", flush=True)

    def add(self, name, passed, failed, said=""):
        with self.lock:
            self.passed, self.failed = self.passed + passed, self.failed + failed
        self.say(f"{name}: {passed} passed, {failed} failed" + (f"\n{said.rstrip()}" if failed and said else ""))

    def reason_for(self, script, wrong):
        """Why a case may differ, or None."""
        for known, name, reason in self.known:
            if known == script and wrong.startswith(f"WRONG {name}"):
                return reason
        return None

    def add_difference(self, script, wrong, reason):
        with self.lock:
            self.differs += 1
        self.say(f"{script}: differs as known ({reason}): {wrong[6:160]}")


def differences_of(path):
    """The known differences: script, beginning of the case's name, reason."""
    with open(path, encoding="utf-8") as lines:
        rows = [it.strip() for it in lines if it.strip() and not it.startswith("#")]
    return [tuple(piece.strip() for piece in it.split("|", 2)) for it in rows]


def run(words, folder):
    return subprocess.run(words, cwd=folder, capture_output=True, text=True, errors="replace", check=False)


def play_unit_tests(tally, out, cargo, crates):
    """`cargo test` of these crates."""
    named = [word for it in crates for word in ("-p", it)]
    ran = run([*cargo, "test", "--no-fail-fast", *named], out)
    sums = SUMS.findall(ran.stdout)
    passed, failed = (sum(map(int, it)) for it in zip(*sums)) if sums else (0, 0)
    tally.add("cargo test", passed, failed or int(ran.returncode != 0), (ran.stdout + ran.stderr)[-6000:])


def play_transcripts(tally, root, path):
    """All transcripts, and one with a wrong line, which must be told."""
    with open(f"{root}/crates/cases/args", encoding="utf-8") as it:
        words = it.read().split()
    ran = run([path, *words], f"{root}/crates/cases/data")
    rows = re.findall(r"^(\S+): (\d+) cases, \d+ steps, (\d+) wrong$", ran.stdout, re.M)
    wrong = sum(int(it[2]) for it in rows) + (len(rows) != len(words)) + (ran.returncode not in (0, 1))
    tally.add("transcripts", sum(int(it[1]) for it in rows), wrong, ran.stdout + ran.stderr)


def play_wrong_line(tally, path, room):
    """A transcript whose fourth line isn't what a drive says when it is switched on."""
    with open(f"{room}/wrong.cases", "w", encoding="utf-8") as out:
        out.write("== a wrong line\ndisk empty\n> status\nstatus 00, OK,00,00\n")
    ran = run([path, "wrong.cases"], room)
    wanted = "wrong.cases:4: wanted status 00, OK,00,00\n    but came status 73,CBM DOS V2.6 1541,00,00\nwrong.cases: 1 cases, 1 steps, 1 wrong\n"
    is_told = ran.returncode == 1 and ran.stdout == wanted
    tally.add("a wrong line of a transcript is told", int(is_told), int(not is_told), ran.stdout)


def play_script(tally, root, script, *paths):
    """A script of tests/programs: each line that begins with ok is a case that passed, each that begins with WRONG says what went wrong."""
    file, *words = script.split()
    # (Debian's Python has selenium)
    debians = file == "check_page.py" and os.path.exists("/usr/bin/python3")
    by = "sh" if file.endswith(".sh") else "/usr/bin/python3" if debians else sys.executable
    ran = run([by, f"{root}/tests/programs/{file}", *words, *paths], root)
    lines = ran.stdout.splitlines()
    wrong = [it for it in lines if it.startswith("WRONG")]
    unknown = []
    for line in wrong:
        reason = tally.reason_for(script, line)
        if reason:
            tally.add_difference(script, line, reason)
        else:
            unknown.append(line)
    is_broken = ran.returncode != 0 and not wrong
    tally.add(script, sum(it.startswith("ok") for it in lines), len(unknown) + is_broken, "\n".join(unknown) + ran.stderr[-2000:])
    for line in lines:
        if line.startswith("skip"):
            tally.say(f"{script}: {line}")


def play_page(tally, root, out, disk1541, room):
    """The web page over the module that cargo compiles, if its target is installed."""
    target = run(["rustc", "--print", "target-libdir", "--target", "wasm32-unknown-unknown"], out).stdout.strip()
    if not os.path.isdir(target):
        return tally.say("check_page.py: skip  rustc has no wasm32-unknown-unknown here")
    made = run([f"{root}/tools/rust_page", out, f"{room}/site"], root)
    if made.returncode:
        return tally.add("rust_page", 0, 1, (made.stdout + made.stderr)[-2000:])
    play_script(tally, root, "check_page.py", disk1541, f"{room}/site/yellowadze1541.wasm")
