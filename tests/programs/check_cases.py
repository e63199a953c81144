#!/usr/bin/env python3
"""check_cases.py NAME PROGRAM [--only TEXT] [--keep FOLDER]: plays the cases of tests/programs/cases/NAME on a program. Each case has a folder of its own.
Its lines, one after another:

    == TITLE             a case begins
    with CC1541          it is skipped, with a line, if no such program is installed
    do COMMAND           what makes the files to begin with; it must end with 0
    - NAME               a step: it has one of the next two
    $ COMMAND            runs the program: status, output and errors are compared, and kept in out.txt and err.txt
    ? COMMAND            tests the result: it must end with 0, and print nothing
    status N             of `$`; default 0
    > TEXT               a line of what it prints; nothing if there is no such line
    out any              it may print anything
    out of COMMAND       it prints what this command prints
    ! TEXT, err any      the same of standard error

A line that is indented by four spaces goes on with the command above it. Commands are a shell's, with the programs, `poke`, $examples and $here.
Prints a line for each step, which begins with ok or WRONG; ends with 1 if one is WRONG. With --only it plays the cases whose title has TEXT, and --keep
leaves their folders in FOLDER."""
import argparse, concurrent.futures, glob, os, shutil, subprocess, sys, tempfile

HERE = os.path.dirname(os.path.realpath(__file__))
# Seconds that a command may take.
LIMIT = 60
# Where memory serves as a disk nothing waits for one.
ROOM = "/dev/shm" if os.access("/dev/shm", os.W_OK) else None


class Step:
    """A command, and its expected results."""

    def __init__(self, name):
        self.name, self.command, self.is_run, self.status = name, None, False, 0
        self.wanted = {"out": "", "err": ""}
        self.maker = {}


class Case:
    """A folder's story: what makes its files, and its steps."""

    def __init__(self, subject, title):
        self.subject, self.title, self.needs, self.steps = subject, title, [], []


class Unread(Exception):
    """A line that isn't one of a case."""


def add_line(case, line):
    """A line of a case, but for those that go on with a command."""
    word, _, rest = line.partition(" ")
    if word == "with":
        case.needs.append(rest)
    elif word == "-" or word == "do":
        case.steps.append(Step(rest if word == "-" else None))
    if word == "do":
        case.steps[-1].command = rest
    elif word in ("$", "?"):
        case.steps[-1].command, case.steps[-1].is_run = rest, word == "$"
    elif word == "status":
        case.steps[-1].status = int(rest)
    elif word in (">", "!"):
        case.steps[-1].wanted["out" if word == ">" else "err"] += rest + "\n"
    elif word in ("out", "err") and (rest == "any" or rest.startswith("of ")):
        case.steps[-1].wanted[word] = None
        case.steps[-1].maker[word] = rest[3:]
    elif word not in ("with", "-"):
        raise Unread(line)


def read(path):
    subject, cases = os.path.splitext(os.path.basename(path))[0], []
    with open(path, encoding="utf-8", newline="\n") as lines:
        for number, line in enumerate(lines.read().split("\n"), 1):
            try:
                if line.startswith("== "):
                    cases.append(Case(subject, line[3:]))
                elif line.startswith("    "):
                    cases[-1].steps[-1].command += "\n" + line[4:]
                elif line and not line.startswith(";"):
                    add_line(cases[-1], line)
            except (Unread, IndexError, ValueError):
                sys.exit(f"{path}:{number}: is no line of a case: {line}")
    return cases


def run(command, folder):
    """A shell's command: its status, output and errors."""
    env = {**os.environ, "PATH": f"{BIN}:{os.environ['PATH']}", "examples": os.path.realpath(f"{HERE}/../../examples"), "here": HERE}
    with open(f"{folder}/.out", "wb") as out, open(f"{folder}/.err", "wb") as err:
        try:
            status = subprocess.run(["sh", "-c", command], cwd=folder, env=env, stdin=subprocess.DEVNULL, stdout=out, stderr=err, timeout=LIMIT).returncode
        except subprocess.TimeoutExpired:
            status = "late"
    return status, *(open(f"{folder}/{it}", "rb").read() for it in (".out", ".err"))


def text(data):
    """What a shell would take of an output: without line feeds at its end, and without bytes of 0."""
    return data.replace(b"\0", b"").rstrip(b"\n").decode(errors="replace")


def keep(folder, out, err):
    for name, data in (("out.txt", out), ("err.txt", err)):
        with open(f"{folder}/{name}", "wb") as file:
            file.write(data)


def wrong_with(step, folder):
    """The difference from the expected results, or nothing."""
    makers = {word: run(maker, folder)[1] for word, maker in step.maker.items() if maker}
    status, out, err = run(step.command, folder)
    if step.is_run:
        keep(folder, out, err)
    said = [f"status {status}, not {step.status}"] if status != step.status else []
    for word, came in (("out", out), ("err", err)):
        wanted = text(makers[word]) if word in makers else step.wanted[word]
        if wanted is not None and text(came) != wanted.rstrip("\n"):
            said.append(f"{word} is {text(came)!r}, not {wanted!r}")
    return "; ".join(said)


def prepare(step, folder):
    """Makes files to begin with."""
    status, out, err = run(step.command, folder)
    return f"can't begin: {step.command}: status {status}, {text(out)} {text(err)}" if status != 0 else ""


def play(case):
    """The lines that are printed of a case."""
    said, named = [], f"{case.subject}: {case.title}"
    for program in case.needs:
        if not shutil.which(program):
            return [f"skip  {named}: {program} isn't installed"]
    with tempfile.TemporaryDirectory(dir=ROOM) as folder:
        for step in case.steps:
            wrong = wrong_with(step, folder) if step.name else prepare(step, folder)
            if wrong:
                said.append(f"WRONG {named}: {step.name or ''}: {wrong}")
            elif step.name:
                said.append(f"ok    {named}: {step.name}")
            if wrong and not step.name:
                break
        if given.keep:
            # (cp takes pipes, too)
            subprocess.run(["cp", "-a", f"{folder}/.", f"{given.keep}/{named.replace('/', '-')}"], check=True)
    return said


def link_programs(folder):
    """The programs and helpers, by their names."""
    os.symlink(os.path.realpath(given.program), f"{folder}/{given.name}")
    os.symlink(f"{HERE}/poke.py", f"{folder}/poke")


def main():
    cases = [case for path in sorted(glob.glob(f"{HERE}/cases/{given.name}/*.cases")) for case in read(path)]
    link_programs(BIN)
    wrong = 0
    with concurrent.futures.ThreadPoolExecutor(2) as pool:
        for lines in pool.map(play, [it for it in cases if given.only in it.title]):
            print("\n".join(lines), flush=True)
            wrong += sum(it.startswith("WRONG") for it in lines)
    return int(wrong > 0)


if __name__ == "__main__":
    words = argparse.ArgumentParser(description=__doc__, formatter_class=argparse.RawDescriptionHelpFormatter)
    words.add_argument("name", choices=sorted(os.listdir(f"{HERE}/cases")))
    words.add_argument("program")
    words.add_argument("--only", default="")
    words.add_argument("--keep")
    given = words.parse_args()
    with tempfile.TemporaryDirectory() as BIN:
        sys.exit(main())
