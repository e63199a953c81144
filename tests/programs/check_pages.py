#!/usr/bin/env python3
"""check_pages.py DISK1541 DRIVE1541: the commands that the pages print can be pasted. Each page has a fresh copy of examples/ as its folder, and its commands run
there from top to bottom:

- in a block of sh, each line; it must end with 0, or with N if its comment begins with `# status N`;
- in any other block, each line after `$ `; it must print exactly the lines that follow (spaces at their ends don't count), standard error among them.

A command of any other program than those of RUN is wrong: build steps, which need the kit or the C library, are in blocks without a prompt, and run by tools/gate.d/library,
tools/forms, tools/release and check_python.sh. A command of a program that isn't installed is skipped, with a line. Prints a line for each command, which begins with ok or WRONG; ends with 1 if one is WRONG."""
import os, pathlib, re, shutil, subprocess, sys, tempfile

ROOT = pathlib.Path(__file__).resolve().parents[2]
PAGES = ("README.md", "docs/disk1541.md", "docs/disk1541/damaged.md", "docs/emulators.md", "docs/scripts.md", "docs/direct.md", "docs/bus-tools.md", "docs/judge.md", "docs/reply.md", "docs/install.md", "docs/javascript.md", "python/README.md", "web/README.md", "docs/coming-from.md", "docs/faq.md")
# The programs that are run, and those of them that may be missing.
RUN = ("disk1541", "drive1541", "printf", "cp", "cc1541", "sigrok-cli", "python3")
OPTIONAL = ("cc1541", "sigrok-cli")
# Seconds that a command may take.
LIMIT = 60


def blocks(text):
    """The blocks of code of a page: each with its language, empty if it is indented, and its lines without the indent."""
    fenced = re.compile(r"^```(\w*)\n(.*?)^```$", re.M | re.S)
    indented = re.compile(r"(?:^(?: {4}| {8})[^\n]*\n(?:\n(?= {4}))?)+", re.M)
    found = [(it.start(), it[1], it[2]) for it in fenced.finditer(text)]
    rest = fenced.sub(lambda it: re.sub(r"[^\n]", "x", it[0]), text)
    found += [(it.start(), "", re.sub(r"^ {4}(?: {4}(?=\$ |\d))?", "", it[0], flags=re.M)) for it in indented.finditer(rest)]
    return [(language, body.split("\n")) for _, language, body in sorted(found)]


def commands(text):
    """The commands of a page: the words, the status, and the lines that they print, or None if anything may be printed."""
    for language, lines in blocks(text):
        if language == "sh":
            for line in filter(None, lines):
                status = re.search(r"# status (\d+)", line)
                yield line, int(status[1]) if status else 0, None
        elif not language or language in ("console", "text"):
            yield from prompted(lines)


def prompted(lines):
    """The commands after `$ ` in a block, each with the lines that follow it."""
    shown = None
    for line in [*lines, "$ "]:
        if line.startswith("$ "):
            if shown:
                yield shown[0], None, [it.rstrip() for it in shown[1]]
            shown = (line[2:], []) if line[2:] else None
        elif shown:
            shown[1].append(line)


class Folder:
    """A folder with the examples, in which a page's commands run."""

    def __init__(self, room, programs):
        self.path = pathlib.Path(room, "page")
        shutil.copytree(ROOT / "examples", self.path)
        shutil.copytree(ROOT / "examples", self.path / "examples")
        for name, program in programs.items():
            os.symlink(program, pathlib.Path(room, name))
        self.environment = {**os.environ, "PATH": f"{room}:{os.environ['PATH']}", "COLUMNS": "80"}

    def run(self, command):
        call = ["sh", "-c", command.replace("| less", "| cat")]
        return subprocess.run(call, cwd=self.path, env=self.environment, stdout=subprocess.PIPE, stderr=subprocess.STDOUT, stdin=subprocess.DEVNULL, text=True, errors="replace", timeout=LIMIT)


def fault_of(folder, command, status, lines):
    """What is wrong with a command, if anything is."""
    ran = folder.run(command)
    if status is not None and ran.returncode != status:
        return f"status {ran.returncode}: {ran.stdout[-400:]}"
    there = [it.rstrip() for it in ran.stdout.rstrip("\n").split("\n")]
    wanted = "\n".join(lines or []).rstrip("\n").split("\n")
    return f"it prints {there}, not {wanted}" if lines is not None and there != wanted else None


def play(page, folder):
    """Plays the commands of a page. Returns how many are wrong."""
    wrong = 0
    for command, status, lines in commands((ROOT / page).read_text("utf-8")):
        first = command.split()[0]
        name = f"{page}: {command}"
        if first in OPTIONAL and not shutil.which(first):
            print(f"{first} isn't installed, so this isn't tried: {name}")
            continue
        fault = fault_of(folder, command, status, lines) if first in RUN else "no such command is known here"
        print(f"WRONG {name}: {fault}" if fault else f"ok    {name}", flush=True)
        wrong += bool(fault)
    return wrong


def main():
    if len(sys.argv) != 3:
        sys.exit(__doc__)
    programs = dict(zip(("disk1541", "drive1541"), map(os.path.realpath, sys.argv[1:])))
    planted = "```sh\ndisk1541 lisst hello.d64\n```\n\n    $ disk1541 list hello.d64 --only NONE\n    nothing\n"
    wrong = 0
    with tempfile.TemporaryDirectory() as room:
        folder = Folder(room, programs)
        if sum(fault_of(folder, *it) is not None for it in commands(planted)) != 2:
            sys.exit("WRONG a planted command isn't reported")
    for page in PAGES:
        with tempfile.TemporaryDirectory() as room:
            wrong += play(page, Folder(room, programs))
    return int(wrong > 0)


if __name__ == "__main__":
    sys.exit(main())
