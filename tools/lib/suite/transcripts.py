"""Reads transcripts (docs/dev/transcripts.md): cases, their steps, and requests with the expected answers."""
import dataclasses
import glob
import os
import re

TOKEN = re.compile(r'"[^"]*"(?:\*\d+)?|\S+')
PART = re.compile(r'("[^"]*"|(?:[0-9a-f]{2})+)(?:\*(\d+))?$')
LOOP = re.compile(r"for # = (\d+) to (\d+)$")
# The first words of a line that is an answer of the drive.
ANSWERS = ("get", "status", "script", "image")


@dataclasses.dataclass
class Request:
    """A line of a script, and the answer to it, if it has one."""

    line: str
    answer: str | None = None


@dataclasses.dataclass
class Step:
    """What happens between two times at which the drive is switched on."""

    head: str
    words: list
    pokes: list = dataclasses.field(default_factory=list)
    requests: list = dataclasses.field(default_factory=list)
    answers: list = dataclasses.field(default_factory=list)
    directory: list | None = None
    checks: list = dataclasses.field(default_factory=list)
    keeps: list = dataclasses.field(default_factory=list)

    def disk(self):
        """The name of the disk that is put in, or None if the last one stays."""
        return self.head[5:] if self.head.startswith("disk ") else None

    def pair(self):
        """Gives each request that prints something its answer. Returns False if the numbers differ."""
        waiting = [it for it in self.requests if it.line.split(" ")[0] in ("get", "status")]
        for request, answer in zip(waiting, self.answers):
            request.answer = answer
        return len(waiting) == len(self.answers)


@dataclasses.dataclass
class Case:
    """A transcript: its file without the ending, its title, its steps."""

    file: str
    title: str
    steps: list = dataclasses.field(default_factory=list)

    def name(self):
        return f"{self.file}: {self.title}"


class Unreadable(Exception):
    """Bytes that aren't written as a transcript has them."""


def bytes_of(text):
    """The bytes that an answer shows: 41*254 "AB" 0d."""
    found = b""
    for token in TOKEN.findall(text):
        part = PART.match(token)
        if not part:
            raise Unreadable(text)
        value = part[1][1:-1].encode() if part[1][0] == '"' else bytes.fromhex(part[1])
        found += value * int(part[2] or 1)
    return found


def text_bytes(text):
    """The bytes of a script's TEXT, with its escapes."""
    return re.sub(rb"\\([0-9a-f]{2})", lambda it: bytes([int(it[1], 16)]), text.encode())


def unrolled(lines):
    """The lines, with those of a loop once for each number."""
    found, at = [], 0
    while at < len(lines):
        loop = LOOP.match(lines[at])
        if not loop:
            found.append(lines[at])
            at += 1
            continue
        end = lines.index("next", at)
        for number in range(int(loop[1]), int(loop[2]) + 1):
            found += [it.replace("#", str(number)) for it in lines[at + 1 : end]]
        at = end + 1
    return found


def add_line(case, line):
    """Adds a line to the case, or to its last step."""
    word, _, rest = line.partition(" ")
    if word in ("disk", "then", "stays") or word in ("then,", "stays,"):
        head, *words = line.split(", ")
        case.steps.append(Step(head, words))
        return
    step = case.steps[-1]
    if line.startswith("  "):
        step.directory.append(" ".join(line.split()))
    elif word == ">":
        step.requests.append(Request(rest))
    elif word in ANSWERS:
        step.answers.append(line)
    elif word == "list":
        step.directory = []
    elif word == "poke":
        step.pokes.append(rest)
    elif word == "keep":
        step.keeps.append(rest)
    else:
        step.checks.append(line)


def read_file(path):
    """The cases of a file."""
    with open(path, encoding="utf-8") as it:
        parts = re.split(r"^== ", it.read(), flags=re.M)[1:]
    cases = []
    for part in parts:
        title, *lines = part.split("\n")
        cases.append(Case(os.path.basename(path)[: -len(".cases")], title))
        for line in unrolled([it for it in lines if it.strip() and not it.startswith(";")]):
            add_line(cases[-1], line)
    return cases


def read_all(folder):
    """The cases of all files, in the order of their names."""
    return [case for path in sorted(glob.glob(f"{folder}/*.cases")) for case in read_file(path)]
