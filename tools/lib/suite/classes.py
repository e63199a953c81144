"""The class of each transcript, from tools/suite.d/classes.txt; the answers that differ at a KERNAL's pace; and how long a case takes on a real drive."""
import dataclasses
import os
import re

CHAPTERS = {
    "UG": ("Using programs", "Disk commands", "Sequential files", "Random files", "Relative files"),
    "ICD": ("Diskette organization", "Direct-access programming"),
}
LETTERS = {"manual": "M", "own": "O", "order": "R"}


@dataclasses.dataclass
class Class:
    """A class, with the chapter or page that it comes from."""

    name: str
    reference: str


def rows(path, count):
    """The rows of a file with columns between |."""
    with open(path, encoding="utf-8") as it:
        lines = [line.rstrip("\n") for line in it if line.strip() and not line.startswith(";")]
    found = [[part.strip() for part in line.split("|")] for line in lines]
    for line, row in zip(lines, found):
        if len(row) != count:
            raise ValueError(f"{path}: {line}")
    return found


def read(folder):
    """The classes by `FILE: TITLE`."""
    return {name: Class(class_name, reference) for class_name, name, reference in rows(f"{folder}/classes.txt", 3)}


def class_of(classes, case):
    """The class of a transcript, or None."""
    return classes.get(case.name()) or classes.get(f"{case.file}: *")


def anchors(path):
    """The headings of a page, as links name them."""
    with open(path, encoding="utf-8") as it:
        heads = re.findall(r"^#+ (.*)$", it.read(), re.M)
    return {re.sub(r"[^a-z0-9 _-]", "", head.lower()).replace(" ", "-") for head in heads}


def is_reference(root, it):
    """Whether a reference names a chapter, or a heading of a page that exists."""
    if it.name == "manual":
        book, _, chapter = it.reference.partition(" ")
        return chapter in CHAPTERS.get(book, ())
    page, _, anchor = it.reference.partition("#")
    path = f"{root}/docs/{page}"
    return os.path.exists(path) and (not anchor or anchor in anchors(path))


def faults(root, classes, cases):
    """What is wrong with the classes: a transcript without one, a name without a transcript, a reference to nothing."""
    names = {it.name() for it in cases} | {f"{it.file}: *" for it in cases}
    found = [f"{it.name()}: it has no class" for it in cases if not class_of(classes, it)]
    found += [f"{name}: no transcript has this name" for name in classes if name not in names]
    found += [f"{name}: its class isn't one" for name, it in classes.items() if it.name not in LETTERS]
    found += [f"{name}: there is no {it.reference}" for name, it in classes.items() if not is_reference(root, it)]
    return found


def set_kernal_answers(folder, cases):
    """Changes the answers that a drive gives to a computer only."""
    by_name = {it.name(): it for it in cases}
    for name, step, request, answer in rows(f"{folder}/kernal_answers.txt", 4):
        changed = by_name[name].steps[int(step) - 1]
        waiting = [n for n, it in enumerate(changed.requests, 1) if it.line.split(" ")[0] in ("get", "status")]
        changed.answers[waiting.index(int(request))] = answer
