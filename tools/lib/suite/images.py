"""Cases whose disks no drive can make: they are given as images, which the user puts in (or an emulator attaches)."""
import dataclasses
import os
import subprocess
import tempfile

from . import classes, code, plan, playable, transcripts

# Why a step needs an image.
REASONS = ("a sector can't be read", "the disk has 40 tracks", "the disk is write-protected", "the disk was never formatted")
D64, ERRORS, FORTY = 174_848, 175_531, 196_608
GOOD = 1


@dataclasses.dataclass(frozen=True)
class Made:
    """What is done with an image: its form, pokes, and then lines of a script."""

    words: tuple = ()
    pokes: tuple = ()
    lines: tuple = ()


@dataclasses.dataclass
class Insert:
    """An image that is put in, as what was done from its beginning on."""

    start: str
    history: tuple
    name: str = ""

    def is_protected(self):
        return "protected" in self.history[-1].words

    def op(self):
        """The operation of the player."""
        shown = self.name.upper() + (" WRITE-PROTECTED" if self.is_protected() else "")
        return code.op("IMAGE", code.text(shown.encode()))


def why_not(step):
    """Why a step can't be played even with an image, or None."""
    why = [playable.of_head(step), playable.of_pokes(step), playable.of_requests(step)]
    return next((it for it in why if it and it not in REASONS), None)


class Planner:
    """Plans cases of one file with images."""

    def __init__(self):
        self.kept = {"empty": ("empty", ()), "of zeros": ("of zeros", ())}

    def play(self, played, step, start, history, is_new, was_open):
        """Adds a step. Returns whether it leaves a file open."""
        ops, after, is_open = [code.request(it) for it in step.requests], plan.checks(step), plan.left_open(step)
        if not ops and not after:
            return is_open
        if is_new:
            played.ops.append(Insert(start, history))
        played.ops += [plan.restart(plan.must_restart(step) or was_open), *ops]
        played.ops += [plan.restart(is_open), *after] if after else []
        played.requests += len(ops) + len(after)
        return is_open

    def case(self, case, played):
        """Plans a case into `played`, if it is given, and keeps its disks."""
        start, history, form, was_open, is_in = None, (), (), False, False
        for step in case.steps:
            name = step.disk()
            if name is not None:
                (start, history), was_open, is_in = self.kept.get(name, (None, ())), False, False
            why = why_not(step) or (None if start else "it goes on after a step that isn't played")
            if why:
                start = None
                if played:
                    played.left_out.append(why)
                self.keep(step, None, ())
                continue
            is_new = not is_in or bool(step.pokes) or protection(form) != protection(step.words)
            form = step.words
            if played:
                was_open = self.play(played, step, start, (*history, Made(tuple(step.words), tuple(step.pokes))), is_new, was_open)
                is_in = is_in or bool(step.requests) or bool(plan.checks(step))
            history = (*history, Made(tuple(step.words), tuple(step.pokes), tuple(it.line for it in step.requests)))
            self.keep(step, start, history)

    def keep(self, step, start, history):
        for name in step.keeps:
            self.kept[name] = (start, history)


def protection(words):
    return "protected" in words


def plan_all(plans):
    """Plans those transcripts anew that can't be played without images. Returns them."""
    planners, found = {}, []
    for it in plans:
        planner = planners.setdefault(it.case.file, Planner())
        if it.requests or not any(why in REASONS for why in it.left_out):
            planner.case(it.case, None)
            continue
        it.left_out, it.ops = [], []
        planner.case(it.case, it)
        it.is_image = bool(it.requests)
        found.append(it)
    return found


def sized(image, words):
    """An image in the form that a head names."""
    if "40 tracks" in words:
        return (image[:D64] + bytes(FORTY))[:FORTY]
    if "error bytes" in words and len(image) == D64:
        return image + bytes([GOOD]) * (ERRORS - D64)
    return image


def place(track, sector):
    return 256 * (sum(plan.sectors_of(it) for it in range(1, track)) + sector)


def poked(image, pokes):
    """An image with changed bytes."""
    found = bytearray(image)
    for poke in pokes:
        error = playable.ERROR.match(poke)
        match = error or playable.POKE.match(poke)
        at = place(int(match[1]), int(match[2]))
        if error:
            if len(found) == D64:
                found += bytes([GOOD]) * (ERRORS - D64)
            found[D64 + at // 256] = int(error[3])
        else:
            values = transcripts.bytes_of(match[4])
            at += int(match[3] or "0", 16)
            found[at : at + len(values)] = values
    return bytes(found)


class Maker:
    """Makes images by drive1541, each of what was done only once."""

    def __init__(self, drive1541):
        self.drive1541, self.known = os.path.realpath(drive1541), {}

    def played(self, image, made):
        """The image after the lines of a script."""
        words = ["--direct=raw"] * any(it.startswith("direct") for it in made.words) + ["--read-only"] * protection(made.words)
        with tempfile.TemporaryDirectory() as room:
            with open(f"{room}/old", "wb") as out:
                out.write(image)
            subprocess.run([self.drive1541, "old", "-", "new", *words], cwd=room, input="\n".join([*made.lines, ""]), text=True, capture_output=True, check=True)
            with open(f"{room}/new", "rb") as it:
                return it.read()

    def begun(self, start, words):
        """The image that a history begins with: zeros, or a formatted disk."""
        blank = bytes(FORTY if "40 tracks" in words else D64)
        return blank if start == "of zeros" else self.played(blank, Made(lines=("put 15 N0:TEST,AB",)))

    def made(self, start, history):
        """The image of what was done."""
        key = (start, history)
        if key not in self.known:
            last = history[-1]
            before = self.made(start, history[:-1]) if history[1:] else self.begun(start, last.words)
            image = poked(sized(before, last.words), last.pokes)
            self.known[key] = self.played(image, last) if last.lines else image
        return self.known[key]
