#!/usr/bin/env python3
"""transcripts.py [FILE..]: plays the transcripts (docs/dev/transcripts.md) on drives of the library that YELLOWADZE1541 names, by its calls on channels, without wires.
Each answer, each sector and each list of files must be as the transcript has it. A step without direct access is played by a drive without it and by a guarded one, unless
that refuses it: V of a disk of GEOS. At `g64 too` it is also played on a G64 of its disk. Left out are changes of the bus's lines, refused writes, refused scripts and refused images.
Last line: 'N cases, .. 0 wrong'. Exit 0: nothing was wrong."""
import glob
import os
import re
import sys

ROOT = os.path.dirname(os.path.dirname(os.path.dirname(os.path.realpath(__file__))))
sys.path[:0] = [f"{ROOT}/python/src", f"{ROOT}/tools/lib"]
from suite import images, playable, transcripts
from yellowadze1541 import Drive, Image, Pace, Refused

D64 = 174_848
FORTY = 196_608
LONGEST = 200_000
# Why a step that a computer can't play is played here all the same.
PLAYED = (*images.REASONS, "the drive has another number", "a write that only guarded direct access refuses", "commands on blocks that are turned off")


# Where a D64 has the mark of GEOS.
MARK = slice(91_392 + 173, 91_392 + 184)
VALIDATE = re.compile(r"(put|open) 15 V")


def is_refused_if_guarded(step, image):
    """Whether a guarded drive refuses what another one carries out: V of a disk of GEOS."""
    return image[MARK] == b"GEOS format" and any(VALIDATE.match(it.line) for it in step.requests)


def formatted(size):
    """A disk as `empty` has it: formatted by the drive."""
    with Drive(bytes(size), pace=Pace.PROFILE) as drive:
        drive.command(b"N0:TEST,AB")
        return drive.image.bytes


class Disks:
    """The disks of a file: those that it begins with, and those that it kept."""

    def __init__(self):
        self.kept = {"empty": formatted(D64), "of zeros": bytes(D64)}
        self.wide = {"empty": formatted(FORTY), "of zeros": bytes(FORTY)}

    def disk(self, step, last):
        """The image that a step begins with; None: it goes on after a step that isn't played."""
        name = step.disk()
        if name is None:
            image = last
        elif "40 tracks" in step.words and name in self.wide:
            image = self.wide[name]
        else:
            image = self.kept.get(name)
        if image is None:
            return None
        image = images.poked(image if name is None else images.sized(image, step.words), step.pokes)
        return Image(image).convert().bytes if "as g64" in step.words else image


def why_not(step):
    """Why a step isn't played, or None."""
    why = [playable.of_head(step), playable.of_pokes(step), playable.of_requests(step)]
    return next((it for it in why if it and it not in PLAYED), None)


def answered(drive, line):
    """What a script's line prints, or None."""
    word, _, rest = line.partition(" ")
    if word == "status":
        return "status", drive.read_channel(15, LONGEST)
    number, _, rest = rest.partition(" ")
    channel = int(number)
    if word == "get":
        return f"get {channel}", drive.read_channel(channel, int(rest))
    if word == "open":
        drive.open_channel(channel, transcripts.text_bytes(rest))
    elif word == "put":
        drive.write_channel(channel, transcripts.text_bytes(rest))
    elif word == "fill":
        count, value = rest.split()
        drive.write_channel(channel, bytes([int(value, 16)]) * int(count))
    else:
        drive.close_channel(channel)
    return None


def is_wanted(wanted, shown):
    """Whether this was to be printed."""
    (words, came), rest = shown, wanted[len(shown[0]) + 1 :]
    if not wanted.startswith(words + " "):
        return False
    if words == "status":
        return came.last and came.data == rest.encode() + b"\r"
    if rest == "none":
        return came.data == b""
    if rest.endswith(" .."):
        return came.data.startswith(transcripts.bytes_of(rest[:-3]))
    return came.data == transcripts.bytes_of(rest.removesuffix(" eoi")) and came.last == rest.endswith(" eoi")


def rows_of(image):
    """The directory below its head, as a transcript has it."""
    rows = []
    for line in image.listing().splitlines()[1:]:
        rows.append(" ".join(line.split()))
    return rows


def wrong_facts(step, image, kept):
    """The lines that describe the disk after a step and aren't so."""
    for line in step.checks:
        word, _, rest = line.partition(" ")
        match = playable.POKE.match(rest) if word == "sector" else None
        if match:
            wanted, begin = transcripts.bytes_of(match[4]), int(match[3] or "0", 16)
            if image.sector(int(match[1]), int(match[2]))[begin : begin + len(wanted)] != wanted:
                yield line
        elif word == "same" and rest[3:] in kept and kept[rest[3:]] is not None and len(kept[rest[3:]]) == len(image.bytes):
            if kept[rest[3:]] != image.bytes:
                yield line


class Player:
    """Plays cases, and counts."""

    def __init__(self):
        self.cases = self.steps = self.drives = self.answers = self.wrong = self.left_out = 0

    def tell(self, case, text):
        self.wrong += 1
        print(f"WRONG {case.name()}: {text}")

    def play(self, case, step, image, direct):
        """Plays a step on a drive. Returns its image then."""
        device = 9 if "device 9" in step.words else 8
        pace = Pace.KERNAL if "pace kernal" in step.words else Pace.PROFILE
        self.drives += 1
        with Drive(image, device, pace=pace, protected="protected" in step.words, direct=direct) as drive:
            for it in step.requests:
                shown = answered(drive, it.line)
                if it.answer is None:
                    continue
                self.answers += 1
                if shown is None or not is_wanted(it.answer, shown):
                    self.tell(case, f"direct={direct}, {it.line}: wanted {it.answer}, came {shown}")
            return drive.image

    def ways(self, step, image):
        """The drives and the images that play a step; the first one's image is the next step's."""
        if "direct raw" in step.words or "direct" in step.words:
            yield ("raw" if "direct raw" in step.words else True), image
            return
        yield False, image
        if not any(playable.OF_BLOCKS.match(it.line) for it in step.requests) and not is_refused_if_guarded(step, image):
            yield True, image
        if "g64 too" in step.words:
            yield False, Image(image).convert(lossy=True).bytes

    def step(self, case, step, image, kept):
        """Plays a step on each drive. Returns the image that the first one leaves."""
        self.steps += 1
        first = None
        for direct, begun in self.ways(step, image):
            after = self.play(case, step, begun, direct)
            first = first or after
            if step.head == "stays" and after.bytes != begun:
                self.tell(case, f"direct={direct}: the disk doesn't stay")
            for line in wrong_facts(step, after, kept):
                self.tell(case, f"direct={direct}: {line}")
        return first.bytes

    def case(self, case, disks):
        """Plays a case. Returns whether all of it was played."""
        last, is_whole = None, True
        for step in case.steps:
            image = None if why_not(step) else disks.disk(step, last)
            try:
                last = None if image is None else self.step(case, step, image, disks.kept)
            except Refused as refused:
                self.tell(case, f"{step.head}: {refused}")
                last = None
            if last is None:
                is_whole = False
                self.left_out += 1
            for name in step.keeps:
                disks.kept[name] = last
        return is_whole

    def file(self, path):
        disks = Disks()
        for case in transcripts.read_file(path):
            self.cases += self.case(case, disks)


def main():
    player = Player()
    for path in sys.argv[1:] or sorted(glob.glob(f"{ROOT}/crates/cases/data/*.cases")):
        player.file(path)
    print(f"{player.cases} cases, {player.steps} steps, {player.drives} drives, {player.answers} answers by calls; {player.left_out} steps left out; {player.wrong} wrong")
    return int(player.wrong > 0 or player.cases == 0)


if __name__ == "__main__":
    sys.exit(main())
