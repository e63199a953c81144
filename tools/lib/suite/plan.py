"""Makes of each transcript what the player does: how the disk is prepared, the requests, and what the disk must have then."""
import dataclasses
import re

from . import classes, code, playable, transcripts

# A channel that is written, which a restart leaves unclosed.
WRITES = re.compile(r"open 1( |$)|open \d+ (@|.*,[WA]|.*,L)")
# A request that reads the status.
READS_STATUS = re.compile(r"status$|get 15 ")
# A command that writes the disk's id.
NEW = re.compile(r"(put|open) 15 N.*,")
# The place of the id in 18/0, and of the bits of the BAM.
ID, BAM = range(162, 164), range(4, 144)
HEAD = (18, 0)


def sectors_of(track):
    return 21 if track < 18 else 19 if track < 25 else 18 if track < 31 else 17


@dataclasses.dataclass
class Disk:
    """How a disk is made: operations after NEW.

    `poked` has what is known of the sectors with pokes. `zeros` are sectors that these bytes can lead to: they must be zero, as nothing has written them.
    """

    ops: list = dataclasses.field(default_factory=list)
    poked: dict = dataclasses.field(default_factory=dict)
    zeros: set = dataclasses.field(default_factory=set)
    has_requests: bool = False

    def copy(self):
        return Disk(list(self.ops), {at: bytearray(it) for at, it in self.poked.items()}, set(self.zeros), self.has_requests)

    def poke(self, at, start, values):
        """Changes bytes of a sector."""
        sector = self.poked.setdefault(at, bytearray(256))
        sector[start : start + len(values)] = values
        self.add_zeros(at, sector, range(max(start - 1, 0), min(start + len(values), 255)))
        if self.is_whole(at):
            return
        patch = code.op("PATCH", *at)
        if self.ops and self.ops[-1].startswith(patch):
            self.ops[-1] = self.ops[-1][:-1] + part(start, values) + b"\0"
        else:
            self.ops.append(patch + part(start, values) + b"\0")

    def is_whole(self, at):
        """Whether all bytes of a sector are known."""
        return at[0] != HEAD[0] and not self.has_requests

    def add_zeros(self, at, sector, places):
        """Two bytes that can be a sector's address lead to it."""
        for place in places:
            track, number = sector[place : place + 2]
            if 1 <= track <= 35 and number < sectors_of(track) and not (at == HEAD and place in BAM):
                self.zeros.add((track, number))

    def made(self, more_zeros):
        """All operations after NEW."""
        zeros = (self.zeros | more_zeros) - {HEAD, (HEAD[0], 1)}
        if self.has_requests:
            return [*zero_sectors(zeros), *self.ops]
        whole = {at: it for at, it in self.poked.items() if self.is_whole(at)}
        return [*zero_sectors(zeros - whole.keys()), *whole_sectors(whole), *self.ops]

    def add(self, ops):
        """Requests that can change the disk."""
        if ops and not self.has_requests:
            self.ops = [*whole_sectors({at: it for at, it in self.poked.items() if self.is_whole(at)}), *self.ops]
            self.has_requests = True
        self.ops += ops


def zero_sectors(places):
    return [code.op("ZEROS", *at, b"\0") for at in sorted(places)]


def whole_sectors(sectors):
    return [code.op("ZEROS", *at, parts_of(it), b"\0") for at, it in sorted(sectors.items())]


@dataclasses.dataclass
class Prepared:
    """A disk that is made before the requests: the operations after NEW."""

    ops: list


@dataclasses.dataclass
class Played:
    """A transcript as the player plays it: its operations, its class, and the reasons of steps that aren't played."""

    case: transcripts.Case
    number: int = 0
    ops: list = dataclasses.field(default_factory=list)
    class_of_case: classes.Class | None = None
    class_letter: str = "M"
    is_image: bool = False
    requests: int = 0
    left_out: list = dataclasses.field(default_factory=list)


def part(start, values):
    """A part of a sector: how many bytes (256 as 0), where they begin, and the bytes as a text."""
    return b"\1" + bytes([start]) + code.text(bytes(values))


def parts_of(sector):
    """The parts of a sector that aren't zero."""
    found, at = b"", 0
    while at < 256:
        if not sector[at]:
            at += 1
            continue
        end = at
        while end < 256 and any(sector[end : end + 4]):
            end += 1
        found += part(at, sector[at:end])
        at = end
    return found


def poke_step(disk, step):
    """Makes the pokes of a step."""
    for poke in step.pokes:
        match = playable.POKE.match(poke)
        if match:
            disk.poke((int(match[1]), int(match[2])), int(match[3] or "0", 16), transcripts.bytes_of(match[4]))


def changes_id(step):
    """Whether the step writes another id on the disk."""
    heads = [it for it in map(playable.POKE.match, step.pokes) if it and (int(it[1]), int(it[2])) == HEAD]
    pokes = any(set(ID) & set(range(int(it[3] or "0", 16), int(it[3] or "0", 16) + len(transcripts.bytes_of(it[4])))) for it in heads)
    return pokes or any(NEW.match(it.line) for it in step.requests)


def checked_zeros(case):
    """The sectors that must be zero after a step: no case writes them, so they must be zero before."""
    found = set()
    for line in (it for step in case.steps for it in step.checks if it.startswith("sector ")):
        match = playable.POKE.match(line[len("sector ") :])
        if not any(transcripts.bytes_of(match[4])):
            found.add((int(match[1]), int(match[2])))
    return found


def left_open(step):
    """Whether a file that is written isn't closed."""
    found = set()
    for it in step.requests:
        words = it.line.split(" ", 2)
        if WRITES.match(it.line):
            found.add(words[1])
        elif words[0] == "close":
            found = set() if words[1] == "15" else found - {words[1]}
    return bool(found)


def must_restart(step):
    """Whether the step shows that the drive was switched on."""
    return any(it.startswith("direct") for it in step.words) or bool(step.requests) and bool(READS_STATUS.match(step.requests[0].line))


def checks(step):
    """What the drive can show of the disk after a step."""
    found = []
    if step.directory is not None:
        found.append(code.op("DIRECTORY", code.text("\r".join([*step.directory, ""]).encode())))
    for line in step.checks:
        word, _, rest = line.partition(" ")
        if word == "free":
            found.append(code.op("FREE", code.word(int(rest))))
        elif word == "sector":
            match = playable.POKE.match(rest)
            start = int(match[3] or "0", 16)
            found.append(code.op("SECTOR", int(match[1]), int(match[2]), start, code.text(transcripts.bytes_of(match[4]))))
    return found


def restart(is_whole):
    return code.op("RESTART" if is_whole else "CALM")


class Planner:
    """Plans the cases of one file, whose kept disks it knows."""

    def __init__(self):
        # The disk that the next step has, whether the player has made it by then, and whether a file on it is being written.
        self.kept, self.disk, self.is_made, self.was_open = {"empty": Disk()}, None, False, False
        # Whether the disk has another id now; and sectors of the case that must be zero.
        self.has_other_id, self.zeros = False, set()

    def begin(self, step):
        """Puts in the disk of a step. Returns why it can't be played, or None."""
        name = step.disk()
        if name is not None:
            self.disk, self.is_made, self.was_open = self.kept.get(name), False, False
            self.disk = self.disk and self.disk.copy()
        why = playable.why_not(step)
        if why:
            self.disk = None
        elif self.disk is None:
            why = "it goes on after a step that isn't played"
        return why

    def prepare(self, step):
        """The disk of a step, as operations before its requests."""
        if step.disk() is None:
            self.disk.add([restart(self.was_open)] if self.disk.has_requests else [])
        poke_step(self.disk, step)
        self.is_made = self.is_made and not step.pokes

    def first_ops(self, step):
        """The operations before the requests of a step."""
        if self.is_made:
            return [restart(self.was_open or must_restart(step))]
        self.is_made = True
        return [*self.format(), Prepared(self.disk.made(self.zeros)), restart(must_restart(step))]

    def format(self):
        """A long NEW, if the disk has another id."""
        is_needed, self.has_other_id = self.has_other_id, False
        return [code.op("FORMAT"), code.op("CHANGED")] if is_needed else []

    def play(self, played, step):
        """Adds a step that can be played."""
        self.prepare(step)
        ops, after, is_open = [code.request(it) for it in step.requests], checks(step), left_open(step)
        if ops or after:
            played.ops += [*self.first_ops(step), *ops]
            played.ops += [restart(is_open), *after] if after else []
            played.requests += len(ops) + len(after)
        if ops and step.head != "stays":
            played.ops.append(code.op("CHANGED"))
        self.has_other_id |= changes_id(step)
        self.disk.add([it for it in ops if not is_status(it)])
        self.was_open = is_open

    def case(self, case):
        """Plans a transcript."""
        played = Played(case)
        self.zeros = checked_zeros(case)
        for step in case.steps:
            why = self.begin(step)
            if why:
                played.left_out.append(why)
            else:
                self.play(played, step)
            for name in step.keeps:
                self.kept[name] = None if why or self.was_open else self.disk.copy()
        played.ops += self.format()
        return played


def is_status(op):
    return op[:1] == code.op("STATUS")


def all_of(cases):
    """Plans all transcripts, in their order."""
    planners, found = {}, []
    for case in cases:
        planner = planners.setdefault(case.file, Planner())
        found.append(planner.case(case))
    return found
