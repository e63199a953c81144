"""What the library refuses, as exceptions with its numbers and words."""
from typing import List, NamedTuple, Optional

from .entries import Entry

__all__ = ["BrokenDirectory", "Changed", "Flaw", "Foreign", "Lossy", "Lost", "Refused", "Unsound"]

# The library's own numbers.
NO_MEMORY, INVALID, NO_ROOM, ABSENT, NO_IMAGE, UNSOUND, NO_DRIVE = range(-1, -8, -1)
# The drive's statuses that are named here.
WRITE_PROTECT_ON, NEVER_CLOSED, NOT_FOUND, EXISTS, DISK_FULL = 26, 60, 62, 63, 72

_READ_ERRORS = dict.fromkeys((20, 21, 22, 23, 24, 27), "READ ERROR")
_SYNTAX_ERRORS = dict.fromkeys(range(30, 35), "SYNTAX ERROR")
# y1541_text of the header; a test compares the two.
WORDS = {
    0: "all went well",
    NO_MEMORY: "no memory",
    INVALID: "an argument is out of its range",
    NO_ROOM: "too little room",
    ABSENT: "no such thing",
    NO_IMAGE: "no image of a 1541's disk",
    UNSOUND: "the disk isn't sound",
    NO_DRIVE: "no drive, or one already",
    1: "FILES SCRATCHED",
    25: "WRITE ERROR",
    WRITE_PROTECT_ON: "WRITE PROTECT ON",
    28: "WRITE ERROR",
    29: "DISK ID MISMATCH",
    50: "RECORD NOT PRESENT",
    51: "OVERFLOW IN RECORD",
    52: "FILE TOO LARGE",
    NEVER_CLOSED: "WRITE FILE OPEN",
    61: "FILE NOT OPEN",
    NOT_FOUND: "FILE NOT FOUND",
    EXISTS: "FILE EXISTS",
    64: "FILE TYPE MISMATCH",
    65: "NO BLOCK",
    66: "ILLEGAL TRACK OR SECTOR",
    70: "NO CHANNEL",
    71: "DIR ERROR",
    DISK_FULL: "DISK FULL",
    73: "CBM DOS V2.6 1541",
    74: "DRIVE NOT READY",
    **_READ_ERRORS,
    **_SYNTAX_ERRORS,
}
# The meaning of the numbers of a check; a test compares them with disk1541's messages.
FLAWS = {
    1: "the count of the track's free blocks isn't the number of blocks marked free",
    2: "the block is in use, but marked free",
    3: "the block is used twice",
    4: "a file's chain leads here, where no block of a file can be",
    5: "the sector's header can't be read",
    6: "the directory's chain leads here, off the directory's track",
    7: "the side sectors that begin here don't list the blocks of their relative file",
    8: "an entry in this sector of the directory has a type that no file has",
    9: "the block is in use, but can't be read",
}


class Flaw(NamedTuple):
    """Something that is wrong with a disk."""

    number: int  # 1 to 9
    track: int
    sector: int
    slot: Optional[int] = None  # of the file that has it
    before: int = 0  # how many of that file's blocks come before it
    is_of_directory: bool = False

    @property
    def text(self) -> str:
        """The place and what is wrong there, in words."""
        return f"track {self.track}, sector {self.sector}: {FLAWS.get(self.number, 'it is not sound')}"


class Lost(NamedTuple):
    """What an image of the other format can't hold."""

    unreadable: int  # how many sectors can't be read, and become zeros
    tracks: bool  # tracks beyond 35, or half tracks
    errors: bool  # error bytes
    id: bool  # another id in the headers than the disk's


class Refused(Exception):
    """The library, or the drive, refuses a call: `number` is below 0, or a status of the drive; `text` has its words, `line` the answer of channel 15 to a command."""

    def __init__(self, number: int, about: str = "", line: str = "") -> None:
        self.number, self.line = number, line
        self.text = WORDS.get(number, "an unknown number")
        said = line or (self.text if number <= 0 else f"{number:02d}, {self.text}")
        super().__init__(f"{about}: {said}" if about else said)


class Unsound(Refused):
    """The disk isn't sound, so it isn't changed: `flaw` is its first fault."""

    def __init__(self, flaw: Flaw) -> None:
        super().__init__(UNSOUND, flaw.text)
        self.flaw = flaw


class BrokenDirectory(Refused):
    """The directory breaks off: `entries` has those before."""

    def __init__(self, number: int, entries: List[Entry]) -> None:
        super().__init__(number, f"the directory breaks off after {len(entries)} entries")
        self.entries = entries


class Lossy(Exception):
    """An image of the other format would lose something: `lost` has the losses."""

    def __init__(self, lost: Lost) -> None:
        super().__init__(f"the other format can't hold everything: {lost}")
        self.lost = lost


class Foreign(Exception):
    """The disk has structures that the drive doesn't know (GEOS files, Dolphin DOS's map of tracks 36 to 40), and the change would damage them."""


class Changed(Exception):
    """The image's file was changed by another program since it was opened, and so wasn't saved."""
