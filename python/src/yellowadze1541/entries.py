"""The entries of a disk's directory."""
import enum
from typing import NamedTuple, Union

from . import petscii

__all__ = ["Entry", "FileType"]

# What fills a name after its end.
FILLER = b"\xa0"


class FileType(enum.IntEnum):
    """The type of a file."""

    DEL = 0
    SEQ = 1
    PRG = 2
    USR = 3
    REL = 4


class Entry(NamedTuple):
    """An entry of the directory."""

    slot: int  # counted from 0
    name: bytes  # up to what fills it
    type: Union[FileType, int]  # a number from 5 to 15 is no file's type
    blocks: int  # as the directory counts them
    locked: bool
    closed: bool  # False: it is being written, or was never closed
    record_length: int  # of a relative file
    track: int  # of the first block
    sector: int
    field: bytes  # the name's sixteen bytes, with the bytes after its end

    @property
    def is_empty(self) -> bool:
        """Whether the slot has no file."""
        return not (self.type or self.closed or self.locked)

    @property
    def is_deleted(self) -> bool:
        """Whether the file was deleted, and its name and its first block are still there."""
        return self.is_empty and self.track != 0 and self.name != b""

    def text(self, charset: petscii.Charset = petscii.Charset.UPPER) -> str:
        """The name as text."""
        return petscii.text(self.name, charset)


_TYPES = tuple(FileType)


def file_type(kind: int) -> Union[FileType, int]:
    """The type of a number."""
    return _TYPES[kind] if kind < len(_TYPES) else kind


def name_in(field: bytes) -> bytes:
    """The name in a field of sixteen bytes."""
    return field.partition(FILLER)[0]
