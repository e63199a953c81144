"""Names of the folder's files for the names on a disk, and back.

A letter is a capital letter, and can be typed as a small one: `game.prg` and `GAME.prg` are the file that LOAD"GAME" loads. A letter with SHIFT, a code with no
character of its own, and one that a name of this computer can't have, is `%XX`. The ending is the type. The second file of one name and type is `NAME~1.prg`.
"""
import errno
import re
from typing import NamedTuple, Optional

from .. import petscii
from ..entries import FILLER, FileType

__all__ = ["HostName", "NoName", "meant", "parsed", "shown"]

# How the code of the line at the foot of its cell is shown, which is typed so.
_LINE, _UNDERSCORE = petscii.codes("_"), "_"
# The codes that have a character of their own, as in the names of files that `disk1541 get-all` writes: without SHIFT, and with the Commodore key.
_SHOWN = frozenset([*range(32, 96), *range(161, 192)])
# The most codes of a name.
_LONGEST = 16
_FORM = re.compile(r"(?P<name>.+?)(~(?P<number>[1-9][0-9]*))?\.(?P<ending>[A-Za-z]{3})", re.DOTALL)
_PIECE = re.compile(r"%([0-9A-Fa-f]{2})|(.)", re.DOTALL)
_ENDINGS = {it.name.lower(): it for it in FileType}
# What stands for a name without a code.
_NO_NAME = "%A0"


class HostName(NamedTuple):
    """What the name of a file of the folder means: codes, type, and which one of the files that have both, from 0 on."""

    name: bytes
    type: FileType
    number: int = 0


def shown(name: HostName) -> str:
    """The name in the folder."""
    stem = "".join(_shown_code(code, place == 0) for place, code in enumerate(name.name)) or _NO_NAME
    number = f"~{name.number}" if name.number else ""
    return f"{stem}{number}.{name.type.name.lower()}"


class NoName(Exception):
    """No file of a disk can have this name in the folder: an error's number, and why."""

    def __init__(self, number: int, why: str) -> None:
        super().__init__(why)
        self.number = number


def meant(text: str) -> HostName:
    """What a name in the folder means. NoName."""
    form = _FORM.fullmatch(text)
    if not form or form["ending"].lower() not in _ENDINGS:
        raise NoName(errno.EPERM, "the name of a file ends with .prg, .seq, .usr, .rel or .del")
    try:
        name = _codes(form["name"])
    except ValueError as why:
        raise NoName(errno.EILSEQ, str(why)) from None
    if len(name) > _LONGEST:
        raise NoName(errno.ENAMETOOLONG, f"the name of a file has at most {_LONGEST} characters before its ending")
    return HostName(name, _ENDINGS[form["ending"].lower()], int(form["number"] or 0))


def parsed(text: str) -> Optional[HostName]:
    """What a name in the folder means; None: no file of a disk can have it."""
    try:
        return meant(text)
    except NoName:
        return None


def _shown_code(code: int, is_first: bool) -> str:
    """A code as a part of a name of this computer."""
    key = petscii.text(bytes([code]))
    if bytes([code]) == _LINE:
        return _UNDERSCORE
    if code not in _SHOWN or key in "/%" or (key == "." and is_first):
        return f"%{code:02X}"
    return key


def _codes(stem: str) -> bytes:
    """The codes of a name without its ending. ValueError: it has a character that no key has."""
    out = bytearray()
    for number, key in _PIECE.findall(stem):
        out += bytes([int(number, 16)]) if number else petscii.codes(key)
    return bytes(out).partition(FILLER)[0]
