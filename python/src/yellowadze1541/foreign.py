"""What other systems keep on a disk that the drive doesn't know, so that no change damages it."""
from typing import TYPE_CHECKING, Iterator, Tuple

from .entries import FileType
from .refusals import Foreign

if TYPE_CHECKING:
    from .image import Image

# Of 18/0: where GEOS's mark stands.
_GEOS_MARK = slice(0xAD, 0xB1)
# Of an entry of 32 bytes: the type, GEOS's info block, structure and type.
_TYPE, _INFO_TRACK, _STRUCTURE, _GEOS_TYPE = 2, 21, 23, 24
_CLOSED = 0x80
# The sectors of track 18, and where their bits begin in 18/0.
_SECTORS_OF_18, _BITS_OF_18 = 19, 4 * 18 + 1
# A D64 of 40 tracks, and where 18/0 begins in one. Dolphin DOS's map of tracks 36 to 40 stands there.
_OF_40_TRACKS, _HEAD = 196_608, 91_392
_DOLPHIN, _MAP_SIZE = _HEAD + 0xAC, 20


def require_no_dolphin(data: bytes) -> None:
    """Refuses a D64 with Dolphin DOS's map, beside which the drive would write a second one."""
    rows = data[_DOLPHIN : _DOLPHIN + _MAP_SIZE] if len(data) == _OF_40_TRACKS else b""
    if any(rows) and all(_is_row(rows[n : n + 4]) for n in range(0, _MAP_SIZE, 4)):
        raise Foreign("the disk has Dolphin DOS's map of tracks 36 to 40, which the drive doesn't know, and so isn't changed")


def _is_row(row: bytes) -> bool:
    """Whether four bytes are the map of a track of 17 sectors: a count, and the bits of so many free ones."""
    free = bin(row[1]).count("1") + bin(row[2]).count("1") + row[3]
    return row[3] <= 1 and free == row[0]


def require_no_geos(image: "Image") -> None:
    """Refuses a disk that GEOS formatted, or that has files of it: VALIDATE would free their blocks."""
    if image.sector(18, 0)[_GEOS_MARK] == b"GEOS" or any(_is_geos(raw) for _, raw in _raw_entries(image)):
        raise Foreign("VALIDATE would free the blocks of GEOS's files: disk1541 validate keeps them")


def require_no_geos_file(image: "Image", slot: int) -> None:
    """Refuses a file of GEOS, which is more than its one chain."""
    if any(number == slot and _is_geos(raw) for number, raw in _raw_entries(image)):
        raise Foreign("a file of GEOS has more blocks than the drive knows, and can't be copied")


def require_linked_directory(image: "Image") -> None:
    """Refuses a disk on whose directory track a sector is in use to which no link leads: files may be listed there, whose blocks VALIDATE would free."""
    head = image.sector(18, 0)
    used = {sector for sector in range(_SECTORS_OF_18) if not head[_BITS_OF_18 + sector // 8] >> sector % 8 & 1}
    linked = {0} | {sector for _, sector in _linked(image)}
    if used - linked:
        raise Foreign("sectors of track 18 are in use, but no link of the directory leads to them, and VALIDATE would free the blocks of their files: `disk1541 get-all --salvage` extracts these")


def _is_geos(raw: bytes) -> bool:
    """Whether an entry is that of a file of GEOS."""
    is_file = raw[_TYPE] & _CLOSED and raw[_TYPE] % 16 in (FileType.SEQ, FileType.PRG, FileType.USR)
    return bool(is_file and raw[_INFO_TRACK] and raw[_STRUCTURE] < 2 and raw[_GEOS_TYPE])


def _raw_entries(image: "Image") -> Iterator[Tuple[int, bytes]]:
    """The slots of a sound disk's directory, with their 32 bytes."""
    places = [(data, at) for data, _ in _linked(image) for at in range(0, 256, 32)]
    return ((slot, data[at : at + 32]) for slot, (data, at) in enumerate(places))


def _linked(image: "Image") -> Iterator[Tuple[bytes, int]]:
    """The sectors of a directory in the order of its links: their bytes, and their numbers on track 18. It ends at a link to another track, or to one before."""
    track, sector = 18, 1
    seen = set()
    while track == 18 and sector not in seen:
        seen.add(sector)
        data = image.sector(track, sector)
        yield data, sector
        track, sector = data[0], data[1]
