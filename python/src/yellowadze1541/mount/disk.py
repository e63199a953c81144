"""The disk of an image's file, as it is there by now: its files by the names that they have in a folder, and changes that are saved at once.

What is refused is an OSError, and the last refusal is kept for .status.
"""
import contextlib
import errno
import os
from typing import Callable, Dict, Iterator, List, Optional, Tuple

from ..entries import Entry, FileType
from ..image import Form, Image
from ..refusals import DISK_FULL, EXISTS, NOT_FOUND, UNSOUND, WRITE_PROTECT_ON, BrokenDirectory, Changed, Foreign, Refused, Unsound
from .names import HostName

__all__ = ["BLOCK", "SLOTS", "WRITABLE", "Disk", "blocks_for"]

# How many bytes of a file a block holds, and how many files a directory.
BLOCK, SLOTS = 254, 144
# How many blocks for files a disk has.
_BLOCKS, _BLOCKS_OF_40_TRACKS = 664, 749
# The types of files that can be written.
WRITABLE = (FileType.SEQ, FileType.PRG, FileType.USR)
_ERRORS = {WRITE_PROTECT_ON: errno.EPERM, NOT_FOUND: errno.ENOENT, EXISTS: errno.EEXIST, DISK_FULL: errno.ENOSPC, UNSOUND: errno.EROFS}


class Disk:
    """The disk of an image's file."""

    def __init__(self, path: str, read_only: bool = False) -> None:
        self._path = os.path.abspath(path)
        self._asked_read_only = read_only
        self.last_refusal = "none"
        self._take(Image.open(self._path), self._stamp_now())

    @property
    def why_read_only(self) -> Optional[str]:
        """Why nothing can be written; None: it can."""
        if self._asked_read_only:
            return "that was asked for"
        if self._image.path is None:
            return "the image is packed"
        if self.flaw is not None:
            return f"the disk isn't sound: {self.flaw}"
        if not os.access(self._path, os.W_OK) or not os.access(os.path.dirname(self._path), os.W_OK):
            return "the image or its folder may not be written"
        return None

    @property
    def free(self) -> int:
        """How many blocks are free; 0 if 18/0 can't be read."""
        try:
            return self._image.free
        except Refused:
            return 0

    @property
    def blocks(self) -> int:
        """How many blocks the disk has for files."""
        return _BLOCKS_OF_40_TRACKS if self._image.form == Form.D64_40 else _BLOCKS

    @property
    def moment(self) -> int:
        """When the image's file was changed last, in seconds."""
        return self._stamp[1] // 10**9

    def listing(self) -> str:
        """The directory as disk1541 lists it."""
        try:
            return self._image.listing()
        except Refused as refused:
            return f"the directory can't be listed: {refused}\n"

    def refresh(self) -> None:
        """Reads the image again if another program changed it. While it can't be read the disk stays as it was."""
        with contextlib.suppress(OSError, Refused):
            stamp = self._stamp_now()
            if stamp != self._stamp:
                self._take(Image.open(self._path), stamp)

    def bytes_of(self, host_name: HostName) -> bytes:
        """The bytes of a file. EIO: they can't be read."""
        if host_name not in self._bytes:
            try:
                self._bytes[host_name] = self._image.read(self.files[host_name])
            except Refused as refused:
                raise OSError(errno.EIO, str(refused)) from refused
        return self._bytes[host_name]

    def size_of(self, host_name: HostName) -> int:
        """The size of a file; 0 if it can't be read."""
        try:
            return len(self.bytes_of(host_name))
        except OSError:
            return 0

    def refused(self, number: int, name: str, why: str) -> OSError:
        """The error for a refusal, which .status then shows."""
        self.last_refusal = f"{name}: {why}"
        return OSError(number, os.strerror(number), name)

    def require_writable(self, name: str) -> None:
        """EROFS: nothing can be written."""
        self.refresh()
        why = self.why_read_only
        if why:
            raise self.refused(errno.EROFS, name, why)

    def try_out(self, name: str, work: Callable[[Image], None]) -> None:
        """Changes a copy of the image, to see whether that is refused."""
        with self._errors_of(name):
            work(Image(self._image.bytes))

    def change(self, name: str, work: Callable[[Image], None]) -> None:
        """Changes the image in its file, as it is there by now, and saves it."""
        with self._errors_of(name):
            with Image.change(self._path) as image:
                work(image)
            self._take(image, self._stamp_now())

    @contextlib.contextmanager
    def _errors_of(self, name: str) -> Iterator[None]:
        """What is refused within the block becomes an error of the system."""
        try:
            yield
        except Refused as refused:
            raise self.refused(_ERRORS.get(refused.number, errno.EIO), name, str(refused)) from refused
        except (Changed, Foreign) as refused:
            raise self.refused(errno.EPERM, name, str(refused)) from refused
        except ValueError as refused:
            raise self.refused(errno.EINVAL, name, str(refused)) from refused

    def _stamp_now(self) -> Tuple[int, ...]:
        """What changes when the image's file is changed."""
        now = os.stat(self._path)
        return now.st_ino, now.st_mtime_ns, now.st_size

    def _take(self, image: Image, stamp: Tuple[int, ...]) -> None:
        """From now on the disk is this one."""
        self._image, self._stamp = image, stamp
        flaw = image.check()
        self.flaw = flaw.text if flaw and not _is_changed_around_odd(image) else None
        self.files = dict(_named(image))
        self._bytes: Dict[HostName, bytes] = {}


def blocks_for(size: int) -> int:
    """How many blocks a file of this size has."""
    return max(1, -(-size // BLOCK))


def _is_changed_around_odd(image: Image) -> bool:
    """Whether the disk is sound but for odd entries, which a change leaves alone."""
    try:
        image.odd()
    except Unsound:
        return False
    return True


def _named(image: Image) -> Iterator[Tuple[HostName, Entry]]:
    """The closed files of a disk that have blocks, with their names in the folder."""
    counts: Dict[HostName, int] = {}
    for entry in _entries(image):
        if entry.closed and entry.track and isinstance(entry.type, FileType):
            host_name = HostName(entry.name, entry.type)
            number = counts[host_name] = counts.get(host_name, -1) + 1
            yield host_name._replace(number=number), entry


def _entries(image: Image) -> List[Entry]:
    """The entries of a directory, up to where it breaks off."""
    try:
        return image.files()
    except BrokenDirectory as broken:
        return broken.entries
