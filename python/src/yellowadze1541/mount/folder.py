"""A disk as the files of a folder: what FUSE asks for. What is refused is an OSError.

A file that is open for writing is kept here, and put on the disk whole when it is closed: so the image always has each file as before or as after.
"""
import errno
import os
import stat
from functools import partial
from typing import Dict, List, NamedTuple, Optional, Tuple

from ..entries import Entry
from ..image import Image
from ..refusals import DISK_FULL, Refused
from .disk import SLOTS, WRITABLE, Disk, blocks_for
from .names import HostName, NoName, meant, parsed, shown

__all__ = ["Attributes", "Folder"]

LISTING, STATUS = ".listing", ".status"
_ANY_WRITE = stat.S_IWUSR | stat.S_IWGRP | stat.S_IWOTH
_READABLE, _WRITABLE = stat.S_IFREG | 0o444, stat.S_IFREG | 0o644


class Attributes(NamedTuple):
    """What a folder says of a file: its mode and its size."""

    mode: int
    size: int


class Opened:
    """A file that is open, with its bytes."""

    def __init__(self, data: bytes, host_name: Optional[HostName] = None) -> None:
        self.data = bytearray(data)
        self.host_name = host_name  # of a file that is written
        self.is_changed = False  # it has to be put on the disk
        self.is_refused = False  # it can't be, as bytes of it didn't fit


class Folder:
    """The files of a disk. A file that is opened has a number until it is closed."""

    def __init__(self, disk: Disk) -> None:
        self.disk = disk
        self._opened: Dict[int, Opened] = {}
        self._written: Dict[HostName, Opened] = {}
        self._last_number = 0

    # --- what is there

    def names(self) -> List[str]:
        """The names of the folder's files."""
        self.disk.refresh()
        new = [it for it in self._written if it not in self.disk.files]
        return [*map(shown, [*self.disk.files, *new]), LISTING, STATUS]

    def attributes(self, name: str, number: Optional[int] = None) -> Attributes:
        """The mode and the size of a file, which may be open."""
        if number in self._opened:
            return Attributes(_WRITABLE, len(self._opened[number].data))
        self.disk.refresh()
        if name in (LISTING, STATUS):
            return Attributes(_READABLE, len(self._text(name)))
        host_name = self._known(name)
        is_free = not self.disk.why_read_only and not self._is_fixed(host_name)
        opened = self._written.get(host_name)
        return Attributes(_WRITABLE if is_free else _READABLE, len(opened.data) if opened else self.disk.size_of(host_name))

    def free(self) -> Tuple[int, int]:
        """How many blocks are free, and how many slots."""
        self.disk.refresh()
        return self.disk.free, max(0, SLOTS - len(self.disk.files))

    # --- files that are open

    def open_reading(self, name: str) -> int:
        """Opens a file for reading, and answers its number."""
        self.disk.refresh()
        if name in (LISTING, STATUS):
            return self._numbered(Opened(self._text(name)))
        host_name = self._known(name)
        return self._numbered(self._written.get(host_name) or Opened(self.disk.bytes_of(host_name)))

    def open_writing(self, name: str, empties: bool) -> int:
        """Opens a file for writing, and empties it if that is wanted. EPERM: it is locked, or of a type that can't be written."""
        self.disk.require_writable(name)
        host_name = self._known(name)
        if self._is_fixed(host_name):
            raise self.disk.refused(errno.EPERM, name, "the file is locked, of a type that can't be written, or the second of its name")
        opened = self._written.get(host_name)
        if opened is None:
            opened = self._written[host_name] = Opened(self.disk.bytes_of(host_name), host_name)
        if empties:
            opened.data, opened.is_changed = bytearray(), True
        return self._numbered(opened)

    def create(self, name: str) -> int:
        """Makes a file, which comes to the disk when it is closed. ENOSPC: the disk or its directory is full."""
        self.disk.require_writable(name)
        host_name = self._meant(name)
        if host_name.type not in WRITABLE:
            raise self.disk.refused(errno.EPERM, name, "only files of type prg, seq and usr can be written")
        self.disk.try_out(name, lambda image: image.write(host_name.name, b"", host_name.type))
        opened = self._written[host_name] = Opened(b"", host_name)
        opened.is_changed = True
        return self._numbered(opened)

    def read(self, number: int, size: int, at: int) -> bytes:
        """Bytes of an open file."""
        return bytes(self._opened[number].data[at : at + size])

    def write(self, number: int, data: bytes, at: int) -> int:
        """Writes bytes at a place of an open file, and answers how many. ENOSPC: they don't fit on the disk, which then keeps the old file."""
        opened = self._opened[number]
        self._require_room(opened, at + len(data))
        opened.data.extend(bytes(max(0, at - len(opened.data))))
        opened.data[at : at + len(data)] = data
        opened.is_changed = True
        return len(data)

    def resize(self, number: int, size: int) -> None:
        """Gives an open file another size, with zeros after its end."""
        opened = self._opened[number]
        self._require_room(opened, size)
        opened.is_changed, opened.is_refused = opened.is_changed or size != len(opened.data), False
        opened.data = bytearray(opened.data[:size].ljust(size, b"\0"))

    def truncate(self, name: str, size: int) -> None:
        """Gives a file another size."""
        number = self.open_writing(name, False)
        try:
            self.resize(number, size)
            self.flush(number, True)
        finally:
            self.close(number)

    def flush(self, number: int, is_last: bool = False) -> None:
        """Puts a file that was written on the disk. One without bytes waits until it is closed for good, as its bytes may still come."""
        self._put(self._opened[number], is_last)

    def close(self, number: int) -> None:
        """Ends a number. With the last one of a file it is put on the disk."""
        opened = self._opened.pop(number)
        if opened in self._opened.values():
            return
        try:
            self._put(opened, True)
        finally:
            host_name = self._name_of(opened)
            if host_name is not None:
                del self._written[host_name]

    # --- changes

    def delete(self, name: str) -> None:
        """Deletes a file. EPERM: it is locked."""
        self.disk.require_writable(name)
        host_name = self._known(name)
        if host_name in self.disk.files:
            entry = self.disk.files[host_name]
            self.disk.change(name, lambda image: image.delete(entry))
        self._written.pop(host_name, None)

    def rename(self, old: str, new: str, may_replace: bool) -> None:
        """Gives a file another name, in place of a file that has it, and another type if the name says so."""
        self.disk.require_writable(old)
        before, after = self._known(old), self._meant(new)
        if before.type != after.type and not {before.type, after.type}.issubset(WRITABLE):
            raise self.disk.refused(errno.EPERM, new, "a file can't get this type")
        entry, replaced = self._entry(before), self.disk.files.get(after)
        if replaced is not None and not may_replace:
            raise OSError(errno.EEXIST, os.strerror(errno.EEXIST), new)
        if replaced != entry:
            self.disk.change(old, lambda image: _rename(image, entry, replaced, after))
            self._rename_opened(before, after)

    def protect(self, name: str, mode: int) -> None:
        """Locks a file that is to have no permission to write, and frees one that is to have it."""
        self.disk.require_writable(name)
        entry, locked = self._entry(self._known(name)), not mode & _ANY_WRITE
        if entry.locked != locked:
            self.disk.change(name, lambda image: image.lock(entry, locked))

    # --- inside

    def _text(self, name: str) -> bytes:
        """What .listing and .status have."""
        if name == LISTING:
            return self.disk.listing().encode()
        why = self.disk.why_read_only
        lines = [
            f"disk: {self.disk.flaw or 'sound'}",
            f"mounted for: {f'reading alone, as {why}' if why else 'reading and writing'}",
            f"last refusal: {self.disk.last_refusal}",
        ]
        return "".join(f"{it}\n" for it in lines).encode()

    def _meant(self, name: str) -> HostName:
        """What the name of a new file means. EPERM, ENAMETOOLONG, EILSEQ: no file can have it."""
        try:
            host_name = meant(name)
        except NoName as why:
            raise self.disk.refused(why.number, name, str(why)) from None
        if host_name.number or not host_name.name:
            raise self.disk.refused(errno.EPERM, name, "a new file has a name of its own, without ~ and a number")
        return host_name

    def _known(self, name: str) -> HostName:
        """What the name of a file means that is there. ENOENT: it isn't."""
        host_name = parsed(name)
        if host_name is None or not (host_name in self.disk.files or host_name in self._written):
            raise OSError(errno.ENOENT, os.strerror(errno.ENOENT), name)
        return host_name

    def _entry(self, host_name: HostName) -> Entry:
        """The entry of a file, which is put on the disk first if it was just written."""
        opened = self._written.get(host_name)
        if opened is not None:
            self._put(opened, True)
        if host_name not in self.disk.files:
            raise OSError(errno.ENOENT, os.strerror(errno.ENOENT), shown(host_name))
        return self.disk.files[host_name]

    def _is_fixed(self, host_name: HostName) -> bool:
        """Whether a file can't be written."""
        entry = self.disk.files.get(host_name)
        return entry is not None and (entry.locked or host_name.type not in WRITABLE or host_name.number > 0)

    def _name_of(self, opened: Opened) -> Optional[HostName]:
        """The name of an open file that is written and wasn't deleted meanwhile; None of any other."""
        is_there = opened.host_name is not None and self._written.get(opened.host_name) is opened
        return opened.host_name if is_there else None

    def _numbered(self, opened: Opened) -> int:
        self._last_number += 1
        self._opened[self._last_number] = opened
        return self._last_number

    def _require_room(self, opened: Opened, size: int) -> None:
        """ENOSPC: a file of this size doesn't fit on the disk in place of the old one."""
        if opened.host_name is None:
            raise OSError(errno.EBADF, os.strerror(errno.EBADF))
        old = blocks_for(self.disk.size_of(opened.host_name)) if opened.host_name in self.disk.files else 0
        if blocks_for(size) > self.disk.free + old:
            opened.is_refused = True
            raise self.disk.refused(errno.ENOSPC, shown(opened.host_name), str(Refused(DISK_FULL)))

    def _put(self, opened: Opened, is_last: bool) -> None:
        """Puts a file on the disk, if it was changed, isn't deleted, and all of it fits."""
        host_name = self._name_of(opened)
        if host_name is None or not opened.is_changed or opened.is_refused or not (opened.data or is_last):
            return
        opened.is_changed = False
        work = partial(_replace, old=self.disk.files.get(host_name), host_name=host_name, data=bytes(opened.data))
        self.disk.change(shown(host_name), work)

    def _rename_opened(self, before: HostName, after: HostName) -> None:
        """A file that is open is written under its new name, and the one that had it isn't any more."""
        self._written.pop(after, None)
        opened = self._written.pop(before, None)
        if opened is not None:
            opened.host_name = after
            self._written[after] = opened


def _replace(image: Image, old: Optional[Entry], host_name: HostName, data: bytes) -> None:
    """Writes a file, in place of an old one if there is one."""
    if old is None:
        image.write(host_name.name, data, host_name.type)
    else:
        image.rewrite(old, data)


def _rename(image: Image, entry: Entry, replaced: Optional[Entry], after: HostName) -> None:
    """Gives a file another name, after the file that has it was deleted, and another type."""
    if replaced is not None:
        image.delete(replaced)
    if entry.name != after.name:
        image.rename(entry, after.name)
    if entry.type != after.type:
        image.rewrite(entry.slot, image.read(entry.slot), after.type)
