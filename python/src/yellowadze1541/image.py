"""Disk images: looks at them, and changes of them.

Each change is the C library's: it opens the image, changes it and gives the new bytes, or refuses and leaves it as it was.
"""
import contextlib
import ctypes
import enum
import itertools
import os
from typing import Any, Callable, Iterable, Iterator, List, Optional, Set, Tuple, Union

from . import _library, foreign, packed, petscii, saving
from ._library import library
from .entries import FILLER, Entry, FileType, file_type, name_in
from .petscii import Charset, Name, name_codes
from .refusals import EXISTS, NEVER_CLOSED, NO_IMAGE, NOT_FOUND, UNSOUND, BrokenDirectory, Flaw, Lossy, Lost, Refused, Unsound

__all__ = ["Form", "Image", "Order", "Which"]

# (in the class `bytes` is the image's own)
Bytes = bytes

# A file of a disk: its entry, its slot, or its name, which means the first file that has it.
Which = Union[Entry, int, Name]

# A file that is to be written: its name, its bytes, and its type if it is no program.
NewFile = Union[Tuple[Name, Bytes], Tuple[Name, Bytes, FileType]]

# The directory has at most this many slots, and a listing this many bytes.
_SLOTS, _LISTING = 144, 4672
# What whose of a flaw means.
_OF_DIRECTORY, _OF_FILE = 1, 2
# The size of a D64 of 40 tracks.
_OF_40_TRACKS = 196_608
_D64_SIZES = (174_848, 175_531, _OF_40_TRACKS)
_LETTERS = {FileType.SEQ: b"S", FileType.PRG: b"P", FileType.USR: b"U"}
# Codes that a name may have in the text of an OPEN; any other name is given afterwards, by its slot.
_PLAIN = frozenset(b" !%'()-./0123456789;<>ABCDEFGHIJKLMNOPQRSTUVWXYZ[]" + bytes(range(193, 219)))
# The code that begins a line of a listing in reverse letters, and how many codes of a line are sure to come after its first.
_REVERSE, _SURE = b"\x12", 24


class Form(enum.IntEnum):
    """The form of a new image."""

    D64 = 0  # 35 tracks
    D64_40 = 1  # 40 tracks
    G64 = 2


class Order(enum.IntEnum):
    """What a directory is sorted by."""

    NAME = 0
    TYPE = 1
    SIZE = 2


class Image:
    """A disk image, D64 or G64, in memory. A method that raises has changed nothing.

    Names are bytes, or text in the character set of power up; `petscii.codes` takes text in the other one.
    """

    def __init__(self, data: Bytes) -> None:
        """The image of these bytes. Refused: they are none."""
        self._data = _library.data_of(data)
        self._path: Optional[str] = None
        self._saved: Optional[Bytes] = None
        # (of these bytes: the answer of the library, and the entries)
        self._listed: Optional[Tuple[Bytes, int, List[Entry]]] = None
        said = library.y1541_image_title(*self._given, _library.Title())
        if said == NO_IMAGE:
            raise Refused(said)

    @classmethod
    def open(cls, path: Union[str, "os.PathLike[str]"]) -> "Image":
        """The image in a file, which gzip or ZIP may have packed: then it has no file to be saved in. OSError; Refused: it has none."""
        name = os.path.abspath(path)
        data = saving.read(name)
        if packed.is_packed(data):
            return cls(packed.unpacked(data, name))
        image = cls(data)
        image._path, image._saved = name, image._data
        return image

    @classmethod
    def new(cls, form: Form = Form.D64, title: Name = "", id: Name = "00") -> "Image":
        """An empty disk: a title of at most 16 codes, and an id of two, or of five with the kind of DOS. ValueError: something else."""
        codes, mark = _title(title), _mark(id)
        data = _library.given(library.y1541_image_new, _library.FORMATTED_G64, Form(form), codes, len(codes), mark[0], mark[1])
        image = cls(data)
        if len(mark) == 5:
            image.retitle(codes, mark)
        return image

    @classmethod
    @contextlib.contextmanager
    def change(cls, path: Union[str, "os.PathLike[str]"]) -> Iterator["Image"]:
        """The image in a file, saved when the block ends without an exception. ValueError: it is packed. Others that save in its folder wait meanwhile, as for a command of disk1541."""
        name = os.path.abspath(path)
        with saving.locked_folder(name):
            image = cls.open(name)
            if image._path is None:
                raise ValueError(f"{name} is packed, and isn't written: unpack it first")
            yield image
            if image._data != image._saved:
                saving.write(name, image._data, image._saved)
                image._saved = image._data

    def save(self, path: Union[str, "os.PathLike[str]", None] = None, replace: bool = False) -> None:
        """Saves the image in its file, or in another one, to which it belongs from then on. At any exception the file is as it was.

        Changed: another program changed the file since it was opened. FileExistsError: another file exists, and isn't to be replaced.
        """
        if path is None and self._path is None:
            raise ValueError("the image has no file yet: say a path")
        name = self._path if path is None else os.path.abspath(path)
        assert name is not None
        is_own = name == self._path
        with saving.locked_folder(name):
            if not (is_own or replace) and os.path.lexists(name):
                raise FileExistsError(f"{name} is there already")
            saving.write(name, self._data, self._saved if is_own else None)
        self._path, self._saved = name, self._data

    # --- looks

    @property
    def bytes(self) -> Bytes:
        """The image's bytes as they are now."""
        return self._data

    @property
    def path(self) -> Optional[str]:
        """The file that it was opened from or saved to last."""
        return self._path

    @property
    def form(self) -> Form:
        """The image's form."""
        if len(self._data) not in _D64_SIZES:
            return Form.G64
        return Form.D64_40 if len(self._data) == _OF_40_TRACKS else Form.D64

    @property
    def title(self) -> Bytes:
        """The disk's title. Refused: 18/0 can't be read."""
        return bytes(self._head().title).rstrip(FILLER)

    @property
    def id(self) -> Bytes:
        """The two codes of the disk's id."""
        return bytes(self._head().mark[:2])

    @property
    def dos(self) -> Bytes:
        """The two codes of the kind of DOS."""
        return bytes(self._head().mark[3:])

    @property
    def free(self) -> int:
        """How many blocks are free."""
        return int(self._head().free)

    def slots(self) -> List[Entry]:
        """All slots of the directory, empty ones too. BrokenDirectory: it breaks off."""
        said, entries = self._entries()
        if said:
            raise BrokenDirectory(said, entries)
        return entries

    def files(self) -> List[Entry]:
        """The files of the directory, in its order; those never closed, too."""
        return [it for it in self.slots() if not it.is_empty]

    def deleted(self) -> List[Entry]:
        """The files that were deleted, and whose entries are still there."""
        return [it for it in self.slots() if it.is_deleted]

    def find(self, name: Name) -> Optional[Entry]:
        """The first file of just this name. Characters of patterns mean themselves."""
        codes = name_codes(name)
        return next((it for it in self.files() if it.name == codes), None)

    def read(self, which: Which) -> Bytes:
        """The bytes of a file, of one of GEOS those of its first chain. Refused: there is none (62), it was never closed (60), or it can't be read."""
        entry = self._entry_of(which)
        if not entry.closed:
            raise Refused(NEVER_CLOSED, entry.text())
        return _library.given(library.y1541_image_read, len(self._data), *self._given, entry.slot)

    def sector(self, track: int, sector: int) -> Bytes:
        """The 256 bytes of a sector. Refused: the disk has none there, or it can't be read."""
        out = ctypes.create_string_buffer(256)
        numbers = _library.byte(track, "a track"), _library.byte(sector, "a sector")
        _library.check(library.y1541_image_sector(*self._given, *numbers, out, 256), f"track {track}, sector {sector}")
        return out.raw

    def listing(self, charset: Charset = Charset.UPPER, only: Name = b"") -> str:
        """The directory as `disk1541 list` shows it, without the lines on GEOS; `only` is a pattern. Refused: the drive can't list it."""
        pattern = name_codes(only)
        return _readable(_library.given(library.y1541_image_list, _LISTING, *self._given, pattern, len(pattern)), charset)

    def check(self) -> Optional[Flaw]:
        """The first fault of the disk, or None if it is sound."""
        first = _library.Place()
        said = library.y1541_image_check(*self._given, first)
        if said == UNSOUND:
            return Flaw(first.what, first.track, first.sector)
        _library.check(said)
        return None

    def flaws(self) -> List[Flaw]:
        """Everything that is wrong with the disk."""
        said, found = _library.all_of(library.y1541_image_flaws, _library.FLAW, 16, self._data)
        _library.check(said)
        return [_flaw(*it) for it in found]

    def odd(self) -> List[Entry]:
        """The odd entries of a disk that is sound but for these, such as directory art or loops; none if it is sound. Unsound: more is wrong.

        A change leaves them alone. Refused: a change of one of them (26).
        """
        odd = {it.slot for it in self.flaws()}
        if odd:
            self._left()
        return [it for it in self.slots() if it.slot in odd]

    def convert(self, lossy: bool = False) -> "Image":
        """The image in the other format, D64 or G64. Lossy: it would lose something, and lossy isn't set."""
        lost = _library.LostStruct()
        data = _library.given(library.y1541_image_convert, _library.FORMATTED_G64, *self._given, lost)
        gone = Lost(lost.unreadable, bool(lost.tracks), bool(lost.errors), bool(lost.id))
        if any(gone) and not lossy:
            raise Lossy(gone)
        return Image(data)

    # --- changes

    def write(self, name: Name, data: Bytes, type: FileType = FileType.PRG, replace: bool = False) -> None:
        """Writes a file: a program, or of type SEQ or USR. An empty one becomes one byte, 13, as the drive closes it.

        With `replace` a file of that name gets these bytes and this type. Refused: the name is there (63), the disk is full (72) ..
        """
        codes = _file_name(name)
        old = self.find(codes)
        if old is not None and replace:
            self.rewrite(old, data, type)
            return
        letter = self._letter_to_write(type)
        if old is not None:
            raise Refused(EXISTS, petscii.text(codes))
        after = Image(self._data)
        after._put([(codes, _library.data_of(data), letter)])
        self._data = after._data

    def write_all(self, files: Iterable[NewFile]) -> None:
        """Writes several files, all or none, in one call: of each its name, its bytes, and its type if it is no program. Refused: as `write`."""
        new = [(_file_name(name), _library.data_of(data), self._letter_to_write(type[0] if type else FileType.PRG)) for name, data, *type in files]
        for codes, _, _ in new:
            if self.find(codes) is not None:
                raise Refused(EXISTS, petscii.text(codes))
        after = Image(self._data)
        after._put(new)
        self._data = after._data

    def rewrite(self, which: Which, data: Bytes, type: Optional[FileType] = None) -> None:
        """Gives a file other bytes, and another type if one is given, in its place in the directory. The old blocks are free for them. Refused: it is locked (26) .."""
        old = self._entry_of(which)
        letter = self._letter_to_write(old.type if type is None else type)
        after = Image(self._data)
        after.delete(old)
        after._put([(old.name, _library.data_of(data), letter)])
        new = after._entry_of(old.name)
        if new.slot != old.slot:
            after._change(library.y1541_image_swap, new.slot, old.slot)
        if new.field != old.field:
            after._change(library.y1541_image_rename, old.slot, old.field, len(old.field))
        self._data = after._data

    def rename(self, which: Which, name: Name) -> None:
        """Gives a file another name. Refused: a file has it already (63)."""
        codes = _file_name(name)
        self._change_to(library.y1541_image_rename, codes, self._entry_of(which).slot)

    def copy(self, which: Which, name: Name) -> None:
        """Copies a file on the disk. Refused: it is a relative file (64), was never closed (60) .. Foreign: it is GEOS's."""
        foreign.require_no_dolphin(self._data)
        codes, slot = _file_name(name), self._entry_of(which).slot
        foreign.require_no_geos_file(self, slot)
        self._change_to(library.y1541_image_copy, codes, slot)

    def delete(self, which: Which) -> None:
        """Deletes a file. Refused: it is locked (26)."""
        foreign.require_no_dolphin(self._data)
        self._change(library.y1541_image_delete, self._entry_of(which).slot)

    def lock(self, which: Which, locked: bool = True) -> None:
        """Protects a file from being deleted, or frees it again."""
        self._change(library.y1541_image_lock, self._entry_of(which).slot, int(locked))

    def unlock(self, which: Which) -> None:
        """Frees a file that is protected."""
        self.lock(which, False)

    def undelete(self, which: Which, type: FileType = FileType.PRG) -> None:
        """Gives back a deleted file, whose type was lost. Refused: there is none, or its blocks aren't free any more, or the disk has lost blocks (`validate` it)."""
        foreign.require_no_dolphin(self._data)
        self._change(library.y1541_image_undelete, _meant(which, self.deleted()).slot, int(type))

    def retitle(self, title: Name, id: Optional[Name] = None) -> None:
        """Gives the disk another title, and another id of two codes, or of five with the kind of DOS; without one it keeps its own."""
        codes, mark = _title(title), b"" if id is None else _mark(id)
        after = Image(self._data)
        after._change(library.y1541_image_retitle, codes, len(codes))
        if mark:
            mark += bytes(self._head().mark)[len(mark) :]
            after._change(library.y1541_image_remark, mark, len(mark))
        self._data = after._data

    def sort(self, by: Order = Order.NAME) -> None:
        """Sorts the directory: by codes of names, or first by types or by the blocks that are shown. Empty slots come last, and odd entries stay."""
        after, entries = Image(self._data), self.slots()
        odd = self.odd()
        slots = [it.slot for it in entries if it not in odd]
        keys = [_key(entries[it], by) for it in slots]
        for place in range(len(keys)):
            first = keys.index(min(keys[place:]), place)
            if first != place:
                after._change(library.y1541_image_swap, slots[place], slots[first])
                keys[place], keys[first] = keys[first], keys[place]
        self._data = after._data

    def validate(self) -> None:
        """Removes files that were never closed and frees lost blocks, like the drive's VALIDATE, even on a disk with a wrong BAM.

        Foreign: it would free the blocks of GEOS files, or of files in a part of the directory that isn't linked. Refused: the disk has another flaw. Unsound: lost blocks may be the rest of an odd entry.
        """
        foreign.require_no_dolphin(self._data)
        foreign.require_no_geos(self)
        foreign.require_linked_directory(self)
        if not self._is_sound_but_for_odd():
            self._data = self._mended()
            return
        after = Image(self._data)
        after.command(b"V0")
        if after.free > self.free:
            self._require_whole_odd()
        self._data = after._data

    def command(self, text: Name) -> str:
        """Has the drive carry out a command of channel 15, such as `S0:NAME`, and answers the status line, such as `01, FILES SCRATCHED,02,00`.

        Its names are patterns, and may mean several files: the other methods mean one. Refused: with that line.
        """
        codes, status = name_codes(text), _library.SaidStruct()
        try:
            self._change(library.y1541_image_command_status, codes, len(codes), status)
        except Refused as error:
            if error.number != status.number:
                raise
            raise Refused(error.number, line=_line(status)) from None
        return _line(status)

    # --- as a collection of files

    def __iter__(self) -> Iterator[Entry]:
        """The files, as `files` has them."""
        return iter(self.files())

    def __contains__(self, name: object) -> bool:
        """Whether a file has just this name."""
        return isinstance(name, (str, Bytes)) and self.find(name) is not None

    def __getitem__(self, name: Name) -> Bytes:
        """The bytes of the first file of just this name. KeyError: there is none. Refused: it can't be read."""
        entry = self.find(name)
        if entry is None:
            raise KeyError(name)
        return self.read(entry)

    def __repr__(self) -> str:
        return f"<Image, {self.form.name}, {len(self._data)} bytes{f', of {self._path}' if self._path else ''}>"

    # --- inside

    @property
    def _given(self) -> Tuple[Bytes, int]:
        """The image as the library takes it."""
        return self._data, len(self._data)

    @property
    def _room(self) -> int:
        """How many bytes it may have after a change."""
        return max(len(self._data), _library.FORMATTED_G64) if self.form == Form.G64 else len(self._data)

    def _head(self) -> _library.Title:
        """The fields of 18/0."""
        title = _library.Title()
        _library.check(library.y1541_image_title(*self._given, title), "18/0")
        return title

    def _entries(self) -> Tuple[int, List[Entry]]:
        """The slots of the directory, and with which status it breaks off after them; 0: it doesn't."""
        if self._listed is None or self._listed[0] is not self._data:
            said, found = _library.all_of(library.y1541_image_entries, _library.ENTRY, _SLOTS, self._data)
            if said < 0:
                raise Refused(said)
            self._listed = (self._data, said, [_entry(slot, *it) for slot, it in enumerate(found)])
        return self._listed[1], list(self._listed[2])

    def _entry_of(self, which: Which) -> Entry:
        """The entry of a file, which may come before the directory breaks off. BrokenDirectory, Refused: there is no such file (62)."""
        said, entries = self._entries()
        try:
            return _meant(which, [it for it in entries if not it.is_empty])
        except Refused:
            if said:
                raise BrokenDirectory(said, entries) from None
            raise

    def _letter_to_write(self, type: Union[FileType, int]) -> Bytes:
        """The letter of a type that can be written, on a disk that can. ValueError: it can't. Foreign: the disk can't."""
        if type not in _LETTERS:
            raise ValueError("only files of type SEQ, PRG and USR can be written")
        foreign.require_no_dolphin(self._data)
        return _LETTERS[FileType(type)]

    def _change(self, call: Callable[..., int], *arguments: Any) -> None:
        """Takes the image that a call gives, around odd entries if the disk is sound but for these. Unsound: it isn't sound."""
        said, data = _library.filled(call, self._room, *self._given, *arguments)
        if said == UNSOUND:
            left = self._left()
            said, data = _library.filled(call, self._room, left, len(left), *arguments)
            if said == 0:
                said, data = _library.filled(library.y1541_image_put_back, self._room, *self._given, data, len(data))
        self._check(said)
        self._data = data

    def _change_to(self, call: Callable[..., int], codes: Bytes, slot: int) -> None:
        """Takes the image after a file got a name. Refused: with that name, if another file has it."""
        try:
            self._change(call, slot, codes, len(codes))
        except Refused as error:
            if error.number != EXISTS:
                raise
            raise Refused(EXISTS, petscii.text(codes)) from None

    def _check(self, said: int) -> None:
        """Raises what a change was refused for."""
        flaw = self.check() if said == UNSOUND else None
        if flaw is not None:
            raise Unsound(flaw)
        _library.check(said)

    def _left(self) -> Bytes:
        """The image without its odd entries. Unsound: more is wrong."""
        said, data = _library.filled(library.y1541_image_put_away, self._room, *self._given)
        self._check(UNSOUND if said > 0 else said)
        return data

    def _require_whole_odd(self) -> None:
        """Unsound: the chain of an odd entry breaks off, so that blocks which no file uses may be its rest."""
        for it in self.odd():
            said, _ = _library.filled(library.y1541_image_read, len(self._data), *self._given, it.slot)
            self._check(UNSOUND if said else said)

    def _is_sound_but_for_odd(self) -> bool:
        """Whether nothing is wrong but odd entries."""
        return _library.filled(library.y1541_image_put_away, self._room, *self._given)[0] == 0

    def _mended(self) -> Bytes:
        """The image after VALIDATE by a drive: the library's command accepts only a sound disk."""
        # (both import this file)
        from .drive import Drive
        from .host import Host, refusal_of

        with Drive(self._data) as drive:
            refusal = refusal_of(Host(drive).command(b"V0"))
            if refusal is not None:
                raise refusal
            return drive.image.bytes

    def _put(self, files: List[Tuple[Bytes, Bytes, Bytes]]) -> None:
        """Writes files under new names, each with its bytes and a letter. If the text of an OPEN can't express a name, the file gets another one first."""
        unused = self._unused_names({codes for codes, _, _ in files})
        first = [codes if _PLAIN.issuperset(codes) else next(unused) for codes, _, _ in files]
        texts = [b"0:" + name + b"," + letter + b",W" for name, (_, _, letter) in zip(first, files)]
        structs = (_library.FileStruct * len(files))(*((text, len(text), data, len(data)) for text, (_, data, _) in zip(texts, files)))
        put = ctypes.c_size_t()
        try:
            self._change(library.y1541_image_put_all, structs, len(files), put)
        except Refused as error:
            if error.number < 0:
                raise
            raise Refused(error.number, petscii.text(files[put.value][0])) from None
        for name, (codes, _, _) in zip(first, files):
            if name != codes:
                self.rename(name, codes)

    def _unused_names(self, besides: Set[Bytes]) -> Iterator[Bytes]:
        """Plain names that no file has, and that aren't among these."""
        names = {it.name for it in self.files()} | besides
        return (it for it in (b"NEW %d" % number for number in itertools.count()) if it not in names)


def _entry(slot: int, blocks: int, kind: int, closed: int, locked: int, record_length: int, field: bytes, track: int, sector: int) -> Entry:
    """An entry by the fields of the library's."""
    return Entry(slot, name_in(field), file_type(kind), blocks, locked != 0, closed != 0, record_length, track, sector, field)


def _flaw(what: int, track: int, sector: int, whose: int, slot: int, before: int) -> Flaw:
    """A flaw by the fields of the library's."""
    return Flaw(what, track, sector, slot if whose == _OF_FILE else None, before, whose == _OF_DIRECTORY)


def _line(status: _library.SaidStruct) -> str:
    """The line of a status as text."""
    return bytes(status.line).split(b"\0")[0].decode("latin-1")


def _place(entry: Entry) -> Tuple[bytes, int, int]:
    """The name and first block of a file, which identify it."""
    return entry.name, entry.track, entry.sector


def _meant(which: Which, among: List[Entry]) -> Entry:
    """The entry that is meant. Refused: there is none (62), or another file has come to the slot of the one that was given."""
    if isinstance(which, Entry):
        found = [it for it in among if it.slot == which.slot and _place(it) == _place(which)]
    elif isinstance(which, int):
        found = [it for it in among if it.slot == which]
    else:
        found = [it for it in among if it.name == name_codes(which)]
    if not found:
        raise Refused(NOT_FOUND, _said(which))
    return found[0]


def _said(which: Which) -> str:
    """A file in the words of the caller."""
    if isinstance(which, Entry):
        return f"{which.text()} in slot {which.slot}"
    return f"slot {which}" if isinstance(which, int) else petscii.text(name_codes(which))


def _file_name(name: Name) -> bytes:
    """The codes of a file's name. ValueError: none can be so."""
    codes = name_codes(name)
    if not 1 <= len(codes) <= 16 or FILLER in codes:
        raise ValueError(f"a file's name has 1 to 16 codes, none of them $A0: {petscii.text(codes)}")
    return codes


def _title(title: Name) -> bytes:
    """The codes of a title. ValueError: there are more than sixteen."""
    codes = name_codes(title)
    if len(codes) > 16:
        raise ValueError(f"a title has at most 16 codes: {petscii.text(codes)}")
    return codes


def _mark(id: Name) -> bytes:
    """The codes of an id. ValueError: there are neither two nor five."""
    codes = name_codes(id)
    if len(codes) not in (2, 5):
        raise ValueError(f"an id has two codes, or five: {petscii.text(codes)}")
    return codes


def _key(entry: Entry, by: Order) -> Tuple[int, int, Bytes]:
    """What an entry is sorted by: an empty one comes after all files."""
    first = {Order.NAME: 0, Order.TYPE: int(entry.type), Order.SIZE: entry.blocks}[by]
    return (1, 0, b"") if entry.is_empty else (0, first, entry.name)


def _readable(listing: bytes, charset: Charset) -> str:
    """The lines of a directory that the drive sent as a BASIC program: each has its number and its text up to a 0."""
    shown = petscii.keys(listing, charset)
    lines, at = [], 2
    while at + 4 <= len(listing) and listing[at + 1]:
        first, number = at + 4, listing[at + 2] + 256 * listing[at + 3]
        end = listing.find(0, first + 1 + _SURE)
        end = len(listing) if end < 0 else end
        begin = first + (listing[first : first + 1] == _REVERSE)
        lines.append(f"{number} {shown[begin:end]}\n")
        at = end + 1
    return petscii.spelled("".join(lines))
