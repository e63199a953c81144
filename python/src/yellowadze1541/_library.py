"""libyellowadze1541 by ctypes: its structs, its calls, and how what they give is taken. capi/yellowadze1541.h says what each does."""
import ctypes
import os
import struct
from ctypes import POINTER, c_char_p, c_int32, c_size_t, c_uint8, c_uint16, c_uint32, c_uint64
from pathlib import Path
from typing import Any, Callable, List, Tuple

from .refusals import NO_ROOM, Refused

# Y1541_VERSION of the header that these declarations follow; a test compares the two.
VERSION = 0x000400
# The moment of what never comes.
NEVER = 2**64 - 1
# Moments are below this.
END_OF_TIME = 2**60
# The image of a G64 whose tracks the drive formats grows to this many bytes.
FORMATTED_G64 = 278_234
# The largest image: a G64 of 84 tracks.
GREATEST_IMAGE = 833_292


class Handle(ctypes.Structure):
    _fields_ = [("at", ctypes.c_void_p)]


class Pulls(ctypes.Structure):
    _fields_ = [("clock_low", c_uint8), ("data_low", c_uint8)]


class Reacted(ctypes.Structure):
    _fields_ = [("moment", c_uint64), *((name, c_uint8) for name in ("clock_low", "data_low", "clock_changed", "data_changed"))]


class Place(ctypes.Structure):
    _fields_ = [("what", c_uint8), ("track", c_uint8), ("sector", c_uint8)]


class Title(ctypes.Structure):
    _fields_ = [("free", c_uint16), ("title", c_uint8 * 16), ("mark", c_uint8 * 5)]


class EntryStruct(ctypes.Structure):
    _fields_ = [
        ("blocks", c_uint16),
        *((name, c_uint8) for name in ("kind", "closed", "locked", "record_length")),
        ("name", c_uint8 * 16),
        ("track", c_uint8),
        ("sector", c_uint8),
    ]


# The same, as its bytes lie.
ENTRY = struct.Struct("=HBBBB16sBB")


class FlawStruct(ctypes.Structure):
    _fields_ = [*((name, c_uint8) for name in ("what", "track", "sector", "whose")), ("slot", c_uint16), ("before", c_uint16)]


FLAW = struct.Struct("=BBBBHH")


class LostStruct(ctypes.Structure):
    _fields_ = [("unreadable", c_size_t), ("tracks", c_uint8), ("errors", c_uint8), ("id", c_uint8)]


class FileStruct(ctypes.Structure):
    _fields_ = [("text", c_char_p), ("n", c_size_t), ("bytes", c_char_p), ("count", c_size_t)]


class SaidStruct(ctypes.Structure):
    _fields_ = [("number", c_uint8), ("first", c_uint8), ("second", c_uint8), ("line", c_uint8 * 33)]


_BYTES = (c_char_p, c_size_t)
_OUT = (ctypes.c_void_p, c_size_t, POINTER(c_size_t))
_DRIVE = (POINTER(Handle),)
# The arguments of each call; a test compares them with the header.
CALLS = {
    "y1541_open": (*_DRIVE, *_BYTES, c_uint8, c_uint8, c_uint8, c_uint8),
    "y1541_open_direct": (*_DRIVE, *_BYTES, c_uint8, c_uint8, c_uint8, c_uint8),
    "y1541_open_raw": (*_DRIVE, *_BYTES, c_uint8, c_uint8, c_uint8, c_uint8),
    "y1541_close": _DRIVE,
    "y1541_lines": (*_DRIVE, c_uint64, c_uint8, c_uint8, c_uint8),
    "y1541_next_due": _DRIVE,
    "y1541_due": (*_DRIVE, c_uint64, POINTER(Reacted)),
    "y1541_pulls_now": (*_DRIVE, POINTER(Pulls)),
    "y1541_reset": _DRIVE,
    "y1541_image": (*_DRIVE, *_OUT),
    "y1541_writes": _DRIVE,
    "y1541_eject": (*_DRIVE, *_OUT),
    "y1541_insert": (*_DRIVE, *_BYTES, c_uint8),
    "y1541_status": _DRIVE,
    "y1541_channel_open": (*_DRIVE, c_uint8, *_BYTES),
    "y1541_channel_write": (*_DRIVE, c_uint8, *_BYTES),
    "y1541_channel_read": (*_DRIVE, c_uint8, *_OUT, POINTER(c_uint8)),
    "y1541_channel_close": (*_DRIVE, c_uint8),
    "y1541_save": (*_DRIVE, *_OUT),
    "y1541_restore": (*_DRIVE, *_BYTES),
    "y1541_image_check": (*_BYTES, POINTER(Place)),
    "y1541_image_title": (*_BYTES, POINTER(Title)),
    "y1541_image_entries": (*_BYTES, *_OUT),
    "y1541_image_flaws": (*_BYTES, *_OUT),
    "y1541_image_list": (*_BYTES, *_BYTES, *_OUT),
    "y1541_image_read": (*_BYTES, c_uint8, *_OUT),
    "y1541_image_sector": (*_BYTES, c_uint8, c_uint8, ctypes.c_void_p, c_size_t),
    "y1541_image_put_all": (*_BYTES, POINTER(FileStruct), c_size_t, POINTER(c_size_t), *_OUT),
    "y1541_image_command_status": (*_BYTES, *_BYTES, POINTER(SaidStruct), *_OUT),
    "y1541_image_rename": (*_BYTES, c_uint8, *_BYTES, *_OUT),
    "y1541_image_copy": (*_BYTES, c_uint8, *_BYTES, *_OUT),
    "y1541_image_delete": (*_BYTES, c_uint8, *_OUT),
    "y1541_image_lock": (*_BYTES, c_uint8, c_uint8, *_OUT),
    "y1541_image_undelete": (*_BYTES, c_uint8, c_uint8, *_OUT),
    "y1541_image_swap": (*_BYTES, c_uint8, c_uint8, *_OUT),
    "y1541_image_retitle": (*_BYTES, *_BYTES, *_OUT),
    "y1541_image_remark": (*_BYTES, *_BYTES, *_OUT),
    "y1541_image_put_away": (*_BYTES, *_OUT),
    "y1541_image_put_back": (*_BYTES, *_BYTES, *_OUT),
    "y1541_image_new": (c_uint8, *_BYTES, c_uint8, c_uint8, *_OUT),
    "y1541_image_convert": (*_BYTES, POINTER(LostStruct), *_OUT),
}
# What those answer that answer no c_int32.
ANSWERS = {"y1541_close": None, "y1541_next_due": c_uint64, "y1541_writes": c_uint64, "y1541_version": c_uint32}


def _loaded() -> ctypes.CDLL:
    """The library that YELLOWADZE1541 names, or the one beside this file."""
    library = ctypes.CDLL(os.environ.get("YELLOWADZE1541") or str(Path(__file__).with_name("libyellowadze1541.so")))
    library.y1541_version.restype = c_uint32
    found = library.y1541_version()
    if found >> 8 != VERSION >> 8:
        raise ImportError(f"the library's version is {found:#08x}, and not {VERSION:#08x}")
    for name, arguments in CALLS.items():
        call = getattr(library, name)
        call.argtypes, call.restype = arguments, ANSWERS.get(name, c_int32)
    return library


library = _loaded()


def version_text() -> str:
    """The version of the library, as 0.4.0."""
    number: int = library.y1541_version()
    return ".".join(str(it) for it in number.to_bytes(3, "big"))


def check(said: int, about: str = "") -> None:
    """Raises what the library refused."""
    if said != 0:
        raise Refused(said, about)


def data_of(value: Any) -> bytes:
    """The bytes of any buffer. TypeError: it is something else, such as a number or a list."""
    try:
        return value if isinstance(value, bytes) else memoryview(value).tobytes()
    except TypeError:
        raise TypeError(f"bytes are needed, not {type(value).__name__}") from None


def byte(value: int, what: str) -> int:
    """A number that C takes as a byte. ValueError: it is none."""
    if not 0 <= value <= 255:
        raise ValueError(f"{what} must be 0 to 255, and not {value}")
    return value


def filled(call: Callable[..., int], room: int, *arguments: Any) -> Tuple[int, bytes]:
    """What a call of the library answers, and the bytes that it gives: it is asked with this much room first, and then with as much as it says."""
    needed = c_size_t()
    while True:
        out = bytearray(room)
        said = call(*arguments, (ctypes.c_char * room).from_buffer(out), room, needed)
        if said != NO_ROOM or needed.value <= room:
            return said, bytes(memoryview(out)[: needed.value])
        room = needed.value


def given(call: Callable[..., int], room: int, *arguments: Any) -> bytes:
    """The bytes that a call gives."""
    said, out = filled(call, room, *arguments)
    check(said)
    return out


def all_of(call: Callable[..., int], form: struct.Struct, room: int, image: bytes) -> Tuple[int, List[Tuple[Any, ...]]]:
    """What a call answers that gives structs, and their fields, with room for this many at first."""
    count = c_size_t()
    while True:
        out = bytearray(room * form.size)
        said = call(image, len(image), (ctypes.c_char * len(out)).from_buffer(out), room, count)
        if said != NO_ROOM or count.value <= room:
            return said, list(form.iter_unpack(memoryview(out)[: count.value * form.size]))
        room = count.value
