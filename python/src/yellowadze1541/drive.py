"""A drive on the lines of a serial bus. Moments are microseconds on a clock of the caller's, which may begin anywhere, and never go back for one drive."""
import ctypes
import enum
from types import TracebackType
from typing import Literal, NamedTuple, Optional, Type, Union

from . import _library
from ._library import library
from .image import Image
from .petscii import Name, name_codes
from .refusals import ABSENT, INVALID, Refused

__all__ = ["Drive", "Pace", "Pulls", "Reaction", "Received"]


# The most bytes of a state in addition to the disk's image.
_STATE = 16384
# The channel of commands and of the status, and how many bytes are asked of a channel at a time.
_COMMANDS = 15
_PART = 65536


class Pace(enum.IntEnum):
    """A drive's pace."""

    PROFILE = 0  # for hosts that keep the project's bus profile, docs/bus.md
    KERNAL = 1  # for the KERNAL of a C64 or a VIC-20


class Pulls(NamedTuple):
    """The lines that a drive holds low."""

    clock: bool
    data: bool


class Reaction(NamedTuple):
    """A reaction of a drive: when, the lines that it holds low from then on, and which of them changed."""

    moment: int
    clock: bool
    data: bool
    clock_changed: bool
    data_changed: bool


class Received(NamedTuple):
    """Bytes of a channel, and whether the last of them came with EOI."""

    data: bytes
    last: bool


class Drive:
    """A drive, switched on with the disk of an image. It may be used in a `with` block, which closes it.

    The caller joins the lines: one is low if anyone pulls it. The loop, at each access of the port at `now`: while `next_due` is before `now`, call `due`, and pass
    the changes to all other parties. Pass the lines that all others pull to the drive with `lines`.
    """

    def __init__(
        self,
        image: Union[Image, bytes],
        device: int = 8,
        reaction: int = 20,
        pace: Pace = Pace.KERNAL,
        protected: bool = False,
        *,
        direct: Union[bool, Literal["raw"]] = False,
    ) -> None:
        """Device 8 to 11, a reaction of 1 to 60 microseconds, whether the disk's notch is covered, and whether the drive has direct access (docs/direct.md). `raw`:
        any block may be written, and the disk needn't stay sound."""
        self._handle = _library.Handle()
        self._reacted = _library.Reacted()
        data = _data_of(image)
        settings = _library.byte(device, "a device"), _library.byte(reaction, "a reaction"), int(pace)
        self.device = device
        self._room = _room_for(data)
        open_it = library.y1541_open_raw if direct == "raw" else library.y1541_open_direct if direct else library.y1541_open
        _library.check(open_it(self._handle, data, len(data), int(protected), *settings))

    # --- the bus

    def lines(self, moment: int, atn: bool, clock: bool, data: bool) -> None:
        """From this time on, all others together pull these lines low. Refused: a reaction is due before, or time goes back."""
        _library.check(library.y1541_lines(self._handle, _moment(moment), bool(atn), bool(clock), bool(data)))

    @property
    def next_due(self) -> Optional[int]:
        """The moment of the drive's next reaction; None: it waits for a line."""
        due: int = library.y1541_next_due(self._handle)
        return None if due == _library.NEVER else due

    def due(self, moment: int) -> Optional[Reaction]:
        """Performs the reaction due at or before a moment; None: nothing is due by then."""
        it = self._reacted
        said = library.y1541_due(self._handle, _moment(moment), it)
        if said == ABSENT:
            return None
        _library.check(said)
        return Reaction(it.moment, bool(it.clock_low), bool(it.data_low), bool(it.clock_changed), bool(it.data_changed))

    @property
    def pulls(self) -> Pulls:
        """The lines that the drive holds low now."""
        pulls = _library.Pulls()
        _library.check(library.y1541_pulls_now(self._handle, pulls))
        return Pulls(bool(pulls.clock_low), bool(pulls.data_low))

    def reset(self) -> None:
        """Switches the drive off and on with its disk. It assumes that all lines are free until `lines` is called."""
        _library.check(library.y1541_reset(self._handle))

    # --- its DOS without the wires

    def open_channel(self, channel: int, text: Name) -> None:
        """OPEN of a channel from 0 to 15 with a text such as `NAME,P,R`; on channel 15 it is a command. This and the next calls have the effect of the same bytes on the
        wires, at once. `status` then has the number of the DOS's answer. Refused: the wires aren't at rest, as something is pulled or due."""
        codes = name_codes(text)
        _library.check(library.y1541_channel_open(self._handle, _channel(channel), codes, len(codes)))

    def write_channel(self, channel: int, data: bytes) -> None:
        """Sends bytes to a channel, the last one with EOI."""
        data = _library.data_of(data)
        _library.check(library.y1541_channel_write(self._handle, _channel(channel), data, len(data)))

    def read_channel(self, channel: int, size: Optional[int] = None) -> Received:
        """Takes bytes from a channel: up to the one with EOI, but at most `size`. There are none if the channel has nothing to send."""
        if size is not None:
            return self._received(channel, size)
        data = b""
        while True:
            part = self._received(channel, _PART)
            data += part.data
            if part.last or len(part.data) < _PART:
                return Received(data, part.last)

    def close_channel(self, channel: int) -> None:
        """CLOSE of a channel; that of channel 15 closes all."""
        _library.check(library.y1541_channel_close(self._handle, _channel(channel)))

    def command(self, text: Name) -> str:
        """Sends a command to channel 15, and answers its line, such as `01, FILES SCRATCHED,02,00`."""
        self.write_channel(_COMMANDS, name_codes(text))
        return self.status_line()

    def status_line(self) -> str:
        """The line of channel 15, such as `00, OK,00,00`, which is then read: after it the status is 0."""
        return self.read_channel(_COMMANDS).data.rstrip(b"\r").decode("latin-1")

    def _received(self, channel: int, size: int) -> Received:
        """Bytes of one TALK."""
        out, got, last = ctypes.create_string_buffer(size), ctypes.c_size_t(), ctypes.c_uint8()
        _library.check(library.y1541_channel_read(self._handle, _channel(channel), out, size, got, last))
        return Received(out.raw[: got.value], bool(last.value))

    # --- the disk

    @property
    def image(self) -> Image:
        """The disk as it is now; a file being written is not closed in it. Refused: there is no disk."""
        return Image(_library.given(library.y1541_image, self._room, self._handle))

    @property
    def writes(self) -> int:
        """How many sectors were written since the disk was put in: if this has grown, the image is worth saving."""
        return int(library.y1541_writes(self._handle))

    @property
    def status(self) -> int:
        """The number of the status; this doesn't read channel 15. 20 or more is an error, except 73 (power up)."""
        said: int = library.y1541_status(self._handle)
        if said < 0:
            raise Refused(said)
        return said

    def eject(self) -> Image:
        """Takes the disk out."""
        return Image(_library.given(library.y1541_eject, self._room, self._handle))

    def insert(self, image: Union[Image, bytes], protected: bool = False) -> None:
        """Puts in another disk; the one that was in is gone."""
        data = _data_of(image)
        _library.check(library.y1541_insert(self._handle, data, len(data), int(protected)))
        self._room = _room_for(data)

    # --- its whole state

    def save(self) -> bytes:
        """The whole state of the drive, its disk included: `restore` makes a drive of it that does what this one would have done."""
        return _library.given(library.y1541_save, self._room + _STATE, self._handle)

    def restore(self, state: bytes) -> None:
        """Makes this drive the one that was saved. Refused: the bytes are no state, or broken; then the drive stays as it is."""
        state = _library.data_of(state)
        _library.check(library.y1541_restore(self._handle, state, len(state)))

    # --- its end

    def close(self) -> None:
        """Ends the drive. Any call after that is refused."""
        library.y1541_close(self._handle)

    def __enter__(self) -> "Drive":
        return self

    def __exit__(self, kind: Optional[Type[BaseException]], value: Optional[BaseException], trace: Optional[TracebackType]) -> None:
        self.close()

    def __del__(self) -> None:
        self.close()


def _data_of(image: Union[Image, bytes]) -> bytes:
    """The bytes of an image."""
    return image.bytes if isinstance(image, Image) else _library.data_of(image)


def _room_for(data: bytes) -> int:
    """How many bytes the image may have when it comes out."""
    return max(len(data), _library.FORMATTED_G64)


def _moment(value: int) -> int:
    """A moment as C takes it. Refused: it is out of its range."""
    if not 0 <= value < _library.END_OF_TIME:
        raise Refused(INVALID, f"no moment: {value}")
    return value


def _channel(number: int) -> int:
    """A channel's number. ValueError: it is none."""
    if not 0 <= number <= _COMMANDS:
        raise ValueError(f"a channel is 0 to {_COMMANDS}, and not {number}")
    return number
