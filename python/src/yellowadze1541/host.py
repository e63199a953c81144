"""A computer at the drives of a bus, with the calls that BASIC has for them."""
import contextlib
from typing import Optional, TextIO

from .bus import Bus
from .drive import Drive
from .kernal import Computer, Kernal, Status
from .petscii import Name, name_codes
from .refusals import Refused

__all__ = ["BusError", "Host"]

# Secondary addresses.
_OPEN, _DATA, _CLOSE = 0xF0, 0x60, 0xE0
_COMMANDS = 15
# The first number of a status that is an error, and that of power up, which isn't.
_ERRORS, _POWER_UP = 20, 73


class BusError(Exception):
    """The bus doesn't answer: `status` is the KERNAL's. If `stuck`, a real computer would wait for ever."""

    def __init__(self, status: int, stuck: bool) -> None:
        super().__init__("the computer waits for the bus for ever" if stuck else f"the bus doesn't answer: ST is {status}")
        self.status, self.stuck = status, stuck


class Host:
    """A computer with a KERNAL, by the model of kernal.py. `device` is the drive that it addresses; the default is the first one."""

    def __init__(self, *drives: Drive, device: Optional[int] = None, computer: Computer = Computer.PAL, seed: int = 0, trace: Optional[TextIO] = None) -> None:
        """Switches the computer on, connected to these drives. The seed decides the time between two calls of its program. A trace gets each change of a line."""
        if not drives:
            raise ValueError("a host needs a drive")
        self.device = drives[0].device if device is None else device
        self.kernal = Kernal(Bus(*drives, trace=trace), computer, seed)

    def load(self, name: Name) -> bytes:
        """LOAD: the bytes of a program or of the directory (`$`), with its load address. Refused: the drive's status."""
        self.open(0, name)
        try:
            data = self.receive(0)
        except BusError as error:
            if error.stuck:
                raise
            raise self._refusal() or error
        self.close(0)
        return data

    def save(self, name: Name, data: bytes) -> None:
        """SAVE: writes a program. Refused: the drive's status."""
        self.open(1, name)
        self.send(1, data)
        self.close(1)
        refusal = self._refusal()
        if refusal is not None:
            raise refusal

    def status(self) -> str:
        """The line of channel 15, such as `00, OK,00,00`, which is then read. The channel isn't closed, as that would close all others."""
        return self.receive(_COMMANDS).rstrip(b"\r").decode("latin-1")

    def command(self, text: Name) -> str:
        """Sends a command to channel 15, and answers the status line."""
        self.send(_COMMANDS, name_codes(text))
        return self.status()

    def open(self, channel: int, name: Name) -> None:
        """OPEN of a channel from 0 to 15 with a text."""
        self._tell(_OPEN | _channel(channel), name_codes(name))

    def send(self, channel: int, data: bytes) -> None:
        """PRINT# of bytes."""
        self._tell(_DATA | _channel(channel), bytes(data))

    def receive(self, channel: int) -> bytes:
        """GET# up to the last byte that the channel has. BusError: it has none."""
        kernal = self.kernal
        kernal.status = 0
        kernal.talk(self.device)
        kernal.tksa(_DATA | _channel(channel))
        self._require(Status(0))
        out = bytearray()
        while not kernal.status & Status.EOI:
            value = kernal.acptr()
            self._require(Status.EOI)
            out.append(value)
        kernal.untalk()
        self._require(Status.EOI)
        return bytes(out)

    def close(self, channel: int) -> None:
        """CLOSE of a channel."""
        self._tell(_CLOSE | _channel(channel), b"")

    def _tell(self, secondary: int, data: bytes) -> None:
        """LISTEN, a secondary address, bytes, UNLISTEN."""
        kernal = self.kernal
        kernal.status = 0
        kernal.listen(self.device)
        kernal.second(secondary)
        if not kernal.status & Status.ABSENT:
            for value in data:
                if kernal.stuck:
                    break
                kernal.ciout(value)
            kernal.unlisten()
        self._require(Status(0))

    def _require(self, may_have: Status) -> None:
        """BusError: the computer is stuck, or its status has another bit than these."""
        if self.kernal.stuck or self.kernal.status & ~may_have:
            raise BusError(self.kernal.status, self.kernal.stuck)

    def _refusal(self) -> Optional[Refused]:
        """What the drive's status refuses; None: nothing."""
        with contextlib.suppress(BusError):
            return refusal_of(self.status())
        return None


def refusal_of(line: str) -> Optional[Refused]:
    """What a line of channel 15 refuses; None: nothing."""
    number = int(line[:2]) if line[:2].isdigit() else 0
    return Refused(number) if number >= _ERRORS and number != _POWER_UP else None


def _channel(number: int) -> int:
    """A channel's number. ValueError: it is none."""
    if not 0 <= number <= 15:
        raise ValueError(f"a channel is 0 to 15, and not {number}")
    return number
