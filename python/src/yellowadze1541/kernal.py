"""The KERNAL of a C64 or a VIC-20 as a host on the bus, store by store and look by look, in cycles.

Its moments are a model, counted from memory of the ROM's listing and not measured at a computer: examples/c/kernal.h in Python. A test plays both and compares.
"""
import enum
from typing import NamedTuple, Optional

from .bus import Bus

__all__ = ["Computer", "Kernal", "Status"]

# How often a wait is tried before it counts as one for ever.
_PATIENCE = 8000


class Computer(enum.Enum):
    """A computer: cycles a second, and cycles from one bad line to the next (0: none, as with the screen off)."""

    PAL = (985_248, 504)
    DARK_PAL = (985_248, 0)
    NTSC = (1_022_727, 520)
    DARK_NTSC = (1_022_727, 0)
    VIC = (1_108_405, 0)


class Status(enum.IntFlag):
    """The KERNAL's status, which BASIC calls ST."""

    READ_TIMEOUT = 2
    TIMEOUT = 3
    EOI = 0x40
    ABSENT = 0x80


class _Seen(NamedTuple):
    clock: bool
    data: bool


class Kernal:
    """The routines of a KERNAL. `stuck`: it waits in vain, for ever."""

    def __init__(self, bus: Bus, computer: Computer = Computer.PAL, seed: int = 0) -> None:
        """As it is switched on: IOINIT pulls CLOCK, and leaves it so."""
        self.bus = bus
        self.status = 0
        self.stuck = False
        self._hertz, self._lines = computer.value
        self.cycles = 0  # that have passed
        self._buffered: Optional[int] = None
        self._seed = seed * 2654435761 % 2**32
        self._bad_line = self._chance() * 2 if self._lines else 0
        self._timer_low = 0xFF if seed // 2 % 2 else 0
        self._store(1000, clock=True)
        self._pass(1000)

    # --- time and lines

    def _chance(self) -> int:
        self._seed = (self._seed * 1664525 + 1013904223) % 2**32
        return self._seed >> 24

    def _pass(self, cycles: int) -> None:
        """Cycles pass, and those that a bad line steals among them."""
        self.cycles += cycles
        while self._lines and self.cycles >= self._bad_line:
            self.cycles += 40 + self._chance() % 4
            self._bad_line += self._lines

    @property
    def _moment(self) -> int:
        return (self.cycles * 1_000_000 + self._hertz // 2) // self._hertz

    def _store(self, cycles: int, atn: Optional[bool] = None, clock: Optional[bool] = None, data: Optional[bool] = None) -> None:
        """A store to the port: a line is pulled or freed."""
        self._pass(cycles)
        if self.stuck:
            return
        bus = self.bus
        bus.write(self._moment, bus.atn if atn is None else atn, bus.clock if clock is None else clock, bus.data if data is None else data)

    def _look(self, cycles: int) -> _Seen:
        self._pass(cycles)
        return _Seen(*self.bus.read(self._moment))

    def _look_twice(self, cycles: int) -> _Seen:
        """LDA and CMP of the port, until both see the same."""
        seen = self._look(cycles)
        for _ in range(_PATIENCE):
            if self._look(4) == seen:
                break
            seen = self._look(7)
        return seen

    def _await(self, cycles: int, again: int, clock: Optional[bool] = None, data: Optional[bool] = None) -> _Seen:
        """Looks until a line is low, or free; so many cycles to the first look, and from one to the next."""
        seen = self._look_twice(cycles)
        for _ in range(_PATIENCE):
            if clock in (None, seen.clock) and data in (None, seen.data) or self.stuck:
                return seen
            seen = self._look_twice(again)
        self.stuck = True
        return seen

    def _timer_end(self, high: int) -> int:
        return self.cycles + (high | self._timer_low)

    def _low_before(self, cycles: int, end: int, line: str) -> bool:
        """Whether a line is low before a timer ends."""
        self._pass(cycles)
        for _ in range(_PATIENCE):
            if self.cycles >= end:
                break
            if getattr(self._look_twice(14), line):
                return True
            self._pass(17)
        return False

    def _works(self) -> None:
        """What a program does between two calls."""
        self._pass(12)
        by = self._chance()
        if by >= 240:
            self._pass(1000)
        elif by >= 64:
            self._pass(self._chance())

    def _release(self, cycles: int) -> None:
        self._store(cycles, atn=False)
        self._store(77, clock=False)
        self._store(19, data=False)

    def _fail(self, status: int) -> None:
        if not self.stuck:
            self.status |= status
            self._release(60)

    # --- a byte out

    def _send(self, cycles: int, value: int, last: bool) -> None:
        """ISOUR."""
        self._store(cycles, data=False)
        if not self._look_twice(16).data:
            return self._fail(Status.ABSENT)
        self._store(28, clock=False)
        self._await(21 if last else 22, 23, data=False)
        if last:
            self._await(22, 23, data=True)
            self._await(22, 23, data=False)
        self._store(28, clock=True)
        if not self._send_bits(value):
            return self._fail(Status.TIMEOUT)
        self._pass(19)
        if not self._low_before(8, self._timer_end(0x400), "data"):
            self._fail(Status.TIMEOUT)

    def _send_bits(self, value: int) -> bool:
        """Eight bits; False if DATA is low before one of them."""
        for bit in range(8):
            if self._look_twice(12 if bit else 15).data:
                return False
            one = value >> bit & 1
            self._store(30 if one else 29, data=not one)
            self._store(22 if one else 25, clock=False)
            self._store(26, clock=True)
            self._store(0, data=False)
        return True

    def _attention(self, cycles: int, value: int) -> None:
        self._store(cycles, clock=True)
        self._store(22, data=False)
        self._send(961, value, False)

    def _list1(self, cycles: int, value: int) -> None:
        self._store(cycles, data=False)
        self._store(21, atn=True)
        self._attention(18, value)

    def listen(self, device: int) -> None:
        """LISTEN to a device."""
        self._works()
        self._list1(62, 0x20 | device)

    def talk(self, device: int) -> None:
        """TALK to a device."""
        self._works()
        self._list1(62, 0x40 | device)

    def second(self, value: int) -> None:
        """The secondary address after LISTEN."""
        self._works()
        self._attention(41, value)
        self._store(30, atn=False)

    def tksa(self, value: int) -> None:
        """The secondary address after TALK, and the turnaround."""
        self._works()
        self._attention(41, value)
        self._store(38, data=True)
        self._store(22, atn=False)
        self._store(22, clock=False)
        self._await(16, 23, clock=True)

    def ciout(self, value: int) -> None:
        """A byte to the listener: it waits until it is known whether it is the last."""
        self._works()
        if self._buffered is not None:
            self._send(53, self._buffered, False)
        self._buffered = value

    def unlisten(self) -> None:
        """The byte that waits, as the last one, and UNLISTEN."""
        self._works()
        if self._buffered is None:
            self._list1(42, 0x3F)
        else:
            value, self._buffered = self._buffered, None
            self._send(67, value, True)
            self._list1(55, 0x3F)
        self._release(36)

    def untalk(self) -> None:
        """UNTALK."""
        self._works()
        self._store(31, clock=True)
        self._store(16, atn=True)
        self._list1(46, 0x5F)
        self._release(36)

    # --- a byte in

    def _begun_in_time(self, cycles: int) -> bool:
        self._pass(cycles)
        end = self._timer_end(0x100)
        self._store(16, data=False)
        return self._low_before(14, end, "clock")

    def acptr(self) -> int:
        """A byte from the talker."""
        self._works()
        self._store(37, clock=False)
        self._await(16, 23, clock=False)
        if not self._begun_in_time(24) and not self._begun_as_last():
            self._fail(Status.READ_TIMEOUT)
            return 0
        value = self._take_bits()
        self._store(29, data=True)
        if self.status & Status.EOI:
            self._store(88, clock=False)
            self._store(19, data=False)
        return value

    def _begun_as_last(self) -> bool:
        """The answer to EOI, and whether the byte begins then."""
        self._store(27, data=True)
        self._store(22, clock=False)
        self.status |= Status.EOI
        return self._begun_in_time(46)

    def _take_bits(self) -> int:
        value = 0
        for bit in range(8):
            value |= (not self._await(18 if bit else 24, 11, clock=False).data) << bit
            self._await(15, 11, clock=True)
        return value
