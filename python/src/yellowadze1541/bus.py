"""The serial bus between a host and drives, as an emulator keeps it: examples/c/bus.h in Python."""
from typing import List, Optional, TextIO, Tuple, Union

from .drive import Drive, Pulls

__all__ = ["Bus"]


class Bus:
    """Three lines, each low if anyone pulls it. A trace gets a line for each change, as `drive1541 judge` reads it."""

    def __init__(self, *drives: Drive, trace: Optional[TextIO] = None) -> None:
        self.trace = trace
        self.drives: List[Drive] = []
        self._pulls: List[Pulls] = []
        self.atn = self.clock = self.data = False  # what the host holds
        for it in drives:
            self.add(it, 0)

    def add(self, drive: Drive, now: int) -> None:
        """Puts a drive on the bus, which is told what all others hold."""
        self.drives.append(drive)
        self._pulls.append(drive.pulls)
        self._tell(len(self.drives) - 1, now)

    def write(self, now: int, atn: bool, clock: bool, data: bool) -> None:
        """The host's port is written; the host comes before what drives do at the same moment."""
        self.run_to(now)
        if (atn, clock, data) != (self.atn, self.clock, self.data):
            for line, before, low in (("atn", self.atn, atn), ("clock", self.clock, clock), ("data", self.data, data)):
                self._note(now, "host", line, before, low)
            self.atn, self.clock, self.data = atn, clock, data
            self._tell_all(None, now)

    def read(self, now: int) -> Tuple[bool, bool]:
        """The host's port is read: whether CLOCK and DATA were low just before."""
        self.run_to(now)
        return self._joined(None)

    def run_to(self, now: int) -> None:
        """All reactions before a moment, in their order; of several at once that of the drive in front."""
        while True:
            dues = [(due, number) for number, it in enumerate(self.drives) for due in [it.next_due] if due is not None and due < now]
            if not dues:
                return
            due, number = min(dues)
            reaction = self.drives[number].due(due)
            assert reaction is not None
            before, self._pulls[number] = self._pulls[number], Pulls(reaction.clock, reaction.data)
            self._note(due, self.drives[number].device, "clock", before.clock, reaction.clock)
            self._note(due, self.drives[number].device, "data", before.data, reaction.data)
            if reaction.clock_changed or reaction.data_changed:
                self._tell_all(number, due)

    def _note(self, now: int, who: Union[int, str], line: str, before: bool, low: bool) -> None:
        """A line of the trace, if a party's line has changed."""
        if self.trace is not None and bool(before) != bool(low):
            self.trace.write(f"{now} {who} {line} {'pull' if low else 'free'}\n")

    def _joined(self, but: Optional[int]) -> Tuple[bool, bool]:
        """Whether CLOCK and DATA are low by the host and all drives but one."""
        others = [it for number, it in enumerate(self._pulls) if number != but]
        return self.clock or any(it.clock for it in others), self.data or any(it.data for it in others)

    def _tell(self, number: int, now: int) -> None:
        self.drives[number].lines(now, self.atn, *self._joined(number))

    def _tell_all(self, but: Optional[int], now: int) -> None:
        for number in range(len(self.drives)):
            if number != but:
                self._tell(number, now)
