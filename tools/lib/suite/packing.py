"""Packs what the player does into data files, each with its own tables of shared operations and of disks.

A file: the number of shared operations, the number of disks, the place of the cases (two bytes), the places of the shared operations and disks (two bytes
each), these operations and disks, and the cases. Each case has its operation, the place of the next one, its number, its class, its title, its operations.
"""
import collections

from . import code, images

# A shared operation is one byte, from 128 on.
MOST_SHARED = 128
MOST_DISKS = 250
# How many characters of a title are shown.
TITLE = 36


class File:
    """Cases of one file, and their disks."""

    def __init__(self, cases):
        self.cases, self.disks = cases, []
        self.streams = [self.operations(it) for it in cases]
        self.shared = self.to_share()

    def operations(self, played):
        """The operations of a case, with the numbers of disks."""
        found = []
        for it in played.ops:
            if isinstance(it, bytes):
                found.append(it)
                continue
            if isinstance(it, images.Insert):
                found.append(it.op())
                continue
            if it.ops not in self.disks:
                self.disks.append(it.ops)
            found.append(code.op("PREPARE", self.disks.index(it.ops)))
        return found

    def to_share(self):
        """The operations that save most bytes if they are written once."""
        counts = collections.Counter(it for ops in [*self.streams, *self.disks] for it in ops)
        saved = {it: (count - 1) * len(it) - count - 2 for it, count in counts.items()}
        best = sorted((it for it in saved if saved[it] > 0), key=lambda it: -saved[it])
        return {it: number for number, it in enumerate(best[:MOST_SHARED])}

    def packed(self, ops):
        """Operations, shared ones as one byte."""
        return b"".join(bytes([128 + self.shared[it]]) if it in self.shared else it for it in ops)

    def case_bytes(self, played, ops, at):
        """A case, at its place."""
        title = played.case.title.upper().encode("ascii", "replace")[:TITLE]
        rest = code.word(played.number) + played.class_letter.encode() + code.text(title) + self.packed(ops) + code.op("END_OF_CASE")
        # (a file that is too large is cut in two, whatever stands here)
        return code.op("CASE") + code.word(min(at + 3 + len(rest), 65535)) + rest

    def data(self):
        """The bytes of the file."""
        parts = [*self.shared, *(code.op("NEW") + self.packed(it) + code.op("END_OF_DISK") for it in self.disks)]
        at = 4 + 2 * len(parts)
        places = b""
        for it in parts:
            places += code.word(at)
            at += len(it)
        found = bytes([len(self.shared), len(self.disks)]) + code.word(at) + places + b"".join(parts)
        for played, ops in zip(self.cases, self.streams):
            found += self.case_bytes(played, ops, len(found))
        return found + code.op("END_OF_FILE")


def files(cases, size):
    """The cases as files of at most so many bytes, in their order."""
    found, rest = [], list(cases)
    while rest:
        low, high = 1, len(rest)
        while low < high:
            middle = (low + high + 1) // 2
            made = File(rest[:middle])
            if len(made.data()) <= size and len(made.disks) <= MOST_DISKS:
                low = middle
            else:
                high = middle - 1
        found.append(File(rest[:low]))
        rest = rest[low:]
    return found
