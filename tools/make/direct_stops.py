#!/usr/bin/env python3
"""direct_stops.py [N]: random scripts of files and of direct access, each of whose writes is refused in turn, as a transcript (docs/dev/transcripts.md).

After each refusal the disk must be sound, each file as before or as after, and V must give all blocks back. What it prints is
crates/cases/data/direct_stops.cases; with N there are so many scripts.
"""

import os
import random
import sys

sys.path.insert(0, os.path.join(os.path.dirname(os.path.realpath(__file__)), "../../tests/programs"))
from check_direct import direct_script, with_blocks, Drive

SCRIPTS = 12
EMPTY = bytes(174848)


def text(r, most):
    return "".join(r.choice("ABCDEFGH 123") for _ in range(r.randint(1, most)))


def written(r, name):
    """A file that is written: its OPEN, bytes for up to four blocks, its CLOSE."""
    return [f"open 6 {name}", *(f"put 6 {text(r, 250)}" for _ in range(r.randint(1, 4))), "close 6"]


def changes(r):
    """Changes of files, each of another file. (None is appended to: while it is open it is neither as before nor as after.)"""
    each = [written(r, "@0:OLD,S,W"), written(r, "NEW,S,W"), written(r, "MORE,P,W"), ["put 15 S0:GONE"], ["put 15 R0:OTHER=NAME"]]
    return r.sample(each, r.randint(1, 4))


def blocks(r):
    """Commands on blocks that print nothing, of which no start would leave a file open."""
    lines, _ = direct_script(r, Drive(EMPTY))
    kept = [it for it in lines[: r.randint(1, 16)] if it.startswith(("open", "put 15 U2", "put 15 UB", "put 15 B", "put 2", "put 3", "put 4", "put 5"))]
    return [*kept, "close 2", "close 3", "close 4", "close 5", "close 14"]


def script(seed):
    r = random.Random(f"direct stops {seed}")
    lines = []
    for one in changes(r):
        lines += with_blocks(r, one) if r.random() < 0.7 else one
        if r.random() < 0.5:
            lines += blocks(r)
    return lines


def main():
    count = int(sys.argv[1]) if len(sys.argv) > 1 else SCRIPTS
    print("; Made by tools/make/direct_stops.py: files and blocks are written, and each write is refused in turn, alone and with all after it.")
    for seed in range(count):
        print(f"\n== script {seed}\ndisk empty")
        for name in ("OLD", "GONE", "NAME"):
            print(f"> open 6 {name},S,W\n> put 6 {name}\n> close 6")
        print("then, direct, g64 too, refusing each write")
        for line in script(seed):
            print(f"> {line}")


main()
