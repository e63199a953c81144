#!/usr/bin/env python3
"""make_examples.py DISK1541: makes the files in examples/ with which the commands of the pages can be tried (make_hello.py makes hello.d64):

- art.d64, a disk with a line of directory art that points to 18/0;
- wrong_bam.d64, whose BAM marks tracks 1 to 17 as free, though two files are stored there, and new.prg, a third file;
- game.prg, levels.seq and changes.txt, for the how-tos of docs/disk1541.md;
- two.trace, two sessions that the host breaks, and c64.trace, LOAD"$",8 of a C64 (from crates/cases/data/kernal.cases)."""
import pathlib, re, subprocess, sys, tempfile

from generated_disks import place

ROOT = pathlib.Path(__file__).resolve().parents[2]
EXAMPLES = ROOT / "examples"
TWO = """0 host atn pull
0 host clock pull
20 8 data pull
99 host clock free
119 8 data free
200 host atn free
1000 host atn pull
1000 host clock pull
1020 8 data pull
1099 host clock free
"""
ART = """title = "SCENE"
id = "64"

[[entry]]
file = "loader.prg"

[[entry]]
art = "----------------"
"""
PAIR = """title = "OLD"
id = "64"
track = 1

[[entry]]
file = "one.prg"

[[entry]]
file = "two.prg"
"""


def pattern(count, step):
    """So many bytes of a program at $0801."""
    return bytes([1, 8]) + bytes(48 + (place * step) % 43 for place in range(count - 2))


def build(disk1541, recipe, files, out):
    """An image of a recipe and its files."""
    with tempfile.TemporaryDirectory() as room:
        for name, data in files.items():
            pathlib.Path(room, name).write_bytes(data)
        pathlib.Path(room, "disk.toml").write_text(recipe)
        subprocess.run([disk1541, "build", f"{room}/disk.toml", out, "--replace"], check=True)


def poke(path, track, sector, first, data):
    """Other bytes of a sector, from a place on."""
    image = bytearray(path.read_bytes())
    at = place(track, sector) + first
    image[at : at + len(data)] = data
    path.write_bytes(image)


def make_disks(disk1541):
    art, pair = EXAMPLES / "art.d64", EXAMPLES / "wrong_bam.d64"
    build(disk1541, ART, {"loader.prg": pattern(900, 5)}, art)
    poke(art, 18, 1, 32 + 3, bytes([18, 0]))
    build(disk1541, PAIR, {"one.prg": pattern(20000, 7), "two.prg": pattern(15000, 11)}, pair)
    poke(pair, 18, 0, 4, bytes([21, 255, 255, 31]) * 17)


def c64_trace():
    """The events of LOAD"$",8 of a C64 for PAL, of the transcripts."""
    text = (ROOT / "crates/cases/data/kernal.cases").read_text("utf-8")
    case = re.search(r'^== [^\n]*LOAD"\$",8 of a C64 for PAL.*?(?=^== |\Z)', text, re.M | re.S)[0]
    return "".join(re.findall(r"^\d+ (?:host|8) (?:atn|clock|data) (?:pull|free)\n", case, re.M))


def main():
    if len(sys.argv) != 2:
        sys.exit(__doc__)
    make_disks(sys.argv[1])
    for name, data in {"new.prg": pattern(30000, 13), "game.prg": b"\x01\x08game", "levels.seq": b"level"}.items():
        (EXAMPLES / name).write_bytes(data)
    for name, text in {"changes.txt": "put game.prg\ntitle 'OUR DISK'\n", "two.trace": TWO, "c64.trace": c64_trace()}.items():
        (EXAMPLES / name).write_text(text)


if __name__ == "__main__":
    main()
