#!/usr/bin/env python3
"""geos_disk.py OUT: a disk of GEOS, made byte by byte (from the GEOS Programmer's Reference Guide, and descriptions of its disk format).

LETTER, a document of records (VLIR): its entry leads to 1/0, which lists two records of two blocks and one, 1/2 to 1/4; its info
block is 1/1. TOOL, an application in one sequence, 1/5 and 1/6, with its info in 1/7. DRAFT, which was never closed, had 1/8.
18/0 has "GEOS format V1.0" and the border block, 1/9. 2/5 is an unused block. For the drive the chain of LETTER
is only 1/0.
"""

import sys

import generated_disks as disks

TAKEN = [(1, n) for n in (0, 1, 2, 3, 4, 5, 6, 7, 9)] + [(2, 5), (18, 0), (18, 1)]


def entry(kind, first, name, blocks, info=(0, 0), structure=0, geos=0):
    return bytes([kind, *first]) + name.ljust(16, b"\xa0") + bytes([*info, structure, geos]) + bytes(5) + blocks.to_bytes(2, "little")


def main():
    image = bytearray(174_848)

    def put(track, sector, values, at=0):
        place = disks.place(track, sector) + at
        image[place : place + len(values)] = bytes(values)

    put(1, 0, [0, 255, 1, 2, 1, 4, 0, 255])
    put(1, 1, [0, 255, 3, 21, 191])
    put(1, 2, [1, 3])
    put(1, 3, [0, 200])
    put(1, 4, [0, 100])
    put(1, 5, [1, 6])
    put(1, 6, [0, 255])
    put(1, 7, [0, 255, 3, 21, 191])
    put(1, 9, [0, 255])
    put(18, 1, [0, 255])
    put(18, 1, entry(0x83, (1, 0), b"LETTER", 5, (1, 1), 1, 7), 2)
    put(18, 1, entry(0x82, (1, 5), b"TOOL", 2, (1, 7), 0, 6), 34)
    put(18, 1, entry(0x01, (1, 8), b"DRAFT", 1), 66)
    put(18, 0, [18, 1, 0x41, 0])
    for track in range(1, 36):
        bits = sum(1 << s for s in range(disks.sectors_of(track)) if (track, s) not in TAKEN)
        put(18, 0, [bin(bits).count("1"), bits & 255, bits >> 8 & 255, bits >> 16], 4 * track)
    put(18, 0, b"GEOS".ljust(16, b"\xa0") + b"\xa0\xa064\xa02A" + bytes([0xA0, 0xA0, 0xA0, 0xA0, 1, 9]) + b"GEOS format V1.0", 144)
    with open(sys.argv[1], "wb") as out:
        out.write(image)


if __name__ == "__main__":
    if len(sys.argv) != 2:
        sys.exit(__doc__)
    main()
