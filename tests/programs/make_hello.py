#!/usr/bin/env python3
"""Makes hello.d64: a formatted disk of title TEST and id AB with a closed program HELLO of the bytes 1, 2 and 3."""
import os

SECTORS = [21] * 17 + [19] * 7 + [18] * 6 + [17] * 5


def place(track, sector):
    return 256 * (sum(SECTORS[: track - 1]) + sector)


image = bytearray(174848)


def put(at, data):
    image[at : at + len(data)] = data


def map_of(track, taken):
    bits = sum(1 << s for s in range(SECTORS[track - 1]) if s not in taken)
    return bytes([bin(bits).count("1")]) + bits.to_bytes(3, "little")


head = place(18, 0)
put(head, bytes([18, 1, 0x41, 0]))
for track in range(1, 36):
    put(head + 4 * track, map_of(track, {18: [0, 1], 17: [0]}.get(track, [])))
put(head + 144, b"\xa0" * 27)
put(head + 144, b"TEST")
put(head + 162, b"AB")
put(head + 165, b"2A")

entry = place(18, 1)
put(entry, bytes([0, 0xFF, 0x82, 17, 0]) + b"HELLO".ljust(16, b"\xa0"))
put(entry + 30, bytes([1, 0]))
put(place(17, 0), bytes([0, 4, 1, 2, 3]))

with open(os.path.join(os.path.dirname(os.path.abspath(__file__)), "../../examples/hello.d64"), "wb") as file:
    file.write(image)
