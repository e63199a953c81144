#!/usr/bin/env python3
"""g64_track.py G64 TRACK: the expected output of `disk1541 track` for a track, read bit by bit from the format's rules: a sync mark is ten ones or more, a
zero ends it and begins a block of group code, four bytes in five."""
import struct, sys

from g64_image import NIBBLES

image = open(sys.argv[1], "rb").read()
number, _, half = sys.argv[2].partition(".")
place = struct.unpack_from("<I", image, 12 + 4 * (2 * int(number) - 2 + (half == "5")))[0]
length = struct.unpack_from("<H", image, place)[0]
bits = "".join(f"{byte:08b}" for byte in image[place + 2:place + 2 + length])
count = len(bits)


def at(start, many):
    return (bits * 2)[start % count:][:many] if many <= count else None


def decoded(start, many):
    """So many bytes of group code, None for one that is none."""
    found = []
    for k in range(many):
        high, low = at(start + 10 * k, 5), at(start + 10 * k + 5, 5)
        high, low = int(high, 2), int(low, 2)
        found.append(16 * NIBBLES.index(high) + NIBBLES.index(low) if high in NIBBLES and low in NIBBLES else None)
    return found


begins = []
for k in range(count):
    ones = 0
    while ones < count and bits[(k - 1 - ones) % count] == "1":
        ones += 1
    if bits[k] == "0" and ones >= 10:
        begins.append((k, ones))
print(f"track {sys.argv[2]}: {count} bits\n   bit")
headers = data = others = 0
for n, (k, ones) in enumerate(begins):
    first = decoded(k, 4)
    size = 0
    if None in first:
        others, what = others + 1, "block that is no group code"
    elif first[0] == 8:
        header = decoded(k, 8)
        good = header[1] == header[2] ^ header[3] ^ header[4] ^ header[5]
        headers, size = headers + 1, 80
        what = f"header {header[3]}/{header[2]}, id {header[5]:02x} {header[4]:02x}, checksum {'good' if good else 'bad'}"
    elif first[0] == 7:
        block, sum_ = decoded(k, 260), 0
        data, size = data + 1, 2600
        if None in block:
            what = "data block with bytes that are no group code"
        else:
            for byte in block[1:257]:
                sum_ ^= byte
            what = f"data block, checksum {'good' if sum_ == block[257] else 'bad'}"
    else:
        others, what = others + 1, f"block that begins with {first[0]:02x}"
    after, later = begins[(n + 1) % len(begins)]
    gap = (after - later - k) % count if len(begins) > 1 else count - ones
    print(f"{(k - ones) % count:>6}  sync {ones}, {what}, gap {gap - size}")
print(f"{headers} headers, {data} data blocks, {others} other blocks")
