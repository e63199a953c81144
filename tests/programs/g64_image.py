"""A plain writer and reader of G64 images: each track is a circle of bits, in which ten ones or more begin a block of group code, four bytes in five. It has
nothing in common with the program's code."""
import functools, re, struct

NIBBLES = [0x0A, 0x0B, 0x12, 0x13, 0x0E, 0x0F, 0x16, 0x17, 0x09, 0x19, 0x1A, 0x1B, 0x0D, 0x1D, 0x1E, 0x15]
CODES = [NIBBLES[it >> 4] << 5 | NIBBLES[it & 15] for it in range(256)]
BYTES = {code: it for it, code in enumerate(CODES)}
SIZES, MOST = {21: 7692, 19: 7142, 18: 6666, 17: 6250}, 7928
# The error bytes of a D64 for a sector without a header, without a data block, and with a wrong checksum.
FINE, NO_HEADER, NO_DATA, BAD_DATA = 1, 2, 4, 5


def sectors_on(track):
    return 21 if track < 18 else 19 if track < 25 else 18 if track < 31 else 17


def place(track, sector):
    return 256 * (sum(sectors_on(it) for it in range(1, track)) + sector)


def group(data):
    """Bytes as group code."""
    bits = 0
    for it in data:
        bits = bits << 10 | CODES[it]
    return bits.to_bytes(len(data) * 10 // 8, "big")


def check_of(data):
    return functools.reduce(lambda so_far, it: so_far ^ it, data, 0)


@functools.lru_cache(5000)
def block_of(track, sector, data, ident, fault):
    """A sector: its header, a gap, its data."""
    header = bytes((sector, track, ident[1], ident[0]))
    first = group(bytes((8, check_of(header))) + header + b"\x0f\x0f")
    check = check_of(data) ^ (0x10 if fault == BAD_DATA else 0)
    second = group(b"\7" + data + bytes((check, 0, 0)))
    return (b"" if fault == NO_HEADER else b"\xff" * 5 + first) + b"\x55" * 9 + (b"" if fault == NO_DATA else b"\xff" * 5 + second) + b"\x55" * 12


def turned(data, bits):
    """A track that begins some bits further round."""
    whole, size = int.from_bytes(data, "big"), 8 * len(data)
    return ((whole << bits | whole >> size - bits) & (1 << size) - 1).to_bytes(len(data), "big")


def made_of(flat, faults=None, turn=0, more=()):
    """The G64 of a D64's sectors: faults by track and sector, each track turned by so many bits; more are tracks of bytes, by their number in half tracks from 0 on."""
    faults, at = faults or {}, place(18, 0)
    ident, tracks = bytes(flat[at + 162 : at + 164]), dict(more)
    for track in range(1, 36):
        blocks = [block_of(track, n, bytes(flat[place(track, n) : place(track, n) + 256]), ident, faults.get((track, n), FINE)) for n in range(sectors_on(track))]
        tracks[2 * track - 2] = turned(b"".join(blocks).ljust(SIZES[sectors_on(track)], b"\x55"), turn)
    offsets, speeds, body = [0] * 84, [0] * 84, b""
    for number, data in sorted(tracks.items()):
        offsets[number], speeds[number] = 684 + len(body), 3 - [21, 19, 18, 17].index(sectors_on(number // 2 + 1))
        body += len(data).to_bytes(2, "little") + data.ljust(MOST, b"\0")
    return b"GCR-1541" + bytes((0, 84)) + MOST.to_bytes(2, "little") + struct.pack("<84I", *offsets) + struct.pack("<84I", *speeds) + body


def decoded(bits, start, count):
    """So many bytes of group code from a bit on, None if one is none; bits has the circle twice."""
    code = int(bits[start : start + 10 * count], 2)
    found = [BYTES.get(code >> 10 * (count - 1 - n) & 1023) for n in range(count)] if count < 20 else long_code(code, count)
    return None if None in found else bytes(found)


def long_code(code, count):
    data, found = code.to_bytes(10 * count // 8, "big"), []
    for n in range(0, len(data), 5):
        five = int.from_bytes(data[n : n + 5], "big")
        found += [BYTES.get(five >> 30), BYTES.get(five >> 20 & 1023), BYTES.get(five >> 10 & 1023), BYTES.get(five & 1023)]
    return found


@functools.lru_cache(5000)
def sectors_of_track(track, data):
    """For each sector its bytes and its error byte."""
    once = bin(int.from_bytes(b"\1" + data, "big"))[3:]
    bits, found = once * 2, {}
    blocks = [it.end() for it in re.finditer("1{10,}", bits) if it.start() < len(once)]
    for n, start in enumerate(blocks):
        header = decoded(bits, start, 8)
        if not header or header[0] != 8 or check_of(header[1:6]) or header[3] != track or header[2] in found:
            continue
        after = blocks[(n + 1) % len(blocks)]
        body = decoded(bits, after, 260) if decoded(bits, after, 1) == b"\7" else None
        if body is None:
            found[header[2]] = (bytes(256), NO_DATA)
        else:
            found[header[2]] = (body[1:257], BAD_DATA if check_of(body[1:258]) else FINE)
    return found


def read(image):
    """The sectors of 35 tracks, and an error byte for each, as a D64 has them."""
    flat, errors = b"", b""
    for track in range(1, 36):
        at = struct.unpack_from("<I", image, 12 + 8 * (track - 1))[0]
        size = struct.unpack_from("<H", image, at)[0] if at else 0
        there = sectors_of_track(track, bytes(image[at + 2 : at + 2 + size])) if at else {}
        for sector in range(sectors_on(track)):
            data, error = there.get(sector, (bytes(256), NO_HEADER))
            flat, errors = flat + data, errors + bytes([error])
    return flat + errors
