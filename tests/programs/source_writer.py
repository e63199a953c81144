"""A plain writer of disks and archives of other kinds: files one after another, in sectors in order of their number."""
import source_model as model

TYPES = {"del": 0, "seq": 1, "prg": 2, "usr": 3}

# Each kind of disk, and whether it has an error byte for each sector.
SHAPES = {
    "d64 of 42 tracks": (model.D64_42, False),
    "d64 of 42 tracks with error bytes": (model.D64_42, True),
    "d64 of 40 tracks with error bytes": (model.D64_40, True),
    "d71": (model.D71, False),
    "d71 with error bytes": (model.D71, True),
    "d81": (model.D81, False),
    "d81 with error bytes": (model.D81, True),
}


def disk_of(kind, files, most=99):
    """A disk with these files, from its last track on, or from one before."""
    shape, has_errors = kind
    image = bytearray(256 * len(shape.places))
    system = {shape.directory[0], *([53] if shape.tracks == 70 else [])}
    free = [it for it in reversed(shape.places) if it[0] not in system and it[0] <= most]

    def put(place, data):
        at = 256 * shape.number[place]
        image[at : at + len(data)] = data

    entries = []
    for name, kind, locked, data in files:
        chain = [free.pop(0) for _ in range(max(1, -(-len(data) // 254)))]
        for n, place in enumerate(chain):
            part = data[254 * n : 254 * n + 254]
            link = bytes(chain[n + 1]) if n + 1 < len(chain) else bytes((0, len(part) + 1))
            put(place, link + part)
        entries.append(bytes((0x80 + 0x40 * locked + TYPES[kind], *chain[0])) + name.ljust(16, b"\xa0") + bytes(9) + len(chain).to_bytes(2, "little"))
    sectors = [entries[n : n + 8] for n in range(0, len(entries), 8)] or [[]]
    track, first = shape.directory
    for n, eight in enumerate(sectors):
        link = (track, first + n + 1) if n + 1 < len(sectors) else (0, 255)
        body = b"".join(e + (bytes(2) if k < 7 else b"") for k, e in enumerate(eight))
        put((track, first + n), bytes(link) + body)
    at = 256 * shape.number[shape.header] + (4 if shape.tracks == 80 else 144)
    image[at : at + 23] = b"OTHER KIND".ljust(18, b"\xa0") + b"K7\xa03D"
    return bytes(image) + (b"\1" * len(shape.places) if has_errors else b"")


def tape_of(files):
    head = b"C64S tape image file".ljust(32, b"\0") + (0x101).to_bytes(2, "little") + len(files).to_bytes(2, "little") * 2 + bytes(2) + b"TAPE".ljust(24)
    at, directory, body = 64 + 32 * len(files), b"", b""
    for name, kind, locked, data in files:
        start = data[0] + 256 * data[1]
        directory += bytes((1, 0x80 + TYPES[kind])) + start.to_bytes(2, "little") + (start + len(data) - 2).to_bytes(2, "little") + bytes(2) + at.to_bytes(4, "little") + bytes(4) + name.ljust(16)
        body, at = body + data[2:], at + len(data) - 2
    return head + directory + body


def lynx_of(files, width=50):
    """An archive: blocks of a program and its directory, and then the files in blocks of 254 bytes; before a relative file's stand its side sectors."""
    text, body = f"  *LYNX XV  BY TEST\r {len(files)} \r".encode(), b""
    for name, kind, _, data in files:
        blocks = max(1, -(-len(data) // 254))
        side = -(-blocks // 120) if kind == "rel" else 0
        record = f" {width} \r" if side else ""
        text += name.ljust(16, b"\xa0") + f"\r {blocks + side} \r{kind[0].upper()}\r{record} {len(data) - 254 * (blocks - 1) + 1} \r".encode()
        body += bytes(254 * side) + data.ljust(254 * blocks, b"\0")
    program = b"\1\x08" + bytes(5) + b"\x9e2061" + b"\0\0\0\r"
    count = -(-(len(program) + len(text) + 3) // 254)
    return (program + f" {count}".encode() + text).ljust(254 * count, b"\0") + body
