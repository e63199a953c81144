#!/usr/bin/env python3
"""list_image.py IMAGE [FILE]: the directory of a D64 or G64 by the library, or the bytes of a file, by ctypes. The library is found as
libyellowadze1541.so, or the path in the environment's YELLOWADZE1541."""
import ctypes, os, sys

LIBRARY = ctypes.CDLL(os.environ.get("YELLOWADZE1541", "libyellowadze1541.so"))
TYPES = ["DEL", "SEQ", "PRG", "USR", "REL"]


class Title(ctypes.Structure):
    _fields_ = [("free", ctypes.c_uint16), ("title", ctypes.c_uint8 * 16), ("mark", ctypes.c_uint8 * 5)]


class Entry(ctypes.Structure):
    _fields_ = [("blocks", ctypes.c_uint16)] + [(it, ctypes.c_uint8) for it in ("kind", "closed", "locked", "record_length")] + [("name", ctypes.c_uint8 * 16), ("track", ctypes.c_uint8), ("sector", ctypes.c_uint8)]


BYTES = [ctypes.c_char_p, ctypes.c_size_t]
LIBRARY.y1541_image_title.argtypes = [*BYTES, ctypes.POINTER(Title)]
LIBRARY.y1541_image_entry.argtypes = [*BYTES, ctypes.c_uint8, ctypes.POINTER(Entry)]
LIBRARY.y1541_image_file.argtypes = [*BYTES, *BYTES, ctypes.c_void_p, ctypes.c_size_t, ctypes.POINTER(ctypes.c_size_t)]


def text(codes):
    """Letters and digits as they are, and a dot for each other code."""
    return "".join(chr(it) if 32 <= it < 96 else "." for it in codes)


def must(number):
    if number:
        sys.exit(f"list_image: the library answered {number}")


def listed(image):
    title, entry = Title(), Entry()
    must(LIBRARY.y1541_image_title(image, len(image), title))
    print(f'0 "{text(bytes(title.title).replace(bytes([160]), b" "))}" {text(bytes(title.mark).replace(bytes([160]), b" "))}')
    for slot in range(144):
        if LIBRARY.y1541_image_entry(image, len(image), slot, entry):
            break
        if entry.kind or entry.closed:
            name = f'"{text(bytes(entry.name).partition(bytes([160]))[0])}"'
            kind = TYPES[entry.kind] if entry.kind < len(TYPES) else "???"
            print(f"{entry.blocks:<4} {name:<18}{' ' if entry.closed else '*'}{kind}{'<' if entry.locked else ''}")
    print(f"{title.free} BLOCKS FREE.")


def main():
    if len(sys.argv) < 2:
        sys.exit(__doc__)
    with open(sys.argv[1], "rb") as it:
        image = it.read()
    if len(sys.argv) < 3:
        return listed(image)
    pattern, needed, room = sys.argv[2].encode(), ctypes.c_size_t(), ctypes.create_string_buffer(200000)
    must(LIBRARY.y1541_image_file(image, len(image), pattern, len(pattern), room, len(room), needed))
    sys.stdout.buffer.write(room.raw[: needed.value])


if __name__ == "__main__":
    main()
