"""The language of the suite's player: transcripts as bytes.

A text is parts of literal bytes (a length up to 254, the bytes) or of one repeated byte (255, a count of two bytes, the byte), and a 0 ends it.
"""
from . import transcripts

# Operations of the player. tools/suite.d/player.c has the same names, from a header that is written from this list.
NAMES = (
    "END_OF_FILE",
    "OPEN",  # channel, text
    "PUT",  # channel, text
    "GET",  # channel, whether the last byte has EOI, text
    "GET_BEGINNING",  # channel, number of bytes (two bytes), text
    "GET_NOTHING",  # channel
    "STATUS",  # text
    "CLOSE",  # channel
    "CASE",  # place of the next one and number (two bytes each), class, title as a text
    "END_OF_CASE",
    "PREPARE",  # number of the disk in this file
    "END_OF_DISK",
    "CHANGED",  # the step can have changed the disk
    "NEW",  # an empty disk, by a short NEW
    "FORMAT",  # the same by a long NEW, which writes the disk's id
    "CALM",  # all channels are closed, the status is read
    "RESTART",  # the drive restarts
    "IMAGE",  # name as a text: the user puts this image in
    "ZEROS",  # track, sector, then parts: a sector of zeros but for these parts
    "PATCH",  # track, sector, then parts: a sector with these parts changed
    "SECTOR",  # track, sector, position, text: bytes of a sector
    "DIRECTORY",  # text: its lines
    "FREE",  # number of blocks (two bytes)
)
CODE = {name: number for number, name in enumerate(NAMES)}
# The longest part of literal bytes.
LONGEST = 254


def header():
    """The names as a C header."""
    rows = [f"#define {name} {number}" for name, number in CODE.items()]
    return "/* Made by tools/suite from tools/lib/suite/code.py. */\n" + "\n".join(rows) + "\n"


def op(name, *values):
    """An operation: its code, then numbers from 0 to 255 and bytes."""
    found = bytes([CODE[name]])
    for value in values:
        found += bytes([value]) if isinstance(value, int) else value
    return found


def word(number):
    """Two bytes, the low one first."""
    return number.to_bytes(2, "little")


def literal(data):
    """The parts of bytes that don't repeat."""
    return b"".join(bytes([len(data[n : n + LONGEST])]) + data[n : n + LONGEST] for n in range(0, len(data), LONGEST))


def repeated(value, count):
    """The parts of a byte that repeats."""
    found = b""
    while count:
        part = min(count, 65535)
        found += b"\xff" + word(part) + bytes([value])
        count -= part
    return found


def text(data):
    """Bytes as a text."""
    found, plain, at = b"", b"", 0
    while at < len(data):
        end = at + 1
        while end < len(data) and data[end] == data[at]:
            end += 1
        if end - at > 5:
            found += literal(plain) + repeated(data[at], end - at)
            plain = b""
        else:
            plain += data[at:end]
        at = end
    return found + literal(plain) + b"\0"


def length(data):
    """How many bytes a text has that these bytes begin with."""
    count, at = 0, 0
    while data[at]:
        part = data[at]
        count += int.from_bytes(data[at + 1 : at + 3], "little") if part == 255 else part
        at += 4 if part == 255 else part + 1
    return count


def answer(request, channel, count):
    """The operation of a request that prints an answer."""
    found = request.answer
    if found.startswith("status "):
        return op("STATUS", text(found[len("status ") :].encode() + b"\r"))
    bytes_and_end = found.split(" ", 2)[2]
    if bytes_and_end == "none":
        return op("GET_NOTHING", channel)
    if bytes_and_end.endswith(" .."):
        return op("GET_BEGINNING", channel, word(min(count, 65535)), text(transcripts.bytes_of(bytes_and_end[:-3])))
    has_end = bytes_and_end.endswith(" eoi")
    return op("GET", channel, int(has_end), text(transcripts.bytes_of(bytes_and_end.removesuffix(" eoi"))))


def request(it):
    """The operation of a request."""
    word_of, _, rest = it.line.partition(" ")
    if word_of == "status":
        return answer(it, 15, 0)
    number, _, rest = rest.partition(" ")
    channel = int(number)
    if word_of == "open":
        return op("OPEN", channel, text(transcripts.text_bytes(rest)))
    if word_of == "put":
        return op("PUT", channel, text(transcripts.text_bytes(rest)))
    if word_of == "fill":
        count, value = rest.split()
        return op("PUT", channel, repeated(int(value, 16), int(count)) + b"\0")
    if word_of == "close":
        return op("CLOSE", channel)
    return answer(it, channel, int(rest))
