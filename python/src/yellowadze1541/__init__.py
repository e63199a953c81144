"""Disk images of the Commodore 1541, and the drive itself, by libyellowadze1541.

    from yellowadze1541 import Image
    image = Image.open("hello.d64")
    print(image.listing())
    data = image.read("HELLO")

`Image` is a D64 or a G64, `Drive` a drive on the lines of a serial bus, `Host` a computer at it. The C library is proved; these Python files are not.
"""
from ._library import version_text
from .drive import Drive, Pace, Pulls, Reaction, Received
from .entries import Entry, FileType
from .host import BusError, Host
from .image import Form, Image, Order
from .petscii import Charset, codes, text
from .refusals import BrokenDirectory, Changed, Flaw, Foreign, Lossy, Lost, Refused, Unsound

__all__ = [
    "BrokenDirectory",
    "BusError",
    "Changed",
    "Charset",
    "Drive",
    "Entry",
    "FileType",
    "Flaw",
    "Foreign",
    "Form",
    "Host",
    "Image",
    "Lossy",
    "Lost",
    "Order",
    "Pace",
    "Pulls",
    "Reaction",
    "Received",
    "Refused",
    "Unsound",
    "codes",
    "text",
]

__version__ = version_text()
