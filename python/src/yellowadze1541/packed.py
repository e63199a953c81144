"""Images in files that gzip or ZIP packed: they are read, and never written.

The rule is disk1541's: of a ZIP archive the one file with an image's name is read, or the only file.
"""
import gzip
import io
import zipfile
import zlib

from . import _library
from .refusals import NO_IMAGE, Refused

__all__ = ["is_packed", "unpacked"]

# How packed files begin, and the sizes of a D64, which is an image however it begins.
_GZIP, _ZIP = b"\x1f\x8b", (b"PK\x03\x04", b"PK\x05\x06")
_SIZES = (174_848, 175_531, 196_608)
_ENDINGS = (".d64", ".g64")


def is_packed(data: bytes) -> bool:
    """Whether bytes are packed."""
    return data.startswith((_GZIP, *_ZIP)) and len(data) not in _SIZES


def unpacked(data: bytes, path: str) -> bytes:
    """The image in packed bytes. Refused: they are damaged, or have no image, or several."""
    try:
        image = _of_gzip(data) if data.startswith(_GZIP) else _of_zip(data, path)
    except (OSError, EOFError, RuntimeError, NotImplementedError, zipfile.BadZipFile, zlib.error) as error:
        raise Refused(NO_IMAGE, f"{path}: it can't be unpacked ({error})") from error
    if len(image) > _library.GREATEST_IMAGE:
        raise Refused(NO_IMAGE, f"{path}: the file in it is larger than any image")
    return image


def _of_gzip(data: bytes) -> bytes:
    """The bytes of the packed file, or one more than any image has."""
    with gzip.GzipFile(fileobj=io.BytesIO(data)) as it:
        return it.read(_library.GREATEST_IMAGE + 1)


def _of_zip(data: bytes, path: str) -> bytes:
    """The same of the image in an archive."""
    with zipfile.ZipFile(io.BytesIO(data)) as archive:
        files = [it for it in archive.infolist() if not it.is_dir()]
        images = [it for it in files if it.filename.lower().endswith(_ENDINGS)]
        chosen = images or files
        if len(chosen) != 1:
            raise Refused(NO_IMAGE, f"{path}: the archive has {'several images' if images else 'no image'}")
        with archive.open(chosen[0]) as it:
            return it.read(_library.GREATEST_IMAGE + 1)
