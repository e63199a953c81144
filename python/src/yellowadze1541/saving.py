"""Files of images, saved as disk1541 saves them.

The folder is locked (flock), the new bytes are written to a file beside, synced, and then get the image's name. So a stop at any moment leaves the old image
or the new one. The names of the files beside are disk1541's, and each of the two removes what the other left there when it was killed.
"""
import contextlib
import fcntl
import os
import re
import stat
from typing import Iterator, Optional

from . import _library
from .refusals import NO_IMAGE, Changed, Refused

# The longest name that the file beside repeats.
_LONGEST_NAME = 200


def read(path: str) -> bytes:
    """The bytes of an image. Refused: the file has more than any image."""
    with open(path, "rb") as file:
        data = file.read(_library.GREATEST_IMAGE + 1)
    if len(data) > _library.GREATEST_IMAGE:
        raise Refused(NO_IMAGE, path)
    return data


@contextlib.contextmanager
def locked_folder(path: str) -> Iterator[None]:
    """Keeps others that save images in a file's folder out, and waits until they let go. A folder that can't be locked isn't."""
    folder = -1
    with contextlib.suppress(OSError):
        folder = os.open(os.path.dirname(path) or ".", os.O_RDONLY | os.O_CLOEXEC)
        fcntl.flock(folder, fcntl.LOCK_EX)
    try:
        yield
    finally:
        if folder >= 0:
            os.close(folder)


def write(path: str, data: bytes, old: Optional[bytes] = None) -> None:
    """Puts these bytes in a file's place, whose folder is locked. Changed: it doesn't hold the old bytes any more, if some are given. At any exception the file
    is as it was. A link stays one, and the file's mode stays."""
    place = os.path.realpath(path)
    mode = _mode_of(place)
    if mode is not None and not stat.S_ISREG(mode):
        with open(place, "wb") as file:
            file.write(data)
        return
    if mode is not None:
        # (a rename asks the folder alone: here the file's own mode is heard)
        os.close(os.open(place, os.O_WRONLY | os.O_CLOEXEC))
    _remove_left(place)
    new = _write_beside(place, data, mode)
    try:
        if old is not None and read(place) != old:
            raise Changed(f"{path} was changed by another program, and isn't saved")
        os.rename(new, place)
    except BaseException:
        os.unlink(new)
        raise


def _mode_of(place: str) -> Optional[int]:
    """The mode of a file; None where there is none."""
    try:
        return os.stat(place).st_mode
    except FileNotFoundError:
        return None


def _beginning(place: str) -> str:
    """How the names of files beside a file begin."""
    name = os.path.basename(place)
    return f"disk1541.{name if len(os.fsencode(name)) <= _LONGEST_NAME else ''}."


def _write_beside(place: str, data: bytes, mode: Optional[int]) -> str:
    """Writes a new file beside, with the old one's mode, and waits until it is on the disk. Answers its name."""
    number = 0
    while True:
        new = os.path.join(os.path.dirname(place), f"{_beginning(place)}{os.getpid()}.{number}.new")
        try:
            file = os.open(new, os.O_WRONLY | os.O_CREAT | os.O_EXCL | os.O_CLOEXEC, 0o666)
            break
        except FileExistsError:
            number += 1
    try:
        with open(file, "wb") as out:
            out.write(data)
            out.flush()
            if mode is not None:
                os.fchmod(out.fileno(), stat.S_IMODE(mode))
            os.fsync(out.fileno())
    except BaseException:
        os.unlink(new)
        raise
    return new


def _remove_left(place: str) -> None:
    """Removes what processes that have ended left beside a file."""
    folder = os.path.dirname(place)
    left = re.compile(re.escape(_beginning(place)) + r"([0-9]+)\.[0-9]+\.new")
    with contextlib.suppress(OSError):
        for name in os.listdir(folder):
            found = left.fullmatch(name)
            if found and not os.path.exists(f"/proc/{found[1]}"):
                os.unlink(os.path.join(folder, name))
