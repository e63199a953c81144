"""python -m yellowadze1541.mount IMAGE FOLDER [--read-only] [--foreground]: shows the disk of an image as a folder, until `fusermount3 -u FOLDER`.

Files have the endings .prg, .seq, .usr, .rel and .del. Each change is saved in the image when the file is closed. A disk that isn't sound, or an image that may not
be written, is mounted for reading alone. FOLDER/.listing has the directory, FOLDER/.status what was refused last.
"""
import argparse
import os
import sys
from typing import Callable

from ..refusals import Refused
from .disk import Disk
from .folder import Folder
from .fuse import NoFuse, serve


def _words() -> argparse.Namespace:
    """The words of the command line."""
    about = __doc__.split(": ", 1)[1]
    words = argparse.ArgumentParser(prog="python -m yellowadze1541.mount", description=about, formatter_class=argparse.RawDescriptionHelpFormatter)
    words.add_argument("image", metavar="IMAGE")
    words.add_argument("folder", metavar="FOLDER")
    words.add_argument("--read-only", action="store_true", help="nothing can be written")
    words.add_argument("--foreground", action="store_true", help="go on in the foreground, and end at Ctrl-C")
    return words.parse_args()


def _in_background(work: Callable[[Callable[[], None]], int]) -> int:
    """Does work in a process of its own. Answers 0 as soon as that says that it is up, or else what it ends with."""
    ears, mouth = os.pipe()
    child = os.fork()
    if child:
        os.close(mouth)
        return 0 if os.read(ears, 1) else os.waitstatus_to_exitcode(os.waitpid(child, 0)[1])
    os.close(ears)
    os.setsid()

    def is_up() -> None:
        os.write(mouth, b"+")
        os.close(mouth)
        nothing = os.open(os.devnull, os.O_RDWR)
        for number in range(3):
            os.dup2(nothing, number)

    os._exit(work(is_up))


def main() -> int:
    """Mounts. Answers the exit status: 0 when it is unmounted or, in the background, mounted; 1 if it can't be."""
    words = _words()
    try:
        disk = Disk(words.image, words.read_only)
    except (OSError, Refused) as error:
        print(f"mount: {words.image}: {error}", file=sys.stderr)
        return 1
    if os.path.realpath(words.image).startswith(os.path.join(os.path.realpath(words.folder), "")):
        print(f"mount: {words.image} lies in {words.folder}, and would be hidden by it: take another folder", file=sys.stderr)
        return 1
    why = disk.why_read_only
    if why and not words.read_only:
        print(f"mount: {words.image}: it can only be read, as {why}", file=sys.stderr)

    def mount(is_up: Callable[[], None]) -> int:
        name = os.path.basename(words.image).replace(",", "_")
        try:
            return serve(Folder(disk), os.path.abspath(words.folder), name, bool(why), is_up)
        except NoFuse as error:
            print(f"mount: {error}", file=sys.stderr)
            return 1

    return mount(lambda: None) if words.foreground else _in_background(mount)


if __name__ == "__main__":
    sys.exit(main())
