#!/usr/bin/env python3
"""on_terminal.py DISK1541 IMAGE: the progress that `get-all` shows on a terminal.

If it takes longer than half a second, it shows progress file by file, and clears the line at the end. Otherwise it shows nothing, and
it never does if standard error is not a terminal. The image comes by standard input, which waits here as long as a slow disk would.
Ends with 1 otherwise.
"""

import os
import pty
import subprocess
import sys
import tempfile
import time


def told(program, image, seconds):
    """What stands on the terminal behind a `get-all` whose image takes so many seconds to come."""
    ours, theirs = pty.openpty()
    with tempfile.TemporaryDirectory() as folder:
        words = [program, "get-all", "-", os.path.join(folder, "files")]
        ran = subprocess.Popen(words, stdin=subprocess.PIPE, stdout=subprocess.DEVNULL, stderr=theirs)
        os.close(theirs)
        time.sleep(seconds)
        ran.stdin.write(image)
        ran.stdin.close()
        if ran.wait():
            sys.exit(f"get-all ended with {ran.returncode}")
    said = b""
    try:
        while part := os.read(ours, 4096):
            said += part
    except OSError:
        pass  # the end of a terminal
    os.close(ours)
    return said.decode()


def quickly(program, image):
    """What stands there if it took less than half a second: on a machine with other work that may want some tries."""
    for _ in range(20):
        begun = time.monotonic()
        said = told(program, image, 0)
        if time.monotonic() - begun < 0.5:
            return said
    sys.exit("get-all never took less than half a second here")


def main():
    if len(sys.argv) != 3:
        sys.exit(__doc__)
    program = os.path.realpath(sys.argv[1])
    with open(sys.argv[2], "rb") as file:
        image = file.read()
    quick, slow = quickly(program, image), told(program, image, 0.7)
    lines = slow.split("\r")
    count = len(lines) - 2
    wanted = [*(f"{n} of {count} files" for n in range(1, count + 1)), " " * 24, ""]
    if quick or count < 1 or lines != wanted:
        sys.exit(f"quick {quick!r}, slow {slow!r}")


if __name__ == "__main__":
    main()
