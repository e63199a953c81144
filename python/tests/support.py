"""What the tests share: the program that they compare with, the repository's examples, and disks made by a plain model."""
import json
import os
import subprocess
import sys
import tempfile
import unittest
from pathlib import Path

ROOT = Path(__file__).resolve().parents[2]
HELLO = ROOT / "examples" / "hello.d64"
DISK1541 = os.environ.get("DISK1541", "disk1541")

# The user and the group that own nothing.
NOBODY = 65534

sys.path.insert(0, str(ROOT / "tests" / "programs"))
import generated_disks as model  # noqa: E402 (it is found by the line above)

__all__ = ["DISK1541", "HELLO", "ROOT", "DiskCase", "as_nobody", "disk1541", "json_of", "model", "model_disk"]


def disk1541(*words, status=0, **more):
    """What disk1541 prints, which must end with a status."""
    ran = subprocess.run([DISK1541, *map(str, words)], capture_output=True, check=False, **more)
    if ran.returncode != status:
        raise AssertionError(f"disk1541 {words}: status {ran.returncode}, {ran.stderr.decode()}")
    return ran.stdout


def json_of(path, *words):
    """What `disk1541 list --json` says of an image."""
    return json.loads(disk1541("list", path, "--json", *words))


def model_disk(seed, names=None):
    """A sound disk that the plain model makes, with these names if some are given: files of any bytes."""
    disk = model.Disk(seed)
    if names is not None:
        disk.files = [model.File(disk.random, it) for it in names]
        for file in disk.files:
            file.bytes, file.is_closed, file.is_locked = file.name * 20, True, False
        disk.taken = {(18, 0)}
        disk.image[model.place(18, 0) : model.place(19, 0)] = bytes(19 * 256)
        disk.put_directory()
        disk.put_map()
    return disk


def as_nobody(work):
    """Whether some work answers true in a process that may not write the files of others."""
    child = os.fork()
    if child:
        return os.waitstatus_to_exitcode(os.waitpid(child, 0)[1]) == 0
    status = 1
    try:
        if os.geteuid() == 0:
            os.setgid(NOBODY)
            os.setuid(NOBODY)
        status = 0 if work() else 1
    finally:
        os._exit(status)


class DiskCase(unittest.TestCase):
    """A test with a folder of its own, which is gone afterwards."""

    maxDiff = 4000

    def setUp(self):
        folder = tempfile.TemporaryDirectory()
        self.addCleanup(folder.cleanup)
        self.folder = Path(folder.name)

    def file(self, name, data):
        """The path of a new file with these bytes."""
        path = self.folder / name
        path.write_bytes(data)
        return path
