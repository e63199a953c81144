"""The wheel: what is in it, what it asks of the system, and that equal files give equal bytes."""
import os
import re
import shutil
import subprocess
import sys
import tempfile
import unittest
import zipfile
from pathlib import Path

from support import ROOT

sys.path.insert(0, str(ROOT / "python" / "backend"))
import library_wheel  # noqa: E402 (it is found by the line above)

LIBRARY = os.environ.get("LIBRARY")


@unittest.skipUnless(LIBRARY, "LIBRARY doesn't name the library")
class Wheel(unittest.TestCase):
    def setUp(self):
        folder = tempfile.TemporaryDirectory()
        self.addCleanup(folder.cleanup)
        self.folder = Path(folder.name)
        self.path = self.folder / library_wheel.build_wheel(folder.name, {"library": LIBRARY})

    def test_it_has_the_library_the_types_and_each_module(self):
        names = zipfile.ZipFile(self.path).namelist()
        sources = [str(it.relative_to(ROOT / "python" / "src")) for it in (ROOT / "python" / "src").rglob("*.py")]
        for name in ("yellowadze1541/py.typed", "yellowadze1541/libyellowadze1541.so", *sources):
            self.assertIn(name, names)
        self.assertEqual(zipfile.ZipFile(self.path).read("yellowadze1541/libyellowadze1541.so"), Path(LIBRARY).read_bytes())

    def test_it_has_the_command_that_mounts(self):
        names = zipfile.ZipFile(self.path)
        (path,) = [it for it in names.namelist() if it.endswith(".dist-info/entry_points.txt")]
        self.assertEqual(names.read(path), b"[console_scripts]\nyellowadze1541-mount = yellowadze1541.mount.__main__:main\n")

    def test_built_twice_it_has_the_same_bytes(self):
        first = self.path.read_bytes()
        again = self.folder / "again"
        again.mkdir()
        library_wheel.build_wheel(str(again), {"library": LIBRARY})
        self.assertEqual((again / self.path.name).read_bytes(), first)

    def test_its_version_is_the_headers(self):
        number = int(re.search(r"Y1541_VERSION 0x(\w+)u", (ROOT / "capi" / "yellowadze1541.h").read_text())[1], 16)
        self.assertTrue(self.path.name.startswith(f"yellowadze1541-{number >> 16}.{number >> 8 & 255}.{number & 255}-py3-none-"))

    @unittest.skipUnless(shutil.which("objdump"), "objdump isn't installed")
    def test_its_name_says_which_glibc_it_needs(self):
        said = subprocess.run(["objdump", "-T", LIBRARY], capture_output=True, text=True, check=True).stdout
        asked = max((int(major), int(minor)) for major, minor in re.findall(r"GLIBC_(\d+)\.(\d+)", said))
        self.assertLessEqual(asked, (2, 34))
        named = re.search(r"manylinux_(\d+)_(\d+)_", self.path.name)
        self.assertGreaterEqual((int(named[1]), int(named[2])), asked)


if __name__ == "__main__":
    unittest.main()
