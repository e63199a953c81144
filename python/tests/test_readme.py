"""The ten lines of README.md."""
import contextlib
import io
import os
import re
import unittest

from support import HELLO, ROOT, DiskCase, disk1541


class Readme(DiskCase):
    def test_the_ten_lines(self):
        code = re.search(r"```python\n(.*?)```", (ROOT / "python" / "README.md").read_text(encoding="utf-8"), re.DOTALL)[1]
        self.assertEqual(len(code.splitlines()), 10)
        self.file("hello.d64", HELLO.read_bytes())
        before = os.getcwd()
        os.chdir(self.folder)
        self.addCleanup(os.chdir, before)
        said = io.StringIO()
        with contextlib.redirect_stdout(said):
            exec(compile(code, "README.md", "exec"), {})
        self.assertEqual(said.getvalue(), disk1541("list", HELLO).decode())
        self.assertEqual(disk1541("get", "hello.d64", "LONGER"), b"\x01\x02\x03\0")
        self.assertEqual(disk1541("get", "hello.d64", "NOTES"), b"ten lines")
        self.assertEqual(disk1541("get", "new.g64", "FROM BASIC"), b"\x01\x08\0\0")
        self.assertEqual(disk1541("check", "new.g64"), b"sound\n")


if __name__ == "__main__":
    unittest.main()
