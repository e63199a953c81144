"""How images are saved: whole or not at all, one after the other, as disk1541 does."""
import fcntl
import gzip
import os
import signal
import stat
import subprocess
import sys
import time
import unittest
import zipfile

from support import DISK1541, HELLO, DiskCase, as_nobody, disk1541
from yellowadze1541 import Changed, Form, Image, Refused
from yellowadze1541.mount.disk import Disk

# A program that saves an image for ever, each time with another title.
SAVES = """
import sys
from yellowadze1541 import Image
image = Image.open(sys.argv[1])
print("begun", flush=True)
number = 0
while True:
    image.retitle(f"TITLE {number % 10}")
    image.save()
    number += 1
"""
# One that changes an image within the lock, and takes its time.
CHANGES = """
import sys, time
from yellowadze1541 import Image
with Image.change(sys.argv[1]) as image:
    print("locked", flush=True)
    time.sleep(0.5)
    image.write("FROM PYTHON", b"1")
"""


class Saving(DiskCase):
    def setUp(self):
        super().setUp()
        self.path = self.file("hello.d64", HELLO.read_bytes())

    def program(self, text):
        """A Python program that has said its first line."""
        ran = subprocess.Popen([sys.executable, "-c", text, str(self.path)], stdout=subprocess.PIPE)
        self.addCleanup(ran.stdout.close)
        self.addCleanup(ran.wait)
        self.addCleanup(ran.kill)
        ran.stdout.readline()
        return ran

    def test_what_is_saved_is_what_disk1541_reads(self):
        image = Image.open(self.path)
        image.write("SECOND", b"abc")
        image.save()
        self.assertEqual(disk1541("get", self.path, "SECOND"), b"abc")
        image.rename("SECOND", "THIRD")
        image.save()
        self.assertEqual(disk1541("get", self.path, "THIRD"), b"abc")
        self.assertEqual(os.listdir(self.folder), ["hello.d64"])

    def test_a_file_that_was_changed_meanwhile_stays(self):
        image = Image.open(self.path)
        disk1541("title", self.path, "ANOTHER")
        other = self.path.read_bytes()
        image.retitle("MINE")
        with self.assertRaises(Changed):
            image.save()
        self.assertEqual(self.path.read_bytes(), other)
        self.assertEqual(os.listdir(self.folder), ["hello.d64"])

    def test_the_mode_and_a_link_stay(self):
        self.path.chmod(0o640)
        link = self.folder / "link.d64"
        link.symlink_to("hello.d64")
        image = Image.open(link)
        image.retitle("BY THE LINK")
        image.save()
        self.assertTrue(link.is_symlink())
        self.assertEqual(stat.S_IMODE(self.path.stat().st_mode), 0o640)
        self.assertEqual(Image.open(self.path).title, b"BY THE LINK")

    def test_another_file_is_replaced_only_if_that_is_said(self):
        other = self.file("other.d64", b"something else")
        image = Image.open(self.path)
        with self.assertRaises(FileExistsError):
            image.save(other)
        self.assertEqual(other.read_bytes(), b"something else")
        image.save(other, replace=True)
        self.assertEqual(other.read_bytes(), image.bytes)
        image.retitle("ITS OWN NOW")
        image.save()
        self.assertEqual(Image.open(other).title, b"ITS OWN NOW")
        self.assertEqual(Image.open(self.path).title, b"TEST")

    def test_a_new_image_needs_a_path(self):
        image = Image.new(Form.D64, "NEW", "64")
        with self.assertRaises(ValueError):
            image.save()
        image.save(self.folder / "new.d64")
        self.assertEqual(disk1541("check", self.folder / "new.d64"), b"sound\n")

    def test_a_file_that_may_not_be_written_stays(self):
        self.folder.chmod(0o777)
        self.path.chmod(0o444)

        def is_refused():
            image = Image.open(self.path)
            image.retitle("MINE")
            with self.assertRaises(PermissionError):
                image.save()
            return True

        self.assertTrue(as_nobody(is_refused))
        self.assertEqual(os.listdir(self.folder), ["hello.d64"])
        self.assertEqual(self.path.read_bytes(), HELLO.read_bytes())

    def test_a_folder_that_is_gone_is_told(self):
        image = Image.open(self.path)
        with self.assertRaises(FileNotFoundError):
            image.save(self.folder / "none" / "a.d64")

    def test_a_save_waits_for_the_folders_lock(self):
        image = Image.open(self.path)
        image.retitle("LATER")
        folder = os.open(self.folder, os.O_RDONLY)
        fcntl.flock(folder, fcntl.LOCK_EX)
        child = os.fork()
        if not child:
            time.sleep(0.3)
            os.close(folder)
            os._exit(0)
        os.close(folder)
        begun = time.monotonic()
        image.save()
        self.assertGreater(time.monotonic() - begun, 0.2)
        os.waitpid(child, 0)

    def test_a_change_and_disk1541_wait_for_each_other(self):
        changing = self.program(CHANGES)
        disk1541("rename", self.path, "HELLO", "BY DISK1541")
        self.assertEqual(changing.wait(), 0)
        self.assertEqual([it.name for it in Image.open(self.path).files()], [b"BY DISK1541", b"FROM PYTHON"])

    def test_a_change_that_raises_saves_nothing(self):
        before = self.path.read_bytes()
        with self.assertRaises(Refused), Image.change(self.path) as image:
            image.write("NEW", b"1")
            image.delete("NONE")
        self.assertEqual(self.path.read_bytes(), before)

    def test_a_save_that_is_killed_leaves_the_old_image_or_the_new_one(self):
        for number in range(20):
            saving = self.program(SAVES)
            time.sleep(0.002 * number)
            saving.send_signal(signal.SIGKILL)
            saving.wait()
            self.assertIsNone(Image.open(self.path).check())
            self.assertRegex(Image.open(self.path).title, rb"^(TEST|TITLE \d)$")

    def test_what_a_killed_one_left_is_removed(self):
        ended = subprocess.Popen(["true"])
        ended.wait()
        gone = self.file(f"disk1541.hello.d64.{ended.pid}.0.new", b"half")
        kept = [self.file(f"disk1541.hello.d64.{os.getpid()}.7.new", b"of one that lives"), self.file(f"disk1541.other.d64.{ended.pid}.0.new", b"of another")]
        with Image.change(self.path) as image:
            image.retitle("SAVED")
        self.assertFalse(gone.exists())
        self.assertTrue(all(it.exists() for it in kept))

    def test_disk1541_removes_what_is_left_here_too(self):
        saving = self.program(SAVES)
        left = self.file(f"disk1541.hello.d64.{saving.pid}.99.new", b"half")
        saving.kill()
        saving.wait()
        subprocess.run([DISK1541, "title", self.path, "BY DISK1541"], check=True)
        self.assertFalse(left.exists())


class Packed(DiskCase):
    def archive(self, name, files):
        path = self.folder / name
        with zipfile.ZipFile(path, "w", zipfile.ZIP_DEFLATED) as out:
            for each, data in files.items():
                out.writestr(each, data)
        return path

    def test_packed_images_are_read(self):
        data = HELLO.read_bytes()
        paths = [self.file("hello.d64.gz", gzip.compress(data)), self.archive("one.zip", {"a/": b"", "a/hello.D64": data, "a/read.me": b"x"}), self.archive("only.zip", {"disk": data})]
        for path in paths:
            with self.subTest(path=path.name):
                image = Image.open(path)
                self.assertEqual((image.bytes, image.path, image.read("HELLO")), (data, None, Image.open(HELLO).read("HELLO")))
                self.assertEqual(image.listing(), disk1541("list", path).decode())

    def test_packed_images_are_not_written(self):
        path = self.file("hello.d64.gz", gzip.compress(HELLO.read_bytes()))
        before = path.read_bytes()
        image = Image.open(path)
        image.rename("HELLO", "OTHER")
        for call in (image.save, Image.change(path).__enter__):
            with self.assertRaises(ValueError):
                call()
        image.save(self.folder / "new.d64")
        self.assertEqual(path.read_bytes(), before)
        self.assertIsNotNone(Image.open(self.folder / "new.d64").find("OTHER"))
        self.assertEqual(Disk(str(path)).why_read_only, "the image is packed")

    def test_what_is_packed_otherwise_is_refused(self):
        data = HELLO.read_bytes()
        packed = gzip.compress(data)
        wrong = {
            "cut.gz": packed[:-9],
            "sum.gz": packed[:-8] + bytes([packed[-8] ^ 1]) + packed[-7:],
            "no.gz": gzip.compress(b"no image"),
            "large.gz": gzip.compress(bytes(900_000)),
            "cut.zip": self.archive("whole.zip", {"a.d64": data}).read_bytes()[:-30],
            "two.zip": self.archive("x.zip", {"a.d64": data, "b.d64": data}).read_bytes(),
            "none.zip": self.archive("y.zip", {"a.txt": b"a", "b.txt": b"b"}).read_bytes(),
            "empty.zip": self.archive("z.zip", {}).read_bytes(),
        }
        for name, content in wrong.items():
            with self.subTest(name=name), self.assertRaises(Refused):
                Image.open(self.file(name, content))

    def test_a_d64_that_begins_as_a_packed_file_does_is_a_d64(self):
        for mark in (b"\x1f\x8b", b"PK\3\4"):
            data = mark + HELLO.read_bytes()[len(mark) :]
            self.assertEqual(Image.open(self.file("marked.d64", data)).bytes, data)


if __name__ == "__main__":
    unittest.main()
