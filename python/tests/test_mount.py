"""A disk as a folder, by FUSE: what programs of this computer do with it, and what is on the disk then."""
import ctypes
import errno
import os
import shutil
import signal
import stat
import subprocess
import sys
import threading
import time
import unittest

from support import HELLO, DiskCase, as_nobody, disk1541, model, model_disk
from yellowadze1541 import FileType, Form, Image
from yellowadze1541.mount import names
from yellowadze1541.mount.disk import Disk

# How long is waited for a mount, in seconds.
LIMIT = 20


def why_not():
    """Why nothing can be mounted here; None: it can."""
    try:
        ctypes.CDLL("libfuse3.so.3")
    except OSError:
        return "libfuse3.so.3 isn't installed"
    if not os.access("/dev/fuse", os.R_OK | os.W_OK):
        return "/dev/fuse can't be opened"
    return None if shutil.which("fusermount3") else "fusermount3 isn't installed"


def host_name(file):
    """The name that a file of the model has in the folder, by the rule of README.md."""
    out = ""
    for place, code in enumerate(file.name):
        key = "_" if code == 164 else model.UPPER[code] if code in range(32, 96) or code in range(161, 192) else "/"
        out += f"%{code:02X}" if key in "/%" or (key == "." and not place) else key
    return f"{out}.{model.LETTERS[file.kind].lower()}"


class MountCase(DiskCase):
    def setUp(self):
        super().setUp()
        why = why_not()
        if why:
            self.skipTest(why)

    def mount(self, path, *words, status=0):
        """Mounts an image in the background, and gives its folder."""
        folder = self.folder / f"{path.stem} mounted"
        folder.mkdir(exist_ok=True)
        self.addCleanup(subprocess.run, ["fusermount3", "-q", "-u", "-z", folder], check=False)
        ran = subprocess.run([sys.executable, "-m", "yellowadze1541.mount", path, folder, *words], capture_output=True, text=True, check=False)
        self.assertEqual(ran.returncode, status, ran.stderr)
        self.said = ran.stderr
        return folder

    def new(self, name="new.d64", form=Form.D64):
        """A new image, and its folder."""
        path = self.folder / name
        Image.new(form, "NEW", "64").save(path)
        return path, self.mount(path)

    def refused(self, number, call, *words):
        with self.assertRaises(OSError) as told:
            call(*words)
        # (of another user than root the kernel itself asks for the file's mode)
        may_be = (errno.EPERM, errno.EACCES) if number == errno.EPERM else (number,)
        self.assertIn(told.exception.errno, may_be)

    def files(self, path):
        """The files of a disk as disk1541 gives them, by name and type; the disk must be sound."""
        self.assertEqual(disk1541("check", path), b"sound\n")
        return {(it.name, it.type): disk1541("get", path, "--slot", it.slot) for it in Image.open(path).files() if it.closed}


class Looks(MountCase):
    def test_the_files_are_those_of_the_disk(self):
        for seed in range(6):
            disk = model_disk(seed)
            folder = self.mount(self.file(f"{seed}.d64", disk.image))
            closed = {host_name(it): it for it in disk.files if it.is_closed}
            self.assertEqual(sorted(os.listdir(folder)), sorted([*closed, ".listing", ".status"]))
            for name, file in closed.items():
                self.assertEqual((folder / name).read_bytes(), file.bytes)
                said = (folder / name).stat()
                self.assertEqual((said.st_size, bool(said.st_mode & stat.S_IWUSR)), (len(file.bytes), not file.is_locked))
            self.assertEqual((folder / ".listing").read_text(), disk.listing())
            self.assertEqual((os.statvfs(folder).f_bfree, os.statvfs(folder).f_blocks), (disk.free, 664))

    def test_names_of_any_codes(self):
        codes = bytes(it for it in range(256) if it != 0xA0)
        disk = model_disk(1, [*(codes[n : n + 15] for n in range(0, len(codes), 15)), b".HIDDEN", b"A.B", b"50%", b"A/B", b"A_B~"])
        folder = self.mount(self.file("names.d64", disk.image))
        self.assertEqual(sorted(os.listdir(folder)), sorted([*map(host_name, disk.files), ".listing", ".status"]))
        for file in disk.files:
            self.assertEqual((folder / host_name(file)).read_bytes(), file.bytes)

    def test_letters_of_either_case_are_those_without_shift(self):
        path, folder = self.new()
        for name in ("GAME2.PRG", "My Game.prg"):
            (folder / name).write_bytes(name.encode())
            self.assertEqual((folder / name).read_bytes(), name.encode())
        self.assertEqual(sorted(os.listdir(folder)), [".listing", ".status", "GAME2.prg", "MY GAME.prg"])
        put = self.file("put.d64", Image.new(Form.D64, "PUT", "64").bytes)
        disk1541("put", put, self.file("GAME2.PRG", b"GAME2.PRG"), self.file("My Game.prg", b"My Game.prg"))
        self.assertEqual(self.files(path), self.files(put))
        (folder / "%C7ame.prg").write_bytes(b"shifted")
        self.assertEqual(self.files(path)[b"\xc7AME", 2], b"shifted")
        self.assertIn("%C7AME.prg", os.listdir(folder))

    def test_several_files_of_one_name(self):
        data = bytearray(Image.open(self.several()).bytes)
        data[model.place(18, 1) + 32 + 5] = data[model.place(18, 1) + 5]
        folder = self.mount(self.file("twice.d64", data))
        self.assertEqual((folder / "a.prg").read_bytes(), b"first")
        self.assertEqual((folder / "a~1.prg").read_bytes(), b"second")
        os.unlink(folder / "a~1.prg")
        self.assertEqual((folder / "a.prg").read_bytes(), b"first")
        self.assertEqual(self.files(self.folder / "twice.d64"), {(b"A", 2): b"first"})

    def several(self):
        image = Image.new(Form.D64, "SEVERAL", "64")
        image.write("A", b"first")
        image.write("B", b"second")
        image.save(self.folder / "several.d64")
        return self.folder / "several.d64"

    def test_what_another_program_changes_is_seen(self):
        path = self.file("hello.d64", HELLO.read_bytes())
        folder = self.mount(path)
        disk1541("rename", path, "HELLO", "OTHER")
        self.assertIn("OTHER.prg", os.listdir(folder))
        (folder / "mine.prg").write_bytes(b"1")
        self.assertEqual(self.files(path), {(b"OTHER", 2): b"\x01\x02\x03", (b"MINE", 2): b"1"})

    def test_relative_files_can_be_read_renamed_and_deleted(self):
        path = self.folder / "rel.d64"
        disk1541("new", path, "--title", "REL", "--id", "64")
        disk1541("put", path, self.file("records.bin", b"record one" * 30), "--type", "rel", "--record", 10)
        folder = self.mount(path)
        self.assertEqual((folder / "records.rel").read_bytes(), disk1541("get", path, "RECORDS"))
        self.refused(errno.EPERM, (folder / "records.rel").write_bytes, b"1")
        self.refused(errno.EPERM, os.rename, folder / "records.rel", folder / "records.prg")
        os.rename(folder / "records.rel", folder / "other.rel")
        self.assertEqual(disk1541("list", path, "--only", "OTHER").count(b"REL"), 2)
        os.unlink(folder / "other.rel")
        self.assertEqual((self.files(path), Image.open(path).free), ({}, 664))

    def test_a_disk_that_is_not_sound_can_be_read_alone(self):
        data = bytearray(HELLO.read_bytes())
        data[model.place(18, 0) + 4] = 99
        folder = self.mount(self.file("wrong.d64", data))
        self.assertIn("it can only be read, as the disk isn't sound: track", self.said)
        self.assertEqual((folder / "hello.prg").read_bytes(), b"\x01\x02\x03")
        self.refused(errno.EROFS, (folder / "new.prg").write_bytes, b"1")
        self.assertIn("isn't sound", (folder / ".status").read_text())
        self.assertEqual((self.folder / "wrong.d64").read_bytes(), bytes(data))

    def test_odd_entries_are_left_alone(self):
        data = bytearray(HELLO.read_bytes())
        at = model.place(18, 1) + 34
        data[at : at + 19] = b"\x80\x12\x00" + b"ART".ljust(16, b"\xa0")
        path = self.file("art.d64", data)
        folder = self.mount(path)
        (folder / "new.prg").write_bytes(b"\x01\x08new")
        os.rename(folder / "hello.prg", folder / "start.prg")
        self.assertEqual((folder / "start.prg").read_bytes(), b"\x01\x02\x03")
        image = Image.open(path)
        self.assertEqual([it.slot for it in image.odd()], [1])
        self.assertEqual(path.read_bytes()[at : at + 30], bytes(data[at : at + 30]))
        self.assertEqual(image.read("NEW"), b"\x01\x08new")

    @unittest.skipUnless(os.geteuid() == 0, "only root can become a user that may not write the image")
    def test_an_image_that_may_not_be_written_can_be_read_alone(self):
        path = self.file("hello.d64", HELLO.read_bytes())
        self.folder.chmod(0o777)
        path.chmod(0o644)
        self.assertIsNone(Disk(str(path)).why_read_only)
        self.assertTrue(as_nobody(lambda: "may not be written" in Disk(str(path)).why_read_only))
        path.chmod(0o666)
        self.assertTrue(as_nobody(lambda: Disk(str(path)).why_read_only is None))
        self.folder.chmod(0o755)
        self.assertTrue(as_nobody(lambda: "may not be written" in Disk(str(path)).why_read_only))

    def test_a_folder_that_would_hide_the_image_is_refused(self):
        path = self.file("hello.d64", HELLO.read_bytes())
        for folder in (self.folder, self.folder.parent):
            ran = subprocess.run([sys.executable, "-m", "yellowadze1541.mount", path, folder], capture_output=True, text=True, check=False)
            self.assertEqual((ran.returncode, "take another folder" in ran.stderr), (1, True))

    def test_for_reading_alone(self):
        path = self.file("hello.d64", HELLO.read_bytes())
        folder = self.mount(path, "--read-only")
        for call in (lambda: (folder / "new.prg").write_bytes(b"1"), lambda: os.unlink(folder / "hello.prg"), lambda: os.rename(folder / "hello.prg", folder / "b.prg")):
            self.refused(errno.EROFS, call)
        self.assertEqual(path.read_bytes(), HELLO.read_bytes())

    def test_what_is_no_image_is_refused(self):
        self.mount(self.file("text.d64", b"no image"), status=1)
        self.assertIn("no image of a 1541's disk", self.said)

    def test_names_are_taken_back(self):
        for file in [it for seed in range(20) for it in model_disk(seed).files]:
            meant = names.HostName(file.name, FileType(file.kind))
            self.assertEqual(names.parsed(names.shown(meant)), meant)
        for wrong in ("a", ".prg", "a.txt", "é.prg", "a~0.prg", "a" * 17 + ".prg", "a.prg.gz"):
            self.assertIsNone(names.parsed(wrong), wrong)


class Changes(MountCase):
    def test_files_are_copied_out_and_in(self):
        for seed, form, name in ((0, Form.D64, "a.d64"), (3, Form.G64, "b.g64"), (6, Form.D64_40, "c.d64")):
            disk = model_disk(seed)
            old = self.mount(self.file(f"{seed}.d64", disk.image))
            path, new = self.new(name, form)
            out = self.folder / f"out {seed}"
            subprocess.run(["cp", "-r", old, out], check=True)
            for it in (".listing", ".status"):
                os.unlink(out / it)
            subprocess.run(["cp", "-r", f"{out}/.", new], check=True)
            wanted = {(it.name, it.kind): it.bytes for it in disk.files if it.is_closed}
            self.assertEqual(self.files(path), wanted)

    def test_a_file_is_written_changed_and_cut(self):
        path, folder = self.new()
        file = folder / "data.seq"
        file.write_bytes(b"0123456789" * 100)
        self.assertEqual(self.files(path), {(b"DATA", 1): b"0123456789" * 100})
        with open(file, "r+b") as it:
            it.seek(500)
            it.write(b"changed")
        self.assertEqual(self.files(path)[b"DATA", 1], b"0123456789" * 50 + b"changed" + b"789" + b"0123456789" * 49)
        with open(file, "ab") as it:
            it.write(b"end")
        os.truncate(file, 3)
        self.assertEqual(self.files(path)[b"DATA", 1], b"012")
        with open(file, "r+b") as it:
            it.seek(5)
            it.write(b"x")
        self.assertEqual(self.files(path)[b"DATA", 1], b"012\0\0x")
        self.assertEqual(file.stat().st_size, 6)

    def test_an_empty_file_becomes_one_byte(self):
        path, folder = self.new()
        (folder / "empty.prg").touch()
        self.assertEqual((folder / "empty.prg").read_bytes(), b"\r")
        self.assertEqual(self.files(path), {(b"EMPTY", 2): b"\r"})

    def test_a_file_without_bytes_waits_until_it_is_closed_for_good(self):
        path, folder = self.new()
        before = path.read_bytes()
        file = os.open(folder / "a.seq", os.O_WRONLY | os.O_CREAT | os.O_TRUNC)
        os.close(os.dup(file))
        self.assertEqual(path.read_bytes(), before)
        os.write(file, b"one")
        os.close(os.dup(file))
        self.assertEqual(self.files(path), {(b"A", 1): b"one"})
        os.write(file, b"two")
        os.fsync(file)
        self.assertEqual(self.files(path), {(b"A", 1): b"onetwo"})
        os.close(file)

    def test_the_shell_redirects_into_a_file(self):
        path, folder = self.new()
        subprocess.run(["sh", "-c", 'echo one > a.seq; echo two >> a.seq; (echo three; echo four) > b.seq'], cwd=folder, check=True)
        self.assertEqual(self.files(path), {(b"A", 1): b"one\ntwo\n", (b"B", 1): b"three\nfour\n"})

    def test_files_are_renamed_and_deleted(self):
        path, folder = self.new()
        for name in ("a", "b", "c"):
            (folder / f"{name}.prg").write_bytes(name.encode())
        os.rename(folder / "a.prg", folder / "%C1*.prg")
        os.rename(folder / "b.prg", folder / "c.prg")
        self.assertEqual(self.files(path), {(b"\xc1*", 2): b"a", (b"C", 2): b"b"})
        subprocess.run(["mv", folder / "c.prg", folder / "c.seq"], check=True)
        self.assertEqual(self.files(path), {(b"\xc1*", 2): b"a", (b"C", 1): b"b"})
        subprocess.run(["mv", "-n", folder / "c.seq", folder / "%C1*.prg"], check=False)
        os.unlink(folder / "%C1*.prg")
        self.assertEqual(self.files(path), {(b"C", 1): b"b"})

    def test_a_file_is_locked_by_its_mode(self):
        path, folder = self.new()
        (folder / "a.prg").write_bytes(b"kept")
        os.chmod(folder / "a.prg", 0o444)
        self.assertIn("PRG<", disk1541("list", path).decode())
        for call in (lambda: os.unlink(folder / "a.prg"), lambda: (folder / "a.prg").write_bytes(b"1")):
            self.refused(errno.EPERM, call)
        self.assertEqual(self.files(path), {(b"A", 2): b"kept"})
        os.chmod(folder / "a.prg", 0o644)
        os.unlink(folder / "a.prg")
        self.assertEqual(self.files(path), {})

    def test_a_file_that_is_deleted_while_it_is_open(self):
        path, folder = self.new()
        (folder / "old.prg").write_bytes(b"old")
        with open(folder / "old.prg", "r+b") as it, open(folder / "old.prg", "rb") as reader:
            os.unlink(folder / "old.prg")
            self.assertEqual(reader.read(), b"old")
            it.write(b"new")
        self.assertEqual(os.listdir(folder), [".listing", ".status"])
        self.assertEqual(self.files(path), {})

    def test_a_file_that_is_renamed_while_it_is_written(self):
        path, folder = self.new()
        with open(folder / "a.prg", "wb") as it:
            it.write(b"1")
            it.flush()
            os.rename(folder / "a.prg", folder / "b.prg")
            it.write(b"2")
        self.assertEqual(self.files(path), {(b"B", 2): b"12"})

    def test_what_a_disk_cannot_have_is_refused(self):
        path, folder = self.new()
        before = path.read_bytes()
        for name, number in (("a.txt", errno.EPERM), ("a", errno.EPERM), ("A.rel", errno.EPERM), ("%A0.prg", errno.EPERM)):
            self.refused(number, (folder / name).write_bytes, b"1")
        for name in ("é.prg", "~.prg"):
            self.refused(errno.EILSEQ, (folder / name).write_bytes, b"1")
        self.refused(errno.ENAMETOOLONG, (folder / ("a" * 17 + ".prg")).write_bytes, b"1")
        self.assertIn("at most 16 characters", (folder / ".status").read_text())
        self.refused(errno.EPERM, os.mkdir, folder / "folder")
        self.assertEqual(path.read_bytes(), before)

    def test_one_name_of_two_types_is_refused(self):
        path, folder = self.new()
        (folder / "a.prg").write_bytes(b"1")
        self.refused(errno.EEXIST, (folder / "a.seq").write_bytes, b"2")
        self.assertEqual(self.files(path), {(b"A", 2): b"1"})


class Room(MountCase):
    def test_a_full_disk(self):
        path, folder = self.new()
        (folder / "most.prg").write_bytes(bytes(600 * 254))
        (folder / "kept.prg").write_bytes(b"kept")
        before = self.files(path)
        self.refused(errno.ENOSPC, (folder / "more.prg").write_bytes, bytes(64 * 254))
        self.refused(errno.ENOSPC, (folder / "kept.prg").write_bytes, bytes(65 * 254))
        self.refused(errno.ENOSPC, os.truncate, folder / "most.prg", 664 * 254)
        ran = subprocess.run(["cp", folder / "most.prg", folder / "again.prg"], capture_output=True, text=True, check=False)
        self.assertIn("No space left on device", ran.stderr)
        self.assertIn("72, DISK FULL", (folder / ".status").read_text())
        self.assertEqual(self.files(path), before)
        self.assertEqual(os.statvfs(folder).f_bfree, Image.open(path).free)
        (folder / "most.prg").write_bytes(bytes(62 * 254))
        (folder / "rest.prg").write_bytes(bytes(600 * 254))

    def test_a_full_directory(self):
        path, folder = self.new()
        for number in range(144):
            (folder / f"{number}.prg").write_bytes(b"1")
        self.assertEqual(os.statvfs(folder).f_ffree, 0)
        self.refused(errno.ENOSPC, (folder / "more.prg").write_bytes, b"1")
        self.assertEqual(len(self.files(path)), 144)

    def test_a_full_disk_is_copied_in_time(self):
        path, folder = self.new()
        out = self.folder / "out"
        out.mkdir()
        for number in range(8):
            (out / f"{number}.prg").write_bytes(bytes([number]) * 83 * 254)
        begun = time.monotonic()
        subprocess.run(["cp", "-r", f"{out}/.", folder], check=True)
        subprocess.run(["cp", "-r", folder, self.folder / "back"], check=True)
        took = time.monotonic() - begun
        self.assertEqual(Image.open(path).free, 0)
        self.assertEqual({it.name: it.read_bytes() for it in (self.folder / "back").glob("*.prg")}, {it.name: it.read_bytes() for it in out.iterdir()})
        self.assertLess(took, 3)


class Stops(MountCase):
    def serve(self, path):
        """Mounts an image by a process that can be killed, and gives both."""
        folder = self.folder / "killed"
        folder.mkdir(exist_ok=True)
        server = subprocess.Popen([sys.executable, "-m", "yellowadze1541.mount", "--foreground", path, folder], stderr=subprocess.DEVNULL)
        self.addCleanup(subprocess.run, ["fusermount3", "-q", "-u", "-z", folder], check=False)
        self.addCleanup(server.kill)
        end = time.monotonic() + LIMIT
        while not (folder / ".status").exists():
            self.assertLess(time.monotonic(), end, "the folder isn't mounted")
            time.sleep(0.01)
        return server, folder

    def test_a_server_that_is_killed_leaves_each_file_as_before_or_as_after(self):
        path = self.folder / "stop.d64"
        Image.new(Form.D64, "STOP", "64").save(path)
        versions = [bytes([number]) * (3000 + 500 * number) for number in range(10)]
        for number in range(8):
            server, folder = self.serve(path)
            writer = threading.Thread(target=self.write_until_it_fails, args=(folder, versions), daemon=True)
            writer.start()
            time.sleep(0.05 + 0.037 * number)
            server.send_signal(signal.SIGKILL)
            server.wait()
            # (the folder without its server refuses everything; unmounted it would be a plain one)
            writer.join(LIMIT)
            self.assertFalse(writer.is_alive())
            subprocess.run(["fusermount3", "-q", "-u", "-z", folder], check=True)
            for (name, _), data in self.files(path).items():
                self.assertIn(name, (b"A", b"B"))
                self.assertIn(data, versions)
        self.assertTrue(self.files(path))

    @staticmethod
    def write_until_it_fails(folder, versions):
        try:
            while True:
                for data in versions:
                    for name in ("a.prg", "b.prg"):
                        (folder / name).write_bytes(data)
        except OSError:
            pass

    def test_a_server_ends_at_the_terminals_signals(self):
        path = self.file("hello.d64", HELLO.read_bytes())
        for number in (signal.SIGINT, signal.SIGTERM):
            server, folder = self.serve(path)
            server.send_signal(number)
            self.assertEqual(server.wait(LIMIT), 0)
            self.assertEqual(os.listdir(folder), [])

    def test_a_server_in_the_background_ends_when_it_is_unmounted(self):
        folder = self.mount(self.file("hello.d64", HELLO.read_bytes()))
        subprocess.run(["fusermount3", "-u", folder], check=True)
        self.assertEqual(os.listdir(folder), [])


if __name__ == "__main__":
    unittest.main()
