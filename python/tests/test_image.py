"""Looks into images, and changes of them, against disk1541 and the plain model of the format."""
import json
import subprocess
import sys
import unittest

from support import HELLO, ROOT, DiskCase, disk1541, json_of, model, model_disk
from yellowadze1541 import BrokenDirectory, Charset, Drive, FileType, Foreign, Form, Host, Image, Lossy, Order, Refused, Unsound

SEEDS = range(12)


def said_of(entry):
    """What disk1541 says of an entry, of the members that are compared."""
    kind = entry.type.name.lower() if isinstance(entry.type, FileType) else None
    return {
        "slot": entry.slot,
        "petscii": entry.name.hex(),
        "type": kind,
        "closed": entry.closed,
        "locked": entry.locked,
        "blocks": entry.blocks,
    }


def refused(number, call, *words, **more):
    """Whether a call is refused with this number."""
    try:
        call(*words, **more)
    except Refused as error:
        return error.number == number
    return False


class Looks(DiskCase):
    def both_forms(self, seed):
        """A disk of the model, as a D64 and as a G64: paths."""
        disk = model_disk(seed)
        path = self.file(f"{seed}.d64", disk.image)
        disk1541("convert", path, path.with_suffix(".g64"))
        return disk, (path, path.with_suffix(".g64"))

    def test_entries_title_and_room_are_as_disk1541_says(self):
        for seed in SEEDS:
            disk, paths = self.both_forms(seed)
            for path in paths:
                with self.subTest(path=path.name):
                    image, said = Image.open(path), json_of(path)
                    keys = ("slot", "petscii", "type", "closed", "locked", "blocks")
                    self.assertEqual([said_of(it) for it in image.files()], [{key: it[key] for key in keys} for it in said["files"]])
                    self.assertEqual((image.title, image.id, image.dos, image.free), (disk.title, b"ID", b"2A", disk.free))
                    self.assertEqual(image.free, said["free"])
                    self.assertIsNone(image.check())
                    self.assertEqual(image.flaws(), [])

    def test_files_have_the_bytes_that_were_put_on_the_disk(self):
        for seed in SEEDS:
            disk, paths = self.both_forms(seed)
            for path in paths:
                image = Image.open(path)
                for file, entry in zip(disk.files, image.files()):
                    if file.is_closed:
                        self.assertEqual(image.read(entry), file.bytes)
                        self.assertEqual(image.read(file.name), file.bytes)
                    else:
                        self.assertTrue(refused(60, image.read, entry))

    def test_sectors_are_those_of_the_d64(self):
        disk, paths = self.both_forms(3)
        for path in paths:
            image = Image.open(path)
            for track in range(1, 36):
                for sector in range(model.sectors_of(track)):
                    at = model.place(track, sector)
                    self.assertEqual(image.sector(track, sector), bytes(disk.image[at : at + 256]))
            self.assertTrue(refused(-4, image.sector, 36, 0))

    def test_listings_by_pattern_and_in_the_other_set(self):
        path = self.file("a.d64", model_disk(5).image)
        image = Image.open(path)
        for charset in Charset:
            self.assertEqual(image.listing(charset), disk1541("list", path, "--charset", charset.value).decode())
        for file in model_disk(5).files:
            only = model.text(file.name[:1])
            if only not in "*?":
                self.assertEqual(image.listing(only=f"{only}*"), disk1541("list", path, "--only", f"{only}*").decode())

    def test_what_is_no_image_is_refused(self):
        for data in (b"", b"abc", bytes(174_847), b"GCR-1541" + bytes(100)):
            self.assertTrue(refused(-5, Image, data))
        self.assertTrue(refused(-5, Image.open, self.file("big.d64", bytes(833_293))))

    def test_the_size_decides_first(self):
        # (what a program writes to 1/0 makes no G64 of a D64)
        for size, form in ((174_848, Form.D64), (175_531, Form.D64), (196_608, Form.D64_40)):
            data = b"GCR-1541" + bytes(size - 8)
            image = Image(data)
            self.assertEqual((image.form, image.sector(1, 0)), (form, data[:256]))

    def test_what_is_wrong_is_what_disk1541_says(self):
        disk = model_disk(7)
        entry = Image(disk.image).find(next(it.name for it in disk.files if it.is_closed))
        place = model.place(18, 1) + 32 * entry.slot
        # (a count of the BAM, a file's type, its first track, and its first sector)
        for at, value, is_odd in ((model.place(18, 0) + 4, 99, False), (place + 2, 0x87, True), (place + 3, 77, True), (place + 4, 99, True)):
            data = bytearray(disk.image)
            data[at] = value
            path = self.file("wrong.d64", data)
            said = json.loads(disk1541("check", "--all", "--json", path, status=1))["flaws"]
            image = Image(data)
            self.assertEqual([(it.number, it.track, it.sector) for it in image.flaws()], [(it["number"], it["track"], it["sector"]) for it in said])
            first = image.check()
            self.assertEqual((first.number, first.track, first.sector), (said[0]["number"], said[0]["track"], said[0]["sector"]))
            if is_odd:
                self.assertEqual([it.slot for it in image.odd()], [entry.slot])
                continue
            with self.assertRaises(Unsound) as told:
                image.write("NEW", b"1")
            self.assertEqual(told.exception.flaw, first)
            self.assertEqual(image.bytes, bytes(data))

    def test_a_directory_that_breaks_off_gives_the_entries_before(self):
        disk = model_disk(7)
        data = bytearray(disk.image)
        data[model.place(18, 1) : model.place(18, 1) + 2] = b"\xff\xff"
        image, said = Image(data), json.loads(disk1541("list", "--json", self.file("a.d64", data), status=1))
        with self.assertRaises(BrokenDirectory) as told:
            image.files()
        self.assertEqual(len(told.exception.entries), said["broken"]["entries"])
        self.assertEqual(told.exception.number, said["broken"]["error"])
        there = [it for it in told.exception.entries if not it.is_empty]
        self.assertEqual([it.name.hex() for it in there], [it["petscii"] for it in said["files"]])
        for file in disk.files:
            if file.name in {it.name for it in there if it.closed}:
                self.assertEqual(image.read(file.name), file.bytes)
        with self.assertRaises(BrokenDirectory):
            image.read("NONE")


class New(DiskCase):
    def test_new_images_are_those_of_disk1541(self):
        rows = [(Form.D64, "a.d64", ()), (Form.D64_40, "b.d64", ("--tracks", 40)), (Form.G64, "c.g64", ())]
        for form, name, words in rows:
            for id in ("64", "64 3B"):
                with self.subTest(form=form, id=id):
                    path = self.folder / name
                    disk1541("new", path, "--title", "NEW DISK", "--id", id, "--replace", *words)
                    self.assertEqual(Image.new(form, "new disk", id).bytes, path.read_bytes())

    def test_what_no_disk_can_be_called_is_refused(self):
        for words in ({"title": "A" * 17}, *({"id": it} for it in ("", "1", "123", "123456"))):
            with self.assertRaises(ValueError):
                Image.new(**words)


class Changes(DiskCase):
    """Each change gives the image that disk1541 makes, byte for byte."""

    def setUp(self):
        super().setUp()
        self.paths = []
        for seed in SEEDS:
            path = self.file(f"{seed}.d64", model_disk(seed).image)
            if seed % 3 == 0:
                disk1541("convert", path, path.with_suffix(".g64"))
                path = path.with_suffix(".g64")
            self.paths.append(path)

    @staticmethod
    def plain_file(image):
        """A closed file that isn't locked, whose name is no pattern; None: there is none."""
        return next((it for it in image.files() if it.closed and not it.locked and not set(model.DIVIDES) & set(it.name)), None)

    def compare(self, change, *words):
        """Makes a change of each image that has a plain file, and has disk1541 make it, with these words, among them SLOT and NAME of that file."""
        count = 0
        for path in self.paths:
            image = Image.open(path)
            entry = self.plain_file(image)
            if entry is not None:
                with self.subTest(path=path.name):
                    change(image, entry)
                    meant = {"SLOT": entry.slot, "NAME": entry.text()}
                    disk1541(words[0], path, *(meant.get(it, it) for it in words[1:]))
                    self.assertEqual(image.bytes, path.read_bytes())
                    self.assertIsNone(image.check())
                    count += 1
        self.assertGreater(count, 3)

    def test_several_files_are_written_in_one_call(self):
        files = [(b"PLAIN", b"1" * 300), (b'A*,"\x01=?', b"2"), (b"NEW 0", b"3" * 600, FileType.SEQ), (b"NEW 1", b"4", FileType.USR)]
        for form in Form:
            image, path = Image.new(form, "SEVERAL", "64"), self.folder / f"several{form}.d64"
            image.write_all(files)
            image.save(path)
            self.assertEqual([it.name for it in image.files()], [name for name, *_ in files])
            self.assertEqual([it.type for it in image.files()], [FileType.PRG, FileType.PRG, FileType.SEQ, FileType.USR])
            for slot, (_, data, *_) in enumerate(files):
                self.assertEqual(disk1541("get", path, "--slot", slot), data)
            self.assertIsNone(image.check())

    def test_rename(self):
        self.compare(lambda image, entry: image.rename(entry, "OTHER NAME"), "rename", "--slot", "SLOT", "OTHER NAME")

    def test_rename_to_any_codes(self):
        self.compare(lambda image, entry: image.rename(entry, b'A*,"\x01=?'), "rename", "--slot", "SLOT", 'A*,"{01}=?')

    def test_copy(self):
        self.compare(lambda image, entry: image.copy(entry, "COPY"), "copy", "--slot", "SLOT", "COPY")

    def test_a_copy_leaves_what_follows_the_name(self):
        data = bytearray(HELLO.read_bytes())
        field = model.place(18, 1) + 5
        data[field : field + 16] = b"HELLO\xa0,8,1\xa0\xa0\xa0\xa0\xa0\xa0"
        path, image = self.file("art.d64", data), Image(data)
        image.copy("HELLO", "COPY")
        disk1541("copy", path, "--slot", 0, "COPY")
        self.assertEqual(image.bytes, path.read_bytes())
        image.write("HELLO", b"other", replace=True)
        self.assertEqual(image.find("HELLO").field[:10], b"HELLO\xa0,8,1")

    def test_delete(self):
        self.compare(lambda image, entry: image.delete(entry), "delete", "NAME")

    def test_lock(self):
        self.compare(lambda image, entry: image.lock(entry), "lock", "--slot", "SLOT")

    def test_retitle(self):
        self.compare(lambda image, entry: image.retitle("ANOTHER TITLE"), "title", "ANOTHER TITLE")

    def test_sort(self):
        for order in Order:
            self.compare(lambda image, entry: image.sort(order), "sort", "--by", order.name.lower())

    def test_validate(self):
        self.compare(lambda image, entry: image.validate(), "validate")

    def test_unlock(self):
        self.compare(lambda image, entry: (image.lock(entry), image.unlock(entry)), "unlock", "--slot", "SLOT")

    def test_undelete(self):
        for path in self.paths:
            image = Image.open(path)
            entry = self.plain_file(image)
            if entry is None:
                continue
            # (nothing is given back on a disk with lost blocks)
            image.validate()
            before = image.bytes
            image.delete(entry)
            self.assertIn(entry.name, [it.name for it in image.deleted()])
            gone = next(it for it in image.deleted() if it.slot == entry.slot)
            after = image.bytes
            for which in (entry.slot, gone, entry.name):
                image = Image(after)
                image.undelete(which, entry.type)
                self.assertEqual(image.bytes, before)
            self.assertTrue(refused(62, image.undelete, entry.slot))

    def test_write(self):
        for kind in (FileType.PRG, FileType.SEQ, FileType.USR):
            for size in (0, 1, 254, 255, 5000):
                data = bytes(it * 7 % 256 for it in range(size))
                name = f"{kind.name} {size}"
                put = self.file("put.bin", data)
                for path in self.paths[:4]:
                    with self.subTest(path=path.name, kind=kind, size=size):
                        image = Image.open(path)
                        image.write(name, data, kind)
                        disk1541("put", path, put, "--name", name, "--type", kind.name.lower())
                        self.assertEqual(image.bytes, path.read_bytes())

    def test_write_in_place_of_a_file(self):
        for path in self.paths:
            image = Image.open(path)
            entry = self.plain_file(image)
            if entry is not None:
                image.write(entry.name, b"replaced", FileType.USR, replace=True)
                self.assertEqual(image.read(entry.name), b"replaced")
                self.assertIsNone(image.check())
                self.assertTrue(refused(63, image.write, entry.name, b""))

    def test_a_file_that_is_replaced_keeps_its_slot(self):
        put = self.file("put.bin", bytes(3000))
        for path in self.paths:
            image = Image.open(path)
            entry = self.plain_file(image)
            if entry is not None:
                image.write(entry.name, bytes(3000), entry.type, replace=True)
                disk1541("put", path, put, f"--name={entry.text()}", "--type", entry.type.name.lower(), "--replace")
                files = [(it.slot, it.field, it.type) for it in image.files()]
                self.assertEqual(files, [(it.slot, it.field, it.type) for it in Image.open(path).files()])
                self.assertIsNone(image.check())

    def test_convert(self):
        for path in self.paths:
            other = path.with_name("other").with_suffix(".g64" if path.suffix == ".d64" else ".d64")
            disk1541("convert", path, other)
            self.assertEqual(Image.open(path).convert().bytes, other.read_bytes())
            other.unlink()

    def test_convert_says_what_is_lost(self):
        long = Image.new(Form.D64_40, "LONG", "64")
        with self.assertRaises(Lossy) as told:
            long.convert()
        self.assertEqual(told.exception.lost, (0, True, False, False))
        self.assertEqual(long.convert(lossy=True).form, Form.G64)

    def test_an_id_of_two_codes_keeps_the_kind_of_dos(self):
        image = Image.new(Form.D64, "TITLE", "64 3B")
        image.retitle("OTHER", "AB")
        self.assertEqual((image.title, image.id, image.dos), (b"OTHER", b"AB", b"3B"))
        image.retitle("OTHER", "CD 2A")
        self.assertEqual((image.id, image.dos), (b"CD", b"2A"))


    def art(self):
        """A sound disk with lines of art that lead to 18/0, 18/1 and to no sector, one in the middle of the files, and one of an unknown type: two paths."""
        image = Image.new(Form.D64, "ART", "64")
        image.write_all([(b"ZEBRA", b"1" * 300), (b"LINE 1", b""), (b"LION", b"2", FileType.SEQ), (b"LINE 2", b""), (b"LINE 3", b""), (b"APE", b"3" * 600)])
        data = bytearray(image.bytes)
        for slot, start in ((1, b"\x82\x12\x00"), (3, b"\x82\x12\x01"), (4, b"\x85\x63\x00")):
            place = model.place(18, 1) + 32 * slot + 2
            data[place : place + 19] = start + b"-" * 16
        # (the blocks of what became art are free)
        for it in (1, 3, 4):
            track, sector = image.slots()[it].track, image.slots()[it].sector
            row = model.place(18, 0) + 4 * track
            data[row] += 1
            data[row + 1 + sector // 8] |= 1 << sector % 8
        path = self.file("art.d64", data)
        disk1541("convert", "--replace", path, path.with_suffix(".g64"))
        return path, path.with_suffix(".g64")

    def test_odd_entries_are_left_alone(self):
        new = self.file("new.prg", b"new" * 500)
        changes = [
            (lambda image: image.rename("ZEBRA", "A*"), ("rename", "--slot", 0, "A*")),
            (lambda image: image.write("NEW", b"new" * 500), ("put", new)),
            (lambda image: image.write_all([("NEW", b"new" * 500)]), ("put", new)),
            (lambda image: image.copy("ZEBRA", "COPY"), ("copy", "ZEBRA", "COPY")),
            (lambda image: image.delete("LION"), ("delete", "LION")),
            (lambda image: image.lock("APE"), ("lock", "APE")),
            (lambda image: image.retitle("ANOTHER"), ("title", "ANOTHER")),
            (lambda image: image.sort(), ("sort", "--by", "name")),
            (lambda image: image.sort(Order.SIZE), ("sort", "--by", "size")),
            (lambda image: image.validate(), ("validate",)),
        ]
        for change, (command, *words) in changes:
            for path in self.art():
                with self.subTest(path=path.name, command=command):
                    image = Image.open(path)
                    self.assertEqual([it.slot for it in image.odd()], [1, 3, 4])
                    before = [image.slots()[it] for it in (1, 3, 4)]
                    change(image)
                    disk1541(command, path, *words)
                    self.assertEqual(image.bytes, path.read_bytes())
                    self.assertEqual(image.odd(), before)

    def test_a_command_leaves_odd_entries_alone(self):
        for path in self.art():
            image = Image.open(path)
            self.assertEqual(image.command("S0:Z*"), "01, FILES SCRATCHED,01,00")
            disk1541("delete", path, "Z*")
            self.assertEqual(image.bytes, path.read_bytes())

    def test_a_change_of_an_odd_entry_is_refused(self):
        for path in self.art():
            image, data = Image.open(path), path.read_bytes()
            self.assertTrue(refused(26, image.rename, 1, "NEW"))
            self.assertTrue(refused(26, image.delete, 1))
            disk1541("rename", path, "--slot", 1, "NEW", status=1)
            self.assertEqual(image.bytes, data)

    def test_more_is_wrong_than_odd_entries(self):
        self.assertEqual(Image.open(HELLO).odd(), [])
        data = bytearray(self.art()[0].read_bytes())
        data[model.place(18, 0) + 4] -= 1
        image = Image(data)
        for call in (image.odd, image.sort, lambda: image.rename("APE", "NEW"), lambda: image.write("NEW", b"")):
            with self.assertRaises(Unsound) as told:
                call()
            self.assertEqual(told.exception.flaw, image.check())

    def test_validate_of_another_flaw_is_refused(self):
        data = bytearray(HELLO.read_bytes())
        data[model.place(18, 1) + 3] = 77
        image, path = Image(data), self.file("wrong.d64", data)
        disk1541("validate", path, status=1)
        with self.assertRaises(Refused):
            image.validate()
        self.assertEqual(image.bytes, bytes(data))

    def test_validate_keeps_what_may_be_the_rest_of_an_odd_entry(self):
        for start, is_cut in ((b"\x82\x12\x00", False), (b"\x82\x63\x00", True)):
            data = bytearray(HELLO.read_bytes())
            data[model.place(18, 1) + 34 : model.place(18, 1) + 53] = start + b"-" * 16
            # (a block that no file uses)
            data[model.place(18, 0) + 4] -= 1
            data[model.place(18, 0) + 5] &= 0xFE
            image, path = Image(data), self.file("rest.d64", data)
            disk1541("validate", path, status=int(is_cut))
            if is_cut:
                with self.assertRaises(Unsound):
                    image.validate()
            else:
                image.validate()
            self.assertEqual(image.bytes, path.read_bytes())

    def test_validate_mends_a_map(self):
        data = bytearray(HELLO.read_bytes())
        data[model.place(18, 0) + 4 * 17 + 1] ^= 0x30
        data[model.place(18, 0) + 4] = 99
        path, image = self.file("wrong.d64", data), Image(data)
        self.assertIsNotNone(image.check())
        image.validate()
        self.assertIsNone(image.check())
        disk1541("validate", path)
        self.assertEqual(image.bytes, path.read_bytes())


class RelativeFiles(DiskCase):
    def setUp(self):
        super().setUp()
        self.path = self.folder / "rel.d64"
        disk1541("new", self.path, "--title", "REL", "--id", "64")
        self.records = b"".join(b"record %02d\r" % number for number in range(60))
        disk1541("put", self.path, self.file("records.bin", self.records), "--type", "rel", "--record", len(b"record 00\r"))

    def test_they_are_read_renamed_locked_and_deleted(self):
        image = Image.open(self.path)
        entry = image.find("RECORDS")
        self.assertEqual((entry.type, entry.record_length), (FileType.REL, 10))
        self.assertEqual(image.read(entry)[: len(self.records)], self.records)
        self.assertEqual(image.read(entry), disk1541("get", self.path, "RECORDS"))
        self.assertTrue(refused(64, image.copy, entry, "COPY"))
        with self.assertRaises(ValueError):
            image.write("RECORDS", b"", FileType.REL, replace=True)
        for change in (lambda: image.rename("RECORDS", "OTHER"), lambda: image.lock("OTHER"), lambda: image.unlock("OTHER"), lambda: image.delete("OTHER")):
            change()
            self.assertIsNone(image.check())
        self.assertEqual(image.free, 664)

    def test_a_drive_writes_them(self):
        image = Image.open(self.path)
        with Drive(image) as drive:
            host = Host(drive)
            host.open(2, "RECORDS,L,{0a}")
            self.assertEqual(host.command(b"P\x62\x03\x00\x01"), "00, OK,00,00")
            host.send(2, b"changed 2\r")
            host.close(2)
            self.assertEqual(drive.image.read("RECORDS")[20:30], b"changed 2\r")


class OneFileAlone(DiskCase):
    """A change by name changes that file alone, whatever patterns other names look like."""

    NAMES = [b"A*", b"A,B", b"ABC", b"A", b"?", b"A=B", b"0:A", b"$", b"@A", b'"A"', b"#", b"*", b"\x01\xff", b"A:B", b"&A", b"A "]

    def setUp(self):
        super().setUp()
        self.image = Image.new(Form.D64, "ODD NAMES", "64")
        for name in self.NAMES:
            self.image.write(name, name * 100)

    def files(self):
        return {it.name: self.image.read(it) for it in self.image.files()}

    def test_each_can_be_written(self):
        self.assertEqual(self.files(), {name: name * 100 for name in self.NAMES})
        self.assertIsNone(self.image.check())

    def test_disk1541_reads_the_same(self):
        path = self.file("odd.d64", self.image.bytes)
        for entry in self.image.files():
            self.assertEqual(disk1541("get", path, "--slot", entry.slot), entry.name * 100)

    def test_each_is_deleted_alone(self):
        for name in self.NAMES:
            before = self.files()
            self.image.delete(name)
            del before[name]
            self.assertEqual(self.files(), before)

    def test_each_is_renamed_copied_and_locked_alone(self):
        for name in self.NAMES:
            before = self.files()
            self.image.rename(name, b"R*")
            self.image.copy(b"R*", name)
            self.image.lock(b"R*")
            self.assertEqual(self.files(), {**before, b"R*": before[name]})
            self.assertEqual([it.name for it in self.image.files() if it.locked], [b"R*"])
            self.image.unlock(b"R*")
            self.image.delete(b"R*")

    def test_what_can_be_no_name_is_refused(self):
        for name in (b"", b"A" * 17, b"A\xa0B", "é"):
            with self.assertRaises(ValueError):
                self.image.write(name, b"")


class Refusals(DiskCase):
    def setUp(self):
        super().setUp()
        self.image = Image.open(HELLO)

    def test_a_refusal_leaves_the_image(self):
        before = self.image.bytes
        self.assertTrue(refused(62, self.image.delete, "NONE"))
        self.assertTrue(refused(62, self.image.read, "H*"))
        self.assertTrue(refused(63, self.image.write, "HELLO", b""))
        self.assertTrue(refused(72, self.image.write, "BIG", bytes(663 * 254 + 1)))
        self.assertTrue(refused(72, self.image.write, "HELLO", bytes(664 * 254 + 1), replace=True))
        self.assertTrue(refused(33, self.image.command, "R0:A*=HELLO"))
        self.assertEqual(self.image.bytes, before)

    def test_of_several_files_all_are_written_or_none(self):
        before = self.image.bytes
        with self.assertRaises(Refused) as told:
            self.image.write_all([("GOOD", b"1"), ("A*", b"2"), ("BIG", bytes(664 * 254))])
        self.assertEqual((told.exception.number, str(told.exception)), (72, "BIG: 72, DISK FULL"))
        for twice in ([("HELLO", b"")], [("A", b""), ("A", b"")], [("A*", b""), ("A*", b"")]):
            self.assertTrue(refused(63, self.image.write_all, twice))
        self.assertEqual(self.image.bytes, before)

    def test_a_command_answers_the_status_line(self):
        self.image.write_all([("A1", b""), ("A2", b"")])
        self.assertEqual(self.image.command("S0:A*"), "01, FILES SCRATCHED,02,00")
        self.assertEqual(self.image.command("R0:OTHER=HELLO"), "00, OK,00,00")
        with self.assertRaises(Refused) as told:
            self.image.command("R0:NEW=HELLO")
        self.assertEqual((told.exception.number, told.exception.line), (62, "62,FILE NOT FOUND,00,00"))

    def test_a_locked_file_stays(self):
        self.image.lock("HELLO")
        self.assertTrue(refused(26, self.image.delete, "HELLO"))
        self.assertTrue(refused(26, self.image.write, "HELLO", b"", replace=True))

    def test_an_entry_that_is_another_files_by_now_is_refused(self):
        self.image.write("AAA", b"1")
        hello = self.image.find("HELLO")
        self.image.sort()
        self.assertTrue(refused(62, self.image.delete, hello))
        self.assertEqual(len(self.image.files()), 2)

    def test_a_full_directory(self):
        image = Image.new(Form.D64, "FULL", "64")
        for number in range(144):
            image.write(f"F{number}", b"x")
        self.assertTrue(refused(72, image.write, "ONE MORE", b"x"))
        self.assertEqual(len(image.files()), 144)
        self.assertIsNone(image.check())

    def test_types_that_a_put_cannot_write(self):
        for kind in (FileType.REL, FileType.DEL):
            with self.assertRaises(ValueError):
                self.image.write("NEW", b"", kind)

    def test_the_words_of_a_refusal(self):
        with self.assertRaises(Refused) as told:
            self.image.write("HELLO", b"")
        self.assertEqual((told.exception.number, told.exception.text), (63, "FILE EXISTS"))


    def test_only_bytes_are_taken_for_bytes(self):
        before = self.image.bytes
        for wrong in (5, [1, 2, 3], None, "text"):
            calls = (lambda: self.image.write("N", wrong), lambda: self.image.rewrite("HELLO", wrong), lambda: self.image.write_all([("N", wrong)]), lambda: Image(wrong))
            for call in (*calls, lambda: Drive(wrong)):
                with self.subTest(wrong=wrong), self.assertRaises(TypeError):
                    call()
        for wrong in (5, [1], None):
            with self.subTest(wrong=wrong), self.assertRaises(TypeError):
                self.image.write(wrong, b"1")
        self.assertEqual(self.image.bytes, before)
        self.image.write("VIEW", memoryview(b"abc")[1:])
        self.assertEqual(self.image.read("VIEW"), b"bc")

    def test_a_refusal_names_its_object(self):
        self.image.write("OTHER", b"1")
        for words, call in (
            ("track 36, sector 0: no such thing", lambda: self.image.sector(36, 0)),
            ("OTHER: 63, FILE EXISTS", lambda: self.image.rename("HELLO", "OTHER")),
            ("OTHER: 63, FILE EXISTS", lambda: self.image.copy("HELLO", "OTHER")),
            ("NONE: 62, FILE NOT FOUND", lambda: self.image.read("NONE")),
        ):
            with self.subTest(words=words), self.assertRaises(Refused) as told:
                call()
            self.assertEqual(str(told.exception), words)
        for call in (lambda: Image.new(Form.D64, "X" * 17), lambda: Image.new("x"), lambda: self.image.retitle("X" * 17)):
            with self.assertRaises(ValueError):
                call()

    def test_the_files_as_a_collection(self):
        self.assertEqual(self.image["HELLO"], self.image.read("HELLO"))
        self.assertEqual([it.name for it in self.image], [it.name for it in self.image.files()])
        self.assertTrue("hello" in self.image and b"HELLO" in self.image)
        self.assertFalse("HELL*" in self.image or 5 in self.image)
        with self.assertRaises(KeyError):
            self.image["NONE"]


class OthersFiles(DiskCase):
    """What other systems keep on a disk is refused or kept, as disk1541 does."""

    def geos(self):
        path = self.folder / "geos.d64"
        subprocess.run([sys.executable, ROOT / "tests" / "programs" / "geos_disk.py", path], check=True, cwd=ROOT / "tests" / "programs")
        return Image.open(path)

    def test_a_directory_that_ends_too_early(self):
        image = self.geos_free_disk(40)
        data = bytearray(image.bytes)
        data[model.place(18, 1) : model.place(18, 1) + 2] = b"\0\xff"
        cut = Image(data)
        self.assertIsNone(cut.check())
        self.assertEqual(len(cut.files()), 8)
        with self.assertRaises(Foreign):
            cut.validate()
        self.assertEqual(cut.bytes, bytes(data))
        image.validate()

    def geos_free_disk(self, count):
        image = Image.new()
        image.write_all([(f"FILE {n}", bytes([n])) for n in range(count)])
        return image

    def test_geos(self):
        image = self.geos()
        before = image.bytes
        with self.assertRaises(Foreign):
            image.validate()
        with self.assertRaises(Foreign):
            image.copy("LETTER", "OTHER")
        self.assertEqual(image.bytes, before)

    def test_dolphin_dos(self):
        data = bytearray(Image.new(Form.D64_40, "WIDE", "64").bytes)
        head = model.place(18, 0)
        rows = data[head + 0xC0 : head + 0xD4]
        data[head + 0xAC : head + 0xC0], data[head + 0xC0 : head + 0xD4] = rows, bytes(20)
        path = self.file("dolphin.d64", data)
        self.assertEqual(json.loads(disk1541("info", "--json", path))["map_36_40"], "dolphin")
        image = Image.open(path)
        for change in (lambda: image.write("A", b""), image.validate, lambda: image.undelete(0)):
            with self.assertRaises(Foreign):
                change()
        self.assertEqual(image.bytes, bytes(data))


if __name__ == "__main__":
    unittest.main()
