"""A drive on the lines, and a computer at it, against the C example and the calls on images."""
import contextlib
import os
import re
import shutil
import subprocess
import unittest

from support import DISK1541, HELLO, ROOT, DiskCase, model_disk
from yellowadze1541 import BusError, Drive, Form, Host, Image, Pace, Pulls, Received, Refused
from yellowadze1541.bus import Bus
from yellowadze1541.kernal import Computer

SAVED = bytes([0x00, 0xC0, 0x00, 0xFF, 0x55, 0xAA, 0x0F, 0xF0, 0x80, 0x01])
# The runs of examples/c/kernal_host.c: what it calls them, the computer, the pace, and the drive's reaction.
RUNS = [
    ("a C64 for PAL, screen off, at the profile's pace", Computer.DARK_PAL, Pace.PROFILE, 20),
    ("a C64 for PAL at the KERNAL's pace", Computer.PAL, Pace.KERNAL, 20),
    ("a C64 for NTSC at the KERNAL's pace", Computer.NTSC, Pace.KERNAL, 60),
    ("a VIC-20 at the KERNAL's pace", Computer.VIC, Pace.KERNAL, 1),
]


def shown(what, data):
    """A line of kernal_host.c."""
    text = "".join(f" {it:02x}" for it in data[:16])
    return f"{what}: {len(data)} bytes:{text}{' ..' if len(data) > 16 else ''}"


def jobs(host, asks_missing):
    """The jobs of kernal_host.c, call for call, and the lines that it prints."""
    lines = [status(host)]
    for name, what in (("$", 'LOAD"$",8'), ("HELLO", 'LOAD"HELLO",8')):
        lines.append(shown(what, host.load(name)))
    save(host, "NEW")
    lines.append(shown('LOAD"NEW",8', host.load("NEW")))
    save(host, "HELLO")
    lines.append(status(host))
    if asks_missing:
        host.open(0, "NONE")
        try:
            host.receive(0)
        except BusError as error:
            assert (error.status, error.stuck) == (0x42, False), error
        lines += [status(host), status(host)]
    return lines


def status(host):
    """A line of the C example, which closes channel 15 each time."""
    line = f"status: {host.status()}"
    host.close(15)
    return line


def save(host, name):
    """SAVE as the C example does it, which doesn't read the status."""
    host.open(1, name)
    host.send(1, SAVED)
    host.close(1)


def judge():
    """The path of drive1541: DRIVE1541, or the program next to disk1541; None if it isn't there."""
    path = os.environ.get("DRIVE1541") or os.path.join(os.path.dirname(DISK1541), "drive1541")
    return shutil.which(path)


class Traced(DiskCase):
    def test_the_judge_finds_a_session(self):
        if judge() is None:
            self.skipTest("drive1541 isn't next to disk1541")
        path = self.folder / "host.trace"
        with open(path, "w", encoding="ascii") as trace, Drive(HELLO.read_bytes()) as first, Drive(Image.new().bytes, device=9, reaction=35) as second:
            host = Host(first, second, trace=trace)
            data = host.load("HELLO")
            host.device = 9
            host.save("AGAIN", data)
        ran = subprocess.run([judge(), "judge", path, "--drive", "8:20:kernal", "--drive", "9:35:kernal", "--loosely"], capture_output=True, text=True, check=False)
        self.assertEqual(ran.returncode, 0, ran.stdout + ran.stderr)
        self.assertIn("a session to", ran.stdout)
        self.assertIn("attention 29 f1", ran.stdout)


@unittest.skipUnless(shutil.which("cc") and os.environ.get("LIBRARY"), "no C compiler, or LIBRARY doesn't name the library")
class AgainstC(DiskCase):
    def printed(self, source, *words):
        """What a C program prints, with the same library."""
        library, program = os.environ["LIBRARY"], self.folder / source.stem
        said = subprocess.run(["objdump", "-p", library], capture_output=True, text=True, check=True).stdout
        for name in re.findall(r"^ *SONAME +(\S+)$", said, re.M):
            (self.folder / name).symlink_to(library)
        folders = ["-I", ROOT / "capi", "-I", ROOT / "examples" / "c"]
        subprocess.run(["cc", "-std=c99", *folders, "-o", program, source, library, f"-Wl,-rpath,{self.folder}"], check=True)
        return subprocess.run([program, HELLO, *words], capture_output=True, text=True, check=True).stdout

    def test_the_kernal_does_what_the_c_example_does(self):
        said = self.printed(ROOT / "examples" / "c" / "kernal_host.c", self.folder / "c.d64")
        lines = []
        for number, (name, computer, pace, reaction) in enumerate(RUNS):
            with Drive(Image.open(HELLO), reaction=reaction, pace=pace) as drive:
                host = Host(drive, computer=computer, seed=number)
                lines += [f"-- {name}", *jobs(host, pace == Pace.KERNAL)]
                image = drive.image
        self.assertEqual(lines, said.splitlines()[: len(lines)])
        self.assertEqual(image.bytes, (self.folder / "c.d64").read_bytes())

    def test_the_kernal_takes_the_cycles_of_the_c_example(self):
        lines = []
        for number in range(10):
            with Drive(Image.open(HELLO), reaction=6 * number + 1) as first, Drive(Image.open(HELLO), device=9) as second:
                host = Host(first, second, computer=list(Computer)[number % 5], seed=number)
                lines.append(" ".join(map(str, self.cycles(host))))
        self.assertEqual(lines, self.printed(ROOT / "python" / "tests" / "cycles.c").splitlines())

    @staticmethod
    def cycles(host):
        """The jobs of cycles.c, and the cycles after each."""
        host.load("$")
        yield host.kernal.cycles
        host.device = 9
        host.open(1, "NEW")
        host.send(1, bytes([1, 8, 0xFF, 0x55, 0]))
        host.close(1)
        yield host.kernal.cycles
        host.open(0, "NONE")
        with contextlib.suppress(BusError):
            host.receive(0)
        yield host.kernal.cycles


class Computers(unittest.TestCase):
    def test_what_is_loaded_is_what_the_image_has(self):
        disk = model_disk(4)
        image = Image(disk.image)
        with Drive(image) as drive:
            host = Host(drive)
            for file in disk.files:
                # (a LOAD of a name that looks like a pattern is one)
                if file.is_closed and len(file.bytes) < 1500 and file.name.isalnum():
                    self.assertEqual(host.load(file.name), file.bytes)
            self.assertEqual(drive.writes, 0)

    def test_a_save_changes_the_disk_as_a_write_of_the_image(self):
        image = Image.new(Form.D64, "DISK", "64")
        with Drive(image) as drive:
            Host(drive).save("SAVED", SAVED * 60)
            self.assertGreater(drive.writes, 0)
            image.write("SAVED", SAVED * 60)
            self.assertEqual(drive.image.bytes, image.bytes)

    def test_refusals_have_the_drives_number(self):
        with Drive(Image.open(HELLO)) as drive:
            host = Host(drive)
            self.assertEqual(host.status(), "73,CBM DOS V2.6 1541,00,00")
            for call, number in ((lambda: host.load("NONE"), 62), (lambda: host.save("HELLO", b"1"), 63)):
                with self.assertRaises(Refused) as told:
                    call()
                self.assertEqual(told.exception.number, number)
            self.assertEqual(host.command("R0:OTHER=HELLO"), "00, OK,00,00")
            self.assertEqual([it.name for it in drive.image.files()], [b"OTHER"])

    def test_a_covered_notch(self):
        with Drive(Image.open(HELLO), protected=True) as drive:
            with self.assertRaises(Refused) as told:
                Host(drive).save("NEW", SAVED)
            self.assertEqual((told.exception.number, drive.writes), (26, 0))

    def test_a_sequential_file_from_one_disk_to_another(self):
        with Drive(Image.open(HELLO)) as first, Drive(Image.new(Form.G64, "OTHER", "64"), device=9) as second:
            data = Host(first).load("HELLO")
            host = Host(second)
            host.open(2, "COPY,S,W")
            host.send(2, data)
            host.close(2)
            host.open(3, "COPY,S,R")
            self.assertEqual(host.receive(3), data)
            host.close(3)

    def test_two_drives_on_one_bus(self):
        with Drive(Image.open(HELLO)) as first, Drive(Image.new(Form.D64, "NINE", "99"), device=9) as second:
            host = Host(first, second)
            self.assertIn(b'"TEST', host.load("$"))
            host.device = 9
            self.assertIn(b'"NINE', host.load("$"))

    def test_a_device_that_is_not_there(self):
        with Drive(Image.open(HELLO)) as drive:
            with self.assertRaises(BusError):
                Host(drive, device=11).load("$")


class DirectAccess(unittest.TestCase):
    """Blocks by `#` and U1 (docs/direct.md), against the calls on images."""

    def test_blocks_are_the_images(self):
        disk = model_disk(4)
        for image in (Image(disk.image), Image(disk.image).convert()):
            for pace, computer in ((Pace.PROFILE, Computer.DARK_PAL), (Pace.KERNAL, Computer.PAL)):
                with self.subTest(form=image.form, pace=pace), Drive(image, pace=pace, direct=True) as drive:
                    host = Host(drive, computer=computer)
                    self.assertEqual(host.status(), "73,CBM DOS V2.6 1541,00,00")
                    host.open(2, "#")
                    self.assertEqual(host.status(), "00, OK,00,00")
                    for track, sector in ((18, 0), (18, 1), (1, 0), (35, 16)):
                        self.assertEqual(host.command(f"U1:2,0,{track},{sector}"), "00, OK,00,00")
                        self.assertEqual(host.receive(2), image.sector(track, sector))
                    self.assertEqual(host.command("U1:2,0,36,0"), "66,ILLEGAL TRACK OR SECTOR,36,00")
                    self.assertEqual((drive.writes, drive.image.bytes), (0, image.bytes))

    def test_it_is_asked_for(self):
        for settings in ({}, {"direct": False}):
            with Drive(Image.open(HELLO), **settings) as drive:
                host = Host(drive)
                host.open(2, "#")
                self.assertEqual(host.status(), "70,NO CHANNEL,00,00")
                self.assertEqual(host.command("U1:2,0,18,0"), "31,SYNTAX ERROR,00,00")

    def test_files_are_the_same(self):
        with Drive(Image.open(HELLO)) as plain, Drive(Image.open(HELLO), direct=True) as direct:
            for drive in (plain, direct):
                host = Host(drive)
                host.save("SAVED", host.load("HELLO") + SAVED)
                host.command("R0:OTHER=HELLO")
            self.assertEqual(plain.image.bytes, direct.image.bytes)
            self.assertEqual(plain.writes, direct.writes)

    def test_raw_writes_any_block(self):
        image = Image.open(HELLO)
        for direct, said, block in ((True, "26,WRITE PROTECT ON,18,00", image.sector(18, 0)), ("raw", "00, OK,00,00", bytes(256))):
            with self.subTest(direct=direct), Drive(image, direct=direct) as drive:
                host = Host(drive)
                host.open(2, "#")
                self.assertEqual(host.command("U2:2,0,18,0"), said)
                self.assertEqual(drive.image.sector(18, 0), block)
                self.assertEqual([drive.image.sector(18, it) for it in range(1, 19)], [image.sector(18, it) for it in range(1, 19)])

    def test_a_new_start_and_another_disk_leave_no_buffer(self):
        for change in (Drive.reset, lambda drive: drive.insert(Image.open(HELLO)), Drive.eject):
            with Drive(Image.open(HELLO), direct=True) as drive:
                host = Host(drive)
                host.open(2, "#")
                self.assertEqual(host.command("U1:2,0,18,0"), "00, OK,00,00")
                change(drive)
                self.assertEqual(host.command("U1:2,0,18,0"), "70,NO CHANNEL,00,00")

    def test_settings_out_of_their_range_are_refused(self):
        for settings in ({"device": 7}, {"reaction": 61}, {"pace": 2}):
            with self.assertRaises(Refused) as told:
                Drive(Image.open(HELLO), direct=True, **settings)
            self.assertEqual(told.exception.number, -2)


class Lines(unittest.TestCase):
    def setUp(self):
        self.image = Image.open(HELLO)

    def test_the_reaction_to_attention(self):
        # (docs/bus.md: a drive pulls DATA one reaction after ATN is pulled)
        for reaction in (1, 20, 60):
            with Drive(self.image, reaction=reaction) as drive:
                self.assertIsNone(drive.next_due)
                drive.lines(1000, True, False, False)
                self.assertEqual(drive.next_due, 1000 + reaction)
                self.assertIsNone(drive.due(999 + reaction))
                self.assertEqual(drive.due(1000 + reaction), (1000 + reaction, False, True, False, True))
                self.assertEqual(drive.pulls, Pulls(False, True))

    def test_time_that_goes_back_is_refused(self):
        with Drive(self.image) as drive:
            drive.lines(1000, False, True, False)
            for moment in (999, -1, 2**60, 2**64 + 5):
                with self.assertRaises(Refused) as told:
                    drive.lines(moment, False, False, False)
                self.assertEqual(told.exception.number, -2)

    def test_settings_out_of_their_range_are_refused(self):
        for settings in ({"device": 7}, {"device": 12}, {"reaction": 0}, {"reaction": 61}, {"pace": 2}):
            with self.assertRaises(Refused) as told:
                Drive(self.image, **settings)
            self.assertEqual(told.exception.number, -2)
        with self.assertRaises(ValueError):
            Drive(self.image, device=264)

    def test_another_disk(self):
        with Drive(self.image) as drive:
            self.assertEqual(drive.eject().bytes, self.image.bytes)
            with self.assertRaises(Refused) as told:
                drive.image.bytes
            self.assertEqual(told.exception.number, -4)
            other = Image.new(Form.G64, "OTHER", "64")
            drive.insert(other)
            self.assertEqual(drive.image.bytes, other.bytes)

    def test_a_restored_drive_goes_on_as_the_saved_one(self):
        with Drive(self.image) as drive, Drive(Image.new(Form.G64, "OTHER", "64")) as other:
            drive.lines(1000, True, False, False)
            state = drive.save()
            other.restore(state)
            self.assertEqual(other.save(), state)
            self.assertEqual(other.next_due, drive.next_due)
            self.assertEqual(other.due(5000), drive.due(5000))
            self.assertEqual(other.pulls, drive.pulls)
            self.assertEqual(other.image.bytes, self.image.bytes)
            for broken in (b"", state[:-1], state + b"x", state[:20] + bytes([state[20] ^ 1]) + state[21:]):
                with self.assertRaises(Refused) as told:
                    other.restore(broken)
                self.assertEqual(told.exception.number, -5)
            self.assertEqual(other.save(), drive.save())

    def test_reset_is_power_up(self):
        with Drive(self.image) as drive:
            Host(drive).status()
            self.assertEqual(drive.status, 0)
            drive.reset()
            self.assertEqual(drive.status, 73)

    def test_a_drive_that_is_closed_refuses(self):
        drive = Drive(self.image)
        drive.close()
        drive.close()
        self.assertIsNone(drive.next_due)
        for call in (lambda: drive.status, lambda: drive.image, lambda: drive.lines(1, False, False, False), drive.reset):
            with self.assertRaises(Refused) as told:
                call()
            self.assertEqual(told.exception.number, -7)

    def test_the_bus_tells_each_drive_what_all_others_hold(self):
        class Heard(Drive):
            def lines(self, moment, atn, clock, data):
                heard.append((self.device, moment, atn, clock, data))
                super().lines(moment, atn, clock, data)

        heard = []
        with Heard(self.image, reaction=20) as first, Heard(self.image, device=9, reaction=30) as second:
            bus = Bus(first, second)
            bus.write(100, True, True, False)
            bus.run_to(200)
        both = [(device, moment, *rest) for moment, *rest in ((0, False, False, False), (100, True, True, False)) for device in (8, 9)]
        self.assertEqual(heard, [*both, (9, 120, True, True, True), (8, 130, True, True, True)])

    def test_the_bus_joins_the_lines(self):
        with Drive(self.image) as first, Drive(self.image, device=9) as second:
            bus = Bus(first, second)
            bus.write(100, True, False, False)
            self.assertEqual(bus.read(110), (False, False))
            self.assertEqual(bus.read(200), (False, True))


if __name__ == "__main__":
    unittest.main()


class ChannelTest(unittest.TestCase):
    """The DOS without the wires."""

    def test_a_file_is_written_and_read(self):
        for direct in (False, True, "raw"):
            with self.subTest(direct=direct), Drive(Image.open(HELLO), direct=direct) as drive:
                self.assertEqual(drive.status_line(), "73,CBM DOS V2.6 1541,00,00")
                drive.open_channel(2, "NOTES,S,W")
                drive.write_channel(2, b"ten ")
                drive.write_channel(2, bytearray(b"lines"))
                drive.close_channel(2)
                self.assertEqual(drive.image.read("NOTES"), b"ten lines")
                drive.open_channel(2, b"NOTES,S")
                self.assertEqual(drive.read_channel(2, 4), Received(b"ten ", False))
                self.assertEqual(drive.read_channel(2), Received(b"lines", True))
                drive.close_channel(2)
                self.assertEqual(drive.status, 0)
                self.assertEqual(drive.command("s0:notes"), "01, FILES SCRATCHED,01,00")
                self.assertEqual(drive.status_line(), "00, OK,00,00")

    def test_a_long_file_is_read_whole(self):
        image = Image.new()
        image.write("LONG", bytes(range(256)) * 600)
        with Drive(image) as drive:
            drive.open_channel(0, "LONG")
            self.assertEqual(drive.read_channel(0), Received(bytes(range(256)) * 600, True))

    def test_an_error_has_its_number_and_its_line(self):
        with Drive(Image.open(HELLO)) as drive:
            drive.open_channel(0, "NONE")
            self.assertEqual(drive.status, 62)
            self.assertEqual(drive.read_channel(0), Received(b"", False))
            self.assertEqual(drive.status_line(), "62,FILE NOT FOUND,00,00")
            self.assertEqual(drive.status, 0)

    def test_what_is_refused(self):
        with Drive(Image.open(HELLO)) as drive:
            for channel in (-1, 16):
                with self.assertRaises(ValueError):
                    drive.open_channel(channel, "$")
            with self.assertRaises(TypeError):
                drive.write_channel(2, 5)
            drive.lines(1000, True, False, False)
            with self.assertRaises(Refused) as refused:
                drive.read_channel(15)
            self.assertEqual(refused.exception.number, -2)
        with self.assertRaises(Refused) as refused:
            drive.close_channel(2)
        self.assertEqual(refused.exception.number, -7)

    def test_the_wires_go_on(self):
        with Drive(Image.open(HELLO)) as drive:
            host = Host(drive)
            hello = host.load("HELLO")
            drive.open_channel(2, "HELLO")
            self.assertEqual(drive.read_channel(2, 1), Received(hello[:1], False))
            self.assertEqual(host.receive(2), hello[1:])
            self.assertEqual(host.command("I0"), "00, OK,00,00")
