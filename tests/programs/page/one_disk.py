"""Each thing that is done to one disk, compared byte for byte with what disk1541 makes of the same."""
import io
import zipfile

from selenium.webdriver.common.keys import Keys


class OneDisk:
    """A disk in the page, and the same disk for disk1541."""

    def __init__(self, browser, side, file):
        self.browser, self.side = browser, side
        self.like = browser.room / file.name
        self.like.write_bytes(file.read_bytes())
        self.ending = f"{file.suffix[1:]}, by {'keyboard' if browser.is_keyboard else 'mouse'}"
        side.open(file)

    def kit(self, command, *words):
        self.browser.kit(command, self.like, *words)

    def same(self, what):
        self.browser.expect(self.side.saved() == self.like.read_bytes(), f"{self.ending}: {what}")

    def undo_to(self, image):
        self.side.do("undo")
        self.like.write_bytes(image)
        self.same("undone")


def host_files(room):
    """Files of this computer that are put on disks."""
    made = {
        "loader.prg": bytes([1, 8]) + bytes(range(256)) * 5,
        "levels.seq": b"LEVEL 1\rLEVEL 2\r" * 40,
        "Scores.USR": b"1000\r",
        "no ending": b"1",
        "game.v2.bin": bytes([0, 192, 96]),
        "empty.prg": b"",
        "wrapped.s00": b"C64File\0" + b"INSIDE".ljust(16, b"\0") + b"\0\0" + b"TEXT",
        "plain.p01": b"no head of PC64 here, and longer than one",
        "a name that is much too long.prg": bytes([1, 8, 9]),
        "large.prg": bytes(185000),
        "huge.prg": bytes(900000),
    }
    for name, data in made.items():
        (room / name).write_bytes(data)
    return made


def renamed_and_put(disk, files):
    side, browser = disk.side, disk.browser
    browser.expect(side.names() == ["HELLO"] and side.text(".verdict") == "The disk is sound.", f"{disk.ending}: the listing, and that it is sound")
    side.key(Keys.HOME, Keys.F2)
    browser.answer("start")
    side.until_names("START")
    disk.kit("rename", "HELLO", "START")
    disk.same("renamed by F2")
    its = [browser.room / it for it in files if not it.startswith(("a name", "large", "huge"))]
    side.give("put", *its)
    browser.says(f"{len(its)} files added.")
    disk.kit("put", *its)
    disk.same("files put in, with the types that their endings mean")


def asked_for_names(disk):
    """Names that are too long or taken, and files that are too large."""
    side, browser, full = disk.side, disk.browser, disk.like.read_bytes()
    side.give("put", browser.room / "a name that is much too long.prg", browser.room / "levels.seq")
    said = [browser.answer(it) for it in ("loader", "long", "more")]
    browser.says("2 files added.")
    browser.expect(all(it in said[n] for n, it in enumerate(["at most 16", "exists", "exists"])), f"{disk.ending}: the reasons why a name is asked for")
    for file, name in ("a name that is much too long.prg", "LONG"), ("levels.seq", "MORE"):
        disk.kit("put", browser.room / file, "--name", name)
    disk.same("names that are too long or taken are asked for")
    disk.undo_to(full)
    side.give("put", browser.room / "loader.prg")
    browser.cancel()
    browser.says("Nothing was added.")
    side.give("put", browser.room / "large.prg")
    browser.until(lambda: browser.said().startswith("The disk is full"), "a full disk")
    side.give("put", browser.room / "huge.prg")
    browser.says("huge.prg is larger than any disk.")
    disk.same("a file that is too large changes nothing")


def taken_out(disk, files):
    side, browser = disk.side, disk.browser
    side.select("LOADER")
    got = browser.fetched(lambda: side.key(Keys.ENTER))
    browser.expect(got == ("LOADER.prg", files["loader.prg"]), f"{disk.ending}: taken out by Enter")
    side.key(Keys.CONTROL, "a")
    name, data = browser.fetched(lambda: side.do("takeOut"))
    folder = browser.fresh_folder()
    disk.kit("get-all", folder)
    with zipfile.ZipFile(io.BytesIO(data)) as it:
        inside = {each: it.read(each) for each in it.namelist()}
        browser.expect(it.testzip() is None and name == "hello.zip", f"{disk.ending}: all as a zip")
    wanted = {it.name: it.read_bytes() for it in folder.iterdir()}
    browser.expect(inside == wanted, f"{disk.ending}: the zip has what get-all writes, under the same names {sorted(inside)} {sorted(wanted)}")


def copied_and_deleted(disk):
    side, browser = disk.side, disk.browser
    side.select("START")
    side.do("duplicate")
    browser.answer("backup")
    browser.says("Copied: BACKUP.")
    disk.kit("copy", "START", "BACKUP")
    disk.same("copied")
    full = disk.like.read_bytes()
    side.key(Keys.HOME, Keys.SHIFT, Keys.DOWN, Keys.NULL, Keys.DELETE)
    browser.says("Deleted: START, LOADER.")
    disk.kit("delete", "START", "LOADER")
    disk.same("two files deleted, by Shift and Delete")
    disk.undo_to(full)
    side.select("BACKUP", "LEVELS")
    side.do("remove")
    browser.says("Deleted: BACKUP, LEVELS.")
    disk.kit("delete", "BACKUP", "LEVELS")
    disk.same("two files deleted, by Ctrl and the button")
    disk.undo_to(full)


def locked(disk):
    side, browser = disk.side, disk.browser
    side.select("LOADER", "BACKUP")
    side.do("lock")
    browser.says("Locked: LOADER, BACKUP.")
    disk.kit("lock", "LOADER", "BACKUP")
    disk.same("two files locked")
    browser.expect("PRG<" in side.rows()[1].text and "locked" in side.rows()[1].get_attribute("aria-label"), f"{disk.ending}: the lock is shown")
    side.key(Keys.DELETE)
    browser.until(lambda: browser.said().startswith("A locked file can't be deleted"), "a locked file isn't deleted")
    side.select("BACKUP")
    side.do("lock")
    browser.says("Unlocked: BACKUP.")
    disk.kit("unlock", "BACKUP")
    disk.same("unlocked, and not deleted")


def undeleted(disk):
    side, browser = disk.side, disk.browser
    side.select("LEVELS")
    side.key(Keys.DELETE)
    browser.says("Deleted: LEVELS.")
    side.do("undelete")
    browser.answer("LEVELS", "seq")
    browser.says("Undeleted: LEVELS.")
    disk.kit("delete", "LEVELS")
    disk.kit("undelete", "LEVELS", "--type", "seq")
    disk.same("deleted and undeleted")


def titled_and_sorted(disk):
    side, browser = disk.side, disk.browser
    side.do("retitle")
    browser.answer("my disk")
    browser.until(lambda: "MY DISK" in side.text(".screen p"), "the title")
    disk.kit("title", "MY DISK")
    disk.same("another title")
    for by in "size", "type", "name":
        side.do("sort")
        browser.answer(by)
        browser.until(lambda: browser.said() in ("Sorted.", "Already in this order."), "sorted")
        disk.kit("sort", "--by", by)
        disk.same(f"sorted by {by}")
        browser.forget()


def validated(disk):
    side, browser = disk.side, disk.browser
    disk.kit("validate")
    side.do("validate")
    browser.until(lambda: browser.said().startswith("Validated"), "validated")
    disk.same("validated")


def by_terminal(disk):
    side, browser = disk.side, disk.browser
    side.show("terminal")
    browser.expect(side.tell("s0:back*") == "01, FILES SCRATCHED,01,00", f"{disk.ending}: the terminal's status")
    browser.expect(side.tell("r0:a=none") == "62,FILE NOT FOUND,00,00" and side.tell("") == "00, OK,00,00", f"{disk.ending}: the terminal's refusal")
    disk.kit("delete", "BACKUP")
    disk.same("deleted by the terminal")
    side.tell('open 2,"notes,s,w"')
    side.tell('print# 2,"ten lines{0d}"')
    side.tell("close 2")
    (browser.room / "notes.seq").write_bytes(b"TEN LINES\r")
    disk.kit("put", browser.room / "notes.seq")
    disk.same("written by OPEN, PRINT# and CLOSE")
    side.tell('open 3,"notes,s,r"')
    browser.expect(side.tell("get# 3") == "TEN LINES{0d}\n00, OK,00,00", f"{disk.ending}: read by GET#")


def converted(disk):
    side, browser = disk.side, disk.browser
    other = disk.like.with_suffix(".g64" if disk.like.suffix == ".d64" else ".d64")
    browser.kit("convert", "--replace", disk.like, other)
    side.do("convert")
    browser.until(lambda: "nothing was lost" in browser.said(), "it was converted")
    name, data = browser.fetched(lambda: side.do("save"))
    browser.expect(data == other.read_bytes() and name == other.name, f"{disk.ending}: converted to {other.name}")
    side.do("undo")
    disk.same("and back by undo")


def play(browser, side, file, files):
    disk = OneDisk(browser, side, file)
    renamed_and_put(disk, files)
    asked_for_names(disk)
    taken_out(disk, files)
    copied_and_deleted(disk)
    locked(disk)
    undeleted(disk)
    titled_and_sorted(disk)
    validated(disk)
    by_terminal(disk)
    converted(disk)
