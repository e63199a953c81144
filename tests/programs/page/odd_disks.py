"""Files that are no images, disks that aren't sound, names of any codes, and files of other systems."""
import json
import subprocess

from selenium.webdriver.common.keys import Keys

LABEL, DIRECTORY = 0x16500, 0x16600  # 18/0 and 18/1 in a D64
TYPED = """const done = arguments[0], all = Array.from({ length: 256 }, (_, code) => code);
import(new URL("petscii.mjs", document.baseURI)).then(({ codes, text }) =>
  done(["upper", "lower"].flatMap((set) => all.filter((code) => String(codes(text([code], set), set)) !== String(code)).map((code) => [set, code]))));"""


def changed(image, *places):
    """An image with other bytes at some places, each (place, bytes)."""
    out = bytearray(image)
    for at, data in places:
        out[at : at + len(data)] = data
    return bytes(out)


def foreign(browser, side, d64, g64):
    """What disk1541 doesn't take as a 1541's disk gets a sentence, also if it reads its files, and the disk that was there stays."""
    side.open(d64)
    odd = {"bad.d64": bytes(100), "empty.d64": b"", "tape.t64": b"C64 tape image file" + bytes(2000)}
    odd |= {"bytes.nib": b"MNIB-1541-RAW" + bytes(90), "cut.g64": g64.read_bytes()[:5000]}
    odd |= {f"{size}.d64": bytes(size) for size in (205312, 197376, 349696, 819200)}
    for name, data in odd.items():
        (browser.room / name).write_bytes(data)
        status = subprocess.run([browser.disk1541, "check", name], cwd=browser.room, capture_output=True).returncode
        side.drop((name, data)) if name[-2:] == "64" and name[-3] != "t" else side.give("open", browser.room / name)
        browser.until(lambda: browser.said().startswith(f"{name}: "), f"a sentence on {name}")
        browser.expect(status == 2 and "not an image of a 1541's disk" in browser.said() and side.names() == ["HELLO"], browser.said())
    side.drop(("packed.d64", b"\x1f\x8b" + bytes(5000)))
    browser.says("packed.d64 is compressed, but truncated or damaged.")
    side.drop(("large.d64", bytes(900000)))
    browser.says("large.d64 is larger than any disk.")


def flaws(browser, side, d64):
    """Every flaw, in disk1541's words; a disk that isn't sound isn't changed, and Validate mends its BAM."""
    image = changed(d64.read_bytes(), (LABEL + 4, b"\0"), (LABEL + 4 * 17, b"\x15\xff\xff\x1f"), (DIRECTORY + 32, b"\0\0\x82\x63\x01BROKEN"))
    file = browser.room / "flawed.d64"
    file.write_bytes(image)
    said = subprocess.run([browser.disk1541, "check", "--all", "--json", file], capture_output=True, text=True).stdout
    wanted = [f"track {it['track']}, sector {it['sector']}: {it['text']}" for it in json.loads(said)["flaws"]]
    side.open(file)
    lines = [it.text for it in side.root.find_elements("css selector", ".flaws li")]
    browser.expect(len(wanted) > 2 and len(lines) == len(wanted) and all(a.startswith(b) for a, b in zip(lines, wanted)), f"every flaw in words: {lines} {wanted}")
    side.select("HELLO")
    side.show("map")
    side.key(Keys.DELETE)
    browser.until(lambda: "isn't sound" in browser.said(), "a disk that isn't sound isn't changed")
    browser.picture("flawed", 800, 1000)
    browser.expect(side.saved() == image, "a disk that isn't sound isn't changed")


def mended(browser, side, d64):
    """A BAM that is wrong, and a file that was never closed: what would go is asked about first."""
    image = changed(d64.read_bytes(), (LABEL + 4, b"\0\0\0\0"), (DIRECTORY + 32, b"\0\0\x02\x11\x01OPEN".ljust(21, b"\xa0")))
    file = browser.room / "mended.d64"
    file.write_bytes(image)
    side.open(file)
    side.do("validate")
    said = browser.answer()
    browser.expect("never closed" in said and "OPEN" in said, "what would go is asked about")
    browser.kit("validate", file)
    browser.expect(side.text(".verdict") == "The disk is sound." and side.saved() == file.read_bytes(), "validated")


def broken(browser, side, d64, g64):
    """Disks whose directory is broken are opened, with what is known of them."""
    plain, circles = d64.read_bytes(), g64.read_bytes()
    at = int.from_bytes(circles[12 + 4 * 34 :][:4], "little") + 2
    disks = {
        "loop.d64": (changed(plain, (DIRECTORY, b"\x12\x01")), "has no end"),
        "off.d64": (changed(plain, (DIRECTORY, b"\x63\0")), "a place that the disk doesn't have"),
        "noise.d64": (changed(plain, (LABEL, bytes(255 - n % 256 for n in range(512)))), "isn't sound"),
        "track18.g64": (changed(circles, (at, b"U" * 7000)), "can't be read"),
    }
    for name, (image, words) in disks.items():
        side.drop((name, image))
        browser.says(f"{name} is open.")
        browser.expect(words in side.text(".verdict") + side.text(".flaws"), f"{name}: {side.text('.verdict')} {side.text('.flaws')}")


def art(browser, side, d64):
    """Odd entries, here lines of art that lead into the directory, are left alone: each change is as disk1541's."""
    file = browser.room / "art.d64"
    file.write_bytes(d64.read_bytes())
    for name in "ZEBRA", "APE":
        browser.kit("put", file, browser.room / "world.prg", "--name", name)
    line = b"-" * 16
    file.write_bytes(changed(file.read_bytes(), (DIRECTORY + 98, b"\x82\x12\0" + line), (DIRECTORY + 130, b"\x82\x12\x01" + line)))
    circles = file.with_name("art.g64")
    browser.kit("convert", file, circles)
    said = subprocess.run([browser.disk1541, "check", file], capture_output=True, text=True).stdout
    for it in file, circles:
        side.open(it)
        shown = side.text(".verdict")
        browser.expect("sound but for 2 odd entries" in said and shown == "Sound but for 2 odd entries:", f"{it.name}: {shown} {said}")
        side.select("HELLO")
        side.key(Keys.F2)
        browser.answer("start")
        browser.says("Renamed: START.")
        browser.kit("rename", it, "HELLO", "START")
        browser.expect(side.saved() == it.read_bytes(), f"{it.name}: renamed, and the art is left alone")
        browser.forget()
        side.give("put", browser.room / "world.prg")
        browser.says("1 file added.")
        browser.kit("put", it, browser.room / "world.prg")
        browser.expect(side.saved() == it.read_bytes(), f"{it.name}: a file put in beside art")
        side.do("sort")
        browser.answer("name")
        browser.says("Sorted.")
        browser.kit("sort", it, "--by", "name")
        browser.expect(side.saved() == it.read_bytes(), f"{it.name}: sorted around the art")
        image = it.read_bytes()
        side.select(line.decode())
        side.key(Keys.DELETE)
        browser.until(lambda: "protected" in browser.said(), "an odd entry isn't deleted here")
        browser.expect(side.saved() == image, f"{it.name}: an odd entry isn't deleted here")


def all_codes(browser, side, d64):
    """Every code in a name is written as by disk1541, in both character sets; letters that fonts lack are drawn."""
    wrong = []
    for charset in "upper", "lower":
        browser.characters(charset)
        for first in range(0, 256, 16):
            image = changed(d64.read_bytes(), (DIRECTORY + 5, bytes(range(first, first + 16))))
            file = browser.room / "named.d64"
            file.write_bytes(image)
            wanted = json.loads(browser.kit("list", "--json", "--charset", charset, file))["files"][0]["name"]
            side.open(file)
            shown = side.rows()[0].get_attribute("aria-label").rsplit(", prg", 1)[0]
            wrong += [(charset, first, shown, wanted)] if shown != wanted else []
            if (charset, first) == ("upper", 192):
                browser.expect(len(side.root.find_elements("css selector", "li .drawn")) == 9, "letters that fonts lack are drawn")
    browser.expect(not wrong, f"all codes in names are written as by disk1541 {wrong or ''}")
    wrong = browser.wait(TYPED)
    browser.expect(not wrong, f"and what is written so can be typed, and means the same code {wrong or ''}")
    small_letters(browser, side, d64)


def small_letters(browser, side, d64):
    """A name that is typed in the other character set."""
    file = browser.room / "small.d64"
    file.write_bytes(d64.read_bytes())
    side.open(file)
    side.key(Keys.HOME, Keys.F2)
    browser.answer("New Name")
    browser.says("Renamed: New Name.")
    browser.kit("rename", "--charset", "lower", file, "hello", "New Name")
    browser.expect(side.saved() == file.read_bytes(), "a name of small and capital letters")
    browser.characters("upper")


def odd_names(browser, side, other, d64):
    """Names that the drive's commands can't say, or that mean other files there: changes go by slot."""
    file = browser.room / "odd.d64"
    file.write_bytes(changed(d64.read_bytes()))
    for name in "A", "AB":
        browser.kit("put", file, browser.room / "world.prg", "--name", name)
    side.open(file)
    for old, new in ("HELLO", "a*"), ("A", "a,b"), ("AB", "{c1}b{12}"):
        side.select(old)
        side.key(Keys.F2)
        browser.answer(new)
        browser.until(lambda: browser.said().startswith("Renamed"), "another name")
        browser.forget()
        browser.kit("rename", "--exact", file, old, new.upper() if "{" not in new else "{c1}B{12}")
    browser.expect(side.saved() == file.read_bytes(), "names that the drive's commands can't say are given")
    side.key(Keys.HOME, Keys.DELETE)
    browser.says("Deleted: A*.")
    browser.kit("delete", file, "--exact", "A*")
    browser.expect(side.saved() == file.read_bytes(), "A* is deleted, and no file that it would mean")
    other.open(d64)
    side.key(Keys.HOME)
    side.do("across")
    browser.until(lambda: "copied to" in browser.said(), "A,B goes across")
    browser.expect(other.names() == ["HELLO", "A,B"], "A,B goes across under its name")
    browser.expect(other.text(".verdict") == "The disk is sound.", "and the disk is sound")


def refused_names(browser, side, d64):
    side.open(d64)
    side.key(Keys.HOME, Keys.F2)
    said = [browser.answer(it) for it in ("", "a" * 17, "é", "hello", "ok")]
    wanted = ["needs a name", "at most 16", "no key of a C64", "exists"]
    browser.expect(all(a in b for a, b in zip(wanted, said[1:])), f"why a name is asked for again: {said[1:]}")
    browser.says("Renamed: OK.")
    side.do("undo")


def geos(browser, side, d64):
    """The drive's VALIDATE would free the blocks of GEOS's files, so it isn't done; COPY would copy a part of one."""
    image = changed(d64.read_bytes(), (DIRECTORY + 21, b"\x01\x00\x00\x07"))
    side.drop(("geos.d64", image))
    browser.says("geos.d64 is open.")
    side.do("validate")
    browser.until(lambda: "files of GEOS" in browser.said(), "GEOS")
    side.select("HELLO")
    side.do("duplicate")
    browser.answer("second")
    browser.until(lambda: "a file of GEOS" in browser.said(), "GEOS")
    browser.expect(side.saved() == image, "what would harm files of GEOS isn't done")


def play(browser, left, right, d64, g64):
    for it in (
        lambda: foreign(browser, left, d64, g64),
        lambda: flaws(browser, left, d64),
        lambda: mended(browser, left, d64),
        lambda: broken(browser, left, d64, g64),
        lambda: art(browser, left, d64),
        lambda: all_codes(browser, left, d64),
        lambda: odd_names(browser, left, right, d64),
        lambda: refused_names(browser, left, d64),
        lambda: geos(browser, left, d64),
    ):
        it()
