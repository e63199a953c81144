"""How the page treats a person: its first screen, what it names, what it undoes, and its size for fingers and for high contrast."""
import gzip
import io
import time
import zipfile
import zlib

from odd_disks import DIRECTORY, changed
from selenium.webdriver.common.keys import Keys

RECTS = """const at = document.getElementById("said").getBoundingClientRect();
const shown = [...document.querySelectorAll("#rest button, #rest .button, #rest summary")].filter((it) => it.checkVisibility());
const box = document.getElementById("rest").getBoundingClientRect();
return shown.map((it) => it.getBoundingClientRect()).filter((it) => Math.max(it.top, box.top) < at.bottom && Math.min(it.bottom, box.bottom) > at.top).length"""
SMALL = """const all = document.querySelectorAll("button, .button, summary, header label");
return [...all].filter((it) => it.checkVisibility() && it.getBoundingClientRect().height < 44).map((it) => it.textContent)"""
COLOURS = "return [...arguments[0].querySelectorAll('[role=option]')].map((it) => getComputedStyle(it).backgroundColor)"


def first_screen(browser):
    """What the page can do, an example, and its files."""
    left, right = browser.load()
    intro = browser.all("#intro")[0]
    browser.expect(intro.is_displayed() and "repair" in intro.text, "the first screen says what the page can do")
    browser.press(browser.all("#example")[0])
    left.until_names("HELLO", "PICTURE", "TUNE", "NOTES", "HIGH SCORES")
    browser.expect(not intro.is_displayed() and left.text(".verdict").strip() == "The disk is sound.", "the example is a sound disk")
    browser.expect(not browser.leaving_is_asked(), "the example needn't be saved")
    image = browser.room / "example.d64"
    image.write_bytes(left.saved())
    browser.expect(browser.kit("check", image) == b"sound\n", "disk1541 finds the example sound")
    browser.expect(b"10 PRINT\"HELLO FROM A 1541\"" in browser.kit("show", image, "HELLO"), "its program is listed by disk1541")
    return left, right


def named_history(browser, left):
    """Undo and redo by button and by key, with what they undo."""
    left.key(Keys.HOME, "n")
    browser.expect("NOTES" in left.find("[aria-selected=true]").text, "a letter goes to the next file that begins with it")
    left.key(Keys.DELETE)
    browser.says("Deleted: NOTES.")
    left.select("TUNE")
    left.do("lock")
    browser.says("Locked: TUNE.")
    browser.expect("Locked: TUNE." in left.find("[data-do=undo]").get_attribute("title"), "Undo has what it undoes as its title")
    left.do("undo")
    browser.says("Undone: Locked: TUNE.")
    left.key(Keys.CONTROL, "z")
    browser.says("Undone: Deleted: NOTES.")
    left.until_names("HELLO", "PICTURE", "TUNE", "NOTES", "HIGH SCORES")
    left.key(Keys.CONTROL, "y")
    browser.says("Redone: Deleted: NOTES.")
    left.until_names("HELLO", "PICTURE", "TUNE", "HIGH SCORES")
    left.do("redo")
    browser.says("Redone: Locked: TUNE.")
    left.do("redo")
    browser.says("There is nothing to redo.")
    left.do("undo")
    left.select("HELLO")
    left.key(Keys.DELETE)
    browser.says("Deleted: HELLO.")
    browser.expect(left.find("[data-do=redo]").get_attribute("aria-disabled") == "true", "after a change there is nothing to redo")


def legend(browser, left):
    """The map has numbers, and a legend of the states that it shows."""
    left.show("map")
    numbers = [it.text for it in left.root.find_elements("css selector", ".map svg text")]
    browser.expect(numbers == ["1", "5", "10", "15", "18", "20", "25", "30", "35", "0", "5", "10", "15", "20"], f"the map's numbers: {numbers}")
    words = [it.text for it in left.root.find_elements("css selector", ".legend li")]
    browser.expect(words == ["a file, each in its color", "free", "directory"], f"the map's legend: {words}")


def lost(browser, left, d64):
    """Lost blocks are named; those of the directory's track keep Validate from freeing them."""
    at = 256 * sum([21] * 17)
    bam = at + 4 * 1  # of track 1
    image = bytearray(d64.read_bytes())
    image[bam : bam + 2] = bytes([image[bam] - 1, image[bam + 1] & 0xFE])
    left.drop(("lost.d64", bytes(image)))
    browser.says("lost.d64 is open.")
    browser.expect(left.text(".verdict") == "The disk is sound. 1 block is lost: Validate frees it.", left.text(".verdict"))
    left.do("validate")
    browser.until(lambda: browser.said().startswith("Validated"), "validated")
    browser.expect(left.text(".verdict") == "The disk is sound." and left.saved() == d64.read_bytes(), "Validate frees a lost block")
    bam = at + 4 * 18  # a sector of a directory that was longer
    image = bytearray(d64.read_bytes())
    image[bam : bam + 2] = bytes([image[bam] - 1, image[bam + 1] & ~16])
    entry = b"\0\xff\x82\x01\x00HIDDEN".ljust(21, b"\xa0")
    image = changed(bytes(image), (at + 4 * 256, entry))
    left.drop(("unlinked.d64", image))
    browser.says("unlinked.d64 is open.")
    browser.expect("no link of the directory leads to them" in left.text(".verdict"), left.text(".verdict"))
    left.do("validate")
    browser.until(lambda: "get-all --salvage" in browser.said(), "Validate is refused")
    browser.expect(left.saved() == image, "a directory that ends too early: Validate changes nothing")


def packed(browser, left, d64):
    """Images packed with gzip or ZIP are opened, and saved unpacked."""
    data = d64.read_bytes()
    stored, deflated, several, empty = (io.BytesIO() for _ in range(4))
    with zipfile.ZipFile(stored, "w") as out:
        out.writestr("a/hello.d64", data)
        out.writestr("read.me", b"x")
    with zipfile.ZipFile(deflated, "w", zipfile.ZIP_DEFLATED) as out:
        out.writestr("only", data)
    with zipfile.ZipFile(several, "w") as out:
        out.writestr("a.d64", data)
        out.writestr("b.g64", data)
    with zipfile.ZipFile(empty, "w") as out:
        out.writestr("a.txt", b"a")
        out.writestr("b.txt", b"b")
    for name, content, inside in (("one.d64.gz", gzip.compress(data), "one.d64"), ("two.zip", stored.getvalue(), "hello.d64"), ("three.zip", deflated.getvalue(), "only.d64")):
        left.drop((name, content))
        browser.says(f"{inside} is open.")
        saved, content = browser.fetched(lambda: left.do("save"))
        browser.expect((saved, content) == (inside, data), f"{name} is opened, and saved unpacked as {saved}")
    wrong = gzip.compress(data)
    wrong = wrong[:-8] + bytes([wrong[-8] ^ 1]) + wrong[-7:]
    bad = deflated.getvalue().replace(zlib.crc32(data).to_bytes(4, "little"), b"\1\2\3\4")
    large = gzip.compress(bytes(900_000))
    for name, content, why in (
        ("sum.d64.gz", wrong, "sum.d64.gz is compressed, but truncated or damaged."),
        ("sum.zip", bad, "sum.zip is compressed, but its checksum is wrong."),
        ("cut.zip", deflated.getvalue()[:-30], "cut.zip is compressed, but truncated or damaged."),
        ("several.zip", several.getvalue(), "several.zip has several disk images: unpack it first."),
        ("none.zip", empty.getvalue(), "none.zip has no disk image."),
        ("large.d64.gz", large, "large.d64.gz is larger than any disk."),
    ):
        left.drop((name, content))
        browser.says(why)


def terminal(browser, left, d64):
    """What is typed first on a C64."""
    left.open(d64)
    left.show("terminal")
    wanted = [*(it.rstrip() for it in browser.kit("list", d64).decode().splitlines()), "00, OK,00,00"]
    browser.expect([it.rstrip() for it in left.tell('LOAD"$",8').splitlines()] == wanted, 'LOAD"$",8 lists the disk')
    browser.expect(left.tell('load"hello",8,1').splitlines()[-1] == "00, OK,00,00", "LOAD reads a program")
    answer = left.tell('load"none",8')
    browser.expect(answer == "62,FILE NOT FOUND,00,00", f"LOAD of a missing file: {answer}")
    browser.expect("OPEN 2" in left.tell("help"), "HELP")


def sizes(browser, left, right, d64):
    """Fingers, small windows, and high contrast."""
    many = browser.fresh_folder()
    for n in range(60):
        (many / f"file{n:02}.prg").write_bytes(bytes([1, 8, n]))
    left.open(d64)
    left.give("put", *sorted(many.iterdir()))
    browser.says("60 files added.")
    box, line = browser.run("const ul = arguments[0]; return [ul.clientHeight, ul.firstElementChild.getBoundingClientRect().height]", left.find("[role=listbox]"))
    browser.expect(abs(box / line - round(box / line)) < 0.02, f"the last line of a list is whole: {box} of {line}")
    metrics = {"width": 390, "height": 844, "deviceScaleFactor": 1, "mobile": False}
    browser.driver.execute_cdp_cmd("Emulation.setDeviceMetricsOverride", metrics)
    browser.expect(browser.run("const it = document.documentElement; return it.scrollHeight <= it.clientHeight"), "only one part of the page scrolls")
    browser.expect(not browser.run(SMALL), f"on a phone all that is pressed is 44 pixels high: {browser.run(SMALL)}")
    for place in 0, 200, 600, 100000:
        browser.run("document.getElementById('rest').scrollTo(0, arguments[0])", place)
        browser.expect(not browser.run(RECTS), f"the message isn't over a button, scrolled to {place}")
    browser.driver.execute_cdp_cmd("Emulation.clearDeviceMetricsOverride", {})
    browser.driver.execute_cdp_cmd("Emulation.setEmulatedMedia", {"features": [{"name": "forced-colors", "value": "active"}]})
    left.key(Keys.HOME, Keys.DOWN)
    colours = browser.run(COLOURS, left.root)
    browser.expect(colours[0] != colours[1] or colours[1] != colours[2], f"forced colours show what is selected: {colours[:3]}")
    browser.driver.execute_cdp_cmd("Emulation.setEmulatedMedia", {"features": []})


def from_a_file(browser, folder):
    """index.html opened by a double click: no module runs, and the page shows the way out."""
    browser.driver.get((folder / "index.html").as_uri())
    note = browser.all("#stuck")[0]
    time.sleep(2.5)
    is_stuck = browser.said() == "One moment …"
    browser.expect(not is_stuck or "disks.html" in note.text, "a page that can't run says what to do")
    browser.driver.get_log("browser")


def play(browser, folder, d64):
    left, right = first_screen(browser)
    legend(browser, left)
    named_history(browser, left)
    left, right = browser.load()
    lost(browser, left, d64)
    packed(browser, left, d64)
    terminal(browser, left, d64)
    sizes(browser, left, right, d64)
    browser.forget()
    from_a_file(browser, folder)
