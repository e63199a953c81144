"""The listing, the map and the keyboard, pictures in each look, and the page in one file."""
import re
import subprocess
import sys

from selenium.webdriver.common.action_chains import ActionChains
from selenium.webdriver.common.keys import Keys

FILES = (("LOADER", "prg", 500), ("LEVELS 1-8", "seq", 9000), ("{ce}{cd}{ce}{cd} MAP", "prg", 20000), ("HIGH SCORES", "usr", 300), ("MUSIC{12}{c1}", "prg", 12000))

BLOCK = "return [...arguments[0].querySelectorAll('rect')].find((it) => it.textContent.endsWith(' HIGH SCORES'))"
NAMELESS = """const all = document.querySelectorAll("main button, main input, summary, [role=listbox], [role=log], [role=img], [role=group], section");
return [...all].filter((it) => !(it.getAttribute("aria-label") ?? it.labels?.[0]?.textContent ?? it.textContent).trim()).map((it) => it.outerHTML);"""


def shown_disk(browser):
    """A disk that has something to show: graphics, each type, a lock, a relative file, a lost block."""
    file = browser.room / "shown.d64"
    browser.kit("new", file, "--title", "DEMO {c1}{d3}{da}{d8} DISK", "--id", "64")
    for name, kind, size in FILES:
        (browser.room / "x.bin").write_bytes(bytes([1, 8]) + bytes(size))
        browser.kit("put", file, browser.room / "x.bin", "--name", name, "--type", kind)
    (browser.room / "x.bin").write_bytes(bytes(1000))
    browser.kit("put", file, browser.room / "x.bin", "--name", "RECORDS", "--type", "rel", "--record", "100")
    browser.kit("lock", file, "LOADER")
    image = bytearray(file.read_bytes())
    image[0x16504:0x16506] = bytes([image[0x16504] - 1, image[0x16505] & 0xFE])
    file.write_bytes(image)
    return file


def listing(browser, side, file):
    """Line by line what disk1541 prints, but for codes that no key types, which are shown as they look."""
    wanted = [re.sub(r"\{12\}", "R", it.rstrip()) for it in browser.kit("list", file).decode().splitlines()]
    side.open(file)
    got = [it.get_attribute("textContent").rstrip() for it in side.root.find_elements("css selector", ".screen > p, .screen li")]
    browser.expect(got == wanted, f"the listing is disk1541's: {got}{'' if got == wanted else wanted}")


def block_map(browser, side, file):
    """Whose each block is, as in the picture of disk1541."""
    svg = browser.room / "shown.svg"
    for image in file, file.with_suffix(".g64"):
        browser.kit("map", image, "--svg", svg, "--replace")
        wanted = re.findall(r"<title>(.*?)</title>", svg.read_text())
        side.open(image)
        side.show("map")
        got = browser.run("return [...arguments[0].querySelectorAll('rect title')].map((it) => it.textContent)", side.root)
        wrong = set(got) ^ set(wanted)
        browser.expect(len(got) == 683 and not wrong, f"the map of {image.name} is disk1541's {sorted(wrong)[:5]}")
    block = browser.run(BLOCK, side.root)
    browser.run("arguments[0].dispatchEvent(new MouseEvent('click', { bubbles: true }))", block)
    chosen = side.root.find_elements("css selector", "[aria-selected=true]")
    browser.expect(len(chosen) == 1 and "HIGH SCORES" in chosen[0].text and "HIGH SCORES: " in side.text(".map p"), "a click on a block selects its file, whose blocks are named")


def pictures(browser, left, right, file, g64):
    left.open(file)
    right.open(g64)
    for side in left, right:
        side.show("map")
    right.show("terminal")
    right.tell("i0")
    left.select("LEVELS 1-8", left.names()[2])
    browser.picture("wide", 1280, 800)
    browser.picture("wide_dark", 1280, 800, True)
    browser.picture("whole", 1280, 1500)
    browser.picture("narrow", 390, 844)
    browser.picture("narrow_map", 390, 844, True, left.find(".map"))
    browser.picture("terminal", 390, 844, False, right.find(".terminal"))
    browser.characters("lower")
    browser.until(lambda: left.names()[0] == "loader", "small letters")
    browser.picture("lower", 390, 844, True)
    browser.characters("upper")
    left.select("LOADER")
    for action in "rename", "retitle", "sort", "fresh":
        left.do(action)
        browser.dialog()
        browser.picture(f"dialog_{action}", 390, 844, action == "fresh")
        ActionChains(browser.driver).send_keys(Keys.ESCAPE).perform()
        browser.until(lambda: not browser.all("dialog"), "Escape closes the dialog")


def keyboard(browser, left):
    """Tab goes through all of a disk; what can't be done now says why, and keeps the focus."""
    browser.run("document.getElementById('small').focus()")
    stops = []
    for _ in range(22):
        ActionChains(browser.driver).send_keys(Keys.TAB).perform()
        stops.append(browser.run("const e = document.activeElement; return e.dataset.do ?? e.dataset.take ?? e.role ?? e.tagName"))
    wanted = ["open", "fresh", "save", "undo", "redo", "retitle", "sort", "validate", "convert", "listbox"]
    wanted += ["put", "takeOut", "rename", "duplicate", "lock", "remove", "undelete", "across", "SUMMARY", "SUMMARY"]
    stops = [it for it in stops if it != "P"]  # (the words of the map, if they are longer than their place)
    browser.expect(stops[: len(wanted)] == wanted, f"Tab goes by {stops}")
    browser.run("arguments[0].focus()", left.find("[data-do=undo]"))
    ActionChains(browser.driver).send_keys(Keys.ENTER).perform()
    at = browser.run("return document.activeElement.dataset.do")
    browser.expect(browser.said() == "There is nothing to undo." and at == "undo", "a button that can't do anything says why, and keeps the focus")


def spoken(browser, side):
    """What a screen reader is told."""
    labels = [it.get_attribute("aria-label") for it in side.rows()]
    browser.expect(labels[0] == "LOADER, prg, 2 blocks, locked" and labels[1] == "LEVELS 1-8, seq, 36 blocks", f"files have labels: {labels[:2]}")
    nameless = browser.run(NAMELESS)
    browser.expect(not nameless, f"all that can be used has a name {nameless}")
    side.key(Keys.HOME, Keys.DOWN)
    at = browser.run("return document.getElementById(arguments[0].getAttribute('aria-activedescendant'))?.ariaLabel", side.find("[role=listbox]"))
    browser.expect(at == labels[1], "the file that the keyboard stands on is told")


def one_file(browser, root, folder, d64):
    """The page in one file, from file:."""
    out = browser.room / "disks.html"
    subprocess.run([sys.executable, root / "web/one_file.py", folder, out], check=True)
    left, _ = browser.load(out.as_uri())
    like = browser.room / "one_file.d64"
    like.write_bytes(d64.read_bytes())
    left.open(like)
    left.give("put", browser.room / "loader.prg")
    browser.says("1 file added.")
    browser.kit("put", like, browser.room / "loader.prg")
    browser.expect(left.saved() == like.read_bytes(), f"the page in one file of {out.stat().st_size} bytes puts a file in")
    left.show("terminal")
    browser.expect(left.tell("i0") == "00, OK,00,00", "and its terminal answers")


def quiet(browser):
    bad = [it["message"] for it in browser.driver.get_log("browser") if it["level"] == "SEVERE"]
    browser.expect(not bad, f"the browser complains of nothing {bad}")


def play(browser, left, right, g64):
    file = shown_disk(browser)
    browser.kit("convert", file, file.with_suffix(".g64"))
    listing(browser, left, file)
    block_map(browser, left, file)
    pictures(browser, left, right, file, g64)
    keyboard(browser, left)
    spoken(browser, left)
