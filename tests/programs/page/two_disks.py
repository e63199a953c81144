"""Files that go from one disk to the other, and files that are dropped."""
from selenium.webdriver.common.action_chains import ActionChains
from selenium.webdriver.common.keys import Keys


def across(browser, left, right, d64, g64):
    """By the button, and dragged by the mouse."""
    browser.expect(not browser.leaving_is_asked(), "all is saved, so leaving isn't asked about")
    left.open(d64)
    right.open(g64)
    right.key(Keys.HOME, Keys.F2)
    browser.answer("world")
    right.until_names("WORLD")
    browser.expect(browser.leaving_is_asked() and "changed, not saved" in right.text("h2"), "a disk is changed, so leaving is asked about")
    right.select("WORLD")
    right.do("across")
    left.until_names("HELLO", "WORLD")
    copied, world = browser.room / "copied.d64", browser.room / "world.prg"
    copied.write_bytes(d64.read_bytes())
    browser.kit("get", d64, "HELLO", "-o", world)
    browser.kit("put", copied, world)
    browser.expect(left.saved() == copied.read_bytes(), "a file copied to the other disk by the button")
    left.do("undo")
    ActionChains(browser.driver).drag_and_drop(right.rows()[0], left.find(".screen")).perform()
    left.until_names("HELLO", "WORLD")
    browser.expect(left.saved() == copied.read_bytes(), "a file dragged to the other disk")
    right.do("across")
    browser.until(lambda: "A file of this name exists" in browser.said(), "a name that is taken")
    browser.expect(left.saved() == copied.read_bytes(), "a name that the other disk has changes nothing")
    return copied


def dropped(browser, left, copied):
    left.drop(("one.prg", [1, 8, 42]), ("two.seq", [65]))
    left.until_names("HELLO", "WORLD", "ONE", "TWO")
    for name, data in ("one.prg", bytes([1, 8, 42])), ("two.seq", b"A"):
        (browser.room / name).write_bytes(data)
        browser.kit("put", copied, browser.room / name)
    browser.expect(left.saved() == copied.read_bytes(), "two files dropped on a disk")


def changed_disk_is_kept(browser, right, d64):
    """A disk that was changed and not saved leaves its place only if that is said."""
    right.drop(("other.d64", d64.read_bytes()))
    browser.cancel()
    browser.expect(right.names() == ["WORLD"], "a changed disk stays, if the question is cancelled")
    right.do("fresh")
    browser.cancel()
    browser.expect(right.names() == ["WORLD"], "and a new disk doesn't take its place")
    right.drop(("other.d64", d64.read_bytes()))
    browser.answer()
    browser.says("other.d64 is open.")


def two_at_once(browser, left, right, d64, g64):
    """Two images dropped on a disk go to both; next to the disks, they go where none is open."""
    right.drop(("a.d64", d64.read_bytes()), ("b.g64", g64.read_bytes()))
    browser.says("b.g64 is open.")
    browser.expect((right.text("h2 span"), left.text("h2 span")) == ("a.d64", "b.g64"), "two images dropped on a disk open both")
    left, right = browser.load()
    browser.drop_beside(("c.d64", d64.read_bytes()), ("d.g64", g64.read_bytes()))
    browser.says("d.g64 is open.")
    browser.expect((left.text("h2 span"), right.text("h2 span")) == ("c.d64", "d.g64"), "two images dropped beside the disks open both")
    browser.drop_beside(("e.d64", d64.read_bytes()))
    browser.says("Drop an image on the disk that it replaces.")
    browser.drop_beside(("e.prg", b"1"))
    browser.says("Drop files on the disk that gets them.")
    left, right = browser.load()
    left.open(d64)
    browser.drop_beside(("f.g64", g64.read_bytes()))
    browser.says("f.g64 is open.")
    browser.expect(right.text("h2 span") == "f.g64", "an image dropped beside the disks opens where none is")


def play(browser, left, right, d64, g64):
    copied = across(browser, left, right, d64, g64)
    dropped(browser, left, copied)
    changed_disk_is_kept(browser, right, d64)
    two_at_once(browser, left, right, d64, g64)
