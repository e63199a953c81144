#!/usr/bin/python3
"""check_page.py DISK1541 MODULE [PICTURES]: uses web/ in headless Chromium as a person does, by mouse and by keyboard, and compares each image that
it saves byte for byte with what disk1541 makes of the same.

DISK1541 is the path of the built program, MODULE that of yellowadze1541.wasm, PICTURES a folder for pictures of the page. Wants Debian's chromium,
chromium-driver and python3-selenium, and says so where one isn't there. Prints one line a case, and last 'N passed, N failed'; ends with 1 if a case
failed."""
import pathlib
import shutil
import sys
import tempfile

HERE = pathlib.Path(__file__).resolve().parent
ROOT = HERE.parent.parent
sys.path.insert(0, str(HERE / "page"))


def missing():
    """What isn't installed, or an empty text."""
    for program in "chromium", "chromedriver":
        if not shutil.which(program):
            return program
    try:
        import selenium  # noqa: F401
    except ImportError:
        return "selenium"
    return ""


def site(room, module):
    """A folder with the page, the module and its .mjs: what web/README.md says to serve."""
    out = room / "site"
    shutil.copytree(ROOT / "web", out, ignore=shutil.ignore_patterns("*.py", "*.md"))
    shutil.copy(ROOT / "capi/portable/yellowadze1541.mjs", out)
    shutil.copy(module, out / "yellowadze1541.wasm")
    return out


def play(browser, folder):
    """All subjects, one after another; what stops one is said, and the next one begins with the page loaded anew."""
    import limits
    import looks
    import manners
    import measures
    import odd_disks
    import one_disk
    import two_disks

    d64, g64 = disks(browser)
    files = one_disk.host_files(browser.room)
    for subject in (
        lambda left, right: one_disk.play(browser, left, d64, files),
        lambda left, right: browser.by_keyboard(lambda: one_disk.play(browser, right, g64, files)),
        lambda left, right: two_disks.play(browser, left, right, d64, g64),
        lambda left, right: odd_disks.play(browser, left, right, d64, g64),
        lambda left, right: limits.play(browser, left, right, d64, g64),
        lambda left, right: measures.play(browser, left, d64, folder),
        lambda left, right: looks.play(browser, left, right, g64),
        lambda left, right: manners.play(browser, folder, d64),
        lambda left, right: looks.one_file(browser, ROOT, folder, d64),
    ):
        browser.play(lambda: subject(*browser.load()))
    looks.quiet(browser)


def disks(browser):
    """The same disk in both formats."""
    d64 = browser.fresh_folder() / "hello.d64"
    shutil.copy(ROOT / "examples/hello.d64", d64)
    browser.kit("convert", d64, d64.with_suffix(".g64"))
    return d64, d64.with_suffix(".g64")


def main():
    disk1541, module = (pathlib.Path(it).resolve() for it in sys.argv[1:3])
    pictures = pathlib.Path(sys.argv[3]).resolve() if len(sys.argv) > 3 else None
    if missing():
        print(f"skip  {missing()} isn't installed: the page isn't tried\n0 passed, 0 failed")
        return 0
    from browser import Browser

    with tempfile.TemporaryDirectory() as it:
        room = pathlib.Path(it)
        folder = site(room, module)
        browser = Browser(room, folder, disk1541, pictures)
        try:
            play(browser, folder)
        finally:
            browser.close()
    print(f"{browser.passed} passed, {browser.failed} failed")
    return int(browser.failed > 0)


if __name__ == "__main__":
    sys.exit(main())
