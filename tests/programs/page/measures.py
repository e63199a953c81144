"""New disks, full disks, how long they take, how large the page is, and saving in place."""
import base64
import time

MOST_BYTES = 80_000  # of the page, beside the module and its .mjs
MOST_PUT = 2  # seconds for 144 files
MOST_SHOWN = 200  # milliseconds from a drop to the listing
FORMS = (("D64, 35", "d64", []), ("D64, 40", "d64", ["--tracks", "40"]), ("G64", "g64", []))
SHOWN = """const [root, name, data, done] = arguments, to = new DataTransfer();
const said = document.getElementById("said"), bytes = Uint8Array.from(atob(data), (it) => it.charCodeAt(0));
const begun = performance.now();
new MutationObserver(() => said.textContent.startsWith(name) && done(performance.now() - begun)).observe(said, { childList: true });
to.items.add(new File([bytes], name));
root.dispatchEvent(new DragEvent("drop", { dataTransfer: to, bubbles: true, cancelable: true }));"""
# A handle of the browser's own folder, in place of one that the mouse gives.
HANDLE = """const [data, done] = arguments;
navigator.storage.getDirectory().then(async (folder) => {
  const handle = (window.handle = await folder.getFileHandle("place.d64", { create: true }));
  window.write = async (bytes) => { const out = await handle.createWritable(); await out.write(bytes); await out.close(); };
  await write(Uint8Array.from(atob(data), (it) => it.charCodeAt(0)));
  window.showOpenFilePicker = async () => [handle];
  DataTransferItem.prototype.getAsFileSystemHandle = async () => handle;
  done();
});"""
HELD = "const done = arguments[0]; handle.getFile().then((it) => it.arrayBuffer()).then((it) => done([...new Uint8Array(it)]))"


def in_time(browser, time, most, what):
    """What is slower than wanted is said. It fails if it takes ten times as long, as a machine with other work may take some times as long."""
    if time >= most:
        print(f"      slower than wanted: {what}")
    browser.expect(time < 10 * most, what)


def size(browser, folder):
    files = [it for it in folder.iterdir() if not it.name.startswith("yellowadze1541.")]
    count = sum(it.stat().st_size for it in files)
    browser.expect(count <= MOST_BYTES, f"the page has {count} bytes in {len(files)} files, at most {MOST_BYTES}")


def make_new(browser, side, form, name, *more):
    """A new disk in the page, and the same by disk1541."""
    browser.forget()
    side.do("fresh")
    browser.answer("my disk", "a1", form)
    browser.says("A new disk.")
    file = browser.fresh_folder() / name
    browser.kit("new", file, "--title", "MY DISK", "--id", "A1", *more)
    return file


def new_disks(browser, side):
    for form, ending, more in FORMS:
        file = make_new(browser, side, form, f"new.{ending}", *more)
        got = browser.fetched(lambda: side.do("save"))
        browser.expect(got == (file.name, file.read_bytes()), f"a new disk: {form}")


def full_disks(browser, side):
    """As many files as a directory has."""
    many = browser.fresh_folder()
    for n in range(144):
        (many / f"file{n:03}.prg").write_bytes(bytes([1, 8, n]))
    files = sorted(many.iterdir())
    for form, ending, more in FORMS[0], FORMS[2]:
        file = make_new(browser, side, form, f"full.{ending}", *more)
        begun = time.monotonic()
        side.give("put", *files)
        browser.says("144 files added.")
        seconds = time.monotonic() - begun
        in_time(browser, seconds, MOST_PUT, f"{ending}: 144 files put in within {seconds:.2f} s, with the driver's time")
        browser.kit("put", file, *files)
        browser.expect(side.saved() == file.read_bytes(), f"{ending}: 144 files put in")
        data = base64.b64encode(file.read_bytes()).decode()
        times = sorted(browser.wait(SHOWN, side.root, file.name, data) for _ in range(3))
        in_time(browser, times[0], MOST_SHOWN, f"{ending}: from the drop of a full disk to its listing {times[0]:.0f} to {times[-1]:.0f} ms")


def in_place(browser, side, d64):
    """A disk whose file the browser gave a handle of is saved there, but not over what another program wrote."""
    browser.wait(HANDLE, base64.b64encode(d64.read_bytes()).decode())
    inside = browser.room / "place.d64"
    inside.write_bytes(d64.read_bytes())
    side.drop(("place.d64", b""))
    browser.until(lambda: browser.said().startswith("place.d64: "), "the dropped file itself has no byte")
    browser.press(side.find("[data-take=open]").find_element("xpath", ".."))
    browser.says("place.d64 is open.")
    for old, new in ("HELLO", "ONE"), ("ONE", "TWO"):
        side.key("\ue011", "\ue032")
        browser.answer(new)
        side.until_names(new)
        side.key("\ue009", "s")
        browser.says("place.d64 is saved.")
        browser.kit("rename", inside, old, new)
        is_there = bytes(browser.wait(HELD)) == inside.read_bytes()
        browser.expect(is_there and not browser.leaving_is_asked(), f"saved in place by Ctrl+S: {new}")
    time.sleep(0.01)
    browser.wait("const done = arguments[0]; write(Uint8Array.of(1)).then(done)")
    side.do("save")
    browser.cancel()
    browser.expect(browser.wait(HELD) == [1], "a file that another program changed isn't written over unasked")
    browser.run("delete DataTransferItem.prototype.getAsFileSystemHandle")


def play(browser, side, d64, folder):
    size(browser, folder)
    new_disks(browser, side)
    full_disks(browser, side)
    in_place(browser, side, d64)
