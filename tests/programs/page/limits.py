"""What can't be done, or would be lost: a sentence says so, and nothing is changed unasked."""
import io
import subprocess
import zipfile

from odd_disks import DIRECTORY, changed
from selenium.webdriver.common.keys import Keys


def relative_files(browser, side, d64):
    """They are taken out with the length of their records, and neither put in nor copied."""
    room, file = browser.room, browser.room / "relative.d64"
    file.write_bytes(d64.read_bytes())
    (room / "records.rel").write_bytes(bytes(range(250)) * 2)
    browser.kit("put", file, room / "records.rel", "--type", "rel", "--record", "50")
    side.open(file)
    side.select("RECORDS")
    name, data = browser.fetched(lambda: side.do("takeOut"))
    wanted = room / "RECORDS.r00"
    browser.kit("get", file, "RECORDS", "-o", wanted)
    browser.expect((name, data) == (wanted.name, wanted.read_bytes()), "a relative file is taken out with the length of its records")
    side.do("duplicate")
    browser.answer("again")
    browser.until(lambda: "Relative and deleted files" in browser.said(), "a relative file isn't copied")
    wanted.rename(room / "AGAIN.r00")
    (room / "AGAIN.r00").write_bytes(data.replace(b"RECORDS", b"AGAIN\0\0"))
    browser.forget()
    side.give("put", room / "AGAIN.r00")
    browser.until(lambda: "Relative and deleted files" in browser.said(), "a relative file isn't put in")
    browser.expect(side.saved() == file.read_bytes(), "relative files are neither put in nor copied, which a sentence says")


def left_out(browser, side, d64):
    """All are taken out but a file that was never closed, and one of GEOS's."""
    entries = b"\0\0\x02\x11\x01OPEN".ljust(32, b"\xa0") + b"\0\0\x82\x11\x02OFFICE".ljust(21, b"\xa0") + b"\x01\x03\x00\x07"
    side.drop(("left.d64", changed(d64.read_bytes(), (DIRECTORY + 32, entries))))
    browser.says("left.d64 is open.")
    name, data = browser.fetched(lambda: side.do("takeOut"))
    said = browser.said()
    browser.expect(name == "HELLO.prg" and data == b"\1\2\3", "what can be read is taken out")
    browser.expect("OPEN was left out: It was never closed" in said and "OFFICE was left out: It is a file of GEOS" in said, said)


def losses(browser, side, g64):
    """A conversion says what would be lost, and is made only then."""
    image = bytearray(g64.read_bytes())
    track = int.from_bytes(image[12 : 16], "little") + 2
    image[track : track + 400] = b"U" * 400
    file = browser.room / "damaged.g64"
    file.write_bytes(image)
    side.open(file)
    side.do("convert")
    browser.expect("sector that can't be read" in browser.dialog().text or "sectors that can't be read" in browser.dialog().text, browser.dialog().text.replace("\n", " "))
    browser.cancel()
    browser.expect(side.saved() == image, "a conversion that isn't wanted isn't made")
    side.do("convert")
    browser.answer()
    browser.until(lambda: "It is a D64 now" in browser.said(), "converted")
    out = browser.room / "damaged.d64"
    browser.kit("convert", "--lossy", file, out)
    browser.expect(side.saved() == out.read_bytes(), "converted with what is lost")


def wide(browser, side):
    """Tracks 36 to 40: their map, and what a G64 doesn't hold."""
    file = browser.room / "wide.d64"
    browser.kit("new", file, "--title", "WIDE", "--id", "64", "--tracks", "40")
    for n in range(4):
        (browser.room / f"part{n}.prg").write_bytes(bytes([1, 8]) + bytes(45000))
        browser.kit("put", file, browser.room / f"part{n}.prg")
    side.open(file)
    side.show("map")
    svg = browser.room / "wide.svg"
    browser.kit("map", file, "--svg", svg)
    got = browser.run("return [...arguments[0].querySelectorAll('rect title')].map((it) => `<title>${it.textContent}</title>`)", side.root)
    picture = svg.read_text()
    browser.expect(len(got) == 768 and all(it in picture for it in got), "the map of a disk of 40 tracks is disk1541's")
    side.do("convert")
    browser.expect("tracks beyond" in browser.answer(), "a G64 doesn't hold them")
    out = browser.room / "wide.g64"
    browser.kit("convert", "--lossy", file, out)
    browser.expect(side.saved() == out.read_bytes(), "converted without them")


def overwritten(browser, side, d64):
    """A deleted file whose blocks another one has got can't be given back."""
    file, second = browser.room / "overwritten.d64", browser.room / "second.prg"
    file.write_bytes(d64.read_bytes())
    second.write_bytes(b"\1\x08" + bytes(9000))
    browser.kit("put", file, second)
    side.open(file)
    browser.expect(side.find("[data-do=undelete]").get_attribute("aria-disabled") == "true", "nothing is deleted, so nothing can be given back")
    side.key(Keys.CONTROL, "a")
    side.key(Keys.DELETE)
    browser.says("Deleted: HELLO, SECOND.")
    side.give("put", browser.room / "loader.prg")
    browser.says("1 file added.")
    side.do("undelete")
    browser.answer("SECOND", "prg")
    browser.until(lambda: browser.said().startswith("It can't be restored"), "it can't be given back")
    browser.kit("delete", file, "HELLO", "SECOND")
    browser.kit("put", file, browser.room / "loader.prg")
    browser.expect(side.saved() == file.read_bytes(), "a deleted file whose blocks are taken isn't given back")


def odd_host_names(browser, side, d64):
    """Names that a computer can't have, or that look alike there, are those of get-all."""
    file = browser.room / "named.d64"
    file.write_bytes(d64.read_bytes())
    for n, name in enumerate(("A/B", ".X", "ABC", "{c1}BC", "{61}BC", "50%", "{01}{a0}")):
        browser.kit("put", file, browser.room / "loader.prg", "--name", f"N{n}")
        browser.kit("rename", file, "--exact", f"N{n}", name)
    side.open(file)
    _, data = browser.fetched(lambda: side.do("takeOut"))
    folder = browser.fresh_folder()
    browser.kit("get-all", file, folder)
    with zipfile.ZipFile(io.BytesIO(data)) as it:
        names = sorted(it.namelist())
    browser.expect(names == sorted(it.name for it in folder.iterdir()), f"names for this computer are those of get-all: {names}")


def error_bytes(browser, side, d64):
    """A D64 with error bytes: a sector that they call bad doesn't read, and a G64 doesn't hold them."""
    file = browser.room / "errors.d64"
    at = sum([21] * 16)
    file.write_bytes(d64.read_bytes() + bytes([1]) * at + b"\5" + bytes([1]) * (682 - at))
    side.open(file)
    browser.expect("track 17, sector 0: the block is in use, but can't be read (HELLO)" in side.text(".flaws"), side.text(".flaws"))
    side.do("takeOut")
    browser.until(lambda: "HELLO was left out: A sector can't be read." in browser.said(), "a file that doesn't read is left out")
    side.do("convert")
    browser.expect("the error bytes" in browser.dialog().text, browser.dialog().text.replace("\n", " "))
    browser.cancel()


def session(browser, d64):
    """The terminal's host keeps the timing of the bus profile: the judge calls what it does a session."""
    places = browser.disk1541.with_name("drive1541"), browser.disk1541.parents[2] / "drive1541/out/drive1541"
    judge = next((it for it in places if it.is_file()), None)
    if not judge:
        return print("skip  drive1541 isn't beside disk1541: the terminal's host isn't judged")
    trace = browser.room / "host.trace"
    trace.write_text(browser.wait(TRACE, list(d64.read_bytes())))
    ran = subprocess.run([judge, "judge", trace], capture_output=True, text=True)
    browser.expect(ran.returncode == 0 and "a session to" in ran.stdout, f"the terminal's host: {ran.stdout.splitlines()[-1]}")


TRACE = """const [image, done] = arguments;
const modules = ["host.mjs", "yellowadze1541.mjs", "petscii.mjs"].map((it) => import(new URL(it, document.baseURI)));
Promise.all(modules).then(async ([{ Host }, { PROFILE, load }, { join }]) => {
  const library = await load(fetch("yellowadze1541.wasm")), drive = library.open(Uint8Array.from(image), { pace: PROFILE });
  const out = [], held = {}, note = (now, who, line, low) => out.push(`${now} ${who} ${line} ${low ? "pull" : "free"}\\n`);
  const spy = {
    due(by) {
      const it = drive.due(by);
      if (it?.clockChanged) note(it.moment, 8, "clock", it.clock);
      if (it?.dataChanged) note(it.moment, 8, "data", it.data);
      return it;
    },
    lines(now, ...low) {
      ["atn", "clock", "data"].forEach((line, i) => low[i] !== (held[line] ?? false) && note(now, "host", line, (held[line] = low[i])));
      drive.lines(now, ...low);
    },
  };
  const host = new Host(spy), tell = (to, text) => host.tell(to, [...join(text)]);
  host.hear(15);
  for (const [to, text] of [[0x6f, "I0"], [0xf2, "NOTES,S,W"], [0x62, "TEN LINES\\r"], [0xe2, ""], [0xf3, "NOTES,S,R"]]) tell(to, text);
  for (const [channel, most] of [[3, 3], [3], [3], [15]]) host.hear(channel, most);
  tell(0x65, "NOBODY");
  tell(0x6f, "S0:NO*");
  host.hear(15);
  done(out.join(""));
});"""


def play(browser, left, right, d64, g64):
    relative_files(browser, left, d64)
    left_out(browser, right, d64)
    losses(browser, left, g64)
    wide(browser, right)
    overwritten(browser, left, d64)
    odd_host_names(browser, right, d64)
    error_bytes(browser, left, d64)
    session(browser, d64)
