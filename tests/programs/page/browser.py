"""Headless Chromium with the page, served from a folder over 127.0.0.1, and what a person does in it."""
import base64
import functools
import http.server
import pathlib
import subprocess
import tempfile
import threading
import time
import traceback

from selenium import webdriver
from selenium.webdriver.common.action_chains import ActionChains
from selenium.webdriver.chrome.service import Service
from selenium.webdriver.common.by import By
from selenium.webdriver.common.keys import Keys
from selenium.webdriver.support.expected_conditions import staleness_of

PATIENCE = 20
TYPES = {".mjs": "text/javascript", ".wasm": "application/wasm"}
DROP = """const [target, files] = arguments, to = new DataTransfer();
for (const [name, data] of files) to.items.add(new File([Uint8Array.from(atob(data), (it) => it.charCodeAt(0))], name));
for (const it of ["dragover", "drop"]) target.dispatchEvent(new DragEvent(it, { dataTransfer: to, bubbles: true, cancelable: true }));"""


WIDER = "const it = document.getElementById('rest'); return document.documentElement.scrollWidth > innerWidth || it.scrollWidth > it.clientWidth"


class Quiet(http.server.SimpleHTTPRequestHandler):
    extensions_map = {**http.server.SimpleHTTPRequestHandler.extensions_map, **TYPES}

    def log_message(self, *_):
        pass


class Never(Exception):
    """What was waited for didn't come."""


class Browser:
    """The page, what it says, and the tally of what was right."""

    def __init__(self, room, folder, disk1541, pictures):
        self.room, self.disk1541, self.pictures = room, disk1541, pictures
        self.downloads = self.fresh_folder()
        self.passed = self.failed = 0
        self.is_keyboard = False  # whether things are done by keyboard alone
        self.server = http.server.ThreadingHTTPServer(("127.0.0.1", 0), functools.partial(Quiet, directory=folder))
        threading.Thread(target=self.server.serve_forever, daemon=True).start()
        self.driver = webdriver.Chrome(service=Service("/usr/bin/chromedriver"), options=options(self.downloads))
        self.driver.set_script_timeout(PATIENCE)

    def close(self):
        self.driver.quit()
        self.server.shutdown()

    def load(self, address=None):
        self.driver.get("about:blank")
        self.driver.get(address or f"http://127.0.0.1:{self.server.server_port}/")
        self.until(lambda: self.said() == "Ready.", "the page is ready")
        self.sides = [Side(self, it) for it in self.all("section.disk")]
        return self.sides

    def fresh_folder(self):
        return pathlib.Path(tempfile.mkdtemp(dir=self.room))

    # --- what is right

    def expect(self, is_right, what):
        self.passed += bool(is_right)
        self.failed += not is_right
        print("ok   " if is_right else "WRONG", what, flush=True)

    def play(self, part):
        """Plays a part of the test; what stops it is said, and counts as a case that failed."""
        try:
            part()
        except Exception:
            self.expect(False, traceback.format_exc())

    def drop_beside(self, *files):
        """Drops files, each (name, bytes), on the page's own ground."""
        self.run(DROP, self.driver.find_element(By.ID, "rest"), encoded(files))

    def by_keyboard(self, part):
        self.is_keyboard = True
        try:
            part()
        finally:
            self.is_keyboard = False

    def until(self, ask, what):
        end = time.monotonic() + PATIENCE
        while time.monotonic() < end:
            got = ask()
            if got:
                return got
            time.sleep(0.02)
        raise Never(f"never: {what}; the page says: {self.said()}")

    def kit(self, *words):
        """Runs disk1541, and gives what it prints."""
        return subprocess.run([self.disk1541, *map(str, words)], check=True, capture_output=True).stdout

    # --- what is on the page

    def all(self, selector):
        return self.driver.find_elements(By.CSS_SELECTOR, selector)

    def said(self):
        return self.driver.find_element(By.ID, "said").text

    def says(self, text):
        self.until(lambda: self.said() == text, f"it says: {text}")

    def run(self, script, *values):
        return self.driver.execute_script(script, *values)

    def wait(self, script, *values):
        """What a script gives to its last argument, a function, at last."""
        return self.driver.execute_async_script(script, *values)

    def press(self, element):
        if self.is_keyboard:
            element.send_keys(Keys.ENTER)
        else:
            self.run("arguments[0].scrollIntoView({ block: 'center' })", element)
            element.click()

    def characters(self, charset):
        box = self.all("#small")[0]
        if box.is_selected() != (charset == "lower"):
            self.press(box)

    def forget(self):
        """Empties what is said, so that the same sentence can be waited for again."""
        self.run("document.getElementById('said').textContent = ''")

    def leaving_is_asked(self):
        return self.run("const e = new Event('beforeunload', { cancelable: true }); dispatchEvent(e); return e.defaultPrevented")

    # --- dialogs and downloads

    def dialog(self):
        return self.until(lambda: self.all("dialog[open]"), "a dialog")[0]

    def answer(self, *values):
        """Fills the dialog's fields, and agrees. Gives what the dialog said."""
        dialog = self.dialog()
        text = dialog.text
        for field, value in zip(dialog.find_elements(By.CSS_SELECTOR, "input, select"), values):
            self.fill(field, value)
        self.press(dialog.find_element(By.CSS_SELECTOR, "button.first"))
        self.until(lambda: staleness_of(dialog)(self.driver), "the dialog closes")
        return text

    def fill(self, field, value):
        if field.tag_name == "input":
            field.send_keys(Keys.CONTROL, "a")
            field.send_keys(value or Keys.DELETE)
        elif self.is_keyboard:
            field.send_keys(value)
        else:
            field.find_element(By.XPATH, f"option[contains(., '{value}')]").click()

    def cancel(self):
        dialog = self.dialog()
        if self.is_keyboard:
            ActionChains(self.driver).send_keys(Keys.ESCAPE).perform()
        else:
            dialog.find_element(By.CSS_SELECTOR, "button[type=button]").click()
        self.until(lambda: staleness_of(dialog)(self.driver), "the dialog closes")

    def fetched(self, do):
        """Name and bytes of the download that something begins."""
        before = set(self.downloads.iterdir())
        do()
        new = lambda: [it for it in self.downloads.iterdir() if it not in before and it.suffix != ".crdownload" and not it.name.startswith(".")]
        file = self.until(new, "a download")[0]
        data = settled(file)
        file.unlink()
        return file.name, data

    def picture(self, name, width, height, is_dark=False, at=None):
        """Keeps a picture, if a folder is named, from the top or from an element on, and sees that nothing is wider than the window."""
        colours = [{"name": "prefers-color-scheme", "value": "dark" if is_dark else "light"}]
        self.driver.execute_cdp_cmd("Emulation.setEmulatedMedia", {"features": colours})
        self.driver.execute_cdp_cmd("Emulation.setDeviceMetricsOverride", {"width": width, "height": height, "deviceScaleFactor": 1, "mobile": False})
        self.run("arguments[0] ? arguments[0].scrollIntoView() : document.getElementById('rest').scrollTo(0, 0)", at)
        time.sleep(0.2)
        if self.pictures:
            self.driver.save_screenshot(str(self.pictures / f"{name}.png"))
        self.expect(not self.run(WIDER), f"{name}: nothing is wider than the window")
        self.driver.execute_cdp_cmd("Emulation.clearDeviceMetricsOverride", {})


class Side:
    """One of the two disks."""

    def __init__(self, browser, root):
        self.browser, self.root = browser, root

    def find(self, selector):
        return self.root.find_element(By.CSS_SELECTOR, selector)

    def text(self, selector):
        return self.find(selector).get_attribute("textContent")

    def rows(self):
        return self.root.find_elements(By.CSS_SELECTOR, "[role=option]")

    def names(self):
        return [it.text.split('"')[1] for it in self.rows()]

    def until_names(self, *names):
        self.browser.until(lambda: self.names() == list(names), f"the files are {names}, not {self.names()}")

    def do(self, action):
        self.browser.press(self.find(f"[data-do={action}]"))

    def give(self, what, *files):
        """Files for one of the fields that take files."""
        self.find(f"[data-take={what}]").send_keys("\n".join(str(it) for it in files))

    def open(self, file):
        self.browser.forget()
        self.give("open", file)
        self.browser.says(f"{file.name} is open.")

    def drop(self, *files):
        """Drops files, each (name, bytes)."""
        self.browser.run(DROP, self.root, encoded(files))

    def select(self, *names):
        places = [self.names().index(it) for it in names]
        if self.browser.is_keyboard:
            return self.select_by_keys(places)
        rows = self.rows()
        self.browser.press(rows[places[0]])
        for it in places[1:]:
            ActionChains(self.browser.driver).key_down(Keys.CONTROL).click(rows[it]).key_up(Keys.CONTROL).perform()

    def select_by_keys(self, places):
        self.key(Keys.HOME)
        self.key(*[Keys.DOWN] * places[0])
        for before, it in zip(places, places[1:]):
            self.key(Keys.CONTROL, *[Keys.DOWN if it > before else Keys.UP] * abs(it - before))
            self.key(Keys.SPACE)

    def key(self, *keys):
        self.find("[role=listbox]").send_keys(*keys)

    def saved(self):
        """The bytes that Save gives."""
        return self.browser.fetched(lambda: self.do("save"))[1]

    def show(self, part):
        if not self.find(f".{part}").get_attribute("open"):
            self.browser.press(self.find(f".{part} summary"))

    def tell(self, line):
        """Types a line into the terminal, and gives the answer."""
        before = self.text("pre")
        self.find(".terminal input").send_keys(line, Keys.ENTER)
        self.browser.until(lambda: self.text("pre") != before, "an answer in the terminal")
        return self.text("pre")[len(before) :].split("\n", 1)[1].strip()


def encoded(files):
    """Files as the script that drops them takes them."""
    return [[name, base64.b64encode(bytes(data)).decode()] for name, data in files]


def options(downloads):
    its = webdriver.ChromeOptions()
    for it in "--headless=new", "--no-sandbox", "--disable-gpu", "--window-size=1280,900":
        its.add_argument(it)
    its.add_experimental_option("prefs", {"download.default_directory": str(downloads), "profile.default_content_setting_values.automatic_downloads": 1})
    its.set_capability("goog:loggingPrefs", {"browser": "ALL"})
    return its


def settled(file):
    """A file's bytes once no more come."""
    size = -1
    while size != (size := file.stat().st_size):
        time.sleep(0.05)
    return file.read_bytes()
