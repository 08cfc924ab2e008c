"""A real browser on the desk, for desk.py: Chromium, driven by Selenium."""
import atexit
import functools
import os
import shutil
import sys
import tempfile
import time

from beside import needs
from front import NAME, PASSWORD, USER
from harness import Skipped, same

DEBIAN = "/usr/lib/python3/dist-packages"
PROGRAMS = "chromium", "chromedriver", "nginx", "openssl"
BUSY = """const main = document.getElementById("main");
    return main === null || main.getAttribute("aria-busy") !== "false" || main.querySelector("[data-old]") !== null"""
TABLE = """for (const table of document.querySelectorAll("table")) {
        if (table.caption.innerText === arguments[0]) {
            return [...table.rows].map((row) => [...row.cells].map((cell) => cell.innerText.trim()));
        }
    }
    return null"""
FILL = """let field = null;
    for (const [name, value] of Object.entries(arguments[0])) {
        field = document.querySelector(`main [name=${name}]`);
        field.value = value;
        field.dispatchEvent(new InputEvent("input", { bubbles: true }));
    }
    field?.dispatchEvent(new Event("change", { bubbles: true }))"""
# Chromium drops changes of an address beyond 200 in ten seconds, and a form makes five of them.
PAUSE = 0.4
FACTS = """const part = document.getElementById(arguments[0]).closest("section");
    return [...part.querySelectorAll(".facts div")].map((it) => [...it.children].map((i) => i.innerText))"""


def selenium():
    """The package, also where only the system's own Python has it."""
    try:
        import selenium.webdriver as webdriver
    except ImportError:
        sys.path.append(DEBIAN)
        try:
            import selenium.webdriver as webdriver
        except ImportError:
            raise Skipped("not installed: python3-selenium") from None
    return webdriver


def started(start):
    """Starts the browser, again where it does not come in a minute, as on a machine that is busy."""
    for _ in range(4):
        try:
            return start()
        except selenium_errors().SessionNotCreatedException:
            time.sleep(5)
    return start()


def selenium_errors():
    from selenium.common import exceptions
    return exceptions


@functools.lru_cache(maxsize=None)
def the_browser():
    """The one browser of a run, made at its first use and ended with the run."""
    needs(*PROGRAMS)
    browser = Browser(selenium())
    atexit.register(browser.end)
    return browser


class Browser:
    """A browser of one or more windows. Addresses are the desk's: what stands in them after the `#`."""

    def __init__(self, webdriver):
        from selenium.webdriver.chrome.service import Service
        self.room = tempfile.mkdtemp(prefix="jaqhendulu-browser-")
        self.files = os.path.join(self.room, "files")
        os.makedirs(self.files)
        options = webdriver.ChromeOptions()
        for it in ("--headless=new", "--no-sandbox", "--disable-dev-shm-usage", "--disable-gpu", "--lang=en-US",
                   "--no-first-run", "--hide-scrollbars", "--disable-background-networking",
                   "--disable-component-update",
                   f"--user-data-dir={os.path.join(self.room, 'profile')}",
                   f"--host-resolver-rules=MAP {NAME} 127.0.0.1"):
            options.add_argument(it)
        options.accept_insecure_certs = True
        options.binary_location = shutil.which("chromium")
        options.set_capability("goog:loggingPrefs", {"browser": "ALL"})
        options.add_experimental_option("prefs", {"download.default_directory": self.files})
        self.driver = started(lambda: webdriver.Chrome(service=Service(shutil.which("chromedriver")), options=options))
        self.last = time.monotonic()
        self.driver.set_page_load_timeout(300)
        self.driver.set_script_timeout(150)

    def end(self):
        self.driver.quit()
        shutil.rmtree(self.room, ignore_errors=True)

    def visit(self, port):
        """Signs in at a site, in one window."""
        for it in self.driver.window_handles[1:]:
            self.to_window(it)
            self.driver.close()
        self.to_window(self.driver.window_handles[0])
        self.origin = f"https://{NAME}:{port}"
        self.size(1280, 960)
        self.driver.get(f"https://{USER}:{PASSWORD}@{NAME}:{port}/desk/icon.svg")
        self.faults()

    def to_window(self, it):
        self.driver.switch_to.window(it)

    def size(self, width, height):
        """The size of the page's own area in CSS pixels."""
        self.driver.execute_cdp_cmd("Emulation.setDeviceMetricsOverride", {
            "width": width, "height": height, "deviceScaleFactor": 1, "mobile": False})

    def load(self, address="/"):
        """Loads the page anew at an address."""
        self.driver.get("about:blank")
        self.driver.get(f"{self.origin}/desk/#{address}")
        self.settle()

    def go(self, address):
        """Goes to an address as a link does, no sooner than a while after the last time."""
        time.sleep(max(0, self.last + PAUSE - time.monotonic()))
        self.last = time.monotonic()
        self.mark()
        self.script("location.hash = arguments[0]", f"#{address}")
        self.settle()

    def follow(self, where):
        """Clicks on what leads to another view."""
        self.mark()
        self.find(where).click()
        self.settle()

    def mark(self):
        """Marks the view that is there, so that `settle` waits for another one."""
        self.script("document.querySelector('main > *')?.setAttribute('data-old', '')")

    def settle(self):
        self.wait(lambda: not self.script(BUSY), "the view")

    def wait(self, holds, what, seconds=150):
        """Waits until something holds: what it gave."""
        until = time.monotonic() + seconds
        while True:
            found = holds()
            if found:
                return found
            if time.monotonic() > until:
                raise AssertionError(f"waited in vain for {what} at {self.address()}; the page says: "
                                     f"{self.text()[:400]}")
            time.sleep(0.03)

    def script(self, text, *given):
        return self.driver.execute_script(text, *given)

    def module(self, name, body):
        """What an expression gives over a module of the page, `it`."""
        return self.driver.execute_async_script(
            f"const done = arguments[0]; import('/desk/{name}').then((it) => done({body}), (why) => done(String(why)))")

    def address(self):
        return self.script("return location.hash.slice(1)")

    def text(self, where="main"):
        """The visible text of the first element that a selector finds; nothing where there is none."""
        return self.script("return document.querySelector(arguments[0])?.innerText ?? ''", where)

    def says(self, words, where="main"):
        """Waits until a part of the page has these words."""
        return self.wait(lambda: words in self.text(where), repr(words))

    def find(self, where):
        return self.wait(lambda: self.driver.find_elements("css selector", where), where)[0]

    def fill(self, **fields):
        """Types into the fields of a form, by their names."""
        for name, value in fields.items():
            field = self.find(f"main [name={name}]")
            if field.tag_name == "select":
                self.script("arguments[0].value = arguments[1];"
                            "arguments[0].dispatchEvent(new InputEvent('input', {bubbles: true}))", field, value)
            else:
                field.clear()
                field.send_keys(value)

    def keys(self, *keys):
        """Presses keys, wherever the focus is."""
        from selenium.webdriver.common.action_chains import ActionChains
        ActionChains(self.driver).send_keys(*keys).perform()

    def fill_form(self, address, fields):
        """Fills a form all at once, as a browser fills what it knows: the line that the page shows."""
        self.go(address)
        self.script(FILL, fields)
        return self.text("#line")

    def send(self):
        """Clicks on the form's button, and once more where the page asks to look again."""
        self.mark()
        self.find("#send").click()
        if self.script("return document.querySelector('.said .look') !== null"):
            self.find("#send").click()

    def book(self, address, **fields):
        """Books by a form: the number of the command that the next view notes."""
        self.fill_form(address, fields)
        self.send()
        return self.booked()

    def booked(self):
        """Waits for the note that something was booked: its number."""
        self.wait(lambda: "booked=" in self.address(), "a note")
        self.settle()
        number = int(self.address().split("booked=")[1])
        same(f"Booked as command {number}", self.text("#booked").split(":")[0])
        return number

    def refused(self):
        """Waits for a refusal: its words, and the code, name and value below."""
        self.wait(lambda: self.text(".said .refusal .code"), "a refusal")
        return self.text(".said .refusal p"), self.text(".said .refusal .code")

    def table(self, caption):
        """The cells of the table with a caption: its head, its rows and its foot, as they are shown."""
        return self.script(TABLE, caption)

    def facts(self, section):
        """The pairs of the lists under a heading."""
        return dict(self.script(FACTS, section))

    def picture(self, path, height=None):
        """Keeps what is seen as a PNG: the whole page, or so much of it."""
        whole = self.script("return document.documentElement.scrollHeight")
        self.size(1200, height or whole)
        self.driver.save_screenshot(path)
        self.size(1280, 960)

    def faults(self):
        """What the browser's console told of, but statuses of answers."""
        return [it["message"] for it in self.driver.get_log("browser")
                if "Failed to load resource" not in it["message"]]
