"""Headless Chromium for the checks of contrib/web: a browser, what it shows, and what it complains of."""
import contextlib
import os
import pathlib
import shutil
import subprocess
import time

from built import Wrong
from served import PATIENCE

CHROMIUM, DRIVER = shutil.which("chromium"), shutil.which("chromedriver")
WIDE, NARROW = (1280, 900), (390, 800)
# How often a browser is asked what it shows. Each time takes some of its processor.
POLL = 0.05


def missing():
    """What is not there that the checks want, or an empty text."""
    try:
        import selenium  # noqa: F401  pylint: disable=import-outside-toplevel,unused-import
    except ImportError:
        return "python3-selenium is not there"
    return "" if CHROMIUM and DRIVER else "chromium or chromium-driver is not there"


class Browser:
    """A browser of its own with one tab, or more."""

    def __init__(self, address, size=WIDE, dark=False):
        from selenium import webdriver  # pylint: disable=import-outside-toplevel
        from selenium.webdriver.chrome.service import Service  # pylint: disable=import-outside-toplevel

        options = webdriver.ChromeOptions()
        options.binary_location = CHROMIUM
        for word in ["--headless=new", "--no-sandbox", "--disable-gpu", "--disable-dev-shm-usage", "--lang=en",
                     "--window-size={},{}".format(*size)]:
            options.add_argument(word)
        options.set_capability("goog:loggingPrefs", {"browser": "ALL"})
        self.driver = webdriver.Chrome(options=options, service=Service(DRIVER))
        self.address, self.said = address, []
        self.look(size, dark)

    def look(self, size, dark):
        """Is of this size, in light or in dark."""
        width, height = size
        self.driver.execute_cdp_cmd("Emulation.setDeviceMetricsOverride", {
            "width": width, "height": height, "deviceScaleFactor": 1, "mobile": width < 600})
        self.driver.execute_cdp_cmd("Emulation.setEmulatedMedia", {
            "features": [{"name": "prefers-color-scheme", "value": "dark" if dark else "light"}]})

    def run(self, script, *words):
        """What a script in the page gives."""
        return self.driver.execute_script(script, *words)

    def find(self, selector, text=None):
        """An element that is seen and has this text in it, or None."""
        return self.run("""
            const [selector, text] = arguments;
            return [...document.querySelectorAll(selector)].find((each) => each.checkVisibility({ visibilityProperty: true })
              && (text === null || (each.textContent ?? "").includes(text) || (each.value ?? "").includes(text))) ?? null;
            """, selector, text)

    def wants(self, selector, text=None, seconds=PATIENCE):
        """An element that comes to be seen in so many seconds."""
        end = time.monotonic() + seconds
        while (found := self.find(selector, text)) is None:
            if time.monotonic() > end:
                raise Wrong(f"{selector} with {text!r} does not come in {seconds} s:\n{self.text()[:1500]}\n{self.log()}")
            time.sleep(POLL)
        return found

    def wants_not(self, selector, text=None, seconds=PATIENCE):
        """Waits until there is no such element to be seen."""
        end = time.monotonic() + seconds
        while self.find(selector, text) is not None:
            if time.monotonic() > end:
                raise Wrong(f"{selector} with {text!r} does not go in {seconds} s")
            time.sleep(POLL)

    def wants_title(self, text, seconds=PATIENCE):
        """Waits until the title has this text."""
        end = time.monotonic() + seconds
        while text not in self.driver.title:
            if time.monotonic() > end:
                raise Wrong(f"the title is {self.driver.title!r}, without {text!r}")
            time.sleep(POLL)

    def text(self):
        """The letters that are seen."""
        return self.run("return document.body.innerText")

    def click(self, selector, text=None):
        """Clicks an element when it is seen."""
        element = self.wants(selector, text)
        self.run("arguments[0].scrollIntoView({ block: 'center' })", element)
        element.click()

    def fill(self, selector, text):
        """Types a text in place of what a field has."""
        element = self.wants(selector)
        element.clear()
        if all(ord(letter) < 0x10000 for letter in text):
            element.send_keys(text)
        else:
            # The driver types no letter beyond the first 65,536.
            self.run("arguments[0].focus(); document.execCommand('insertText', false, arguments[1])", element, text)

    def keys(self, *keys):
        """Presses keys, wherever the focus is."""
        self.driver.switch_to.active_element.send_keys(*keys)

    def go(self, place):
        """Goes to a view by its address, in the page that is there."""
        self.run("location.hash = arguments[0]", f"#/{place}")

    def login(self, name, password):
        """Opens the page anew, and logs in."""
        self.driver.get(self.address)
        self.fill("input[name=name]", name)
        self.fill("input[name=password]", password)
        self.click("form button[type=submit]")
        self.wants("#prompt, body.writing main form")

    def text_number(self):
        """The number of the text that the address names, or 0."""
        return self.run("return Number(/^#\\/text\\/([0-9]+)$/.exec(location.hash)?.[1] ?? 0)")

    def open(self, element):
        """Opens details."""
        self.run("arguments[0].closest('details').open = true", element)

    def picture(self, path):
        """Keeps what is seen as a picture."""
        self.driver.save_screenshot(str(path))

    def processor_seconds(self):
        """How much processor time the browser and all that it began have used."""
        parents, times = {}, {}
        for place in pathlib.Path("/proc").glob("[0-9]*/stat"):
            with contextlib.suppress(OSError):
                words = place.read_text(encoding="ascii", errors="replace").rsplit(") ", 1)[1].split()
                number = int(place.parent.name)
                parents[number], times[number] = int(words[1]), (int(words[11]) + int(words[12])) / os.sysconf("SC_CLK_TCK")
        mine = {self.driver.service.process.pid}
        while more := {number for number, parent in parents.items() if parent in mine} - mine:
            mine |= more
        return sum(times.get(number, 0) for number in mine)

    def log(self):
        """All that the browser has complained of so far."""
        with contextlib.suppress(Exception):
            self.said += [entry["message"] for entry in self.driver.get_log("browser") if entry["level"] in ("SEVERE", "WARNING")]
        return self.said

    def end(self):
        """Ends the browser."""
        with contextlib.suppress(Exception):
            self.driver.quit()


class Front:
    """A door for browsers before a server of this machine."""

    def __init__(self, program, page, komd_port, port):
        self.program, self.page, self.komd_port, self.port = program, page, komd_port, port
        words = [program, "--web", str(port), "--komd", str(komd_port), "--places", "40", "--page", str(page)]
        # What it tells is of no interest here, unless it does not begin.
        self.process = subprocess.Popen(words, stdout=subprocess.DEVNULL, stderr=subprocess.PIPE, text=True)
        self.address = f"http://127.0.0.1:{port}/"

    def end(self):
        """Ends it."""
        if self.process.poll() is None:
            self.process.terminate()
            self.process.communicate(timeout=PATIENCE)
