"""The page in a real browser: Chromium by Selenium, both from Debian's packages. Each wait is for something to be so, none for a time."""
import base64
import os
import pathlib
import shutil
import signal
import tempfile
import time

from selenium import webdriver
from selenium.common.exceptions import StaleElementReferenceException
from selenium.webdriver.chrome.service import Service
from selenium.webdriver.common.action_chains import ActionChains
from selenium.webdriver.common.by import By
from selenium.webdriver.support.ui import Select

from reference import ROOT, SAMPLES, kinds, reference  # pylint: disable=unused-import # for the tests

PAGE = pathlib.Path(os.environ.get("PAGE", ROOT / "target/farmbook.html")).resolve()
PATIENCE = int(os.environ.get("PATIENCE", "60"))  # seconds until a wait is given up: a loaded machine is no mistake of the page

OPTIONS = ("--headless=new", "--no-sandbox", "--disable-gpu", "--disable-dev-shm-usage", "--no-first-run", "--disable-extensions",
           "--disable-background-networking", "--disable-component-update", "--disable-sync", "--password-store=basic")

NAMED = """const name = (each) => (each.getAttribute("aria-label") ?? each.innerText).replace(/\\s+/g, " ").trim();
    const all = [...document.querySelectorAll("button, a[role=button]")];
    return all.filter((each) => each.checkVisibility() && name(each).startsWith(arguments[0]));"""

FIELD = """const label = [...document.querySelectorAll("#form label[for]")].find((each) => each.innerText.trim() === arguments[0]);
    return label ? document.getElementById(label.htmlFor) : null;"""


class Page:
    def __init__(self, *options, profile=None, script=None, width=1024, height=768, load=True):
        self.folder = tempfile.mkdtemp()
        self.profile = profile or f"{self.folder}/profile"
        chosen = webdriver.ChromeOptions()
        for option in (*OPTIONS, f"--user-data-dir={self.profile}", *options):
            chosen.add_argument(option)
        chosen.set_capability("goog:loggingPrefs", {"browser": "ALL", "performance": "ALL"})
        self.driver = webdriver.Chrome(service=Service("/usr/bin/chromedriver"), options=chosen)
        self.driver.set_script_timeout(PATIENCE)
        self.downloads = pathlib.Path(self.folder) / "saved"
        self.downloads.mkdir()
        self.command("Browser.setDownloadBehavior", behavior="allow", downloadPath=str(self.downloads))
        self.command("Page.enable")
        if script:
            self.command("Page.addScriptToEvaluateOnNewDocument", source=script)
        self.size(width, height)
        if load:
            self.open()

    def command(self, name, **words):
        return self.driver.execute_cdp_cmd(name, words)

    def size(self, width, height, dark=False):
        self.command("Emulation.setDeviceMetricsOverride", width=width, height=height, deviceScaleFactor=1, mobile=False)
        self.command("Emulation.setEmulatedMedia", features=[{"name": "prefers-color-scheme", "value": "dark" if dark else "light"}])

    def open(self):
        self.driver.get(PAGE.as_uri())
        self.until(lambda: self.data("opened"), "the page did not open")

    def until(self, test, words, seconds=PATIENCE):
        """Waits until it is so; words, or what gives them, are for the one who reads that it never was."""
        end = time.monotonic() + seconds
        while True:
            try:
                found = test()
            except Exception:  # what is drawn anew in this moment
                found = None
            if found:
                return found
            if time.monotonic() > end:
                raise AssertionError(words() if callable(words) else words)
            time.sleep(0.02)

    def one(self, css):
        return self.driver.find_element(By.CSS_SELECTOR, css)

    def all(self, css):
        return self.driver.find_elements(By.CSS_SELECTOR, css)

    def script(self, text, *words):
        return self.driver.execute_script(text, *words)

    def data(self, name):
        """What the page says of its state beside the words: opened, change, ms, judging, keeping."""
        return self.script("return document.getElementById('state')?.dataset[arguments[0]] ?? null", name)

    def text(self, css):
        return self.script("return (document.querySelector(arguments[0])?.innerText ?? '').trim()", css)

    def state(self):
        return self.text("#state")

    def shown(self):
        return self.script("return [...document.querySelectorAll('#records tr[data-record]')].map((row) => row.dataset.typed)")

    def buttons(self, name):
        """The buttons in sight whose accessible name is or begins with the words."""
        return self.script(NAMED, name)

    def button(self, name):
        found = self.buttons(name)
        if not found:
            raise AssertionError(f"there is no button {name}")
        return found[0]

    def again(self, act):
        """What is drawn anew in this moment is looked for once more."""
        end = time.monotonic() + PATIENCE
        while True:
            try:
                return act()
            except StaleElementReferenceException:
                if time.monotonic() > end:
                    raise

    def press(self, name):
        def act():
            button = self.button(name)
            self.script("arguments[0].scrollIntoView({ block: 'center' })", button)
            button.click()
        self.again(act)

    def click(self, css, at=0):
        self.again(lambda: self.all(css)[at].click())

    def keys(self, *words):
        """Goes to what has the focus, as from a keyboard."""
        ActionChains(self.driver).send_keys(*words).perform()

    def field(self, label):
        found = self.script(FIELD, label)
        if found is None:
            raise AssertionError(f"there is no field {label}")
        return found

    def fill(self, label, value):
        self.again(lambda: self.fill_once(label, value))

    def fill_once(self, label, value):
        field = self.field(label)
        tag, kind, before = self.script("const each = arguments[0]; return [each.tagName, each.type, each.value]", field)
        if tag == "SELECT":
            Select(field).select_by_visible_text(value)
        elif kind == "radio":
            self.script("document.querySelector(`input[name=${arguments[0].name}][value=\"${arguments[1]}\"]`).click()", field, value)
        else:
            if before:
                field.clear()
            field.send_keys(value)

    def fill_all(self, fields, words):
        for (label, _), word in zip(fields, words):
            self.fill(label, word)

    def changed(self, act):
        """Does something, and waits until the page has shown one more change. Its words and its time may be those of the change before."""
        before = int(self.data("change") or 0)
        act()
        self.until(lambda: int(self.data("change") or 0) > before, lambda: f"nothing was changed: {self.text('#remarks')} {self.text('#trouble')}")

    def view(self, name):
        self.one(f"nav a[href='#{name}']").click()
        self.until(lambda: self.one(f"#view-{name}").is_displayed(), f"the view {name} did not open")

    def choose_files(self, name, *paths):
        self.command("Page.setInterceptFileChooserDialog", enabled=True)
        self.press(name)
        self.until(lambda: self.all("#files"), "no file was asked for")
        self.one("#files").send_keys("\n".join(str(path) for path in paths))

    def files_saved(self):
        """A file is whole when it has its name; before that it is hidden, or has an ending of the browser's, and its name may be held by an empty one."""
        return [each for each in self.downloads.iterdir()
                if not each.name.startswith(".") and each.suffix not in (".crdownload", ".tmp") and each.stat().st_size > 0]

    def saved(self, name):
        """The bytes that a button saves, through the browser's own download."""
        for each in self.downloads.iterdir():
            each.unlink()
        self.press(name)
        self.until(self.files_saved, f"{name} saved nothing")
        return self.files_saved()[0].read_bytes()

    def picture(self, path):
        path.parent.mkdir(parents=True, exist_ok=True)
        path.write_bytes(base64.b64decode(self.command("Page.captureScreenshot", format="png")["data"]))

    def errors(self):
        return [each["message"] for each in self.driver.get_log("browser") if each["level"] == "SEVERE"]

    def kill(self):
        os.kill(self.driver.capabilities["goog:processID"], signal.SIGKILL)
        self.driver.service.stop()

    def close(self):
        try:
            self.driver.quit()
        finally:
            shutil.rmtree(self.folder, ignore_errors=True)
