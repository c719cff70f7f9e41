"""Chromium without a window, which shows pages to tests/page.py. It is driven by selenium: Debian's packages chromium,
chromium-driver and python3-selenium, the last of them only for /usr/bin/python3."""

import contextlib
import json
import os
import shutil
import sys

OWN_PYTHON = "/usr/bin/python3"
try:
    from selenium import webdriver
    from selenium.common.exceptions import StaleElementReferenceException, WebDriverException
    from selenium.webdriver.chrome.service import Service
    from selenium.webdriver.common.action_chains import ActionChains
    from selenium.webdriver.common.by import By
    from selenium.webdriver.common.keys import Keys
except ImportError:
    if sys.executable != OWN_PYTHON and os.path.exists(OWN_PYTHON):
        os.execv(OWN_PYTHON, [OWN_PYTHON, *sys.argv])
    webdriver = Keys = None

FLAGS = ["--headless=new", "--no-sandbox", "--hide-scrollbars", "--disable-background-networking"]
# Notes when the first row of a list is in the page, in milliseconds after the page was requested.
OPENED = """new MutationObserver((_, observer) => {
  if (document.querySelector(".row") === null) return;
  window.openedAt = performance.now();
  observer.disconnect();
}).observe(document, {childList: true, subtree: true});"""


def missing():
    """Returns what is not installed."""
    wanted = {"python3-selenium": webdriver, "chromium": shutil.which("chromium")}
    wanted["chromium-driver"] = shutil.which("chromedriver")
    return [name for name, found in wanted.items() if not found]


class Browser:
    """A browser that shows the pages of a folder, and questions to the page that it shows."""

    def __init__(self, folder):
        self.folder, options = folder, webdriver.ChromeOptions()
        for flag in FLAGS:
            options.add_argument(flag)
        options.binary_location = shutil.which("chromium")
        options.set_capability("goog:loggingPrefs", {"browser": "ALL", "performance": "ALL"})
        options.unhandled_prompt_behavior = "ignore"
        self.driver = webdriver.Chrome(options=options, service=Service(shutil.which("chromedriver")))
        self.ask("Page.addScriptToEvaluateOnNewDocument", source=OPENED)
        self.resize(1280, 900)

    def ask(self, what, **how):
        """Sends a command of the browser's own protocol."""
        return self.driver.execute_cdp_cmd(what, how)

    def resize(self, width, height):
        self.ask("Emulation.setDeviceMetricsOverride", width=width, height=height, deviceScaleFactor=1, mobile=False)

    def show_as(self, medium="", scheme="light"):
        """Shows pages as on that medium, with that colour scheme."""
        self.ask("Emulation.setEmulatedMedia", media=medium, features=[{"name": "prefers-color-scheme", "value": scheme}])

    def put(self, name, text):
        """Makes a file with a page, and returns its address."""
        path = os.path.join(self.folder, f"{name}.html")
        with open(path, "w", encoding="utf-8") as file:
            file.write(text)
        return f"file://{path}"

    def open(self, address):
        """Opens a page from nothing."""
        self.driver.get("about:blank")
        self.driver.get(address)
        self.settle()

    def settle(self):
        """Waits until everything is drawn: a busy machine draws late."""
        self.run("new Promise(done => requestAnimationFrame(() => requestAnimationFrame(done)))")

    def run(self, script, *given):
        return self.driver.execute_script(f"return {script}", *given)

    def texts(self, selector):
        """Returns the words of all that a selector finds, with one blank between two."""
        found = self.run("[...document.querySelectorAll(arguments[0])].map(it => it.innerText)", selector)
        return [" ".join(it.split()) for it in found]

    def text(self, selector):
        return self.texts(selector)[0]

    def all(self, selector):
        return self.driver.find_elements(By.CSS_SELECTOR, selector)

    def click(self, selector, at=0):
        """Clicks an element. If a list draws its rows again in the meantime, the element is searched again."""
        try:
            self.all(selector)[at].click()
        except StaleElementReferenceException:
            self.all(selector)[at].click()
        self.settle()

    def press(self, *keys):
        """Presses keys, one after the other."""
        ActionChains(self.driver).send_keys(*keys).perform()
        self.settle()

    def choose(self, name, value):
        """Chooses the option of a filter that has a value, as a user does."""
        choice = f"#filters [name={name}]"
        self.run("document.querySelector(arguments[0]).value = arguments[1]", choice, value)
        self.run("document.querySelector(arguments[0]).dispatchEvent(new Event('input', {bubbles: true}))", choice)
        self.settle()

    def address(self):
        """Returns the fragment of the address, after the time that it takes to change."""
        return self.run("new Promise(done => setTimeout(() => done(location.hash), 500))")

    def log(self):
        """Returns the messages on the console since the last call."""
        return [it["message"] for it in self.driver.get_log("browser")]

    def requests(self):
        """Returns the addresses requested since the last call."""
        events = [json.loads(it["message"])["message"] for it in self.driver.get_log("performance")]
        return [it["params"]["request"]["url"] for it in events if it["method"] == "Network.requestWillBeSent"]

    def close(self):
        self.driver.quit()


class NoBrowser(Exception):
    """The browser does not start, for this reason."""


@contextlib.contextmanager
def browser_of(folder):
    """Yields a browser, which ends with the block."""
    try:
        browser = Browser(folder)
    except WebDriverException as error:
        raise NoBrowser((error.msg or "no reason").splitlines()[0]) from None
    try:
        yield browser
    finally:
        browser.close()
