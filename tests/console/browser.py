"""A browser without a window, and what it shows."""

import base64
import json
import os
import shutil
import subprocess
import time
import urllib.parse

from front.program import HOST, Front
from program.bench import PROGRAM as RBAC
from program.bench import TESTS
from selenium import webdriver
from selenium.common.exceptions import StaleElementReferenceException, WebDriverException
from selenium.webdriver.chrome.service import Service
from selenium.webdriver.common.by import By
from selenium.webdriver.common.keys import Keys

# How long anything may take on a machine that does other work too.
SECONDS = 120
BANK = TESTS.parent / "examples/bank.jsonl"

# Pages of one site are drawn by one process, which stays, and none is started beforehand: to start one takes longer than to show a page.
ONE_PROCESS = ("--renderer-process-limit=1", "--disable-features=SpareRendererForSitePerProcess,BackForwardCache")

# Whether the page is as the last action has left it: nothing is being loaded, drawn or asked for.
SETTLED = """
const main = document.getElementById("main");
const heading = main?.querySelector("h1");
return document.readyState === "complete" && heading && !heading.hasAttribute("data-old")
    && !main.querySelector("button:disabled")
    && ![...main.querySelectorAll("p.quiet")].some(p => p.textContent === "…" || p.textContent === "The picture is being drawn.");
"""

# Waits in the page until a script returns something, for half a second, and returns it: each question to the browser takes as long as a
# hundred looks at the page.
UNTIL = """
const holds = function () {%s}, given = arguments, end = performance.now() + 500;
return new Promise((resolve, reject) => {
    const look = () => {
        try {
            const found = holds.apply(null, given);
            if (found || performance.now() > end) resolve(found); else setTimeout(look, 20);
        } catch (fault) { reject(fault); }
    };
    look();
});
"""

# What the notice says when no action is under way.
NOTICE = """
return !document.querySelector("main button:disabled") && document.querySelector("#notice p")?.innerText;
"""

# The element that a user can press, with a name, which is what a screen reader reads. It can be brought into the middle.
PRESSED = """
const wanted = arguments[0], within = arguments[1] ? document.querySelector(arguments[1]) : document;
const all = [...within.querySelectorAll("a[href], button, summary")].filter(one => one.checkVisibility());
const found = all.find(one => (one.getAttribute("aria-label") ?? one.textContent).trim() === wanted)
    ?? all.find(one => one.textContent.trim() === wanted) ?? null;
if (arguments[2]) found?.scrollIntoView({block: "center"});
return found;
"""

# The field with a label in a form.
FIELD = """
const forms = [...document.querySelectorAll("form")].filter(one => !arguments[1] || one.getAttribute("aria-label") === arguments[1]);
for (const form of forms) {
    for (const label of form.querySelectorAll("label")) {
        if (label.querySelector("span")?.textContent === arguments[0]) return label.querySelector("input, select");
    }
}
return null;
"""

# That field, and whether it is one for a text and has one.
FILLED = """
const field = (function () {%s}).apply(null, arguments);
return field && [field, field.tagName === "INPUT" && field.value !== ""];
""" % FIELD


def bank(bench, *more, name="office"):
    """A front, not yet started, over the office of the bank."""
    front = Front(bench, *more, name=name)
    for words, given in ((["init", front.office], b""), (["replay", front.office], BANK.read_bytes())):
        subprocess.run([RBAC, *words], input=given, capture_output=True, check=True)
    return front


def text_of_pdf(pdf):
    """The text of a PDF, line by line as it is on the paper. Without pdftotext the rest of a check is left out, and a line reports it."""
    done = subprocess.run(["pdftotext", "-layout", "-", "-"], input=pdf, capture_output=True, check=True)
    return done.stdout.decode()


class Chromium:
    """A Chromium without a window, which is started when it is first used, and then used by one check after the other."""

    def __init__(self, folder):
        self.folder, self.started = folder, None

    def driver(self, width, height):
        """Its driver, with one empty window of this size, and nothing of the pages that it had before."""
        if self.started is None:
            self.started = self.start()
        driver = self.started
        first, *others = driver.window_handles
        for other in others:
            driver.switch_to.window(other)
            driver.close()
        driver.switch_to.window(first)
        driver.get("about:blank")
        driver.execute_cdp_cmd("Network.clearBrowserCookies", {})
        driver.execute_cdp_cmd("Network.clearBrowserCache", {})
        driver.execute_cdp_cmd("Emulation.clearDeviceMetricsOverride", {})
        driver.execute_cdp_cmd("Emulation.setEmulatedMedia", {"media": "", "features": []})
        driver.execute_cdp_cmd("Browser.setDownloadBehavior", {"behavior": "default"})
        driver.set_window_size(width, height)
        driver.get_log("browser")
        return driver

    def start(self):
        options = webdriver.ChromeOptions()
        options.binary_location = shutil.which("chromium") or ""
        for word in ("--headless=new", "--no-sandbox", "--disable-gpu", "--disable-dev-shm-usage", "--no-first-run",
                     "--disable-background-networking", "--disable-extensions", "--disable-component-update", *ONE_PROCESS,
                     f"--user-data-dir={self.folder / 'profile'}"):  # fmt: skip
            options.add_argument(word)
        options.set_capability("goog:loggingPrefs", {"browser": "ALL"})
        home = {**os.environ, "HOME": str(self.folder)}
        service = Service(shutil.which("chromedriver") or "", log_path=str(self.folder / "driver.log"), env=home)
        driver = webdriver.Chrome(service=service, options=options)
        driver.set_page_load_timeout(SECONDS)
        driver.set_script_timeout(SECONDS)
        return driver

    def quit(self):
        """Ends it, if it was started. The next use starts another one."""
        driver, self.started = self.started, None
        if driver is not None:
            try:
                driver.quit()
            except WebDriverException:
                pass


class Browser:
    """A browser at the console of a front. It counts the clicks."""

    # The Chromium of this process: conftest.py sets it.
    chromium = None

    def __init__(self, bench, front, *, width=1280, height=900):
        self.driver = self.chromium.driver(width, height)
        self.front, self.clicks, self.is_dark = front, 0, False
        self.url = f"http://{HOST}:{front.port}/console/"

    def __enter__(self):
        return self

    def __exit__(self, kind, *_):
        """The next check gets the same Chromium, unless this one has failed."""
        if kind is not None:
            self.chromium.quit()

    def run(self, script, *values):
        """What a script returns."""
        return self.driver.execute_script(script, *values)

    def until(self, holds, what, seconds=SECONDS):
        """Waits until something holds, and returns it."""
        deadline = time.monotonic() + seconds
        while True:
            try:
                if found := holds():
                    return found
            except (StaleElementReferenceException, WebDriverException) as error:
                if time.monotonic() > deadline:
                    raise error
            if time.monotonic() > deadline:
                raise TimeoutError(f"not in {seconds} seconds: {what}; the page has: {self.text()[:1000]}")
            time.sleep(0.05)

    def until_loaded(self, holds, what):
        """Waits for it, and loads the page once more if it does not come: a busy machine can cut off a part of the page."""
        try:
            return self.until(holds, what, SECONDS / 3)
        except TimeoutError:
            self.driver.refresh()
            return self.until(holds, what)

    def settle(self):
        """Waits until the page shows what it is to show."""
        self.until(lambda: self.run(UNTIL % SETTLED), "the page is there")

    def open(self, *segments, query=""):
        """Opens the console anew, at a page."""
        if self.driver.current_url != "about:blank":
            self.driver.get("about:blank")
        self.driver.get(self.url + self.hash_of(segments) + query)
        self.until_loaded(lambda: self.run(UNTIL % SETTLED), "the page is there")

    def go(self, *segments, query=""):
        """Shows another page without loading the console again."""
        self.mark()
        script = "if (location.hash === arguments[0]) window.dispatchEvent(new Event('hashchange')); else location.hash = arguments[0];"
        self.run(script, self.hash_of(segments) + query)
        self.settle()

    @staticmethod
    def hash_of(segments):
        return "#/" + "/".join(urllib.parse.quote(one, safe="") for one in segments)

    def mark(self):
        """Marks the heading, so that it is seen when it is replaced."""
        self.run(
            "document.querySelector('main h1')?.setAttribute('data-old', ''); document.getElementById('notice').replaceChildren()"
        )

    def text(self, within="main"):
        """The text of a part of the page as it is shown."""
        return self.run("return document.querySelector(arguments[0])?.innerText ?? ''", within)

    def said(self):
        """What the notice says, or an empty text."""
        return self.text("#notice p")

    def notice(self):
        """Waits for a notice, and returns it."""
        return self.until(lambda: self.run(UNTIL % NOTICE), "a notice, and the end of an action")

    def find(self, name, within=None):
        """What can be pressed and has this name, or None."""
        return self.run(PRESSED, name, within)

    def click(self, name, within=None):
        """Presses something by the mouse."""
        element = self.until(lambda: self.run(UNTIL % PRESSED, name, within, True), f"there is {name}")
        self.clicks += 1
        element.click()

    def follow(self, name, within=None):
        """Follows a link to a page."""
        self.mark()
        self.click(name, within)
        self.settle()

    def fill(self, label, text, form=""):
        """Types a text into the field with a label."""
        element, is_filled = self.until(lambda: self.run(UNTIL % FILLED, label, form), f"there is a field {label}")
        if is_filled:
            element.clear()
        element.send_keys(text)

    def submit(self, button, form, **texts):
        """Fills in a form, and sends it off; returns the notice. Names of fields have `_` for a space."""
        for label, text in texts.items():
            self.fill(label.replace("_", " "), text, form)
        self.run("document.getElementById('notice').replaceChildren()")
        self.click(button, f"form[aria-label={json.dumps(form)}]")
        return self.notice()

    def keys(self, *keys):
        """Types keys wherever the focus is."""
        webdriver.ActionChains(self.driver).send_keys(*keys).perform()

    def login(self, token):
        """Logs in with a token."""
        self.until_loaded(lambda: self.run(FIELD, "Token", "Log in"), "the form to log in").send_keys(token)
        self.mark()
        self.keys(Keys.ENTER)
        self.until(lambda: self.said() or self.run(SETTLED), "an answer to the token")

    def resize(self, width, height=900, dark=False, media=""):
        """Gives the page a width, and a scheme of colours."""
        self.is_dark = dark
        metrics = {"width": width, "height": height, "deviceScaleFactor": 1, "mobile": False}
        self.driver.execute_cdp_cmd("Emulation.setDeviceMetricsOverride", metrics)
        features = [{"name": "prefers-color-scheme", "value": "dark" if dark else "light"}]
        self.driver.execute_cdp_cmd("Emulation.setEmulatedMedia", {"media": media, "features": features})

    def picture(self, path):
        """Writes a picture of the whole page."""
        width, height = self.run("return [innerWidth, innerHeight]")
        whole = self.run("const page = document.getElementById('page'); return page.scrollHeight + innerHeight - page.clientHeight")
        self.resize(width, max(height, min(whole, 2400)), self.is_dark)
        clip = {"x": 0, "y": 0, "width": width, "height": max(height, min(whole, 2400)), "scale": 0.75}
        words = {"format": "png", "clip": clip, "optimizeForSpeed": False}
        shot = self.driver.execute_cdp_cmd("Page.captureScreenshot", words)
        self.resize(width, height, self.is_dark)
        with open(path, "wb") as file:
            file.write(base64.b64decode(shot["data"]))

    def pdf(self):
        """The page as it is printed."""
        return base64.b64decode(self.driver.print_page())

    def complaints(self):
        """What the browser complains about: errors of scripts, and what the policy of the page has forbidden."""
        return [one["message"] for one in self.driver.get_log("browser") if one["level"] == "SEVERE"]

    def elements(self, selector):
        return self.driver.find_elements(By.CSS_SELECTOR, selector)
