"""A browser that looks at a page: Chromium, by the packages chromium, chromium-driver and
python3-selenium."""
import atexit
import functools
import os
import shutil
import sys


def other_python():
    """The system's python3, which has its packages, where another one is on the PATH."""
    path = "/usr/bin/python3"
    is_other = os.path.realpath(path) != os.path.realpath(sys.executable)
    return path if os.access(path, os.X_OK) and is_other else None


try:
    from selenium import webdriver
    from selenium.common.exceptions import (NoSuchElementException, StaleElementReferenceException)
    from selenium.webdriver import ActionChains, Keys
    from selenium.webdriver.chrome.service import Service
    from selenium.webdriver.common.by import By
    from selenium.webdriver.support.ui import Select, WebDriverWait
except ImportError:
    if other_python():
        os.execv(other_python(), [other_python(), *sys.argv])
    webdriver = None


def binary():
    """Chromium; the one without windows of its own, where it is installed, starts sooner.

    What stands on the PATH for that one is a script, which would end without its browser.
    """
    shell = "/usr/lib/chromium/chromium-headless-shell"
    return shell if os.access(shell, os.X_OK) else shutil.which("chromium")


def missing():
    """What is missing for these tests, in words, or None."""
    wanted = {"chromium": binary(), "chromium-driver": shutil.which("chromedriver"),
              "python3-selenium": webdriver}
    return ", ".join(name for name, found in wanted.items() if not found) or None


@functools.lru_cache(maxsize=1)
def browser():
    """The one browser of all tests: to start it takes longer than what most of them do."""
    options = webdriver.ChromeOptions()
    for word in ("--headless=new", "--no-sandbox", "--disable-gpu"):
        options.add_argument(word)
    options.binary_location = binary()
    options.set_capability("goog:loggingPrefs", {"browser": "ALL"})
    driver = webdriver.Chrome(options=options, service=Service(shutil.which("chromedriver")))
    atexit.register(driver.quit)
    return driver


class Page:
    """One window that looks at a board."""

    def __init__(self, url, name=None, width=1500, height=950):
        self.shared = browser()
        self.shared.switch_to.window(self.shared.window_handles[0])
        self.shared.switch_to.new_window("window")
        self.window = self.shared.current_window_handle
        self.driver.set_window_size(width, height)
        self.driver.get(url)
        self.until(lambda: self.text("status") not in ("", "reading"), 240)
        if name is not None:
            self.driver.find_element(By.ID, "edit").click()
            if name:
                self.driver.find_element(By.ID, "session").send_keys(name + Keys.TAB)

    @property
    def driver(self):
        """The browser, at this window."""
        if self.shared.current_window_handle != self.window:
            self.shared.switch_to.window(self.window)
        return self.shared

    def until(self, holds, seconds=120):
        # What is looked at may be drawn anew meanwhile.
        replaced = [StaleElementReferenceException, NoSuchElementException]
        WebDriverWait(self.driver, seconds, 0.1, replaced).until(lambda _: holds())

    def text(self, name):
        return self.driver.find_element(By.ID, name).text

    def all(self, selector):
        return self.driver.find_elements(By.CSS_SELECTOR, selector)

    def one(self, selector):
        return self.driver.find_element(By.CSS_SELECTOR, selector)

    def drawn(self, number):
        return self.one(f'#drawn [data-id="{number}"]')

    def act(self):
        return ActionChains(self.driver)

    def press(self, number):
        """Chooses an object by a line of its symbol."""
        line = self.drawn(number).find_element(By.CSS_SELECTOR, "path")
        self.act().move_to_element(line).click().perform()

    def keys(self, *keys):
        """Presses keys on the sheet, one after the other."""
        self.driver.execute_script("document.getElementById('sheet').focus()")
        for key in keys:
            self.act().send_keys(key).perform()

    def follow(self, link):
        """Presses a row or a link of the lists."""
        self.driver.execute_script("arguments[0].click()", self.all(f'[data-link="{link}"]')[0])

    def open(self, shown):
        """Opens the sheet that is chosen by this text."""
        Select(self.driver.find_element(By.ID, "sheets")).select_by_visible_text(shown)

    def tab(self, name):
        self.driver.execute_script("arguments[0].click()", self.one(f'[data-tab="{name}"]'))

    def field(self, number, name):
        """The field of an attribute of an object, beside the sheet."""
        self.press(number)
        self.tab("object")
        return self.one(f'[data-attribute="{name}"]')

    def script(self, text):
        return self.driver.execute_script(text)

    def faults(self):
        """What the browser complains of at this page, but a server that is away, and edits that are
        refused. All windows have one log."""
        expected = ("502 (Bad Gateway)", "/board/edits")
        here = self.script("return location.origin")
        log = [it for it in self.driver.get_log("browser") if here in it["message"]]
        return [it for it in log if not any(one in it["message"] for one in expected)]

    def pictured(self, name):
        """Puts a picture of the page into the folder that PICTURES names, where it does."""
        if os.environ.get("PICTURES"):
            self.driver.save_screenshot(os.path.join(os.environ["PICTURES"], name + ".png"))

    def address(self):
        """What stands behind the address of the page."""
        return self.script("return location.hash")

    def close(self):
        self.driver.close()
        self.shared.switch_to.window(self.shared.window_handles[0])
