"""A person's browser: Chromium without a window, by selenium."""
from __future__ import annotations

import contextlib
import re
import shutil
from collections.abc import Callable, Iterator
from pathlib import Path
from typing import Any

from selenium import webdriver
from selenium.common.exceptions import JavascriptException, NoSuchElementException, StaleElementReferenceException
from selenium.webdriver.chrome.service import Service
from selenium.webdriver.common.by import By
from selenium.webdriver.remote.webelement import WebElement
from selenium.webdriver.support.ui import WebDriverWait

PATIENCE = 180
GOING = (JavascriptException, NoSuchElementException, StaleElementReferenceException)
WIDE, NARROW = (1280, 960), (360, 800)
# What the browser reports that a page of the desk must not cause.
WRONG = re.compile(r"Content Security Policy|Uncaught| 5\d\d |Refused to")


def start_driver(
    size: tuple[int, int] = WIDE, is_scripted: bool = True, words: tuple[str, ...] = ()
) -> webdriver.Chrome:
    """Starts Chromium without a window."""
    width, height = size
    options = webdriver.ChromeOptions()
    options.binary_location = shutil.which("chromium") or ""
    fixed = ("--headless=new", "--no-sandbox", "--disable-dev-shm-usage", "--disable-gpu", "--lang=en")
    for word in (*fixed, f"--window-size={width},{height}", *words):
        options.add_argument(word)
    if not is_scripted:
        options.add_experimental_option("prefs", {"profile.managed_default_content_settings.javascript": 2})
    options.set_capability("goog:loggingPrefs", {"browser": "ALL"})
    driver = webdriver.Chrome(service=Service(shutil.which("chromedriver") or ""), options=options)
    if width < 500:
        metrics = {"width": width, "height": height, "deviceScaleFactor": 1, "mobile": True}
        driver.execute_cdp_cmd("Emulation.setDeviceMetricsOverride", metrics)
    return driver


class Browser:
    """A browser at one desk, under one address."""

    def __init__(self, root: str, driver: webdriver.Chrome):
        self.root, self.driver = root, driver

    def enter(self, path: str) -> None:
        """Comes in by an address, and waits for the first page."""
        self.driver.get(self.root + path)
        self.wait(lambda: self.driver.current_url == f"{self.root}/")

    def go(self, path: str) -> None:
        """Opens a page."""
        self.driver.get(self.root + path)

    def wait(self, what: Callable[[], Any]) -> Any:
        """Waits until something is so, and returns it."""
        # (a page that goes meanwhile takes its elements with it, and ends a script)
        return WebDriverWait(self.driver, PATIENCE, 0.05, GOING).until(lambda _: what())

    def run(self, script: str, *values: Any) -> Any:
        """Returns what a script returns."""
        return self.driver.execute_script(script, *values)

    def find(self, selector: str) -> WebElement:
        """Returns the first element."""
        return self.driver.find_element(By.CSS_SELECTOR, selector)

    def all(self, selector: str) -> list[WebElement]:
        """Returns the elements."""
        return self.driver.find_elements(By.CSS_SELECTOR, selector)

    def text(self, selector: str = "main") -> str:
        """Returns the text of the elements."""
        return " ".join(it.text for it in self.all(selector))

    def press(self, *keys: str) -> None:
        """Presses keys where the focus is."""
        self.driver.switch_to.active_element.send_keys(*keys)

    def focused(self) -> WebElement:
        """Returns the element that has the focus."""
        return self.driver.switch_to.active_element

    def press_letter(self, letter: str) -> WebElement:
        """Presses a key outside of a field, and returns the element that then has the focus."""
        self.run("document.activeElement.blur()")
        self.find("body").send_keys(letter)
        return self.focused()

    def sends(self, act: Callable[[], Any]) -> None:
        """Does what leads to another page, and waits for it."""
        old = self.find("html")
        act()
        self.wait(lambda: self.find("html") != old and self.run("return document.readyState") == "complete")

    def options(self) -> list[str]:
        """Returns the suggestions that are shown."""
        script = "return [...document.querySelectorAll('[role=option]')].filter((it) => it.checkVisibility())"
        return list(self.run(f"{script}.map((it) => it.textContent)"))

    def suggested(self, text: str) -> list[str]:
        """Waits for the suggestions for a whole text, and returns them: those for its beginning may come before."""
        self.wait(lambda: self.all(f'[role=listbox][data-query="{text}"]'))
        return list(self.wait(self.options))

    def pick(self, field: WebElement, text: str) -> None:
        """Types into a field with suggestions, and takes the first of those for the whole text."""
        field.send_keys(text)
        self.suggested(text)
        # (the arrow down chooses it, and Enter takes it)
        field.send_keys("\ue015\ue007")

    def use_scheme(self, scheme: str) -> None:
        """Has pages shown light or dark."""
        media = {"features": [{"name": "prefers-color-scheme", "value": scheme}]}
        self.driver.execute_cdp_cmd("Emulation.setEmulatedMedia", media)

    def shoot(self, path: Path) -> None:
        """Writes a picture of the page."""
        self.driver.save_screenshot(str(path))

    def errors(self) -> list[str]:
        """Returns what the browser reported since the last call: what a page forbids itself, scripts that fail."""
        return [it["message"] for it in self.driver.get_log("browser") if WRONG.search(it["message"])]


@contextlib.contextmanager
def browsing(
    root: str, size: tuple[int, int] = WIDE, is_scripted: bool = True, words: tuple[str, ...] = ()
) -> Iterator[Browser]:
    """Opens a browser for the time of the block."""
    browser = Browser(root, start_driver(size, is_scripted, words))
    try:
        yield browser
    finally:
        browser.driver.quit()
