"""A real browser: pages worked on by mouse, or by keyboard alone."""
from __future__ import annotations

import time
from abc import ABC, abstractmethod
from collections.abc import Callable
from datetime import date
from pathlib import Path
from typing import Any

from browsing import WIDE, start_driver
from clients import PASSWORD
from looks import WIDTH
from processes import Running
from selenium.common.exceptions import StaleElementReferenceException, WebDriverException
from selenium.webdriver.chrome.webdriver import WebDriver
from selenium.webdriver.common.action_chains import ActionChains
from selenium.webdriver.common.keys import Keys
from selenium.webdriver.remote.webelement import WebElement
from selenium.webdriver.support.ui import Select
from thesaurus_desk.words import Words

# What the pages of a browser in English say.
SAY = Words("en")
PATIENCE = 120.0
# How many seconds a page may take to go once it is left. (What is sent for a file stays.)
LEAVING = 10.0
MOST_TABS = 300
# Finds what can be worked with by its name: its label, or its text. An exact name goes before one that only begins so.
FIND = """
const [wanted, kinds] = arguments;
const plain = (text) => text.replace(/\\s+/g, " ").trim();
const labels = (it) => [...(it.labels || [])].map((one) => one.textContent).join(" ");
const nameOf = (it) => plain(it.getAttribute("aria-label") || labels(it) || it.textContent || "");
const seen = [...document.querySelectorAll(kinds)].filter((it) => it.tabIndex >= 0 && it.checkVisibility());
// (the menu names pages as buttons on them are named)
const ordered = [...seen.filter((it) => it.closest("main")), ...seen.filter((it) => !it.closest("main"))];
return ordered.find((it) => nameOf(it) === wanted) || seen.find((it) => nameOf(it).startsWith(wanted)) || null;
"""
PRESSED = "a[href], button, summary"
FIELDS = "input:not([type=hidden], [type=checkbox], [type=radio]), textarea, select"
BOXES = "input[type=checkbox], input[type=radio]"
OPTIONS = "return [...document.querySelectorAll('.suggestions:not([hidden]) li')]"
# Notes on a page whether it is about to go: a form that is sent, or a link that is followed, and by no script.
WATCH = """
if (!window.isWatched) {
  window.isWatched = true;
  addEventListener("submit", (event) => { window.isLeaving = !event.defaultPrevented; });
  addEventListener("click", (event) => {
    const link = event.target.closest && event.target.closest("a[href]");
    const stays = !link || link.target || link.hasAttribute("download") || link.getAttribute("href").includes("#");
    if (!stays) window.isLeaving = !event.defaultPrevented;
  });
}
window.isLeaving = false;
"""
# Whether there are suggestions for the whole text of the field that has the focus.
ARE_SHOWN = """
const field = document.activeElement, list = document.getElementById(field.getAttribute("aria-controls"));
return Boolean(list) && !list.hidden && list.dataset.query === field.value.trim();
"""


def start_browser(size: tuple[int, int] = WIDE) -> WebDriver:
    """Returns a browser without a window, for several desks one after another."""
    return start_driver(size, words=("--hide-scrollbars", "--force-color-profile=srgb"))


class Hand(ABC):
    """Someone at a browser. What is pressed or filled in is named as the page names it."""

    def __init__(self, driver: WebDriver, address: str):
        self.driver, self.address = driver, address
        # How many times something was pressed, ticked or chosen.
        self.clicks = 0

    # --- looking ---

    def open(self, path: str) -> None:
        """Opens a page by its address."""
        self.driver.get(self.address + path)

    def wait(self, test: Callable[[], Any], what: str) -> Any:
        """Waits until something holds, and returns it."""
        end = time.monotonic() + PATIENCE
        while time.monotonic() < end:
            try:
                if found := test():
                    return found
            except (StaleElementReferenceException, WebDriverException):
                pass
            time.sleep(0.05)
        raise AssertionError(f"{what} never came; at {self.driver.current_url}: {self.text()[:3000]}")

    def text(self) -> str:
        """Returns the text of the page, with single spaces."""
        return " ".join(str(self.driver.execute_script("return document.body ? document.body.innerText : ''")).split())

    def sees(self, text: str) -> None:
        """Waits until the page has a text."""
        self.wait(lambda: text in self.text(), repr(text))

    def is_at(self, path: str) -> None:
        """Waits until the page is that of a path."""
        self.wait(lambda: self.driver.current_url.removeprefix(self.address).split("?")[0].split("#")[0] == path, path)

    def number(self) -> int:
        """Returns the number of the resource whose page is shown."""
        return int(self.driver.current_url.split("/c/")[1].split("?")[0].split("#")[0].split("/")[0])

    def find(self, name: str, kinds: str) -> WebElement:
        """Waits until the page has what has a name, and returns it."""
        found = self.wait(lambda: self.driver.execute_script(FIND, name, kinds), f"{name!r}")
        assert isinstance(found, WebElement)
        return found

    def focused(self) -> WebElement:
        """Returns what has the focus."""
        return self.driver.switch_to.active_element

    def type_keys(self, *keys: str) -> None:
        """Presses keys one after another."""
        ActionChains(self.driver).send_keys(*keys).perform()

    # --- doing ---

    @abstractmethod
    def reach(self, it: WebElement) -> None:
        """Gives something the focus."""

    def reach_named(self, name: str, kinds: str) -> None:
        """Gives what has a name the focus, again if its page goes meanwhile (a sent form may be on its way)."""
        self.wait(lambda: self.reach(self.find(name, kinds)) is None, f"{name!r}")

    def press(self, name: str) -> None:
        """Presses a link or a button, or opens or closes what a summary heads. If that leads to a page, it is there."""
        self.clicks += 1
        self.find(name, PRESSED)
        self.driver.execute_script(WATCH)
        self.push(name)
        end = time.monotonic() + LEAVING
        while self.is_leaving() and time.monotonic() < end:
            time.sleep(0.02)

    def is_leaving(self) -> bool:
        """Returns whether the page that something was pressed on is still there, and about to go."""
        try:
            return bool(self.driver.execute_script("return Boolean(window.isLeaving)"))
        except WebDriverException:
            return True

    @abstractmethod
    def push(self, name: str) -> None:
        """Presses a link, a button or a summary."""

    @abstractmethod
    def tick(self, name: str) -> None:
        """Ticks a box, or makes a choice."""

    def take(self, text: str) -> None:
        """Takes the suggestion that begins with a text, once those for the whole of what was typed are shown."""
        self.wait(lambda: self.driver.execute_script(ARE_SHOWN), f"suggestions as {text}")
        self.clicks += 1
        self.take_shown(text)

    @abstractmethod
    def take_shown(self, text: str) -> None:
        """Takes the suggestion that begins with a text, of those that are shown."""

    def fill(self, name: str, text: str) -> None:
        """Writes a text into a field, in place of what it held."""
        field = self.find(name, FIELDS)
        self.reach(field)
        field.send_keys(Keys.CONTROL, "a")
        field.send_keys(Keys.DELETE)
        field.send_keys(text)

    def fill_day(self, name: str, day: date) -> None:
        """Writes a day into a field for one, part by part from its first, as an American browser has them."""
        self.reach(self.find(name, "input[type=date]"))
        self.type_keys(Keys.ARROW_LEFT, Keys.ARROW_LEFT, f"{day:%m%d%Y}")

    def send_file(self, field: str, path: Path) -> None:
        """Chooses a file, for the field with an id: the browser's own window can't be worked with."""
        self.wait(lambda: self.driver.find_element("id", field), field).send_keys(str(path))

    @abstractmethod
    def set_option(self, field: WebElement, option: str) -> None:
        """Chooses an option of a list."""

    def choose(self, name: str, option: str) -> None:
        """Chooses among the options of a list by their beginning."""
        field = self.find(name, "select")
        self.clicks += 1
        self.set_option(field, option)
        chosen = "return arguments[0].selectedOptions[0].textContent.trim()"
        assert str(self.driver.execute_script(chosen, field)).startswith(option)

    def pick(self, name: str, typed: str, term: str = "") -> None:
        """Types the beginning of a term into a field, and takes the suggestion."""
        self.fill(name, typed)
        self.take(term or typed)

    def picture(self, path: Path, height: int, part: str = "body") -> None:
        """Writes a picture of the page, from a part of it on."""
        size = {"width": WIDE[0], "height": height, "deviceScaleFactor": 1, "mobile": False}
        self.driver.execute_cdp_cmd("Emulation.setDeviceMetricsOverride", size)
        self.driver.execute_script("document.querySelector(arguments[0]).scrollIntoView()", part)
        assert self.driver.save_screenshot(str(path))
        self.driver.execute_cdp_cmd("Emulation.clearDeviceMetricsOverride", {})


class Mouse(Hand):
    """Works by mouse, and types texts."""

    def reach(self, it: WebElement) -> None:
        # (what a page says first stays at its top, and may cover what is right there)
        self.driver.execute_script("arguments[0].scrollIntoView({block: 'center'})", it)
        it.click()

    def push(self, name: str) -> None:
        self.reach_named(name, PRESSED)

    def tick(self, name: str) -> None:
        self.clicks += 1
        self.reach_named(name, BOXES)

    def set_option(self, field: WebElement, option: str) -> None:
        wanted = next(it for it in Select(field).options if it.text.startswith(option))
        wanted.click()

    def take_shown(self, text: str) -> None:
        found = self.wait(lambda: [it for it in self.driver.execute_script(OPTIONS) if it.text.startswith(text)], text)
        ActionChains(self.driver).move_to_element(found[0]).click().perform()


class Keyboard(Hand):
    """Works by the keyboard alone."""

    def reach(self, it: WebElement) -> None:
        for _ in range(MOST_TABS):
            if self.focused() == it:
                return
            assert it.tag_name  # (an error, if its page has gone)
            self.type_keys(Keys.TAB)
        raise AssertionError(f"the Tab key never comes to {it.get_attribute('outerHTML')}")

    def push(self, name: str) -> None:
        self.reach_named(name, PRESSED)
        self.type_keys(Keys.ENTER)

    def tick(self, name: str) -> None:
        self.clicks += 1
        it = self.find(name, BOXES)
        if it.get_attribute("type") != "radio":
            self.reach(it)
            self.type_keys(Keys.SPACE)
            return
        checked = f"return document.querySelector('input[type=radio][name=\"{it.get_attribute('name')}\"]:checked')"
        self.reach(self.driver.execute_script(checked))
        for _ in range(MOST_TABS):
            if it.is_selected():
                return
            self.type_keys(Keys.ARROW_DOWN)
        raise AssertionError(f"the arrow keys never come to {name}")

    def set_option(self, field: WebElement, option: str) -> None:
        self.reach(field)
        self.type_keys(option)

    def take_shown(self, text: str) -> None:
        for _ in range(MOST_TABS):
            options = self.driver.execute_script(OPTIONS)
            chosen = [it for it in options if it.get_attribute("aria-selected") == "true"]
            if chosen and chosen[0].text.startswith(text):
                self.type_keys(Keys.ENTER)
                return
            self.type_keys(Keys.ARROW_DOWN)
        raise AssertionError(f"no suggestion begins with {text}")


class Narrow(Mouse):
    """Works by touch, on pages that are as wide as a telephone."""

    def press(self, name: str) -> None:
        super().press(name)
        assert self.driver.execute_script(WIDTH) == []

    def sees(self, text: str) -> None:
        super().sees(text)
        assert self.driver.execute_script(WIDTH) == []


def address_of(desk: Running) -> str:
    """Returns the address of a desk."""
    return f"http://127.0.0.1:{desk.port}"


def come_in(kind: str, driver: WebDriver, desk: Running) -> Hand:
    """Returns someone at a desk, who has come in by the address that the desk printed."""
    found = HANDS[kind](driver, address_of(desk))
    driver.delete_all_cookies()
    found.open(desk.entrance)
    found.is_at("/")
    return found


def come_in_as(hand: Hand, name: str) -> Hand:
    """Has a user come in by a password, in place of whoever was there."""
    hand.open("/login")
    hand.driver.delete_all_cookies()
    hand.open("/login")
    hand.fill(SAY("people.name"), name)
    hand.fill(SAY("people.password"), PASSWORD)
    hand.press(SAY("people.come_in"))
    hand.is_at("/")
    return hand


def try_skos(hand: Hand, path: Path, text: str) -> None:
    """Writes a file in SKOS, and has the desk try it on a copy, which takes all of it."""
    path.write_text(text, encoding="utf-8")
    hand.open("/bring-in")
    hand.send_file("skos-file", path)
    hand.press("Try it on a copy")
    hand.sees("The copy accepted all of it.")


HANDS: dict[str, type[Hand]] = {"mouse": Mouse, "keyboard": Keyboard}
