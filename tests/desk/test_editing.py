"""Editing in a browser: without script, with the page's keys, and by two editors at once."""
from __future__ import annotations

from collections.abc import Iterator
from pathlib import Path

import pytest
from browsing import start_driver
from hands import PRESSED, Hand, Keyboard, come_in
from processes import Running, running
from selenium.webdriver.chrome.webdriver import WebDriver
from selenium.webdriver.common.action_chains import ActionChains
from selenium.webdriver.common.keys import Keys

pytestmark = pytest.mark.needs("chromedriver", "selenium")


@pytest.fixture(scope="module")
def plain_driver() -> Iterator[WebDriver]:
    """A browser that runs no script of pages."""
    found = start_driver()
    found.execute_cdp_cmd("Network.enable", {})
    found.execute_cdp_cmd("Network.setBlockedURLs", {"urls": ["*/static/*.js*"]})
    yield found
    found.quit()


@pytest.fixture(params=("keyboard", "mouse"))
def plain_hand(request: pytest.FixtureRequest, plain_driver: WebDriver, guide_desk: Running) -> Hand:
    """Someone at the guide's desk, without script."""
    return come_in(request.param, plain_driver, guide_desk)


def test_no_script_is_run(plain_driver: WebDriver, guide_desk: Running) -> None:
    hand = come_in("mouse", plain_driver, guide_desk)
    hand.open("/c/3")
    assert hand.driver.execute_script("return document.querySelectorAll('[role=combobox]').length") == 0


def test_a_link_by_a_choice_without_script(plain_hand: Hand) -> None:
    plain_hand.open("/c/5")
    plain_hand.press("Add a related term")
    plain_hand.fill("Term", "Violin")
    plain_hand.press("Add")
    plain_hand.sees("Did you mean one of these?")
    plain_hand.tick("Violins")
    plain_hand.press("Add")
    plain_hand.sees("Harps: related term Violins added")


def test_a_refusal_has_the_focus_without_script(plain_hand: Hand) -> None:
    plain_hand.open("/c/3")
    plain_hand.press("Add a term or a note")
    plain_hand.fill("Text", "Violins")
    plain_hand.press("Add")
    plain_hand.sees("already the preferred term of Violins")
    assert plain_hand.focused().get_attribute("value") == "Violins"


def test_the_top_of_a_form_leads_to_what_was_refused(plain_hand: Hand) -> None:
    plain_hand.open("/new")
    plain_hand.fill("Preferred term", "Violins")
    plain_hand.press("Create")
    plain_hand.sees("Use that concept, or add a qualifier")
    plain_hand.press("See what was refused")
    plain_hand.wait(lambda: plain_hand.focused().get_attribute("id") == "new-text", "the focus at the field")


def test_a_split_over_pages_without_script(plain_hand: Hand) -> None:
    rows = "".join(f"k-{n},Harp {n:03},5\n" for n in range(120))
    plain_hand.open("/bring-in")
    plain_hand.press("Or type or paste records")
    plain_hand.driver.execute_script(
        "document.getElementById('postings-typed').value = arguments[0]", f"key,record,concept\n{rows}"
    )
    plain_hand.press("Import")
    plain_hand.sees("120 indexings are new.")
    plain_hand.open("/c/5/split")
    plain_hand.fill("Preferred term of the new concept", "Pedal harps")
    plain_hand.tick("Harp 007")
    plain_hand.press("next →")
    plain_hand.sees("1 of 120 ticked")
    plain_hand.press("Tick this page")
    plain_hand.sees("21 of 120 ticked")
    plain_hand.press("Split")
    plain_hand.sees("Harps: split, and 21 records given to the new concept Pedal harps")


@pytest.mark.parametrize(
    "sign", ["Change preferred term Violins (en)", "Another type for the relationship with String instru"]
)
def test_a_double_click_on_a_sign_changes_nothing(driver: WebDriver, guide_desk: Running, sign: str) -> None:
    hand = come_in("mouse", driver, guide_desk)
    hand.open("/c/3")
    hand.wait(lambda: driver.execute_script("return document.readyState") == "complete", "the whole page")
    before = hand.text()
    ActionChains(driver).double_click(hand.find(sign, PRESSED)).perform()
    # (where the second click falls depends on whether the browser has laid out the open form: on a field, beside it, or
    # on the sign again; nothing that it meets may send anything)
    driver.execute_async_script("const [done] = arguments; requestAnimationFrame(() => requestAnimationFrame(done))")
    hand.open("/c/3")
    assert hand.text() == before


@pytest.mark.parametrize(
    ("opener", "focused"),
    [
        ("Add a term or a note", "add-term-text"),
        ("Add a broader term", "add-broader-other"),
        ("Add a mapping", "add-match-other"),
        ("Deprecate…", ""),
    ],
)
def test_a_form_that_opens_waits_for_its_text(
    driver: WebDriver, guide_desk: Running, opener: str, focused: str
) -> None:
    """What is typed next is the term, and neither its kind nor a press of the button."""
    hand = come_in("mouse", driver, guide_desk)
    hand.open("/c/7")
    hand.press(opener)
    hand.wait(lambda: driver.execute_script("return document.querySelector('details.act[open]')"), "the form")
    hand.wait(lambda: hand.focused().get_attribute("id") == focused, f"the focus at {focused or 'no field'}")
    assert hand.focused().tag_name != "button"


def test_the_count_of_ticks_follows_the_boxes(driver: WebDriver, guide_desk: Running) -> None:
    hand = come_in("mouse", driver, guide_desk)
    hand.open("/c/3/split")
    hand.sees("0 of 2 ticked")
    hand.tick("Violin, Mittenwald, about 1780")
    hand.sees("1 of 2 ticked")
    hand.press("Tick all 2")
    hand.sees("2 of 2 ticked")
    hand.tick("Violin, Mittenwald, about 1780")
    hand.sees("1 of 2 ticked")


@pytest.mark.parametrize(
    ("key", "label"), [("a", "Text"), ("b", "Term"), ("r", "Term"), ("p", "Record, as in the catalogue")]
)
def test_keys_open_forms(driver: WebDriver, guide_desk: Running, key: str, label: str) -> None:
    hand = come_in("keyboard", driver, guide_desk)
    hand.open("/c/3")
    hand.type_keys(key)
    hand.fill(label, "Something")
    hand.type_keys(Keys.ESCAPE)
    assert hand.focused().tag_name == "summary"
    assert not hand.driver.execute_script("return document.querySelector('details.act[open]')")


@pytest.mark.parametrize(("key", "page"), [("n", "/new"), ("m", "/c/3/move"), ("g", "/c/3/merge"), ("s", "/c/3/split")])
def test_keys_lead_to_pages(driver: WebDriver, guide_desk: Running, key: str, page: str) -> None:
    hand = come_in("keyboard", driver, guide_desk)
    hand.open("/c/3")
    hand.type_keys(key)
    hand.is_at(page)
    hand.wait(lambda: hand.focused().tag_name == "input", "a field with the focus")


def test_escape_leaves_no_field_with_a_text(driver: WebDriver, guide_desk: Running) -> None:
    """A letter that follows is written, and doesn't lead to the tree."""
    hand = come_in("keyboard", driver, guide_desk)
    hand.open("/c/3/move")
    hand.wait(lambda: hand.focused().get_attribute("id") == "move-other", "the field with the focus")
    hand.type_keys("zzz", Keys.ESCAPE, "t")
    assert hand.focused().get_attribute("value") == "zzzt"
    hand.fill("Below", "")
    hand.type_keys(Keys.ESCAPE, "t")
    hand.is_at("/tree")


def test_two_editors_at_once(driver: WebDriver, program: str, store: Path) -> None:
    with running("--db", store, "--alone", "anna", "--program", program) as desk:
        anna = come_in("mouse", driver, desk)
        anna.open("/c/5")
        anna.press("Change preferred term Violins (en)")
        anna.fill("Preferred term (en)", "Old violins")
        other = start_second(driver, desk)
        try:
            other.open("/c/5")
            other.press("Change preferred term Violins (en)")
            other.fill("Preferred term (en)", "Fine violins")
            other.press("Rename")
            other.sees("renamed to “Fine violins” (en)")
            anna.press("Rename")
            anna.sees("You changed Fine violins yourself after this page was opened")
            anna.sees("preferred term “Fine violins” (en)")
            anna.sees("Your change Fine violins: renamed to “Old violins” (en)")
            focused = driver.switch_to.active_element
            assert focused.tag_name not in ("a", "button"), "Enter, pressed once more, changes nothing"
            anna.press("Make my change anyway")
            anna.sees("renamed to “Old violins” (en)")
            anna.sees("UF Fine violins")
            # (a form is opened as the concept is by now)
            other.press("Change preferred term Fine violins (en)")
            assert other.find("Preferred term (en)", "input").get_attribute("value") == "Old violins"
        finally:
            other.driver.quit()


def start_second(first: WebDriver, desk: Running) -> Hand:
    """Returns a second browser of the same person at a desk."""
    found = Keyboard(start_driver(), f"http://127.0.0.1:{desk.port}")
    found.open("/login")
    for cookie in first.get_cookies():
        found.driver.add_cookie({"name": cookie["name"], "value": cookie["value"], "path": "/"})
    return found
