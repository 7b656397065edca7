"""Several people in a browser: an indexer's work is taken back, and nobody undoes a colleague's without seeing it."""
from __future__ import annotations

import pytest
from hands import ARE_SHOWN, HANDS, Hand, address_of, come_in_as
from processes import Running
from selenium.webdriver.chrome.webdriver import WebDriver
from selenium.webdriver.common.keys import Keys

pytestmark = pytest.mark.needs("chromedriver", "selenium")


@pytest.fixture(params=("keyboard", "mouse"))
def hand(request: pytest.FixtureRequest, driver: WebDriver, shared_desk: Running) -> Hand:
    """Someone at a desk with several people, who hasn't come in."""
    return HANDS[request.param](driver, address_of(shared_desk))


def test_an_indexer_corrects_and_proposes(hand: Hand) -> None:
    """A wrong concept is taken back by one press; an unknown term is offered as others, and proposed."""
    come_in_as(hand, "ina").open("/record?name=Harp%207")
    hand.pick("Index it with", "Viol", "Violins")
    hand.press("Index")
    hand.sees("Harp 7: indexed with Violins")
    hand.press("Undo")
    hand.sees("no longer indexed with Violins")
    hand.fill("Index it with", "Harpz")
    hand.wait(lambda: hand.driver.execute_script(ARE_SHOWN), "suggestions")
    hand.type_keys(Keys.ESCAPE)
    hand.press("Index")
    hand.sees("Did you mean one of these?")
    hand.press("Propose it")
    hand.is_at("/propose")
    assert hand.find("Text", "textarea").get_attribute("value") == "Harpz"
    hand.press("Propose it")
    hand.sees("for the record Harp 7")
    come_in_as(hand, "ben").open("/proposals")
    hand.press("A new concept")
    hand.fill("Text", "Harps of old")
    hand.fill("A message to the author", "We say it so.")
    hand.press("Accept, and do it")
    hand.sees("The proposal was “Harpz”.")
    come_in_as(hand, "ina").press("Proposals")
    hand.sees("We say it so.")


def test_nobody_undoes_what_a_colleague_has_done_since(hand: Hand) -> None:
    """What came later is shown first; an editor may take back a merge that moved no record."""
    come_in_as(hand, "ben").open("/c/11")
    name = hand.driver.find_element("tag name", "h1").text.split()[0]
    hand.press("Add a term or a note")
    hand.fill("Text", "Fine ones")
    hand.press("Add")
    hand.sees("non-preferred term “Fine ones”" if "non-preferred" in hand.text() else "“Fine ones” (en) added")
    here = hand.driver.current_url.removeprefix(hand.address)
    come_in_as(hand, "anna").open("/c/11")
    hand.press("Add a term or a note")
    hand.fill("Text", "Old ones")
    hand.press("Add")
    hand.sees("“Old ones” (en) added")
    come_in_as(hand, "ben").open(here)
    hand.press("Undo")
    hand.sees("changed again after what you saw")
    hand.sees("Old ones")
    hand.press("Undo")
    hand.sees("“Fine ones” (en) removed")
    hand.open("/c/11")
    hand.sees("Old ones")
    assert name
    come_in_as(hand, "anna").open("/c/6/merge?other_number=5")
    hand.tick("I have looked at both")
    hand.press("Merge")
    hand.is_at("/c/5")
    merge = hand.driver.current_url.removeprefix(hand.address)
    come_in_as(hand, "ben").open("/changes?kind=merge")
    hand.sees("Undo")
    come_in_as(hand, "anna").open(merge)
    hand.press("Undo")
    hand.sees("comes back under a new identifier")
    hand.sees("Violas")


def test_the_journal_answers_who_changed_what(hand: Hand) -> None:
    """By a person, a kind and days; and what has changed since a day."""
    for name, text in (("ben", "Fine ones"), ("anna", "Old ones")):
        come_in_as(hand, name).open("/c/11")
        hand.press("Add a term or a note")
        hand.fill("Text", text)
        hand.press("Add")
        hand.sees(f"“{text}” (en) added")
    hand.press("Changes")
    hand.choose("By", "ben")
    hand.choose("What", "terms")
    hand.press("Show")
    hand.sees("Fine ones")
    assert "Old ones" not in hand.text()
    hand.open("/changed-since?since=2020-01-01")
    hand.sees("11")
