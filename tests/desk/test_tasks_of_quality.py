"""A round of quality in a browser, by mouse and by keyboard alone: from the counts to a list, and to what mends it."""
from __future__ import annotations

from pathlib import Path

import pytest
from hands import Hand, Mouse, address_of, come_in_as
from processes import running
from selenium.webdriver.chrome.webdriver import WebDriver

pytestmark = pytest.mark.needs("chromedriver", "selenium")


def test_a_round_of_quality(hand: Hand) -> None:
    hand.open("/quality")
    hand.sees("Concepts with a preferred term")
    hand.press("Without a definition or a scope note")
    hand.press("Define: Violins")
    hand.fill("Definition", "The smallest of its family.")
    hand.press("Add")
    hand.sees("The smallest of its family.")
    hand.open("/lists/unmapped")
    hand.press("Add a mapping: Violins")
    hand.fill("URI (https://…), or a term of another thesaurus", "https://vocabulary.example/violins")
    hand.press("Add")
    hand.sees("https://vocabulary.example/violins")
    number = hand.number()
    hand.open("/new?text=Violin")
    hand.press("Create")
    hand.open("/lists/plurals")
    hand.press("Merge into Violin")
    hand.sees("What will happen")
    hand.is_at(f"/c/{number}/merge")


def test_settle_who_does_what(hand: Hand) -> None:
    hand.open("/rights")
    hand.choose("Deprecating concepts", "editors and administrators")
    hand.tick("Editors may also merge and split where no record moves")
    hand.press("Save")
    hand.sees("Saved.")
    assert not hand.find("Editors may also merge and split where no record moves", "input").is_selected()


def test_watch_a_branch(hand: Hand) -> None:
    hand.open("/c/2")
    hand.press("Watch with all below")
    pressed = "button[aria-pressed=true]"
    assert hand.find("Watch with all below", pressed)
    hand.press("For me")
    hand.sees("Nothing has happened since")
    hand.sees("String instruments with all below")
    hand.press("Stop watching: String instruments")
    hand.sees("You aren’t watching anything.")


def test_a_visitor_proposes_and_an_editor_takes_it_up(
    program: str, store: Path, users: Path, driver: WebDriver
) -> None:
    with running("--db", store, "--users", users, "--public", "--program", program) as desk:
        hand = come_in_as(Mouse(driver, address_of(desk)), "anna")
        hand.open("/rights")
        hand.tick("Visitors to a public desk may send proposals")
        hand.press("Save")
        hand.sees("Saved.")
        hand.press("Sign out")
        hand.open("/c/5")
        hand.press("Propose a change")
        hand.fill("What should be different, and why?", "Say viola da braccio")
        hand.press("Propose it")
        hand.sees("An editor will look at your proposal.")
        come_in_as(hand, "ben").open("/proposals")
        hand.press("Take up")
        hand.sees("A visitor: Say viola da braccio")
