"""The tasks of arrays and releases in a browser: by mouse, by keyboard alone, at 360 pixels, and without script."""
from __future__ import annotations

from collections.abc import Iterator
from pathlib import Path

import pytest
from browsing import NARROW, Browser, browsing
from hands import Hand
from looks import CONTRAST, STRUCTURE, WIDTH
from processes import running

pytestmark = pytest.mark.needs("chromedriver", "selenium")
LABEL = "<string instruments by playing>"


def test_an_array_is_made_ordered_and_shown(hand: Hand) -> None:
    hand.open("/c/2")
    hand.press("+ New array (node label)")
    hand.fill("Node label", "string instruments by playing")
    for name in ("Violins", "Harps", "Fiddles"):
        hand.tick(name)
    hand.press("Create")
    hand.sees("string instruments by playing")
    made = hand.number()
    hand.press("Change the order")
    hand.press("Down: Fiddles")
    hand.sees("order of the members")
    hand.press("Down: Fiddles")
    hand.is_at(f"/c/{made}/order")
    hand.open("/tree?at=2")
    hand.sees(f"{LABEL} Harps")
    assert f"{LABEL} Harps generic Violins generic Fiddles generic" in hand.text()
    hand.open("/print/1")
    hand.sees(LABEL)


def test_a_release_is_made_and_what_has_changed_since(hand: Hand) -> None:
    hand.open("/releases")
    hand.fill("Name of the release", "2026.1")
    hand.fill("Note", "First.")
    hand.press("Release")
    hand.is_at("/releases/2026.1")
    hand.open("/c/3")
    hand.press("Change preferred term Violins (en)")
    hand.fill("Preferred term (en)", "Fine violins")
    hand.press("Rename")
    hand.sees("Fine violins")
    hand.open("/releases")
    hand.press("Changed since 2026.1")
    hand.sees("1 renamed")
    assert "Fine violins" in hand.text()


@pytest.fixture(scope="module", params=(True, False), ids=("script", "plain"))
def small(
    request: pytest.FixtureRequest, program: str, instruments_store: Path, tmp_path_factory: pytest.TempPathFactory
) -> Iterator[Browser]:
    """A narrow browser at a desk with an array and a release, with and without script."""
    store = tmp_path_factory.mktemp("small") / "museum.db"
    store.write_bytes(instruments_store.read_bytes())
    words = ("--db", store, "--alone", "anna", "--program", program)
    with running(*words) as desk, browsing(f"http://127.0.0.1:{desk.port}", NARROW, request.param) as browser:
        browser.enter(desk.entrance)
        browser.go("/new/array?concept=4")
        browser.find("#new-text").send_keys("bowed instruments by size")
        for it in browser.all("input[name=member]"):
            it.click()
        browser.sends(lambda: browser.find("main button.main").click())
        browser.go("/releases")
        browser.find("#release-name").send_keys("2026.1")
        browser.sends(lambda: browser.find("main button.main").click())
        yield browser
        assert browser.errors() == []


def test_pages_at_360_pixels(small: Browser) -> None:
    for path in ("/c/40", "/c/40/order", "/new/array?concept=4", "/tree?at=4", "/releases", "/releases/2026.1", "/c/4"):
        small.go(path)
        assert small.run(WIDTH) == [] and small.run(STRUCTURE) == [] and small.run(CONTRAST) == [], path


def test_the_order_is_changed_at_360_pixels(small: Browser) -> None:
    small.go("/c/40/order")
    first, second = (it.get_attribute("id") for it in small.all(".order li")[:2])
    small.sends(lambda: small.all("button[name=down]")[0].click())
    assert [it.get_attribute("id") for it in small.all(".order li")[:2]] == [second, first]
