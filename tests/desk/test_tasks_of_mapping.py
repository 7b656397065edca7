"""Mapping in a browser, by keyboard alone, by mouse, and on a page as narrow as a telephone."""
from __future__ import annotations

from pathlib import Path

import pytest
from hands import HANDS, SAY, Hand, Keyboard, Narrow, address_of, come_in_as
from other_vocabulary import broader, load, pref
from processes import Running

pytestmark = pytest.mark.needs("chromedriver", "selenium")
NAMES = "Violas Cellos Guitars Harps Lutes Flutes Recorders Oboes Clarinets Trumpets Horns Pianos Organs Drums Bows"
# The clicks that a mapping once took.
CLICKS = 5
# A concept that the vocabulary has under another name, one that it hasn't, and one that it has twice.
DUMP = "".join(pref(it.lower(), f"{it.lower()} (instruments)") + broader(it.lower(), "top") for it in NAMES.split())


@pytest.fixture(params=("keyboard", "mouse", "narrow"))
def hand(request: pytest.FixtureRequest, shared_desk: Running, store: Path) -> Hand:
    """Someone at a desk with a vocabulary beside its store, who hasn't come in."""
    load(store, DUMP + pref("top", "Instruments"))
    driver = request.getfixturevalue("narrow_driver" if request.param == "narrow" else "driver")
    return {**HANDS, "narrow": Narrow}[request.param](driver, address_of(shared_desk))


def test_map_fifteen_concepts(hand: Hand) -> None:
    """A key, or a press, for each: the next one is there at once, with its best candidate chosen."""
    come_in_as(hand, "ben").clicks = 0
    hand.press(SAY("shell.mapping"))
    hand.press(SAY("mapping.state.left", n=30))
    hand.press(SAY("mapping.begin"))
    done = keys = 0
    while done < len(NAMES.split()):
        hand.sees(SAY("mapping.search", name="VOC"))
        has_candidate = hand.driver.find_elements("css selector", "input[name=iri]:checked")
        act(hand, "e" if has_candidate else "0", SAY("kinds.link.exact" if has_candidate else "mapping.none_there"))
        done += bool(has_candidate)
        keys += isinstance(hand, Keyboard)
    # (the concepts without a candidate, which are decided, too, are among them)
    assert hand.clicks + keys <= CLICKS * len(NAMES.split()) / 2
    hand.open("/mapping")
    hand.sees(SAY("mapping.state.mapped", n=15))


def act(hand: Hand, key: str, name: str) -> None:
    """Chooses by a key, or by a press of the button."""
    before = hand.driver.current_url
    if isinstance(hand, Keyboard):
        hand.type_keys(key)
    else:
        hand.press(f"{name} {key}")
    hand.wait(lambda: hand.driver.current_url != before, "the next concept")


def test_the_arrows_choose_another_candidate(hand: Hand) -> None:
    come_in_as(hand, "ben").open("/mapping/1/c/11?q=instruments")
    boxes = "return [...document.querySelectorAll('input[name=iri]')].map((it) => it.checked)"
    assert hand.driver.execute_script(boxes)[0]
    hand.type_keys("\ue015", "\ue015")
    assert hand.driver.execute_script(boxes)[2]
    width = "return document.documentElement.scrollWidth - document.documentElement.clientWidth"
    assert hand.driver.execute_script(width) <= 0, "the page is as wide as the window"
    hand.type_keys("x")
    hand.sees(SAY("mapping.again"))
