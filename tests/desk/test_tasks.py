"""The tasks of GUIDE.md in a browser, by mouse and by keyboard alone."""
from __future__ import annotations

from pathlib import Path

import pytest
from hands import HANDS, Hand, come_in
from processes import running
from selenium.webdriver.chrome.webdriver import WebDriver

pytestmark = pytest.mark.needs("chromedriver", "selenium")
BASE = "https://museum.example/id/"


@pytest.mark.parametrize("kind", sorted(HANDS))
def test_1_start_a_thesaurus(kind: str, driver: WebDriver, program: str, tmp_path: Path) -> None:
    words = ("--db", tmp_path / "new.db", "--base", BASE, "--alone", "anna", "--program", program)
    with running(*words) as desk:
        hand = come_in(kind, driver, desk)
        hand.press("New concept")
        hand.fill("Name", "Musical instruments")
        hand.press("Create")
        hand.press("New top concept")
        hand.fill("Preferred term", "String instruments")
        hand.press("Create, and create another one")
        hand.sees("New concept")
        hand.fill("Preferred term", "Violins")
        hand.fill("Broader term", "String instruments")
        hand.press("Create")
        hand.sees("Violins")
        hand.sees(f"{BASE}3")


def test_2_add_languages_and_notes_and_rename_a_term(hand: Hand) -> None:
    hand.open("/c/3")
    hand.press("Add a term or a note")
    hand.choose("Kind", "preferred term")
    hand.fill("Language", "de")
    hand.fill("Text", "Violinen")
    hand.press("Add")
    hand.sees("preferred term “Violinen” (de) added")
    hand.press("Change preferred term Violinen (de)")
    hand.fill("Preferred term (de)", "Geigen")
    hand.press("Rename")
    hand.sees("UF Violinen")
    hand.press("Add a term or a note")
    hand.choose("Kind", "scope note")
    hand.fill("Text", "Bowed, with four strings.")
    hand.press("Add")
    hand.sees("SN Bowed, with four strings.")
    hand.press("Make Violinen the preferred term (de)")
    hand.sees("UF Geigen")
    hand.press("Add a term or a note")
    hand.choose("Kind", "preferred term")
    hand.fill("Text", "Fine violins")
    hand.press("Add")
    hand.sees("Violins already has the preferred term “Violins” (en).")
    assert hand.focused().get_attribute("value") == "Fine violins"


def test_3_link_and_move_concepts(hand: Hand) -> None:
    hand.open("/c/6")
    hand.press("Add a broader term")
    hand.choose("Kind", "broader term (partitive)")
    hand.pick("Term", "viol", "Violins")
    hand.press("Add")
    hand.sees("Violins partitive")
    hand.press("Add a related term")
    hand.pick("Term", "strin", "String instruments")
    hand.press("Add")
    hand.sees("Two terms are either related, or one is broader than the other.")
    assert hand.focused().get_attribute("value") == "String instruments"
    hand.open("/c/2")
    hand.press("Add a broader term")
    hand.fill("Term", "Bows")
    hand.press("Add")
    hand.sees("String instruments → ")
    hand.open("/c/6")
    hand.press("Another type for the relationship with Violins")
    hand.choose("Type", "broader term (generic)")
    hand.press("Save")
    hand.sees("Violins generic")
    hand.press("Move")
    hand.pick("Below", "fidd", "Fiddles")
    hand.press("Move")
    hand.is_at("/c/6")
    hand.sees("Fiddles generic")


def test_4_map_to_other_vocabularies(hand: Hand) -> None:
    hand.open("/c/3")
    hand.press("Add a mapping")
    hand.fill("URI (https://…), or a term of another thesaurus", "http://www.wikidata.org/entity/Q8355")
    hand.press("Add")
    hand.sees("exact match http://www.wikidata.org/entity/Q8355")
    hand.press("Remove exact match http://www.wikidata.org/entity/Q8355")
    hand.sees("exact match http://www.wikidata.org/entity/Q8355 removed")


def test_5_group_concepts(hand: Hand) -> None:
    hand.open("/c/1")
    hand.press("New collection")
    hand.fill("Name", "On show in room 12")
    hand.press("Create")
    hand.press("Add a member")
    hand.pick("Concept", "harp", "Harps")
    hand.press("Add")
    hand.sees("Harps: added to the collection On show in room 12")
    hand.open("/c/3")
    hand.press("Add to a collection")
    hand.pick("Collection", "room", "On show in room 12")
    hand.press("Add")
    hand.sees("Violins: added to the collection On show in room 12")


def test_10_merge_two_concepts(hand: Hand) -> None:
    hand.open("/c/4")
    hand.press("Merge into…")
    hand.pick("Into which concept?", "viol", "Violins")
    hand.press("Compare")
    hand.sees("2 records move to Violins.")
    hand.tick("Of folk music and the Middle Ages.")
    hand.tick("I have looked at both.")
    hand.press("Merge Fiddles into Violins")
    hand.is_at("/c/3")
    hand.sees("4 records")
    hand.sees("UF Fiedeln")
    hand.sees("SN Of folk music and the Middle Ages.")


def test_11_split_a_concept(hand: Hand) -> None:
    hand.open("/c/4")
    hand.press("Split…")
    hand.fill("Preferred term of the new concept", "Nordic fiddles")
    hand.tick("beside it, below")
    hand.tick("Hardanger fiddle, Telemark 1860")
    hand.press("Split")
    hand.sees("Fiddles: split, and 1 record given to the new concept Nordic fiddles")
    hand.sees("Hardanger fiddle, Telemark 1860")
    hand.sees("String instruments generic")


def test_12_end_a_concept(hand: Hand) -> None:
    hand.open("/c/3")
    hand.press("Deprecate…")
    hand.press("Deprecate Violins")
    hand.sees("2 records are indexed with Violins.")
    hand.open("/c/7")
    hand.press("Deprecate…")
    hand.press("Deprecate Messiah Stradivarius")
    hand.sees("This concept is deprecated, and nothing replaces it.")


def test_candidates_and_tasks(hand: Hand) -> None:
    hand.open("/new")
    hand.fill("Preferred term", "Rebecs")
    hand.fill("Broader term", "String instruments")
    hand.tick("as a candidate")
    hand.press("Create")
    hand.sees("Status: candidate")
    number = hand.number()
    hand.press("Change status and task")
    hand.choose("In charge", "anna")
    hand.fill("What is to be done", "Compare them with violins")
    hand.press("Save")
    hand.sees("anna is in charge")
    hand.open("/")
    hand.press("1 concept in your charge")
    hand.sees("Compare them with violins")
    hand.press("Candidates 1")
    hand.press("Rebecs")
    hand.is_at(f"/c/{number}")
    hand.press("Change status and task")
    hand.choose("Status", "approved")
    hand.press("Save")
    hand.sees("Status: approved")
