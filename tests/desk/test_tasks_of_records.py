"""The tasks of GUIDE.md in a browser: tables and vocabularies, records, mistakes, printing, other people."""
from __future__ import annotations

from pathlib import Path

import pytest
from hands import HANDS, Hand, come_in, try_skos
from processes import Running, run_desk
from selenium.webdriver.chrome.webdriver import WebDriver

pytestmark = pytest.mark.needs("chromedriver", "selenium")
TABLE = "pref@en,pref@de,broader\nLutes,Lauten,String instruments\nTheorbos,Theorben,Lutes\nViolins,Violinen,\n"
SKOS = """@prefix skos: <http://www.w3.org/2004/02/skos/core#> .
@prefix old: <https://old.example/> .
old:s a skos:ConceptScheme ; skos:prefLabel "Places"@en .
old:1 a skos:Concept ; skos:prefLabel "Cities"@en ; skos:inScheme old:s ; skos:topConceptOf old:s .
old:2 a skos:Concept ; skos:prefLabel "Paris"@en ; skos:inScheme old:s ; skos:broader old:1 .
"""


def test_6_bring_in_a_spreadsheet(hand: Hand, tmp_path: Path) -> None:
    path = tmp_path / "new.csv"
    path.write_text(TABLE, encoding="utf-8")
    hand.open("/bring-in")
    hand.send_file("table-file", path)
    hand.press("Show what it would do")
    hand.sees("What new.csv would do")
    hand.sees("Lutes")
    hand.press("Do ")
    hand.sees("Result of new.csv")
    hand.open("/c/2")
    hand.press("Lutes")
    hand.press("Theorbos")
    hand.sees("Theorben")


def test_7_bring_in_a_thesaurus_from_skos(hand: Hand, tmp_path: Path) -> None:
    try_skos(hand, tmp_path / "places.ttl", SKOS)
    hand.press("Import it")
    hand.open("/")
    hand.sees("Places")
    hand.press("Cities")
    hand.sees("Paris")


def test_8_find(hand: Hand) -> None:
    hand.open("/")
    hand.type_keys("/")
    hand.type_keys("fidle")
    hand.take("Fiddles")
    hand.is_at("/c/4")
    hand.sees("Musical instruments")
    hand.press("Whole tree")
    hand.is_at("/tree")
    hand.sees("Harps")
    hand.press("A to Z")
    hand.press("M")
    hand.sees("Messiah Stradivarius")
    hand.press("Work lists")
    hand.press("Deutsch")
    hand.sees("Bows")


def test_9_index_records(hand: Hand) -> None:
    hand.open("/c/5")
    hand.press("Index a record with it")
    hand.fill("Record, as in the catalogue", "Pedal harp, Paris 1785")
    hand.press("Index")
    hand.sees("Pedal harp, Paris 1785: indexed with Harps")
    hand.press("Pedal harp, Paris 1785")
    hand.pick("Index it with", "strin", "String instruments")
    hand.press("Index")
    hand.sees("Pedal harp, Paris 1785: indexed with String instruments")
    hand.press("Import")
    hand.press("Or type or paste records")
    hand.fill("Rows of records", "key,record,concept\nh-1,Harp 1600,5\nh-2,Harp 1700,99\n")
    hand.press("Import")
    hand.sees("1 indexing is new.")
    hand.sees("No concept has the identifier 99.")


def test_13_correct_a_posting_and_a_merge(hand: Hand) -> None:
    hand.open("/c/3")
    hand.press("Violin, Mittenwald, about 1780")
    hand.press("Another concept in place of Violins")
    hand.pick("In place of Violins", "fidd", "Fiddles")
    hand.press("Re-index")
    hand.sees("Violin, Mittenwald, about 1780: no longer indexed with Violins")
    hand.open("/c/3")
    hand.press("No longer index Violin, Jacob Stainer, Absam 1668 with it")
    hand.sees("0 records")
    hand.open("/c/4/merge?other_number=3")
    hand.tick("I have looked at both.")
    hand.press("Merge Fiddles into Violins")
    hand.sees("3 records")
    hand.press("Changes")
    hand.press("Undo")
    hand.sees("comes back under a new identifier")
    hand.sees("Fiddles")


def test_14_print_and_publish(hand: Hand) -> None:
    hand.open("/tree")
    hand.press("Print")
    hand.sees("String instruments")
    hand.sees("Violins")
    assert "print" in hand.driver.current_url


@pytest.mark.parametrize("kind", sorted(HANDS))
def test_15_work_with_others_and_check(kind: str, driver: WebDriver, guide_desk: Running, tmp_path: Path) -> None:
    hand = come_in(kind, driver, guide_desk)
    hand.open("/c/3")
    hand.press("Add a term or a note")
    hand.fill("Text", "Fine violins")
    hand.press("Add")
    hand.press("Changes")
    hand.sees("Violins: non-preferred term “Fine violins” (en) added")
    hand.press("As a table (CSV)")
    guide_desk.process.terminate()
    guide_desk.process.wait(300)
    checked = run_desk("check", "--db", tmp_path / "museum.db")
    assert checked.returncode == 0, checked.stdout + checked.stderr
