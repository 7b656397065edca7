"""The tasks of GUIDE.md with definitions, notes and notations in a browser, by mouse and by keyboard alone."""
from __future__ import annotations

from datetime import date, timedelta
from pathlib import Path

import pytest
from hands import Hand

pytestmark = pytest.mark.needs("chromedriver", "selenium")


def test_define_a_concept_and_give_it_a_notation(hand: Hand) -> None:
    hand.open("/c/3")
    hand.press("+ definition")
    hand.fill("Definition", "A small bowed instrument.")
    hand.fill("Source of this text", "New Grove")
    hand.press("Add")
    hand.sees("A small bowed instrument. en (New Grove)")
    hand.press("Change: definition")
    hand.fill("Definition", "The smallest of its family.")
    hand.press("Save")
    hand.sees("The smallest of its family.")
    hand.press("+ notation")
    hand.fill("Notation", "321.322")
    hand.press("Add")
    hand.sees("notation 321.322 added")
    hand.open("/c/6")
    hand.press("+ notation")
    hand.fill("Notation", "321.322")
    hand.press("Add")
    hand.sees("already has the notation")
    assert hand.focused().get_attribute("value") == "321.322"
    hand.open("/lists")
    hand.press("definition")
    hand.sees("Concepts without: definition")


def test_fill_in_definitions_and_fields_in_a_spreadsheet(hand: Hand, tmp_path: Path) -> None:
    hand.open("/fields")
    hand.fill("Name in tables", "period")
    hand.fill("English", "Period")
    hand.choose("Kind of values", "line of text")
    hand.press("Create the field")
    hand.sees("Period")
    path = tmp_path / "filled.csv"
    path.write_text('number,definition (en),notation,Period\n3,"The smallest\nof its family.",321,since 1550\n')
    hand.open("/bring-in")
    hand.send_file("table-file", path)
    hand.press("Show what it would do")
    hand.sees("definition (en) The smallest of its family. added")
    hand.press("Do the ticked rows")
    hand.sees("1 row was done.")
    hand.open("/c/3")
    hand.sees("since 1550")
    hand.open("/search?q=smallest")
    hand.sees("The smallest of its family.")


def define(hand: Hand, number: int, text: str) -> None:
    """Adds a definition on the page of a concept."""
    hand.open(f"/c/{number}")
    hand.press("+ definition")
    hand.fill("Definition", text)
    hand.press("Add")
    hand.sees(text)


def test_merge_with_a_definition_and_undo_it(hand: Hand) -> None:
    define(hand, 4, "A bowed instrument of folk music.")
    hand.press("Merge into…")
    hand.pick("Into which concept?", "viol", "Violins")
    hand.press("Compare")
    hand.sees("A bowed instrument of folk music.")
    hand.tick("I have looked at both.")
    hand.press("Merge Fiddles into Violins")
    hand.is_at("/c/3")
    hand.sees("A bowed instrument of folk music.")
    hand.press("Undo")
    hand.open("/c/3")
    assert "A bowed instrument of folk music." not in hand.text().partition("History")[0]


def test_split_a_concept_with_a_definition(hand: Hand) -> None:
    define(hand, 4, "A bowed instrument of folk music.")
    hand.press("Split…")
    hand.fill("Preferred term of the new concept", "Nordic fiddles")
    hand.tick("beside it, below")
    hand.tick("Definition en A bowed")
    hand.press("Split")
    hand.sees("Nordic fiddles")
    hand.press("Nordic fiddles")
    hand.sees("A bowed instrument of folk music.")


def test_two_change_one_definition(hand: Hand) -> None:
    """The page shows both texts, and the form again."""
    define(hand, 3, "A small bowed instrument.")
    hand.press("Change: definition")
    mine, opened = hand.driver.current_window_handle, hand.driver.current_url
    hand.driver.switch_to.new_window("tab")
    hand.driver.get(opened)
    hand.fill("Definition", "The smallest of its family.")
    hand.press("Save")
    hand.sees("The smallest of its family.")
    hand.driver.close()
    hand.driver.switch_to.window(mine)
    hand.fill("Definition", "The highest of its family.")
    hand.press("Save")
    hand.sees("Your new change hasn’t been made yet.")
    hand.sees("The smallest of its family.")
    hand.fill("Definition", "The smallest and highest of its family.")
    hand.press("Make my change anyway")
    hand.sees("The smallest and highest of its family.")


def test_name_the_source_of_a_term(hand: Hand) -> None:
    hand.open("/c/3")
    hand.press("Change preferred term Violins (en)")
    hand.fill("Source of this term", "MIMO 2011")
    hand.press("Rename")
    hand.sees("Violins (MIMO 2011)")
    hand.press("Change preferred term Violins (en)")
    hand.fill("Preferred term (en)", "Violin")
    hand.sees("keep the old one as a non-preferred term")
    hand.press("Rename")
    hand.sees("Violin (MIMO 2011)")
    hand.press("Undo")
    hand.sees("renamed to “Violins” (en)")
    hand.open("/c/3")
    hand.sees("Violins (MIMO 2011)")
    now = hand.text().partition("History")[0]
    assert "Violin (MIMO 2011)" not in now and "UF Violins" not in now


def test_see_what_was_on_a_day(hand: Hand) -> None:
    define(hand, 3, "A small bowed instrument.")
    hand.press("As it was on a day")
    hand.fill_day("Day", date.today())
    hand.press("Show")
    hand.sees("A small bowed instrument.")
    hand.fill_day("Day", date.today() - timedelta(2))
    hand.press("Show")
    hand.sees("The journal begins on")
    hand.open("/changed-since")
    hand.press("The tree on a day")
    hand.fill_day("Day", date.today())
    hand.press("Show")
    hand.press("String instruments")
    hand.press("Violins")
    hand.sees("A small bowed instrument.")
