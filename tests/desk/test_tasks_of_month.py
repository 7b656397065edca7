"""Tasks of a month's work in a browser, by keyboard alone, by mouse, and on a page as narrow as a telephone: finding,
mapping, indexing by a file, correcting, asking who changed what, and taking back."""
from __future__ import annotations

import csv
import sqlite3
from contextlib import closing
from datetime import UTC, date, datetime, timedelta
from pathlib import Path
from typing import Any

import pytest
from hands import HANDS, SAY, Hand, Narrow, address_of, come_in_as
from processes import Running
from selenium.webdriver.chrome.webdriver import WebDriver
from selenium.webdriver.common.action_chains import ActionChains
from selenium.webdriver.common.keys import Keys
from thesaurus_desk.journal import journal_of
from thesaurus_desk.journal.schema import time_text
from thesaurus_desk.store.plan_execution import Desk

pytestmark = pytest.mark.needs("chromedriver", "selenium")
WAYS = ("keyboard", "mouse", "narrow")
ENTITY = "http://www.wikidata.org/entity/"
# The clicks that these tasks once took: of a find, a mapping, a record (keys), who changed what,
# a merge and a batch that are taken back, a round of quality. A test says if one takes more than half of them.
FIND, MAP, KEYS, WHO, MERGE_BACK, BATCH_BACK, QUALITY = 3, 5, 50, 5, 3, 54, 2
# Concepts of the sample.
BOWED, VIOLINS, HARPS, FIDDLES = 4, 5, 11, 31
# How an item of Wikidata is copied, and its number.
COPIED = {
    "Violas": ("Q80019", "Q80019"),
    "Cellos": ("https://www.wikidata.org/wiki/Q8371", "Q8371"),
    "Double basses": (f"{ENTITY}Q80020", "Q80020"),
}
# Fifteen concepts with the numbers of items.
ITEMS = dict(zip("Guitars Harps Lutes Flutes Recorders Oboes Clarinets Trumpets Horns Pianos".split(), range(101, 111)))
ITEMS |= dict(zip("Harpsichords Organs Drums Bows Fiddles".split(), range(111, 116)))
ROWS = 500
# What the form for a list as a table saves.
SAVED = """
const form = document.querySelector("main form"), done = arguments[0];
fetch(`${form.action}?${new URLSearchParams(new FormData(form))}`).then(it => it.text()).then(done);
"""


@pytest.fixture(params=WAYS)
def driver_of(request: pytest.FixtureRequest) -> tuple[str, WebDriver]:
    """A way to work, and its browser."""
    name = "narrow_driver" if request.param == "narrow" else "driver"
    return request.param, request.getfixturevalue(name)


@pytest.fixture
def hand(driver_of: tuple[str, WebDriver], shared_desk: Running) -> Hand:
    """Someone at a desk with several people, who hasn't come in."""
    way, driver = driver_of
    return {**HANDS, "narrow": Narrow}[way](driver, address_of(shared_desk))


def search(hand: Hand, text: str) -> None:
    """Searches for a text as it is typed."""
    hand.fill(SAY("shell.search_label"), text)
    hand.type_keys(Keys.ENTER)


def takes_half(hand: Hand, before: int, times: int = 1) -> None:
    """Finds that a task took at most half the clicks that it once took, so many times."""
    assert 0 <= hand.clicks <= before * times / 2, hand.clicks
    hand.clicks = 0


def said(key: str, **values: object) -> str:
    """Returns what pages say, up to the first of what is left open."""
    return str(SAY(key, **values)).partition("{")[0].strip()


# --- finding ---


def test_3_find(hand: Hand) -> None:
    """By a part of a word, a synonym, a word of a note, a misspelling, and a term of another language."""
    come_in_as(hand, "rita").clicks = 0
    search(hand, "iolin")
    hand.sees(SAY("find.within"))
    hand.press("Violins")
    hand.is_at(f"/c/{VIOLINS}")
    takes_half(hand, FIND)
    search(hand, "Violinen")
    hand.is_at(f"/c/{VIOLINS}")
    search(hand, "folk music")
    hand.sees("Bowed instruments of folk music and of the Middle Ages.")
    hand.press("Fiddles")
    hand.is_at(f"/c/{FIDDLES}")
    takes_half(hand, FIND)
    search(hand, "vioilns")
    hand.sees(SAY("find.alike", query="vioilns"))
    hand.press("Violins")
    hand.is_at(f"/c/{VIOLINS}")
    takes_half(hand, FIND)
    search(hand, "Streichinstrumente")
    hand.is_at(f"/c/{BOWED}")
    search(hand, "cordes pinc")
    hand.sees("Instruments à cordes pincées")
    takes_half(hand, FIND)


# --- mapping ---


def test_13_map_by_page(hand: Hand) -> None:
    """An item is typed as it is copied; the link of a match opens it."""
    come_in_as(hand, "ben")
    for term, (copied, item) in COPIED.items():
        search(hand, term)
        hand.sees(SAY("edit.add_match"))
        hand.press(SAY("edit.add_match"))
        hand.fill(SAY("edit.term_or_iri"), copied)
        hand.press(SAY("edit.add"))
        hand.sees(f"exact match {ENTITY}{item}")
        assert hand.driver.find_elements("css selector", f'#links a[href="{ENTITY}{item}"]')
    search(hand, "Q8371")
    hand.sees("Cellos")


def test_13_map_by_a_table(hand: Hand, tmp_path: Path) -> None:
    path = tmp_path / "items.csv"
    path.write_text("Concept,Wikidata\n" + "".join(f"{term},Q{it}\n" for term, it in ITEMS.items()), encoding="utf-8")
    come_in_as(hand, "ben").clicks = 0
    hand.press(SAY("shell.bring_in"))
    hand.send_file("table-file", path)
    hand.press(SAY("bring_in.preview"))
    hand.sees(SAY("bring_in.rows_change", n=15))
    hand.sees(f"{ENTITY}Q101")
    hand.press(SAY("bring_in.perform_ticked"))
    hand.sees(SAY("bring_in.rows_changed", n=15))
    takes_half(hand, MAP, 15)
    hand.press("Fiddles")
    hand.sees(f"exact match {ENTITY}Q115")


def test_14_translate_in_a_table(hand: Hand, tmp_path: Path) -> None:
    """A list with an empty column for a further language, which is filled in and imported."""
    come_in_as(hand, "ben").open("/tree")
    hand.press(SAY("lists.other_columns"))
    hand.fill(SAY("lists.new_language"), "it")
    saved = tmp_path / "list.csv"
    saved.write_text(hand.driver.execute_async_script(SAVED), encoding="utf-8")
    with saved.open(encoding="utf-8-sig", newline="") as file:
        heading, *rows = csv.reader(file)
    of, italian = heading.index("term"), heading.index("preferred term (it)")
    assert len(rows) > 20 and not [it for it in rows if it[italian]]
    for it in rows:
        it[italian] = f"{it[of]} in italiano"
    with saved.open("w", encoding="utf-8", newline="") as file:
        csv.writer(file).writerows([heading, *rows])
    hand.open("/bring-in")
    hand.send_file("table-file", saved)
    hand.press(SAY("bring_in.preview"))
    hand.sees(SAY("bring_in.is_exact"))
    hand.press(SAY("bring_in.perform_ticked"))
    hand.sees(SAY("bring_in.rows_changed", n=len(rows)))


# --- records ---


def test_15_index_a_queue(hand: Hand, tmp_path: Path) -> None:
    """Records come from the catalogue, and each is indexed with several concepts, one after another."""
    path = tmp_path / "records.csv"
    path.write_text("key,title,text\n" + "".join(f"R {n},Fiddle {n},Folk\n" for n in range(3)), encoding="utf-8")
    come_in_as(hand, "ina").open("/index")
    hand.send_file("records-file", path)
    hand.press(SAY("indexing.bring_button"))
    hand.sees("3 wait")
    hand.press(SAY("indexing.next"))
    for number in range(3):
        hand.sees(f"Fiddle {number} R {number}")
        for typed, term in (("viol", "Violins"), ("har", "Harps")):
            hand.pick(SAY("indexing.other"), typed, term)
            hand.press(SAY("indexing.tick"))
            hand.sees(f"{term} {'12'[term == 'Harps']}")
        hand.press(SAY("indexing.save"))
        hand.sees(f"Fiddle {number} R {number}: indexed with Harps")
    hand.sees("3 done")
    hand.open(f"/c/{HARPS}")
    hand.sees("Fiddle 2 R 2")


def test_15_index_by_keys(driver: WebDriver, shared_desk: Running) -> None:
    """A digit ticks, a letter leads to the field, and Ctrl+Enter saves from there."""
    hand = come_in_as(HANDS["keyboard"](driver, address_of(shared_desk)), "ina")
    hand.open("/index?record=R+7")
    hand.type_keys("a", "violi")
    hand.take("Violins")
    hand.type_keys(Keys.ENTER)
    hand.sees("Violins 1")
    hand.type_keys("harps")
    hand.take("Harps")
    hand.type_keys(Keys.ENTER)
    hand.sees("Harps 2")
    hand.type_keys(Keys.ESCAPE, "1")
    assert [it.is_selected() for it in hand.driver.find_elements("name", "concept")] == [False, True]
    hand.type_keys("a")
    ActionChains(driver).key_down(Keys.CONTROL).send_keys(Keys.ENTER).key_up(Keys.CONTROL).perform()
    hand.sees("R 7: indexed with Harps")
    assert "Violins" not in hand.text()


def test_15_a_record_with_four_concepts(hand: Hand, tmp_path: Path) -> None:
    """Two are in its title, and are ticked by digits; of the others the beginning is typed, and the first suggestion
    chosen, taken and ticked."""
    path = tmp_path / "records.csv"
    path.write_text("key,title\nR 8,Violins and harps\n", encoding="utf-8")
    come_in_as(hand, "ina").open("/index")
    hand.send_file("records-file", path)
    hand.press(SAY("indexing.bring_button"))
    hand.open("/index?record=R+8")
    hand.sees("Violins 1")
    hand.type_keys("1", "2", "a")
    count = 3
    for typed, term in (("lut", "Lutes"), ("org", "Organs")):
        hand.type_keys(typed)
        hand.take(term)
        hand.type_keys(Keys.ENTER)
        hand.sees(f"{term} ")
        count += len(typed) + 3
    ActionChains(hand.driver).key_down(Keys.CONTROL).send_keys(Keys.ENTER).key_up(Keys.CONTROL).perform()
    hand.sees("R 8: indexed with")
    assert count + 2 <= KEYS / 2
    hand.open("/record?name=R+8")
    for term in ("Violins", "Harps", "Lutes", "Organs"):
        hand.sees(term)


def test_16_index_500_records_by_a_file(hand: Hand, tmp_path: Path) -> None:
    """A cell has several concepts, and each is indexed; the file is one entry, and is taken back as one."""
    path = tmp_path / "records.csv"
    concepts = ("Violins | Harps", "Harps", "Lutes | Violins | Organs")
    rows = (f"R {n:03},Record {n},{concepts[n % 3]}\n" for n in range(ROWS))
    path.write_text("Record,Title,Concept\n" + "".join(rows), encoding="utf-8")
    come_in_as(hand, "ben").open("/bring-in")
    hand.send_file("table-file", path)
    hand.press(SAY("bring_in.preview"))
    hand.sees(SAY("bring_in.columns_unclear", n=1))
    hand.sees(SAY("bring_in.rows_change", n=ROWS))
    hand.press(SAY("bring_in.perform_ticked"))
    hand.sees(SAY("bring_in.rows_changed", n=ROWS))
    counts = {"Violins": 333, "Harps": 334, "Organs": 166}
    for term, count in counts.items():
        search(hand, term)
        hand.sees(SAY("concept.n_records", n=count))
    hand.open("/record?name=R%20002")
    for term in ("Lutes", "Violins", "Organs"):
        hand.sees(term)
    hand.press(SAY("shell.changes"))
    hand.sees(SAY("changes.table", name="records.csv", n=999))


def test_17_an_indexer_corrects_and_takes_it_back(hand: Hand) -> None:
    """A wrong concept is replaced; the correction is taken back beside it, or later among the changes."""
    come_in_as(hand, "ina").open("/record?name=Harp%207")
    hand.pick(SAY("records.index_with"), "Viol", "Violins")
    hand.press(SAY("edit.index_button"))
    hand.sees("Harp 7: indexed with Violins")
    for taken_back in ("beside it", "later"):
        hand.press(SAY("records.another", concept="Violins"))
        hand.pick(SAY("records.in_place_of", concept="Violins"), "Har", "Harps")
        hand.press(SAY("records.reindex"))
        hand.sees("Harp 7: indexed with Harps")
        hand.sees("Harp 7: no longer indexed with Violins")
        if taken_back == "later":
            hand.press(SAY("shell.changes"))
            hand.sees("Harp 7: no longer indexed with Violins")
            hand.press(SAY("changes.back"))
            hand.open("/record?name=Harp%207")
        else:
            hand.press(SAY("shell.take_back"))
            hand.sees("Harp 7: no longer indexed with Harps")
        hand.find(SAY("records.another", concept="Violins"), "summary")
        assert SAY("records.another", concept="Harps") not in hand.driver.page_source


# --- what was changed ---


def ago(days: int) -> datetime:
    """Returns the noon of a day before today."""
    return datetime.now(UTC).replace(hour=12, minute=0) - timedelta(days=days)


@pytest.fixture
def aged(desk: Desk) -> Desk:
    """A desk, already stopped, with changes of several people and days; the last of yesterday is a merge."""
    label = {"do": "addLabel", "kind": "alt", "tag": "en"}
    posts = [{"do": "post", "key": f"f-{n}", "record": f"Fiddle {n}", "concept": FIDDLES} for n in range(33)]
    plans: list[tuple[str, int, list[dict[str, Any]]]] = [
        ("ben", 40, [{**label, "owner": VIOLINS, "text": "Old-time violins"}]),
        ("ina", 39, posts),
        ("anna", 5, [{**label, "owner": HARPS, "text": "Arched harps"}]),
        ("ben", 3, [{**label, "owner": VIOLINS, "text": "Fine violins"}]),
        ("ben", 3, [{"do": "dropLabel", "owner": VIOLINS, "kind": "alt", "tag": "en", "text": "Old-time violins"}]),
        ("anna", 1, [{"do": "merge", "source": FIDDLES, "target": VIOLINS}]),
    ]
    numbers = [desk.perform(user, "test", requests).plan for user, _, requests in plans]
    desk.stop()
    with closing(sqlite3.connect(journal_of(desk.db))) as rows, rows:
        for number, (_, days, _) in zip(numbers, plans, strict=True):
            for table, name in (("plan", "id"), ("ended", "plan")):
                rows.execute(f"UPDATE {table} SET at = ? WHERE {name} = ?", (time_text(ago(days)), number))
    return desk


def test_20_who_changed_what_last_week(aged: Desk, hand: Hand) -> None:
    """By person and days; and what is other than on a day, with who changed it."""
    first, last = (ago(it).date() for it in (7, 1))
    come_in_as(hand, "rita").press(SAY("shell.changes"))
    hand.choose(SAY("changes.by"), "ben")
    hand.fill_day(SAY("changes.since"), first)
    hand.fill_day(SAY("changes.until"), last)
    hand.press(SAY("changes.show"))
    hand.sees("Fine violins")
    shown = hand.text()
    assert "Arched harps" not in shown and shown.count("Old-time violins") == 1, "that of 40 days ago isn't there"
    hand.press(SAY("changes.resources"))
    hand.is_at("/changed-since")
    compare(hand, first)


def compare(hand: Hand, first: date) -> None:
    """Looks what is other than on a day."""
    hand.fill_day(SAY("changes.since"), first)
    hand.press(SAY("changes.show"))
    hand.sees("Violins")
    shown = hand.text()
    for part in ("Violins", "Fine violins", "Harps", "Arched harps", "anna", "ben"):
        assert part in shown, part
    assert "Fiddle 7" not in shown


def test_20_who_changed_what_last_week_and_since_the_first(aged: Desk, hand: Hand) -> None:
    """What is asked for most has a link: the days before today, and what is other than on the first."""
    come_in_as(hand, "rita").clicks = 0
    hand.press(SAY("shell.changes"))
    hand.press(SAY("changes.last_week"))
    hand.is_at("/changes")
    for part in ("Fine violins", "Arched harps", "anna", "ben"):
        hand.sees(part)
    assert hand.text().count("Old-time violins") == 1, "that of 40 days ago isn't there"
    takes_half(hand, WHO)
    hand.press(said("changes.since_first"))
    hand.is_at("/changed-since")
    takes_half(hand, WHO)


# --- taking back ---


def test_21_yesterdays_merge_is_taken_back(aged: Desk, hand: Hand) -> None:
    """The concept is there again, with its records; its number is another one, which is said."""
    come_in_as(hand, "anna").clicks = 0
    hand.press(SAY("changes.back"))
    hand.sees(said("changes.remark.new_number"))
    hand.sees(SAY("concept.n_records", n=33))
    takes_half(hand, MERGE_BACK)
    assert hand.number() > FIDDLES
    search(hand, "Violins")
    hand.is_at(f"/c/{VIOLINS}")
    hand.sees(SAY("concept.n_records", n=0))


def test_21_a_batch_of_20_rows_is_taken_back_as_one(hand: Hand, tmp_path: Path) -> None:
    path = tmp_path / "terms.csv"
    path.write_text("Term,BT\n" + "".join(f"Lyre {n:02},Harps\n" for n in range(20)), encoding="utf-8")
    come_in_as(hand, "anna").open("/bring-in")
    hand.send_file("table-file", path)
    hand.choose(SAY("bring_in.asks"), SAY("bring_in.kind.new"))
    hand.fill(SAY("shell.language"), "en")
    hand.press(SAY("bring_in.preview"))
    hand.press(SAY("bring_in.perform_ticked"))
    hand.sees(SAY("bring_in.rows_changed", n=20))
    hand.clicks = 0
    hand.press(SAY("shell.changes"))
    hand.sees(SAY("changes.table", name="terms.csv", n=40))
    hand.press(SAY("changes.back_look"))
    hand.sees("Lyre 07")
    hand.press(SAY("changes.back"))
    hand.sees(SAY("concept.taken_back"))
    takes_half(hand, BATCH_BACK)
    search(hand, "Lyre 07")
    hand.sees(SAY("find.dead"))
    hand.open(f"/c/{HARPS}")
    hand.sees("Harps")
    assert "Lyre" not in hand.text().partition(SAY("concept.history"))[0]


# --- quality ---


def test_22_a_round_of_quality(hand: Hand) -> None:
    """One press shows how long each list is; another one leads to a list."""
    come_in_as(hand, "anna").clicks = 0
    hand.press(SAY("shell.quality"))
    hand.sees(SAY("lists.single_child"))
    takes_half(hand, QUALITY)
    hand.press(SAY("lists.single_child"))
    hand.is_at("/lists/single_child")
    takes_half(hand, QUALITY)
