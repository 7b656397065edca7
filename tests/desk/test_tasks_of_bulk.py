"""Tasks with many concepts at once in a browser, by keyboard alone and on a page as narrow as a telephone, with the
clicks that they take: one misspelling in eight concepts, and a branch that moves."""
from __future__ import annotations

import csv
import json
import subprocess
from collections.abc import Iterator
from pathlib import Path

import pytest
from hands import HANDS, SAY, Hand, Narrow, address_of, come_in_as
from processes import Running, running
from selenium.webdriver.chrome.webdriver import WebDriver
from selenium.webdriver.common.keys import Keys

pytestmark = pytest.mark.needs("chromedriver", "selenium")
# The concepts of the sample that get a misspelt term, and those below Bowed instruments that move.
MISSPELT = range(5, 13)
BRANCH = ("Bows", "Cellos", "Double basses", "Fiddles", "Violas", "Violins")
# The rows of a table that takes longer than a page waits for it.
LONG = 600
# By hand the misspelling took 30 clicks, a branch 4, and a table of translations 7.
BY_HAND, MOVE, TRANSLATE = 30, 4, 7
UNTRANSLATED = ("Lyres", "Sistra", "Rattles")


@pytest.fixture
def misspelt_desk(program: str, store: Path, users: Path) -> Iterator[Running]:
    """A desk with one misspelling in eight concepts, and with concepts that are in one language alone."""
    label = {"do": "addLabel", "kind": "alt", "tag": "en"}
    lines = [json.dumps({**label, "owner": it, "text": f"Instrumant {it}"}) for it in MISSPELT]
    lines += [json.dumps({"do": "concept", "scheme": 1, "tag": "en", "text": it}) for it in UNTRANSLATED]
    subprocess.run([program, "--db", store, "script"], input="\n".join(lines).encode(), capture_output=True, check=True)
    with running("--db", store, "--users", users, "--program", program) as found:
        yield found


@pytest.fixture(params=("keyboard", "narrow"))
def hand(request: pytest.FixtureRequest, misspelt_desk: Running) -> Hand:
    """An editor at the desk."""
    name = "narrow_driver" if request.param == "narrow" else "driver"
    made = {**HANDS, "narrow": Narrow}[request.param]
    found = come_in_as(made(request.getfixturevalue(name), address_of(misspelt_desk)), "ben")
    found.clicks = 0
    return found


def test_one_misspelling_in_eight_concepts(hand: Hand) -> None:
    hand.fill(SAY("shell.search_label"), "Instrumant")
    hand.type_keys(Keys.ENTER)
    hand.press(SAY("replace.link"))
    hand.fill(SAY("replace.new"), "Instrument")
    hand.press(SAY("bring_in.preview"))
    hand.sees(SAY("bring_in.rows_change", n=8))
    hand.press(SAY("bring_in.perform_ticked"))
    hand.sees(SAY("bring_in.rows_changed", n=8))
    assert hand.clicks == 3 <= BY_HAND / 2
    hand.open("/c/12")
    hand.sees("Instrument 12")


def test_a_branch_moves(hand: Hand) -> None:
    hand.open("/c/4")
    hand.press(SAY("bulk.branch"))
    hand.press(SAY("records.tick_all", n=7))
    hand.sees(SAY("records.ticked", n=7, of=7))
    # (one of them is below another one, and stays there)
    hand.tick("Messiah Stradivarius")
    hand.pick(SAY("bulk.above"), "Drums")
    hand.press(SAY("bulk.do_move"))
    hand.sees(SAY("bring_in.rows_change", n=6))
    hand.press(SAY("bring_in.perform_ticked"))
    hand.sees(SAY("bring_in.rows_changed", n=6))
    assert hand.clicks == 6
    hand.press(SAY("shell.changes"))
    hand.sees("6 concepts: move below Drums")
    hand.press(SAY("changes.back_look"))
    hand.sees("Violas")
    hand.press(SAY("changes.back"))
    hand.open("/c/4")
    for term in BRANCH:
        hand.sees(term)


def test_a_whole_branch_moves(hand: Hand) -> None:
    """To a concept whose term is typed."""
    hand.open("/c/4")
    hand.press(SAY("edit.move"))
    hand.fill(SAY("move.below"), "Drums")
    hand.press(SAY("edit.move"))
    hand.is_at("/c/4")
    hand.sees("Drums")
    assert hand.clicks == 2 <= MOVE / 2


def test_translate_a_work_list(hand: Hand, tmp_path: Path) -> None:
    """The concepts without a term in a language, as a table; once it is filled in and chosen, it is shown by itself."""
    hand.press(SAY("shell.lists"))
    link = hand.find(f"français: {SAY('shell.csv')}", "a")
    hand.clicks += 1
    get = "const done = arguments[1]; fetch(arguments[0]).then(it => it.text()).then(done);"
    saved = tmp_path / "french.csv"
    saved.write_text(hand.driver.execute_async_script(get, link.get_attribute("href")), encoding="utf-8")
    with saved.open(encoding="utf-8-sig", newline="") as file:
        heading, *rows = csv.reader(file)
    of, french = heading.index("term"), heading.index("preferred term (fr)")
    for it in rows:
        it[french] = f"{it[of]} en français"
    with saved.open("w", encoding="utf-8", newline="") as file:
        csv.writer(file).writerows([heading, *rows])
    hand.send_file("filled", saved)
    hand.sees(SAY("bring_in.rows_change", n=len(rows)))
    hand.press(SAY("bring_in.perform_ticked"))
    hand.sees(SAY("bring_in.rows_changed", n=len(rows)))
    assert len(rows) == len(UNTRANSLATED) and hand.clicks == 3 <= TRANSLATE / 2


def test_a_long_table_is_left_and_come_back_to(driver: WebDriver, shared_desk: Running, tmp_path: Path) -> None:
    """The page shows by itself how far it is, and what came of it; other pages are there meanwhile."""
    path = tmp_path / "zithers.csv"
    path.write_text("Term,Note\n" + "".join(f"Zither {it:03},Note {it}\n" for it in range(LONG)), encoding="utf-8")
    hand = come_in_as(HANDS["keyboard"](driver, address_of(shared_desk)), "ben")
    hand.open("/bring-in")
    hand.send_file("table-file", path)
    hand.choose(SAY("bring_in.asks"), SAY("bring_in.kind.new"))
    hand.fill(SAY("shell.language"), "en")
    hand.press(SAY("bring_in.preview"))
    hand.press(SAY("bring_in.perform_ticked"))
    shown = SAY("runs.performed", n="#", of=LONG).partition("#")[0]
    hand.sees(shown)
    first = hand.text().partition(shown)[2][:9]
    driver.execute_script("window.isTheSame = true")
    hand.wait(lambda: hand.text().partition(shown)[2][:9] != first, "more rows")
    assert driver.execute_script("return window.isTheSame"), "the page wasn't loaded anew"
    hand.press(SAY("shell.tree"))
    hand.sees("Zither 000")
    hand.press(SAY("shell.bring_in"))
    hand.press("zithers.csv")
    hand.sees(SAY("bring_in.rows_changed", n=LONG))
