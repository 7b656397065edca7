"""A desk that is killed in the midst of an import: the first page after the next start says so, and the import goes on
or is taken back."""
from __future__ import annotations

import sqlite3
import threading
import time
from contextlib import closing
from pathlib import Path

import pytest
from hands import SAY, come_in
from processes import Running, running
from selenium.webdriver.chrome.webdriver import WebDriver
from thesaurus_desk.journal import journal_of

pytestmark = pytest.mark.needs("chromedriver", "selenium")
SKOS, TYPE = "http://www.w3.org/2004/02/skos/core#", "http://www.w3.org/1999/02/22-rdf-syntax-ns#type"
COUNT = 1500
# The plans after which the desk is killed, of some two dozen.
PLANS = 4
PATIENCE = 120.0


def write_vocabulary(path: Path) -> Path:
    """Writes a vocabulary, each concept below another one."""
    lines = []
    for it in range(1, COUNT + 1):
        concept = f"<http://x.example/{it}>"
        lines.append(f"{concept} <{TYPE}> <{SKOS}Concept> .")
        lines.append(f'{concept} <{SKOS}prefLabel> "Term {it:04}"@en .')
        if it > 1:
            lines.append(f"{concept} <{SKOS}broader> <http://x.example/{it // 2}> .")
    path.write_text("\n".join(lines) + "\n", encoding="utf-8")
    return path


def kill_during_import(desk: Running, store: Path) -> None:
    """Kills a desk as soon as it has performed some plans."""
    end = time.monotonic() + PATIENCE
    with closing(sqlite3.connect(f"{journal_of(store).as_uri()}?mode=ro", uri=True, timeout=10)) as rows:
        while rows.execute("SELECT count(*) FROM plan").fetchone()[0] < PLANS and time.monotonic() < end:
            time.sleep(0.01)
    desk.process.kill()


@pytest.mark.parametrize(("kind", "way"), [("mouse", "go on"), ("keyboard", "take back")])
def test_an_import_in_which_the_desk_is_killed(
    kind: str, way: str, driver: WebDriver, program: str, store: Path, tmp_path: Path
) -> None:
    words = ("--db", store, "--alone", "anna", "--program", program)
    with running(*words) as desk:
        hand = come_in(kind, driver, desk)
        hand.open("/bring-in")
        hand.send_file("skos-file", write_vocabulary(tmp_path / "terms.nt"))
        hand.fill(SAY("bring_in.title"), "Terms")
        hand.press(SAY("bring_in.try"))
        hand.sees(SAY("bring_in.all_on_copy"))
        killer = threading.Thread(target=kill_during_import, args=(desk, store))
        killer.start()
        try:
            hand.press(SAY("bring_in.bring_it", n=2 * COUNT))
        finally:
            killer.join()
        assert desk.process.wait(PATIENCE) < 0
    with running(*words) as desk:
        hand = come_in(kind, driver, desk)
        hand.sees("The import of “terms.nt” by anna")
        if way == "go on":
            hand.press(SAY("bring_in.go_on"))
            hand.sees("Term 0001")
        else:
            hand.press(SAY("changes.back"))
            hand.sees(SAY("changes.what"))
            hand.press(SAY("changes.back"))
            hand.is_at("/")
        assert "terms.nt” by anna, " not in hand.text()
        hand.open("/schemes")
        hand.sees(SAY("home.concepts", n=COUNT if way == "go on" else 0))
        hand.open("/search?q=Term%201499&all=1" if way == "go on" else "/search?q=Term%200002&all=1")
        assert (SAY("find.dead") in hand.text()) is (way == "take back")
    with closing(sqlite3.connect(store)) as rows:
        (terms,) = rows.execute("SELECT count(DISTINCT text) - count(*) FROM label WHERE text LIKE 'Term %'").fetchone()
    assert terms == 0, "none came twice"
