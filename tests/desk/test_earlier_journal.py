"""The journal of a desk of the version before, over its store: what becomes of it at the first start of this one.

data/journal-1.sql was written by such a desk, to which people sent forms of all kinds."""
from __future__ import annotations

import csv
import io
import json
import os
import signal
import sqlite3
import subprocess
import sys
from collections import Counter
from collections.abc import Callable, Iterable
from contextlib import closing
from dataclasses import replace
from pathlib import Path
from typing import Any

import pytest
from asking import assert_as_store, undo
from clients import Site, site_of, text_of
from thesaurus_desk.journal import journal_of
from thesaurus_desk.journal.consistency import check
from thesaurus_desk.journal.past_replica import after_plan
from thesaurus_desk.journal.recovery import BY_OTHERS
from thesaurus_desk.journal.schema import APPLICATION, VERSION
from thesaurus_desk.store.plan_execution import Desk
from thesaurus_tools.table_store import TableStore, open_tables

DATA = Path(__file__).with_name("data")
FOLDERS = os.pathsep.join(it for it in sys.path if it)
# The plan that was sent when the desk was killed, and its requests.
LAST = 31
CUT: tuple[dict[str, Any], ...] = (
    {"do": "relabel", "owner": 15, "tag": "en", "text": "Flutes and fifes", "keep": True},
    {"do": "merge", "source": 18, "target": 19},
    {"do": "post", "key": "s-1", "record": "Fife, Basel 1790", "concept": 15},
)
# The plan that was taken back, the one that did so, the one that was refused, and one that withdrew a posting; and
# plans with what has another number since: a concept was merged, postings were withdrawn and re-indexed.
ASIDE, RENUMBERED = (4, 15, 28, 29), (5, 12, 13, 22)
ELSEWHERE = {"do": "addLabel", "owner": 5, "kind": "alt", "tag": "en", "text": "Made elsewhere"}


@pytest.fixture
def earlier(tmp_path: Path) -> Path:
    """A store with the journal of the desk before."""
    store = tmp_path / "museum.db"
    for path, name in ((store, "journal-1-store.sql"), (journal_of(store), "journal-1.sql")):
        with closing(sqlite3.connect(path)) as tables:
            tables.executescript((DATA / name).read_text(encoding="utf-8"))
            tables.execute("PRAGMA journal_mode = WAL")
    return store


def perform(program: str, store: Path, requests: Iterable[dict[str, Any]]) -> None:
    """Has the program perform requests, as another program would."""
    lines = "".join(json.dumps(it) + "\n" for it in requests)
    ran = subprocess.run(
        [program, "--db", str(store), "script"], input=lines.encode(), capture_output=True, check=False
    )
    assert ran.returncode == 0, ran.stdout


def old_rows(path: Path) -> dict[str, list[Any]]:
    """Returns what a file has in the tables that the desk before knows, and its version."""
    with closing(sqlite3.connect(":memory:")) as tables:
        tables.executescript((DATA / "journal-1.sql").read_text(encoding="utf-8"))
        names = [name for name, in tables.execute("SELECT name FROM sqlite_schema WHERE type = 'table'")]
    with closing(sqlite3.connect(path)) as tables:
        found = {it: tables.execute(f"SELECT * FROM {it}").fetchall() for it in sorted(names)}
        return {**found, "version": tables.execute("PRAGMA user_version").fetchall()}


def vocabulary_of(path: Path) -> Counter[tuple[Any, ...]]:
    """Returns what a thesaurus says of concepts in use: terms and links by terms, and records, without numbers."""
    with open_tables(path) as tables:
        store = TableStore(path, tables)
        live = {it.number for it in store.resources.values() if it.kind == "concept" and it.is_live}
        names: dict[Any, str] = {it.owner: it.text for it in store.labels if (it.kind, it.tag) == ("pref", "en")}
        found: list[tuple[Any, ...]] = [(names[it.owner], *it[1:]) for it in store.labels if it.owner in live]
        found += [
            (it.kind, *sorted(names.get(end, str(end)) for end in it[1:]))
            for it in store.links
            if live.intersection(it[1:])
        ]
        found += [(names[it.place], it.record) for it in store.each_posting() if not it.is_withdrawn]
    return Counter(found)


# --- the first start ---


@pytest.mark.parametrize("performed,state", [(3, "done"), (0, "lost"), (1, "unknown")])
def test_first_start(
    performed: int, state: str, earlier: Path, program: str, open_desk: Callable[[Path], Desk]
) -> None:
    """A copy stays, what was sent is settled by what each step has noted, and all else stays as it was."""
    perform(program, earlier, CUT[:performed])
    before = old_rows(journal_of(earlier))
    desk = open_desk(earlier)
    plan = desk.journal.plan(LAST)
    assert plan is not None and plan.state == state and [it.id for it in desk.found.settled] == [LAST]
    assert desk.found.changed == () and desk.found.restored is None
    if state == "done":
        assert [it.answer for it in plan.steps] == [{"done": True}, {"moved": 0}, {"ok": 154}]
    copy = earlier.with_name("museum-desk-1.sqlite")
    assert old_rows(copy) == before and copy.stat().st_mode & 0o777 == 0o600
    after = old_rows(journal_of(earlier))
    assert (before.pop("version"), after.pop("version")) == ([(1,)], [(VERSION,)])
    assert after.pop("seal") == [] != before.pop("seal")
    for name in ("plan", "step", "concern"):
        at = 1 if name == "concern" else 0
        assert [it for it in after[name] if it[at] != LAST] == [it for it in before.pop(name) if it[at] != LAST]
    assert {it: after[it] for it in before if it != "count"} == {it: before[it] for it in before if it != "count"}
    assert_as_store(desk)
    desk.stop()
    assert [it.endswith("nobody knows whether it was performed") for it in check(earlier)] == [True] * (performed == 1)


def test_an_earlier_desk_refuses_what_is_of_this_version(earlier: Path, open_desk: Callable[[Path], Desk]) -> None:
    """By its own test: the mark of a journal, and a version above 1."""
    open_desk(earlier).stop()
    with closing(sqlite3.connect(journal_of(earlier))) as tables:
        assert tables.execute("PRAGMA application_id").fetchone() == (APPLICATION,)
        assert tables.execute("PRAGMA user_version").fetchone()[0] > 1
    assert not list(earlier.parent.glob("*-1-1.sqlite"))


def test_what_other_programs_changed_before_the_first_start(
    earlier: Path, program: str, open_desk: Callable[[Path], Desk]
) -> None:
    """It is found by the digests that the desk before has noted, and isn't mistaken for the plan that was sent."""
    perform(program, earlier, [*CUT, ELSEWHERE])
    desk = open_desk(earlier)
    assert desk.found.changed == (5,) and [it.state for it in desk.found.settled] == ["done"]
    assert [it.action for it in desk.history.recent()][:2] == [BY_OTHERS, "test"]


def test_a_copy_of_another_state_stays(earlier: Path, open_desk: Callable[[Path], Desk]) -> None:
    """Somebody has gone back to the desk before, and now comes again."""
    copy = earlier.with_name("museum-desk-1.sqlite")
    copy.write_bytes(journal_of(earlier).read_bytes())
    with closing(sqlite3.connect(journal_of(earlier), isolation_level=None)) as tables:
        tables.execute("DELETE FROM step WHERE plan = ?", (LAST,))
        tables.execute("DELETE FROM plan WHERE id = ?", (LAST,))
    kept = copy.read_bytes()
    open_desk(earlier).stop()
    assert copy.read_bytes() == kept and not list(earlier.parent.glob("*-1-1.sqlite"))
    with closing(sqlite3.connect(journal_of(earlier), isolation_level=None)) as tables:
        tables.execute("PRAGMA user_version = 1")
        tables.execute("UPDATE plan SET note = 'later' WHERE id = 1")
    open_desk(earlier)
    assert copy.read_bytes() == kept
    (other,) = earlier.parent.glob("*-1-1.sqlite")
    with closing(sqlite3.connect(other)) as tables:
        assert tables.execute("SELECT note FROM plan WHERE id = 1").fetchone() == ("later",)


# --- kills ---


@pytest.mark.parametrize("point", ["copied", "tables", "replica", "settled", "begun"])
def test_kill_at_the_first_start(point: str, earlier: Path, program: str, open_desk: Callable[[Path], Desk]) -> None:
    """The file is one of the desk before with all that it had, or one of this version with all settled; the next start
    ends as if there had been no kill."""
    perform(program, earlier, [*CUT, ELSEWHERE])
    before = old_rows(journal_of(earlier))
    words = [sys.executable, str(Path(__file__).with_name("killed_start.py")), str(earlier), program, point]
    ran = subprocess.run(words, env={**os.environ, "PYTHONPATH": FOLDERS}, capture_output=True, check=False)
    assert ran.returncode == -signal.SIGKILL, ran.stderr.decode()
    if point == "begun":
        assert old_rows(journal_of(earlier))["version"] == [(VERSION,)]
    else:
        assert old_rows(journal_of(earlier)) == before
    assert old_rows(earlier.with_name("museum-desk-1.sqlite")) == before
    desk = open_desk(earlier)
    states = {it.id: (it.action, it.state) for it in desk.history.recent()}
    assert states[LAST] == ("test", "done") and states[LAST + 1] == (BY_OTHERS, "done") and LAST + 2 not in states
    about = desk.journal.all("SELECT number FROM concern WHERE plan = ?", LAST + 1)
    assert [it["number"] for it in about] == [5] and desk.journal.all("SELECT * FROM seal") == []
    assert not list(earlier.parent.glob("*-1-1.sqlite"))
    assert_as_store(desk)


# --- its steps from now on ---


def test_its_steps_are_read(earlier: Path, program: str, users: Path, open_desk: Callable[[Path], Desk]) -> None:
    """*Changes*, the histories of concepts, and the pages on which changes are taken back tell of them."""
    perform(program, earlier, CUT)
    desk = open_desk(earlier)
    anna = site_of(desk, users).client("anna")
    changes = text_of(anna.get("/changes")) + text_of(anna.get("/changes?before=10"))
    for said in ("april.csv", "Theorbos", "Flutes and fifes", "Trommeln der Bühne", "Fiddles of the concert hall"):
        assert said in changes, said
    sentences = [text_of(anna.get(f"/changes/{it}/back")) for it in range(1, LAST + 1)]
    assert len(set(sentences)) >= LAST - 1 and not any("KeyError" in it or "None" in it for it in sentences)
    assert len(list(csv.DictReader(io.StringIO(anna.get("/changes.csv").text)))) >= LAST
    for number in desk.replica.numbers("concept"):
        assert anna.get(f"/c/{number}").status_code == 200, number


def test_its_changes_are_taken_back(
    earlier: Path, program: str, instruments_store: Path, open_desk: Callable[[Path], Desk]
) -> None:
    """From the last to the first: what is in use says in the end what it said in the beginning."""
    perform(program, earlier, CUT)
    desk = open_desk(earlier)
    for number in reversed(range(1, LAST + 1)):
        plan = desk.journal.plan(number)
        assert plan is not None
        if number in ASIDE or plan.first:
            continue
        back = desk.take_back(plan)
        assert bool(back.requests) is (number not in RENUMBERED)
        if number in RENUMBERED:
            continue
        outcome = undo(desk, "anna", back)
        assert outcome.is_done, (number, plan.action, outcome.answer)
    assert_as_store(desk)
    desk.stop()
    left = Counter(
        [
            ("related", "Guitars", "Harps"),
            ("Harps", "Guitar, Paris 1640"),
            *(("Violas", f"Viola, inventory {it}") for it in range(1, 71)),
        ]
    )
    assert vocabulary_of(earlier) - left == vocabulary_of(instruments_store)
    assert left <= vocabulary_of(earlier)


# --- what was, in its time ---

# Plans that made a concept, merged one, and ended one; and resources.
NEW_CONCEPT, MERGED, ENDED = 8, 25, 27
THEORBOS, GUITARS, HARPS, TRUMPETS = 41, 10, 11, 21


def vocabulary_after(desk: Desk, plan: int) -> dict[int, Any]:
    """Returns what each resource said after a plan, but for records."""
    with after_plan(desk.replica, plan) as past, past.reading():
        views = (past.view(it) for it in range(1, desk.replica.counts()["resources"] + 1))
        return {it.number: replace(it, postings=0) for it in views if it is not None}


def test_what_was_before_it_began(
    earlier: Path, program: str, instruments_store: Path, open_desk: Callable[[Path], Desk], tmp_path: Path
) -> None:
    """All that its plans have changed is taken back: what the store held when the journal began."""
    perform(program, earlier, CUT)
    desk = open_desk(earlier)
    before = tmp_path / "before" / "museum.db"
    before.parent.mkdir()
    before.write_bytes(instruments_store.read_bytes())
    assert vocabulary_after(desk, 0) == vocabulary_after(open_desk(before), 0)
    assert_as_store(desk)


def test_what_was_after_each_of_its_plans(earlier: Path, program: str, open_desk: Callable[[Path], Desk]) -> None:
    """What each plan changed, and nothing else, differs from what was before it."""
    perform(program, earlier, CUT)
    desk = open_desk(earlier)
    last = vocabulary_after(desk, 0)
    for number in range(1, LAST + 1):
        now, plan = vocabulary_after(desk, number), desk.journal.plan(number)
        assert plan is not None
        differing = {it for it in now if now[it] != last.get(it)}
        concerned = set[int]().union(*(it.numbers for it in plan.steps if it.state == "done"))
        assert differing <= concerned, number
        changes = desk.journal.all("SELECT number FROM concern WHERE plan = ? AND changes = 1", number)
        assert {it["number"] for it in changes} <= differing, number
        last = now


def on_days(earlier: Path, *plans: int) -> None:
    """Has plans up to each of some be of one day, the first of them 1 March 2026."""
    with closing(sqlite3.connect(journal_of(earlier), isolation_level=None)) as tables:
        for day, (first, last) in enumerate(zip((0, *plans), (*plans, LAST)), 1):
            tables.execute(
                f"UPDATE plan SET at = '2026-03-0{day}' || substr(at, 11) WHERE id > ? AND id <= ?", (first, last)
            )


def page_text(site: Site, path: str) -> str:
    return " ".join(text_of(site.client("anna").get(path)).split())


def test_a_page_shows_what_was_in_its_time(
    earlier: Path, program: str, users: Path, open_desk: Callable[[Path], Desk]
) -> None:
    on_days(earlier, NEW_CONCEPT - 1, NEW_CONCEPT, MERGED - 1, ENDED - 1)
    perform(program, earlier, CUT)
    site = site_of(open_desk(earlier), users)
    assert "It wasn’t there yet." in page_text(site, f"/c/{THEORBOS}/past?day=2026-03-01")
    text = page_text(site, f"/c/{THEORBOS}/past?day=2026-03-02")
    assert "Chitarrones" in text and "Lutes with two pegboxes." in text and "isn’t known" not in text
    for day, is_merged in (("2026-03-03", False), ("2026-03-04", True)):
        page = site.client("anna").get(f"/c/{HARPS}/past?day={day}").text
        assert (f'href="/c/{GUITARS}/past?' in page) is not is_merged, "they were related"
        assert ("Gitarren" in page) is is_merged, "a term of the one that was merged"
    assert "merged" not in page_text(site, f"/c/{GUITARS}/past?day=2026-03-03")
    assert "merged" in page_text(site, f"/c/{GUITARS}/past?day=2026-03-04")
    for day, is_there in (("2026-03-04", True), ("2026-03-05", False)):
        tree = site.client("anna").get(f"/tree/past?day={day}&at=20").text
        assert (f'href="/c/{TRUMPETS}/past?day={day}"' in tree) is is_there and "isn’t known" not in tree
    table = site.client("anna").get("/tree/past?day=2026-03-03&until=2026-03-04&format=csv").text
    assert ("merged", str(GUITARS)) in {tuple(it[:2]) for it in csv.reader(io.StringIO(table.removeprefix("\ufeff")))}


def test_steps_that_do_not_say_what_was(
    earlier: Path, program: str, users: Path, open_desk: Callable[[Path], Desk]
) -> None:
    """A plan of which a step has noted nothing is named, with its time, and what it changed is shown as after it."""
    on_days(earlier, MERGED - 1, ENDED - 1)
    perform(program, earlier, CUT)
    with closing(sqlite3.connect(journal_of(earlier), isolation_level=None)) as tables:
        tables.execute("UPDATE step SET kept = NULL WHERE plan = ?", (MERGED,))
    site = site_of(open_desk(earlier), users)
    for path in (f"/c/{GUITARS}/past", "/tree/past"):
        text = page_text(site, f"{path}?day=2026-03-01")
        assert "isn’t known" in text and "It is known from 2026-03-02" in text, path
        assert "isn’t known" not in page_text(site, f"{path}?day=2026-03-02")
    assert "merged" in page_text(site, f"/c/{GUITARS}/past?day=2026-03-01")
    assert "isn’t known" not in page_text(site, f"/c/{THEORBOS}/past?day=2026-03-01")
