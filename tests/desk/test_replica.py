"""The replica: after each plan and at each start it has what one has that is made anew of the store."""
from __future__ import annotations

import contextlib
import json
import shutil
import sqlite3
import subprocess
from collections import Counter
from collections.abc import Callable, Iterator
from concurrent.futures import ThreadPoolExecutor
from pathlib import Path
from typing import Any

import pytest
from as_built import assert_as_built
from as_plain import as_plain
from asking import assert_as_store
from conftest import BASE
from plain import Plain
from thesaurus_desk.journal import journal_of
from thesaurus_desk.store import upkeep
from thesaurus_desk.store.changes import Change, Changes, WrongChange
from thesaurus_desk.store.difference import attach_store, differences
from thesaurus_desk.store.plan_execution import Desk
from thesaurus_tools.command_line import ToolError
from thrown_plans import Plans

PLANS = 300
# Texts that fold, sort and part into words in their own ways.
TEXTS = (
    *("Violin", "violins", "vioIin", "Viola da gamba", "Geige", "Straße", "STRASSE", "é Clair", "a_b c", "x² Ωμ"),
    *("№ 5", "ﬁn", "İstanbul", "楽器", "C++", "Cello solo", "cello", "ab"),
)
RECORDS = ("r1", "R1", "Record 1", "record 12 1", "É xy r", "x y é", "12/3")
LIMITS = ("resources", "labels", "links", "postings", "moves")


class Thrown(Plans):
    """Throws plans with more kinds of texts."""

    def word(self) -> dict[str, Any]:
        its = super().word()
        text = self.pick(TEXTS)
        tag = self.pick(("de", "en", "en", "de-at", "fr"))
        return {"tag": tag, "text": text if self.one_in(2) else f"{text} {its['text']}"}

    def posting(self, plain: Plain) -> dict[str, Any]:
        found = super().posting(plain)
        name = f"{self.pick(RECORDS)} {self.below(4)}" if self.one_in(2) else self.pick(RECORDS)
        return {**found, "record": name} if found["do"] == "post" else found

    def requests(self, desk: Desk) -> list[dict[str, Any]]:
        """The requests of a plan; merges are likelier than by the dice alone."""
        plain = as_plain(desk.replica)
        plain.limits = dict.fromkeys(LIMITS, 10**9)
        if self.one_in(8) and len(plain.resources) > 10:
            source, target = self.ends(plain.refuses_merge, len(plain.resources))
            return [{"do": "merge", "source": source, "target": target}]
        while True:
            plan = self.plan(plain, self.length())
            if all(is_form(it, place) for place, it in enumerate(plan, 1)):
                return plan


def is_form(request: dict[str, Any], place: int) -> bool:
    """Whether a request refers to none but those before it in its plan."""
    values = [it for value in request.values() for it in (value if isinstance(value, list) else [value])]
    refers = [int(it[1:]) for it in values if isinstance(it, str) and it[:1] == "$"]
    return all(0 < it < place for it in refers)


def test_thrown_plans(room: Path, open_desk: Callable[[Path], Desk]) -> None:
    desk = open_desk(room / "random.db")
    dice, seen = Thrown(1), Counter[str]()
    for turn in range(PLANS):
        outcome = desk.perform("anna", "test", dice.requests(desk))
        seen.update(it.request["do"] for it in outcome.steps if outcome.is_done)
        if turn % 75 == 0:
            assert_as_built(desk.journal.path, desk.db, room)
            assert_as_store(desk)
    for do in ("merge", "split", "deprecate", "relabel", "link", "unlink", "post", "withdraw", "addLabel", "dropLabel"):
        assert seen[do] > 1, seen
    desk.stop()
    assert_as_built(desk.journal.path, desk.db, room)


# --- the start ---


@pytest.fixture
def compared(monkeypatch: pytest.MonkeyPatch) -> Iterator[list[Any]]:
    """What was found each time that a replica was compared with its store row by row."""
    found: list[Any] = []

    def noted(rows: sqlite3.Connection) -> Any:
        found.append(differences(rows))
        return found[-1]

    monkeypatch.setattr(upkeep, "differences", noted)
    yield found


def test_start_of_an_unchanged_store(store: Path, open_desk: Callable[[Path], Desk], compared: list[Any]) -> None:
    desk = open_desk(store)
    assert desk.perform("anna", "test", [{"do": "post", "key": "k-1", "record": "Violin", "concept": 5}]).is_done
    desk.stop()
    again = open_desk(store)
    assert compared == []
    assert_as_store(again)


def change_by_other_means(program: str, store: Path, *requests: dict[str, Any]) -> None:
    """Has the program change a store that no desk has open."""
    script = "".join(json.dumps(it) + "\n" for it in requests).encode()
    ran = subprocess.run([program, "--db", str(store), "script"], input=script, capture_output=True, check=False)
    assert ran.returncode == 0, ran.stdout


def test_changes_by_other_means(
    store: Path, program: str, open_desk: Callable[[Path], Desk], compared: list[Any]
) -> None:
    desk = open_desk(store)
    numbers = desk.replica.numbers("concept", live=True)
    desk.stop()
    label = {"do": "addLabel", "owner": numbers[3], "kind": "alt", "tag": "en", "text": "Made elsewhere"}
    post = {"do": "post", "key": "k-else", "record": "From elsewhere", "concept": numbers[4]}
    merge = {"do": "merge", "source": numbers[-1], "target": numbers[5]}
    change_by_other_means(program, store, label, post, merge)
    again = open_desk(store)
    assert len(compared) == 1 and {it.table for it in compared[0]} >= {"label", "posting", "resource"}
    assert again.replica.named("made elsewhere")[0].number == numbers[3]
    assert again.replica.postings.records_like("elsewhere") == ["From elsewhere"]
    assert set(numbers[3:6]) <= set(again.found.changed)
    assert_as_store(again)


def test_store_restored_from_a_backup(store: Path, tmp_path: Path, open_desk: Callable[[Path], Desk]) -> None:
    shutil.copy(store, tmp_path / "backup.db")
    desk = open_desk(store)
    made = [{"do": "scheme", "tag": "en", "text": "Later"}, {"do": "concept", "scheme": "$1", "tag": "en", "text": "L"}]
    assert desk.perform("anna", "test", made).is_done
    assert desk.perform("anna", "test", [{"do": "post", "key": "k-9", "record": "Later", "concept": 5}]).is_done
    desk.stop()
    for path in store.parent.glob(f"{store.name}*"):
        path.unlink()
    shutil.copy(tmp_path / "backup.db", store)
    again = open_desk(store)
    assert_as_store(again)
    again.stop()
    assert_as_built(again.journal.path, store, tmp_path)


@pytest.mark.parametrize("spoil", ["UPDATE replica SET value = 'x' WHERE name = 'unicode'", "DROP TABLE replica"])
def test_replica_of_another_version(spoil: str, store: Path, open_desk: Callable[[Path], Desk]) -> None:
    """It is made anew, also where other rows than those of the store are in it."""
    desk = open_desk(store)
    plans = len(desk.journal.plans("SELECT * FROM plan"))
    desk.stop()
    with contextlib.closing(sqlite3.connect(desk.journal.path)) as rows:
        rows.execute("DELETE FROM label WHERE owner = 5")
        rows.execute(spoil)
        rows.commit()
    again = open_desk(store)
    assert_as_store(again)
    assert len(again.journal.plans("SELECT * FROM plan")) == plans


# --- the changes of a plan ---

WRONG: list[list[Change]] = [
    [["insert", "label", 5, 1, "en", "New"], ["insert", "label", 5, 1, "en", "New"]],
    [["delete", "label", 5, 1, "en", "no such label"]],
    [["delete", "link", 2, 5, 6]],
    [["delete", "posting", 1, "k", "r", 5, 5, 0]],
    [["insert", "resource", 1, 2, 1, 1, None]],
    [["insert", "resource", 1]],
    [["insert", "plan", 1]],
    [["retire", 1]],
    [["replace", 10**6, 5]],
    [["withdraw", 10**6]],
    [["place", 10**6, 5]],
    [["rename", 5]],
    [],
]


@pytest.mark.parametrize("changes", [it for it in WRONG if it])
def test_wrong_changes_change_nothing(desk: Desk, tmp_path: Path, changes: list[Change]) -> None:
    with pytest.raises(WrongChange):
        with desk.journal.writing() as rows:
            Changes(rows).make([["insert", "label", 5, 2, "en", "Left over"], *changes])
    desk.stop()
    assert_as_built(desk.journal.path, desk.db, tmp_path)


def test_a_replica_that_is_wrong_is_mended(desk: Desk, caplog: pytest.LogCaptureFixture) -> None:
    """The plan is done, and the journal says so."""
    with desk.journal.writing() as rows:
        rows.execute("UPDATE resource SET live = 0 WHERE num = 5")
    outcome = desk.perform("anna", "test", [{"do": "deprecate", "concept": 5}])
    plan = desk.journal.plan(outcome.plan or 0)
    assert outcome.is_done and plan is not None and plan.state == "done"
    assert "the replica was wrong about ['retire', 5]" in caplog.text
    assert_as_store(desk)


def test_a_moment_and_the_next_one(desk: Desk) -> None:
    """Who reads at one moment sees nothing of a plan that is performed meanwhile."""
    label = {"do": "addLabel", "owner": 5, "kind": "alt", "tag": "en", "text": "Seen later"}
    with desk.replica.reading(), ThreadPoolExecutor(1) as other:
        before = desk.replica.view(5)
        assert other.submit(desk.perform, "anna", "test", [label]).result().is_done
        assert desk.replica.view(5) == before and desk.replica.named("seen later") == []
        desk.replica.renew()
        after = desk.replica.view(5)
        assert after and ("en", "Seen later") in after.alt
    assert [it.number for it in desk.replica.named("seen later")] == [5]


# --- parts of words, and notes ---


def test_parts_of_words_and_notes(desk: Desk) -> None:
    note = "Bowed instruments with four strings, held under the chin"
    requests = [
        {"do": "addLabel", "owner": 5, "kind": "alt", "tag": "de", "text": "Zupfquartettgeige"},
        {"do": "addLabel", "owner": 5, "kind": "scope", "tag": "en", "text": note},
    ]
    assert desk.perform("anna", "test", requests).is_done
    find = desk.replica.index
    asked = find_asked()
    assert [it.number for it in find.find_part("PFQUA", asked)] == [5]
    assert find.find_part("ic", asked) == [] and find.find_part("quazupf", asked) == []
    assert [(it.number, it.kind) for it in find.find_notes("chin strin", asked)] == [(5, "scope")]
    assert find.find_notes("chin horn", asked) == [] and find.find_notes("()", asked) == []
    assert desk.perform("anna", "test", [{**it, "do": "dropLabel"} for it in requests]).is_done
    assert find.find_part("PFQUA", asked) == [] and find.find_notes("chin", asked) == []


def find_asked() -> Any:
    from thesaurus_desk.store.search import LabelFilter

    return LabelFilter()


def test_no_desk_opens_a_newer_journal(desk: Desk, open_desk: Callable[[Path], Desk]) -> None:
    desk.stop()
    with contextlib.closing(sqlite3.connect(journal_of(desk.db))) as rows:
        rows.execute("PRAGMA user_version = 3")
    with pytest.raises(ToolError, match="museum-desk.sqlite: a newer desk wrote this journal"):
        open_desk(desk.db)


def test_base_is_kept(desk: Desk) -> None:
    assert desk.replica.base == BASE


def test_store_is_attached_with_its_log(desk: Desk, tmp_path: Path) -> None:
    """A store whose log holds what its file lacks is read whole, and neither of them changes."""
    assert desk.perform("anna", "test", [{"do": "post", "key": "k-1", "record": "Violin", "concept": 5}]).is_done
    for path in desk.db.parent.glob(f"{desk.db.name}*"):
        shutil.copy(path, tmp_path / path.name.replace("museum", "copied"))
    copied = tmp_path / "copied.db"
    log = Path(f"{copied}-wal")
    assert log.exists() and log.stat().st_size > 1000
    was = copied.read_bytes(), log.read_bytes()
    with contextlib.closing(sqlite3.connect(":memory:", isolation_level=None, uri=True)) as rows:
        with attach_store(rows, copied):
            assert rows.execute("SELECT record FROM store.posting WHERE pkey = 'k-1'").fetchone() == ("Violin",)
    assert (copied.read_bytes(), log.read_bytes()) == was
