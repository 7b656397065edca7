"""An answer that never comes, to each kind of plan: what was performed is found out, and nothing is done twice."""
from __future__ import annotations

import os
import shutil
import signal
import subprocess
from collections.abc import Iterator
from pathlib import Path
from typing import Any

import pytest
from asking import assert_as_store, undo
from between import HOWS, Between
from thesaurus_desk.journal.consistency import check
from thesaurus_desk.journal.recovery import BY_OTHERS
from thesaurus_desk.journal.values import set_request
from thesaurus_desk.store import open_store
from thesaurus_desk.store.plan_execution import Desk
from thesaurus_tools.command_line import ToolError
from whole import postings, resources

Request = dict[str, Any]


@pytest.fixture
def between(tmp_path: Path, program: str) -> Between:
    """What the desk takes for the program."""
    return Between(tmp_path, program)


@pytest.fixture
def cut_desk(store: Path, between: Between) -> Iterator[Desk]:
    """A desk whose answers can be cut off, and which waits some seconds for them."""
    desk = Desk(store, str(between.path), patience=4)
    desk.start()
    yield desk
    desk.stop()


def label(do: str, owner: int | str, kind: str, text: str) -> Request:
    return {"do": do, "owner": owner, "kind": kind, "tag": "en", "text": text}


def link(do: str, kind: str, a: int | str, b: int | str) -> Request:
    return {"do": do, "kind": kind, "a": a, "b": b}


CONCEPT = {"do": "concept", "scheme": 1, "tag": "en", "text": "Nyckelharpas"}
PLANS: dict[str, list[Request]] = {
    "scheme": [{"do": "scheme", "tag": "en", "text": "Rooms"}],
    "collection": [{"do": "collection", "scheme": 1, "tag": "en", "text": "Room 12"}],
    "outside": [{"do": "outside", "iri": "http://www.wikidata.org/entity/Q1467960"}],
    "concept": [CONCEPT],
    "new concept": [CONCEPT, link("link", "broader", "$1", 4), label("addLabel", "$1", "alt", "Keyed fiddles")],
    "addLabel": [label("addLabel", 5, "scope", "Bowed.")],
    "dropLabel": [label("dropLabel", 5, "pref", "Violins")],
    "relabel": [{"do": "relabel", "owner": 5, "tag": "en", "text": "Fiddles of old", "keep": True}],
    "link": [link("link", "related", 5, 11)],
    "plain link beside a typed one": [link("link", "broader", 5, 4)],
    "unlink": [link("unlink", "broaderGeneric", 5, 4)],
    "move": [link("link", "broader", 5, 9), link("unlink", "broaderGeneric", 5, 4)],
    "merge": [{"do": "merge", "source": 6, "target": 5}],
    "merge with a note": [label("addLabel", 5, "scope", "Both."), {"do": "merge", "source": 6, "target": 5}],
    "split": [{"do": "split", "source": 5, "tag": "en", "text": "Old violins", "postings": [1]}],
    "deprecate": [{"do": "deprecate", "concept": 7}],
    "post": [{"do": "post", "key": "p-1", "record": "Violin 1668", "concept": 5}],
    "posted before": [{"do": "post", "key": "k-1", "record": "Violin 1700", "concept": 5}],
    "withdraw": [{"do": "withdraw", "posting": 1}],
    "re-index": [
        {"do": "post", "key": "p-1", "record": "Violin 1700", "concept": 7},
        {"do": "withdraw", "posting": 1},
    ],
    "new concept with values": [
        CONCEPT,
        set_request("$1", "definition", "en", new="A keyed fiddle."),
        set_request(5, "notation", "", new="321.322"),
    ],
    "merge that copies": [
        set_request(5, "definition", "en", new="Both.\nIn two lines."),
        {"do": "merge", "source": 6, "target": 5},
        set_request(5, "definition", "en", old="Both.\nIn two lines.", new="Both"),
    ],
    "refused": [label("addLabel", 5, "alt", "Fiddles of old"), link("link", "broader", 3, 5)],
    "changes nothing": [link("link", "related", 5, 11), link("unlink", "related", 5, 11)],
}


# The values that plans leave.
VALUES = {
    "new concept with values": {("definition", "A keyed fiddle."), ("notation", "321.322")},
    "merge that copies": {("definition", "Both")},
}


def prepare(desk: Desk) -> None:
    """Gives the store the posting that the plans need."""
    assert desk.perform("anna", "test", [{"do": "post", "key": "k-1", "record": "Violin 1700", "concept": 5}]).is_done


def assert_right(desk: Desk) -> None:
    """The replica is as the store, and the journal agrees with it."""
    assert_as_store(desk)
    desk.stop()
    assert check(desk.db) == []


@pytest.mark.parametrize("how", HOWS)
@pytest.mark.parametrize("name", PLANS)
def test_dropped(name: str, how: str, cut_desk: Desk, between: Between) -> None:
    desk, plan = cut_desk, PLANS[name]
    prepare(desk)
    before = desk.replica.counts(), {it: desk.replica.view(it) for it in resources(desk.replica)}
    between.once(how)
    outcome = desk.perform("anna", name, plan)
    between.once("pass")
    is_lost = how == "request" or name in ("posted before", "changes nothing")
    # (what is refused isn't sent)
    assert outcome.state == ("refused" if name == "refused" else "lost" if is_lost else "done"), outcome
    kept = desk.journal.plan(outcome.plan or 0)
    assert kept is not None and kept.state == outcome.state
    assert [it.answer for it in kept.steps] == [it.answer for it in outcome.steps]
    values = {(it.field, it.text) for it in desk.values.each()}
    if outcome.is_done:
        assert [it.state for it in outcome.steps] == ["done"] * len(plan)
        assert values == VALUES.get(name, set())
    else:
        assert values == set()
        views = {it: desk.replica.view(it) for it in resources(desk.replica)}
        assert (desk.replica.counts(), views) == before
    assert BY_OTHERS not in [it.action for it in desk.history.recent()]
    assert desk.perform("anna", "test", [label("addLabel", 9, "alt", "Some more")]).is_done
    assert_right(desk)


def test_silent(cut_desk: Desk, between: Between) -> None:
    """A program that is silent is ended, so that its answer can't be taken for the next one's."""
    between.once("silent")
    outcome = cut_desk.perform("anna", "test", PLANS["new concept"])
    assert outcome.is_done and len(outcome.steps) == 3
    other = cut_desk.perform("anna", "test", PLANS["collection"])
    assert other.is_done and other.made == (outcome.made or 0) + 1
    assert_right(cut_desk)


def test_stopped(store: Path, program: str) -> None:
    """A program that doesn't even read is ended, too, also in the midst of a line that no pipe holds."""
    desk = Desk(store, program, patience=1)
    desk.start()
    notes = [label("addLabel", 5, "scope", f"{it} {'x' * 1900}") for it in range(100)]
    for plan in (PLANS["new concept"], notes):
        assert desk.program.child is not None
        os.kill(desk.program.child.pid, signal.SIGSTOP)
        assert desk.perform("anna", "test", plan).state == "lost"
        desk.program.patience = 60
        assert desk.perform("anna", "test", plan).is_done
        desk.program.patience = 1
    assert_right(desk)


def test_no_program(desk: Desk, monkeypatch: pytest.MonkeyPatch) -> None:
    """A program that can't be started again: nothing is sent and nothing written down, and it is tried again later."""
    monkeypatch.setattr(open_store, "PAUSE", 3600.0)
    path, desk.program.path = desk.program.path, "/nothing"
    desk.program.stop()
    plans = [it.id for it in desk.history.recent()]
    for _ in range(2):
        outcome = desk.perform("anna", "test", PLANS["new concept"])
        assert (outcome.state, outcome.answer) == ("fault", {"fault": "Closed"})
        assert desk.bring_in("anna", ROWS, "rows.csv").answer == {"fault": "Closed"}
    assert desk.replica.view(5) is not None and [it.id for it in desk.history.recent()] == plans
    desk.program.path = path
    assert desk.perform("anna", "test", PLANS["new concept"]).answer == {"fault": "Closed"}
    desk.not_before = 0.0
    assert desk.perform("anna", "test", PLANS["new concept"]).is_done
    assert_right(desk)


def test_settled_as_soon_as_the_program_is_there(
    cut_desk: Desk, between: Between, program: str, monkeypatch: pytest.MonkeyPatch
) -> None:
    """An answer that is lost together with the program is found out later, without a new start of the desk."""
    monkeypatch.setattr(open_store, "PAUSE", 0.0)
    desk = cut_desk
    between.once("answer")
    start = desk.program.start
    monkeypatch.setattr(desk.program, "start", failing)
    outcome = desk.perform("anna", "test", PLANS["new concept"])
    # (the store itself shows it)
    assert outcome.state == "done" and desk.journal.open_plans() == []
    assert desk.perform("anna", "test", PLANS["collection"]).answer == {"fault": "Closed"}
    monkeypatch.setattr(desk.program, "start", start)
    assert desk.perform("anna", "test", PLANS["collection"]).is_done
    kept = desk.journal.plan(outcome.plan or 0)
    assert kept is not None and kept.state == "done" and desk.journal.open_plans() == []
    assert [it.action for it in desk.history.recent()] == ["test", "test"]
    assert_right(desk)


def failing() -> None:
    """What starts no program."""
    raise ToolError("it can't be started")


def test_program_dies_between_requests(desk: Desk) -> None:
    """A program that has ended is started again by the next request."""
    assert desk.program.child is not None
    desk.program.child.kill()
    desk.program.child.wait()
    assert desk.perform("anna", "test", PLANS["new concept"]).is_done
    assert_right(desk)


def test_two_desks(desk: Desk, program: str) -> None:
    with pytest.raises(ToolError, match="another desk has this journal open"):
        Desk(desk.db, program).start()


def kill(desk: Desk) -> None:
    """Kills the program of a desk."""
    assert desk.program.child is not None
    desk.program.child.kill()
    desk.program.child.wait()


def files_of(store: Path) -> list[Path]:
    """The files of a store."""
    return [it for it in (store, Path(f"{store}-wal")) if it.exists()]


def test_a_backup_put_in_place_of_the_store(desk: Desk, tmp_path: Path) -> None:
    """A desk that goes on looks at the store first: what a page was made of isn't done to what is there now."""
    backup = tmp_path / "backup"
    backup.mkdir()
    desk.program.stop()
    for it in files_of(desk.db):
        shutil.copy(it, backup)
    posts = [{"do": "post", "key": f"k-{it}", "record": f"Record {it}", "concept": 5} for it in range(2)]
    assert desk.perform("anna", "test", posts).is_done
    mine = desk.replica.postings.with_key("k-1")
    assert mine is not None
    kill(desk)
    for it in files_of(desk.db):
        it.unlink()
    for it in backup.iterdir():
        shutil.copy(it, desk.db.parent)
    script = b"".join(b'{"do":"post","key":"o-%d","record":"Other %d","concept":6}\n' % (it, it) for it in range(2))
    words = [desk.program.path, "--db", str(desk.db), "script"]
    subprocess.run(words, input=script, stdout=subprocess.DEVNULL, check=True)
    withdraw = [{"do": "withdraw", "posting": mine.number}]
    outcome = desk.perform("anna", "test", withdraw)
    assert (outcome.state, outcome.answer) == ("fault", {"fault": "Replaced"})
    others = [it.key for it in desk.replica.postings.page_at(6)]
    assert others[-2:] == ["o-0", "o-1"], "another's posting isn't withdrawn"
    last = desk.history.recent()[0]
    assert last.action == BY_OTHERS and set(desk.found.changed) == {5, 6}
    assert desk.perform("anna", "test", PLANS["new concept"]).is_done
    assert_as_store(desk)


def test_a_store_that_is_gone_isn_t_made(desk: Desk, tmp_path: Path) -> None:
    """As when a disk isn't mounted: changes are refused until the files are there again."""
    kill(desk)
    for it in files_of(desk.db):
        it.rename(tmp_path / f"away-{it.name}")
    for _ in range(2):
        desk.not_before = 0.0
        outcome = desk.perform("anna", "test", PLANS["new concept"])
        assert (outcome.state, outcome.answer) == ("fault", {"fault": "Closed"}) and not desk.db.exists()
    desk.db.touch()
    desk.not_before = 0.0
    assert desk.perform("anna", "test", PLANS["new concept"]).answer == {"fault": "Closed"}
    assert desk.db.stat().st_size == 0
    for it in tmp_path.glob("away-*"):
        it.rename(it.with_name(it.name.removeprefix("away-")))
    desk.not_before = 0.0
    assert desk.perform("anna", "test", PLANS["new concept"]).is_done
    assert_right(desk)


def test_after_many_lines(desk: Desk, monkeypatch: pytest.MonkeyPatch) -> None:
    """The program is started anew before it has had as many lines as it takes, and when it isn't used, if possible."""
    monkeypatch.setattr(open_store, "LAST_LINE", 4)
    children = set()
    for it in range(12):
        assert desk.perform("anna", "test", [label("addLabel", 5, "alt", f"Name {it}")]).is_done
        assert desk.program.child is not None and desk.program.lines <= 5
        children.add(desk.program.child.pid)
    assert len(children) > 2 and BY_OTHERS not in [it.action for it in desk.history.recent()]
    monkeypatch.setattr("thesaurus_desk.store.plan_execution.MOST_LINES", 1)
    desk.renew()
    assert desk.program.child is not None and desk.program.child.pid not in children and desk.program.lines == 1
    kill(desk)
    desk.renew()
    assert not desk.program.has_ended()
    assert_right(desk)


def test_a_line_that_is_too_long(desk: Desk) -> None:
    """It would end the program, so it isn't sent."""
    child, plans = desk.program.child, len(desk.history.recent())
    outcome = desk.perform("anna", "test", [label("addLabel", 5, "scope", "x" * 9_000) for _ in range(128)])
    assert (outcome.state, outcome.answer) == ("refused", {"bad": "TooLong"})
    assert desk.program.child is child and not desk.program.has_ended()
    assert len(desk.history.recent()) == plans
    assert_right(desk)


def test_numbers_that_weren_t_foreseen(desk: Desk) -> None:
    """As when another program wrote to the store, which none can while the desk's has it: the store is read again, and
    what is other is in the history."""
    kill(desk)
    script = b'{"do":"post","key":"o-1","record":"Other","concept":6}\n'
    words = [desk.program.path, "--db", str(desk.db), "script"]
    subprocess.run(words, input=script, stdout=subprocess.DEVNULL, check=True)
    desk.program.start()
    desk.note_store()
    assert desk.perform("anna", "test", PLANS["post"]).is_done
    assert [it.key for it in postings(desk.replica)[-2:]] == ["o-1", "p-1"]
    by_others, mine = sorted(desk.history.recent()[:2], key=lambda it: it.action != BY_OTHERS)
    assert (by_others.action, mine.action) == (BY_OTHERS, "test") and desk.found.changed == (6,)
    assert_right(desk)


def test_a_program_without_plans(store: Path, program: str, tmp_path: Path) -> None:
    """An older program, which has no such option, is refused by its name."""
    old = tmp_path / "thesaurus"
    old.write_text("#!/bin/sh\necho \"error: unexpected argument '--plans' found\" >&2\nexit 2\n", encoding="utf-8")
    old.chmod(0o755)
    with pytest.raises(ToolError, match=f"{old}: this program takes no plans"):
        Desk(store, str(old)).start()


ROWS = b"key,record,concept\n" + b"".join(b"k%d,Record %d,5\n" % (it, it) for it in range(300))


@pytest.mark.parametrize("how", HOWS)
def test_import_dropped(how: str, cut_desk: Desk, between: Between) -> None:
    """What was cut off of an import is sent again: each row is posted once."""
    desk = cut_desk
    between.once(how)
    brought = desk.bring_in("anna", ROWS, "rows.csv")
    assert brought.state == "done" and len(brought.rows) == 300 and not brought.failed
    # (the answer of a slow program may be lost, too)
    assert set(brought.counts) <= {"new", "again"} and ("again" in brought.counts or how == "request")
    plan = desk.journal.plan(brought.plan or 0)
    assert plan is not None and plan.state == "done" and desk.replica.postings.count_at(5) == 300
    assert BY_OTHERS not in [it.action for it in desk.history.recent()]
    again = desk.bring_in("anna", ROWS, "rows.csv")
    assert again.state == "done" and again.counts == {"again": 300}
    assert undo(desk, "ben", desk.take_back(plan)).is_done
    assert desk.replica.postings.count_at(5) == 0
    assert_right(desk)


def test_import_without_a_program(cut_desk: Desk, between: Between, monkeypatch: pytest.MonkeyPatch) -> None:
    """It is sent again as soon as the program is there."""
    monkeypatch.setattr(open_store, "PAUSE", 0.0)
    desk = cut_desk
    between.once("answer")
    start = desk.program.start
    monkeypatch.setattr(desk.program, "start", failing)
    assert desk.bring_in("anna", ROWS, "rows.csv").state == "unknown"
    monkeypatch.setattr(desk.program, "start", start)
    assert desk.perform("anna", "test", PLANS["collection"]).is_done
    assert desk.replica.postings.count_at(5) == 300 and desk.journal.open_plans() == []
    assert_right(desk)
