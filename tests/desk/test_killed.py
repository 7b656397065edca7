"""The desk killed at each step of each plan: nothing acknowledged is lost, nothing is doubled, and the journal says
what is."""
from __future__ import annotations

import json
import os
import signal
import sqlite3
import subprocess
import sys
import time
from collections.abc import Callable
from contextlib import closing
from pathlib import Path
from typing import Any

import pytest
from asking import undo
from program import ROOT
from test_lost_answers import PLANS
from thesaurus_desk.journal import journal_of
from thesaurus_desk.journal.consistency import check
from thesaurus_desk.journal.recovery import BY_OTHERS
from thesaurus_desk.store.plan_execution import Desk
from thesaurus_tools.program import is_in_use
from whole import postings, resources

CHANGE_NOTHING = ("posted before", "changes nothing", "refused")


def run_killed(store: Path, program: str, plan: list[dict[str, Any]] | str, point: str) -> None:
    """Runs a desk that is killed at a point, and waits until its program has ended, too."""
    words = [str(ROOT / "tests/desk/killed_desk.py"), str(store), program, json.dumps(plan), point]
    paths = os.pathsep.join(str(ROOT / it) for it in ("desk", "tools"))
    ran = subprocess.run([sys.executable, *words], env={**os.environ, "PYTHONPATH": paths}, check=False, timeout=300)
    assert ran.returncode == -signal.SIGKILL
    end = time.monotonic() + 120
    while is_in_use(store):
        assert time.monotonic() < end, "the program outlives its desk"
        time.sleep(0.01)


POINTS = ("before", "after", "finish")


# (what is refused isn't sent)
@pytest.mark.parametrize(
    "name,point", [(name, point) for name in PLANS for point in POINTS if name != "refused" or point == "finish"]
)
def test_killed_in_a_plan(name: str, point: str, store: Path, program: str, open_desk: Callable[[Path], Desk]) -> None:
    desk = open_desk(store)
    assert desk.perform("anna", "test", [{"do": "post", "key": "k-1", "record": "Violin 1700", "concept": 5}]).is_done
    counts = desk.replica.counts()
    before = {it: desk.replica.view(it) for it in resources(desk.replica)}
    desk.stop()
    plan = PLANS[name]
    run_killed(store, program, plan, point)
    again = open_desk(store)
    (settled,) = again.found.settled
    is_done = point != "before" and name not in CHANGE_NOTHING
    assert settled.state == ("done" if is_done else "lost")
    assert {it.state for it in settled.steps} == {settled.state}
    kept = again.journal.plan(settled.id)
    assert kept is not None and (kept.state, kept.note) == (settled.state, "settled by looking at the store")
    assert again.found.changed == () and again.found.restored is None
    views = {it: again.replica.view(it) for it in resources(again.replica)}
    assert ((again.replica.counts(), views) == (counts, before)) == (not is_done)
    if is_done:
        back = again.take_back(kept)
        assert not back.requests or undo(again, "ben", back).is_done
    elif name not in CHANGE_NOTHING:
        assert again.perform("anna", "test", plan).is_done
    again.stop()
    assert check(store) == []
    assert open_desk(store).found.settled == ()


@pytest.mark.parametrize("point", ["before", "after", "finish"])
def test_killed_in_an_import(point: str, store: Path, program: str, open_desk: Callable[[Path], Desk]) -> None:
    """It is sent again at the next start: each row is posted once, and only its own postings are known as the import's,
    also if it is the first that a journal has."""
    before = b'{"do":"post","key":"old","record":"Old","concept":5}\n'
    subprocess.run([program, "--db", str(store), "script"], input=before, stdout=subprocess.DEVNULL, check=True)
    rows = "key,record,concept\n" + "k5,Record 5,5\nk6,Record 6,6\nno row\n"
    run_killed(store, program, rows, point)
    desk = open_desk(store)
    assert [it.key for it in postings(desk.replica)] == ["old", "k5", "k6"]
    (plan,) = desk.history.recent()
    assert plan.state == "done" and plan.steps[0].kept == {"places": [5, 6]} and desk.found.changed == ()
    assert plan.steps[0].answer is not None
    outcomes = {"BadShape": 1, "new" if point == "before" else "again": 2}
    assert plan.steps[0].answer == {"outcomes": outcomes, "first": 2, "last": 3}
    assert desk.journal.cut_imports() == desk.journal.open_plans() == []
    assert undo(desk, "ben", desk.take_back(plan)).is_done
    assert [it.key for it in desk.replica.postings.page_at(5)] == ["old"]
    desk.stop()
    assert check(store) == []


def test_changes_by_other_means(store: Path, program: str, open_desk: Callable[[Path], Desk]) -> None:
    """What another program changed while the desk was down is found, and is in the history of what it concerns."""
    desk = open_desk(store)
    assert desk.perform("anna", "test", PLANS["addLabel"]).is_done
    mark = desk.seen.mark(5, "labels")
    desk.stop()
    script = b'{"do":"addLabel","owner":5,"kind":"alt","tag":"en","text":"Fiddles of old"}\n'
    script += b'{"do":"post","key":"x","record":"X","concept":11}\n'
    subprocess.run([program, "--db", str(store), "script"], input=script, stdout=subprocess.DEVNULL, check=True)
    assert check(store) == [f"concept {it} was changed by other means" for it in (5, 11)]
    again = open_desk(store)
    assert again.found.changed == (5, 11) and again.found.restored is None
    assert [it.action for it in again.history.recent(number=5)] == [BY_OTHERS, "test"]
    conflict = again.seen.conflict(mark)
    assert conflict is not None and [it.action for it in conflict.plans] == [BY_OTHERS]
    again.stop()
    assert check(store) == []
    assert open_desk(store).found.changed == ()


def test_restored_backup(store: Path, program: str, open_desk: Callable[[Path], Desk]) -> None:
    desk = open_desk(store)
    assert desk.perform("anna", "test", PLANS["addLabel"]).is_done
    desk.stop()
    backup = {it: it.read_bytes() for it in store.parent.glob(f"{store.name}*")}
    stopped = last_stop(store)
    desk = open_desk(store)
    assert desk.perform("anna", "test", PLANS["concept"]).is_done
    desk.stop()
    for it in store.parent.glob(f"{store.name}*"):
        it.unlink()
    for it, data in backup.items():
        it.write_bytes(data)
    assert any("restored from a backup" in it for it in check(store))
    again = open_desk(store)
    assert again.found.restored == stopped and again.found.changed
    again.stop()
    assert open_desk(store).found.restored is None


def last_stop(store: Path) -> str:
    """The time at which a desk over a store has stopped last."""
    with closing(sqlite3.connect(journal_of(store))) as rows:
        return str(rows.execute("SELECT at FROM stop ORDER BY id DESC").fetchone()[0])
