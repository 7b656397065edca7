"""The journal: history, dates, CSV, proposals, comments; and stores and journals that can't be opened or written."""
from __future__ import annotations

import csv
import json
import os
import resource
import sqlite3
import subprocess
from collections.abc import Callable
from contextlib import closing
from pathlib import Path
from typing import Any

import pytest
from asking import assert_as_store, label, link, new, undo
from ports import free_port
from thesaurus_desk.journal import Acceptance, Draft, Journal, Step, journal_of
from thesaurus_desk.journal.consistency import check
from thesaurus_desk.journal.history import Filter, History
from thesaurus_desk.journal.schema import now
from thesaurus_desk.store.plan_execution import Desk, Outcome
from thesaurus_tools.command_line import ToolError
from thesaurus_tools.table_store import open_tables
from whole import resources


def note(owner: int, text: str) -> dict[str, Any]:
    return {"do": "addLabel", "owner": owner, "kind": "scope", "tag": "en", "text": text}


def test_a_line_of_the_history_reads_its_own_steps(desk: Desk) -> None:
    """What is shown of a resource's plans is what all their steps would show."""
    made = desk.perform("anna", "test", [new(f"Concept {it}") for it in range(90)])
    assert made.made is not None
    first = made.made
    edits = [label("addLabel", it, "alt", f"Number {first + 1} of {it}") for it in range(first, first + 60)]
    links = [link("link", "related", first, first + 1), link("link", "broader", first + 1, 4)]
    for requests in (edits, links, [{"do": "merge", "source": first, "target": first + 1}]):
        assert desk.perform("anna", "test", requests).is_done
    for number in (first, first + 1, first + 89, 4):
        wanted = [[it for it in plan.steps if number in it.numbers] for plan in desk.history.recent(number=number)]
        found = desk.journal.plans_about(number, 50)
        assert [it.steps for it in found] == wanted and all(wanted)
    assert [len(it.steps) for it in desk.journal.plans_about(first + 1, 50)] == [1, 2, 1, 1]


def test_history(desk: Desk) -> None:
    start = now()
    first = desk.perform("anna", "note", [note(5, "Bowed.")])
    desk.perform("ben", "note", [note(11, "Plucked."), {"do": "link", "kind": "related", "a": 5, "b": 11}])
    refused = desk.perform("ben", "note", [note(5, "Bowed.")])
    find = desk.history.recent
    assert [it.id for it in find()] == [3, 2, 1]
    assert [it.id for it in find(number=5)] == [3, 2, 1] and [it.id for it in find(number=11)] == [2]
    assert [it.id for it in find(which=Filter(user="ben"))] == [3, 2] and find(which=Filter(user="cy")) == []
    assert [it.id for it in find(before=3, most=1)] == [2]
    assert [it.id for it in find(states=("refused",))] == [refused.plan]
    assert [it.id for it in find(which=Filter(since=start))] == [3, 2, 1] and find(which=Filter(until=start)) == []
    assert [it.id for it in find(which=Filter(requests=("link",)))] == [2]
    assert [it.id for it in find(number=5, states=("done",), which=Filter(user="anna", since=start))] == [first.plan]
    assert desk.history.users() == ["anna", "ben"]
    assert [it.id for it in desk.journal.since(5, 1)] == [2]


def test_how_a_concept_ended(desk: Desk) -> None:
    """It is found however many records were indexed by its number since; and the number under which it came back."""
    merged = desk.perform("anna", "merge", [{"do": "merge", "source": 6, "target": 5}])
    assert merged.is_done
    for it in range(51):
        assert desk.perform("ina", "post", [{"do": "post", "key": f"k{it}", "record": "r", "concept": 6}]).is_done
    ending = desk.history.ending(6)
    assert ending and (ending.plan.id, ending.returned) == (merged.plan, None)
    back = undo(desk, "anna", desk.take_back(ending.plan))
    assert back.is_done
    ending = desk.history.ending(6)
    assert ending and (ending.plan.id, ending.returned) == (merged.plan, back.made)
    assert desk.history.ending(5) is None


def test_dates(desk: Desk) -> None:
    """A posting is no change of a concept, and a concept that is older than the journal has no date of creation."""
    made = desk.perform("anna", "new", [{"do": "concept", "scheme": 1, "tag": "en", "text": "Rebecs"}])
    number = made.made or 0
    created = desk.history.dates(number)
    assert created.created == created.modified and created.created is not None
    desk.perform("anna", "post", [{"do": "post", "key": "k", "record": "r", "concept": number}])
    assert desk.history.dates(number) == created
    desk.perform("anna", "refused", [note(number, " ")])
    assert desk.history.dates(number) == created
    desk.perform("anna", "link", [{"do": "link", "kind": "broader", "a": number, "b": 4}])
    later = desk.history.dates(number)
    assert later.created == created.created and later.modified is not None and later.modified > created.created
    assert desk.history.dates(4).created is None and desk.history.dates(4).modified == later.modified
    assert desk.history.dates(7).modified is None
    assert dict(desk.history.changed_since(later.modified)) == {number: later.modified, 4: later.modified}
    assert [it[0] for it in desk.history.changed_since("")] == [4, number]


def test_all_that_was_changed_since(desk: Desk) -> None:
    """However many resources were changed, none is left out, unless only some are asked for."""
    plan = desk.perform("anna", "note", [note(5, "Bowed.")]).plan
    with desk.journal.writing() as rows:
        rows.executemany("INSERT INTO concern VALUES (?, ?, 1)", [(number, plan) for number in range(1000, 3000)])
    assert len(desk.history.changed_since("2026")) == 2001


def lengthen(journal: Journal, count: int) -> None:
    """Adds plans to a journal, each of which adds a note to a resource of its own."""
    first = max((it.id for it in History(journal).recent(most=1)), default=0) + 1
    plans = [(it,) for it in range(first, first + count)]
    with journal.writing() as rows:
        rows.executemany("INSERT INTO plan (id, at, user, action, state) VALUES (?, '2026', 'ben', 'x', 'done')", plans)
        steps = [(it, json.dumps(note(it, "Bowed."))) for it, in plans]
        rows.executemany("INSERT INTO step (plan, place, state, request) VALUES (?, 1, 'done', ?)", steps)
        rows.executemany("INSERT INTO concern VALUES (?1, ?1, 1)", plans)


def effort(connection: sqlite3.Connection, do: Callable[[], object]) -> int:
    """Returns how much SQLite does, in instructions of its machine."""
    count = 0

    def note_progress() -> None:
        nonlocal count
        count += 1

    connection.set_progress_handler(note_progress, 1)
    do()
    connection.set_progress_handler(None, 1)
    return count


@pytest.mark.parametrize("is_old", [False, True], ids=["a new journal", "a journal of an older desk"])
def test_a_plan_ends_as_fast_in_a_long_journal(desk: Desk, open_desk: Callable[[Path], Desk], is_old: bool) -> None:
    if is_old:
        desk.journal.rows.execute("DROP INDEX concern_plan")
        desk.stop()
        desk = open_desk(desk.db)
    journal, step = desk.journal, Step(note(5, "Bowed."), "done")

    def finish() -> None:
        journal.finish(plan, "done", [step], changed=[5])

    plan = journal.begin(Draft("anna", "note", [step]))
    before = effort(journal.rows, finish)
    lengthen(journal, 3000)
    assert effort(journal.rows, finish) < 2 * before


def test_changes_of_a_kind_are_found_as_fast_in_a_long_journal(desk: Desk) -> None:
    def find() -> None:
        assert len(desk.history.recent(which=Filter(requests=("addLabel", "relabel")), most=5)) == 5

    lengthen(desk.journal, 10)
    before = effort(desk.journal.reader, find)
    lengthen(desk.journal, 3000)
    assert effort(desk.journal.reader, find) < 2 * before


def test_a_plan_is_read_as_it_is_at_one_moment(desk: Desk, monkeypatch: pytest.MonkeyPatch) -> None:
    """A plan that ends while it is read is read as before."""
    step = Step(note(5, "Bowed."))
    plan = desk.journal.begin(Draft("anna", "note", [step]))
    step.state = "done"
    ask = desk.journal.all

    def ask_slowly(query: str, *values: Any) -> list[sqlite3.Row]:
        found = ask(query, *values)
        if "FROM plan" in query:
            desk.journal.finish(plan, "done", [step])
        return found

    monkeypatch.setattr(desk.journal, "all", ask_slowly)
    found = desk.journal.plan(plan)
    assert found and (found.state, found.steps[0].state) == ("sent", "sent")


def test_a_form_made_during_a_plan(desk: Desk) -> None:
    """Who made the plan is said in the conflict to which it leads."""
    step = Step(note(5, "Bowed."))
    plan = desk.journal.begin(Draft("ben", "note", [step]))
    mark = desk.seen.mark(5, "notes")
    step.state = "done"
    desk.write(Outcome("done", [step], plan), set(), [["insert", "label", 5, 4, "en", "Bowed."]])
    conflict = desk.seen.conflict(mark)
    assert conflict and [(it.id, it.user) for it in conflict.plans] == [(plan, "ben")]


def test_csv(desk: Desk) -> None:
    desk.perform("=cmd()", "note", [note(5, 'Bowed, "high".\u2028'), note(5, "x")])
    heading, *rows = csv.reader("".join(desk.history.csv()).splitlines())
    assert heading[:4] == ["plan", "step", "time", "user"] and [it[:2] for it in rows] == [["1", "1"], ["1", "2"]]
    assert rows[0][3] == "'=cmd()" and '"text": "Bowed, ' in rows[0][7]


def test_proposals(desk: Desk) -> None:
    request = {"do": "relabel", "owner": 5, "tag": "en", "text": "Fiddles of old", "keep": True}
    number = desk.proposals.propose("ines", "rename", [request], "They say so.", 5)
    other = desk.proposals.propose("rudi", "in words", [], "A term for lutes is missing.")
    assert [it.id for it in desk.proposals.find(state="open")] == [other, number] and desk.proposals.count_open() == 2
    assert [it.id for it in desk.proposals.find(concept=5)] == [number]
    proposal = desk.proposals.get(number)
    assert proposal is not None and proposal.requests == [request]
    accepted = Acceptance(number, proposal.user, "Thank you.")
    outcome = desk.perform("anna", proposal.action, proposal.requests, accepted=accepted)
    assert not desk.proposals.decide(number, "declined", "ben")
    plan = desk.journal.plan(outcome.plan or 0)
    assert plan is not None and (plan.user, plan.proposer) == ("anna", "ines")
    decided = desk.proposals.get(number)
    assert decided is not None and (decided.state, decided.decided_by, decided.plan) == ("accepted", "anna", plan.id)
    assert desk.proposals.decide(other, "withdrawn", "rudi") and desk.proposals.count_open() == 0


def test_decisions_in_a_journal_of_an_earlier_desk(desk: Desk, open_desk: Callable[[Path], Desk]) -> None:
    """What was decided before is read; what is decided from now on isn't."""
    old = desk.proposals.propose("ines", "in words", [], "A term for lutes is missing.")
    assert desk.proposals.decide(old, "declined", "ben", "It isn't.")
    desk.stop()
    with closing(sqlite3.connect(journal_of(desk.db))) as tables:
        tables.execute("DROP TABLE unread")
        tables.commit()
    proposals = open_desk(desk.db).proposals
    assert proposals.unread("ines") == [] and proposals.count_unread("ines") == 0
    new = proposals.propose("ines", "in words", [], "A term for lutes is missing still.")
    assert proposals.decide(new, "declined", "ben", "It isn't.") and proposals.count_unread("ines") == 1
    assert [it.id for it in proposals.unread("ines")] == [new] and proposals.unread("ben") == []
    proposals.note_read([new])
    assert proposals.count_unread("ines") == 0


def test_comments(desk: Desk) -> None:
    first = desk.proposals.comment("ines", 5, "Is this <b>right</b>?")
    second = desk.proposals.comment("anna", 5, "It is.")
    assert [(it.user, it.text) for it in desk.proposals.comments(5)][0] == ("ines", "Is this <b>right</b>?")
    assert desk.proposals.remove_comment(first, "anna") and not desk.proposals.remove_comment(first, "anna")
    assert (
        [it.id for it in desk.proposals.comments(5)] == [second] == [it.id for it in desk.proposals.recent_comments(20)]
    )


def test_check_finds_what_differs(desk: Desk) -> None:
    desk.perform("anna", "merge", [{"do": "merge", "source": 6, "target": 5}])
    desk.perform("anna", "post", [{"do": "post", "key": "k", "record": "r", "concept": 5}])
    desk.perform("anna", "withdraw", [{"do": "withdraw", "posting": 1}])
    made = desk.perform("anna", "new", [{"do": "concept", "scheme": 1, "tag": "en", "text": "Rebecs"}]).made
    desk.stop()
    assert check(desk.db) == []
    with closing(sqlite3.connect(desk.db)) as tables:
        tables.execute("UPDATE resource SET live = 1, replaced = NULL WHERE num = 6")
        tables.execute("UPDATE posting SET record = 's', withdrawn = 0")
        tables.execute("DELETE FROM label WHERE owner = ?", (made,))
        tables.execute("DELETE FROM resource WHERE num = ?", (made,))
        tables.commit()
    found = "\n".join(check(desk.db))
    for what in (
        "concept 6 didn't end so",
        "posting 1 isn't that of r with 5",
        "posting 1 isn't withdrawn",
        f"number {made} is nothing, and no concept",
        "concept 6 was changed by other means",
        f"concept {made} isn't there any more",
        "was it restored from a backup?",
    ):
        assert what in found


@pytest.mark.parametrize(
    "change,error",
    [
        ("UPDATE meta SET version = 3", "its tables have version 3"),
        ("UPDATE meta SET version = 1", "run `thesaurus migrate`"),
        ("DELETE FROM meta", "not the store of a thesaurus"),
        ("DROP TABLE label", "damaged"),
        ("UPDATE resource SET kind = 9", "damaged"),
        ("UPDATE hier SET b = 999 WHERE a = 5", "run `thesaurus check`"),
    ],
)
def test_store_that_cant_be_read(change: str, error: str, store: Path, open_desk: Callable[[Path], Desk]) -> None:
    with closing(sqlite3.connect(store)) as tables:
        tables.execute(change)
        tables.commit()
    with pytest.raises(ToolError, match=error):
        open_desk(store)


def test_store_in_use(store: Path, program: str, open_desk: Callable[[Path], Desk]) -> None:
    words = [program, "--db", str(store), "serve", "--port", str(free_port())]
    with subprocess.Popen(words, stdout=subprocess.PIPE) as serving:
        assert serving.stdout is not None and serving.stdout.readline().startswith(b"listening")
        try:
            with pytest.raises(ToolError, match="another program has it open"):
                open_desk(store)
        finally:
            serving.kill()
    open_desk(store)


def test_store_that_is_none(tmp_path: Path, open_desk: Callable[[Path], Desk]) -> None:
    (tmp_path / "text.db").write_text("This is no store.\n" * 100, encoding="utf-8")
    with pytest.raises(ToolError, match="text.db: not the store of a thesaurus"):
        open_desk(tmp_path / "text.db")
    desk = open_desk(tmp_path / "new.db")
    assert (
        resources(desk.replica) == {} and desk.perform("a", "x", [{"do": "scheme", "tag": "en", "text": "S"}]).is_done
    )


@pytest.mark.parametrize(
    "spoil,error",
    [
        (lambda path: path.write_text("no journal" * 100, encoding="utf-8"), "no journal of a desk"),
        (lambda path: sqlite3.connect(path).executescript("CREATE TABLE x (y)"), "no journal of a desk"),
        (lambda path: sqlite3.connect(path).executescript("PRAGMA user_version = 99"), "a newer desk wrote"),
        (lambda path: (path.rename(path.with_name("x")), path.symlink_to("x")), "it is a symbolic link"),
        (lambda path: (path.with_suffix(".lock").unlink(), path.with_suffix(".lock").symlink_to("x")), "symbolic link"),
    ],
)
def test_journal_that_cant_be_opened(
    spoil: Callable[[Path], object], error: str, desk: Desk, open_desk: Callable[[Path], Desk]
) -> None:
    desk.stop()
    path = journal_of(desk.db)
    assert path.name == "museum-desk.sqlite"
    if error == "no journal of a desk":
        path.unlink()
    spoil(path)
    with pytest.raises(ToolError, match=error):
        open_desk(desk.db)


def test_journal_is_for_its_owner(desk: Desk) -> None:
    for path in (journal_of(desk.db), journal_of(desk.db).with_suffix(".lock")):
        assert path.stat().st_mode & 0o077 == 0


def test_one_desk_at_a_time(desk: Desk, program: str) -> None:
    with pytest.raises(ToolError, match="another desk has this journal open"):
        Desk(desk.db, program).start()
    assert desk.perform("anna", "note", [note(5, "Bowed.")]).is_done


def test_full_disk(desk: Desk, monkeypatch: pytest.MonkeyPatch) -> None:
    """A journal that can't be written: a plan isn't sent; one that was sent is written down later."""
    limit = resource.getrlimit(resource.RLIMIT_FSIZE)
    # (the child was started before, so the limit is the desk's alone)
    desk.perform("anna", "note", [note(5, "Bowed.")])
    before = desk.replica.view(5)
    resource.setrlimit(resource.RLIMIT_FSIZE, (4096, limit[1]))
    try:
        outcome = desk.perform("anna", "note", [note(5, "High.")])
    finally:
        resource.setrlimit(resource.RLIMIT_FSIZE, limit)
    assert (outcome.state, outcome.answer) == ("fault", {"fault": "Journal"})
    assert desk.replica.view(5) == before
    finish = desk.journal.finish

    def full(*_: Any, **__: Any) -> None:
        raise sqlite3.OperationalError("database or disk is full")

    monkeypatch.setattr(desk.journal, "finish", full)
    outcome = desk.perform("anna", "note", [note(5, "High.")])
    assert outcome.is_done
    assert desk.perform("anna", "note", [note(5, "Higher.")]).answer == {"fault": "Journal"}
    monkeypatch.setattr(desk.journal, "finish", finish)
    assert desk.perform("anna", "note", [note(5, "Highest.")]).is_done
    plan = desk.journal.plan(outcome.plan or 0)
    assert plan is not None and plan.state == "done"
    assert_as_store(desk)
    desk.stop()
    assert check(desk.db) == []


def test_full_disk_at_the_start(store: Path, open_desk: Callable[[Path], Desk]) -> None:
    """A journal that can't be made says so, and a later desk makes it."""
    limit = resource.getrlimit(resource.RLIMIT_FSIZE)
    resource.setrlimit(resource.RLIMIT_FSIZE, (4096, limit[1]))
    try:
        with pytest.raises(ToolError, match="museum-desk.sqlite: "):
            open_desk(store)
    finally:
        resource.setrlimit(resource.RLIMIT_FSIZE, limit)
    assert open_desk(store).perform("anna", "note", [note(5, "Bowed.")]).is_done


def test_full_disk_of_the_program(store: Path, program: str, open_desk: Callable[[Path], Desk], tmp_path: Path) -> None:
    """A program whose disk is full answers with a fault: nothing is performed, and the desk knows it."""
    small = tmp_path / "small"
    small.write_text(f'#!/bin/sh\nulimit -f 512\nexec "{program}" "$@"\n', encoding="utf-8")
    small.chmod(0o755)
    desk = Desk(store, str(small))
    desk.start()
    try:
        outcomes = []
        for it in range(400):
            outcomes.append(desk.perform("anna", "note", [note(5, f"{it} " + "x" * 1900)]))
            if not outcomes[-1].is_done:
                break
        assert outcomes[-1].state in ("fault", "lost")
        done = sum(it.is_done for it in outcomes)
        view = desk.replica.view(5)
        assert view is not None and len(view.scope) == done
    finally:
        desk.stop()
    with open_tables(store) as tables:
        assert tables.execute("SELECT count(*) FROM label WHERE owner = 5 AND kind = 4").fetchone() == (done,)
    assert check(store) == []


def test_journal_survives_a_kill_of_its_writer(tmp_path: Path) -> None:
    """What was written is there after the process is gone without closing it."""
    path = tmp_path / "x-desk.sqlite"
    if child := os.fork():
        os.waitpid(child, 0)
    else:
        journal = Journal(path).open()
        journal.begin(Draft("anna", "note", [Step(note(5, "Bowed."))]))
        os._exit(0)
    with closing(Journal(path).open()) as journal:
        assert [it.user for it in journal.open_plans()] == ["anna"]


def test_a_plan_that_is_under_way_is_not_open(desk: Desk) -> None:
    """Only one that ended without an answer is said to have none."""
    first = desk.journal.begin(Draft("anna", "note", [Step(note(5, "Bowed."))]))
    assert desk.journal.open_plans() == []
    second = desk.journal.begin(Draft("ben", "note", [Step(note(5, "Plucked."))]))
    assert [it.id for it in desk.journal.open_plans()] == [first]
    desk.journal.finish(second, "done", [Step(note(5, "Plucked."), "done", {"done": True})])
    assert [it.id for it in desk.journal.open_plans()] == [first] and desk.journal.under_way is None
