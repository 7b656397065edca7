"""`desk user forget`: the name is nowhere in the journal, and all else stays as it is."""
from __future__ import annotations

import json
import shutil
import sqlite3
from collections.abc import Callable
from contextlib import closing
from pathlib import Path

import pytest
from asking import label, new
from clients import site_of, text_of
from processes import run_desk
from thesaurus_desk.auth.accounts import Accounts, fault_of_name
from thesaurus_desk.auth.limits import Limits
from thesaurus_desk.auth.roles import role_named
from thesaurus_desk.auth.sign_in_log import EntryLog
from thesaurus_desk.importing.uploads import Uploads
from thesaurus_desk.journal import Acceptance, journal_of
from thesaurus_desk.journal.consistency import check
from thesaurus_desk.journal.forgotten_users import NAMES, ROWS
from thesaurus_desk.journal.rights import Rights, write_rights
from thesaurus_desk.journal.watches import Watch
from thesaurus_desk.store.plan_execution import Desk
from thesaurus_tools.command_line import REFUSED

NAME, PASSWORD = "Walpurga Quandt", "correct horse battery"


@pytest.fixture
def left(desk: Desk, users: Path) -> Desk:
    """A desk that has ended, after somebody has done all that leaves a name."""
    Accounts(users).add(NAME, role_named("editor"), PASSWORD)
    note = [label("addLabel", 5, "scope", "Bowed.")]
    assert desk.perform(NAME, "test", [new("Rebecs")]).is_done
    proposal = desk.proposals.propose(NAME, "test", note, "so it is", 5)
    assert desk.perform("anna", "test", note, accepted=Acceptance(proposal, NAME)).is_done
    other = desk.proposals.propose("rita", "test", note, "so it is", 5)
    desk.proposals.decide(other, "declined", NAME)
    desk.proposals.remove_comment(desk.proposals.comment(NAME, 5, "A comment."), NAME)
    plan = desk.perform("anna", "test", [label("addLabel", 5, "scope", "Plucked.")]).plan or 0
    with desk.journal.writing() as rows:
        rows.execute(
            "INSERT INTO release (name, day, note, at, user, plan, digest, size, data)"
            " VALUES ('one', '2026-12-01', '', '2026', ?, ?, '', 0, x'')",
            (NAME, plan),
        )
        rows.execute("UPDATE plan SET note = ? WHERE id = ?", (f"looked at by {NAME}", plan))
        rows.execute("INSERT INTO error (at, text) VALUES ('2026', ?)", (f"it isn't noted what {NAME} has read",))
    Limits(desk.journal).try_one("203.0.113.9", NAME)
    EntryLog(desk.journal).note(NAME, "203.0.113.9", "wrong")
    desk.queue.add(NAME, ["r1"], [])
    desk.decisions.decide(NAME, "one", 5, "none")
    Uploads(desk.journal).keep(NAME, {"who": NAME})
    desk.watches.watch(NAME, Watch("concept", 5), "en")
    with desk.journal.writing() as rows:
        rows.execute("INSERT INTO visitor_proposal (at, text, settled_by) VALUES ('2026', 'x', ?)", (NAME,))
    write_rights(desk.journal, Rights(people={1: frozenset((NAME, "ben")), 2: frozenset((NAME,))}))
    desk.stop()
    return desk


def forget(db: Path, users: Path, name: str, *words: object) -> tuple[int, str]:
    """Returns the status of the command, and what it prints."""
    ran = run_desk("user", "forget", name, "--users", users, "--db", db, *words)
    return ran.returncode, ran.stdout + ran.stderr


def bytes_of(db: Path) -> bytes:
    """Returns all that the journal's files have."""
    return b"".join(it.read_bytes() for it in sorted(db.parent.glob("museum-desk.sqlite*")))


def rows_of(db: Path) -> str:
    with closing(sqlite3.connect(journal_of(db))) as journal:
        return json.dumps([journal.execute(f"SELECT * FROM {it}").fetchall() for it in ("plan", "proposal", "comment")])


def test_the_name_is_gone(left: Desk, users: Path, open_desk: Callable[[Path], Desk]) -> None:
    """The chain of digests holds, and what the user did is shown under the number."""
    before = rows_of(left.db)
    assert NAME.encode() in bytes_of(left.db)
    status, said = forget(left.db, users, NAME)
    assert status == 0 and f"#1 takes the place of {NAME} in 11 places" in said, said
    assert NAME.encode() not in bytes_of(left.db) + users.read_bytes()
    assert rows_of(left.db) == before.replace(NAME, "#1")
    assert check(left.db) == []
    desk = open_desk(left.db)
    assert desk.rights().people == {1: {"ben"}, 2: set()}
    assert "#1" in text_of(site_of(desk, users).client("anna").get("/changes"))


def test_each_column_of_names_is_known(left: Desk) -> None:
    """A table that is added later isn't left out."""
    with closing(sqlite3.connect(journal_of(left.db))) as journal:
        tables = [it for (it,) in journal.execute("SELECT name FROM sqlite_schema WHERE type = 'table'")]
        columns = [(it, row[1]) for it in tables for row in journal.execute(f"PRAGMA table_info({it})")]
    found = {it for it in columns if it[1] in ("user", "proposer", "address") or it[1].endswith("_by")}
    known = {(table, column) for table, its in NAMES.items() for column in its}
    assert {it for it in found if it[0] not in ROWS} == known


def test_each_gets_another_number(left: Desk, users: Path) -> None:
    """Nobody else may have such a name."""
    forget(left.db, users, NAME)
    status, said = forget(left.db, users, "rita")
    assert status == 0 and "#2 takes the place of rita" in said
    assert fault_of_name("#3") == "people.name_wrong"


@pytest.mark.parametrize("name", ["nobody", "anna"])
def test_who_cant_be_forgotten(name: str, left: Desk, users: Path) -> None:
    """Nobody, and the last head."""
    before = bytes_of(left.db)
    status, said = forget(left.db, users, name)
    assert status == REFUSED and "Traceback" not in said
    assert bytes_of(left.db) == before and Accounts(users).find("anna")


def test_a_user_who_was_removed_before(left: Desk, users: Path) -> None:
    Accounts(users).remove(NAME)
    assert forget(left.db, users, NAME)[0] == 0
    assert NAME.encode() not in bytes_of(left.db)


def test_while_a_desk_runs(desk: Desk, users: Path) -> None:
    status, said = forget(desk.db, users, "rita")
    assert status and "another desk has this journal open" in said and Accounts(users).find("rita")


def test_backups_are_named(left: Desk, users: Path, tmp_path: Path) -> None:
    copy = tmp_path / "backups" / "museum-20991231T000000Z" / "museum-desk.sqlite"
    copy.parent.mkdir(parents=True)
    shutil.copy(journal_of(left.db), copy)
    beside = Path(shutil.copy(users, copy.parent))
    said = forget(left.db, users, NAME, "--backups", copy.parent.parent)[1]
    assert f"{copy}: may have the name still" in said and f"{beside}: may have the name still" in said


def test_backups_that_are_elsewhere(left: Desk, users: Path, tmp_path: Path) -> None:
    status, said = forget(left.db, users, NAME, "--backups", tmp_path / "none")
    assert status and "there is no such folder" in said
    assert Accounts(users).find(NAME) and NAME.encode() in bytes_of(left.db)
