"""Backups while the desk runs: each night, by the head's button, and by tools/backup."""
from __future__ import annotations

import json
import os
import re
import shutil
import sqlite3
import subprocess
import threading
from collections.abc import Callable, Iterator
from contextlib import closing
from datetime import time as Hour
from datetime import timedelta
from pathlib import Path

import pytest
from clients import Site, site_of, text_of, write_users
from processes import ROOT, running
from thesaurus_desk.store import backups as backups_module
from thesaurus_desk.store.backups import BackupSettings, DeskBackups
from thesaurus_desk.store.copies import StoreBusy
from thesaurus_desk.store.health import Health
from thesaurus_desk.store.plan_execution import Desk
from thesaurus_desk.store.snapshot import SnapshotServer
from thesaurus_desk.web.app import create_app
from thesaurus_tools.command_line import ToolError
from thesaurus_tools.desk_socket import folder_of

FILES = {"museum.db", "museum-desk.sqlite", "users.json", "backup.json"}


def add_term(desk: Desk, text: str) -> None:
    """Adds a term to Violins."""
    request = {"do": "addLabel", "owner": 5, "kind": "alt", "tag": "en", "text": text}
    assert desk.perform("anna", "add_term", [request]).is_done


@pytest.fixture
def backups(desk: Desk, users: Path, tmp_path: Path) -> DeskBackups:
    """The backups of a desk, of which two are kept."""
    return DeskBackups(desk, users, BackupSettings(tmp_path / "backups", 2, Hour(2, 30)))


@pytest.fixture
def moments(desk: Desk, users: Path) -> Iterator[SnapshotServer]:
    """The socket of a desk."""
    server = SnapshotServer(desk, users)
    yield server
    server.end()


def assert_whole(place: Path, program: str, text: str) -> None:
    """A backup has all, of one moment, for its owner alone, and passes the check."""
    assert FILES <= {it.name for it in place.iterdir()}
    assert (
        subprocess.run([program, "--db", place / "museum.db", "check"], capture_output=True, check=False).returncode
        == 0
    )
    with closing(sqlite3.connect(place / "museum-desk.sqlite")) as journal:
        (last,) = journal.execute("SELECT request FROM step ORDER BY plan DESC").fetchone()
        assert json.loads(last)["text"] == text
        assert [it[0] for it in journal.execute("PRAGMA integrity_check")] == ["ok"]
    with closing(sqlite3.connect(place / "museum.db")) as tables:
        assert tables.execute("SELECT 1 FROM label WHERE text = ?", (text,)).fetchone()
    assert (place / "museum-desk.sqlite").stat().st_mode & 0o077 == 0
    assert not set(place.glob("*-desk.sqlite-*"))


def test_a_backup(desk: Desk, backups: DeskBackups, program: str) -> None:
    """It has what was answered before; the desk goes on; the last ones are kept."""
    made = []
    for text in ("One", "Two", "Three"):
        add_term(desk, text)
        made.append(backups.make())
        assert_whole(made[-1], program, text)
        assert backups.failure == "" and backups.checked.startswith("ok resources=")
    assert [it.folder for it in backups.all()] == [made[2], made[1]] and not made[0].exists()
    assert not list(backups.settings.folder.glob(".new-*"))
    add_term(desk, "Four")


def test_restored(desk: Desk, backups: DeskBackups, open_desk: Callable[[Path], Desk]) -> None:
    """Store and journal of a backup fit each other."""
    add_term(desk, "One")
    place = backups.make()
    add_term(desk, "Two")
    desk.stop()
    for it in desk.db.parent.glob("museum*"):
        it.unlink() if it.is_file() else None
    for it in place.glob("museum*"):
        shutil.copy(it, desk.db.parent)
    again = open_desk(desk.db)
    assert again.found.changed == () and again.found.settled == () and again.found.restored is None
    view = again.replica.view(5)
    assert view is not None and ("en", "One") in view.alt and ("en", "Two") not in view.alt
    assert [it.state for it in again.history.recent()] == ["done"]


def test_while_others_write(desk: Desk, backups: DeskBackups, program: str) -> None:
    """Each copy is whole, and store and journal are of one moment, whatever is performed meanwhile."""
    is_over = threading.Event()

    def write() -> None:
        number = 0
        while not is_over.is_set():
            number += 1
            add_term(desk, f"Name {number}")

    writer = threading.Thread(target=write)
    writer.start()
    try:
        for _ in range(4):
            place = backups.make()
            with closing(sqlite3.connect(place / "museum-desk.sqlite")) as journal:
                found = journal.execute("SELECT request FROM step ORDER BY plan DESC").fetchone()
                assert journal.execute("SELECT count(*) FROM plan WHERE state <> 'done'").fetchone() == (0,)
            assert_whole(place, program, json.loads(found[0])["text"] if found else "Violins")
    finally:
        is_over.set()
        writer.join()


def test_when_it_is_due(desk: Desk, backups: DeskBackups, monkeypatch: pytest.MonkeyPatch) -> None:
    """Each night once; one that was missed is made up for; a failure is said, and it is tried again later."""
    backups.make_if_due()
    (first,) = backups.all()
    assert not backups.is_late(timedelta())
    backups.make_if_due()
    assert backups.all() == [first]
    days_ago = first.folder.with_name(first.folder.name.replace(first.folder.name[7:15], "20260101"))
    first.folder.rename(days_ago)
    assert backups.is_late(timedelta()) and backups.is_late(timedelta(1))
    with monkeypatch.context() as patch:
        patch.setattr(desk.program, "path", "false")
        backups.make_if_due()
        assert "doesn't pass the check" in backups.failure and len(backups.all()) == 1
    backups.make_if_due()
    assert len(backups.all()) == 1, "not at once again"
    backups.not_before = 0.0
    backups.make_if_due()
    assert len(backups.all()) == 2 and backups.failure == "" and not backups.is_late(timedelta())


def test_what_can_t_be_made(desk: Desk, backups: DeskBackups, monkeypatch: pytest.MonkeyPatch) -> None:
    """Nothing is left of it, and the reason is known."""
    monkeypatch.setattr("thesaurus_desk.store.open_store.WAIT_FOR_PLAN", 0.1)
    monkeypatch.setattr("thesaurus_desk.store.open_store.WAIT_FOR_LONG", 0.1)
    holding, may_end = threading.Event(), threading.Event()

    def hold() -> None:
        with desk.alone():
            holding.set()
            may_end.wait(60)

    holder = threading.Thread(target=hold)
    holder.start()
    holding.wait(60)
    with pytest.raises(StoreBusy):
        backups.make()
    may_end.set()
    holder.join()
    assert backups.failure and backups.all() == [] and not list(backups.settings.folder.glob(".new-*"))
    monkeypatch.setattr(backups_module, "copy_all", failing)
    with pytest.raises(ToolError, match="No space left"):
        backups.make()
    assert "No space left" in backups.failure and backups.all() == []


def failing(*words: object) -> None:
    """What a full disk does."""
    raise OSError(28, "No space left on device", "backups")


def tool(*words: object) -> subprocess.CompletedProcess[str]:
    """Runs tools/backup."""
    call = [ROOT / "tools" / "backup", *words]
    return subprocess.run(list(map(str, call)), capture_output=True, text=True, check=False)


def test_the_tool_asks_the_desk(desk: Desk, moments: SnapshotServer, program: str, tmp_path: Path) -> None:
    add_term(desk, "One")
    ran = tool(desk.db, tmp_path / "backups", "--program", program, "--keep", 3)
    assert ran.returncode == 0, ran.stderr
    (place,) = (tmp_path / "backups").glob("museum-*")
    assert_whole(place, program, "One")
    assert ran.stdout.startswith(f"{place}: ok resources=")
    add_term(desk, "Two")


def test_the_socket_is_its_user_s_alone(desk: Desk, moments: SnapshotServer) -> None:
    folder = folder_of(desk.db)
    assert folder.stat().st_mode & 0o777 == 0o700
    moments.end()
    assert not folder.exists()


def test_another_user_isn_t_answered(
    desk: Desk, moments: SnapshotServer, monkeypatch: pytest.MonkeyPatch, program: str, tmp_path: Path
) -> None:
    """Even where the folder could be opened."""
    monkeypatch.setattr("thesaurus_desk.store.snapshot.ROOT", -1)
    monkeypatch.setattr(os, "geteuid", lambda: 12345)
    ran = tool(desk.db, tmp_path / "backups", "--program", program)
    assert ran.returncode in (1, 3) and "Traceback" not in ran.stderr
    assert not list((tmp_path / "backups").glob("mus*"))


def test_a_desk_with_backups(program: str, store: Path, tmp_path: Path) -> None:
    """The first is made at once, since none is there; and a long path is no hindrance to the socket."""
    room = tmp_path / ("long" * 30)
    room.mkdir()
    store = store.rename(room / store.name)
    users = write_users(room / "users.json")
    words = ["--db", store, "--users", users, "--program", program, "--backups", tmp_path / "backups"]
    with running(*words):
        for _ in range(600):
            if found := list((tmp_path / "backups").glob("museum-*")):
                break
            threading.Event().wait(0.1)
        assert FILES <= {it.name for it in found[0].iterdir()}
        ran = tool(store, tmp_path / "others", "--program", program)
        assert ran.returncode == 0, ran.stderr
    assert not folder_of(store).exists()


@pytest.fixture
def site(desk: Desk, users: Path, backups: DeskBackups) -> Site:
    """The pages of a desk that makes backups."""
    found = site_of(desk, users)
    found.app = create_app(desk, found.entry, found.settings, Health(desk, backups))
    return found


def test_the_button(site: Site, backups: DeskBackups, monkeypatch: pytest.MonkeyPatch) -> None:
    anna = site.client("anna")
    page = text_of(anna.get("/state"))
    assert "There is no backup of this store yet" in page and "The last backup is missing or failed" in page
    done = anna.post("/state/backup")
    assert done.status_code == 303
    page = text_of(anna.get(done.headers["Location"]))
    (made,) = backups.all()
    assert "A backup was made and checked" in page and made.folder.name in page and "All is well" in page
    assert "ok resources=" in page and "Each indexing that was accepted is at a concept or withdrawn" in page
    assert "thesaurus 0." in page and "megabytes free" in page and "0 errors in 30 days" in page
    monkeypatch.setattr(backups_module, "copy_all", failing)
    refused = anna.post("/state/backup")
    assert refused.status_code == 409 and "No space left" in text_of(refused)
    assert "1 error in 30 days" in text_of(anna.get("/state"))
    assert "Zustand des Arbeitsplatzes" in text_of(anna.get("/state", Accept_Language="de"))
    assert "Sauvegardes" in text_of(anna.get("/state", Accept_Language="fr"))


def test_the_head_alone_sees_the_state(site: Site, users: Path) -> None:
    assert 'href="/state"' in site.client("anna").get("/").text
    for name in ("ben", "ina", "rita"):
        assert 'href="/state"' not in site.client(name).get("/").text
        assert site.client(name).get("/state").status_code == 403
    without = site_of(site.desk, users).client("anna")
    assert "This desk makes no backups" in text_of(without.get("/state"))
    assert without.post("/state/backup").status_code == 404


def test_a_monitor(site: Site, backups: DeskBackups, monkeypatch: pytest.MonkeyPatch) -> None:
    """It needs no session, and learns nothing else of the desk."""
    monitor = site.client()
    late = monitor.get("/healthz")
    assert (late.status_code, late.json) == (503, {"problems": ["backup"], "status": "failing"})
    backups.make()
    assert (monitor.get("/healthz").status_code, monitor.get("/healthz").json) == (
        200,
        {"problems": [], "status": "ok"},
    )
    site.desk.program.stop()
    assert monitor.get("/healthz").json == {"problems": ["program"], "status": "failing"}
    site.desk.renew()
    monkeypatch.setattr("thesaurus_desk.store.health.LEAST_FREE", 1 << 60)
    assert monitor.get("/healthz").json == {"problems": ["disk"], "status": "failing"}


def test_counts_that_don_t_balance(site: Site) -> None:
    with site.desk.journal.writing() as rows:
        rows.execute("UPDATE total SET value = value + 1 WHERE name = 'withdrawn'")
    assert "The counts don’t balance" in text_of(site.client("anna").get("/state"))


def test_the_document_restores_the_newest_backup_of_this_store(tmp_path: Path) -> None:
    """And none of a store whose name begins with the same."""
    for name in ("museum-20261129T020000Z", "museum-20261130T020000Z", "museum-3-20991231T020000Z"):
        (tmp_path / "backups" / name).mkdir(parents=True)
    text = (ROOT / "docs" / "OPERATING.md").read_text(encoding="utf-8")
    found = re.findall(r"(?m)^last=\$\((ls -d backups/museum-[^)]*)\)$", text)
    assert found
    for it in found:
        ran = subprocess.run(["sh", "-c", it], cwd=tmp_path, capture_output=True, text=True, check=True)
        assert ran.stdout == "backups/museum-20261130T020000Z\n"
