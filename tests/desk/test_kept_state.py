"""What a restart of the desk keeps that isn't a change: waits after wrong passwords, who came in, previews, errors, the
check of the last backup. No backup has it."""
from __future__ import annotations

import logging
import pickle
import shutil
import sqlite3
from collections.abc import Callable
from pathlib import Path

import pytest
from clients import PASSWORD, Site, site_of, text_of
from test_bring_in import send
from test_passwords import Clock
from thesaurus_desk.auth import limits
from thesaurus_desk.importing import uploads
from thesaurus_desk.importing.uploads import Uploads, pack, unpack
from thesaurus_desk.journal.schema import WORKING
from thesaurus_desk.store.backups import BackupSettings, DeskBackups
from thesaurus_desk.store.health import Health
from thesaurus_desk.store.plan_execution import Desk
from thesaurus_tools.row_runner import RowError, RowPlan

OpenDesk = Callable[[Path], Desk]


def restarted(site: Site, open_desk: OpenDesk, users: Path) -> Site:
    """Returns the site of the same desk after a restart."""
    site.desk.stop()
    return site_of(open_desk(site.desk.db), users)


def test_wrong_passwords_are_known_after_a_restart(
    site: Site, open_desk: OpenDesk, users: Path, monkeypatch: pytest.MonkeyPatch
) -> None:
    monkeypatch.setattr(limits, "time", Clock())
    for _ in range(limits.FREE_FOR_NAME):
        assert site.client().post("/login", {"name": "ben", "password": "wrong"}).status_code == 403
    again = restarted(site, open_desk, users)
    refused = again.client().post("/login", {"name": "ben", "password": PASSWORD})
    assert refused.status_code == 429 and refused.headers["Retry-After"]
    assert "wrong password" in text_of(again.client("anna").get("/users"))
    (counted,) = again.desk.journal.all("SELECT count FROM failure WHERE name = 'ben'")
    assert counted[0] == limits.FREE_FOR_NAME


def test_a_right_password_is_forgotten_in_the_file_too(site: Site) -> None:
    site.client().post("/login", {"name": "ben", "password": "wrong"})
    assert site.client().post("/login", {"name": "ben", "password": PASSWORD}).status_code == 303
    assert site.desk.journal.all("SELECT count FROM failure WHERE name = 'ben'") == []


def test_a_preview_is_performed_after_a_restart(site: Site, open_desk: OpenDesk, users: Path) -> None:
    page = send(
        site.client("ben"), "/bring-in/table", "term,new term\nViolins,Fine violins\nnothing,x\n".encode(), tag="en"
    )
    name = page.text.split('name="name" value="')[1].partition('"')[0]
    again = restarted(site, open_desk, users)
    ben = again.client("ben")
    done = ben.post("/bring-in/table/perform", {"name": name})
    assert done.status_code == 303 and again.desk.replica.named("Fine violins")
    result = ben.get(done.headers["Location"])
    assert "Fine violins" in text_of(result)
    assert ben.post("/bring-in/table/perform", {"name": name}).status_code == 409, "it is performed once"
    assert again.client("ina").get(done.headers["Location"]).headers["Location"] == "/changes", "it is ben's"


def test_a_preview_goes_with_its_age(desk: Desk, monkeypatch: pytest.MonkeyPatch) -> None:
    kept = Uploads(desk.journal)
    name = kept.keep("ben", "old")
    monkeypatch.setattr(uploads, "AGE", -uploads.AGE)
    kept.keep("anna", "new")
    assert kept.find("ben", name, str) is None


def test_only_data_is_read_of_an_upload() -> None:
    plan = RowPlan(1, ["a"], [{"do": "post"}], "why", RowError("not_called", kind="concept", text="x"))
    back = unpack(pack(plan))
    assert isinstance(back, RowPlan) and back[:4] == plan[:4]
    assert back.error is not None and (back.error.key, back.error.values) == (
        "not_called",
        plan.error and plan.error.values,
    )
    for other in (shutil.rmtree, Path("/"), pickle.Pickler, Desk):
        assert unpack(pack(other)) is None
    assert unpack(b"no upload") is None


def test_errors_and_the_check_of_a_backup(
    desk: Desk, users: Path, open_desk: OpenDesk, tmp_path: Path, monkeypatch: pytest.MonkeyPatch
) -> None:
    settings = BackupSettings(tmp_path / "backups")
    health = Health(desk, DeskBackups(desk, users, settings))
    assert health.backups is not None
    with desk.journal.writing():
        # (in the midst of a transaction)
        logging.getLogger("desk").error("the disk smells")
    place = health.backups.make()
    health.errors.write()
    desk.stop()
    opened = open_desk(desk.db)
    again = Health(opened, DeskBackups(opened, users, settings))
    assert again.errors.last()[0][1] == "the disk smells"
    assert again.backups is not None and again.backups.checked.startswith("ok resources=")
    with sqlite3.connect(place / desk.journal.path.name) as rows:
        there = {name for name, in rows.execute("SELECT name FROM sqlite_schema")}
    assert "plan" in there and not there & set(WORKING)
