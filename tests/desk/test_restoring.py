"""A backup of a desk restored by the commands of the document; and the backups for which the desk's unit asks."""
from __future__ import annotations

import os
import re
import shlex
import shutil
import sqlite3
import subprocess
from collections.abc import Callable
from contextlib import closing
from datetime import time as Hour
from pathlib import Path

import pytest
from thesaurus_desk.command_line import serving_arguments
from thesaurus_desk.store.backups import BackupSettings, DeskBackups
from thesaurus_desk.store.plan_execution import Desk

ROOT = Path(__file__).resolve().parents[2]
UNIT = ROOT / "share" / "thesaurus-desk@.service"
PAGE = ROOT / "docs" / "OPERATING.md"
FOLDER = Path("/var/backups/thesaurus")


def test_the_unit_asks_for_backups() -> None:
    """In a folder to which it may write, as its comment has it made."""
    text = UNIT.read_text(encoding="utf-8")
    (line,) = re.findall("^ExecStart=(.*)$", text, re.M)
    given = serving_arguments(
        shlex.split(line.replace("${PORT}", "8090").replace("${HOST}", "desk.example").replace("$OPTIONS", ""))[1:]
    )
    assert given.backups == FOLDER and given.keep == 30 and given.backup_at == Hour(2, 30)
    assert re.search(f"^ReadWritePaths=-{FOLDER}$", text, re.M)
    assert f"sudo install -d -o thesaurus -g thesaurus -m 0750 {FOLDER}" in text
    assert re.search("^RestrictAddressFamilies=AF_INET AF_UNIX$", text, re.M)


def restoring(program: str) -> str:
    """Returns the commands of the document that restore a store and its journal, with the folders of this test."""
    section = PAGE.read_text(encoding="utf-8").split("**To restore**")[1].split("\n## ")[0]
    (store,) = re.findall(r"^```sh\n(.*?)^```$", section, re.M | re.S)
    journal = re.findall(r"^ {4}(.*\n)", section, re.M)
    assert "museum.db*" in store and len(journal) == 1
    return f"set -e\n{store}{''.join(journal)}".replace("./thesaurus", program).replace("backups/", "../backups/")


def test_a_restored_journal(open_desk: Callable[[Path], Desk], store: Path, program: str, tmp_path: Path) -> None:
    """What a killed desk left in the journal's log doesn't come back."""
    stores, left = tmp_path / "stores", tmp_path / "left"
    for folder in (stores, left):
        folder.mkdir()
    (stores / "museum-users.json").write_text("{}", encoding="utf-8")
    (tmp_path / "backups" / "museum-3-20991231T000000Z").mkdir(parents=True)
    place = store.rename(stores / "museum.db")
    for text in ("Before", "After"):
        desk = open_desk(place)
        backups = DeskBackups(desk, stores / "museum-users.json", BackupSettings(tmp_path / "backups"))
        label = {"do": "addLabel", "owner": 5, "kind": "alt", "tag": "en", "text": f"{text} the night"}
        assert desk.perform("anna", "add_term", [label]).is_done
        if text == "After":
            for it in stores.glob("museum-desk.sqlite*"):
                shutil.copy(it, left)
        else:
            backups.make()
        desk.stop()
    assert (left / "museum-desk.sqlite-wal").stat().st_size
    for it in left.iterdir():
        shutil.copy(it, stores)
    subprocess.run(["sh", "-c", restoring(program)], cwd=stores, check=True, capture_output=True)
    with closing(sqlite3.connect(stores / "museum-desk.sqlite")) as journal:
        rows = "\n".join(journal.iterdump())
    assert "Before the night" in rows and "After the night" not in rows


def test_a_second_restore(store: Path, program: str, tmp_path: Path) -> None:
    """What was moved away before stays; if nothing can be moved, nothing is copied over the store."""
    stores, programs = tmp_path / "stores", tmp_path / "programs"
    place = tmp_path / "backups" / "museum-20991231T000000Z"
    for folder in (stores, programs, place):
        folder.mkdir(parents=True)
    (programs / "date").write_text("#!/bin/sh\necho one-moment\n", encoding="utf-8")
    (programs / "date").chmod(0o755)
    shutil.copy(store, place / "museum.db")
    (stores / "museum.db").write_bytes(b"damaged")
    (stores / "museum-desk.sqlite").touch()
    commands = restoring(program).removeprefix("set -e\n").splitlines()[:-1]
    words = ["sh", "-c", "\n".join(commands)]
    environment = {**os.environ, "PATH": f"{programs}:{os.environ['PATH']}"}
    ran = subprocess.run(words, cwd=stores, env=environment, check=True, capture_output=True)
    assert ran.stdout.startswith(b"ok ")
    (stores / "museum.db").write_bytes(b"damaged again")
    again = subprocess.run(words, cwd=stores, env=environment, check=False, capture_output=True)
    assert again.returncode and (stores / "museum.db").read_bytes() == b"damaged again"
    assert (stores / "damaged-one-moment" / "museum.db").read_bytes() == b"damaged"


@pytest.mark.needs("sqlite3")
@pytest.mark.parametrize("name", ["museum.db", "museum-desk.sqlite"])
def test_a_copy_by_sqlite3(name: str, tmp_path: Path) -> None:
    """The commands of the page copy what is there, and fail for what isn't."""
    (line,) = re.findall(rf'`(sqlite3 [^`]*{name} "\.[^`]*)`', PAGE.read_text(encoding="utf-8"))
    words, copy = ["sh", "-c", line], tmp_path / "backup" / name
    copy.parent.mkdir()
    assert subprocess.run(words, cwd=tmp_path, capture_output=True, check=False).returncode
    assert not (tmp_path / name).exists()
    with closing(sqlite3.connect(tmp_path / name)) as made:
        made.execute("CREATE TABLE one (it)")
    subprocess.run(words, cwd=tmp_path, check=True)
    with closing(sqlite3.connect(copy)) as made:
        assert made.execute("SELECT name FROM sqlite_schema").fetchall() == [("one",)]


UNITS = [UNIT, *sorted((ROOT / "share").glob("thesaurus-*up@.service")), ROOT / "share" / "thesaurus-failure@.service"]


def test_a_failed_backup_is_told() -> None:
    """By a unit that is there."""
    text = (ROOT / "share" / "thesaurus-backup@.service").read_text(encoding="utf-8")
    assert re.findall("^OnFailure=(.*)$", text, re.M) == [f"{UNITS[-1].stem}%n.service"]
    assert UNITS[-1].is_file()


@pytest.mark.needs("systemd-analyze")
@pytest.mark.parametrize("unit", UNITS, ids=[it.stem for it in UNITS])
def test_systemd_finds_nothing_in_the_unit(unit: Path, tmp_path: Path) -> None:
    text = re.sub("/usr/local/bin/thesaurus[a-z-]*", "/bin/true", unit.read_text(encoding="utf-8"))
    path = tmp_path / unit.name
    path.write_text(text, encoding="utf-8")
    words = ["systemd-analyze", "verify", "--man=no", str(path)]
    ran = subprocess.run(words, capture_output=True, text=True, check=False)
    assert [it for it in ran.stderr.splitlines() if unit.stem in it and "OnFailure" not in it] == []
