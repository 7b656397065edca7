"""tools/backup in a folder of backups: it removes those of its own store, and leaves all else alone."""
from __future__ import annotations

import json
import os
import subprocess
from collections.abc import Callable
from pathlib import Path

import pytest
from office import TOOLS
from program import built, lines_of, over

OTHER_BASE = "https://other.example/id/"
# Debian's user with the fewest rights.
NOBODY = 65534


def back_up(store: Path, backups: Path, *words: str) -> subprocess.CompletedProcess[str]:
    """Makes a backup, and returns how the tool ended."""
    call = [TOOLS / "backup", store, backups, *words, "--program", built()]
    return subprocess.run(call, capture_output=True, text=True, check=False)


def make_store(path: Path, base: str = "https://museum.example/id/") -> Path:
    """Makes a store with a scheme."""
    path.parent.mkdir(parents=True, exist_ok=True)
    made = over(path, "script", lines_of([{"do": "scheme", "tag": "en", "text": "Animals"}]), "--base", base)
    assert not made.status, made.err
    return path


def made(ran: subprocess.CompletedProcess[str]) -> Path:
    """Returns the folder of the backup that a run made."""
    assert not ran.returncode, ran.stderr
    return Path(ran.stdout.partition(": ")[0])


@pytest.mark.parametrize("name", ["b/museum.db", "a/museum.old", "a/museum.db"])
def test_keep_removes_no_backup_of_another_store(name: str, room: Path) -> None:
    """Not of one of the same name elsewhere, of one with the same stem, or of one that was at its place before."""
    backups = room / "backups"
    first = made(back_up(make_store(room / name), backups))
    for file in (room / "a").glob("museum.db*"):
        file.unlink()
    store = make_store(room / "a" / "museum.db", OTHER_BASE)
    for _ in range(2):
        latest = made(back_up(store, backups, "--keep", "1"))
    assert (first / Path(name).name).exists()
    assert sorted(it for it in backups.iterdir() if it.name[0] != ".") == sorted([first, latest])


def test_backup_says_of_which_store_it_is(room: Path) -> None:
    store = make_store(room / "museum.db", OTHER_BASE)
    sign = made(back_up(store, room / "backups")) / "backup.json"
    assert json.loads(sign.read_text(encoding="utf-8")) == {"store": str(store.resolve()), "base": OTHER_BASE}


def test_store_is_known_by_its_path_however_it_is_written(room: Path) -> None:
    store, backups = make_store(room / "stores" / "museum.db"), room / "backups"
    (room / "link").symlink_to(room / "stores")
    first = made(back_up(store, backups, "--keep", "1"))
    second = made(back_up(room / "link" / "museum.db", backups, "--keep", "1"))
    assert not first.exists() and second.exists()


@pytest.mark.parametrize("sign", [None, "no JSON", '["museum.db"]'], ids=["no sign", "no JSON", "another value"])
def test_folder_without_the_sign_of_its_store_is_nobodys(sign: str | None, room: Path) -> None:
    store, backups = make_store(room / "museum.db"), room / "backups"
    foreign = backups / "museum-20200101T000000Z"
    foreign.mkdir(parents=True)
    (foreign / "museum.db").touch()
    if sign:
        (foreign / "backup.json").write_text(sign, encoding="utf-8")
    for _ in range(2):
        made(back_up(store, backups, "--keep", "1"))
    assert (foreign / "museum.db").exists()


def test_store_with_the_name_of_the_tools_own_file_is_refused(room: Path) -> None:
    ran = back_up(make_store(room / "backup.json"), room / "backups")
    assert ran.returncode == 1 and "backup.json" in ran.stderr, ran


def test_links_and_files_under_the_tools_names_are_left_and_reported(room: Path) -> None:
    store, backups, target = make_store(room / "museum.db"), room / "backups", room / "target"
    target.mkdir()
    (target / "precious").write_text("precious", encoding="utf-8")
    backups.mkdir()
    odd = [backups / it for it in (".old-museum-20200101T000000Z", ".new-abcdefgh", ".new-x", ".old-x")]
    odd[0].symlink_to(target)
    odd[1].symlink_to(target / "precious")
    odd[2].write_text("a file", encoding="utf-8")
    odd[3].mkdir()
    ran = back_up(store, backups)
    assert not ran.returncode, ran.stderr
    assert all(it.name in ran.stderr for it in odd[:3]), ran.stderr
    assert all(it.exists() for it in odd)
    assert (target / "precious").read_text(encoding="utf-8") == "precious"


@pytest.mark.parametrize("name", [".new-a1b2c3d4", ".old-museum-20200102T000000Z-002"])
def test_what_a_killed_run_left_is_removed(name: str, room: Path) -> None:
    left = room / "backups" / name
    left.mkdir(parents=True)
    (left / "museum.db").touch()
    made(back_up(make_store(room / "museum.db"), room / "backups"))
    assert not left.exists()


def test_lock_that_is_a_link_is_refused_and_its_target_kept(room: Path) -> None:
    store, backups, target = make_store(room / "museum.db"), room / "backups", room / "letter"
    backups.mkdir()
    target.write_text("Dear Anna", encoding="utf-8")
    lock = backups / ".lock"
    lock.symlink_to(target)
    ran = back_up(store, backups)
    assert ran.returncode == 1 and str(lock) in ran.stderr and "Traceback" not in ran.stderr, ran
    assert target.read_text(encoding="utf-8") == "Dear Anna"
    lock.unlink()
    made(back_up(store, backups))


def test_lock_that_is_a_folder_is_refused(room: Path) -> None:
    store, lock = make_store(room / "museum.db"), room / "backups" / ".lock"
    lock.mkdir(parents=True)
    ran = back_up(store, room / "backups")
    assert ran.returncode == 1 and str(lock) in ran.stderr, ran
    lock.rmdir()
    made(back_up(store, room / "backups"))


def test_what_root_makes_is_the_folder_owner_s(room: Path, leave_out: Callable[[str], None]) -> None:
    """The user of a service can then make the next backup, and remove this one. A link's target stays root's."""
    if os.geteuid():
        return leave_out("this needs root's rights")
    store, backups, letter = make_store(room / "museum.db"), room / "backups", room / "letter"
    backups.mkdir()
    os.chown(backups, NOBODY, NOBODY)
    copy = made(back_up(store, backups))
    found = [backups / ".lock", copy, *copy.iterdir()]
    assert copy / "museum.db" in found and [it for it in found if it.stat().st_uid != NOBODY] == []
    letter.touch()
    (backups / ".lock").unlink()
    os.link(letter, backups / ".lock")
    made(back_up(store, backups))
    assert letter.stat().st_uid == 0
