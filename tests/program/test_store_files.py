"""Files that can't be opened, hold no store, or hold one whose making was cut short; and what others do with one."""
from __future__ import annotations

import contextlib
import os
import shutil
import sqlite3
import subprocess
from pathlib import Path
from typing import Any

import pytest
from animals import MADE, MERGED, MERGED_SIZES, NO_TOTALS, START, START_SIZES, TAKEN, TOTALS, VIEWED, VIEWS
from program import PROGRAM, Ended, built, fault, over

TABLES = ("hier", "label", "link", "meta", "move", "outside", "posting", "resource")
INDEXES = ("move_posting", "posting_at")
NOBODY = 65534
NO_SIZES = b"ok resources=0 labels=0 links=0 accepted=0 withdrawn=0 moves=0\n"
SHOWN = ("--scheme", "1", "--lang", "en")
UNKNOWN_SCHEME = Ended(1, b"", b"thesaurus: UnknownResource\n")
# How each command ends over a new store, with its options; the posting file of an import is empty.
OVER_NEW: dict[str, tuple[tuple[str, ...], Ended]] = {
    "script": ((), Ended(0, b"", b"")),
    "import": (("/dev/null",), Ended(1, b"", b"thesaurus: BadShape\n")),
    "export": ((), Ended(0, b"", b"")),
    "alphabetical": (SHOWN, UNKNOWN_SCHEME),
    "hierarchical": (SHOWN, UNKNOWN_SCHEME),
    "check": ((), Ended(0, NO_SIZES, b"")),
    "migrate": ((), Ended(0, b"version 2\n", b"")),
}
BASE = "https://museum.example/id/"
SCHEME = b'{"do":"scheme","tag":"en","text":"Animals"}\n'


@pytest.mark.parametrize("is_there", [False, True], ids=["absent", "empty"])
@pytest.mark.parametrize("command", OVER_NEW)
def test_each_command_makes_the_store(command: str, is_there: bool, tmp_path: Path) -> None:
    """Its base is the one given."""
    path = tmp_path / "new.db"
    if is_there:
        path.touch()
    after, ended = OVER_NEW[command]
    assert over(path, command, b"", "--base", BASE, after=after) == ended
    assert not path.with_name("new.db-making").exists()
    assert over(path, "check", b"", "--existing") == (0, NO_SIZES, b"")
    assert over(path, "script", SCHEME).status == 0
    assert f"<{BASE}1>".encode() in over(path, "export").out


@pytest.mark.parametrize("is_there", [False, True], ids=["absent", "empty"])
@pytest.mark.parametrize("command", [*OVER_NEW, "serve"])
def test_store_that_must_exist_is_not_made(command: str, is_there: bool, tmp_path: Path) -> None:
    path = tmp_path / "mistyped.db"
    if is_there:
        path.touch()
    after = OVER_NEW[command][0] if command in OVER_NEW else ("--port", "1")
    ended = over(path, command, b"", "--existing", "--base", BASE, after=after)
    assert ended == fault(path, "Store", "not a database" if is_there else "no such file")
    assert [*tmp_path.iterdir()] == ([path] if is_there else []) and (not is_there or not path.stat().st_size)


@pytest.mark.parametrize("command", OVER_NEW)
def test_store_that_exists_is_used(command: str, tmp_path: Path) -> None:
    path = tmp_path / "whole.db"
    over(path, "script", START)
    after = OVER_NEW[command][0]
    assert over(path, command, b"", "--existing", after=after) == over(path, command, after=after)


@pytest.mark.parametrize("command", ["script", "check"])
@pytest.mark.parametrize(
    ("name", "data"),
    [
        ("text.db", b"no database\n" * 1000),
        ("notes.txt", b"Some notes\n"),
        ("copy.db", b"SQLite format 4\0" * 300),
        ("byte.db", b"\n"),
        ("folder", None),
        ("missing/museum.db", None),
    ],
    ids=["a text", "a short text", "another format", "a byte", "a folder", "in no folder"],
)
def test_file_that_is_no_store_is_left_as_it_is(command: str, name: str, data: bytes | None, tmp_path: Path) -> None:
    """Nothing is made beside it, either."""
    path = tmp_path / name
    if data:
        path.write_bytes(data)
    elif name == "folder":
        path.mkdir()
    before = [*tmp_path.iterdir()]
    assert over(path, command, START) == fault(path, "Store", "not a database" if before else "no such file")
    assert [*tmp_path.iterdir()] == before and (not data or path.read_bytes() == data)


@pytest.mark.parametrize("command", ["script", "check"])
def test_pipe_is_refused_and_not_waited_for(command: str, tmp_path: Path) -> None:
    path = tmp_path / "pipe.db"
    os.mkfifo(path)
    assert over(path, command, START, timeout=60) == fault(path, "Store", "not a database")
    assert [*tmp_path.iterdir()] == [path]


def test_journal_that_sqlite_left(tmp_path: Path) -> None:
    """A database in which SQLite was cut short is refused, and read once SQLite has mended it."""
    path, cut = tmp_path / "whole.db", tmp_path / "cut.db"
    over(path, "script", START)
    whole = over(path, "check")
    with contextlib.closing(sqlite3.connect(path, isolation_level=None)) as base:
        base.executescript("PRAGMA journal_mode = DELETE; PRAGMA cache_size = 1; BEGIN IMMEDIATE")
        labels = ((f"{it:0500}",) for it in range(300))
        base.executemany("INSERT INTO label (owner, kind, tag, text) VALUES (1, 2, 'en', ?)", labels)
        for end in ("", "-journal"):
            shutil.copyfile(f"{path}{end}", f"{cut}{end}")
    before = cut.read_bytes()
    for command in ("script", "check"):
        assert over(cut, command, START) == fault(cut, "Store", "SQLite was cut short, and left a journal")
    assert cut.read_bytes() == before and not [*tmp_path.glob("cut.db-wal")]
    with contextlib.closing(sqlite3.connect(cut)) as base:
        base.execute("PRAGMA quick_check").fetchall()
    assert over(cut, "check") == whole


def test_file_with_a_second_name_is_refused(tmp_path: Path) -> None:
    path, other = tmp_path / "linked.db", tmp_path / "other.db"
    over(path, "script", START)
    before = path.read_bytes()
    other.hardlink_to(path)
    for name in (path, other):
        assert over(name, "check") == fault(name, "Store", "the file has a second name")
    assert path.read_bytes() == before and not [*tmp_path.glob("other.db-*")]
    other.unlink()
    assert over(path, "script", START.splitlines(keepends=True)[1]) == TAKEN


@pytest.mark.parametrize("size", [247, 248, 250, 255, 300])
def test_name_for_which_that_of_the_log_would_be_too_long(size: int, tmp_path: Path) -> None:
    path = tmp_path / f"{'n' * (size - 3)}.db"
    wanted = (0, MADE, b"") if size == 247 else fault(path, "Store", "the name is too long")
    assert over(path, "script", START) == wanted
    assert size == 247 or not [*tmp_path.iterdir()]


def test_job_that_is_not_opened_leaves_its_store(tmp_path: Path) -> None:
    """Its database is closed as after work: the file holds the store without its log."""
    path = tmp_path / "whole.db"
    over(path, "script", START)
    before, whole = path.read_bytes(), over(path, "check")
    assert over(path, "import", after=[tmp_path / "absent.csv"]).status == 3
    assert path.read_bytes() == before
    path.with_name(f"{path.name}-wal").unlink(missing_ok=True)
    assert over(path, "check") == whole


def begin_store(path: Path) -> bytes:
    """Has a command begin to make a store that it doesn't need, and returns the bytes of the file."""
    over(path, "import", after=[path.with_name("absent.csv")])
    assert over(path, "check", b"", "--existing") == fault(path, "BadStore meta")
    return path.read_bytes()


@pytest.mark.parametrize("command", OVER_NEW)
def test_store_that_is_marked_as_unfinished_is_made(command: str, tmp_path: Path) -> None:
    path, mark = tmp_path / "unfinished.db", tmp_path / "unfinished.db-making"
    assert len(begin_store(path)) == 4096 and mark.exists()
    after, ended = OVER_NEW[command]
    assert over(path, command, after=after) == ended
    assert not mark.exists()
    assert over(path, "script", START) == (0, MADE, b"")


@pytest.mark.parametrize("command", OVER_NEW)
def test_unfinished_store_that_must_exist_stays_with_its_mark(command: str, tmp_path: Path) -> None:
    path, mark = tmp_path / "unfinished.db", tmp_path / "unfinished.db-making"
    blank = begin_store(path)
    assert over(path, command, b"", "--existing", after=OVER_NEW[command][0]) == fault(path, "BadStore meta")
    assert mark.exists() and path.read_bytes() == blank
    assert over(path, "script", START) == (0, MADE, b"")
    assert not mark.exists()


def test_database_without_tables_and_mark_is_left(tmp_path: Path) -> None:
    path, mark = tmp_path / "unfinished.db", tmp_path / "unfinished.db-making"
    blank = begin_store(path)
    over(path, "script", START)
    path.write_bytes(blank)
    assert over(path, "script", START) == fault(path, "BadStore meta")
    assert not mark.exists() and path.read_bytes() == blank


@pytest.mark.parametrize("command", ["script", "check"])
@pytest.mark.parametrize(("data", "is_left"), [(b"", False), (b"mine", True)], ids=["empty", "of somebody else"])
def test_mark_at_a_whole_store(command: str, data: bytes, is_left: bool, tmp_path: Path) -> None:
    path, mark = tmp_path / "whole.db", tmp_path / "whole.db-making"
    over(path, "script", START)
    mark.write_bytes(data)
    ended = (0, NO_TOTALS, b"") if command == "script" else (0, START_SIZES, b"")
    assert over(path, command, TOTALS, "--existing") == ended
    assert mark.exists() == is_left


@pytest.mark.parametrize(("mode", "why"), [(0o000, "can't be read"), (0o444, "can't be written")])
def test_file_without_rights(mode: int, why: str, tmp_path: Path) -> None:
    """Where the tests run as root, the program runs as nobody here."""
    path, program = tmp_path / "closed.db", PROGRAM
    who: dict[str, Any] = {}
    over(path, "script", START)
    before = path.read_bytes()
    if os.geteuid() == 0:
        program = shutil.copy(built(), tmp_path / "program")
        for it in (tmp_path, *tmp_path.parents[:3]):
            it.chmod(it.stat().st_mode | 0o055)
        who = {"user": NOBODY, "group": NOBODY, "extra_groups": []}
    path.chmod(mode)
    ran = subprocess.run([program, "--db", path, "check"], input=b"", capture_output=True, check=False, **who)
    path.chmod(0o644)
    assert (ran.returncode, ran.stdout, ran.stderr) == fault(path, "Store", why)
    assert path.read_bytes() == before


def test_store_in_use_is_refused(tmp_path: Path) -> None:
    path = tmp_path / "busy.db"
    with subprocess.Popen([PROGRAM, "--db", path, "script"], stdin=subprocess.PIPE, stdout=subprocess.PIPE) as first:
        assert first.stdin and first.stdout
        first.stdin.write(START)
        first.stdin.flush()
        for _ in range(4):
            first.stdout.readline()
        assert over(path, "check") == fault(path, "Store", "in use by another program")
        first.stdin.close()
    assert over(path, "check") == (0, START_SIZES, b"")


# --- what sqlite3 makes of a store ---


def ask_sqlite3(path: Path, *words: str, given: bytes = b"") -> bytes:
    return subprocess.run(["sqlite3", path, *words], input=given, capture_output=True, check=True).stdout


@pytest.fixture
def merged(tmp_path: Path) -> Path:
    path = tmp_path / "plain.db"
    over(path, "script", MERGED)
    return path


@pytest.mark.needs("sqlite3")
def test_sqlite3_finds_no_fault_and_our_schema(merged: Path) -> None:
    assert ask_sqlite3(merged, "PRAGMA integrity_check") == b"ok\n"
    schema = ask_sqlite3(merged, ".schema").decode().splitlines()
    tables = [it.split()[2] for it in schema if it.startswith("CREATE TABLE ") and it.endswith(") STRICT;")]
    indexes = [it.split(" ON ")[0].split()[-1] for it in schema if it.startswith("CREATE INDEX ")]
    assert (sorted(tables), sorted(indexes), len(schema)) == ([*TABLES], [*INDEXES], 10)


@pytest.mark.needs("sqlite3")
@pytest.mark.parametrize("how", ["dump", "backup"])
def test_copies_that_sqlite3_makes_are_the_same_store(how: str, merged: Path, tmp_path: Path) -> None:
    copy = tmp_path / "copy.db"
    if how == "dump":
        ask_sqlite3(copy, given=ask_sqlite3(merged, ".dump"))
    else:
        ask_sqlite3(merged, f".backup '{copy}'")
    assert over(copy, "check") == (0, MERGED_SIZES, b"")
    assert over(copy, "script", VIEWS) == (0, VIEWED, b"")
