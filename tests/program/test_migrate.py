"""`migrate` turns a store of version 1 into one of version 2 atomically. The stores of version 1 are made by plain SQL
from the rows of stores that the program made. A faulty store is reported and left unchanged, byte for byte; migrations
are killed at random times, and run on a full disk. Stores with additions of a user's are migrated, and then do what a
store without them does."""
from __future__ import annotations

import contextlib
import functools
import random
import resource
import shutil
import sqlite3
import subprocess
import tempfile
import time
from pathlib import Path
from typing import Any, NamedTuple

import additions
import pytest
from kept import Request
from plain_store import DECLARED
from program import Ended, built, fault, lines_of, over, run

# What a store of version 1 declares of each table, and what one of version 2 has besides.
TABLES = {name: it for name, it in DECLARED.items() if name != "hier"}
HIER = f"CREATE TABLE hier ({DECLARED['hier']}) STRICT"
INDEXES = "CREATE INDEX posting_at ON posting (at); CREATE INDEX move_posting ON move (posting)"
DONE = Ended(0, b"version 2\n", b"")
NO_SIZES = b"ok resources=0 labels=0 links=0 accepted=0 withdrawn=0 moves=0\n"
START: list[Request] = [
    {"do": "scheme", "tag": "en", "text": "Animals"},
    *({"do": "concept", "scheme": 1, "tag": "en", "text": text} for text in ("Cats", "Mammals", "Pets")),
    {"do": "link", "kind": "broader", "a": 2, "b": 3},
]
SIZES = b"ok resources=4 labels=4 links=1 accepted=0 withdrawn=0 moves=0\n"
# A store with something in each table.
RICHER: list[Request] = [
    *START,
    *({"do": "concept", "scheme": 1, "tag": "en", "text": f"Kind {number}"} for number in range(40)),
    *({"do": "link", "kind": "broader", "a": 5 + number, "b": 2 + number // 3} for number in range(40)),
    *({"do": "link", "kind": "related", "a": 5 + number, "b": 30 + number} for number in range(6)),
    {"do": "outside", "iri": "http://example.org/x"},
    {"do": "link", "kind": "exact", "a": 4, "b": 45},
    {"do": "collection", "scheme": 1, "tag": "en", "text": "Favourites"},
    {"do": "link", "kind": "member", "a": 46, "b": 4},
    *({"do": "post", "key": f"k{number}", "record": f"r{number}", "concept": 2 + number % 40} for number in range(200)),
    {"do": "withdraw", "posting": 7},
    {"do": "merge", "source": 41, "target": 42},
]
# Changes of a store of version 1, each with the fault that a migration then reports.
FAULTS = {
    "DROP TABLE link": "BadStore link",
    "ALTER TABLE link RENAME COLUMN b TO c": "BadStore link",
    f"DROP TABLE link; {HIER}": "BadStore link",
    HIER: "BadStore hier",
    "CREATE TABLE hier (x INTEGER)": "BadStore hier",
    "DROP TABLE meta": "BadStore meta",
    "DELETE FROM meta": "BadStore meta",
    "UPDATE meta SET one = 2": "BadStore meta",
    "UPDATE meta SET version = 0": "BadStore meta",
    "UPDATE meta SET version = -1": "BadStore meta",
    "INSERT INTO meta VALUES (2, 1, 'x:y')": "BadStore meta",
    "UPDATE meta SET version = 3": "NewerStore",
    "UPDATE meta SET version = 9; DROP TABLE link": "NewerStore",
}
# Changes of a store of version 2, after which a migration still answers 2 and changes nothing: its tables of links
# aren't looked at.
CURRENT = [
    "DROP TABLE link",
    "DROP TABLE hier",
    "ALTER TABLE link RENAME COLUMN b TO c",
    "DROP TABLE posting; DROP TABLE label",
]
# Files of other programs, each with the fault that a migration reports.
FOREIGN = {
    "CREATE TABLE book (title TEXT); INSERT INTO book VALUES ('Emma')": "BadStore meta",
    "CREATE TABLE meta (name TEXT, value TEXT); INSERT INTO meta VALUES ('version', '1')": "BadStore meta",
    "CREATE TABLE meta (one, version, base); CREATE TABLE link (kind, a, b)": "BadStore meta",
    "CREATE TABLE meta (one, version, base); INSERT INTO meta VALUES (1, '1', 'x:y')": "BadStore meta",
    "CREATE TABLE meta (one, version, base); INSERT INTO meta VALUES (1, 1.0, 'x:y')": "BadStore meta",
    "CREATE TABLE meta (one, version, base); INSERT INTO meta VALUES (1, x'01', 'x:y')": "BadStore meta",
    "CREATE TABLE meta (one, version, base); INSERT INTO meta VALUES (1, 4, NULL)": "NewerStore",
    "CREATE TABLE meta (one, version, base); INSERT INTO meta VALUES (1, 1, x'00')": "BadStore link",
    "CREATE TABLE meta (one, version, base); INSERT INTO meta VALUES (1, 1, 'x:y'); CREATE TABLE link (kind, a, b); "
    "CREATE VIEW hier AS SELECT a, b FROM link": "BadStore hier",
    "CREATE VIEW meta AS SELECT 1 AS one, 9 AS version, 'x:y' AS base": "NewerStore",
    "CREATE VIEW meta AS SELECT 1 AS one, 1 AS version, 'x:y' AS base": "BadStore link",
}
# Changes that a migration doesn't check, each with the fault that `check` reports after it.
UNJUDGED = {
    "DROP TABLE posting": "BadStore posting",
    "ALTER TABLE move RENAME COLUMN posting TO post": "BadStore move",
    "UPDATE meta SET base = 'museum'": "BadStore meta",
}
LINKS = 30_000
KILLS = 20
FULL = 12
MADE: dict[str, list[dict[str, Any]]] = {"start": START, "richer": RICHER, "empty": []}
# The rows of each table.
Rows = dict[str, list[Any]]


def asked(path: Path, query: str) -> list[Any]:
    with contextlib.closing(sqlite3.connect(path)) as base:
        return base.execute(query).fetchall()


def change(path: Path, text: str) -> None:
    with contextlib.closing(sqlite3.connect(path)) as base:
        base.executescript(text)


def schema_of(path: Path) -> dict[str, str]:
    """The texts of the tables and indexes, by name."""
    found = asked(path, "SELECT name, sql FROM sqlite_master WHERE sql IS NOT NULL")
    return {name: text.replace(" IF NOT EXISTS", "") for name, text in found}


def rows_of(path: Path) -> Rows:
    there = [name for name in [*TABLES, "hier"] if name in schema_of(path)]
    return {name: sorted(asked(path, f"SELECT * FROM {name}"), key=repr) for name in there}


def older(rows: Rows) -> Rows:
    """The rows of version 1 for these of version 2."""
    told = {name: rows[name] for name in TABLES}
    told["meta"] = [(1, 1, rows["meta"][0][2])]
    told["link"] = sorted([*rows["link"], *((1, a, b) for a, b, _ in rows["hier"])], key=repr)
    return told


def newer(rows: Rows) -> Rows:
    """The rows of version 2 that a migration makes of these."""
    told = {name: list(rows[name]) for name in TABLES}
    told["meta"] = [(1, 2, rows["meta"][0][2])]
    told["link"] = [it for it in rows["link"] if it[0] != 1]
    told["hier"] = sorted(((a, b, 0) for kind, a, b in rows["link"] if kind == 1), key=repr)
    return told


def write_older(path: Path, rows: Rows) -> Path:
    """Makes a store of version 1 with these rows."""
    with contextlib.closing(sqlite3.connect(path)) as base:
        for name, columns in TABLES.items():
            base.execute(f"CREATE TABLE {name} ({columns}) STRICT")
            places = ", ".join("?" * len(columns.split(", PRIMARY KEY (")[0].split(", ")))
            base.executemany(f"INSERT INTO {name} VALUES ({places})", rows[name])
        base.commit()
    return path


def made(path: Path, requests: list[Request]) -> Rows:
    """Makes a store by requests, none of which may be refused, and returns its rows."""
    ended = over(path, "script", lines_of(requests))
    assert not ended.status, ended.out[-300:]
    return rows_of(path)


@functools.cache
def older_rows(name: str) -> Rows:
    """The rows of version 1 of one of the stores."""
    with tempfile.TemporaryDirectory() as room:
        return older(made(Path(room) / "new.db", MADE[name]))


def assert_migrates(path: Path, wanted: Ended = DONE) -> None:
    assert over(path, "migrate") == wanted


def assert_unchanged(path: Path, wanted: Ended, command: str = "migrate") -> None:
    """Asserts how a command ends, which may not change the file."""
    before = path.read_bytes()
    assert over(path, command) == wanted
    assert path.read_bytes() == before


# --- what becomes of a store of version 1 ---


@pytest.mark.parametrize("indexes", ["", INDEXES], ids=["no indexes", "indexes"])
@pytest.mark.parametrize("name", MADE)
def test_migration_makes_the_store_that_the_program_would(name: str, indexes: str, room: Path) -> None:
    """A store of version 1 is reported as an older one before, and left as it is by a second migration."""
    new = room / "new.db"
    rows = made(new, MADE[name])
    assert rows == newer(older(rows))
    path = write_older(room / "old.db", older(rows))
    change(path, indexes)
    assert_unchanged(path, fault(path, "OlderStore"), "check")
    assert_migrates(path)
    assert rows_of(path) == rows and schema_of(path) == schema_of(new)
    assert asked(path, "PRAGMA integrity_check") == [("ok",)]
    assert_unchanged(path, DONE)
    for command in ("check", "export"):
        assert over(path, command) == over(new, command)


def test_migrated_store_answers_requests(room: Path) -> None:
    path = write_older(room / "old.db", older_rows("start"))
    assert_migrates(path)
    assert over(path, "check") == (0, SIZES, b"")
    assert over(path, "script", lines_of(START[-1:])) == (1, b'{"no":"LinkThere"}\n', b"")


ADDED = ["", *additions.additions(TABLES)]


@pytest.mark.parametrize("text", ADDED, ids=[f"{n}-{text[:50]}" for n, text in enumerate(ADDED)])
def test_additions_stay_and_the_store_does_what_one_without_them_does(text: str, room: Path) -> None:
    path = write_older(room / "added.db", older(made(room / "new.db", additions.START)))
    change(path, text)
    parts = additions.own_parts(path)[1]
    assert_migrates(path)
    assert additions.own_parts(path)[1] == parts
    assert not list(additions.differences(path, text))


# --- where there is no store ---


def test_in_memory_there_is_nothing_to_do() -> None:
    assert run(["migrate"], program=built()) == DONE


@pytest.mark.parametrize("is_there", [False, True], ids=["absent", "void"])
def test_where_there_is_no_store_one_is_made(is_there: bool, room: Path) -> None:
    path = room / "none.db"
    if is_there:
        path.touch()
    assert over(path, "migrate", b"", "--base", "http://museum.example/") == DONE
    assert over(path, "check") == (0, NO_SIZES, b"")
    assert asked(path, "SELECT * FROM meta") == [(1, 2, "http://museum.example/")]


def test_wrong_base_makes_no_store(room: Path) -> None:
    path = room / "none.db"
    assert over(path, "migrate", b"", "--base", "museum") == (2, b"", b"thesaurus: BadIri\n")
    assert not path.exists()


@pytest.mark.parametrize("name", ["text.db", "byte.db", "folder", "missing/museum.db"])
def test_what_is_no_database_is_left_as_it_is(name: str, room: Path) -> None:
    data = {"text.db": b"no database\n" * 1000, "byte.db": b"\n"}.get(name, b"")
    if data:
        (room / name).write_bytes(data)
    if name == "folder":
        (room / name).mkdir()
    why = "no such file" if "missing" in name else "not a database"
    assert over(room / name, "migrate") == fault(room / name, "Store", why)
    assert not data or (room / name).read_bytes() == data
    assert not list(room.glob("missing*"))


# --- faults ---


@pytest.mark.parametrize("text", FAULTS)
def test_store_that_cant_be_migrated_is_left_unchanged(text: str, room: Path) -> None:
    path = write_older(room / "fault.db", older_rows("start"))
    change(path, text)
    assert_unchanged(path, fault(path, FAULTS[text]))


@pytest.mark.parametrize("text", UNJUDGED)
def test_nothing_more_is_checked(text: str, room: Path) -> None:
    path = write_older(room / "unjudged.db", older_rows("start"))
    change(path, text)
    # (the second time it is a store of version 2)
    for _ in range(2):
        assert_migrates(path)
    assert over(path, "check") == fault(path, UNJUDGED[text])


@pytest.mark.parametrize("text", CURRENT)
def test_store_of_version_2_is_answered_as_one(text: str, room: Path) -> None:
    path = room / "current.db"
    made(path, START)
    change(path, text)
    assert_unchanged(path, DONE)


@pytest.mark.parametrize("text", FOREIGN)
def test_file_of_another_program_is_refused_for_its_first_difference(text: str, room: Path) -> None:
    path = room / "foreign.db"
    change(path, text)
    assert_unchanged(path, fault(path, FOREIGN[text]))


# --- kills, and full disks ---


@pytest.fixture(scope="module")
def large(shared_room: Path) -> tuple[Path, Rows]:
    """A store of version 1 with many links, and its rows."""
    rows = dict(older_rows("start"))
    broader = [(1, number, 1) for number in range(2, LINKS)]
    related = [(2, number, number + 1) for number in range(2, 2000)]
    rows["link"] = sorted([*broader, *related], key=repr)
    return write_older(shared_room / "large.db", rows), rows


def version_in(path: Path, rows: Rows) -> int | None:
    """The version whose rows the file has, or None if it has others."""
    found = rows_of(path)
    return 1 if found == rows else 2 if found == newer(rows) else None


class Killed(NamedTuple):
    """A migration that was killed: the version that it left, what it printed, the end of the next one, and the version
    then."""

    left: int | None
    out: bytes
    again: Ended
    at_last: int | None


@pytest.fixture(scope="module")
def killed(large: tuple[Path, Rows], shared_room: Path) -> list[Killed]:
    """Migrations that are killed after times up to the one that a whole one takes, and somewhat more."""
    (file, rows), found, dice = large, [], random.Random(5)
    whole = Path(shutil.copy(file, shared_room / "whole.db"))
    start = time.monotonic()
    assert_migrates(whole)
    lasted = time.monotonic() - start
    for number in range(KILLS):
        path = Path(shutil.copy(file, shared_room / f"killed{number}.db"))
        words = [built(), "--db", path, "migrate"]
        with subprocess.Popen(words, stdout=subprocess.PIPE, stderr=subprocess.PIPE) as running:
            time.sleep(lasted * 1.1 * (number + dice.random()) / KILLS)
            running.kill()
            out = running.communicate()[0]
        left = version_in(path, rows)
        found.append(Killed(left, out, over(path, "migrate"), version_in(path, rows)))
    return found


@pytest.mark.parametrize("number", range(KILLS))
def test_killed_migration_leaves_one_version_and_the_next_makes_it_whole(number: int, killed: list[Killed]) -> None:
    it = killed[number]
    assert it.left == 2 if it.out else it.left in (1, 2)
    assert (it.again, it.at_last) == (DONE, 2)


@pytest.fixture(scope="module")
def on_full_disks(large: tuple[Path, Rows], shared_room: Path) -> list[tuple[Path, Ended, int | None]]:
    """Migrations whose files may not grow past a bound: the store, the end, and the version that was left."""
    (file, rows), found = large, []
    for number in range(FULL):
        path = Path(shutil.copy(file, shared_room / f"full{number}.db"))
        most = file.stat().st_size * (number + 1) * 3 // FULL

        def limit(most: int = most) -> None:
            resource.setrlimit(resource.RLIMIT_FSIZE, (most, most))

        ended = over(path, "migrate", preexec_fn=limit, restore_signals=False)
        found.append((path, ended, version_in(path, rows)))
    return found


@pytest.mark.parametrize("number", range(FULL))
def test_store_on_a_full_disk_is_unchanged_or_migrated_as_reported(
    number: int, on_full_disks: list[tuple[Path, Ended, int | None]]
) -> None:
    path, ended, left = on_full_disks[number]
    assert left in (1, 2)
    assert ended == (DONE if left == 2 else fault(path, "Store", "can't be written"))
    assert_migrates(path)


def test_full_disks_leave_either_version(on_full_disks: list[tuple[Path, Ended, int | None]]) -> None:
    assert {left for _, _, left in on_full_disks} == {1, 2}
