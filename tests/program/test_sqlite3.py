"""SQLite's own program reads the store that test_store writes: its check of the file, the schema, each row; and
test_store reads the dump of that store after it is restored, and stores that SQLite's program has altered, without a
change of their files. `rt try` runs test_store, or with --built the program that `rt ci` built."""
from __future__ import annotations

import fcntl
import re
import shutil
import subprocess
import tempfile
from collections.abc import Iterator, Mapping
from contextlib import contextmanager, nullcontext
from pathlib import Path
from typing import NamedTuple

import pytest
from program import ROOT, program_of

pytestmark = pytest.mark.needs("sqlite3", "rt")
CRATE = ROOT / "crates" / "test_store"
# What the program prints of the store that it makes, among what all its tests print.
MADE = re.findall(r"^meta\n.*?^closed: true\n", (CRATE / "stdout").read_text(encoding="utf-8"), re.M | re.S)[0]
WANTED = MADE.partition("found\n")[0]
# The columns of each table; after a slash those of its key, unless one number is the key.
SCHEMA = {
    "meta": "one version base",
    "resource": "num kind scheme live replaced",
    "outside": "num iri",
    "label": "owner kind tag text / owner kind tag text",
    "link": "kind a b / kind a b",
    "hier": "a b typ / a b typ",
    "posting": "num pkey record first_at at withdrawn",
    "move": "num posting source target",
}
UNIQUE = {"outside": ["iri"], "posting": ["pkey"]}
PLAIN = {"posting": ["at"], "move": ["posting"]}

BASE = "https://thesaurus.example/id/"
NONE = " not queried\n"
# Changes of a store, each with the tables of which a load then returns other rows.
ALTERED: dict[str, dict[str, str | None]] = {
    "CREATE TABLE extra (x)": {},
    "ALTER TABLE posting ADD COLUMN note TEXT": {},
    "DELETE FROM meta": {"meta": None},
    "UPDATE meta SET version = 9": {"meta": f" 1 9 {BASE}\n"},
    "INSERT INTO meta VALUES (2, 2, 'x')": {"meta": f" 1 2 {BASE}\n 2 2 x\n"},
    "UPDATE meta SET version = 1; DROP TABLE hier": {"meta": f" 1 1 {BASE}\n", "hier": NONE},
    "DROP TABLE move": {"move": NONE},
    "ALTER TABLE move RENAME COLUMN source TO origin": {"move": NONE},
    "UPDATE link SET kind = -1": {"link": " -1 3 5\n"},
    "UPDATE outside SET num = 7": {"outside": " 7 http://example.org/x\n"},
    "UPDATE outside SET iri = CAST(x'ff' AS TEXT)": {"outside": " 5 -1\n"},
    "ALTER TABLE move RENAME TO other; CREATE VIEW move AS SELECT * FROM other": {"move": NONE},
    "ALTER TABLE posting ADD COLUMN more TEXT AS (upper(record))": {"posting": NONE},
    "CREATE TRIGGER more AFTER INSERT ON label BEGIN SELECT 1; END": {"label": NONE},
    "ALTER TABLE link RENAME TO other; CREATE TABLE link (kind INTEGER NOT NULL, a INTEGER NOT NULL, "
    "b INTEGER NOT NULL, "
    "PRIMARY KEY (kind, a, b)) STRICT, WITHOUT ROWID; INSERT INTO link SELECT kind, a, b FROM other; "
    "DROP TABLE other": {"link": NONE},
}


def sqlite3(path: Path, *commands: str) -> str:
    ran = subprocess.run(["sqlite3", str(path), *commands], capture_output=True, text=True, check=True)
    return ran.stdout


@contextmanager
def one_at_a_time() -> Iterator[None]:
    """Waits until no other lane compiles the crate."""
    with open(Path(tempfile.gettempdir(), "thesaurus-test-store.lock"), "w", encoding="ascii") as lock:
        fcntl.flock(lock, fcntl.LOCK_EX)
        yield


def run_test_store(*words: str | Path) -> str:
    built = program_of("test_store")
    program = [str(built)] if built else ["rt", "try", "--"]
    with nullcontext() if built else one_at_a_time():
        ran = subprocess.run([*program, *map(str, words)], cwd=CRATE, capture_output=True, text=True, check=False)
    return ran.stdout.partition("checked:")[0]


@pytest.fixture(scope="module")
def room(tmp_path_factory: pytest.TempPathFactory) -> Path:
    """A folder with the store that test_store makes."""
    place = tmp_path_factory.mktemp("sqlite3")
    assert run_test_store("make", place / "store.db").rstrip() == MADE.rstrip()
    return place


@pytest.fixture(scope="module")
def restored(room: Path) -> Path:
    """That store, restored from its dump."""
    path = room / "again.db"
    dump = sqlite3(room / "store.db", ".dump")
    subprocess.run(["sqlite3", str(path)], input=dump, text=True, check=True)
    return path


@pytest.fixture(scope="module", params=["as it is", "restored"])
def store(request: pytest.FixtureRequest, room: Path, restored: Path) -> Path:
    return restored if request.param == "restored" else room / "store.db"


def rows_in(path: Path) -> str:
    """What the tables hold, as test_store prints it."""
    out = []
    for table, columns in SCHEMA.items():
        names = columns.partition(" / ")[0].replace(" ", ", ")
        shown = sqlite3(path, "-separator", " ", "-nullvalue", "null", f"SELECT {names} FROM {table} ORDER BY {names}")
        out.append(f"{table}\n" + "".join(f" {line}\n" for line in shown.splitlines()))
    return "".join(out)


def indexed(path: Path, table: str, origin: str) -> list[str]:
    """The columns of each index of the table that came in this way."""
    names = (line.split("|") for line in sqlite3(path, f"PRAGMA index_list({table})").splitlines())
    lists = (sqlite3(path, f"PRAGMA index_info({name})") for _, name, _, how, _ in names if how == origin)
    return [" ".join(row.split("|")[2] for row in it.splitlines()) for it in lists]


def test_file_is_whole(store: Path) -> None:
    assert sqlite3(store, "PRAGMA integrity_check") == "ok\n"
    tables = sqlite3(store, "SELECT name FROM sqlite_schema WHERE type = 'table'").split()
    assert sorted(tables) == sorted(SCHEMA)


@pytest.mark.parametrize("table", SCHEMA)
def test_table_has_its_columns_and_indexes(table: str, store: Path) -> None:
    names, _, key = SCHEMA[table].partition(" / ")
    found = sqlite3(store, f"PRAGMA table_info({table})").splitlines()
    assert [line.split("|")[1] for line in found] == names.split()
    assert sqlite3(store, f"SELECT sql FROM sqlite_schema WHERE name = '{table}'").strip().endswith("STRICT")
    assert indexed(store, table, "pk") == ([key] if key else [])
    assert indexed(store, table, "u") == UNIQUE.get(table, [])
    assert indexed(store, table, "c") == PLAIN.get(table, [])


def test_rows_are_those_that_were_written(store: Path) -> None:
    assert rows_in(store) == WANTED


# --- what test_store reads ---


class Case(NamedTuple):
    """A file, what it is, how test_store reports it, and its bytes before."""

    path: Path
    what: str
    wanted: str
    before: bytes | None


def bytes_of(path: Path) -> bytes | None:
    return path.read_bytes() if path.is_file() else None


def rows_returned(changes: Mapping[str, str | None]) -> str:
    """The rows that a load returns if these tables are changed; None for a table without rows."""
    sections: dict[str, str | None] = {}
    for part in re.findall(r"^\w.*\n(?: .*\n)*", WANTED, re.M):
        name, _, text = part.partition("\n")
        sections[name.strip()] = text
    sections.update(changes)
    return "".join(f"{name}\n{text}" for name, text in sections.items() if text is not None)


@pytest.fixture(scope="module")
def cases(room: Path, restored: Path) -> dict[str, Case]:
    """The restored store, altered stores, and files that are no store."""
    made = {"the restored store": (restored, WANTED + "closed: true\n")}
    for number, (change, changes) in enumerate(ALTERED.items()):
        copy = shutil.copy(room / "store.db", room / f"altered{number}.db")
        sqlite3(copy, change)
        made[change] = (copy, rows_returned(changes) + "closed: true\n")
    other, words = room / "other.db", room / "words.db"
    sqlite3(other, "CREATE TABLE other (x)")
    words.write_text("no database\n" * 100, encoding="utf-8")
    made["a database of other tables"] = (other, rows_returned(dict.fromkeys(SCHEMA, NONE)) + "closed: true\n")
    made["a file that is no database"] = (words, "not opened\n")
    made["a folder"] = (room, "not opened\n")
    made["a missing folder"] = (room / "missing" / "store.db", "not opened\n")
    return {what: Case(path, what, wanted, bytes_of(path)) for what, (path, wanted) in made.items()}


@pytest.fixture(scope="module")
def printed(cases: dict[str, Case]) -> str:
    """What test_store prints of all these files."""
    return run_test_store("show", *(it.path for it in cases.values()))


NO_STORES = ("a database of other tables", "a file that is no database", "a folder", "a missing folder")


@pytest.mark.parametrize("what", ["the restored store", *ALTERED, *NO_STORES])
def test_file_is_read_and_left_as_it_is(what: str, cases: dict[str, Case], printed: str) -> None:
    case = cases[what]
    found = printed.partition(f"{case.path}:\n")[2]
    assert re.match(re.escape(case.wanted) + r"(/|$)", found), found[:500]
    assert bytes_of(case.path) == case.before
