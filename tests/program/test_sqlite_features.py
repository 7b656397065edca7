"""What docs/OPERATING.md says that SQLite allows and the program doesn't read: the program ends with the fault of the
table's row and leaves the file as it is, and reads the store again once that is taken back as the row says."""
from __future__ import annotations

import contextlib
import re
import shutil
import sqlite3
from collections.abc import Iterator
from pathlib import Path
from typing import NamedTuple

import pytest
from program import ROOT, Ended, fault, over

PAGE = ROOT / "docs" / "OPERATING.md"
HEADING = "### What SQLite allows and the program doesn't read"
# The reasons that the page's table has after Store, as the program prints them.
REASONS = {"": "", "damaged": "damaged", "schema": "something in its schema can't be read"}
# What a view may have that the program can't read.
UNREAD = (
    "SELECT count(*) OVER w FROM label WINDOW w AS (ORDER BY text)",
    "SELECT count(*) FILTER (WHERE kind = 1) FROM label",
    "SELECT 1 FROM label FULL JOIN link ON owner = a",
    "SELECT 1 FROM label NATURAL JOIN posting",
    "SELECT 1 FROM label WHERE (owner, kind) = (1, 1)",
    "VALUES (1)",
    "SELECT text ->> '$.a' FROM label",
    "SELECT value FROM label, json_each(text)",
    "SELECT name FROM pragma_table_info('label')",
    "SELECT 1 FROM label WHERE text MATCH 'a'",
    "SELECT 1 FROM label WHERE text LIKE 'a%' ESCAPE '!'",
    "WITH more AS MATERIALIZED (SELECT 1) SELECT * FROM more",
)
READ = (
    *(f"PRAGMA journal_mode = DELETE; PRAGMA page_size = {size}; VACUUM" for size in (512, 1024, 8192, 65536)),
    "PRAGMA journal_mode = TRUNCATE",
    "PRAGMA journal_mode = WAL",
    "VACUUM",
    "ANALYZE",
    "REINDEX",
)


class Row(NamedTuple):
    """A row of the page's table: what is done, the fault, and what takes it back, the first and the last as
    statements."""

    done: str
    fault: str
    undone: str


def rows() -> Iterator[Row]:
    section = PAGE.read_text(encoding="utf-8").split(f"{HEADING}\n")[1].split("\n\nA view may not")[0]
    for line in re.findall(r"^\| (?!Done)(.*) \|$", section, re.M):
        done, name, undone = (it.strip() for it in line.split("|"))
        yield Row(done.split("`")[1], name, undone.split("`")[1])


def perform(path: Path, statements: str) -> None:
    """Has SQLite perform statements on a file."""
    with contextlib.closing(sqlite3.connect(path, isolation_level=None)) as database:
        database.executescript(statements)


def dump(path: Path) -> str:
    with contextlib.closing(sqlite3.connect(path)) as database:
        return "\n".join(database.iterdump())


def ended(path: Path, row: Row) -> Ended:
    """How the program ends over the altered store. What keeps the schema from being read is named before the fault, and
    is what is dropped first."""
    name, _, reason = row.fault.partition(", ")
    wanted = fault(path, name, REASONS[reason])
    if reason != "schema":
        return wanted
    found = row.undone.split(";")[0].split()[-1]
    return wanted._replace(
        err=f"thesaurus: {found} can't be read; it can be dropped with sqlite3\n".encode() + wanted.err
    )


def has_module(statements: str) -> bool:
    """Whether SQLite here has the module of a virtual table."""
    module = re.search(r"USING (\w+)", statements)
    return not module or (module[1],) in sqlite3.connect(":memory:").execute("PRAGMA module_list").fetchall()


ROWS = [it for it in rows() if has_module(it.done)]
VIEWS = [Row(f"CREATE VIEW best AS {it}", "Store, schema", "DROP VIEW best") for it in UNREAD]


@pytest.fixture(scope="module")
def store(tmp_path_factory: pytest.TempPathFactory) -> tuple[Path, Ended]:
    """The sample, and how its check ends."""
    path = tmp_path_factory.mktemp("features") / "store.db"
    over(path, "script", (ROOT / "examples" / "instruments.jsonl").read_bytes())
    over(path, "import", after=[ROOT / "examples" / "postings.csv"])
    return path, over(path, "check")


def test_page_has_rows() -> None:
    assert ROWS


@pytest.mark.parametrize("row", [*ROWS, *VIEWS], ids=lambda it: it.done)
def test_row_of_the_page(row: Row, store: tuple[Path, Ended], tmp_path: Path) -> None:
    path, statements = tmp_path / "altered.db", dump(store[0])
    if "encoding" in row.done:
        perform(path, f"{row.done}; {statements}")
    else:
        shutil.copyfile(store[0], path)
        perform(path, row.done)
    before = path.read_bytes()
    for command, given in (("check", b""), ("script", b'{"do":"post","key":"new","record":"New","concept":2}\n')):
        assert over(path, command, given) == ended(path, row)
    assert path.read_bytes() == before
    if row.undone == ".dump":
        copied = dump(path)
        path.unlink()
        perform(path, copied)
    else:
        perform(path, row.undone)
    assert over(path, "check") == store[1]


@pytest.mark.parametrize("statements", READ)
def test_what_the_program_reads(statements: str, store: tuple[Path, Ended], tmp_path: Path) -> None:
    path = tmp_path / "read.db"
    shutil.copyfile(store[0], path)
    perform(path, statements)
    assert over(path, "check") == store[1]
