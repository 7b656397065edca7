"""The program reports the first faulty table of altered stores: after the changes listed here, and for 3,000 stores,
the same in each run, with one to three altered cells, and now and then a row or a table. The plain program
(plain_store.py) checks each of these, too; if one still loads, its views, its export and its displays must be those of
the state that its rows encode. Tables are also declared otherwise than the program declares them, with the same rows;
and columns have values of kinds that their declarations exclude. A store with additions of a user's, or with tables
made again, answers requests and imports, and gets rows, as any store."""
from __future__ import annotations

import contextlib
import functools
import re
import shutil
import sqlite3
import tempfile
from collections.abc import Iterator
from pathlib import Path
from typing import Any

import additions
import pytest
from dice import IRIS, Requests
from kept import Request
from office import export_of
from plain import BASE, Plain
from plain_display import PlainDisplay
from plain_store import COLUMNS, DECLARED, LIMITS, judge, read_rows, rows_of
from program import MEMORY, Ended, fault, lines_of, over, values_of

START: list[Request] = [
    {"do": "scheme", "tag": "en", "text": "Animals"},
    *({"do": "concept", "scheme": 1, "tag": "en", "text": text} for text in ("Cats", "Mammals", "Pets")),
]
POST: Request = {"do": "post", "key": "k1", "record": "r1", "concept": 2}
# Stores by the requests that make them, each with changes and the fault after each change.
LISTED: list[tuple[list[Request], dict[str, str]]] = [
    (
        [*START, POST, {"do": "merge", "source": 2, "target": 3}],
        {
            "DELETE FROM meta": "BadStore meta",
            "UPDATE resource SET replaced = 2 WHERE num = 2": "BadStore resource",
            "UPDATE resource SET replaced = 1 WHERE num = 2": "BadStore resource",
            "UPDATE resource SET replaced = 1 WHERE num = 2; DROP TABLE move": "BadStore resource",
            "DELETE FROM resource WHERE num = 4": "BadStore label",
            "INSERT INTO outside VALUES (2, 'http://example.org/x')": "BadStore outside",
            "UPDATE label SET text = 'Pets' WHERE owner = 3 AND kind = 1": "BadStore label",
            "INSERT INTO link VALUES (1, 2, 3)": "BadStore link",
            "INSERT INTO link VALUES (1, 3, 4)": "BadStore link",
            "UPDATE posting SET withdrawn = 2": "BadStore posting",
            "UPDATE posting SET at = 2": "BadStore posting",
            "UPDATE posting SET at = 4": "BadStore move",
            "INSERT INTO move VALUES (2, 1, 3, 4)": "BadStore move",
            "INSERT INTO move VALUES (2, 9, 3, 4)": "BadStore move",
            "UPDATE move SET num = 2": "BadStore move",
            "UPDATE move SET source = 4": "BadStore move",
            "DROP TABLE move": "BadStore move",
            "DROP TABLE posting": "BadStore posting",
            "DROP TABLE label": "BadStore label",
            "DROP TABLE label; DROP TABLE posting; DROP TABLE hier": "BadStore label",
            "UPDATE posting SET at = 4; DELETE FROM label WHERE text = 'Pets'": "BadStore label",
            "UPDATE meta SET version = 9": "NewerStore",
            "UPDATE meta SET version = 9; DROP TABLE resource": "NewerStore",
            "UPDATE meta SET version = 1": "OlderStore",
            "UPDATE meta SET version = 1; DROP TABLE hier": "OlderStore",
            "UPDATE meta SET one = 2, version = 9": "BadStore meta",
            "INSERT INTO meta VALUES (2, 9, 'x:y')": "BadStore meta",
        },
    ),
    (
        [*START, {"do": "link", "kind": "broader", "a": 2, "b": 3}],
        {"INSERT INTO hier VALUES (3, 2, 0)": "BadStore hier", "INSERT INTO link VALUES (1, 3, 2)": "BadStore link"},
    ),
]
# Parts of a declaration, and what stands there in another one, under which SQLite takes the same rows.
REDECLARED = [
    ("meta", "base TEXT NOT NULL", "base TEXT"),
    ("meta", "one INTEGER PRIMARY KEY", "one INT PRIMARY KEY NOT NULL"),
    ("resource", "num INTEGER PRIMARY KEY", "num INTEGER NOT NULL"),
    ("resource", "num INTEGER PRIMARY KEY", "num INTEGER PRIMARY KEY AUTOINCREMENT"),
    ("resource", "scheme INTEGER", "scheme INTEGER REFERENCES resource"),
    ("resource", "live INTEGER", "live ANY"),
    ("resource", "replaced INTEGER", "replaced INTEGER UNIQUE"),
    ("outside", " UNIQUE", ""),
    ("label", "tag, text)", "tag)"),
    ("label", "tag TEXT NOT NULL", "tag TEXT NOT NULL COLLATE NOCASE"),
    ("label", ", PRIMARY KEY (owner, kind, tag, text)", ""),
    ("link", "a INTEGER NOT NULL, b INTEGER NOT NULL", "b INTEGER NOT NULL, a INTEGER NOT NULL"),
    ("link", "PRIMARY KEY (kind, a, b)", "PRIMARY KEY (kind, b, a)"),
    ("hier", "typ INTEGER NOT NULL", "typ INTEGER NOT NULL, note TEXT NOT NULL DEFAULT ''"),
    ("posting", "record TEXT", "record ANY"),
    ("posting", "pkey TEXT NOT NULL UNIQUE", "pkey TEXT NOT NULL"),
    ("posting", "pkey TEXT NOT NULL UNIQUE", "pkey TEXT NOT NULL COLLATE RTRIM UNIQUE"),
    ("posting", "withdrawn INTEGER NOT NULL", "withdrawn INTEGER"),
    ("move", "target INTEGER", "target REAL"),
]
# Requests of which each table has a row.
EVERY_TABLE: list[Request] = [
    *START,
    {"do": "outside", "iri": "http://example.org/x"},
    {"do": "link", "kind": "exact", "a": 4, "b": 5},
    {"do": "link", "kind": "broader", "a": 3, "b": 4},
    POST,
    {"do": "merge", "source": 2, "target": 3},
]
# Values of each kind, as SQL; a column accepts at most one kind and null.
VALUES = ("x'41'", "x'ff'", "2.5", "-1e300", "'2'", "7", "NULL")
# Objects of SQLite with which a table isn't that of a store, and the table.
BOUND = {
    "CREATE UNIQUE INDEX more ON label (text)": "label",
    "CREATE INDEX more ON posting (record) WHERE withdrawn = 0": "posting",
    "CREATE TRIGGER more AFTER INSERT ON posting BEGIN DELETE FROM move; END": "posting",
    "ALTER TABLE move RENAME TO other; CREATE VIEW move AS SELECT * FROM other": "move",
    (
        "ALTER TABLE hier RENAME TO other; CREATE VIEW hier AS SELECT * FROM other; CREATE UNIQUE INDEX "
        "more ON move (posting)"
    ): "hier",
}
STORES = 3000
MOST_ROWS = 40
# How often each table is altered.
WEIGHTS = {"meta": 1, "resource": 3, "outside": 3, "label": 4, "link": 3, "hier": 4, "posting": 4, "move": 5}
VERDICTS = ["ok", "NewerStore", "OlderStore", *(f"BadStore {table}" for table in COLUMNS)]
TEXT_COLUMNS = ("base", "iri", "tag", "text", "pkey", "record")
NULL_COLUMNS = ("scheme", "replaced")
NUMBERS = (-(2**63), -1, 0, 1, 2, 3, 4, 5, 6, 7, 8, 9, 2**32 - 1, 2**32, 2**32 + 1, 2**63 - 1)
TEXTS = [
    *(it.encode() for it in ("", " ", " a", "a ", "a\x00", "a\x1fb", "\x7f", "\u0085", "\u00e9", "\U0001f600", "a\nb")),
    *(
        it.encode()
        for it in ("en", "EN", "de", "en-gb", "en-", "abcdefghi", "e1", "x:y", "x:", "1:y", "x:a b", "x:a|b")
    ),
    *(it.encode() for it in (*IRIS, BASE, "t10", "t11", "k1", "k 1", "r1", "r 1")),
    *(b"x:" + b"y" * (most - 2) for most in (35, 36, 64, 65, 128, 129, 200, 201, 256, 257, 512, 513, 2000, 2001)),
    *(b"\xff", b"a\xc0\x80", b"\xed\xa0\x80", b"\xf4\x90\x80\x80", b"x:\xc3"),
]
TOTALS = b'{"get":"totals"}\n'


def change(path: Path, text: str) -> None:
    with contextlib.closing(sqlite3.connect(path)) as base:
        base.executescript(text)


def changed(path: Path, copy: Path, text: str) -> Path:
    """A copy of a store, changed by SQLite itself."""
    shutil.copy(path, copy)
    change(copy, text)
    return copy


def assert_ends(path: Path, wanted: Ended, *commands: str) -> None:
    """Asserts how commands end, none of which may change the file."""
    for command in commands:
        before = path.read_bytes()
        assert over(path, command, TOTALS) == wanted, command
        assert path.read_bytes() == before, f"{command} changed the file"


def store_of(path: Path, requests: list[Request]) -> Path:
    """Makes a store by requests; some may be refused."""
    over(path, "script", lines_of(requests))
    return path


# --- listed changes ---

CHANGES = [(number, text) for number, (_, changes) in enumerate(LISTED) for text in changes]


@pytest.mark.parametrize(("number", "text"), CHANGES, ids=[f"{n}-{text[:60]}" for n, text in CHANGES])
def test_listed_change_is_the_fault_of_its_table(number: int, text: str, room: Path) -> None:
    requests, changes = LISTED[number]
    path = changed(store_of(room / "listed.db", requests), room / "changed.db", text)
    assert_ends(path, fault(path, changes[text]), "check", "script")


def test_database_of_other_tables_is_no_store(room: Path) -> None:
    other = room / "other.db"
    change(other, "CREATE TABLE other (x)")
    assert_ends(other, fault(other, "BadStore meta"), "check", "script")


# --- tables that are declared otherwise ---


def remaking(table: str, declaration: str, strict: str = " STRICT") -> str:
    """Statements that make a table again with another declaration, and the same rows."""
    columns = ", ".join(COLUMNS[table])
    return f"""ALTER TABLE {table} RENAME TO former; CREATE TABLE {table} ({declaration}){strict};
INSERT INTO {table} ({columns}) SELECT {columns} FROM former ORDER BY rowid; DROP TABLE former;"""


def widened(declaration: str, columns: str) -> str:
    """A declaration with further columns, which stand before a key of several."""
    given, mark, key = declaration.partition(", PRIMARY KEY (")
    return f"{given}, {columns}{mark}{key}"


def redeclared() -> Iterator[tuple[str, str]]:
    """Statements that declare a table otherwise, and the table."""
    yield from BOUND.items()
    for table, declaration in DECLARED.items():
        yield remaking(table, declaration, ""), table
        yield remaking(table, widened(declaration, "note TEXT"), ""), table
        yield remaking(table, declaration, " STRICT, WITHOUT ROWID"), table
    for table, part, other in REDECLARED:
        assert DECLARED[table].count(part) == 1
        yield remaking(table, DECLARED[table].replace(part, other)), table


OTHERWISE = list(redeclared())


@pytest.mark.parametrize(("text", "table"), OTHERWISE, ids=[f"{n}-{it[1]}" for n, it in enumerate(OTHERWISE)])
def test_table_that_is_declared_otherwise_is_a_fault(text: str, table: str, room: Path) -> None:
    """Also if its rows are those of a store."""
    path = changed(store_of(room / "declared.db", LISTED[0][0][:-1]), room / "changed.db", text)
    assert_ends(path, fault(path, f"BadStore {table}"), "check", "script")


# --- additions ---


def remade() -> list[str]:
    """Statements that make tables again as they were, one by one and all, and with further columns that may be null."""
    same = [remaking(*it) for it in DECLARED.items()]
    wider = [remaking(table, widened(it, "note TEXT, seen INTEGER")) for table, it in DECLARED.items()]
    return [*same, *wider, "".join(same), "".join(reversed(wider)), "DROP INDEX posting_at; DROP INDEX move_posting"]


ADDED = ["", *additions.additions(), *remade()]


@pytest.mark.parametrize("text", ADDED, ids=[f"{n}-{text[:50]}" for n, text in enumerate(ADDED)])
def test_store_with_additions_does_what_one_without_them_does(text: str, room: Path) -> None:
    """So does one whose tables were made again, with further columns or without the program's indexes."""
    path = store_of(room / "added.db", additions.START)
    whole = over(path, "check")
    copy = changed(path, room / "copy.db", text)
    assert_ends(copy, whole, "check")
    assert not list(additions.differences(copy, text))


def test_requests_to_stores_with_additions_are_of_each_kind() -> None:
    assert not list(additions.unmet())


@pytest.mark.parametrize("text", additions.REFUSING, ids=["a foreign key", "a check"])
def test_addition_that_refuses_a_request(text: str, room: Path) -> None:
    """The request's answer is Store, and the next one is performed."""
    copy = changed(store_of(room / "added.db", additions.START), room / "copy.db", text)
    request, post = additions.REFUSING[text], additions.post("k9", "r9", 2)
    after, answer = additions.performed(Plain(LIMITS), additions.START)[0].perform(post)
    wanted = 3, lines_of([{"fault": "Store"}, answer]), b"thesaurus: fault Store\n"
    assert over(copy, "script", lines_of([request, post])) == wanted
    assert not list(additions.other_rows(copy, after))


# --- values of other kinds ---


def declare(path: Path, table: str, text: str) -> str:
    """Gives a table another declaration, and leaves its rows as they are. Returns the former declaration."""
    with contextlib.closing(sqlite3.connect(path)) as base, base:
        former: str = base.execute("SELECT sql FROM sqlite_schema WHERE name = ?", (table,)).fetchone()[0]
        base.execute("PRAGMA writable_schema = ON")
        base.execute("UPDATE sqlite_schema SET sql = ? WHERE name = ?", (text, table))
    return former


def other_kinds() -> Iterator[tuple[str, str, str]]:
    """The columns of each table, each with values of the kinds that its declaration excludes. (A number that is a row's
    key can't be of another kind.)"""
    for table, declaration in DECLARED.items():
        columns = declaration.partition(", PRIMARY KEY (")[0]
        for column, kind, rest in re.findall(r"(\w+) (INTEGER|TEXT)([^,]*)", columns):
            allowed = {"INTEGER": ("7",), "TEXT": ("'2'",)}[kind] + ("NULL",) * ("NOT NULL" not in rest)
            if "PRIMARY KEY" not in rest:
                yield from ((table, column, it) for it in VALUES if it not in allowed)


KINDS = list(other_kinds())


@pytest.mark.parametrize(("table", "column", "value"), KINDS, ids=[f"{it[0]}.{it[1]} = {it[2]}" for it in KINDS])
def test_value_of_a_kind_that_its_column_excludes(table: str, column: str, value: str, room: Path) -> None:
    """It is a fault of its table, which is declared without kinds; or of the file, if the table is then declared as
    before: the library checks the values as it opens a database."""
    path = store_of(room / "kind.db", EVERY_TABLE)
    columns = re.sub(r" (INTEGER|TEXT)(?! PRIMARY)| NOT NULL", "", DECLARED[table])
    former = declare(path, table, f"CREATE TABLE {table} ({columns})")
    change(path, f"UPDATE {table} SET {column} = {value} WHERE rowid = (SELECT max(rowid) FROM {table})")
    assert_ends(path, fault(path, f"BadStore {table}"), "check")
    declare(path, table, former)
    with contextlib.closing(sqlite3.connect(path)) as base:
        last = base.execute(f"SELECT typeof({column}), quote({column}) FROM {table} ORDER BY rowid DESC").fetchone()
        assert last == base.execute(f"SELECT typeof({value}), quote({value})").fetchone()
    assert_ends(path, fault(path, "Store", "damaged"), "check", "script")


# --- generated stores ---


def rows_in(plain: Plain) -> int:
    """How many rows the tables of a state have."""
    irises = sum(it["kind"] == "outside" for it in plain.resources)
    return 1 + irises + sum(len(getattr(plain, name)) for name in LIMITS)


def thrown(dice: Requests) -> tuple[list[Request], list[Request], Plain]:
    """Requests that make a store of a few rows up to most, the answers to them, and the state then."""
    plain, requests, answers = Plain(LIMITS), list[Request](), list[Request]()
    enough = dice.between(6, MOST_ROWS)
    while len(requests) < 120:
        request = dice.posting(plain) if len(plain.resources) > 3 and dice.one_in(3) else dice.request(plain, 8)
        if "get" in request:
            continue
        after, answer = plain.perform(request)
        if rows_in(after) > enough:
            break
        plain = after
        requests.append(request)
        answers.append(answer)
    return requests, answers, plain


class Alterer:
    """Alters the rows of a store by SQLite itself. What its schema refuses is no change."""

    def __init__(self, dice: Requests, base: sqlite3.Connection) -> None:
        self.dice, self.base = dice, base
        self.changes: list[tuple[Any, ...]] = []

    def cell(self, column: str, rows: list[Any]) -> Any:
        """A cell for a column: that of another row, one near it, or any."""
        near = self.dice.pick(rows)
        if column in TEXT_COLUMNS:
            any_text = self.dice.pick(TEXTS)
            return self.dice.pick((near, any_text, near + any_text, near[:-1], near.upper(), any_text))
        if near is None or column in NULL_COLUMNS and self.dice.one_in(4):
            return self.dice.pick((None, self.dice.between(1, 9)))
        return self.dice.pick((near, near - 1, near + 1, self.dice.between(1, 9), self.dice.pick(NUMBERS)))

    def perform(self, statement: str, *values: Any) -> None:
        """Performs a statement, and notes it if the schema allows it and it changes something."""
        with contextlib.suppress(sqlite3.IntegrityError, OverflowError):
            if self.base.execute(statement, values).rowcount != 0:
                self.changes.append((statement, *values))

    def alter(self) -> None:
        """Tries a change: mostly of a cell, now and then a row goes, comes again with another cell, or a table goes."""
        table = self.dice.pick([table for table, weight in WEIGHTS.items() for _ in range(weight)])
        rows = self.rows(table)
        if not rows:
            return
        if self.dice.one_in(60):
            return self.perform(f"DROP TABLE {table}")
        columns = COLUMNS[table]
        place = self.dice.below(len(columns))
        column, (number, *row) = columns[place], self.dice.pick(rows)
        cell = self.cell(column, [it[place + 1] for it in rows])
        marks = ["CAST(? AS TEXT)" if it in TEXT_COLUMNS else "?" for it in columns]
        if self.dice.one_in(12):
            return self.perform(f"DELETE FROM {table} WHERE rowid = ?", number)
        if self.dice.one_in(8):
            row[place] = cell
            if columns[0] == "num":
                row[0] = self.dice.pick((row[0], len(rows) + 1))
            return self.perform(f"INSERT INTO {table} VALUES ({', '.join(marks)})", *row)
        update = f"UPDATE {table} SET {column} = {marks[place]} WHERE rowid = ? AND {column} IS NOT {marks[place]}"
        return self.perform(update, cell, number, cell)

    def rows(self, table: str) -> list[Any]:
        """The rows of a table with their row numbers, or none if the table is gone."""
        with contextlib.suppress(sqlite3.OperationalError):
            return self.base.execute(
                f"SELECT rowid, {', '.join(COLUMNS[table])} FROM {table} ORDER BY rowid"
            ).fetchall()
        return []


def alter(dice: Requests, path: Path) -> list[tuple[Any, ...]]:
    """Alters a store in a file by one to three changes, and returns them."""
    with contextlib.closing(sqlite3.connect(path)) as base:
        base.text_factory = bytes
        base.execute("PRAGMA synchronous = OFF")
        alterer = Alterer(dice, base)
        wanted = dice.pick((1, 1, 2, 3))
        while len(alterer.changes) < wanted:
            alterer.alter()
        base.commit()
    return alterer.changes


def texts_of(plain: Plain, base: str) -> Iterator[tuple[str, tuple[str, ...], bytes]]:
    """The export of a state, and the displays of its first scheme in two languages, each with its command and the words
    after it."""
    yield "export", (), export_of(plain, base)
    scheme = next((n for n, it in enumerate(plain.resources, 1) if it["kind"] == "scheme"), None)
    for tag in sorted({it[2] for it in plain.labels})[:2] if scheme else ():
        shown = PlainDisplay(plain, scheme, tag)
        after = ("--scheme", str(scheme), "--lang", tag)
        yield from (("alphabetical", after, shown.alphabetical()), ("hierarchical", after, shown.hierarchical()))


def assert_shows(path: Path, plain: Plain, base: str) -> None:
    """Asserts that a store's views, export and displays are those of a state."""
    asked = plain.queries()
    assert values_of(over(path, "script", lines_of(asked)).out) == [plain.show(it) for it in asked]
    for command, after, wanted in texts_of(plain, base):
        assert over(path, command, after=after) == (0, wanted, b""), (command, after)


@functools.cache
def verdict_of(seed: int) -> str:
    """Makes a store, alters it, and asserts that the answers are those of the plain program, whose verdict is
    returned."""
    dice = Requests(seed)
    with tempfile.TemporaryDirectory(dir=MEMORY) as room:
        path = Path(room) / "generated.db"
        requests, answers, made = thrown(dice)
        ended = over(path, "script", lines_of(requests))
        assert not ended.err and values_of(ended.out) == answers, lines_of(requests)
        assert read_rows(path) == rows_of(made) and judge(rows_of(made))[1], lines_of(requests)
        changes = alter(dice, path)
        rows = read_rows(path)
        verdict, plain = judge(rows)
        wanted = Ended(0, f"{verdict}\n".encode(), b"") if plain else fault(path, verdict.removeprefix("fault "))
        assert over(path, "check") == wanted, (changes, rows)
        if plain:
            assert_shows(path, plain, rows["meta"][0][2])
    return verdict.removeprefix("fault ").partition(" resources=")[0]


@pytest.mark.parametrize("seed", range(1, STORES + 1))
def test_altered_store_ends_as_by_the_plain_program(seed: int) -> None:
    assert verdict_of(seed) in VERDICTS


@pytest.mark.parametrize("verdict", VERDICTS)
def test_verdict_is_met(verdict: str) -> None:
    assert any(verdict_of(seed) == verdict for seed in range(1, STORES + 1))
