"""Additions that a user may make to a store besides its tables, and what a store must do with them as without them: it
answers each kind of request, accepted and refused, and an import, and gets the same rows; and the additions stay as
they were."""
from __future__ import annotations

import contextlib
import sqlite3
from collections.abc import Iterable, Iterator
from pathlib import Path
from typing import Any

from plain import Plain, Request
from plain_postings import import_file
from plain_requests import MEMBERS
from plain_store import COLUMNS, LIMITS, judge, read_rows, rows_of
from program import lines_of, over, values_of

TABLES = [
    "CREATE TABLE extra (x); INSERT INTO extra VALUES (1), ('a'), (x'00'), (NULL), (2.5)",
    "CREATE TABLE shelf (num INTEGER PRIMARY KEY, concept INTEGER NOT NULL UNIQUE, place TEXT DEFAULT 'A') STRICT; "
    "INSERT INTO shelf (concept) VALUES (2), (3), (77); CREATE INDEX places ON shelf (place)",
    "CREATE VIEW alive AS SELECT num, kind FROM resource WHERE live = 1",
    (
        "CREATE TABLE seen (posting REFERENCES posting (num), concept REFERENCES resource (num)); INSERT "
        "INTO seen VALUES (3, 2)"
    ),
    "CREATE TABLE sides (name PRIMARY KEY, number) WITHOUT ROWID; INSERT INTO sides VALUES ('left', 1)",
]
COLUMN = "ALTER TABLE {0} ADD COLUMN note TEXT; UPDATE {0} SET note = 'mine'"
INDEX = "CREATE INDEX more_{0} ON {0} ({1})"


def word(does: str, text: str, **members: Any) -> Request:
    return {"do": does, "tag": "en", "text": text, **members}


def link(kind: str, a: int, b: int, does: str = "link") -> Request:
    return {"do": does, "kind": kind, "a": a, "b": b}


def post(key: str, record: str, concept: int) -> Request:
    return {"do": "post", "key": key, "record": record, "concept": concept}


# Requests after which each table has rows.
START: list[Request] = [
    word("scheme", "Animals"),
    *(word("concept", text, scheme=1) for text in ("Cats", "Mammals", "Pets", "Dogs", "Tigers")),
    word("collection", "House animals", scheme=1),
    {"do": "outside", "iri": "http://example.org/1"},
    word("scheme", "Plants"),
    word("concept", "Catnip", scheme=9),
    word("addLabel", "Felines", owner=2, kind="alt"),
    *(link(*it) for it in (("broader", 2, 3), ("broader", 6, 3), ("exact", 2, 8), ("member", 7, 6), ("close", 6, 10))),
    *(post(f"k{number}", f"r{number}", concept) for number, concept in enumerate((2, 2, 3, 6, 6), 1)),
    {"do": "withdraw", "posting": 2},
    {"do": "merge", "source": 6, "target": 2},
]
# Requests of each kind, one that is accepted before one that is refused; a second scheme is one resource too many.
REQUESTS: list[Request] = [
    word("scheme", "Things"),
    word("concept", "Lions", scheme=1),
    word("concept", "Cats", scheme=1),
    word("collection", "Zoo", scheme=1),
    word("collection", "Zoo", scheme=2),
    {"do": "outside", "iri": "http://example.org/2"},
    {"do": "outside", "iri": "http://example.org/1"},
    word("addLabel", "Big.", owner=12, kind="scope"),
    word("addLabel", "Pussycats", owner=2, kind="pref"),
    word("dropLabel", "Felines", owner=2, kind="alt"),
    word("dropLabel", "Cats", owner=2, kind="pref"),
    word("relabel", "House cats", owner=2, keep=True),
    {"do": "relabel", "owner": 2, "tag": "fr", "text": "Chats", "keep": False},
    *(link(*it) for it in (("broaderGeneric", 12, 3), ("related", 4, 5), ("narrow", 10, 2), ("broader", 3, 2))),
    *(
        link(*it, "unlink")
        for it in (("related", 4, 5), ("broader", 2, 3), ("member", 7, 2), ("exact", 2, 8), ("exact", 2, 8))
    ),
    link("broader", 2, 3),
    post("k6", "r6", 12),
    post("k7", "r7", 6),
    post("k1", "r1", 2),
    post("k1", "r2", 2),
    {"do": "withdraw", "posting": 6},
    {"do": "withdraw", "posting": 6},
    word("split", "Kittens", source=2, postings=[4, 1]),
    word("split", "Tomcats", source=2, postings=[77]),
    {"do": "deprecate", "concept": 5},
    {"do": "deprecate", "concept": 2},
    {"do": "merge", "source": 2, "target": 3},
    {"do": "merge", "source": 3, "target": 3},
    word("scheme", "One more"),
    *({"get": "concept", "number": number} for number in range(1, 17)),
    *({"get": "postings", "concept": number} for number in (3, 15, 77)),
    *({"get": "posting", "number": number} for number in (7, 77)),
    {"get": "totals"},
]
MOST = {"resources": 15}
# Additions that refuse a request: its answer is Store.
REFUSING: dict[str, Request] = {
    (
        "CREATE TABLE shelf (a, b, typ, FOREIGN KEY (a, b, typ) REFERENCES hier (a, b, typ)); INSERT "
        "INTO shelf VALUES (2, 3, 0)"
    ): link("broader", 2, 3, "unlink"),
    "ALTER TABLE posting ADD COLUMN note TEXT CHECK (withdrawn = 0 OR num = 2)": {"do": "withdraw", "posting": 3},
}
# Rows of a posting file: each is new, known, refused, or no posting.
ROWS = "key,record,concept\nn1,r1,3\nk1,r1,2\nk1,r2,2\nn2,r1,1\nn3,r1,77\nn1,r1,3\nn 4,r1,3\nn5,r1\nn6,r1,6\n"
# Each kind of request, and whether it is refused. Totals never are.
EVERY = {(word, is_refused) for word in (*MEMBERS["do"], *MEMBERS["get"]) for is_refused in (False, True)} - {
    ("totals", True)
}


def additions(tables: Iterable[str] = COLUMNS) -> list[str]:
    """Additions to a store with these tables, one by one, and all of them together."""
    columns = [COLUMN.format(it) for it in tables]
    indexes = [INDEX.format(it, ", ".join(reversed(COLUMNS[it]))) for it in tables]
    each = [*TABLES, *columns, *indexes]
    return [*each, "; ".join(each)]


def performed(plain: Plain, requests: Iterable[Request]) -> tuple[Plain, list[Request]]:
    """The state after requests, and their answers."""
    answers = []
    for request in requests:
        plain, answer = plain.perform(request) if "do" in request else (plain, plain.show(request))
        answers.append(answer)
    return plain, answers


def unmet() -> Iterator[str]:
    """Yields the kinds of requests of which none is accepted, or none refused, and the tables without rows at first."""
    plain, _ = performed(Plain({**LIMITS, **MOST}), START)
    answers = performed(plain, REQUESTS)[1]
    met = {(it.get("do") or it["get"], "no" in answer) for it, answer in zip(REQUESTS, answers)}
    yield from (
        f"no {word} {'is refused' if is_refused else 'is accepted'}" for word, is_refused in sorted(EVERY - met)
    )
    yield from (f"no rows of {table}" for table, rows in rows_of(plain).items() if not rows)


def own_parts(path: Path) -> Any:
    """What a store has besides its rows: its schema, the rows of other tables, the notes at numbered rows, and what
    SQLite says of it."""
    with contextlib.closing(sqlite3.connect(path)) as base:
        schema = base.execute("SELECT type, name, tbl_name, sql FROM sqlite_schema ORDER BY type, name").fetchall()
        tables = {name: text for kind, name, _, text in schema if kind == "table"}
        rows = {name: base.execute(f"SELECT * FROM {name}").fetchall() for name in tables if name not in COLUMNS}
        for name, text in tables.items():
            if COLUMNS.get(name, ("",))[0] in ("num", "one") and "note" in text:
                rows[name] = base.execute(f"SELECT rowid, note FROM {name} WHERE note IS NOT NULL").fetchall()
        return schema, rows, base.execute("PRAGMA integrity_check").fetchall()


def other_rows(path: Path, plain: Plain) -> list[str]:
    """The tables of which a file has other rows than those of a state."""
    found, wanted = read_rows(path), rows_of(plain)
    return [f"{table}: {found[table]}, and not {wanted[table]}" for table in wanted if found[table] != wanted[table]]


def differences(path: Path, what: str) -> Iterator[str]:
    """Yields where a store answers otherwise than the plain program, or gets other rows, and additions that don't stay.
    The store in the file has the rows after START, and perhaps additions."""
    plain, parts = performed(Plain(LIMITS), START)[0], own_parts(path)
    yield from (f"{what}: at first {it}" for it in other_rows(path, plain))
    plain.limits = {**LIMITS, **MOST}
    options = ("--max-resources", str(MOST["resources"]))
    plain, answers = performed(plain, REQUESTS)
    ended = over(path, "script", lines_of(REQUESTS), *options)
    if (ended.status, values_of(ended.out), ended.err) != (1, answers, b""):
        told = next((it for it in zip(REQUESTS, values_of(ended.out), answers) if it[1] != it[2]), "")
        yield f"{what}: the script: status {ended.status}, {ended.err!r}, {told}"
    yield from (f"{what}: after the script {it}" for it in other_rows(path, plain))
    file = path.with_suffix(".csv")
    file.write_text(ROWS, encoding="ascii")
    plain, report = import_file(plain, file.read_bytes())
    if (ended := over(path, "import", b"", *options, after=[file])) != (1, report, b""):
        yield f"{what}: the import: {ended}, and not {report!r}"
    yield from (f"{what}: after the import {it}" for it in other_rows(path, plain))
    if (ended := over(path, "check")) != (0, f"{judge(rows_of(plain))[0]}\n".encode(), b""):
        yield f"{what}: the check: {ended}"
    if own_parts(path) != parts:
        yield f"{what}: the additions: {own_parts(path)}, and not {parts}"
