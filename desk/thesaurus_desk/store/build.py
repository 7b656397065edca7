"""Makes a replica of a store, in one transaction."""
from __future__ import annotations

import sqlite3
from collections import Counter
from pathlib import Path

from thesaurus_desk.store.difference import attach_store
from thesaurus_desk.store.digest import digest_of_rows, write_digest
from thesaurus_desk.store.public_view import build_public_view
from thesaurus_desk.store.schema import (
    ALL,
    COLUMNS,
    CONCEPT,
    INDEXES,
    KEYS,
    PARTS,
    SEARCH,
    SEARCHED,
    TABLES,
    VERSION,
    VIEWS,
)
from thesaurus_desk.store.text_keys import UNICODE, fold, parts_of, sort_text, words_of

# Kilobytes of memory for the building: with less the indexes of a large store are written again and again.
CACHE = 200_000


def is_usable(rows: sqlite3.Connection) -> bool:
    """Whether there is a replica of this version: another one is built anew."""
    if not rows.execute("SELECT 1 FROM sqlite_schema WHERE name = 'replica'").fetchone():
        return False
    found = dict(rows.execute("SELECT name, value FROM replica WHERE name IN ('schema', 'unicode')").fetchall())
    return found == {"schema": VERSION, "unicode": UNICODE}


def build(rows: sqlite3.Connection, store: Path) -> None:
    """Makes the replica of a store that no program has open, in place of one that there is."""
    kept = rows.execute("PRAGMA cache_size").fetchone()[0]
    rows.execute(f"PRAGMA cache_size = -{CACHE}")
    rows.create_function("fold", 1, fold, deterministic=True)
    rows.create_function("sort_text", 1, sort_text, deterministic=True)
    try:
        with attach_store(rows, store):
            rows.execute("BEGIN IMMEDIATE")
            try:
                fill(rows)
                rows.execute("COMMIT")
            except BaseException:
                rows.execute("ROLLBACK")
                raise
        rows.execute("PRAGMA analysis_limit = 1000")
        rows.execute("ANALYZE main")
    finally:
        rows.execute(f"PRAGMA cache_size = {kept}")


def fill(rows: sqlite3.Connection) -> None:
    """Makes all tables anew, and fills them from the store that is attached."""
    version = next_version(rows)
    drop(rows)
    run(rows, TABLES)
    for table in COLUMNS:
        fill_labels(rows) if table == "label" else fill_table(rows, table)
    fill_counts(rows)
    fill_records(rows)
    run(rows, INDEXES)
    build_public_view(rows)
    run(rows, SEARCH)
    for table, source in SEARCHED.items():
        rows.execute(f"INSERT INTO {table} (rowid, fold) SELECT id, fold FROM {source}")
    fill_words(rows)
    values = [("schema", VERSION), ("unicode", UNICODE), *((it, version) for it in ("version", *PARTS))]
    rows.executemany("INSERT INTO replica VALUES (?, ?)", values)
    write_digest(rows, digest_of_rows(rows))


def next_version(rows: sqlite3.Connection) -> int:
    """Returns what no part of the replica was changed as often as: other processes keep what they have made of it."""
    if not rows.execute("SELECT 1 FROM main.sqlite_schema WHERE name = 'replica'").fetchone():
        return 1
    found = rows.execute("SELECT value FROM main.replica WHERE name = 'version'").fetchone()
    return int(found[0]) + 1 if found else 1


def run(rows: sqlite3.Connection, statements: str) -> None:
    """Runs several statements; `executescript` would end the transaction."""
    for it in statements.split(";\n"):
        if it.strip():
            rows.execute(it)


def drop(rows: sqlite3.Connection) -> None:
    """Drops the tables of an earlier replica."""
    there = {name for name, in rows.execute("SELECT name FROM main.sqlite_schema").fetchall()}
    for view in VIEWS:
        rows.execute(f"DROP VIEW IF EXISTS main.{view}")
    for table in ALL:
        if table in there:
            rows.execute(f"DROP TABLE main.{table}")


def fill_table(rows: sqlite3.Connection, table: str) -> None:
    columns = ", ".join(COLUMNS[table])
    order = ", ".join(KEYS[table])
    rows.execute(f"INSERT INTO main.{table} ({columns}) SELECT {columns} FROM store.{table} ORDER BY {order}")


def fill_labels(rows: sqlite3.Connection) -> None:
    columns = ", ".join(COLUMNS["label"])
    rows.execute(
        f"INSERT INTO main.label ({columns}, fold, sort)"
        f" SELECT {columns}, fold(text), iif(kind = 1, sort_text(text), NULL) FROM store.label ORDER BY {columns}"
    )


def fill_counts(rows: sqlite3.Connection) -> None:
    rows.execute("INSERT INTO language SELECT tag, count(*), sum(kind = 1) FROM main.label GROUP BY tag")
    rows.execute(
        "INSERT INTO total SELECT 'live', scheme, count(*) FROM main.resource WHERE kind = ? AND live = 1"
        " GROUP BY scheme",
        (CONCEPT,),
    )
    rows.execute("INSERT INTO total SELECT 'withdrawn', 0, count(*) FROM main.posting WHERE withdrawn = 1")


def fill_records(rows: sqlite3.Connection) -> None:
    rows.execute("INSERT INTO record (name) SELECT DISTINCT record FROM main.posting ORDER BY 1")
    parts = [
        (part, number, part == folded)
        for number, name in rows.execute("SELECT id, name FROM record")
        for folded in (fold(name),)
        for part in parts_of(folded)
    ]
    rows.executemany("INSERT INTO record_part VALUES (?, ?, ?)", sorted(parts))


def fill_words(rows: sqlite3.Connection) -> None:
    found = Counter[str]()
    for (folded,) in rows.execute("SELECT fold FROM term"):
        found.update(words_of(folded))
    rows.executemany("INSERT INTO word VALUES (?, ?)", sorted(found.items()))
