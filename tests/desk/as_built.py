"""The replica compared with one that is made anew."""
from __future__ import annotations

import contextlib
import sqlite3
from pathlib import Path
from typing import Any

from thesaurus_desk.store.build import build
from thesaurus_desk.store.schema import COLUMNS, SEARCHED

# What a replica has that is made anew: all but numbers of labels and of records, and what is counted by plans.
CONTENTS = (
    *(f"SELECT {', '.join(columns)} FROM {table} ORDER BY {', '.join(columns)}" for table, columns in COLUMNS.items()),
    "SELECT owner, kind, tag, text, fold, sort FROM label ORDER BY owner, kind, tag, text",
    "SELECT * FROM language ORDER BY tag",
    "SELECT * FROM word ORDER BY word",
    "SELECT name, about, value FROM total WHERE value ORDER BY name, about",
    "SELECT part, name, is_whole FROM record_part JOIN record ON id = record ORDER BY part, name",
    "SELECT name FROM record ORDER BY name",
)


def contents(rows: sqlite3.Connection) -> list[list[Any]]:
    """Returns what a replica has, the vocabularies of its indexes of words among it."""
    found = [list(map(tuple, rows.execute(query))) for query in CONTENTS]
    for table in SEARCHED:
        rows.execute(
            f"CREATE VIRTUAL TABLE IF NOT EXISTS temp.vocabulary_{table} USING fts5vocab('main', {table}, 'row')"
        )
        query = f"SELECT term, doc FROM temp.vocabulary_{table} WHERE doc > 0 ORDER BY term"
        found.append(list(map(tuple, rows.execute(query))))
    return found


def assert_as_built(path: Path, store: Path, room: Path) -> None:
    """The replica in a file is as one of its store that is made anew, and its indexes of words are whole."""
    anew = room / "anew.sqlite"
    with contextlib.ExitStack() as stack:
        opened = [
            stack.enter_context(contextlib.closing(sqlite3.connect(it, isolation_level=None))) for it in (path, anew)
        ]
        build(opened[1], store)
        for own, its in zip(*map(contents, opened)):
            assert own == its
        for rows in opened:
            for table in SEARCHED:
                rows.execute(f"INSERT INTO {table} ({table}, rank) VALUES ('integrity-check', 1)")
