"""The plain statements of a keeper, as Python's sqlite3 module runs them on a file: what the program's own are timed
beside."""
from __future__ import annotations

import os
import sqlite3
from collections.abc import Iterable

TABLES = """
CREATE TABLE posting (num INTEGER PRIMARY KEY, pkey TEXT NOT NULL UNIQUE, record TEXT NOT NULL,
 first_at INTEGER NOT NULL, at INTEGER NOT NULL, withdrawn INTEGER NOT NULL) STRICT;
CREATE TABLE move (
  num INTEGER PRIMARY KEY, posting INTEGER NOT NULL, source INTEGER NOT NULL, target INTEGER NOT NULL) STRICT;
CREATE INDEX posting_at ON posting (at);
CREATE INDEX move_posting ON move (posting);
"""
INSERT = "INSERT INTO posting (num, pkey, record, first_at, at, withdrawn) VALUES (?1, ?2, ?3, ?4, ?5, ?6)"
INSERT_MOVE = "INSERT INTO move (num, posting, source, target) VALUES (?1, ?2, ?3, ?4)"
MOVE_ALL = "UPDATE posting SET at = ?2 WHERE at = ?1 AND withdrawn = 0"
ROW = "SELECT num, pkey, record, first_at, at, withdrawn FROM posting"
MOVE = "SELECT num, posting, source, target FROM move"


def opened(path: str | os.PathLike[str], journal: str = "WAL") -> sqlite3.Connection:
    """A connection with a journal of this kind. As the program does, it waits at each commit until the disk has it."""
    base = sqlite3.connect(path, isolation_level=None)
    base.execute(f"PRAGMA journal_mode = {journal}")
    base.execute("PRAGMA synchronous = FULL")
    return base


def post_all(base: sqlite3.Connection, posts: int, concepts: int) -> None:
    """Adds the postings to the concepts in turn, each in a transaction of its own."""
    for number in range(1, posts + 1):
        concept = 2 + (number - 1) % concepts
        base.execute("BEGIN")
        base.execute(INSERT, (number, f"k{number}", f"r{number}", concept, concept, 0))
        base.execute("COMMIT")


def merge(base: sqlite3.Connection, source: int, target: int, postings: Iterable[int], moves: int) -> None:
    """Moves these postings, which are all at a concept, to another one, in one transaction, after this number of
    moves."""
    base.execute("BEGIN")
    base.execute(MOVE_ALL, (source, target))
    for move, posting in enumerate(postings, moves + 1):
        base.execute(INSERT_MOVE, (move, posting, source, target))
    base.execute("COMMIT")


def fill(base: sqlite3.Connection, posts: int, concepts: int, is_moved: bool = True) -> None:
    """Adds the postings to the concepts in turn, each moved once or not at all, in one transaction."""
    at = [2 + number % concepts for number in range(posts + 1)]
    numbers = range(1, posts + 1)
    base.execute("BEGIN")
    base.executemany(INSERT, ((it, f"k{it}", f"r{it}", at[it - is_moved], at[it], 0) for it in numbers))
    if is_moved:
        base.executemany(INSERT_MOVE, ((it, it, at[it - 1], at[it]) for it in numbers))
    base.execute("COMMIT")


def load_all(base: sqlite3.Connection) -> None:
    """Reads all rows of all tables."""
    for (table,) in base.execute("SELECT name FROM sqlite_schema WHERE type = 'table'").fetchall():
        for _ in base.execute(f"SELECT * FROM {table} ORDER BY 1"):
            pass
