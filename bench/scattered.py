"""Stores far past the usual limits, as years of work leave them: the keys of postings are in no order, and the labels
and links of a concept lie far apart. SQLite makes their rows, since requests would take hours."""
from __future__ import annotations

import pathlib
import sqlite3
import subprocess
from collections.abc import Sequence
from contextlib import closing

from measure import built, line

# How many concepts are right below one.
WIDTH = 10
# A kind of label: its name, its number in the tables, its language and its text.
LabelShape = tuple[str, int, str, str]
LABELS: tuple[LabelShape, ...] = (
    ("pref", 1, "en", "Concept {0}"),
    ("pref", 1, "de", "Begriff {0}"),
    ("alt", 2, "en", "Term {0}"),
    ("alt", 2, "de", "Wort {0}"),
    ("note", 4, "en", "The concept of the number {0}, for all that has it."),
)
# Odd, and no multiple of 5: their multiples modulo 2**32, or modulo a power of ten or twice one, are all numbers below.
KEY_STEP, ROW_STEP = 2_654_435_761, 7_368_787


def parent(number: int) -> int:
    """The concept above a concept, from 3 on; 2 is the top."""
    return 2 + (number - 3) // WIDTH


def key_of(posting: int) -> str:
    """The key of a posting: of two postings made one after the other the keys are far apart."""
    return f"key-{posting * KEY_STEP % 2**32:010}"


def row_of(number: int, concepts: int) -> tuple[int, str, str, int, int]:
    """A posting's row; each tenth was moved to the next concept."""
    first = 2 + number % (concepts - 1)
    return number, key_of(number), f"Record {number}", first, first + (number % 10 == 0)


def make(path: pathlib.Path, concepts: int, labels: Sequence[LabelShape], postings: int) -> None:
    """Makes a store of scheme 1, of concepts in a tree from 2 on, and of postings, a tenth of which were moved once.
    Labels are stored kind by kind, and those of a kind in no order, as links are."""
    subprocess.run(
        [built(), "--db", path, "script"],
        input=line(do="scheme", tag="en", text="Scale").encode(),
        stdout=subprocess.DEVNULL,
        check=True,
    )
    mixed = [2 + it * ROW_STEP % concepts for it in range(concepts)]
    with closing(sqlite3.connect(path, isolation_level=None)) as base:
        for it in (
            "PRAGMA journal_mode = OFF",
            "PRAGMA synchronous = OFF",
            "PRAGMA cache_size = -1000000",
            "BEGIN",
            "DROP INDEX posting_at",
        ):
            base.execute(it)
        base.executemany("INSERT INTO resource VALUES (?, 2, 1, 1, NULL)", ((it,) for it in range(2, 2 + concepts)))
        base.executemany("INSERT INTO hier VALUES (?, ?, 1)", ((it, parent(it)) for it in mixed if it > 2))
        base.executemany(
            "INSERT INTO label VALUES (?, ?, ?, ?)",
            ((it, kind, tag, text.format(it)) for _, kind, tag, text in labels for it in mixed),
        )
        base.executemany(
            "INSERT INTO posting VALUES (?, ?, ?, ?, ?, 0)", (row_of(it, concepts) for it in range(1, 1 + postings))
        )
        base.executemany(
            "INSERT INTO move VALUES (?, ?, ?, ?)",
            ((it // 10, it, *row_of(it, concepts)[3:]) for it in range(10, 1 + postings, 10)),
        )
        for it in ("CREATE INDEX posting_at ON posting (at)", "COMMIT", "PRAGMA journal_mode = WAL"):
            base.execute(it)
