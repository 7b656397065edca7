"""Other publishers' vocabularies, in a file beside the store that `tools/load-vocabulary` writes: the desk only reads
it. It may come, be replaced or go while the desk runs."""
from __future__ import annotations

import contextlib
import logging
import os
import sqlite3
import threading
from collections.abc import Iterator
from dataclasses import dataclass
from pathlib import Path
from typing import Any

from thesaurus_desk.store.model import Term
from thesaurus_desk.store.read_transactions import Row, connect
from thesaurus_tools.vocabulary_tables import APPLICATION, VERSION

log = logging.getLogger("desk")
NAMES = (
    "SELECT label.tag, label.text FROM entry CROSS JOIN label ON label.entry = entry.id AND label.kind = 0"
    " WHERE entry.iri = ? ORDER BY label.tag, label.id"
)


@dataclass(frozen=True, slots=True)
class Vocabulary:
    """A vocabulary that is loaded: its dump, when that was loaded, how many concepts and labels it has, and how many
    of its lines can't be read."""

    id: int
    name: str
    file: str
    at: str
    entries: int
    labels: int
    bad: int


class Local(threading.local):
    """What a thread has open."""

    rows: sqlite3.Connection | None = None
    # Of which file, and whether it reads one moment of it.
    mark: tuple[int, int] = (0, 0)
    is_reading = False


class Vocabularies:
    """Look-ups in the file; a connection for each thread."""

    def __init__(self, path: Path) -> None:
        self.path, self.local = path, Local()

    def connection(self) -> sqlite3.Connection | None:
        """Returns the connection of the thread to the file that is there; None if there is none, or no readable one."""
        it = self.local
        if it.is_reading:
            return it.rows
        try:
            state = os.stat(self.path)
        except OSError:
            return None
        mark = state.st_dev, state.st_ino
        if it.rows is None or it.mark != mark:
            it.rows, it.mark = self.open(), mark
        return it.rows

    def open(self) -> sqlite3.Connection | None:
        """Returns a new connection; None if the file isn't one of vocabularies, or not yet."""
        try:
            rows = connect(self.path)
            pragmas = (rows.execute(f"PRAGMA {name}").fetchone()[0] for name in ("application_id", "user_version"))
            return rows if tuple(pragmas) == (APPLICATION, VERSION) else None
        except sqlite3.Error:
            return None

    @contextlib.contextmanager
    def reading(self) -> Iterator[None]:
        """Has several look-ups of a thread see one moment of the file."""
        rows, it = self.connection(), self.local
        if rows is None or it.is_reading:
            yield
            return
        rows.execute("BEGIN")
        it.is_reading = True
        try:
            yield
        finally:
            it.is_reading = False
            rows.execute("COMMIT")

    def all(self, query: str, *values: Any) -> list[Row]:
        """Returns the rows that a query finds; none without a file, or of one that is damaged."""
        rows = self.connection()
        try:
            return rows.execute(query, values).fetchall() if rows else []
        except sqlite3.DatabaseError as error:
            log.error("%s: the vocabularies can't be read: %s", self.path, error)
            return []

    def names(self, iri: str) -> list[Term]:
        """Returns the preferred labels of an entry, one for each language."""
        found: dict[str, str] = {}
        for tag, text in self.all(NAMES, iri):
            found.setdefault("" if tag == "und" else tag, text)
        return list(found.items())

    def vocabularies_with(self, iri: str) -> list[str]:
        """Returns the names of the vocabularies that have an entry."""
        query = "SELECT vocabulary.name FROM entry JOIN vocabulary ON vocabulary.id = entry.vocabulary WHERE iri = ?"
        return [it[0] for it in self.all(query, iri)]

    def each(self) -> list[Vocabulary]:
        """Returns all vocabularies by name."""
        columns = "id, name, file, at, entries, labels, bad"
        return [Vocabulary(*it) for it in self.all(f"SELECT {columns} FROM vocabulary ORDER BY name")]

    def get(self, number: int) -> Vocabulary | None:
        """Returns the vocabulary of a number."""
        return next((it for it in self.each() if it.id == number), None)

    def bad_lines(self, vocabulary: Vocabulary) -> list[tuple[int, str]]:
        """Returns the first lines of a dump that can't be read, with their numbers."""
        query = "SELECT line, text FROM bad_line WHERE vocabulary = ? ORDER BY line"
        return [(line, text) for line, text in self.all(query, vocabulary.id)]
