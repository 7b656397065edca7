"""The changes of rows that a plan makes, made in the replica with all that hangs on them.

A change is a list as the program answers it: `["insert", TABLE, cells..]`, `["delete", TABLE, cells..]`,
`["retire", concept]`, `["replace", concept, by]`, `["withdraw", posting]`, `["place", posting, concept]`, or
`["move", source, target]`, after which the rows of `move` are inserted."""
from __future__ import annotations

import sqlite3
from collections.abc import Iterable
from typing import Any

from thesaurus_desk.store.difference import Difference
from thesaurus_desk.store.digest import add_to_digest, digest_of_row
from thesaurus_desk.store.schema import COLUMNS, CONCEPT, EMPTY, PART_OF, PREF, SCOPE
from thesaurus_desk.store.text_keys import fold, parts_of, sort_text, words_of

Change = list[Any]
# The columns of each table that name resources.
ENDS = {"resource": (0, 4), "outside": (0,), "label": (0,), "link": (1, 2), "hier": (0, 1)}
PLACES = {"posting": (4,), "move": (2, 3)}
# The last numbers of the tables whose rows are numbered without gaps.
NUMBERED = {it: f"SELECT coalesce(max(num), 0) FROM {it}" for it in ("resource", "posting", "move")}
# The tables from which a plan deletes rows.
DELETED = ("label", "link", "hier")


class WrongChange(Exception):
    """A change that doesn't hit the rows that it says: the replica isn't that of the store."""


class Changes:
    """Changes the replica within the transaction of its connection, and notes what was changed."""

    def __init__(self, rows: sqlite3.Connection) -> None:
        self.rows = rows
        # The resources whose labels, links or states were changed, and those to which or from which postings went.
        self.changed: set[int] = set()
        self.places: set[int] = set()
        # The concepts with other broader or narrower ones.
        self.linked: set[int] = set()
        # The parts of the store that were changed, and by how much the digest of all rows.
        self.parts: set[str] = set()
        self.digest = 0

    @property
    def touched(self) -> set[int]:
        """All resources that were changed, by postings, too."""
        return self.changed | self.places

    def make(self, changes: Iterable[Change]) -> None:
        """Makes the changes of a plan, one after another. Raises WrongChange."""
        for change in changes:
            try:
                self.make_one(change)
            except (sqlite3.IntegrityError, sqlite3.ProgrammingError, TypeError, ValueError, IndexError) as error:
                raise WrongChange(f"{change}: {error}") from None
        self.count_versions()

    def make_one(self, change: Change) -> None:
        match change:
            case ["insert", str(table), *cells] if table in COLUMNS:
                if table in NUMBERED and self.rows.execute(NUMBERED[table]).fetchone()[0] + 1 != cells[0]:
                    raise ValueError("another number is the next one")
                self.insert(table, tuple(cells))
            case ["delete", str(table), *cells] if table in DELETED:
                self.delete(table, tuple(cells))
            case ["retire", concept]:
                self.end(concept, None)
            case ["replace", concept, by]:
                self.end(concept, by)
            case ["withdraw", posting]:
                self.withdraw(posting)
            case ["place", posting, concept]:
                self.place(posting, concept)
            case ["move", source, target]:
                self.hit("UPDATE posting SET at = ?2 WHERE at = ?1 AND withdrawn = 0", source, target, count=None)
                self.note("posting", (), (source, target))
            case _:
                raise ValueError("no change is written so")

    def take_over(self, differences: Iterable[Difference]) -> None:
        """Makes the rows of the store's of which the replica has others, in any order."""
        found = list(differences)
        for it in found:
            for row in it.gone:
                self.delete(it.table, row)
        for it in found:
            for row in it.new:
                self.insert(it.table, row)
        self.count_versions()

    def count_versions(self) -> None:
        """Has what is kept of the parts that were changed be made anew."""
        names = [(it,) for it in ("version", *sorted(self.parts))] if self.parts else []
        self.rows.executemany("UPDATE replica SET value = value + 1 WHERE name = ?", names)
        add_to_digest(self.rows, self.digest)
        self.parts, self.digest = set(), 0

    # --- single rows ---

    def hit(self, statement: str, *values: Any, count: int | None = 1) -> None:
        """Runs a statement that must change a number of rows; None: any."""
        done = self.rows.execute(statement, values)
        if count is not None and done.rowcount != count:
            raise ValueError(f"it would change {done.rowcount} rows, not {count}")

    def note(self, table: str, changed: Iterable[int | None], places: Iterable[int] = ()) -> None:
        """Notes what a change changes."""
        self.parts.add(PART_OF[table])
        self.changed.update(it for it in changed if it is not None)
        self.places.update(places)

    def insert(self, table: str, cells: tuple[Any, ...]) -> None:
        """Inserts a row."""
        if table == "label":
            self.insert_label(*cells)
        else:
            columns = COLUMNS[table]
            marks = ", ".join("?" * len(columns))
            self.hit(f"INSERT INTO {table} ({', '.join(columns)}) VALUES ({marks})", *cells)
        if table == "posting":
            self.insert_record(cells[2])
        self.count_row(table, cells, 1)

    def delete(self, table: str, cells: tuple[Any, ...]) -> None:
        """Deletes a row."""
        if table == "label":
            self.delete_label(*cells)
        else:
            same = " AND ".join(f"{it} {'IS' if it in EMPTY else '='} ?" for it in COLUMNS[table])
            self.hit(f"DELETE FROM {table} WHERE {same}", *cells)
        if table == "posting":
            self.delete_record(cells[2])
        self.count_row(table, cells, -1)

    def count_row(self, table: str, cells: tuple[Any, ...], sign: int) -> None:
        """Notes and counts a row that comes or goes."""
        ends, places = (tuple(cells[it] for it in at.get(table, ())) for at in (ENDS, PLACES))
        self.note(table, ends, places)
        if table == "hier":
            self.linked.update(ends)
        self.digest += sign * digest_of_row(table, cells)
        if table == "resource" and cells[1] == CONCEPT and cells[3] == 1:
            self.count("live", cells[2], sign)
        if table == "posting" and cells[5] == 1:
            self.count("withdrawn", 0, sign)

    def count(self, name: str, about: int, sign: int) -> None:
        """Counts one more or one less."""
        self.rows.execute(
            "INSERT INTO total VALUES (?1, ?2, ?3) ON CONFLICT DO UPDATE SET value = value + ?3", (name, about, sign)
        )

    def end(self, concept: int, by: int | None) -> None:
        """Ends the life of a concept."""
        done = self.rows.execute(
            "UPDATE resource SET live = 0, replaced = ? WHERE num = ? AND live = 1 AND kind = ? RETURNING scheme",
            (by, concept, CONCEPT),
        ).fetchall()
        if len(done) != 1:
            raise ValueError("no live concept has this number")
        scheme = done[0][0]
        self.count("live", scheme, -1)
        for sign, live, its in ((-1, 1, None), (1, 0, by)):
            self.digest += sign * digest_of_row("resource", (concept, CONCEPT, scheme, live, its))
        self.note("resource", (concept, by))

    def withdraw(self, posting: int) -> None:
        """Withdraws a posting."""
        done = self.rows.execute(
            "UPDATE posting SET withdrawn = 1 WHERE num = ? AND withdrawn = 0 RETURNING at", (posting,)
        ).fetchall()
        if len(done) != 1:
            raise ValueError("no standing posting has this number")
        self.count("withdrawn", 0, 1)
        self.digest += digest_of_row("withdrawn", (posting,))
        self.note("posting", (), (done[0][0],))

    def place(self, posting: int, concept: int) -> None:
        """Assigns a posting to a concept."""
        was = self.rows.execute("SELECT at FROM posting WHERE num = ?", (posting,)).fetchall()
        self.hit("UPDATE posting SET at = ? WHERE num = ?", concept, posting)
        self.note("posting", (), (was[0][0], concept))

    # --- labels, with the indexes of words ---

    def insert_label(self, owner: int, kind: int, tag: str, text: str) -> None:
        folded = fold(text)
        made = self.rows.execute(
            "INSERT INTO label (owner, kind, tag, text, fold, sort) VALUES (?, ?, ?, ?, ?, ?)",
            (owner, kind, tag, text, folded, sort_text(text) if kind == PREF else None),
        ).lastrowid
        for table in indexes_of(kind):
            self.rows.execute(f"INSERT INTO {table} (rowid, fold) VALUES (?, ?)", (made, folded))
        self.count_label(kind, tag, folded, 1)

    def delete_label(self, owner: int, kind: int, tag: str, text: str) -> None:
        found = self.rows.execute(
            "SELECT id, fold FROM label WHERE owner = ? AND kind = ? AND tag = ? AND text = ?", (owner, kind, tag, text)
        ).fetchone()
        if found is None:
            raise ValueError("there is no such label")
        # (an index of words is told the text as it was: it looks for its words)
        for table in indexes_of(kind):
            self.rows.execute(f"INSERT INTO {table} ({table}, rowid, fold) VALUES ('delete', ?, ?)", tuple(found))
        self.hit("DELETE FROM label WHERE id = ?", found[0])
        self.count_label(kind, tag, found[1], -1)

    def count_label(self, kind: int, tag: str, folded: str, sign: int) -> None:
        """Counts a label in its language, and its words."""
        self.rows.execute(
            "INSERT INTO language VALUES (?1, ?2, ?3)"
            " ON CONFLICT DO UPDATE SET labels = labels + ?2, preferred = preferred + ?3",
            (tag, sign, sign if kind == PREF else 0),
        )
        self.rows.execute("DELETE FROM language WHERE tag = ? AND labels = 0", (tag,))
        for word in words_of(folded) if kind != SCOPE else ():
            self.rows.execute(
                "INSERT INTO word VALUES (?1, ?2) ON CONFLICT DO UPDATE SET labels = labels + ?2", (word, sign)
            )
            if sign < 0:
                self.rows.execute("DELETE FROM word WHERE word = ? AND labels = 0", (word,))

    # --- records ---

    def insert_record(self, name: str) -> None:
        """Adds the name of a record, if it is a new one."""
        made = self.rows.execute("INSERT OR IGNORE INTO record (name) VALUES (?) RETURNING id", (name,)).fetchone()
        if made:
            folded = fold(name)
            parts = [(part, made[0], part == folded) for part in parts_of(folded)]
            self.rows.executemany("INSERT INTO record_part VALUES (?, ?, ?)", parts)

    def delete_record(self, name: str) -> None:
        """Removes the name of a record that no posting has any more."""
        if self.rows.execute("SELECT 1 FROM posting WHERE record = ? LIMIT 1", (name,)).fetchone():
            return
        (number,) = self.rows.execute("DELETE FROM record WHERE name = ? RETURNING id", (name,)).fetchone()
        parts = [(part, number) for part in parts_of(fold(name))]
        self.rows.executemany("DELETE FROM record_part WHERE part = ? AND record = ?", parts)


def indexes_of(kind: int) -> tuple[str, ...]:
    """Returns the indexes of words in which a label of a kind is."""
    return ("note_fts",) if kind == SCOPE else ("term_fts", "part_fts")
