"""Keeps the replica that of its store: at the start, and after each plan."""
from __future__ import annotations

import contextlib
import logging
import os
import sqlite3
from collections.abc import Sequence
from pathlib import Path

from thesaurus_desk.store.build import build, is_usable
from thesaurus_desk.store.changes import Change, Changes
from thesaurus_desk.store.difference import Difference, attach_store, differences, mark_of, mark_of_open
from thesaurus_desk.store.digest import digest_of_rows, write_digest
from thesaurus_desk.store.public_view import update_public_view
from thesaurus_desk.store.schema import COLUMNS
from thesaurus_tools.command_line import ToolError
from thesaurus_tools.program import lock_file

log = logging.getLogger("desk")


class Upkeep:
    """Writes the replica of a store in a file, for which its only writer has a connection."""

    def __init__(self, path: Path, store: Path) -> None:
        self.path, self.store = path, store
        # What the store's file is that was looked at: another one in its place isn't what the replica is of.
        self.inode = 0

    def take_up(self) -> frozenset[int] | None:
        """Brings the replica up to the store, which no program has open.

        Returns the resources that were changed since the last plan; None if the replica was made anew. Raises
        ToolError, or sqlite3.Error if the replica can't be written."""
        with contextlib.closing(sqlite3.connect(self.path, isolation_level=None, timeout=5)) as rows:
            try:
                # (its lock lasts until another file of the store is closed, at the end of the comparison)
                with open(self.store, "rb") as file:
                    lock_file(file, self.store)
                    self.inode = os.fstat(file.fileno()).st_ino
                    return self.take_up_by(rows, mark_of_open(self.store, file))
            except OSError as error:
                raise ToolError(f"{self.store}: {error.strerror or error}") from None
            except sqlite3.DatabaseError as error:
                # (that the disk is full, say, is another matter)
                if isinstance(error, sqlite3.OperationalError) and "no such" not in str(error):
                    raise
                advice = "or damaged: run `thesaurus check` on it"
                raise ToolError(f"{self.store}: not the store of a thesaurus ({error}), {advice}") from None

    def take_up_by(self, rows: sqlite3.Connection, mark: str) -> frozenset[int] | None:
        if not is_usable(rows):
            self.make(rows, mark)
            return None
        if rows.execute("SELECT value FROM replica WHERE name = 'mark'").fetchone() == (mark,):
            return frozenset()
        with attach_store(rows, self.store):
            found = differences(rows)
        if any(it.table == "meta" for it in found):
            self.make(rows, mark)
            return None
        return self.take_over(rows, found, mark)

    def make(self, rows: sqlite3.Connection, mark: str) -> None:
        """Makes the replica anew."""
        log.info("the tables by which pages look things up are made anew")
        build(rows, self.store)
        note_mark(rows, mark)

    @staticmethod
    def take_over(rows: sqlite3.Connection, found: Sequence[Difference], mark: str) -> frozenset[int]:
        """Takes over in what the store differs, and returns the resources that it is about."""
        changes = Changes(rows)
        rows.execute("BEGIN IMMEDIATE")
        try:
            note_taken(rows, found)
            changes.take_over(found)
            update_public_view(rows, changes.linked)
            # (a replica that was wrong may have a wrong digest, too)
            write_digest(rows, digest_of_rows(rows))
            note_mark(rows, mark)
            rows.execute("COMMIT")
        except BaseException:
            rows.execute("ROLLBACK")
            raise
        return frozenset(changes.touched)

    def perform(self, rows: sqlite3.Connection, changes: Sequence[Change]) -> Changes:
        """Makes the changes of a plan that the program has performed, within a transaction, and returns what they have
        changed. Raises WrongChange."""
        made = Changes(rows)
        made.make(changes)
        self.note_mark(rows)
        return made

    def note_mark(self, rows: sqlite3.Connection) -> None:
        """Notes that the replica is that of the store as it is now."""
        try:
            is_same = os.stat(self.store).st_ino == self.inode
            note_mark(rows, mark_of(self.store) if is_same else "")
        except OSError:
            note_mark(rows, "")


def note_taken(rows: sqlite3.Connection, found: Sequence[Difference]) -> None:
    """Notes the resources with values that a store has under other terms alone than the replica: after a restore the
    number may be that of another one."""
    of_labels = next((it for it in found if it.table == "label"), None)
    if of_labels is None or not rows.execute("SELECT 1 FROM sqlite_schema WHERE name = 'taken'").fetchone():
        return
    columns = [COLUMNS["label"].index(it) for it in ("owner", "tag", "text")]
    gone, new = ({tuple(row[it] for it in columns) for row in its} for its in (of_labels.gone, of_labels.new))
    owners = {owner for owner, in rows.execute("SELECT DISTINCT owner FROM value")}
    for owner in sorted(owners & {it[0] for it in gone} & {it[0] for it in new}):
        had = rows.execute("SELECT owner, tag, text FROM label WHERE owner = ? ORDER BY kind, tag, text", (owner,))
        before = [tuple(it) for it in had]
        if gone.issuperset(before) and new.isdisjoint(before):
            rows.execute("INSERT OR IGNORE INTO taken VALUES (?, ?)", (owner, before[0][2]))


def note_mark(rows: sqlite3.Connection, mark: str) -> None:
    """Notes of which state of the store the replica is."""
    rows.execute("INSERT OR REPLACE INTO replica VALUES ('mark', ?)", (mark,))
