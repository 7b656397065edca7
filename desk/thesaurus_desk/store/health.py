"""How the desk is: what its head looks at, and what a monitor is told."""
from __future__ import annotations

import logging
import shutil
import sqlite3
import subprocess
import sys
from collections import deque
from dataclasses import dataclass
from datetime import UTC, datetime, timedelta
from functools import cache
from pathlib import Path
from typing import TYPE_CHECKING

from thesaurus_desk.journal.schema import Database, now, time_text
from thesaurus_desk.store.backups import DeskBackups
from thesaurus_desk.store.program import Fault, NoAnswer

if TYPE_CHECKING:
    from thesaurus_desk.store.plan_execution import Desk

# The disk is said to be full below these bytes, and a backup to be late after these hours.
LEAST_FREE, LATE = 100_000_000, timedelta(hours=6)
# How many errors are kept, how long, and how many characters of each.
MOST_ERRORS, AGE_OF_ERRORS, LONGEST_ERROR = 1000, timedelta(days=30), 2000


class Errors(logging.Handler):
    """Keeps the last errors of the log in the desk's file."""

    def __init__(self, journal: Database) -> None:
        super().__init__(logging.ERROR)
        self.journal, self.since = journal, now()
        # Those that aren't written yet: one may be logged in the midst of a transaction.
        self.new: deque[tuple[str, str]] = deque(maxlen=MOST_ERRORS)

    def emit(self, record: logging.LogRecord) -> None:
        """Notes an error."""
        self.add(now(), record.getMessage())

    def add(self, at: str, text: str) -> None:
        """Notes an error with its time."""
        self.new.append((at, text[:LONGEST_ERROR]))

    def write(self) -> None:
        """Writes down what is new; what can't be written stays new."""
        while self.new:
            at, text = self.new[0]
            try:
                with self.journal.transaction() as rows:
                    values = at, text.encode(errors="replace").decode()
                    rows.execute("INSERT INTO error (at, text) VALUES (?, ?)", values)
                    rows.execute("DELETE FROM error WHERE id <= (SELECT max(id) FROM error) - ?", (MOST_ERRORS,))
                    rows.execute("DELETE FROM error WHERE at < ?", (time_text(datetime.now(UTC) - AGE_OF_ERRORS),))
            except sqlite3.Error:
                return
            self.new.popleft()

    def last(self) -> list[tuple[str, str]]:
        """Returns the errors that are kept, the latest first, with their times."""
        self.write()
        found = self.journal.all("SELECT at, text FROM error ORDER BY id DESC")
        return [*reversed(self.new), *((it["at"], it["text"]) for it in found)]


@dataclass(frozen=True)
class Counts:
    """The program's counts of postings, and those of the desk's pages."""

    program: dict[str, int] | None
    desk: dict[str, int]

    @property
    def is_balanced(self) -> bool:
        """Whether each posting is assigned or withdrawn, and both have the same; or the program doesn't answer now."""
        its = self.program or self.desk
        return its == self.desk and its["accepted"] == its["standing"] + its["withdrawn"]


@dataclass(frozen=True)
class Space:
    """A folder, and how many bytes are free where it is."""

    folder: Path
    free: int


class Health:
    """What is known of a desk's health."""

    def __init__(self, desk: Desk, backups: DeskBackups | None) -> None:
        self.desk, self.backups, self.errors = desk, backups, Errors(desk.journal)
        logging.getLogger().addHandler(self.errors)

    def counts(self) -> Counts:
        """Returns the counts of postings, those of both of one moment; the program's are lacking while it is busy."""
        desk = self.desk
        if not desk.lock.acquire(timeout=1):
            return Counts(None, desk.replica.postings.totals())
        try:
            return Counts(desk.program.get("totals"), desk.replica.postings.totals())
        except (NoAnswer, Fault):
            return Counts(None, desk.replica.postings.totals())
        finally:
            desk.lock.release()

    def spaces(self) -> list[Space]:
        """Returns how much is free for the store, and for backups."""
        folders = [self.desk.db.parent.resolve(), *([self.backups.settings.folder] if self.backups else [])]
        return [Space(it, shutil.disk_usage(it).free) for it in folders if it.is_dir()]

    def versions(self) -> dict[str, str]:
        """Returns the versions of the program, of Python and of SQLite."""
        return {
            "thesaurus": version_of(self.desk.program.path),
            "Python": sys.version.partition(" ")[0],
            "SQLite": sqlite3.sqlite_version,
        }

    def problems(self) -> list[str]:
        """Returns the names of what isn't as it should be: what a monitor is told."""
        desk, backups = self.desk, self.backups
        found = {
            "program": desk.program.has_ended() and not desk.is_opening,
            "journal": bool(desk.unwritten),
            "open": bool(desk.journal.open_plans()),
            "disk": any(it.free < LEAST_FREE for it in self.spaces()),
            "mail": bool(desk.watches.failure),
            "backup": backups is not None and (bool(backups.failure) or backups.is_late(LATE)),
        }
        return [name for name, is_so in found.items() if is_so]


@cache
def version_of(program: str) -> str:
    """Returns what a program says of its version."""
    ran = subprocess.run([program, "--version"], capture_output=True, text=True, check=False, timeout=60)
    return ran.stdout.strip()
