"""How far tables are that are tried or performed while their readers do something else, and where what came of them is
shown: kept in the desk's file, so that each process shows it, and a restart says what was cut short."""
from __future__ import annotations

import secrets
import sqlite3
from dataclasses import dataclass
from datetime import UTC, datetime, timedelta
from typing import Any

from thesaurus_desk.journal.schema import Database, now, time_text

# How long a run is named, and how many of them to its user.
AGE, MOST = timedelta(days=2), 6


@dataclass(frozen=True, slots=True)
class Run:
    """A table that is tried or performed: what it is called, how many rows it has, and with how many it has dealt.

    `state` is running; done, and `result` is the name under which it is kept; failed, and `result` says why; or cut."""

    name: str
    user: str
    at: str
    title: str
    is_trial: bool
    size: int
    done: int
    state: str
    # The first plan, once that is performed.
    plan: int | None
    result: str


@dataclass(frozen=True)
class Runs:
    """Looks up runs, and notes how far they are."""

    journal: Database

    def begin(self, user: str, title: str, is_trial: bool, size: int) -> str:
        """Notes a run that begins, and returns its name, which nobody guesses."""
        name = secrets.token_urlsafe(12)
        with self.journal.transaction() as rows:
            rows.execute("DELETE FROM run WHERE at < ?", (time_text(datetime.now(UTC) - AGE),))
            values = (name, user, now(), title, is_trial, size)
            rows.execute("INSERT INTO run VALUES (?, ?, ?, ?, ?, ?, 0, 'running', NULL, '')", values)
        return name

    def note(self, name: str, done: int, plan: int | None, size: int | None = None) -> None:
        """Notes how many rows of a run are dealt with, its first plan, and how many rows there are, where that is
        new."""
        query = "UPDATE run SET done = ?, plan = ?, size = coalesce(?, size) WHERE name = ?"
        self.journal.note((query, done, plan, size, name))

    def end(self, name: str, state: str, result: str = "") -> None:
        """Notes how a run has ended."""
        done = ", done = size" if state == "done" else ""
        self.journal.note((f"UPDATE run SET state = ?, result = ?{done} WHERE name = ?", state, result, name))

    def forget(self, name: str) -> None:
        """Forgets a run whose result its reader has seen."""
        self.journal.note(("DELETE FROM run WHERE name = ?", name))

    def find(self, user: str, name: str) -> Run | None:
        """Returns a user's run."""
        found = self.journal.one("SELECT * FROM run WHERE name = ? AND user = ?", name, user)
        return run_of(found) if found else None

    def of(self, user: str) -> list[Run]:
        """Returns the last runs of a user, the newest first."""
        query = "SELECT * FROM run WHERE user = ? ORDER BY rowid DESC LIMIT ?"
        return [*map(run_of, self.journal.all(query, user, MOST))]


def run_of(row: sqlite3.Row) -> Run:
    """Returns the run of a row."""
    values: dict[str, Any] = {**dict(row), "is_trial": bool(row["is_trial"])}
    return Run(**values)
