"""Proposals that editors accept or decline, and comments."""
from __future__ import annotations

import json
import sqlite3
from collections.abc import Sequence
from dataclasses import dataclass

from thesaurus_desk.journal.entries import Journal, Request
from thesaurus_desk.journal.schema import now

LONGEST_TEXT = 2000


@dataclass(frozen=True, slots=True)
class Proposal:
    """A change that a reader or an indexer proposes, with a reason."""

    id: int
    at: str
    user: str
    # The concept that it is about; None if it is about a new one.
    concept: int | None
    # What is proposed: a key of the pages' words, and the requests that perform it. There may be none: then it is in
    # words alone.
    action: str
    requests: list[Request]
    reason: str
    # open, accepted, declined, or withdrawn by its author.
    state: str
    decided_at: str | None
    decided_by: str | None
    # The editor's answer.
    word: str | None
    # The plan that performed it.
    plan: int | None


@dataclass(frozen=True, slots=True)
class Comment:
    """A comment at a resource."""

    id: int
    at: str
    user: str
    number: int
    text: str
    removed_by: str | None
    removed_at: str | None


def proposal_of(row: sqlite3.Row) -> Proposal:
    return Proposal(**{**dict(row), "requests": json.loads(row["requests"])})


class Proposals:
    """Keeps proposals and comments in the journal."""

    def __init__(self, journal: Journal) -> None:
        self.journal = journal

    def propose(
        self, user: str, action: str, requests: Sequence[Request], reason: str, concept: int | None = None
    ) -> int:
        """Adds a proposal, and returns its number."""
        with self.journal.writing() as rows:
            done = rows.execute(
                "INSERT INTO proposal (at, user, concept, action, requests, reason, state)"
                " VALUES (?, ?, ?, ?, ?, ?, 'open')",
                (now(), user, concept, action, json.dumps(list(requests), ensure_ascii=False), reason[:LONGEST_TEXT]),
            )
            return int(done.lastrowid or 0)

    def get(self, number: int) -> Proposal | None:
        """Returns the proposal of a number."""
        row = self.journal.one("SELECT * FROM proposal WHERE id = ?", number)
        return proposal_of(row) if row else None

    def find(
        self,
        *,
        state: str | None = None,
        user: str | None = None,
        concept: int | None = None,
        before: int | None = None,
        most: int = 200,
    ) -> list[Proposal]:
        """Returns proposals, the last first: in a state, of a user, about a concept, before another one."""
        tests = {"state = ?": state, "user = ?": user, "concept = ?": concept, "id < ?": before}
        where = [test for test, value in tests.items() if value is not None]
        values = [value for value in tests.values() if value is not None]
        condition = f"WHERE {' AND '.join(where)}" if where else ""
        rows = self.journal.all(f"SELECT * FROM proposal {condition} ORDER BY id DESC LIMIT ?", *values, most)
        return [proposal_of(it) for it in rows]

    def count_open(self) -> int:
        """Returns the number of open proposals."""
        row = self.journal.one("SELECT count(*) FROM proposal WHERE state = 'open'")
        return int(row[0]) if row else 0

    def unread(self, user: str, most: int = 200) -> list[Proposal]:
        """Returns the proposals of a user of which the user hasn't read how others decided them, the last decision
        first."""
        of_user = "SELECT proposal.* FROM unread JOIN proposal ON id = proposal WHERE user = ?"
        return [
            proposal_of(it)
            for it in self.journal.all(f"{of_user} ORDER BY decided_at DESC, id DESC LIMIT ?", user, most)
        ]

    def count_unread(self, user: str) -> int:
        """Returns the number of proposals of a user of which the user hasn't read how others decided them."""
        row = self.journal.one("SELECT count(*) FROM unread JOIN proposal ON id = proposal WHERE user = ?", user)
        return int(row[0]) if row else 0

    def note_read(self, numbers: Sequence[int]) -> None:
        """Notes that the authors of proposals have read how they were decided."""
        with self.journal.writing() as rows:
            rows.executemany("DELETE FROM unread WHERE proposal = ?", [(it,) for it in numbers])

    def decide(self, number: int, state: str, user: str, word: str = "") -> bool:
        """Accepts, declines or withdraws a proposal that is open, which its author, if it is another one, is to read.
        Returns False if it isn't open any more. One that a plan performs is accepted with that."""
        with self.journal.writing() as rows:
            done = rows.execute(
                "UPDATE proposal SET state = ?, decided_at = ?, decided_by = ?, word = ?"
                " WHERE id = ? AND state = 'open'",
                (state, now(), user, word[:LONGEST_TEXT] or None, number),
            )
            if done.rowcount == 1:
                rows.execute("INSERT INTO unread SELECT id FROM proposal WHERE id = ? AND user <> ?", (number, user))
            return done.rowcount == 1

    def comment(self, user: str, number: int, text: str) -> int:
        """Adds a comment at a resource, and returns its number."""
        with self.journal.writing() as rows:
            done = rows.execute(
                "INSERT INTO comment (at, user, number, text) VALUES (?, ?, ?, ?)",
                (now(), user, number, text[:LONGEST_TEXT]),
            )
            return int(done.lastrowid or 0)

    def comments(self, number: int) -> list[Comment]:
        """Returns the comments at a resource that weren't removed, in their order."""
        rows = self.journal.all("SELECT * FROM comment WHERE number = ? AND removed_at IS NULL ORDER BY id", number)
        return [Comment(**dict(it)) for it in rows]

    def recent_comments(self, most: int) -> list[Comment]:
        """Returns the last comments, the last first."""
        rows = self.journal.all(
            "SELECT * FROM comment WHERE removed_at IS NULL AND number > 0 ORDER BY id DESC LIMIT ?", most
        )
        return [Comment(**dict(it)) for it in rows]

    def remove_comment(self, comment: int, user: str) -> bool:
        """Removes a comment from the pages; the journal keeps it. Returns False if there is none."""
        with self.journal.writing() as rows:
            done = rows.execute(
                "UPDATE comment SET removed_by = ?, removed_at = ? WHERE id = ? AND removed_at IS NULL",
                (user, now(), comment),
            )
            return done.rowcount == 1
