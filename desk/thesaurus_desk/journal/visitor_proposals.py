"""What visitors of a public desk propose, in words alone: editors look at it first, and take it up or discard it."""
from __future__ import annotations

from collections.abc import Callable
from dataclasses import dataclass

from thesaurus_desk.journal.proposals import Proposals
from thesaurus_desk.journal.schema import Database, now

# How many may wait for an editor; no more are taken.
MOST_WAITING = 200


@dataclass(frozen=True, slots=True)
class VisitorProposal:
    """What a visitor proposes about a concept, or about none."""

    id: int
    at: str
    concept: int | None
    text: str


class VisitorProposals:
    """Keeps in the journal what visitors propose."""

    def __init__(self, journal: Database, proposals: Proposals) -> None:
        self.journal, self.proposals = journal, proposals

    def add(self, text: str, concept: int | None) -> bool:
        """Adds one, unless too many wait for an editor; reports whether it did."""
        with self.journal.writing() as rows:
            done = rows.execute(
                "INSERT INTO visitor_proposal (at, concept, text) SELECT ?, ?, ?"
                " WHERE (SELECT count(*) FROM visitor_proposal WHERE settled_at IS NULL) < ?",
                (now(), concept, text, MOST_WAITING),
            )
            return done.rowcount == 1

    def waiting(self) -> list[VisitorProposal]:
        """Returns those that wait for an editor, the first first."""
        query = "SELECT id, at, concept, text FROM visitor_proposal WHERE settled_at IS NULL ORDER BY id"
        return [VisitorProposal(*it) for it in self.journal.all(query)]

    def discard(self, number: int, user: str) -> bool:
        """Discards one; reports whether it waited."""
        return self.settle(number, user) is not None

    def take_up(self, number: int, user: str, reason: Callable[[str], str]) -> int | None:
        """Makes one a proposal of an editor, with a reason made of its text. Returns its number; None if it waits no
        more."""
        found = self.settle(number, user)
        if found is None:
            return None
        return self.proposals.propose(user, "proposals.kind.words", [], reason(found.text), found.concept)

    def settle(self, number: int, user: str) -> VisitorProposal | None:
        """Notes that one waits no more, and returns it; None if it doesn't wait."""
        with self.journal.writing() as rows:
            found = rows.execute(
                "UPDATE visitor_proposal SET settled_at = ?, settled_by = ? WHERE id = ? AND settled_at IS NULL"
                " RETURNING id, at, concept, text",
                (now(), user, number),
            ).fetchall()
        return VisitorProposal(*found[0]) if found else None
