"""How many records are indexed with a concept or with one below it: counted for a page if that takes no time, and kept
otherwise, since of a large store it takes seconds."""
from __future__ import annotations

from dataclasses import dataclass
from datetime import UTC, datetime, timedelta

from thesaurus_desk.journal.entries import Journal
from thesaurus_desk.journal.schema import now, time_text
from thesaurus_desk.store.replica import Replica

# The most concepts and the most postings of which the records are counted for a page.
FEW_CONCEPTS, FEW_POSTINGS = 2_000, 10_000
# How long nothing was changed when counts are brought up, and how many are kept.
IDLE, MOST_KEPT = timedelta(seconds=10), 500
BELOW = "WITH RECURSIVE below (n) AS (VALUES (?1) UNION SELECT hier.a FROM below JOIN hier ON hier.b = n LIMIT ?2)"
AT_BELOW = f"{BELOW} SELECT 1 FROM below CROSS JOIN posting ON at = n AND withdrawn = 0 LIMIT ?3"
PARTS = ("postings", "links")


@dataclass(frozen=True)
class BelowCount:
    """How many records there are, and when they were counted, if something has changed since."""

    records: int
    at: str = ""


class BelowCounts:
    """Counts records below concepts."""

    def __init__(self, replica: Replica, journal: Journal) -> None:
        self.replica, self.journal = replica, journal

    def get(self, concept: int) -> BelowCount | None:
        """Returns the number of records that a concept has with those of the concepts below it; None if they were never
        counted, and are many."""
        with self.replica.reading():
            if not self.has_many(concept):
                return BelowCount(self.replica.count_records_below(concept))
            found = self.replica.one("SELECT records, state, at FROM below_count WHERE concept = ?", concept)
            return BelowCount(found[0], "" if found[1] == self.state() else found[2]) if found else None

    def has_many(self, concept: int) -> bool:
        """Whether there are many concepts below a concept, or many postings at them: no more are looked at."""

        def look() -> bool:
            concepts = self.replica.value(f"{BELOW} SELECT count(*) FROM below", concept, FEW_CONCEPTS + 1)
            values = concept, FEW_CONCEPTS + 1, FEW_POSTINGS + 1
            return concepts > FEW_CONCEPTS or len(self.replica.all(AT_BELOW, *values)) > FEW_POSTINGS

        return self.replica.once(("many below", concept), look, PARTS)

    def state(self) -> str:
        """Returns what is another text once postings or links have changed."""
        return " ".join(str(self.replica.transaction.versions[it]) for it in PARTS)

    def count(self, concept: int) -> None:
        """Counts the records of a concept with those of the concepts below it, and keeps their number. Raises
        OfficeNeeded in a process that only makes pages."""
        with self.replica.reading():
            state, at = self.state(), now()
            values = concept, self.replica.count_records_below(concept), state, at
        with self.journal.transaction() as rows:
            rows.execute("INSERT OR REPLACE INTO below_count VALUES (?, ?, ?, ?)", values)
            old = "SELECT concept FROM below_count ORDER BY at DESC LIMIT -1 OFFSET ?"
            rows.execute(f"DELETE FROM below_count WHERE concept IN ({old})", (MOST_KEPT,))

    def bring_up(self) -> None:
        """Counts anew for one concept that somebody has asked for, if nothing was changed for a while."""
        last = self.journal.one("SELECT max(at) FROM ended")
        if last and last[0] and last[0] > time_text(datetime.now(UTC) - IDLE):
            return
        with self.replica.reading():
            query = "SELECT concept FROM below_count WHERE state <> ? ORDER BY at LIMIT 1"
            found = self.replica.value(query, self.state())
        if found is not None:
            self.count(found)
