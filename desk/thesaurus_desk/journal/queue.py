"""The records that are to be indexed, one after another, and what has become of each."""
from __future__ import annotations

import json
from collections.abc import Collection, Iterable
from dataclasses import dataclass

from thesaurus_desk.journal.schema import Database, now

STATES = ("waiting", "done", "skipped")
# The part of the catalogue's address in whose place the key of a record is put.
KEY = "{key}"
# The names of what the head settles.
CATALOGUE, ANNIF = "catalogue", "annif"


@dataclass
class Queue:
    """Keeps the queue in the journal."""

    journal: Database

    def add(self, user: str, records: Iterable[str], done: Collection[str]) -> int:
        """Puts records at the end of the queue, but for those that are in it. Returns how many are new.

        `done`: those that are indexed already."""
        with self.journal.writing() as rows:
            before = rows.execute("SELECT count(*), coalesce(max(place), 0) FROM queue").fetchone()
            rows.executemany(
                "INSERT OR IGNORE INTO queue VALUES (?, ?, ?, ?, ?)",
                [
                    (it, place, "done" if it in done else "waiting", user, now())
                    for place, it in enumerate(records, before[1] + 1)
                ],
            )
            return int(rows.execute("SELECT count(*) FROM queue").fetchone()[0] - before[0])

    def counts(self) -> dict[str, int]:
        """Returns how many records are in each state."""
        found = {it["state"]: it["n"] for it in self.journal.all("SELECT state, count(*) n FROM queue GROUP BY state")}
        return {it: found.get(it, 0) for it in STATES}

    def in_state(self, state: str, most: int, without: Collection[str] = ()) -> list[str]:
        """Returns the first records that are in a state, in their order, without some."""
        query = (
            "SELECT record FROM queue WHERE state = ? AND record NOT IN (SELECT value FROM json_each(?))"
            " ORDER BY place LIMIT ?"
        )
        return [it["record"] for it in self.journal.all(query, state, json.dumps(list(without)), most)]

    def settle(self, record: str, state: str, user: str) -> None:
        """Notes what a user has done with a record, if it is in the queue."""
        with self.journal.writing() as rows:
            values = (state, user, now(), record)
            rows.execute("UPDATE queue SET state = ?, user = ?, at = ? WHERE record = ?", values)


@dataclass(frozen=True, slots=True)
class IndexingSettings:
    """What the head has settled of indexing: the address of a record in the catalogue, with {key} in it, and that of
    a project of a service that suggests concepts, as Annif does."""

    catalogue: str = ""
    annif: str = ""


def read_indexing(journal: Database) -> IndexingSettings:
    """Returns what the head has settled."""
    query = "SELECT name, value FROM setting WHERE name IN (?, ?)"
    found = {it["name"]: it["value"] for it in journal.all(query, CATALOGUE, ANNIF)}
    return IndexingSettings(found.get(CATALOGUE, ""), found.get(ANNIF, ""))


def write_indexing(journal: Database, settings: IndexingSettings) -> None:
    """Notes what the head settles."""
    with journal.writing() as rows:
        values = [(CATALOGUE, settings.catalogue), (ANNIF, settings.annif)]
        rows.executemany("INSERT OR REPLACE INTO setting VALUES (?, ?)", values)
