"""What people decide about mappings, in the journal: by the names of vocabularies, as these may be loaded anew; and
what other publishers called their concepts when these were accepted."""
from __future__ import annotations

import sqlite3
from collections.abc import Iterable

from thesaurus_desk.journal.schema import Database, now
from thesaurus_desk.mapping.vocabularies import Vocabularies
from thesaurus_desk.store.model import Term

# What is decided of a concept: that an entry is none for it, that a vocabulary has none, that it waits.
REJECTED, NONE, LATER = "rejected", "none", "later"
LACKING = "SELECT iri FROM outside WHERE NOT EXISTS (SELECT 1 FROM outside_name WHERE outside_name.iri = outside.iri)"


class Decisions:
    """Looks up and keeps what was decided."""

    def __init__(self, journal: Database, vocabularies: Vocabularies) -> None:
        self.journal, self.vocabularies = journal, vocabularies
        # The loads whose names are noted.
        self.noted: list[str] = []

    # --- names ---

    def names(self, iri: str) -> list[Term]:
        """Returns what a concept elsewhere is called: in the vocabulary that is loaded, else as it was accepted."""
        return self.vocabularies.names(iri) or self.accepted_names(iri)

    def accepted_names(self, iri: str) -> list[Term]:
        """Returns what a concept elsewhere was called when it was accepted."""
        return [(it["tag"], it["text"]) for it in self.journal.all("SELECT * FROM outside_name WHERE iri = ?", iri)]

    def note_names(self, rows: sqlite3.Connection, iris: Iterable[str]) -> None:
        """Notes what concepts elsewhere are called now, in place of what was noted of them."""
        at = now()
        for iri in iris:
            if names := self.vocabularies.names(iri):
                vocabulary = self.vocabularies.vocabularies_with(iri)[0]
                rows.execute("DELETE FROM outside_name WHERE iri = ?", (iri,))
                found = [(iri, tag, text, vocabulary, at) for tag, text in names]
                rows.executemany("INSERT INTO outside_name VALUES (?, ?, ?, ?, ?)", found)

    def accept_names(self, iris: Iterable[str]) -> None:
        """Notes what concepts elsewhere are called now: somebody has seen their new names."""
        with self.journal.writing() as rows:
            self.note_names(rows, iris)

    def note_lacking(self) -> None:
        """Notes the names of concepts elsewhere that were accepted before their vocabulary was loaded."""
        loads = [f"{it.id} {it.at}" for it in self.vocabularies.each()]
        if loads != self.noted:
            self.accept_names([it["iri"] for it in self.journal.all(LACKING)])
            self.noted = loads

    # --- decisions ---

    def decide(self, user: str, vocabulary: str, concept: int, decision: str, iri: str = "") -> None:
        """Notes a decision: of an entry, or, without one, of the concept; another one of the same takes its place."""
        with self.journal.writing() as rows:
            values = (vocabulary, concept, iri, decision, user, now())
            rows.execute("INSERT OR REPLACE INTO mapping_decision VALUES (?, ?, ?, ?, ?, ?)", values)

    def forget(self, vocabulary: str, concept: int) -> None:
        """Forgets what was decided of a concept, so that it is to be mapped again."""
        with self.journal.writing() as rows:
            rows.execute("DELETE FROM mapping_decision WHERE vocabulary = ? AND concept = ?", (vocabulary, concept))

    def of_concepts(self, vocabulary: str) -> dict[int, str]:
        """Returns what was decided of concepts as a whole."""
        query = "SELECT concept, decision FROM mapping_decision WHERE vocabulary = ? AND iri = ''"
        return {it["concept"]: it["decision"] for it in self.journal.all(query, vocabulary)}

    def rejected(self, vocabulary: str) -> dict[int, set[str]]:
        """Returns the entries that were rejected, by concepts."""
        found: dict[int, set[str]] = {}
        query = "SELECT concept, iri FROM mapping_decision WHERE vocabulary = ? AND decision = ?"
        for it in self.journal.all(query, vocabulary, REJECTED):
            found.setdefault(it["concept"], set()).add(it["iri"])
        return found
