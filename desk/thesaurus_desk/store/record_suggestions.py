"""Suggests concepts for a record, each with why: by its words, by records alike, and by what is indexed most."""
from __future__ import annotations

import json
from collections.abc import Iterable
from dataclasses import dataclass, field

from thesaurus_desk.journal.record_texts import stems_of
from thesaurus_desk.store.label_matches import LabelMatch, LabelMatcher
from thesaurus_desk.store.replica import Replica

# How many records alike are asked, and by how many of the rarest words of a record they are found; and how many records
# may have all of these words together, beyond the rarest one.
NEAREST, RAREST, MOST_ALIKE = 20, 8, 20_000
# What the terms in the text count beside the records alike.
OF_LABELS = 0.3
MOST = 9
FREQUENCIES = "SELECT w.value, v.doc FROM json_each(?) w CROSS JOIN record_word v ON v.term = w.value ORDER BY 2, 1"
# (the index finds them in the order of their ranks, and stops at the last that is asked for)
ALIKE = (
    "SELECT t.record, -f.rank FROM record_fts f CROSS JOIN record_text t ON t.id = f.rowid WHERE record_fts MATCH ?"
    " AND t.record <> ? AND EXISTS (SELECT 1 FROM posting WHERE record = t.record AND withdrawn = 0)"
    " ORDER BY f.rank LIMIT ?"
)
PLACES = (
    "SELECT DISTINCT p.record, p.at FROM json_each(?) w CROSS JOIN posting p ON p.record = w.value AND p.withdrawn = 0"
)
COMMONEST = "SELECT at, count(DISTINCT record) FROM posting WHERE withdrawn = 0 GROUP BY at ORDER BY 2 DESC, 1 LIMIT ?"


@dataclass(slots=True)
class Suggestion:
    """A concept for a record, and why: the match of a term, and the records alike that have it, the nearest first."""

    concept: int
    score: float = 0.0
    match: LabelMatch | None = None
    alike: list[str] = field(default_factory=list)


class Suggester:
    """Suggests concepts for records, over a replica that has their texts beside it."""

    def __init__(self, replica: Replica) -> None:
        self.replica = replica
        self.labels = LabelMatcher(replica)

    def suggest(self, record: str, title: str, text: str, most: int = MOST) -> list[Suggestion]:
        """Returns concepts for a record, the best first."""
        found: dict[int, Suggestion] = {}
        matches = self.labels.find(title, text)
        for it in matches:
            found[it.concept] = Suggestion(it.concept, OF_LABELS * it.score / matches[0].score, it)
        for concept, share, records in self.alike(record, title, text):
            its = found.setdefault(concept, Suggestion(concept))
            its.score += share
            its.alike = records
        return sorted(found.values(), key=lambda it: (-it.score, it.concept))[:most]

    def alike(self, record: str, title: str, text: str) -> list[tuple[int, float, list[str]]]:
        """Returns the concepts of the records whose texts are most alike, each with its share and these records.

        Each record counts by how alike it is. A share is of all that are asked, also if fewer are found."""
        near = self.nearest(record, title, text)
        if not near:
            return []
        weights = {name: rank / near[0][1] for name, rank in near}
        records: dict[int, list[str]] = {}
        for name, concept in self.replica.all(PLACES, json.dumps(list(weights))):
            records.setdefault(concept, []).append(name)
        shares = [(concept, sum(weights[it] for it in its) / NEAREST, its) for concept, its in records.items()]
        return [(concept, share, sorted(its, key=lambda it: -weights[it])) for concept, share, its in shares]

    def nearest(self, record: str, title: str, text: str) -> list[tuple[str, float]]:
        """Returns the indexed records whose texts are most alike, with how alike they are."""
        words = self.rarest(set(stems_of(title, text).split()))
        if not words:
            return []
        query = " OR ".join(f'"{it}"' for it in words)
        return [(name, rank) for name, rank in self.replica.all(ALIKE, query, record, NEAREST)]

    def rarest(self, words: Iterable[str]) -> list[str]:
        """Returns the rarest of some words that texts of records have, few enough to be found soon."""
        asked = json.dumps(sorted(words), ensure_ascii=False)
        found: list[str] = []
        count = 0
        for word, records in self.replica.all(FREQUENCIES, asked):
            count += records
            if found and (len(found) == RAREST or count > MOST_ALIKE):
                break
            found.append(word)
        return found

    def commonest(self, most: int) -> list[int]:
        """Returns the concepts with which most records are indexed: what suggestions are measured beside."""
        return self.replica.once(
            ("commonest", most), lambda: [it[0] for it in self.replica.all(COMMONEST, most)], ("postings",)
        )
