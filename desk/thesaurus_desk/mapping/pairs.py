"""Concepts and entries that have the same preferred label in the same language, that no other has at either side, and a
broader term in common: so many may be taken together, after a look at some."""
from __future__ import annotations

from collections.abc import Iterable
from dataclasses import dataclass

from thesaurus_desk.mapping.candidates import FOLDED, Agreement, Candidate, Finder, OwnLabel, for_language
from thesaurus_tools.vocabulary_tables import CURRENT

SAME = f"{FOLDED} AND kind = 0"


@dataclass(frozen=True)
class Pair:
    """A concept, and the entry that has the same label; `above` is a broader term that both have."""

    concept: int
    entry: int
    iri: str
    text: str
    above: str


def find_pairs(finder: Finder, concepts: Iterable[int], all_concepts: Iterable[int]) -> list[Pair]:
    """Returns the pairs of some concepts; `all_concepts` are those of which no other may have the label."""
    entries: dict[int, set[int]] = {}
    labels: dict[tuple[int, int], OwnLabel] = {}
    for number in all_concepts:
        for own in finder.terms(number):
            for entry in same_entries(finder, own):
                entries.setdefault(number, set()).add(entry)
                labels.setdefault((number, entry), own)
    takers: dict[int, int] = {}
    for its in entries.values():
        for entry in its:
            takers[entry] = takers.get(entry, 0) + 1
    found = []
    for number in concepts:
        its = entries.get(number, set())
        if len(its) == 1 and takers[entry := next(iter(its))] == 1:
            own = labels[number, entry]
            if candidate := candidate_below(finder, number, entry, own):
                found.append(Pair(number, entry, candidate.iri, own.text, candidate.above[0]))
    return found


def same_entries(finder: Finder, own: OwnLabel) -> set[int]:
    """Returns the entries in use that have a preferred label of ours, but for case and accents, in its language."""
    rows = finder.all(SAME, own.folded)
    return {entry for entry, _, tag, _ in rows if not for_language(own.tag, tag) and is_current(finder, entry)}


def is_current(finder: Finder, entry: int) -> bool:
    """Whether an entry is in use in its vocabulary."""
    return finder.vocabularies.all("SELECT state FROM entry WHERE id = ?", entry) == [(CURRENT,)]


def candidate_below(finder: Finder, number: int, entry: int, own: OwnLabel) -> Candidate | None:
    """Returns an entry as a candidate for a concept if both have a broader term in common."""
    it = finder.replica.get(number)
    agreement = Agreement(0.0, "same", own, own.tag, own.text)
    found = finder.rated(entry, [agreement], finder.around(it)) if it else None
    return found if found and found.above else None
