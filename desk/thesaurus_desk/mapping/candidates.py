"""What of another vocabulary may mean the same as a concept: by its labels, and by what is above and below both.

Each agreement of two labels is worth something: less for non-preferred ones, for another language, and the less alike
the labels are. Then comes what both have around them. The order is for a person, who decides."""
from __future__ import annotations

from collections.abc import Collection, Iterable, Iterator
from dataclasses import dataclass, field
from typing import NamedTuple

from thesaurus_desk.mapping.vocabularies import Vocabularies
from thesaurus_desk.store.model import Resource
from thesaurus_desk.store.read_transactions import Row
from thesaurus_desk.store.replica import Replica
from thesaurus_desk.store.text_keys import LAST
from thesaurus_tools.stems import quick_fold, stems_of
from thesaurus_tools.vocabulary_tables import CURRENT, LABEL_KINDS

# What two labels are worth that are the same, but for case and accents, but for endings and order, but for one letter.
RULES = {"same": 100.0, "folded": 95.0, "stemmed": 75.0, "mistyped": 50.0}
# What is taken off for the kind of a label at either side, for another language, for none.
OF_KIND = dict(zip(LABEL_KINDS, (0.0, 10.0, 20.0)))
OTHER_LANGUAGE, NO_LANGUAGE = 20.0, 5.0
# What is added for one or two further labels that agree, for another language in which they do, for a broader and for a
# narrower concept in common: for a broader one up to two steps above, and more if it is the next one.
FURTHER, FURTHER_LANGUAGE, ABOVE, NEXT_ABOVE, BELOW = 3.0, 6.0, 15.0, 3.0, 8.0
# How many candidates are shown, how many labels with the same stems, and how many narrower concepts are looked at.
MOST, MOST_STEMMED, MOST_BELOW = 8, 50, 200
# A label of fewer letters has no typing error.
SHORTEST = 5
COLUMNS = "SELECT entry, kind, tag, text FROM label WHERE vocabulary = ?1 AND "
FOLDED = f"{COLUMNS} size = length(?2) AND folded = ?2"
NEAR = (
    "SELECT entry, kind, tag, text, folded FROM label WHERE vocabulary = ?1 AND size IN (?4 - 1, ?4, ?4 + 1)"
    " AND {column} >= ?2 AND {column} < ?3 LIMIT 5000"
)
UP = (
    "WITH RECURSIVE up (n, steps) AS (SELECT above, 1 FROM above WHERE entry = ?1 UNION"
    " SELECT above.above, steps + 1 FROM up JOIN above ON above.entry = n WHERE steps < 2)"
    " SELECT label.stems, label.text, steps FROM up CROSS JOIN label ON label.entry = n"
)
DOWN = "SELECT label.stems FROM above CROSS JOIN label ON label.entry = above.entry WHERE above.above = ?1 LIMIT ?2"


class OwnLabel(NamedTuple):
    """A label of a concept here."""

    kind: str
    tag: str
    text: str

    @property
    def folded(self) -> str:
        """The label without case and accents."""
        return quick_fold(self.text)

    @property
    def stems(self) -> str:
        """The stems of its words."""
        return stems_of(self.folded, self.tag)


class Agreement(NamedTuple):
    """How a label agrees with one of an entry, and what that is worth."""

    score: float
    rule: str
    own: OwnLabel
    tag: str
    text: str


@dataclass
class Candidate:
    """An entry that may mean the same, with the labels that agree, the best first, and what is above both."""

    entry: int
    iri: str
    agreements: list[Agreement]
    score: float
    above: list[str] = field(default_factory=list)

    @property
    def best(self) -> Agreement:
        """The labels that agree best."""
        return self.agreements[0]


@dataclass
class NeighbourStems:
    """The stems of the terms of what is broader and narrower than a concept here."""

    above: set[str]
    below: set[str]


class Finder:
    """Finds candidates in a vocabulary, at one moment of both sides."""

    def __init__(self, replica: Replica, vocabularies: Vocabularies, vocabulary: int) -> None:
        self.replica, self.vocabularies, self.vocabulary = replica, vocabularies, vocabulary

    def find(self, number: int, rejected: Collection[str] = (), most: int = MOST) -> list[Candidate]:
        """Returns the candidates for a concept, the best first; not those that were rejected."""
        it = self.replica.get(number)
        if it is None:
            return []
        found: dict[int, list[Agreement]] = {}
        labels = labels_of(it)
        for own in labels:
            self.take(found, own, "folded", self.all(FOLDED, own.folded))
            self.take(found, own, "stemmed", self.all(f"{COLUMNS} stems = ?2 LIMIT {MOST_STEMMED}", own.stems))
        if not found:
            for own in labels:
                self.take(found, own, "mistyped", self.near(own.folded))
        around = self.around(it)
        candidates = (self.rated(entry, its, around) for entry, its in found.items())
        kept = [it for it in candidates if it is not None and it.iri not in rejected]
        return sorted(kept, key=lambda it: (-it.score, it.entry))[:most]

    def all(self, query: str, *values: object) -> list[Row]:
        """Returns the rows that a query of the vocabulary finds."""
        return self.vocabularies.all(query, self.vocabulary, *values)

    def take(self, found: dict[int, list[Agreement]], own: OwnLabel, rule: str, rows: Iterable[Row]) -> None:
        """Adds the entries of labels that agree with one of ours."""
        for entry, kind, tag, text in rows:
            its = "same" if text == own.text else rule
            score = RULES[its] - OF_KIND[own.kind] - OF_KIND[LABEL_KINDS[kind]] - for_language(own.tag, tag)
            found.setdefault(entry, []).append(Agreement(score, its, own, tag, text))

    def near(self, folded: str) -> Iterator[Row]:
        """Yields the labels that differ by one typing error: then the first or the second half is without any."""
        if len(folded) < SHORTEST:
            return
        half = len(folded) // 2
        for column, part in (("folded", folded[:half]), ("back", folded[half:][::-1])):
            for row in self.all(NEAR.format(column=column), part, part + LAST, len(folded)):
                if is_near(row[4], folded):
                    yield row[:4]

    def around(self, it: Resource) -> NeighbourStems:
        """Returns what is around a concept here."""
        above = {own.stems for number in it.broader for own in self.terms(number)}
        below = {own.stems for number in sorted(it.narrower)[:MOST_BELOW] for own in self.terms(number)}
        return NeighbourStems(above, below)

    def terms(self, number: int) -> list[OwnLabel]:
        """Returns the preferred terms of a concept, which are read with those of its neighbours."""
        self.replica.look_at([number])
        return [OwnLabel("pref", tag, text) for tag, text, _ in self.replica.transaction.terms[number]]

    def rated(self, entry: int, agreements: list[Agreement], around: NeighbourStems) -> Candidate | None:
        """Returns an entry as a candidate; None if it isn't in use there."""
        row = next(iter(self.vocabularies.all("SELECT iri, state FROM entry WHERE id = ?", entry)), None)
        if row is None or row[1] != CURRENT:
            return None
        best_first = best_of_each(agreements)
        best = best_first[0]
        further = best_first[1:]
        languages = {it.own.tag for it in further} - {best.own.tag}
        score = best.score + FURTHER * min(2, len(further)) + FURTHER_LANGUAGE * len(languages)
        found = Candidate(entry, row[0], best_first, score)
        if around.above:
            above = [(steps, text) for stems, text, steps in self.vocabularies.all(UP, entry) if stems in around.above]
            found.above = [text for _, text in sorted(above)]
            found.score += ABOVE * bool(above) + NEXT_ABOVE * any(steps == 1 for steps, _ in above)
        if around.below:
            below = {stems for (stems,) in self.vocabularies.all(DOWN, entry, MOST_BELOW)}
            found.score += BELOW * bool(below & around.below)
        return found


def labels_of(it: Resource) -> list[OwnLabel]:
    """Returns the terms of a concept, the preferred ones first."""
    order = {kind: place for place, kind in enumerate(LABEL_KINDS)}
    return sorted((OwnLabel(*one) for one in it.labels if one[0] in order), key=lambda own: (order[own.kind], own))


def for_language(own: str, other: str) -> float:
    """Returns what is taken off for the languages of two labels."""
    if other in ("", "und", "mul", "zxx"):
        return NO_LANGUAGE
    return 0.0 if own.partition("-")[0] == other.partition("-")[0] else OTHER_LANGUAGE


def best_of_each(agreements: list[Agreement]) -> list[Agreement]:
    """Returns the best agreement of each label of ours, the best first."""
    found: dict[tuple[str, str], Agreement] = {}
    for it in sorted(agreements, key=lambda it: (-it.score, it.own, it.text)):
        found.setdefault((it.own.tag, it.own.folded), it)
    return list(found.values())


def is_near(one: str, other: str) -> bool:
    """Whether two texts differ by one letter too many, one missing, another one, or two that are swapped."""
    if len(one) > len(other):
        one, other = other, one
    at = next((place for place, (a, b) in enumerate(zip(one, other)) if a != b), len(one))
    if len(one) < len(other):
        return one[at:] == other[at + 1 :]
    is_swapped = one[at : at + 2][::-1] == other[at : at + 2] and one[at + 2 :] == other[at + 2 :]
    return one != other and (one[at + 1 :] == other[at + 1 :] or is_swapped)
