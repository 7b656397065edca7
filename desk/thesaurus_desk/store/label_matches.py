"""Finds the terms of concepts in a text: the longest first, in any form, with how many meanings each has."""
from __future__ import annotations

import json
import re
from collections import defaultdict
from collections.abc import Iterator, Sequence
from dataclasses import dataclass, field
from math import sqrt

from thesaurus_desk.store.read_transactions import ReadTransactions
from thesaurus_desk.store.text_keys import WORD, fold
from thesaurus_tools.stems import ALL_SMALL, SMALL_WORDS, forms, language_of, stem

# The terms that are the very word of a text, and those that begin with it: the next sign is a space, a bracket, a
# comma or a hyphen. Old codes and hidden labels are among them.
FIND = (
    "SELECT DISTINCT l.owner, l.kind, l.tag, l.text, l.fold FROM json_each(?1) w CROSS JOIN label l ON {}"
    " AND l.kind < 4 JOIN resource r ON r.num = l.owner AND r.kind = 2 AND r.live = 1 LIMIT ?2"
)
WHOLE, BEGINNING = "l.fold = w.value", "l.fold >= w.value || ' ' AND l.fold < w.value || '.'"
MOST_LABELS = 20_000
# What a preferred, an alternative and a hidden term count, and a title beside a text; a further word; a term of a
# language that isn't the text's needs some letters, and one of few letters must be written as in the text.
KIND_WEIGHTS = {1: 1.0, 2: 0.9, 3: 0.7}
TITLE_WEIGHT, TEXT_WEIGHT, WORD_WEIGHT = 2.0, 1.0, 0.5
FOREIGN_LETTERS, OWN_CASE = 5, 3
# The most characters of a text in which terms are looked for.
LONGEST = 6000
NONE = frozenset[str]()
BRACKET = re.compile(r"\s*\([^()]*\)\s*$")


@dataclass(frozen=True, slots=True)
class FoundLabel:
    """A term of a concept that was found in a text. `meanings`: how many concepts have it."""

    concept: int
    kind: int
    tag: str
    text: str
    # Its words without what is in brackets at its end.
    words: tuple[str, ...]


@dataclass(slots=True)
class LabelMatch:
    """A concept whose terms are in a text: how well they fit, one of them, and how many concepts that may mean."""

    concept: int
    score: float = 0.0
    text: str = ""
    tag: str = ""
    meanings: int = 1
    count: int = 0


@dataclass
class Part:
    """A title or a text: its words as they are and folded."""

    weight: float
    words: list[str]
    folded: list[str]
    stems: dict[str, list[str]] = field(default_factory=dict)

    def stems_in(self, tag: str) -> list[str]:
        """Returns the stems of its words in a language."""
        if tag not in self.stems:
            self.stems[tag] = [stem(it, tag) for it in self.folded]
        return self.stems[tag]


def part_of(text: str, weight: float) -> Part:
    """Returns the words of a text."""
    words = WORD.findall(text[:LONGEST])
    return Part(weight, words, [fold(it) for it in words])


class LabelMatcher:
    """Finds terms in texts."""

    def __init__(self, store: ReadTransactions) -> None:
        self.store = store

    def find(self, title: str, text: str) -> list[LabelMatch]:
        """Returns the concepts whose terms are in a record's title or text, the best first."""
        parts = [part_of(title, TITLE_WEIGHT), part_of(text, TEXT_WEIGHT)]
        words = [it for part in parts for it in part.folded]
        language = language_of(words)
        labels = self.labels_of({it for it in words if it not in ALL_SMALL and not it.isdecimal()}, language)
        found: dict[int, LabelMatch] = {}
        for part in parts:
            for its in matches_in(part, labels):
                meanings = {it.concept for it in its}
                for one in best_of_each(its):
                    add(found.setdefault(one.concept, LabelMatch(one.concept)), one, part.weight, len(meanings))
        return sorted(found.values(), key=lambda it: (-it.score, it.concept))

    def labels_of(self, words: set[str], language: str) -> dict[str, dict[str, list[FoundLabel]]]:
        """Returns the terms that begin with some words, in any form, by their languages and the stems of their first
        words, without those that can hardly be meant."""
        asked = json.dumps(sorted(set().union(*map(forms, words))), ensure_ascii=False)
        rows = {it for test in (WHOLE, BEGINNING) for it in self.store.all(FIND.format(test), asked, MOST_LABELS)}
        found: dict[str, dict[str, list[FoundLabel]]] = defaultdict(lambda: defaultdict(list))
        for concept, kind, tag, text, folded in rows:
            its = tuple(WORD.findall(BRACKET.sub("", folded)))
            if its and may_be_meant(its, tag, language):
                found[tag][stem(its[0], tag)].append(FoundLabel(concept, kind, tag, text, its))
        return found


def may_be_meant(words: tuple[str, ...], tag: str, language: str) -> bool:
    """Whether a term may be meant by a text of a language: not one that is a small word of either; of another language
    only one that isn't short."""
    own = tag.partition("-")[0]
    if len(words) == 1 and words[0] in SMALL_WORDS.get(own, NONE) | SMALL_WORDS.get(language, NONE):
        return False
    return not language or own == language or sum(map(len, words)) >= FOREIGN_LETTERS


def matches_in(part: Part, labels: dict[str, dict[str, list[FoundLabel]]]) -> Iterator[list[FoundLabel]]:
    """Yields the terms at each place of a text: the longest that begin there, none within another one."""
    at = 0
    while at < len(part.words):
        found = [it for tag, by_stem in labels.items() for it in labels_at(part, at, tag, by_stem)]
        most = max((len(it.words) for it in found), default=0)
        if most:
            yield [it for it in found if len(it.words) == most]
        at += max(1, most)


def labels_at(part: Part, at: int, tag: str, by_stem: dict[str, list[FoundLabel]]) -> Iterator[FoundLabel]:
    """Yields the terms of a language that begin at a place of a text."""
    stems = part.stems_in(tag)
    for it in by_stem.get(stems[at], ()):
        if [stem(one, tag) for one in it.words] == stems[at : at + len(it.words)] and has_own_case(it, part.words[at]):
            yield it


def has_own_case(label: FoundLabel, word: str) -> bool:
    """Whether a term of few letters is written as in the text; any other is as it may be."""
    return len(label.words) > 1 or len(label.words[0]) > OWN_CASE or label.text.startswith(word)


def best_of_each(labels: Sequence[FoundLabel]) -> list[FoundLabel]:
    """Returns one term of each concept: the preferred one, if it is among them."""
    found: dict[int, FoundLabel] = {}
    for it in sorted(labels, key=lambda one: (one.kind, one.tag, one.text)):
        found.setdefault(it.concept, it)
    return list(found.values())


def add(match: LabelMatch, label: FoundLabel, weight: float, meanings: int) -> None:
    """Adds an occurrence of a term to what is known of its concept: each further one counts less."""
    worth = weight * (1 + WORD_WEIGHT * (len(label.words) - 1)) * KIND_WEIGHTS[label.kind] / sqrt(meanings)
    if not match.count:
        match.text, match.tag, match.meanings = label.text, label.tag, meanings
    match.score += worth / (1 + match.count)
    match.count += 1
