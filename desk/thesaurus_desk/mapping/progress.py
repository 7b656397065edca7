"""How far a vocabulary is mapped, and what has become of the targets of mappings in its newest dump."""
from __future__ import annotations

import json
from collections.abc import Iterable
from dataclasses import dataclass
from functools import cached_property

from thesaurus_desk.mapping.decisions import LATER, NONE, Decisions
from thesaurus_desk.mapping.vocabularies import Vocabulary
from thesaurus_desk.store.model import Term
from thesaurus_desk.store.replica import Replica
from thesaurus_tools.table_store import KIND_OF_LINK
from thesaurus_tools.vocabulary_tables import ABSENT, CURRENT

# The states of concepts: to be mapped, mapped, and what people decided otherwise.
LEFT, MAPPED = "left", "mapped"
STATES = (LEFT, MAPPED, NONE, LATER)
# What has become of a target.
GONE, DEPRECATED, REPLACED, RENAMED = "gone", "deprecated", "replaced", "renamed"
ENTRIES = (
    "SELECT entry.iri, entry.state, entry.replaced FROM json_each(?) AS asked CROSS JOIN entry"
    " ON entry.iri = asked.value AND entry.vocabulary = ?"
)
MATCHES = "SELECT link.kind, link.a, outside.num, outside.iri FROM outside CROSS JOIN link ON link.b = outside.num"
# A mapping as seen from a concept: its kind, the number of its target, and the IRI of that.
Match = tuple[str, int, str]


@dataclass(frozen=True)
class ChangedTarget:
    """A target that isn't what it was when it was accepted: what it was called, what it is called now, what replaces
    it, and the concepts that are mapped to it, each with the kind of the mapping."""

    iri: str
    number: int
    what: str
    names: list[Term]
    now: list[Term]
    replaced: str
    concepts: list[tuple[str, int]]


class Progress:
    """The mappings to a vocabulary."""

    def __init__(self, replica: Replica, decisions: Decisions, vocabulary: Vocabulary) -> None:
        self.replica, self.decisions, self.vocabulary = replica, decisions, vocabulary
        self.matches = self.replica.all(MATCHES)
        # The targets that are its own: with what the newest dump says, or nothing.
        self.targets = self.find_targets({iri for _, _, _, iri in self.matches})

    def find_targets(self, iris: Iterable[str]) -> dict[str, tuple[int, str]]:
        """Returns which addresses are of the vocabulary: by its dumps, or by the names of the day of a mapping."""
        wanted = sorted(iris)
        vocabularies, name = self.decisions.vocabularies, self.vocabulary.name
        found = {
            iri: (int(state), replaced or "")
            for iri, state, replaced in vocabularies.all(ENTRIES, json.dumps(wanted), self.vocabulary.id)
        }
        named = {
            it["iri"]
            for it in self.decisions.journal.all("SELECT DISTINCT iri FROM outside_name WHERE vocabulary = ?", name)
        }
        return {iri: found.get(iri, (ABSENT, "")) for iri in wanted if iri in found or iri in named}

    def mapped(self) -> dict[int, list[Match]]:
        """Returns the concepts that are mapped to the vocabulary, with their mappings."""
        found: dict[int, list[Match]] = {}
        for kind, concept, number, iri in self.matches:
            if iri in self.targets:
                found.setdefault(concept, []).append((KIND_OF_LINK[kind], number, iri))
        return found

    def by_state(self, scheme: int | None = None) -> dict[str, list[int]]:
        """Returns the live concepts, of a scheme if one is named, by their states."""
        mapped, decided = self.mapped(), self.decisions.of_concepts(self.vocabulary.name)
        found: dict[str, list[int]] = {it: [] for it in STATES}
        for number in self.replica.numbers("concept", scheme, True):
            found[MAPPED if number in mapped else decided.get(number, LEFT)].append(number)
        return found

    def changed(self) -> list[ChangedTarget]:
        """Returns the targets that aren't what they were."""
        found: dict[str, ChangedTarget] = {}
        for kind, concept, number, iri in self.matches:
            if iri not in self.targets:
                continue
            if iri not in found and (what := self.what_became_of(iri)):
                names = self.decisions.accepted_names(iri)
                now = self.decisions.vocabularies.names(iri)
                found[iri] = ChangedTarget(iri, number, what, names, now, self.targets[iri][1], [])
            if iri in found:
                found[iri].concepts.append((KIND_OF_LINK[kind], concept))
        return sorted(found.values(), key=lambda it: (it.what, it.iri))

    def what_became_of(self, iri: str) -> str:
        """Returns what has become of a target; nothing if it is as it was."""
        state, replaced = self.targets[iri]
        if state != CURRENT:
            return REPLACED if replaced else GONE if state == ABSENT else DEPRECATED
        was, now = dict(self.decisions.accepted_names(iri)), dict(self.decisions.vocabularies.names(iri))
        return RENAMED if any(now.get(tag, text) != text for tag, text in was.items()) else ""

    @cached_property
    def rejections(self) -> dict[int, set[str]]:
        """The entries that were rejected, by concepts."""
        return self.decisions.rejected(self.vocabulary.name)

    def rejected(self, number: int) -> set[str]:
        """Returns the entries that were rejected for a concept, or for one that was merged into it."""
        found, ways = set[str](), [number]
        for it in ways:
            found |= self.rejections.get(it, set())
            ways += self.replica.merged_into(it)
        return found
