"""Reads an export as resources with their labels and links, for the tools that show a thesaurus."""
from __future__ import annotations

import re
from collections import Counter, defaultdict
from collections.abc import Iterable, Mapping, Sequence
from dataclasses import dataclass, field
from pathlib import Path

from thesaurus_tools.arrays import Places, places_of_triples
from thesaurus_tools.command_line import REFUSED, ToolError
from thesaurus_tools.desk_values import hidden_concepts, names_elsewhere, open_journal, public_fields, public_values
from thesaurus_tools.export_values import ExportFacts
from thesaurus_tools.fields import Field, text_fields
from thesaurus_tools.kinds import BROADER
from thesaurus_tools.ntriples import DCTERMS, OWL, RDF, SKOS, Iri, Literal, Triple, read_ntriples
from thesaurus_tools.public_triples import public_triples
from thesaurus_tools.store import Link, Store
from thesaurus_tools.values import FieldValue

KINDS = ("Concept", "Collection", "ConceptScheme")


@dataclass
class Resource:
    """A scheme, a concept or a collection: its labels with their tags, and its links, by SKOS property."""

    iri: str
    page: str = ""
    kind: str = ""
    is_live: bool = True
    replaced: str = ""
    labels: dict[str, list[tuple[str, str]]] = field(default_factory=lambda: defaultdict(list))
    links: dict[str, list[str]] = field(default_factory=lambda: defaultdict(list))
    # The values of the office's own fields, with the names of these.
    own: list[tuple[Field, FieldValue]] = field(default_factory=list)

    def add(self, triple: Triple) -> None:
        """Takes up a triple whose subject is this resource."""
        _, predicate, target = triple
        if predicate == f"{SKOS}note" and isinstance(target, Literal):
            self.labels["generalNote"].append((target.tag.lower(), target.text))
        elif predicate.startswith(SKOS) and isinstance(target, Literal):
            self.labels[predicate[len(SKOS) :]].append((target.tag.lower(), target.text))
        elif predicate == f"{DCTERMS}source":
            self.labels["source"].append(("", target.text if isinstance(target, Literal) else str(target)))
        elif isinstance(target, Literal):
            if predicate == f"{OWL}deprecated":
                self.is_live = target.text not in ("true", "1")
        elif predicate.startswith(SKOS):
            self.links[predicate[len(SKOS) :]].append(target)
        elif predicate == f"{RDF}type" and target.startswith(SKOS) and target[len(SKOS) :] in KINDS:
            self.kind = target[len(SKOS) :]
        elif predicate == f"{DCTERMS}isReplacedBy":
            self.replaced = target

    def take(self, field: Field, it: FieldValue) -> None:
        """Takes up a value of a field, unless the export has it."""
        value = it.tag.lower() if field.tag == "language" else "", it.text
        if field.is_own:
            self.own.append((field, it))
        elif value not in self.labels[field.name]:
            self.labels[field.name].append(value)

    def texts(self, kind: str, lang: str) -> list[str]:
        """The labels or notes of a kind in a language, or in a variant of it (`de-at` for `de`)."""
        return [text for tag, text in self.labels.get(kind, ()) if tag == lang or tag.startswith(f"{lang}-")]

    def plain_texts(self, kind: str, lang: str) -> list[str]:
        """The labels or notes of a kind in a language, and in none."""
        return [*self.texts(kind, lang), *(text for tag, text in self.labels.get(kind, ()) if not tag)]

    def name(self, langs: Iterable[str]) -> tuple[str, str]:
        """The preferred label in the first of the languages that has one, or any, or the number; and its language
        tag."""
        labels = sorted(self.labels.get("prefLabel", ()))
        for lang in langs:
            for tag, text in labels:
                if tag == lang or tag.startswith(f"{lang}-"):
                    return text, lang
        return (labels[0][1], labels[0][0]) if labels else (f"[{self.page}]", "")


@dataclass
class Thesaurus:
    """The resources of an export by their IRIs, and the types of its broader links by narrower and broader IRI."""

    resources: dict[str, Resource]
    types: dict[tuple[str, str], str] = field(default_factory=dict)
    # The tag of the hidden labels that are codes, if the search is to find them in each language.
    codes: str = ""
    # Where collections are.
    places: Places[str] = field(default_factory=lambda: Places({}, {}, {}))
    triples: list[Triple] = field(default_factory=list)
    # What other publishers call concepts that are mapped to, by their IRIs: languages and labels.
    names_elsewhere: Mapping[str, Sequence[tuple[str, str]]] = field(default_factory=dict)

    def take_values(self, journal: Path) -> None:
        """Takes up the values of fields that everybody may see, of the journal of the desk that has made the export."""
        by_number = {number_of_iri(iri): it for iri, it in self.resources.items()}
        with open_journal(journal) as tables:
            fields = text_fields(public_fields(tables))
            self.names_elsewhere = names_elsewhere(tables)
            for value in public_values(tables, fields):
                if (it := by_number.get(str(value.owner))) is not None:
                    it.take(fields[value.field], value)

    def take_facts(self) -> None:
        """Takes up the values that the export of a desk has beside the vocabulary, and the version of its schemes."""
        facts, numbers = ExportFacts(), {iri: number for number, iri in enumerate(self.resources, 1)}
        for triple in self.triples:
            if number := numbers.get(triple.subject):
                facts.take(number, triple, "", "")
        for number, it in enumerate(self.resources.values(), 1):
            for one in facts.values.get(number, ()):
                it.take(one.field, FieldValue(number, one.field.name, one.tag, one.text))
            if it.kind == "ConceptScheme" and facts.version:
                it.labels["version"].append(("", facts.version))

    def name_elsewhere(self, iri: str, langs: Iterable[str]) -> tuple[str, str]:
        """Returns the language and the text of what another publisher calls a concept, in the first of some languages
        that it has, or in any; else its IRI."""
        names = dict(self.names_elsewhere.get(iri, ()))
        tag = next((it for it in (*langs, *sorted(names)) if it in names), None)
        return ("", iri) if tag is None else (tag, names[tag])

    def of_kind(self, kind: str) -> list[Resource]:
        return [it for it in self.resources.values() if it.kind == kind]

    def linked(self, it: Resource, kind: str) -> list[Resource]:
        """The resources of the export to which links of a kind lead."""
        return [self.resources[iri] for iri in dict.fromkeys(it.links.get(kind, ())) if iri in self.resources]

    def arrays(self, it: Resource) -> list[Resource]:
        """The arrays of a concept."""
        return [self.resources[iri] for iri in self.places.arrays.get(it.iri, ()) if iri in self.resources]

    def take_codes(self, tag: str) -> int:
        """Takes the hidden labels in a tag away, and returns how many there were."""
        count = 0
        for it in self.of_kind("Concept"):
            kept = [label for label in it.labels.get("hiddenLabel", ()) if label[0] != tag]
            count += len(it.labels.get("hiddenLabel", ())) - len(kept)
            it.labels["hiddenLabel"] = kept
        return count

    def take_old_iris(self) -> dict[str, int]:
        """Takes the exact matches to old addresses away, and returns how many there were by what they begin with.

        That is a beginning with which more than half of the live concepts have one exact match each, and no two the
        same: so it is of a vocabulary that became this one, and of none in which some concepts have their like."""
        live = [it for it in self.of_kind("Concept") if it.is_live]
        matches = [iri for it in live for iri in set(it.links.get("exactMatch", ())) - self.resources.keys()]
        starts = Counter(start_of(iri) for iri, count in Counter(matches).items() if count == 1)
        per_concept = (Counter(map(start_of, set(it.links.get("exactMatch", ())))) for it in live)
        several = {start for found in per_concept for start, count in found.items() if count > 1}
        old = {start: count for start, count in starts.items() if 2 * count > len(live) and start not in several}
        for it in self.of_kind("Concept"):
            kept = [iri for iri in it.links.get("exactMatch", ()) if start_of(iri) not in old]
            it.links["exactMatch"] = kept
        return old

    def replacement(self, it: Resource) -> Resource | None:
        """The first live concept along the replacements of a dead one, if there is one."""
        seen: set[str] = set()
        while not it.is_live and it.iri not in seen and it.replaced in self.resources:
            seen.add(it.iri)
            it = self.resources[it.replaced]
        return it if it.is_live else None


def number_of_iri(iri: str) -> str:
    """Returns the number that ends an IRI."""
    return iri[len(iri.rstrip("0123456789")) :]


def start_of(iri: str) -> str:
    """Returns an IRI without its last part."""
    return iri.rstrip("#/:")[: -len(re.split("[#/:]", iri.rstrip("#/:"))[-1])]


def read_public(path: Path, journal: Path | None) -> list[Triple]:
    """Reads an export, without the concepts that the public doesn't see by the journal of the desk that has made it."""
    triples = list(read_ntriples(path))
    if journal is None:
        return triples
    with open_journal(journal) as tables:
        numbers = set(map(str, hidden_concepts(tables)))
    subjects = {it.subject for it in triples if isinstance(it.subject, Iri)} if numbers else set()
    return public_triples(triples, {it for it in subjects if number_of_iri(it) in numbers})


def read_thesaurus(path: Path, journal: Path | None = None) -> Thesaurus:
    """Reads an export. A page is named by the number that ends its IRI, or by its place if one has none."""
    every: dict[str, Resource] = {}
    triples = read_public(path, journal)
    for triple in triples:
        if triple.subject not in every:
            every[triple.subject] = Resource(triple.subject)
        every[triple.subject].add(triple)
    found = {iri: it for iri, it in every.items() if it.kind in KINDS}
    if not any(it.kind == "Concept" for it in found.values()):
        raise ToolError(f"{path}: there is no skos:Concept in it", REFUSED)
    numbers = [number_of_iri(iri) for iri in found]
    are_names = all(numbers) and len(set(numbers)) == len(numbers)
    for place, (it, number) in enumerate(zip(found.values(), numbers), 1):
        it.page = number if are_names else f"c{place}"
    read = Thesaurus(found, places=places_of_triples(triples), triples=triples)
    # (another vocabulary may have much that isn't to be shown)
    if are_names:
        read.take_facts()
    return read


def read_types(store: Store) -> dict[tuple[str, str], str]:
    """Reads the types of broader links, as letters, in a store."""
    found: dict[tuple[str, str], str] = defaultdict(str)
    for kind in BROADER[1:]:
        for link in store.links:
            if link.kind == kind:
                found[iris_of(store, link)] += kind.removeprefix("broader")[0]
    return dict(found)


def broader_links(store: Store) -> set[tuple[str, str]]:
    """Returns the broader links of a store, whatever their types."""
    return {iris_of(store, it) for it in store.links if it.kind in BROADER}


def iris_of(store: Store, link: Link) -> tuple[str, str]:
    return f"{store.base}{link.a}", f"{store.base}{link.b}"
