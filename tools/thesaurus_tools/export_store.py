"""A thesaurus read from an export."""
from __future__ import annotations

import re
from collections import defaultdict
from collections.abc import Iterable, Iterator

from thesaurus_tools.command_line import REFUSED, USAGE, ToolError
from thesaurus_tools.kinds import CLASSES, LABEL_PROPERTIES, LINK_PROPERTIES
from thesaurus_tools.ntriples import DCTERMS, OWL, RDF, SKOS, Blank, Iri, Literal, Node, Triple
from thesaurus_tools.store import Contents, Label, Link, Move, Posting, Resource, Store, normal_link

# The subjects and objects of triples by their predicates.
Properties = dict[str, list[tuple[Iri | Blank, Node]]]


def number_of(iri: str, base: str) -> int | None:
    """Returns the number that follows the base in an IRI, or None."""
    digits = iri[len(base) :] if iri.startswith(base) else ""
    return int(digits) if re.fullmatch(r"[1-9][0-9]*", digits) else None


class ExportStore(Store):
    """The vocabulary of an export. It has neither types of links nor numbers of outside concepts, and has no
    postings."""

    has_types = has_plain = False

    def __init__(self, name: str, contents: Contents):
        self.name, self.outside = name, {}
        self.base, self.resources, self.labels, self.links = contents

    def each_posting(self) -> Iterator[Posting]:
        raise ToolError(f"{self.name}: an export has no postings: use --db or --http", USAGE)

    def each_move(self) -> Iterator[Move]:
        raise ToolError(f"{self.name}: an export has no moves: use --db or --http", USAGE)


def store_of_export(name: str, triples: Iterable[Triple], base: str | None = None) -> ExportStore:
    """Makes a store of the triples of an export; the base is found if none is given."""
    return ExportStore(name, read_contents(name, triples, base))


def read_contents(name: str, triples: Iterable[Triple], base: str | None = None) -> Contents:
    """Reads the triples of an export. Raises ToolError if one of its resources has no number."""
    properties: Properties = defaultdict(list)
    for subject, predicate, target in triples:
        properties[predicate].append((subject, target))
    base = find_base(properties) if base is None else base
    kinds = read_kinds(name, base, properties)
    numbers = {iri: number for iri, (number, _) in kinds.items()}
    labels = [
        Label(numbers[subject], kind, text.tag.lower(), text.text)
        for name, kind in LABEL_PROPERTIES.items()
        for subject, text in properties[SKOS + name]
        if subject in numbers and isinstance(text, Literal)
    ]
    collections = {iri for iri, (_, kind) in kinds.items() if kind == "collection"}
    return Contents(base, read_resources(kinds, properties), labels, set(read_links(numbers, collections, properties)))


def find_base(properties: Properties) -> str:
    """Returns what the IRIs of schemes begin with, up to the number; a base that ends in a digit isn't recognized."""
    schemes = [it for it, kind in properties[RDF + "type"] if kind == SKOS + "ConceptScheme"]
    return re.sub(r"[0-9]+$", "", schemes[0]) if schemes else ""


def read_kinds(name: str, base: str, properties: Properties) -> dict[str, tuple[int, str]]:
    """Returns the numbers and the kinds of resources by their IRIs."""
    kinds: dict[str, tuple[int, str]] = {}
    for subject, target in properties[RDF + "type"]:
        kind = CLASSES.get(target.removeprefix(SKOS)) if isinstance(target, Iri) else None
        if not kind:
            continue
        number = number_of(subject, base)
        if number is None:
            raise ToolError(
                f"{name}: <{subject}> doesn't end with a number: is this an export of the program?", REFUSED
            )
        kinds[subject] = number, kind
    return kinds


def read_resources(kinds: dict[str, tuple[int, str]], properties: Properties) -> dict[int, Resource]:
    """Returns the resources by their numbers."""

    def number_at(iri: object) -> int | None:
        return kinds[str(iri)][0] if str(iri) in kinds else None

    def targets(predicate: str) -> dict[str, int | None]:
        return {it: number_at(target) for it, target in properties[predicate] if it in kinds}

    schemes, replaced, dead = map(targets, (SKOS + "inScheme", DCTERMS + "isReplacedBy", OWL + "deprecated"))
    return {
        number: Resource(number, kind, schemes.get(it), it not in dead, replaced.get(it))
        for it, (number, kind) in kinds.items()
    }


def read_links(numbers: dict[str, int], collections: set[str], properties: Properties) -> Iterator[Link]:
    """Yields the links, those that are stated twice twice. A collection within another one is none of its members."""
    for name, kind in LINK_PROPERTIES.items():
        for subject, target in properties[SKOS + name]:
            if subject in numbers and not (kind == "member" and target in collections):
                yield normal_link(kind, numbers[subject], numbers.get(str(target), str(target)))
