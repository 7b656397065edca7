"""Where collections are in a thesaurus: arrays below a concept, with a node label (ISO 25964), and groups; those within
others; and the order of what is in one. A desk keeps this as values of fields. And how it is in RDF."""
from __future__ import annotations

import re
from collections import defaultdict
from collections.abc import Callable, Iterable, Iterator, Mapping, Sequence
from functools import lru_cache
from typing import Generic, TypeVar

from thesaurus_tools import note_sources
from thesaurus_tools.fields import ORDER, PLACE_FIELDS, SUPERORDINATE
from thesaurus_tools.ntriples import DCTERMS, OWL, RDF, SKOS, Iri, Literal, Node, Triple
from thesaurus_tools.rdf_writer import ISO_THES

# What resources are named by: numbers or IRIs.
Name = TypeVar("Name")
# What follows the IRI of a collection in those of the nodes of its list.
NODE = "#order-"
OF_ANOTHER = re.compile(f"(?:{NODE}[0-9]+|{note_sources.NODE}[0-9a-f]+)$")
ARRAY_CLASSES = ("ThesaurusArray", "ConceptGroup")
COLLECTIONS = (*(SKOS + it for it in ("Collection", "OrderedCollection")), *(ISO_THES + it for it in ARRAY_CLASSES))
# The properties of RDF by which collections are below concepts, and within others: whether their subject is the lower
# one. (Some vocabularies have a collection as a narrower concept.)
ABOVE = {
    **{ISO_THES + "superOrdinate": True, ISO_THES + "subordinateArray": False},
    **{SKOS + "broader": True, SKOS + "narrower": False},
}
AROUND = {SKOS + "member": False, ISO_THES + "superGroup": True, ISO_THES + "subGroup": False}


class Places(Generic[Name]):
    """The places of collections.

    `named`: the superordinate concepts that arrays have themselves; `outer`: the collections around others; `orders`:
    what is in order in a collection."""

    def __init__(
        self, named: Mapping[Name, Name], outer: Mapping[Name, Name], orders: Mapping[Name, Sequence[Name]]
    ) -> None:
        self.named, self.outer, self.orders = named, outer, orders
        self.inner = reverse(outer)
        self.arrays = reverse({it: above for it in (*named, *outer) if (above := self.superordinate(it)) is not None})

    def superordinate(self, number: Name) -> Name | None:
        """Returns the concept below which an array is: its own, or that of the one around it."""
        met = set()
        while number not in self.named and number in self.outer and number not in met:
            met.add(number)
            number = self.outer[number]
        return self.named.get(number)

    def directly_below(self, concept: Name) -> list[Name]:
        """Returns the arrays of a concept that aren't within another one of it."""
        arrays = self.arrays.get(concept, [])
        return [it for it in arrays if self.outer.get(it) not in arrays]

    def in_order(self, number: Name, there: Iterable[Name]) -> list[Name]:
        """Returns what is in a collection, its members and the collections within it, in its order; what has no place
        in that comes last, as it is given."""
        these = dict.fromkeys(there)
        first = dict.fromkeys(it for it in self.orders.get(number, ()) if it in these)
        return [*first, *(it for it in these if it not in first)]

    def is_group(self, number: Name) -> bool:
        """Whether a collection is within another one, or has one within it, and is no array."""
        is_nested = number in self.outer or number in self.inner
        return is_nested and self.superordinate(number) is None


def reverse(targets: Mapping[Name, Name]) -> dict[Name, list[Name]]:
    """Returns for each target what leads there."""
    found: dict[Name, list[Name]] = defaultdict(list)
    for it, target in targets.items():
        found[target].append(it)
    return dict(found)


def no_places() -> Places[int]:
    """Returns that no collection has a place."""
    return Places({}, {}, {})


def places_of_values(rows: Iterable[tuple[int, str, str]], final: Callable[[int], int | None]) -> Places[int]:
    """Returns the places of collections by the owners, the fields and the texts of values. `final` returns the resource
    in use to which a number leads, or None."""
    named, outer, orders = dict[int, int](), dict[int, int](), dict[int, Sequence[int]]()
    for owner, field, text in rows:
        texts = text.split() if field in PLACE_FIELDS else ()
        numbers = [found for it in texts if (found := final(int(it))) is not None]
        if field == ORDER:
            orders[owner] = numbers
        elif numbers:
            (named if field == SUPERORDINATE else outer)[owner] = numbers[0]
    return Places(named, outer, orders)


def node_label(text: str) -> str:
    """Returns the name of an array as a node label: in angle brackets, unless it has such itself."""
    return text if text[:1] in ("<", "‹", "⟨", "(", "[") else f"<{text}>"


def place_triples(places: Places[int], base: str, number: int, members: Sequence[int]) -> Iterator[Triple]:
    """Yields what a concept or a collection has in RDF by its place. A list has nodes with IRIs, so that exports can be
    compared line by line."""

    def iri(it: int) -> Iri:
        return Iri(f"{base}{it}")

    def about(name: str, *numbers: int) -> Iterator[Triple]:
        return (Triple(iri(number), Iri(name), iri(it)) for it in numbers)

    def typed(name: str) -> Triple:
        return Triple(iri(number), Iri(RDF + "type"), Iri(name))

    inner = places.inner.get(number, [])
    yield from about(ISO_THES + "subordinateArray", *places.arrays.get(number, ()))
    yield from about(SKOS + "member", *inner)
    if (above := places.superordinate(number)) is not None:
        yield typed(ISO_THES + "ThesaurusArray")
        yield from about(ISO_THES + "superOrdinate", above)
    elif places.is_group(number):
        yield typed(ISO_THES + "ConceptGroup")
        yield from about(ISO_THES + "superGroup", *(it for it in (places.outer.get(number),) if it))
        yield from about(ISO_THES + "subGroup", *inner)
    if number in places.orders and (parts := places.in_order(number, [*inner, *members])):
        yield typed(SKOS + "OrderedCollection")
        nodes = [Iri(f"{base}{number}{NODE}{place}") for place, _ in enumerate(parts, 1)]
        yield Triple(iri(number), Iri(SKOS + "memberList"), nodes[0])
        for node, rest, it in zip(nodes, [*nodes[1:], Iri(RDF + "nil")], parts):
            yield Triple(node, Iri(RDF + "first"), iri(it))
            yield Triple(node, Iri(RDF + "rest"), rest)


# --- reading RDF ---


# (what is said of a resource comes together)
@lru_cache(1 << 10)
def list_owner(iri: str) -> str:
    """Returns the collection of which an IRI is a node of the list, or the resource about whose note it is a statement;
    another IRI itself."""
    return OF_ANOTHER.sub("", iri)


def places_of_triples(triples: Iterable[Triple]) -> Places[str]:
    """Returns the places of collections that triples state, by their IRIs. An array that is within another one below
    the same concept has its place by that one."""
    objects: dict[str, dict[str, list[Node]]] = defaultdict(lambda: defaultdict(list))
    wanted = {*ABOVE, *AROUND, RDF + "type", SKOS + "memberList", RDF + "first", RDF + "rest"}
    for subject, predicate, target in triples:
        if predicate in wanted:
            objects[predicate][subject].append(target)
    kinds = objects[RDF + "type"].items()
    collections = {subject for subject, found in kinds if any(it in COLLECTIONS for it in found)}
    collections |= {*objects[SKOS + "member"], *objects[SKOS + "memberList"]}
    named, outer = (
        {low: high for low, high in pairs_of(objects, properties) if low in collections}
        for properties in (ABOVE, AROUND)
    )
    orders = {
        subject: list_of(objects, first)
        for subject, firsts in objects[SKOS + "memberList"].items()
        for first in firsts
        if subject in collections
    }
    listed = {it: owner for owner, found in orders.items() for it in found if it in collections}
    outer = {**listed, **{low: high for low, high in outer.items() if high in collections}}
    named = {it: above for it, above in named.items() if named.get(outer.get(it, "")) != above}
    return Places(named, outer, orders)


def pairs_of(
    objects: Mapping[str, Mapping[str, Sequence[Node]]], properties: Mapping[str, bool]
) -> Iterator[tuple[str, str]]:
    """Yields the lower and the higher of two that a property of some joins."""
    for name, is_up in properties.items():
        for subject, found in objects[name].items():
            for it in found:
                if not isinstance(it, Literal):
                    yield (subject, it) if is_up else (it, subject)


def list_of(objects: Mapping[str, Mapping[str, Sequence[Node]]], first: Node) -> list[str]:
    """Returns what a list of RDF has, in its order."""
    found, met, node = list[str](), set(), str(first)
    while node not in met and (here := objects[RDF + "first"].get(node)):
        met.add(node)
        found += [] if isinstance(here[0], Literal) else [here[0]]
        node = str((objects[RDF + "rest"].get(node) or [Iri(RDF + "nil")])[0])
    return found


def number_places(places: Places[str], base: str) -> Places[int]:
    """Returns the places of collections by the numbers that end their IRIs."""

    def pairs(found: Mapping[str, str]) -> dict[int, int]:
        both = ((number_at(it, base), number_at(target, base)) for it, target in found.items())
        return {it: target for it, target in both if it is not None and target is not None}

    orders = {
        number: [other for it in found if (other := number_at(it, base))]
        for iri, found in places.orders.items()
        if (number := number_at(iri, base))
    }
    return Places(pairs(places.named), pairs(places.outer), orders)


def number_at(iri: str, base: str) -> int | None:
    """Returns the number that follows the base in an IRI, or None."""
    found = re.fullmatch("[1-9][0-9]{0,9}", iri.removeprefix(base)) if iri.startswith(base) else None
    return int(found[0]) if found else None


def triples_of_places(rows: Iterable[tuple[int, str, str]], triples: Iterable[Triple], base: str) -> Iterator[Triple]:
    """Yields what the values of collections are in RDF, beside the triples of an export: those say which members there
    are, and what became of a concept that has ended."""
    members: dict[int, list[int]] = defaultdict(list)
    ended: set[int] = set()
    replaced: dict[int, int] = {}
    for subject, predicate, target in triples:
        number = number_at(subject, base)
        other = number_at(target, base) if isinstance(target, Iri) else None
        if predicate == SKOS + "member" and number and other:
            members[number].append(other)
        elif predicate == OWL + "deprecated" and number:
            ended.add(number)
        elif predicate == DCTERMS + "isReplacedBy" and number and other:
            replaced[number] = other

    def final(number: int) -> int | None:
        while number in ended:
            if number not in replaced:
                return None
            number = replaced[number]
        return number

    places = places_of_values(rows, final)
    for number in sorted({*places.arrays, *places.inner, *places.outer, *places.named, *places.orders}):
        yield from place_triples(places, base, number, sorted(members[number]))
