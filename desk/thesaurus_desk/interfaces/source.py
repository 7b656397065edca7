"""What the interfaces for other programs read, and the triples of a resource."""
from __future__ import annotations

import weakref
from collections.abc import Callable, Iterable, Iterator
from dataclasses import dataclass

from thesaurus_desk.store.model import Resource
from thesaurus_desk.store.replica import Replica
from thesaurus_tools.arrays import Places, no_places, place_triples
from thesaurus_tools.fields import Field, time_node
from thesaurus_tools.kinds import BROADER, CLASSES, LABEL_PROPERTIES, LINK_PROPERTIES, SYMMETRIC
from thesaurus_tools.ntriples import DCTERMS, OWL, RDF, SKOS, XSD, Iri, Literal, Node, Triple
from thesaurus_tools.public_values import PublicValue, term_source_triples, value_triples
from thesaurus_tools.rdf_writer import ISO_THES

CLASS_OF = {kind: name for name, kind in CLASSES.items()}
LABEL_OF = {kind: name for name, kind in LABEL_PROPERTIES.items()}
TYPES = BROADER[1:]
MATCH_OF = {kind: name for name, kind in LINK_PROPERTIES.items()}


def no_dates(number: int) -> tuple[str | None, str | None]:
    """Returns that nothing is known of when a resource was made and changed."""
    return None, None


@dataclass(frozen=True)
class Changes:
    """What is known of changes; by default none.

    `since` and `after` return the resources that were changed at a time or later, or by plans after one, with the time
    of their last change; `last` returns the last plan before which none is under way any more."""

    since: Callable[[str], list[tuple[int, str]]] = lambda time: []
    after: Callable[[int], list[tuple[int, str]]] = lambda plan: []
    last: Callable[[], int] = lambda: 0


def no_edition() -> tuple[str, str]:
    """Returns that the thesaurus has no version and no day of its own."""
    return "", ""


def no_values(number: int) -> Iterable[PublicValue]:
    """Returns that a resource has no values of fields."""
    return ()


def no_fields() -> Iterable[Field]:
    """Returns that there are no fields of values."""
    return ()


@dataclass(frozen=True)
class Source:
    """A thesaurus that other programs may ask."""

    # (a desk that starts again has another replica)
    replica: Callable[[], Replica]
    # When a resource was made and last changed, as far as that is known.
    dates: Callable[[int], tuple[str | None, str | None]] = no_dates
    changes: Changes = Changes()
    # The public values of fields of a resource.
    values: Callable[[int], Iterable[PublicValue]] = no_values
    # Where collections are in the hierarchy.
    places: Callable[[], Places[int]] = no_places
    # Which version this is, and its day: that of a release, or of the last one.
    edition: Callable[[], tuple[str, str]] = no_edition
    # The fields that everybody sees.
    fields: Callable[[], Iterable[Field]] = no_fields
    # The path of the page of a resource, if there are pages.
    page: Callable[[int], str] | None = None
    title: str = ""

    def name(self) -> str:
        """Returns what the thesaurus is called: its title, or the terms of its schemes."""
        replica = self.replica()
        schemes = replica.numbers("scheme")
        return self.title or " · ".join(replica.term(it, replica.languages())[1] for it in schemes) or "Thesaurus"

    def version(self) -> tuple[object, int, int]:
        """Returns what is another value after each change, and with another replica."""
        replica = self.replica()
        return weakref.ref(replica), replica.version, self.changes.last()

    def number_of(self, name: str) -> int | None:
        """Returns the number of the own resource that an IRI or a number names, or None.

        An address elsewhere, as one that a concept had before it came here, names the concept that has it as its exact
        match, if there is one."""
        replica = self.replica()
        if name.isascii() and name.isdigit() and len(name) < 11:
            return int(name) if replica.kind(int(name)) not in (None, "outside") else None
        found = replica.by_iri(name)
        view = replica.view(found) if found is not None else None
        if view is None or view.kind != "outside":
            return found
        same = [other for kind, other in view.mappings if kind == "exact"]
        return same[0] if len(same) == 1 else None

    def notation(self, number: int) -> str:
        """Returns the first notation of a resource, of whatever code; nothing if it has none."""
        return next((it.text for it in self.values(number) if it.field.kind == "code"), "")

    def triples(self, number: int) -> list[Triple]:
        """Returns the triples whose subject is a resource: those of the export, its values, its place and its dates;
        and those of the list of its members, if they have an order."""
        replica = self.replica()
        with replica.reading():
            it = replica.get(number)
            subject = Iri(replica.iri(number))
            found = [Triple(subject, Iri(name), node) for name, node in properties(replica, it)] if it else []
            found += place_triples(self.places(), replica.base, number, sorted(it.members)) if it else []
        values = list(self.values(number))
        found += term_source_triples(values, list(found))
        found += [triple for it in values for triple in value_triples(subject, it, replica.base)]
        if it is not None and it.kind == "scheme":
            found += version_triples(subject, *self.edition())
        for name, at in zip(("created", "modified"), self.dates(number)):
            if at:
                found.append(Triple(subject, Iri(DCTERMS + name), time_node(at)))
        return found


def version_triples(scheme: Iri, name: str, day: str) -> list[Triple]:
    """Returns the triples that say which version of a scheme this is, and of which day."""
    version = [Triple(scheme, Iri(OWL + "versionInfo"), Literal(name))] if name else []
    return [*version, *([Triple(scheme, Iri(DCTERMS + "issued"), Literal(day, "", XSD + "date"))] if day else [])]


def properties(replica: Replica, it: Resource) -> Iterator[tuple[str, Node]]:
    """Yields the properties of a resource as the program's export has them, and the types of its hierarchical links."""
    yield RDF + "type", Iri(SKOS + CLASS_OF[it.kind])
    for kind, tag, text in it.labels:
        yield SKOS + LABEL_OF[kind], Literal(text, tag)
    if it.scheme is not None:
        yield SKOS + "inScheme", Iri(replica.iri(it.scheme))
        if it.kind == "concept" and it.is_live and not it.broader:
            yield SKOS + "topConceptOf", Iri(replica.iri(it.scheme))
    for other in replica.tops(it.number) if it.kind == "scheme" else ():
        yield SKOS + "hasTopConcept", Iri(replica.iri(other))
    for name, others in (("broader", it.broader), ("narrower", it.narrower), ("related", it.related)):
        yield from ((SKOS + name, Iri(replica.iri(other))) for other in others)
    for name, typed in (("broader", it.broader), ("narrower", it.narrower)):
        for other, kinds in typed.items():
            for kind in sorted(kinds):
                if kind in TYPES:
                    yield ISO_THES + kind.replace("broader", name), Iri(replica.iri(other))
    yield from ((SKOS + "member", Iri(replica.iri(other))) for other in it.members)
    for link in it.matches:
        # A symmetric match is stated at both ends, a broader or narrower one where it was made.
        if link.a == it.number:
            yield SKOS + MATCH_OF[link.kind], Iri(replica.iri(link.b))
        elif link.kind in SYMMETRIC:
            yield SKOS + MATCH_OF[link.kind], Iri(replica.iri(link.a))
    if it.kind == "concept" and not it.is_live:
        yield OWL + "deprecated", Literal("true", "", XSD + "boolean")
        if it.replaced is not None:
            yield DCTERMS + "isReplacedBy", Iri(replica.iri(it.replaced))
