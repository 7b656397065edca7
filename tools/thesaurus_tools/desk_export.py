"""A thesaurus as objects from the triples of a desk's export: with the values of fields, the places of collections, and
the types of hierarchical links."""
from __future__ import annotations

from collections import defaultdict
from collections.abc import Iterator, Mapping, Sequence

from thesaurus_tools.arrays import number_places, places_of_triples
from thesaurus_tools.export_store import ExportStore, number_of, store_of_export
from thesaurus_tools.fields import TERM_SOURCE, Field, code_of
from thesaurus_tools.kinds import BROADER
from thesaurus_tools.note_sources import note_sources
from thesaurus_tools.ntriples import Iri, Literal, Triple
from thesaurus_tools.public_values import term_sources
from thesaurus_tools.rdf_writer import ISO_THES
from thesaurus_tools.store import Link
from thesaurus_tools.values import FieldValue

# The types of hierarchical links at the narrower concept.
TYPES = {ISO_THES + it: it for it in BROADER[1:]}


def store_with_values(name: str, triples: Sequence[Triple], fields: Mapping[str, Field]) -> ExportStore:
    """Returns the thesaurus of an export, with all that its triples say of fields, of places and of types."""
    store = store_of_export(name, triples)
    found: dict[int, list[FieldValue]] = defaultdict(list)
    for it in field_values(triples, fields, store.base):
        found[int(it.owner)].append(it)
    store.fields, store.values_of = fields, found
    store.places = number_places(places_of_triples(triples), store.base)
    typed = set(typed_links(triples, store.base))
    store.links |= typed
    store.has_types = bool(typed)
    return store


def field_values(triples: Sequence[Triple], fields: Mapping[str, Field], base: str) -> Iterator[FieldValue]:
    """Yields the values of fields in an export, each with the source that a statement about it says."""
    sources = note_sources(triples)
    by_property = {it.property: it for it in fields.values() if it.property}
    for subject, *term in term_sources(sources) if TERM_SOURCE in fields else ():
        owner = number_of(subject, base)
        if owner is not None:
            yield FieldValue(owner, TERM_SOURCE, *term)
    for triple in triples:
        field, number = by_property.get(triple.predicate), number_of(triple.subject, base)
        if field is not None and number is not None:
            node = triple.object
            text = node if isinstance(node, Literal) else Literal(str(node))
            yield FieldValue(number, field.name, tag_of(field, text, base), text.text, sources.get(triple, ""))


def tag_of(field: Field, it: Literal, base: str) -> str:
    """Returns the language of a value, or its code."""
    return it.tag.lower() if field.tag == "language" else code_of(it.datatype, base) if field.tag == "code" else ""


def typed_links(triples: Sequence[Triple], base: str) -> Iterator[Link]:
    """Yields the typed links that triples state at the narrower concept."""
    for subject, predicate, node in triples:
        if predicate in TYPES and isinstance(node, Iri):
            low, high = number_of(subject, base), number_of(node, base)
            if low is not None and high is not None:
                yield Link(TYPES[predicate], low, high)
