"""The values of fields that everybody sees, and what they are in RDF."""
from __future__ import annotations

from collections.abc import Iterable, Iterator, Mapping
from typing import NamedTuple

from thesaurus_tools.fields import TERM_SOURCE, Field, node_of, source_node
from thesaurus_tools.note_sources import source_triples
from thesaurus_tools.kinds import LABEL_PROPERTIES
from thesaurus_tools.ntriples import SKOS, Iri, Literal, Triple

# The properties of terms.
OF_TERMS = frozenset(SKOS + name for name, kind in LABEL_PROPERTIES.items() if kind != "scope")


class PublicValue(NamedTuple):
    """A value of a field, with its language or code, and its source."""

    field: Field
    tag: str
    text: str
    source: str = ""


def value_triples(subject: Iri, it: PublicValue, base: str) -> Iterator[Triple]:
    """Yields what a value is in RDF, with its source; nothing, if its field isn't in RDF."""
    if it.field.property:
        triple = Triple(subject, Iri(it.field.property), node_of(it.field, it.tag, it.text, base))
        yield triple
        yield from source_triples(triple, source_node(it.source)) if it.source else ()


def term_source_triples(values: Iterable[PublicValue], labels: Iterable[Triple]) -> Iterator[Triple]:
    """Yields the statements about a resource's labels by which its terms have sources; of a term that it hasn't,
    nothing."""
    sources = {(it.tag, it.text): it.source for it in values if it.field.name == TERM_SOURCE}
    for it in labels if sources else ():
        if it.predicate in OF_TERMS and isinstance(it.object, Literal):
            if source := sources.get((it.object.tag.lower(), it.object.text)):
                yield from source_triples(it, source_node(source))


def term_sources(sources: Mapping[Triple, str]) -> Iterator[tuple[str, str, str, str]]:
    """Yields of the sources that statements say those of terms: the resource, the language, the term and the source."""
    for it, source in sources.items():
        if it.predicate in OF_TERMS and isinstance(it.object, Literal):
            yield it.subject, it.object.tag.lower(), it.object.text, source
