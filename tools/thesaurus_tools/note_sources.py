"""The sources of notes in RDF: a note is a text, and a statement about it (rdf:Statement) has its source."""
from __future__ import annotations

import hashlib
from collections.abc import Iterable, Iterator, Mapping, Sequence

from thesaurus_tools.ntriples import DCTERMS, RDF, Iri, Literal, Node, Triple

STATEMENT, SUBJECT, PREDICATE, OBJECT = (RDF + it for it in ("Statement", "subject", "predicate", "object"))
SOURCE = DCTERMS + "source"
# What a statement has, and nothing else.
OF_STATEMENT = {RDF + "type", SUBJECT, PREDICATE, OBJECT, SOURCE}
# What follows the IRI of a resource in those of the statements about its notes.
NODE = "#source-"
# What a resource has: nodes by properties, and properties by subjects.
Properties = Mapping[str, Sequence[Node]]


def source_triples(note: Triple, source: Node) -> Iterator[Triple]:
    """Yields what says which source a note has. The statement's IRI depends on the note alone, so that exports can be
    compared line by line."""
    node = statement_iri(note)
    yield Triple(node, Iri(RDF + "type"), Iri(STATEMENT))
    yield from (Triple(node, Iri(name), it) for name, it in zip((SUBJECT, PREDICATE, OBJECT), note))
    yield Triple(node, Iri(SOURCE), source)


def statement_iri(note: Triple) -> Iri:
    """Returns the IRI of the statement about a note."""
    named = hashlib.blake2b("\n".join((note.predicate, *note.object)).encode(), digest_size=6).hexdigest()
    return Iri(f"{note.subject}{NODE}{named}")


def sources_of(values: Mapping[str, Properties]) -> dict[Triple, str]:
    """Returns the sources of notes that statements say."""
    return {note: source for its in values.values() for note, source in note_statements(its)}


def note_statements(its: Properties) -> Iterator[tuple[Triple, str]]:
    """Yields the note that a resource is a statement about, and its source; nothing, if it is none."""
    parts = [its.get(name, ()) for name in (SUBJECT, PREDICATE, OBJECT, SOURCE)]
    if STATEMENT in its.get(RDF + "type", ()) and all(len(it) == 1 for it in parts):
        (subject,), (predicate,), (note,), (source,) = parts
        yield Triple(Iri(subject), Iri(predicate), note), source.text if isinstance(source, Literal) else str(source)


def note_sources(triples: Iterable[Triple]) -> dict[Triple, str]:
    """Returns the sources of notes that triples say."""
    values: dict[str, dict[str, list[Node]]] = {}
    for subject, predicate, node in triples:
        if predicate in OF_STATEMENT:
            values.setdefault(subject, {}).setdefault(predicate, []).append(node)
    return sources_of(values)
