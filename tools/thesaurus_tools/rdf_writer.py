"""Writes triples as Turtle, RDF/XML, JSON-LD or N-Triples: by subject, in an order that depends on nothing else."""
from __future__ import annotations

import json
import re
from collections import Counter
from collections.abc import Callable, Iterable, Iterator
from functools import lru_cache
from itertools import groupby
from xml.sax.saxutils import quoteattr

from thesaurus_tools.ntriples import DCTERMS, OWL, RDF, SKOS, XSD, Iri, Literal, Node, Triple
from thesaurus_tools.xml_texts import closing_comment, xml_text

ISO_THES = "http://purl.org/iso25964/skos-thes#"
PREFIXES = {"dct": DCTERMS, "iso-thes": ISO_THES, "owl": OWL, "rdf": RDF, "skos": SKOS, "xsd": XSD}
# The order of properties at a subject; those that aren't here follow by their names.
PROPERTIES = [
    RDF + "type",
    *(SKOS + it for it in ("inScheme", "topConceptOf", "hasTopConcept", "prefLabel", "altLabel", "hiddenLabel")),
    *(SKOS + it for it in ("notation", "definition", "scopeNote", "note", "example", "historyNote", "editorialNote")),
    SKOS + "changeNote",
    *(SKOS + it for it in ("broader", "narrower", "related", "member", "exactMatch", "closeMatch")),
    *(SKOS + it for it in ("broadMatch", "narrowMatch", "relatedMatch")),
    OWL + "deprecated",
    *(DCTERMS + it for it in ("isReplacedBy", "created", "modified", "creator")),
]
PLACES = {it: place for place, it in enumerate(PROPERTIES)}
ESCAPES = {ord(it): f"\\{name}" for it, name in zip('\t\b\n\r\f"\\', 'tbnrf"\\')} | {
    code: f"\\u{code:04X}" for code in (*range(8), 11, *range(14, 32), 127)
}
# The name of a property as XML has it, at the end of its IRI.
XML_NAME = re.compile(r"(?<=[#/])[A-Za-z_][A-Za-z0-9_.-]*$")
MADE_NAME = re.compile(r"[A-Za-z0-9_]([A-Za-z0-9_-]*[A-Za-z0-9_-])?")


# (an export names each resource many times)
@lru_cache(1 << 16)
def iri_order(iri: str) -> tuple[str, int, str]:
    """Returns the sort key of an IRI: by its beginning, and then by the number at its end."""
    start = iri.rstrip("0123456789")
    return start, int(iri[len(start) :] or 0), iri


def node_order(node: Node) -> tuple:
    """Returns the sort key of an object: texts by language, then IRIs."""
    return (0, node.tag, node.text) if isinstance(node, Literal) else (1, *iri_order(node))


def triple_order(triple: Triple) -> tuple:
    """Returns the sort key of a triple: by its subject, its property and its value."""
    place = PLACES.get(triple.predicate, len(PLACES))
    return iri_order(triple.subject), place, triple.predicate, node_order(triple.object)


def by_subject(triples: Iterable[Triple]) -> Iterator[tuple[str, list[tuple[Iri, list[Node]]]]]:
    """Yields each subject with its properties and their values, sorted."""
    for subject, group in groupby(sorted(set(triples), key=triple_order), lambda it: it.subject):
        yield subject, [
            (predicate, [it.object for it in same]) for predicate, same in groupby(group, lambda it: it.predicate)
        ]


def quote(text: str) -> str:
    """Returns a text in quotes, with the escapes of Turtle and N-Triples."""
    return f'"{text.translate(ESCAPES)}"'


class Names:
    """Shortens IRIs by prefixes, that of the thesaurus among them."""

    def __init__(self, base: str):
        self.prefixes = {**PREFIXES, **({"id": base} if base else {})}
        self.used: set[str] = set()

    def short(self, iri: str) -> str | None:
        """Returns an IRI with a prefix, or None if no prefix fits."""
        for name, start in self.prefixes.items():
            if iri.startswith(start) and MADE_NAME.fullmatch(iri[len(start) :]):
                self.used.add(name)
                return f"{name}:{iri[len(start):]}"
        return None


# --- N-Triples and Turtle ---


def ntriple(triple: Triple) -> str:
    """Returns a triple as a line of N-Triples, without its end."""
    return f"<{triple.subject}> <{triple.predicate}> {term(triple.object)} ."


def term(node: Node) -> str:
    """Returns a node in N-Triples."""
    if not isinstance(node, Literal):
        return f"<{node}>"
    return quote(node.text) + (f"@{node.tag}" if node.tag else f"^^<{node.datatype}>" if node.datatype else "")


def write_ntriples(triples: Iterable[Triple], base: str) -> Iterator[str]:
    """Yields the lines of N-Triples, sorted."""
    for it in sorted(set(triples), key=triple_order):
        yield ntriple(it) + "\n"


def write_turtle(triples: Iterable[Triple], base: str) -> Iterator[str]:
    """Yields the text of a Turtle document."""
    names = Names(base)
    parts = list(turtle_parts(triples, names))
    yield from prefix_lines(names, names.used)
    yield from parts


def prefix_lines(names: Names, used: Iterable[str]) -> Iterator[str]:
    """Yields the lines of Turtle that say what some prefixes stand for."""
    for name in sorted(used):
        yield f"@prefix {name}: <{names.prefixes[name]}> .\n"


def turtle_parts(triples: Iterable[Triple], names: Names) -> Iterator[str]:
    """Yields the part of a Turtle document for each subject."""

    def node_text(node: Node) -> str:
        if not isinstance(node, Literal):
            return names.short(node) or f"<{node}>"
        if node.datatype == XSD + "boolean":
            return node.text
        kind = f"^^{names.short(node.datatype) or f'<{node.datatype}>'}" if node.datatype else ""
        return quote(node.text) + (f"@{node.tag}" if node.tag else kind)

    for subject, properties in by_subject(triples):
        lines = []
        for predicate, nodes in properties:
            name = "a" if predicate == RDF + "type" else names.short(predicate) or f"<{predicate}>"
            lines.append(f"    {name} {', '.join(map(node_text, nodes))}")
        yield f"\n{names.short(subject) or f'<{subject}>'}\n" + " ;\n".join(lines) + " .\n"


# --- JSON-LD ---


def write_jsonld(triples: Iterable[Triple], base: str) -> Iterator[str]:
    """Yields the text of a JSON-LD document: a graph with a subject a line."""
    names = Names(base)

    def value(node: Node) -> str | dict[str, str]:
        if not isinstance(node, Literal):
            return {"@id": names.short(node) or node}
        if node.tag:
            return {"@language": node.tag, "@value": node.text}
        return (
            {"@type": names.short(node.datatype) or node.datatype, "@value": node.text} if node.datatype else node.text
        )

    lines = []
    for subject, properties in by_subject(triples):
        item: dict[str, object] = {"@id": names.short(subject) or subject}
        for predicate, nodes in properties:
            if predicate == RDF + "type":
                item["@type"] = [names.short(it) or it for it in nodes if not isinstance(it, Literal)]
            else:
                item[names.short(predicate) or predicate] = [value(it) for it in nodes]
        lines.append(json.dumps(item, ensure_ascii=False))
    context = json.dumps({it: names.prefixes[it] for it in sorted(names.used)}, ensure_ascii=False)
    yield f'{{"@context": {context},\n"@graph": [\n' + ",\n".join(lines) + "\n]}\n"


# --- RDF/XML ---


def write_rdfxml(triples: Iterable[Triple], base: str, lost: Counter[str] | None = None) -> Iterator[str]:
    """Yields the text of an RDF/XML document. `lost` counts the characters that XML doesn't have; a comment at the end
    tells them."""
    lost = Counter() if lost is None else lost
    groups = list(by_subject(triples))
    spaces = spaces_of({predicate for _, properties in groups for predicate, _ in properties})
    yield '<?xml version="1.0" encoding="utf-8"?>\n<rdf:RDF'
    yield "".join(f"\n    xmlns:{name}={quoteattr(start)}" for name, start in sorted(spaces.items())) + ">\n"
    for subject, properties in groups:
        yield f"  <rdf:Description rdf:about={quoteattr(subject)}>\n"
        for predicate, nodes in properties:
            prefix, start = next(it for it in spaces.items() if it[1] == split_property(predicate)[0])
            for node in nodes:
                yield f"    {element(f'{prefix}:{predicate.removeprefix(start)}', node, lost)}\n"
        yield "  </rdf:Description>\n"
    yield "</rdf:RDF>\n" + closing_comment(lost)


def split_property(iri: str) -> tuple[str, str]:
    """Returns the namespace and the name of a property. Raises ValueError for one that RDF/XML can't write."""
    found = XML_NAME.search(iri)
    if found is None:
        raise ValueError(f"{iri} doesn't end in a name after # or /")
    return iri[: found.start()], found[0]


def spaces_of(properties: Iterable[str]) -> dict[str, str]:
    """Returns the prefixes of all namespaces that a document needs, with made ones for those that have none."""
    spaces = {name: start for name, start in PREFIXES.items() if name != "xsd"}
    others = sorted({split_property(it)[0] for it in properties} - set(spaces.values()))
    return spaces | {f"ns{place}": it for place, it in enumerate(others, 1)}


def element(name: str, node: Node, lost: Counter[str]) -> str:
    """Returns a property with its value as an element of RDF/XML."""
    if not isinstance(node, Literal):
        return f"<{name} rdf:resource={quoteattr(node)}/>"
    kind = f" xml:lang={quoteattr(node.tag)}" if node.tag else f" rdf:datatype={quoteattr(node.datatype)}"
    return f"<{name}{kind if node.tag or node.datatype else ''}>{xml_text(node.text, lost)}</{name}>"


Writer = Callable[[Iterable[Triple], str], Iterator[str]]
WRITERS: dict[str, Writer] = {
    "turtle": write_turtle,
    "rdfxml": write_rdfxml,
    "jsonld": write_jsonld,
    "ntriples": write_ntriples,
}
