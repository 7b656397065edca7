"""What an export says of its resources beside the vocabulary: the values of fields, when they were made and changed,
and which version it is."""
from __future__ import annotations

import re
from collections import defaultdict
from collections.abc import Iterator, Sequence
from dataclasses import dataclass, field

from thesaurus_tools.arrays import ABOVE, AROUND, number_at
from thesaurus_tools.fields import BY_PROPERTY, STANDARD, TERM_SOURCE, TIME, Field, code_of, node_of, time_node
from thesaurus_tools.kinds import BROADER, LABEL_PROPERTIES, LINK_PROPERTIES
from thesaurus_tools.note_sources import note_sources
from thesaurus_tools.ntriples import DCTERMS, OWL, RDF, SKOS, XSD, Blank, Iri, Literal, Node, Triple
from thesaurus_tools.public_values import PublicValue, term_sources
from thesaurus_tools.rdf_writer import ISO_THES

# What is no value of a field: labels, links, places, and what became of a resource.
OF_VOCABULARY = {
    *(SKOS + it for it in (*LABEL_PROPERTIES, *LINK_PROPERTIES, "memberList")),
    *(SKOS + it for it in ("narrower", "inScheme", "topConceptOf", "hasTopConcept")),
    *(ISO_THES + it for it in (*BROADER[1:], *(it.replace("broader", "narrower") for it in BROADER[1:]))),
    *(RDF + it for it in ("type", "first", "rest")),
    *(OWL + "deprecated", DCTERMS + "isReplacedBy"),
    *ABOVE,
    *AROUND,
}
DATES = {DCTERMS + "created": "created", DCTERMS + "modified": "modified"}
VERSION, DAY = OWL + "versionInfo", DCTERMS + "issued"


@dataclass
class ExportFacts:
    """What an export says: fields by their names, the values of each resource, its dates, and the version and its
    day."""

    fields: dict[str, Field] = field(default_factory=dict)
    values: dict[int, list[PublicValue]] = field(default_factory=lambda: defaultdict(list))
    dates: dict[int, dict[str, str]] = field(default_factory=lambda: defaultdict(dict))
    version: str = ""
    day: str = ""

    def dates_of(self, number: int) -> tuple[str | None, str | None]:
        """Returns when a resource was made and last changed, as far as the export says so."""
        its = self.dates.get(number, {})
        return its.get("created"), its.get("modified")

    def changed_since(self, time: str) -> list[tuple[int, str]]:
        """Returns the resources that were changed at a time or later, with the time, the last first."""
        changed = [(number, its["modified"]) for number, its in self.dates.items() if its.get("modified", "") >= time]
        return sorted((it for it in changed if it[1]), key=lambda it: (it[1], -it[0]), reverse=True)

    def take(self, number: int, triple: Triple, base: str, source: str) -> None:
        """Takes up what is said of a resource, with the source of a note or a term."""
        _, predicate, node = triple
        for _, tag, text, _ in term_sources({triple: source}) if source else ():
            self.values[number].append(PublicValue(STANDARD[TERM_SOURCE], tag, text, source))
        if predicate in OF_VOCABULARY or isinstance(node, Blank):
            return
        if predicate in DATES and is_time(node):
            self.dates[number][DATES[predicate]] = node[0]
        elif predicate == VERSION and node == Literal(node[0]):
            self.version = node[0]
        elif predicate == DAY and node == Literal(node[0], "", XSD + "date"):
            self.day = node[0]
        else:
            self.values[number].append(self.value_of(predicate, node, base)._replace(source=source))

    def value_of(self, predicate: str, node: Node, base: str) -> PublicValue:
        """Returns a value that is the same node in RDF: of the field that each desk has, or of one made for the
        property."""
        known = BY_PROPERTY.get(predicate)
        for it in forms_of(known, node, base) if known else ():
            return it
        made = new_field(self.name_of(predicate), predicate, node)
        (value,) = forms_of(made, node, base)
        self.fields.setdefault(made.name, made)
        return value

    def name_of(self, predicate: str) -> str:
        """Returns the name for the field of a property: its last part, unless that is the name of another one's."""
        short = re.split("[#/]", predicate.rstrip("#/"))[-1]
        taken = self.fields.get(short) or STANDARD.get(short)
        return short if taken is None or taken.property == predicate else predicate


def is_time(node: Node) -> bool:
    """Whether a node is a date, perhaps with the time of day."""
    return isinstance(node, Literal) and TIME.fullmatch(node.text) is not None and time_node(node.text) == node


def new_field(name: str, predicate: str, node: Node) -> Field:
    """Returns a field for a property whose values are like a node."""
    if isinstance(node, Iri):
        return Field(name, "link", property=predicate, is_own=True)
    tag = "language" if isinstance(node, Literal) and node.tag else "code"
    return Field(name, tag=tag, property=predicate, is_own=True)


def forms_of(field: Field, node: Node, base: str) -> Iterator[PublicValue]:
    """Yields a node as a value of a field, if the field has it as the same node."""
    text, tag = str(node), ""
    if isinstance(node, Literal):
        text, tag = node.text, node.tag if field.tag == "language" else ""
        tag = code_of(node.datatype, base) if field.tag == "code" else tag
    if (field.kind != "date" or len(text) in (4, 7, 10)) and node_of(field, tag, text, base) == node:
        yield PublicValue(field, tag, text)


def read_facts(triples: Sequence[Triple], base: str) -> ExportFacts:
    """Returns what an export says of its resources."""
    found, sources = ExportFacts(), note_sources(triples)
    for it in triples:
        if (number := number_at(it.subject, base)) is not None:
            found.take(number, it, base, sources.get(it, ""))
    return found
