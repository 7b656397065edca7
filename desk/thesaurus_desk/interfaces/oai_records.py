"""What a record of OAI-PMH says of a concept: in Dublin Core, or in RDF."""
from __future__ import annotations

from dataclasses import dataclass
from xml.etree.ElementTree import Element, SubElement, fromstring, register_namespace

from thesaurus_desk.interfaces.source import Source
from thesaurus_tools.ntriples import RDF
from thesaurus_tools.rdf_writer import PREFIXES, write_rdfxml
from thesaurus_tools.xml_texts import NO_CHARACTERS

SCHEMA_INSTANCE = "http://www.w3.org/2001/XMLSchema-instance"
DC, OAI_DC = "http://purl.org/dc/elements/1.1/", "http://www.openarchives.org/OAI/2.0/oai_dc/"
XML_LANG = "{http://www.w3.org/XML/1998/namespace}lang"


@dataclass(frozen=True)
class Format:
    """A form of records: where its schema is, and its namespace."""

    schema: str
    space: str


FORMATS = {
    "oai_dc": Format("http://www.openarchives.org/OAI/2.0/oai_dc.xsd", OAI_DC),
    "rdf": Format("http://www.openarchives.org/OAI/2.0/rdf.xsd", RDF),
}
for _name, _space in {**PREFIXES, "xsi": SCHEMA_INSTANCE, "dc": DC, "oai_dc": OAI_DC}.items():
    register_namespace(_name, _space)


def plain(text: str) -> str:
    """Returns a text without the characters that XML doesn't have."""
    return NO_CHARACTERS.sub("", text)


def metadata(source: Source, number: int, prefix: str) -> Element:
    """Returns what a record says of a concept in a form."""
    return rdf_of(source, number) if prefix == "rdf" else dublin_core(source, number)


def rdf_of(source: Source, number: int) -> Element:
    """Returns the triples of a concept as RDF/XML."""
    return fromstring("".join(write_rdfxml(source.triples(number), source.replica().base)))


def dublin_core(source: Source, number: int) -> Element:
    """Returns a concept in the elements of Dublin Core: its terms, notes and notations, and what it is linked to."""
    root = Element(f"{{{OAI_DC}}}dc")
    root.set(f"{{{SCHEMA_INSTANCE}}}schemaLocation", f"{OAI_DC} {FORMATS['oai_dc'].schema}")
    replica = source.replica()
    view = replica.view(number)
    assert view is not None

    def add(name: str, text: str, tag: str = "") -> None:
        """Adds an element."""
        element = SubElement(root, f"{{{DC}}}{name}", {XML_LANG: tag} if tag else {})
        element.text = plain(text)

    for kind, name in (("pref", "title"), ("alt", "subject"), ("scope", "description")):
        for tag, text in view.terms(kind):
            add(name, text, tag)
    for it in source.values(number):
        if it.field.kind == "code":
            add("identifier", it.text)
        elif it.field.name == "source":
            add("source", it.text)
        elif it.field.tag == "language":
            add("description", it.text, it.tag)
    add("identifier", view.iri)
    add("type", "Concept")
    for other in (view.scheme, *view.broader, *view.narrower, *view.related, *(it for _, it in view.mappings)):
        if other is not None:
            add("relation", replica.iri(other))
    return root
