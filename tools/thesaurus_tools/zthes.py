"""Zthes 1.0, the XML of terms and their relations: written of concepts, and read as SKOS.

A concept is a term in one language, with a term of its own for each other language (LE) and for each non-preferred
label (USE). What Zthes has no word for (collections, mappings, hidden labels, types of broader terms) isn't written."""
from __future__ import annotations

import hashlib
import re
from collections import Counter
from collections.abc import Iterator, Sequence
from dataclasses import dataclass, field
from urllib.parse import quote
from xml.etree import ElementTree
from xml.etree.ElementTree import Element, SubElement

from thesaurus_tools.command_line import REFUSED, ToolError
from thesaurus_tools.fields import TERM_SOURCE
from thesaurus_tools.ntriples import DCTERMS, RDF, SKOS, Iri, Literal, Node, Triple
from thesaurus_tools.parse_places import place_in, text_of_place
from thesaurus_tools.rdf_writer import ISO_THES
from thesaurus_tools.store import Resource, Store
from thesaurus_tools.xml_texts import document_of

DC = "http://purl.org/dc/elements/1.1/"
XML_LANG = "{http://www.w3.org/XML/1998/namespace}lang"
# What the IRIs of terms that are read begin with, and those of what isn't understood.
BASE, UNKNOWN = "urn:zthes:", "http://zthes.z3950.org/xml/1.0/#"
# The relations to other concepts; typed ones are ISO 25964's.
RELATIONS = {
    "BT": SKOS + "broader", "NT": SKOS + "narrower", "RT": SKOS + "related",
    **{f"BT{it[0]}": f"{ISO_THES}broader{it}" for it in ("Generic", "Partitive", "Instantial")},
    **{f"NT{it[0]}": f"{ISO_THES}narrower{it}" for it in ("Generic", "Partitive", "Instantial")},
}  # fmt: skip
# What a note is by its label, without case: as Zthes names it, and as programs abbreviate it.
NOTES = {
    **dict.fromkeys(("", "scope", "scope note", "sn", "na"), "scopeNote"),
    **dict.fromkeys(("definition", "def"), "definition"),
    **dict.fromkeys(("example", "ex"), "example"),
    **dict.fromkeys(("history", "historynote", "hn"), "historyNote"),
    **dict.fromkeys(("editorial", "editorialnote", "en"), "editorialNote"),
    **dict.fromkeys(("changenote",), "changeNote"),
    "notation": "notation",
}
HEAD = re.compile(rb"<(?:\w+:)?zthes[\s>]", re.IGNORECASE)
# In how many bytes at the beginning of a document this element is looked for.
HEAD_BYTES = 4096
DATES = {"termCreatedDate": "created", "termModifiedDate": "modified"}
KNOWN = {"termId", "termName", "termType", "termLanguage", "termNote", "relation", *DATES}


# --- writing ---


class ZthesWriter:
    """Writes concepts as terms; each has its name in the first of some languages that it has.

    `lost` counts the characters that XML doesn't have."""

    def __init__(self, store: Store, langs: Sequence[str]) -> None:
        self.store, self.langs = store, langs
        self.root = Element("Zthes")
        self.lost: Counter[str] = Counter()

    def write(self, concepts: Sequence[Resource], title: str) -> bytes:
        """Returns the document."""
        about = SubElement(self.root, "thes")
        SubElement(about, f"{{{DC}}}title").text = title
        self.there = {it.number for it in concepts if it.is_live}
        for it in concepts:
            if it.is_live:
                self.add_concept(it.number)
        ElementTree.register_namespace("dc", DC)
        return document_of(self.root, self.lost)

    def terms(self, number: int, kind: str) -> list[tuple[str, str]]:
        """Returns the tags and texts of the labels of a kind."""
        return [(it.tag, it.text) for it in self.store.labels_of.get(number, ()) if it.kind == kind]

    def name(self, number: int) -> tuple[str, str]:
        """Returns the language and the text of a concept's own term."""
        terms = dict(self.terms(number, "pref"))
        tag = next((it for it in (*self.langs, *sorted(terms)) if it in terms), "")
        return tag, terms.get(tag) or self.store.term(number, self.langs)

    def term_id(self, number: int, tag: str) -> str:
        """Returns the identifier of a concept's term in a language."""
        return str(number) if tag == self.name(number)[0] else f"{number}-{tag}"

    def add_concept(self, number: int) -> None:
        """Adds the terms of a concept: its own, those of other languages, and the non-preferred ones."""
        main, text = self.name(number)
        kind = "PT" if self.store.broader(number) else "TT"
        equivalents = {tag: its for tag, its in self.terms(number, "pref") if tag != main}
        term = self.add_term(str(number), text, kind, main)
        self.add_notes(term, number)
        self.relate_all(term, number)
        added = {main: term}
        for tag, its in equivalents.items():
            add_relation(term, "LE", f"{number}-{tag}", its)
            added[tag] = self.add_term(f"{number}-{tag}", its, kind, tag)
            add_relation(added[tag], "LE", str(number), text)
        for tag, its in self.terms(number, "alt"):
            used = tag if tag in added else main
            name = unused_id(number, tag, its)
            add_relation(added[used], "UF", name, its)
            unused = self.add_term(name, its, "ND", tag)
            add_relation(unused, "USE", self.term_id(number, used), equivalents.get(used, text))

    def relate_all(self, term: Element, number: int) -> None:
        """Adds the relations of a concept to others."""
        for high in self.store.broader(number):
            self.relate(term, "BT", high)
        for low in self.store.narrower(number):
            self.relate(term, "NT", low)
        for other in self.store.others(number, ["related"], at_a=True, at_b=True):
            self.relate(term, "RT", other)

    def add_term(self, name: str, text: str, kind: str, tag: str) -> Element:
        """Adds a term."""
        term = SubElement(self.root, "term")
        for element, value in (("termId", name), ("termName", text), ("termType", kind), ("termLanguage", tag)):
            SubElement(term, element).text = value
        return term

    def add_notes(self, term: Element, number: int) -> None:
        """Adds the notes and the notations of a concept."""
        found = [("scope", tag, text) for tag, text in self.terms(number, "scope")]
        held = [it for it in self.store.values_of.get(number, ()) if it.field != TERM_SOURCE]
        values = ((self.store.fields[it.field], it) for it in held)
        found += [("notation" if field.kind == "code" else field.name, it.tag, it.text) for field, it in values]
        for label, tag, text in found:
            lang = {XML_LANG: tag} if label != "notation" and tag else {}
            note = SubElement(term, "termNote", {"label": label, **lang})
            note.text = text

    def relate(self, term: Element, relation: str, other: object) -> None:
        """Adds a relation to another concept, if it is among those that are written."""
        if isinstance(other, int) and other in self.there:
            add_relation(term, relation, str(other), self.name(other)[1])


def unused_id(number: int, tag: str, text: str) -> str:
    """Returns the identifier of a non-preferred term."""
    return f"{number}-{tag}-{hashlib.blake2b(text.encode(), digest_size=6).hexdigest()}"


def add_relation(term: Element, kind: str, name: str, text: str) -> None:
    """Adds a relation to a term."""
    relation = SubElement(term, "relation")
    for element, value in (("relationType", kind), ("termId", name), ("termName", text)):
        SubElement(relation, element).text = value


# --- reading ---


def is_zthes(beginning: bytes) -> bool:
    """Whether a document is of Zthes, by its first element."""
    return HEAD.search(beginning) is not None


@dataclass
class Term:
    """A term as it is read: its identifier, name, type, language, and what else there is of it."""

    name: str
    text: str
    kind: str
    tag: str
    relations: list[tuple[str, str]] = field(default_factory=list)
    # Names of elements, labels of notes, languages and texts.
    others: list[tuple[str, str, str, str]] = field(default_factory=list)


def zthes_triples(name: str, data: bytes) -> Iterator[Triple]:
    """Yields the triples of SKOS that a document says; what SKOS has no word for has the name of its element. Raises
    ToolError."""
    if b"<!ENTITY" in data:
        raise ToolError(f"{name}: it declares entities", REFUSED)
    try:
        root = ElementTree.fromstring(data)
    except ElementTree.ParseError as error:
        raise ToolError(f"{name}{text_of_place(place_in(str(error)))}", REFUSED) from None
    terms = {it.name: it for it in map(read_term, (it for it in root if local(it) == "term")) if it.name}
    title = next((it.text for it in root.iter(f"{{{DC}}}title") if it.text), "")
    yield from Terms(terms, title.strip()).triples()


def local(it: Element) -> str:
    """Returns the name of an element without its namespace."""
    return it.tag.rpartition("}")[2]


def text_at(it: Element, name: str) -> str:
    """Returns the text of the first element of a name within another one."""
    return next(((found.text or "").strip() for found in it if local(found) == name), "")


def read_term(it: Element) -> Term:
    """Reads a term."""
    kind = text_at(it, "termType").upper() or "PT"
    term = Term(text_at(it, "termId"), text_at(it, "termName"), kind, text_at(it, "termLanguage").lower())
    for child in it:
        if local(child) == "relation":
            term.relations.append((text_at(child, "relationType").upper(), text_at(child, "termId")))
        elif local(child) in ("termNote", *DATES) or local(child) not in KNOWN:
            tag = child.get(XML_LANG) or term.tag
            term.others.append((local(child), child.get("label", ""), tag, (child.text or "").strip()))
    return term


def iri_of(name: str) -> Iri:
    """Returns the IRI of a term: its identifier, if that is one."""
    return Iri(name if re.fullmatch(r"[a-z][a-z0-9+.-]*://[^\s<>\"{}|\\^`]+", name) else BASE + quote(name, safe=""))


class Terms:
    """The terms of a document: those that are equivalent in several languages are one concept."""

    def __init__(self, terms: dict[str, Term], title: str) -> None:
        self.terms, self.title = terms, title
        self.first: dict[str, str] = {}
        for name, it in terms.items():
            if it.kind not in ("ND", "NL") and name not in self.first:
                self.join(name)

    def join(self, name: str) -> None:
        """Makes a term and its equivalents one concept, that of the first of them."""
        waiting = [name]
        while waiting:
            it = waiting.pop()
            if it in self.terms and it not in self.first:
                self.first[it] = name
                waiting += [other for kind, other in self.terms[it].relations if kind == "LE"]

    def triples(self) -> Iterator[Triple]:
        """Yields what the terms say."""
        scheme = Iri(f"{BASE}thes")
        if self.title:
            yield Triple(scheme, Iri(RDF + "type"), Iri(SKOS + "ConceptScheme"))
            yield Triple(scheme, Iri(DCTERMS + "title"), Literal(self.title))
        for name, it in self.terms.items():
            if name in self.first:
                subject = iri_of(self.first[name])
                yield Triple(subject, Iri(SKOS + "prefLabel"), Literal(it.text, it.tag))
                if self.first[name] == name:
                    yield Triple(subject, Iri(RDF + "type"), Iri(SKOS + "Concept"))
                    yield from [Triple(subject, Iri(SKOS + "inScheme"), scheme)] if self.title else []
            else:
                subject, label = self.unused(it)
                yield label
            yield from self.relations(subject, it)
            yield from (Triple(subject, *other_property(other)) for other in it.others)

    def unused(self, it: Term) -> tuple[Iri, Triple]:
        """Returns the IRI of the concept to use in place of a non-preferred term, and that as its label."""
        used = next((other for kind, other in it.relations if kind == "USE" and other in self.first), "")
        subject = iri_of(self.first[used] if used else it.name)
        name = SKOS + "altLabel" if used and it.kind == "ND" else f"{UNKNOWN}term-{it.kind}"
        return subject, Triple(subject, Iri(name), Literal(it.text, it.tag))

    def relations(self, subject: Iri, it: Term) -> Iterator[Triple]:
        """Yields the relations of a term to other concepts; those between terms of one are in their labels."""
        for kind, other in it.relations:
            if kind in RELATIONS and other in self.first:
                yield Triple(subject, Iri(RELATIONS[kind]), iri_of(self.first[other]))
            elif kind not in ("USE", "UF", "LE"):
                yield Triple(subject, Iri(f"{UNKNOWN}relation-{quote(kind)}"), Literal(other))


def other_property(it: tuple[str, str, str, str]) -> tuple[Iri, Node]:
    """Returns the property of something else that a term has, and its value."""
    name, label, tag, text = it
    if name in DATES:
        return Iri(DCTERMS + DATES[name]), Literal(text)
    note = NOTES.get(label.strip().lower()) if name == "termNote" else None
    if note:
        return Iri(SKOS + note), Literal(text, "" if note == "notation" else tag)
    return Iri(f"{UNKNOWN}{name}{f'-{quote(label)}' if label else ''}"), Literal(text, tag)
