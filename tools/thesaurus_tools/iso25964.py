"""ISO 25964-1 in XML: a thesaurus with its concepts, terms, notes, arrays, groups and relationships, by the names that
the data model of the standard has for them.

`isHierRelConcept` is the narrower concept of a hierarchical relationship, `hasHierRelConcept` the broader one, and the
role says what that is to the other: BT, BTG (generic), BTP (partitive) or BTI (instantial). The model has no place for
mappings, for notes of arrays and groups, and for what is no longer in use: they aren't written."""
from __future__ import annotations

from collections import Counter
from collections.abc import Iterable, Sequence
from xml.etree import ElementTree
from xml.etree.ElementTree import Element

from thesaurus_tools.export_values import ExportFacts
from thesaurus_tools.fields import DATES, TERM_SOURCE
from thesaurus_tools.kinds import BROADER
from thesaurus_tools.ntriples import Literal
from thesaurus_tools.skos_xl import label_iri
from thesaurus_tools.store import Link, Resource, Store
from thesaurus_tools.term_dates import Dates, TermDates
from thesaurus_tools.values import FieldValue
from thesaurus_tools.xml_texts import document_of
from thesaurus_tools.zthes import XML_LANG

NAMESPACE = "http://iso25964.org/"
ROLES = dict(zip(BROADER, ("BT", "BTG", "BTP", "BTI")))
# What the notes are that the model names, by their fields; others are custom notes.
NOTES = {"definition": "Definition", "historyNote": "HistoryNote", "editorialNote": "EditorialNote"}
CUSTOM_NOTES = ("example", "generalNote", "changeNote")
# What of a scheme describes a thesaurus, by the fields of its values.
ABOUT = {"creator": "creator", "description": "description", "publisher": "publisher", "license": "rights"}
# What isn't an attribute of its own kind.
ELSEWHERE = (*NOTES, *CUSTOM_NOTES, *DATES, "notation", "status", TERM_SOURCE)


class Iso25964Writer:
    """Writes thesauri with some of their concepts. `facts` has dates and the version, `terms` the dates of terms.

    `lost` counts the characters that XML doesn't have."""

    def __init__(self, store: Store, facts: ExportFacts | None = None, terms: Dates | None = None) -> None:
        self.store, self.facts, self.terms = store, facts or ExportFacts(), terms or {}
        self.root = Element(f"{{{NAMESPACE}}}ISO25964Interchange")
        self.there: set[int] = set()
        self.lost: Counter[str] = Counter()

    def write(self, concepts: Sequence[Resource], is_whole: bool = True) -> bytes:
        """Returns the document. Of a part of a thesaurus it has the arrays below its concepts, and no groups."""
        living = [it for it in concepts if it.is_live]
        self.there = {it.number for it in living}
        for scheme in dict.fromkeys(it.scheme for it in living if it.scheme):
            self.add_thesaurus(scheme, [it.number for it in living if it.scheme == scheme], is_whole)
        ElementTree.register_namespace("", NAMESPACE)
        return document_of(self.root, self.lost)

    def add_thesaurus(self, scheme: int, numbers: Sequence[int], is_whole: bool) -> None:
        """Adds a thesaurus."""
        its = element(self.root, "Thesaurus")
        element(its, "identifier", self.iri(scheme))
        self.add_dates(its, scheme)
        for it in self.values(scheme, ABOUT):
            element(its, ABOUT[it.field], it.text, it.tag)
        for tag in sorted({it.tag for number in numbers for it in self.store.labels_of.get(number, ())}):
            element(its, "language", tag)
        titles = [(it.tag, it.text) for it in self.values(scheme, ("title",))] or self.labels(scheme, "pref")
        for tag, text in titles:
            element(its, "title", text, tag)
        if self.facts.version:
            version = element(its, "VersionHistory")
            element(version, "identifier", self.facts.version)
            element(version, "date", self.facts.day)
            element(version, "thisVersion", "true")
        for number in numbers:
            self.add_concept(its, number)
        collections = [it.number for it in sorted(self.store.resources.values()) if it.kind == "collection"]
        for number in [it for it in collections if self.store.resources[it].scheme == scheme]:
            if self.store.places.superordinate(number) in self.there:
                self.add_array(its, number)
            elif is_whole and self.store.places.superordinate(number) is None:
                self.add_group(its, number)
        self.add_relationships(its, set(numbers))

    # --- concepts ---

    def add_concept(self, thesaurus: Element, number: int) -> None:
        """Adds a concept with its notes and terms."""
        its = element(thesaurus, "ThesaurusConcept")
        element(its, "identifier", self.iri(number))
        self.add_dates(its, number)
        for name in ("status", "notation"):
            self.add_values(its, number, name)
        if not self.store.broader(number):
            element(its, "topConcept", "true")
        for tag, text in self.labels(number, "scope"):
            element(element(its, "ScopeNote"), "lexicalValue", text, tag)
        for it in self.store.values_of.get(number, ()):
            self.add_note(its, it)
        for tag, text in self.labels(number, "pref"):
            self.add_term(its, "PreferredTerm", number, (tag, text))
        for kind in ("alt", "hidden"):
            for tag, text in self.labels(number, kind):
                term = self.add_term(its, "SimpleNonPreferredTerm", number, (tag, text))
                element(term, "hidden", "true" if kind == "hidden" else "false")

    def add_note(self, concept: Element, it: FieldValue) -> None:
        """Adds a value of a concept: a note, or an attribute of a kind of the office's own."""
        if it.field in NOTES:
            note = element(concept, NOTES[it.field])
        elif it.field in CUSTOM_NOTES:
            note = element(concept, "CustomNote")
            note.set("noteType", it.field)
        elif it.field not in ELSEWHERE:
            note = element(concept, "CustomConceptAttribute")
            note.set("customAttributeType", it.field)
        else:
            return
        element(note, "lexicalValue", it.text, it.tag if self.store.fields[it.field].tag == "language" else "")
        element(note, "source", it.source)

    def add_term(self, concept: Element, name: str, number: int, term: tuple[str, str]) -> Element:
        """Adds a term of a concept, with its dates and its source."""
        (tag, text), its = term, element(concept, name)
        dates = self.terms.get(number, {}).get(term, TermDates())
        sources = [it.source for it in self.values(number, (TERM_SOURCE,)) if (it.tag, it.text) == term]
        element(its, "identifier", label_iri(self.iri(number), Literal(text, tag)))
        element(its, "lexicalValue", text, tag)
        for part, its_text in (("created", dates.created), ("modified", dates.modified), ("source", *sources, "")[:2]):
            element(its, part, its_text)
        return its

    # --- arrays and groups ---

    def add_array(self, thesaurus: Element, number: int) -> None:
        """Adds an array, with what is in it in its order."""
        places, its = self.store.places, element(thesaurus, "ThesaurusArray")
        element(its, "identifier", self.iri(number))
        element(its, "ordered", "true" if number in places.orders else "false")
        self.add_values(its, number, "notation")
        for tag, text in self.labels(number, "pref"):
            element(element(its, "NodeLabel"), "lexicalValue", text, tag)
        outer = places.outer.get(number)
        if outer is not None and places.superordinate(outer) is not None:
            element(its, "hasSuperOrdinateArray", self.iri(outer))
        else:
            element(its, "hasSuperOrdinateConcept", self.iri(places.superordinate(number) or 0))
        inner = places.inner.get(number, [])
        for it in places.in_order(number, [*inner, *self.members(number)]):
            element(its, "hasMemberArray" if it in inner else "hasMemberConcept", self.iri(it))

    def add_group(self, thesaurus: Element, number: int) -> None:
        """Adds a group, with what is in it in its order."""
        places, its = self.store.places, element(thesaurus, "ConceptGroup")
        element(its, "identifier", self.iri(number))
        element(its, "conceptGroupType", "collection")
        self.add_values(its, number, "notation")
        for tag, text in self.labels(number, "pref"):
            element(element(its, "ConceptGroupLabel"), "lexicalValue", text, tag)
        if (outer := places.outer.get(number)) is not None:
            element(its, "hasSuperGroup", self.iri(outer))
        inner = places.inner.get(number, [])
        for it in places.in_order(number, [*inner, *self.members(number)]):
            element(its, "hasSubGroup" if it in inner else "hasAsMember", self.iri(it))

    def members(self, number: int) -> list[int]:
        """Returns the members of a collection that are written."""
        return [
            it for it in self.store.others(number, ["member"], at_a=True) if isinstance(it, int) and it in self.there
        ]

    # --- relationships ---

    def add_relationships(self, thesaurus: Element, numbers: set[int]) -> None:
        """Adds the relationships between concepts that are written: a typed one in place of a plain one."""
        links = sorted((it for it in self.store.links if it.a in numbers and it.b in self.there), key=str)
        typed = {(it.a, it.b) for it in links if it.kind in BROADER[1:]}
        for it in links:
            if it.kind in BROADER[1:] or it.kind == BROADER[0] and (it.a, it.b) not in typed:
                self.relate(thesaurus, "HierarchicalRelationship", ("isHierRelConcept", "hasHierRelConcept"), it)
            elif it.kind == "related":
                self.relate(thesaurus, "AssociativeRelationship", ("isRelatedConcept", "hasRelatedConcept"), it)

    def relate(self, thesaurus: Element, name: str, ends: tuple[str, str], link: Link) -> None:
        """Adds a relationship."""
        its = element(thesaurus, name)
        for end, number in zip(ends, (link.a, link.b)):
            element(its, end, self.iri(number))
        element(its, "role", ROLES.get(link.kind, "RT"))

    # --- what the store has ---

    def iri(self, number: object) -> str:
        """Returns the identifier of a resource."""
        return f"{self.store.base}{number}"

    def labels(self, number: int, kind: str) -> list[tuple[str, str]]:
        """Returns the tags and texts of the labels of a kind."""
        return [(it.tag, it.text) for it in self.store.labels_of.get(number, ()) if it.kind == kind]

    def values(self, number: int, fields: Iterable[str]) -> list[FieldValue]:
        """Returns the values of some fields of a resource."""
        return [it for it in self.store.values_of.get(number, ()) if it.field in fields]

    def add_values(self, parent: Element, number: int, name: str) -> None:
        """Adds the values of a field as elements of its name; a notation says its code."""
        for it in self.values(number, (name,)):
            its = element(parent, name, it.text)
            if it.tag:
                its.set("notationType", it.tag)

    def add_dates(self, parent: Element, number: int) -> None:
        """Adds when a resource was made and last changed, as far as that is known."""
        for name, at in zip(("created", "modified"), self.facts.dates_of(number)):
            element(parent, name, at or "")


def element(parent: Element, name: str, text: str | None = None, tag: str = "") -> Element:
    """Adds an element, with a text that may have a language; none for an empty text."""
    its = Element(f"{{{NAMESPACE}}}{name}", {XML_LANG: tag} if tag else {})
    if text != "":
        parent.append(its)
    its.text = text
    return its
