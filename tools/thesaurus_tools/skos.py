"""Reads a vocabulary of SKOS from triples, and notes what is lost."""
from __future__ import annotations

import argparse
import re
from collections import defaultdict
from collections.abc import Iterator, Mapping
from typing import Any

from thesaurus_tools.arrays import ABOVE, AROUND, places_of_triples
from thesaurus_tools.fields import DATES, DESCRIPTION, MAYBE_IRI, ORDER, STANDARD, SUPERORDINATE
from thesaurus_tools.fields import TERM_SOURCE, Field, code_of, has_form, tidy
from thesaurus_tools.fields import WITHIN as WITHIN_FIELD
from thesaurus_tools.kinds import BROADER, LABEL_PROPERTIES
from thesaurus_tools.link_rules import OUTSIDE
from thesaurus_tools.mads import mads_name
from thesaurus_tools.note_sources import OF_STATEMENT, sources_of, note_statements
from thesaurus_tools.public_values import term_sources
from thesaurus_tools.ntriples import DCTERMS, OWL, RDF, SKOS, Blank, Iri, Literal, Triple
from thesaurus_tools.skos_kinds import (
    DC_ELEMENTS,
    ISO_THES,
    KINDS,
    LINKS,
    MAPPING,
    RDFS_LABEL,
    TITLES,
    WITHIN,
    Values,
    kinds_of,
    outside_concepts,
    outside_schemes,
    triples_of,
)
from thesaurus_tools.skos_xl import plain_labels
from thesaurus_tools.vocabulary import FieldValue, Resource, Vocabulary, by_numbers

LABELS = {SKOS + name: kind for name, kind in LABEL_PROPERTIES.items()}
# The kinds of values that are any text: what is wrong with one is a finding of its own.
FREE = ("text", "line", "code")
OPPOSITE = {"broad": "narrow", "narrow": "broad"}
TRANSITIVE = {SKOS + "broaderTransitive": False, SKOS + "narrowerTransitive": True}


def short(iri: str) -> str:
    """Returns the last part of an IRI."""
    return re.split(r"[#/:]", iri.rstrip("#/"))[-1]


def property_name(iri: str) -> str:
    """Returns what reports call a property: by its name one of SKOS, with its prefix one of MADS/RDF, else its IRI."""
    return mads_name(iri) or (short(iri) if iri.startswith((SKOS, ISO_THES)) else iri)


def values_of(triples: set[Triple]) -> Values:
    """The objects of triples by their subjects and predicates, in an order that doesn't depend on that of the set."""
    found: Values = defaultdict(lambda: defaultdict(list))
    for subject, predicate, node in plain_labels(triples):
        found[subject][predicate].append(node)
    for name, properties in found.items():
        found[name] = defaultdict(list, sorted(properties.items()))
        for nodes in properties.values():
            nodes.sort(
                key=lambda it: (isinstance(it, Literal), by_numbers(it[0] if isinstance(it, Literal) else it), it)
            )
    return found


class SkosReader:
    """Makes a vocabulary of the values of triples, and notes what is lost."""

    def __init__(
        self,
        values: Values,
        given: argparse.Namespace,
        names: Mapping[str, str],
        fields: Mapping[str, Field] = STANDARD,
    ):
        self.given, self.values = given, values
        self.vocabulary = Vocabulary(given.texts, adopts=given.adopt, second=given.second, fields=fields)
        # (older programs describe a scheme by the first names of Dublin Core)
        self.fields = {DC_ELEMENTS + name: fields[name] for name in DESCRIPTION if name != "license"}
        self.fields |= {it.property: it for it in fields.values() if it.property and not it.is_retired}
        self.fields |= {DCTERMS + name: fields[name] for name in DATES}
        self.sources = sources_of(values)
        self.subjects = sorted(values, key=by_numbers)
        stubs = outside_concepts(values)
        self.outside = stubs | outside_schemes(values, stubs)
        # What reports call what is no resource of the thesaurus, as a label that is a resource.
        self.vocabulary.terms.update(names)
        # Notes that are resources, and whose they are.
        self.notes: dict[str, str] = {}
        self.places = places_of_triples(Triple(Iri(a), Iri(b), it) for a, b, it in triples_of(values))
        self.is_title_label: set[str] = set()
        self.has_resources = False

    def lose(self, resource: str, key: str, **values: str) -> None:
        self.vocabulary.find("lost", resource, key, **values)

    def lose_triple(self, subject: str, predicate: str, node: Any) -> None:
        """Notes a triple as lost; a class of MADS/RDF by its own name."""
        if isinstance(node, Literal):
            self.lose(subject, "text", property=property_name(predicate), text=node.text, tag=node.tag)
        elif predicate != RDF + "type":
            self.lose(subject, "resource", property=property_name(predicate), target=node)
        elif name := mads_name(node):
            self.lose(subject, "mads_class", property=name)
        else:
            self.lose(subject, "class", target=node)

    def read(self) -> Vocabulary:
        """Returns the vocabulary, checked."""
        self.find_resources()
        self.place()
        for it in self.vocabulary.resources.values():
            self.read_labels(it)
        self.read_links()
        self.name_others()
        for subject in sorted(self.subjects, key=lambda it: not self.kind(it)):
            # (notes that are resources become known from those whose notes they are)
            self.read_rest(subject)
        self.read_places()
        self.vocabulary.check(self.given.lang, bool(self.given.qualify))
        self.read_term_sources()
        self.vocabulary.check_places()
        self.vocabulary.check_unique_values()
        self.compare_entailed()
        return self.vocabulary

    def name_others(self) -> None:
        """Has reports name other vocabularies' concepts by their labels, and all else by what it belongs to."""
        terms = self.vocabulary.terms
        for it in self.outside:
            labels = [node.text for node in self.values[it].get(SKOS + "prefLabel", ()) if isinstance(node, Literal)]
            terms.update({it: labels[0]} if labels else {})
        described = {*self.subjects}
        for subject, _, node in triples_of(self.values):
            if self.kind(subject) and node in described and not self.kind(node):
                terms.setdefault(node, terms.get(subject, ""))

    def find_resources(self) -> None:
        """Finds what is a scheme, a concept or a collection, by its type or by what its links entail. What is of other
        vocabularies isn't among them."""
        kinds = kinds_of(self.values, self.outside)
        self.has_resources = bool(kinds)
        for it in sorted(kinds, key=by_numbers):
            if isinstance(it, Blank):
                self.lose(it, "blank", kinds="/".join(sorted(kinds[it])))
                continue
            kind = next(kind for kind in ("concept", "scheme", "collection") if kind in kinds[it])
            if len(kinds[it]) > 1:
                rule = "S9" if "collection" not in kinds[it] else "S37"
                self.vocabulary.find(rule, it, "several_kinds", kinds="/".join(sorted(kinds[it])), kind=kind)
            self.vocabulary.resources[it] = Resource(it, kind)

    # --- Schemes, deaths and labels ---

    def place(self) -> None:
        """Gives each concept and each collection one scheme, and each dead concept its replacement."""
        schemes: dict[str, list[str]] = defaultdict(list)
        for subject in self.subjects:
            for predicate in ("inScheme", "topConceptOf", "hasTopConcept"):
                for node in self.values[subject].get(SKOS + predicate, ()):
                    one, scheme = (node, subject) if predicate == "hasTopConcept" else (subject, node)
                    if isinstance(scheme, Iri) and scheme not in schemes[one]:
                        schemes[one].append(scheme)
        for it in list(self.vocabulary.resources.values()):
            found = [name for name in schemes[it.name] if self.kind(name) == "scheme"]
            if it.kind == "scheme":
                for name in found:
                    self.lose(it.name, "resource", property="inScheme", target=name)
            else:
                it.scheme = found[0] if found else self.usual_scheme(it)
                for name in found[1:]:
                    self.lose(it.name, "further_scheme", target=name)
            if it.kind == "concept":
                self.read_death(it)

    def kind(self, name: str) -> str:
        found = self.vocabulary.resources.get(name)
        return found.kind if found else ""

    def usual_scheme(self, resource: Resource) -> str:
        """Returns the scheme for what has none: that of a collection's first member, the only one, or the one of
        --scheme."""
        schemes = self.vocabulary.of_kind("scheme")
        for member in self.members(resource.name):
            if self.kind(member) == "concept" and self.values[member].get(SKOS + "inScheme"):
                return self.values[member][SKOS + "inScheme"][0]
        if len(schemes) == 1:
            return schemes[0].name
        if self.given.scheme:
            made = self.vocabulary.resources.setdefault("scheme", Resource("scheme", "scheme"))
            self.vocabulary.resources = {"scheme": made, **self.vocabulary.resources}
            return "scheme"
        self.vocabulary.find("NoScheme", resource.name, "no_scheme")
        return ""

    def read_death(self, concept: Resource) -> None:
        """Notes whether a concept is dead, and what replaced it."""
        values = self.values[concept.name]
        concept.is_dead = any(
            isinstance(it, Literal) and it.text in ("true", "1") for it in values.get(OWL + "deprecated", ())
        )
        replaced = values.get(DCTERMS + "isReplacedBy", [])
        for number, it in enumerate(replaced):
            if concept.is_dead and number == 0 and self.kind(it) == "concept":
                concept.replaced = it
            else:
                self.lose(concept.name, "resource", property="isReplacedBy", target=it)

    def read_labels(self, resource: Resource) -> None:
        values, vocabulary = self.values[resource.name], self.vocabulary
        kinds = {**LABELS, **{SKOS + it: "scope" for it in self.given.as_scope}}
        for predicate, kind in kinds.items():
            for node in values.get(predicate, ()):
                texts = self.texts_of(node, resource.name) if kind == "scope" else [node]
                for it in texts:
                    if isinstance(it, Literal):
                        vocabulary.add_label(resource, kind, it.tag or self.given.lang, it.text)
                    else:
                        self.lose(resource.name, "no_text", property=property_name(predicate), target=it)
        if resource.kind == "scheme" and not resource.labels["pref"]:
            self.read_titles(resource)
        if resource.kind == "concept" and self.given.hidden_codes:
            notations = [it.text for it in values.get(SKOS + "notation", ()) if isinstance(it, Literal)]
            ends = [] if notations and not self.given.all_codes else [short(resource.name)]
            for code in dict.fromkeys([*ends, *notations]):
                vocabulary.add_label(resource, "hidden", self.given.hidden_codes, code)

    def texts_of(self, node: Any, owner: str) -> list:
        """Returns the texts of a note, which may be a resource; or the resource, if it has no text."""
        if isinstance(node, Literal) or self.kind(node):
            return [node]
        found = [it for it in self.values.get(node, {}).get(RDF + "value", ()) if isinstance(it, Literal)]
        if found:
            self.notes[node] = owner
        return found or [node]

    def read_titles(self, scheme: Resource) -> None:
        """Gives a scheme without preferred labels its title, or the text of --scheme."""
        for predicate in TITLES:
            for it in (
                self.values[scheme.name].get(predicate, ())
                if not scheme.labels["pref"] or predicate in self.is_title_label
                else ()
            ):
                if isinstance(it, Literal):
                    self.is_title_label.add(predicate)
                    self.vocabulary.add_label(scheme, "pref", it.tag or self.given.lang, it.text)
        if not scheme.labels["pref"] and self.given.scheme:
            self.vocabulary.add_label(scheme, "pref", self.given.lang, self.given.scheme)

    # --- Links ---

    def members(self, collection: str) -> list[str]:
        """Returns the members of a collection, also those of its list."""
        found = list(self.values[collection].get(SKOS + "member", ())) if collection in self.values else []
        for node in self.values[collection].get(SKOS + "memberList", ()) if collection in self.values else ():
            seen = set()
            while node not in seen and node in self.values and self.values[node].get(RDF + "first"):
                seen.add(node)
                found.append(self.values[node][RDF + "first"][0])
                node = (self.values[node].get(RDF + "rest") or [RDF + "nil"])[0]
        return found

    def read_links(self) -> None:
        """Adds the links, and exact matches to the old IRIs if they are wanted."""
        links = self.vocabulary.links
        for subject in self.subjects:
            self.vocabulary.tops.update(it for it, _ in self.declared_tops(subject) if isinstance(it, str))
            for predicate, nodes in list(self.values[subject].items()):
                for node in nodes if predicate in LINKS and predicate != SKOS + "member" else ():
                    self.read_link(subject, predicate, node)
            if self.kind(subject) == "collection":
                for member in self.members(subject):
                    if self.kind(member) == "concept":
                        links.append(("member", subject, member))
                    elif not self.is_place(member, subject):
                        self.lose(subject, "member", target=member)
        if self.given.keep_iris:
            links += self.old_iris()

    def old_iris(self) -> Iterator[tuple[str, str, str]]:
        """Yields the exact matches to the old IRIs: that of a dead concept is its successor's, as after a merge."""
        for it in self.vocabulary.of_kind("concept"):
            if end := self.successor(it):
                yield "exact", end.name, OUTSIDE + it.name
            else:
                self.lose(it.name, "old_iri")

    def successor(self, concept: Resource) -> Resource | None:
        """Returns the live concept of its scheme that a concept is, or that replaces it, if there is one."""
        scheme, way = concept.scheme, {concept.name}
        while concept.is_dead:
            if concept.replaced in way or self.kind(concept.replaced) != "concept":
                return None
            concept = self.vocabulary.resources[concept.replaced]
            way.add(concept.name)
        return concept if concept.scheme == scheme else None

    def declared_tops(self, subject: str) -> list[tuple]:
        """The top concepts that the triples of a subject declare, each with its scheme."""
        values = self.values[subject]
        return [(subject, it) for it in values.get(SKOS + "topConceptOf", ())] + [
            (it, subject) for it in values.get(SKOS + "hasTopConcept", ())
        ]

    def read_link(self, subject: str, predicate: str, node: Any) -> None:
        kind, is_turned = LINKS[predicate]
        a, b = (node, subject) if is_turned else (subject, node)
        name = property_name(predicate)
        if isinstance(node, Literal) or isinstance(a, Blank) or isinstance(b, Blank):
            self.lose(subject, "no_resource", property=name, target=node[0] if isinstance(node, Literal) else node)
            return
        if kind in WITHIN and "collection" in (self.kind(a), self.kind(b)):
            if self.is_place(a, b):
                return
            self.lose(subject, "collection_link", property=name, target=node)
            return
        if kind in MAPPING:
            if self.kind(a) != "concept" and self.kind(b) == "concept":
                kind, a, b = OPPOSITE.get(kind, kind), b, a
            if not self.kind(a):
                self.lose(subject, "match_of_neither", property=name, target=node)
                return
            b = b if self.kind(b) else OUTSIDE + b
        self.vocabulary.links.append((kind, a, b))

    # --- Places of collections ---

    def is_place(self, low: str, high: str) -> bool:
        """Whether a collection gets its place by a concept that is above it, or a collection around it."""
        return self.given.own and high in (self.places.superordinate(low), self.places.outer.get(low))

    def read_places(self) -> None:
        """Adds where collections are, and the orders in them."""
        for it in self.vocabulary.of_kind("collection") if self.given.own else ():
            it.places = {
                SUPERORDINATE: [above] if (above := self.places.named.get(it.name)) else [],
                WITHIN_FIELD: [outer] if (outer := self.places.outer.get(it.name)) else [],
                ORDER: list(dict.fromkeys(self.places.orders.get(it.name, ()))),
            }

    def is_stated_place(self, subject: str, predicate: str, node: Any) -> bool:
        """Whether a triple says of a collection where it is, or that it has an order, and that is kept."""
        if not self.given.own or isinstance(node, Literal):
            return False
        if predicate == SKOS + "memberList":
            return subject in self.places.orders
        is_up = {**ABOVE, **AROUND}.get(predicate)
        return is_up is not None and self.is_place(*((subject, node) if is_up else (node, subject)))

    # --- What is lost ---

    def read_rest(self, subject: str) -> None:
        """Notes the triples of a resource that a thesaurus has no place for."""
        kept = {
            RDF + "type",
            *LABELS,
            *LINKS,
            *TRANSITIVE,
            *(SKOS + it for it in ("inScheme", "topConceptOf", "hasTopConcept", *self.given.as_scope)),
        }
        kept |= {OWL + "deprecated", DCTERMS + "isReplacedBy"} if self.kind(subject) == "concept" else set()
        kept |= self.is_title_label if self.kind(subject) == "scheme" else set()
        kept |= {SKOS + "notation"} if self.given.hidden_codes and self.kind(subject) == "concept" else set()
        if RDF + "first" in self.values[subject] and not self.kind(subject):
            return
        if self.given.own and self.says_a_source(subject):
            return
        if subject in self.notes:
            self.read_rest_of_note(subject)
            return
        for predicate, nodes in self.values[subject].items():
            for node in nodes:
                if not self.kind(subject):
                    if predicate not in LINKS and not (subject in self.outside and predicate == RDF + "type"):
                        self.lose_triple(subject, predicate, node)
                elif self.is_stated_place(subject, predicate, node):
                    continue
                elif predicate == SKOS + "memberList":
                    self.lose(subject, "order", property="memberList")
                elif predicate == RDF + "type" and node not in KINDS:
                    self.lose_triple(subject, predicate, node)
                elif predicate == RDFS_LABEL and ("pref", node) in {
                    ("pref", it) for it in self.values[subject].get(SKOS + "prefLabel", ())
                }:
                    continue
                elif predicate not in kept and not self.take_value(subject, predicate, node):
                    self.lose_triple(subject, predicate, node)

    def says_a_source(self, subject: str) -> bool:
        """Whether a resource is nothing but a statement of a source, about a note of the file."""
        its = self.values[subject]
        notes = [note for note, _ in note_statements(its)]
        return {*its} == OF_STATEMENT and all(note in self.values[a].get(name, ()) for a, name, note in notes[:1])

    def read_rest_of_note(self, note: str) -> None:
        """Notes what is said of a note beside its text, and beside its source, if values of fields are wanted."""
        kept = {RDF + "value", RDF + "type", *({DCTERMS + "source"} if self.given.own else ())}
        for predicate, nodes in self.values[note].items():
            for node in nodes if predicate not in kept else ():
                self.lose_triple(self.notes[note], predicate, node)

    def take_value(self, subject: str, predicate: str, node: Any) -> bool:
        """Adds a value of a field, if values are wanted; returns whether it is one. A note may be a resource, with its
        text and its source."""
        field = self.fields.get(predicate)
        if not self.given.own or field is None or self.kind(subject) not in field.owners:
            return False
        about = self.values.get(node, {}) if not isinstance(node, Literal) else {}
        found = self.texts_of(node, subject)
        sources = [it.text if isinstance(it, Literal) else it for it in about.get(DCTERMS + "source", ())]
        if not all(self.has_form(field, it) for it in found):
            return False
        sources = sources or [it for it in (self.sources.get(Triple(Iri(subject), Iri(predicate), node)),) if it]
        for it in found:
            tag, text = self.value_of(field, it)
            source = sources[0] if sources and field.has_source else ""
            self.vocabulary.add_value(self.vocabulary.resources[subject], FieldValue(field.name, tag, text, source))
        return True

    @staticmethod
    def has_form(field: Field, node: Any) -> bool:
        """Whether a node may be a value of a field: an IRI or none, and a date, a number or a choice where it is to be
        one."""
        if isinstance(node, Blank) or field.name not in MAYBE_IRI and isinstance(node, Iri) != (field.kind == "link"):
            return False
        return field.kind in FREE or has_form(field, tidy(node.text if isinstance(node, Literal) else node, field.kind))

    def read_term_sources(self) -> None:
        """Adds the sources of the terms that resources have, if values of fields are wanted."""
        for subject, tag, text, source in term_sources(self.sources) if self.given.own else ():
            its, key = self.vocabulary.resources.get(subject), (tag or (self.given.lang or "").lower(), text)
            if its is not None and key in its.names():
                self.vocabulary.add_value(its, FieldValue(TERM_SOURCE, *key, source))
            else:
                self.lose(subject, f"the source of {text!r}, {source}")

    def value_of(self, field: Field, node: Any) -> tuple[str, str]:
        """Returns the tag and the text of a value: its language, or the code that its datatype names."""
        if not isinstance(node, Literal):
            return "", str(node)
        if field.tag == "language":
            return (node.tag or self.given.lang or "").lower(), node.text
        return code_of(node.datatype, "") if field.tag == "code" else "", node.text

    def compare_entailed(self) -> None:
        """Notes top concepts that have broader ones, and transitive links that no chain of links entails."""
        rules, resources = self.vocabulary.rules, self.vocabulary.resources
        below = {a for kind, a, _ in self.vocabulary.links if kind in BROADER}
        for subject in self.subjects:
            values = self.values[subject]
            for concept, scheme in self.declared_tops(subject):
                if concept in below or concept in resources and resources[concept].is_dead:
                    self.lose(concept, "not_top", property="topConceptOf", target=scheme)
            for predicate, is_turned in TRANSITIVE.items():
                for node in values.get(predicate, ()):
                    if not rules.is_above(*((node, subject) if is_turned else (subject, node))):
                        self.lose(subject, "resource", property=property_name(predicate), target=node)
