"""Searches as Skosmos does: a whole label, but for what * stands for."""
from __future__ import annotations

from collections.abc import Callable, Sequence
from dataclasses import dataclass

from flask import abort, request

from thesaurus_desk.interfaces.skosmos_vocabulary import (
    ISO_THES, MOST, OTHERS, PREF, USUAL, Json, Vocabulary, flag, integer, language_asked, required_parameter,
    vocabulary_of, words,
)  # fmt: skip
from thesaurus_desk.interfaces.source import Source
from thesaurus_desk.store.model import Hit, View
from thesaurus_desk.store.replica import Replica
from thesaurus_tools.ntriples import SKOS
from thesaurus_tools.texts import fold

# The most characters of a query that count.
LONGEST = 300
# The types that a search may be bound to, by the names that clients give them; any other is one that nothing has.
TYPES = {
    "skos:Concept": "concept", SKOS + "Concept": "concept",
    "skos:Collection": "collection", SKOS + "Collection": "collection",
    "isothes:ConceptGroup": "collection", ISO_THES + "ConceptGroup": "collection",
}  # fmt: skip
TYPE_OF = {"concept": "skos:Concept", "collection": "skos:Collection"}
# What a hit may have beside its term: labels, and concepts, by the name of the field.
LABEL_FIELDS = {"prefLabel": "pref", "altLabel": "alt", "hiddenLabel": "hidden", "scopeNote": "scope"}
LINK_FIELDS = ("broader", "narrower", "related")
KIND_FIELDS = {"alt": "altLabel", "hidden": "hiddenLabel"}


@dataclass(frozen=True)
class Search:
    """What a search is bound to."""

    vocabularies: Sequence[Vocabulary]
    kinds: tuple[str, ...]
    # The numbers among which it looks, if it is bound to a branch or a group.
    within: frozenset[int] | None
    lang: str | None
    fields: tuple[str, ...]
    is_unique: bool


def read_search(vocabularies: Sequence[Vocabulary]) -> Search:
    """Returns what the parameters of a request bind a search to. Ends with 400 or 404."""
    asked = words("type")
    kinds = tuple(dict.fromkeys(TYPES[it] for it in asked if it in TYPES)) if asked else ("concept",)
    fields = words("fields")
    for it in fields:
        if it not in LABEL_FIELDS and it not in LINK_FIELDS:
            abort(400, f"fields parameter is invalid: {', '.join((*LABEL_FIELDS, *LINK_FIELDS))} are known")
    first = vocabularies[0]
    within = branch_of(vocabularies) if request.args.get("parent") else None
    if request.args.get("group"):
        view = first.replica.view(bound_of(vocabularies, "group", "collection"))
        members = frozenset(view.members if view else ())
        within = members if within is None else within & members
    return Search(vocabularies, kinds, within, first.lang or None, tuple(fields), flag("unique"))


def bound_of(vocabularies: Sequence[Vocabulary], name: str, kind: str) -> int:
    """Returns the number of the resource of one of the vocabularies that a parameter names. Ends with 404."""
    first, uri = vocabularies[0], request.args[name]
    found = first.replica.get(first.source.number_of(uri) or 0)
    own = next((it for it in vocabularies if found and it.scheme == found.scheme), first)
    return own.find(uri, (kind,))


def branch_of(vocabularies: Sequence[Vocabulary]) -> frozenset[int]:
    """Returns the concepts below the one that the parameter parent names."""
    parent = bound_of(vocabularies, "parent", "concept")
    return vocabularies[0].replica.below(parent) - {parent}


def find_hits(search: Search, query: str) -> list[Hit]:
    """Returns the labels that a query matches: a whole label, but for what * stands for; in the order of the labels.

    Each concept is there once, by its preferred term if that matches, where the search is unique."""
    replica: Replica = search.vocabularies[0].replica
    found: list[Hit] = []
    for vocabulary in search.vocabularies:
        found += replica.matching(query[:LONGEST], kinds=search.kinds, scheme=vocabulary.scheme, lang=search.lang)
    found = [it for it in found if search.within is None or it.number in search.within]
    if search.is_unique:
        found.sort(key=lambda it: it.kind != "pref")
        found = list({it.number: it for it in reversed(found)}.values())
    return sorted(found, key=lambda it: (fold(it.text), it.number))


def result_of(vocabulary: Vocabulary, hit: Hit, fields: Sequence[str] = ()) -> Json:
    """Returns a hit as Skosmos does."""
    replica, number = vocabulary.replica, hit.number
    view = replica.view(number)
    assert view is not None
    _, text = vocabulary.term(number, language_asked("labellang") or hit.tag)
    found: Json = {"uri": replica.iri(number), "type": [TYPE_OF[view.kind]], "localname": str(number)}
    found |= {"prefLabel": text, "lang": hit.tag, "vocab": str(view.scheme or ""), **vocabulary.notation(number)}
    if hit.kind != "pref":
        found[KIND_FIELDS[hit.kind]] = hit.text
    for field in fields:
        found |= extra(vocabulary, view, field)
    return found


def extra(vocabulary: Vocabulary, view: View, field: str) -> Json:
    """Returns what a field of a hit holds: labels by their languages, or concepts."""
    if field in LINK_FIELDS:
        return {f"skos:{field}": vocabulary.many(getattr(view, field))}
    labels = view.terms(LABEL_FIELDS[field])
    if field == "prefLabel":
        return {"prefLabels": dict(labels)}
    by_tag: dict[str, list[str]] = {}
    for tag, text in labels:
        by_tag.setdefault(tag, []).append(text)
    return {f"{field}s": by_tag}


def search_answer(vocabularies: Sequence[Vocabulary]) -> Json:
    """Returns the answer to a search in some vocabularies."""
    query = required_parameter("query")
    offset, most = integer("offset", 0, 1_000_000), integer("maxhits", USUAL, MOST, least=1)
    search = read_search(vocabularies)
    hits = find_hits(search, query)[offset : offset + most]
    first = vocabularies[0]
    context = first.context(results={"@id": "onki:results", "@container": "@list"}, **OTHERS)
    return {"@context": context, "uri": "", "results": [result_of(first, it, search.fields) for it in hits]}


def search_one(vocabulary: Vocabulary) -> Json:
    """Returns the answer to a search in one vocabulary."""
    return search_answer([vocabulary])


def search_all(source: Source) -> Json:
    """Returns the answer to a search in the vocabularies that the parameter vocab names, or in all."""
    names = words("vocab") or [str(it) for it in source.replica().numbers("scheme")]
    if not names:
        abort(404, "there is no vocabulary")
    return search_answer([vocabulary_of(source, it) for it in names])


# How well a hit fits a label that is looked up, the best first: only those of the best are returned.
FITS: tuple[Callable[[Hit, str], bool], ...] = (
    lambda hit, label: hit.kind == "pref" and hit.text == label,
    lambda hit, label: hit.kind == "pref",
    lambda hit, label: hit.kind == "alt" and hit.text == label,
    lambda hit, label: hit.kind == "alt",
)


def lookup(vocabulary: Vocabulary) -> Json:
    """Returns the concepts that a label names. Ends with 404 if none does."""
    label = required_parameter("label")
    hits = find_hits(read_search([vocabulary]), label.replace("*", "")) if label.strip("* ") else []
    for fits in FITS:
        if found := [it for it in hits if fits(it, label)]:
            context = {"onki": "http://schema.onki.fi/onki#", "result": {"@id": "onki:results"}, "prefLabel": PREF}
            context |= {**OTHERS, "@language": vocabulary.default_lang}
            return {"@context": context, "result": [result_of(vocabulary, it) for it in found]}
    abort(404, f"could not find label {label[:LONGEST]!r}")
