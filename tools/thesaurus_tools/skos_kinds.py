"""What is a scheme, a concept or a collection in triples, and which concepts are those of other vocabularies."""
from __future__ import annotations

from collections import defaultdict
from collections.abc import Iterator, Set
from typing import Any

from thesaurus_tools.arrays import COLLECTIONS
from thesaurus_tools.kinds import BROADER, CLASSES, LINK_PROPERTIES
from thesaurus_tools.ntriples import DCTERMS, RDF, SKOS, Literal

ISO_THES = "http://purl.org/iso25964/skos-thes#"
RDFS_LABEL = "http://www.w3.org/2000/01/rdf-schema#label"
DC_ELEMENTS = "http://purl.org/dc/elements/1.1/"
TITLES = (RDFS_LABEL, DCTERMS + "title", DC_ELEMENTS + "title")
# Properties of links: the kind, and whether subject and object change places. Types of broader links have the words of
# ISO-THES.
LINKS = {
    **{SKOS + name: (kind, False) for name, kind in LINK_PROPERTIES.items()},
    SKOS + "narrower": ("broader", True),
    **{ISO_THES + kind: (kind, False) for kind in BROADER[1:]},
    **{ISO_THES + kind.replace("broader", "narrower"): (kind, True) for kind in BROADER[1:]},
}
# The kinds of links that join concepts of one scheme, and those that lead to other vocabularies.
WITHIN = (*BROADER, "related")
MAPPING = ("exact", "close", "broad", "narrow", "relMatch")
KINDS = {**{SKOS + name: kind for name, kind in CLASSES.items()}, **dict.fromkeys(COLLECTIONS, "collection")}
# The objects of triples, by their subjects and predicates.
Values = dict[str, dict[str, list]]
Kinds = dict[str, set[str]]
IN_SCHEME, TOP_OF, HAS_TOP = (SKOS + it for it in ("inScheme", "topConceptOf", "hasTopConcept"))


def kinds_of(values: Values, without: Set[str] = frozenset()) -> Kinds:
    """Returns the kinds of all resources but some: by their types and members, and by what other triples entail.

    A collection that is only entailed to be a concept, as one below a concept by skos:narrower, is a collection."""
    said, entailed = defaultdict(set), defaultdict(set)
    for subject, predicate, node in triples_of(values, without):
        for it, kind in said_kinds(subject, predicate, node):
            said[it].add(kind)
        for it, kind in entailed_kinds(subject, predicate, node):
            entailed[it].add(kind)
    for it, found in entailed.items():
        if it not in without:
            said[it] |= found - ({"concept"} if said[it] == {"collection"} else set())
    return dict(said)


def triples_of(values: Values, without: Set[str] = frozenset()) -> Iterator[tuple[str, str, Any]]:
    """Yields the triples that aren't about some resources."""
    for subject, properties in values.items():
        for predicate, nodes in properties.items() if subject not in without else ():
            for node in nodes:
                yield subject, predicate, node


def said_kinds(subject: str, predicate: str, node: Any) -> Iterator[tuple[str, str]]:
    """Yields the kind that a triple gives its subject: by its type, or since it has members."""
    if predicate == RDF + "type" and node in KINDS:
        yield subject, KINDS[node]
    elif predicate in (SKOS + "member", SKOS + "memberList"):
        yield subject, "collection"


def entailed_kinds(subject: str, predicate: str, node: Any) -> Iterator[tuple[str, str]]:
    """Yields what a triple entails of the kinds of its subject and its object."""
    if isinstance(node, Literal):
        return
    if predicate == IN_SCHEME:
        yield node, "scheme"
    elif predicate in (TOP_OF, HAS_TOP):
        concept, scheme = (subject, node) if predicate == TOP_OF else (node, subject)
        yield from ((concept, "concept"), (scheme, "scheme"))
    elif predicate in LINKS and LINKS[predicate][0] in WITHIN:
        yield from ((subject, "concept"), (node, "concept"))


def outside_concepts(values: Values) -> set[str]:
    """Returns the concepts of other vocabularies for which a file has no more than a stub: they have no place in it,
    and match a concept that has one.

    Such a stub is a concept that no link joins to others but matches, and that is no top concept, and no member if it
    has a preferred label. If it has one, it has no scheme that the file describes, and what it matches has a place: a
    link, or such a scheme. If it has none, what it matches isn't of such a scheme of its own."""
    kinds = kinds_of(values)
    described = {it for it in values if any(values[it].get(name) for name in (SKOS + "prefLabel", *TITLES, HAS_TOP))}
    placed: set[str] = set()
    schemes: dict[str, set[str]] = defaultdict(set)
    matches: dict[str, set[str]] = defaultdict(set)
    labelled = {it for it in values if values[it].get(SKOS + "prefLabel")}
    for subject, predicate, node in triples_of(values):
        kind = LINKS.get(predicate, ("",))[0]
        if predicate == IN_SCHEME:
            schemes[subject].add(node)
        elif kind in WITHIN or predicate in (TOP_OF, HAS_TOP):
            placed |= {subject, node}
        elif kind == "member" and node in labelled:
            placed.add(node)
        elif kind in MAPPING and not isinstance(node, Literal):
            matches[subject].add(node)
            matches[node].add(subject)
    placed |= {it for it in kinds if it in labelled and schemes[it] & described}

    def is_stub(it: str) -> bool:
        others = {one for one in matches.get(it, ()) if kinds.get(one) == {"concept"} and one != it}
        elsewhere = {one for one in others if not schemes[it] & schemes[one] & described}
        return bool(others & placed if it in labelled else elsewhere)

    # (a stub may lack its type)
    candidates = [it for it in matches if kinds.get(it, {"concept"}) == {"concept"} and it in values]
    return {it for it in candidates if it not in placed and is_stub(it)}


def outside_schemes(values: Values, stubs: Set[str]) -> set[str]:
    """Returns the schemes in which a file has nothing but stubs of concepts of other vocabularies."""
    theirs: set[str] = set()
    own: set[str] = set()
    for subject, predicate, node in triples_of(values):
        if predicate == IN_SCHEME and not isinstance(node, Literal):
            (theirs if subject in stubs else own).add(node)
        elif predicate in (TOP_OF, HAS_TOP):
            own.add(subject if predicate == HAS_TOP else node)
    return {it for it in theirs - own if it in values}
