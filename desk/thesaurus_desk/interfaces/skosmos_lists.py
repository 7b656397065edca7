"""What Skosmos' interface says of a vocabulary: its name, counts, letters, top concepts, groups, and what is new."""
from __future__ import annotations

from collections import Counter
from collections.abc import Iterable

from flask import request
from thesaurus_desk.interfaces.skosmos_concepts import has_children
from thesaurus_desk.interfaces.skosmos_vocabulary import CONTEXT, MOST, USUAL, Json, Vocabulary, integer
from thesaurus_desk.store.arrays import parts_of
from thesaurus_tools.ntriples import DCTERMS, SKOS, XSD
from thesaurus_tools.texts import fold

RDFS = "http://www.w3.org/2000/01/rdf-schema#"
# How the letters of the index name what begins with a digit, or with another sign.
DIGITS, SIGNS = "0-9", "!*"
# How many concepts without a date are passed over before older ones are taken to have none, either.
MOST_UNDATED = 1000
LABELS = {"pref": "skos:prefLabel", "alt": "skos:altLabel", "hidden": "skos:hiddenLabel"}


def about_vocabulary(vocabulary: Vocabulary) -> Json:
    """Returns what a vocabulary is called, and its languages."""
    replica, scheme = vocabulary.replica, vocabulary.scheme or 0
    title = vocabulary.term(scheme)[1]
    schemes = [{"prefLabel": title, "uri": replica.iri(scheme), "type": "skos:ConceptScheme"}]
    context = vocabulary.context(
        title="dct:title",
        conceptschemes="onki:hasConceptScheme",
        defaultLanguage="onki:defaultLanguage",
        languages="onki:language",
        id="onki:vocabularyIdentifier",
    )
    return {
        "@context": context, "uri": "", "id": vocabulary.name, "marcSource": "", "title": title,
        "defaultLanguage": vocabulary.languages[0], "languages": vocabulary.languages, "conceptschemes": schemes,
    }  # fmt: skip


def statistics(vocabulary: Vocabulary) -> Json:
    """Returns how many concepts and collections a vocabulary has."""
    replica, scheme = vocabulary.replica, vocabulary.scheme or 0
    live, dead = (len(replica.numbers("concept", scheme, it)) for it in (True, False))
    collections = len(replica.numbers("collection", scheme))
    return {
        "@context": vocabulary.context(concepts="void:class", void="http://rdfs.org/ns/void#"), "uri": "",
        "id": vocabulary.name, "title": vocabulary.term(scheme)[1],
        "concepts": {"class": SKOS + "Concept", "label": "Concept", "count": live + dead, "deprecatedCount": dead},
        "conceptGroups": {"class": SKOS + "Collection", "label": "Collection", "count": collections},
        "subTypes": {},
    }  # fmt: skip


def label_statistics(vocabulary: Vocabulary) -> Json:
    """Returns how many labels of each kind a vocabulary has in each language."""
    replica = vocabulary.replica
    counts: Counter[tuple[str, str]] = Counter()
    for number in replica.numbers("concept", vocabulary.scheme, True):
        if view := replica.view(number):
            counts.update((tag, kind) for kind in LABELS for tag, _ in view.terms(kind))
    languages = [
        {
            "language": tag,
            "literal": tag,
            "properties": [{"property": name, "labels": counts[tag, kind]} for kind, name in LABELS.items()],
        }
        for tag in vocabulary.languages
    ]
    title = vocabulary.term(vocabulary.scheme or 0)[1]
    context = vocabulary.context()
    return {"@context": context, "uri": "", "id": vocabulary.name, "title": title, "languages": languages}


def letters(vocabulary: Vocabulary) -> Json:
    """Returns with which letters terms in a language begin; digits are one of them, and so is all else."""
    found = letters_here(vocabulary)
    names = [it.upper() for it in found if it.isalpha()]
    names += [DIGITS] if any(it.isdigit() for it in found) else []
    names += [SIGNS] if any(not it.isalnum() for it in found) else []
    context = vocabulary.context(indexLetters={"@id": "onki:indexLetters", "@container": "@list"})
    return {"@context": context, "uri": "", "indexLetters": names}


def letters_here(vocabulary: Vocabulary) -> list[str]:
    """Returns the first characters of the terms in a language."""
    return vocabulary.replica.letters_of(vocabulary.default_lang, vocabulary.scheme)


def index_of(vocabulary: Vocabulary, letter: str) -> Json:
    """Returns the terms that begin with a letter."""
    replica, lang = vocabulary.replica, vocabulary.default_lang
    starts = [fold(letter)]
    if letter in (DIGITS, SIGNS):
        starts = [it for it in letters_here(vocabulary) if it.isdigit() == (letter == DIGITS) and not it.isalpha()]
    offset, most = integer("offset", 0, 1_000_000), integer("limit", 1_000_000, 1_000_000)
    hits = [hit for it in starts for hit in replica.beginning(it, lang, vocabulary.scheme)][offset : offset + most]
    concepts = [
        {"uri": replica.iri(it.number), "localname": str(it.number)}
        | {"prefLabel": replica.term(it.number, [lang])[1], "lang": it.tag}
        | ({"altLabel": it.text} if it.kind == "alt" else {})
        for it in hits
    ]
    names = {"altLabel": "skos:altLabel", "indexConcepts": {"@id": "onki:indexConcepts", "@container": "@list"}}
    return {"@context": vocabulary.context(**names), "uri": "", "indexConcepts": concepts}


def top_concepts(vocabulary: Vocabulary) -> Json:
    """Returns the top concepts of a vocabulary."""
    replica, asked = vocabulary.replica, request.args.get("scheme", "")
    scheme = vocabulary.find(asked, ("scheme",)) if asked else vocabulary.scheme or 0
    found = [
        {
            "uri": replica.iri(it),
            "topConceptOf": replica.iri(scheme),
            "label": vocabulary.term(it)[1],
            "hasChildren": has_children(replica, it),
        }
        for it in vocabulary.ordered(replica.tops(scheme))
    ]
    context = vocabulary.context(
        topConceptOf={"@id": "skos:topConceptOf", "@type": "@id"},
        topconcepts="skos:hasTopConcept",
        label="skos:prefLabel",
        hasChildren="onki:hasChildren",
    )
    return {"@context": context, "uri": replica.iri(scheme), "topconcepts": found}


def types(vocabulary: Vocabulary) -> Json:
    """Returns the types of resources."""
    context = vocabulary.context(rdfs=RDFS, label="rdfs:label", superclass="rdfs:subClassOf", types="onki:hasType")
    found = [{"uri": SKOS + "Concept", "label": "Concept"}, {"uri": SKOS + "Collection", "label": "Collection"}]
    return {"@context": context, "uri": "", "types": found}


def groups(vocabulary: Vocabulary) -> Json:
    """Returns the collections of a vocabulary, with those within each."""
    replica, places = vocabulary.replica, vocabulary.source.places()
    found = []
    for it in vocabulary.ordered(replica.numbers("collection", vocabulary.scheme)):
        parts = parts_of(replica, places, it, vocabulary.langs)
        inner = [replica.iri(other) for other in parts if replica.kind(other) == "collection"]
        group = {**vocabulary.one(it), "hasMembers": bool(parts)}
        found.append(group | ({"childGroups": inner} if inner else {}))
    context = vocabulary.context(
        groups="onki:hasGroup",
        childGroups={"@id": "skos:member", "@type": "@id"},
        hasMembers="onki:hasMembers",
    )
    return {"@context": context, "uri": "", "groups": found}


def group_members(vocabulary: Vocabulary) -> Json:
    """Returns the members of a collection, and the collections within it, in its order."""
    replica, number = vocabulary.replica, vocabulary.asked("collection")
    found = []
    for it in parts_of(replica, vocabulary.source.places(), number, vocabulary.langs):
        is_group = replica.kind(it) == "collection"
        member = {**vocabulary.one(it), "type": ["skos:Collection" if is_group else "skos:Concept"]}
        found.append(member | ({"isSuper": True} if is_group else {}))
    return {"@context": vocabulary.context(members="skos:member"), "uri": replica.iri(number), "members": found}


def new_concepts(vocabulary: Vocabulary) -> Json:
    """Returns the concepts that were made last, the latest first."""

    def dated() -> Iterable[tuple[int, str]]:
        # (numbers are given in order, so the latest are the highest)
        undated = 0
        for number in reversed(vocabulary.replica.numbers("concept", vocabulary.scheme, True)):
            created, _ = vocabulary.source.dates(number)
            undated += created is None
            if created:
                yield number, created
            elif undated > MOST_UNDATED:
                return

    return change_list(vocabulary, dated(), "created")


def modified_concepts(vocabulary: Vocabulary) -> Json:
    """Returns the concepts that were changed last, the latest first."""
    return change_list(vocabulary, vocabulary.source.changes.since(""), "modified")


def change_list(vocabulary: Vocabulary, dated: Iterable[tuple[int, str]], name: str) -> Json:
    """Returns concepts of a vocabulary with the times of changes."""
    replica = vocabulary.replica
    offset, most = integer("offset", 0, 1_000_000), integer("limit", USUAL, MOST)
    found: list[Json] = []
    for number, at in dated:
        it = replica.get(number)
        if len(found) >= offset + most:
            break
        if it is None or it.kind != "concept" or it.scheme != vocabulary.scheme:
            continue
        item: Json = {**vocabulary.one(number), "date": at}
        if it.replaced is not None:
            item |= {"replacedBy": replica.iri(it.replaced), "replacingLabel": vocabulary.term(it.replaced)[1]}
        found.append(item)
    date = {"@id": DCTERMS + name, "@type": XSD + "dateTime"}
    context = {
        **vocabulary.context(date=date, xsd=XSD),
        "changeList": {"@id": "onki:changeList", "@container": "@list"},
    }
    return {"@context": context, "uri": "", "changeList": found[offset:]}


def vocabularies(vocabulary: Vocabulary) -> Json:
    """Returns the schemes."""
    found = [
        {"uri": str(it), "id": str(it), "title": vocabulary.term(it)[1]} for it in vocabulary.replica.numbers("scheme")
    ]
    names: Json = {
        "title": {"@id": f"{RDFS}label"},
        "vocabularies": "onki:hasVocabulary",
        "id": "onki:vocabularyIdentifier",
    }
    context = {**CONTEXT, "rdfs": RDFS, **names, "@language": vocabulary.default_lang}
    return {"@context": context, "uri": "", "vocabularies": found}
