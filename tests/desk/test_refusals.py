"""Every refusal, malformed input and fault is explained in three languages, with links to the concepts concerned."""
from __future__ import annotations

import re
from typing import Any

import pytest
from markupsafe import Markup
from program import ROOT
from made_replica import MadeReplica
from thesaurus_desk.store.replica import Replica
from thesaurus_desk.web.refusals import EXPLAIN, explain, values
from thesaurus_desk.web.refusals.forms import HTTP_NAMES
from thesaurus_desk.web.request_text import WRITERS, sentence_of
from thesaurus_desk.words import LANGUAGES, Words, texts_of

# Names that plans over HTTP and scripts have, and texts that no name of the program needs.
OF_PLANS = {"BadReference"}
OF_SCRIPTS = {"TooLong"}
# Faults of the desk itself.
OF_DESK = {"Journal", "JournalReplaced", "Busy", "Closed", "Replaced", "StoreReplaced", *values.EXPLAIN}
OWN = {"Http", "Other", "Lost", "Unknown", "Step", "Choice", "Row"}
REQUESTS: list[tuple[dict[str, Any], dict[str, Any]]] = [
    ({"do": "scheme", "tag": "en", "text": "Instruments"}, {"ok": 1}),
    ({"do": "concept", "scheme": 1, "tag": "en", "text": "Strings"}, {"ok": 2}),
    ({"do": "concept", "scheme": 1, "tag": "en", "text": "Violins"}, {"ok": 3}),
    ({"do": "concept", "scheme": 1, "tag": "en", "text": "Fiddles"}, {"ok": 4}),
    ({"do": "link", "kind": "broaderGeneric", "a": 3, "b": 2}, {"done": True}),
    ({"do": "addLabel", "owner": 3, "kind": "alt", "tag": "en", "text": "Geigen"}, {"done": True}),
    ({"do": "post", "key": "p-1", "record": "Violin 1668", "concept": 3}, {"ok": 1}),
    ({"do": "post", "key": "p-2", "record": "Violin 1700", "concept": 3}, {"ok": 2}),
    ({"do": "withdraw", "posting": 2}, {"done": True}),
    ({"do": "scheme", "tag": "en", "text": "Places"}, {"ok": 5}),
    ({"do": "concept", "scheme": 5, "tag": "en", "text": "Paris"}, {"ok": 6}),
    ({"do": "outside", "iri": "http://www.wikidata.org/entity/Q8355"}, {"ok": 7}),
    ({"do": "collection", "scheme": 1, "tag": "en", "text": "Room 12"}, {"ok": 8}),
    ({"do": "concept", "scheme": 1, "tag": "en", "text": "Rebecs"}, {"ok": 9}),
    ({"do": "merge", "source": 4, "target": 3}, {"moved": 0}),
    ({"do": "deprecate", "concept": 9}, {"done": True}),
]


class PlainLinks:
    """Links as the name and the number of a resource."""

    def __init__(self, replica: Replica):
        self.replica = replica

    def term(self, number: int) -> str:
        return self.replica.term(number)[1]

    def link(self, number: int) -> Markup:
        return Markup('<a href="/c/{}">{}</a>').format(number, self.term(number))

    def new(self, reference: str) -> Markup:
        return Markup()

    def elsewhere(self, iri: str) -> str:
        return iri

    def field(self, name: str) -> str:
        return name

    def candidate_above(self, number: int) -> int | None:
        return None

    def returned(self, number: int) -> int | None:
        return None


@pytest.fixture(scope="module")
def replica() -> Replica:
    """A small replica."""
    return MadeReplica(*(request for request, _ in REQUESTS))


def documented_names() -> set[str]:
    """Returns the names of refusals, malformed input and faults in REQUESTS.md."""
    text = (ROOT / "docs" / "REQUESTS.md").read_text(encoding="utf-8")
    table = text.split("## What the names mean")[1].split("## Limits")[0]
    named = set(re.findall(r"^\| ([A-Z]\w+) \|", table, re.M)) - {"Name"}
    forms = set(re.findall(r"\| (Bad\w+) \|$", text, re.M))
    others = set(re.findall(r'"(?:bad|fault)":"([A-Z]\w+)"', text)) - {"NAME"}
    return named | forms | others | {"Store", "NewerStore", "OlderStore"}


def test_each_documented_name_is_explained() -> None:
    names = documented_names()
    assert len(names) > 35
    assert names <= set(EXPLAIN)
    assert set(EXPLAIN) - names <= OF_PLANS | OF_SCRIPTS | OF_DESK


def test_each_name_of_http_is_explained() -> None:
    text = (ROOT / "docs" / "HTTP.md").read_text(encoding="utf-8")
    assert set(re.findall(r'"bad":"(\w+)"', text)) - {"NAME"} <= set(EXPLAIN) | set(HTTP_NAMES)


def test_each_text_of_refusals_has_a_name() -> None:
    tables = {key.split(".")[1] for key in texts_of("en") if key.startswith("refusals.")}
    assert tables - OWN == set(EXPLAIN)


# A request, the name with which it is refused, what is said of it, and the resources to which it leads.
CASES: list[tuple[dict[str, Any], str, str, list[int]]] = [
    (
        {"do": "addLabel", "owner": 99, "kind": "alt", "tag": "en", "text": "x"},
        "UnknownResource",
        "the identifier 99",
        [],
    ),
    ({"do": "link", "kind": "related", "a": 3, "b": 1}, "WrongKind", "kind “thesaurus”; a concept is needed", [1]),
    ({"do": "outside", "iri": "https://thesaurus.example/id/3"}, "WrongKind", "Choose the concept itself", [3]),
    ({"do": "addLabel", "owner": 7, "kind": "alt", "tag": "en", "text": "x"}, "WrongKind", "external concept", [7]),
    ({"do": "link", "kind": "related", "a": 4, "b": 2}, "NotLive", "was merged into", [4, 3]),
    ({"do": "link", "kind": "related", "a": 9, "b": 2}, "NotLive", "nothing replaces it", [9]),
    ({"do": "link", "kind": "related", "a": 3, "b": 3}, "SameResource", "linked with itself", [3]),
    ({"do": "merge", "source": 3, "target": 3}, "SameResource", "merged into itself", [3]),
    ({"do": "link", "kind": "related", "a": 3, "b": 6}, "OtherScheme", "there are only mappings", [3, 1, 6, 5]),
    ({"do": "link", "kind": "exact", "a": 3, "b": 2}, "OtherScheme", "A mapping leads to another thesaurus", [3, 2, 1]),
    ({"do": "link", "kind": "member", "a": 8, "b": 6}, "OtherScheme", "Choose a collection of", [8, 1, 6, 5]),
    ({"do": "addLabel", "owner": 3, "kind": "alt", "tag": "en", "text": "Geigen"}, "LabelThere", "already has", [3]),
    ({"do": "dropLabel", "owner": 3, "kind": "alt", "tag": "en", "text": "x"}, "NoSuchLabel", "no longer has", [3]),
    ({"do": "relabel", "owner": 3, "tag": "it", "text": "x", "keep": True}, "NoSuchLabel", "no preferred term", [3]),
    (
        {"do": "dropLabel", "owner": 3, "kind": "pref", "tag": "en", "text": "Violins"},
        "LastPreferred",
        "Rename it",
        [3],
    ),
    (
        {"do": "addLabel", "owner": 3, "kind": "pref", "tag": "en", "text": "Geigen"},
        "S13",
        "non-preferred term of",
        [3],
    ),
    ({"do": "addLabel", "owner": 3, "kind": "alt", "tag": "en", "text": "Violins"}, "S13", "preferred term of", [3]),
    ({"do": "addLabel", "owner": 3, "kind": "pref", "tag": "en", "text": "x"}, "S14", "Violins", [3]),
    ({"do": "concept", "scheme": 1, "tag": "EN", "text": "Violins"}, "PreferredTaken", "Use that concept", [3]),
    ({"do": "link", "kind": "broaderGeneric", "a": 3, "b": 2}, "LinkThere", "already linked", [2, 3]),
    ({"do": "unlink", "kind": "related", "a": 3, "b": 2}, "NoSuchLink", "no longer linked", [2, 3]),
    ({"do": "deprecate", "concept": 3}, "HasPostings", "1 record is indexed with", [3]),
    ({"do": "withdraw", "posting": 12}, "UnknownPosting", "the identifier 12", []),
    ({"do": "withdraw", "posting": 2}, "Withdrawn", "Violin 1700", []),
    ({"do": "split", "source": 2, "tag": "en", "text": "x", "postings": [1]}, "NotAtSource", "Violin 1668", [2, 3]),
    ({"do": "split", "source": 3, "tag": "en", "text": "x", "postings": [1, 1]}, "ListedTwice", "listed twice", []),
    ({"do": "post", "key": "p-1", "record": "x", "concept": 3}, "KeyReused", "Violin 1668", [3]),
    ({"do": "post", "key": "k", "record": "x", "concept": 3}, "TooMany", "--max-postings, --max-moves", []),
    ({"do": "addLabel", "owner": 3, "kind": "alt", "tag": "1", "text": "x"}, "BadTag", "“1” isn’t a language tag", []),
    ({"do": "addLabel", "owner": 3, "kind": "alt", "tag": "en", "text": ""}, "BadText", "The field is empty", []),
    ({"do": "addLabel", "owner": 3, "kind": "alt", "tag": "en", "text": "é" * 129}, "BadText", "one character too", []),
    ({"do": "addLabel", "owner": 3, "kind": "scope", "tag": "en", "text": "é" * 1003}, "BadText", "is 3 char", []),
    ({"do": "outside", "iri": "x"}, "BadIri", "“x” isn’t a URI", []),
    ({"do": "outside", "iri": "http://www.wikidata.org/entity/Q8355"}, "OutsideKnown", "is already known", [7]),
    ({"do": "post", "key": "a b", "record": "x", "concept": 3}, "BadKey", "“a b” can’t be a key", []),
    ({"do": "post", "key": "k", "record": "", "concept": 3}, "BadRecord", "Write the name", []),
    ({"do": "post", "key": "k", "record": "x" * 130, "concept": 3}, "BadRecord", "is 2 characters too long", []),
    ({"do": "post", "key": "k", "record": "a\nb", "concept": 3}, "BadRecord", "is on one line", []),
]


@pytest.mark.parametrize(("request_", "name", "part", "linked"), CASES, ids=[f"{it[1]}-{it[0]['do']}" for it in CASES])
def test_refusal_says_what_is_so_and_with_whom(
    replica: Replica, request_: dict[str, Any], name: str, part: str, linked: list[int]
) -> None:
    answer = {"bad" if name.startswith("Bad") else "no": name, "number": 7}
    said = str(explain(answer, request_, replica, Words("en"), PlainLinks(replica)))
    assert part in Markup(said).striptags()
    assert list(dict.fromkeys(int(it) for it in re.findall(r'href="/c/(\d+)', said))) == linked
    assert not re.search(r"[{}]", said)


@pytest.mark.parametrize("language", LANGUAGES)
def test_hostile_texts_are_only_texts(replica: Replica, language: str) -> None:
    evil = '<script>alert("1")</script>{0}'
    request = {"do": "concept", "scheme": 1, "tag": "en", "text": evil}
    said = str(explain({"no": "PreferredTaken"}, request, replica, Words(language), PlainLinks(replica)))
    assert "<script>" not in said and "{0}" in said
    posting = {"do": "post", "key": evil, "record": evil, "concept": 3}
    assert "<script>" not in str(sentence_of(posting, {"ok": 1}, replica, Words(language), PlainLinks(replica)))


@pytest.mark.parametrize("language", LANGUAGES)
def test_each_request_is_a_sentence(replica: Replica, language: str) -> None:
    extra: list[tuple[dict[str, Any], dict[str, Any]]] = [
        ({"do": "split", "source": 3, "tag": "en", "text": "x", "postings": [1]}, {"ok": 99, "moved": 1}),
        ({"do": "relabel", "owner": 3, "tag": "en", "text": "x", "keep": True}, {"done": True}),
        ({"do": "dropLabel", "owner": 3, "kind": "alt", "tag": "en", "text": "x"}, {"done": True}),
        ({"do": "unlink", "kind": "member", "a": 8, "b": 3}, {"done": True}),
        ({"do": "import", "name": "x.csv", "rows": 3}, {"outcomes": {"new": 2, "KeyReused": 1}, "first": 1, "last": 2}),
        ({"do": "set", "owner": 3, "field": "definition", "tag": "en", "old": None, "new": "A lute"}, {"done": True}),
        ({"do": "set", "owner": 3, "field": "notation", "tag": "", "old": "1", "new": "2"}, {"done": True}),
        ({"do": "set", "owner": 3, "field": "notation", "tag": "", "old": "2", "new": None}, {"done": True}),
    ]
    seen = set()
    for request, answer in REQUESTS + extra:
        for its in (answer, None):
            said = Markup(sentence_of(request, its, replica, Words(language), PlainLinks(replica))).striptags()
            assert said and "sentences." not in said and "{" not in said
        seen.add(request["do"])
    assert seen == set(WRITERS)


def test_sentences_name_what_was_done(replica: Replica) -> None:
    def said(request: dict[str, Any], answer: dict[str, Any]) -> str:
        return Markup(sentence_of(request, answer, replica, Words("en"), PlainLinks(replica))).striptags()

    alt = {"do": "addLabel", "owner": 3, "kind": "alt", "tag": "en", "text": "Geigen"}
    assert said(alt, {"done": True}) == "Violins: non-preferred term “Geigen” (en) added"
    assert (
        said({"do": "merge", "source": 4, "target": 3}, {"moved": 1})
        == "Fiddles: merged into Violins, and 1 record moved"
    )
    split: dict[str, Any] = {"do": "split", "source": 3, "tag": "en", "text": "Nordic", "postings": [1, 2]}
    assert said(split, {"ok": 77, "moved": 2}).endswith("and 2 records given to the new concept “Nordic” (en)")
    twice = {**split, "postings": [1, 1]}
    assert said(twice, {"ok": 77, "moved": 2}).endswith("and 1 record given to the new concept “Nordic” (en)")
    brought = {"do": "import", "name": "x.csv", "sha256": "0", "rows": 4}
    came = {"outcomes": {"new": 1, "KeyReused": 1, "BadKey": 2}, "first": 7, "last": 7}
    assert said(brought, came) == "indexing file x.csv: 1 indexed, 3 refused"
    assert said(brought, {"outcomes": {}}) == "indexing file x.csv: 4 rows"
    assert said(brought, {"outcomes": {}, "first": 7, "last": 9}) == "indexing file x.csv: 3 indexed"
    reference = {"do": "link", "kind": "broader", "a": "$1", "b": 3}
    assert said(reference, {"done": True}) == "the new concept: broader term Violins added"


# Links of a small replica of four concepts, what two of them are merged as, and what is said of it.
MERGES: list[tuple[list[tuple[str, int, int]], tuple[int, int], str, str, list[int]]] = [
    ([("broader", 2, 3), ("broader", 3, 4)], (2, 4), "Cycle", "B is between A and C: A → B → C.", [3, 2, 4]),
    ([("broader", 2, 3), ("broader", 3, 4)], (4, 2), "Cycle", "B is between A and C: A → B → C.", [3, 2, 4]),
    ([("broader", 2, 3), ("related", 4, 3)], (4, 2), "S27", "C and B are related terms", [4, 3]),
    ([("broader", 2, 3), ("related", 2, 4)], (4, 3), "S27", "A and C are related terms", [2, 4]),
    ([("exact", 2, 6), ("relMatch", 3, 6)], (3, 2), "S46", "B and X would be exact matches after the merge", [3, 6]),
]


@pytest.mark.parametrize(("links", "ends", "name", "part", "linked"), MERGES)
def test_a_refused_merge_names_those_concerned(
    links: list[tuple[str, int, int]], ends: tuple[int, int], name: str, part: str, linked: list[int]
) -> None:
    made = MadeReplica(
        {"do": "scheme", "tag": "en", "text": "One"},
        *({"do": "concept", "scheme": 1, "tag": "en", "text": it} for it in "ABC"),
        {"do": "scheme", "tag": "en", "text": "Other"},
        {"do": "concept", "scheme": 5, "tag": "en", "text": "X"},
        *({"do": "link", "kind": kind, "a": a, "b": b} for kind, a, b in links),
    )
    request = {"do": "merge", "source": ends[0], "target": ends[1]}
    said = str(explain({"no": name}, request, made, Words("en"), PlainLinks(made)))
    assert part in Markup(said).striptags()
    assert set(linked) <= {int(it) for it in re.findall(r'href="/c/(\d+)', said)}
