"""Plans and their answers, written down by hand from the rules: faults, references, refusals, and each kind of request,
over the store of START."""
from __future__ import annotations

import json
from collections.abc import Iterator
from typing import Any, NamedTuple

Request = dict[str, Any]
Answer = dict[str, Any]

# Resources 1 to 13, and postings 1 and 2, of which the second is withdrawn; 8 was deprecated, and 9 merged into 2.
START: list[Request] = [
    {"do": "scheme", "tag": "en", "text": "Animals"},
    *(
        {"do": "concept", "scheme": 1, "tag": "en", "text": it}
        for it in ("Cats", "Dogs", "Mammals", "Pets", "Birds", "Wolves", "Unicorns", "Felines")
    ),
    {"do": "collection", "scheme": 1, "tag": "en", "text": "Favourites"},
    {"do": "outside", "iri": "http://example.org/x"},
    {"do": "scheme", "tag": "en", "text": "Places"},
    {"do": "concept", "scheme": 12, "tag": "en", "text": "Oslo"},
    {"do": "link", "kind": "broader", "a": 2, "b": 4},
    {"do": "link", "kind": "related", "a": 3, "b": 5},
    {"do": "link", "kind": "exact", "a": 3, "b": 13},
    {"do": "addLabel", "owner": 2, "kind": "alt", "tag": "en", "text": "Kitties"},
    {"do": "post", "key": "k1", "record": "r1", "concept": 2},
    {"do": "post", "key": "k2", "record": "r2", "concept": 2},
    {"do": "withdraw", "posting": 2},
    {"do": "deprecate", "concept": 8},
    {"do": "merge", "source": 9, "target": 2},
]
RESOURCES, POSTINGS = 13, 2
MOST = 128


def concept(text: str, scheme: int | str = 1) -> Request:
    return {"do": "concept", "scheme": scheme, "tag": "en", "text": text}


def label(owner: int | str, text: str, kind: str = "alt") -> Request:
    return {"do": "addLabel", "owner": owner, "kind": kind, "tag": "en", "text": text}


def link(kind: str, a: int | str, b: int | str, do: str = "link") -> Request:
    return {"do": do, "kind": kind, "a": a, "b": b}


def post(key: str, at: int | str, record: str = "r") -> Request:
    return {"do": "post", "key": key, "record": record, "concept": at}


def split(source: int | str, text: str, postings: Any) -> Request:
    return {"do": "split", "source": source, "tag": "en", "text": text, "postings": postings}


def withdraw(posting: int | str) -> Request:
    return {"do": "withdraw", "posting": posting}


def merge(source: int | str, target: int | str) -> Request:
    return {"do": "merge", "source": source, "target": target}


def outside(iri: str) -> Request:
    return {"do": "outside", "iri": iri}


def relabel(owner: int | str, text: str, keep: bool = False) -> Request:
    return {"do": "relabel", "owner": owner, "tag": "en", "text": text, "keep": keep}


def deprecate(number: int | str) -> Request:
    return {"do": "deprecate", "concept": number}


def drop(owner: int | str, text: str, kind: str = "alt") -> Request:
    return {**label(owner, text, kind), "do": "dropLabel"}


SCHEME: Request = {"do": "scheme", "tag": "en", "text": "More"}
COLLECTION: Request = {"do": "collection", "scheme": 1, "tag": "en", "text": "Others"}
FILLERS = (concept("Filler 1"), concept("Filler 2"))


class Case(NamedTuple):
    """A body or a line, and its answer."""

    name: str
    text: bytes
    answer: Answer


def case(name: str, plan: object, answer: Answer) -> Case:
    return Case(name, plan if isinstance(plan, bytes) else json.dumps(plan).encode(), answer)


def placed(request: object) -> Iterator[tuple[int, str, list[object]]]:
    """Plans of three requests that have this one at the first, the middle or the last place, without a reference to
    another."""
    for at, where in enumerate(("first", "middle", "last"), 1):
        plan: list[object] = [*FILLERS]
        plan.insert(at - 1, request)
        yield at, where, plan


# --- Faults ---

DEEP = b'[{"do":"merge","target":1,"source":' + b"[" * 125 + b"]" * 125 + b"}]"
DEEPER = b'[{"do":"merge","target":1,"source":' + b"[" * 126 + b"]" * 126 + b"}]"
NO_JSON = {
    "nothing": b"",
    "a bracket": b"[",
    "a cut array": b'[{"do":"withdraw","posting":1}',
    "a comma too many": b'[{"do":"withdraw","posting":1},]',
    "two arrays": b'[{"do":"withdraw","posting":1}][]',
    "a malformed request and no end": b'[{"do":"fly"},',
    "no UTF-8": b'[{"do":"withdraw","posting":"\xff"}]',
    "too deep": DEEPER,
}
# Of these an array is none, or has no request, or too many.
NO_PLANS: dict[str, object] = {
    "null": None,
    "a text": "$1",
    "a number": 1,
    "an empty array": [],
    "129 requests": [concept(f"C{n}") for n in range(MOST + 1)],
    "129 requests, of which the first is malformed": [{"do": "fly"}, *(concept(f"C{n}") for n in range(MOST))],
    "129 requests, of which the first has a bad reference": [withdraw("$0")] * (MOST + 1),
}
# What is no request of a plan, by its fault.
MALFORMED: list[tuple[str, str, object]] = [
    ("a number", "BadShape", 1),
    ("an array", "BadShape", []),
    ("null", "BadShape", None),
    ("an empty object", "BadShape", {}),
    ("an unknown request", "BadShape", {"do": "fly"}),
    ("a query", "BadShape", {"get": "totals"}),
    ("a query of a number", "BadShape", {"get": "concept", "number": 2}),
    ("a query of a reference", "BadShape", {"get": "concept", "number": "$1"}),
    ("a query with a bad number", "BadShape", {"get": "concept", "number": 0}),
    ("a member too many", "BadShape", {**withdraw(1), "more": 1}),
    ("a member missing", "BadShape", {"do": "merge", "source": 2}),
    ("a name", "BadShape", {"as": "x", **concept("C")}),
    *(
        (f"{value} in place of a number", "BadShape", withdraw(value))
        for value in (
            "$",
            "$x",
            "$01",
            "$00",
            "$1 ",
            " $1",
            "$ 1",
            "$+1",
            "$-1",
            "$1.0",
            "$1e0",
            "$$1",
            "1",
            "",
            "\uff041",
        )
    ),
    ("a digit that isn't one of ASCII", "BadShape", withdraw("$\u0661")),
    ("a null in place of a number", "BadShape", withdraw(None)),  # type: ignore[arg-type]
    ("a reference in an array in place of a number", "BadShape", withdraw(["$1"])),  # type: ignore[arg-type]
    ("a reference in place of a list", "BadShape", split(2, "Lions", "$1")),
    ("no reference in a list", "BadShape", split(2, "Lions", ["1"])),
    ("a zero before a reference in a list", "BadShape", split(2, "Lions", [1, "$01"])),
    ("a reference in place of a kind", "BadShape", link("$1", 2, 3)),
    ("a reference in place of true", "BadShape", relabel(2, "Lions", "$1")),  # type: ignore[arg-type]
    ("a reference in place of a request", "BadShape", {"do": "$1"}),
    ("a tag of no form", "BadTag", {**concept("C"), "tag": "!"}),
    ("a reference in place of a tag", "BadTag", {**concept("C"), "tag": "$1"}),
    ("a text of no form", "BadText", concept(" C")),
    ("an IRI of no form", "BadIri", outside("x")),
    ("a reference in place of an IRI", "BadIri", outside("$1")),
    ("a key of no form", "BadKey", post("", 2)),
    ("a record of no form", "BadRecord", post("k", 2, "")),
    ("a number of no form", "BadNumber", withdraw(0)),
    ("a number that is too great", "BadNumber", withdraw(4_294_967_296)),
    ("a number with a point", "BadNumber", {"do": "withdraw", "posting": 1.5}),
    ("a number of no form in a list", "BadNumber", split(2, "Lions", [1, 0])),
    ("a number of no form behind a reference", "BadNumber", merge("$1", 0)),
    ("a number of no form behind a bad reference", "BadNumber", merge("$99", 0)),
]
# The lengths of digits are any, and none is read as a smaller number.
NO_PLACES = ("$0", "$4", "$128", "$129", f"${2**32}", f"${2**32 + 1}", f"${2**64}", f"${2**64 + 1}", f"${'9' * 10_000}")
# What makes nothing, and makes something else than is asked for.
NOTHING_MADE: dict[str, Request] = {
    "addLabel": label(2, "Moggies"),
    "dropLabel": drop(2, "Kitties"),
    "relabel": relabel(2, "House cats"),
    "link": link("broader", 3, 4),
    "unlink": link("broader", 2, 4, "unlink"),
    "deprecate": deprecate(7),
    "merge": merge(3, 7),
    "withdraw": withdraw(1),
}
RESOURCE_MADE: dict[str, Request] = {
    "scheme": SCHEME,
    "concept": concept("Lions"),
    "collection": COLLECTION,
    "outside": outside("http://example.org/y"),
    "split": split(2, "Lions", []),
}
# Each member with a number, in a request that has the reference there.
RESOURCE_ASKED: dict[str, Request] = {
    "concept.scheme": concept("C", "$1"),
    "collection.scheme": {**COLLECTION, "scheme": "$1"},
    "addLabel.owner": label("$1", "L"),
    "dropLabel.owner": drop("$1", "L"),
    "relabel.owner": relabel("$1", "L"),
    "link.a": link("broader", "$1", 4),
    "link.b": link("broader", 4, "$1"),
    "unlink.a": link("broader", "$1", 4, "unlink"),
    "unlink.b": link("broader", 4, "$1", "unlink"),
    "deprecate.concept": deprecate("$1"),
    "merge.source": merge("$1", 4),
    "merge.target": merge(4, "$1"),
    "split.source": split("$1", "C", []),
    "post.concept": post("k", "$1"),
}
POSTING_ASKED: dict[str, Request] = {
    "withdraw.posting": withdraw("$1"),
    "split.postings": split(2, "C", ["$1"]),
    "split.postings, the second": split(2, "C", [1, "$1"]),
}


def faults() -> Iterator[Case]:
    """Texts that are no plans."""
    for name, text in NO_JSON.items():
        yield case(f"NotJson: {name}", text, {"bad": "NotJson"})
    yield case("deep, and no more", DEEP, {"at": 1, "bad": "BadShape"})
    for name, value in NO_PLANS.items():
        yield case(f"BadShape: {name}", value, {"bad": "BadShape"})
    for name, fault, request in MALFORMED:
        for at, where, plan in placed(request):
            yield case(f"{fault}: {name}, {where}", plan, {"at": at, "bad": fault})
    yield from orders()


def orders() -> Iterator[Case]:
    """Plans with two faults or more, of which the first one by the rules is reported."""
    shape, form, place, refused = {"do": "fly"}, withdraw(0), withdraw("$0"), withdraw(99)

    def at(number: int, name: str) -> Answer:
        return {"at": number, "bad": name}

    yield case("a form before a later shape", [form, shape], at(1, "BadNumber"))
    yield case("a shape before a later form", [shape, form], at(1, "BadShape"))
    yield case("a shape behind a bad reference", [place, shape], at(2, "BadShape"))
    yield case("a form behind a bad reference", [place, form], at(2, "BadNumber"))
    yield case("a bad reference behind a refusal", [refused, place], at(2, "BadReference"))
    yield case("a shape behind a refusal", [refused, refused, shape], at(3, "BadShape"))
    yield case("the first of two bad references", [refused, place, place], at(2, "BadReference"))
    yield case("the last of 128 is malformed", [concept(f"C{n}") for n in range(127)] + [shape], at(128, "BadShape"))
    yield case("the last of 128 refers to itself", [concept("C")] * 127 + [label("$128", "L")], at(128, "BadReference"))
    yield case("the shape before the form", [{**concept("C"), "tag": "!", "scheme": "1"}], at(1, "BadShape"))
    yield case("the forms in their order", [{**concept(" C", 0), "tag": "!"}], at(1, "BadNumber"))


def bad_references() -> Iterator[Case]:
    """Plans with a reference to no earlier request that makes what is asked for."""
    for place in NO_PLACES:
        plan = [post("k9", 2), post("k8", 2), withdraw(place)]
        yield case(f"a reference {place[:24]}", plan, {"at": 3, "bad": "BadReference"})
    for at in (1, 2, 3):
        request = label(f"${at}", "L")
        yield case(
            f"request {at} refers to itself",
            [concept("A"), concept("B"), request][3 - at :],
            {"at": at, "bad": "BadReference"},
        )
        fillers = [concept(f"C{n}") for n in range(1, at)]
        plan = [*fillers, label(f"${at + 1}", "L"), concept("Later")]
        yield case(f"request {at} refers to the next one", plan, {"at": at, "bad": "BadReference"})
    for word, request in NOTHING_MADE.items():
        for member, asked in {**RESOURCE_ASKED, **POSTING_ASKED}.items():
            yield case(f"{member} refers to what {word} makes", [request, asked], {"at": 2, "bad": "BadReference"})
    for word, request in RESOURCE_MADE.items():
        for member, asked in POSTING_ASKED.items():
            yield case(f"{member} refers to what {word} makes", [request, asked], {"at": 2, "bad": "BadReference"})
    for member, asked in RESOURCE_ASKED.items():
        yield case(f"{member} refers to a posting", [post("k9", 2), asked], {"at": 2, "bad": "BadReference"})


# --- Refusals ---

# Each refusal, by a request that gets it in the store.
REFUSALS: dict[str, Request] = {
    "UnknownResource": label(99, "L"),
    "WrongKind": deprecate(1),
    "NotLive": label(8, "L"),
    "SameResource": link("related", 2, 2),
    "OtherScheme": link("broader", 2, 13),
    "LabelThere": label(2, "Kitties"),
    "NoSuchLabel": drop(2, "Moggies"),
    "LastPreferred": drop(2, "Cats", "pref"),
    "S13": label(2, "Kitties", "hidden"),
    "S14": label(2, "Moggies", "pref"),
    "PreferredTaken": concept("Dogs"),
    "LinkThere": link("broader", 2, 4),
    "NoSuchLink": link("broader", 3, 4, "unlink"),
    "Cycle": link("broader", 4, 2),
    "S27": link("related", 2, 4),
    "S46": link("broad", 3, 13),
    "HasPostings": deprecate(2),
    "UnknownPosting": withdraw(99),
    "Withdrawn": withdraw(2),
    "NotAtSource": split(3, "Lions", [1]),
    "ListedTwice": split(2, "Lions", [1, 1]),
    "KeyReused": post("k1", 3, "r1"),
}
KNOWN = {"no": "OutsideKnown", "number": 11}
# Refusals by what earlier requests of the plan did.
WITHIN: list[tuple[str, list[Request], Answer]] = [
    ("a posting is withdrawn twice", [post("k9", 2), withdraw("$1"), withdraw("$1")], {"at": 3, "no": "Withdrawn"}),
    ("a key is posted twice", [post("k9", 2), post("k9", 3)], {"at": 2, "no": "KeyReused"}),
    ("a posting is split off twice", [post("k9", 2), split(2, "L", ["$1", "$1"])], {"at": 2, "no": "ListedTwice"}),
    ("a posting and its number", [post("k9", 2), split(2, "L", ["$1", 3])], {"at": 2, "no": "ListedTwice"}),
    ("a known posting and its number", [post("k1", 2, "r1"), split(2, "L", ["$1", 1])], {"at": 2, "no": "ListedTwice"}),
    ("a resource and its number", [concept("C"), link("related", "$1", 14)], {"at": 2, "no": "SameResource"}),
    ("a resource twice", [concept("C"), link("related", "$1", "$1")], {"at": 2, "no": "SameResource"}),
    (
        "an outside concept twice",
        [outside("http://example.org/y"), outside("http://example.org/y")],
        {"at": 2, "no": "OutsideKnown", "number": 14},
    ),
    (
        "an outside concept behind others",
        [concept("C"), outside("http://example.org/y"), concept("D"), outside("http://example.org/y")],
        {"at": 4, "no": "OutsideKnown", "number": 15},
    ),
    ("a term twice", [concept("C"), concept("C")], {"at": 2, "no": "PreferredTaken"}),
    ("two terms are swapped in two steps", [relabel(2, "Dogs"), relabel(3, "Cats")], {"at": 1, "no": "PreferredTaken"}),
    (
        "a cycle that would be opened again",
        [link("broader", 4, 2), link("broader", 2, 4, "unlink")],
        {"at": 1, "no": "Cycle"},
    ),
    ("a cycle of three", [link("broader", 4, 3), link("broader", 3, 2)], {"at": 2, "no": "Cycle"}),
    ("a link to what was merged", [merge(3, 7), link("broader", 3, 4)], {"at": 2, "no": "NotLive"}),
    ("an end with a posting", [concept("C"), post("k9", "$1"), deprecate("$1")], {"at": 3, "no": "HasPostings"}),
    ("a posting that moved on", [split(2, "L", [1]), split(2, "M", [1])], {"at": 2, "no": "NotAtSource"}),
    (
        "a posting that a merge moved",
        [merge(2, 3), split(3, "L", [1]), split(3, "M", [1])],
        {"at": 3, "no": "NotAtSource"},
    ),
    ("a posting withdrawn before the split", [withdraw(1), split(2, "L", [1])], {"at": 2, "no": "Withdrawn"}),
    ("a posting at what has ended", [deprecate(7), post("k9", 7)], {"at": 2, "no": "NotLive"}),
    (
        "a key at a reference and at another number",
        [concept("C"), concept("D"), post("k9", "$1"), post("k9", 15)],
        {"at": 4, "no": "KeyReused"},
    ),
    ("a key with the later concept", [post("k9", 9), post("k9", 2)], {"at": 2, "no": "KeyReused"}),
    ("a posting that isn't made yet", [withdraw(3), post("k9", 2)], {"at": 1, "no": "UnknownPosting"}),
    ("a resource that isn't made yet", [label(14, "L"), concept("C")], {"at": 1, "no": "UnknownResource"}),
    ("the wrong kind of resource", [SCHEME, deprecate("$1")], {"at": 2, "no": "WrongKind"}),
    ("the first of two refusals", [concept("C"), withdraw(99), deprecate(1)], {"at": 2, "no": "UnknownPosting"}),
    (
        "the last of 128",
        [*(concept(f"C{n}") for n in range(MOST - 1)), deprecate(1)],
        {"at": MOST, "no": "WrongKind"},
    ),
]


def refusals() -> Iterator[Case]:
    """Plans that are refused."""
    for name, request in REFUSALS.items():
        for at, where, plan in placed(request):
            yield case(f"{name}, {where}", plan, {"at": at, "no": name})
    for at, where, plan in placed(outside("http://example.org/x")):
        yield case(f"OutsideKnown, {where}", plan, {"at": at, **KNOWN})
    for name, asked, answer in WITHIN:
        yield case(name, asked, answer)


# --- What is done ---

DONE = {"done": True}


def ok(number: int) -> Answer:
    return {"ok": number}


# Plans that are done, with the answers of their requests.
ACCEPTED: list[tuple[str, list[Request], list[Answer]]] = [
    ("a scheme", [SCHEME], [ok(14)]),
    (
        "a scheme with a concept and a collection",
        [SCHEME, concept("C", "$1"), {**COLLECTION, "scheme": "$1"}],
        [*map(ok, (14, 15, 16))],
    ),
    ("a concept with its labels", [concept("C"), label("$1", "D"), label("$1", "E", "hidden")], [ok(14), DONE, DONE]),
    ("a label that is dropped again", [concept("C"), label("$1", "D"), drop("$1", "D")], [ok(14), DONE, DONE]),
    ("a label of before that is dropped", [drop(2, "Kitties"), concept("C")], [DONE, ok(14)]),
    ("a term that is replaced", [concept("C"), relabel("$1", "D", True), concept("C")], [ok(14), DONE, ok(15)]),
    ("two concepts with a link", [concept("C"), concept("D"), link("broader", "$1", "$2")], [ok(14), ok(15), DONE]),
    (
        "a link and its end",
        [concept("C"), link("related", 3, "$1"), link("related", "$1", 3, "unlink")],
        [ok(14), DONE, DONE],
    ),
    (
        "a link from an earlier concept and its end",
        [concept("C"), link("broader", 3, "$1"), link("broader", 3, "$1", "unlink")],
        [ok(14), DONE, DONE],
    ),
    ("a member", [COLLECTION, concept("C"), link("member", "$1", "$2")], [ok(14), ok(15), DONE]),
    ("a mapping", [outside("http://example.org/y"), link("exact", 2, "$1")], [ok(14), DONE]),
    ("a concept and its end", [concept("C"), deprecate("$1")], [ok(14), DONE]),
    ("a merge of a new concept", [concept("C"), merge("$1", 2)], [ok(14), {"moved": 0}]),
    ("a merge into a new concept", [concept("C"), merge(2, "$1")], [ok(14), {"moved": 1}]),
    ("a split of what was posted", [post("k9", 2), split(2, "L", [1, "$1"])], [ok(3), {"moved": 2, "ok": 14}]),
    (
        "a split of what was split off",
        [split(2, "L", [1]), split("$1", "M", [1])],
        [{"moved": 1, "ok": 14}, {"moved": 1, "ok": 15}],
    ),
    (
        "a concept of a split is merged back",
        [split(2, "L", [1]), merge("$1", 2)],
        [{"moved": 1, "ok": 14}, {"moved": 1}],
    ),
    ("a posting and its end", [post("k9", 2), withdraw("$1")], [ok(3), DONE]),
    ("a posting at a new concept", [concept("C"), post("k9", "$1"), merge("$1", 3)], [ok(14), ok(3), {"moved": 1}]),
    ("a posting that is known", [post("k1", 2, "r1"), withdraw("$1")], [{"again": 1}, DONE]),
    ("a posting twice", [post("k9", 2), post("k9", 2), withdraw("$2")], [ok(3), {"again": 3}, DONE]),
    (
        "a key at a reference and at its number",
        [concept("C"), post("k9", "$1"), post("k9", 14)],
        [ok(14), ok(3), {"again": 3}],
    ),
    (
        "a key at a number and at a reference to it",
        [concept("C"), post("k9", 14), post("k9", "$1"), withdraw("$3")],
        [ok(14), ok(3), {"again": 3}, DONE],
    ),
    ("a posting at a merged concept", [post("k9", 9), split(2, "L", ["$1"])], [ok(3), {"moved": 1, "ok": 14}]),
    (
        "a posting at what is merged now",
        [merge(3, 7), post("k9", 3), split(7, "L", ["$2"])],
        [{"moved": 0}, ok(3), {"moved": 1, "ok": 14}],
    ),
    ("a record is indexed anew", [post("k9", 3, "r1"), withdraw(1), deprecate(7)], [ok(3), DONE, DONE]),
    ("a concept is free once its posting has ended", [withdraw(1), deprecate(2)], [DONE, DONE]),
    ("a concept moves", [link("broader", 2, 5), link("broader", 2, 4, "unlink")], [DONE, DONE]),
    ("a way is turned round", [link("broader", 2, 4, "unlink"), link("broader", 4, 2)], [DONE, DONE]),
    ("two terms are swapped", [relabel(2, "x"), relabel(3, "Cats"), relabel(2, "Dogs")], [DONE, DONE, DONE]),
    ("a term that has become free", [deprecate(7), concept("Wolves")], [DONE, ok(14)]),
    ("a text like a reference", [concept("$1"), label("$1", "$2"), post("$1", "$1", "$1")], [ok(14), DONE, ok(3)]),
    ("a known posting alone", [post("k1", 2, "r1")], [{"again": 1}]),
    ("known postings alone", [post("k1", 2, "r1"), post("k2", 2, "r2")], [{"again": 1}, {"again": 2}]),
    ("128 concepts", [concept(f"C{n}") for n in range(MOST)], [ok(14 + n) for n in range(MOST)]),
    (
        "a chain of 64 concepts",
        [
            concept("C0"),
            *(
                it
                for n in range(1, 64)
                for it in (concept(f"C{n}"), link("broader", f"${max(1, 2 * n - 2)}", f"${2 * n}"))
            ),
        ],
        [ok(14), *(it for n in range(1, 64) for it in (ok(14 + n), DONE))],
    ),
]
# References that are written otherwise.
WRITTEN: list[Case] = [
    Case(
        "an escape",
        b'[{"do":"post","key":"k9","record":"r","concept":2},{"do":"withdraw","posting":"\\u00241"}]',
        {"done": [ok(3), DONE]},
    ),
    Case(
        "escapes",
        b' [ {"concept":2,"do":"post","record":"r","key":"k9"} ,\n {"posting":"\\u0024\\u0031","do":"withdraw"}]\t',
        {"done": [ok(3), DONE]},
    ),
    Case(
        "the last of two members",
        b'[{"do":"post","key":"k9","record":"r","concept":2},{"do":"withdraw","posting":"$0","posting":"$1"}]',
        {"done": [ok(3), DONE]},
    ),
    Case("a number of the other form", b'[{"do":"withdraw","posting":1}]', {"done": [DONE]}),
]


def accepted() -> Iterator[Case]:
    """Plans that are done."""
    for name, plan, answers in ACCEPTED:
        yield case(name, plan, {"done": answers})
    yield from WRITTEN


# --- Limits ---

# A limit, a plan that exceeds it only for a while or at its end, and the answer.
LIMITS: list[tuple[str, int, list[Any], Answer]] = [
    *(("links", 3, plan, {"at": at, "no": "TooMany"}) for at, _, plan in placed(link("broader", 3, 4))),
    ("resources", 14, [concept("C"), concept("D")], {"at": 2, "no": "TooMany"}),
    ("labels", 15, [label(2, "L"), label(3, "M")], {"at": 2, "no": "TooMany"}),
    (
        "links",
        4,
        [link("broader", 3, 4), link("broader", 6, 4), link("broader", 3, 4, "unlink")],
        {"at": 2, "no": "TooMany"},
    ),
    ("postings", 3, [post("k8", 2), post("k8", 2), post("k9", 2)], {"at": 3, "no": "TooMany"}),
    ("moves", 1, [merge(2, 3), merge(3, 7)], {"at": 2, "no": "TooMany"}),
    ("links", 4, [link("broader", 3, 4), link("broader", 3, 4, "unlink"), link("broader", 6, 4)], {"done": [DONE] * 3}),
]
