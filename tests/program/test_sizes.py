"""Sizes at which a body could give up without breaking a contract: each request is answered as at any other size. Each
of the five limits is reached, and then one more is refused: in memory, and over a store in a file, which is then
checked, exported, imported into and split."""
from __future__ import annotations

import contextlib
import json
import sqlite3
import tempfile
from collections.abc import Callable, Iterator
from pathlib import Path
from typing import Any

import pytest
from program import MEMORY, answers_to, lines_of, over, values_of

Request = dict[str, Any]
# A request, and its answer, or a test of that.
Exchange = tuple[Any, Any]
DONE = {"done": True}


def concept(text: str, scheme: int = 1) -> Request:
    return {"do": "concept", "scheme": scheme, "tag": "en", "text": text}


def link(a: int, b: int, kind: str = "broader") -> Request:
    return {"do": "link", "kind": kind, "a": a, "b": b}


def start(concepts: int) -> list[Exchange]:
    """A scheme with `concepts` concepts, numbered from 2."""
    scheme = {"do": "scheme", "tag": "en", "text": "Animals"}
    return [(scheme, {"ok": 1})] + [(concept(f"Concept {n}"), {"ok": n}) for n in range(2, concepts + 2)]


def resources() -> list[Exchange]:
    """20,000 resources, as many as there may be, all but one of them concepts of one scheme."""
    return start(19_999) + [(concept("Concept 7"), {"no": "PreferredTaken"}), (concept("One more"), {"no": "TooMany"})]


def narrower() -> list[Exchange]:
    """2,000 concepts below one, which is then put below another."""
    links = [(link(n, 2), DONE) for n in range(4, 2004)]

    def shown(answer: Request) -> bool:
        return answer["narrower"] == list(range(4, 2004))

    after = [({"get": "concept", "number": 2}, shown), (link(2, 3), DONE), (link(3, 2000), {"no": "Cycle"})]
    return start(2002) + links + after


def chain() -> list[Exchange]:
    """A chain of 2,000 concepts, each below the one before."""
    links = [(link(n + 1, n), DONE) for n in range(2, 2001)]
    return start(2000) + links + [(link(2, 2001), {"no": "Cycle"}), (link(2, 2001, "related"), {"no": "S27"})]


def star() -> list[Exchange]:
    """100 concepts related to one, 100 exact matches of it, and a merge of it."""
    outside = [({"do": "outside", "iri": f"http://example.org/{n}"}, {"ok": n}) for n in range(104, 204)]
    related = [(link(2, n, "related"), DONE) for n in range(4, 104)]
    exact = [(link(2, n, "exact"), DONE) for n in range(104, 204)]
    merge = [({"do": "merge", "source": 2, "target": 3}, {"moved": 0})]
    mappings = [["exact", n] for n in range(104, 204)]

    def is_all(answer: Request) -> bool:
        return answer["related"] == list(range(4, 104)) and answer["mappings"] == mappings

    return start(102) + outside + related + exact + merge + [({"get": "concept", "number": 3}, is_all)]


def postings() -> list[Exchange]:
    """A split, a view and a merge of 2,000 postings."""
    posts = [({"do": "post", "key": f"k{n}", "record": f"r{n}", "concept": 2}, {"ok": n}) for n in range(1, 2001)]
    listed = {"do": "split", "source": 2, "tag": "en", "text": "Kittens", "postings": list(range(2000, 0, -1))}
    rows = {"postings": [[n, f"k{n}", f"r{n}"] for n in range(1, 2001)]}
    view = [({"get": "postings", "concept": 4}, rows), ({"get": "postings", "concept": 2}, {"postings": []})]
    merge = [({"do": "merge", "source": 4, "target": 3}, {"moved": 2000}), ({"get": "postings", "concept": 3}, rows)]
    return start(2) + posts + [(listed, {"moved": 2000, "ok": 4})] + view + merge


def book() -> list[Exchange]:
    """100,000 postings, as many as there may be, and then 1,000,000 moves of them, as many as there may be."""

    def post(n: int, concept: int = 2) -> Request:
        return {"do": "post", "key": f"k{n}", "record": f"r{n}", "concept": concept}

    posts = [(post(n), {"ok": n}) for n in range(1, 100_001)]
    full = [(post(0), {"no": "TooMany"}), (post(7), {"again": 7}), (post(7, 3), {"no": "KeyReused"})]
    merges = [({"do": "merge", "source": n, "target": n + 1}, {"moved": 100_000}) for n in range(2, 12)]
    moved = [({"do": "merge", "source": 12, "target": 13}, {"no": "TooMany"})]
    totals = [({"get": "totals"}, {"accepted": 100_000, "standing": 100_000, "withdrawn": 0})]
    return start(12) + posts + full + merges + moved + totals


def add_label(owner: int, tag: str, n: int) -> Request:
    return {"do": "addLabel", "owner": owner, "kind": "alt", "tag": tag, "text": f"Name {n:03}"}


def labels() -> list[Exchange]:
    """1,000 labels of one concept, in ten languages, half of which another concept takes in a merge."""
    tags = [f"x-{letter}" for letter in "abcdefghij"]
    added = [(add_label(2, tag, n), DONE) for tag in tags for n in range(100)]
    added += [(add_label(3, tag, n), DONE) for tag in tags for n in range(50)]
    held = [[tag, f"Name {n:03}"] for tag in tags for n in range(100)]

    def is_all(answer: Request) -> bool:
        return answer["alt"] == [["en", "Concept 2"], *held]

    merge = [({"do": "merge", "source": 2, "target": 3}, {"moved": 0})]
    return start(2) + added + merge + [({"get": "concept", "number": 3}, is_all)]


def vocabulary() -> list[Exchange]:
    """200,000 labels, as many as there may be, 200 each of 1,000 owners."""
    added = [(add_label(owner, "de", n), DONE) for owner in range(2, 1001) for n in range(199)]
    last = [(add_label(1, "de", n), DONE) for n in range(199)]
    return start(999) + added + last + [(add_label(1, "de", 200), {"no": "TooMany"})]


def links() -> list[Exchange]:
    """200,000 links, as many as there may be: 1,000 concepts with 200 close matches each."""
    outside = [({"do": "outside", "iri": f"http://example.org/{n}"}, {"ok": n}) for n in range(1002, 1202)]
    close = [(link(n, m, "close"), DONE) for n in range(2, 1002) for m in range(1002, 1202)]
    more = [(link(2, 3), {"no": "TooMany"}), (link(2, 1002, "close"), {"no": "LinkThere"})]
    return start(1000) + outside + close + more


def moves() -> list[Exchange]:
    """A posting that 300 merges move, one after another."""
    post = ({"do": "post", "key": "k1", "record": "r1", "concept": 2}, {"ok": 1})
    merges = [({"do": "merge", "source": n, "target": n + 1}, {"moved": 1}) for n in range(2, 302)]

    def is_all(answer: Request) -> bool:
        return answer["moves"] == [[n - 1, n, n + 1] for n in range(2, 302)] and answer["place"] == 302

    return start(301) + [post] + merges + [({"get": "posting", "number": 1}, is_all)]


def schemes() -> list[Exchange]:
    """1,000 schemes, each with a concept of the same name and a collection, to which the concept belongs."""
    made: list[Exchange] = []
    for n in range(1, 3001, 3):
        scheme = {"do": "scheme", "tag": "en", "text": f"Scheme {n}"}
        collection = {"do": "collection", "scheme": n, "tag": "en", "text": "Pets"}
        member = {"do": "link", "kind": "member", "a": n + 2, "b": n + 1}
        made += [(scheme, {"ok": n}), (concept("Cats", n), {"ok": n + 1}), (collection, {"ok": n + 2}), (member, DONE)]
    return made + [(concept("Cats", 1), {"no": "PreferredTaken"}), (concept("Cats", 2998), {"no": "PreferredTaken"})]


def matches() -> list[Exchange]:
    """2,000 outside concepts, one an exact match of a concept and all others its broader matches, so that each of these
    is judged in a class with up to 2,000 links; and 300 collections of another concept."""

    def iri(n: int) -> Request:
        return {"do": "outside", "iri": f"http://example.org/{n}"}

    outside = [(iri(n), {"ok": n}) for n in range(4, 2004)] + [(iri(2003), {"no": "OutsideKnown", "number": 2003})]
    exact = [(link(2, 4, "exact"), DONE)]
    broad = [(link(2, n, "broad"), DONE) for n in range(5, 2004)]
    collection = {"do": "collection", "scheme": 1, "tag": "en", "text": "Pets"}
    members = [it for n in range(2004, 2304) for it in ((collection, {"ok": n}), (link(n, 3, "member"), DONE))]

    def has_all(answer: Request) -> bool:
        return answer["mappings"] == [["broad", n] for n in range(5, 2004)] + [["exact", 4]]

    def in_all(answer: Request) -> bool:
        return answer["collections"] == list(range(2004, 2304))

    shown = [({"get": "concept", "number": 2}, has_all), ({"get": "concept", "number": 3}, in_all)]
    return start(2) + outside + exact + broad + members + shown


SCRIPTS = (resources, narrower, chain, star, postings, book, labels, vocabulary, links, moves, schemes, matches)


def check_answers(exchanges: list[Exchange], answers: list[Request]) -> None:
    for (request, wanted), answer in zip(exchanges, answers):
        assert wanted(answer) if callable(wanted) else answer == wanted, (json.dumps(request)[:120], answer)
    assert len(answers) == len(exchanges)


@pytest.mark.parametrize("script", SCRIPTS, ids=lambda it: it.__name__)
def test_script(script: Callable[[], list[Exchange]]) -> None:
    exchanges = script()
    check_answers(exchanges, [json.loads(it) for it in answers_to([request for request, _ in exchanges])])


# --- files ---


@pytest.fixture
def room() -> Iterator[Path]:
    """A folder in memory."""
    with tempfile.TemporaryDirectory(dir=MEMORY) as place:
        yield Path(place)


def run_script(path: Path, exchanges: list[Exchange]) -> None:
    """Runs a script over the store in a file, and checks its answers."""
    ended = over(path, "script", lines_of(request for request, _ in exchanges))
    check_answers(exchanges, values_of(ended.out))


def check_store(path: Path, sizes: tuple[int, ...], lines: int) -> None:
    """Checks that a store has these sizes, and that its export has this number of lines, the last one complete."""
    names = ("resources", "labels", "links", "accepted", "withdrawn", "moves")
    wanted = f"ok {' '.join(f'{name}={size}' for name, size in zip(names, sizes))}\n".encode()
    assert over(path, "check") == (0, wanted, b"")
    exported = over(path, "export")
    assert (exported.status, exported.out.count(b" .\n")) == (0, lines) and exported.out.endswith(b" .\n")


def test_store_as_large_as_it_may_be(room: Path) -> None:
    """It has as many resources, labels, links, postings and moves as there may be; one more of each is refused."""
    path, concepts, outside = room / "limits", range(2, 19_801), range(19_801, 20_001)
    over(path, "script", b"")
    labels = [(n, 1, "en", f"Concept {n}") for n in (1, *concepts)]
    labels += [(owner, 2, "de", f"Name {n}") for owner in range(2, 1804) for n in range(100)]
    links = [(4, n, m) for n in range(2, 1002) for m in outside]
    moves_back_and_forth = (
        (10 * n + step - 9, n, 2 + step % 2, 3 - step % 2) for n in range(1, 100_001) for step in range(10)
    )
    with contextlib.closing(sqlite3.connect(path)) as base, base:
        base.execute("INSERT INTO resource VALUES (1, 1, NULL, 1, NULL)")
        base.executemany("INSERT INTO resource VALUES (?, 2, 1, 1, NULL)", ((n,) for n in concepts))
        base.executemany("INSERT INTO resource VALUES (?, 4, NULL, 1, NULL)", ((n,) for n in outside))
        base.executemany("INSERT INTO outside VALUES (?, ?)", ((n, f"http://example.org/{n}") for n in outside))
        base.executemany("INSERT INTO label VALUES (?, ?, ?, ?)", labels)
        base.executemany("INSERT INTO link VALUES (?, ?, ?)", links)
        base.executemany(
            "INSERT INTO posting VALUES (?, ?, ?, 2, 2, 0)", ((n, f"k{n}", f"r{n}") for n in range(1, 100_001))
        )
        base.executemany("INSERT INTO move VALUES (?, ?, ?, ?)", moves_back_and_forth)
    check_store(
        path, (20_000, len(labels), len(links), 100_000, 0, 1_000_000), 2 + 5 * len(concepts) + 180_200 + len(links)
    )
    more = [
        concept("One more"),
        add_label(2, "fr", 1),
        link(2, 3),
        {"do": "post", "key": "k0", "record": "r0", "concept": 2},
        {"do": "merge", "source": 2, "target": 3},
    ]
    run_script(path, [(it, {"no": "TooMany"}) for it in more])


def test_split_of_all_postings_in_a_file(room: Path) -> None:
    """100,000 postings are imported into a file, and all of them are split off."""
    path, rows = room / "postings", room / "rows.csv"
    run_script(path, start(2))
    rows.write_text("key,record,concept\n" + "".join(f"k{n},r{n},2\n" for n in range(1, 100_001)), encoding="ascii")
    imported = over(path, "import", after=[rows])
    assert (imported.status, imported.out.count(b",new,"), imported.err) == (0, 100_000, b"")
    assert imported.out.endswith(b"\n100000,new,100000\n")
    split = {"do": "split", "source": 2, "tag": "en", "text": "Kittens", "postings": list(range(100_000, 0, -1))}
    run_script(
        path,
        [
            (split, {"moved": 100_000, "ok": 4}),
            ({"get": "totals"}, {"accepted": 100_000, "standing": 100_000, "withdrawn": 0}),
        ],
    )
    check_store(path, (4, 4, 0, 100_000, 0, 100_000), 2 + 5 * 3)
