"""Runs one after another over a store in a file: what one answered holds in the next, and what it is answered twice."""
from __future__ import annotations

import shutil
from pathlib import Path
from typing import Any

import pytest
from animals import MADE, MERGED, MERGED_ANSWERS, MERGED_SIZES, START, TAKEN, VIEWED, VIEWS, rows_in
from program import lines_of, over, run, values_of

NO_SIZES = b"ok resources=0 labels=0 links=0 accepted=0 withdrawn=0 moves=0\n"
# A known key is checked first, and a new one at a merged concept follows the merge.
KEYS = b"""\
{"do":"withdraw","posting":1}
{"do":"post","key":"k1","record":"r1","concept":2}
{"do":"post","key":"k1","record":"r2","concept":2}
{"do":"post","key":"k1","record":"r1","concept":3}
{"do":"withdraw","posting":1}
{"do":"withdraw","posting":7}
{"do":"post","key":"k2","record":"r1","concept":2}
{"get":"posting","number":2}
{"get":"totals"}
"""
KEYS_ANSWERS = b"""\
{"done":true}
{"again":1}
{"no":"KeyReused"}
{"no":"KeyReused"}
{"no":"Withdrawn"}
{"no":"UnknownPosting"}
{"ok":2}
{"first":2,"key":"k2","moves":[[2,2,3]],"number":2,"place":3,"record":"r1","withdrawn":false}
{"accepted":2,"standing":1,"withdrawn":1}
"""
# What each request is answered when it is sent a second time; a collection and a scheme are made twice.
TWICE: list[tuple[dict[str, Any], dict[str, Any]]] = [
    ({"do": "outside", "iri": "http://example.org/x"}, {"no": "OutsideKnown", "number": 5}),
    ({"do": "concept", "scheme": 1, "tag": "en", "text": "Dogs"}, {"no": "PreferredTaken"}),
    ({"do": "addLabel", "owner": 2, "kind": "alt", "tag": "en", "text": "Kitties"}, {"no": "LabelThere"}),
    ({"do": "addLabel", "owner": 2, "kind": "pref", "tag": "de", "text": "Katzen"}, {"no": "LabelThere"}),
    ({"do": "dropLabel", "owner": 2, "kind": "alt", "tag": "en", "text": "Kitties"}, {"no": "NoSuchLabel"}),
    ({"do": "relabel", "owner": 2, "tag": "en", "text": "Felines", "keep": True}, {"no": "S13"}),
    ({"do": "relabel", "owner": 2, "tag": "en", "text": "Felidae", "keep": False}, {"done": True}),
    ({"do": "link", "kind": "broader", "a": 2, "b": 3}, {"no": "LinkThere"}),
    ({"do": "unlink", "kind": "broader", "a": 2, "b": 3}, {"no": "NoSuchLink"}),
    ({"do": "post", "key": "k1", "record": "r1", "concept": 2}, {"again": 1}),
    ({"do": "post", "key": "k2", "record": "r2", "concept": 2}, {"again": 2}),
    ({"do": "withdraw", "posting": 2}, {"no": "Withdrawn"}),
    ({"do": "split", "source": 2, "tag": "en", "text": "Lions", "postings": [1]}, {"no": "NotAtSource"}),
    ({"do": "split", "source": 2, "tag": "en", "text": "Tigers", "postings": []}, {"no": "PreferredTaken"}),
    ({"do": "deprecate", "concept": 6}, {"no": "NotLive"}),
    ({"do": "merge", "source": 2, "target": 3}, {"no": "NotLive"}),
    ({"do": "collection", "scheme": 1, "tag": "en", "text": "Pets"}, {"ok": 10}),
    ({"do": "scheme", "tag": "en", "text": "Animals"}, {"ok": 12}),
]


def test_answers_hold_in_later_runs(tmp_path: Path) -> None:
    path = tmp_path / "museum.db"
    assert over(path, "script", MERGED) == (0, MERGED_ANSWERS, b"")
    assert over(path, "script", VIEWS) == (0, VIEWED, b"")
    assert over(path, "check") == (0, MERGED_SIZES, b"")
    alone = shutil.copyfile(path, tmp_path / "alone.db")
    assert over(alone, "check") == (0, MERGED_SIZES, b""), "the database without its log"
    dogs = b'{"do":"concept","scheme":1,"tag":"en","text":"Dogs"}\n'
    assert over(path, "script", dogs) == (0, b'{"ok":5}\n', b"")
    assert over(path, "script", dogs) == TAKEN


def test_keys_are_known_in_later_runs(tmp_path: Path) -> None:
    parts = MERGED, b'{"do":"post","key":"k1","record":"r1","concept":2}\n' + KEYS
    answers = MERGED_ANSWERS, b'{"again":1}\n' + KEYS_ANSWERS
    one, two = tmp_path / "one.db", tmp_path / "two.db"
    assert over(one, "script", b"".join(parts)) == (1, b"".join(answers), b"")
    for given, wanted, status in zip(parts, answers, (0, 1)):
        assert over(two, "script", given) == (status, wanted, b"")
    assert rows_in(one) == rows_in(two)


def test_nothing_is_kept_without_a_file() -> None:
    assert run(["check"]) == (0, NO_SIZES, b"")
    assert [run(["script"], START) for _ in range(2)] == [(0, MADE, b"")] * 2


def test_store_keeps_the_base_that_it_was_made_with(tmp_path: Path) -> None:
    ours, others = "http://museum.example/", "http://library.example/"

    def outside(n: int) -> bytes:
        return lines_of({"do": "outside", "iri": f"{base}{n}"} for base in (ours, others))

    answers = b'{"no":"WrongKind"}\n{"ok":1}\n'
    path = tmp_path / "based.db"
    assert over(path, "script", outside(1), "--base", ours) == (1, answers, b"")
    assert over(path, "script", outside(2), "--base", others) == (1, answers.replace(b"1", b"2"), b"")
    assert run(["--base", ours, "script"], outside(1)) == (1, answers, b"")


def test_base_without_its_form_is_refused(tmp_path: Path) -> None:
    made, none = tmp_path / "made.db", tmp_path / "none.db"
    over(made, "script", START)
    for path in (made, none):
        assert over(path, "script", START, "--base", "museum") == (2, b"", b"thesaurus: BadIri\n")
    assert not none.exists()


@pytest.fixture(scope="module")
def sent_twice(tmp_path_factory: pytest.TempPathFactory) -> list[list[dict[str, Any]]]:
    """The answers to each request of TWICE, sent twice, one after another over one store."""
    path = tmp_path_factory.mktemp("twice") / "twice.db"
    over(path, "script", START)
    return [
        [answer for _ in range(2) for answer in values_of(over(path, "script", lines_of([request])).out)]
        for request, _ in TWICE
    ]


@pytest.mark.parametrize("place", range(len(TWICE)), ids=[f"{n}-{it['do']}" for n, (it, _) in enumerate(TWICE)])
def test_request_that_is_sent_again(place: int, sent_twice: list[list[dict[str, Any]]]) -> None:
    first, second = sent_twice[place]
    assert "no" not in first
    assert second == TWICE[place][1]
