"""Finding by beginning, word, typing error, number, IRI, old code and record, beside a search without an index."""
from __future__ import annotations


import contextlib
import sqlite3
import pytest
from dice import Dice
from made_replica import MadeReplica
from thesaurus_desk.store.changes import Changes
from thesaurus_desk.store.export_replica import ExportReplica
from thesaurus_desk.store.plan_execution import Desk
from thesaurus_desk.store.replica import Replica
from thesaurus_desk.store.search import LabelFilter
from thesaurus_desk.store.search import LONG
from thesaurus_desk.store.text_keys import WORD, fold
from thesaurus_tools.table_store import TABLES_VERSION
from whole import resources

BASE = "https://thesaurus.example/id/"
LETTERS = "aeiolnrst"


def is_alike(start: str, word: str) -> bool:
    """Whether a word begins with a start but for one letter too many, missing, another one, or two swapped."""
    for at in range(len(start)):
        rest = start[at + 1 :]
        if word.startswith(start[:at] + rest):
            return True
        if rest and word.startswith(start[:at] + rest[0] + start[at] + rest[1:]):
            return True
        if word.startswith(start[:at]) and word[at + 1 :].startswith((start[at:], rest)) and len(word) > at:
            return True
    return False


def found_without_index(labels: list[str], query: str, forgives: bool) -> set[str]:
    """The labels that a query finds: by their beginning, or by a word for each word; or with one typing error."""
    folded = fold(query.strip())
    starts = WORD.findall(folded)

    def matches(label: str, wrong: int | None) -> bool:
        words = WORD.findall(fold(label))
        return all(
            any(is_alike(start, it) if place == wrong else it.startswith(start) for it in words)
            for place, start in enumerate(starts)
        )

    exact = {it for it in labels if fold(it).startswith(folded) or matches(it, None)}
    if exact or not forgives:
        return exact
    return {it for it in labels for place, start in enumerate(starts) if len(start) >= LONG and matches(it, place)}


@pytest.mark.parametrize("seed", range(4))
def test_like_a_search_without_index(seed: int) -> None:
    dice = Dice(seed)

    def word() -> str:
        return "".join(dice.pick(LETTERS) for _ in range(dice.between(2, 9)))

    labels = sorted({" ".join(word() for _ in range(dice.between(1, 3))).title() for _ in range(400)})
    rows = [(number, 1, "en", text) for number, text in enumerate(labels, 2)]
    owners: list[tuple[object, ...]] = [(1, 1, None, 1, None), *((number, 2, 1, 1, None) for number, *_ in rows)]
    replica = ExportReplica({"meta": [(1, TABLES_VERSION, BASE)], "resource": owners, "label": [(*it,) for it in rows]})
    with contextlib.closing(sqlite3.connect(replica.path, isolation_level=None)) as tables:
        Changes(tables).make([["delete", "label", *row] for row in rows[::3]])
    index = replica.index
    left = [row[3] for place, row in enumerate(rows) if place % 3]
    alike = 0
    for _ in range(400):
        words = dice.pick(labels).split() if dice.below(4) else [word() for _ in range(dice.between(1, 2))]
        text = " ".join(it[: dice.between(1, len(it))] for it in words)
        at = dice.below(len(text))
        changed = (text[:at] + text[at + 1 :], text[:at] + dice.pick(LETTERS) + text[at:])
        text = dice.pick((text, text.upper(), *changed, *changed))
        hits = index.find(text, LabelFilter(), most=1000)
        assert {it.text for it in hits} == (found_without_index(left, text, True) if WORD.findall(text) else set())
        assert len({it.number for it in hits}) == len(hits)
        alike += any(it.is_alike for it in hits)
        assert {it.is_alike for it in hits} <= {not found_without_index(left, text, False)}
    assert alike > 20


@pytest.fixture
def replica() -> Replica:
    """A replica of a few concepts."""
    return MadeReplica(
        {"do": "scheme", "tag": "en", "text": "Instruments"},
        {"do": "concept", "scheme": 1, "tag": "en", "text": "Violins"},
        {"do": "concept", "scheme": 1, "tag": "en", "text": "Violins, small"},
        {"do": "concept", "scheme": 1, "tag": "fr", "text": "Flûtes à bec"},
        {"do": "concept", "scheme": 1, "tag": "de", "text": "Straßenorgeln"},
        {"do": "collection", "scheme": 1, "tag": "en", "text": "Violin room"},
        {"do": "outside", "iri": "http://example.org/violin"},
        {"do": "concept", "scheme": 1, "tag": "en", "text": "Old violins"},
        {"do": "addLabel", "owner": 2, "kind": "hidden", "tag": "en", "text": "INV-0815"},
        {"do": "addLabel", "owner": 2, "kind": "alt", "tag": "de", "text": "Geigen"},
        {"do": "addLabel", "owner": 2, "kind": "alt", "tag": "en", "text": "Fiddles"},
        {"do": "deprecate", "concept": 8},
        base=BASE,
    )


@pytest.mark.parametrize(
    "query,numbers",
    [
        ("violins", [2, 3, 8]),
        ("VIOLINS", [2, 3, 8]),
        ("small viol", [3]),
        ("flutes", [4]),
        ("flutes a b", [4]),
        ("bec", [4]),
        ("strasse", [5]),
        ("STRASSEN", [5]),
        ("inv-0815", [2]),
        ("0815", [2]),
        ("geige", [2]),
        ("viloins", [2, 8, 3]),
        ("vioilns sm", [3]),
        ("vilin", [2, 8, 3]),
        ("fidlse", []),
        ("violns", [2, 8, 3]),
        ("xiol", []),
        ("", []),
        ("...", []),
        ("2", [2]),
        ("#5", [5]),
        ("99", []),
        (f"{BASE}4", [4]),
        (f"{BASE}04", []),
        ("http://example.org/violin", []),
    ],
)
def test_concepts(replica: Replica, query: str, numbers: list[int]) -> None:
    assert [it.number for it in replica.search(query)] == numbers


def test_filters(replica: Replica) -> None:
    assert [it.number for it in replica.search("viol", live=True)] == [2, 3]
    assert [it.number for it in replica.search("viol", live=False)] == [8]
    assert [it.number for it in replica.search("viol", kinds=("collection",))] == [6]
    assert [it.number for it in replica.search("http://example.org/violin", kinds=("outside",))] == [7]
    assert [it.number for it in replica.search("f", lang="fr")] == [4] and replica.search("f", lang="de") == []
    assert [it.text for it in replica.search("g", prefer="de")] == ["Geigen"]
    assert [it.number for it in replica.search("f", prefer="fr")] == [4, 2]
    assert replica.search("viol", scheme=9) == [] and len(replica.search("viol", most=1)) == 1


def test_letters(replica: Replica) -> None:
    assert replica.letters() == sorted(
        {fold(text)[0] for it in resources(replica).values() for kind, _, text in it.labels}
    )
    assert [it.text for it in replica.beginning("v", "en")] == ["Violins", "Violins, small"]
    assert [it.text for it in replica.beginning("f", "en")] == ["Fiddles"]


def test_records(desk: Desk) -> None:
    names = ["Violin 1668", "violin 1700", "Case of a violin", "Über 3"]
    posts = [{"do": "post", "key": f"r{n}", "record": it, "concept": 5} for n, it in enumerate(names)]
    assert desk.perform("anna", "post", posts).is_done
    find = desk.replica.postings.records_like
    assert find("VIOLIN") == ["Violin 1668", "violin 1700", "Case of a violin"]
    assert find("uber") == ["Über 3"] and find("violin", 1) == ["Violin 1668"] and find(" ") == []
    again = {"do": "post", "key": "r9", "record": "Violin 1699", "concept": 5}
    assert desk.perform("anna", "post", [again]).is_done
    assert find("violin 1") == ["Violin 1668", "Violin 1699", "violin 1700"]
