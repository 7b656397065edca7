"""Tests tools/from-table: each kind of table, each form of file, lists that come back, and rows that are refused."""
from __future__ import annotations

import csv
import datetime
import io
import json
import subprocess
import sys
import tempfile
import zipfile
from collections.abc import Sequence
from dataclasses import dataclass
from pathlib import Path
from typing import Any

import pytest
from office import TOOLS, tool, tool_with_use
from program import Ended, built
from thesaurus_tools import table_process
from thesaurus_tools.formulas import guard, remove_guard
from thesaurus_tools.system_python import SYSTEM_PYTHON

BASE = "https://museum.example/id/"
SCRIPT: list[dict[str, object]] = [
    {"do": "scheme", "tag": "en", "text": "Instruments"},
    {"do": "concept", "scheme": 1, "tag": "en", "text": "Strings"},
    {"do": "concept", "scheme": 1, "tag": "en", "text": "Violins"},
    {"do": "concept", "scheme": 1, "tag": "en", "text": "Fiddles"},
    {"do": "concept", "scheme": 1, "tag": "en", "text": "Harps"},
    {"do": "addLabel", "owner": 3, "kind": "alt", "tag": "en", "text": "Fine violins"},
    {"do": "addLabel", "owner": 3, "kind": "hidden", "tag": "zxx", "text": "V17"},
    {"do": "addLabel", "owner": 5, "kind": "pref", "tag": "de", "text": "Harfen"},
    {"do": "link", "kind": "broaderGeneric", "a": 3, "b": 2},
    {"do": "link", "kind": "broader", "a": 4, "b": 2},
    {"do": "post", "key": "p1", "record": "Violin 1668", "concept": 3},
    {"do": "collection", "scheme": 1, "tag": "en", "text": "Room 12"},
]


def perform(path: Path, requests: Sequence[dict[str, object]]) -> list[dict[str, object]]:
    """Has the program perform requests, and returns the answers."""
    given = "".join(json.dumps(it) + "\n" for it in requests).encode()
    words = [built(), "--db", path, "--base", BASE, "script"]
    ran = subprocess.run(words, input=given, capture_output=True, check=False)
    return [json.loads(it) for it in ran.stdout.splitlines()]


@pytest.fixture
def store(tmp_path: Path) -> Path:
    """A small thesaurus."""
    path = tmp_path / "museum.db"
    assert not [it for it in perform(path, SCRIPT) if "no" in it]
    return path


def table(folder: Path, *rows: Sequence[str], separator: str = ",", name: str = "table.csv") -> Path:
    """Writes a table."""
    out = io.StringIO()
    csv.writer(out, delimiter=separator).writerows(rows)
    path = folder / name
    path.write_text(out.getvalue(), encoding="utf-8")
    return path


def from_table(path: Path, store: Path, *words: str) -> Ended:
    """Runs the tool over a store."""
    return tool("from-table", path, "--db", store, "--program", built(), *words)


def script_of(ended: Ended) -> list[dict[str, object]]:
    """Returns the requests that the tool wrote."""
    assert ended.status == 0, ended.err.decode()
    return [json.loads(it) for it in ended.out.splitlines()]


def concept(store: Path, number: int) -> dict[str, object]:
    """Returns the program's view of a concept."""
    return perform(store, [{"get": "concept", "number": number}])[0]


# --- kinds of tables ---


def test_new_concepts(store: Path, tmp_path: Path) -> None:
    """A row may have a broader term that an earlier row makes."""
    rows = [
        ("Term (English)", "Deutsch", "Oberbegriff", "Synonym (German)", "SN", "wikidata", "Collection"),
        ("Plucked", "Zupfinstrumente", "Strings", "", "All that is plucked.", "", ""),
        ("Lutes", "Lauten", "Plucked", "Laute|Lautten", "", "http://www.wikidata.org/entity/Q180733", "Room 12"),
    ]
    ended = from_table(table(tmp_path, *rows), store, "--new", "--lang", "en", "--perform")
    assert ended.status == 0, ended.err.decode()
    made = concept(store, 8)
    assert made["pref"] == [["de", "Lauten"], ["en", "Lutes"]]
    assert made["alt"] == [["de", "Laute"], ["de", "Lautten"]]
    assert (made["broader"], made["collections"], made["mappings"]) == ([7], [6], [["exact", 9]])
    assert concept(store, 7)["scope"] == [["en", "All that is plucked."]]


def test_rows_are_in_any_order(store: Path, tmp_path: Path) -> None:
    """A concept is made before those that name it, and a relationship that two rows have by the second of them."""
    rows = [
        ("Term", "Broader term", "Related term", "NT"),
        ("Lutes", "Plucked", "Bowed lutes", ""),
        ("Bowed lutes", "Bowed", "Lutes", ""),
        ("Plucked", "Strings", "", "Lutes|Zithers"),
        ("Bowed", "Strings", "", ""),
        ("Zithers", "", "", ""),
    ]
    ended = from_table(table(tmp_path, *rows), store, "--lang", "en", "--perform")
    assert ended.status == 0, ended.err.decode()
    made = {it["pref"][0][1]: it for it in (concept(store, number) for number in range(7, 12))}  # type: ignore[index]
    numbers = {term: it["number"] for term, it in made.items()}
    assert [*made] == ["Zithers", "Plucked", "Lutes", "Bowed", "Bowed lutes"]
    assert {term: it["broader"] for term, it in made.items()} == {
        "Lutes": [numbers["Plucked"]], "Bowed lutes": [numbers["Bowed"]], "Plucked": [2], "Bowed": [2],
        "Zithers": [numbers["Plucked"]],
    }  # fmt: skip
    assert (made["Lutes"]["related"], made["Bowed lutes"]["related"]) == ([numbers["Bowed lutes"]], [numbers["Lutes"]])


def test_a_script_has_the_rows_as_they_are_done(store: Path, tmp_path: Path) -> None:
    rows = [("Term", "Broader term"), ("Lutes", "Plucked"), ("Plucked", "Strings")]
    texts = [it["text"] for it in script_of(from_table(table(tmp_path, *rows), store, "--lang", "en")) if "text" in it]
    assert texts == ["Plucked", "Lutes"]


def test_a_change_names_what_a_later_row_makes(store: Path, tmp_path: Path) -> None:
    rows = [
        ("do", "concept", "term", "broader", "into"),
        ("change", "4", "", "Bowed", ""),
        ("new", "", "Bowed", "", ""),
    ]
    ended = from_table(table(tmp_path, *rows), store, "--lang", "en", "--perform")
    assert ended.status == 0, ended.err.decode()
    assert concept(store, 4)["broader"] == [2, 7]


def test_rows_that_are_above_each_other(store: Path, tmp_path: Path) -> None:
    path = table(tmp_path, ("Term", "Broader term"), ("Lutes", "Plucked"), ("Plucked", "Lutes"))
    ended = from_table(path, store, "--lang", "en")
    assert (ended.status, ended.out) == (1, b"")
    assert f"{path}:3: row 2 makes “Lutes”, and needs what this row makes, too" in ended.err.decode()


def test_a_new_concept_that_is_there(store: Path, tmp_path: Path) -> None:
    path = table(tmp_path, ("pref@en",), ("Harps",))
    ended = from_table(path, store, "--new", "--lang", "en")
    assert (ended.status, ended.out) == (1, b"")
    assert f"{path}:2: “Harps” is there already: 5 (Harps)" in ended.err.decode()


def test_translations(store: Path, tmp_path: Path) -> None:
    rows = [
        ("number", "term", "pref@de", "alt@de"),
        ("3", "Violins", "Geigen", "Violinen"),
        ("5", "Harps", "Harfen", ""),
    ]
    requests = script_of(from_table(table(tmp_path, *rows), store, "--translations"))
    assert requests == [
        {"do": "addLabel", "owner": 3, "kind": "pref", "tag": "de", "text": "Geigen"},
        {"do": "addLabel", "owner": 3, "kind": "alt", "tag": "de", "text": "Violinen"},
    ]


def test_a_translation_changes_no_term(store: Path, tmp_path: Path) -> None:
    ended = from_table(table(tmp_path, ("number", "pref@de"), ("5", "Harfe")), store, "--translations")
    assert ended.status == 1
    assert "Harps has “Harfen” in de: --renames changes it to “Harfe”" in ended.err.decode()


def test_a_row_about_another_concept(store: Path, tmp_path: Path) -> None:
    """A term beside a number shows that a row was shifted."""
    ended = from_table(table(tmp_path, ("number", "term", "pref@de"), ("3", "Harps", "Harfen")), store)
    assert ended.status == 1 and "3 is Violins, and not “Harps”" in ended.err.decode()


def test_a_cell_replaces(store: Path, tmp_path: Path) -> None:
    """The terms and the note in its place; what is in empty cells, and one of several notes, stays."""
    notes = [("en", "Old note."), ("de", "Eins."), ("de", "Zwei.")]
    more = [{"do": "addLabel", "owner": 3, "kind": "scope", "tag": tag, "text": text} for tag, text in notes]
    other = {"do": "addLabel", "owner": 3, "kind": "alt", "tag": "en", "text": "Stays | as it is"}
    perform(store, [*more, other])
    rows = [
        ("number", "alt@en", "scope@en", "scope@de", "hidden@zxx"),
        ("3", "Best violins|New", "New note.", "Drei.", ""),
    ]
    path = table(tmp_path, *rows)
    assert [it["do"] for it in script_of(from_table(path, store))] == ["addLabel"] * 4
    assert from_table(path, store, "--replace", "--perform").status == 0
    after = concept(store, 3)
    assert after["alt"] == [["en", "Best violins"], ["en", "New"], ["en", "Stays | as it is"]]
    assert after["scope"] == [["de", "Drei."], ["de", "Eins."], ["de", "Zwei."], ["en", "New note."]]
    assert after["hidden"] == [["zxx", "V17"]]
    assert script_of(from_table(path, store, "--replace")) == []


def test_rename_to_an_alternative_term(store: Path, tmp_path: Path) -> None:
    """The two terms are exchanged: one text can't be both (S13)."""
    path = table(tmp_path, ("old", "new"), ("Violins", "Fine violins"))
    ended = from_table(path, store, "--renames", "--lang", "en", "--perform")
    assert ended.status == 0, ended.err.decode()
    assert (concept(store, 3)["pref"], concept(store, 3)["alt"]) == ([["en", "Fine violins"]], [["en", "Violins"]])


# Rows that exchange the terms of Violins (3), Fiddles (4) and Harps (5), and the terms that those have then.
EXCHANGES: dict[str, tuple[list[Sequence[str]], list[str]]] = {
    "by number": ([("number", "new"), ("3", "Fiddles"), ("4", "Violins")], ["Fiddles", "Violins", "Harps"]),
    "by term": ([("old", "new"), ("Violins", "Fiddles"), ("Fiddles", "Violins")], ["Fiddles", "Violins", "Harps"]),
    "with an old term to compare": (
        [("number", "term", "new"), ("3", "Violins", "Fiddles"), ("4", "Fiddles", "Violins")],
        ["Fiddles", "Violins", "Harps"],
    ),
    "three": (
        [("old", "new"), ("Harps", "Violins"), ("Violins", "Fiddles"), ("Fiddles", "Harps")],
        ["Fiddles", "Harps", "Violins"],
    ),
    "three the other way": (
        [("old", "new"), ("Violins", "Harps"), ("Fiddles", "Violins"), ("Harps", "Fiddles")],
        ["Harps", "Violins", "Fiddles"],
    ),
    "a term that a later row gives up": (
        [("old", "new"), ("Violins", "Fiddles"), ("Fiddles", "Harps"), ("Harps", "Lyres")],
        ["Fiddles", "Harps", "Lyres"],
    ),
    "with rows between": (
        [("old", "new", "alt@de"), ("Violins", "Fiddles", ""), ("Fiddles", "", "Fiedel"), ("Fiddles", "Violins", "")],
        ["Fiddles", "Violins", "Harps"],
    ),
}


@dataclass(frozen=True)
class Terms:
    """The English preferred terms of Violins, Fiddles and Harps by their numbers, and their other terms."""

    preferred: list[str]
    others: list[set[str]]


def terms(store: Path) -> Terms:
    """Returns the terms of the three concepts as the program shows them."""
    views: list[Any] = perform(store, [{"get": "concept", "number": it} for it in (3, 4, 5)])
    others = [{text for kind in ("alt", "hidden") for _, text in it[kind]} for it in views]
    return Terms([dict(it["pref"])["en"] for it in views], others)


@pytest.mark.parametrize("words", [(), ("--forget",)], ids=["keep", "forget"])
@pytest.mark.parametrize("name", EXCHANGES)
def test_rows_that_exchange_terms(name: str, words: tuple[str, ...], store: Path, tmp_path: Path) -> None:
    """Performed, and as a script: the rows are done together, and no term is left from between."""
    rows, wanted = EXCHANGES[name]
    path, count = table(tmp_path, *rows), len(rows) - 1
    options = ("--renames", "--lang", "en", *words)
    script, loaded = tmp_path / "script.jsonl", tmp_path / "loaded.db"
    script.write_bytes(from_table(path, store, *options).out)
    loaded.write_bytes(store.read_bytes())
    assert tool("load", "--program", built(), "--db", loaded, script).status == 0
    ended = from_table(path, store, *options, "--perform")
    assert ended.status == 0, ended.err.decode()
    assert f"{count} rows: {count} change something, 0 refused" in ended.err.decode()
    found = terms(store)
    assert found == terms(loaded) and found.preferred == wanted
    others: list[set[str]] = [{"Fine violins", "V17"}, {"Fiedel"} if "alt@de" in rows[0] else set(), set()]
    before = ("Violins", "Fiddles", "Harps")
    kept = [{old} if old != new and not words else set[str]() for old, new in zip(before, wanted)]
    assert found.others == [it | old for it, old in zip(others, kept)]


def test_dry_run_of_rows_that_exchange_terms(store: Path, tmp_path: Path) -> None:
    rows = [("old", "new"), ("Violins", "Fiddles"), ("Harps", "Lyres"), ("Fiddles", "Violins")]
    ended = from_table(table(tmp_path, *rows), store, "--renames", "--lang", "en", "--forget", "--dry")
    assert (ended.status, ended.out.decode()) == (
        0,
        "3: Harps: renames to “Lyres” (en)\n"
        "2: Violins: renames to “Fiddles” (en)\n"
        "4: Fiddles: renames to “Violins” (en)\n",
    )


def test_rows_that_exchange_terms_are_done_or_refused_together(store: Path, tmp_path: Path) -> None:
    """One has a link that is refused; the row between them and the one behind them are done."""
    rows = [
        ("concept", "pref@en", "broader", "alt@en"),
        ("Violins", "Fiddles", "", ""),
        ("Harps", "", "", "Lyres"),
        ("Fiddles", "Violins", "4", ""),
        ("Strings", "", "", "Bowed"),
    ]
    rest = tmp_path / "rest.csv"
    words = ("--perform", "--keep-going", "--rejected", str(rest))
    ended = from_table(table(tmp_path, *rows), store, *words)
    assert ended.status == 1 and "4 rows: 2 change something, 2 refused" in ended.err.decode(), ended
    assert terms(store) == Terms(["Violins", "Fiddles", "Harps"], [{"Fine violins", "V17"}, set(), {"Lyres"}])
    assert concept(store, 2)["alt"] == [["en", "Bowed"]]
    refused = list(csv.reader(rest.open(encoding="utf-8")))
    assert [it[0] for it in refused] == ["concept", "Violins", "Fiddles"]
    assert refused[1][-1] == refused[2][-1] == "SameResource: both are the same concept"


@pytest.mark.parametrize("heading", [("Old term", "New term"), ("Term", "New term"), ("Term", "Neue Benennung (en)")])
def test_the_term_that_is_named_is_renamed(store: Path, tmp_path: Path, heading: tuple[str, str]) -> None:
    """A synonym is replaced, and the preferred term stays; so does that of another language than is named."""
    rows = [heading, ("Fine violins", "Best violins"), ("V17", "V18"), ("Harps", "Lyres")]
    requests = script_of(from_table(table(tmp_path, *rows), store, "--lang", "en"))
    assert [(it["do"], it["owner"], it["tag"], it["text"]) for it in requests] == [
        ("dropLabel", 3, "en", "Fine violins"),
        ("addLabel", 3, "en", "Best violins"),
        ("dropLabel", 3, "zxx", "V17"),
        ("addLabel", 3, "zxx", "V18"),
        ("relabel", 5, "en", "Lyres"),
    ]
    (request,) = script_of(from_table(table(tmp_path, ("old", "new"), ("Harfen", "Harfe")), store, "--lang", "en"))
    assert (request["do"], request["tag"], request["text"]) == ("relabel", "de", "Harfe")


@pytest.mark.parametrize(
    ("words", "rows"),
    [
        (("--new", "--lang", "en"), [("Term",), ("Lutes",), ("Lutes",)]),
        (("--lang", "en"), [("concept", "new"), ("3", "Lutes"), ("5", "Lutes")]),
        ((), [("concept", "pref@en"), ("3", "Lutes"), ("5", "Lutes")]),
    ],
    ids=["new", "renames", "changes"],
)
def test_two_rows_that_give_one_term(store: Path, tmp_path: Path, words: tuple[str, ...], rows: list) -> None:
    ended = from_table(table(tmp_path, *rows), store, *words)
    assert ended.status == 1 and ":3: row 2 gives “Lutes”, too" in ended.err.decode()


def test_a_notation_is_kept_and_a_definition_is_asked_for(store: Path, tmp_path: Path) -> None:
    """The one as a hidden term, by which rows find a concept; the other is no scope note."""
    path = table(tmp_path, ("Term", "Notation", "Definition"), ("Lutes", "L1", "Plucked."), ("Zithers", "L2|L3", ""))
    ended = from_table(path, store, "--new", "--lang", "en")
    added = [it for it in script_of(ended) if it["do"] == "addLabel"]
    assert [(it["kind"], it["tag"], it["text"]) for it in added] == [("hidden", "zxx", it) for it in ("L1", "L2", "L3")]
    assert "column Definition: left out" in ended.err.decode()
    path = table(tmp_path, ("number", "Notation"), ("3", "V17"), ("4", "V18"))
    assert [(it["owner"], it["text"]) for it in script_of(from_table(path, store))] == [(4, "V18")]


def test_rename_and_forget(store: Path, tmp_path: Path) -> None:
    path = table(tmp_path, ("number", "neue Benennung"), ("5", "Harp family"))
    assert from_table(path, store, "--renames", "--lang", "en", "--forget", "--perform").status == 0
    assert (concept(store, 5)["pref"], concept(store, 5)["alt"]) == ([["de", "Harfen"], ["en", "Harp family"]], [])


def test_forgotten_term_is_compared_before(store: Path, tmp_path: Path) -> None:
    path = table(tmp_path, ("number", "term", "new"), ("5", "Harps", "Harp family"))
    (request,) = script_of(from_table(path, store, "--renames", "--lang", "en", "--forget"))
    assert request == {"do": "relabel", "owner": 5, "tag": "en", "text": "Harp family", "keep": False}


def test_moves(store: Path, tmp_path: Path) -> None:
    """A place without a type gets that of the old one; the new link comes before the old one goes."""
    path = table(tmp_path, ("concept", "new parent"), ("V17", "Harps"), ("4", "5"), ("Harps", ""))
    assert script_of(from_table(path, store, "--moves")) == [
        {"do": "link", "kind": "broaderGeneric", "a": 3, "b": 5},
        {"do": "unlink", "kind": "broaderGeneric", "a": 3, "b": 2},
        {"do": "link", "kind": "broader", "a": 4, "b": 5},
        {"do": "unlink", "kind": "broader", "a": 4, "b": 2},
    ]


@pytest.mark.parametrize("column", [(), ("BTP", ""), ("broader terms", "Strings")], ids=["none", "of a type", "same"])
def test_a_move_compares_what_the_table_has(store: Path, tmp_path: Path, column: tuple[str, ...]) -> None:
    """A table without places, or with those of another type, moves nothing."""
    path = table(tmp_path, ("number", "term", *column[:1]), ("3", "Violins", *column[1:]))
    assert script_of(from_table(path, store, "--moves")) == []


def test_a_move_to_the_top(store: Path, tmp_path: Path) -> None:
    (request,) = script_of(from_table(table(tmp_path, ("number", "BT"), ("3", "")), store, "--moves"))
    assert request == {"do": "unlink", "kind": "broaderGeneric", "a": 3, "b": 2}


def test_merges_by_the_column_do(store: Path, tmp_path: Path) -> None:
    rows = [("do", "concept", "into"), ("merge", f"{BASE}4", "Violins"), ("-", "5", ""), ("end", "Harps", "")]
    assert script_of(from_table(table(tmp_path, *rows, separator=";"), store)) == [
        {"do": "merge", "source": 4, "target": 3},
        {"do": "deprecate", "concept": 5},
    ]


def test_postings(store: Path, tmp_path: Path) -> None:
    path = table(tmp_path, ("record", "concept"), ("Violin 1700", "V17"), ("Harp 1800", "Harps"))
    ended = from_table(path, store, "--postings", "--perform")
    assert ended.status == 0, ended.err.decode()
    assert from_table(path, store, "--postings", "--perform").status == 0
    assert (concept(store, 3)["postings"], concept(store, 5)["postings"]) == (2, 1)


def test_each_concept_of_a_cell_is_posted(store: Path, tmp_path: Path) -> None:
    """In cells with several, once each; a key is for one."""
    rows = [
        ("key", "Record", "Title", "Concept"),
        ("", "Violin 1668", "A violin", "Violins | Harps|V17"),
        ("", "Violin 1700", "Another", "3"),
        ("k1", "Violin 1701", "A third", "3|5"),
        ("", "Violin 1700", "Another", "Violins"),
    ]
    ended = from_table(table(tmp_path, *rows), store, "--postings", "--keep-going")
    requests = [json.loads(it) for it in ended.out.splitlines()]
    assert [(it["record"], it["concept"]) for it in requests] == [("Violin 1668", 5), ("Violin 1700", 3)]
    assert ":4: one key, k1, for 2 concepts" in ended.err.decode()
    assert "column Title: left out" in ended.err.decode()


def test_a_posting_that_is_there_is_left(store: Path, tmp_path: Path) -> None:
    """By its key, or by its record and concept; a withdrawn one isn't made again by its key."""
    path = table(tmp_path, ("key", "record", "concept"), ("p1", "Violin 1668", "3"), ("", "Violin 1668", "Violins"))
    assert script_of(from_table(path, store, "--postings")) == []
    perform(store, [{"do": "withdraw", "posting": 1}])
    (request,) = script_of(from_table(path, store, "--postings"))
    assert (request["record"], request["concept"]) == ("Violin 1668", 3)


def test_a_record_is_indexed_again_after_withdrawals(store: Path, tmp_path: Path) -> None:
    """Of which the keys are never free; a table that is sent twice indexes once."""
    path = table(tmp_path, ("record", "concept"), ("Harp 1800", "Harps"))
    keys = set()
    for number in (2, 3, 4):
        keys |= {it["key"] for it in script_of(from_table(path, store, "--postings"))}
        assert from_table(path, store, "--postings", "--perform").status == 0
        assert script_of(from_table(path, store, "--postings")) == []
        (answer,) = perform(store, [{"get": "totals"}])
        assert answer == {"accepted": number, "standing": 2, "withdrawn": number - 2}
        assert perform(store, [{"do": "withdraw", "posting": number}]) == [{"done": True}]
    assert len(keys) == 3
    rows = [("do", "record", "concept"), ("post", "Harp 1800", "Harps"), ("withdraw", "Harp 1800", "Harps")]
    assert from_table(table(tmp_path, *rows[:2]), store, "--perform").status == 0
    assert from_table(table(tmp_path, rows[0], rows[2], rows[1]), store, "--perform").status == 0
    assert perform(store, [{"get": "totals"}]) == [{"accepted": 6, "standing": 2, "withdrawn": 4}]


def test_withdrawals_and_postings_of_one_table(store: Path, tmp_path: Path) -> None:
    """These records to another concept: what a row withdraws isn't there for the next one."""
    rows = [("do", "record", "concept"), ("post", "Violin 1668", "Fiddles"), ("withdraw", "Violin 1668", "V17")]
    again = [*rows, ("post", "Violin 1668", "V17"), ("withdraw", "Violin 1668", "Harps")]
    assert script_of(from_table(table(tmp_path, *rows), store))[1] == {"do": "withdraw", "posting": 1}
    ended = from_table(table(tmp_path, *again), store, "--keep-going")
    assert [json.loads(it)["do"] for it in ended.out.splitlines()] == ["post", "withdraw", "post"]
    assert ":5: “Violin 1668” isn't indexed with Harps" in ended.err.decode()


SPLIT = [
    ("record", "concept", "new", "broader"),
    ("Violin 1668", "Violins", "Old violins", "Violins"),
    ("Violin 1700", "V17", "Old violins", ""),
    ("Violin 1900", "3", "New violins", ""),
    ("Harp", "3", "Old violins", ""),
]


def test_a_split_by_a_table_of_records(store: Path, tmp_path: Path) -> None:
    """Rows with one concept and one new term are one split, in the place that the first of them gives it."""
    more = [{"do": "post", "key": it, "record": f"Violin {it}", "concept": 3} for it in ("1700", "1900", "1950")]
    perform(store, more)
    path = table(tmp_path, *SPLIT)
    shown = from_table(path, store, "--splits", "--lang", "en", "--dry").out.decode()
    assert "2: splits “Old violins” (en) from Violins, with 2 records" in shown and "3: done by row 2" in shown
    assert "5: refused: “Harp” isn't indexed with Violins" in shown
    words = ("--splits", "--lang", "en", "--perform", "--keep-going")
    ended = from_table(path, store, *words)
    assert ended.status == 1 and b"4 rows: 3 change something, 1 refused" in ended.err
    assert [concept(store, it)["postings"] for it in (3, 7, 8)] == [1, 2, 1]
    assert (concept(store, 7)["pref"], concept(store, 7)["broader"]) == ([["en", "Old violins"]], [3])


def test_rows_of_a_split_that_is_refused(store: Path, tmp_path: Path) -> None:
    """The rows that are done by another one are refused with it."""
    perform(store, [{"do": "post", "key": "1700", "record": "Violin 1700", "concept": 3}])
    rows = [(*it[:2], "Harps", "") for it in SPLIT[1:3]]
    rest = tmp_path / "rest.csv"
    words = ("--splits", "--lang", "en", "--perform", "--keep-going", "--rejected", str(rest), "--excel")
    assert from_table(table(tmp_path, SPLIT[0], *rows), store, *words).status == 1
    assert rest.read_text(encoding="utf-8-sig").count("PreferredTaken") == 2
    assert rest.read_bytes().startswith("\ufeffrecord;concept;new;broader;reason\r\n".encode())
    assert script_of(from_table(rest, store, "--postings", "--keep-going")) == []


def test_limits_are_those_of_the_options(store: Path, tmp_path: Path) -> None:
    """Of the store, and of the copy on which --dry tries."""
    path = table(tmp_path, ("record", "concept"), ("Violin 1700", "3"), ("Violin 1701", "3"))
    for how in ("--dry", "--perform"):
        ended = from_table(path, store, "--postings", how, "--max-postings", "2")
        assert ended.status == 1 and "1 change something" in ended.err.decode(), ended.err
        assert "TooMany: a limit of the store is reached" in (ended.out + ended.err).decode()
    assert from_table(path, store, "--postings", "--perform", "--max-postings", "3").status == 0
    assert concept(store, 3)["postings"] == 3


# --- what goes out and comes back ---

FOR_LISTS: list[dict[str, object]] = [
    {"do": "addLabel", "owner": 4, "kind": "alt", "tag": "en", "text": "fine-violins"},
    {"do": "addLabel", "owner": 4, "kind": "scope", "tag": "en", "text": "No violins; of folk music."},
    {"do": "post", "key": "p2", "record": "Violin, of | two, 1700", "concept": 4},
    {"do": "post", "key": "p3", "record": "=Violin 1701", "concept": 4},
    {"do": "withdraw", "posting": 1},
    {"do": "post", "key": "p4", "record": "Violin 1702", "concept": 3},
    {"do": "concept", "scheme": 1, "tag": "en", "text": "Lutes"},
    {"do": "post", "key": "p5", "record": "Lute with six strings", "concept": 7},
    {"do": "merge", "source": 7, "target": 5},
]


@pytest.mark.parametrize(
    "words",
    [
        ("missing", "--lang", "de"),
        ("missing", "--lang", "en", "--kind", "scope"),
        ("orphans",),
        ("tops",),
        ("below", "2"),
        ("find", "violin"),
        ("duplicates",),
        ("counts", "--concepts"),
        ("records", "3"),
        ("records", "2", "--below"),
        ("record", "i", "--part"),
    ],
    ids=lambda it: it[0],
)
@pytest.mark.parametrize("form", ["--csv", "--excel"])
def test_a_list_comes_back_unchanged(store: Path, tmp_path: Path, words: tuple[str, ...], form: str) -> None:
    """Each list that goes out for work; here with terms alike, a record with commas, and one that was withdrawn."""
    perform(store, FOR_LISTS)
    path = tmp_path / "list.csv"
    path.write_bytes(tool("report", "--db", store, *words, form).out)
    assert path.read_bytes().count(b"\n") > 1
    assert script_of(from_table(path, store)) == []


def test_a_list_of_gaps_has_a_column_to_fill_in(store: Path, tmp_path: Path) -> None:
    rows = list(csv.reader(io.StringIO(tool("report", "--db", store, "missing", "--lang", "de", "--csv").out.decode())))
    assert rows[0] == ["number", "term", "pref@de"]
    path = table(tmp_path, rows[0], *([number, term, f"{term} auf Deutsch"] for number, term, _ in rows[1:]))
    assert from_table(path, store, "--perform").status == 0
    assert tool("report", "--db", store, "missing", "--lang", "de").out == b"number  term\n"


COLUMNS = "number,iri,pref@en,pref@de,alt@en,scope@en,broader,narrower,related,exact,member,records"


@pytest.mark.parametrize("words", [(), ("--excel",), ("--below", "2"), ("--scheme", "1")], ids=lambda it: " ".join(it))
def test_a_table_of_concepts_comes_back_unchanged(store: Path, tmp_path: Path, words: tuple[str, ...]) -> None:
    more: list[dict[str, object]] = [
        {"do": "outside", "iri": "http://www.wikidata.org/entity/Q8355"},
        {"do": "link", "kind": "exact", "a": 3, "b": 7},
        {"do": "link", "kind": "related", "a": 3, "b": 5},
        {"do": "link", "kind": "member", "a": 6, "b": 3},
        {"do": "addLabel", "owner": 3, "kind": "scope", "tag": "en", "text": "With | inside"},
    ]
    assert not [it for it in perform(store, more) if "no" in it]
    path = tmp_path / "list.csv"
    ended = tool("to-table", "--db", store, "--columns", COLUMNS, "-o", path, *words)
    assert ended.status == 0, ended.err.decode()
    assert path.read_bytes().count(b"Violins") >= 1
    assert script_of(from_table(path, store)) == []
    text = path.read_text(encoding="utf-8-sig").replace("Fine violins", "Fine violins|Best violins")
    path.write_text(text, encoding="utf-8")
    assert script_of(from_table(path, store)) == [
        {"do": "addLabel", "owner": 3, "kind": "alt", "tag": "en", "text": "Best violins"}
    ]


def test_items_of_wikidata_as_they_are_copied(store: Path, tmp_path: Path) -> None:
    """By their numbers, or by the addresses of their pages; a concept of that name is meant before."""
    codes: list[dict[str, object]] = [
        {"do": "scheme", "tag": "en", "text": "Codes"},
        {"do": "concept", "scheme": 7, "tag": "en", "text": "Q5"},
    ]
    assert not [it for it in perform(store, codes) if "no" in it]
    rows = ("concept", "wikidata"), ("Violins", "Q8355"), ("Harps", "https://www.wikidata.org/wiki/Q47369"), ("3", "Q5")
    requests = script_of(from_table(table(tmp_path, *rows, ("Fiddles", "wikidata.org/wiki/Q8355")), store))
    entity = "http://www.wikidata.org/entity/"
    assert [it["iri"] for it in requests if it["do"] == "outside"] == [f"{entity}Q8355", f"{entity}Q47369"]
    assert [(it["a"], it["b"]) for it in requests if it["do"] == "link"][2] == (3, 8)
    assert len(requests) == 6


def test_a_term_that_a_cell_cant_name(store: Path, tmp_path: Path) -> None:
    """A broader term with the sign between values, or like a number, is named by its number."""
    for text in ("Strings | bowed", "#7", "urn:x"):
        assert perform(store, [{"do": "relabel", "owner": 2, "tag": "en", "text": text, "keep": False}])
        path = tmp_path / "list.csv"
        assert tool("to-table", "--db", store, "--columns", "number,broader", "--below", "2", "-o", path).status == 0
        assert "3,2" in path.read_text(encoding="utf-8").split()
        assert script_of(from_table(path, store)) == []


def test_a_cell_that_is_guarded_from_formulas(store: Path, tmp_path: Path) -> None:
    path = table(tmp_path, ("number", "alt@fr"), ("3", "'-violon"), ("4", "'a"), ("5", "''=x"))
    assert [it["text"] for it in script_of(from_table(path, store))] == ["-violon", "'a", "'=x"]
    texts = ["=1+1", "'=1", "@x", "-"]
    perform(store, [{"do": "addLabel", "owner": 5, "kind": "alt", "tag": "it", "text": it} for it in texts])
    ended = tool("to-table", "--db", store, "--columns", "number,alt@it", "--below", "5", "--excel", "-o", path)
    assert ended.status == 0 and b"''" in path.read_bytes()
    assert script_of(from_table(path, store)) == []


GUARDED = ["=1+1", "a;=1", "a; @x", "a\t-1", "a,+1", "'=1", "a;''-1", 'a;"=1', "-"]


@pytest.mark.parametrize("form", [(), ("--excel",)])
@pytest.mark.parametrize("name", ["to-table", "report"])
def test_formulas_are_guarded_unless_cells_are_to_be_raw(
    store: Path, tmp_path: Path, name: str, form: tuple[str, ...]
) -> None:
    """Also behind what parts cells for another spreadsheet; and the guards go when the table is read."""
    texts = [it for it in GUARDED if "\t" not in it]
    perform(store, [{"do": "addLabel", "owner": 5, "kind": "alt", "tag": "it", "text": it} for it in texts])
    words = ("find", "a") if name == "report" else ("--columns", "number,alt@it", "--below", "5")
    lists = ("--csv",) if name == "report" and not form else ()
    guarded, raw = (
        tool(name, "--db", store, *words, *lists, *form, *more).out.decode("utf-8-sig") for more in ((), ("--raw",))
    )
    assert "a;'=1" in guarded and "a;'=1" not in raw and "a;=1" in raw and "a; '@x" in guarded
    if name == "to-table":
        path = tmp_path / "list.csv"
        path.write_text(guarded, encoding="utf-8")
        assert script_of(from_table(path, store)) == []


@pytest.mark.parametrize("text", GUARDED)
def test_a_guard_comes_and_goes(text: str) -> None:
    assert guard(text) != text and remove_guard(guard(text)) == text and guard(f"x{text[1:]}z").count("'") <= 3


def test_columns_that_there_are_not(store: Path) -> None:
    ended = tool("to-table", "--db", store, "--columns", "number,colour")
    assert ended.status == 2 and b"no column is called colour" in ended.err


# --- rows that are refused ---


def test_dry_changes_nothing(store: Path, tmp_path: Path) -> None:
    before = store.read_bytes()
    rows = [("concept", "broader"), ("Strings", "Violins"), ("Harps", "Strings"), ("Lutes", "Strings")]
    ended = from_table(table(tmp_path, *rows), store, "--dry")
    assert (ended.status, store.read_bytes()) == (1, before)
    assert ended.out.decode() == (
        "2: refused: Cycle: a concept would be broader than itself\n"
        "3: Harps: adds broader term Strings\n"
        "4: refused: no concept is called “Lutes”\n"
    )


def test_refused_rows_are_a_table_again(store: Path, tmp_path: Path) -> None:
    rows = [("concept", "broader"), ("Strings", "Violins"), ("Harps", "Strings"), ("Lutes", "Strings")]
    rest = tmp_path / "rest.csv"
    words = ("--perform", "--keep-going", "--rejected", str(rest))
    assert from_table(table(tmp_path, *rows), store, *words).status == 1
    assert concept(store, 5)["broader"] == [2]
    assert list(csv.reader(rest.open(encoding="utf-8"))) == [
        ["concept", "broader", "reason"],
        ["Strings", "Violins", "Cycle: a concept would be broader than itself"],
        ["Lutes", "Strings", "no concept is called “Lutes”"],
    ]


def test_a_refused_row_is_taken_back(store: Path, tmp_path: Path) -> None:
    """The term was added before the link was refused."""
    path = table(tmp_path, ("concept", "alt@en", "broader"), ("Strings", "String family", "Violins"))
    assert from_table(path, store, "--perform", "--keep-going").status == 1
    assert concept(store, 2)["alt"] == []


def test_ambiguous_names(store: Path, tmp_path: Path) -> None:
    perform(store, [{"do": "addLabel", "owner": it, "kind": "alt", "tag": "en", "text": "Geige"} for it in (3, 4)])
    ended = from_table(table(tmp_path, ("concept", "alt@de"), ("Geige", "Violine")), store)
    assert ended.status == 1
    assert "several have “Geige”: 3 (Violins), 4 (Fiddles); write the number" in ended.err.decode()


# --- forms of files ---


@pytest.mark.parametrize("encoding", ["utf-8", "utf-8-sig", "utf-16", "latin-1", "cp1252"])
@pytest.mark.parametrize("separator", [",", ";", "\t"])
def test_encodings(store: Path, tmp_path: Path, encoding: str, separator: str) -> None:
    path = tmp_path / "table.csv"
    path.write_bytes(f"number{separator}pref@fr\r\n3{separator}Violons «à archet»\r\n".encode(encoding))
    words = ("--encoding", encoding) if encoding in ("latin-1", "cp1252") else ()
    (request,) = script_of(from_table(path, store, *words))
    assert request["text"] == "Violons «à archet»"


@pytest.mark.parametrize("separator", [";", "\t", "|"])
def test_a_first_line_that_says_what_parts_the_cells(store: Path, tmp_path: Path, separator: str) -> None:
    """Excel writes it, and it is no row; lines keep their numbers in the file."""
    path = tmp_path / "table.csv"
    rows = ("number", "pref@fr"), ("3", "Violons, grands"), ("5", "Harpes"), ("99", "x")
    text = "".join(f"{separator.join(it)}\r\n" for it in rows)
    path.write_text(f"sep={separator}\r\n{text}", encoding="utf-8")
    ended = from_table(path, store, "--keep-going")
    assert [json.loads(it)["text"] for it in ended.out.splitlines()] == ["Violons, grands", "Harpes"]
    assert f"{path}:5: " in ended.err.decode()


@pytest.mark.needs("openpyxl")
def test_excel(store: Path, tmp_path: Path) -> None:
    import openpyxl

    book = openpyxl.Workbook()
    book.active.append(["number", "Français"])
    book.active.append([3, "Violons"])
    book.active.append([5.0, "Harpes"])
    book.active.append([4, datetime.datetime(2026, 11, 30)])
    book.active.append([2, datetime.datetime(2026, 11, 30, 10, 4)])
    book.save(tmp_path / "table.xlsx")
    requests = script_of(from_table(tmp_path / "table.xlsx", store))
    assert [it["owner"] for it in requests] == [3, 5, 4, 2]
    assert [it["text"] for it in requests][2:] == ["2026-11-30", "2026-11-30 10:04:00"]


def bare_python(folder: Path) -> Path:
    """Makes a virtual environment without any packages, and returns its Python."""
    (folder / "bin").mkdir()
    (folder / "pyvenv.cfg").write_text("home = /usr/bin\ninclude-system-site-packages = false\n", encoding="ascii")
    python = folder / "bin/python"
    python.symlink_to(SYSTEM_PYTHON)
    return python


@pytest.mark.needs("openpyxl")
@pytest.mark.skipif(Path(sys.executable).resolve() != Path(SYSTEM_PYTHON).resolve(), reason="another Python")
def test_python_without_openpyxl_has_the_systems_do_it(store: Path, tmp_path: Path) -> None:
    """The tool, and the process that reads the desk's tables: in a virtual environment, as from any installation."""
    import openpyxl

    book, path = openpyxl.Workbook(), tmp_path / "table.xlsx"
    book.active.append(["number", "Français"])
    book.active.append([3, "Violons"])
    book.save(path)
    tool_words = (TOOLS / "from-table", path, "--db", store, "--program", built())
    for words in (tool_words, ("-m", table_process.__name__, path, "", "")):
        python = bare_python(Path(tempfile.mkdtemp(dir=tmp_path)))
        ran = subprocess.run([python, *words], capture_output=True, check=False)
        assert ran.returncode == 0 and b"Violons" in ran.stdout, ran.stderr
    assert [it.cells for it in table_process.read_apart(path)] == [["number", "Français"], ["3", "Violons"]]


@pytest.mark.needs("odf")
def test_open_document(store: Path, tmp_path: Path) -> None:
    from odf import opendocument, table as tables, text

    book = opendocument.OpenDocumentSpreadsheet()
    page = tables.Table(name="Terms")
    for cells in (("number", "Français"), ("3", "Violons"), ("5", "30.11.26")):
        row = tables.TableRow()
        for it in cells:
            cell = tables.TableCell(valuetype="date", datevalue="2026-11-30") if "." in it else tables.TableCell()
            cell.addElement(text.P(text=it))
            row.addElement(cell)
        page.addElement(row)
    book.spreadsheet.addElement(page)
    book.save(tmp_path / "table.ods")
    requests = script_of(from_table(tmp_path / "table.ods", store, "--sheet", "Terms"))
    assert [(it["owner"], it["text"]) for it in requests] == [(3, "Violons"), (5, "2026-11-30")]


def archive(path: Path, parts: dict[str, bytes]) -> Path:
    """Writes an archive."""
    with zipfile.ZipFile(path, "w", zipfile.ZIP_DEFLATED) as out:
        for name, data in parts.items():
            out.writestr(name, data)
    return path


def ods(cells: str) -> bytes:
    """Returns the content of an OpenDocument file with a row of cells."""
    names = "urn:oasis:names:tc:opendocument:xmlns"
    spaces = " ".join(f'xmlns:{it}="{names}:{it}:1.0"' for it in ("office", "table", "text"))
    sheet = f'<table:table table:name="A"><table:table-row>{cells}</table:table-row></table:table>'
    body = f"<office:body><office:spreadsheet>{sheet}</office:spreadsheet></office:body>"
    return f"<office:document-content {spaces}>{body}</office:document-content>".encode()


SHEET = "application/vnd.oasis.opendocument.spreadsheet"
ENTRY = '<m:file-entry m:full-path="{}" m:media-type="{}"/>'
MANIFEST = {
    "mimetype": SHEET.encode(),
    "META-INF/manifest.xml": (
        '<m:manifest xmlns:m="urn:oasis:names:tc:opendocument:xmlns:manifest:1.0">'
        f'{ENTRY.format("/", SHEET)}{ENTRY.format("content.xml", "text/xml")}</m:manifest>'
    ).encode(),
}
FORMULA = '<table:table-cell table:formula="of:=1+1"/>'
CELL = '<table:table-cell table:number-columns-repeated="{}"><text:p>x</text:p></table:table-cell>'
SAVE_AS_UTF_8 = "save the table as UTF-8, or name its encoding: --encoding cp1252 is that of Windows in the West"
BOMB = b'<?xml version="1.0"?><!DOCTYPE a [<!ENTITY b "x"><!ENTITY c "&b;&b;">]><a>&c;</a>'


@pytest.mark.parametrize(
    ("parts", "says"),
    [
        ({"xl/workbook.xml": BOMB}, "declares a document type"),
        ({"content.xml": BOMB}, "declares a document type"),
        ({"xl/workbook.xml": b"\0" * (300 << 20)}, "unpacks to 300 megabytes"),
        ({"xl/workbook.xml": b"<a/>"}, "damaged XLSX"),
        ({"content.xml": b"<a/>"}, "damaged ODS"),
        ({"other": b""}, "neither ODS nor XLSX"),
        ({"content.xml": BOMB.replace(b"?>", b"?>" + b"<!--x-->" * 20000)}, "declares a document type"),
        ({"content.xml": BOMB.decode().replace("?>", ' encoding="utf-16"?>').encode("utf-16")}, "declares a document"),
        ({"content.xml": ods(CELL.format(10**12)), **MANIFEST}, "more than 200000 rows or 1000 columns"),
        ({"content.xml": ods(CELL.format("many")), **MANIFEST}, "damaged ODS"),
        ({"content.xml": ods(FORMULA), **MANIFEST}, ":1: a formula without its value"),
        ({"../../xl/workbook.xml": b"<a/>", "/etc/passwd": b"x"}, "neither ODS nor XLSX"),
        ({"xl/workbook.xml": b"<a/>", "../../xl/worksheets/sheet1.xml": b"<a/>"}, "damaged XLSX"),
    ],
    ids=["xlsx entities", "ods entities", "zip bomb", "no workbook", "no document", "another archive"]
    + ["entities after comments", "entities in UTF-16", "a cell a billion times", "a cell many times"]
    + ["a formula", "paths", "a path"],
)
def test_hostile_archives(store: Path, tmp_path: Path, parts: dict[str, bytes], says: str) -> None:
    path = archive(tmp_path / "table.xlsx", parts)
    before = sorted(it.name for it in tmp_path.iterdir())
    ended = from_table(path, store, "-o", str(tmp_path / "script"))
    assert (ended.status, ended.out) == (2, b"")
    assert says in ended.err.decode() and ended.err.count(b"\n") == 1
    assert sorted(it.name for it in tmp_path.iterdir()) == before


@pytest.mark.parametrize(
    ("data", "says"),
    [
        (b"", ": no row: the first one names the columns"),
        (b"number,pref@fr\n3,\xff\n", f":2: no UTF-8; {SAVE_AS_UTF_8}"),
        (b"number,pref@fr\n3,a\0b\n", ":2: a NUL: no table of texts"),
        (b'number,pref@fr\n3,"open\n', ":2: unexpected end of data"),
        (b"number,pref@fr\n3,a,b\n", ":2: more values than columns"),
        (b"PK\x03\x04broken", ": a damaged ODS or XLSX file: File is not a zip file"),
        (b"number,pref@fr\n3,#REF!\n", ":2: #REF!: a formula that failed"),
    ],
    ids=["empty", "no UTF-8", "NUL", "open quote", "too many cells", "cut archive", "formula"],
)
def test_hostile_texts(store: Path, tmp_path: Path, data: bytes, says: str) -> None:
    path = tmp_path / "table.csv"
    path.write_bytes(data)
    ended = from_table(path, store)
    assert (ended.status, ended.out) == (2, b"")
    assert ended.err.decode() == f"from-table: {path}{says}\n"


@pytest.mark.parametrize("name", ["from-table", "from-csv", "number-postings", "repost"])
def test_a_gigabyte_of_nothing(store: Path, tmp_path: Path, name: str) -> None:
    """It takes neither time nor memory."""
    path = tmp_path / "nothing"
    with open(path, "wb") as file:
        file.truncate(1 << 30)
    words = {
        "from-table": (path, "--db", store),
        "from-csv": (path, "--scheme", "S", "--lang", "en"),
        "number-postings": (path, "--db", store),
        "repost": ("--db", store, "--records", path, "--at", "3", "--to", "4"),
    }
    ended, use = tool_with_use(name, *words[name])
    assert (ended.status, ended.out) == (2, b"") and b"more than 64 megabytes" in ended.err
    assert ended.err.count(b"\n") == 1 and use.seconds < 20 and use.memory < 500 << 20


@pytest.mark.needs("openpyxl")
def test_formulas_of_excel(store: Path, tmp_path: Path) -> None:
    """A formula has the value that was saved with it; without one the table is refused."""
    import openpyxl

    book = openpyxl.Workbook()
    book.active.append(["number", "pref@fr"])
    book.active.append([3, '=HYPERLINK("http://x.example/","Violons")'])
    path = tmp_path / "table.xlsx"
    book.save(path)
    ended = from_table(path, store)
    assert (ended.status, ended.out) == (2, b"") and b":2: a formula without its value" in ended.err
    sheet = "xl/worksheets/sheet1.xml"
    with zipfile.ZipFile(path) as read:
        parts = {it: read.read(it) for it in read.namelist()}
    parts[sheet] = parts[sheet].replace(b"<v></v>", b"<v>Violons</v>").replace(b"<v/>", b"<v>Violons</v>")
    parts[sheet] = parts[sheet].replace(b"<v />", b"<v>Violons</v>").replace(b'r="B2"', b'r="B2" t="str"')
    (request,) = script_of(from_table(archive(path, parts), store))
    assert request["text"] == "Violons"


def test_columns_are_corrected(store: Path, tmp_path: Path) -> None:
    path = table(tmp_path, ("number", "Nom", "Remarque"), ("3", "Violons", "x"))
    assert "column Nom: not understood, and left out" in from_table(path, store).err.decode()
    (request,) = script_of(from_table(path, store, "--columns", "Nom=pref@fr"))
    assert request == {"do": "addLabel", "owner": 3, "kind": "pref", "tag": "fr", "text": "Violons"}
    saved = tmp_path / "columns"
    saved.write_text("Nom=pref@fr\nRemarque=scope@fr\n", encoding="utf-8")
    assert len(script_of(from_table(path, store, "--columns", str(saved)))) == 2
    assert from_table(path, store, "--columns", "Autre=pref@fr").status == 2
