"""Concepts elsewhere are called what their publishers call them: as the vocabulary is loaded, else as it was on the day
of the mapping. And what the limits of the store leave for more of them."""
from __future__ import annotations

import sqlite3
from contextlib import closing
from pathlib import Path

import pytest
from asking import done, link
from other_vocabulary import alt, iri, load, pref
from reader import Reader, come_in
from thesaurus_desk.journal import journal_of
from thesaurus_desk.store.plan_execution import Desk
from thesaurus_desk.words import Words
from thesaurus_tools.vocabulary_tables import vocabularies_of

SAY = Words("en")
# Concepts of the sample.
VIOLINS, HARPS = 5, 11
HARP = iri("harp")
DUMP = pref("harp", "Harp") + pref("harp", "Harfe", "de") + alt("harp", "Concert harp") + pref("lute", "Lute")


def match(desk: Desk, kind: str = "exact", number: int = HARPS, there: str = HARP) -> int:
    """Matches a concept with one elsewhere, and returns the number of that."""
    outcome = done(desk, {"do": "outside", "iri": there}, link("link", kind, number, "$1"))
    return outcome.number(1) or 0


def test_a_concept_elsewhere_has_its_name_in_the_readers_language(reader: Reader, desk: Desk, store: Path) -> None:
    load(store, DUMP)
    number = match(desk)
    page = reader.get(f"/c/{HARPS}")
    assert f"exact match Harp {HARP}" in page.text and f'href="{HARP}"' in page.html
    assert "Harp" in reader.get(f"/c/{number}").text
    assert "Harp" in reader.get("/changes").text, "also where a plan is told"
    assert f"Harps exact match Harp {HARP}" in reader.get(f"/search?q={HARP}&all=1").text
    reader.get("/language?terms=de&next=/")
    assert f"exact match Harfe {HARP}" in reader.get(f"/c/{HARPS}").text


def test_without_a_vocabulary_it_is_called_as_on_the_day_of_the_mapping(
    reader: Reader, desk: Desk, store: Path
) -> None:
    load(store, DUMP)
    match(desk)
    load(store, pref("harp", "Harps (instruments)"))
    assert "exact match Harps (instruments)" in reader.get(f"/c/{HARPS}").text
    vocabularies_of(store).unlink()
    assert f"exact match Harp {HARP}" in reader.get(f"/c/{HARPS}").text
    assert desk.decisions.accepted_names(HARP) == [("de", "Harfe"), ("en", "Harp")]


def test_what_was_mapped_before_the_vocabulary_came_is_named_then(desk: Desk, store: Path) -> None:
    match(desk)
    desk.decisions.note_lacking()
    assert desk.decisions.names(HARP) == []
    load(store, DUMP)
    desk.decisions.note_lacking()
    assert desk.decisions.accepted_names(HARP) == [("de", "Harfe"), ("en", "Harp")]
    load(store, pref("harp", "Harps"))
    desk.decisions.note_lacking()
    assert desk.decisions.accepted_names(HARP) == [("de", "Harfe"), ("en", "Harp")], "the first name stays"


def test_a_mapping_that_is_refused_leaves_no_name(desk: Desk, store: Path) -> None:
    load(store, DUMP)
    requests = [{"do": "outside", "iri": HARP}, link("link", "exact", 999, "$1")]
    assert not desk.perform("anna", "test", requests).is_done
    assert desk.decisions.accepted_names(HARP) == []


def test_a_damaged_file_of_vocabularies_stops_nothing(reader: Reader, desk: Desk, store: Path) -> None:
    vocabularies_of(store).write_bytes(b"no database" * 1000)
    match(desk)
    assert f"exact match {HARP}" in reader.get(f"/c/{HARPS}").text


def test_names_are_in_the_journal_and_the_vocabulary_in_no_backup(desk: Desk, store: Path, tmp_path: Path) -> None:
    load(store, DUMP)
    match(desk)
    copy = tmp_path / "copy.sqlite"
    desk.journal.copy_to(copy)
    with closing(sqlite3.connect(copy)) as rows:
        assert rows.execute("SELECT tag, text, vocabulary FROM outside_name").fetchall() == [
            ("de", "Harfe", "VOC"),
            ("en", "Harp", "VOC"),
        ]
        assert not rows.execute("SELECT 1 FROM sqlite_schema WHERE name = 'entry'").fetchone()
    assert journal_of(store) != vocabularies_of(store)


@pytest.mark.parametrize(("options", "most"), [((), 20_000), (("--max-labels", "9", "--max-resources", "60"), 60)])
def test_a_preview_says_how_many_concepts_elsewhere_the_limits_leave(
    program: str, store: Path, options: tuple[str, ...], most: int
) -> None:
    load(store, DUMP)
    desk = Desk(store, program, options=options)
    desk.start()
    try:
        reader = come_in(desk)
        left = most - desk.replica.counts()["resources"]
        rows = f"number,exact match\n{HARPS},{HARP}\n{VIOLINS},{iri('violin')}\n"
        page = reader.send(reader.get("/bring-in").form("table"), typed=rows)
        assert f"{SAY('bring_in.outside', n=2)} {SAY('mapping.room', n=left)}" in page.text
        assert f"Harp {HARP}" in page.text, "it is called what it is called there, before it is noted"
    finally:
        desk.stop()
