"""Tests tools/to-rdf with the journal of a desk: when resources were made and changed, and by whom they were made."""
from __future__ import annotations

import shutil
import subprocess
from collections.abc import Callable
from pathlib import Path

import pytest
from thesaurus_desk.journal.schema import journal_of
from thesaurus_desk.journal.values import set_request
from thesaurus_desk.store.plan_execution import Desk
from thesaurus_tools.ntriples import DCTERMS, SKOS, XSD, Literal, parse_ntriples
from whole import resources

ROOT = Path(__file__).resolve().parents[2]
BASE = "https://thesaurus.example/id/"
NEW = {"do": "concept", "scheme": 1, "tag": "en", "text": "Vihuelas"}
Dated = dict[str, dict[str, str]]


def dated(program: str, store: Path, *words: object) -> Dated:
    """Returns the dates and the makers that the tool writes, by resource."""
    call = [ROOT / "tools" / "to-rdf", "--db", store, "--program", program, "--format", "ntriples", *words]
    ran = subprocess.run(list(map(str, call)), capture_output=True, check=False)
    assert ran.returncode == 0, ran.stderr.decode()
    found: Dated = {}
    for it in parse_ntriples(ran.stdout, "triples"):
        if it.predicate.startswith(DCTERMS) and isinstance(it.object, Literal):
            assert it.object.datatype == ("" if it.predicate.endswith("creator") else XSD + "dateTime")
            found.setdefault(str(it.subject), {})[it.predicate.removeprefix(DCTERMS)] = it.object.text
    return found


def test_the_dates_are_those_of_the_desk(
    program: str, store: Path, tmp_path: Path, open_desk: Callable[[Path], Desk]
) -> None:
    desk = open_desk(store)
    before = max(resources(desk.replica))
    anna, ben = desk.perform("anna", "new", [NEW]), desk.perform("ben", "new", [{**NEW, "text": "Rebecs"}])
    label = {"do": "addLabel", "owner": 5, "kind": "alt", "tag": "en", "text": "Fine violins"}
    post = {"do": "post", "key": "k1", "record": "A vihuela", "concept": before + 1}
    refused = {"do": "deprecate", "concept": 1}
    done = [desk.perform("ben", "edit", [it]) for it in (label, post)]
    assert all(it.is_done for it in (anna, ben, *done)) and not desk.perform("anna", "end", [refused]).is_done
    wanted = {number: desk.history.dates(number) for number in resources(desk.replica)}
    desk.stop()
    found = dated(program, store, "--journal", journal_of(store))
    assert found.keys() == {f"{BASE}{number}" for number, it in wanted.items() if it.modified}
    for number, it in wanted.items():
        its = found.get(f"{BASE}{number}", {})
        assert (its.get("created"), its.get("modified")) == (it.created, it.modified), number
    makers = {name: its["creator"] for name, its in found.items() if "creator" in its}
    assert makers == {f"{BASE}{before + 1}": "anna", f"{BASE}{before + 2}": "ben"}
    assert dated(program, store) == {}
    branch = dated(program, store, "--journal", journal_of(store), "--below", 5)
    assert f"{BASE}5" in branch and f"{BASE}{before + 1}" not in branch


@pytest.mark.parametrize("is_there", [True, False], ids=["another database", "no file"])
def test_no_journal(program: str, store: Path, tmp_path: Path, is_there: bool) -> None:
    path = tmp_path / "other.sqlite"
    if is_there:
        shutil.copy(store, path)
    words = ["--db", store, "--program", program, "--journal", path]
    ran = subprocess.run([ROOT / "tools" / "to-rdf", *map(str, words)], capture_output=True, text=True, check=False)
    assert (ran.returncode, ran.stdout) == (3, "") and ran.stderr.count("\n") == 1
    assert ("not the journal of a desk" if is_there else "no such file") in ran.stderr


def test_definitions_and_notations_are_those_of_the_desk(
    program: str, store: Path, open_desk: Callable[[Path], Desk]
) -> None:
    desk = open_desk(store)
    its = [("definition", "en", "A bowed\ninstrument"), ("notation", "MIMO", "321.3"), ("editorialNote", "en", "Check")]
    assert desk.perform("anna", "x", [set_request(5, field, tag, new=text) for field, tag, text in its]).is_done
    desk.stop()
    call = [ROOT / "tools/to-rdf", "--db", store, "--program", program, "--format", "ntriples", "--journal"]
    ran = subprocess.run([*map(str, call), str(journal_of(store))], capture_output=True, check=True)
    found = {(it.predicate, it.object) for it in parse_ntriples(ran.stdout, "triples") if it.subject == f"{BASE}5"}
    assert (SKOS + "definition", Literal("A bowed\ninstrument", "en")) in found
    assert (SKOS + "notation", Literal("321.3", "", f"{BASE}code/MIMO")) in found
    assert SKOS + "editorialNote" not in {name for name, _ in found}
