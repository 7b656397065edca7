"""SKOS in the ways of other programs and vocabularies: the small files of skos_ways, as they write them, come in, and
each loss is named by term and address.

wanted.json has by file the terms of concepts and collections, the links by the ends of IRIs, and the losses by term,
the end of an address, and what is lost."""
from __future__ import annotations

import csv
import io
import json
from pathlib import Path

import pytest
from office import tool

FOLDER = Path(__file__).parent / "skos_ways"
WANTED = json.loads((FOLDER / "wanted.json").read_text(encoding="utf-8"))
# What is said of arrays and groups isn't compared.
OF_ARRAYS = ("Array", "superOrdinate", "ConceptGroup", "superGroup", "the member")
pytestmark = pytest.mark.needs("rdflib")


def end_of(iri: str) -> str:
    """Returns the last part of an IRI."""
    return iri.rstrip("/").replace("#", "/").rpartition("/")[2]


@pytest.mark.parametrize("name", WANTED)
def test_it_comes_in_and_each_loss_is_named(name: str, tmp_path: Path) -> None:
    report = tmp_path / "report.csv"
    ended = tool("from-skos", FOLDER / name, "--lang", "en", "--scheme", "All", "--own", "--drop", "--report", report)
    assert ended.status == 0, ended.err
    requests = [json.loads(it) for it in ended.out.splitlines()]
    wanted = WANTED[name]
    assert {it["text"] for it in requests if it["do"] in ("concept", "collection")} == set(wanted["terms"])
    found = {f"{end_of(it['a'])} {it['kind']} {end_of(it['b'])}" for it in requests if it["do"] == "link"}
    assert found == set(wanted["links"])
    rows = list(csv.reader(io.StringIO(report.read_text(encoding="utf-8-sig"))))[1:]
    assert {rule for rule, *_ in rows} <= {"lost"} and all(term and address for _, address, term, _ in rows)
    losses = [(term, end_of(address), what) for _, address, term, what in rows]
    named = {it for it in losses if not any(one in it[2] for one in OF_ARRAYS)}
    assert named == set(map(tuple, wanted["losses"]))


def test_values_come_in_with_their_sources() -> None:
    """As AGROVOC's definitions, which are resources, and GEMET's, which are texts."""
    for name, new in (
        ("AGROVOC.ttl", {"text": "A cereal.", "source": "http://src.example/1"}),
        ("GEMET.ttl", "A small carnivore."),
        ("VocBench.ttl", "Small carnivores"),
    ):
        requests = map(json.loads, tool("from-skos", FOLDER / name, "--own", "--drop").out.splitlines())
        assert [it["new"] for it in requests if it["do"] == "set" and it["field"] == "definition"] == [new]


def test_a_scheme_is_described_by_the_first_names_of_dublin_core() -> None:
    """As TemaTres writes them; what is said so of a concept is lost."""
    ended = tool("from-skos", FOLDER / "TemaTres.rdf", "--lang", "es", "--own", "--drop")
    requests = map(json.loads, ended.out.splitlines())
    values = [(end_of(it["owner"]), it["field"], it["new"]) for it in requests if it["do"] == "set"]
    assert ("t.example", "creator", "Biblioteca") in values


def test_what_replaces_a_dead_concept_of_yso_is_a_merge() -> None:
    requests = map(json.loads, tool("from-skos", FOLDER / "YSO.ttl", "--drop").out.splitlines())
    merges = [(end_of(it["source"]), end_of(it["target"])) for it in requests if it["do"] == "merge"]
    assert merges == [("p9", "p1")]
