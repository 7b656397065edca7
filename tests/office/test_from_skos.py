"""tools/from-skos: an export comes back as the same export up to numbers, for stores of random requests, for a triple
of each kind and for the sample; and each thing that is lost or breaks a rule is reported before anything is written,
and left out with --drop."""
from __future__ import annotations

import csv
import gzip
import io
import json
import os
import re
import subprocess
import sys
from collections.abc import Iterator
from pathlib import Path
from typing import Any

import pytest
from dice import Requests
from office import TOOLS, tool
from plain import BASE, Plain
from plain_store import LIMITS
from program import ROOT, built, lines_of, over

EXAMPLES = ROOT / "crates" / "test_examples" / "data" / "exports.txt"
OTHER = "https://other.example/#"
STORES, REQUESTS = 12, 300
PREFIXES = """
@prefix : <http://old.example/> .
@prefix skos: <http://www.w3.org/2004/02/skos/core#> .
@prefix owl: <http://www.w3.org/2002/07/owl#> .
@prefix dct: <http://purl.org/dc/terms/> .
@prefix rdf: <http://www.w3.org/1999/02/22-rdf-syntax-ns#> .
@prefix iso: <http://purl.org/iso25964/skos-thes#> .
"""
needs_rdflib = pytest.mark.needs("rdflib")


def from_skos(*words: str | Path, seed: str = "0") -> tuple[int, str, list[str]]:
    """Runs the tool, and returns its status, the script and the lines of its report."""
    call = [sys.executable, TOOLS / "from-skos", *words]
    ran = subprocess.run(call, capture_output=True, check=False, env={**os.environ, "PYTHONHASHSEED": seed})
    return ran.returncode, ran.stdout.decode(), ran.stderr.decode().splitlines()


def load(path: Path, script: str) -> dict[str, str]:
    """Loads a script into a new store, and returns the numbers of the names."""
    file, names = path.with_suffix(".jsonl"), path.with_suffix(".csv")
    file.write_text(script, encoding="utf-8")
    words = ["--program", built(), "--db", path, "--base", OTHER, "--journal", path.with_suffix(".journal")]
    ended = tool("load", *words, "--names", names, file)
    assert not ended.status, ended.err.decode()
    return dict(list(csv.reader(io.StringIO(names.read_text(encoding="utf-8"))))[1:])


# --- what comes back ---


def random_requests(seed: int) -> Iterator[dict[str, Any]]:
    """Requests that make many concepts, and merge and deprecate often."""
    dice, plain = Requests(seed), Plain(LIMITS)
    for number in range(REQUESTS):
        request = dice.request(plain, 30)
        if number > REQUESTS // 2 and dice.one_in(3):
            ends = dice.ends(plain.refuses_merge, len(plain.resources))
            request = {"do": "merge", **dict(zip(("source", "target"), ends))}
        if "do" in request:
            plain, _ = plain.perform(request)
            yield request


def requests_of(name: str) -> bytes:
    """The requests that make a store."""
    if name == "the sample":
        return (ROOT / "examples" / "instruments.jsonl").read_bytes()
    if name == "each kind":
        example = EXAMPLES.read_text(encoding="utf-8").split("\n% ")[2].partition("\n@ export\n")[0]
        return "".join(f"{it[2:]}\n" for it in example.splitlines() if it.startswith("> ")).encode()
    return lines_of(random_requests(int(name.split()[1])))


@pytest.mark.parametrize("name", ["each kind", "the sample", *(f"store {seed}" for seed in range(STORES))])
def test_export_comes_back(name: str, room: Path) -> None:
    path, file, back = room / "first.db", room / "first.nt", room / "back.db"
    over(path, "script", requests_of(name))
    file.write_bytes(over(path, "export").out)
    status, script, report = from_skos(file)
    assert (status, report) == (0, [])
    numbers = load(back, script)
    export = file.read_text(encoding="utf-8")
    mapped = re.sub(rf"<({re.escape(BASE)}\d+)>", lambda it: f"<{OTHER}{numbers[it[1]]}>", export)
    assert set(over(back, "export").out.decode().splitlines()) == set(mapped.splitlines())


# --- what is lost ---

# A vocabulary whose only fault is each of these triples: the rule that is reported, and of which resource.
SOUND = """
:s a skos:ConceptScheme ; skos:prefLabel "Scheme"@en .
:a a skos:Concept ; skos:inScheme :s ; skos:prefLabel "Bass"@en ; skos:altLabel "Low"@en ; skos:broader :b .
:b a skos:Concept ; skos:inScheme :s ; skos:prefLabel "Fish"@en .
:c a skos:Concept ; skos:inScheme :s ; skos:prefLabel "Voice"@en ; skos:related :b .
:k a skos:Collection ; skos:inScheme :s ; skos:prefLabel "Group"@en ; skos:member :a .
:t a skos:ConceptScheme ; skos:prefLabel "Other"@en .
:d a skos:Concept ; skos:inScheme :t ; skos:prefLabel "Bass"@en ; skos:broadMatch :a .
"""
LOSSY: dict[str, tuple[str, str, str]] = {
    ':a skos:notation "B1" .': ("lost", "a", "notation 'B1'"),
    ':a skos:definition "A fish."@en .': ("lost", "a", "definition"),
    ":a skos:inScheme :t .": ("lost", "a", "a further scheme, http://old.example/t"),
    ":k skos:memberList (:b :c) .": ("lost", "k", "the order of its members"),
    ':k skos:member :k2 . :k2 a skos:Collection ; skos:inScheme :s ; skos:prefLabel "Inner"@en .': (
        "lost",
        "k",
        "the member http://old.example/k2",
    ),
    ':a skos:scopeNote [ <http://x.example/value> "x" ] .': ("lost", "a", "scopeNote _:"),
    '[] a skos:Concept ; skos:prefLabel "Nameless"@en .': ("lost", "_:", "the concept is a blank node"),
    ':a dct:created "2001" .': ("lost", "a", "http://purl.org/dc/terms/created '2001'"),
    ':b skos:topConceptOf :s ; skos:broader :z . :z a skos:Concept ; skos:inScheme :s ; skos:prefLabel "Z"@en .': (
        "lost",
        "b",
        "topConceptOf",
    ),
    ":c skos:broaderTransitive :a .": ("lost", "c", "broaderTransitive http://old.example/a"),
    ":a dct:isReplacedBy :b .": ("lost", "a", "isReplacedBy"),
    ":x skos:exactMatch :y .": ("lost", "x", "neither is a concept of the file"),
    ":b skos:broader :a .": (
        "Cycle",
        "b",
        "broader http://old.example/a, which closes the ring http://old.example/a < http://old.example/b",
    ),
    # (a link that leads up from a declared top concept is the one that is left out)
    ":a skos:topConceptOf :s . :b skos:broader :a .": (
        "Cycle",
        "a",
        "broader http://old.example/b, which closes the ring",
    ),
    ":d skos:narrowMatch :b .": ("Cycle", "d", "narrow http://old.example/b"),
    ":c a skos:Collection .": ("S37", "c", "a concept stays"),
    ":b skos:narrower :k .": (
        "lost",
        "b",
        "narrower http://old.example/k: a collection isn't above or below a concept",
    ),
    ':x a skos:Concept ; skos:prefLabel "Bass (fish)"@en . :a skos:exactMatch :x .': ("lost", "x", "prefLabel 'Bass"),
    ':a skos:scopeNote [ rdf:value "A fish."@en ; dct:created "2001" ] .': ("lost", "a", "/created '2001'"),
    ":t a skos:Concept ; skos:inScheme :s .": ("S9", "t", "a concept stays"),
    ':a skos:hiddenLabel "Low"@en .': ("S13", "a", "hidden label 'Low'@en"),
    ':a skos:altLabel "Bass"@EN .': ("S13", "a", "alt label 'Bass'@EN"),
    ':a skos:prefLabel "Basses"@en .': ("S14", "a", "pref label 'Basses'@en"),
    ":a skos:related :b .": ("S27", "a", "related http://old.example/b"),
    ":d skos:exactMatch :a .": ("S46", "d", "exact http://old.example/a"),
    ':c skos:prefLabel "Baß"@de . :b skos:prefLabel "Baß"@de .': (
        "P1",
        "c",
        "'Baß'@de is that of http://old.example/b",
    ),
    ':a skos:altLabel "Untagged" .': ("BadTag", "a", "--lang"),
    ':a skos:altLabel " Spaced"@en .': ("BadText", "a", "' Spaced'@en"),
    f':a skos:altLabel "{"x" * 257}"@en .': ("BadText", "a", "xxx"),
    ":a skos:closeMatch <urn:" + "x" * 509 + "> .": ("BadIri", "a", "close"),
    ":e a skos:Concept ; skos:inScheme :s .": ("NoLabel", "e", "no preferred label"),
    ':e a skos:Concept ; skos:prefLabel "E"@en .': ("NoScheme", "e", "--scheme"),
    ":a skos:broader :d .": ("OtherScheme", "a", "broader"),
    ":a skos:related :a .": ("SameResource", "a", "related"),
    ":a skos:exactMatch :c .": ("OtherScheme", "a", "exact"),
    ":c owl:deprecated true .": ("NotLive", "c", "related"),
}


def finding(line: str) -> tuple[str, str, str]:
    """The rule, the resource and the text of a line of the report."""
    found = re.fullmatch(r"from-skos: (\w+): (\S+)(?: \(.*?\))?: (.*)", line)
    assert found, line
    return found[1], found[2], found[3]


def without_nodes(report: list[str]) -> str:
    """A report without the names of blank nodes, which are others each time."""
    return re.sub(r"_:\w+", "_:", "\n".join(report[:-1]))


@needs_rdflib
@pytest.mark.parametrize("triples", LOSSY, ids=[f"{n}-{it[0]}-{it[1]}" for n, it in enumerate(LOSSY.values())])
def test_loss_is_reported_and_left_out_with_drop(triples: str, room: Path) -> None:
    file = room / "lossy.ttl"
    file.write_text(PREFIXES + SOUND + triples, encoding="utf-8")
    status, script, report = from_skos(file)
    assert (status, script) == (1, ""), report
    rule, resource, what = LOSSY[triples]
    begins = resource if resource == "_:" else f"http://old.example/{resource}"
    found = [finding(it) for it in report[:-1]]
    assert any(it[0] == rule and it[1].startswith(begins) and what in it[2] for it in found), report
    status, script, again = from_skos("--drop", file)
    assert not status and without_nodes(again) == without_nodes(report), again
    load(room / "lossy.db", script)


@pytest.fixture
def sound(room: Path) -> Path:
    """A file of a vocabulary without faults."""
    file = room / "sound.ttl"
    file.write_text(PREFIXES + SOUND, encoding="utf-8")
    return file


@needs_rdflib
def test_nothing_is_reported_of_a_vocabulary_without_faults(sound: Path, room: Path) -> None:
    status, script, report = from_skos(sound)
    assert (status, report) == (0, [])
    load(room / "sound.db", script)


@needs_rdflib
@pytest.mark.parametrize("seed", "123")
def test_script_is_the_same_each_time(seed: str, sound: Path) -> None:
    assert from_skos(sound, seed=seed) == from_skos(sound)


# --- labels of SKOS-XL, types of broader terms, and concepts below one that is left out ---

IN_XL = """
@prefix xl: <http://www.w3.org/2008/05/skos-xl#> .
:s a skos:ConceptScheme ; xl:prefLabel [ a xl:Label ; xl:literalForm "Scheme"@en ] .
:a a skos:Concept ; skos:inScheme :s ; xl:prefLabel :la ; xl:altLabel [ xl:literalForm "Low"@en ] .
:a xl:hiddenLabel [ a xl:Label ; xl:literalForm "Loww"@en ] .
:la a xl:Label ; xl:literalForm "Bass"@en .
"""
IN_PLAIN = """
:s a skos:ConceptScheme ; skos:prefLabel "Scheme"@en .
:a a skos:Concept ; skos:inScheme :s ; skos:prefLabel "Bass"@en ; skos:altLabel "Low"@en ; skos:hiddenLabel "Loww"@en .
"""


def write_turtle(path: Path, text: str) -> Path:
    """Writes triples of Turtle with the prefixes of these tests."""
    path.write_text(PREFIXES + text, encoding="utf-8")
    return path


@needs_rdflib
def test_labels_of_skos_xl_are_read(room: Path) -> None:
    found = from_skos(write_turtle(room / "xl.ttl", IN_XL))
    assert found == from_skos(write_turtle(room / "plain.ttl", IN_PLAIN))
    assert found[0] == 0 and not found[2] and found[1].count('"do":"addLabel"') == 2


@needs_rdflib
def test_what_else_is_said_of_a_label_of_skos_xl_is_lost(room: Path) -> None:
    file = write_turtle(room / "xl.ttl", IN_XL + ':la dct:created "2001" .')
    (line, _) = from_skos(file)[2]
    assert line == "from-skos: lost: http://old.example/la (Bass): http://purl.org/dc/terms/created '2001'"


@needs_rdflib
def test_vocabulary_that_would_be_empty_is_refused(room: Path) -> None:
    """As one whose labels of SKOS-XL have no form."""
    file = write_turtle(room / "xl.ttl", re.sub(r'xl:literalForm "(?!Scheme).*?"@en', "dct:source :x", IN_XL))
    status, script, report = from_skos("--drop", file)
    assert (status, script) == (1, "") and report[-1].endswith("no concept would be left, so nothing is written")


@needs_rdflib
@pytest.mark.parametrize("kind", ["Generic", "Partitive", "Instantial"])
@pytest.mark.parametrize("triple", [":a iso:broader{} :b .", ":b iso:narrower{} :a ."], ids=["broader", "narrower"])
def test_types_of_broader_terms_are_read(triple: str, kind: str, room: Path) -> None:
    status, script, report = from_skos(write_turtle(room / "typed.ttl", SOUND + triple.format(kind)))
    links = [it for it in map(json.loads, script.splitlines()) if it["do"] == "link"]
    a, b = "$http://old.example/a", "$http://old.example/b"
    assert (status, report) == (0, [])
    assert [it["kind"] for it in links if (it["a"], it["b"]) == (a, b)] == [f"broader{kind}"]


@pytest.mark.parametrize("name", ["each kind", "the sample"])
def test_types_of_broader_terms_come_back(name: str, room: Path) -> None:
    """By tools/to-rdf, which writes them, too."""
    path, file, back = room / "first.db", room / "first.nt", room / "back.db"
    over(path, "script", requests_of(name))
    words = ("--program", built(), "--types", "--format", "ntriples")
    text = tool("to-rdf", "--db", path, *words).out.decode()
    file.write_text(text, encoding="utf-8")
    status, script, report = from_skos(file)
    assert (status, report) == (0, [])
    numbers = load(back, script)
    mapped = re.sub(rf"<({re.escape(BASE)}\d+)>", lambda it: f"<{OTHER}{numbers[it[1]]}>", text)
    assert set(tool("to-rdf", "--db", back, *words).out.decode().splitlines()) == set(mapped.splitlines())
    assert "skos-thes#broaderGeneric" in text


# --- concepts of other vocabularies, collections below concepts, second preferred labels ---

STUBS = """
:s a skos:ConceptScheme ; skos:prefLabel "Scheme"@en .
:a a skos:Concept ; skos:inScheme :s ; skos:prefLabel "Bass"@en ; skos:exactMatch <http://id.loc.gov/x2> .
:b a skos:Concept ; skos:inScheme :s ; skos:prefLabel "Fish"@en ; skos:narrower :k ; skos:closeMatch :aat .
<http://id.loc.gov/x2> a skos:Concept .
:aat a skos:Concept ; skos:prefLabel "fish (animals)"@en ; skos:inScheme :getty .
<http://d-nb.info/1> a skos:Concept ; skos:broadMatch :a .
:k a skos:Collection ; skos:prefLabel "fish by size"@en ; skos:member :a .
"""


@needs_rdflib
def test_stubs_of_other_vocabularies_are_outside_concepts(room: Path) -> None:
    """Also those with a label, which is reported as lost; and a collection below a concept keeps its members."""
    status, script, report = from_skos("--drop", write_turtle(room / "stubs.ttl", STUBS))
    assert status == 0
    assert links_of(script) == {"a exact x2", "b close aat", "a narrow 1", "k member a"}
    made = [(it["do"], it.get("iri", it.get("text"))) for it in map(json.loads, script.splitlines()) if "as" in it]
    outside = ["http://id.loc.gov/x2", "http://old.example/aat", "http://d-nb.info/1"]
    assert sorted(it for kind, it in made if kind == "outside") == sorted(outside)
    assert [it for it in made if it[0] in ("scheme", "collection")] == [
        ("scheme", "Scheme"),
        ("collection", "fish by size"),
    ]
    assert [finding(it)[1:] for it in report[:-1]] == [
        ("http://old.example/b", finding(report[0])[2]),
        ("http://old.example/aat", "inScheme http://old.example/getty"),
        ("http://old.example/aat", "prefLabel 'fish (animals)'@en"),
    ]
    load(room / "stubs.db", script)


UNLABELLED = """
:s a skos:ConceptScheme ; skos:prefLabel "Scheme"@en .
:a a skos:Concept ; skos:inScheme :s ; skos:prefLabel "Bass"@en ; skos:exactMatch :sh1 .
:lc a skos:ConceptScheme ; skos:prefLabel "LCSH"@en .
:sh1 a skos:Concept ; skos:inScheme :lc .
"""


@needs_rdflib
def test_a_stub_without_a_label_is_an_outside_concept_also_if_its_scheme_is_described(room: Path) -> None:
    """That scheme, which has nothing else, is reported as lost; one that has a concept of its own stays."""
    status, script, report = from_skos("--drop", write_turtle(room / "stub.ttl", UNLABELLED))
    assert not status and links_of(script) == {"a exact sh1"}
    made = [(it["do"], it.get("iri", it.get("text"))) for it in map(json.loads, script.splitlines()) if "as" in it]
    assert made == [("scheme", "Scheme"), ("concept", "Bass"), ("outside", "http://old.example/sh1")]
    assert [finding(it)[1:] for it in report[:-1]] == [
        ("http://old.example/lc", "prefLabel 'LCSH'@en"),
        ("http://old.example/sh1", "inScheme http://old.example/lc"),
    ]
    member = UNLABELLED + ':k a skos:Collection ; skos:inScheme :s ; skos:prefLabel "By size"@en ; skos:member :sh1 .'
    status, script, report = from_skos("--drop", write_turtle(room / "member.ttl", member))
    assert not status and links_of(script) == {"a exact sh1"}
    assert ("lost", "http://old.example/k") in [finding(it)[:2] for it in report[:-1]]
    own = UNLABELLED + ':sh2 a skos:Concept ; skos:inScheme :lc ; skos:prefLabel "Fishes"@en .'
    status, script, report = from_skos("--drop", write_turtle(room / "own.ttl", own))
    assert not status and links_of(script) == {"a exact sh1"}
    assert [finding(it)[1:] for it in report[:-1]] == [("http://old.example/sh1", "inScheme http://old.example/lc")]


@needs_rdflib
def test_a_second_preferred_label_becomes_an_alternative_one(room: Path) -> None:
    file = write_turtle(room / "second.ttl", SOUND + ':a skos:prefLabel "Basses"@en .')
    assert from_skos("--drop", file)[2][-1].endswith("options that keep more: --second alt (S14)")
    status, script, report = from_skos("--second", "alt", file)
    assert (status, report) == (0, [])
    added = [it for it in map(json.loads, script.splitlines()) if it["do"] == "addLabel" and it["text"] == "Basses"]
    assert [(it["owner"], it["kind"], it["tag"]) for it in added] == [("$http://old.example/a", "alt", "en")]


@needs_rdflib
def test_the_hint_for_a_scheme_without_a_label(room: Path) -> None:
    file = write_turtle(room / "unlabelled.ttl", ':a a skos:Concept ; skos:prefLabel "A"@en ; skos:inScheme :s .')
    report = from_skos(file)[2]
    assert "from-skos: NoLabel: http://old.example/s: the scheme has no preferred label; --scheme gives one" in report
    assert report[-1].endswith("options that keep more: --scheme TEXT (NoLabel of a scheme)")
    assert from_skos("--scheme", "All", "--lang", "en", file)[0] == 0


@needs_rdflib
def test_the_report_has_all_findings_with_terms(room: Path) -> None:
    notations = "".join(f':a skos:notation "{n}" . ' for n in range(20))
    file = write_turtle(room / "many.ttl", SOUND + notations + ":b skos:broader :a .")
    status, _, printed = from_skos("--report", room / "report.csv", file)
    rows = list(csv.reader(io.StringIO((room / "report.csv").read_text(encoding="utf-8-sig"))))
    assert status == 1 and rows[0] == ["rule", "address", "term", "what is left out"]
    assert sorted(it[3] for it in rows if it[0] == "lost") == sorted(f"notation '{n}'" for n in range(20))
    assert {(it[1], it[2]) for it in rows if it[0] == "lost"} == {("http://old.example/a", "Bass")}
    ring = "broader http://old.example/a (Bass), which closes the ring"
    assert [it[:3] for it in rows if it[3].startswith(ring)] == [["Cycle", "http://old.example/b", "Fish"]]
    assert "from-skos: Cycle: http://old.example/b (Fish): broader" in "\n".join(printed)


@needs_rdflib
def test_a_report_has_the_keys_of_its_sentences(room: Path) -> None:
    """As lines of JSON, by which a desk says them in other languages; with terms behind addresses."""
    file = write_turtle(room / "keys.ttl", SOUND + ":b skos:broader :a . :a skos:notation 'x' .")
    from_skos("--report", room / "report.jsonl", file)
    lines = [json.loads(it) for it in (room / "report.jsonl").read_text(encoding="utf-8").splitlines()]
    a, b = "http://old.example/a (Bass)", "http://old.example/b (Fish)"
    ring = {"link_kind": "broader", "target": a, "ring": f"{a} < {b}"}
    assert [(it["key"], it["values"]) for it in lines if it["rule"] == "Cycle"] == [("ring", ring)]
    (lost,) = [it for it in lines if it["rule"] == "lost"]
    assert (lost["address"], lost["term"], lost["key"]) == ("http://old.example/a", "Bass", "text")
    assert lost["values"] == {"property": "notation", "text": "x", "tag": ""}


@needs_rdflib
def test_no_cell_of_the_report_is_a_formula(room: Path) -> None:
    formula = '=HYPERLINK("http://x.example/")'
    file = write_turtle(room / "formulas.ttl", SOUND.replace('"Bass"', f"'{formula}'") + ":a skos:notation '-1' .")
    from_skos("--report", room / "report.csv", file)
    rows = list(csv.reader(io.StringIO((room / "report.csv").read_text(encoding="utf-8-sig"))))
    assert [it[2] for it in rows if it[0] == "lost"] == [f"'{formula}"]


def quads_of(triples: str) -> str:
    """Returns N-Triples with the name of a graph in each other line."""
    lines = triples.splitlines()
    return "\n".join(f"{it[:-1]}<http://g.example/> ." if n % 2 else it for n, it in enumerate(lines))


@needs_rdflib
@pytest.mark.parametrize(
    "name", ["bom.nt", "bom.ttl", "plain.nq", "bom.nq", "packed.nt.gz", "packed.ttl.gz", "PACKED.NQ.GZ"]
)
def test_marks_of_utf_8_graphs_and_packed_files_are_read(name: str, options_file: Path, room: Path) -> None:
    data = options_file.read_text(encoding="utf-8")
    data = quads_of(data) if "nq" in name.lower() else data
    bom = "\ufeff" if name.startswith("bom") else ""
    plain = (bom + data).encode()
    (room / name).write_bytes(gzip.compress(plain) if name.lower().endswith(".gz") else plain)
    assert from_skos(room / name, *OPTIONS) == from_skos(options_file, *OPTIONS)


@pytest.mark.parametrize(
    "data", [b"\x1f\x8b", b"\x1f\x8bxxxxxxxxxxxx", gzip.compress(b"x" * 10_000)[:-9]], ids=["start", "noise", "cut"]
)
def test_a_damaged_packed_file_is_refused(data: bytes, room: Path) -> None:
    (room / "cut.nt.gz").write_bytes(data)
    status, script, report = from_skos(room / "cut.nt.gz")
    assert (status, script, len(report)) == (1, "", 1) and "cut.nt.gz: it is cut short, or damaged" in report[0]


GAPS = """
:s a skos:ConceptScheme ; skos:prefLabel "Scheme"@en .
:top a skos:Concept ; skos:inScheme :s ; skos:prefLabel "Top"@en .
:gone a skos:Concept ; skos:inScheme :s ; skos:broader :top .
:also a skos:Concept ; skos:inScheme :s ; skos:broader :gone .
:one a skos:Concept ; skos:inScheme :s ; skos:prefLabel "One"@en ; iso:broaderGeneric :also .
:two a skos:Concept ; skos:inScheme :s ; skos:prefLabel "Two"@en ; skos:broader :gone .
:three a skos:Concept ; skos:inScheme :s ; skos:prefLabel "Three"@en ; skos:broader :gone .
"""


def links_of(script: str) -> set[str]:
    """The links of a script, with the ends of IRIs."""
    found = [it for it in map(json.loads, script.splitlines()) if it["do"] == "link"]
    return {" ".join((it["a"].rpartition("/")[2], it["kind"], it["b"].rpartition("/")[2])) for it in found}


@needs_rdflib
def test_places_below_what_is_left_out_are_counted(room: Path) -> None:
    status, script, report = from_skos("--drop", write_turtle(room / "gaps.ttl", GAPS))
    assert not status and not links_of(script)
    assert "from-skos: lost: http://old.example/gone: the place of 2 concepts below it; --adopt keeps one" in report
    assert "from-skos: lost: http://old.example/also: the place of 1 concept below it; --adopt keeps one" in report
    assert "lost 2 (place 2)" in report[-1] and report[-1].endswith("options that keep more: --adopt (place)")


@needs_rdflib
def test_places_are_kept_with_adopt(room: Path) -> None:
    """Below the nearest concept above that stays, by links of the same types."""
    status, script, report = from_skos("--drop", "--adopt", write_turtle(room / "gaps.ttl", GAPS))
    assert not status and not any("the place" in it for it in report)
    assert links_of(script) == {"one broaderGeneric top", "two broader top", "three broader top"}
    load(room / "gaps.db", script)


# --- MADS/RDF, which the Library of Congress writes beside SKOS, or alone ---

SUBJECT = "http://id.loc.gov/authorities/subjects/sh85143827"
IN_MADS = f"""
<{SUBJECT}> rdf:type <mads:Topic> .
<{SUBJECT}> rdf:type <mads:Authority> .
<{SUBJECT}> <mads:authoritativeLabel> "Violin"@en .
<{SUBJECT}> <mads:elementList> _:list .
_:list rdf:first _:element .
_:list rdf:rest rdf:nil .
_:element rdf:type <mads:TopicElement> .
_:element <mads:elementValue> "Violin"@en .
<{SUBJECT}> <mads:hasVariant> _:first .
_:first rdf:type <mads:Topic> .
_:first rdf:type <mads:Variant> .
_:first <mads:variantLabel> "Fiddle"@en .
<{SUBJECT}> <mads:hasVariant> _:second .
_:second rdf:type <mads:Variant> .
_:second <mads:variantLabel> "Fiddles"@en .
"""
MADS_LOST = {"TopicElement": 1, "elementList": 1, "elementValue": 1}
IN_SKOS = f"""
<{SUBJECT}> rdf:type <skos:Concept> .
<{SUBJECT}> <skos:inScheme> <http://id.loc.gov/authorities/subjects> .
<{SUBJECT}> <skos:prefLabel> "Violin"@en .
<http://id.loc.gov/authorities/subjects> <skos:prefLabel> "Subject headings"@en .
"""


def write_authority(path: Path, text: str) -> Path:
    """Writes lines of N-Triples whose terms have prefixes."""
    text = text.replace("<mads:", "<http://www.loc.gov/mads/rdf/v1#")
    text = text.replace("<skos:", "<http://www.w3.org/2004/02/skos/core#")
    text = re.sub(r"rdf:(\w+)", r"<http://www.w3.org/1999/02/22-rdf-syntax-ns#\1>", text)
    path.write_text(text, encoding="utf-8")
    return path


def mads_counts(report: list[str]) -> dict[str, int]:
    """How often a report names the terms of MADS/RDF."""
    return {name: int(count) for name, count in re.findall(r"madsrdf:(\w+) (\d+)", report[-1])}


def test_mads_beside_skos_adds_its_variants(room: Path) -> None:
    file = write_authority(room / "both.nt", IN_SKOS + IN_MADS)
    status, script, report = from_skos(file)
    assert (status, script) == (1, "") and mads_counts(report) == MADS_LOST
    assert any("madsrdf:TopicElement as its class" in it for it in report)
    status, script, report = from_skos("--drop", file)
    assert status == 0 and mads_counts(report) == MADS_LOST
    labels = {(it["kind"], it["text"]) for it in map(json.loads, script.splitlines()) if it["do"] == "addLabel"}
    assert labels == {("alt", "Fiddle"), ("alt", "Fiddles")}


def test_mads_alone_is_read(room: Path) -> None:
    more = f"""
<{SUBJECT}> <mads:hasBroaderAuthority> <http://id.loc.gov/authorities/subjects/sh1> .
<http://id.loc.gov/authorities/subjects/sh1> rdf:type <mads:Topic> .
<http://id.loc.gov/authorities/subjects/sh1> <mads:authoritativeLabel> "Bowed instruments"@en .
<http://id.loc.gov/authorities/subjects/sh2> rdf:type <mads:DeprecatedAuthority> .
<http://id.loc.gov/authorities/subjects/sh2> <mads:variantLabel> "Viols, Bowed"@en .
<http://id.loc.gov/authorities/subjects/sh2> <mads:useInstead> <{SUBJECT}> .
"""
    file = write_authority(room / "mads.nt", IN_MADS + more)
    status, script, report = from_skos("--scheme", "All", "--lang", "en", "--drop", file)
    requests = [json.loads(it) for it in script.splitlines()]
    assert status == 0 and mads_counts(report) == MADS_LOST
    assert {it["text"] for it in requests if it["do"] == "concept"} == {"Violin", "Bowed instruments", "Viols, Bowed"}
    assert [it["do"] for it in requests].count("link") == 1 and [it["do"] for it in requests].count("merge") == 1
    load(room / "mads.db", script)


def test_mads_without_an_authority_is_refused(room: Path) -> None:
    text = '_:first rdf:type <mads:Variant> .\n_:first <mads:variantLabel> "Fiddle"@en .\n'
    status, script, report = from_skos(write_authority(room / "none.nt", text))
    assert (status, script, len(report)) == (1, "", 1) and mads_counts(report) == {"Variant": 1, "variantLabel": 1}


# --- Zthes ---

ZTHES = """<?xml version="1.0"?>
<!DOCTYPE Zthes SYSTEM "http://zthes.z3950.org/schema/zthes-1.0.dtd">
<Zthes xmlns:dc="http://purl.org/dc/elements/1.1/">
<thes><dc:title>Music</dc:title></thes>
<term><termId>1</termId><termName>Strings</termName><termType>TT</termType><termLanguage>en</termLanguage>
 <relation><relationType>NT</relationType><termId>2</termId></relation></term>
<term><termId>2</termId><termName>Violins</termName><termType>PT</termType><termLanguage>EN</termLanguage>
 <termStatus>active</termStatus><termNote label="NA">Bowed.</termNote><termNote label="Source">Grove</termNote>
 <relation><relationType>BTG</relationType><termId>1</termId></relation>
 <relation><relationType>UF</relationType><termId>3</termId></relation>
 <relation><relationType>LE</relationType><termId>4</termId></relation>
 <relation><relationType>XX</relationType><termId>1</termId></relation></term>
<term><termId>3</termId><termName>Fiddles</termName><termType>ND</termType><termLanguage>en</termLanguage>
 <relation><relationType>USE</relationType><termId>2</termId></relation></term>
<term><termId>4</termId><termName>Geigen</termName><termType>PT</termType><termLanguage>de</termLanguage>
 <relation><relationType>LE</relationType><termId>2</termId></relation></term>
<term><termId>5</termId><termName>by size</termName><termType>NL</termType></term>
</Zthes>
"""


def test_zthes_is_read(room: Path) -> None:
    file = room / "zthes.xml"
    file.write_text(ZTHES, encoding="utf-8")
    status, script, report = from_skos("--lang", "en", "--drop", file)
    requests = [json.loads(it) for it in script.splitlines()]
    assert status == 0, report
    assert [it["text"] for it in requests if it["do"] == "scheme"] == ["Music"]
    assert {it["text"] for it in requests if it["do"] == "concept"} == {"Strings", "Violins"}
    labels = {(it["kind"], it["tag"], it["text"]) for it in requests if it["do"] == "addLabel"}
    assert labels == {("alt", "en", "Fiddles"), ("pref", "de", "Geigen"), ("scope", "en", "Bowed.")}
    assert [it["kind"] for it in requests if it["do"] == "link"] == ["broaderGeneric"]
    lost = "\n".join(it for it in report if it.startswith("from-skos: lost:"))
    assert all(it in lost for it in ("termStatus", "termNote-Source", "relation-XX", "term-NL", "by size"))
    assert lost.count("\n") == 3
    load(room / "zthes.db", script)


@pytest.mark.parametrize(
    ("text", "wanted"),
    [
        (ZTHES.replace("</Zthes>", ""), "zthes.xml:19: no element found"),
        ("<!DOCTYPE a [<!ENTITY b 'c'>]>", "it declares"),
    ],
)
def test_zthes_that_is_damaged(room: Path, text: str, wanted: str) -> None:
    file = room / "zthes.xml"
    file.write_text(text if "<Zthes" in text else f"{text}{ZTHES[ZTHES.index('<Zthes'):]}", encoding="utf-8")
    status, script, report = from_skos("--lang", "en", "--drop", file)
    assert (status, script) == (1, "") and wanted in report[-1]


# --- options, and files that can't be read ---

PLAIN_TEXTS = """<http://old.example/s> <http://www.w3.org/1999/02/22-rdf-syntax-ns#type> \
<http://www.w3.org/2004/02/skos/core#ConceptScheme> .
<http://old.example/s> <http://purl.org/dc/terms/title> "Fish" .
<http://old.example/a> <http://www.w3.org/2004/02/skos/core#topConceptOf> <http://old.example/s> .
<http://old.example/a> <http://www.w3.org/2004/02/skos/core#prefLabel> " Sea \\n bass" .
<http://old.example/a> <http://www.w3.org/2004/02/skos/core#notation> "B1" .
<http://old.example/b> <http://www.w3.org/2004/02/skos/core#broader> <http://old.example/a> .
<http://old.example/b> <http://www.w3.org/2004/02/skos/core#prefLabel> "Old" .
<http://old.example/c> <http://www.w3.org/2004/02/skos/core#broader> <http://old.example/b> .
<http://old.example/c> <http://www.w3.org/2004/02/skos/core#prefLabel> "Old" .
<http://old.example/c> <http://www.w3.org/2004/02/skos/core#definition> "LONG" .
"""


OPTIONS = ["--lang", "en", "--qualify", "parent", "--texts", "cut", "--as-scope", "definition"]


@pytest.fixture
def options_file(room: Path) -> Path:
    """A file for options, with a text that is too long."""
    file = room / "options.nt"
    file.write_text(PLAIN_TEXTS.replace("LONG", "é" * 1001), encoding="utf-8")
    return file


def test_codes_become_hidden_labels(options_file: Path) -> None:
    status, script, report = from_skos(options_file, *OPTIONS, "--hidden-codes", "zxx")
    assert (status, report) == (0, ["from-skos: 2 texts were trimmed or cut"])
    terms = ["Fish", "Sea   bass", "Old (Sea   bass)", "Old (Old)"]
    texts = [json.loads(it).get("text") for it in script.splitlines()]
    assert texts == [*terms, "B1", "b", "c", "é" * 1000, None, None]


def test_old_iris_are_kept(options_file: Path, room: Path) -> None:
    status, script, _ = from_skos(options_file, *OPTIONS, "--keep-iris", "--drop")
    assert not status
    assert "outside http://old.example/c" in load(room / "options.db", script)
    assert over(room / "options.db", "export").out.count(b"#exactMatch> <http://old.example/") == 3


@needs_rdflib
def test_the_old_iri_of_what_is_left_out_is_no_further_loss(room: Path) -> None:
    file = write_turtle(room / "gone.ttl", SOUND + ":z a skos:Concept ; skos:inScheme :s .")
    status, _, report = from_skos("--keep-iris", "--drop", file)
    assert not status and [finding(it)[:2] for it in report[:-1]] == [("NoLabel", "http://old.example/z")]


DEAD = """
:s a skos:ConceptScheme ; skos:prefLabel "Fish"@en .
:a a skos:Concept ; skos:inScheme :s ; skos:prefLabel "Bass"@en .
:b a skos:Concept ; skos:inScheme :s ; skos:prefLabel "Perch"@en ; owl:deprecated true ; dct:isReplacedBy :c .
:c a skos:Concept ; skos:inScheme :s ; skos:prefLabel "Sea bass"@en ; owl:deprecated true ; dct:isReplacedBy :a .
:d a skos:Concept ; skos:inScheme :s ; skos:prefLabel "Kraken"@en ; owl:deprecated true .
:e a skos:Concept ; skos:inScheme :s ; skos:prefLabel "Hydra"@en ; owl:deprecated true ; dct:isReplacedBy :f .
:f a skos:Concept ; skos:inScheme :s ; skos:prefLabel "Lerna"@en ; owl:deprecated true ; dct:isReplacedBy :e .
"""


@needs_rdflib
def test_old_iris_of_dead_concepts_are_those_of_their_successors(room: Path) -> None:
    """And are reported as lost where nothing replaces them."""
    status, script, report = from_skos("--keep-iris", "--drop", write_turtle(room / "dead.ttl", DEAD))
    assert not status and links_of(script) == {"a exact a", "a exact b", "a exact c"}
    lost = [(finding(it)[1], finding(it)[2]) for it in report[:-1] if "old IRI" in it]
    assert lost == [(f"http://old.example/{it}", "the old IRI, as nothing replaces it") for it in "def"]
    load(room / "dead.db", script)


def test_old_iris_and_codes_are_kept_together(options_file: Path, room: Path) -> None:
    _, with_iris, _ = from_skos(options_file, *OPTIONS, "--keep-iris", "--drop")
    _, with_codes, _ = from_skos(options_file, *OPTIONS, "--hidden-codes", "zxx")
    status, both, _ = from_skos(options_file, *OPTIONS, "--hidden-codes", "zxx", "--keep-iris")
    assert not status
    assert sorted(both.splitlines()) == sorted({*with_iris.splitlines(), *with_codes.splitlines()})
    load(room / "both.db", both)
    codes = re.findall(r'#hiddenLabel> "(\w+)"@zxx', over(room / "both.db", "export").out.decode())
    assert sorted(codes) == ["B1", "b", "c"]


def test_all_codes_are_kept(options_file: Path) -> None:
    _, script, _ = from_skos(options_file, *OPTIONS, "--hidden-codes", "zxx", "--all-codes")
    requests = [json.loads(it) for it in script.splitlines()]
    assert [it["text"] for it in requests if it.get("tag") == "zxx"] == ["a", "B1", "b", "c"]


LEFT_OUT = (
    "BadTag 4, lost 2 (notation 1, definition 1), NoLabel 4, UnknownResource 2; options that keep more: --lang TAG "
    "(BadTag), --hidden-codes TAG (notation), --as-scope definition (definition)"
)


@pytest.mark.parametrize(
    ("words", "wanted", "why"),
    [
        (["options.txt"], 2, "--form says what it is"),
        (["options.txt", "--form", "nt"], 1, LEFT_OUT),
        (["empty.nt"], 1, "nothing in it is a concept"),
    ],
    ids=["no form", "a form", "an empty file"],
)
def test_form_of_a_file(words: list[str], wanted: int, why: str, options_file: Path, room: Path) -> None:
    """The end of a name or --form says what a file is. What is left out is counted by kind, with the options that keep
    it."""
    (room / "options.txt").write_bytes(options_file.read_bytes())
    (room / "empty.nt").write_text("", encoding="utf-8")
    status, script, report = from_skos(room / words[0], *words[1:])
    assert (status, script) == (wanted, "") and why in report[-1], report


# Runs the tool by a Python that lacks rdflib, as another installation than the system's may.
WITHOUT = """
import os, runpy, sys
sys.modules["rdflib"], sys.executable = None, "another"
del sys.argv[0]
sys.path.insert(0, os.path.dirname(sys.argv[0]))
runpy.run_path(sys.argv[0], run_name="__main__")
"""


@pytest.mark.needs("rdflib")
@pytest.mark.skipif(Path(sys.executable).resolve() != Path("/usr/bin/python3").resolve(), reason="another Python")
def test_python_without_rdflib_has_the_systems_do_it(sound: Path) -> None:
    call = [sys.executable, "-c", WITHOUT, TOOLS / "from-skos", sound]
    ran = subprocess.run(call, capture_output=True, check=False)
    assert (ran.returncode, ran.stdout.decode(), ran.stderr) == (0, from_skos(sound)[1], b"")


# Files, what is in them, the status that is wanted, and a part of what is said.
WRONG: dict[str, tuple[str | None, int, str]] = {
    "wrong.nt": ("<http://a> <http://b> c .\n", 1, "wrong.nt:1: no triple"),
    "cut.nt": ("\n<http://a> <http://b> ", 1, "cut.nt:2: no triple"),
    "none.nt": (None, 3, "No such file"),
    "wrong.ttl": (":a :b .", 1, "wrong.ttl:1: "),
    "none.rdf": (None, 3, "none.rdf"),
}


@pytest.mark.parametrize("name", [pytest.param(it, marks=[needs_rdflib] * (not it.endswith(".nt"))) for it in WRONG])
def test_file_that_cant_be_read(name: str, room: Path) -> None:
    text, wanted, why = WRONG[name]
    if text is not None:
        (room / name).write_text(text, encoding="utf-8")
    status, script, report = from_skos(room / name)
    assert (status, script) == (wanted, "") and why in report[0], report
