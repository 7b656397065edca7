"""Debian's Biblio::Thesaurus (libbiblio-thesaurus-perl) reads the alphabetical displays of the sample as tagged text,
as sed makes it of them: its terms and relations are those of the export, each with its inverse; and its own tools make
HTML and TeX of it."""
from __future__ import annotations

import json
import re
import subprocess
from collections import defaultdict
from pathlib import Path
from typing import NamedTuple

import pytest
from office import SKOS
from program import ROOT, over
from thesaurus_tools.ntriples import OWL, RDF, Literal, Node, parse_ntriples

# An empty line before each entry, no indentation, and BT and NT without the letter of their type.
SED = r"/^[^ ]/ s/^/\n/; s/^  (BT|NT)[GPI] /\1 /; s/^  //"
DUMP = (
    "use Biblio::Thesaurus; use JSON::PP; my $t = thesaurusLoad({completed => 1}, $ARGV[0]); print "
    "JSON::PP->new->utf8->encode($t->{$t->{baselang}})"
)
INVERSES = {"BT": "NT", "NT": "BT", "RT": "RT", "USE": "UF", "UF": "USE"}
# How many seconds one of its tools may take.
PATIENCE = 60
LANGS = {"en": 35, "de": 37, "fr": 30}
# What is read: the relations, as triples of texts, and the terms.
Read = tuple[set[tuple[str, str, str]], set[str]]


def has_perl_modules() -> bool:
    words = ["perl", "-MBiblio::Thesaurus", "-MJSON::PP", "-e", "1"]
    return subprocess.run(words, capture_output=True, check=False).returncode == 0


pytestmark = [
    pytest.mark.needs("perl"),
    pytest.mark.skipif(not has_perl_modules(), reason="skipped without libbiblio-thesaurus-perl"),
]


class Sample(NamedTuple):
    """The export of the sample, and its alphabetical displays by their languages."""

    export: bytes
    displays: dict[str, bytes]


@pytest.fixture(scope="module")
def sample(shared_room: Path) -> Sample:
    store = shared_room / "sample.db"
    over(store, "script", (ROOT / "examples" / "instruments.jsonl").read_bytes())
    displays = {it: over(store, "alphabetical", after=["--scheme", "1", "--lang", it]).out for it in LANGS}
    # (of a file without entries Biblio::Thesaurus reads without end)
    assert all(displays.values())
    return Sample(over(store, "export").out, displays)


def write_tagged(file: Path, display: bytes) -> None:
    """Writes a display as tagged text."""
    ran = subprocess.run(["sed", "-E", SED], input=display, capture_output=True, check=True)
    file.write_bytes(b"%enc utf8\n" + ran.stdout)


def read_by_perl(file: Path) -> Read:
    """What Biblio::Thesaurus finds. Nothing is completed by it."""
    ran = subprocess.run(["perl", "-e", DUMP, file], capture_output=True, check=True, timeout=PATIENCE)
    terms = json.loads(ran.stdout)
    parts = [(term, name, its) for term, found in terms.items() for name, its in found.items() if name != "_NAME_"]
    return {(term, name, it) for term, name, its in parts for it in its}, set(terms)


def read_export(export: bytes, lang: str) -> Read:
    """The same, from the triples of an export."""
    properties: dict[str, list[tuple[Node, Node]]] = defaultdict(list)
    for subject, predicate, target in parse_ntriples(export, "export"):
        properties[predicate.removeprefix(SKOS)].append((subject, target))
    dead = {it for it, _ in properties[OWL + "deprecated"]}
    live = {it for it, kind in properties[RDF + "type"] if kind == SKOS + "Concept"} - dead

    def texts(name: str) -> list[tuple[Node, str]]:
        found = [(it, text) for it, text in properties[name] if isinstance(text, Literal) and it in live]
        return [(it, text.text) for it, text in found if text.tag == lang]

    terms = {it: f"[{str(it).rpartition('/')[2]}]" for it in live} | dict(texts("prefLabel"))
    alternatives = [(terms[it], text) for it, text in texts("altLabel")]
    found = {(terms[it], "SN", text) for it, text in texts("scopeNote")}
    for name, property_ in (("BT", "broader"), ("NT", "narrower"), ("RT", "related")):
        found |= {(terms[a], name, terms[b]) for a, b in properties[property_]}
    found |= {(term, "UF", text) for term, text in alternatives} | {(text, "USE", term) for term, text in alternatives}
    return found, set(terms.values()) | {text for _, text in alternatives}


@pytest.mark.parametrize("lang", LANGS)
def test_terms_and_relations_are_those_of_the_export(lang: str, sample: Sample, room: Path) -> None:
    file = room / "sample.the"
    write_tagged(file, sample.displays[lang])
    relations, terms = read_by_perl(file)
    assert (relations, terms) == read_export(sample.export, lang)
    assert len(terms) == LANGS[lang]
    assert not [it for it in relations if it[1] in INVERSES and (it[2], INVERSES[it[1]], it[0]) not in relations]


def test_display_without_one_of_its_lines_is_found_out(sample: Sample, room: Path) -> None:
    file = room / "cut.the"
    write_tagged(file, sample.displays["en"].replace(b"  NTG Cellos\n", b"", 1))
    assert read_by_perl(file)[0] != read_export(sample.export, "en")[0]


def test_its_own_tools_make_html_and_tex(sample: Sample, room: Path) -> None:
    write_tagged(room / "sample.the", sample.displays["en"])
    terms = read_export(sample.export, "en")[1]
    subprocess.run(["thesaurus2htmls", "sample.the"], cwd=room, capture_output=True, check=True, timeout=PATIENCE)
    subprocess.run(
        ["thesaurus2tex", "sample.the", "sample"], cwd=room, capture_output=True, check=True, timeout=PATIENCE
    )
    pages = "".join(it.read_text(encoding="utf-8") for it in (room / "_").iterdir())
    assert set(re.findall(r"<h3>(.*?)</h3>", pages)) == terms
    assert set(re.findall(r"\\term\{(.*?)\}", (room / "sample.tex").read_text(encoding="utf-8"))) == terms
