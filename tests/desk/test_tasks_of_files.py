"""The tasks of bringing in a file of SKOS with all that it has, and of saving files for paper, the web and other
programs, in a browser, by mouse and by keyboard alone."""
from __future__ import annotations

from pathlib import Path

import pytest
from hands import Hand, try_skos
from rdflib import Graph

pytestmark = pytest.mark.needs("chromedriver", "selenium", "rdflib", "weasyprint")
SKOS = """@prefix skos: <http://www.w3.org/2004/02/skos/core#> .
@prefix dct: <http://purl.org/dc/terms/> .
@prefix old: <https://old.example/> .
old:s a skos:ConceptScheme ; skos:prefLabel "Places"@en .
old:1 a skos:Concept ; skos:prefLabel "Cities"@en ; skos:inScheme old:s ; skos:topConceptOf old:s ;
  skos:definition "Large places with a charter."@en ; skos:notation "P 1" ; dct:created "2011-04-01" .
old:2 a skos:Concept ; skos:prefLabel "Paris"@en ; skos:inScheme old:s ; skos:broader old:1 ;
  skos:example "Paris, Texas"@en ; skos:historyNote "Lutetia until 360."@en ; skos:editorialNote "To be split."@en .
"""
# The ends of files by the names of their forms, and how the files begin.
FORMS = {
    "RDF/XML": (".rdf", b"<?xml"),
    "JSON-LD": (".jsonld", b"{"),
    "N-Triples": (".nt", b"<"),
    "PDF: systematic display": (".systematic.pdf", b"%PDF-"),
    "Web site (zip)": (".site.zip", b"PK"),
}


def test_2_bring_in_definitions_notes_and_notations(hand: Hand, tmp_path: Path) -> None:
    """Nothing of the file is left out."""
    try_skos(hand, tmp_path / "places.ttl", SKOS)
    hand.sees("Nothing is lost.")
    hand.press("Import it")
    hand.open("/search?q=charter")
    hand.press("Cities")
    for text in ("Large places with a charter. en", "P 1", "2011-04-01"):
        hand.sees(text)
    hand.press("Paris")
    for text in ("Paris, Texas", "Lutetia until 360.", "To be split."):
        hand.sees(text)


def test_choose_what_is_saved(hand: Hand) -> None:
    hand.open("/tree")
    hand.press("more formats")
    hand.is_at("/save")
    hand.choose("Format", "Zthes (XML)")
    hand.press("Save the file")
    # (the file is saved, and the page stays)
    hand.sees("Save the file")
    hand.open("/c/2")
    hand.press("Save the branch")
    hand.sees("Branch:")


def test_23_a_release_as_skos_on_paper_and_as_a_site(hand: Hand, tmp_path: Path) -> None:
    hand.driver.execute_cdp_cmd("Browser.setDownloadBehavior", {"behavior": "allow", "downloadPath": str(tmp_path)})
    hand.open("/releases")
    hand.fill("Name of the release", "2026.1")
    hand.press("Release")
    hand.is_at("/releases/2026.1")
    hand.open("/save")
    hand.choose("State", "Release 2026.1")
    for form, (end, begin) in FORMS.items():
        hand.choose("Format", form)
        # (the page stays)
        hand.push("Save the file")
        (path,) = hand.wait(lambda: [*tmp_path.glob(f"*2026.1*{end}")], form)
        assert path.read_bytes().startswith(begin), form
    first, *others = (set(Graph().parse(next(tmp_path.glob(f"*{end}")))) for end in (".nt", ".rdf", ".jsonld"))
    assert first and all(it == first for it in others), "one vocabulary in three forms"
