"""The pages of letters of a web site: each letter has its own, whose name needs no escape, and links lead to files."""
from __future__ import annotations

import re
import sys
from html import unescape
from pathlib import Path
from urllib.parse import unquote, urlsplit

from office import SKOS, TYPE, tool
from thesaurus_tools.site_terms import Entry, letter_of, page_of_letter
from thesaurus_tools.texts import sort_key

# Terms in scripts outside the Basic Multilingual Plane: Tangut, of which Python has no names, Nushu, Gothic, Deseret,
# Cuneiform, ideographs of the supplementary planes; and an emoji.
TERMS = ("𗼇", "𗴂", "𛅰", "𐌰", "𐐀", "𒀀", "𠀀", "𰀀", "🎻", "Violins", "?")


def letter(text: str) -> str:
    """Returns the heading of a term."""
    return letter_of(Entry(sort_key(text), text, "c1", None))


def test_each_letter_has_a_page() -> None:
    letters = {letter(it) for it in map(chr, range(1, sys.maxunicode + 1)) if it.isalpha()} | {"0–9", "#"}
    pages = {it: page_of_letter(it) for it in letters}
    assert {it for it in pages.values() if not re.fullmatch("[a-z0-9-]+", it)} == set()
    assert len(set(pages.values())) == len(pages)


def test_links_lead_to_pages(tmp_path: Path) -> None:
    subject = "<http://a.example/%d>"
    lines = [f"{subject % 1} <{TYPE}> <{SKOS}ConceptScheme> ."]
    for number, term in enumerate(TERMS, 2):
        lines += [
            f"{subject % number} <{TYPE}> <{SKOS}Concept> .",
            f"{subject % number} <{SKOS}inScheme> {subject % 1} .",
            f'{subject % number} <{SKOS}prefLabel> "{term}"@en .',
        ]
    (tmp_path / "store.nt").write_text("\n".join(lines) + "\n", encoding="utf-8")
    ran = tool("site", tmp_path / "store.nt", tmp_path / "public", "--langs", "en")
    assert (ran.status, ran.err) == (0, b"")
    pages = sorted((tmp_path / "public").rglob("*.html"))
    assert len(pages) > len(TERMS)
    for page in pages:
        for link in re.findall(r'(?:href|src)="([^"]*)"', page.read_text(encoding="utf-8")):
            path = unquote(urlsplit(unescape(link)).path)
            assert not path or (page.parent / path).exists(), f"{page.name} has a link to {link}"
