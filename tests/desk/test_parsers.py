"""What parsers say of files that they can't read, in the reader's language with line and column; and what spreadsheets
are without, which is said before they are saved."""
from __future__ import annotations

import io
from typing import Any

import pytest
from clients import Client, Site, text_of
from test_bring_in import send
from test_changes import number

from thesaurus_tools.parse_places import ParsePlace, place_in, place_of_text, text_of_place

RDF_XML = b"""<?xml version="1.0"?>
<rdf:RDF xmlns:rdf="http://www.w3.org/1999/02/22-rdf-syntax-ns#">
<rdf:Description>
</rdf:Descr></rdf:RDF>"""
WHERE = {
    "en": "There is an error in line 4, column 2.",
    "de": "In Zeile 4, Spalte 2 ist ein Fehler.",
    "fr": "Il y a une erreur à la ligne 4, colonne 2.",
}


@pytest.mark.parametrize(
    ("message", "wanted"),
    [
        ("<unknown>:4:2: mismatched tag", ParsePlace(4, 2, "mismatched tag")),
        ("None:3:0: Can have at most one", ParsePlace(3, 0, "Can have at most one")),
        ('at line 3 of <>: Bad syntax\n(newline) at ^ in: "x"', ParsePlace(3, 0, 'Bad syntax (newline) at ^ in: "x"')),
        ("Expecting value: line 2 column 13 (char 34)", ParsePlace(2, 13, "Expecting value")),
        ("mismatched tag: line 4, column 2", ParsePlace(4, 2, "mismatched tag")),
        ("Prefix nope: not bound", ParsePlace(0, 0, "Prefix nope: not bound")),
    ],
)
def test_places_in_messages(message: str, wanted: ParsePlace) -> None:
    """What a tool prints of them is read again."""
    assert place_in(message) == wanted
    if wanted.line:
        assert place_of_text("a:1.rdf", f"a:1.rdf{text_of_place(wanted)}") == wanted


@pytest.mark.needs("rdflib")
@pytest.mark.parametrize("language", WHERE)
def test_a_vocabulary_that_is_not_well_formed(site: Site, language: str) -> None:
    anna = site.client("anna")
    anna.get(f"/language?pages={language}&next=/")
    page = send(anna, "/bring-in/skos", RDF_XML, "terms.rdf", tag="en", title="Terms")
    assert page.status_code == 409 and WHERE[language] in text_of(page), text_of(page)
    assert '<span lang="en" dir="ltr">mismatched tag</span>' in page.text


@pytest.mark.parametrize("form", ["xlsx", "ods"])
def test_what_a_spreadsheet_is_without(site: Site, form: str) -> None:
    """A page says so first; the file has a second sheet; CSV has all."""
    pytest.importorskip({"xlsx": "openpyxl", "ods": "odf"}[form])
    anna: Client = site.client("anna")
    label = {"do": "addLabel", "owner": number(site, "Harps"), "kind": "alt", "tag": "en", "text": "Lyre\ufffe"}
    assert site.desk.perform("anna", "add_term", [label]).is_done
    path = "/tree?column=alt%40en&format="
    assert "Lyre\ufffe" in anna.get(f"{path}csv").text
    page = anna.get(f"{path}{form}")
    assert page.content_type.startswith("text/html") and "U+FFFE (1)" in text_of(page), text_of(page)
    assert f"{path.replace('&', '&amp;')}{form}&amp;anyway=1" in page.text
    saved: Any = anna.get(f"{path}{form}&anyway=1")
    assert saved.data.startswith(b"PK\x03\x04")
    if form == "xlsx":
        import openpyxl

        book = openpyxl.load_workbook(io.BytesIO(saved.data))
        assert [[it.value for it in row] for row in book["Left out"].rows] == [["U+FFFE", "1"]]
