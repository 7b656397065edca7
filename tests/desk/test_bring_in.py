"""Tests bringing in: posting files, tables with a preview, and vocabularies in SKOS, first on a copy."""
from __future__ import annotations

import csv
import gzip
import io
import re
import zipfile
from concurrent.futures import ThreadPoolExecutor
from pathlib import Path
from typing import Any

import pytest
from clients import Client, Site, text_of
from test_changes import number
from thesaurus_desk.importing.uploads import MOST_KEPT, MOST_OF_USER, MOST_ROWS_OF_USER, Uploads
from thesaurus_desk.store.plan_execution import Desk
from thesaurus_desk.words import LANGUAGES, Words, texts_of
from thesaurus_tools.headings import ROLES, ColumnsError, read_choices
from whole import resources


@pytest.fixture
def anna(site: Site) -> Client:
    return site.client("anna")


def send(client: Client, path: str, data: bytes, name: str = "table.csv", **values: str) -> Any:
    """Sends a file as a page does, and returns the page to which that leads."""
    sent = {"form": path.rpartition("/")[2], **values, "file": (io.BytesIO(data), name)}
    return result_of(client, client.post(path, sent))


def result_of(client: Client, answer: Any) -> Any:
    """Returns what came of a file, if an answer leads there; otherwise the answer itself."""
    path = answer.headers.get("Location", "")
    return client.get(path) if path.startswith("/bring-in/result/") else answer


def perform(client: Client, page: Any, path: str, **values: str) -> Any:
    """Presses the button of a preview, and returns the page to which that leads."""
    found = re.search(r'name="name" value="([^"]+)"', page.text)
    assert found, text_of(page)
    return result_of(client, client.post(path, {"name": found[1], **values}))


def test_a_posting_file(site: Site, anna: Client) -> None:
    violins = number(site, "Violins")
    before = site.desk.replica.postings.count_at(violins)
    data = f"key,record,concept\r\nn1,Violin 1700,{violins}\r\nn2,Violin 1701,99999\r\nn3,,{violins}\r\n".encode()
    page = send(anna, "/bring-in/postings", b"\xef\xbb\xbf" + data)
    assert page.status_code == 200
    assert "1 indexing is new." in page.text and "2 rows were refused." in page.text
    assert site.desk.replica.postings.count_at(violins) == before + 1
    found = re.search(r"/bring-in/failed/[^\"]+\.csv", page.text)
    assert found
    rows = list(csv.DictReader(io.StringIO(anna.get(found[0]).text.removeprefix("\ufeff"))))
    assert [it["key"] for it in rows] == ["n2", "n3"]
    assert rows[0]["reason"].startswith("No concept has the identifier") and "the record" in rows[1]["reason"]
    assert site.client("ben").get(found[0]).status_code == 404  # (it is another's)
    assert "indexing file table.csv: 1 indexed, 2 refused" in text_of(anna.get("/changes"))
    again = send(anna, "/bring-in/postings", data)
    assert "1 was there before." in again.text
    assert "Violin 1700" in text_of(anna.get("/record?name=Violin 1700"))


def test_typed_rows(site: Site, anna: Client) -> None:
    rows = f"key,record,concept\nt1,Harp 1,{number(site, 'Harps')}"
    page = result_of(anna, anna.post("/bring-in/postings", {"form": "postings", "typed": rows}))
    assert "1 indexing is new." in page.text


@pytest.mark.parametrize("data", [b"", b"a,b\n1,2\n", b"\xff\xfe\x00"], ids=["nothing", "other columns", "no text"])
def test_no_posting_file(anna: Client, data: bytes) -> None:
    page = send(anna, "/bring-in/postings", data)
    assert page.status_code == 409 and "The first row must be key,record,concept" in text_of(page)


@pytest.mark.parametrize("form", ["postings", "table"])
def test_what_is_wrong_with_typed_rows_is_beside_them(anna: Client, form: str) -> None:
    """The field for a file was left empty."""
    page = anna.post(f"/bring-in/{form}", {"form": form, "typed": "a\nb,c", "tag": "en"})
    assert (
        page.status_code == 409 and f'id="{form}-typed-why"' in page.text and f'id="{form}-file-why"' not in page.text
    )
    assert "a\nb,c</textarea>" in page.text


@pytest.mark.parametrize(
    ("columns", "part"),
    [
        ("term=colour", "Eine Spalte kann enthalten: pref@TAG, alt@TAG"),
        ("/etc/passwd", "Eine Spalte kann enthalten: pref@TAG, alt@TAG"),
        ("Begriff=pref@de", "Keine Spalte heißt begriff."),
    ],
)
def test_what_is_wrong_with_columns_is_beside_them(anna: Client, columns: str, part: str) -> None:
    anna.http.set_cookie("localhost", "pages", "de")
    page = anna.post("/bring-in/table", {"form": "table", "tag": "de", "columns": columns, "typed": "term\nLeiern"})
    assert page.status_code == 409 and 'id="table-columns-why"' in page.text and 'id="table-typed-why"' not in page.text
    assert part in text_of(page) and "--columns" not in page.text and "HEADING" not in page.text


def test_typed_rows_are_corrected_below_what_they_would_do(anna: Client) -> None:
    """Nothing is typed twice, and the choices stay; of a file there is nothing to correct."""
    rows = "concept,term\nHarps,Hakenharfen\nLyres,Leiern"
    asked = {"form": "table", "kind": "", "tag": "de", "columns": "term=alt@de", "typed": rows}
    page = anna.post("/bring-in/table", asked)
    assert page.status_code == 200 and "1 row was refused" in text_of(page)
    again = page.text.split('action="/bring-in/table"')[1]
    assert f">{rows}</textarea>" in again
    assert {("kind", ""), ("tag", "de"), ("columns", "term=alt@de")} <= set(
        re.findall(r'type="hidden" name="(\w+)" value="([^"]*)"', again)
    )
    sent = send(anna, "/bring-in/table", rows.encode(), kind="", tag="de", columns=asked["columns"], typed="\n ")
    assert "1 row was refused" in text_of(sent) and "</textarea>" not in sent.text


@pytest.mark.parametrize("form", ["postings", "table"])
def test_a_file_and_typed_rows_together(site: Site, anna: Client, form: str) -> None:
    """Neither is read, and the rows stay, so that they can be sent alone."""
    harps = number(site, "Harps")
    rows, file = (f"key,record,concept\r\n{key},Pedal harp {key},{harps}" for key in ("t1", "t2"))
    page = send(anna, f"/bring-in/{form}", file.encode(), tag="en", typed=rows)
    assert (
        page.status_code == 409 and f'id="{form}-typed-why"' in page.text and f'id="{form}-file-why"' not in page.text
    )
    assert "A file and typed rows arrived together, so neither was read." in text_of(page)
    assert f"{rows}</textarea>" in page.text and '<details class="more" open>' in page.text
    assert not site.desk.history.recent() and not site.desk.replica.postings.of_record("Pedal harp t2")
    alone = result_of(anna, anna.post(f"/bring-in/{form}", {"form": form, "tag": "en", "typed": rows}))
    assert alone.status_code == 200 and "Pedal harp t2" not in alone.text


def test_an_indexer_brings_postings_and_no_tables(site: Site) -> None:
    ina = site.client("ina")
    assert ina.get("/bring-in").status_code == 200 and "/bring-in/table" not in ina.get("/bring-in").text
    assert send(ina, "/bring-in/table", b"number\n1\n").status_code == 403
    assert site.client("ben").post("/bring-in/skos", {}).status_code == 403


@pytest.mark.parametrize(("name", "has_it"), [("anna", True), ("ben", True), ("ina", True), ("rita", False)])
def test_the_menu_leads_there(site: Site, name: str, has_it: bool) -> None:
    """For whoever may bring something in: an indexer's posting files."""
    menu = site.client(name).get("/").text.partition('<nav class="pages"')[2].partition("</nav>")[0]
    assert ('href="/bring-in"' in menu) is has_it and 'href="/tree"' in menu


def test_the_table_of_changes_is_offered_first(anna: Client) -> None:
    page = text_of(anna.get("/bring-in"))
    assert 0 < page.index("New terms and changes (CSV, ODS, XLSX)") < page.index("Records and the concepts they get")


def test_a_table_is_shown_and_then_performed(site: Site, anna: Client) -> None:
    harps = number(site, "Harps")
    data = f"number,term,pref@it,broader\n{harps},Harps,Arpe,\n{number(site, 'Violins')},Harps,x,\n".encode()
    page = send(anna, "/bring-in/table", data, kind="translations", tag="en")
    assert "Harps : preferred term “ Arpe ” (it) added" in text_of(page).replace("  ", " "), text_of(page)
    assert "1 row was refused." in page.text
    view = site.desk.replica.view(harps)
    assert view and ("it", "Arpe") not in view.pref
    done = perform(anna, page, "/bring-in/table/perform")
    assert "1 row was done." in done.text
    view = site.desk.replica.view(harps)
    assert view and ("it", "Arpe") in view.pref
    found = re.search(r"/bring-in/failed/[^\"]+\.csv", done.text)
    assert found and "not “Harps”" in anna.get(found[0]).text


def test_new_concepts_that_stand_on_one_another(site: Site, anna: Client) -> None:
    data = "Term,BT,UF\nPlucked,String instruments,\nVihuelas,Plucked,Vihuela\n".encode("utf-16")
    page = send(anna, "/bring-in/table", data, kind="new", tag="en")
    done = perform(anna, page, "/bring-in/table/perform")
    assert "2 rows were done." in done.text, text_of(done)
    view = site.desk.replica.view(number(site, "Vihuelas"))
    assert view and view.broader == (number(site, "Plucked"),) and view.alt == (("en", "Vihuela"),)
    (last, first) = site.desk.history.recent(most=2)
    assert last.first == first.id and "Vihuelas" in text_of(anna.get(f"/changes?part_of={first.id}"))


def test_a_child_above_its_parent(site: Site, anna: Client) -> None:
    data = b"Term,Broader term\nVihuelas,Plucked\nPlucked,String instruments\n"
    page = send(anna, "/bring-in/table", data, tag="en")
    shown = text_of(page)
    assert shown.index("Vihuelas") < shown.index("String instruments") and "0 rows were refused" in shown
    assert "2 rows were done." in perform(anna, page, "/bring-in/table/perform").text
    view = site.desk.replica.view(number(site, "Vihuelas"))
    assert view and view.broader == (number(site, "Plucked"),)


def test_rows_that_are_above_each_other_say_so(anna: Client) -> None:
    page = send(anna, "/bring-in/table", b"Term,Broader term\nVihuelas,Plucked\nPlucked,Vihuelas\n", tag="en")
    assert "Row 2 creates “Vihuelas”, and needs what this row creates" in text_of(page)


def test_a_row_is_done_whole_or_not_at_all(site: Site, anna: Client) -> None:
    data = b"concept,alt@en,broader\nString instruments,String family,Violins\n"
    done = send(anna, "/bring-in/table", data)
    assert "can’t be broader than" in text_of(done) and "/bring-in/table/perform" not in done.text
    found = re.search(r"/bring-in/failed/[^\"]+\.csv", done.text)
    assert found and "can’t be broader than" in anna.get(found[0]).text and "<a" not in anna.get(found[0]).text
    view = site.desk.replica.view(number(site, "String instruments"))
    assert view and ("en", "String family") not in view.alt


@pytest.mark.parametrize("is_refused", [False, True], ids=["done", "refused"])
def test_rows_that_exchange_terms(is_refused: bool, site: Site, anna: Client) -> None:
    """They are one plan: what one of them asks for beside refuses both, which the preview says. The row between them is
    done alone."""
    violins, harps = number(site, "Violins"), number(site, "Harps")
    above = harps if is_refused else ""
    rows = ("concept,pref@en,broader,alt@en", "Violins,Harps,,", "Fiddles,,,Folk fiddles", f"Harps,Violins,{above},")
    page = send(anna, "/bring-in/table", "\n".join(rows).encode())
    assert f"{'1 row changes' if is_refused else '3 rows change'} something." in text_of(page), text_of(page)
    done = perform(anna, page, "/bring-in/table/perform")
    assert ("2 rows were refused." if is_refused else "3 rows were done.") in done.text, text_of(done)
    views = [site.desk.replica.view(it) for it in (violins, harps)]
    terms = [dict(it.pref)["en"] for it in views if it]
    assert terms == (["Violins", "Harps"] if is_refused else ["Harps", "Violins"])
    (last,) = site.desk.history.recent(most=1)
    assert (last.state, len(last.steps)) == ("done", 1 if is_refused else 3)


@pytest.mark.parametrize(
    ("cells", "reason"),
    [
        ("Kotos,Kotos,", "would have two roles at one concept"),
        ('"Ly\tres",,', "without control characters"),
        (f"{'x' * 257},,", "is one character too long"),
        (f"Lyres,,{'x' * 2001}", "is one character too long"),
        ("Violins,Violin,", "is already there"),
    ],
)
def test_a_preview_promises_nothing_that_is_refused(site: Site, anna: Client, cells: str, reason: str) -> None:
    before = len(resources(site.desk.replica))
    data = f"Term,Synonym,Note\n{cells}\nTheorbos,Theorbo,Plucked.\n".encode()
    page = send(anna, "/bring-in/table", data, kind="new", tag="en")
    assert reason in text_of(page) and "1 row changes something." in page.text, text_of(page)
    done = perform(anna, page, "/bring-in/table/perform")
    assert "1 row was done." in done.text and "1 row was refused." in done.text, text_of(done)
    assert len(resources(site.desk.replica)) == before + 1


def test_a_refused_row_is_first_and_says_what_may_be_meant(site: Site, anna: Client) -> None:
    data = "Term,Broader term\nKotos,Harps\nTheorbos,Harsp\n".encode()
    page = send(anna, "/bring-in/table", data, kind="new", tag="en")
    text = " ".join(text_of(page).split())
    assert "3 Theorbos Not done:" in text and "Did you mean Harps ?" in text
    assert text.index("Theorbos Not done") < text.index("new concept")
    done = perform(anna, page, "/bring-in/table/perform")
    assert f'new concept <a href="/c/{number(site, "Kotos")}"' in done.text


def test_a_preview_sees_what_rows_before_do(site: Site, anna: Client) -> None:
    harps = number(site, "Harps")
    rows = f"{harps},rename,Fine harps,\n{harps},change,,Harps\n{harps},change,,Fine harps\n{harps},change,,Harp\n"
    page = send(anna, "/bring-in/table", f"number,do,new,alt@en\n{rows}".encode(), tag="en")
    assert text_of(page).count("would have two roles") == 1 and "1 row was refused." in page.text, text_of(page)
    done = perform(anna, page, "/bring-in/table/perform")
    assert "2 rows were done." in done.text, text_of(done)
    view = site.desk.replica.view(harps)
    assert view and ("en", "Fine harps") in view.pref and {("en", "Harps"), ("en", "Harp")} <= {*view.alt}


def test_an_editor_merges_no_records_by_a_table(site: Site) -> None:
    ben, data, violins = site.client("ben"), b"concept,into\nViolins,Harps\n", number(site, "Violins")
    posted = {"do": "post", "key": "s1", "record": "Old violin", "concept": violins}
    assert site.desk.perform("anna", "index", [posted]).is_done
    page = send(ben, "/bring-in/table", data)
    assert "Your role may not do this here" in text_of(page) and "/bring-in/table/perform" not in page.text
    ends = b"concept,do,alt@en\nViolins,deprecate,\nHarps,change,Arched harps\n"
    done = perform(ben, send(ben, "/bring-in/table", ends), "/bring-in/table/perform")
    assert "1 row was done." in done.text and site.desk.replica.is_live(violins)
    anna = site.client("anna")
    assert "1 row was done." in perform(anna, send(anna, "/bring-in/table", data), "/bring-in/table/perform").text
    assert not site.desk.replica.is_live(violins)


def test_a_table_is_performed_once(site: Site, anna: Client) -> None:
    page = send(anna, "/bring-in/table", b"Term,BT\nVihuelas,String instruments\n", kind="new", tag="en")
    before = len(resources(site.desk.replica))
    for expected in (200, 409):
        done = perform(anna, page, "/bring-in/table/perform")
        assert done.status_code == expected
    assert "it was already imported" in text_of(done) and len(resources(site.desk.replica)) == before + 1


def test_a_split_by_a_table_of_records(site: Site, anna: Client) -> None:
    """Rows with one concept and one new term are one split, which only a head may do; all are refused together."""
    violins = number(site, "Violins")
    posts = [{"do": "post", "key": f"s{it}", "record": f"Old violin {it}", "concept": violins} for it in range(3)]
    assert site.desk.perform("anna", "index", posts).is_done
    rows = "".join(f"Old violin {it},Violins,Old violins\n" for it in (0, 1, 9))
    data = f"record,concept,new\n{rows}".encode()
    page = send(site.client("ben"), "/bring-in/table", data, kind="splits", tag="en")
    assert "3 rows were refused." in page.text and text_of(page).count("Your role may not do this here") == 2
    page = send(anna, "/bring-in/table", data, kind="splits", tag="en")
    assert "2 rows change something." in page.text and "1 row was refused." in page.text, text_of(page)
    done = perform(anna, page, "/bring-in/table/perform")
    assert "2 rows were done." in done.text, text_of(done)
    assert site.desk.replica.postings.count_at(number(site, "Old violins")) == 2


def test_a_row_that_would_do_something_else_by_now(site: Site, anna: Client) -> None:
    harps = number(site, "Harps")
    page = send(anna, "/bring-in/table", f"concept,new\n{harps},Arched harps\n{harps + 1},X\n".encode(), tag="en")
    label = {"do": "addLabel", "owner": harps, "kind": "alt", "tag": "en", "text": "Arched harps"}
    assert site.desk.perform("ben", "add_term", [label]).is_done
    done = perform(anna, page, "/bring-in/table/perform")
    assert "The store has changed since this row was shown" in text_of(done) and "1 row was done." in done.text
    view = site.desk.replica.view(harps)
    assert view and ("en", "Harps") in view.pref


def test_a_row_whose_concept_a_colleague_has_changed_since(site: Site, anna: Client) -> None:
    """It would undo that without a word, although its requests are those that were shown."""
    harps = number(site, "Harps")
    page = send(anna, "/bring-in/table", f"concept,new\n{harps},Arched harps\n{harps + 1},X\n".encode(), tag="en")
    renamed = {"do": "relabel", "owner": harps, "tag": "en", "text": "Harps of all kinds", "keep": False}
    note = {"do": "addLabel", "owner": harps + 1, "kind": "scope", "tag": "en", "text": "Plucked."}
    assert site.desk.perform("ben", "rename", [renamed, note]).is_done
    done = perform(anna, page, "/bring-in/table/perform")
    assert "The store has changed since this row was shown" in text_of(done) and "1 row was done." in done.text
    view = site.desk.replica.view(harps)
    assert view and ("en", "Harps of all kinds") in view.pref


def test_a_row_of_more_changes_than_a_plan_has(site: Site, anna: Client) -> None:
    many = "|".join(f"Harp {it}" for it in range(129))
    page = send(anna, "/bring-in/table", f"concept,alt@en\nHarps,{many}\n".encode())
    assert page.status_code == 200 and "asks for 129 changes" in text_of(page)


def test_a_table_in_the_readers_language(site: Site, anna: Client) -> None:
    anna.http.set_cookie("localhost", "pages", "de")
    page = text_of(send(anna, "/bring-in/table", b"concept,alt@en\nHarps,Arched harps\nNone,x\n"))
    assert "hinzugefügt" in page and "Nichts von dieser Art (Begriff) heißt „None“" in page
    refused = text_of(send(anna, "/bring-in/table", b"concept,alt@en\nHarps,a,b\n", "liste.csv"))
    assert "liste.csv, Zeile 2: Hier sind mehr Werte als Spalten mit einer Überschrift." in refused


def archive(name: str, data: bytes = b"") -> bytes:
    """Returns an archive with one part."""
    out = io.BytesIO()
    with zipfile.ZipFile(out, "w", zipfile.ZIP_DEFLATED) as parts:
        parts.writestr(name, data)
    return out.getvalue()


def large_archive(name: str, megabytes: int) -> bytes:
    """Returns an archive whose list says that its one part unpacks to some megabytes."""
    data = bytearray(archive(name))
    size = data.index(b"PK\x01\x02") + 24
    data[size : size + 4] = (megabytes << 20).to_bytes(4, "little")
    return bytes(data)


# Files that aren't read as tables, with the line of each, and the values that its text has.
NO_TABLES: dict[str, tuple[bytes, int, dict[str, object]]] = {
    "no_text": (b"term\nKotos\n\xff\n", 3, {"encoding": "UTF-8"}),
    "nul": (b"term\na\0b\n", 2, {}),
    "csv": (b'term\n"open\n', 2, {}),
    "empty": (b"\n", 0, {}),
    "many": (b"," * 1001, 1, {"rows": 200_000, "columns": 1_000, "cells": 4_000_000}),
    "wide": (b"term\nKotos,x\n", 2, {}),
    "failed_formula": (b"term\n#REF!\n", 2, {"cell": "#REF!"}),
    "unpacks": (large_archive("xl/workbook.xml", 257), 0, {"megabytes": 257}),
    "declares": (archive("content.xml", b"<!DOCTYPE a><a/>"), 0, {"part": "content.xml"}),
    "damaged": (b"PK\x03\x04x", 0, {}),
    "other_archive": (archive("other"), 0, {}),
}


@pytest.mark.parametrize("language", LANGUAGES)
@pytest.mark.parametrize("key", NO_TABLES)
def test_why_a_file_is_no_table_in_the_readers_language(anna: Client, key: str, language: str) -> None:
    anna.http.set_cookie("localhost", "pages", language)
    data, line, values = NO_TABLES[key]
    words = Words(language)
    where = words("tables.row", name="list.csv", row=line) if line else "list.csv"
    page = send(anna, "/bring-in/table", data, "list.csv", tag="en")
    assert page.status_code == 409 and 'id="table-file-why"' in page.text
    assert words(f"tables.{key}", where=where, **values) in text_of(page)


@pytest.mark.parametrize(
    ("form", "module", "part"), [("ODS", "odf", "content.xml"), ("XLSX", "openpyxl", "xl/workbook.xml")]
)
def test_a_form_that_this_machine_lacks(
    anna: Client, monkeypatch: pytest.MonkeyPatch, tmp_path: Path, form: str, module: str, part: str
) -> None:
    (tmp_path / f"{module}.py").write_text("raise ImportError", encoding="ascii")
    monkeypatch.setenv("PYTHONPATH", str(tmp_path))
    page = text_of(send(anna, "/bring-in/table", archive(part, b"<a/>"), "list.ods", tag="en"))
    assert f"list.ods: {form} can’t be read here, since python3-{module} isn’t installed." in page
    assert "Save the table as CSV." in page


@pytest.mark.parametrize(
    ("language", "part"), [("en", "New concepts need a language"), ("de", "Neue Begriffe brauchen")]
)
def test_new_concepts_without_a_language(anna: Client, language: str, part: str) -> None:
    anna.http.set_cookie("localhost", "pages", language)
    page = send(anna, "/bring-in/table", b"Begriff\nKotos\n", kind="new", tag=" ")
    assert page.status_code == 409 and 'id="table-tag-why"' in page.text
    assert part in text_of(page) and "--" not in text_of(page)


@pytest.mark.parametrize(
    ("name", "data"),
    [("a.csv", b""), ("a.xlsx", b"PK\x03\x04x"), ("a.csv", b"a\0b\n"), ("../../etc/passwd", b"")],
    ids=["empty", "cut", "NUL", "path"],
)
def test_hostile_tables(anna: Client, name: str, data: bytes) -> None:
    page = send(anna, "/bring-in/table", data, name)
    assert page.status_code == 409 and "Traceback" not in page.text


SKOS = """
@prefix skos: <http://www.w3.org/2004/02/skos/core#> . @prefix : <http://old.example/> .
:s a skos:ConceptScheme ; skos:prefLabel "Places"@en .
:a a skos:Concept ; skos:inScheme :s ; skos:prefLabel "Europe"@en ; skos:notation "E" .
:b a skos:Concept ; skos:inScheme :s ; skos:prefLabel "Norway"@en ; skos:broader :a .
"""


@pytest.mark.needs("rdflib")
def test_a_vocabulary(site: Site, anna: Client) -> None:
    page = send(anna, "/bring-in/skos", SKOS.encode(), "places.ttl", tag="en", addresses="1")
    assert page.status_code == 200, text_of(page)
    assert "The copy accepted all of it." in text_of(page)
    assert "from-skos" not in page.text and " --" not in text_of(page), "words of the command line"
    assert not site.desk.replica.named("Norway")
    answer = perform(anna, page, "/bring-in/skos/perform")
    assert answer.status_code == 303
    view = site.desk.replica.view(number(site, "Norway"))
    assert view and view.broader == (number(site, "Europe"),) and view.scheme != 1
    assert [site.desk.replica.iri(it) for _, it in view.mappings] == ["http://old.example/b"]
    assert [it.text for it in site.desk.values.held(number(site, "Europe"), "notation")] == ["E"]


BROKEN = """
:c a skos:Concept ; skos:inScheme :s ; skos:prefLabel "Oslo"@en, "Christiania"@en ; skos:broader :b ; skos:related :a .
:d a skos:Concept ; skos:inScheme :s ; skos:prefLabel "Bergen" .
"""


# What the report says of it, and of what is lost, in each language.
IN_WORDS = {
    "en": [
        "Two preferred terms in one language",
        "preferred term “Oslo” (en): a second one in its language",
        "Christiania (http://old.example/c): related term: http://old.example/a (Europe)",
        "further thesauri 1",
        "a further thesaurus, http://old.example/t",
    ],
    "de": [
        "Zwei Vorzugsbenennungen in einer Sprache",
        "Vorzugsbenennung „Oslo“ (en): eine zweite in dieser Sprache",
        "Christiania (http://old.example/c): verwandter Begriff: http://old.example/a (Europe)",
        "weitere Thesauri 1",
        "ein weiterer Thesaurus, http://old.example/t",
    ],
    "fr": [
        "Deux termes préférentiels dans une langue",
        "terme préférentiel « Oslo » (en) : un second dans cette langue",
        "Christiania (http://old.example/c): terme associé : http://old.example/a (Europe)",
        "autres thésaurus 1",
        "un autre thésaurus, http://old.example/t",
    ],
}


@pytest.mark.needs("rdflib")
@pytest.mark.parametrize("language", IN_WORDS)
def test_the_report_of_a_vocabulary_is_in_words(anna: Client, language: str) -> None:
    """Also the table of all of it."""
    anna.get(f"/language?pages={language}&next=/")
    further = ':t a skos:ConceptScheme ; skos:prefLabel "T"@en . :a skos:inScheme :t .'
    page = send(anna, "/bring-in/skos", (SKOS + BROKEN + further).encode(), "places.ttl")
    assert page.status_code == 200, text_of(page)
    assert len(re.findall("<h3>(.*?)</h3>", page.text)) == 5
    said = " ".join(text_of(page).split())
    assert [it for it in IN_WORDS[language] if it not in said] == []
    assert not re.search(r"S14|S27|BadTag|NoLabel| --|(pref|alt) label", said)
    (path,) = re.findall(r'href="(/bring-in/skos/report/[^"]+)"', page.text)
    table = anna.get(path).text
    heading, _, *shown, last = IN_WORDS[language]
    assert heading in table and last in table and "lost" not in table and "is a second" not in table
    assert shown[0].partition(" (http")[0] in table


@pytest.mark.needs("rdflib")
def test_why_no_concept_would_be_left_is_in_words(anna: Client) -> None:
    anna.get("/language?pages=de&next=/")
    data = SKOS[: SKOS.index(":a a ")] + ":a a skos:Concept ; skos:inScheme :s ."
    page = send(anna, "/bring-in/skos", data.encode(), "places.ttl")
    said = " ".join(text_of(page).split())
    assert page.status_code == 409 and "places.ttl: Kein Begriff bliebe übrig." in said
    assert "http://old.example/a: Begriff ohne Vorzugsbenennung" in said and '<span lang="en"' not in page.text


@pytest.mark.needs("rdflib")
def test_a_text_with_a_line_separator_comes_in(site: Site, anna: Client) -> None:
    data = SKOS + ':a skos:altLabel "Eu\u2028rope"@en ; <http://x.example/p> "a\u2029b" .'
    page = send(anna, "/bring-in/skos", data.encode(), "places.ttl", tag="en")
    assert page.status_code == 200, text_of(page)
    assert perform(anna, page, "/bring-in/skos/perform").status_code == 303
    view = site.desk.replica.view(number(site, "Europe"))
    assert view and [it[1] for it in view.alt] == ["Eu\u2028rope"]


@pytest.mark.needs("rdflib")
def test_the_whole_report_of_a_vocabulary_is_a_table(anna: Client) -> None:
    """And the page says of the copy only that it took the rest."""
    created = "".join(f':a <http://purl.org/dc/terms/created> "{n}" . ' for n in range(20))
    page = send(anna, "/bring-in/skos", (SKOS + created).encode(), "places.ttl", tag="en")
    assert "and 17 more" in text_of(page) and "The copy accepted all that is left." in text_of(page)
    assert "The copy accepted all of it." not in text_of(page)
    (path,) = re.findall(r'href="(/bring-in/skos/report/[^"]+)"', page.text)
    rows = list(csv.reader(io.StringIO(anna.get(path).text.removeprefix("\ufeff"))))
    assert rows[0] == ["Reason", "URI", "Term", "What is left out"]
    reason = "What this thesaurus has no place for"
    assert {tuple(it[:3]) for it in rows[1:]} == {(reason, "http://old.example/a", "Europe")}
    lost = [it[3] for it in rows[1:]]
    assert sorted(lost) == sorted(f"http://purl.org/dc/terms/created “{n}”" for n in range(20))
    assert anna.get("/bring-in/skos/report/none.csv").status_code == 404


HOMOGRAPHS = """
:c a skos:Concept ; skos:inScheme :s ; skos:prefLabel "Bergen"@en ; skos:broader :a .
:d a skos:Concept ; skos:inScheme :s ; skos:prefLabel "Bergen"@en, "Bergen in Norway"@en ; skos:broader :b .
"""


@pytest.mark.needs("rdflib")
def test_homographs_and_second_terms_are_kept_if_that_is_wanted(anna: Client) -> None:
    data = (SKOS + HOMOGRAPHS).encode()
    page = send(anna, "/bring-in/skos", data, "places.ttl", tag="en")
    assert "is that of http://old.example/c" in text_of(page) and "a second one in its language" in text_of(page)
    page = send(anna, "/bring-in/skos", data, "places.ttl", tag="en", qualify="1", second="1")
    assert "Nothing is lost." in text_of(page), text_of(page)


BOM = b"\xef\xbb\xbf"
QUADS = (
    b"".join(
        f"<http://old.example/a> <{name}> {node} <http://graph.example/> .\n".encode()
        for name, node in (
            ("http://www.w3.org/1999/02/22-rdf-syntax-ns#type", "<http://www.w3.org/2004/02/skos/core#Concept>"),
            ("http://www.w3.org/2004/02/skos/core#prefLabel", '"Europe"@en'),
            ("http://www.w3.org/2004/02/skos/core#inScheme", "<http://old.example/s>"),
            ("http://www.w3.org/2004/02/skos/core#topConceptOf", "<http://old.example/s>"),
        )
    )
    + b'<http://old.example/s> <http://www.w3.org/2004/02/skos/core#prefLabel> "Places"@en <http://graph.example/> .\n'
)


@pytest.mark.needs("rdflib")
@pytest.mark.parametrize(
    ("name", "data"),
    [
        ("Places.TTL.gz", SKOS.encode()),
        ("bom.ttl", BOM + SKOS.encode()),
        ("quads.nq", QUADS),
        ("bom.nq.gz", BOM + QUADS),
    ],
    ids=["packed", "a mark", "graphs", "all of it"],
)
def test_marks_of_utf_8_graphs_and_packed_vocabularies(anna: Client, name: str, data: bytes) -> None:
    page = send(anna, "/bring-in/skos", gzip.compress(data) if name.endswith(".gz") else data, name, tag="en")
    assert page.status_code == 200 and "The copy accepted all of it." in text_of(page)


@pytest.mark.needs("rdflib")
def test_what_a_copy_refuses_is_in_words(site: Site, anna: Client) -> None:
    data = f"{SKOS}:b skos:exactMatch <https://thesaurus.example/id/5> ."
    page = send(anna, "/bring-in/skos", data.encode(), "places.ttl", tag="en")
    assert page.status_code == 200 and "so it can’t be imported" in text_of(page), text_of(page)
    assert "A relationship between things that can’t be related in this way" in " ".join(text_of(page).split())
    assert "https://thesaurus.example/id/5" in page.text and "{" not in text_of(page), text_of(page)
    assert "It refers to what was refused" in page.text and "requests:" not in text_of(page)


def text_of_part(markup: str) -> str:
    """Returns the text of a part of a page."""
    return re.sub("<[^>]*>", "", markup)


@pytest.mark.parametrize(
    ("name", "data", "part"),
    [
        ("a.ttl", b"no turtle <", "a.ttl lässt sich nicht umwandeln."),
        ("a.nt", b"", "a.nt lässt sich nicht umwandeln."),
        ("a.docx", b"x", "a.docx: Der Name eines Vokabulars endet auf .nt, .nq, .ttl,"),
    ],
)
def test_no_vocabulary(anna: Client, name: str, data: bytes, part: str) -> None:
    """What the converter says besides is in English, and marked so."""
    anna.http.set_cookie("localhost", "pages", "de")
    page = send(anna, "/bring-in/skos", data, name, tag="en")
    assert page.status_code == 409 and 'role="alert"' in page.text and part in text_of(page)
    assert ('<span lang="en" dir="ltr">' in page.text) is not name.endswith(".docx")


def test_a_conversion_that_takes_too_long(anna: Client, monkeypatch: pytest.MonkeyPatch) -> None:
    monkeypatch.setattr("thesaurus_desk.importing.vocabularies.LONGEST", 0.001)
    page = send(anna, "/bring-in/skos", SKOS.encode(), "places.ttl", tag="en")
    assert page.status_code == 409 and "Use tools/from-skos on the command line." in text_of(page)


@pytest.mark.needs("rdflib")
def test_a_vocabulary_while_the_desk_is_busy(site: Site, anna: Client, monkeypatch: pytest.MonkeyPatch) -> None:
    monkeypatch.setattr("thesaurus_desk.store.open_store.WAIT_FOR_PLAN", 0.1)
    monkeypatch.setattr("thesaurus_desk.store.open_store.WAIT_FOR_LONG", 0.1)
    with ThreadPoolExecutor(1) as other:
        other.submit(site.desk.lock.acquire).result()
        page = send(anna, "/bring-in/skos", SKOS.encode(), "places.ttl", tag="en")
        other.submit(site.desk.lock.release).result()
    assert page.status_code == 409 and "Something long is under way" in text_of(page)


def test_each_concept_of_a_cell_is_posted(site: Site, anna: Client) -> None:
    data = "Record,Title,Concept\nR1,A bed,Violins | Harps\nR2,None,Harps\n".encode()
    page = send(anna, "/bring-in/table", data, kind="postings", tag="en")
    assert "2 rows change something." in text_of(page)
    assert "2 rows were done." in perform(anna, page, "/bring-in/table/perform").text
    places = {it.place for it in site.desk.replica.postings.of_record("R1")}
    assert places == {number(site, "Violins"), number(site, "Harps")}


@pytest.mark.parametrize("kind", ["new", "renames"])
def test_two_rows_that_give_one_term(anna: Client, kind: str) -> None:
    """The second one is refused in the preview, with the row before."""
    rows = {"new": "Term,BT\nKotos,Harps\nKotos,Violins\n", "renames": "concept,new\nHarps,Kotos\nViolins,Kotos\n"}
    page = text_of(send(anna, "/bring-in/table", rows[kind].encode(), kind=kind, tag="en"))
    assert "Row 2 gives “Kotos” as a preferred term, too." in page and "1 row changes something." in page


def test_a_term_that_another_concept_has_is_refused_in_the_preview(anna: Client) -> None:
    page = text_of(send(anna, "/bring-in/table", b"concept,new\nHarps,Violins\n", tag="en"))
    assert "“Violins” is the preferred term of another concept" in page and "1 row was refused." in page


def test_a_synonym_that_is_renamed(site: Site, anna: Client) -> None:
    """The term that is named changes, and the preferred one stays."""
    harps = number(site, "Harps")
    label = {"do": "addLabel", "owner": harps, "kind": "alt", "tag": "en", "text": "Arched harps"}
    assert site.desk.perform("ben", "add_term", [label]).is_done
    page = send(anna, "/bring-in/table", b"Old term;New term\nArched harps;Bow harps\n", tag="en")
    assert "1 row was done." in perform(anna, page, "/bring-in/table/perform").text
    view = site.desk.replica.view(harps)
    assert view and ("en", "Harps") in view.pref and ("en", "Bow harps") in view.alt
    assert ("en", "Arched harps") not in view.alt


def test_windows_1252(site: Site, anna: Client) -> None:
    data = "Term;BT\nSchlaginstrumente – „alte“;Harps\n".encode("cp1252")
    wrong = send(anna, "/bring-in/table", data, kind="new", tag="de")
    assert wrong.status_code == 409 and "Windows-1252" in text_of(wrong) and 'name="encoding"' in wrong.text
    page = send(anna, "/bring-in/table", data, kind="new", tag="de", encoding="cp1252")
    assert "Schlaginstrumente – „alte“" in text_of(page) and "1 row changes something." in page.text


# An ODS file of a few kilobytes: a row of 1,000 cells, 200,000 times.
COSTLY = """<office:document-content xmlns:office="urn:oasis:names:tc:opendocument:xmlns:office:1.0"
 xmlns:table="urn:oasis:names:tc:opendocument:xmlns:table:1.0"
 xmlns:text="urn:oasis:names:tc:opendocument:xmlns:text:1.0">
 <office:body><office:spreadsheet><table:table table:name="a">
 <table:table-row table:number-rows-repeated="200000"><table:table-cell table:number-columns-repeated="999">
 <text:p>x</text:p></table:table-cell></table:table-row></table:table></office:spreadsheet></office:body>
</office:document-content>"""


MANIFEST = """<manifest:manifest xmlns:manifest="urn:oasis:names:tc:opendocument:xmlns:manifest:1.0">
 <manifest:file-entry manifest:full-path="/" manifest:media-type="application/vnd.oasis.opendocument.spreadsheet"/>
 <manifest:file-entry manifest:full-path="content.xml" manifest:media-type="text/xml"/></manifest:manifest>"""


@pytest.mark.needs("odf")
def test_a_table_that_takes_too_much(anna: Client, monkeypatch: pytest.MonkeyPatch) -> None:
    """It is read in a process within limits, and not in the desk's own."""
    out = io.BytesIO()
    with zipfile.ZipFile(out, "w", zipfile.ZIP_DEFLATED) as parts:
        parts.writestr("META-INF/manifest.xml", MANIFEST)
        parts.writestr("content.xml", COSTLY)
    page = send(anna, "/bring-in/table", out.getvalue(), "a.ods", tag="en")
    assert page.status_code == 409 and "at most 200,000 rows, 1,000 columns and 4,000,000 cells" in text_of(page)
    monkeypatch.setattr("thesaurus_tools.table_process.SECONDS", 0.05)
    monkeypatch.setattr("thesaurus_tools.table_process.PATIENCE", 0.1)
    slow = send(anna, "/bring-in/table", b"term\nx\n", tag="en")
    assert slow.status_code == 409 and "a.ods" not in slow.text and "too much time or memory" in text_of(slow)


def test_the_shelf_is_bounded_by_user_and_rows(desk: Desk) -> None:
    uploads = Uploads(desk.journal)
    kept = [uploads.keep("ben", it, 10) for it in range(MOST_OF_USER + 2)]
    other = uploads.keep("anna", "x", 10)
    assert [uploads.find("ben", it, int) for it in kept] == [None, None, *range(2, MOST_OF_USER + 2)]
    last = uploads.keep("ben", 99, MOST_ROWS_OF_USER)
    assert uploads.find("ben", last, int) == 99 and uploads.find("ben", kept[-1], int) is None
    assert uploads.find("anna", other, str) == "x" and uploads.find("ben", other, str) is None
    for it in range(MOST_KEPT):
        uploads.keep(f"user {it}", it, 1)
    (kept_now,) = desk.journal.all("SELECT count(*) FROM upload")
    assert kept_now[0] == MOST_KEPT and uploads.find("anna", other, str) is None


@pytest.mark.parametrize("language", LANGUAGES)
def test_the_example_for_headings_is_understood(language: str) -> None:
    """A page says no role of the tools; what a column means is told as a heading would tell it."""
    example = str(texts_of(language)["bring_in.columns_hint"]).split(": ")[-1].strip()
    assert list(read_choices(example).values()) == ["pref@de", "broader"]


def test_a_role_for_a_heading_is_what_it_was() -> None:
    for role in ROLES:
        assert read_choices(f"Some heading={role}") == {"some heading": role}, role
    for wrong in ("x=pref", "x=Term", "x=nothing", "x=key@de"):
        with pytest.raises(ColumnsError):
            read_choices(wrong)
