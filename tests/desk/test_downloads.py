"""Files in the forms of other programs, from the page Save: what each has is read back by other readers."""
from __future__ import annotations

import csv
import io
import shutil
import subprocess
import zipfile
from pathlib import Path
from typing import Any
from urllib.parse import urlencode
from xml.etree import ElementTree

import pytest
from asking import done, label
from clients import Client, Site, text_of
from processes import ROOT
from rdflib import SKOS, Graph, Literal, URIRef
from test_arrays import BOWED, CELLOS, VIOLINS
from thesaurus_desk.journal.values import set_request
from thesaurus_desk.store import saved_files
from thesaurus_desk.store.export_replica import read_export
from thesaurus_desk.store.release_export import make_release
from thesaurus_desk.web.pages import downloads
from thesaurus_tools.fields import Field
from thesaurus_tools import marc
from thesaurus_tools.file_forms import PDF, Choice, Part, outcome_of, page_text
from thesaurus_tools.mads import MADS, skos_of_mads
from thesaurus_tools.ntriples import Iri, Triple, parse_ntriples
from thesaurus_tools.rdf_writer import ISO_THES
from thesaurus_tools.release_changes import changes_of_lines
from thesaurus_tools.skos_xl import XL, plain_labels
from thesaurus_tools.spreadsheets import read_table
from thesaurus_tools.zthes import zthes_triples
from werkzeug.test import TestResponse

MARC = "{http://www.loc.gov/MARC21/slim}"
BASE = "https://thesaurus.example/id/"
GLOSS, INNER = "=A bowed\ninstrument", "Nobody outside reads this"


@pytest.fixture
def patient(monkeypatch: pytest.MonkeyPatch) -> None:
    """Requests that wait until their file is there."""
    monkeypatch.setattr(downloads, "PATIENCE", 120.0)


@pytest.fixture
def defined(site: Site, patient: None) -> Site:
    """A desk with a concept that has values of fields, one of which isn't public, and a candidate."""
    site.desk.values.write_field(Field("repertoire", "line", names={"en": "Repertoire"}, is_own=True))
    for name, tag, text in (
        *(("definition", "en", GLOSS), ("notation", "", "321.322-71"), ("editorialNote", "en", INNER)),
        ("repertoire", "", "Balkan dances"),
    ):
        done(site.desk, set_request(VIOLINS, name, tag, new=text))
    done(site.desk, set_request(CELLOS, "status", "", new="candidate"))
    return site


def saved(client: Client, form: str, **more: object) -> TestResponse:
    """A file in a form."""
    answer = client.get(f"/save/file?{urlencode({'form': form, 'lang': 'en', **more})}")
    assert answer.status_code == 200, text_of(answer)
    assert "attachment" in answer.headers["Content-Disposition"]
    return answer


def graph_of(answer: TestResponse, form: str) -> Graph:
    return Graph().parse(data=answer.data, format=form)


def subjects(graph: Graph) -> set[int]:
    """The numbers of the resources of a graph."""
    return {int(str(it).removeprefix(BASE)) for it in graph.subjects() if str(it).startswith(BASE)}


@pytest.mark.parametrize(
    ("form", "syntax"), [("turtle", "turtle"), ("rdfxml", "xml"), ("jsonld", "json-ld"), ("ntriples", "nt")]
)
def test_rdf_of_the_present(defined: Site, form: str, syntax: str) -> None:
    whole = Graph().parse(data=defined.client("rita").get("/export.nt").text, format="nt")
    assert {*graph_of(saved(defined.client("rita"), form), syntax)} == {*whole}
    branch = graph_of(saved(defined.client("rita"), form, part=BOWED), syntax)
    assert VIOLINS in subjects(branch) and CELLOS not in subjects(branch) and 1 not in subjects(branch)
    assert {*branch} < {*whole}


def test_a_release_and_its_branch(defined: Site) -> None:
    client = defined.client("rita")
    make_release(defined.desk, "anna", "2026.1", "2026-11-30", "")
    done(defined.desk, set_request(VIOLINS, "definition", "en", old=GLOSS, new="Changed"))
    answer = saved(client, "turtle", release="2026.1", part=BOWED)
    assert 'filename="bowed-instruments-2026.1.ttl"' in answer.headers["Content-Disposition"]
    assert (URIRef(f"{BASE}{VIOLINS}"), SKOS.definition, Literal(GLOSS, "en")) in graph_of(answer, "turtle")
    assert "Changed" in saved(client, "turtle", part=1).text
    assert "Balkan" not in saved(client, "turtle", part=1).text


def triples_of(answer: TestResponse, syntax: str) -> set[Triple]:
    """The triples of a form, by way of another reader (which writes times in its own way)."""
    return {*parse_ntriples(graph_of(answer, syntax).serialize(format="nt").encode(), "answer")}


@pytest.mark.parametrize("form", ["skosxl", "madsrdf"])
def test_other_words_of_rdf_are_read_back(defined: Site, form: str) -> None:
    client = defined.client("rita")
    whole = triples_of(saved(client, "ntriples"), "nt")
    written = triples_of(saved(client, form), {"skosxl": "turtle", "madsrdf": "xml"}[form])
    again = plain_labels(written) if form == "skosxl" else skos_of_mads(written)
    # (a scheme and a collection have titles in MADS/RDF)
    assert {title_as_label(it) for it in again} == whole
    is_its_own = any(it.predicate.startswith({"skosxl": XL, "madsrdf": MADS}[form]) for it in written)
    assert is_its_own and not any(it.predicate.startswith((XL, MADS)) for it in again)
    if form == "madsrdf":
        assert not any(it.predicate == f"{SKOS}prefLabel" for it in written)


def title_as_label(it: Triple) -> Triple:
    """A triple with the label of SKOS in place of that of RDF Schema."""
    return it._replace(predicate=Iri(f"{SKOS}prefLabel")) if it.predicate.endswith("rdf-schema#label") else it


def test_a_label_stays_the_same_resource(site: Site, patient: None) -> None:
    def label_of(text: str) -> URIRef:
        graph = graph_of(saved(site.client("rita"), "skosxl"), "turtle")
        (found,) = graph.subjects(URIRef(f"{XL}literalForm"), Literal(text, lang="en"))
        return found

    before = label_of("Violins")
    done(site.desk, {"do": "relabel", "owner": VIOLINS, "tag": "en", "text": "Fine violins", "keep": True})
    assert label_of("Violins") == before != label_of("Fine violins")


def test_zthes_is_read_back(defined: Site, tmp_path: Path) -> None:
    done(defined.desk, label("addLabel", VIOLINS, "alt", "de", "Violinen"))
    path = tmp_path / "museum.xml"
    path.write_bytes(saved(defined.client("rita"), "zthes", part=1).data)
    words = ["xmllint", "--noout", str(path)]
    assert not shutil.which("xmllint") or subprocess.run(words, check=False).returncode == 0
    names = {"prefLabel", "altLabel", "scopeNote", "broader", "narrower", "related", "definition", "notation"}
    wanted = {f"{SKOS}{it}" for it in names}
    replica = defined.desk.public_view()
    living = {f"{BASE}{it}" for it in replica.numbers("concept") if replica.is_live(it)}
    export = parse_ntriples(defined.client("rita").get("/export.nt").data, "export")
    whole = {it for it in export if it.subject in living and it.predicate in wanted}
    found = {
        it._replace(
            subject=Iri(named(it.subject)), object=Iri(named(it.object)) if isinstance(it.object, Iri) else it.object
        )
        for it in zthes_triples("museum.xml", path.read_bytes())
    }
    assert {it for it in found if it.predicate in wanted} == whole and len(whole) > 50
    assert INNER not in path.read_text(encoding="utf-8")
    ran = subprocess.run(
        [ROOT / "tools/from-skos", path, "--lang", "en", "--own", "--drop"], capture_output=True, check=True
    )
    assert b'"Violinen"' in ran.stdout and b"321.322-71" in ran.stdout


def named(iri: str) -> str:
    """The IRI of the concept that a term of Zthes is of."""
    return iri.replace("urn:zthes:", BASE)


def rows_of(answer: TestResponse, path: Path) -> list[dict[str, str]]:
    """The rows of a spreadsheet, by the headings."""
    path.write_bytes(answer.data)
    heading, *rows = read_table(path)
    return [dict(zip(heading.cells, it.cells)) for it in rows]


@pytest.mark.parametrize("form", ["xlsx", "ods"])
def test_spreadsheets(defined: Site, tmp_path: Path, form: str) -> None:
    program = pytest.importorskip({"xlsx": "openpyxl", "ods": "odf"}[form])
    assert program
    rows = rows_of(saved(defined.client("rita"), form), tmp_path / f"table.{form}")
    found = {it["number"]: it for it in rows}
    violins = found[str(VIOLINS)]
    values = (violins["definition@en"], violins["notation"], violins["repertoire"])
    assert values == (GLOSS, "321.322-71", "Balkan dances")
    assert violins["pref@en"] == "Violins" and "Bowed instruments" in violins["broaderGeneric"]
    assert str(CELLOS) not in found and not any(INNER in it for row in rows for it in row.values())


def test_csv(defined: Site) -> None:
    text = saved(defined.client("rita"), "csv", part=BOWED).data.decode("utf-8-sig")
    rows = [*csv.DictReader(io.StringIO(text))]
    assert {it["number"] for it in rows} >= {str(VIOLINS), str(BOWED)} and str(CELLOS) not in {
        it["number"] for it in rows
    }
    assert next(it for it in rows if it["number"] == str(VIOLINS))["definition@en"] == f"'{GLOSS}"


@pytest.mark.needs("soffice")
@pytest.mark.parametrize("form", ["xlsx", "ods", "csv"])
def test_libreoffice_has_the_same_cells(defined: Site, tmp_path: Path, form: str) -> None:
    """As it writes them into a table of its own; none is a formula or a date to it."""
    table = tmp_path / f"table.{form}"
    table.write_bytes(saved(defined.client("rita"), form).data)
    home = f"-env:UserInstallation={(tmp_path / 'profile').as_uri()}"
    # (commas, quotes and UTF-8, of the table that it reads and of the one that it writes)
    reading = ["--infilter=CSV:44,34,76,1"] if form == "csv" else []
    writing = ["--convert-to", "csv:Text - txt - csv (StarCalc):44,34,76,1,,0,false,true"]
    words = ["soffice", home, "--headless", *reading, *writing, "--outdir", str(tmp_path / "made"), str(table)]
    subprocess.run(words, capture_output=True, check=True, timeout=300)
    made = (tmp_path / "made" / "table.csv").read_text(encoding="utf-8-sig")
    found = [dict(it) for it in csv.DictReader(io.StringIO(made))]
    wanted = csv.DictReader(io.StringIO(saved(defined.client("rita"), "csv").data.decode("utf-8-sig")))
    # (a table of text alone marks what a spreadsheet would take for a formula)
    mark = "" if form == "csv" else "'"
    expected = [{name: it.removeprefix(mark) if mark else it for name, it in row.items()} for row in wanted]
    assert found == expected and len(found) > 20
    assert any(it["definition@en"].endswith(GLOSS) for it in found)


@pytest.mark.needs("yaz-marcdump")
def test_marc_in_both_forms(defined: Site, tmp_path: Path) -> None:
    xml = ElementTree.fromstring(saved(defined.client("rita"), "marcxml").data)
    path = tmp_path / "museum.mrc"
    path.write_bytes(saved(defined.client("rita"), "marc").data)
    words = ["yaz-marcdump", "-i", "marc", "-o", "marcxml", str(path)]
    again = ElementTree.fromstring(subprocess.run(words, capture_output=True, check=True).stdout)

    def fields(root: ElementTree.Element) -> list[list[tuple[Any, ...]]]:
        """The fields of the records but the times at which they were made."""
        parts = ([it for it in record if it.get("tag") not in ("005", "008")] for record in root)
        return [
            [(it.get("tag"), it.get("ind1"), it.text if not len(it) else "", *((x.get("code"), x.text) for x in it))
             for it in record if it.tag != f"{MARC}leader"]
            for record in parts
        ]  # fmt: skip

    assert fields(xml) == fields(again) and len(fields(xml)) > 5
    violins = next(it for it in fields(xml) if ("001", None, None, str(VIOLINS)) in it or it[0][2] == str(VIOLINS))
    assert ("677", " ", "", ("a", "=A bowed instrument")) in violins


@pytest.mark.parametrize("form", ["marc", "marcxml"])
def test_a_concept_whose_record_is_too_long_is_named(
    site: Site, patient: None, monkeypatch: pytest.MonkeyPatch, form: str
) -> None:
    """No file is without the record, as if there were none."""
    monkeypatch.setattr(marc, "LONGEST_RECORD", 1000)
    # (in this process)
    monkeypatch.setattr(saved_files, "run_form", lambda wish, folder: outcome_of(wish.form, folder, wish.choice))
    done(site.desk, *(label("addLabel", VIOLINS, "alt", f"Violins of the kind {it}") for it in range(30)))
    answer = site.client("rita").get(f"/save/file?form={form}&lang=en")
    assert answer.status_code == 409 and "99,999 bytes" in text_of(answer)
    assert f'href="/c/{VIOLINS}"' in answer.text and f"({VIOLINS})" in text_of(answer)
    assert site.client("rita").get("/save/file?form=zthes&lang=en").status_code == 200


@pytest.mark.needs("weasyprint")
def test_pdf(defined: Site) -> None:
    made = [saved(defined.client("rita"), form).data for form in PDF]
    assert all(it.startswith(b"%PDF-") and len(it) > 5000 for it in made)


@pytest.mark.parametrize(
    ("display", "wanted"),
    [
        ("alphabetical", "<b>BTG</b> Bowed instruments"),
        ("tree", "Bowed instruments <small>G</small><ul><li>Bows"),
        ("rotated", "<p>instruments, Bowed</p>"),
    ],
)
def test_displays_of_an_export(site: Site, display: str, wanted: str) -> None:
    part = Part([*parse_ntriples(site.client("rita").get("/export.nt").data, "export")], Choice("en"))
    text = page_text([display], part).replace("\n", "")
    assert wanted in text and text.count("<h2") == 1


def test_a_page_and_a_site(defined: Site) -> None:
    client = defined.client("rita")
    page = saved(client, "page", part=BOWED).text
    assert "<h1>Bowed instruments</h1>" in page and "Violins" in page and "Cellos" not in page
    with zipfile.ZipFile(io.BytesIO(saved(client, "site", part=BOWED).data)) as archive:
        names = archive.namelist()
        assert "site/index.html" in names and f"site/en/{VIOLINS}.html" in names
        assert f"site/en/{CELLOS}.html" not in names and not any(it.rpartition("/")[2].startswith(".") for it in names)
        assert "instrument" in archive.read(f"site/en/{VIOLINS}.html").decode()


def test_what_is_not_there(defined: Site) -> None:
    client = defined.client("rita")
    for query, status in (("form=word", 400), ("", 400), ("form=csv&part=999", 404), ("form=csv&release=9", 404)):
        assert client.get(f"/save/file?{query}").status_code == status, query
    assert client.get(f"/save/file?form=csv&part={CELLOS}").status_code == 404
    assert client.get("/save/file/unknown").headers["Location"] == "/save"
    assert client.get(f"/save?part={BOWED}").text.count("Branch: Bowed instruments") == 1


def test_a_slow_file_is_waited_for(site: Site, monkeypatch: pytest.MonkeyPatch) -> None:
    client = site.client("rita")
    monkeypatch.setattr(downloads, "PATIENCE", 0.0)
    first = client.get("/save/file?form=turtle")
    assert first.status_code == 303
    waiting = client.get(first.headers["Location"])
    assert waiting.status_code == 202 and first.headers["Location"] in waiting.headers["Refresh"]
    assert "The file is being created." in waiting.text
    monkeypatch.setattr(downloads, "PATIENCE", 60.0)
    there = client.get(first.headers["Location"])
    assert there.status_code == 200 and "@prefix" in there.text
    assert client.get("/save/file?form=turtle").headers["ETag"] == there.headers["ETag"]


def test_too_many_at_once_and_what_fails(site: Site, monkeypatch: pytest.MonkeyPatch) -> None:
    client = site.client("rita")
    files = site.app.extensions["files"]
    monkeypatch.setattr(files, "begin", lambda: None)
    monkeypatch.setattr(downloads, "PATIENCE", 0.0)
    for number in range(saved_files.MOST_WAITING):
        assert client.get(f"/save/file?form=turtle&part={number + 1}").status_code == 303
    assert client.get("/save/file?form=csv").status_code == 503
    made = files.waiting.get()
    monkeypatch.setattr(saved_files, "run_form", lambda wish, folder: {"needs": "python3-none"})
    files.make(made)
    made.answer.is_made.set()
    answer = client.get(f"/save/file/{made.ticket}")
    assert answer.status_code == 409 and "Debian’s package python3-none" in answer.text


@pytest.mark.parametrize("release", ["", "2026.1"])
def test_types_of_hierarchical_links_go_out_and_come_in(
    site: Site, patient: None, tmp_path: Path, release: str
) -> None:
    """In RDF, also of a release, by which another program, and a replica of the export, know them again."""
    kinds = {"broaderGeneric", "broaderPartitive", "broaderInstantial"}
    make_release(site.desk, "anna", "2026.1", "2026-11-30", "")
    mirror, found = site.desk.public_view(), set()
    for it in parse_ntriples(saved(site.client("rita"), "ntriples", release=release).data, "export"):
        if it.predicate.startswith(ISO_THES + "broader"):
            found.add((it.predicate.removeprefix(ISO_THES), str(it.subject), str(it.object)))
    links = (
        (kind, number, other) for number in mirror.numbers("concept") for kind, other in mirror.resource(number).typed()
    )
    wanted = {(kind, mirror.iri(one), mirror.iri(other)) for kind, one, other in links if kind in kinds}
    assert found == wanted and {it[0] for it in found} == kinds
    path = tmp_path / "export.nt"
    path.write_bytes(site.client("rita").get("/export.nt").data)
    again = read_export(path)
    assert {it[1:] for it in again.all("SELECT typ, a, b FROM hier WHERE typ > 0")} == {
        (int(one.removeprefix(BASE)), int(other.removeprefix(BASE))) for _, one, other in wanted
    }
    again.close()
    ran = subprocess.run(
        [ROOT / "tools/from-skos", path, "--lang", "en", "--own", "--drop"], capture_output=True, check=True
    )
    assert all(ran.stdout.count(f'"kind":"{it}"'.encode()) == sum(one[0] == it for one in wanted) for it in kinds)


def test_a_release_without_types_is_no_change(site: Site) -> None:
    old = [it for it in site.client("rita").get("/export.nt").text.splitlines() if ISO_THES not in it]
    new = site.client("rita").get("/export.nt").text.splitlines()
    assert old != new and not list(changes_of_lines(old, new))
