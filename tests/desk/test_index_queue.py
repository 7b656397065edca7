"""Records come into a queue from files of the catalogue, are opened one after another, and have titles."""
from __future__ import annotations

import io
import sqlite3
from collections.abc import Callable
from contextlib import closing
from pathlib import Path

import pytest
from clients import Client, Site, text_of
from hostile import TEXTS, faults_of
from reader import Form, read_page
from thesaurus_desk.journal.record_texts import RecordText
from thesaurus_desk.store.plan_execution import Desk

VIOLINS, HARPS, FIDDLES = 5, 11, 31
OpenDesk = Callable[[Path], Desk]
CSV = """Key;Titel;Beschreibung;URL
M 1;Geige von Stainer;Absam 1668;https://cat.example/1
M 2;Harfe;;
;Ohne Schlüssel;;
"""
DUBLIN_CORE = """<?xml version="1.0"?>
<records xmlns:dc="http://purl.org/dc/elements/1.1/" xmlns:oai_dc="http://www.openarchives.org/OAI/2.0/oai_dc/">
<oai_dc:dc><dc:title>Geige von Stainer</dc:title><dc:description>Absam 1668</dc:description>
<dc:identifier>https://cat.example/1</dc:identifier><dc:identifier>M 1</dc:identifier></oai_dc:dc>
<oai_dc:dc><dc:title>Harfe</dc:title><dc:identifier>M 2</dc:identifier></oai_dc:dc>
<oai_dc:dc><dc:title>Ohne Schlüssel</dc:title></oai_dc:dc></records>"""
MODS = """<modsCollection xmlns="http://www.loc.gov/mods/v3">
<mods><titleInfo type="alternative"><title>Violin</title></titleInfo>
<titleInfo><nonSort>Geige</nonSort><title>von Stainer</title></titleInfo><abstract>Absam 1668</abstract>
<location><url>https://cat.example/1</url></location>
<relatedItem><titleInfo><title>Other</title></titleInfo></relatedItem>
<recordInfo><recordIdentifier>M 1</recordIdentifier></recordInfo></mods>
<mods><titleInfo><title>Harfe</title></titleInfo><identifier>M 2</identifier></mods>
<mods><titleInfo><title>Ohne</title></titleInfo></mods></modsCollection>"""
MARC_XML = b'<collection xmlns="http://www.loc.gov/MARC21/slim">'
FIELDS = [
    {
        "001": "M 1",
        "245": "10\x1faGeige von Stainer /\x1fcJacob Stainer.",
        "520": "  \x1faAbsam 1668",
        "856": "40\x1fuhttps://cat.example/1",
    },
    {"001": "M 2", "245": "00\x1faHarfe"},
    {"245": "00\x1faOhne Schlüssel"},
]


def iso_2709(fields: dict[str, str]) -> bytes:
    """Returns a record as ISO 2709 has it: a leader, a directory of twelve bytes for each field, and the fields."""
    directory, body = "", b""
    for tag, text in fields.items():
        data = text.encode() + b"\x1e"
        directory += f"{tag}{len(data):04}{len(body):05}"
        body += data
    start = 24 + len(directory) + 1
    leader = f"{start + len(body) + 1:05}nam a22{start:05} i 4500"
    return f"{leader}{directory}\x1e".encode() + body + b"\x1d"


def marc_xml(fields: dict[str, str]) -> str:
    """Returns a record as MARCXML has it."""
    controls = "".join(f'<controlfield tag="{it}">{text}</controlfield>' for it, text in fields.items() if it < "010")
    others = ""
    for tag, text in fields.items():
        if tag >= "010":
            parts = "".join(f'<subfield code="{it[0]}">{it[1:]}</subfield>' for it in text.split("\x1f")[1:])
            others += f'<datafield tag="{tag}" ind1=" " ind2=" ">{parts}</datafield>'
    return f"<record><leader>00000nam a2200000 i 4500</leader>{controls}{others}</record>"


FILES = {
    "a.csv": CSV.encode(),
    "b.xml": DUBLIN_CORE.encode(),
    "c.xml": MODS.encode(),
    "d.mrc": b"".join(map(iso_2709, FIELDS)),
    "e.xml": b"%s%s</collection>" % (MARC_XML, "".join(map(marc_xml, FIELDS)).encode()),
}


def bring(client: Client, name: str, data: bytes) -> str:
    """Brings a file in, and returns the text of the page after it."""
    answer = client.post("/index/records", {"file": (io.BytesIO(data), name), "encoding": ""})
    return text_of(client.get(answer.headers["Location"]) if answer.status_code == 303 else answer)


def opened(client: Client) -> str:
    """Opens the next record, and returns where that leads."""
    answer = client.post("/index/next", {})
    assert answer.status_code == 303
    return str(answer.headers["Location"])


def form_at(client: Client, path: str) -> Form:
    return next(it for it in read_page(client.get(path).text).forms if it.name == "index")


@pytest.mark.parametrize("name", FILES)
def test_records_come_from_files_of_each_form(site: Site, name: str) -> None:
    page = bring(site.client("ina"), name, FILES[name])
    assert "2 records read, 2 of them new in the queue." in page and "1 record has no key" in page and "2 wait" in page
    texts = site.desk.record_texts
    assert texts.get("M 1") == RecordText("M 1", "Geige von Stainer", "Absam 1668", "https://cat.example/1")
    assert texts.get("M 2") == RecordText("M 2", "Harfe")
    page = bring(site.client("ina"), name, FILES[name])
    assert "2 records read, 0 of them new in the queue." in page and "2 wait" in page


@pytest.mark.parametrize(
    ("name", "data", "part"),
    [
        ("a.csv", b"title,text\nHarp,\n", "no column of keys"),
        ("a.mrc", FILES["d.mrc"].replace(b"nam a22", b"nam  22"), "row 3: MARC-8"),
        ("a.mrc", b"00050nam a22xxxxx i 4500" + b" " * 30, "the file is damaged"),
        ("a.xml", b'<!DOCTYPE r [<!ENTITY a "b">]><r>&a;</r>', "declares a document type"),
        ("a.xml", b"<r>\n<unclosed></r>", "a.xml, row 2: this isn’t well-formed XML."),
    ],
)
def test_what_is_no_file_of_records(site: Site, name: str, data: bytes, part: str) -> None:
    page = bring(site.client("ina"), name, data)
    assert part in page and site.desk.queue.counts()["waiting"] == 0


def test_each_opens_another_record_of_the_queue(site: Site) -> None:
    ina, ben = site.client("ina"), site.client("ben")
    bring(ina, "a.csv", FILES["a.csv"] + b"M 3;Lyra;;\n")
    assert [opened(ina), opened(ben)] == ["/index?record=M+1", "/index?record=M+2"]
    form = form_at(ina, "/index?record=M+1")
    answer = ina.post("/index", {**dict(form.fields), "do": "save", "concept": [str(VIOLINS)]})
    assert answer.headers["Location"].startswith("/index?record=M+3&done=")
    form = form_at(ben, "/index?record=M+2")
    answer = ben.post("/index", {**dict(form.fields), "do": "skip"})
    # (ina has the third one open)
    assert answer.headers["Location"] == "/index"
    assert site.desk.queue.counts() == {"waiting": 1, "done": 1, "skipped": 1}
    page = ben.get("/index")
    assert "Records left out" in page.text and 'href="/index?record=M+2"' in page.text


def test_what_is_indexed_already_is_done(site: Site) -> None:
    ina, desk = site.client("ina"), site.desk
    assert desk.perform("ina", "post", [{"do": "post", "key": "k", "record": "M 2", "concept": VIOLINS}]).is_done
    bring(ina, "a.csv", FILES["a.csv"])
    assert desk.queue.counts() == {"waiting": 1, "done": 1, "skipped": 0}


def test_a_title_is_shown_wherever_its_record_is(site: Site) -> None:
    ina, desk = site.client("ina"), site.desk
    bring(ina, "a.csv", FILES["a.csv"])
    posts = [{"do": "post", "key": f"k{it}", "record": "M 1", "concept": it} for it in (VIOLINS, FIDDLES)]
    assert desk.perform("ina", "post", posts).is_done
    number = desk.replica.postings.of_record("M 1")[0].number
    anna = site.client("anna")
    paths = (f"/c/{VIOLINS}", f"/c/{VIOLINS}/records", f"/c/{VIOLINS}/split", "/record?name=M+1", "/record?like=M+1")
    for path in (*paths, f"/posting/{number}", "/changes", "/index?record=M+1", "/search?q=stainer"):
        assert "Geige von Stainer M 1" in " ".join(text_of(anna.get(path)).split()), path
    page = ina.get("/record?name=M+1").text
    assert "Absam 1668" in page and 'href="https://cat.example/1"' in page


def test_a_record_is_found_by_words_of_its_title(site: Site) -> None:
    """In the field of each page, in its suggestions, and among records; with the concepts that it has."""
    ina, desk = site.client("ina"), site.desk
    desk.record_texts.keep([RecordText("M 7", "Vergoldete Wiener Pedalharfe"), RecordText("M 8", "Wiener Geige")])
    post = {"do": "post", "key": "k7", "record": "M 7", "concept": HARPS}
    assert desk.perform("ina", "post", [post]).is_done
    page = ina.get("/search?q=pedalharfe wien")
    assert "Vergoldete Wiener Pedalharfe M 7 : Harps" in " ".join(text_of(page).split()), text_of(page)
    assert "Wiener Geige" not in page.text
    suggested = ina.get("/suggest?q=wiener geig&kinds=all").json
    assert [(it["text"], it["note"]) for it in suggested if not it["number"]] == [("Wiener Geige", "record · M 8")]
    assert "M 8" in ina.get("/record?like=geige wiener").text and "M 7" not in ina.get("/record?like=geige").text
    # (a title that is changed or deleted, and a desk of before)
    desk.record_texts.keep([RecordText("M 7", "Harfe ohne Gold")])
    assert desk.record_texts.titled("vergoldete", 9) == [] and desk.record_texts.titled("ohne gold", 9) == ["M 7"]
    desk.record_texts.forget("M 8")
    assert desk.record_texts.titled("geige", 9) == [] and desk.record_texts.titled('"(*', 9) == []
    assert "M 7" not in site.client().get("/search?q=harfe").text


def test_a_desk_that_knew_no_titles_finds_them(site: Site, open_desk: OpenDesk) -> None:
    site.desk.record_texts.keep([RecordText("M 7", "Pedalharfe")])
    with site.desk.journal.transaction() as rows:
        for it in ("record_title_new", "record_title_gone", "record_title_changed"):
            rows.execute(f"DROP TRIGGER {it}")
        rows.execute("DROP TABLE record_title")
    site.desk.stop()
    assert open_desk(site.desk.db).record_texts.titled("pedalharfe", 9) == ["M 7"]


def test_a_text_is_typed_and_deleted(site: Site) -> None:
    ina, texts = site.client("ina"), site.desk.record_texts
    form = form_at(ina, "/index?record=H+7")
    page = ina.post(
        "/index",
        {**dict(form.fields), "title": "Harp  of gold", "text": "A harp", "link": "javascript:x()", "do": "look"},
    )
    assert page.status_code == 200 and texts.get("H 7") == RecordText("H 7", "Harp of gold", "A harp")
    assert "no backup has them" in text_of(page)
    form = form_at(ina, "/index?record=H+7")
    assert form.value("title") == "Harp of gold"
    assert ina.post("/index", {**dict(form.fields), "do": "forget"}).status_code == 200 and texts.get("H 7") is None


def test_the_head_says_where_the_catalogue_is(site: Site) -> None:
    anna = site.client("anna")
    for wrong in ("https://cat.example/", "javascript:{key}"):
        assert anna.post("/index/settings", {"form": "settings", "catalogue": wrong}).status_code == 409
    assert anna.post("/index/settings", {"catalogue": "https://cat.example/id/{key}"}).status_code == 303
    for path in ("/index?record=a/b c", "/record?name=a/b c"):
        assert 'href="https://cat.example/id/a%2Fb%20c"' in site.client("ina").get(path).text
    assert "catalogue" not in {it.value("form") for it in read_page(site.client("ina").get("/index").text).forms}


def test_a_copy_has_the_queue_without_texts(site: Site, tmp_path: Path) -> None:
    bring(site.client("ina"), "a.csv", FILES["a.csv"])
    site.desk.journal.copy_to(tmp_path / "copy.sqlite")
    with closing(sqlite3.connect(tmp_path / "copy.sqlite")) as rows:
        assert rows.execute("SELECT count(*) FROM queue").fetchone() == (2,)
        assert not rows.execute("SELECT 1 FROM sqlite_schema WHERE name LIKE 'record%'").fetchall()


@pytest.mark.parametrize("text", TEXTS)
def test_a_title_and_a_text_that_try_to_break_a_page(site: Site, text: str) -> None:
    ina, desk = site.client("ina"), site.desk
    desk.record_texts.keep([RecordText("M 1", text, text, text).tidy()])
    assert desk.perform("ina", "post", [{"do": "post", "key": "k", "record": "M 1", "concept": VIOLINS}]).is_done
    desk.queue.add("ina", ["M 1"], ())
    for path in (
        "/index",
        "/index?record=M+1",
        "/record?name=M+1",
        f"/c/{VIOLINS}",
        f"/c/{VIOLINS}/records",
        "/changes",
    ):
        answer = ina.get(path)
        assert answer.status_code == 200 and faults_of(answer.text) == []
