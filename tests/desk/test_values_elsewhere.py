"""Definitions, notes and notations where a thesaurus is shown: in print, on a site, in the forms and the interfaces of
other programs. Nowhere is what isn't public."""
from __future__ import annotations

import html
import os
import re
import subprocess
from dataclasses import replace
from pathlib import Path
from urllib.parse import urlencode

import pytest
from asking import done
from clients import Site, text_of
from processes import ROOT
from thesaurus_desk.store.release_export import make_release
from thesaurus_desk.store.snapshot import SnapshotServer
from thesaurus_tools.fields import Field
from thesaurus_tools.values import member_of, set_request

VIOLINS, GLOSS, INNER = 5, "A bowed <instrument>,\nwith four strings.", "Nobody outside reads this"
VALUES = (
    *(("definition", "en", member_of(GLOSS, "Grove")), ("definition", "de", "Streichinstrument")),
    *(("historyNote", "en", "Before 1990: Fiddles"), ("editorialNote", "en", INNER), ("source", "", "New Grove")),
    *(("notation", "", "321.322-71"), ("notation", "ddc", "787.2"), ("repertoire", "", "folk"), ("inner", "", INNER)),
)


@pytest.fixture
def defined(site: Site) -> Site:
    """A desk with a concept that has values of fields, two of which aren't public."""
    site.desk.values.write_field(Field("repertoire", "line", names={"en": "Repertoire"}, is_own=True))
    site.desk.values.write_field(Field("inner", "line", is_public=False, names={"en": "Inner"}, is_own=True))
    requests = [set_request(VIOLINS, name, tag, new=new) for name, tag, new in VALUES]
    assert site.desk.perform("anna", "try", requests).is_done
    return site


def tool(name: str, *words: object) -> str:
    """What a tool prints."""
    call = [str(it) for it in (ROOT / "tools" / name, *words)]
    environment = {**os.environ, "SOURCE_DATE_EPOCH": "1700000000"}
    ran = subprocess.run(call, capture_output=True, text=True, check=False, env=environment)
    assert ran.returncode == 0, ran.stderr
    return ran.stdout


def test_the_tools(defined: Site, tmp_path: Path) -> None:
    """By the journal beside a copy of the store, and by the desk."""
    desk, copy, out = defined.desk, tmp_path / "copy.db", tmp_path / "public"
    desk.copies.copy_to(copy)
    beside = ("--db", copy, "--journal", desk.journal.path)
    columns = ("--columns", "number,definition@en,notation,notation@ddc,repertoire")
    table = tool("to-table", *beside, *columns)
    assert f'5,"{GLOSS}",321.322-71,787.2,folk' in table
    server = SnapshotServer(desk, None)
    try:
        assert tool("to-table", "--desk", desk.db, *columns) == table
    finally:
        server.end()
    assert tool("report", *beside, "find", "FOUR strings").count("definition") == 1
    without = tool("report", *beside, "missing", "--kind", "notation", "--csv")
    assert without.startswith("number,term,notation\n") and "\n5," not in without and "\n6," in without
    marc = tool("to-marc", *beside, "--lang", "en")
    for tag, code, text in (
        ("677", "a", "A bowed &lt;instrument&gt;, with four strings."),
        *(("678", "a", "Before 1990: Fiddles"), ("670", "a", "New Grove"), ("680", "i", "Repertoire: folk")),
        *(("083", "a", "787.2"), ("065", "a", "321.322-71")),
    ):
        fields = re.findall(f'tag="{tag}".*?</datafield>', marc, re.DOTALL)
        assert any(f'<subfield code="{code}">{text}</subfield>' in it for it in fields), text
    printed = tool("to-print", *beside, "--scheme", "1", "--lang", "en")
    assert "<dt>Violins <small>321.322-71</small> <small>787.2</small></dt>" in printed
    assert "<b>DEF</b> A bowed &lt;instrument&gt;,\nwith four strings.</dd>" in printed and "Streich" not in printed
    export = tmp_path / "museum.nt"
    export.write_bytes(desk.copies.run("export"))
    tool("site", export, out, "--langs", "en,de", "--journal", desk.journal.path)
    pages = [(out / lang / f"{VIOLINS}.html").read_text(encoding="utf-8") for lang in ("en", "de")]
    assert "with four strings." in pages[0] and "Streichinstrument" in pages[1] and "folk" in pages[1]
    assert "321.322-71" in (out / "en/terms.js").read_text(encoding="utf-8")
    site = "".join(it.read_text(encoding="utf-8") for it in out.rglob("*.html"))
    assert not any(INNER in it for it in (table, marc, printed, site))


ABOUT = (
    *(("title", "en", "All our <instruments>"), ("creator", "", "Museum of Music")),
    *(("license", "", "https://cc.example/by/4"), ("description", "en", "For the catalogue.")),
)


def test_what_describes_a_scheme_is_in_each_export(defined: Site, tmp_path: Path) -> None:
    """In print, by the desk and by the tool, and on a site made of the desk's export, which has the office's fields,
    general notes and the version, too."""
    desk, out, copy = defined.desk, tmp_path / "public", tmp_path / "copy.db"
    desk.values.write_field(
        replace(desk.values.fields()["repertoire"], property="https://museum.example/terms#repertoire")
    )
    done(desk, *(set_request(1, name, tag, new=text) for name, tag, text in ABOUT))
    done(desk, set_request(VIOLINS, "generalNote", "en", new="Also for children"))
    done(desk, set_request(VIOLINS, "created", "", new="1990-05-03"))
    assert make_release(desk, "anna", "2026.1", "2026-11-30", "").is_done
    client, wanted = defined.client("rita"), [text for _, _, text in ABOUT]
    for form in ("alphabetical", "hierarchical"):
        page = text_of(client.get(f"/print/1?form={form}&in=en&notes=1"))
        assert all(it in page for it in wanted) and "1990-05-03" not in page
    assert "Museum of Music" not in client.get("/print/4?in=en").text
    desk.copies.copy_to(copy)
    printed = tool("to-print", "--db", copy, "--journal", desk.journal.path, "--scheme", "1", "--lang", "en")
    assert "<p>Title: All our &lt;instruments&gt;</p>" in printed and "<p>Creator: Museum of Music</p>" in printed
    assert "<b>NOTE</b> Also for children" in printed and "1990-05-03" not in printed
    export = tmp_path / "museum.nt"
    export.write_text(client.get("/releases/2026.1.nt").text, encoding="utf-8")
    tool("site", export, out, "--langs", "en,de")
    index, page = ((out / f"en/{it}.html").read_text(encoding="utf-8") for it in ("index", VIOLINS))
    shown = text_of_html(index)
    assert all(it in shown for it in (*wanted, "2026.1")) and "General note" in page and "Also for children" in page
    assert "<dt>repertoire</dt>" in page and "folk" in page
    assert "For the catalogue." not in (out / "de/index.html").read_text(encoding="utf-8")


def text_of_html(page: str) -> str:
    """The text of a page without its markup."""
    return html.unescape(re.sub(r"<[^>]*>", " ", page))


def test_print_and_interfaces(defined: Site) -> None:
    client = defined.client("rita")
    page = " ".join(text_of(client.get("/print/1?form=alphabetical&in=en&notes=1")).split())
    assert "Violins 321.322-71 787.2" in page and "definition A bowed <instrument>" in page and "folk" in page
    assert "321.322-71 787.2 Violins" in " ".join(text_of(client.get("/print/4?in=en")).split())
    found = client.get("/rest/v1/search?query=violins&lang=en").json
    assert [it["notation"] for it in found["results"]] == ["321.322-71"]
    asked = '{"ids": ["5", "6"], "properties": [{"id": "definition"}, {"id": "notation"}, {"id": "repertoire"}]}'
    extended = client.get(f"/reconcile?{urlencode({'extend': asked})}").json
    assert [it["name"] for it in extended["meta"]] == ["Definition", "Notation", "Repertoire"]
    assert [it["str"] for it in extended["rows"]["5"]["definition"]] in ([GLOSS], ["Streichinstrument"])
    assert [it["str"] for it in extended["rows"]["5"]["notation"]] == ["321.322-71", "787.2"]
    assert extended["rows"]["6"] == {"definition": [], "notation": [], "repertoire": []}
    proposed = [it["id"] for it in client.get("/reconcile/properties?type=1").json["properties"]]
    assert "definition" in proposed and "editorialNote" not in proposed and "inner" not in proposed
    assert "A bowed" in client.get("/reconcile/preview?id=5").text
    for path in ("/print/1?form=alphabetical&notes=1", "/print/4?notes=1", "/rest/v1/1/data?uri=5&format=text/turtle"):
        assert INNER not in client.get(path).text
