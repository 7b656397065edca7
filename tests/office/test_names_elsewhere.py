"""Mappings have the names of the concepts elsewhere that a desk knows: on the site, in a report, a table and a page to
print."""
from __future__ import annotations

import sqlite3
from contextlib import closing
from pathlib import Path

import pytest
from office import Request, tool
from program import built, lines_of, over

GEIGE, FIDDLE = "http://vocab.example/1", "http://vocab.example/2"
REQUESTS: list[Request] = [
    {"do": "scheme", "tag": "en", "text": "Instruments"},
    {"do": "concept", "scheme": 1, "tag": "en", "text": "Violins"},
    {"do": "addLabel", "owner": 2, "kind": "pref", "tag": "de", "text": "Geigen"},
    {"do": "outside", "iri": GEIGE},
    {"do": "outside", "iri": FIDDLE},
    {"do": "link", "kind": "exact", "a": 2, "b": 3},
    {"do": "link", "kind": "close", "a": 2, "b": 4},
]


@pytest.fixture(scope="module")
def store(tmp_path_factory: pytest.TempPathFactory) -> Path:
    """A store, and the journal of a desk that knows the names of one of two concepts elsewhere."""
    path = tmp_path_factory.mktemp("names") / "museum.db"
    assert b"no" not in over(path, "script", lines_of(REQUESTS)).out
    with closing(sqlite3.connect(path.with_name("museum-desk.sqlite"))) as rows, rows:
        rows.execute("CREATE TABLE outside_name (iri TEXT, tag TEXT, text TEXT, vocabulary TEXT, at TEXT)")
        names = [(GEIGE, "de", "Geige & Co", "V", ""), (GEIGE, "en", "violin <made up>", "V", "")]
        rows.executemany("INSERT INTO outside_name VALUES (?, ?, ?, ?, ?)", names)
    return path


def out_of(name: str, *words: object) -> str:
    """Runs a tool, and returns what it prints."""
    ran = tool(name, *words)
    assert ran.status == 0, ran.err.decode()
    return ran.out.decode()


@pytest.mark.parametrize("langs", ["en", "de"])
def test_a_report(store: Path, langs: str) -> None:
    shown = out_of("report", "--desk", store, "--langs", langs, "mappings", "--csv")
    term, name = ("Violins", "violin <made up>") if langs == "en" else ("Geigen", "Geige & Co")
    assert shown == f"number,term,kind,iri,label\n2,{term},exact,{GEIGE},{name}\n2,{term},close,{FIDDLE},\n"
    bare = out_of("report", "--db", store, "mappings", "--csv")
    assert bare.splitlines()[1:] == [f"2,Violins,exact,{GEIGE},", f"2,Violins,close,{FIDDLE},"]


def test_a_table_that_comes_back(store: Path) -> None:
    """The names are beside the addresses, which the table is read by."""
    columns = ("--columns", "number,exact,exactLabel,closeLabel", "--lang", "en")
    shown = out_of("to-table", "--desk", store, *columns)
    assert shown == f"number,exact,exactLabel,closeLabel\n2,{GEIGE},violin <made up>,{FIDDLE}\n"
    table = store.with_name("back.csv")
    table.write_text(shown, encoding="utf-8")
    ran = tool("from-table", table, "--db", store, "--lang", "en", "--dry", "--program", built())
    assert ran.status == 0 and ran.out == b"", (ran.out, ran.err)


def test_a_page_to_print(store: Path) -> None:
    page = out_of("to-print", "--desk", store, "--scheme", "1", "--lang", "de", "--parts", "alphabetical")
    assert "<dd><b>=EQ</b> Geige &amp; Co</dd>" in page and "~EQ" not in page
    assert "=EQ" not in out_of("to-print", "--db", store, "--scheme", "1", "--lang", "de")


@pytest.mark.parametrize("way", ["desk", "journal"])
def test_a_site(store: Path, tmp_path: Path, way: str) -> None:
    export = tmp_path / "museum.nt"
    export.write_bytes(over(store, "export").out)
    journal = store.with_name("museum-desk.sqlite")
    words = ("--desk", store) if way == "desk" else ("--db", store, "--journal", journal)
    out_of("site", export, tmp_path / "site", "--langs", "en,de", "--old-iris", *words)
    page = (tmp_path / "site/en/2.html").read_text(encoding="utf-8")
    link = f'<a href="{GEIGE}" rel="external">'
    assert f"{link}<span>violin &lt;made up&gt;</span></a>" in page
    assert f'<a href="{FIDDLE}" rel="external">{FIDDLE}</a>' in page
    page = (tmp_path / "site/de/2.html").read_text(encoding="utf-8")
    assert f"{link}<span>Geige &amp; Co</span></a>" in page
