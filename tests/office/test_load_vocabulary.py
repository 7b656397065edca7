"""tools/load-vocabulary: the dumps that it reads, what it makes of them, and a newer dump in place of an older one."""
from __future__ import annotations

import gzip
import sqlite3
import subprocess
import sys
from contextlib import closing
from pathlib import Path
from typing import Any

import pytest
from office import SKOS, TOOLS, TYPE, tool
from program import Ended
from thesaurus_tools.stems import stems_of
from thesaurus_tools.texts import fold
from thesaurus_tools.vocabulary_tables import vocabularies_of

XL = "http://www.w3.org/2008/05/skos-xl#"
DEPRECATED, REPLACED = "http://www.w3.org/2002/07/owl#deprecated", "http://purl.org/dc/terms/isReplacedBy"
V = "http://vocab.example/"
LINES = f"""# instruments
<{V}1> <{TYPE}> <{SKOS}Concept> .
<{V}1> <{SKOS}prefLabel> "Violin"@en .
<{V}1> <{SKOS}prefLabel> "Geige"@de-AT .
<{V}1> <{SKOS}altLabel> "Fi\\u0064dle"@en .
<{V}1> <{SKOS}broader> <{V}2> .
<{V}1> <{SKOS}scopeNote> "Bowed."@en .
<{V}2> <{SKOS}prefLabel> "Strings" .
<{V}3> <{SKOS}prefLabel> "Kit"@en .
<{V}3> <{DEPRECATED}> "true" .
<{V}3> <{REPLACED}> <{V}1> .
<{V}4> <{SKOS}prefLabel> "Viola"@en .
<{V}4> <{DEPRECATED}> "false" .
<{V}2> <{SKOS}narrower> <{V}4> .
<{V}s> <{TYPE}> <{SKOS}ConceptScheme> .
<{V}s> <{SKOS}prefLabel> "Instruments"@en .
"""
ENTRIES = "SELECT iri, state, replaced, note FROM entry ORDER BY iri"
LABELS = "SELECT iri, kind, tag, text FROM label JOIN entry ON entry.id = label.entry ORDER BY iri, kind, tag, text"
ABOVE = "SELECT a.iri, b.iri FROM above JOIN entry a ON a.id = entry JOIN entry b ON b.id = above ORDER BY 1, 2"
WANTED_LABELS = [
    (f"{V}1", 0, "de-at", "Geige"),
    (f"{V}1", 0, "en", "Violin"),
    (f"{V}1", 1, "en", "Fiddle"),
    (f"{V}2", 0, "", "Strings"),
    (f"{V}3", 0, "en", "Kit"),
    (f"{V}4", 0, "en", "Viola"),
]


@pytest.fixture
def store(tmp_path: Path) -> Path:
    """Where a store is: the tool doesn't read it."""
    return tmp_path / "museum.db"


def load(store: Path, name: str, data: str | bytes, *words: str) -> Ended:
    """Loads a dump."""
    path = store.parent / name
    path.write_bytes(data.encode() if isinstance(data, str) else data)
    return tool("load-vocabulary", path, "--db", store, "--name", "V", *words)


def ask(store: Path, query: str) -> list[tuple[Any, ...]]:
    with closing(sqlite3.connect(vocabularies_of(store))) as rows:
        return rows.execute(query).fetchall()


@pytest.mark.parametrize("name", ["dump.nt", "dump.nq", "dump.nt.gz"])
def test_a_dump_by_lines(store: Path, name: str) -> None:
    ran = load(store, name, gzip.compress(LINES.encode()) if name.endswith(".gz") else LINES)
    assert ran.status == 0 and b"V: 4 concepts with 6 labels; 0 lines can't be read" in ran.err, ran.err
    assert ask(store, LABELS) == WANTED_LABELS
    assert ask(store, ENTRIES) == [
        (f"{V}1", 0, None, "Bowed."),
        (f"{V}2", 0, None, ""),
        (f"{V}3", 1, f"{V}1", ""),
        (f"{V}4", 0, None, ""),
    ]
    assert ask(store, ABOVE) == [(f"{V}1", f"{V}2"), (f"{V}4", f"{V}2")]


@pytest.mark.needs("rdflib")
def test_another_form_of_rdf(store: Path) -> None:
    turtle = f'@prefix skos: <{SKOS}> .\n<{V}1> skos:prefLabel "Violin"@en ; skos:broader <{V}2> .\n'
    assert load(store, "dump.ttl", turtle + f'<{V}2> skos:prefLabel "Strings" .').status == 0
    assert ask(store, LABELS) == [(f"{V}1", 0, "en", "Violin"), (f"{V}2", 0, "", "Strings")]
    assert ask(store, ABOVE) == [(f"{V}1", f"{V}2")]


def test_labels_that_are_resources_come_in_any_order(store: Path) -> None:
    lines = f"""<{V}x> <{XL}literalForm> "Violin"@en .
<{V}1> <{XL}prefLabel> <{V}x> .
<{V}1> <{XL}altLabel> _:b .
_:b <{XL}literalForm> "Fiddle"@en .
"""
    assert load(store, "dump.nt", lines).status == 0
    assert ask(store, LABELS) == [(f"{V}1", 0, "en", "Violin"), (f"{V}1", 1, "en", "Fiddle")]


def test_a_table_by_its_headings(store: Path) -> None:
    table = f"label,iri,lang,broader,colour\nViolin,{V}1,en,{V}2,red\nFiddle,{V}1,en,,\n\nGeige,{V}1,de,,\n"
    ran = load(store, "dump.csv", f"{table},{V}5,en,,\nStrings,{V}2,,,\n")
    assert b"V: 2 concepts with 4 labels; 1 lines can't be read" in ran.err, ran.err
    assert ask(store, LABELS) == [
        (f"{V}1", 0, "de", "Geige"),
        (f"{V}1", 0, "en", "Violin"),
        (f"{V}1", 1, "en", "Fiddle"),
        (f"{V}2", 0, "", "Strings"),
    ]
    assert ask(store, ABOVE) == [(f"{V}1", f"{V}2")]
    assert ask(store, "SELECT line FROM bad_line") == [(6,)]


def test_lines_that_cannot_be_read_are_counted_and_kept(store: Path) -> None:
    bad = [f'<{V}9> <{SKOS}prefLabel> "no end .'] * 101 + ["no triple at all", f'<{V}9> <{SKOS}prefLabel> "\\ud800" .']
    ran = load(
        store, "dump.nt", LINES.encode() + "\n".join(bad).encode() + b"\n<a> <" + SKOS.encode() + b"\xff> <b> .\n"
    )
    assert ran.status == 0 and b"4 concepts with 6 labels; 104 lines can't be read" in ran.err, ran.err
    assert b"dump.nt:17: not read: <http://vocab.example/9>" in ran.err
    assert ask(store, "SELECT bad FROM vocabulary") == [(104,)]
    assert ask(store, "SELECT count(*), min(line) FROM bad_line") == [(100, 17)]


@pytest.mark.parametrize(
    ("name", "data", "status", "said"),
    [
        ("dump.txt", "x", 2, b"its name ends with none of"),
        ("dump.nt", "nothing\n", 3, b"it has no labels of concepts (1 lines can't be read)"),
        ("dump.nt.gz", gzip.compress(LINES.encode())[:-9], 1, b"cut short, or damaged"),
        ("dump.csv", "address,term\na,b\n", 1, b"names no columns iri and label"),
    ],
    ids=["another ending", "no labels", "cut short", "other columns"],
)
def test_what_is_no_dump_leaves_the_one_before(
    store: Path, name: str, data: str | bytes, status: int, said: bytes
) -> None:
    assert load(store, "first.nt", LINES).status == 0
    ran = load(store, name, data)
    assert ran.status == status and said in ran.err, ran.err
    assert ask(store, LABELS) == WANTED_LABELS
    assert ask(store, "SELECT file FROM vocabulary") == [("first.nt",)]


def test_a_newer_dump_keeps_the_numbers_of_entries(store: Path) -> None:
    load(store, "first.nt", LINES)
    before = {it: number for it, number in ask(store, "SELECT iri, id FROM entry")}
    newer = f'<{V}1> <{SKOS}prefLabel> "Violins"@en .\n<{V}7> <{SKOS}prefLabel> "Erhu"@en .\n'
    assert load(store, "second.nt", newer).status == 0
    after = {it: number for it, number in ask(store, "SELECT iri, id FROM entry")}
    assert {it: after[it] for it in before} == before and after[f"{V}7"] not in before.values()
    assert ask(store, ENTRIES) == [
        (f"{V}{it}", state, None, "") for it, state in ((1, 0), (2, 2), (3, 2), (4, 2), (7, 0))
    ]
    assert ask(store, LABELS) == [(f"{V}1", 0, "en", "Violins"), (f"{V}7", 0, "en", "Erhu")]
    assert ask(store, "SELECT entries, labels FROM vocabulary") == [(2, 2)]
    found = ask(
        store,
        "SELECT label.text FROM label_words JOIN label ON label.id = label_words.rowid WHERE label_words MATCH 'erhu'",
    )
    assert found == [("Erhu",)]


def test_two_vocabularies_and_one_that_is_removed(store: Path) -> None:
    load(store, "dump.nt", LINES)
    other = store.parent / "other.csv"
    other.write_text(f"iri,label\n{V}1,Violin\n", encoding="utf-8")
    assert tool("load-vocabulary", other, "--db", store, "--name", "W").status == 0
    assert ask(store, "SELECT name, entries FROM vocabulary ORDER BY name") == [("V", 4), ("W", 1)]
    assert tool("load-vocabulary", "--remove", "V", "--db", store).status == 0
    assert ask(store, LABELS) == [(f"{V}1", 0, "", "Violin")]
    assert tool("load-vocabulary", "--remove", "V", "--db", store).status == 2


def test_another_file_in_its_place_is_refused(store: Path) -> None:
    with closing(sqlite3.connect(vocabularies_of(store))) as rows:
        rows.execute("CREATE TABLE mine (it)")
    ran = load(store, "dump.nt", LINES)
    assert ran.status == 2 and b"delete it, and load them again" in ran.err
    assert ask(store, "SELECT name FROM sqlite_schema") == [("mine",)]


# Words that agree but for their endings, and words that don't.
ALIKE = {
    "en": "glove gloves, knife knives, leaf leaves, box boxes, axe axes, vase vases, bus buses, church churches, glass "
    "glasses, house houses, berry berries, movie movies, key keys, tie ties, fly flies, eye eyes, roof roofs, "
    "woman women, child children",
    "de": "Geige Geigen, Haus Häuser, Stuhl Stühle, Bild Bilder, Uhr Uhren, Sofa Sofas, Rose Rosen",
    "fr": "violon violons, cheval chevaux, tableau tableaux, bijou bijoux",
}
OTHER = {"en": "glas glass, this thesis, cat car", "de": "Uhr Ohr, Geige Geiz", "fr": "gris gros, corps cor"}


def pairs(texts: dict[str, str]) -> list[tuple[str, str, str]]:
    return [(tag, *it.split()) for tag, them in texts.items() for it in them.split(", ")]  # type: ignore[misc]


@pytest.mark.parametrize(("tag", "one", "other"), pairs(ALIKE))
def test_a_plural_has_the_stem_of_its_singular(tag: str, one: str, other: str) -> None:
    assert stems_of(fold(one), tag) == stems_of(fold(other), tag)


@pytest.mark.parametrize(("tag", "one", "other"), pairs(OTHER))
def test_other_words_have_other_stems(tag: str, one: str, other: str) -> None:
    assert stems_of(fold(one), tag) != stems_of(fold(other), tag)


def test_the_order_of_words_brackets_and_small_words_do_not_count() -> None:
    assert stems_of("guitars, electric", "en") == stems_of("electric guitar (instrument)", "en") == "electric guitar"
    assert stems_of("history of the violin", "en") == stems_of("violin history", "en")
    assert stems_of("(the)", "en") == "the", "a label of small words alone has them"


# --- forms that other programs read ---

TURTLE = (
    f"""@prefix skos: <{SKOS}> .
@prefix v: <{V}> .
@base <{V}> .
v:1 a skos:Concept ; skos:prefLabel "Violin"@en , "Geige"@de-AT ; skos:altLabel "Fiddle"@en ;
  skos:broader <2> ; skos:scopeNote """
    + """\"\"\"Bowed.\"\"\"@en .
v:2 skos:prefLabel "Strings" ; skos:narrower v:4 .
v:3 skos:prefLabel "Kit"@en ; <http://www.w3.org/2002/07/owl#deprecated> true ;
  <http://purl.org/dc/terms/isReplacedBy> v:1 .
v:4 skos:prefLabel "Viola"@en ; <http://www.w3.org/2002/07/owl#deprecated> false .
v:s a skos:ConceptScheme ; skos:prefLabel "Instruments"@en .
"""
)
RDF_XML = f"""<?xml version="1.0"?>
<rdf:RDF xmlns:rdf="http://www.w3.org/1999/02/22-rdf-syntax-ns#" xmlns:skos="{SKOS}" xml:base="{V}"
  xmlns:owl="http://www.w3.org/2002/07/owl#" xmlns:dct="http://purl.org/dc/terms/">
<skos:Concept rdf:about="1"><skos:prefLabel xml:lang="en">Violin</skos:prefLabel>
<skos:prefLabel xml:lang="de-AT">Geige</skos:prefLabel><skos:altLabel xml:lang="en">Fi&#100;dle</skos:altLabel>
<skos:broader rdf:resource="2"/><skos:scopeNote xml:lang="en">Bowed.</skos:scopeNote></skos:Concept>
<skos:Concept rdf:about="2"><skos:prefLabel>Strings</skos:prefLabel><skos:narrower rdf:resource="4"/></skos:Concept>
<skos:Concept rdf:about="3"><skos:prefLabel xml:lang="en">Kit</skos:prefLabel><owl:deprecated>true</owl:deprecated>
<dct:isReplacedBy rdf:resource="1"/></skos:Concept>
<skos:Concept rdf:about="4"><skos:prefLabel xml:lang="en">Viola</skos:prefLabel>
<owl:deprecated>false</owl:deprecated></skos:Concept>
<skos:ConceptScheme rdf:about="s"><skos:prefLabel xml:lang="en">Instruments</skos:prefLabel></skos:ConceptScheme>
</rdf:RDF>
"""
# A document without its end, by the end of its name, with what is said of it.
CUT = {
    "ttl": (TURTLE[: TURTLE.index("Kit")].encode(), b"dump.ttl:7:"),
    "rdf": (RDF_XML[: RDF_XML.index("Kit")].encode(), b"dump.rdf: XML parser error"),
}
# Runs the tool with lower bounds, and without the other programs.
BOUNDED = """
import os, runpy, sys
del sys.argv[0]
sys.path.insert(0, os.path.dirname(sys.argv[0]))
from thesaurus_tools import rdf_files, rdf_streams
rdf_files.MOST_BYTES, rdf_streams.MOST_BYTES, os.environ["PATH"] = %s
runpy.run_path(sys.argv[0], run_name="__main__")
"""


@pytest.mark.needs("rapper", "serdi")
@pytest.mark.parametrize("name", ["dump.ttl", "dump.ttl.gz", "dump.rdf", "dump.rdf.gz"])
def test_a_dump_that_another_program_reads(store: Path, name: str) -> None:
    text = "\ufeff" + (TURTLE if ".ttl" in name else RDF_XML)
    ran = load(store, name, gzip.compress(text.encode()) if name.endswith(".gz") else text)
    assert ran.status == 0 and b"V: 4 concepts with 6 labels; 0 lines can't be read" in ran.err, ran.err
    assert ask(store, LABELS) == WANTED_LABELS
    assert ask(store, ENTRIES) == [
        (f"{V}1", 0, None, "Bowed."),
        (f"{V}2", 0, None, ""),
        (f"{V}3", 1, f"{V}1", ""),
        (f"{V}4", 0, None, ""),
    ]
    assert ask(store, ABOVE) == [(f"{V}1", f"{V}2"), (f"{V}4", f"{V}2")]


@pytest.mark.needs("rapper", "serdi")
@pytest.mark.parametrize("ending", CUT)
def test_a_dump_without_its_end_leaves_the_one_before(store: Path, ending: str) -> None:
    assert load(store, "first.nt", LINES).status == 0
    data, said = CUT[ending]
    for name, sent in ((f"dump.{ending}", data), (f"dump.{ending}.gz", gzip.compress(data)[:-9])):
        ran = load(store, name, sent)
        assert ran.status == 1 and (said if name.endswith(ending) else b"cut short, or damaged") in ran.err, ran.err
        assert ask(store, LABELS) == WANTED_LABELS


@pytest.mark.needs("rapper")
def test_other_files_that_rdf_xml_names_are_not_read(store: Path, tmp_path: Path) -> None:
    (tmp_path / "secret").write_text("geheim", encoding="utf-8")
    entity = f'<!DOCTYPE rdf:RDF [<!ENTITY secret SYSTEM "{(tmp_path / "secret").as_uri()}">]>\n<rdf:RDF'
    load(store, "dump.rdf", RDF_XML.replace("<rdf:RDF", entity, 1).replace(">Kit<", ">Kit&secret;<"))
    assert "geheim" not in str(ask(store, LABELS) if vocabularies_of(store).exists() else "")


def bounded(store: Path, name: str, text: str, bounds: str) -> tuple[int, str]:
    """Loads a dump within lower bounds; returns the exit status, and what is said."""
    path = store.parent / name
    path.write_text(text, encoding="utf-8")
    words = [sys.executable, "-c", BOUNDED % bounds, TOOLS / "load-vocabulary", path, "--db", store, "--name", "V"]
    ran = subprocess.run([*map(str, words)], capture_output=True, text=True, check=False)
    return ran.returncode, ran.stderr


@pytest.mark.needs("rdflib")
@pytest.mark.parametrize(("name", "package"), [("dump.ttl", "serdi"), ("dump.rdf", "raptor2-utils"), ("dump.n3", "")])
def test_what_is_too_large_for_rdflib_names_the_program(store: Path, name: str, package: str) -> None:
    text = RDF_XML if name.endswith("rdf") else TURTLE
    status, said = bounded(store, name, text, '100, 1 << 20, "/nowhere"')
    assert status == 2 and (f"of Debian's {package}, reads larger ones" in said if package else "rapper" in said), said
    assert bounded(store, name, text, '1 << 20, 1 << 20, "/nowhere"')[0] == 0


@pytest.mark.needs("rapper", "serdi")
@pytest.mark.parametrize("name", ["dump.ttl", "dump.rdf", "dump.nt"])
def test_what_is_too_large_for_all(store: Path, name: str) -> None:
    text = {"ttl": TURTLE, "rdf": RDF_XML}.get(name[-3:], LINES)
    limit = 'os.environ["PATH"]; import thesaurus_tools.vocabulary_dumps as it; it.MOST_BYTES = 100'
    status, said = bounded(store, name, text, f"1 << 20, 100, {limit}")
    assert status == 2 and "more than 2 gigabytes" in said, said
