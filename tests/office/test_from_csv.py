"""tools/from-csv: a table with commas and the same with tabs make one thesaurus, and each fault of a table is reported
with its row."""
from __future__ import annotations

from pathlib import Path

import pytest
from office import tool
from program import Ended, built, over

WORDS = ("--scheme", "Instruments", "--lang", "en")
ROWS = [
    ["id", "pref", "pref@fr", "alt@en", "hidden@en", "scope@en", "broader", "broaderPartitive", "related", "exact"],
    ["s", "Strings", "", "", "", 'For all, with "strings".', "", "", "", ""],
    [
        "v",
        "Violins",
        "Violons",
        "Fiddles|Folk fiddles",
        "Violin",
        "",
        "s",
        "",
        "h",
        "http://www.wikidata.org/entity/Q8355",
    ],
    ["", "", "", "", "", "", "", "", "", ""],
    ["b", "Bows", "", "", "", "Two lines\nhere.", "", "Violins", "", ""],
    ["h", "Harps", "Harpes", "", "", "", "s", "", "v|b", "http://www.wikidata.org/entity/Q34379|http://old.example/h"],
]
TREE = "Strings\n  Harps\n  Violins\n    Bows (P)\n"
TERMS = """Bows
  SN Two lines here.
  BTP Violins
  RT Harps
Fiddles
  USE Violins
Folk fiddles
  USE Violins
Harps
  BT Strings
  RT Bows
  RT Violins
Strings
  SN For all, with "strings".
  NT Harps
  NT Violins
Violins
  UF Fiddles
  UF Folk fiddles
  BT Strings
  NTP Bows
  RT Harps
"""
HEAD = "id,pref@en,alt@en,broader,related,exact,colour\n"
# Rows of a table, and what is reported of them.
FOUND = {
    "a,A,,,,,x\n": "lost: {file}:2: a: column colour: 'x'",
    "a,A,,,,,\na,B,,,,,\n": "id: {file}:3: 'a' is the id of another row",
    ",,A,,,,\n": "id: {file}:2: the row has no id, or several",
    "a|b,A,,,,,\n": "id: {file}:2: the row has no id, or several",
    "a,A,,,,,\n\n\nb,A,,,,,\n": "P1: {file}:5: b: the preferred label 'A'@en is that of a; the concept is left out",
    "a,A|B,,,,,\n": "S14: {file}:2: a: pref label 'B'@en is a second preferred label in its language",
    "a,A,A,,,,\n": "S13: {file}:2: a: alt label 'A'@en is a label of another kind already",
    "a,,A,,,,\n": "NoLabel: {file}:2: a: the concept has no preferred label",
    "a,A,,b,,,\nb,B,,a,,,\n": "Cycle: {file}:3: b: broader a, which closes the ring a < b",
    "a,A,,b,b,,\nb,B,,,,,\n": "S27: {file}:2: a: related b",
    "a,A,,z,,,\n": "UnknownResource: {file}:2: a: broader z",
    "a,A,,a,,,\n": "SameResource: {file}:2: a: broader a",
    "a,A,,,,no IRI,\n": "BadIri: {file}:2: a: exact no IRI",
    "a," + "A" * 257 + ",,,,,\n": "BadText: {file}:2: a: pref label",
}
# Files that are no table, and what is reported.
NO_TABLE: dict[bytes, str] = {
    b"": ":1: no row with the names",
    b"id,name\n1,x\n": ":1: no column pref@TAG",
    b"id,pref@en,id\n": ":1: two columns have one name",
    b"id,pref@en\na,A,more\n": ":2: more values than columns",
    b'id,pref@en\na,"A\n': ": unexpected end of data",
    b"id,pref@en\na,A\nb,\xe9\n": ":3: no UTF-8",
}


# The same table with commas, with tabs, with semicolons, and with a mark of the byte order and CR LF.
WRITTEN = {
    "commas": (",", "\n", ""),
    "tabs": ("\t", "\n", ""),
    "semicolons": (";", "\n", ""),
    "as Excel does": (",", "\r\n", "\ufeff"),
}


def from_csv(file: Path, *words: str) -> tuple[int, bytes, list[str]]:
    """Runs the tool, and returns its status, the script and the lines of its report."""
    ended = tool("from-csv", file, *(words or WORDS))
    return ended.status, ended.out, ended.err.decode().splitlines()


def load(path: Path, script: bytes) -> Ended:
    return tool("load", "--program", built(), "--db", path, "-", given=script)


def cell(text: str, comma: str) -> str:
    """A cell as a spreadsheet writes it."""
    return '"' + text.replace('"', '""') + '"' if set(text) & {comma, '"', "\n"} else text


def script_of(room: Path, name: str) -> bytes:
    """The script of the table that is written in this way."""
    comma, end, first = WRITTEN[name]
    file = room / f"{name}.csv"
    rows = [comma.join(cell(it, comma) for it in row) + end for row in ROWS]
    file.write_text(first + "".join(rows), encoding="utf-8", newline="")
    status, script, told = from_csv(file, *WORDS, "--texts", "trim", "--hidden-codes", "zxx")
    assert (status, told) == (0, ["from-csv: 1 texts were trimmed or cut"])
    return script


@pytest.mark.parametrize("name", WRITTEN)
def test_table_makes_the_same_script_however_it_is_written(name: str, room: Path) -> None:
    assert script_of(room, name) == script_of(room, "commas")


def test_table_makes_the_thesaurus_that_is_meant(room: Path) -> None:
    path, after = room / "table.db", ["--scheme", "1", "--lang", "en"]
    ended = load(path, script_of(room, "commas"))
    assert not ended.status, ended.err
    assert over(path, "hierarchical", after=after).out.decode() == TREE
    assert over(path, "alphabetical", after=after).out.decode() == TERMS
    assert over(path, "check").out.split()[1:4] == [b"resources=8", b"labels=16", b"links=8"]


@pytest.mark.parametrize("rows", FOUND, ids=[f"{n}-{it.split(':')[0]}" for n, it in enumerate(FOUND.values())])
def test_fault_is_reported_with_its_row_and_left_out_with_drop(rows: str, room: Path) -> None:
    file = room / "found.csv"
    # (a last row is right, since a thesaurus without concepts isn't written)
    file.write_text(f"{HEAD}{rows}last,Last,,,,,\n", encoding="utf-8")
    status, script, told = from_csv(file)
    assert (status, script) == (1, b"")
    assert told[0].startswith("from-csv: " + FOUND[rows].format(file=file))
    status, script, again = from_csv(file, *WORDS, "--drop")
    assert not status and again[:-1] == told[:-1] and script


def test_parents_tell_homonyms_apart_and_ids_that_are_iris_are_kept(room: Path) -> None:
    file, path = room / "options.csv", room / "options.db"
    file.write_text(
        "id,pref,broader\nurn:a,Bass,urn:f\nurn:b,Bass,urn:v\nurn:f,Fish,\nurn:v,Voice,\n", encoding="utf-8"
    )
    status, script, told = from_csv(file, *WORDS, "--qualify", "parent", "--keep-iris", "--hidden-codes", "zxx")
    ended = load(path, script)
    assert (status, told, ended.status) == (0, [], 0), ended.err
    shown = over(path, "alphabetical", after=["--scheme", "1", "--lang", "en"]).out.decode()
    assert shown.startswith("Bass (Fish)\n  BT Fish\nBass (Voice)\n")
    export = over(path, "export").out
    assert (export.count(b"exactMatch> <urn:"), export.count(b"@zxx")) == (4, 4)


def test_terms_are_the_ids_of_a_table_without_ids(room: Path) -> None:
    file = room / "terms.csv"
    file.write_text("pref,broader\nBass,Fish\nFish,\n", encoding="utf-8")
    status, script, told = from_csv(file)
    assert (status, told) == (0, [])
    assert script.count(b'"kind":"broader","a":"$Bass","b":"$Fish"') == 1


# Tables as people write them, of which each row is above the one that it names; and what is printed of the columns.
AS_WRITTEN = {
    "Term,Broader term,Synonyms,Wikidata\nBass viols,Viols,,Q180733\nViols,Strings,Violas da gamba,\nStrings,,,\n": [
        "column Term: pref@en", "column Broader term: broader", "column Synonyms: alt@en", "column Wikidata: exact"
    ],
    "Nummer,English,NT,Synonym (English)\n1,Strings,2,\n2,Viols,3,Violas da gamba\n3,Bass viols,,\n": [
        "column Nummer: id", "column English: pref@en", "column NT: narrower", "column Synonym (English): alt@en"
    ],
}  # fmt: skip


@pytest.mark.parametrize("text", AS_WRITTEN, ids=lambda it: it.partition(",")[0])
def test_columns_have_the_names_that_people_give_and_rows_any_order(text: str, room: Path) -> None:
    file, path = room / "written.csv", room / "written.db"
    file.write_text(text, encoding="utf-8")
    status, script, told = from_csv(file)
    assert (status, told) == (0, [f"from-csv: {it}" for it in AS_WRITTEN[text]])
    assert not load(path, script).status
    shown = over(path, "hierarchical", after=["--scheme", "1", "--lang", "en"]).out.decode()
    assert shown == "Strings\n  Viols\n    Bass viols\n"
    assert (b"/entity/Q180733>" in over(path, "export").out) == ("Wikidata" in text)


def test_what_a_column_is_taken_for_is_corrected(room: Path) -> None:
    file = room / "own.csv"
    file.write_text("Wort,Darüber\nGeigen,Streicher\nStreicher,\n", encoding="utf-8")
    status, script, told = from_csv(file, *WORDS, "--columns", "Wort=pref@de,Darüber=broader")
    assert (status, told) == (0, ["from-csv: column Wort: pref@de", "from-csv: column Darüber: broader"])
    assert script.count(b'"kind":"broader","a":"$Geigen","b":"$Streicher"') == 1


@pytest.mark.parametrize("data", NO_TABLE)
def test_file_that_is_no_table_is_reported_with_its_line(data: bytes, room: Path) -> None:
    file = room / "none.csv"
    file.write_bytes(data)
    status, script, told = from_csv(file)
    assert (status, script) == (1, b"")
    assert told[0].startswith(f"from-csv: {file}:") and NO_TABLE[data] in told[0]


def test_missing_file(room: Path) -> None:
    assert from_csv(room / "absent.csv")[0] == 3


def test_missing_option(room: Path) -> None:
    file = room / "options.csv"
    file.write_text("id,pref\na,A\n", encoding="utf-8")
    assert from_csv(file, "--lang", "en")[0] == 2
