"""tools/number-postings: a posting file with old codes, old IRIs, terms or names of a script becomes one that the
program imports whole, also again after a merge; and names that no concept has, or several, are reported before anything
is written."""
from __future__ import annotations

import shutil
from collections.abc import Iterable, Sequence
from pathlib import Path

import pytest
from office import Request, tool
from program import Ended, built, lines_of, over, values_of
from serving import serving

OLD = "http://old.example/"
CONCEPTS = {2: ("Strings", "s"), 3: ("Violins", "v"), 4: ("Fiddles", "f"), 5: ("Harps", "h"), 6: ("Zithers", "z")}
STORE: list[Request] = [
    {"do": "scheme", "tag": "en", "text": "Instruments"},
    *({"do": "concept", "scheme": 1, "tag": "en", "text": term} for term, _ in CONCEPTS.values()),
    *(
        {"do": "addLabel", "owner": n, "kind": "hidden", "tag": "zxx", "text": code}
        for n, (_, code) in CONCEPTS.items()
    ),
    *({"do": "outside", "iri": f"{OLD}{code}"} for _, code in CONCEPTS.values()),
    *({"do": "link", "kind": "exact", "a": n, "b": n + 5} for n in CONCEPTS),
    {"do": "scheme", "tag": "en", "text": "Shapes"},
    {"do": "concept", "scheme": 12, "tag": "en", "text": "Rounds"},
    {"do": "addLabel", "owner": 13, "kind": "hidden", "tag": "zxx", "text": "h"},
    # (a code that is another concept's term is the code)
    {"do": "addLabel", "owner": 2, "kind": "hidden", "tag": "zxx", "text": "Rounds"},
    {"do": "deprecate", "concept": 6},
]
RECORDS = [
    ("p-1", "Violin, Absam 1668", 3),
    ("p-2", 'Fiddle, "Dalarna"', 4),
    ("p-3", " Lyre, found ", 2),
    ("p-4", "Fiddle, Telemark", 4),
]
# The ways to name a concept, each with what is between the cells.
WRITTEN = {"codes": ",", "IRIs": ";", "IRIs in brackets": "\t", "terms": "\t"}
MERGES = [{"do": "merge", "source": 4, "target": 3}, {"do": "merge", "source": 3, "target": 2}]


def name_of(number: int, way: str) -> str:
    """The name of a concept in one of the ways."""
    term, code = CONCEPTS[number]
    return {"codes": code, "IRIs": f"{OLD}{code}", "IRIs in brackets": f" <{OLD}{code}> ", "terms": term}[way]


def cell(text: str) -> str:
    return '"' + text.replace('"', '""') + '"' if set(text) & set(' ",;') else text


def file_of(
    path: Path, rows: Iterable[Sequence[str]], comma: str = ",", heading: Sequence[str] = ("key", "record", "concept")
) -> Path:
    """Writes a table, and returns its path."""
    path.write_text("".join(comma.join(map(cell, row)) + "\n" for row in (heading, *rows)), encoding="utf-8")
    return path


@pytest.fixture(scope="module")
def made(shared_room: Path) -> Path:
    """The store, which is only copied."""
    path = shared_room / "made.db"
    answers = values_of(over(path, "script", lines_of(STORE)).out)
    assert not any("no" in it or "bad" in it for it in answers), answers
    return path


@pytest.fixture
def store(made: Path, room: Path) -> Path:
    return Path(shutil.copy(made, room / "store.db"))


def assert_end(ended: Ended, status: int, out: bytes | None, *said: str) -> None:
    """Asserts how the tool ends, what it prints, unless that is None, and parts of what it says."""
    assert ended.status == status and (out is None or ended.out == out), ended
    assert all(it.encode() in ended.err for it in said) and b"Traceback" not in ended.err, ended


# --- ways to name a concept ---

NUMBERED = ("key,record,concept\n" + "".join(f"{key},{cell(record)},{n}\n" for key, record, n in RECORDS)).encode()


def rows_by(way: str) -> list[tuple[str, str, str]]:
    return [(key, record, name_of(n, way)) for key, record, n in RECORDS]


@pytest.mark.parametrize("way", WRITTEN)
def test_each_way_gives_the_same_file(way: str, store: Path, room: Path) -> None:
    file = file_of(room / "way.csv", rows_by(way), WRITTEN[way])
    assert_end(tool("number-postings", file, "--db", store, "--terms", "EN"), 0, NUMBERED)


@pytest.mark.parametrize("encoding", ["utf-8-sig", "utf-16"])
def test_each_encoding_gives_the_same_file(encoding: str, store: Path, room: Path) -> None:
    file = file_of(room / "codes.csv", rows_by("codes"), ";")
    file.write_bytes(file.read_text(encoding="utf-8").encode(encoding))
    assert_end(tool("number-postings", file, "--db", store), 0, NUMBERED)


@pytest.mark.needs("openpyxl")
def test_workbook_of_excel_gives_the_same_file(store: Path, room: Path) -> None:
    import openpyxl

    book = openpyxl.Workbook()
    for row in (("key", "record", "concept"), *rows_by("IRIs")):
        book.active.append(row)
    book.save(room / "book.xlsx")
    rows = NUMBERED.replace(b'" Lyre, found "', b'"Lyre, found"')  # (cells of a workbook have no spaces at their ends)
    assert_end(tool("number-postings", room / "book.xlsx", "--db", store), 0, rows)


@pytest.mark.needs("odf")
def test_open_document_gives_the_same_file(store: Path, room: Path) -> None:
    from odf import opendocument, table, text

    book, page = opendocument.OpenDocumentSpreadsheet(), table.Table(name="Postings")
    for row in (("key", "record", "concept"), *rows_by("terms")):
        line = table.TableRow()
        for it in row:
            place = table.TableCell()
            place.addElement(text.P(text=it))
            line.addElement(place)
        page.addElement(line)
    book.spreadsheet.addElement(page)
    book.save(room / "book.ods")
    rows = NUMBERED.replace(b'" Lyre, found "', b'"Lyre, found"')
    assert_end(tool("number-postings", room / "book.ods", "--db", store, "--terms", "en"), 0, rows)


def test_names_of_a_script(room: Path) -> None:
    script, journal, names = room / "named.jsonl", room / "named.journal", room / "names.csv"
    scheme = {"as": "scheme", "do": "scheme", "tag": "en", "text": "Instruments"}
    concept = {"do": "concept", "scheme": "$scheme", "tag": "en"}
    script.write_bytes(lines_of([scheme, *({"as": code, "text": term, **concept} for term, code in CONCEPTS.values())]))
    words = [script, "--program", built(), "--db", room / "named.db", "--journal", journal]
    tool("load", *words)
    tool("load", *words, "--names", names)
    file = file_of(room / "names-in.csv", rows_by("codes"))
    assert_end(tool("number-postings", file, "--names", names), 0, NUMBERED)


def test_store_that_is_served(store: Path, room: Path) -> None:
    file = file_of(room / "codes.csv", rows_by("codes"))
    with serving(store, 1000) as served:
        ended = tool("number-postings", file, "--http", f"http://127.0.0.1:{served.port}")
    assert_end(ended, 0, NUMBERED)


# --- rows without keys ---


def outcomes(store: Path, rows: list[tuple[str, str]], room: Path) -> list[str]:
    """Numbers rows without keys, imports what is printed, and returns the outcome of each."""
    file, numbered = file_of(room / "keyless.csv", rows, heading=("record", "concept")), room / "numbered.csv"
    ended = tool("number-postings", file, "--db", store)
    assert not ended.status, ended
    assert len({it.split(b",")[0] for it in ended.out.splitlines()}) == len(rows) + 1, "a key twice"
    numbered.write_bytes(ended.out)
    return [it.split(b",")[1].decode() for it in over(store, "import", after=[numbered]).out.splitlines()[1:]]


def test_rows_without_keys_count_once(store: Path, room: Path) -> None:
    """Also in longer files after two merges, by codes and by IRIs, which a merge moves to its target."""
    for way in ("codes", "IRIs"):
        assert outcomes(store, [(record, name_of(n, way)) for _, record, n in RECORDS], room) == ["new"] * 4
    over(store, "script", lines_of(MERGES))
    for way in ("codes", "IRIs"):
        first, last = ("Another fiddle", name_of(4, way)), ("A third violin", name_of(3, way))
        longer = [first, *((record, name_of(n, way)) for _, record, n in RECORDS), last]
        assert outcomes(store, longer, room) == ["new", *["again"] * 4, "new"]
    shown = values_of(over(store, "script", lines_of([{"get": "postings", "concept": 2}])).out)[0]
    assert len(shown["postings"]) == 12


# --- what isn't found ---

NAMES = ("s", "h", "nowhere", "z", "", "nowhere", "Rounds")
FINDINGS = (
    "findings.csv:3: h: the concepts 5, 13 have it",
    "findings.csv:4: nowhere: no concept has it (and 1 further rows)",
    "findings.csv:5: z: only deprecated concepts have it",
    "findings.csv:6: no concept: no concept has it",
)


@pytest.fixture
def findings(room: Path) -> Path:
    """A file with names that no concept has, or several."""
    rows = [("abcdefg"[it], "ABCDEFG"[it], name) for it, name in enumerate(NAMES)]
    return file_of(room / "findings.csv", rows)


def test_findings_are_reported_and_nothing_is_written(findings: Path, store: Path, room: Path) -> None:
    ended = tool("number-postings", findings, "--db", store, "-o", room / "out.csv")
    assert_end(ended, 1, b"", *(f"{room}/{it}" for it in FINDINGS), "5 rows have no concept")
    assert not (room / "out.csv").exists()


def test_findings_are_left_out_with_drop(findings: Path, store: Path, room: Path) -> None:
    ended = tool("number-postings", findings, "--db", store, "--drop", "--terms", "en")
    kept = b"key,record,concept\na,A,2\ng,G,2\n"
    assert_end(ended, 0, kept, *(f"{room}/{it}" for it in FINDINGS), "5 rows are left out")


def test_scheme_decides_between_two_concepts(findings: Path, store: Path) -> None:
    ended = tool("number-postings", findings, "--db", store, "--drop", "--scheme", 1)
    assert_end(ended, 0, b"key,record,concept\na,A,2\nb,B,5\ng,G,2\n", "4 rows are left out")


@pytest.mark.parametrize(
    ("words", "said"),
    [([], ["no9: ", "and 20 more names; --all lists them"]), (["--all"], ["no29: "])],
    ids=["ten", "all"],
)
def test_many_findings(words: list[str], said: list[str], store: Path, room: Path) -> None:
    file = file_of(room / "many.csv", [(f"k{n}", "R", f"no{n}") for n in range(30)])
    assert_end(tool("number-postings", file, "--db", store, *words), 1, b"", *said)


def test_other_columns_are_left_out(store: Path, room: Path) -> None:
    file = file_of(room / "wide.csv", [("x", "2", "s", "A")], heading=("note", "room", "concept", "record"))
    assert_end(tool("number-postings", file, "--db", store), 0, None, "columns left out: note, room")


# --- what is refused ---

# Files, the status that is wanted, and a part of what is said.
WRONG: dict[str, tuple[bytes | None, int, str]] = {
    "no column": (b"key,name,concept\n", 1, ":1: no single column record"),
    "a column twice": (b"record,concept,concept\n", 1, ":1: no single column concept"),
    "no file": (None, 3, "No such file"),
    "an empty file": (b"", 1, ":1: no single column record"),
    "no UTF-8": (b"record,concept\n\xff,s\n", 1, ":2: no UTF-8"),
    "too many values": (b"record,concept\na,s,more\n", 1, ":2: more values than columns"),
    "a quote that is open": (b'record,concept\n"a,s\n', 1, ": unexpected end of data"),
}


@pytest.mark.parametrize("what", WRONG)
def test_wrong_file(what: str, store: Path, room: Path) -> None:
    data, status, said = WRONG[what]
    file = room / "wrong.csv"
    if data is not None:
        file.write_bytes(data)
    assert_end(tool("number-postings", file, "--db", store), status, b"", f"number-postings: {file}", said)


@pytest.mark.parametrize(
    ("option", "status", "said"),
    [
        ("", 2, "one of --names, --db and --http"),
        ("--names", 1, "not a file that tools/load --names wrote"),
        ("--db", 3, "not the store of a thesaurus"),
    ],
    ids=["no source", "no names", "no store"],
)
def test_wrong_source(option: str, status: int, said: str, room: Path) -> None:
    file = file_of(room / "codes.csv", rows_by("codes"))
    assert_end(tool("number-postings", file, *([option, file] if option else [])), status, b"", said)


def test_output_that_is_a_folder(store: Path, room: Path) -> None:
    file = file_of(room / "codes.csv", rows_by("codes"))
    assert_end(tool("number-postings", file, "--db", store, "-o", room), 3, None, "Is a directory")
