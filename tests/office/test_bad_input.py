"""Calls each tool wrongly: with files that are missing, folders, empty or of another kind, with wrong options, over a
store in use, and with an output that is closed, full, a pipe that nobody reads, or not UTF-8. Each must say in one line
what is wrong, end with its status, and leave the files as they are."""
from __future__ import annotations

import contextlib
import hashlib
import os
import shutil
import signal
import subprocess
import sys
import time
from collections.abc import Iterator
from pathlib import Path
from typing import Any

import pytest
from office import TOOLS, export_of, generated, tool, write_store
from program import Ended, built, over

DONE, REFUSED, USAGE, FAULT = 0, 1, 2, 3
USED = "another program has it open"
NO_STORE = "not the store of a thesaurus"
TURTLE = (
    "@prefix skos: <http://www.w3.org/2004/02/skos/core#> .\n<http://old.example/a> a skos:Concept ; "
    'skos:prefLabel "Änne"@de .\n'
)
CSV = "id,broader,pref@en\n1,,Cats\n2,1,Lions\n"


def make_files(room: Path) -> str:
    """Makes the files that the tools are given, and returns the number of a concept."""
    _, plain = generated(3, 300)
    concept = next(number for number, it in enumerate(plain.resources, 1) if it["kind"] == "concept")
    write_store(room / "store.db", plain)
    (room / "store.nt").write_bytes(export_of(plain))
    (room / "folder").mkdir()
    (room / "empty").touch()
    for ending in ("nt", "ttl", "csv", "jsonl", "db", "txt"):
        (room / f"other.{ending}").write_bytes(b"\xff\x00 no such form\n" * 20)
    for name, text in (
        ("a.ttl", TURTLE),
        ("a.nt", TURTLE),
        ("a.csv", CSV),
        ("wide.csv", f"{CSV}3,,Tigers,more\n"),
        ("twice.csv", f"id,{CSV}"),
        ("quote.csv", f'{CSV}3,,"Tigers\n'),
        ("none.csv", "id,broader\n1,\n"),
        ("old.csv", "record,concept\nA jar,x\n"),
        ("broken.jsonl", '{"do":\n'),
        ("unknown.jsonl", '{"do":"addLabel","owner":"$x","kind":"alt","tag":"en","text":"x"}\n'),
    ):
        (room / name).write_text(text, encoding="utf-8")
    (room / "one line").write_text("what a user typed", encoding="utf-8")
    return str(concept)


# A tool, its words, the status that is wanted, None for a refusal, a fault or none, and a part of what it says.
Case = tuple[str, list[str], int | None, str]


def reading(
    tool_name: str, words: list[str], place: int, missing: str = "No such file", other: str = NO_STORE
) -> Iterator[Case]:
    """The cases of a tool that reads a file, whose name stands at a place of the words."""
    for name, status, text in (
        ("missing", FAULT, missing),
        ("folder", FAULT, "Is a directory"),
        ("other.db", None, other),
        ("empty", None, ""),
    ):
        yield tool_name, [*words[:place], name, *words[place:]], status, text


def cases() -> Iterator[Case]:
    yield from reading("from-skos", ["--form", "nt"], 2, other="other.db:1: no UTF-8")
    yield "from-skos", ["other.ttl"], REFUSED, "utf-8"
    yield "from-skos", ["a.ttl"], REFUSED, "NoScheme 1"
    yield "from-skos", ["other.txt"], USAGE, "--form says what it is"
    yield "from-skos", ["a.nt"], REFUSED, "a.nt:1: no triple of N-Triples"
    yield "from-skos", ["a.ttl", "--form", "rdf"], USAGE, "invalid choice"
    yield "from-skos", ["a.ttl", "--scheme", "X"], USAGE, "--scheme needs --lang"
    yield "from-skos", ["store.nt", "--lang", "en", "--drop", "-o", "folder"], FAULT, "folder: Is a directory"
    yield from reading(
        "from-csv", ["--scheme", "X", "--lang", "en"], 0, other="other.db:1: no UTF-8; save the table as UTF-8"
    )
    yield "from-csv", ["a.csv"], USAGE, "--scheme and --lang are needed"
    yield "from-csv", ["a.csv", "--scheme", "X", "--lang", "not a tag"], REFUSED, "BadTag"
    yield "from-csv", ["wide.csv", "--scheme", "X", "--lang", "en"], REFUSED, "wide.csv:4: more values than columns"
    yield "from-csv", ["twice.csv", "--scheme", "X", "--lang", "en"], REFUSED, "twice.csv:1: two columns have one name"
    yield "from-csv", ["quote.csv", "--scheme", "X", "--lang", "en"], REFUSED, "quote.csv:"
    yield "from-csv", ["none.csv", "--scheme", "X", "--lang", "en"], REFUSED, "no column pref@TAG"
    yield from reading("number-postings", ["--db", "store.db"], 0, other="other.db:1: no UTF-8")
    yield from reading("number-postings", ["old.csv", "--db"], 2)
    yield from reading("number-postings", ["old.csv", "--names"], 2, other="other.db:1: no UTF-8")
    yield "number-postings", ["old.csv"], USAGE, "one of --names, --db and --http"
    yield "number-postings", ["old.csv", "--db", "store.db"], REFUSED, "old.csv:2: x: no concept has it"
    yield "number-postings", ["a.csv", "--db", "store.db"], REFUSED, "a.csv:1: no single column record"
    yield "number-postings", ["old.csv", "--db", "store.db", "--drop", "-o", "folder"], FAULT, "folder: Is a directory"
    yield from reading("check-skos", [], 0, other="other.db:1: no UTF-8")
    yield from reading("picture", ["2"], 0, other="other.db:1: no UTF-8")
    yield "picture", ["store.nt", "99999"], REFUSED, "nothing has the number 99999"
    yield "picture", ["store.nt", "x"], USAGE, "invalid int"
    yield "picture", ["store.nt", "2", "--depth", "-1"], USAGE, "--depth is 0 or more"
    yield from reading("site", ["out", "--langs", "en"], 0, other="other.db:1: no UTF-8")
    yield "site", ["store.nt", "folder", "--langs", "xx"], REFUSED, "no concept has a preferred label in xx"
    yield "site", ["store.nt", ".", "--langs", "en"], REFUSED, "something else than a site"
    yield "site", ["store.nt", "out", "--langs", "e n"], USAGE, "not language tags"
    for words in (["tops"], ["find", "x"], ["changed", "--since", "store.db"]):
        yield from reading("report", [*words, "--db"], len(words) + 1)
    yield from reading("report", ["--db", "store.db", "changed", "--since"], 4)
    yield "report", ["--db", "store.db"], USAGE, "REPORT"
    yield "report", ["--db", "store.db", "missing"], USAGE, "--lang"
    yield "report", ["--db", "store.db", "path", "0"], USAGE, "not a number from 1 on"
    yield "report", ["--db", "store.db", "path", "99999"], REFUSED, "nothing has the number 99999"
    yield "report", ["--http", "ftp://x", "tops"], USAGE, "no URL of a server"
    yield from reading("unmerge", ["--before", "store.nt", "2", "--db"], 4)
    yield "unmerge", ["--db", "store.db", "--before", "missing", "2"], FAULT, "No such file"
    yield "unmerge", ["--db", "store.db", "--before", "store.nt", "99999"], REFUSED, "nothing has the number 99999"
    yield from reading("repost", ["--posting", "1", "--to", "2", "--db"], 5)
    yield "repost", ["--db", "store.db", "--to", "2"], USAGE, "give --posting N"
    yield "repost", ["--db", "store.db", "--posting", "99999", "--to", "5"], None, ""
    yield "backup", ["missing", "backups"], FAULT, "missing"
    yield "backup", ["folder", "backups"], FAULT, "folder"
    yield "backup", ["store.db", "a.csv"], FAULT, "a.csv"
    yield "backup", ["store.db", "backups", "--keep", "0"], USAGE, "not 1 or more"
    yield "backup", ["store.db", "backups", "--program", "missing"], USAGE, "can't be run"
    yield "backup", ["other.db", "backups", "--program", "{program}"], REFUSED, "the copy doesn't pass the check"
    program = ["--program", "{program}"]
    yield from reading("load", ["--db", "new.db", *program], 2, other="other.db:1: no UTF-8")
    yield "load", ["other.jsonl", "--db", "new.db", *program], REFUSED, "other.jsonl:1:"
    yield "load", ["broken.jsonl", "--db", "new.db", *program], REFUSED, "broken.jsonl:1:"
    yield "load", ["unknown.jsonl", "--db", "new.db", *program], REFUSED, "no line before this one makes $x"
    yield "load", [
        "empty",
        "--db",
        "new.db",
        "--journal",
        "a.csv",
        *program,
    ], REFUSED, "a.csv:1: no record of a journal"
    yield "load", ["empty", "--db", "new.db", "--journal", "one line", *program], REFUSED, "one line: no journal"
    yield "load", ["empty", "--db", "other.db", *program], FAULT, "fault Store"
    yield "load", ["empty", "--db", "folder/missing/new.db", *program], FAULT, "fault Store"
    yield "load", ["empty", "--db", "new.db", "--base", "no base", *program], None, "BadIri"
    yield "load", ["empty"], USAGE, "one of --db and --http"
    yield "from-table", ["a.csv", "--desk", "new.db", "--perform"], USAGE, "on its own page"
    yield "load", ["empty", "--db", "new.db", "--program", "missing"], USAGE, "can't be run"
    yield "load", ["empty", "--http", "http://127.0.0.1:1"], FAULT, "no answer"
    yield "install", ["a.csv", *program], FAULT, "a.csv"
    yield "install", ["prefix", "--program", "missing"], FAULT, "missing"


CASES = list(cases())
# The call that needs a reader of Turtle.
TURTLES = ("other.ttl", "a.ttl")


def parameters() -> Iterator[Any]:
    """The cases, each with a name, and a mark if it needs a reader of Turtle."""
    for number, case in enumerate(CASES):
        marks = [pytest.mark.needs("rdflib")] * (case[1][:1] in [[it] for it in TURTLES] and "--form" not in case[1])
        yield pytest.param(case, id=f"{number}-{case[0]}", marks=marks)


# The calls that print something, for outputs that fail; $N is the number of a concept.
PRINTING = (
    ("check-skos", "store.nt"),
    ("from-skos", "store.nt", "--lang", "en", "--drop"),
    ("from-csv", "a.csv", "--scheme", "X", "--lang", "en"),
    ("picture", "store.nt", "$N"),
    ("report", "--db", "store.db", "find", "e"),
    ("report", "--db", "store.db", "counts", "--csv"),
    ("site", "store.nt", "out", "--langs", "en"),
    ("number-postings", "old.csv", "--db", "store.db", "--drop"),
)


@pytest.fixture(scope="module")
def made(shared_room: Path) -> tuple[Path, str]:
    """A folder with the files, which are only copied, and the number of a concept in its store."""
    place = shared_room / "made"
    place.mkdir()
    return place, make_files(place)


def digests(room: Path) -> dict[str, str]:
    return {it.name: hashlib.sha256(it.read_bytes()).hexdigest() for it in room.iterdir() if it.is_file()}


@pytest.fixture
def files(made: tuple[Path, str], room: Path) -> Iterator[Path]:
    """A copy of the files. After the test they must be as they were; others may be there."""
    place = shutil.copytree(made[0], room / "files")
    before = digests(place)
    yield place
    assert {name: digest for name, digest in digests(place).items() if name in before} == before


def is_clean(err: bytes) -> bool:
    """Whether a tool says what is wrong without the lines of Python."""
    return b"Traceback" not in err and b"Exception ignored" not in err


def call(files: Path, name: str, *words: str) -> Ended:
    return tool(name, *(str(built()) if it == "{program}" else it for it in words), cwd=files)


@pytest.mark.parametrize("case", parameters())
def test_wrong_call(case: Case, files: Path) -> None:
    name, words, status, text = case
    ended = call(files, name, *words)
    assert ended.status == status if status is not None else ended.status in (DONE, REFUSED, FAULT), ended
    assert text.encode() in ended.err and is_clean(ended.err)
    assert not (ended.status and ended.out)


# --- outputs ---

# What becomes of an output, with the status that is wanted then, and a part of what is said.
OUTPUTS = {
    "full": (FAULT, b"No space left"),
    "unread": (DONE, b""),
    "closed": (FAULT, b"standard output is closed"),
    "ASCII": (DONE, b""),
}


@contextlib.contextmanager
def output(kind: str) -> Iterator[dict[str, Any]]:
    """How a tool is run so that its output is of this kind."""
    if kind == "full":
        with open("/dev/full", "wb") as full:
            yield {"stdout": full}
    elif kind == "unread":
        reader, writer = os.pipe()
        os.close(reader)
        with open(writer, "wb") as pipe:
            yield {"stdout": pipe}
    elif kind == "closed":
        yield {"preexec_fn": lambda: os.close(1)}
    else:
        yield {"stdout": subprocess.DEVNULL, "env": {**os.environ, "PYTHONIOENCODING": "ascii"}}


@pytest.mark.parametrize("kind", OUTPUTS)
@pytest.mark.parametrize("words", PRINTING, ids=[" ".join(it[:4]) for it in PRINTING])
def test_output_that_takes_nothing(words: tuple[str, ...], kind: str, files: Path, made: tuple[Path, str]) -> None:
    status, text = OUTPUTS[kind]
    called = [TOOLS / words[0], *(made[1] if it == "$N" else it for it in words[1:])]
    with output(kind) as how:
        ran = subprocess.run(called, cwd=files, stdin=subprocess.DEVNULL, stderr=subprocess.PIPE, check=False, **how)
    assert ran.returncode == status and text in ran.stderr and is_clean(ran.stderr), ran


# --- stores in use ---

IN_USE = (
    ("report", "tops"),
    ("unmerge", "--before", "store.nt", "2"),
    ("repost", "--posting", "1", "--to", "2"),
    ("load", "scheme.jsonl", "--dry", "--program", "{program}"),
)


@pytest.fixture
def holder(files: Path) -> Iterator[subprocess.Popen[bytes]]:
    """A program that has the store used.db."""
    (files / "scheme.jsonl").write_text('{"do":"scheme","tag":"en","text":"X"}\n', encoding="utf-8")
    words = [built(), "--db", "used.db", "script"]
    with subprocess.Popen(words, cwd=files, stdin=subprocess.PIPE, stdout=subprocess.PIPE) as program:
        assert program.stdin and program.stdout
        program.stdin.write(b'{"get":"totals"}\n')
        program.stdin.flush()
        program.stdout.readline()
        yield program


@pytest.mark.parametrize("words", IN_USE, ids=[it[0] for it in IN_USE])
@pytest.mark.usefixtures("holder")
def test_store_in_use(words: tuple[str, ...], files: Path) -> None:
    ended = call(files, *words, "--db", "used.db")
    assert (ended.status, ended.out) == (FAULT, b"")
    assert USED.encode() in ended.err and is_clean(ended.err)


@pytest.mark.usefixtures("holder")
def test_backup_of_a_store_in_use(files: Path) -> None:
    ended = call(files, "backup", "used.db", "backups", "--program", "{program}")
    assert ended.status == REFUSED and b"a program has it open" in ended.err


def test_load_waits_for_a_store_in_use(holder: subprocess.Popen[bytes], files: Path) -> None:
    words = [TOOLS / "load", "scheme.jsonl", "--db", "used.db", "--program", built()]
    with subprocess.Popen(words, cwd=files, stderr=subprocess.PIPE) as loading:
        assert loading.stderr and holder.stdin and holder.stdout
        assert USED.encode() in loading.stderr.readline()
        holder.stdin.close()
        holder.stdout.read()
        assert loading.communicate()[1] == b"load: 1 requests: 1 done\n"
    assert not loading.returncode
    assert over(files / "used.db", "check").out.startswith(b"ok resources=1 labels=1 ")


# --- interrupts, and another Python ---

INTERRUPTED: dict[str, tuple[list[str], int, bytes]] = {
    "load": (["load", "-", "--db", "new.db", "--program", "{program}"], FAULT, b"load: it was interrupted\n"),
    "load with a journal": (
        ["load", "-", "--db", "new.db", "--journal", "new.journal", "--program", "{program}"],
        FAULT,
        b"load: it was interrupted; run it again with the same journal\n",
    ),
    "check-skos": (["check-skos", "-"], 130, b"check-skos: interrupted\n"),
}


def wait_for_reading(pid: int) -> None:
    """Waits until a program reads standard input, or for two minutes."""
    end = time.monotonic() + 120
    while time.monotonic() < end:
        state = Path(f"/proc/{pid}/wchan").read_text(encoding="ascii")
        if "pipe" in state and "read" in state:
            return
        time.sleep(0.05)


@pytest.mark.parametrize("what", INTERRUPTED)
def test_interrupted_as_it_reads_standard_input(what: str, files: Path) -> None:
    (name, *words), status, text = INTERRUPTED[what]
    called = [TOOLS / name, *(str(built()) if it == "{program}" else it for it in words)]
    streams: dict[str, Any] = dict.fromkeys(("stdin", "stdout", "stderr"), subprocess.PIPE)
    with subprocess.Popen(called, cwd=files, **streams) as run:
        wait_for_reading(run.pid)
        run.send_signal(signal.SIGINT)
        _, said = run.communicate(timeout=60)
    assert (run.returncode, said) == (status, text)


def test_older_python_is_refused_in_one_line() -> None:
    code = (
        f"import sys; sys.version_info = (3, 9, 2); sys.path.insert(0, {str(TOOLS)!r}); sys.argv = "
        "['tools/load']; import thesaurus_tools"
    )
    ran = subprocess.run([sys.executable, "-c", code], capture_output=True, check=False)
    assert ran.returncode == 1
    assert ran.stderr.startswith(b"tools/load: it needs Python 3.11 or later") and ran.stderr.count(b"\n") == 1
