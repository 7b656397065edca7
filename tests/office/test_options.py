"""Tests what the tools have in common: where they write, what they run on, and what they say of a request's shape."""
from __future__ import annotations

import json
import os
import re
import shutil
import subprocess
import sys
from pathlib import Path

import pytest
from forwarding import forwarding
from office import TOOLS, tool
from program import ROOT, built, over
from serving import serving
from thesaurus_tools.shapes import CHANGES, QUERIES, shape_fault


@pytest.fixture(scope="module")
def store(tmp_path_factory: pytest.TempPathFactory) -> Path:
    """The store of musical instruments."""
    path = tmp_path_factory.mktemp("options") / "museum.db"
    words = [built(), "--db", str(path), "script"]
    subprocess.run(words, input=(ROOT / "examples/instruments.jsonl").read_bytes(), capture_output=True, check=True)
    return path


@pytest.fixture(scope="module")
def export(store: Path) -> Path:
    path = store.parent / "museum.nt"
    path.write_bytes(subprocess.run([built(), "--db", str(store), "export"], capture_output=True, check=True).stdout)
    return path


# --- where they write ---


def test_each_tool_that_prints_writes_to_a_file(store: Path, export: Path, tmp_path: Path) -> None:
    concepts, table, postings = (tmp_path / f"{it}.csv" for it in ("concepts", "table", "postings"))
    concepts.write_text("pref@en\nHarps\n", encoding="utf-8")
    table.write_text("number,alt@it\n5,Violini\n", encoding="utf-8")
    postings.write_text("record,concept\nA violin,Violins\n", encoding="utf-8")
    indexed, merged = (Path(shutil.copy(store, tmp_path / it)) for it in ("indexed.db", "merged.db"))
    post, merge = b'{"do":"post","key":"k","record":"r","concept":5}\n', b'{"do":"merge","source":6,"target":5}\n'
    over(indexed, "script", post)
    over(merged, "script", post + merge)
    calls: list[list[object]] = [
        ["report", "--db", store, "tops"],
        ["report", "--db", store, "--csv", "tops"],
        ["picture", export, 5],
        ["check-skos", export],
        ["from-skos", export, "--lang", "en", "--drop"],
        ["from-csv", concepts, "--scheme", "S", "--lang", "en"],
        ["from-table", table, "--db", store],
        ["number-postings", postings, "--db", store, "--terms", "en"],
        ["repost", "--db", indexed, "--posting", 1, "--to", 6],
        ["unmerge", "--db", merged, "--before", indexed, 6],
        ["to-rdf", export],
        ["to-marc", "--db", store, "--lang", "en"],
        ["to-table", "--db", store, "--columns", "number,pref@en"],
        ["to-print", "--db", store, "--scheme", 1, "--lang", "en"],
        ["to-zthes", "--db", store],
        ["to-iso25964", "--db", store],
    ]
    environment = {"SOURCE_DATE_EPOCH": "1700000000"}
    os.environ.update(environment)
    for name, *words in calls:
        printed = tool(str(name), *words)
        path = tmp_path / "out"
        written = tool(str(name), *words, "-o", path)
        assert (printed.status, written.status, written.out) == (0, 0, b""), (name, printed.err, written.err)
        assert path.read_bytes() == printed.out, name


def test_csv_for_excel(store: Path) -> None:
    plain, excel = (tool("report", "--db", store, it, "tops").out.decode() for it in ("--csv", "--excel"))
    assert excel == "\ufeff" + plain.replace(",", ";").replace("\n", "\r\n")


def test_names_of_options_agree(store: Path) -> None:
    for name, options in {"site": ("--db", "--store"), "number-postings": ("--hidden-codes", "--codes")}.items():
        text = tool(name, "--help").out.decode()
        assert all(it in text for it in options), name


# --- a store that is served ---

# The tools that read a store, or may do so.
READING = (
    "from-table", "load", "number-postings", "report", "repost", "site", "to-iso25964", "to-marc", "to-print", "to-rdf",
    "to-table", "to-zthes", "unmerge",
)  # fmt: skip
# These don't ask the program: it is theirs, or they serve it.
OWN = ("backup", "desk", "look")


def test_each_tool_that_reads_a_store_asks_a_server() -> None:
    """By --http, wherever there is --db; or a desk, by --desk."""
    names = {it.name for it in TOOLS.iterdir() if it.is_file() and os.access(it, os.X_OK)} - set(OWN)
    helps = {it: tool(it, "--help").out.decode() for it in names}
    for option in ("--db FILE", "--http URL", "--desk FILE"):
        having = {it for it, text in helps.items() if re.search(f"^ +{option}", text, re.M)}
        # (what changes a store that a desk has goes by the desk's pages)
        assert having - {"feed"} == set(READING) - ({"load"} if "desk" in option else set()), option


@pytest.mark.parametrize("is_near", [True, False], ids=["this machine's", "another machine's"])
def test_a_server_answers_what_the_store_has(is_near: bool, store: Path, tmp_path: Path) -> None:
    table, postings = tmp_path / "table.csv", tmp_path / "postings.csv"
    table.write_text("number,alt@it\n5,Violini\n7,Violoncelli\n", encoding="utf-8")
    postings.write_text("record,concept\nA violin,Violins\n", encoding="utf-8")
    before, after = (Path(shutil.copy(store, tmp_path / it)) for it in ("before.db", "after.db"))
    post, merge = b'{"do":"post","key":"k","record":"r","concept":6}\n', b'{"do":"merge","source":6,"target":5}\n'
    over(before, "script", post)
    over(after, "script", post + merge)
    calls: list[list[object]] = [
        ["report", "tops"],
        ["report", "counts", "--concepts"],
        ["from-table", table],
        ["number-postings", postings, "--terms", "en"],
        ["repost", "--posting", 1, "--to", 7],
        ["unmerge", "--before", before, 6],
        ["to-rdf", "--types", "--program", built()],
        ["to-marc", "--lang", "en"],
        ["to-table", "--columns", "number,pref@en,alt@de,broader,records"],
        ["to-print", "--scheme", 1, "--lang", "en"],
        ["to-zthes", "--langs", "en"],
        ["to-iso25964"],
    ]
    os.environ["SOURCE_DATE_EPOCH"] = "1700000000"
    of_file = [tool(str(name), *words, "--db", after) for name, *words in calls]
    with serving(after, 1_000_000) as served, forwarding(served.port) as front:
        url = f"http://127.0.0.1:{served.port}" if is_near else front
        of_server = [tool(str(name), *words, "--http", url) for name, *words in calls]
    for call, ours, theirs in zip(calls, of_file, of_server):
        assert (ours.status, ours.out) == (theirs.status, theirs.out), (call, theirs.err)
        assert ours.out, call


# --- without locks, as on Windows ---

WITHOUT = """
import os, runpy, sys
sys.modules["fcntl"] = sys.modules["resource"] = None
del os.fork, os.memfd_create, os.sendfile, os.sched_getaffinity
sys.argv = sys.argv[1:]
runpy.run_path(sys.argv[0], run_name="__main__")
"""


def without_locks(name: str, *words: object) -> subprocess.CompletedProcess[str]:
    """Runs a tool where there are neither locks nor bounds, no forks, and no calls of Linux alone."""
    environment = {**os.environ, "PYTHONPATH": str(TOOLS)}
    command = [sys.executable, "-c", WITHOUT, str(TOOLS / name), *map(str, words)]
    return subprocess.run(command, capture_output=True, text=True, check=False, env=environment)


@pytest.mark.parametrize(
    "name",
    ["from-csv", "from-skos", "check-skos", "site", "picture", "report", "load", "to-rdf", "to-marc", "to-table"]
    + ["from-table", "number-postings", "unmerge", "repost", "to-print", "to-zthes", "to-iso25964"]
    + ["feed", "publish"],
)
def test_each_tool_starts(name: str) -> None:
    ran = without_locks(name, "--help")
    assert ran.returncode == 0 and ran.stdout.startswith("usage:"), ran.stderr


def test_what_reads_exports_runs(export: Path, tmp_path: Path) -> None:
    for name, *words in (["to-rdf", export], ["picture", export, 5], ["check-skos", export]):
        ran = without_locks(str(name), *words)
        assert ran.returncode == 0, (name, ran.stderr)
    ran = without_locks("from-skos", export, "--lang", "en", "--drop", "-o", tmp_path / "script")
    assert ran.returncode == 0, ran.stderr
    ran = without_locks("site", export, tmp_path / "site", "--langs", "en,de")
    assert ran.returncode == 0 and (tmp_path / "site" / "de" / "index.html").exists(), ran.stderr


@pytest.mark.needs("rdflib")
def test_turtle_is_read(export: Path, tmp_path: Path) -> None:
    path = tmp_path / "museum.ttl"
    assert tool("to-rdf", export, "-o", path).status == 0
    ran = without_locks("from-skos", path, "--lang", "en", "--drop")
    assert ran.returncode == 0 and ran.stdout.count('"do":"concept"') == 30, ran.stderr


def test_what_talks_http_runs(store: Path, tmp_path: Path) -> None:
    """From another machine: behind another server, no tool sees what this one has."""
    script, table = tmp_path / "script.jsonl", tmp_path / "table.csv"
    script.write_text('{"do":"addLabel","owner":5,"kind":"alt","tag":"it","text":"Violino"}\n', encoding="utf-8")
    table.write_text("number,alt@it\n5,Violini\n", encoding="utf-8")
    copy = shutil.copy(store, tmp_path / "copy.db")
    calls: list[list[object]] = [
        ["report", "find", "violin"],
        ["load", script],
        ["from-table", table, "--perform"],
        ["to-rdf"],
        ["to-marc", "--lang", "en"],
        ["to-table", "--columns", "number,pref@en"],
        ["to-print", "--scheme", 1, "--lang", "en"],
    ]
    with serving(copy, 1_000_000) as served, forwarding(served.port) as front:
        for name, *words in calls:
            ran = without_locks(str(name), *words, "--http", front)
            assert ran.returncode == 0, (name, ran.stderr)
        ran = without_locks("load", script, "--http", front, "--journal", tmp_path / "journal")
        assert ran.returncode == 3 and "leave out --journal" in ran.stderr and ran.stderr.count("\n") == 1


def test_a_store_is_refused_in_words(store: Path) -> None:
    ran = without_locks("report", "--db", store, "tops")
    assert ran.returncode == 3 and "use --http URL, or an export" in ran.stderr


# --- the shape of a request ---


def test_the_program_agrees_on_shapes() -> None:
    """A request with its members has no fault of shape; one without a member, or with another, has one: for both."""
    value: dict[str, object] = {"a text": "x", "a number": 1, "true or false": True, "a list of numbers": [1]}
    lines: list[dict[str, object]] = []
    for word, requests in (("do", CHANGES), ("get", QUERIES)):
        for name, members in requests.items():
            right: dict[str, object] = {word: name, **{it: value[kind] for it, kind in members.items()}}
            if "kind" in right:
                right["kind"] = "pref" if "Label" in name else "related"
            lines += [right, {**right, "colour": "red"}]
            lines += [{key: it for key, it in right.items() if key != left} for left in members]
            lines += [{**right, key: None} for key in members]
    given = "".join(json.dumps(it) + "\n" for it in lines).encode()
    ran = subprocess.run([built(), "script"], input=given, capture_output=True, check=False)
    for line, answer in zip(lines, ran.stdout.splitlines(), strict=True):
        assert bool(shape_fault(line)) == (answer == b'{"bad":"BadShape"}'), (line, answer)


@pytest.mark.parametrize(
    ("line", "says"),
    [
        ('{"do":"concept","tag":"en","text":"A"}', "scheme is missing"),
        ('{"do":"merge","source":1,"target":2,"keep":true}', "keep is one too many"),
        ('{"do":"addLabel","owner":1,"kind":"note","tag":"en","text":"A"}', "kind is one of pref, alt, hidden, scope"),
        ('{"do":"relabel","owner":1,"tag":"en","text":"A","keep":"yes"}', "keep is true or false"),
        ('{"do":"fly"}', "do is 'fly', which is no request"),
    ],
)
def test_load_says_which_member(store: Path, tmp_path: Path, line: str, says: str) -> None:
    path = tmp_path / "script.jsonl"
    path.write_text(line + "\n", encoding="utf-8")
    ended = tool("load", "--db", store, "--dry", "--program", built(), path)
    assert ended.status == 1 and f"BadShape ({says})" in ended.err.decode()
