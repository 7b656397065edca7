"""Tests tools/to-rdf: each form says the same as the export, parts of it, and what has changed since a backup."""
from __future__ import annotations

import json
import shutil
import subprocess
from pathlib import Path

import pytest
from office import tool
from program import ROOT, built
from serving import serving

BASE = "https://museum.example/id/"
CHANGES = [
    {"do": "concept", "scheme": 1, "tag": "en", "text": 'Lutes "of Padua" \\'},
    {"do": "relabel", "owner": 5, "tag": "en", "text": "Violins and others", "keep": True},
    {"do": "merge", "source": 6, "target": 5},
]


def run(store: Path, command: str, given: bytes = b"") -> bytes:
    """Runs the program over a store."""
    words = [built(), "--db", store, "--base", BASE, command]
    return subprocess.run(words, input=given, capture_output=True, check=False).stdout


@pytest.fixture(scope="module")
def older(tmp_path_factory: pytest.TempPathFactory) -> Path:
    """The store of musical instruments."""
    path = tmp_path_factory.mktemp("older") / "museum.db"
    run(path, "script", (ROOT / "examples/instruments.jsonl").read_bytes())
    return path


@pytest.fixture(scope="module")
def newer(older: Path, tmp_path_factory: pytest.TempPathFactory) -> Path:
    """The same store, after some changes."""
    path = Path(shutil.copy(older, tmp_path_factory.mktemp("newer") / "museum.db"))
    answers = run(path, "script", "".join(json.dumps(it) + "\n" for it in CHANGES).encode())
    assert b'"no"' not in answers, answers
    return path


def to_rdf(*words: object) -> str:
    ended = tool("to-rdf", *words, "--program", built())
    assert ended.status == 0, ended.err.decode()
    return ended.out.decode()


@pytest.mark.needs("rdflib")
@pytest.mark.parametrize(
    ("form", "name"), [("turtle", "turtle"), ("jsonld", "json-ld"), ("rdfxml", "xml"), ("ntriples", "nt")]
)
def test_each_form_says_what_the_export_says(newer: Path, form: str, name: str) -> None:
    import rdflib

    wanted = rdflib.Graph().parse(data=run(newer, "export").decode(), format="nt")
    found = rdflib.Graph().parse(data=to_rdf("--db", newer, "--format", form), format=name)
    assert set(found) == set(wanted)


def test_the_order_is_fixed(newer: Path, tmp_path: Path) -> None:
    """The lines of an export in another order make the same file."""
    lines = run(newer, "export").splitlines(keepends=True)
    (tmp_path / "turned.nt").write_bytes(b"".join(reversed(lines)))
    assert to_rdf(tmp_path / "turned.nt") == to_rdf("--db", newer)


@pytest.mark.needs("rapper")
@pytest.mark.parametrize(("form", "name"), [("turtle", "turtle"), ("rdfxml", "rdfxml")])
def test_another_reader_takes_it(newer: Path, tmp_path: Path, form: str, name: str) -> None:
    path = tmp_path / "museum"
    path.write_text(to_rdf("--db", newer, "--format", form), encoding="utf-8")
    ran = subprocess.run(["rapper", "-q", "-i", name, "-o", "ntriples", path], capture_output=True, check=True)
    assert len(ran.stdout.splitlines()) == len(run(newer, "export").splitlines())


def test_a_branch_and_a_scheme(newer: Path) -> None:
    branch = to_rdf("--db", newer, "--below", 3, "--format", "ntriples")
    whole = to_rdf("--db", newer, "--scheme", 1, "--format", "ntriples")
    subjects = {it.split()[0] for it in branch.splitlines()}
    assert f"<{BASE}3>" in subjects and f"<{BASE}1>" not in subjects
    assert set(branch.splitlines()) < set(whole.splitlines())
    assert tool("to-rdf", "--db", newer, "--below", 1, "--program", built()).status == 1
    assert tool("to-rdf", "--db", newer, "--scheme", 99, "--program", built()).status == 1


def test_types(newer: Path) -> None:
    text = to_rdf("--db", newer, "--types")
    assert "iso-thes:broaderGeneric" in text and "iso-thes:narrowerGeneric" in text
    assert "iso-thes:" not in to_rdf("--db", newer)
    with serving(newer, 1_000_000) as served:
        assert to_rdf("--http", f"http://127.0.0.1:{served.port}", "--types") == text
        ended = tool("to-rdf", "--db", newer, "--program", built())
        assert ended.status == 3 and b"another program has it open" in ended.err
    assert tool("to-rdf", newer.parent / "none.nt", "--types").status == 2


def test_the_store_is_left_alone(newer: Path) -> None:
    before = {it.name: it.read_bytes() for it in newer.parent.iterdir()}
    to_rdf("--db", newer)
    assert {it.name: it.read_bytes() for it in newer.parent.iterdir()} == before


def test_what_has_changed_leads_from_the_older_to_the_newer(older: Path, newer: Path) -> None:
    lines = to_rdf("--db", newer, "--since", older, "--format", "ntriples").splitlines()
    then, now = (set(run(it, "export").decode().splitlines()) for it in (older, newer))
    gone, come = ({it[2:] for it in lines if it.startswith(sign)} for sign in "-+")
    assert gone and come and gone <= then and come <= now
    assert (then - gone) | come == now


@pytest.mark.needs("rdflib")
def test_the_update_leads_from_the_older_to_the_newer(older: Path, newer: Path) -> None:
    import rdflib

    graph = rdflib.Graph().parse(data=run(older, "export").decode(), format="nt")
    graph.update(to_rdf("--db", newer, "--since", older))
    assert set(graph) == set(rdflib.Graph().parse(data=run(newer, "export").decode(), format="nt"))


def test_no_change(newer: Path) -> None:
    assert to_rdf("--db", newer, "--since", newer) == ""


def test_another_thesaurus(newer: Path, tmp_path: Path) -> None:
    other = tmp_path / "other.db"
    words = [built(), "--db", other, "--base", "https://other.example/", "script"]
    subprocess.run(words, input=b'{"do":"scheme","tag":"en","text":"S"}\n', capture_output=True, check=True)
    ended = tool("to-rdf", "--db", newer, "--since", other, "--program", built())
    assert ended.status == 1 and b"begin with https://other.example/" in ended.err
