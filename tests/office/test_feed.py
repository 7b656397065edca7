"""Tests tools/feed with a real triple store: whole, by differences, and put right after either end was down."""
from __future__ import annotations

import json
import subprocess
import threading
import time
from collections.abc import Callable, Iterable, Iterator
from dataclasses import replace
from pathlib import Path

import pytest
from office import tool
from ports import free_port
from program import ROOT, Ended, built
from thesaurus_tools.ntriples import SKOS, Literal, Node, parse_ntriples
from thesaurus_tools.triple_feed import FeedResult, Feed
from thesaurus_tools.triple_store import plain
from virtuoso import PASSWORD, Virtuoso

GRAPH = Virtuoso.graph
pytestmark = pytest.mark.needs("virtuoso-t", "isql-vt")


@pytest.fixture(scope="module")
def virtuoso(tmp_path_factory: pytest.TempPathFactory) -> Iterator[Virtuoso]:
    it = Virtuoso(tmp_path_factory.mktemp("virtuoso"), free_port(), free_port())
    it.start()
    yield it
    it.stop()


@pytest.fixture
def db(tmp_path: Path) -> Path:
    """A store of musical instruments."""
    path = tmp_path / "museum.db"
    perform(path, (ROOT / "examples/instruments.jsonl").read_bytes())
    return path


def perform(db: Path, script: bytes) -> None:
    words = [built(), "--db", str(db), "--base", GRAPH, "script"]
    ran = subprocess.run(words, input=script, capture_output=True, check=False)
    assert b'"no"' not in ran.stdout, ran.stdout


def export(db: Path) -> Path:
    path = db.with_suffix(".nt")
    words = [built(), "--db", str(db), "export"]
    path.write_bytes(subprocess.run(words, capture_output=True, check=True).stdout)
    return path


def feed(virtuoso: Virtuoso, path: Path, *words: str) -> Ended:
    """Runs the tool over an export."""
    (path.parent / "password").write_text(PASSWORD, encoding="utf-8")
    where = ["--query", virtuoso.url("/sparql"), "--update", virtuoso.url("/sparql-auth"), "--graph", GRAPH]
    login = ["--user", "dba", "--password-file", path.parent / "password"]
    return tool("feed", path, *where, *login, "--state", path.parent / "fed", *words)


def is_equal(virtuoso: Virtuoso, path: Path) -> bool:
    """Whether the triple store has the triples of an export, and no others."""
    rows = virtuoso.store().select(f"SELECT ?s ?p ?o WHERE {{ GRAPH <{GRAPH}> {{ ?s ?p ?o }} }}")
    found = {(str(it["s"]), str(it["p"]), plain(it["o"])) for it in rows}
    return found == {(str(s), str(p), plain(o)) for s, p, o in parse_ntriples(path.read_bytes(), str(path))}


HOSTILE = {"do": "concept", "scheme": 1, "tag": "en", "text": 'a "quoted" \\ <b> é\U0001d11e }'}


def test_whole_and_then_by_differences(virtuoso: Virtuoso, db: Path) -> None:
    first = feed(virtuoso, export(db))
    assert first.status == 0 and b"triples were put" in first.err, first.err
    assert is_equal(virtuoso, db.with_suffix(".nt"))
    assert b"nothing has changed" in feed(virtuoso, export(db)).err
    merge = {"do": "merge", "source": 6, "target": 5}
    perform(db, "".join(json.dumps(it) + "\n" for it in (merge, HOSTILE)).encode())
    changed = feed(virtuoso, export(db))
    assert changed.status == 0 and b"removed" in changed.err and b"anew" not in changed.err, changed.err
    assert is_equal(virtuoso, db.with_suffix(".nt"))


def test_what_others_wrote_is_put_right(virtuoso: Virtuoso, db: Path) -> None:
    feed(virtuoso, export(db))
    virtuoso.store().update(f'INSERT DATA {{ GRAPH <{GRAPH}> {{ <{GRAPH}5> <http://x/y> "z" }} }}')
    assert b"triples were put" in feed(virtuoso, export(db)).err
    assert is_equal(virtuoso, db.with_suffix(".nt"))


@pytest.mark.parametrize("compared", [0, 7])
def test_what_others_changed_is_found_also_if_the_count_is_the_same(
    virtuoso: Virtuoso, db: Path, compared: int
) -> None:
    """At the next run, or at the latest when each resource has had its turn."""
    data = export(db).read_bytes()
    feed = Feed(virtuoso.store(), db.parent / "fed", print, compared)
    feed.feed(data)
    label = f"{{ GRAPH <{GRAPH}> {{ <{GRAPH}30> <{SKOS}prefLabel> ?it }} }}"
    inserted = f'INSERT DATA {{ GRAPH <{GRAPH}> {{ <{GRAPH}30> <{SKOS}altLabel> "changed" }} }}'
    (row, *_) = virtuoso.store().select(f"SELECT ?it WHERE {label}")
    text = row["it"]
    assert isinstance(text, Literal)
    gone = f'DELETE DATA {{ GRAPH <{GRAPH}> {{ <{GRAPH}30> <{SKOS}prefLabel> "{text.text}"@{text.tag} }} }}'
    virtuoso.store().update(f"{gone} ; {inserted}")
    runs = [feed.feed(data).is_whole for _ in range(1 if not compared else 40 // compared + 1)]
    assert runs.count(True) == 1 and is_equal(virtuoso, db.with_suffix(".nt"))


def many(word: str, count: int) -> bytes:
    """Returns an export of concepts, eight triples each."""
    lines = [
        f'<{GRAPH}{number}> <{SKOS}altLabel> "{word} {name} {number}"@en .'
        for number in range(2, count + 2)
        for name in "abcdefgh"
    ]
    return "\n".join(sorted(lines)).encode() + b"\n"


@pytest.mark.parametrize("by", ["updates", "parts of a graph"])
def test_readers_see_all_triples_while_they_are_put_anew(virtuoso: Virtuoso, tmp_path: Path, by: str) -> None:
    """The old ones or the new ones, at each moment."""
    store = virtuoso.store()
    if by != "updates":
        store = replace(store, graph_store_url=virtuoso.url("/sparql-graph-crud-auth"))
    feed = Feed(store, tmp_path / "fed", print)
    feed.feed(many("old", 1000))
    feed.state.forget()
    seen: list[set[str]] = []
    is_over = threading.Event()

    def read() -> None:
        query = f"SELECT (COUNT(*) AS ?n) (SAMPLE(?o) AS ?it) WHERE {{ GRAPH <{GRAPH}> {{ ?s ?p ?o }} }}"
        while not is_over.is_set():
            (row,) = virtuoso.store().select(query)
            seen.append({plain_text(row["n"]), plain_text(row["it"]).split()[0]})

    reader = threading.Thread(target=read)
    reader.start()
    wait_for(lambda: seen != [])
    assert feed.feed(many("new", 900)) == FeedResult(0, 7200, True)
    known = len(seen)
    # (the first of these may have been asked before)
    wait_for(lambda: len(seen) > known + 1)
    is_over.set()
    reader.join()
    assert {tuple(sorted(it)) for it in seen} == {("8000", "old"), ("7200", "new")}
    assert not store.select(f"SELECT ?s WHERE {{ GRAPH <{feed.beside}> {{ ?s ?p ?o }} }}")


def wait_for(is_so: Callable[[], bool]) -> None:
    """Waits until something is so, for a minute at most."""
    end = time.monotonic() + 60
    while not is_so():
        assert time.monotonic() < end
        time.sleep(0.05)


def plain_text(node: Node) -> str:
    """Returns the text of a node."""
    return node.text if isinstance(node, Literal) else str(node)


def test_the_feed_was_down(virtuoso: Virtuoso, db: Path) -> None:
    """Its state is lost, or older than the store's: nobody knows what the store holds."""
    feed(virtuoso, export(db))
    state = db.parent / "fed"
    older = state.read_bytes()
    perform(db, json.dumps(HOSTILE).encode() + b"\n")
    feed(virtuoso, export(db))
    state.write_bytes(older)
    assert feed(virtuoso, export(db)).status == 0 and is_equal(virtuoso, db.with_suffix(".nt"))
    state.unlink()
    assert feed(virtuoso, export(db)).status == 0 and is_equal(virtuoso, db.with_suffix(".nt"))


def test_the_store_was_down(virtuoso: Virtuoso, db: Path) -> None:
    feed(virtuoso, export(db))
    virtuoso.stop()
    perform(db, json.dumps(HOSTILE).encode() + b"\n")
    ended = feed(virtuoso, export(db))
    assert ended.status == 3 and b"Traceback" not in ended.err
    virtuoso.start()
    assert feed(virtuoso, export(db)).status == 0 and is_equal(virtuoso, db.with_suffix(".nt"))


def test_a_store_that_refuses(virtuoso: Virtuoso, db: Path) -> None:
    """A reader may not write there, and a page isn't a triple store."""
    path = export(db)
    state = ("--state", str(db.parent / "other"))
    ended = tool(
        "feed", path, "--query", virtuoso.url("/sparql"), "--update", virtuoso.url("/sparql"), "--graph", GRAPH, *state
    )
    assert ended.status == 3 and b"Traceback" not in ended.err
    ended = tool("feed", path, "--query", virtuoso.url("/"), "--update", virtuoso.url("/"), "--graph", GRAPH, *state)
    assert ended.status == 3 and b"Traceback" not in ended.err


def test_the_example_of_the_page(virtuoso: Virtuoso, db: Path) -> None:
    """The command in docs/OPERATING.md feeds what is exported."""
    page = (ROOT / "docs" / "OPERATING.md").read_text(encoding="utf-8")
    command = page[page.index("    tools/feed ") :].partition("\n\n")[0].replace(":8890", f":{virtuoso.http}")
    (db.parent / "tools").symlink_to(ROOT / "tools")
    (db.parent / "virtuoso.password").write_text(PASSWORD, encoding="utf-8")
    export(db)
    ran = subprocess.run(["sh", "-c", command], cwd=db.parent, capture_output=True, check=False)
    assert ran.returncode == 0 and b"triples were put" in ran.stderr, ran.stderr
    assert is_equal(virtuoso, db.with_suffix(".nt"))


def test_a_whole_graph_is_put(virtuoso: Virtuoso, db: Path) -> None:
    """By the Graph Store HTTP Protocol."""
    path = export(db)
    ended = feed(virtuoso, path, "--graph-store", virtuoso.url("/sparql-graph-crud-auth"))
    assert ended.status == 0 and b"triples were put" in ended.err, ended.err
    assert is_equal(virtuoso, path)


def test_many_changes(virtuoso: Virtuoso, db: Path, monkeypatch: pytest.MonkeyPatch) -> None:
    """Each resource that has changed is compared, however many there are."""
    feed(virtuoso, export(db))
    perform(db, "".join(json.dumps({**HOSTILE, "text": f"Concept {it}"}) + "\n" for it in range(300)).encode())
    asked: list[list[str]] = []
    store = virtuoso.store()
    about = store.about

    def noted(subjects: Iterable[str]) -> set[tuple[str, str, Node]]:
        asked.append([*subjects])
        return about(asked[-1])

    monkeypatch.setattr(store, "about", noted)
    fed = Feed(store, db.parent / "fed", print).feed(export(db).read_bytes())
    assert not fed.is_whole and fed.removed == 0 and is_equal(virtuoso, db.with_suffix(".nt"))
    assert len({it for them in asked for it in them}) == 301 and max(map(len, asked)) <= 100


def test_a_change_is_quick(virtuoso: Virtuoso, db: Path) -> None:
    """The start of Python is in it, and what else the machine does."""
    feed(virtuoso, export(db))
    perform(db, json.dumps(HOSTILE).encode() + b"\n")
    path = export(db)
    began = time.monotonic()
    assert feed(virtuoso, path).status == 0
    assert time.monotonic() - began < 30
