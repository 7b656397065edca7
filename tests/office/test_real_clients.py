"""What other programs make of files and answers: Jena of RDF and of Skosmos' JSON-LD, a harvester of OAI-PMH."""
from __future__ import annotations

import json
import subprocess
import zipfile
from collections.abc import Iterator
from pathlib import Path
from urllib.parse import quote
from urllib.request import urlopen

import pytest
from office import SKOS, tool
from program import ROOT, built

BASE = "https://museum.example/id/"
JARS = Path("/usr/share/java")
JENA = JARS / "jena-core.jar"
# What Jena needs beside its own jars. (Debian's Jena has no provider for JSON-LD 1.1: riot reads that as 1.0.)
BESIDE_JENA = (
    "slf4j-api slf4j-simple commons-cli commons-codec commons-compress commons-csv commons-io commons-lang3 dexx gson"
    " guava failureaccess httpclient httpclient-cache httpcore jackson-core jackson-databind jackson-annotations"
    " jsonld-java jakarta.json-api protobuf thrift titanium-json-ld"
)
# Debian's Jena looks for its messages here, and has them there.
MESSAGES, THERE = "xerces/", "org/apache/jena/ext/xerces/"
# More concepts than an answer of OAI-PMH has records; one is merged into another, and one is deprecated.
CONCEPTS, MERGED, INTO, DEPRECATED = 250, 251, 250, 249


def script() -> Iterator[dict[str, object]]:
    """Yields the requests for a thesaurus with signs that forms write in ways of their own."""
    yield {"do": "scheme", "tag": "en", "text": "Museum"}
    for number in range(2, 2 + CONCEPTS):
        yield {"do": "concept", "scheme": 1, "tag": "en", "text": f'No {number}, é “\U0001d11e” <&> "=;"'}
        if number > 2:
            yield {"do": "link", "kind": "broader", "a": number, "b": max(2, number // 9)}
    yield {"do": "addLabel", "owner": 2, "kind": "scope", "tag": "en", "text": "A note, with ; and \\ in it"}
    yield {"do": "addLabel", "owner": 5, "kind": "alt", "tag": "fr", "text": "=1+1"}
    yield {"do": "merge", "source": MERGED, "target": INTO}
    yield {"do": "deprecate", "concept": DEPRECATED}


@pytest.fixture(scope="module")
def store(tmp_path_factory: pytest.TempPathFactory) -> Path:
    path = tmp_path_factory.mktemp("clients") / "museum.db"
    lines = "".join(json.dumps(it) + "\n" for it in script()).encode()
    words = [built(), "--db", path, "--base", BASE, "script"]
    answers = subprocess.run(words, input=lines, capture_output=True, check=True).stdout
    assert b'"no"' not in answers, answers[-300:]
    return path


@pytest.fixture(scope="module")
def export(store: Path) -> Path:
    path = store.with_suffix(".nt")
    path.write_bytes(subprocess.run([built(), "--db", store, "export"], capture_output=True, check=True).stdout)
    return path


@pytest.fixture(scope="module")
def published(export: Path) -> Iterator[str]:
    """The address of tools/publish over the export."""
    call = [str(ROOT / "tools" / "publish"), str(export), "--port", "0"]
    with subprocess.Popen(call, stdout=subprocess.PIPE, text=True) as process:
        try:
            assert process.stdout
            yield f"http://{process.stdout.readline().split()[-1]}"
        finally:
            process.kill()


# --- Jena ---


@pytest.fixture(scope="module")
def classes(tmp_path_factory: pytest.TempPathFactory) -> str:
    """The class path of Jena's riot."""
    room = tmp_path_factory.mktemp("jena")
    with zipfile.ZipFile(JENA) as jar:
        for name in jar.namelist():
            if name.startswith(THERE) and name.endswith(".properties"):
                path = room / MESSAGES / name.removeprefix(THERE)
                path.parent.mkdir(parents=True, exist_ok=True)
                path.write_bytes(jar.read(name))
    others = [it for it in (JARS / f"{name}.jar" for name in BESIDE_JENA.split()) if it.exists()]
    return ":".join(map(str, [room, *sorted(JARS.glob("jena-*.jar")), *others]))


def riot(classes: str, path: Path, *words: str) -> list[str]:
    """Returns the triples that Jena reads, as lines of N-Triples. It must find nothing wrong."""
    call = ["java", "-cp", classes, "riotcmd.riot", "--check", "--output=nt", *words, str(path)]
    ran = subprocess.run(call, capture_output=True, encoding="utf-8", check=False, timeout=300)
    assert ran.returncode == 0 and not ran.stderr, ran.stderr[-2000:]
    return sorted(ran.stdout.splitlines())


@pytest.mark.needs("java", str(JENA))
@pytest.mark.parametrize(
    ("form", "syntax"), [("ntriples", "nt"), ("turtle", "ttl"), ("rdfxml", "rdfxml"), ("jsonld", "jsonld10")]
)
def test_jena_reads_each_form(classes: str, store: Path, export: Path, tmp_path: Path, form: str, syntax: str) -> None:
    ended = tool("to-rdf", "--db", store, "--format", form, "--program", built())
    assert ended.status == 0, ended.err
    (tmp_path / "museum").write_bytes(ended.out)
    wanted = riot(classes, export, "--syntax=nt")
    assert len(wanted) > 1000 and riot(classes, tmp_path / "museum", f"--syntax={syntax}") == wanted


@pytest.mark.needs("java", str(JENA))
def test_jena_reads_what_skosmos_clients_are_answered(classes: str, published: str, tmp_path: Path) -> None:
    """The answers about a concept are JSON-LD, of which the contexts say what the triples of the concept do. (Those of
    searches and indexes have a member `lang`, as Skosmos' have, which JSON-LD doesn't let a resource have.)"""
    wanted = {
        f"label?lang=en&uri={quote(BASE)}5": f'<{BASE}5> <{SKOS}prefLabel> "No 5, ',
        f"narrower?uri={quote(BASE)}2": f"<{BASE}2> <{SKOS}narrower> <{BASE}5> .",
        f"broaderTransitive?uri={quote(BASE)}50": f"<{BASE}50> <{SKOS}broader> <{BASE}5> .",
    }
    for number, (path, line) in enumerate(wanted.items()):
        file = tmp_path / f"{number}.json"
        with urlopen(f"{published}/rest/v1/1/{path}") as answer:
            file.write_bytes(answer.read())
        found = riot(classes, file, "--syntax=jsonld10", f"--base={published}/rest/v1/1/")
        assert any(it.startswith(line) for it in found), found[:5]


# --- a harvester ---


def harvested(published: str, *words: str) -> list[dict[str, str]]:
    """Returns the records that Perl's HTTP::OAI harvests: their members, and their XML as `text`."""
    call = ["oai_pmh", *words, f"{published}/oai"]
    ran = subprocess.run(call, capture_output=True, encoding="utf-8", check=False, timeout=300)
    assert ran.returncode == 0, ran.stderr[-2000:]
    records = []
    for part in ran.stdout.split("identifier: ")[1:]:
        head, _, text = f"identifier: {part}".partition("\n\n")
        records.append({**dict(it.split(": ", 1) for it in head.splitlines() if ": " in it), "text": text})
    return records


@pytest.mark.needs("oai_pmh")
def test_a_harvester_has_all_records(published: str) -> None:
    """It follows the tokens of long answers; the record of a deprecated concept is a deleted one."""
    records = harvested(published, "--metadataPrefix", "oai_dc")
    found = {it["identifier"]: it for it in records}
    assert found.keys() == {f"{BASE}{it}" for it in range(2, 2 + CONCEPTS)} and len(records) == CONCEPTS
    gone = {it for it, record in found.items() if record["status"] == "deleted"}
    assert gone == {f"{BASE}{it}" for it in (MERGED, DEPRECATED)}
    assert "No 7, é “\U0001d11e” &lt;&amp;&gt;" in found[f"{BASE}7"]["text"]
    (one,) = harvested(published, "-X", "GetRecord", "--metadataPrefix", "rdf", "--identifier", f"{BASE}7")
    assert "rdf:RDF" in one["text"] and f"{BASE}2" in one["text"]
