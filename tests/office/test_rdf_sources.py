"""Files that rdflib reads for tools/from-skos: what they refer to isn't fetched, and the work on them has a bound."""
from __future__ import annotations

import json
import subprocess
import sys
import threading
from collections.abc import Iterator
from http.server import BaseHTTPRequestHandler, ThreadingHTTPServer
from pathlib import Path

import pytest

from office import SKOS, TOOLS, tool, tool_with_use

pytest.importorskip("rdflib")

REFUSED, USAGE = 1, 2
CONTEXT = {"@context": {"skos": SKOS, "Scheme": "skos:ConceptScheme", "name": "skos:prefLabel"}}
# Runs a tool with smaller bounds.
BOUNDED = """
import os, runpy, sys
del sys.argv[0]
sys.path.insert(0, os.path.dirname(sys.argv[0]))
from thesaurus_tools import rdf_files
rdf_files.SECONDS, rdf_files.SECONDS_FOR_MEGABYTE, rdf_files.MEMORY, rdf_files.MEMORY_FOR_BYTE = %s
runpy.run_path(sys.argv[0], run_name="__main__")
"""


@pytest.fixture()
def served() -> Iterator[tuple[str, list[str]]]:
    """Serves a context over HTTP; yields its URL, and the paths that were asked for."""
    asked: list[str] = []

    class Contexts(BaseHTTPRequestHandler):
        def do_GET(self) -> None:
            asked.append(self.path)
            self.send_response(200)
            self.send_header("Content-Type", "application/ld+json")
            self.end_headers()
            self.wfile.write(json.dumps(CONTEXT).encode())

        def log_message(self, *_: object) -> None:
            pass

    with ThreadingHTTPServer(("127.0.0.1", 0), Contexts) as server:
        threading.Thread(target=server.serve_forever, daemon=True).start()
        yield f"http://127.0.0.1:{server.server_port}/context.jsonld", asked
        server.shutdown()


def write_jsonld(path: Path, context: object) -> Path:
    """Writes a scheme whose words are those of a context."""
    scheme = {
        "@context": context,
        "@id": "http://a.example/1",
        "@type": "Scheme",
        "name": {"@value": "A", "@language": "en"},
    }
    path.write_text(json.dumps(scheme), encoding="utf-8")
    return path


def bounded(path: Path, bounds: str) -> subprocess.CompletedProcess[str]:
    """Runs the tool over a file with other bounds: on time and on memory, each with what the file's size adds."""
    call = [sys.executable, "-c", BOUNDED % bounds, str(TOOLS / "from-skos"), str(path), "--lang", "en"]
    return subprocess.run(call, capture_output=True, text=True, check=False)


def rdf_xml(entities: str, text: str) -> str:
    """Returns RDF/XML with a scheme, whose label is a text that may name entities."""
    return (
        f"<!DOCTYPE rdf:RDF [{entities}]>"
        f'<rdf:RDF xmlns:rdf="http://www.w3.org/1999/02/22-rdf-syntax-ns#" xmlns:skos="{SKOS}">'
        '<skos:ConceptScheme rdf:about="http://a.example/1">'
        f'<skos:prefLabel xml:lang="en">{text}</skos:prefLabel></skos:ConceptScheme></rdf:RDF>'
    )


def bomb(levels: int) -> str:
    """Returns RDF/XML whose entities stand for ten times as many at each level."""
    texts = ["a&#10;b" * 10, *(f"&e{n};" * 10 for n in range(levels - 1))]
    return rdf_xml("".join(f'<!ENTITY e{n} "{text}">' for n, text in enumerate(texts)), f"&e{levels - 1};")


def test_contexts_of_other_servers_are_not_fetched(tmp_path: Path, served: tuple[str, list[str]]) -> None:
    url, asked = served
    ran = tool("from-skos", write_jsonld(tmp_path / "a.jsonld", url))
    assert (ran.status, ran.out, asked) == (REFUSED, b"", [])
    assert url in ran.err.decode() and "--fetch" in ran.err.decode()
    ran = tool("from-skos", "--fetch", tmp_path / "a.jsonld")
    assert (ran.status, asked) == (0, ["/context.jsonld"]), ran.err
    assert b'"text":"A"' in ran.out


@pytest.mark.parametrize("is_relative", [True, False])
def test_other_files_are_not_opened(tmp_path: Path, is_relative: bool) -> None:
    context = tmp_path / "context.jsonld"
    context.write_text(json.dumps(CONTEXT), encoding="utf-8")
    path = write_jsonld(tmp_path / "a.jsonld", context.name if is_relative else context.as_uri())
    ran = tool("from-skos", path)
    assert (ran.status, ran.out) == (REFUSED, b"")
    assert str(context) in ran.err.decode() and "--fetch" in ran.err.decode()
    ran = tool("from-skos", "--fetch", path)
    assert ran.status == 0, ran.err
    assert b'"text":"A"' in ran.out


def test_external_entities_are_not_read(tmp_path: Path) -> None:
    secret = tmp_path / "secret"
    secret.write_text("geheim", encoding="utf-8")
    path = tmp_path / "a.rdf"
    path.write_text(rdf_xml(f'<!ENTITY secret SYSTEM "{secret.as_uri()}">', "A &secret;"), encoding="utf-8")
    ran = tool("from-skos", path, "--lang", "en", "--drop")
    assert b"geheim" not in ran.out + ran.err


def test_a_bomb_of_entities_is_given_up_soon(tmp_path: Path) -> None:
    path = tmp_path / "a.rdf"
    path.write_text(bomb(7), encoding="utf-8")
    ran, use = tool_with_use("from-skos", path, "--lang", "en")
    assert use.seconds < 60
    assert (ran.status, ran.out) == (REFUSED, b"")
    assert "more than 10 seconds" in ran.err.decode() and "N-Triples" in ran.err.decode()


def test_a_text_of_escapes_is_given_up_soon(tmp_path: Path) -> None:
    path = tmp_path / "a.ttl"
    escapes = "\\t" * 600_000
    path.write_text(f'<http://a.example/1> <{SKOS}prefLabel> "{escapes}"@en .\n', encoding="utf-8")
    ran = bounded(path, "1, 1, 1 << 30, 1")
    assert (ran.returncode, ran.stdout) == (REFUSED, "")
    assert "more than 2 seconds" in ran.stderr


def test_memory_has_a_bound(tmp_path: Path) -> None:
    path = tmp_path / "a.ttl"
    lines = [f'<http://a.example/{n}> <{SKOS}prefLabel> "Term {n}"@en .\n' for n in range(100_000)]
    path.write_text("".join(lines), encoding="utf-8")
    ran = bounded(path, "100, 100, 1 << 20, 1")
    assert (ran.returncode, ran.stdout) == (REFUSED, "")
    assert "memory" in ran.stderr and ran.stderr.count("\n") == 1


@pytest.mark.parametrize("ending", ["nt", "ttl", "rdf", "jsonld"])
def test_a_gigabyte_of_nothing(tmp_path: Path, ending: str) -> None:
    """It takes neither time nor memory."""
    path = tmp_path / f"nothing.{ending}"
    with open(path, "wb") as file:
        file.truncate(1 << 30)
    ran, use = tool_with_use("from-skos", path, "--lang", "en", "--drop", "-o", tmp_path / "script")
    assert (ran.status, ran.out) == (USAGE, b"") and ran.err.count(b"\n") == 1, ran.err
    assert b"a megabyte without the end of a line" in ran.err or b"more than 256 megabytes" in ran.err
    assert use.seconds < 20 and use.memory < 500 << 20 and not (tmp_path / "script").exists()
