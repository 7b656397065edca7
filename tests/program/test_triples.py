"""Other readers of N-Triples (rapper, serdi, Python's rdflib) find in exports exactly the expected triples. rdflib
6.1.1 mistakes an escaped backslash before an n for a line end, so no text here has that pair."""
from __future__ import annotations

import json
import re
import subprocess
import sys
from collections.abc import Callable, Iterator
from pathlib import Path
from typing import NamedTuple

import pytest
from program import ROOT, lines_of, over

# An IRI, or a text with its tag and its datatype; and a triple of these.
Term = tuple[str | None, ...]
Triple = tuple[Term, Term, Term]
EXAMPLES = ROOT / "crates" / "test_examples" / "data" / "exports.txt"
BASE = "https://thesaurus.example/id/"
SKOS = "http://www.w3.org/2004/02/skos/core#"
TYPE = "http://www.w3.org/1999/02/22-rdf-syntax-ns#type"
TERM = r'<([^>]*)>|"((?:[^"\\]|\\.)*)"(?:@([A-Za-z0-9-]+)|\^\^<([^>]*)>)?'
LINE = re.compile(rf"\s*(?:{TERM})\s+(?:{TERM})\s+(?:{TERM})\s*\.\s*")
ESCAPES = {"t": "\t", "b": "\b", "n": "\n", "r": "\r", "f": "\f", '"': '"', "'": "'", "\\": "\\"}
# Texts that need an escape, or bytes of each length.
TEXTS = [
    "plain",
    'a "quoted" one',
    "back\\slash",
    '\\"',
    "é and ß",
    "日本語",
    "😺 and 𝄞",
    "it's \\ no line",
    '"',
    "\\",
    "a\u2028b\u0085c",
]


def unescaped(text: str) -> str:
    return re.sub(r"\\(u[0-9A-Fa-f]{4}|U[0-9A-Fa-f]{8}|.)", lambda m: ESCAPES.get(m[1]) or chr(int(m[1][1:], 16)), text)


def term(iri: str, text: str | None, tag: str | None, type_: str | None) -> Term:
    return ("iri", unescaped(iri)) if text is None else ("text", unescaped(text), tag and tag.lower(), type_)


def statements(lines: str) -> set[Triple]:
    """The triples of lines of N-Triples, with each escape undone."""
    matches = [LINE.fullmatch(line) for line in lines.split("\n") if line.strip()]
    parts = [it.groups() for it in matches if it]
    assert len(parts) == len(matches)
    return {(term(*it[:4]), term(*it[4:8]), term(*it[8:])) for it in parts}


def by_rapper(path: Path) -> set[Triple]:
    done = subprocess.run(
        ["rapper", "-q", "-i", "ntriples", "-o", "ntriples", str(path)], capture_output=True, check=True
    )
    return statements(done.stdout.decode())


def by_serdi(path: Path) -> set[Triple]:
    done = subprocess.run(["serdi", "-i", "ntriples", "-o", "ntriples", str(path)], capture_output=True, check=True)
    return statements(done.stdout.decode())


RDFLIB = """
import json, sys, rdflib
def shown(node):
    if isinstance(node, rdflib.URIRef):
        return ["iri", str(node)]
    return ["text", str(node), node.language and node.language.lower(), node.datatype and str(node.datatype)]
print(json.dumps([list(map(shown, triple)) for triple in rdflib.Graph().parse(sys.argv[1], format="nt")]))
"""


def by_rdflib(path: Path) -> set[Triple]:
    done = subprocess.run([sys.executable, "-c", RDFLIB, str(path)], capture_output=True, check=True)
    return {(tuple(a), tuple(b), tuple(c)) for a, b, c in json.loads(done.stdout)}


READERS = [
    pytest.param(by_rapper, marks=pytest.mark.needs("rapper"), id="rapper"),
    pytest.param(by_serdi, marks=pytest.mark.needs("serdi"), id="serdi"),
    pytest.param(by_rdflib, marks=pytest.mark.needs("rdflib"), id="rdflib"),
]


def requests() -> Iterator[dict[str, object]]:
    """A store with each text as a label of each kind, and with an outside concept whose IRI has characters of each
    length."""
    yield {"do": "scheme", "tag": "en", "text": "Texts"}
    for number, text in enumerate(TEXTS, 2):
        yield {"do": "concept", "scheme": 1, "tag": "en", "text": f"c{number}"}
        for kind in ("alt", "hidden", "scope"):
            yield {"do": "addLabel", "owner": number, "kind": kind, "tag": f"x-{kind}", "text": text}
    yield {"do": "outside", "iri": "http://example.org/é/日/😺?a=b#c"}
    yield {"do": "link", "kind": "exact", "a": 2, "b": len(TEXTS) + 2}


def wanted() -> set[Triple]:
    """Its triples, made anew from the texts."""

    def node(n: int) -> Term:
        return ("iri", f"{BASE}{n}")

    def skos(name: str) -> Term:
        return ("iri", SKOS + name)

    out: set[Triple] = {
        (node(1), ("iri", TYPE), skos("ConceptScheme")),
        (node(1), skos("prefLabel"), ("text", "Texts", "en", None)),
    }
    for number, text in enumerate(TEXTS, 2):
        out |= {
            (node(number), ("iri", TYPE), skos("Concept")),
            (node(number), skos("prefLabel"), ("text", f"c{number}", "en", None)),
            (node(number), skos("inScheme"), node(1)),
            (node(number), skos("topConceptOf"), node(1)),
            (node(1), skos("hasTopConcept"), node(number)),
        }
        for kind, name in (("alt", "altLabel"), ("hidden", "hiddenLabel"), ("scope", "scopeNote")):
            out.add((node(number), skos(name), ("text", text, f"x-{kind}", None)))
    out.add((node(2), skos("exactMatch"), ("iri", "http://example.org/é/日/😺?a=b#c")))
    return out


class Export(NamedTuple):
    """An export in a file, its lines, and its triples."""

    file: Path
    text: str
    triples: set[Triple]


def export_of(file: Path, script: bytes, triples: set[Triple] | None = None) -> Export:
    """The export of a store that a script makes, with the triples that it is to have: if they aren't known, with those
    of its lines."""
    path = file.with_suffix(".db")
    assert not over(path, "script", script).status
    exported = over(path, "export")
    assert (exported.status, exported.err) == (0, b"")
    file.write_bytes(exported.out)
    text = exported.out.decode()
    return Export(file, text, statements(text) if triples is None else triples)


@pytest.fixture(scope="module")
def texts(tmp_path_factory: pytest.TempPathFactory) -> Export:
    return export_of(tmp_path_factory.mktemp("texts") / "texts.nt", lines_of(requests()), wanted())


def stored_example() -> tuple[bytes, str]:
    """The requests and the export of the second stored example, which has a triple of each kind."""
    lines, _, export = EXAMPLES.read_text(encoding="utf-8").split("\n% ")[2].partition("\n@ export\n")
    script = "".join(it[2:] for it in lines.splitlines(keepends=True) if it.startswith("> "))
    return script.encode() + b"\n", export


@pytest.fixture(scope="module")
def each_kind(tmp_path_factory: pytest.TempPathFactory) -> Export:
    return export_of(tmp_path_factory.mktemp("kinds") / "stored.nt", stored_example()[0])


def test_export_with_each_kind_is_the_stored_one(each_kind: Export) -> None:
    assert each_kind.text == stored_example()[1] and each_kind.text.count("\n") == 52


def test_texts_are_those_wanted(texts: Export) -> None:
    assert statements(texts.text) == texts.triples


@pytest.mark.parametrize("read", READERS)
@pytest.mark.parametrize("name", ["each_kind", "texts"])
def test_reader_finds_the_triples(
    name: str, read: Callable[[Path], set[Triple]], request: pytest.FixtureRequest
) -> None:
    export: Export = request.getfixturevalue(name)
    found = read(export.file)
    assert found == export.triples and len(found) == export.text.count("\n")
