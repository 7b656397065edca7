"""Exports and displays of a store in a file."""
from __future__ import annotations

import resource
import subprocess
import tempfile
from collections.abc import Iterator
from pathlib import Path

import pytest
from animals import NARROWER, TERMS, TREE
from program import MEMORY, built, lines_of, over, run

QUOTED = b"""\
{"do":"scheme","tag":"en","text":"Animals"}
{"do":"concept","scheme":1,"tag":"en","text":"a \\"b\\\\c"}
{"do":"concept","scheme":1,"tag":"en","text":"M"}
{"do":"merge","source":2,"target":3}
"""
# Its triples, line for line: subject, property and object, with B for the base.
TRIPLES = """\
<B1> rdf:type skos:ConceptScheme
<B1> skos:hasTopConcept <B3>
<B1> skos:prefLabel "Animals"@en
<B2> dct:isReplacedBy <B3>
<B2> rdf:type skos:Concept
<B2> owl:deprecated "true"^^xsd:boolean
<B2> skos:inScheme <B1>
<B2> skos:prefLabel "a \\"b\\\\c"@en
<B3> rdf:type skos:Concept
<B3> skos:altLabel "a \\"b\\\\c"@en
<B3> skos:inScheme <B1>
<B3> skos:prefLabel "M"@en
<B3> skos:topConceptOf <B1>
"""
VOCABULARIES = {
    "rdf": "http://www.w3.org/1999/02/22-rdf-syntax-ns#",
    "skos": "http://www.w3.org/2004/02/skos/core#",
    "owl": "http://www.w3.org/2002/07/owl#",
    "xsd": "http://www.w3.org/2001/XMLSchema#",
    "dct": "http://purl.org/dc/terms/",
}
LEVELS = 15_000
LITTLE_MEMORY = 200_000_000


def written_out(lines: str) -> bytes:
    """The lines of an export, of triples with short names."""
    lines = lines.replace("<B", "<https://thesaurus.example/id/")
    for prefix, iri in VOCABULARIES.items():
        lines = "\n".join(
            " ".join(f"<{iri}{it[len(prefix) + 1:]}>" if it.startswith(f"{prefix}:") else it for it in line.split(" "))
            for line in lines.split("\n")
        )
        lines = lines.replace(f"^^{prefix}:boolean", f"^^<{iri}boolean>")
    return lines.replace("\n", " .\n").encode()


def test_export_has_its_lines_by_their_bytes(tmp_path: Path) -> None:
    path = tmp_path / "quoted.db"
    over(path, "script", QUOTED)
    assert over(path, "export") == (0, written_out(TRIPLES), b"")
    with open("/dev/full", "wb") as full:
        assert run(["--db", path, "export"], stdout=full) == (3, b"", b"thesaurus: fault Write\n")


def test_export_of_nothing_is_empty() -> None:
    assert run(["export"]) == (0, b"", b"")


@pytest.fixture(scope="module")
def narrower(tmp_path_factory: pytest.TempPathFactory) -> Path:
    """A store with a scheme that has concepts, and one without, which is number 6."""
    path = tmp_path_factory.mktemp("narrower") / "narrower.db"
    over(path, "script", NARROWER + b'{"do":"scheme","tag":"en","text":"Plants"}\n')
    return path


@pytest.mark.parametrize("command", ["alphabetical", "hierarchical"])
@pytest.mark.parametrize(
    ("scheme", "wanted"),
    [
        ("1", None),
        ("6", (0, b"", b"")),
        ("7", (1, b"", b"thesaurus: UnknownResource\n")),
        ("2", (1, b"", b"thesaurus: WrongKind\n")),
        ("0", (2, b"", b"thesaurus: BadNumber\n")),
    ],
    ids=["a scheme", "a scheme without concepts", "nothing", "a concept", "no number"],
)
def test_display(command: str, scheme: str, wanted: tuple[int, bytes, bytes] | None, narrower: Path) -> None:
    ended = over(narrower, command, after=["--lang", "en", "--scheme", scheme])
    assert ended == (wanted or (0, {"alphabetical": TERMS, "hierarchical": TREE}[command], b""))


def chain_of(levels: int) -> Iterator[dict[str, object]]:
    """A scheme and a chain of concepts, each below the one before."""
    yield {"do": "scheme", "tag": "en", "text": "Levels"}
    for level in range(levels):
        yield {"do": "concept", "scheme": 1, "tag": "en", "text": f"Level {level}"}
    for level in range(1, levels):
        yield {"do": "link", "kind": "broader", "a": 2 + level, "b": 1 + level}


@pytest.fixture(scope="module")
def deep() -> Iterator[Path]:
    """A store with a chain of 15,000 levels, whose display has some 225 MB of spaces."""
    with tempfile.TemporaryDirectory(dir=MEMORY) as place:
        path = Path(place) / "deep.db"
        made = over(path, "script", lines_of(chain_of(LEVELS)))
        assert not made.status and made.out.count(b"\n") == 2 * LEVELS
        yield path


DEEP_WORDS = ["--scheme", "1", "--lang", "en"]


def test_display_of_a_deep_chain(deep: Path) -> None:
    with subprocess.Popen([built(), "--db", deep, "hierarchical", *DEEP_WORDS], stdout=subprocess.PIPE) as display:
        assert display.stdout
        as_wanted = [it == b"%sLevel %d\n" % (level * b"  ", level) for level, it in enumerate(display.stdout)]
    assert (display.returncode, len(as_wanted), sum(as_wanted)) == (0, LEVELS, LEVELS)


def limit_memory() -> None:
    resource.setrlimit(resource.RLIMIT_AS, (LITTLE_MEMORY, LITTLE_MEMORY))


def test_display_for_which_memory_lacks_writes_nothing(deep: Path) -> None:
    ended = over(deep, "hierarchical", after=DEEP_WORDS, preexec_fn=limit_memory)
    assert ended == (3, b"", b"thesaurus: fault OutOfMemory\n")
