"""tools/check-skos: it finds nothing in the exports of the stored examples and of generated stores, and in broken
exports each rule, by what a file says and by what that entails. The exports of the program are also those of the plain
program, byte for byte."""
from __future__ import annotations

import re
from pathlib import Path

import pytest
from office import SKOS, export_of, generated, tool
from program import ROOT, Ended, lines_of, over

EXAMPLES = ROOT / "crates" / "test_examples" / "data" / "exports.txt"
SEEDS, COUNT = range(1, 5), 400
A, B, C, S, K = (f"<http://example.org/{it}>" for it in ("a", "b", "c", "s", "k"))
IS = "<http://www.w3.org/1999/02/22-rdf-syntax-ns#type>"
DEAD = '<http://www.w3.org/2002/07/owl#deprecated> "true"^^<http://www.w3.org/2001/XMLSchema#boolean>'
WELL = [
    f"{S} {IS} skos:ConceptScheme",
    f'{S} skos:prefLabel "S"@en',
    f"{K} {IS} skos:Collection",
    f'{K} skos:prefLabel "K"@en',
    f"{K} skos:member {A}",
    *(f"{it} {IS} skos:Concept" for it in (A, B, C)),
    *(f"{it} skos:inScheme {S}" for it in (A, B, C)),
    f'{A} skos:prefLabel "A"@en',
    f'{B} skos:prefLabel "B"@en',
    f'{C} skos:prefLabel "C"@en',
]
# What is added to these lines, and the rules that are broken then.
CASES: dict[str, tuple[list[str], list[str]]] = {
    "nothing": ([], []),
    "all kinds of links": (
        [f"{A} skos:broader {B}", f"{A} skos:related {C}", f"{A} skos:exactMatch <x:1>", f"{A} skos:broadMatch <x:2>"],
        [],
    ),
    "preferred and alternative, in a second language": (
        [f'{A} skos:altLabel "A"@de', f'{A} skos:prefLabel "A"@de'],
        ["S13"],
    ),
    "equal texts of two kinds in two languages": ([f'{A} skos:altLabel "A"@de', f'{B} skos:altLabel "A"@en'], []),
    "a concept that is a scheme": ([f"{A} {IS} skos:ConceptScheme"], ["S9"]),
    "a concept in which another is": ([f"{B} skos:inScheme {A}"], ["S9"]),
    "a scheme with something broader": ([f"{S} skos:broader {A}"], ["S9"]),
    "a scheme as a match": ([f"{A} skos:closeMatch {S}"], ["S9"]),
    "a scheme that is a top concept": ([f"{S} skos:hasTopConcept {S}"], ["S9"]),
    "preferred and alternative": ([f'{A} skos:altLabel "A"@en'], ["S13"]),
    "preferred and hidden, a tag in capitals": ([f'{A} skos:hiddenLabel "A"@EN'], ["S13"]),
    "alternative and hidden": ([f'{A} skos:hiddenLabel "x"@en', f'{A} skos:altLabel "x"@en'], ["S13"]),
    "two preferred labels": ([f'{A} skos:prefLabel "AA"@en'], ["S14"]),
    "two preferred labels, a tag in capitals": ([f'{A} skos:prefLabel "AA"@En'], ["S14"]),
    "preferred labels in two languages": ([f'{A} skos:prefLabel "AA"@de'], []),
    "related and above": ([f"{A} skos:broader {B}", f"{B} skos:broader {C}", f"{C} skos:related {A}"], ["S27"]),
    "related and above by matches": ([f"{A} skos:narrowMatch {B}", f"{B} skos:relatedMatch {A}"], ["S27"]),
    "related and above by narrower": ([f"{C} skos:narrower {A}", f"{A} skos:related {C}"], ["S27"]),
    "related siblings": ([f"{A} skos:broader {C}", f"{B} skos:broader {C}", f"{A} skos:related {B}"], []),
    "a collection that is a concept": ([f"{K} {IS} skos:Concept"], ["S37"]),
    "a collection that is a scheme": ([f"{A} skos:topConceptOf {K}"], ["S37"]),
    "a concept with members": ([f"{A} skos:member {B}"], ["S37"]),
    "exact and broad": ([f"{A} skos:exactMatch {B}", f"{A} skos:broadMatch {B}"], ["S46"]),
    "exact by a chain and narrow": (
        [f"{A} skos:exactMatch <x:1>", f"{B} skos:exactMatch <x:1>", f"{A} skos:narrowMatch {B}"],
        ["S46"],
    ),
    "exact by two chains and broad": (
        [
            f"{A} skos:exactMatch <x:1>",
            f"{A} skos:exactMatch <x:2>",
            f"{B} skos:exactMatch <x:1>",
            f"{C} skos:exactMatch <x:2>",
            f"{A} skos:broadMatch {B}",
            f"{A} skos:broadMatch {C}",
        ],
        ["S46", "S46"],
    ),
    "exact and a related match": ([f"{A} skos:exactMatch <x:1>", f"<x:1> skos:relatedMatch {A}"], ["S46"]),
    "exact and a close match": ([f"{A} skos:exactMatch <x:1>", f"{A} skos:closeMatch <x:1>"], []),
    "above itself": ([f"{A} skos:broader {A}"], ["cycle"]),
    "a ring": (
        [f"{A} skos:broader {B}", f"{C} skos:narrower {B}", f"{A} skos:narrowMatch {C}"],
        ["cycle", "cycle", "cycle"],
    ),
    "below a ring": ([f"{A} skos:broader {B}", f"{B} skos:broader {B}"], ["cycle"]),
    "one preferred label twice in a scheme": ([f'{B} skos:prefLabel "A"@de', f'{A} skos:prefLabel "A"@de'], ["unique"]),
    "one preferred label twice, one deprecated": (
        [f'{B} skos:prefLabel "A"@de', f'{A} skos:prefLabel "A"@de', f"{B} {DEAD}"],
        [],
    ),
    "one preferred label in two schemes": (
        [f"<x:1> {IS} skos:Concept", '<x:1> skos:prefLabel "A"@en', "<x:1> skos:inScheme <x:2>"],
        [],
    ),
    "a concept without a label": ([f"<x:1> {IS} skos:Concept", '<x:1> skos:altLabel "x"@en'], ["preferred"]),
    "a scheme and a collection without labels": (
        [f"<x:1> {IS} skos:ConceptScheme", f"<x:2> {IS} skos:Collection"],
        ["preferred", "preferred"],
    ),
}
# Files with how the tool ends on them, which are called FILE.
ENDS: dict[str, tuple[str, tuple[int, bytes, bytes]]] = {
    "a line that is no triple": (
        f"{A} {IS} {B} .\n{A} {B}\n",
        (1, b"", b"check-skos: FILE:2: no triple of N-Triples\n"),
    ),
    "an empty file": ("", (0, b"FILE: 0 triples, 0 schemes, 0 concepts, 0 collections, 0 broken\n", b"")),
    "a broken rule": (
        f'{K} <{SKOS}member> {K} .\n{K} {IS} <{SKOS}Concept> .\n{K} <{SKOS}prefLabel> "K"@en .\n',
        (
            1,
            b"FILE: S37: <http://example.org/k> is a collection and a concept\n"
            b"FILE: 3 triples, 0 schemes, 1 concepts, 0 collections, 1 broken\n",
            b"",
        ),
    ),
}


def checked(file: Path, data: bytes) -> Ended:
    """How the tool ends on a file of this content, with the file called FILE."""
    file.write_bytes(data)
    ended = tool("check-skos", file)
    return ended._replace(out=ended.out.replace(bytes(file), b"FILE"), err=ended.err.replace(bytes(file), b"FILE"))


@pytest.mark.parametrize("is_reversed", [False, True], ids=["in order", "reversed"])
@pytest.mark.parametrize("what", CASES)
def test_rules_that_are_broken(what: str, is_reversed: bool, room: Path) -> None:
    more, wanted = CASES[what]
    lines = [re.sub(r"skos:(\w+)", rf"<{SKOS}\1>", it) + " .\n" for it in (*WELL, *more)]
    ended = checked(room / "case.nt", "".join(reversed(lines) if is_reversed else lines).encode())
    assert not ended.err and ended.status == bool(wanted)
    assert sorted(it.split(": ")[1] for it in ended.out.decode().splitlines()[:-1]) == sorted(wanted)


@pytest.mark.parametrize("what", ENDS)
def test_end(what: str, room: Path) -> None:
    text, wanted = ENDS[what]
    assert checked(room / "end.nt", text.encode()) == wanted


@pytest.mark.parametrize(("words", "status"), [(["missing.nt"], 3), ([], 2)], ids=["a missing file", "no file"])
def test_no_file(words: list[str], status: int, room: Path) -> None:
    ended = tool("check-skos", *(room / it for it in words))
    assert (ended.status, ended.out) == (status, b"") and ended.err


def stored_exports() -> dict[str, bytes]:
    """The exports in the stored examples."""
    found = {}
    for example in EXAMPLES.read_text(encoding="utf-8").split("\n% ")[1:]:
        name, _, rest = example.partition("\n")
        found[name] = f"{rest.partition('@ export')[2].strip()}\n".encode()
    return found


STORED = stored_exports()


def assert_keeps_all_rules(file: Path, export: bytes) -> None:
    ended = checked(file, export)
    said = rf"FILE: {len(export.splitlines())} triples, [1-9].*, 0 broken$"
    assert not ended.status and re.match(said, ended.out.decode()), ended


@pytest.mark.parametrize("name", STORED)
def test_stored_export_keeps_all_rules(name: str, room: Path) -> None:
    assert_keeps_all_rules(room / "export.nt", STORED[name])


@pytest.mark.parametrize("seed", SEEDS)
def test_export_is_that_of_the_plain_program_and_keeps_all_rules(seed: int, room: Path) -> None:
    requests, plain = generated(seed, COUNT)
    over(room / "generated.db", "script", lines_of(requests))
    export = over(room / "generated.db", "export").out
    assert export == export_of(plain)
    assert_keeps_all_rules(room / "export.nt", export)
