"""Checks the page of the library, the comments of crates/thesaurus/src/lib.rt: each item of an example is, word for
word, one of a crate of tests, which `rt ci` proves and runs; each name that the library exports is in an example; and
the calls that the page lists under an error are those whose signatures have it. The crate of examples/LIBRARY.md is
made of such items, too, and has all that it names."""
from __future__ import annotations

import re
from collections import defaultdict
from collections.abc import Iterator
from typing import NamedTuple

import pytest
from program import ROOT
from specs import OWNER

PAGE = ROOT / "crates" / "thesaurus" / "src" / "lib.rt"
FENCE = "```"
EXPORTS = re.compile(r"^pub use (\w+)::(?:\w+::)*(?:\{([^}]*)\}|(\w+(?: as \w+)?));", re.MULTILINE)
PUBLIC = re.compile(r"( *)(pub )?(?:const )?fn (\w+)")
SIGNATURE_END = re.compile(r"[{;]$|\{\}$")
CLAUSE = re.compile(r"\s*(?:requires|ensures|decreases)\b")
# What the page calls an error that comes with a value.
WITH_VALUE = "with what was passed in"


class Export(NamedTuple):
    """An item that the library exports: its crate, its name there, and its name in the library."""

    crate: str
    item: str
    name: str


def comments() -> list[str]:
    """The lines of the page's comments, without their marks."""
    lines = PAGE.read_text(encoding="utf-8").splitlines()
    return [re.sub(r"^//!? ?", "", it) for it in lines if it.startswith("//")]


def exports() -> list[Export]:
    found = []
    for crate, several, one in EXPORTS.findall(PAGE.read_text(encoding="utf-8")):
        for part in re.findall(r"\w+(?: as \w+)?", several or one):
            item, _, name = part.partition(" as ")
            found.append(Export(crate, item, name or item))
    return found


def items() -> Iterator[str]:
    """The items of the page's examples. An item begins and ends with a line that isn't indented."""
    inside = False
    item: list[str] = []
    for line in comments():
        if line == FENCE:
            assert not item, f"an item isn't ended: {item[0]}"
            inside = not inside
        elif inside and (line or item):
            item.append(line)
            if line == "}":
                yield "\n".join(item)
                item = []


ITEMS = list(items())
# The page with a crate to copy, and what differs there: the program of test_library runs more examples.
CRATE = (ROOT / "examples" / "LIBRARY.md").read_text(encoding="utf-8")
DIFFERS = ("run(", "run_all(")


def crate_parts() -> tuple[str, list[str]]:
    """The head of that crate, with what it imports, and its items."""
    text = CRATE.partition("```rust\n")[2].partition(FENCE)[0]
    head, *items = re.split(r"\n\n(?=///|// |#\[|pub |fn |impl )", text.rstrip("\n"))
    return head, items


def names_of(pattern: str, text: str) -> set[str]:
    """The names that a pattern finds in lists, as those of imports."""
    return {it for found in re.findall(pattern, text, re.DOTALL) for it in re.findall(r"\w+", found)}


def sources_of(pattern: str) -> Iterator[tuple[str, str]]:
    """The sources of crates, each with the name of its crate."""
    for path in sorted(ROOT.glob(f"crates/{pattern}/src/**/*.rt")):
        yield path.relative_to(ROOT / "crates").parts[0], path.read_text(encoding="utf-8")


def returned(lines: list[str], at: int) -> str:
    """The type that the function whose head begins at a line returns."""
    head = lines[at]
    while not SIGNATURE_END.search(lines[at]) and not CLAUSE.match(lines[at + 1]):
        at += 1
        head += " " + lines[at].strip()
    match = re.search(r"-> (.*?)\s*(?:\{|\{\}|;)?$", head)
    return match[1] if match else ""


def error_of(type_: str) -> str:
    """The error of a type of results, or nothing."""
    if type_.startswith("io::Result<"):
        return "io::Error"
    match = re.match(r"Result<.*, (?:(\w+)|\(.*\))>$", type_)
    return (match[1] or WITH_VALUE) if match else ""


def functions(text: str) -> Iterator[tuple[str, str, str]]:
    """The functions of a source that others may call: the type or trait, the name, and the error."""
    lines = text.splitlines()
    owner, is_open = "", False
    for at, line in enumerate(lines):
        if OWNER.match(line):
            head = re.split(r"\{|\bwhere\b", line)[0]
            is_open = line.startswith("pub trait ")
            of = re.sub(r".* for |impl(<[^{]*?>)? |(pub )?trait ", "", head)
            owner = "".join(re.findall(r"\w+", of)[:1])
        elif line == "}":
            owner, is_open = "", False
        elif (match := PUBLIC.match(line)) and (match[2] or is_open) and bool(match[1]) == bool(owner):
            yield owner, match[3], error_of(returned(lines, at))


def calls_with_errors() -> dict[str, set[str]]:
    """The calls of the library that may return an error, by the error."""
    found: dict[str, set[str]] = defaultdict(set)
    names = {(it.crate, it.item): it.name for it in exports()}
    for crate, text in sources_of("thes_*"):
        # (the types of texts and of numbers are those of one type, which isn't exported)
        aliases: dict[str, list[str]] = defaultdict(list)
        for alias, of in re.findall(r"^pub type (\w+) = (\w+)<", text, re.MULTILINE):
            if (crate, alias) in names and (crate, of) not in names:
                aliases[of].append(alias)
        for owner, name, error in functions(text):
            of = [names[crate, owner or name]] if (crate, owner or name) in names else aliases[owner]
            found[error].update(f"{it}::{name}" if owner else it for it in of)
    return {error: names for error, names in found.items() if error and names}


def listed_errors() -> dict[str, set[str]]:
    """The names in each point of the page on errors, by the error that it begins with."""
    text = "\n".join(comments())
    part = text[text.index("# Errors\n") :].split(FENCE)[0]
    found: dict[str, set[str]] = {}
    for point in re.split(r"\n- ", part)[1:]:
        codes = re.findall(r"`([^`]+)`", point)
        if WITH_VALUE in point:
            found[WITH_VALUE] = set(codes)
        elif point.startswith("`"):
            found[codes[0]] = set(codes[1:])
    return found


@pytest.mark.parametrize("item", ITEMS, ids=lambda it: it.partition("\n")[0])
def test_example_is_in_a_program(item: str) -> None:
    assert any(f"\n{item}\n" in text for _, text in sources_of("test_*")), item


@pytest.mark.parametrize("item", crate_parts()[1], ids=lambda it: it.rpartition("fn ")[2].partition("(")[0])
def test_item_of_the_crate_to_copy_is_in_a_program(item: str) -> None:
    programs = "".join(text for _, text in sources_of("test_library"))
    assert any(f"\n{it}\n" in programs for it in (item, item.replace(*DIFFERS))), item


def test_the_crate_to_copy_has_all_that_it_names() -> None:
    head, its = crate_parts()
    code = re.sub(r"//.*|\"[^\"]*\"", "", "\n".join(its))
    imported = names_of(r"use thesaurus::\{([^}]*)\}", head)
    assert imported <= {it.name for it in exports()}
    defined = names_of(r"\b(?:fn|enum) (\w+)", code)
    called = set(re.findall(r"(?<![.:\w])([a-z]\w*)\(", code)) - {"derive", "drop"}
    assert called - {"fn"} <= defined | imported
    assert imported | defined - {"main"} <= set(re.findall(r"\w+", code))
    types = {*re.findall(r"\b[A-Z]\w+", head), *re.findall(r"<(\w):", code)}
    of_std = set(
        "Ok Err Result Option Vec String Copy Clone Debug PartialEq Eq From Print HostRuntime Drop Failure".split()
    )
    assert {*re.findall(r"(?<![:\w])([A-Z]\w*)", code)} <= types | of_std | set("TUEABKR")


def test_the_crate_to_copy_prints_what_that_program_does() -> None:
    printed = (ROOT / "crates" / "test_library" / "stdout").read_text(encoding="utf-8").splitlines()
    assert CRATE.split(f"{FENCE}\n")[1].rstrip("\n") in printed


def test_each_export_is_in_an_example() -> None:
    words = set(re.findall(r"\w+", "\n".join(ITEMS)))
    assert exports() and not [it.name for it in exports() if it.name not in words]


def test_errors_are_those_of_the_calls() -> None:
    expected = calls_with_errors()
    calls = {it for names in expected.values() for it in names}
    assert {error: names & calls for error, names in listed_errors().items()} == expected
