"""Checks documents against the sources. docs/GLOSSARY.md is what dev/list-definitions makes of the specs' comments,
and the definitions that docs/DEFINITIONS.md names as `File.name` are there. The lists of promises in docs/PROOFS.md are
what dev/list-promises makes of the comments of functions, each crate of the program is in them, and the functions,
clauses and definitions that its tables name are there. Its headline is what dev/list-headline makes of definitions and
contracts, and the glossary explains what that names; what it rests on is dev/list-assumptions' list of the toolchain.
The table of crates in docs/ARCHITECTURE.md is what dev/list-crates makes of crates.txt, and the files that it names are
there. Each of the tools writes its page with --write."""
from __future__ import annotations

import re
import subprocess
import sys
from collections.abc import Iterator

import pytest
import specs
from program import ROOT

DOCS = ROOT / "docs"
# The columns of tables in PROOFS.md that name parts of the sources; the others may name tests.
NAMING = ("Function", "Clause, and its definition", "Proved by", "Premises")
# Words in these columns that aren't of the sources.
OTHER = {"Ok"}


def text_of(name: str) -> str:
    return (DOCS / name).read_text(encoding="utf-8")


def rows_of(page: str) -> Iterator[tuple[list[str], list[str]]]:
    """The rows of a page's tables, as pairs of their heads and their cells."""
    head: list[str] = []
    for line in page.splitlines():
        cells = [it.strip() for it in re.split(r"(?<!\\)\|", line)[1:-1]]
        if not cells:
            head = []
        elif not head:
            head = cells
        if cells:
            yield head, cells


@pytest.mark.parametrize(
    "tool",
    [
        *("list-definitions", "list-promises", "list-headline", "list-crates"),
        # (it asks the toolchain for its libraries)
        pytest.param("list-assumptions", marks=pytest.mark.needs("rt")),
    ],
)
def test_page_is_up_to_date(tool: str) -> None:
    ran = subprocess.run([sys.executable, ROOT / "dev" / tool], capture_output=True, text=True, check=False)
    assert not ran.returncode, ran.stdout + ran.stderr


def test_definitions_that_are_named_are_there() -> None:
    there = {(it.file, it.name) for it in specs.read_specs().all}
    named = set(re.findall(r"`([A-Z]\w+)\.(?!antt)(\w+)`", text_of("DEFINITIONS.md")))
    assert named and not named - there


def present() -> set[str]:
    """The names of functions, clauses, types, crates and files of the sources, and all words of specifications."""
    sources = "\n".join(it.read_text(encoding="utf-8") for it in ROOT.glob("crates/*/src/**/*.rt"))
    words = "\n".join(it.read_text(encoding="utf-8") for it in ROOT.glob("crates/*/specs/*.antt"))
    names = re.findall(r"\b(?:fn|struct|enum|trait|type|mod|ensures|requires)\*? (\w+)", sources)
    return {*names, *re.findall(r"[^\s(){}:.,;]+", words), *(it.name for it in ROOT.glob("crates/*")), *OTHER}


def test_promises_name_what_is_there() -> None:
    known = present()
    cells = [cell for head, row in rows_of(text_of("PROOFS.md")) for column, cell in zip(head, row) if column in NAMING]
    names = [it for cell in cells for text in re.findall(r"`([\w:.]+)`", cell) for it in re.split(r"[:.]+", text)]
    assert names and not set(names) - known


def test_the_glossary_has_what_the_headline_names() -> None:
    """Each definition of the table at the beginning, and each that is shown above it, but for parts of these."""
    page = text_of("PROOFS.md").partition("\n## What it rests on\n")[0]
    defined = {it.name for it in specs.read_specs().all}
    named = {it for _, row in rows_of(page) for it in re.findall(r"`(\w+)`", row[-1])} & defined
    explained = set(re.findall(r"^- `(\w+)`:", text_of("GLOSSARY.md"), re.M))
    assert len(named) > 10 and not named - explained


@pytest.mark.parametrize("crate", sorted(it.name for it in ROOT.glob("crates/thes_*")))
def test_promises_of_each_crate_are_listed(crate: str) -> None:
    assert f"\n{crate}:\n" in text_of("PROOFS.md")


def test_files_of_crates_are_there() -> None:
    rows = [row for head, row in rows_of(text_of("ARCHITECTURE.md")) if head == ["Crate", "Files"]]
    lacking = []
    for row in rows:
        crates = set(re.findall(r"\b(?:thes|test|bench)_\w+", " ".join(row)))
        there = {it.name for crate in crates for it in (ROOT / "crates" / crate).rglob("*")}
        folders = [it for it in row[0].split(", ") if it in ("desk", "tools", "tests")]
        there.update(it.name for folder in folders for it in (ROOT / folder).rglob("*"))
        named = re.findall(r"`(?:[\w/]+/)?(\w+\.(?:antt|rt|py|po|toml|txt))`", row[1])
        lacking += [it for it in named if it not in there]
    assert rows and not lacking
