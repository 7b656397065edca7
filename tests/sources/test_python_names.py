"""The names of modules, classes and functions of desk and tools: none is a participle or a preposition alone.
(Methods stand behind what they are of.)"""
from __future__ import annotations

import ast
from collections.abc import Iterator
from pathlib import Path

from program import ROOT
from test_names import is_bare
from test_python import files_of

# Those that are the usual name of what they are, with the reason.
EXCEPTIONS = {
    "about": "what the page is called on each site",
    "past": "a noun here: what was there on a day",
    "below": "a report is called by its function's name",
    "changed": "a report is called by its function's name",
    "is_shown": "a question",
}


def names_of(path: Path) -> Iterator[str]:
    """Yields the names of a file: its own, and those of its classes and functions."""
    yield path.stem
    for it in ast.parse(path.read_text(encoding="utf-8")).body:
        if isinstance(it, (ast.ClassDef, ast.FunctionDef)):
            yield it.name


def test_names_say_what_is_named() -> None:
    found = {
        (file, name) for folder in ("desk", "tools") for file in files_of(folder) for name in names_of(ROOT / file)
    }
    refused = {(file, name) for file, name in found if is_bare(name)}
    assert len(found) > 2000 and not sorted(it for it in refused if it[1] not in EXCEPTIONS)
    assert {name for _, name in refused} == set(EXCEPTIONS)
