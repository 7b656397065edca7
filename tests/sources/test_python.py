"""The Python of the repository is laid out by black, flake8 finds nothing in it, and its types fit by mypy."""
from __future__ import annotations

import os
import subprocess
import sys
from functools import cache
from pathlib import Path

import pytest
from program import ROOT

FOLDERS = ("dev", "tools", "bench", "desk", "tests")
# What mypy reads at a time, since scripts of two folders may have one name.
CHECKED = (
    "dev",
    "tools",
    "bench",
    "desk",
    *(f"tests/{it.name}" for it in sorted((ROOT / "tests").iterdir()) if it.is_dir()),
)


@cache
def files_of(folder: str) -> list[str]:
    """The files of Python below a folder: by their suffix, or by their first line."""
    paths = (it for it in sorted((ROOT / folder).rglob("*")) if it.is_file() and "__pycache__" not in it.parts)
    return [str(it.relative_to(ROOT)) for it in paths if it.suffix == ".py" or not it.suffix and is_python(it)]


def is_python(path: Path) -> bool:
    with path.open("rb") as file:
        return file.readline().startswith(b"#!/usr/bin/env python3")


def run(*words: str) -> str:
    """Runs a checker in the repository, and returns what it prints if it finds something."""
    environment = {**os.environ, "MYPYPATH": ""}
    ran = subprocess.run(
        [sys.executable, "-m", *words], cwd=ROOT, capture_output=True, text=True, check=False, env=environment
    )
    return ran.stdout + ran.stderr if ran.returncode else ""


@pytest.mark.needs("black")
@pytest.mark.parametrize("folder", FOLDERS)
def test_black_lays_it_out_so(folder: str) -> None:
    assert not run("black", "--check", "--quiet", "--diff", *files_of(folder))


@pytest.mark.needs("flake8")
@pytest.mark.parametrize("folder", FOLDERS)
def test_flake8_finds_nothing(folder: str) -> None:
    assert not run("flake8", *files_of(folder))


@pytest.mark.needs("mypy")
@pytest.mark.parametrize("folder", CHECKED)
def test_types_fit(folder: str) -> None:
    """Each function has its types, too (pyproject.toml)."""
    if files_of(folder):
        assert not run("mypy", *files_of(folder))
