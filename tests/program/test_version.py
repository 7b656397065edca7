"""The version that the program prints is that of the manual and of CHANGELOG.md; README.md names the toolchain."""
from __future__ import annotations

import re
import subprocess
import warnings

import pytest
from program import ROOT, run, version


def test_program_prints_the_version() -> None:
    assert run(["--version"]) == (0, f"thesaurus {version()}\n".encode(), b"")


def test_manual_has_the_version() -> None:
    manual = (ROOT / "thesaurus.1").read_text(encoding="utf-8")
    assert re.findall(r"^This page describes version (.*)\.$", manual, re.M) == [version()]


@pytest.mark.needs("rt")
def test_readme_names_the_logic_of_the_toolchain() -> None:
    """A kit of another name with the same logic is only reported, since the logic alone decides what is proved."""
    printed = subprocess.run(["rt", "version"], capture_output=True, text=True, check=True).stdout.splitlines()[0]
    readme = (ROOT / "README.md").read_text(encoding="utf-8")
    ((named, logic),) = re.findall(r"Proved with `(rattle-kit-\w+ (logic [0-9a-f]+))`", readme)
    assert printed.endswith(logic)
    if named != printed:
        warnings.warn(f"README.md names {named}, and rt version prints {printed}: bring README.md up to date")
