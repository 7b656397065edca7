"""The wrong bodies, crates/*/wrong, and the wrong definitions, crates/*/must-fail/*.edit, change functions and
definitions that are there, and docs/WRONG_BODIES.md has their table, which dev/list-edits makes."""
from __future__ import annotations

import subprocess
import sys
from pathlib import Path

import pytest
from program import ROOT
from wrong_bodies.edits import BadEdit, bodies_of
from wrong_bodies.listing import crates_of, edits_of, functions_of
from wrong_bodies.records import SHAPE_BOUND, read_shape_bound

CRATES = crates_of(ROOT)


@pytest.mark.parametrize("crate", CRATES, ids=lambda it: it.name)
def test_edits_change_functions(crate: Path) -> None:
    wrong = []
    for it in edits_of(crate):
        try:
            if not functions_of(crate, it.body):
                wrong.append(f"{it.body.name}: changes no function")
        except (BadEdit, OSError) as why:
            wrong.append(f"{it.body.name}: {why}")
    assert not wrong


def test_bound_edits_are_there() -> None:
    names = {f"{crate.name}/{body.name}" for crate in CRATES for body in bodies_of(crate)}
    assert read_shape_bound(ROOT) <= names, SHAPE_BOUND


def list_edits(*words: str) -> str:
    """What the tool prints."""
    ran = subprocess.run(
        [sys.executable, ROOT / "dev" / "list-edits", *words], capture_output=True, text=True, check=False
    )
    assert not ran.returncode, ran.stdout + ran.stderr
    return ran.stdout


def test_page_is_up_to_date() -> None:
    list_edits()


def test_a_crates_edits_are_printed_by_function() -> None:
    printed = list_edits("thes_base")
    assert printed.startswith("thes_base\n\n- ")
    assert all(it.body.name in printed for it in edits_of(ROOT / "crates" / "thes_base"))
    assert "\n- form::is_key: " in printed and "key_of_65_bytes" in printed
