"""The subjects of commits have at most 72 columns, from the commit FIRST on."""
from __future__ import annotations

import subprocess
from collections.abc import Callable

import pytest
from program import ROOT

pytestmark = pytest.mark.needs("git")
FIRST = "5678f692"
MOST = 72


def git(*words: str) -> subprocess.CompletedProcess[str]:
    return subprocess.run(["git", "-C", ROOT, *words], capture_output=True, text=True, check=False)


def test_subjects_are_short(leave_out: Callable[[str], None]) -> None:
    if git("merge-base", "--is-ancestor", FIRST, "HEAD").returncode:
        leave_out(f"the history doesn't begin before {FIRST}")
        return
    subjects = git("log", "--format=%h %s", f"{FIRST}..HEAD").stdout.splitlines()
    assert not [it for it in subjects if len(it.partition(" ")[2]) > MOST]
