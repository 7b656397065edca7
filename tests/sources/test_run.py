"""tests/run: names of files become paths, in each folder that has one, and the expressions of -k and -m stay as they
are, however long; a name that no file has is said."""
from __future__ import annotations

import subprocess

import pytest
from program import ROOT

LONG = " or ".join(["helps", *(f"none_such_{it}" for it in range(100))])


def collected(*words: str) -> set[str]:
    """The files of the tests that tests/run collects."""
    call = [str(ROOT / "tests" / "run"), "-n", "0", "--collect-only", "-q", "-p", "no:cacheprovider", *words]
    ran = subprocess.run(call, capture_output=True, text=True, timeout=120, check=False)
    assert ran.returncode == 0, ran.stderr or ran.stdout
    return {it.partition("::")[0] for it in ran.stdout.splitlines() if "::" in it}


@pytest.mark.parametrize(
    "expression",
    [
        pytest.param("helps", id="a word"),
        pytest.param(LONG, id="longer than any name"),
        pytest.param("helps and not [x]", id="brackets"),
        pytest.param("helps and not ../x", id="a path"),
    ],
)
def test_an_expression_is_no_name(expression: str) -> None:
    assert collected("helps", "run", "-k", expression) == {"tests/sources/test_helps.py"}


def test_a_name_in_two_folders() -> None:
    assert collected("journal") == {"tests/desk/test_journal.py", "tests/office/test_journal.py"}


def test_a_name_that_no_file_has() -> None:
    call = [str(ROOT / "tests" / "run"), "-n", "0", "--collect-only", "helps", "exitz"]
    ran = subprocess.run(call, capture_output=True, text=True, timeout=120, check=False)
    assert (ran.returncode, ran.stdout) == (2, "")
    assert ran.stderr == "tests/run: no file of tests is called exitz\n"
