"""Posting files over a store in a file: outcomes, files out of form, and what is read first."""
from __future__ import annotations

from pathlib import Path

import pytest
from animals import FIRST_TIME, POSTED, SECOND_TIME, START, TOTALS, rows_in
from program import Ended, fault, over, run

NO_SHAPE = (1, b"", b"thesaurus: BadShape\n")
UNREAD = (3, b"", b"thesaurus: fault Read\n")
HEAD = b"key,record,concept\n"


class Import:
    """A store, into which posting files are imported."""

    def __init__(self, room: Path) -> None:
        self.room, self.path = room, room / "posted.db"

    def __call__(self, data: bytes) -> Ended:
        file = self.room / "postings.csv"
        file.write_bytes(data)
        return over(self.path, "import", after=[file])


@pytest.fixture
def posted(tmp_path: Path) -> Import:
    """Imports into a store that has a scheme and three concepts."""
    made = Import(tmp_path)
    over(made.path, "script", START)
    return made


def test_file_is_performed_once(posted: Import) -> None:
    assert posted(POSTED) == (1, FIRST_TIME, b"")
    before = rows_in(posted.path)
    assert posted(POSTED) == (1, SECOND_TIME, b"")
    assert rows_in(posted.path) == before


def test_file_without_refusals(posted: Import) -> None:
    assert posted(HEAD + b"k5,r5,4\nk5,r5,4\n") == (0, b"row,outcome,number\n1,new,1\n2,again,1\n", b"")


@pytest.mark.parametrize(("row", "outcome"), [(b"k1,r1,02", b"BadNumber"), (b"k 1,r1,0", b"BadKey")])
def test_row_out_of_form(row: bytes, outcome: bytes, posted: Import) -> None:
    assert posted(HEAD + row + b"\n") == (1, b"row,outcome,number\n1," + outcome + b",\n", b"")


@pytest.mark.parametrize("data", [b"", b"k6,r6,4\n"], ids=["empty", "without a header"])
def test_file_out_of_form(data: bytes, posted: Import) -> None:
    assert posted(data) == NO_SHAPE


@pytest.mark.parametrize("name", ["absent.csv", "."])
def test_file_that_cannot_be_read(name: str, posted: Import) -> None:
    assert over(posted.path, "import", after=[posted.room / name]) == UNREAD


def test_file_that_is_too_long_changes_nothing(posted: Import) -> None:
    posted(POSTED)
    assert posted(HEAD + b"x" * 16_777_216) == (3, b"", b"thesaurus: fault TooLong\n")
    assert over(posted.path, "script", TOTALS) == (0, b'{"accepted":2,"standing":2,"withdrawn":0}\n', b"")


def test_file_in_memory(tmp_path: Path) -> None:
    file = tmp_path / "postings.csv"
    file.write_bytes(POSTED)
    outcomes = ("UnknownResource", "UnknownResource", "BadShape", "UnknownResource", "UnknownResource")
    lines = ["row,outcome,number\n", *(f"{n},{it},\n" for n, it in enumerate(outcomes, 1))]
    assert run(["import", file]) == (1, "".join(lines).encode(), b"")


def test_row_at_a_merged_concept(posted: Import) -> None:
    """It follows the merges, and is known the second time."""
    merges = b'{"do":"merge","source":2,"target":3}\n{"do":"merge","source":3,"target":4}\n'
    over(posted.path, "script", merges)
    for outcome in (b"new", b"again"):
        assert posted(HEAD + b"k1,r1,2\n") == (0, b"row,outcome,number\n1," + outcome + b",1\n", b"")
    view = b'{"first":2,"key":"k1","moves":[[1,2,3],[2,3,4]],"number":1,"place":4,"record":"r1","withdrawn":false}\n'
    assert over(posted.path, "script", b'{"get":"posting","number":1}\n') == (0, view, b"")


def test_base_is_read_before_the_store_and_the_store_before_the_file(tmp_path: Path) -> None:
    store, path, absent = tmp_path / "missing" / "museum.db", tmp_path / "opened.db", tmp_path / "absent.csv"
    assert over(store, "import", after=[absent]) == fault(store, "Store", "no such file")
    assert over(path, "import", b"", "--base", "museum", after=[absent]) == (2, b"", b"thesaurus: BadIri\n")
    assert not path.exists()
    assert over(path, "import", after=[absent]) == UNREAD
