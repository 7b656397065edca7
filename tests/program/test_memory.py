"""The memory that an import takes of large posting files made to take much of it, beside an import of no rows: at most
three times the size of the file. One record of commas alone takes at most nine times, eight of them for the place of
each field."""
from __future__ import annotations

import subprocess
import tempfile
from collections.abc import Iterator
from pathlib import Path

import pytest
from program import MEMORY, built, measured

HEADER = b"key,record,concept\n"
SIZE = 16_000_000
# Files by what is repeated in them, and how many times their size an import may take.
FILES = {
    "lines of one byte": (b"x\n", 3),
    "lines of two empty fields": (b",\n", 3),
    "quoted empty lines": (b'""\n', 3),
    "blank lines": (b"\n", 3),
    "rows of another concept": (b"k,r,9\n", 3),
    "one long field": (b"x", 3),
    "one record of commas": (b",", 9),
}


def measure_import(file: Path) -> tuple[int, int]:
    """The most memory that an import of a file takes, in bytes, and its exit status."""
    quiet = {it: subprocess.DEVNULL for it in ("stdin", "stdout", "stderr")}
    status, use = measured([built(), "import", file], **quiet)
    return use.memory, status


@pytest.fixture
def file() -> Iterator[Path]:
    """A posting file without rows, in memory."""
    with tempfile.TemporaryDirectory(dir=MEMORY) as place:
        path = Path(place) / "rows.csv"
        path.write_bytes(HEADER)
        yield path


@pytest.mark.parametrize("name", FILES)
def test_import_takes_little_memory(name: str, file: Path) -> None:
    part, most = FILES[name]
    least, _ = measure_import(file)
    file.write_bytes(HEADER + part * (SIZE // len(part)))
    used, status = measure_import(file)
    assert (used - least) / SIZE <= most
    assert status == (0 if not part.strip() else 1)
