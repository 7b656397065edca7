"""`import` of 10,000 rows of posting files, the same in each run, made from whole ones by deleting, doubling and
exchanging bytes. Each file is imported twice, with the outcomes of the plain program; none stops the program; and all
views at the end are those of the plain program. The same holds for every prefix of one whole file, and for a file of
the greatest size."""
from __future__ import annotations

import tempfile
from collections.abc import Iterator
from pathlib import Path

import pytest
from dice import Requests
from kept import started
from mangling import mangled
from plain import Plain
from plain_postings import import_file
from program import MEMORY, Ended, lines_of, over

FILES = 100
ROWS = 100
MOST = 16_777_216
HEADER = b"key,record,concept\n"
WORKED = b'\xef\xbb\xbfkey,record,concept\r\nk1,r1,2\r\nk2,"r,2",9\r\nk3,r3\r\nk1,r1,2\r\nk4,r4,3\r\n'


def quoted(dice: Requests, text: bytes) -> bytes:
    """A field, plain or in quotes."""
    return b'"' + text.replace(b'"', b'""') + b'"' if dice.one_in(4) else text


def row_of(dice: Requests, last: int) -> bytes:
    """A whole row: a new key, or one that was there, and a concept that may be there."""
    record = dice.pick((b"r1", b"r2", b"r 3", b"r,4", "r\u00e9".encode()))
    fields = [b"k%d" % dice.below(2000), record, b"%d" % dice.between(1, last + 1)]
    return b",".join(quoted(dice, it) if it is not record or b"," not in it else b'"' + it + b'"' for it in fields)


def file_of(dice: Requests, last: int) -> bytes:
    """A file of rows, every second one mangled; now and then also the header."""
    lines = [mangled(dice, HEADER) if dice.one_in(20) else HEADER]
    for _ in range(ROWS):
        row = row_of(dice, last)
        end = dice.pick((b"\n", b"\n", b"\r\n"))
        lines += [row + end] * dice.below(2) + [mangled(dice, row) + end]
    return b"".join(lines)


def wanted(report_text: bytes | None) -> Ended:
    """How the program ends with this report, or without a header."""
    if report_text is None:
        return Ended(1, b"", b"thesaurus: BadShape\n")
    words = [line.split(b",")[1] for line in report_text.splitlines()[1:]]
    return Ended(int(any(it not in (b"new", b"again") for it in words)), report_text, b"")


@pytest.fixture
def path() -> Iterator[Path]:
    """The file of a store in memory, which is to be made."""
    with tempfile.TemporaryDirectory(dir=MEMORY) as place:
        yield Path(place) / "mangled.db"


def import_like_plain(path: Path, data: bytes, plain: Plain) -> Plain:
    """Imports a file as the plain program does, and returns the plain program's state."""
    file = path.with_name("rows.csv")
    file.write_bytes(data)
    plain, report = import_file(plain, data)
    assert over(path, "import", b"", after=(file,)) == wanted(report), data[:500]
    return plain


def check_views(path: Path, plain: Plain) -> None:
    asked = plain.queries()
    assert over(path, "script", lines_of(asked)).out == lines_of(plain.show(it) for it in asked)


def test_mangled_files(path: Path) -> None:
    dice, plain = Requests(4), started(path)
    for _ in range(FILES):
        data = file_of(dice, len(plain.resources))
        for _ in range(2):
            plain = import_like_plain(path, data, plain)
    check_views(path, plain)


@pytest.mark.parametrize("size", range(len(WORKED) + 1))
def test_prefix_of_a_file(size: int, path: Path) -> None:
    check_views(path, import_like_plain(path, WORKED[:size], started(path)))


def test_file_as_long_as_it_may_be(path: Path) -> None:
    """A file of a byte more is not read."""
    plain, file = started(path), path.with_name("rows.csv")
    data = (HEADER + b"k1,r1,2\n").ljust(MOST, b"\n")
    file.write_bytes(data + b"\n")
    assert over(path, "import", b"", after=(file,)) == (3, b"", b"thesaurus: fault TooLong\n")
    check_views(path, plain)
    check_views(path, import_like_plain(path, data, plain))
