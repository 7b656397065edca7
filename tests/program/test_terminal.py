"""Standard error on a terminal: progress, at most once a second, and the counts of an import. Without a terminal
nothing is reported there, and standard output is the same with and without one."""
from __future__ import annotations

import contextlib
import os
import pty
import re
import sqlite3
import subprocess
import tempfile
import time
from collections.abc import Iterable
from pathlib import Path
from typing import NamedTuple

import pytest
from program import built, lines_of, over

START = [{"do": "scheme", "tag": "en", "text": "Animals"}, {"do": "concept", "scheme": 1, "tag": "en", "text": "Cats"}]
# The rows of a store that has these: of the table of its version, two resources and two labels.
STARTED = 5
HEADER = b"key,record,concept\n"
# New, again, new, no concept, two fields.
FEW = HEADER + b"k1,r1,2\nk1,r1,2\nk2,r2,2\nk3,r3,9\nk4,r4\n"
# How many rows an import commits at a time, and after how many rows that are read the clock is looked at.
BLOCK, STRIDE = 128, 1024
# What strace adds to a call so that a second has passed, in microseconds.
LATE = 1_200_000


class Shown(NamedTuple):
    status: int
    out: bytes
    lines: list[str]
    seconds: float


def on_terminal(words: Iterable[object], given: bytes = b"", before: Iterable[str] = ()) -> Shown:
    """Runs the program with standard error on a terminal, below another program if one is given."""
    ours, theirs = pty.openpty()
    began = time.monotonic()
    with tempfile.TemporaryFile() as source, tempfile.TemporaryFile() as out:
        source.write(given)
        source.seek(0)
        call = [*before, str(built()), *map(str, words)]
        with subprocess.Popen(call, stdin=source, stdout=out, stderr=theirs) as program:
            os.close(theirs)
            said = b""
            with contextlib.suppress(OSError):
                while more := os.read(ours, 65536):
                    said += more
        os.close(ours)
        out.seek(0)
        return Shown(program.returncode, out.read(), said.decode().splitlines(), time.monotonic() - began)


def calls_of(trace: Path) -> list[str]:
    """The names of the calls in a trace by strace, each with its place among those of its name, from 1 on."""
    seen: dict[str, int] = {}
    found = []
    for name in re.findall(r"^\d+ +(\w+)\(", trace.read_text(encoding="utf-8", errors="replace"), re.M):
        seen[name] = seen.get(name, 0) + 1
        found.append(f"{name}:{seen[name]}")
    return found


def late_at(call: str, trace: Path) -> list[str]:
    """Words that run a program so that one of its calls ends a second late."""
    name, place = call.split(":")
    inject = f"inject={name}:delay_exit={LATE}:when={place}"
    return ["strace", "-f", "-qq", "-o", str(trace), "-e", f"trace={name}", "-e", inject]


def store(path: Path, labels: int = 0) -> Path:
    """Makes a store with some more labels."""
    over(path, "script", lines_of(START))
    with contextlib.closing(sqlite3.connect(path)) as tables, tables:
        tables.executemany("INSERT INTO label VALUES (2, 2, 'en', ?)", ((f"Label {it:06}",) for it in range(labels)))
    return path


def posting_file(path: Path, rows: int) -> Path:
    path.write_bytes(HEADER + b"".join(b"k%d,r%d,2\n" % (it, it) for it in range(1, rows + 1)))
    return path


def late(words: Iterable[object], trace: Path) -> Shown:
    """Runs a command twice; the second time a second passes between the start of its progress and the first row."""
    traced = on_terminal(words, before=["strace", "-f", "-qq", "-o", str(trace)])
    assert traced.status == 0
    calls = calls_of(trace)
    # The progress starts once the program knows that standard error is a terminal.
    start = calls.index("ioctl:1")
    return on_terminal(words, before=late_at(calls[start + 1], trace))


def test_an_import_ends_with_its_counts(tmp_path: Path) -> None:
    path, file = store(tmp_path / "few.db"), tmp_path / "few.csv"
    file.write_bytes(FEW)
    for counts in ("2 new, 1 again, 2 refused", "0 new, 3 again, 2 refused"):
        shown = on_terminal(["--db", path, "import", file])
        assert (shown.status, shown.lines) == (1, [f"thesaurus: {counts}"])
    file.write_bytes(FEW[len(HEADER) :])
    shown = on_terminal(["--db", path, "import", file])
    assert shown[:3] == (1, b"", ["thesaurus: BadShape"])


def test_a_script_reports_nothing(tmp_path: Path) -> None:
    shown = on_terminal(["--db", store(tmp_path / "a.db"), "script"], b'{"get":"totals"}\n')
    assert shown[:3] == (0, b'{"accepted":0,"standing":0,"withdrawn":0}\n', [])


@pytest.mark.needs("strace")
@pytest.mark.parametrize("blocks", [1, 3])
def test_an_import_reports_the_rows_done(tmp_path: Path, blocks: int) -> None:
    file, trace = posting_file(tmp_path / "many.csv", 5 * BLOCK), tmp_path / "trace"
    plain = over(store(tmp_path / "plain.db"), "import", after=[file])
    assert (plain.status, plain.err) == (0, b"")
    traced = on_terminal(
        ["--db", store(tmp_path / "traced.db"), "import", file], before=["strace", "-f", "-qq", "-o", str(trace)]
    )
    end = f"thesaurus: {5 * BLOCK} new, 0 again, 0 refused"
    assert traced.lines[-1] == end
    # A sync of the log's start is followed by one for each block.
    calls = calls_of(trace)
    syncs = [it for it in calls[calls.index("ioctl:1") :] if it.startswith("fdatasync")]
    shown = on_terminal(["--db", store(tmp_path / "shown.db"), "import", file], before=late_at(syncs[blocks], trace))
    assert (shown.status, shown.out, shown.lines[-1]) == (0, plain.out, end)
    reports = shown.lines[:-1]
    assert f"thesaurus: {blocks * BLOCK} rows done" in reports and len(reports) <= shown.seconds


@pytest.mark.needs("strace")
def test_a_load_reports_the_rows_read(tmp_path: Path) -> None:
    path = store(tmp_path / "large.db", 3 * STRIDE)
    plain = over(path, "check")
    assert (plain.status, plain.err) == (0, b"")
    shown = late(["--db", path, "check"], tmp_path / "trace")
    assert (shown.status, shown.out, shown.lines[:1]) == (0, plain.out, [f"thesaurus: {STRIDE} rows read"])
    assert len(shown.lines) <= shown.seconds


@pytest.mark.needs("strace")
@pytest.mark.parametrize(("rows", "is_reported"), [(STRIDE - 1, False), (STRIDE, True)])
def test_the_first_report_of_a_load_is_at_its_row(tmp_path: Path, rows: int, is_reported: bool) -> None:
    path = store(tmp_path / "exact.db", rows - STARTED)
    shown = late(["--db", path, "check"], tmp_path / "trace")
    assert (shown.status, shown.lines) == (0, [f"thesaurus: {STRIDE} rows read"] if is_reported else [])


@pytest.mark.needs("strace")
def test_few_rows_are_late(tmp_path: Path) -> None:
    """A load of few rows reports nothing, and an import reports at its first row. (These few can also be tried with a
    build that is a hundred times slower, as of a wrong body.)"""
    path, file = store(tmp_path / "few.db", 40), posting_file(tmp_path / "few.csv", 6)
    shown = late(["--db", path, "check"], tmp_path / "trace")
    assert (shown.status, shown.lines) == (0, [])
    shown = late(["--db", path, "import", file], tmp_path / "trace")
    assert (shown.status, shown.lines[0]) == (0, "thesaurus: 0 rows done")
    assert shown.lines[-1] == "thesaurus: 0 new, 6 again, 0 refused"


def test_reports_come_at_most_once_a_second(tmp_path: Path) -> None:
    path, file = store(tmp_path / "large.db", 60 * STRIDE), posting_file(tmp_path / "many.csv", 60 * BLOCK)
    shown = on_terminal(["--db", path, "check"])
    assert len(shown.lines) <= shown.seconds
    shown = on_terminal(["--db", path, "import", file])
    assert shown.lines[-1] == f"thesaurus: {60 * BLOCK} new, 0 again, 0 refused"
    assert len(shown.lines) - 1 <= shown.seconds
