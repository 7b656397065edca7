"""A store of 20,000 concepts in 100 layers, with 99,000 broader links between layers and 100,000 related ones within
them, is checked in seconds; the related links take little memory, and edits little time."""
from __future__ import annotations

import contextlib
import sqlite3
import tempfile
import time
from collections.abc import Iterator
from pathlib import Path
from typing import NamedTuple

import pytest
from program import Ended, built, lines_of, measured, over, values_of

CONCEPTS = range(2, 20_002)
# How long a check may take, on a machine that does other things too; and the edits with the store's opening.
CHECK_SECONDS, EDIT_SECONDS = 30, 60
# The memory of the related links, in bytes.
MOST_MEMORY = 64 << 20


class Measured(NamedTuple):
    """How the check of a store ended, after how many seconds, and its peak memory in bytes."""

    ended: Ended
    seconds: float
    peak: int


def neighbour(n: int, step: int) -> int:
    """A concept of the layer of another one."""
    return n - (n - 2) % 200 + (n - 2 + step) % 200


def broader_links() -> Iterator[tuple[int, int, int]]:
    return ((n, neighbour(n - 200, step), 0) for n in CONCEPTS[200:] for step in range(5))


def related_links() -> Iterator[tuple[int, int, int]]:
    pairs = ((n, neighbour(n, step)) for n in CONCEPTS for step in range(1, 6))
    return ((2, min(it), max(it)) for it in pairs)


def measure_check(path: Path) -> Measured:
    with tempfile.TemporaryFile() as out, tempfile.TemporaryFile() as err:
        began = time.monotonic()
        status, use = measured([built(), "--db", path, "check"], stdout=out, stderr=err)
        seconds = time.monotonic() - began
        for it in (out, err):
            it.seek(0)
        return Measured(Ended(status, out.read(), err.read()), seconds, use.memory)


@pytest.fixture(scope="module")
def layers(tmp_path_factory: pytest.TempPathFactory) -> tuple[Path, Measured, Measured]:
    """The store with all links, and its checks before and after the related ones were added."""
    path = tmp_path_factory.mktemp("layers") / "layers.db"
    over(path, "script")
    with contextlib.closing(sqlite3.connect(path)) as base, base:
        base.execute("INSERT INTO resource VALUES (1, 1, NULL, 1, NULL)")
        base.executemany("INSERT INTO resource VALUES (?, 2, 1, 1, NULL)", ((n,) for n in CONCEPTS))
        base.executemany("INSERT INTO label VALUES (?, 1, 'en', ?)", ((n, f"Concept {n}") for n in (1, *CONCEPTS)))
        base.executemany("INSERT INTO hier VALUES (?, ?, ?)", broader_links())
    before = measure_check(path)
    with contextlib.closing(sqlite3.connect(path)) as base, base:
        base.executemany("INSERT INTO link VALUES (?, ?, ?)", related_links())
    return path, before, measure_check(path)


@pytest.mark.parametrize(("place", "links"), [(1, 99_000), (2, 199_000)], ids=["broader links", "all links"])
def test_layers_are_checked_in_seconds(place: int, links: int, layers: tuple[Path, Measured, Measured]) -> None:
    found = layers[place]
    assert isinstance(found, Measured)
    sizes = b"ok resources=20001 labels=20001 links=%d accepted=0 withdrawn=0 moves=0\n" % links
    assert found.ended == (0, sizes, b"")
    assert found.seconds <= CHECK_SECONDS


def test_related_links_take_little_memory(layers: tuple[Path, Measured, Measured]) -> None:
    _, before, after = layers
    assert after.peak - before.peak <= MOST_MEMORY


def test_edits_of_layers_take_little_time(layers: tuple[Path, Measured, Measured]) -> None:
    """Links between near and far layers, and merges within a layer, are checked in milliseconds each."""
    edits: list[dict[str, object]] = [
        {"do": "link", "kind": kind, "a": 10_002 + 200 * n, "b": 10_002 - 200 * n}
        for n in range(1, 41)
        for kind in ("related", "broader")
    ]
    edits += [{"do": "merge", "source": 10_002 + 200 * n, "target": 10_003 + 200 * n} for n in range(20)]
    began = time.monotonic()
    answers = values_of(over(layers[0], "script", lines_of(edits)).out)
    assert time.monotonic() - began <= EDIT_SECONDS
    assert len(answers) == len(edits) and not [it for it in answers if "fault" in it or "bad" in it]
    assert 0 < sum("done" in it or "moved" in it for it in answers) < len(edits)
