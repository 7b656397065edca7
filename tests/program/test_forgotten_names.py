"""The memory of labels that are gone: a program that takes them away again and again doesn't grow."""
from __future__ import annotations

import tempfile
from collections.abc import Callable, Iterator
from typing import Any

import pytest
from program import built, lines_of, measured

START = [{"do": "scheme", "tag": "en", "text": "Animals"}, {"do": "concept", "scheme": 1, "tag": "en", "text": "Cats"}]
FEW, MANY = 1_000, 100_000
# What the texts of many labels take is five times as much, in bytes.
MOST = 4_000_000


def relabelled(count: int) -> Iterator[dict[str, Any]]:
    """A concept gets a new preferred label this number of times, and loses the old one."""
    return ({"do": "relabel", "owner": 2, "tag": "en", "text": f"{it:0200}", "keep": False} for it in range(count))


def dropped(count: int) -> Iterator[dict[str, Any]]:
    """A concept gets a preferred label and loses it, this number of times."""
    for it in range(count):
        label = {"owner": 2, "kind": "pref", "tag": "de", "text": f"{it:0200}"}
        yield {"do": "addLabel", **label}
        yield {"do": "dropLabel", **label}


def peak(requests: Iterator[dict[str, Any]]) -> int:
    """The most memory that the program has while it performs requests, in bytes."""
    with tempfile.TemporaryFile() as given, tempfile.TemporaryFile() as answers:
        given.write(lines_of([*START, *requests]))
        given.seek(0)
        status, use = measured([built(), "script"], stdin=given, stdout=answers)
        assert status == 0
        return use.memory


@pytest.mark.parametrize("requests", [relabelled, dropped])
def test_labels_that_are_gone_take_no_memory(requests: Callable[[int], Iterator[dict[str, Any]]]) -> None:
    assert peak(requests(MANY)) < peak(requests(FEW)) + MOST
