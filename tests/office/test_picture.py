"""tools/picture: Graphviz itself reads its text and finds the concepts and lines that are wanted, also where labels
have quotes and backslashes."""
from __future__ import annotations

import json
import subprocess
from pathlib import Path

import pytest
from office import Request, export_of, perform_all, tool
from plain import Plain
from plain_store import LIMITS

START: list[Request] = [
    {"do": "scheme", "tag": "en", "text": "Instruments"},
    *(
        {"do": "concept", "scheme": 1, "tag": "en", "text": text}
        for text in ("All", 'The "Strings"', "Vi\\olins", "Fiddles\\", "Bows", "Messiah")
    ),
    {"do": "outside", "iri": "http://example.org/violin?a=b&c"},
    {"do": "scheme", "tag": "en", "text": "Others"},
    {"do": "concept", "scheme": 9, "tag": "en", "text": "Sister"},
    {"do": "addLabel", "owner": 4, "kind": "pref", "tag": "ja", "text": "ヴァイオリン"},
    *(
        {"do": "link", "kind": kind, "a": a, "b": b}
        for kind, a, b in (
            ("broader", 3, 2),
            ("broaderGeneric", 4, 3),
            ("broaderPartitive", 5, 3),
            ("broader", 6, 4),
            ("broaderInstantial", 7, 4),
            ("related", 4, 5),
            ("exact", 4, 8),
            ("close", 10, 4),
            ("broad", 10, 8),
        )
    ),
    {"do": "concept", "scheme": 1, "tag": "en", "text": "Old"},
    {"do": "merge", "source": 11, "target": 4},
]
BASE = "https://thesaurus.example/id/"
OUTSIDE = "http://example.org/violin?a=b&c"
# Words, the labels of the concepts in the picture, and its lines: from, to, and what is written at it.
PICTURES: dict[str, tuple[list[str], dict[str, str], set[tuple[str, str, str]]]] = {
    "one step": (
        ["4"],
        {
            "4": "Vi\\olins",
            "3": 'The "Strings" ...',
            "5": "Fiddles\\",
            "6": "Bows",
            "7": "Messiah",
            "10": "Sister",
            OUTSIDE: OUTSIDE,
        },
        {
            ("3", "4", ""),
            ("3", "5", ""),
            ("4", "6", ""),
            ("4", "7", ""),
            ("4", "5", ""),
            ("4", OUTSIDE, "exact match"),
            ("4", "10", "close match"),
            ("10", OUTSIDE, "broad match"),
        },
    ),
    "no step": (["4", "--depth", "0", "--langs", "ja,en"], {"4": "ヴァイオリン ..."}, set()),
    "two steps up": (
        ["2", "--depth", "2"],
        {"2": "All", "3": 'The "Strings"', "4": "Vi\\olins ...", "5": "Fiddles\\"},
        {("2", "3", ""), ("3", "4", ""), ("3", "5", ""), ("4", "5", "")},
    ),
    "a dead concept": (["11"], {"11": "Old"}, set()),
}
# What is refused, with the status and a part of the message.
REFUSED: dict[str, tuple[list[str], int, bytes]] = {
    "a scheme": (["1"], 1, b"number 1 is no concept, but a scheme"),
    "no concept": (["99"], 1, b"nothing has the number 99"),
    "no number": (["x"], 2, b"invalid int"),
    "a depth below 0": (["4", "--depth", "-1"], 2, b"--depth is 0 or more"),
}


@pytest.fixture
def export(room: Path) -> Path:
    """The export of the store."""
    path = room / "export.nt"
    path.write_bytes(export_of(perform_all(Plain(LIMITS), START)))
    return path


@pytest.mark.parametrize("what", PICTURES)
def test_picture_is_whole(what: str, export: Path) -> None:
    words, labels, lines = PICTURES[what]
    ended = tool("picture", export, *words)
    assert (ended.status, ended.err) == (0, b"")
    assert ended.out.count(b" -> ") == len(lines) and ended.out.count(b" URL=") == len(labels)
    assert ended.out.endswith(b"\n}\n")


@pytest.mark.needs("dot")
@pytest.mark.parametrize("what", PICTURES)
def test_graphviz_finds_what_is_wanted(what: str, export: Path) -> None:
    words, labels, lines = PICTURES[what]
    text = tool("picture", export, *words).out
    graph = json.loads(subprocess.run(["dot", "-Tjson"], input=text, capture_output=True, check=True).stdout)
    names = [it["name"] for it in graph["objects"]]
    assert {it["name"]: it["label"].replace("\\\\", "\\") for it in graph["objects"]} == labels
    assert {(names[it["tail"]], names[it["head"]], it.get("label", "")) for it in graph.get("edges", ())} == lines


@pytest.mark.parametrize("what", REFUSED)
def test_refused(what: str, export: Path) -> None:
    words, status, message = REFUSED[what]
    ended = tool("picture", export, *words)
    assert (ended.status, ended.out) == (status, b"") and message in ended.err


def test_line_that_is_no_triple_is_reported(export: Path, room: Path) -> None:
    other = room / "other.nt"
    other.write_bytes(export.read_bytes() + b"no triple\n")
    ended = tool("picture", other, 4)
    assert ended.status == 1 and b"other.nt:" in ended.err
