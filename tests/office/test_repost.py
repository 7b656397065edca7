"""tools/repost: its scripts move postings to another concept, anew or with their keys, over the plain program's states
and by the program itself; and it refuses postings and concepts that don't fit."""
from __future__ import annotations

from pathlib import Path

import pytest
from office import Request, load, perform, tool, write_store
from plain import Plain
from plain_store import LIMITS
from program import lines_of, over, values_of

START: list[Request] = [
    {"do": "scheme", "tag": "en", "text": "Instruments"},
    *({"do": "concept", "scheme": 1, "tag": "en", "text": text} for text in ("Harps", "Violins", "Fiddles")),
    {"do": "scheme", "tag": "en", "text": "Places"},
    {"do": "concept", "scheme": 5, "tag": "en", "text": "Paris"},
    {"do": "post", "key": "p1", "record": "Pedal harp, Paris", "concept": 3},
    {"do": "post", "key": "p2", "record": "Violin", "concept": 3},
    {"do": "post", "key": "p1.2", "record": "Violin", "concept": 2},
    {"do": "post", "key": "p4", "record": "Violin", "concept": 2},
    {"do": "withdraw", "posting": 4},
    {"do": "post", "key": "k" * 63, "record": "Lute", "concept": 3},
    {"do": "merge", "source": 4, "target": 3},
    {"do": "link", "kind": "broader", "a": 3, "b": 2},
]
# What is refused, with words of the message.
REFUSED: dict[str, tuple[list[object], int, bytes]] = {
    "a posting that is withdrawn": (["--posting", 4, "--to", 3], 1, b"posting 4 is withdrawn"),
    "a posting that is there": (["--posting", 1, "--posting", 3, "--to", 2], 1, b"posting 3 is at 2 already"),
    "no posting": (["--posting", 1, "--posting", 9, "--to", 2], 1, b"no posting has the number 9"),
    "no record there": (["--record", "Violin", "--at", 6, "--to", 2], 1, b"no posting of this record is at 6: Violin"),
    "a dead concept": (["--posting", 1, "--to", 4], 1, b"concept 4 is dead: replaced by 3"),
    "a scheme": (["--posting", 1, "--to", 5], 1, b"number 5 is no concept, but a scheme"),
    "another scheme, with the key": (["--posting", 1, "--to", 6, "--keep-key"], 1, b"of two schemes"),
    "a key that is too long": (["--posting", 5, "--to", 2], 1, b"more than 64 characters"),
    "neither posting nor record": (["--to", 2], 2, b"give --posting N, or --record NAME with --at N"),
    "a record without its place": (["--record", "Violin", "--to", 2], 2, b"give --posting N"),
    "no target": (["--posting", 1], 2, b"--to"),
    "below nothing": (["--posting", 1, "--below", "--to", 2], 2, b"give --posting N"),
    "below a dead concept": (["--all", "--at", 4, "--below", "--to", 2], 1, b"concept 4 is dead"),
}
# Scripts that are printed, and the postings at Harps, Violins and Paris afterwards, as keys.
PERFORMED: dict[str, tuple[list[object], list[list[str]]]] = {
    "a posting": (["--posting", 1, "--to", 2], [["p1.2", "p1.3"], ["p2", "k" * 63], []]),
    "a record": (["--record", "Pedal harp, Paris", "--at", 3, "--to", 2], [["p1.2", "p1.3"], ["p2", "k" * 63], []]),
    "a record that is there": (["--record", "Violin", "--at", 3, "--to", 2], [["p1.2"], ["p1", "k" * 63], []]),
    "two postings of one record": (["--posting", 2, "--posting", 3, "--to", 6], [[], ["p1", "k" * 63], ["p2.2"]]),
    "another scheme": (["--posting", 1, "--to", 6], [["p1.2"], ["p2", "k" * 63], ["p1.3"]]),
    "a record of a branch": (
        ["--record", "Violin", "--at", 2, "--below", "--to", 6],
        [[], ["p1", "k" * 63], ["p2.2"]],
    ),
    "all of a branch, to within it": (["--all", "--at", 2, "--below", "--to", 3], [[], ["p1", "p2", "k" * 63], []]),
    "all of a branch, with the keys": (
        ["--all", "--at", 2, "--below", "--to", 3, "--keep-key"],
        [[], ["p1", "p2", "p1.2", "k" * 63], []],
    ),
    "with the key": (["--posting", 1, "--posting", 5, "--to", 2, "--keep-key"], [["p1", "p1.2", "k" * 63], ["p2"], []]),
    "a record, with the key": (
        ["--record", "Violin", "--at", 3, "--to", 2, "--keep-key"],
        [["p2", "p1.2"], ["p1", "k" * 63], []],
    ),
}


@pytest.fixture(scope="module")
def plain() -> Plain:
    """The state after START, of which one request is refused."""
    state = Plain(LIMITS)
    for request in START:
        state, _ = state.perform(request)
    return state


@pytest.fixture
def store(plain: Plain, room: Path) -> Path:
    """The store of that state."""
    path = room / "store.db"
    write_store(path, plain)
    return path


@pytest.mark.parametrize("what", REFUSED)
def test_refused(what: str, store: Path) -> None:
    words, status, message = REFUSED[what]
    ended = tool("repost", "--db", store, *words)
    assert (ended.status, ended.out) == (status, b"") and message in ended.err


@pytest.mark.parametrize("what", PERFORMED)
def test_script_moves_the_postings_and_nothing_else(what: str, store: Path, plain: Plain) -> None:
    words, wanted = PERFORMED[what]
    ended = tool("repost", "--db", store, *words)
    assert not ended.status, ended
    after, _, refused = perform(plain, ended.out.decode())
    assert not refused
    assert [[after.postings[n - 1]["key"] for n in after.standing_at(concept)] for concept in (2, 3, 6)] == wanted
    assert after.labels[: len(plain.labels)] == plain.labels
    assert all(it[0] > 6 or it in plain.labels for it in after.labels)
    assert after.links == plain.links


def test_program_performs_the_scripts(room: Path) -> None:
    path = room / "program.db"
    over(path, "script", lines_of(START))
    words: list[list[object]] = [
        ["--posting", 1, "--to", 2],
        ["--posting", 2, "--to", 6],
        ["--posting", 5, "--to", 2, "--keep-key"],
    ]
    for it in words:
        ended = tool("repost", "--db", path, *it)
        assert not ended.status, ended
        assert not load(path, ended.out.decode())
    asked = [{"get": "totals"}, {"get": "postings", "concept": 2}, {"get": "posting", "number": 5}]
    totals, postings, posting = values_of(over(path, "script", lines_of(asked)).out)
    assert totals == {"accepted": 7, "standing": 4, "withdrawn": 3}
    assert postings["postings"] == [[3, "p1.2", "Violin"], [5, "k" * 63, "Lute"], [6, "p1.3", "Pedal harp, Paris"]]
    assert posting["place"] == 2
