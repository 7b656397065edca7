"""tools/unmerge: over stores of the plain program, a merge that is taken back at once leaves labels, links and postings
as before, with the new concept in the source's place; later, each posting that still is where the merge put it goes
back. Some merges are taken back by the program itself. The tool refuses what it can't take back, and reads copies and
exports from before."""
from __future__ import annotations

import functools
import itertools
from collections.abc import Iterator
from pathlib import Path
from typing import Any, NamedTuple

import pytest
from dice import Dice
from office import Request, export_of, generated, load, perform, perform_all, tool, write_store
from plain import BROADER, Plain
from plain_store import LIMITS, judge, read_rows
from program import Ended, lines_of, over, values_of
from serving import serving

SEEDS, COUNT, MERGES, SINCE = range(1, 7), 250, 4, 60
# What may refuse a line of a script where the thesaurus was changed since.
LATE = {"Cycle", "S27", "S46", "LinkThere", "PreferredTaken", "S13", "S14", "LabelThere"}
START: list[Request] = [
    {"do": "scheme", "tag": "en", "text": "Instruments"},
    *({"do": "concept", "scheme": 1, "tag": "en", "text": text} for text in ("Strings", "Violins", "Fiddles", "Bows")),
    {"do": "outside", "iri": "http://example.org/violin"},
    {"do": "outside", "iri": "http://example.org/fiddle"},
    {"do": "collection", "scheme": 1, "tag": "en", "text": "Room 12"},
    {"do": "addLabel", "owner": 3, "kind": "pref", "tag": "de", "text": "Geigen"},
    {"do": "addLabel", "owner": 4, "kind": "pref", "tag": "de", "text": "Fiedeln"},
    {"do": "addLabel", "owner": 3, "kind": "alt", "tag": "de", "text": "Violinen"},
    {"do": "addLabel", "owner": 4, "kind": "alt", "tag": "de", "text": "Violinen"},
    {"do": "addLabel", "owner": 4, "kind": "hidden", "tag": "en", "text": "Fidles"},
    {"do": "addLabel", "owner": 4, "kind": "scope", "tag": "en", "text": "Of folk music."},
    {"do": "link", "kind": "broaderGeneric", "a": 3, "b": 2},
    {"do": "link", "kind": "broader", "a": 4, "b": 2},
    {"do": "link", "kind": "broaderPartitive", "a": 5, "b": 4},
    {"do": "link", "kind": "related", "a": 4, "b": 3},
    {"do": "link", "kind": "exact", "a": 3, "b": 6},
    {"do": "link", "kind": "close", "a": 4, "b": 7},
    {"do": "link", "kind": "member", "a": 8, "b": 4},
    {"do": "link", "kind": "member", "a": 8, "b": 3},
    *({"do": "post", "key": f"p{n}", "record": f"r{n}", "concept": 3 if n == 1 else 4} for n in range(1, 6)),
]
MERGE: Request = {"do": "merge", "source": 4, "target": 3}
# What happens after it, and what then can't be taken back. 9 and 10 are new.
AFTERWARDS: list[Request] = [
    {"do": "withdraw", "posting": 3},
    {"do": "split", "source": 3, "tag": "en", "text": "Viols", "postings": [4]},
    {"do": "post", "key": "p6", "record": "r6", "concept": 4},
    {"do": "concept", "scheme": 1, "tag": "de", "text": "Fiedeln"},
    {"do": "deprecate", "concept": 5},
]
REMARKS = [
    b"withdrawn postings stay at 3: 3\n",
    b"postings that were moved on since stay where they are: 4\n",
    b"the link broader 5 4 is left out: its other end is deprecated by now\n",
    "the preferred label Fiedeln (de) is another concept's by now, and is left out\n".encode(),
    b"the concept gets a new number; 4 stays dead, and forwards postings to 3 still\n",
]
# Labels, links, and the places of postings.
Parts = tuple[set[tuple[Any, ...]], set[tuple[str, int, int]], list[int]]
as_copy_or_export = pytest.mark.parametrize("is_copy", [True, False], ids=["a copy", "an export"])


class Merge(NamedTuple):
    """A merge: the states before and after it, and its concepts."""

    before: Plain
    after: Plain
    source: int
    target: int


def merge_of(before: Plain, source: int, target: int) -> Merge:
    after, answer = before.perform({"do": "merge", "source": source, "target": target})
    assert "moved" in answer, answer
    return Merge(before, after, source, target)


def stands_for(plain: Plain, source: int, new: int | None) -> Parts:
    """The parts of a state, with one number in place of another."""

    def turn(n: int) -> int:
        return source if n == new else n

    links = {plain.norm(kind, turn(a), turn(b)) for kind, a, b in plain.links}
    places = [turn(plain.place(n)) for n in range(1, len(plain.postings) + 1)]
    return {(turn(owner), *rest) for owner, *rest in plain.labels}, links, places


def untyped(parts: Parts) -> Parts:
    labels, links, places = parts
    return labels, {("broader" if kind in BROADER else kind, a, b) for kind, a, b in links}, places


def mergers(plain: Plain, dice: Dice) -> Iterator[Merge]:
    """Merges that aren't refused, in an order that dice throw."""
    numbers = [n for n, it in enumerate(plain.resources, 1) if it["kind"] == "concept" and it["live"]]
    for source, target in sorted(itertools.permutations(numbers, 2), key=lambda _: dice.throw()):
        after, answer = plain.perform({"do": "merge", "source": source, "target": target})
        if "moved" in answer:
            yield Merge(plain, after, source, target)


@functools.cache
def generated_merges(seed: int) -> list[Merge]:
    """The merges that are taken back of a generated store, which may have fewer."""
    _, before = generated(seed, COUNT)
    return list(itertools.islice(mergers(before, Dice(seed)), MERGES))


def unmerge(room: Path, now: Plain, before: Plain, source: int, is_copy: bool, *words: object) -> Ended:
    """The script that takes a merge back, made of two states."""
    write_store(room / "now.db", now)
    if is_copy:
        write_store(room / "before", before)
    else:
        (room / "before").write_bytes(export_of(before))
    return tool("unmerge", "--db", room / "now.db", "--before", room / "before", source, *words)


def assert_taken_back_at_once(room: Path, it: Merge, is_copy: bool) -> None:
    """Asserts that a merge that is taken back at once leaves all as before. (An export has no types of links.)"""
    first_move = () if is_copy else ("--first-move", len(it.before.moves) + 1)
    ended = unmerge(room, it.after, it.before, it.source, is_copy, *first_move)
    after, names, refused = perform(it.after, ended.out.decode())
    assert not ended.status and not refused, (ended, refused)
    wanted, found = stands_for(it.before, it.source, None), stands_for(after, it.source, names.get("back"))
    assert found == wanted if is_copy else untyped(found) == untyped(wanted), ended
    assert it.source not in [after.place(n) for n, one in enumerate(after.postings, 1) if not one["withdrawn"]]
    assert after.resources[it.source - 1]["replaced"] == it.target


# --- over generated stores ---

PAIRS = [(seed, number) for seed in SEEDS for number in range(MERGES)]
each_merge = pytest.mark.parametrize(("seed", "number"), PAIRS, ids=[f"store {it[0]}, {it[1]}" for it in PAIRS])


def generated_merge(seed: int, number: int) -> Merge:
    merges = generated_merges(seed)
    if number >= len(merges):
        pytest.skip("the store has no further merge")
    return merges[number]


@as_copy_or_export
@each_merge
def test_merge_is_taken_back_at_once(seed: int, number: int, is_copy: bool, room: Path) -> None:
    assert_taken_back_at_once(room, generated_merge(seed, number), is_copy)


@each_merge
def test_merge_is_taken_back_later(seed: int, number: int, room: Path) -> None:
    it = generated_merge(seed, number)
    _, now = generated(seed + 100, SINCE, it.after)
    ended = unmerge(room, now, it.before, it.source, True)
    if not now.is_live(it.target):
        assert (ended.status, ended.out) == (1, b""), "a target that is dead"
        return
    if ended.status:
        assert b"give --tag and --text" in ended.err, ended
        return
    after, names, refused = perform(now, ended.out.decode())
    assert {rule for rule, _ in refused} <= LATE, refused
    moves = {posting: (a, b) for posting, a, b in now.moves}
    ends = it.source, it.target
    last = [n for n, one in enumerate(now.postings, 1) if moves.get(n) == ends and not one["withdrawn"]]
    later = {posting for posting, *_ in now.moves[len(it.before.moves) :]}
    kept = {posting for posting, *of in it.before.moves if tuple(of) == ends} - later
    assert after.standing_at(names.get("back")) == [n for n in last if n not in kept], (last, ended)


# --- by hand ---


@pytest.fixture
def before() -> Plain:
    """The state after START."""
    return perform_all(Plain(LIMITS), START)


@as_copy_or_export
@pytest.mark.parametrize(("source", "target"), [(4, 3), (3, 4)])
def test_each_of_two_concepts_is_merged_and_taken_back(
    source: int, target: int, is_copy: bool, before: Plain, room: Path
) -> None:
    assert_taken_back_at_once(room, merge_of(before, source, target), is_copy)


@as_copy_or_export
def test_what_stays_is_said(is_copy: bool, before: Plain, room: Path) -> None:
    now = perform_all(before, [MERGE, *AFTERWARDS])
    ended = unmerge(room, now, before, 4, is_copy)
    after, names, refused = perform(now, ended.out.decode())
    assert not refused
    assert not [it for it in REMARKS if it not in ended.err.replace(b"broaderPartitive", b"broader")], ended
    assert after.standing_at(names.get("back")) == [2, 5, 6]


@pytest.mark.parametrize(
    ("is_copy", "words", "wanted", "remark"),
    [
        (True, (), [2, 3, 4], b""),
        (False, ("--first-move", 2), [2, 3, 4], b""),
        (False, (), [2, 3, 4, 5], b"if 9 was split from 4 once"),
    ],
    ids=["a copy", "an export and the first move", "an export alone"],
)
def test_target_that_was_split_from_the_source(
    is_copy: bool, words: tuple[object, ...], wanted: list[int], remark: bytes, before: Plain, room: Path
) -> None:
    """The posting of then stays, if a copy or the number of a move tells."""
    split = perform_all(before, [{"do": "split", "source": 4, "tag": "en", "text": "Viols", "postings": [5]}])
    merge = merge_of(split, 4, 9)
    ended = unmerge(room, merge.after, split, 4, is_copy, *words)
    after, names, refused = perform(merge.after, ended.out.decode())
    assert not refused and remark in ended.err
    assert after.standing_at(names.get("back")) == wanted


# --- by the program ---


def turned(value: Any) -> Any:
    """A view with 4 in place of 9, and its lists in one order."""
    if isinstance(value, dict):
        return {key: turned(it) for key, it in value.items()}
    return sorted(map(turned, value), key=str) if isinstance(value, list) else 4 if value == 9 else value


def views(path: Path, concept: int) -> list[Any]:
    asked = lines_of({"get": "concept", "number": n} for n in (2, 3, concept, 5))
    return [turned(it) for it in values_of(over(path, "script", asked).out)]


@as_copy_or_export
def test_program_takes_a_merge_back(is_copy: bool, room: Path) -> None:
    """With a copy over the file, and with an export as it serves."""
    path, old = room / "now.db", room / "old"
    over(path, "script", lines_of(START))
    old.write_bytes(path.read_bytes() if is_copy else over(path, "export").out)
    wanted = views(path, 4)
    over(path, "script", lines_of([MERGE]))
    if is_copy:
        ended = tool("unmerge", "--db", path, "--before", old, 4)
    else:
        with serving(path, 100) as served:
            ended = tool("unmerge", "--http", f"http://127.0.0.1:{served.port}", "--before", old, 4)
    assert not ended.status, ended
    assert not load(path, ended.out.decode())
    assert views(path, 9) == wanted
    assert judge(read_rows(path))[1], "the store is faulty at the end"


# --- refused ---

# The names of two states, now and then, the source, and a part of what is said.
REFUSED = {
    "a live concept": ("before", "before", 4, b"wasn't merged: it is live"),
    "no concept": ("merged", "before", 1, b"number 1 is no concept, but a scheme"),
    "nothing": ("merged", "before", 99, b"nothing has the number 99"),
    "a dead target": ("twice", "before", 4, b"was merged into 3, which is dead, too"),
    "saved too late": ("merged", "merged", 4, b"concept 4 is dead there already"),
    "no label left": ("taken", "before", 4, b"give --tag and --text"),
}


@pytest.fixture
def states(before: Plain) -> dict[str, Plain]:
    merged = perform_all(before, [MERGE])
    twice = perform_all(merged, [{"do": "merge", "source": 3, "target": 2}])
    # (new concepts have the source's names)
    taken = merged
    for tag, text in (("en", "Fiddles"), ("de", "Fiedeln")):
        taken, _ = taken.perform({"do": "concept", "scheme": 1, "tag": tag, "text": text})
    return {"before": before, "merged": merged, "twice": twice, "taken": taken}


@as_copy_or_export
@pytest.mark.parametrize("what", REFUSED)
def test_refused(what: str, is_copy: bool, states: dict[str, Plain], room: Path) -> None:
    now, then, source, said = REFUSED[what]
    ended = unmerge(room, states[now], states[then], source, is_copy)
    assert (ended.status, ended.out) == (1, b"") and said in ended.err


def test_another_label_may_be_given(states: dict[str, Plain], room: Path) -> None:
    ended = unmerge(room, states["taken"], states["before"], 4, True, "--tag", "fr", "--text", "Vièles")
    after, names, refused = perform(states["taken"], ended.out.decode())
    assert not refused
    label = after.preferred(names.get("back"), "fr")
    assert label and label[3] == "Vièles"
    assert after.standing_at(names.get("back")) == [2, 3, 4, 5]
