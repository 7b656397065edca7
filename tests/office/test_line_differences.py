"""The differences of two long lists of lines, beside those of sets; and what a feed knows after each end of a run."""
from __future__ import annotations

import random
from pathlib import Path

import pytest
from thesaurus_tools.feed_state import FedState
from thesaurus_tools.line_differences import differences


def changed(lines: list[bytes], chance: random.Random, count: int) -> list[bytes]:
    """Returns lines of which some have gone, some have come, and some are elsewhere."""
    found = list(lines)
    for it in range(count):
        place = chance.randrange(len(found) + 1)
        kind = chance.choice(("come", "gone", "elsewhere"))
        if kind == "come" or not found:
            found.insert(place, b"new %d" % it)
        elif kind == "gone":
            found.pop(place % len(found))
        else:
            found.insert(place, found.pop(chance.randrange(len(found))))
    return found


@pytest.mark.parametrize("seed", range(12))
def test_differences_are_those_of_sets(seed: int) -> None:
    chance = random.Random(seed)
    old = [b"line %d" % it for it in range(chance.choice((0, 1, 2, 3_000, 20_000, 50_000)))]
    new = changed(old, chance, chance.choice((0, 1, 7, 300)))
    chance.shuffle(new) if seed % 4 == 3 else None
    assert differences(old, new) == (set(old) - set(new), set(new) - set(old))
    assert differences(new, old) == (set(new) - set(old), set(old) - set(new))


OLD = [b"<a> <b> <%d> ." % it for it in range(200)]


def test_a_state_is_read_again(tmp_path: Path) -> None:
    """After many differences the file is written anew."""
    path, chance, now = tmp_path / "fed", random.Random(1), OLD
    FedState(path).note_all(now)
    largest = 3 * path.stat().st_size
    for _ in range(100):
        state = FedState(path).read()
        assert state.known and set(state.known) == set(now)
        later = [it.replace(b"new", b"<n>") for it in changed(now, chance, 5)]
        later = list(dict.fromkeys(later))
        state.begin()
        state.note(later, *differences(now, later))
        now = later
        assert path.stat().st_size < largest


@pytest.mark.parametrize("cut", [0, 1, 10, 20, 21])
def test_a_run_that_ends_within_an_update(tmp_path: Path, cut: int) -> None:
    """Then nobody knows what the store holds; what was cut is at the end of the file."""
    path = tmp_path / "fed"
    FedState(path).note_all(OLD)
    state = FedState(path).read()
    state.begin()
    assert FedState(path).read().known is None
    state.note(OLD[1:] + [b"<c> <d> <e> ."], OLD[:1], [b"<c> <d> <e> ."])
    data = path.read_bytes()
    path.write_bytes(data[: len(data) - cut])
    known = FedState(path).read().known
    assert (known is None) if cut else (known and set(known) == {*OLD[1:], b"<c> <d> <e> ."})


def test_a_state_that_was_cut(tmp_path: Path) -> None:
    path = tmp_path / "fed"
    FedState(path).note_all(OLD)
    path.write_bytes(path.read_bytes()[:-1])
    assert FedState(path).read().known is None
