"""Refuses one request for memory a run, each in turn, while test_examples runs an example: each step must be answered
as without a refusal, or by OutOfMemory with nothing changed. The program itself compares that. A post for which memory
ran out after its commit is answered as accepted, with a stale copy, and the totals after it count it.

The toolchain refuses the same late request of each run, and the program makes as many requests before its example as
its first argument says: so one build serves all runs of a lane. (The interpreter can't run the program, and gets one
step.)"""
from __future__ import annotations

from collections import Counter

import pytest
from cases import Cases, run_cases

pytestmark = pytest.mark.needs("rt")
# The request that the toolchain refuses.
REFUSED = 10_000
# The requests of each example that are refused in turn: from one before its first step to one after its last.
EXAMPLES = {
    "post": (60, 93),
    "merge": (8, 191),
    "mappings": (8, 128),
    "splits": (8, 226),
    "plans": (10, 313),
    "postings": (20, 172),
    "export": (20, 160),
    "displays": (50, 225),
    # Each connection by itself makes its routes. (The last one has a margin.)
    "connections": (35, 1500),
}
NUMBERED = [(it, number) for it, (first, last) in EXAMPLES.items() for number in range(first, last + 1)]
LEAST = 700
# The example of one request that changes rows, in some of whose runs the copy must be stale at the end.
CHANGING = "post"
# How a run may end: before the first step, after the last one, or with a refusal, which may leave the copy stale.
ENDS = ("early", "granted", "refused", "stale")


def name_of(example: str, number: int) -> str:
    return f"{example}-{number:03}"


def file_of(example: str) -> str:
    return f"failing_{example}.txt"


@pytest.fixture(scope="module")
def outcomes() -> dict[str, str]:
    """The outcome of each run, which is the second word of its first line; that of a run without one is empty."""
    cases: Cases = {name_of(it, number): [REFUSED - number, file_of(it)] for it, number in NUMBERED}
    data = [word for it in EXAMPLES for word in ("--data", f"{file_of(it)}=data/{file_of(it)}")]
    lines = run_cases("test_examples", cases, "--steps", 1, "--fail-alloc", REFUSED, *data, lanes=2)
    return {it: " ".join(lines.get(it, "").split()[1:2]) for it in cases}


@pytest.mark.parametrize(("example", "number"), NUMBERED, ids=[name_of(*it) for it in NUMBERED])
def test_steps_are_answered_or_change_nothing(example: str, number: int, outcomes: dict[str, str]) -> None:
    assert outcomes[name_of(example, number)] in ENDS


@pytest.mark.parametrize("example", EXAMPLES)
def test_runs_reach_from_before_the_first_step_to_past_the_last(example: str, outcomes: dict[str, str]) -> None:
    first, last = EXAMPLES[example]
    assert (outcomes[name_of(example, first)], outcomes[name_of(example, last)]) == ("early", "granted")


def test_many_requests_are_refused(outcomes: dict[str, str]) -> None:
    counts = Counter(outcomes.values())
    assert counts["refused"] + counts["stale"] > LEAST


def test_a_refusal_leaves_the_copy_stale(outcomes: dict[str, str]) -> None:
    assert "stale" in {end for it, end in outcomes.items() if it.startswith(f"{CHANGING}-")}
