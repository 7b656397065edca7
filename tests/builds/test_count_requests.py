"""Counts the requests for memory of one `judge_add`: they must be as many with 500 further concepts, in a chain that
touches none of its nodes, as without. The program of bench_graph makes the graph, judges the link or not, and prints
how many requests are left until the one that is refused. So the difference of two runs is the number that the judging
made."""
from __future__ import annotations

import pytest
from cases import Cases, run_cases

pytestmark = pytest.mark.needs("rt")
REFUSED = 100_000
# A chain of one concept has no links.
ALONE, CHAIN = 1, 500


@pytest.fixture(scope="module")
def left() -> dict[str, int]:
    """How many requests are left in each case."""
    cases: Cases = {
        f"{further}-{what}": ["requests", further, what] for further in (ALONE, CHAIN) for what in ("judged", "not")
    }
    return {it: int(line) for it, line in run_cases("bench_graph", cases, "--fail-alloc", REFUSED).items()}


def requests_of_judging(left: dict[str, int], further: int) -> int:
    return left[f"{further}-not"] - left[f"{further}-judged"]


def test_judging_a_link_makes_requests(left: dict[str, int]) -> None:
    assert requests_of_judging(left, ALONE) > 0


def test_further_concepts_cost_no_request(left: dict[str, int]) -> None:
    assert requests_of_judging(left, CHAIN) == requests_of_judging(left, ALONE)


def test_further_concepts_are_there(left: dict[str, int]) -> None:
    assert left[f"{ALONE}-not"] - left[f"{CHAIN}-not"] >= CHAIN
