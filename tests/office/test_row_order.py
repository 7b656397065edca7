"""Tests the order in which rows of a table are done that make concepts and name each other's."""
from __future__ import annotations

import random

import pytest
from thesaurus_tools.row_order import NamedEnd, RowOrder


def end_of(cell: str) -> NamedEnd:
    role, _, text = cell.partition("=")
    return NamedEnd(role, text)


def order_of(*rows: tuple[str, str]) -> tuple[list[int], list[set[NamedEnd]]]:
    """The order of rows, each with the term of a concept and cells as broader=Strings; and what each leaves to
    others."""
    made = {term: place for place, (term, _) in enumerate(rows)}
    ends = {place: [end_of(it) for it in cells.split()] for place, (_, cells) in enumerate(rows)}
    order = RowOrder(made, ends)
    return [*order.places(len(rows))], [order.left_to_others(place) for place in range(len(rows))]


def test_rows_that_name_none_keep_their_order() -> None:
    assert order_of(("a", ""), ("b", "broader=elsewhere"), ("c", "related=a")) == ([0, 1, 2], [set()] * 3)


def test_a_row_is_behind_those_that_it_names() -> None:
    assert order_of(("a", "broader=c"), ("b", ""), ("c", "broaderPartitive=d"), ("d", ""))[0] == [3, 2, 0, 1]


@pytest.mark.parametrize(
    "rows, order, left",
    [
        # The narrower concept's row makes the link, wherever it is.
        ([("a", "narrower=b"), ("b", "broader=a")], [0, 1], {0: "narrower"}),
        ([("b", "broaderGeneric=a"), ("a", "narrower=b")], [1, 0], {1: "narrower"}),
        # Of two that are related it is the later one's.
        ([("a", "related=b"), ("b", "related=a")], [0, 1], {0: "related"}),
        ([("a", "broad=b"), ("b", "narrow=a")], [0, 1], {0: "broad"}),
        # What only one of them says is made by its row.
        ([("a", "narrower=b"), ("b", "")], [1, 0], {}),
        ([("a", "related=b"), ("b", "exact=a")], [1, 0], {}),
    ],
)
def test_what_both_rows_say_is_made_by_the_second(
    rows: list[tuple[str, str]], order: list[int], left: dict[int, str]
) -> None:
    found, left_out = order_of(*rows)
    assert found == order
    assert {place: it.role for place, its in enumerate(left_out) for it in its} == left


def test_rows_in_a_ring_are_all_done_once() -> None:
    assert order_of(("a", "broader=b"), ("b", "broader=c"), ("c", "broader=a"))[0] == [2, 1, 0]


def test_a_long_chain() -> None:
    count = 20_000
    rows = [(f"t{place}", f"broader=t{place + 1}") for place in range(count)]
    assert order_of(*rows)[0] == [*reversed(range(count))]


@pytest.mark.parametrize("seed", range(5))
def test_generated_trees_are_done_from_their_tops(seed: int) -> None:
    dice = random.Random(seed)
    above = {place: dice.randrange(place) for place in range(1, 200)}
    places = dice.sample(range(200), 200)
    rows = [(f"t{it}", f"broader=t{above[it]}" if it else "") for it in places]
    done = [places[it] for it in order_of(*rows)[0]]
    assert sorted(done) == [*range(200)]
    assert all(done.index(it) > done.index(up) for it, up in above.items())
