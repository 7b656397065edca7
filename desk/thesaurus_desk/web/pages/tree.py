"""The whole tree, whose branches load when they open; the schemes; the collections."""
from __future__ import annotations

from collections.abc import Iterator, Sequence
from dataclasses import dataclass
from typing import Any

from flask import Blueprint, abort, render_template

from thesaurus_desk.auth.route_roles import public
from thesaurus_desk.store.arrays import numbers_below, parts_of
from thesaurus_desk.web.context import say, tags, the_replica, the_places
from thesaurus_desk.web.list_forms import in_other_form
from thesaurus_desk.web.pages.search import number_of
from thesaurus_desk.web.spreadsheets import is_table_asked, sheet

pages = Blueprint("tree", __name__)
# How many top terms the tree has before it says that there are more, and how many members of a collection a list shows.
MOST_TOPS, FEW_MEMBERS = 1000, 24


def children(number: int) -> list[int]:
    """Returns what is below a concept, or in an array, in order."""
    replica, places = the_replica(), the_places()
    return (parts_of if is_array(number) else numbers_below)(replica, places, number, tags())


def is_array(number: int) -> bool:
    """Whether what is below a concept is an array."""
    return the_replica().kind(number) == "collection"


def type_words(low: int, high: int | None) -> str:
    """Returns the types of the link from a concept to the one above it, in words."""
    kinds = the_replica().branch(high).get(low, ()) if high else ()
    return ", ".join(say(f"kinds.type.{it}") for it in kinds if it != "broader")


def count_children(number: int) -> int:
    """Returns the number of narrower concepts, with those in arrays that aren't narrower."""
    replica, arrays = the_replica(), the_places().arrays.get(number)
    if not arrays:
        return replica.count_narrower(number)
    members = (it for array in arrays if (view := replica.view(array)) for it in view.members)
    return len({*replica.branch(number), *members})


@dataclass(frozen=True)
class Branch:
    """A node of the tree as a page shows it: how many are below it, whether it can be opened, and whether these follow
    it."""

    number: int
    types: str
    below: int
    has_below: bool
    is_open: bool
    is_array: bool = False


def branches(numbers: Sequence[int], above: int | None, path: Sequence[int] = ()) -> Iterator[Branch | None]:
    """Yields nodes in their order, below those of a path what is below them, and None where an open one ends.

    An array is open, and counts for no step of the path. (A tree may be deeper than functions, or a template's macros,
    may call themselves.)"""
    levels = [(above, 0, iter(numbers))]
    while levels:
        high, depth, rest = levels[-1]
        number = next(rest, None)
        if number is None:
            levels.pop()
            if levels:
                yield None
            continue
        if is_array(number):
            parts = children(number)
            yield Branch(number, "", len(parts), bool(parts), bool(parts), True)
            levels += [(high, depth, iter(parts))] if parts else []
            continue
        count, has_arrays = count_children(number), number in the_places().arrays
        # (a concept may be in several places, and is open in that of the path)
        is_open = bool(count or has_arrays) and path[depth : depth + 1] == [number]
        yield Branch(number, type_words(number, high), count, bool(count or has_arrays), is_open)
        if is_open:
            levels.append((number, depth + 1, iter(children(number))))


@pages.get("/tree")
@public
def tree() -> Any:
    """Shows the top terms of a scheme; `at` opens the branches down to a concept, and its own."""
    replica = the_replica()
    schemes = replica.ordered(replica.numbers("scheme"), tags())
    at = number_of("at")
    found = replica.view(at) if at else None
    is_there = found is not None and found.kind == "concept"
    scheme = found.scheme if found and is_there else number_of("scheme")
    if scheme not in schemes:
        # (the first that has most)
        scheme = max(schemes, key=replica.count_concepts) if schemes else None
    tops = replica.ordered(replica.tops(scheme), tags()) if scheme else []
    path = replica.path_up(at, tags()) if at and is_there else []
    # (what has ended is nowhere in the tree)
    path = tops if len(tops) == 1 and path[:1] != tops else path
    if (other := in_other_form("tree", lambda: whole_tree(tops))) is not None:
        return other
    shown = tops[:MOST_TOPS]
    return render_template(
        "tree.html",
        schemes=schemes,
        scheme=scheme,
        tops=shown,
        more=len(tops) - len(shown),
        rows=branches(shown, None, path),
        at=at,
    )


def whole_tree(tops: list[int]) -> list[int]:
    """Returns all concepts of a tree, each once, in the order in which the tree has them."""
    found: dict[int, None] = {}
    waiting = list(reversed(tops))
    while waiting:
        number = waiting.pop()
        if number not in found:
            found[number] = None
            waiting += reversed(children(number))
    return [it for it in found if not is_array(it)]


@pages.get("/tree/<int:number>")
@public
def branch(number: int) -> Any:
    """Returns the narrower concepts of a concept, for the script that opens a branch."""
    if the_replica().kind(number) != "concept":
        abort(404)
    return render_template("branch.html", rows=branches(children(number), number), at=None)


@pages.get("/schemes")
@public
def schemes() -> Any:
    """Shows the schemes with the numbers of their concepts."""
    replica = the_replica()
    numbers = replica.ordered(replica.numbers("scheme"), tags())
    if is_table_asked():
        return sheet("thesauri", numbers)
    counts = {it: (replica.count_concepts(it), len(replica.tops(it))) for it in numbers}
    return render_template("schemes.html", numbers=numbers, counts=counts)


@pages.get("/collections")
@public
def collections() -> Any:
    """Shows the collections with their first members."""
    replica = the_replica()
    numbers = replica.ordered(replica.numbers("collection"), tags())
    if is_table_asked():
        return sheet("collections", numbers, ("members",))
    views = {it: view for it in numbers if (view := replica.view(it))}
    members = {it: replica.ordered(view.members, tags()) for it, view in views.items()}
    return render_template("collections.html", numbers=numbers, members=members, few=FEW_MEMBERS)
