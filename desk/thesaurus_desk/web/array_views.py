"""What the page of a concept or a collection shows of its place: arrays, what is in one, and in which order."""
from __future__ import annotations

from collections.abc import Sequence
from dataclasses import dataclass

from thesaurus_desk.store.arrays import numbers_below, parts_of
from thesaurus_desk.store.model import View
from thesaurus_desk.web.context import tags, the_desk, the_replica, the_places
from thesaurus_tools.fields import ORDER, SUPERORDINATE

# An array with what is in it; or no array, with the other concepts.
Group = tuple[int | None, tuple[int, ...]]


@dataclass(frozen=True)
class PlaceView:
    """The place of a collection: the concept below which it is, whether it has that from the collection around it, and
    one that it names and that has ended; what is in it, in order; and the members that aren't narrower than it says."""

    above: int | None
    is_of_outer: bool
    ended: int | None
    outer: int | None
    parts: list[int]
    has_order: bool
    others: list[int]


def place_view(view: View) -> PlaceView | None:
    """Returns the place of a collection; nothing of another resource."""
    if view.kind != "collection":
        return None
    replica, places, number = the_replica(), the_places(), view.number
    above = places.superordinate(number)
    named = the_desk().values.held(number, SUPERORDINATE)
    ended = named[0].numbers[0] if named and number not in places.named else None
    # (the public doesn't see a candidate, nor that it is named)
    ended = ended if ended is not None and replica.kind(ended) else None
    parts = parts_of(replica, places, number, tags())
    others = [it for it in view.members if it in parts and above not in (None, it, *replica.above([it])[it])]
    has_order = bool(the_desk().values.held(number, ORDER))
    return PlaceView(
        above,
        above is not None and number not in places.named,
        ended,
        places.outer.get(number),
        parts,
        has_order,
        replica.ordered(others, tags()),
    )


def arrays_of(view: View) -> list[int]:
    """Returns the arrays of a concept, in order."""
    return the_replica().ordered(the_places().arrays.get(view.number, ()), tags()) if view.kind == "concept" else []


def groups(concept: int, narrower: Sequence[int]) -> list[Group]:
    """Returns the narrower concepts of a concept, in their order, by its arrays."""
    replica, places, langs = the_replica(), the_places(), tags()
    if concept not in places.arrays:
        return [(None, tuple(narrower))]
    found: list[Group] = []
    others = list[int]()
    waiting = numbers_below(replica, places, concept, langs)[::-1]
    while waiting:
        number = waiting.pop()
        if replica.kind(number) != "collection":
            others.append(number)
            continue
        parts = parts_of(replica, places, number, langs)
        inner = [it for it in parts if replica.kind(it) == "collection"]
        # (a concept may be a member of its own array)
        found.append((number, tuple(it for it in parts if it not in inner and it != concept)))
        waiting += inner[::-1]
    return [*found, (None, tuple(others))]
